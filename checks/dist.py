"""What lies in dist/: the files, the record of what they were made of, and the sums to hold them against."""

import re
import subprocess
import sys
from dataclasses import dataclass, field
from hashlib import sha256
from pathlib import Path

from checks.kit import kit_by
from checks.machine import DIST

# Each proved file of dist/ with the crate of which it is made.
FILES = {"ti": "ti", "libti.a": "ti_c", "libti.so": "ti_c"}
# Those for Linux on aarch64, which a dist/ may lack.
OTHER_FILES = {f"aarch64/{name}": crate for name, crate in FILES.items()}

# The page and the compiled modules for Python, which are not proved. `dist/sources page` and `dist/sources module` sum up what they are
# made of.
PAGE = "page.html"
MODULE, OTHER_MODULE = "_ti.abi3.so", "aarch64/_ti.abi3.so"
ROW = re.compile(r"file (\S+) ([0-9a-f]{64}) sources ([0-9a-f]{64})")


@dataclass
class Record:
    """The record: the kit's line, what linked the shared object, whose headers the module for Python has, what made the page, and for
    each file its sum and that of its sources."""

    kit: str = ""
    linkers: str = ""
    headers: str = ""
    page_tools: str = ""
    files: dict[str, tuple[str, str]] = field(default_factory=dict)
    # Whether the file is there, and whether it was cut short.
    is_there: bool = False
    is_cut: bool = False


def read_record(folder: Path = DIST) -> Record:
    """The record of a folder, which is empty if there is none."""
    path = folder / "record"
    text = path.read_text() if path.exists() else ""
    record = Record(is_there=path.exists())
    for line in text.splitlines():
        word, _, rest = line.partition(" ")
        if word == "kit":
            record.kit = rest
        elif word == "gcc":
            record.linkers = rest
        elif word == "python":
            record.headers = rest
        elif word == "page":
            record.page_tools = rest
        elif found := ROW.fullmatch(line):
            record.files[found[1]] = found[2], found[3]
    record.is_cut = record.is_there and not (text.endswith("\n") and kit_by(record.kit) and record.files.keys() >= FILES.keys())
    return record


def sum_of(path: Path) -> str:
    return sha256(path.read_bytes()).hexdigest() if path.exists() else "none"


def call(function: str, *words: str | Path) -> "subprocess.CompletedProcess[str]":
    """Calls a function of dist/common.sh."""
    script = 'root=$1; shift; . "$root/dist/common.sh"; "$@"'
    return subprocess.run(["bash", "-c", script, "bash", DIST.parent, function, *words], stdout=subprocess.PIPE, text=True, check=False)


def compile_module(archive: Path, machine: str, made: Path) -> str | None:
    """Compiles the module for Python, and returns the version of its headers; None if they or the compiler are not here."""
    words = [sys.executable, "-B", DIST.parent / "python/backend.py", "--compile", archive, machine, made]
    done = subprocess.run(words, stdout=subprocess.PIPE, text=True, check=False)
    return done.stdout.strip() if done.returncode == 0 else None


def sum_of_sources(crate: str) -> str:
    """The sum over the sources of a crate and of all that it stands on, or of the module for Python or the page."""
    return subprocess.run([DIST / "sources", crate], stdout=subprocess.PIPE, text=True, check=True).stdout.strip()
