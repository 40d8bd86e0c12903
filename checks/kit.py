"""The kit of Rattle whose `rt` is on the path: its folder, its name, and its logic.

What a proof is and which terms the prover takes is the logic, which kits of several names share. So a verdict is named by the logic;
the name of a kit says only how far its search goes.
"""

import os
import re
import subprocess
import sys
from dataclasses import dataclass
from functools import cache
from pathlib import Path

LINE = re.compile(r"(\S+) logic ([0-9a-f]{8,})")


@dataclass(frozen=True)
class Kit:
    """The name of a kit, and the sum of its logic."""

    name: str
    logic: str

    def __str__(self) -> str:
        return f"{self.name} logic {self.logic}"


def kit_by(line: str) -> Kit | None:
    """The kit of a line such as `rt version` writes; None if it is no such line."""
    found = LINE.fullmatch(line.strip())
    return Kit(found[1], found[2]) if found else None


def commands_on_the_path(name: str) -> list[Path]:
    """The files that a name may mean, the first of which is run. Links to one file count once."""
    found = (Path(folder) / name for folder in os.environ.get("PATH", os.defpath).split(os.pathsep) if folder)
    return list({path.resolve(): path for path in reversed([*found]) if os.access(path, os.X_OK) and path.is_file()}.values())[::-1]


def said_by(rt: str | Path, word: str) -> str:
    """What an `rt` writes for a word; nothing if that fails."""
    done = subprocess.run([rt, word], stdin=subprocess.DEVNULL, capture_output=True, text=True, check=False)
    return done.stdout.strip() if done.returncode == 0 else ""


@cache
def rt_here() -> Path:
    """The `rt` that is used, the first on the path. If the one of another kit is there too, a line says that it is not used."""
    there = commands_on_the_path("rt")
    if not there:
        sys.exit("prove: there is no rt on the path")
    for other in there[1:]:
        if said_by(other, "version") != said_by(there[0], "version"):
            print(f"prove: two kits are on the path: {there[0]} is used, and {other} is not", file=sys.stderr, flush=True)
    return there[0]


@cache
def kit_folder() -> Path:
    """The folder of the kit whose `rt` is on the path."""
    page = Path(said_by(rt_here(), "doc"))
    return page.parent if page.is_file() else sys.exit(f"prove: {rt_here()} names no kit")


@cache
def kit_here() -> Kit:
    """The kit whose `rt` is on the path."""
    kit = kit_by(said_by(rt_here(), "version"))
    return kit or sys.exit(f"prove: {rt_here()} names no kit and its logic")
