"""The compilers of C and C++ that the checks try, and the options that they share."""

import subprocess
from dataclasses import dataclass
from pathlib import Path

from checks.machine import is_there

STRICT = ["-Wall", "-Wextra", "-Wpedantic", "-Werror"]
SANITIZED = ["-std=c99", "-g", "-fsanitize=address,undefined", "-fno-sanitize-recover=all"]


@dataclass(frozen=True)
class Compiler:
    """A compiler, the languages in which the header must compile, and the options with which the test must run."""

    command: str
    suffix: str
    standards: tuple[str, ...]
    options: tuple[str, ...]
    # Debian's package of its sanitizers, if the test runs under them.
    sanitizers: str | None = None


C, CXX = (".c", ("-std=c89", "-std=c99", "-std=c11"), ("-std=c11", "-O2")), (".cc", ("-std=c++98", "-std=c++17"), ("-std=c++17", "-x", "c++"))
COMPILERS = [
    Compiler("gcc", *C, sanitizers="gcc"),
    Compiler("clang", *C, sanitizers="libclang-rt-dev"),
    Compiler("g++", *CXX),
    Compiler("clang++", *CXX),
]


def compiler_of_c() -> str | None:
    """The first compiler of C that is there."""
    return next((compiler.command for compiler in COMPILERS if compiler.suffix == ".c" and is_there(compiler.command)), None)


def has_sanitizers(command: str, scratch: Path) -> bool:
    """Whether a compiler can build a program with the sanitizers."""
    empty = scratch / "empty.c"
    empty.write_text("int main(void) { return 0; }\n")
    words = [command, "-fsanitize=address,undefined", empty, "-o", empty.with_suffix("")]
    return subprocess.run(words, stderr=subprocess.DEVNULL, check=False).returncode == 0
