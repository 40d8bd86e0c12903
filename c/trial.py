"""Trials of what is installed somewhere: what the checks of ./install and ./package share."""

import os
import re
import subprocess
import sys
from dataclasses import dataclass
from pathlib import Path

from checks.machine import ROOT, is_there, package_of
from checks.tally import Tally

ENVIRONMENT = {name: value for name, value in os.environ.items() if name not in ("DESTDIR", "LIBDIR", "PREFIX", "PYTHONDIR")}
TPUT = ROOT / "examples/tput.c"
CALL = (ROOT / "examples/linux", "cup", "4", "9")
CUP = "\x1b[5;10H"
STRICT = ["-std=c11", "-Wall", "-Wextra", "-Wpedantic", "-Werror"]
DOCTEST = "import doctest, sys, mogyarsu; sys.exit(doctest.testmod(mogyarsu).failed)"


@dataclass(frozen=True)
class Ran:
    """What came of a command."""

    status: int
    output: str
    faults: str


def run(*words: str | Path, folder: Path = ROOT, **more: str | Path) -> Ran:
    """Runs a command in a folder, with more words in its environment."""
    settings = {**ENVIRONMENT, **{name: str(value) for name, value in more.items()}}
    done = subprocess.run(words, cwd=folder, env=settings, capture_output=True, text=True, errors="replace", check=False)
    return Ran(done.returncode, done.stdout.rstrip("\n"), done.stderr.rstrip("\n"))


def program_of_manual() -> str:
    """The whole program in ti(3)."""
    text = (ROOT / "docs/ti.3").read_text().split("A whole program", 1)[1]
    text = text.split(".EX\n", 1)[1].split(".EE\n", 1)[0]
    return re.sub(r"^\.PP$", "", text, flags=re.M).replace("\\e", "\\")


class Trial:
    """A prefix below which everything was put, the folders of the library and of the module there, and a folder for what is
    made."""

    def __init__(self, tally: Tally, scratch: Path, prefix: Path, library: Path, module: Path) -> None:
        self.tally, self.scratch, self.prefix, self.library, self.module = tally, scratch, prefix, library, module

    def tell(self, name: str, holds: bool, ran: Ran) -> None:
        """Counts a step, and prints what its command wrote if it failed."""
        self.tally.tell(holds, f"{name}: status {ran.status}\n{ran.output}\n{ran.faults}")

    def goes_well(self, name: str, *words: str | Path, folder: Path = ROOT, **more: str | Path) -> None:
        """A command that must end with the status 0."""
        ran = run(*words, folder=folder, **more)
        self.tell(name, ran.status == 0, ran)

    def writes(self, name: str, wanted: str, *words: str | Path, **more: str | Path) -> None:
        """A command that must write this line."""
        ran = run(*words, **more)
        self.tell(name, ran.output == wanted, ran)

    def refuses(self, name: str, status: int, wanted: str, *words: str | Path, **more: str | Path) -> None:
        """A command that must end with a status, and write nothing but this line on standard error."""
        ran = run(*words, **more)
        self.tell(name, (ran.status, ran.output, ran.faults) == (status, "", wanted), ran)

    def can_try(self, what: str, command: str) -> bool:
        """Whether a command is there and can be called. If not, what needs it is left out."""
        holds = is_there(command) and run(command, "--version").status == 0
        if not holds:
            self.tally.left_out(what, package_of(command))
        return holds

    def flags(self, name: str) -> list[str]:
        """The flags of a line of ti.pc, for the folder below which all was put."""
        text = (self.library / "pkgconfig/ti.pc").read_text()
        text = text.replace("${libdir}", str(self.library)).replace("${includedir}", str(self.prefix / "include"))
        return next(line for line in text.splitlines() if line.startswith(f"{name}: ")).split()[1:]

    def check_c(self) -> None:
        """The example in C, linked in both ways."""
        static, shared = (self.scratch / name for name in ["static", "shared"])
        compiler = ["gcc", *STRICT, TPUT, *self.flags("Cflags"), "-o"]
        self.goes_well("static library", *compiler, static, self.library / "libti.a")
        self.writes("static tput", CUP, static, *CALL)
        self.refuses("tput of a bad name", 4, "tput: nosuch: NotNamed", static, CALL[0], "nosuch")
        self.refuses("tput of a word for a number", 2, "tput: parameter 1 of setaf: no 32-bit number", static, CALL[0], "setaf", "red")
        self.refuses("tput of no file", 3, "tput: nosuch: No such file or directory", static, "nosuch", "cup")
        self.refuses("tput of one word", 2, "tput: call it as: tput ENTRY-FILE NAME [PARAM..]", static, "cup")
        (self.scratch / "manual.c").write_text(program_of_manual())
        words = [self.scratch / "manual.c" if word == TPUT else word for word in compiler]
        self.goes_well("the program of ti(3)", *words, self.scratch / "manual", self.library / "libti.a")
        self.writes("the program of ti(3) runs", CUP, self.scratch / "manual", CALL[0])
        self.goes_well("shared library", *compiler, shared, *self.flags("Libs"))
        self.writes("shared tput", CUP, shared, *CALL, LD_LIBRARY_PATH=self.library)

    def check_hardened(self) -> None:
        """The shared library exports the calls alone, by a version, and all of it is bound and made read-only at the start."""
        library = self.library / "libti.so"
        if self.can_try("how the shared library is linked", "readelf"):
            ran = run("readelf", "--wide", "--dynamic", "--program-headers", library)
            self.tell("bound at the start", "BIND_NOW" in ran.output and "GNU_RELRO" in ran.output, ran)
            listed = run("nm", "-D", "--defined-only", library)
            names = [line.split()[-1] for line in listed.output.splitlines() if " A " not in line]
            self.tell("calls alone", bool(names) and all("@@TI_" in name and name.startswith("ti_") for name in names), listed)

    def check_python(self) -> None:
        """The module for Python: the examples in it, its own test, and the example that uses it."""
        if self.can_try("the module for Python", "python3"):
            places = {"PYTHONPATH": self.module, "LD_LIBRARY_PATH": self.library, "PYTHONDONTWRITEBYTECODE": "1"}
            taken = "_ti" if (self.module / "mogyarsu/_ti.abi3.so").exists() else "_by_ctypes"
            self.writes("the module that is taken", f"mogyarsu.{taken}", sys.executable, "-c", "import mogyarsu; print(mogyarsu.expand.__module__)", **places)
            self.goes_well("examples of the module", sys.executable, "-c", DOCTEST, **places)
            self.goes_well("test of the module", sys.executable, "python/test.py", **places)
            self.writes("tput in Python", CUP, sys.executable, "examples/tput.py", *CALL, **places)
            self.refuses("tput.py of a bad name", 4, "tput.py: nosuch: no text has this name", sys.executable,
                         "examples/tput.py", CALL[0], "nosuch", **places)
            self.refuses("tput.py of a word for a number", 2, "tput.py: parameter 1 of setaf: no 32-bit number", sys.executable,
                         "examples/tput.py", CALL[0], "setaf", "red", **places)
