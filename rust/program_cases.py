"""The calls of `ti` by which rust/check compares the program that cargo builds with the proved one, beside those of cases.py: all
entries of this machine, the commands of the upper crates on made input, and words of which `clap` says something. There the two
may differ by the wording of their versions of `clap` alone: WORDINGS has each pair."""

import random
import re
from collections import Counter
from collections.abc import Iterator
from pathlib import Path

from cases import Case, NAMES, a_capability, an_entry, model, parameters
from checks.machine import ENTRY_FOLDERS, ROOT, entry_files

COMMANDS = ["show", "check", "lint", "get", "diff", "expand", "convert", "cap", "trace"]
# What follows a command: help, and what is mostly no command line.
TAILS = [
    "--help", "-h", "-h --json", "--hlep", "--jsno", "--json --json", "--json=1", "-q", "-e -x", "-xe", "--hex --escape", "--color",
    "--color red", "--color=always --color=never", "--rate", "--rate -1", "--rate 1000001", "--rate=", "--rate 5x", "--lines 65536",
    "--wide --narrow", "--entry", "--of", "--of cup --source", "--nosuch=5", "-", "- -", "a b c", "cup x", "-- --json", "n:1 -5",
    "cup n:1 n:2 n:3 n:4 n:5 n:6 n:7 n:8 n:9 n:10", "--expand", "--all", "--all-names --json", "--force --wide", "\x1b[2J", "--\x1bx",
    "é", "--rate é", "",
]
WORDS = [
    "", "--help", "-h", "--version", "-V", "help", "help help", "help show", "help nosuch", "help show get", "frob", "shwo", "lnit -q",
    "--frob", "-- show", "show show", "SHOW", "--version show", "-Vh", "\x1b[2J",
]
# What `ti` is called with for each of some entries.
OF_AN_ENTRY = [
    "convert", "convert --wide", "get cup 4 9", "get cols", "get nosuch", "get kcuu -e", "expand sgr n:1 n:0 n:1",
    "trace --of setaf --json 9",
]
# What each pair is called, how Debian's clap 4.0 says it, and how the proved program does.
WORDINGS = [
    ("help of help", r"Print help information \(use `--help` for more detail\)", "Print help (see more with '--help')"),
    ("help of help", r"Print help information \(use `-h` for a summary\)", "Print help (see a summary with '-h')"),
    ("help of help", r"Print help information$", "Print help"),
    ("help of --version", r"Print version information$", "Print version"),
    ("where to look", r"^For more information try '--help'$", "For more information, try '--help'."),
    ("unknown command", r"^error: The subcommand '(.*)' wasn't recognized$", r"error: unrecognized subcommand '\1'"),
    (
        "unknown argument", r"^error: Found argument '(.*)' which wasn't expected, or isn't valid in this context$",
        r"error: unexpected argument '\1' found",
    ),
    (
        "hint of a value", r"^  If you tried to supply '(.*)' as a value rather than a flag, use '-- (.*)'$",
        r"  tip: to pass '\1' as a value, use '-- \2'",
    ),
    ("hint of an option", r"^  Did you mean '(--.*)'\?$", r"  tip: a similar argument exists: '\1'"),
    (
        "argument given twice", r"^error: The argument '(.*)' was provided more than once, but cannot be used multiple times$",
        r"error: the argument '\1' cannot be used multiple times",
    ),
    ("missing argument", r"^error: The following required", "error: the following required"),
    ("wrong value", r"^error: Invalid value", "error: invalid value"),
    (
        "missing value", r"^error: The argument '(.*)' requires a value but none was supplied$",
        r"error: a value is required for '\1' but none was supplied",
    ),
    (
        "value of a flag", r"^error: The value '(.*)' was provided to '(.*)' but it wasn't expecting any more values$",
        r"error: unexpected value '\1' for '\2' found; no more were expected",
    ),
]


# A paragraph with a hint, which one version gives and another does not.
HINT = re.compile(r"\n\n  (?:tip:|Did you mean|If you) [^\n]*")


def other_wordings(proved: str, line: str) -> Counter[str] | None:
    """How many places of each kind differ if two programs give these lines, which must differ by wording alone; else None."""
    found: Counter[str] = Counter()
    (status, *due), (other, *texts) = proved.split(" "), line.split(" ")
    for wanted, text in zip(map(text_of, due), map(text_of, texts)):
        for kind, theirs, ours in WORDINGS:
            text, count = re.subn(theirs, ours, text, flags=re.M)
            found[kind] += count
        if text != wanted:
            wanted, text = HINT.sub("", wanted), HINT.sub("", text)
            found["another hint"] += 1
        if status != other or text != wanted:
            return None
    return +found


def text_of(digits: str) -> str:
    return bytes.fromhex(digits).decode(errors="surrogateescape")


def words_of(line: str) -> tuple[str, ...]:
    return tuple(line.split(" ")) if line else ()


def refused_cases() -> Iterator[Case]:
    """Help, and words that are mostly no command line."""
    for line in WORDS:
        yield Case(words_of(line), b"")
    for command in COMMANDS:
        for tail in TAILS:
            yield Case((command, *words_of(tail)), b"")


def stored_case() -> Case:
    """The stored run, which `rt ci` compares."""
    run = ROOT / "crates/ti"
    return Case(tuple((run / "args").read_text().splitlines()), (run / "stdin").read_bytes())


def folder_cases() -> Iterator[Case]:
    """All entries of this machine, a folder at a time."""
    forms = ["show --json", "show --escape", "show --all-names", "check", "check --json", "check --faults", "lint", "lint --json", "lint --all --json", "lint --untrusted"]
    for folder in {folder.resolve(): folder for folder in ENTRY_FOLDERS if folder.is_dir()}.values():
        for form in forms:
            yield Case((*form.split(), str(folder)), b"")


def entry_cases(every: int) -> Iterator[Case]:
    """Each of so many entries of this machine by all commands that take one."""
    files = entry_files()[::every]
    for file, other in zip(files, files[1:] + files[:1]):
        data = file.read_bytes()
        for line in OF_AN_ENTRY:
            yield Case(words_of(line), data)
        yield from [Case((*words_of(form), str(file), str(other)), b"") for form in ["diff", "diff --json --expand"]]


def upper_cases(rounds: int, seed: int) -> Iterator[Case]:
    """Calls of the commands of the upper crates, on what is made as in cases.py."""
    made, installed = model(), entry_files()
    random.seed(seed)
    for _ in range(rounds):
        entry, name = an_entry(made, installed), random.choice(NAMES)
        yield Case(("lint", *random.choice([(), ("--json",), ("--all",), ("--all", "--json"), ("--untrusted",), ("--summary",), ("--color=always",)])), entry)
        yield Case((random.choice(["show", "check"]), random.choice(["--json", "--escape"])), entry)
        yield Case(("get", "-e", "--", name, *parameters(made)), entry)
        yield Case(("trace", random.choice(["--json", "--escape", "--color=always"]), "--of", name, "--", *parameters(made)), entry)
        yield Case(("trace", random.choice(["--json", "--escape"]), "--", *parameters(made)), a_capability(made))
        yield Case(("cap", "--source", "-e", "--", *parameters(made)), a_capability(made))


def reads_no_file(case: Case, due: str) -> bool:
    """Whether a call reads standard input alone, so that it runs where there are no files, or other names for them and for faults."""
    return not any(word.startswith("/") for word in case.words) and b"No such file".hex() not in due
