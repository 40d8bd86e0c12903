"""The crates of crates.txt: which stands on which, what is made of each, and with which words the prover is called for it."""

import re
from collections.abc import Iterable
from functools import lru_cache
from pathlib import Path

from checks.machine import ROOT

LIST = ROOT / "crates.txt"


def crates_of(text: str) -> dict[str, tuple[list[str], bool]]:
    """The crates by name: the libraries that each names, and whether it is a static library."""
    lines = re.findall(r"^(\w+)( staticlib)?:(.*)$", text, re.M)
    return {name: (words.split(), bool(static)) for name, static, words in lines}


CRATES = crates_of(LIST.read_text())


def folder_of(crate: str) -> Path:
    return ROOT / "crates" / crate


def named_by(crate: str) -> list[str]:
    """The crates of this repository that a crate names."""
    return [name for name in CRATES[crate][0] if name in CRATES]


@lru_cache(None)
def below(crate: str) -> list[str]:
    """All crates on which a crate stands, each after those that it names."""
    found: dict[str, None] = {}
    for name in named_by(crate):
        found.update(dict.fromkeys([*below(name), name]))
    return list(found)


def is_static(crate: str) -> bool:
    return CRATES[crate][1]


def is_program(crate: str) -> bool:
    return (folder_of(crate) / "src/main.rt").exists()


def made_of(crate: str) -> Path:
    """What is made of a crate: a program, an archive, or the library that the proofs of other crates read."""
    out = folder_of(crate) / "out"
    if is_program(crate):
        return out / crate
    return out / f"lib{crate}.a" if is_static(crate) else out / "rlib" / f"{crate}.rlib"


def sources_of(crate: str) -> list[Path]:
    return [path for part in ["src", "specs", "proofs"] for path in (folder_of(crate) / part).rglob("*") if path.is_file()]


def is_due(crate: str, read: Iterable[Path]) -> bool:
    """Whether nothing was made of a crate yet, or what is read for it is newer."""
    made = made_of(crate)
    if not made.exists():
        return True
    when = made.stat().st_mtime
    return any(path.exists() and path.stat().st_mtime > when for path in [LIST, *sources_of(crate), *read])


def due_for(goal: str) -> list[str]:
    """The crates to prove, each after those that it names: none if the goal is newer than all sources."""
    if not is_due(goal, [path for name in below(goal) for path in sources_of(name)]):
        return []
    due: list[str] = []
    for name in below(goal):
        if any(other in due for other in named_by(name)) or is_due(name, map(made_of, named_by(name))):
            due.append(name)
    return [*due, goal]


def words_for(crate: str, kit: Path, jobs: int) -> list[str]:
    """The words that tell `rattle` a crate and what it reads of others."""
    words: list[str | Path] = ["--crate-name", crate, "src/main.rt" if is_program(crate) else "src/lib.rt"]
    for name in ["std", *CRATES[crate][0]]:
        library = made_of(name) if name in CRATES else kit / "rlibs" / f"{name}.rlib"
        words += ["--extern", f"{name}={library}"]
    for place in [kit / "rlibs", *(made_of(name).parent for name in below(crate))]:
        words += ["-L", f"dependency={place}"]
    words += ["--antt-project", kit / "rattle/logic/antt-project.json", "--logic-built", kit / "logic_built"]
    words += ["--links", f"{crate}=", "--jobs", str(jobs), *(["--crate-type", "staticlib"] if is_static(crate) else [])]
    return [str(word) for word in words]
