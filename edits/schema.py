"""Many wrong bodies in one crate for Rust: each function has all of its wrong bodies, and a variable of the environment chooses one.

So the crate is compiled once for all of them. A body becomes a `match` whose arms are the wrong bodies, each under its number, and last
the body as it stands, which runs if no number is given. An edit outside of bodies, or in one that the compiler runs, has no such arm.
"""

import re
import sys
from collections.abc import Iterable
from importlib.machinery import SourceFileLoader
from importlib.util import module_from_spec, spec_from_loader
from pathlib import Path
from types import ModuleType

from bodies import Edit, Function, lines_of
from checks.crates import folder_of
from checks.machine import ROOT

RUST = ROOT / "rust"
# The variable of the environment, and the file that reads it, as a module of the crate's kit.
CHOICE = "TI_EDIT"
CHOOSER = """
#[cfg(test)]
pub mod edits {
    //! Which wrong body runs.
    use std::sync::OnceLock;

    pub fn chosen() -> u32 {
        static CHOSEN: OnceLock<u32> = OnceLock::new();
        *CHOSEN.get_or_init(|| std::env::var("TI_EDIT").ok().and_then(|word| word.parse().ok()).unwrap_or(0))
    }
}
"""
CALL, CALLED = "CHOSEN_EDIT()", "crate::kit::edits::chosen()"
# What ends the first line of each arm, by which the line of an error leads to its edit.
ARM = re.compile(r" *(\d+|_) => \{ // a body$")
# The compiler itself runs a `const fn`, and all bodies of an `impl` type would be of one type.
NO_ARMS = re.compile(r"\bconst fn\b|-> impl\b|-> !")
# The tests name the crate's own folder.
CARGO_TOML = "\n[profile.dev]\ndebug = 0\n\n[workspace]\n"


def maker() -> ModuleType:
    """rust/make as a module."""
    loader = SourceFileLoader("make", str(RUST / "make"))
    spec = spec_from_loader("make", loader)
    assert spec
    module = module_from_spec(spec)
    loader.exec_module(module)
    return module


def opening_of(lines: list[str], function: Function) -> int | None:
    """The line that opens a function's body; none if the body has no lines of its own."""
    head = lines[function.head]
    indent = head[: len(head) - len(head.lstrip())]
    alone = [at for at in range(function.head, function.last) if lines[at] == f"{indent}{{"]
    ended = [at for at in range(function.head, function.last) if lines[at].endswith("{") and lines[at].startswith((head, f"{indent})"))]
    return next(iter(alone + ended), None)


def has_arms(edit: Edit) -> bool:
    """Whether all that an edit changes are lines of bodies that can have arms."""
    if edit.is_outside:
        return False
    bodies = []
    for function in edit.functions:
        lines = lines_of(edit.crate, function.file)
        opening = opening_of(lines, function)
        if opening is None or NO_ARMS.search(" ".join(lines[function.first : opening + 1])):
            return False
        bodies.append((function.file, opening, function.last))
    return all(any(file == own and first < number < last for own, first, last in bodies) for file, number in edit.lines)


def with_arms(lines: list[str], function: Function, arms: Iterable[tuple[int, Edit]]) -> list[str]:
    """The lines of a function's body with its wrong bodies."""
    opening = opening_of(lines, function)
    assert opening is not None
    places = range(opening + 1, function.last)
    indent = lines[function.last][:-1]
    found = [f"{indent}    match {CALL} {{"]
    for number, edit in arms:
        body = [edit.lines.get((function.file, at), lines[at]) for at in places]
        found += [f"{indent}        {number} => {{ // a body", *body, f"{indent}        }}"]
    return [*found, f"{indent}        _ => {{ // a body", *(lines[at] for at in places), f"{indent}        }}", f"{indent}    }}"]


def sources_with(numbered: dict[int, Edit]) -> dict[tuple[str, str], str]:
    """The sources that have these edits as arms, by crate and file."""
    functions: dict[tuple[str, Function], list[tuple[int, Edit]]] = {}
    for number, edit in numbered.items():
        for function in edit.functions:
            functions.setdefault((edit.crate, function), []).append((number, edit))
    bodies: dict[tuple[str, str], dict[int, tuple[int, list[str]]]] = {}
    for (crate, function), arms in functions.items():
        lines = lines_of(crate, function.file)
        opening = opening_of(lines, function)
        assert opening is not None
        bodies.setdefault((crate, function.file), {})[opening] = function.last, with_arms(lines, function, arms)
    return {place: replaced(lines_of(*place), own) for place, own in bodies.items()}


def replaced(lines: list[str], bodies: dict[int, tuple[int, list[str]]]) -> str:
    """A source with other bodies: by the line that opens each, the line that ends it and its new lines."""
    found, at = [], 0
    while at < len(lines):
        found.append(lines[at])
        if at in bodies:
            last, body = bodies[at]
            found += body
            at = last
        else:
            at += 1
    return "\n".join(found)


class Crate:
    """The crate for Rust with its tests, in a folder, of which each file can be made anew."""

    def __init__(self, folder: Path) -> None:
        sys.path.insert(0, str(RUST))
        from own_tests import make_with_tests

        self.make, self.folder = maker(), folder
        make_with_tests(self.make, folder, is_alone=False)
        (folder / "Cargo.toml").open("a").write(CARGO_TOML)
        (folder / ".cargo").mkdir()
        (folder / ".cargo/config.toml").write_text(self.make.DEBIAN)
        (folder / "src/kit.rs").open("a").write(CHOOSER)
        self.changed: set[tuple[str, str]] = set()

    def path_of(self, crate: str, file: str) -> Path:
        """The file that is made of a source."""
        return self.make.made_path(self.name_of(crate), folder_of(crate) / file, self.folder / "src/made")

    def name_of(self, crate: str) -> str:
        return crate.removeprefix("ti_")

    def write(self, texts: dict[tuple[str, str], str]) -> None:
        """Makes the files of these sources, and as they stand those that the last call made."""
        for crate, file in self.changed - set(texts):
            self.write_one(crate, file, "\n".join(lines_of(crate, file)))
        for (crate, file), text in texts.items():
            self.write_one(crate, file, text)
        self.changed = set(texts)

    def write_one(self, crate: str, file: str, text: str) -> None:
        made = self.make.made_text(self.name_of(crate), folder_of(crate) / file, text)
        self.path_of(crate, file).write_text(made.replace(CALL, CALLED), "utf-8")

    def edit_at(self, file: str, line: int) -> int | None:
        """The number of the edit in whose arm a line of a made file lies."""
        lines = (self.folder / file).read_text("utf-8").split("\n")[:line]
        found = next((arm[1] for one in reversed(lines) if (arm := ARM.match(one))), "_")
        return None if found == "_" else int(found)
