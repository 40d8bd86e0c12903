"""Which lines of functions the rows reach: a call that notes it is put at the start of each body, block and arm, and rustc compiles it."""

import os
import re
import shutil
import subprocess

from bodies import Function, lines_of
from checks.crates import folder_of
from mechanics import functions_in, left_lines
from rows import OUT, STAGES, build
from schema import Crate, opening_of
from trial import Stopped

# The variable of the environment that names the file of notes.
NOTES = "TI_REACHED"
NOTER = """
#[cfg(test)]
pub mod reach {
    //! Which places are reached.
    use std::io::Write;
    use std::sync::atomic::{AtomicBool, Ordering};

    static REACHED: [AtomicBool; 16384] = [const { AtomicBool::new(false) }; 16384];

    pub fn reached(place: usize) {
        if !REACHED[place].swap(true, Ordering::Relaxed) {
            let path = std::env::var("TI_REACHED").unwrap();
            let mut file = std::fs::OpenOptions::new().append(true).create(true).open(path).unwrap();
            file.write_all(std::format!("{place}\\n").as_bytes()).unwrap();
        }
    }
}
"""
NOTE, NOTED = "REACHED_PLACE", "crate::kit::reach::reached"
# The crate of the sinks, whose tests have bytes escaped, and what escapes one.
SINKS, ESCAPE = "ti_sink", "octal("
BLOCK = re.compile(r"(?:\b(?:if|else|for|while|loop)\b.*|=>|\|[\w, &()]*\|) \{$")
ARM = re.compile(r"^( *)((?:[^=]|=(?!>))+?) => ([^{].*),$")


def is_whole(text: str) -> bool:
    """Whether each bracket of a text is closed in it."""
    plain = re.sub(r"b?'(?:[^'\\]|\\.)'|\"(?:[^\"\\]|\\.)*\"", "", text)
    return all(plain.count(pair[0]) == plain.count(pair[1]) for pair in ["()", "[]", "{}"])


def noted(crate: str, function: Function, places: list[tuple[str, Function, int]]) -> dict[int, str]:
    """The lines of a function that note a place, by their numbers. The places are added to a list."""
    lines, left = lines_of(crate, function.file), left_lines(crate, function.file)
    opening = opening_of(lines, function)
    assert opening is not None
    found: dict[int, str] = {}

    def call(at: int) -> str:
        places.append((crate, function, at))
        return f"{NOTE}({len(places) - 1});"

    found[opening] = f"{lines[opening]} {call(opening)}"
    for at in range(opening + 1, function.last):
        line = lines[at]
        arm = ARM.match(line)
        if line not in left:
            continue
        if BLOCK.search(line):
            found[at] = f"{line} {call(at)}"
        elif arm and is_whole(arm[2]) and is_whole(arm[3]):
            found[at] = f"{arm[1]}{arm[2]} => {{ {call(at)} {arm[3]} }},"
    return found


def names_of(places: list[tuple[str, Function, int]]) -> list[str]:
    """The names of places: the function and the line's text, with a number if it stands there more than once."""
    found: list[str] = []
    for crate, function, at in places:
        name = f"{crate}/{function.name}: {lines_of(crate, function.file)[at].strip()}"
        number = 1 + sum(other.partition(" #")[0] == name for other in found)
        found.append(name if number == 1 else f"{name} #{number}")
    return found


def escaping() -> list[tuple[str, Function]]:
    """The functions of the sinks that escape a byte, each with its crate."""
    found: list[tuple[str, Function]] = []
    for path in sorted((folder_of(SINKS) / "src").glob("*.rt")):
        file = f"src/{path.name}"
        lines = lines_of(SINKS, file)
        found += [(SINKS, one) for one in functions_in(SINKS, file, True) if any(ESCAPE in line for line in lines[one.first + 1 : one.last])]
    return found


def escapes(crate: str, function: Function, at: int) -> bool:
    """Whether a byte is escaped at a place."""
    return crate == SINKS and any(ESCAPE in line for line in lines_of(crate, function.file)[at + 1 : min(at + 3, function.last)])


def unreached(functions: list[tuple[str, Function]]) -> tuple[list[str], list[str]]:
    """The names of the places of functions that no row reaches, and of those at which the sinks escape a byte of a row, other than of
    their own rows."""
    from own_tests import OF_WORDING

    functions = [*functions, *(one for one in escaping() if one not in functions)]
    shutil.rmtree(OUT / "reach", ignore_errors=True)
    crate = Crate(OUT / "reach")
    places: list[tuple[str, Function, int]] = []
    texts: dict[tuple[str, str], list[str]] = {}
    for name, function in functions:
        own = texts.setdefault((name, function.file), [*lines_of(name, function.file)])
        for at, line in noted(name, function, places).items():
            own[at] = line
    with (crate.folder / "src/kit.rs").open("a") as kit:
        kit.write(NOTER)
    crate.write({place: "\n".join(lines) for place, lines in texts.items()})
    for name, file in texts:
        path = crate.path_of(name, file)
        path.write_text(path.read_text("utf-8").replace(NOTE, NOTED), "utf-8")
    built = build(crate.folder)
    if not built.program:
        raise Stopped(f"the crate with notes does not compile: {built.errors[0]}")
    notes = OUT / "notes"

    def seen(*skipped: str) -> set[int]:
        notes.unlink(missing_ok=True)
        for which in STAGES:
            words = [built.program, *which, *(word for name in (OF_WORDING, *skipped) for word in ("--skip", name)), "-q"]
            subprocess.run(words, env={**os.environ, NOTES: str(notes)}, stdout=subprocess.DEVNULL, check=False)
        return set(map(int, notes.read_text().split())) if notes.exists() else set()

    names, reached, by_others = names_of(places), seen(), seen("sink")
    missed = [name for at, name in enumerate(names) if at not in reached]
    return missed, [name for at, name in enumerate(names) if at in by_others and escapes(*places[at])]
