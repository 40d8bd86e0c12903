#!/usr/bin/env python3
"""The last table of PROOFS.md: for each function of its facts the lemma files that its proof rests on.

    docs/lemmas.py

writes it between two comments. These are the files that its proof cites, or that of a function which it calls in its crate, or that
of one which this calls, and so on. A proof cites a file by `use` in the folder of its function, or by `using` above the function.
Calls are found by name, so a file may be listed that is cited by another function of the same name."""

import re
import sys
from functools import cache
from pathlib import Path

sys.dont_write_bytecode = True
sys.path.insert(0, str(Path(__file__).resolve().parent.parent))
from checks.machine import ROOT
from tables import CODE, TESTS, rows

PAGE = ROOT / "docs/PROOFS.md"
START, END = "<!-- made by docs/lemmas.py -->\n", "<!-- end of what docs/lemmas.py made -->\n"
FUNCTION = re.compile(r'\s*(pub )?(?:pub\([a-z]+\) )?(?:const )?(?:extern "C" )?fn (\w+)')
CALLED = re.compile(r"\b(\w+)(?:::<[^()]*?>)?\(")
CITED = re.compile(r"(?m)^use Rattle\.(ti_\w+)\.proofs\.(\w+Lemmas)\b")


def owned(parts: list[str]) -> str:
    """A function's name, with its type, or with `laws`."""
    return "::".join(parts[-2:] if len(parts) > 1 and (parts[-2][0].isupper() or parts[-2] == "laws") else parts[-1:])


class Crate:
    """The functions of a crate: the names that each calls, the lemma files that its proof cites, and whether it is public."""

    def __init__(self, name: str) -> None:
        self.name = name
        self.calls: dict[str, set[str]] = {}
        self.cited: dict[str, set[str]] = {}
        self.public: set[str] = set()
        top = ROOT / "crates" / name
        for path in sorted(top.glob("src/**/*.rt")):
            if "tests" not in path.parts:
                self.read(path)
        for path in sorted(top.glob("proofs/**/*.antt")):
            parts = list(path.relative_to(top / "proofs").parts[:-1])
            if parts:
                for place in CITED.findall(path.read_text()):
                    self.cite(owned(parts), *place)

    def cite(self, function: str, crate: str, file: str) -> None:
        self.cited.setdefault(function, set()).add(file if crate in ("crate", self.name) else f"{crate}::{file}")

    def read(self, path: Path) -> None:
        """Adds the functions of a source."""
        outside = "laws" if path.stem == "laws" else ""
        owner, name, cited = outside, "", set()
        for line in path.read_text().splitlines():
            implemented = re.match(r"impl(?:<[^>]*>)? (?:.* for )?(\w+)", line)
            if implemented or line == "}":
                owner = implemented[1] if implemented else outside
            cited.update(re.findall(r"\b(\w+)::proofs::(\w+Lemmas)\b", line))
            if function := FUNCTION.match(line):
                name = owned([part for part in [owner, function[2]] if part])
                self.calls.setdefault(name, set())
                if function[1]:
                    self.public.add(name)
                for place in cited:
                    self.cite(name, *place)
                cited = set()
            elif name and not re.match(r"\s*(//|ensures|requires|ghost)", line):
                self.calls[name].update(CALLED.findall(line))

    def rests_on(self, function: str) -> list[str]:
        """The lemma files that the proof of a function rests on."""
        reached, ahead = {function}, [function]
        while ahead:
            called = self.calls.get(ahead.pop(), set())
            more = {name for name in self.calls if name.split("::")[-1] in called} - reached
            reached |= more
            ahead += more
        return sorted(set().union(*(self.cited.get(name, set()) for name in reached)))


@cache
def crates() -> list[Crate]:
    return [Crate(path.name) for path in sorted(ROOT.glob("crates/ti_*")) if path.name not in TESTS]


def functions_of_facts() -> list[str]:
    """The functions that the facts name, each once, in their order."""
    cells = [cells[1] for cells in list(rows(PAGE.read_text(), "The facts"))[1:]]
    return list(dict.fromkeys(name for cell in cells for name in CODE.findall(re.sub(r"\([^)]*\)", "", cell))))


def made() -> str:
    """The table: a row for each function that rests on a lemma file. Of three files or more that an earlier row has it names that row."""
    text = "| Function | Lemma files |\n|---|---|\n"
    above: dict[str, list[str]] = {}
    for function in functions_of_facts():
        files = [file for crate in crates() if function in crate.public for file in crate.rests_on(function)]
        within = [name for name, others in above.items() if len(others) > 2 and set(others) <= set(files)]
        named = max(within, key=lambda name: len(above[name]), default="")
        cells = [f"those of `{named}`"] if named else []
        cells += [f"`{file}`" for file in files if file not in above.get(named, [])]
        if files:
            text += f"| `{function}` | {', '.join(cells)} |\n"
            above[function] = files
    return text


def shown() -> str:
    """What the page has between the two comments."""
    return PAGE.read_text().split(START, 1)[1].split(END, 1)[0].strip("\n") + "\n"


def main() -> None:
    before, rest = PAGE.read_text().split(START, 1)
    PAGE.write_text(before + START + "\n" + made() + "\n" + END + rest.split(END, 1)[1])


if __name__ == "__main__":
    main()
