"""The tables of a page, and whether the clauses that those of PROOFS.md and of the READMEs name are in the code."""

import re
from collections.abc import Callable, Iterator
from pathlib import Path

from checks.machine import ROOT

Tell = Callable[[bool, str], None]
# Crates of tests, whose READMEs have no table of clauses.
TESTS = [
    "ti_fixtures",
    "ti_entry_tests",
    "ti_draft_tests",
    "ti_capability_tests",
    "ti_notation_tests",
    "ti_report_tests",
    "ti_request_tests",
    "ti_command_tests",
]
# A crate that shows the items of the crates below it under its own name.
LAYERS = {"ti_entry": ["ti_layout", "ti_draft"]}
CODE = re.compile(r"`([^`]+)`")


def sources(crate: str) -> Iterator[Path]:
    """The files of a crate's code, with those of its layers."""
    for name in [crate] + LAYERS.get(crate, []):
        yield from sorted((ROOT / "crates" / name / "src").rglob("*.rt"))


def records() -> dict[str, set[str]]:
    """For each record of the definitions the names of its fields."""
    found: dict[str, set[str]] = {}
    for path in sorted(ROOT.glob("crates/*/specs/**/*.antt")):
        for name, body in re.findall(r"(?m)^pub record (\w+).*((?:\n  .*)*)", path.read_text()):
            found.setdefault(name, set()).update(re.findall(r"(?m)^  pub (\w+) :", body))
    return found


RECORDS = records()


def clauses(crate: str) -> dict[str, set[str]]:
    """For each function of a crate the names of its clauses, and of the fields of the records that the clauses cite; a clause
    without a name is ''."""
    found: dict[str, set[str]] = {}
    for path in sources(crate):
        function, in_clause = None, False
        for line in path.read_text().splitlines():
            start = re.match(r"\s*(?:pub(?:\([a-z]+\))? )?(?:const )?(?:extern \"C\" )?fn (\w+)", line)
            if start:
                function = start.group(1)
                found.setdefault(function, set())
            clause = re.match(r"\s*ensures\s+(\w*)\s*\{", line)
            if clause and function:
                found[function].add(clause.group(1))
            in_clause = bool(clause) or in_clause and re.match(r"\s*(requires|\{)", line) is None
            if function and in_clause:
                found[function].update(*(RECORDS.get(word, ()) for word in re.findall(r"\w+", line)))
    return found


def exported(crate: str) -> set[str]:
    """What the root file of a crate shows to other crates."""
    text = (ROOT / "crates" / crate / "src/lib.rt").read_text()
    shown = " ".join(re.findall(r"(?s)^pub use (?:\w+::)*(.*?);", text, re.M))
    return set(re.findall(r"\w+", shown)) | ({"laws"} if "pub mod laws;" in text else set())


def public_clauses(crate: str) -> Iterator[tuple[str, str]]:
    """The named clauses of the functions that other crates can call, and of the methods of the types that they see."""
    shown = exported(crate)
    for path in sorted((ROOT / "crates" / crate / "src").rglob("*.rt")):
        if "tests" in path.parts:
            continue
        owner, function = None, None
        for line in path.read_text().splitlines():
            start = re.match(r"impl(?:<[^>]*>)? (?!.* for )(\w+)", line)
            owner = start.group(1) if start else None if line == "}" else owner
            start = re.match(r"\s*(pub(?:\([a-z]+\))? )?(?:const )?(?:extern \"C\" )?fn (\w+)", line)
            if start:
                seen = owner or ("laws" if path.stem == "laws" else start.group(2))
                function = start.group(2) if start.group(1) == "pub " and seen in shown else None
            clause = re.match(r"\s*ensures\s+(\w+)\s*\{", line)
            if clause and function:
                yield function, clause.group(1)


def cells_of(line: str) -> list[str]:
    """The cells of a line of a table."""
    return [cell.strip() for cell in line.strip("|").split("|")]


def rows(text: str, heading: str) -> Iterator[list[str]]:
    """The rows of the tables under a heading, each as a list of cells."""
    part = re.split(rf"(?m)^#+ {re.escape(heading)}$", text)[1]
    part = re.split(r"(?m)^#", part)[0]
    for line in part.splitlines():
        if line.startswith("|") and not line.startswith("|---"):
            yield cells_of(line)


def check_tables(tell: Tell) -> None:
    """Each function and clause of the table in a crate's README is in the crate, and each named clause of a public function is in
    the table."""
    for path in sorted(ROOT.glob("crates/*/README.md")):
        crate = path.parent.name
        if crate in TESTS:
            continue
        known, functions = clauses(crate), []
        listed: dict[str, set[str]] = {}
        for cells in list(rows(path.read_text(), "What is proved"))[1:]:
            named = [word.split("::")[-1] for word in CODE.findall(cells[0])]
            functions = named or functions
            for function in functions:
                listed.setdefault(function, set()).update(CODE.findall(cells[1]))
                tell(function in known, f"{crate}/README.md: no function {function}")
            for clause in CODE.findall(cells[1]):
                tell(
                    any(clause in known.get(function, ()) for function in functions),
                    f"{crate}/README.md: no clause {clause} at {functions}",
                )
        for function, clause in public_clauses(crate):
            tell(clause in listed.get(function, ()), f"{crate}/README.md: the clause {clause} of {function} is not listed")


def check_headline(text: str, heading: str, tell: Tell) -> None:
    """Each function that the table of PROOFS.md names is in the code, and each clause is one of the functions before it."""
    known: dict[str, set[str]] = {}
    for crate in sorted(ROOT.glob("crates/ti_*")):
        for function, names in clauses(crate.name).items():
            known.setdefault(function, set()).update(names)
    for cells in list(rows(text, heading))[1:]:
        for function in CODE.findall(re.sub(r"\([^)]*\)", "", cells[1])):
            tell(function.split("::")[-1] in known, f"PROOFS.md: no function {function}")
        for functions, names in re.findall(r"((?:`[\w:]+`(?:, )?)+) \(([^)]*)\)", cells[1]):
            for function in CODE.findall(functions):
                for clause in CODE.findall(names):
                    holds = clause in known.get(function.split("::")[-1], ())
                    tell(holds, f"PROOFS.md: no clause {clause} at {function}")
