"""The record of refused wrong bodies, edits/record.tsv, and which edits are tried by it.

A line has the name of an edit, the sum of what its verdict rests on, as it was refused, and the name of the kit that refused it; then
`in place` if it was tried in its place and not in a copy. The sum covers the kit's logic, whatever its name, and the scripts that
judge too. A line with another sum says nothing, and of two lines for one edit none counts, so that a merge may keep the lines of
both sides. The line `all` has the version at which all were tried, and the kit; `edits/try --all`, or `--joined` of its parts, alone
changes it.

A refusal says that the search found no proof, and a kit of another name may search further. So of the lines of other kits more are
tried again.

A refusal by rows has a line of its own, with `rows` in place of the kit. Its sum is that of the edit, of all sources that the rows run
through, of the rows, and of what makes the crate for Rust of them.
"""

from collections import Counter
from dataclasses import dataclass, field
from functools import lru_cache
from hashlib import sha256
from inspect import getsource
from pathlib import Path

from bodies import HERE, Edit, Function
from checks.crates import CRATES, folder_of, words_for
from checks.kit import kit_here
from checks.machine import ROOT
from judges import ROWS
from rests import files_of, rests_on, sum_of, text_of, whole_of

PATH = HERE / "record.tsv"
ALL = "all"
IN_PLACE = "in place"
JUDGES = ["bodies.py", "said.py", "trial.py"]
# The scripts that judge by rows, and what makes the crate for Rust.
JUDGES_BY_ROWS = ["edits/bodies.py", "edits/schema.py", "edits/rows.py", "rust/make", "rust/own_tests.py", "rust/testing.rs", "rust/library/Cargo.toml"]


@lru_cache(None)
def judges() -> str:
    """The sum of the kit's logic, of the scripts that judge, and of how these call the prover."""
    return sum_of([kit_here().logic, *((HERE / name).read_text(encoding="utf-8") for name in JUDGES), getsource(words_for)])


@lru_cache(None)
def judges_by_rows() -> str:
    """The sum of all sources, of the rows, and of what runs them."""
    sources = [text_of(path) for crate in CRATES for path in files_of(crate, "src", "*.rt")]
    kit = [path.read_text(encoding="utf-8") for path in sorted((ROOT / "rust/library/src").rglob("*.rs"))]
    return sum_of([*sources, *kit, *((ROOT / name).read_text(encoding="utf-8") for name in JUDGES_BY_ROWS)])


def version() -> str:
    """The version of the product."""
    text = (folder_of("ti_base") / "src/version.rt").read_text(encoding="utf-8")
    return text.split('VERSION: &str = "', 1)[1].split('"', 1)[0]


@dataclass(frozen=True)
class Refusal:
    """How an edit was refused: the sum of what that rests on, the name of the kit, and whether the edit was made in place."""

    total: str
    kit: str
    is_in_place: bool


class Record:
    """The lines of the record, those by rows, and the version and the kit with which all edits were tried: none if that is not known."""

    def __init__(self, path: Path = PATH) -> None:
        self.refusals: dict[str, Refusal] = {}
        self.by_rows: dict[str, str] = {}
        self.all_tried: list[str] = []
        lines = path.read_text(encoding="utf-8").splitlines() if path.exists() else []
        rows = [line.split("\t") for line in lines]
        counts = Counter((row[0], ROWS in row[2:]) for row in rows)
        for name, *rest in rows:
            is_by_rows = ROWS in rest[1:]
            if counts[name, is_by_rows] > 1:
                continue
            if name == ALL:
                self.all_tried = rest
            elif is_by_rows:
                self.by_rows[name] = rest[0]
            elif len(rest) > 1:
                self.refusals[name] = Refusal(rest[0], rest[1], rest[2:] == [IN_PLACE])

    def holds(self, label: str, total: str) -> bool:
        return label in self.refusals and self.refusals[label].total == total

    def note(self, label: str, refusal: Refusal) -> None:
        """Notes a refusal. A line that holds stays, with the kit that it has, so that a run without a change writes no other record."""
        if not self.holds(label, refusal.total):
            self.refusals[label] = refusal

    def text(self) -> str:
        rows = [[label, one.total, one.kit, *([IN_PLACE] if one.is_in_place else [])] for label, one in self.refusals.items()]
        rows += [[label, total, ROWS] for label, total in self.by_rows.items()]
        head = [[ALL, *self.all_tried]] if self.all_tried else []
        return "".join("\t".join(row) + "\n" for row in [*head, *sorted(rows, key=lambda row: (row[0], row[2] == ROWS))])

    def write(self) -> bool:
        """Writes the record, and returns whether it is another now."""
        if PATH.exists() and PATH.read_text(encoding="utf-8") == self.text():
            return False
        PATH.write_text(self.text(), encoding="utf-8")
        return True


def sums_of(edits: list[Edit]) -> dict[str, str]:
    """The sum of what the verdict on each edit rests on, by its name."""
    return {edit.label: sum_of([judges(), rests_on(edit.crate, edit)]) for edit in edits}


def sums_by_rows(edits: list[Edit]) -> dict[str, str]:
    """The sum of what the verdict on each edit by rows rests on, by its name."""
    return {edit.label: sum_of([judges_by_rows(), edit.crate, edit.text]) for edit in edits}


@dataclass(frozen=True)
class Draw:
    """Of so many edits whose lines hold, one is tried all the same. Those are drawn from so many crates, since a check of a crate
    costs more than another edit in it."""

    one_of: int
    most_crates: int


OF_THIS_KIT, OF_OTHER_KITS = Draw(30, 2), Draw(10, 6)
# The crate for Rust has all crates, so they may be drawn from all.
OF_ROWS = Draw(30, len(CRATES))


def drawn(held: list[Edit], edits: list[Edit], draw: Draw) -> list[Edit]:
    """Some of the edits whose lines hold, from a few crates, each as likely as it has edits.

    What is drawn depends on the crates and all edits alone, so that a second run draws the same.
    """
    tree = sum_of([*map(whole_of, CRATES), *sorted(edit.label + edit.text for edit in edits)])

    def place(*words: str) -> str:
        return sha256("\t".join([tree, *words]).encode()).hexdigest()

    order = sorted(held, key=lambda edit: place(edit.label))
    crates = list(dict.fromkeys(edit.crate for edit in order))[: draw.most_crates]
    among = sorted((edit for edit in held if edit.crate in crates), key=lambda edit: place("again", edit.label))
    return among[: -(-len(held) // draw.one_of)]


@dataclass
class Choice:
    """The edits to try, and what the record says: how many hold by it, how many of these by other kits, how many are tried again,
    and which functions this kit is known to prove in a copy as they stand."""

    tried: list[Edit]
    held: int = 0
    of_others: int = 0
    again: int = 0
    shown: set[Function] = field(default_factory=set)

    def closing(self, record: Record) -> str:
        since = f"all were tried at {' with '.join(record.all_tried)}" if record.all_tried else "not all were tried yet"
        others = f"; {self.of_others} were refused with another kit than {kit_here().name}" if self.of_others else ""
        return f"; {self.held} hold by the record, {self.again} of them tried again; {since}{others}"


def chosen(edits: list[Edit], sums: dict[str, str], record: Record, with_draw: bool) -> Choice:
    """The edits without a line that holds; with a draw, those that are always tried and those drawn from the others as well."""
    held = [edit for edit in edits if record.holds(edit.label, sums[edit.label])]
    new = [edit for edit in edits if edit not in held]
    of_others = [edit for edit in held if record.refusals[edit.label].kit != kit_here().name]
    always = [edit for edit in held if edit.is_always_tried] if with_draw else []
    again: list[Edit] = []
    for draw, is_of_other in [(OF_THIS_KIT, False), (OF_OTHER_KITS, True)]:
        pool = [edit for edit in held if (edit in of_others) == is_of_other and not edit.is_always_tried]
        again += drawn(pool, edits, draw) if with_draw else []
    in_copies = [edit for edit in held if edit not in of_others and not record.refusals[edit.label].is_in_place]
    shown = {function for edit in in_copies for function in edit.functions}
    shown -= {function for edit in again for function in edit.functions}
    return Choice([*new, *always, *again], len(held), len(of_others), len(always) + len(again), shown)


@dataclass
class ChoiceByRows:
    """The edits to try by rows, and what the record says: how many hold by it, and how many of these are tried again."""

    tried: list[Edit]
    held: int = 0
    again: int = 0

    def closing(self) -> str:
        return f"; {self.held} hold by the record, {self.again} of them tried again"


def chosen_by_rows(edits: list[Edit], sums: dict[str, str], record: Record, with_draw: bool) -> ChoiceByRows:
    """The edits without a line by rows that holds, and with a draw those drawn from the others."""
    held = [edit for edit in edits if record.by_rows.get(edit.label) == sums[edit.label]]
    new = [edit for edit in edits if edit not in held]
    again = drawn(held, edits, OF_ROWS) if with_draw else []
    return ChoiceByRows([*new, *again], len(held), len(again))
