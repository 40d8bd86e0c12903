#!/usr/bin/env python3
"""The tables of functions of a terminal, in ti_allow/src: made of docs/functions.tsv and docs/effects.tsv.

    docs/functions.py [--write]

prints them, or writes them; `rt fmt` in the crate lays them out then."""

import re
import sys
from dataclasses import dataclass
from pathlib import Path

sys.dont_write_bytecode = True
sys.path.insert(0, str(Path(__file__).resolve().parent.parent))
from checks.machine import ROOT

KINDS = {"C0": "Control", "ESC": "Escape", "CSI": "Sequence", "OSC": "System", "DCS": "Device", "APC": "Application"}
MARKERS = "<=>?"
HEADING = """//! {title}: made of docs/{file} by docs/functions.py.

{uses}
const ANY: Numbers = Listed(Free, Free);

/// The rows of the table.
macro_rules! rows {{
    ($({pattern},)*) => {{ [$({row}),*] }};
}}

pub static {name}: [{kind}; {count}] = rows! {{
{body}}};
"""
PATTERN = "($kind:ident, $head:expr, $numbers:expr, $asking:ident, $standing:ident{more})"
ROW = "Row {{ kind: FunctionKind::$kind, head: $head, numbers: $numbers, asking: Asking::$asking, standing: Standing::$standing }}"
USES = """use crate::row::Head::{Any as Every, Begins, Exactly};
use crate::row::Numbers::Listed;
use crate::row::Values::{Free, In, Never};
use crate::row::{Asking, Numbers, Row, Span};
use crate::standing::Standing;
use ti_parser::FunctionKind;
use ti_parser::Intermediates::{Empty, Single};
"""
STANDING = """//! In which strings a function may stand: made of docs/functions.tsv and docs/effects.tsv by docs/functions.py.

ghost use Rattle.std.specs.Prelude.{{◌≡◌}};
ghost use Rattle.ti_allow.specs.Rows.{{texts_of}};
ghost use Rattle.ti_allow.specs.Names.{{names_of}};

{statics}
/// In which strings a function may stand.
#[derive(Clone, Copy, Debug, PartialEq, Eq)]
pub enum Standing {{
    /// In all of them.
    Everywhere,
{variants}}}

impl Standing {{
    /// The names of the strings, but for those of `Everywhere`.
    #[tactic(auto, unfolding(crate::specs::Names::names_of))]
    pub(crate) fn names(self) -> &'static [&'static str]
        ensures {{ texts_of result.now ≡ names_of self }}
    {{
        match self {{
            Standing::Everywhere => &EVERYWHERE,
{arms}        }}
    }}
}}
"""
NAMES = """-- In which strings a function may stand, by the names of terminfo(5) and user_caps(5), and those that ncurses, tmux(1), screen(1) and
-- Vim use: made of docs/functions.tsv and docs/effects.tsv by docs/functions.py.
use Rattle.std.specs.Prelude.{{ℕ, List, [], ◌∷◌, codes}}
use Rattle.ti_allow.specs.declared.standing.Standing.{{Standing}}
use Rattle.ti_allow.specs.declared.standing.Standing.TheVariants.{{Everywhere, {variants}}}

unfoldable pub names_of : Standing → List (List ℕ)
names_of Everywhere = []
{rows}"""


@dataclass(frozen=True)
class Line:
    """A row of a file: what tells the function, its numbers, the names of the strings, and what it is or does."""

    function: str
    numbers: str
    where: str
    what: str


def lines_of(name: str) -> tuple[list[Line], dict[str, list[str]]]:
    """The rows of a file, and the names of each group."""
    text = (ROOT / "docs" / name).read_text().splitlines()
    groups = {line.split()[1]: line.split()[2:] for line in text if re.match(r"#   [a-z]+ {2,}[A-Za-z0-9]+( [A-Za-z0-9]+)*$", line)}
    return [Line(*line.split("\t")[:4]) for line in text if not line.startswith("#")], groups


def byte(character: str) -> str:
    return f"b'{character}'" if character not in "'\\" else f"b'\\{character}'"


def some(character: str) -> str:
    return f"Some({byte(character)})" if character else "None"


def between(characters: str) -> str:
    """Intermediate bytes."""
    return ["Empty", "Single({})", "Pair({}, {})"][len(characters)].format(*map(byte, characters))


def exactly(marker: str, intermediates: str, letter: str) -> str:
    return f"Exactly({some(marker)}, {between(intermediates)}, {letter})"


def head_of(function: str) -> tuple[str, str, str]:
    """The kind, the head, and the number of an OSC."""
    kind, _, text = function.partition(" ")
    text = text.replace("SP", " ")
    kind = "Title" if function == "ESC k" else KINDS[kind]
    if text == "*" or kind in ("Title", "Application"):
        return kind, "Every", ""
    if kind == "Control":
        return kind, exactly("", "", f"Some(0x{text})"), ""
    if kind == "System" and (text.isdigit() or not text):
        return kind, exactly("", "", "None"), text
    if kind == "Escape" and len(text) > 1 and text[1:] == "*":
        return kind, f"Begins({byte(text[0])})", ""
    marker = text[0] if len(text) > 1 and text[0] in MARKERS else ""
    return kind, exactly(marker, text[len(marker) : -1], some(text[-1])), ""


def spans(text: str) -> list[str]:
    found = [part.partition("-") for part in text.split(",") if part]
    return [f"Span({least}, {most or least})" for least, _, most in found]


def values(text: str) -> list[str]:
    return ["Free"] if text == "*" else [f"In({span})" for span in spans(text)] or ["Never"]


def numbers_of(text: str, number: str, others: str) -> list[str]:
    """The numbers of a line, one for each row of the table. A list without a slash has other numbers, or is one of modes."""
    if number:
        return [f"Listed({value}, Never)" for value in values(number)]
    if text == "none":
        return ["Numbers::Without"]
    if text in ("*", "-", "text", "any", "?"):
        return ["ANY"]
    first, slash, rest = text.partition("/")
    if first == "some":
        return [f"Numbers::Some({span})" for span in spans(rest)]
    if slash:
        return [f"Listed({one}, {two})" for one in values(first) for two in values(rest)]
    return [f"Listed({one}, Free)" for one in values(first)] if others else [f"Numbers::Mode({span})" for span in spans(first)]


def variant(where: str) -> str:
    """The variant with the strings of a line."""
    return "Everywhere" if where == "all" else "".join(word[0].upper() + word[1:].lower() for word in where.split())


def rows_of(line: Line, others: str) -> list[str]:
    kind, head, number = head_of(line.function)
    asking = {"text": "Never", "?": "Always"}.get(line.numbers, "Either")
    return [f"{kind}, {head}, {numbers}, {asking}, {variant(line.where)}" for numbers in numbers_of(line.numbers, number, others)]


def standings() -> dict[str, list[str]]:
    """The names of each variant."""
    found = {}
    for file in ["functions.tsv", "effects.tsv"]:
        lines, groups = lines_of(file)
        for where in dict.fromkeys(line.where for line in lines if line.where != "all"):
            found[variant(where)] = [name for word in where.split() if word != "nowhere" for name in groups.get(word, [word])]
    return found


def constant(name: str) -> str:
    return re.sub(r"(?<=[a-z0-9])(?=[A-Z])", "_", name).upper()


def quoted(name: str) -> str:
    return f'"{name}"'


def allowed() -> str:
    lines, _ = lines_of("functions.tsv")
    rows = [row for line in lines for row in rows_of(line, "")]
    return HEADING.format(
        title="The functions that a string may send",
        file="functions.tsv",
        uses=USES,
        pattern=PATTERN.format(more=""),
        row=ROW.format(),
        name="ALLOWED",
        kind="Row",
        count=len(rows),
        body="".join(f"    ({row}),\n" for row in rows),
    )


def effects() -> str:
    lines, _ = lines_of("effects.tsv")
    name = {line.what: "".join(part.capitalize() for part in line.what.split("-")) for line in lines}
    rows = [f"{row}, {name[line.what]}" for line in lines for row in rows_of(line, "others")]
    return HEADING.format(
        title="What functions do where they may not stand",
        file="effects.tsv",
        uses="use crate::effect::{Effect, EffectRow};\n" + USES.replace("Begins, ", ""),
        pattern=PATTERN.format(more=", $effect:ident"),
        row=f"EffectRow {{ row: {ROW.format()}, effect: Effect::$effect }}",
        name="EFFECTS",
        kind="EffectRow",
        count=len(rows),
        body="".join(f"    ({row}),\n" for row in rows),
    )


def standing() -> str:
    found = standings()
    every = "static EVERYWHERE: [&str; 0] = [];\n\n"
    return STANDING.format(
        statics=every + "".join(f"static {constant(name)}: [&str; {len(names)}] = [{', '.join(map(quoted, names))}];\n\n" for name, names in found.items()),
        variants="".join(f"    /// {', '.join(f'`{one}`' for one in names) or 'In none'}.\n    {name},\n" for name, names in found.items()),
        arms="".join(f"            Standing::{name} => &{constant(name)},\n" for name in found),
    )


def names() -> str:
    found = standings()
    rows = "".join(f"names_of {name} = {' ∷ '.join([*(f'codes {quoted(one)}' for one in names), '[]'])}\n" for name, names in found.items())
    return NAMES.format(variants=", ".join(found), rows=rows)


def made() -> dict[Path, str]:
    """The text of each file, before `rt fmt` lays it out."""
    found = {"src/allowed.rt": allowed(), "src/effects.rt": effects(), "src/standing.rt": standing(), "specs/Names.antt": names()}
    return {ROOT / "crates/ti_allow" / name: text for name, text in found.items()}


def main() -> None:
    for path, text in made().items():
        if "--write" in sys.argv[1:]:
            path.write_text(text)
        else:
            print(text, end="")


if __name__ == "__main__":
    main()
