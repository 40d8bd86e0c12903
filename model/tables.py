"""The tables of functions of a terminal in docs/, read by themselves: what their rows are as bytes, and which functions they have."""
import re
from dataclasses import dataclass

from checks.machine import ROOT
from parser import LARGE, Function

KINDS = {"C0": "Control", "ESC": "Escape", "CSI": "Sequence", "OSC": "System", "DCS": "Device", "APC": "Application"}


@dataclass(frozen=True)
class Row:
    """A row of the file: what tells the function, its numbers, the names of the strings, or None for all, and what it is or does."""

    function: str
    numbers: str
    names: frozenset[str] | None
    what: str = ""


def table(file: str) -> list[Row]:
    """The rows of a file."""
    groups: dict[str, list[str]] = {}
    rows = []
    for line in (ROOT / "docs" / file).read_text().splitlines():
        if found := re.fullmatch(r"#   ([a-z]+) {2,}((?:\w+ ?)+)", line):
            groups[found[1]] = found[2].split()
        elif not line.startswith("#"):
            function, numbers, where, what, *_ = line.split("\t")
            names = None if where == "all" else frozenset(name for word in where.split() for name in groups.get(word, [word]))
            rows.append(Row(function, numbers, names, what))
    return rows


def spelled(row: Row, numbers: str) -> bytes:
    """A function of the row with these numbers, as bytes."""
    kind, _, text = row.function.partition(" ")
    text = text.replace("SP", " ")
    if kind == "C0":
        return bytes([int(text, 16)])
    if kind == "ESC":
        return b"\x1b" + re.sub(r"\*$", "B", text).encode()
    if kind in ("CSI", "DCS"):
        marker = text[0] if len(text) > 1 and text[0] in "<=>?" else ""
        front = b"\x1b[" if kind == "CSI" else b"\x1bP"
        return front + marker.encode() + numbers.encode() + text[len(marker) :].encode() + (b"\x1b\\" if kind == "DCS" else b"")
    if kind == "APC":
        return b"\x1b_text\x1b\\"
    if text == "P":
        return b"\x1b]P0123456"
    return b"\x1b]" + text.encode() + (b"" if text == "R" else b";text\x07" if text.isdigit() else b"text\x07" if text else b"\x07")


# ---- the functions of rows


def is_in(text: str, value: float | None) -> bool:
    """Whether a number is in a list of spans; one that is left out is 0."""
    if text == "*":
        return True
    number = value or 0
    parts = (part.partition("-") for part in text.split(",") if part)
    return number < LARGE and any(int(least) <= number <= int(most or least) for least, _, most in parts)


def has_head(row: Row, function: Function) -> bool:
    """Whether the row is of the function, but for its numbers."""
    if row.function == "ESC k":
        return function.kind == "Title"
    kind, _, text = row.function.partition(" ")
    text = text.replace("SP", " ")
    if KINDS[kind] != function.kind:
        return False
    letter = "" if function.letter is None else chr(function.letter)
    if kind == "C0":
        return f"{function.letter:02x}" == text
    if kind == "APC" or row.function == "DCS *":
        return True
    if kind == "OSC" and (text.isdigit() or not text):
        return not letter
    between = bytes(function.intermediates).decode() if len(function.intermediates) < 3 else "many"
    if kind == "ESC" and text[1:] == "*":
        return between[:1] == text[0] and len(between) < 3
    return (chr(function.marker) if function.marker else "") + between + letter == text


def is_system(row: Row, function: Function) -> bool:
    """Whether the function has the number of the row's OSC, and no other."""
    return len(function.numbers) < 2 and is_in(row.function.partition(" ")[2], function.numbers[0] if function.numbers else None)


def is_listed(first: str, others: str, function: Function) -> bool:
    """Whether the first number and the others are in these spans."""
    numbers = function.numbers
    rest_fits = all(is_in(others, number) for number in numbers[1:]) and (others == "*" or not function.is_overfull)
    return is_in(first, numbers[0] if numbers else None) and rest_fits


def has_numbers(row: Row, function: Function) -> bool:
    """Whether the row allows all numbers of the function by itself. Modes it allows one by one, as below."""
    if row.function == "OSC":
        return not function.numbers
    if re.fullmatch("OSC [0-9]+", row.function):
        return is_system(row, function) and not (row.numbers == "text" and function.asks)
    if row.numbers in ("*", "-", "any"):
        return True
    if row.numbers == "text":
        return not function.asks
    first, slash, others = row.numbers.partition("/")
    return bool(slash) and is_listed(first, others, function)


def is_allowed(rows: list[Row], name: str, function: Function) -> bool:
    """Whether functions.tsv has a function for the string with a name."""
    own = [row for row in rows if (row.names is None or name in row.names) and has_head(row, function)]
    if any(has_numbers(row, function) for row in own):
        return True
    lists = [row.numbers for row in own if re.fullmatch(r"[0-9,-]+", row.numbers) and row.numbers != "-"]
    modes = function.numbers
    return bool(modes) and not function.is_overfull and all(any(is_in(spans, mode) for spans in lists) for mode in modes)


def acts(row: Row, function: Function) -> bool:
    """Whether a row of effects.tsv has the numbers of a function of its head."""
    if row.numbers == "?":
        return function.asks and is_system(row, function)
    if re.fullmatch("OSC [0-9]+", row.function):
        return is_system(row, function)
    if row.numbers in ("*", "-"):
        return True
    first, slash, others = row.numbers.partition("/")
    if first == "some":
        return any(is_in(others, number) for number in function.numbers)
    return is_listed(first, others if slash else "*", function)


def effect_of(rows: list[Row], name: str, function: Function) -> str | None:
    """What a function does by effects.tsv that may not stand in the string with a name."""
    own = (row for row in rows if name not in (row.names or ()) and has_head(row, function))
    return next((row.what for row in own if acts(row, function)), None)
