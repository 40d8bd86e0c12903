"""The table by which the code finds a name, crates/ti_names/src/slots.rt, made from the names."""
import re
import textwrap
from collections import defaultdict

from checks.machine import ROOT

NAMES = ROOT / "crates/ti_names/src/table.rt"
SLOTS = ROOT / "crates/ti_names/src/slots.rt"
KINDS = ["flag", "number", "text"]
# How many shifts and slots there are, and the first numbers above those of a hash and of a shift.
SHIFTS, PLACES = 256, 2048
HASHES, MOST = 2**32, 256
# Columns that `rt fmt` fills.
WIDTH = 99

TEXT = """\
//! Where a name may stand, by a hash of it: data, and no code. `model/names --update` writes this file from the names.
//!
//! A hash and the shift at its last byte give a slot, which holds the number of a row: those of the flags come first, then those
//! of the numbers and of the texts. Each name, short or long, has a slot of its own; a slot of no name holds 0.

/// The factor of a hash, before a byte is added.
pub(crate) const MULTIPLIER: u32 = {multiplier};

/// How far the slot of a hash is shifted, by its last byte.
pub(crate) static SHIFTS: [u8; {shift_count}] = [
{shifts}
];

/// The number of a row in each slot.
pub(crate) static SLOTS: [u16; {slot_count}] = [
{slots}
];
"""


def rows_of(kind):
    """The rows of a kind in the table of the code, each a short and a long name."""
    rows = re.search(rf"macro_rules! {kind}s (.*?)^}}", NAMES.read_text(), re.M | re.S)[1]
    return re.findall(r'\("(\S*)", "(\S*)", (?:true|false)\b', rows)


def hash_of(name, multiplier):
    result = 0
    for byte in name.encode():
        result = (result * multiplier + byte) % HASHES
    return result


def shifted(names, multiplier):
    """The shifts by which each name has a slot of its own, or none if there are no such shifts."""
    groups = defaultdict(list)
    for name in names:
        hashed = hash_of(name, multiplier)
        groups[hashed % SHIFTS].append(hashed // SHIFTS % PLACES)
    taken, shifts = set(), [0] * SHIFTS
    # The largest groups come first, while many slots are free.
    for last, places in sorted(groups.items(), key=lambda group: (-len(group[1]), group[0])):
        for shift in range(MOST):
            slots = {(place + shift) % PLACES for place in places}
            if len(slots) == len(places) and not slots & taken:
                break
        else:
            return None
        taken |= slots
        shifts[last] = shift
    return shifts


def filled(numbers):
    return textwrap.fill(", ".join(map(str, numbers)) + ",", WIDTH, initial_indent=" " * 4, subsequent_indent=" " * 4)


def made():
    """The text of the file."""
    rows = [row for kind in KINDS for row in rows_of(kind)]
    numbers = {name: number for number, row in enumerate(rows) for name in row}
    multiplier, shifts = next((m, s) for m in range(33, HASHES, 2) if (s := shifted(numbers, m)))
    slots = [0] * PLACES
    for name, number in numbers.items():
        hashed = hash_of(name, multiplier)
        slots[(hashed // SHIFTS + shifts[hashed % SHIFTS]) % PLACES] = number
    return TEXT.format(multiplier=multiplier, shift_count=SHIFTS, shifts=filled(shifts), slot_count=PLACES, slots=filled(slots))
