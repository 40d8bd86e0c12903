"""Compiled entries of term(5): reading with the first check that fails, the canonical bytes, and the listing of `show`, also
as JSON.

Written from the manual pages, the list of checks and the choices of docs/DECISIONS.md, to be compared with the proved
program.
"""
import json
import struct
from dataclasses import dataclass, field

from notation import label as escaped_label
from notation import notation, shown

LIMIT = 32768
FLAGS = {0: "no", 1: "yes", 254: "cancelled", 255: "missing"}
FLAG_BYTES = {flag: byte for byte, flag in FLAGS.items()}
ABSENT, CANCELLED = "absent", "cancelled"

FLAG_NAMES = {
    0: "bw", 1: "am", 4: "xenl", 5: "eo", 6: "gn", 7: "hc", 8: "km", 9: "hs", 11: "da", 12: "db", 13: "mir", 14: "msgr",
    15: "os", 18: "hz", 19: "ul", 20: "xon", 21: "nxon", 25: "npc", 27: "ccc", 28: "bce",
}
NUMBER_NAMES = {0: "cols", 1: "it", 2: "lines", 3: "lm", 4: "xmc", 5: "pb", 13: "colors", 14: "pairs", 15: "ncv"}
TEXT_NAMES = {
    0: "cbt", 1: "bel", 2: "cr", 3: "csr", 4: "tbc", 5: "clear", 6: "el", 7: "ed", 8: "hpa", 10: "cup", 11: "cud1",
    12: "home", 13: "civis", 14: "cub1", 16: "cnorm", 17: "cuf1", 19: "cuu1", 20: "cvvis", 21: "dch1", 22: "dl1",
    25: "smacs", 26: "blink", 27: "bold", 28: "smcup", 30: "dim", 31: "smir", 32: "invis", 34: "rev", 35: "smso",
    36: "smul", 37: "ech", 38: "rmacs", 39: "sgr0", 40: "rmcup", 42: "rmir", 43: "rmso", 44: "rmul", 45: "flash",
    52: "ich1", 53: "il1", 55: "kbs", 59: "kdch1", 61: "kcud1", 66: "kf1", 67: "kf10", 68: "kf2", 69: "kf3", 70: "kf4",
    71: "kf5", 72: "kf6", 73: "kf7", 74: "kf8", 75: "kf9", 76: "khome", 77: "kich1", 79: "kcub1", 81: "knp", 82: "kpp",
    83: "kcuf1", 87: "kcuu1", 88: "rmkx", 89: "smkx", 105: "dch", 106: "dl", 107: "cud", 108: "ich", 109: "indn",
    110: "il", 111: "cub", 112: "cuf", 113: "rin", 114: "cuu", 126: "rc", 127: "vpa", 128: "sc", 129: "ind", 130: "ri",
    131: "sgr", 132: "hts", 134: "ht", 164: "kend", 216: "kf11", 217: "kf12", 359: "setaf", 360: "setab",
}
COMMON_NAMES = {"flag": FLAG_NAMES, "number": NUMBER_NAMES, "text": TEXT_NAMES}


@dataclass(frozen=True)
class Format:
    """What a format of entries is: its name, the number that an entry starts with, and a number of it for `struct`."""

    name: str
    magic: int
    number: str

    @property
    def size(self):
        return struct.calcsize(self.number)

    @property
    def greatest(self):
        return 2**(8 * self.size - 1) - 1


FORMATS = LEGACY, WIDE = Format("legacy", 0o432, "<h"), Format("wide", 0o1036, "<i")
FORMAT_OF = {made.magic: made for made in FORMATS}


class Refused(Exception):
    """The first check that fails, and its place."""

    def __init__(self, fault, place):
        super().__init__(f"{fault} at {place}")


class Unfit(Exception):
    """Why an entry has no canonical bytes."""


@dataclass
class Entry:
    """Numbers are -1 where absent and -2 where cancelled; extended items are pairs of a name and a mark."""

    format: Format
    names: bytes
    flags: list = field(default_factory=list)
    numbers: list = field(default_factory=list)
    texts: list = field(default_factory=list)
    extended_flags: list = field(default_factory=list)
    extended_numbers: list = field(default_factory=list)
    extended_texts: list = field(default_factory=list)

    def extended_names(self):
        return [name for name, _ in self.extended_flags + self.extended_numbers + self.extended_texts]


class Input:
    """Bytes that are gone over from the front; a check that wants more of them than there are is Truncated."""

    def __init__(self, data):
        self.data, self.at = data, 0

    def need(self, length):
        if len(self.data) < length:
            raise Refused("Truncated", len(self.data))

    def take(self, size):
        """The place and the bytes of the next item."""
        place = self.at
        self.need(place + size)
        self.at += size
        return place, self.data[place:self.at]

    def word(self):
        place, data = self.take(2)
        return place, struct.unpack("<h", data)[0]

    def count(self, fault):
        place, word = self.word()
        if word < 0:
            raise Refused(fault, place)
        return word

    def nul(self, fault):
        place, data = self.take(1)
        if data != b"\0":
            raise Refused(fault, place)

    def flags(self, count):
        flags = []
        for _ in range(count):
            place, data = self.take(1)
            if data[0] not in FLAGS:
                raise Refused("BadFlag", place)
            flags.append(FLAGS[data[0]])
        return flags

    def numbers(self, count, form):
        numbers = []
        for _ in range(count):
            place, data = self.take(form.size)
            number = struct.unpack(form.number, data)[0]
            if number < -2:
                raise Refused("BadNumber", place)
            numbers.append(number)
        return numbers

    def offsets(self, count, table):
        offsets = []
        for _ in range(count):
            place, offset = self.word()
            if not -2 <= offset < table:
                raise Refused("BadOffset", place)
            offsets.append((place, offset))
        return offsets


def text_at(table, place, offset):
    end = table.find(b"\0", offset)
    if end < 0:
        raise Refused("Unterminated", place)
    return table[offset:end]


def texts_at(table, offsets):
    marks = {-1: ABSENT, -2: CANCELLED}
    return [marks[offset] if offset < 0 else text_at(table, place, offset) for place, offset in offsets]


def read(data):
    """The entry that the bytes spell, or Refused."""
    source = Input(data)
    source.need(2)
    magic = data[0] + 256 * data[1]
    if magic not in FORMAT_OF:
        raise Refused("BadMagic", 0)
    form = FORMAT_OF[magic]
    source.at = 2
    names, flags, numbers, texts, table = [source.count("BadHeader") for _ in range(5)]
    end = 12 + names + flags + (names + flags) % 2 + form.size * numbers + 2 * texts + table
    if end > LIMIT:
        raise Refused("HeaderTooBig", 0)
    if names < 2:
        raise Refused("BadNames", 12)
    for _ in range(names - 1):
        place, byte = source.take(1)
        if byte == b"\0":
            raise Refused("BadNames", place)
    source.nul("BadNames")
    entry = Entry(form, data[12:11 + names])
    entry.flags = source.flags(flags)
    if (names + flags) % 2:
        source.nul("BadPad")
    entry.numbers = source.numbers(numbers, form)
    offsets = source.offsets(texts, table)
    entry.texts = texts_at(source.take(table)[1], offsets)
    if len(data) > end:
        read_extended(source, entry, end, table)
    return entry


def read_extended(source, entry, end, table):
    start = end + table % 2
    if start + 10 > LIMIT:
        raise Refused("ExtendedTooBig", end)
    if table % 2:
        source.nul("BadPad")
    flags, numbers, texts = [source.count("BadExtendedHeader") for _ in range(3)]
    source.at += 2
    extended_table = source.count("BadExtendedHeader")
    count = flags + numbers + texts
    end = start + 10 + flags + flags % 2 + entry.format.size * numbers + 2 * texts + 2 * count + extended_table
    if end > LIMIT:
        raise Refused("ExtendedTooBig", start)
    found_flags = source.flags(flags)
    if flags % 2:
        source.nul("BadPad")
    found_numbers = source.numbers(numbers, entry.format)
    offsets = source.offsets(texts, extended_table)
    name_offsets = [(source.at, source.count("BadExtendedName")) for _ in range(count)]
    table = source.take(extended_table)[1]
    found_texts = texts_at(table, offsets)
    base = sum(len(text) + 1 for text in found_texts if isinstance(text, bytes))
    names = []
    for place, offset in name_offsets:
        if base + offset >= extended_table:
            raise Refused("BadExtendedName", place)
        names.append(text_at(table, place, base + offset))
    if len(source.data) > end:
        raise Refused("Trailing", end)
    entry.extended_flags = list(zip(names, found_flags))
    entry.extended_numbers = list(zip(names[flags:], found_numbers))
    entry.extended_texts = list(zip(names[flags + numbers:], found_texts))


def word(number):
    return struct.pack("<H", number & 0xFFFF)


def table_of(texts):
    """Offsets and table of texts that stand one after the other."""
    offsets = table = b""
    for text in texts:
        if isinstance(text, bytes):
            offsets += word(len(table))
            table += text + b"\0"
        else:
            offsets += word(-1 if text == ABSENT else -2)
    return offsets, table


def encode(entry, form):
    """The canonical bytes in a format, or Unfit."""
    names = entry.extended_names()
    extended_texts = [text for _, text in entry.extended_texts]
    extended_numbers = [number for _, number in entry.extended_numbers]
    if not entry.names or any(0 in name for name in [entry.names] + names):
        raise Unfit("BadName")
    if any(isinstance(text, bytes) and 0 in text for text in entry.texts + extended_texts):
        raise Unfit("NulInText")
    if any(number > form.greatest for number in entry.numbers + extended_numbers):
        raise Unfit("NumberOutOfRange")

    def numbers_of(numbers):
        return b"".join(struct.pack(form.number, number) for number in numbers)

    offsets, table = table_of(entry.texts)
    counts = [len(entry.names) + 1, len(entry.flags), len(entry.numbers), len(entry.texts), len(table)]
    out = word(form.magic) + b"".join(map(word, counts))
    out += entry.names + b"\0" + bytes(FLAG_BYTES[flag] for flag in entry.flags)
    out += b"\0" * (len(out) % 2) + numbers_of(entry.numbers) + offsets + table
    if names:
        offsets, values = table_of(extended_texts)
        name_offsets, name_table = table_of(names)
        present = sum(isinstance(text, bytes) for text in extended_texts)
        flags = bytes(FLAG_BYTES[flag] for _, flag in entry.extended_flags)
        counts = [len(flags), len(extended_numbers), len(extended_texts), present + len(names), len(values + name_table)]
        out += b"\0" * (len(table) % 2) + b"".join(map(word, counts)) + flags + b"\0" * (len(flags) % 2)
        out += numbers_of(extended_numbers) + offsets + name_offsets + values + name_table
    if len(out) > LIMIT:
        raise Unfit("TooManyOrLong")
    return out


def label(names, index):
    return names.get(index, f"#{index}").encode()


def own_label(name, escape):
    """The label of an extended capability: its name as it stands, or in the notation without a space."""
    return escaped_label(name) if escape else name


def flag_line(kind, name, flag):
    ends = {"no": None, "yes": b"", "cancelled": b" cancelled", "missing": b" missing"}
    return b"" if ends[flag] is None else kind + name + ends[flag] + b"\n"


def number_line(kind, name, number):
    if number == -1:
        return b""
    return kind + name + (b" cancelled" if number == -2 else b" %d" % number) + b"\n"


def text_line(kind, name, text, escape):
    if text == ABSENT:
        return b""
    return kind + name + b" " + (b"cancelled" if text == CANCELLED else shown(text, escape)) + b"\n"


def listing(entry, names, escape):
    """What `show` writes, with labels by these names; under `escape` all that comes from the entry is in the notation."""
    own_names = notation(entry.names) if escape else entry.names
    lines = [b"format: " + entry.format.name.encode() + b"\nnames: " + own_names + b"\n"]
    lines += [flag_line(b"flag ", label(names["flag"], i), flag) for i, flag in enumerate(entry.flags)]
    lines += [number_line(b"number ", label(names["number"], i), number) for i, number in enumerate(entry.numbers)]
    lines += [text_line(b"text ", label(names["text"], i), text, escape) for i, text in enumerate(entry.texts)]
    lines += [flag_line(b"flag+ ", own_label(name, escape), flag) for name, flag in entry.extended_flags]
    lines += [number_line(b"number+ ", own_label(name, escape), number) for name, number in entry.extended_numbers]
    lines += [text_line(b"text+ ", own_label(name, escape), text, escape) for name, text in entry.extended_texts]
    return b"".join(lines)


def flag_part(flag):
    """What the object of a flag has beside its name, or nothing if it has none; of a number and of a text likewise."""
    return {"no": None, "yes": {"value": True}}.get(flag, {"state": flag})


def number_part(number):
    return {-1: None, -2: {"state": CANCELLED}}.get(number, {"value": number})


def text_part(text):
    if isinstance(text, str):
        return {ABSENT: None, CANCELLED: {"state": CANCELLED}}.get(text)
    return {"hex": text.hex(), "value": notation(text).decode()}


def objects(entry, names):
    """The objects of `show --json`, with labels by these names."""
    made = [{"kind": "format", "value": entry.format.name}]
    made.append({"kind": "names", "value": notation(entry.names).decode()})
    parts = {"flag": flag_part, "number": number_part, "text": text_part}
    for kind, values in (("flag", entry.flags), ("number", entry.numbers), ("text", entry.texts)):
        found = [(label(names[kind], index), parts[kind](value)) for index, value in enumerate(values)]
        made += [{"kind": kind, "name": name.decode(), **part} for name, part in found if part]
    for kind, pairs in (("flag", entry.extended_flags), ("number", entry.extended_numbers), ("text", entry.extended_texts)):
        found = [(own_label(name, True), parts[kind](value)) for name, value in pairs]
        made += [{"kind": kind, "name": name.decode(), "own": True, **part} for name, part in found if part]
    return made


def document(value):
    """A line of JSON, with the members of each object in the order of their names."""
    return json.dumps(value, separators=(",", ":"), sort_keys=True).encode() + b"\n"


def items(entry, names):
    """The lines of `show --escape` with labels by these names, kind by kind, each by what an item is found by: the index of a
    standard capability, the name of an extended one, of which the first counts."""
    makers = {"flag": flag_line, "number": number_line, "text": lambda *words: text_line(*words, True)}
    own_names = notation(entry.names)
    found = {"head": {0: b"format: " + entry.format.name.encode() + b"\n", 1: b"names: " + own_names + b"\n"}}
    for kind, values in (("flag", entry.flags), ("number", entry.numbers), ("text", entry.texts)):
        word = kind.encode() + b" "
        found[kind] = {i: makers[kind](word, label(names[kind], i), value) for i, value in enumerate(values)}
    for kind, pairs in (("flag", entry.extended_flags), ("number", entry.extended_numbers), ("text", entry.extended_texts)):
        own = found[kind + "+"] = {}
        for name, value in pairs:
            own.setdefault(name, makers[kind](kind.encode() + b"+ ", own_label(name, True), value))
    return found


def texts_by_item(entry):
    """The texts by the keys of `items`."""
    own = {}
    for name, text in entry.extended_texts:
        own.setdefault(name, text)
    return {"text": dict(enumerate(entry.texts)), "text+": own}


def values_by_item(entry):
    """What the object of `diff --json` says of each item, by the keys of `items`."""
    def part(of_kind, value):
        return of_kind(value) or {"state": "absent"}

    of_kinds = {"flag": flag_part, "number": number_part, "text": text_part}
    found = {"head": {0: {"value": entry.format.name}, 1: {"value": notation(entry.names).decode()}}}
    for kind, values in (("flag", entry.flags), ("number", entry.numbers), ("text", entry.texts)):
        found[kind] = {i: part(of_kinds[kind], value) for i, value in enumerate(values)}
    for kind, pairs in (("flag", entry.extended_flags), ("number", entry.extended_numbers), ("text", entry.extended_texts)):
        own = found[kind + "+"] = {}
        for name, value in pairs:
            own.setdefault(name, part(of_kinds[kind], value))
    return found


def subject(kind, key, names):
    """What the objects of `diff --json` call an item."""
    if kind == "head":
        return {"kind": ("format", "names")[key]}
    if kind.endswith("+"):
        return {"kind": kind[:-1], "name": own_label(key, True).decode(), "own": True}
    return {"kind": kind, "name": label(names[kind], key).decode()}


def changes(one, other, names, meaning=None):
    """The kinds and keys of what two entries do not have alike, in order. Texts with one meaning are passed over."""
    first, second = items(one, names), items(other, names)
    texts, of_other = texts_by_item(one), texts_by_item(other)

    def are_spelled_alike(kind, key):
        pair = [side.get(kind, {}).get(key) for side in (texts, of_other)]
        return meaning is not None and all(isinstance(text, bytes) for text in pair) and meaning(pair[0]) == meaning(pair[1])

    for kind in first:
        keys = list(first[kind]) + [key for key in second[kind] if key not in first[kind]]
        for key in keys if kind.endswith("+") else sorted(keys):
            if first[kind].get(key, b"") != second[kind].get(key, b"") and not are_spelled_alike(kind, key):
                yield kind, key


RED, GREEN, FAINT, PLAIN = b"\x1b[31m", b"\x1b[32m", b"\x1b[2m", b"\x1b[m"


def differences(one, other, names, meaning=None, color=False):
    """The lines of `diff`, with labels by these names."""
    sides, lines = ((b"- ", items(one, names), RED), (b"+ ", items(other, names), GREEN)), []
    for kind, key in changes(one, other, names, meaning):
        for sign, side, style in sides:
            if line := side[kind].get(key):
                lines.append(style + sign + line[:-1] + PLAIN + b"\n" if color else sign + line)
    return b"".join(lines)


def difference_objects(one, other, names, meaning=None):
    """The objects of `diff --json`."""
    first, second = values_by_item(one), values_by_item(other)
    absent = {"state": "absent"}
    return [{**subject(kind, key, names), "first": first[kind].get(key, absent), "other": second[kind].get(key, absent)}
            for kind, key in changes(one, other, names, meaning)]
