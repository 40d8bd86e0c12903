"""The calls of program/oracle: words, files and streams, each made by its number and a seed alone."""

import random
import re
import sys
from collections.abc import Callable
from dataclasses import dataclass, field
from functools import cache
from importlib.machinery import SourceFileLoader
from importlib.util import module_from_spec, spec_from_loader
from types import ModuleType

from checks.machine import ROOT, entry_files

sys.path.insert(0, str(ROOT / "rust"))
from cases import ENTRY_BYTES, NAMES, a_capability, an_entry, model, parameters

choose = random.choice
# The options of each command: those without a value, and those with one.
PLAIN: dict[str, list[str]] = {
    "show": ["-e", "--escape", "-a", "--all-names", "--json"],
    "check": ["-e", "--escape", "-a", "--all-names", "--faults", "--json"],
    "lint": ["--all", "--untrusted", "--summary", "--explain", "--json"],
    "get": ["-x", "--hex", "-e", "--escape", "--xon"],
    "diff": ["--expand", "--json"],
    "expand": ["-x", "--hex", "-e", "--escape", "-a", "--all-names", "--xon"],
    "convert": ["--wide", "--narrow", "--force"],
    "cap": ["--source", "-x", "--hex", "-e", "--escape"],
    "trace": ["--source", "-e", "--escape", "--json"],
}
VALUED: dict[str, list[str]] = {
    "show": ["--entry"], "check": ["--entry"], "lint": ["--color", "--entry"], "get": ["--rate", "--lines", "--entry"], "diff": ["--color"],
    "expand": ["--rate", "--lines", "--entry"], "convert": [], "cap": [], "trace": ["--of", "--color", "--entry"],
}
# Options of which a call may mostly have one, and one that reads no file.
FORMS, NAMING, ALONE = {"-x", "--hex", "-e", "--escape"}, {"-a", "--all-names"}, "--explain"
VALUES = {
    "--rate": ["0", "1", "333", "9600", "1000000", "1000001", "x"],
    "--lines": ["0", "1", "2", "24", "65535", "65536"],
    "--color": ["always", "never", "auto", "auto", "red"],
}
# Words that are mostly no command line, beside a command.
ODD = [
    "", "-", "--", "-q", "-h", "--help", "-V", "--version", "--jsno", "--json=1", "--hlep", "--nosuch=5", "a", "am", "cup", "cupp", "n:1",
    "n:99999999999", "s:x", "-5", "5", "red", "\x1b[2J", "--\x1bx", "é", "--rate", "--rate=", "--entry", "--of", "--color", "#10", "text#10",
    "flag#1", "number#0", "cursor_address", "kcuu", "$(ti-path)", "help", "show", "lnit", "--all", "--expand", "--wide", "--narrow", "--force",
]
# What is no compiled entry, though it may be taken for one.
NO_ENTRIES = [b"", b"\x1f\x8b\x08\0", b"\x7fELF\x02", b"<html>", b"xterm|x,\n\tam,\n"]
COMMON = ["cup", "clear", "bold", "sgr0", "home", "el", "ed", "cuf", "cub1", "ind", "setaf", "sgr", "csr", "rep", "flash", "cols", "am", "kbs"]
MORE_NAMES = ["cursor_address", "text#10", "flag#1", "number#0", "#14", "kcuu1", "u6", "acsc", "max_colors", "kcuu", "XT", "RGB", "colors"]


@dataclass
class Call:
    """A call: its words, the files of its folder, its standard input, and what its streams are."""

    words: list[bytes]
    files: dict[str, bytes] = field(default_factory=dict)
    data: bytes = b""
    # What is read is a file, a pipe, a terminal, a folder, nothing or closed.
    source: str = "file"
    # What is written goes to a file, a pipe, a terminal, a full device, a pipe that nobody reads, or nowhere.
    output: str = "file"
    lines: str = "file"
    variables: dict[str, str] = field(default_factory=dict)
    # The kilobytes of memory that it may have, and what comes alone, together and reversed.
    kilobytes: int = 0
    apart: list[list[bytes]] = field(default_factory=list)

    def told(self) -> str:
        """The call in a line."""
        streams = f"{self.source} {len(self.data)} > {self.output} {self.lines}"
        sizes = {name: len(data) for name, data in self.files.items()}
        return f"{self.words} < {streams}" + (f", files {sizes}" if sizes else "") + (f", {self.kilobytes} KB" if self.kilobytes else "")


def loaded(name: str, path: str) -> ModuleType:
    """A script as a module."""
    loader = SourceFileLoader(name, str(ROOT / path))
    spec = spec_from_loader(name, loader)
    assert spec
    module = module_from_spec(spec)
    sys.modules[name] = module
    loader.exec_module(module)
    return module


@cache
def made() -> ModuleType:
    return model()


@cache
def installed() -> list[bytes]:
    """The entries of this machine, and those of examples/."""
    examples = [path for path in sorted((ROOT / "examples").iterdir()) if "." not in path.name and path.read_bytes()[:1] in b"\x1a\x1e"]
    return [path.read_bytes() for path in [*entry_files(), *examples]]


@cache
def hostile() -> list[bytes]:
    """The entries of program/hostile."""
    script = loaded("hostile", "program/hostile")
    return [script.compiled(row.partition(" :: ")[2].partition(" =>")[0]) for row in script.ROWS.strip().splitlines()]


@cache
def findings() -> list[str]:
    """The words of findings, as the manual page has them."""
    text = (ROOT / "docs/ti-findings.7").read_text(encoding="utf-8")
    return [word.replace("\\-", "-") for word in re.findall(r"^\.TP\n\.B (\S+)$", text, re.M)]


def broken(entry: bytes) -> bytes:
    """An entry with a few bytes changed."""
    return made().broken(entry, ENTRY_BYTES + bytes([random.randrange(256)]), choose([1, 1, 3, 8]))


def any_entry() -> bytes:
    """An entry of this machine or a made one, mostly broken, or a hostile one; now and then what is no entry."""
    if random.random() < 0.02:
        return choose(NO_ENTRIES)
    one = an_entry(made(), ENTRIES) if random.random() < 0.8 else choose(hostile())
    return broken(one) if random.random() < 0.3 else one


class Installed:
    """An entry of this machine, as what rust/cases.py takes for its file."""

    def __init__(self, data: bytes) -> None:
        self.data = data

    def read_bytes(self) -> bytes:
        return self.data


ENTRIES: list[Installed] = []


def options_of(command: str, likely: float = 0.3) -> list[str]:
    """Some options of a command, mostly such that go together."""
    found = [word for word in PLAIN[command] if random.random() < likely and word != ALONE]
    for several in (FORMS, NAMING, {"--wide", "--narrow"}):
        alike = [word for word in found if word in several]
        if len(alike) > 1 and random.random() < 0.95:
            found = [word for word in found if word not in alike[1:]]
    if "--json" in found and random.random() < 0.9:
        found = [word for word in found if word not in FORMS | NAMING]
    for word in VALUED[command]:
        if word in VALUES and random.random() < likely:
            value = choose(VALUES[word][:-1]) if random.random() < 0.95 else VALUES[word][-1]
            found += choose([[word, value], [f"{word}={value}"]])
    return found


def name() -> str:
    """A name of a capability, or of none."""
    return choose(COMMON if random.random() < 0.5 else [*NAMES, *MORE_NAMES, f"#{random.randrange(420)}"])


def given() -> list[str]:
    """Parameters as `get` and `trace --of` take them."""
    return [choose([word, word.partition(":")[2]]) for word in parameters(made())] if random.random() < 0.5 else choose([[], ["4"], ["4", "9"], ["1", "0", "1"]])


def words_for(command: str, named: str) -> list[str]:
    """The words of a call for an entry, before its file."""
    words = [command, *options_of(command)]
    if command == "get":
        words += ["--", named, *given()]
    elif command == "expand":
        words += ["--", named, *parameters(made())]
    elif command == "trace":
        words += ["--of", named, "--", *given()]
    return words


def with_entry(command: str, entry: bytes, named: str = "") -> Call:
    """A call of a command on an entry: a file, one behind --entry, or standard input. What is named in it may be chosen."""
    words, call = words_for(command, named or name()), Call([], data=entry, source=choose(["file", "pipe"]))
    way = random.random()
    if command == "diff":
        call.files = {"b": any_entry()} if random.random() < 0.7 else {"b": broken(entry)}
        words += choose([["b"], ["-", "b"], ["b", "-"]])
    elif way < 0.5 and "--entry" in VALUED[command]:
        call.files, call.data, call.source = {"a": entry}, b"", "nothing"
        words[1:1] = ["--entry", "a"]
    elif way < 0.8 and command in ("show", "check", "lint", "convert"):
        call.files, call.data, call.source = {"a": entry}, b"", "nothing"
        words += ["a"]
    elif way < 0.9 and command in ("show", "check", "lint", "convert"):
        words += ["-"]
    call.words = [word.encode() for word in words]
    return call


OF_ENTRIES = ["show", "show", "check", "check", "lint", "lint", "lint", "get", "get", "diff", "expand", "convert", "trace"]


def of_installed(place: int) -> Call:
    """The next entry of this machine."""
    return with_entry(choose(OF_ENTRIES), installed()[place % len(installed())])


def of_made(_: int) -> Call:
    """An entry that is made, broken or hostile."""
    if random.random() < 0.15:
        return of_named()
    return with_entry(choose(OF_ENTRIES), any_entry())


def of_named() -> Call:
    """A string of an entry that has it, or a number that may be too large for the format, or a delay with more pad bytes than there may be."""
    entries, command = made().entries, choose(["get", "expand", "trace", "slow", "convert"])
    if command == "convert":
        entry = entries.Entry(entries.WIDE, b"t", extended_numbers=[(b"A", choose([32767, 32768, 70000]))])
        call, more = with_entry("convert", entries.encode(entry, entries.WIDE)), [b"--narrow"]
    else:
        text = b"$<99999*>" if command == "slow" else a_capability(made()).replace(b"\0", b"")
        entry = entries.Entry(entries.LEGACY, b"t", extended_texts=[(b"Ss", text)])
        data, more = entries.encode(entry, entries.LEGACY), []
        if command == "slow":
            command, more = choose(["get", "expand"]), [b"--rate=1000000", b"--lines=65535"]
        call = with_entry(command, data, "Ss")
    call.words[1:1] = more
    return call


def in_notation(text: bytes) -> bytes:
    """A capability in the notation, now and then with a fault at its end or a name before it."""
    found = b"".join(bytes([byte]) if 32 < byte < 127 and byte not in b"\\^" else b"\\%03o" % byte for byte in text)
    return choose([found, found, found, found + b"\\", found + b"^", found + b"^\xc8", b"cup=" + found, b"cup#" + found])


def of_string(_: int) -> Call:
    """A capability on standard input."""
    command = choose(["cap", "trace"])
    text = a_capability(made())
    words = [command, *options_of(command), "--", *parameters(made())]
    if "--source" in words and random.random() < 0.8:
        text = in_notation(text)
    at_terminal = random.random() < 0.1
    if at_terminal:
        text = b"".join(bytes([byte]) for byte in text[:200] if 32 <= byte < 127) + b"\n"
    return Call([word.encode() for word in words], data=text, source="terminal" if at_terminal else choose(["file", "pipe"]))


def of_words(_: int) -> Call:
    """Words that are mostly no command line."""
    words = [choose([*PLAIN, *PLAIN, "help", "lnit", "", "-V", "--help"])]
    if words[0] in PLAIN:
        words += options_of(words[0], 0.1)
    for _ in range(choose([0, 1, 1, 2, 3])):
        words.insert(random.randint(0, len(words)), choose(ODD))
    if random.random() < 0.3:
        explained, other = random.sample(findings(), choose([0, 1, 2, 12])), choose(["", "", "", "nosuch"])
        words = ["lint", "--explain", *explained, *([other] if other else [])]
    told = [word.encode() for word in words]
    if random.random() < 0.03:
        told.append(b"\xff")
    return Call(told, files={"a": any_entry()}, data=choose([b"", any_entry()]))


def of_several(_: int) -> Call:
    """Several files in an order, one of which may be missing; they come alone and reversed too."""
    command = choose(["show", "check", "lint"])
    names = ["one/a", "two/b", "three/c", "four/d"][: random.randint(2, 4)]
    files = {one: any_entry() for one in names}
    words = [word.encode() for word in (command, *options_of(command)) if word != "--summary"]
    call = Call(words, files=files, source="nothing")
    call.apart = [[one.partition("/")[0].encode()] for one in names]
    order = [one.encode() for one in names]
    if random.random() < 0.3:
        order.insert(random.randint(1, len(order) - 1), b"missing")
        call.apart = []
    if random.random() < 0.2:
        order.insert(random.randint(0, len(order)), b"-")
        call.source, call.data, call.apart = "file", any_entry(), []
    if not call.apart:
        random.shuffle(order)
    call.words = [*words, *order]
    return call


def of_folder(_: int) -> Call:
    """A folder, beside a file of it or alone. It may be empty, or not there."""
    command = choose(["show", "check", "lint", "lint", "convert", "diff"])
    names = ["d/b", "d/x/c", "d/x/a", "d/.h", "d/é"]
    files = {one: any_entry() for one in random.sample(names, random.randint(0, 4))}
    words = [command, *options_of(command), *choose([["d"], ["d/x", "d"], ["d", "missing"], ["d", "d"], ["-", "d"], ["d/"], ["."]])]
    return Call([word.encode() for word in words], files=files, data=choose([b"", any_entry()]))


def of_memory(_: int) -> Call:
    """A call that may have little memory: from what lets the program start to what is always enough."""
    call = choose([of_made, of_made, of_string, of_several])(0)
    call.apart, call.kilobytes = [], choose([random.randrange(2200, 3400), random.randrange(2600, 9000), random.randrange(2600, 40000)])
    if call.source == "terminal":
        call.source = "file"
    if random.random() < 0.2:
        call.words, call.data, call.source, call.files = [b"trace"], random.randrange(32000) * b"a", "file", {}
    return call


def of_streams(_: int) -> Call:
    """A call whose streams are full, closed, or nothing that can be read."""
    call = choose([of_made, of_made, of_string, of_words, of_folder, of_several])(0)
    call.apart = []
    if random.random() < 0.3 or call.source == "terminal":
        call.source = choose(["folder", "closed", "nothing"])
    if random.random() < 0.8:
        call.output = choose(["full", "unread", "closed"])
    if random.random() < 0.3:
        call.lines = choose(["full", "unread", "closed", "terminal"])
    return call


KINDS: list[Callable[[int], Call]] = [
    of_installed, of_made, of_string, of_installed, of_several, of_installed, of_made, of_words, of_installed, of_streams,
    of_installed, of_made, of_installed, of_words, of_string, of_installed, of_folder, of_installed, of_several, of_memory,
]


def made_call(number: int, seed: str) -> Call:
    """The call of a number."""
    if not ENTRIES:
        ENTRIES.extend(map(Installed, installed()))
    random.seed(f"{seed} {number}")
    kind = KINDS[number % len(KINDS)]
    share = KINDS.count(kind)
    place = number // len(KINDS) * share + KINDS[: number % len(KINDS)].count(kind)
    call = kind(place)
    if call.output == "file" and not call.kilobytes and not call.apart:
        call.output = choose(["file"] * 6 + ["pipe"] * 2 + ["terminal"])
    if call.lines == "file" and not call.kilobytes and not call.apart and random.random() < 0.3:
        # There lines on faults have advice.
        call.lines = "terminal"
    if "terminal" in (call.output, call.lines) or random.random() < 0.05:
        call.variables = choose([{"TERM": "xterm"}] * 3 + [{"TERM": "xterm", "NO_COLOR": "1"}, {"TERM": "dumb"}, {}])
    return call
