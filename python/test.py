"""Tests the module mogyarsu beside this file, or that which PYTHONPATH names, and ti, its former name. The values are from terminfo(5) and from hand.

The last line is 'python: N passed, M failed'.
"""

import copy
import os
import pickle
import signal
import subprocess
import sys
import threading
from pathlib import Path

# What PYTHONPATH names comes before the folder of this file.
if os.environ.get("PYTHONPATH"):
    sys.path.append(sys.path.pop(0))

import mogyarsu
import ti

LINUX = Path("examples/linux").read_bytes()
# How often what depends on the moment is tried; ./gate --quick sets TI_DRAW.
OFTEN = 20 if os.environ.get("TI_DRAW") else 1000
passed = failed = 0


def expect(holds: bool, what: str) -> None:
    global passed, failed
    passed, failed = passed + holds, failed + (not holds)
    if not holds:
        print(f"python: {what}")


def fault_of(call, *arguments):
    """The number, the word and the place of the fault that a call raises."""
    try:
        call(*arguments)
    except ti.Fault as fault:
        return fault.number, fault.word, fault.place
    return None


def raises(call, *arguments) -> bool:
    try:
        call(*arguments)
    except KeyError:
        return True
    return False


def says(kind, call, *arguments, **more) -> str | None:
    """What an exception of this kind says that a call raises."""
    try:
        call(*arguments, **more)
    except kind as fault:
        return str(fault)
    return None


def test_mapping() -> None:
    entry = mogyarsu.Entry.from_path("examples/linux")
    expect(entry["cup"] == entry["cursor_address"] == entry[b"cup"] == b"\x1b[%i%p1%d;%p2%dH", "a text by its names")
    expect(entry["am"] is True and entry["colors"] == entry["max_colors"] == 8, "a flag and a number by their names")
    expect("cup" in entry and b"auto_right_margin" in entry and "AX" in entry, "what is in an entry")
    expect("smcup" not in entry and "hc" not in entry and "nosuch" not in entry and 7 not in entry, "what is not")
    expect("\ud800" not in entry and raises(entry.text, "\ud800"), "a name that has no bytes")
    expect(list(entry)[:2] == ["am", "xenl"] and len(entry) == len(list(entry)) == len(dict(entry)), "iteration and length")
    expect("AX" in list(entry) and all(name in entry for name in entry), "extended names are iterated")
    expect(dict(entry)["it"] == 8 and entry.get("smcup") is None and entry.get("smcup", b"") == b"", "a dict, and get")
    expect(repr(entry) == f"<Entry 'linux|Linux console', {len(entry)} capabilities>", repr(entry))
    expect(copy.deepcopy(entry) == entry and pickle.loads(pickle.dumps(entry))["cup"] == entry["cup"], "copies")
    expect(says(KeyError, entry.__getitem__, "nosuch") == repr("'nosuch': no capability has this name"), "an unknown name")
    expect(says(KeyError, entry.__getitem__, "smcup") == repr("'smcup': the terminal has no such string"), "an absent text")
    expect(says(OSError, mogyarsu.Entry.from_path, "examples/nosuch") is not None, "no file")


def test_wrong_arguments() -> None:
    cup = b"\x1b[%i%p1%d;%p2%dH"
    wrong = [
        (mogyarsu.Entry, ["examples/linux"], "data: bytes are wanted, and this is a str"),
        (mogyarsu.Entry, [5], "data: bytes are wanted, and this is a int"),
        (mogyarsu.Entry, [open("examples/linux", "rb")], "data: bytes are wanted, and this is a BufferedReader"),
        (mogyarsu.expand, [None], "capability: bytes are wanted, and this is a NoneType"),
        (mogyarsu.expand, ["cup"], "capability: bytes are wanted, and this is a str"),
        (mogyarsu.expand, [cup, 1, 2.5], "parameter 2: an int, a str or bytes are wanted, and this is a float"),
        (mogyarsu.Capability(cup), [1, None], "parameter 2: an int, a str or bytes are wanted, and this is a NoneType"),
        (mogyarsu.pad, [5], "text: bytes are wanted, and this is a int"),
        (mogyarsu.check, [5], "capability: bytes are wanted, and this is a int"),
        (mogyarsu.Entry(LINUX).text, [5], "name: a str or bytes are wanted, and this is a int"),
        (mogyarsu.send, [cup, "4", 9], "parameter 1: the capability takes an int, and this is a string"),
        (mogyarsu.expand, [b"%p1%s%p2%d", "a", b"b"], "parameter 2: the capability takes an int, and this is a string"),
        (mogyarsu.Capability(cup), [4, "9"], "parameter 2: the capability takes an int, and this is a string"),
        (mogyarsu.Capability(b"%p1%d"), ["abc"], "parameter 1: the capability takes an int, and this is a string"),
        (lambda: mogyarsu.expand(b"", variables=[0] * 52), [], "variables: Variables are wanted, and this is a list"),
        (mogyarsu.pad, [b"", "slow"], "rate: a number is wanted, and this is a str"),
    ]
    for call, arguments, sentence in wrong:
        expect(says(TypeError, call, *arguments) == sentence, f"{sentence}: {says(TypeError, call, *arguments)}")
    surrogate = "parameter 1: a surrogate is in it, which has no bytes in UTF-8"
    expect(says(ValueError, mogyarsu.expand, b"%p1%s", "\ud800") == surrogate, "a surrogate in a text")
    expect(mogyarsu.expand(b"%p1%s", "\udcff") == b"\xff", "a byte that is not UTF-8")
    range_of = "is not between -2147483648 and 2147483647"
    for call in (mogyarsu.Capability(cup), lambda *words: mogyarsu.expand(cup, *words)):
        expect(says(ValueError, call, 1, 2**31) == f"parameter 2: 2147483648 {range_of}", "a number that does not fit")
    unknown = "capability: no escape starts with the byte after the % (UnknownEscape at 0)"
    expect(says(mogyarsu.Fault, mogyarsu.expand, b"%z") == unknown, "a fault of a capability")
    expect(says(mogyarsu.Fault, mogyarsu.Capability, b"%z") == unknown, "a fault of one that is kept")
    cut = "data: the bytes end before the entry does (Truncated at 100)"
    expect(says(mogyarsu.Fault, mogyarsu.Entry, LINUX[:100]) == cut, "an entry that was cut")
    expect(says(mogyarsu.Fault, mogyarsu.Capability(cup), *range(10)) == "parameters: there are more than nine parameters (TooManyParameters)",
           "ten parameters")


def test_kept() -> None:
    move = mogyarsu.Capability(mogyarsu.Entry(LINUX)["cup"])
    expect(move(4, 9) == b"\x1b[5;10H" and move() == b"\x1b[1;1H" and move(True, -1) == b"\x1b[2;0H", "cup, kept")
    expect(mogyarsu.Capability(b"%p1%s:%p2%d")("a", 3) == b"a:3", "a capability that takes a text")
    expect(mogyarsu.Capability(b"%p2%d")("abc", 7) == b"7", "a text that is not taken")
    expect(mogyarsu.Capability(b"")() == b"" and mogyarsu.Capability(b"a\0b")() == b"a\0b", "no bytes, and a NUL")
    variables, store = mogyarsu.Variables(), mogyarsu.Capability(b"%p1%PA%gA%d")
    expect(store(7, variables=variables) == b"7" and variables.values[26] == 7 and store(8) == b"8", "variables")
    expect(move.marked is False and mogyarsu.Capability(b"$<5>").marked is True, "marks")
    expect(pickle.loads(pickle.dumps(move))(0, 0) == b"\x1b[1;1H", "a copy")
    wrong: list[int] = []

    def many(row: int) -> None:
        wrong.extend(column for column in range(2000) if move(row, column) != b"\x1b[%d;%dH" % (row + 1, column + 1))

    threads = [threading.Thread(target=many, args=(row,)) for row in range(8)]
    for thread in threads:
        thread.start()
    for thread in threads:
        thread.join()
    expect(not wrong, f"threads that share one: {wrong[:9]}")


def test_read_only() -> None:
    """What the library points into cannot be replaced by a public name."""
    move, entry = mogyarsu.Capability(mogyarsu.Entry(LINUX)["cup"]), mogyarsu.Entry(LINUX)
    for one, name in [(move, "bytes"), (move, "marked"), (entry, "names"), (entry, "number_bits")]:
        expect(says(AttributeError, setattr, one, name, b"") is not None, f"{name} is written")
        expect(says(AttributeError, delattr, one, name) is not None, f"{name} is deleted")
    for one, data in [(move, b"%p1%d"), (entry, Path("examples/vt100").read_bytes())]:
        says(TypeError, one.__init__, data)
    expect(move(4, 9) == b"\x1b[5;10H" and entry.names[0] == b"linux" and entry["colors"] == 8, "what was made is made anew")


def in_threads(count: int, call) -> None:
    threads = [threading.Thread(target=call) for _ in range(count)]
    for thread in threads:
        thread.start()
    for thread in threads:
        thread.join()


def test_first_iteration() -> None:
    """Threads that are the first to iterate over an entry see all of it, and an interrupted one leaves it whole."""
    due, seen = list(mogyarsu.Entry(LINUX)), []
    patience = sys.getswitchinterval()
    sys.setswitchinterval(1e-6)
    for _ in range(OFTEN):
        entry, barrier = mogyarsu.Entry(LINUX), threading.Barrier(4)

        def look(entry=entry, barrier=barrier) -> None:
            barrier.wait()
            try:
                seen.append(list(entry))
            except RuntimeError as fault:
                seen.append([str(fault)])

        in_threads(4, look)
    sys.setswitchinterval(patience)
    wrong = sum(names != due for names in seen)
    expect(wrong == 0 and len(seen) == 4 * OFTEN, f"{wrong} of {len(seen)} threads see another entry")
    wrong = sum(is_cut_by_interrupt(due, 2e-5 + place * 1e-6) for place in range(OFTEN))
    expect(wrong == 0, f"{wrong} of {OFTEN} entries are cut by an interrupt")


class Interrupt(Exception):
    """What the handler of a signal raises."""


def is_cut_by_interrupt(due: list[str], seconds: float) -> bool:
    """Whether an entry lacks something after its first iteration was interrupted after so many seconds."""

    def interrupt(*_) -> None:
        raise Interrupt

    entry, before = mogyarsu.Entry(LINUX), signal.signal(signal.SIGALRM, interrupt)
    try:
        signal.setitimer(signal.ITIMER_REAL, seconds)
        list(entry)
    except Interrupt:
        pass
    try:
        signal.setitimer(signal.ITIMER_REAL, 0)
    except Interrupt:
        pass
    signal.signal(signal.SIGALRM, before)
    return list(entry) != due


def test_send() -> None:
    cup = mogyarsu.Entry(LINUX)["cup"]
    expect(mogyarsu.send(cup, 4, 9) == b"\x1b[5;10H" and mogyarsu.send(b"a$<5>b") == b"ab", "what a terminal gets")
    expect(mogyarsu.send(b"%p1%s$<1>", "a$<2>b", rate=1000, pad_byte=33) == b"a!!b!", "marks of a text")
    expect(mogyarsu.send(b"$<5*>", rate=1000, affected_lines=3, xon=True) == b"", "flow control")
    expect(len(mogyarsu.send(b"$<500>", rate=1000)) == 500 and len(mogyarsu.send(b"a" * 3000)) == 3000, "more room")
    variables = mogyarsu.Variables()
    expect(mogyarsu.send(b"%p1%Pa$<1>", 7, variables=variables) == b"" and variables.values[0] == 7, "variables")
    expect(says(mogyarsu.Fault, mogyarsu.send, b"", rate=1000001) is not None, "a rate above the limit")


def test_send_kept() -> None:
    move = mogyarsu.Capability(mogyarsu.Entry(LINUX)["cup"])
    expect(move.send(4, 9) == b"\x1b[5;10H" and move.send() == b"\x1b[1;1H", "cup, kept and sent")
    marked = mogyarsu.Capability(b"a$<5>%p1%d$<2*>")
    expect(marked.send(7) == b"a7" and marked(7) == b"a$<5>7$<2*>", "marks vanish at the rate 0")
    expect(marked.send(7, rate=1000, affected_lines=2, pad_byte=33) == b"a!!!!!7!!!!" and marked.send(7, rate=1000, xon=True) == b"a7", "pad bytes")
    made = mogyarsu.Capability(b"%p1%c%p2%c3>")
    expect(made.send(36, 60, rate=1000) == b"\0\0\0" and made.marked is False, "a mark that the parameters make")
    variables, store = mogyarsu.Variables(), mogyarsu.Capability(b"%p1%PA%gA%d")
    expect(store.send(7, variables=variables) == b"7" and variables.values[26] == 7, "variables")
    expect(says(mogyarsu.Fault, lambda: store.send(8, variables=variables, rate=1000001)) is not None and variables.values[26] == 7,
           "variables after a fault")
    expect(mogyarsu.Capability(b"%p1%s$<1>").send("a$<2>b", rate=1000, pad_byte=33) == b"a!!b!", "marks of a text")
    expect(len(mogyarsu.Capability(b"a" * 3000).send()) == 3000 and len(mogyarsu.Capability(b"$<500>").send(rate=10000)) == 5000, "more room")
    expect(fault_of(lambda: move.send(*range(10))) == (201, "TooManyParameters", None), "ten parameters")
    expect(says(TypeError, lambda: move.send(1, None)) == "parameter 2: an int, a str or bytes are wanted, and this is a NoneType", "no parameter")
    expect(says(TypeError, lambda: move.send(1, colour=2)) is not None, "an argument that nothing has")


class Count:
    """A number that is no int, as those of other modules."""

    def __init__(self, number: int) -> None:
        self.number = number

    def __index__(self) -> int:
        if self.number < 0:
            raise KeyError("below 0")
        return self.number


def test_buffers() -> None:
    """Bytes of each kind, what changes or fails while it is read, and numbers of other types."""
    cup = b"\x1b[%i%p1%d;%p2%dH"
    spread = bytes(byte for byte in cup for _ in range(2))
    kinds = [bytearray(cup), memoryview(cup), memoryview(bytearray(cup)), memoryview(spread)[::2], type("Bytes", (bytes,), {})(cup)]
    for kind in kinds:
        sent = mogyarsu.send(kind, 4, 9), mogyarsu.expand(kind, 4, 9), mogyarsu.Capability(kind)(4, 9), mogyarsu.pad(kind)
        expect(sent == (b"\x1b[5;10H",) * 3 + (cup,), f"bytes as a {type(kind).__name__}")
    changing = bytearray(cup)
    move = mogyarsu.Capability(changing)
    changing[:] = b"other"
    expect(move(4, 9) == b"\x1b[5;10H", "bytes that change later")
    closed = memoryview(cup)
    closed.release()
    expect(says(ValueError, mogyarsu.send, closed) is not None and says(ValueError, mogyarsu.expand, b"%p1%s", closed) is not None, "a buffer that is closed")
    expect(move(Count(4), Count(9)) == b"\x1b[5;10H" and says(KeyError, move, 4, Count(-1)) == "'below 0'", "a number that is no int")
    expect(says(TypeError, mogyarsu.expand, cup, Count(4)) is not None and says(ValueError, move, 2**70) is not None, "what is no parameter")


def grown(call) -> int:
    """How many blocks of memory are left after a call was made often."""
    for _ in range(200):
        call()
    before = sys.getallocatedblocks()
    for _ in range(1000):
        call()
    return sys.getallocatedblocks() - before


def test_counts() -> None:
    """Nothing is held longer than its use, whether a call returns or raises."""
    cup, text, values, entry = bytes(bytearray(b"\x1b[%i%p1%d;%p2%dH")), bytes(bytearray(b"abc")), mogyarsu.Variables(), mogyarsu.Entry(LINUX)
    move = mogyarsu.Capability(cup)
    held = [cup, text, values, move, entry]
    counts = [sys.getrefcount(one) for one in held]
    name = bytes(bytearray(b"cup"))
    calls = [
        lambda: mogyarsu.expand(cup, 4, 9), lambda: mogyarsu.send(cup, 4, 9, variables=values, rate=9600), lambda: mogyarsu.expand(b"%p1%s", text),
        lambda: move(4, 9), lambda: move.send(4, 9), lambda: mogyarsu.Capability(cup).bytes, lambda: mogyarsu.pad(text), lambda: mogyarsu.check(cup),
        lambda: entry[name], lambda: name in entry, lambda: "nosuch" in entry, lambda: list(entry), lambda: entry.extended(), lambda: entry.names,
        lambda: mogyarsu.Entry(LINUX)["cup"], lambda: repr(move), lambda: move.__reduce__(), lambda: mogyarsu.expand(b"a" * 3000),
        lambda: says(TypeError, mogyarsu.expand, cup, text, None), lambda: says(TypeError, mogyarsu.expand, cup, text), lambda: says(ValueError, move, 2**40),
        lambda: says(mogyarsu.Fault, mogyarsu.expand, b"%z", text), lambda: says(mogyarsu.Fault, mogyarsu.Capability, b"%z"), lambda: says(KeyError, entry.text, "am"),
        lambda: says(mogyarsu.Fault, mogyarsu.Entry, text), lambda: says(KeyError, entry.__getitem__, "nosuch"), lambda: says(TypeError, mogyarsu.send, cup, variables=text),
        lambda: says(mogyarsu.Fault, mogyarsu.send, b"%p1%s", *[text] * 12),
    ]
    for place, call in enumerate(calls):
        more = grown(call)
        expect(more < 900, f"{more} blocks are left by 1000 calls of the kind {place}")
    expect([sys.getrefcount(one) for one in held] == counts, "references are left")


def test_entry() -> None:
    entry = ti.Entry(LINUX)
    expect(entry.names == [b"linux", b"Linux console"], f"names: {entry.names}")
    expect(entry.number_bits in (16, 32), "number_bits")
    expect(entry.flag("am") and not entry.flag("hc") and entry.flag(b"bce"), "flags")
    expect(entry.number("colors") == 8 and entry.number("cols") is None, "numbers")
    expect(entry.text("cup") == b"\x1b[%i%p1%d;%p2%dH" and entry.text("flash") is not None, "texts")
    expect(entry.text("smcup") is None and not entry.is_cancelled("text", "smcup"), "an absent text")
    expect(raises(entry.text, "colors") and raises(entry.flag, "nosuch"), "names that no text, or nothing, has")
    expect(entry.extended().get(b"AX") == "flag" and entry.flag("AX"), f"extended names: {entry.extended()}")
    expect(fault_of(ti.Entry, b"") == (1, "Truncated", 0), "no bytes")
    expect(fault_of(ti.Entry, LINUX + b"\0\0") is not None, "bytes after the entry")


def test_expand() -> None:
    cup = ti.Entry(LINUX).text("cup")
    expect(ti.expand(cup, 4, 9) == b"\x1b[5;10H", "cup")
    expect(ti.expand(b"%p1%s:%p2%d", "abc", -1) == b"abc:-1", "a text and a number")
    expect(ti.expand(b"%p1%l%d", b"\0\0\0") == b"3", "a text with NULs")
    variables = ti.Variables()
    expect(ti.expand(b"%p1%PA", 7, variables=variables) == b"" and variables.values[26] == 7, "a variable is stored")
    expect(ti.expand(b"%gA%d", variables=variables) == b"7" and ti.expand(b"%gA%d") == b"0", "a variable is read")
    expect(fault_of(ti.expand, b"%z") == (103, "UnknownEscape", 0), "a fault of a capability")
    expect(fault_of(ti.expand, b"a", *range(10)) == (201, "TooManyParameters", None), "ten parameters")
    expect(fault_of(ti.expand, b"%p2%s", 1, bytes(32768)) == (202, "TextTooLong", 2), "a text that is too long")


def test_check_and_pad() -> None:
    expect(ti.check(b"\x1b[%i%p1%d;%p2%dH") == ti.Limits(1, 0, 26, frozenset({1, 2}), frozenset()), f"limits of cup: {ti.check(ti.Entry(LINUX).text('cup'))}")
    expect(ti.check(b"%p1%s", 5).bound == 5, "the bound for a text")
    expect(ti.pad(b"a$<5>b", 960) == b"a\0\0\0\0\0b" and ti.pad(b"a$<5>b") == b"ab", "padding")
    expect(fault_of(ti.pad, b"", 1000001) == (301, "BadPadding", None), "a rate above the limit")


def test_encode() -> None:
    """Entries by hand from term(5), and what is refused."""
    bell = mogyarsu.encode(b"ring|a bell", texts=[None, b"\x07"])
    expect(bell == b"\x1a\x01\x0c\0\0\0\0\0\x02\0\x02\0ring|a bell\0\xff\xff\0\0\x07\0", "an entry of one string")
    entry = mogyarsu.Entry(
        mogyarsu.encode("t", [True, None], [70000, -2], ["a", -2], [("S", b"xyz"), ("F", True), ("N", 7)], 32))
    expect(entry.names == [b"t"] and entry.number_bits == 32, "names, and numbers of 32 bits")
    expect(dict(entry) == {"bw": True, "cols": 70000, "cbt": b"a", "F": True, "N": 7, "S": b"xyz"}, "what an entry was made of")
    expect(entry.is_cancelled("number", "it") and entry.is_cancelled("text", "bel") and not entry.flag("am"), "what is not there")
    expect(fault_of(mogyarsu.encode, "") == (501, "BadName", None), "no names")
    expect(fault_of(mogyarsu.encode, "t", (), (), ["a\0"], [("x\0", 1)]) == (501, "BadName", None), "a NUL in a name")
    expect(fault_of(mogyarsu.encode, "t", (), [-3], ["a\0"]) == (502, "NulInText", None), "a NUL in a string")
    expect(fault_of(mogyarsu.encode, "t", (), [32768]) == (503, "NumberOutOfRange", None), "a number of more than 16 bits")
    expect(fault_of(mogyarsu.encode, "t", (), (), [b"a" * 32768]) == (504, "TooManyOrLong", None), "more than 32768 bytes")
    expect(says(ValueError, mogyarsu.encode, "t", number_bits=64) == "number_bits: 64 is neither 16 nor 32", "no such width")
    expect(says(ValueError, mogyarsu.encode, "t", [2]) == "flags: 2 is not between -2 and 1", "no mark of a boolean")
    expect(says(TypeError, mogyarsu.encode, "t", (), (), (), ["F"]) == "extended: pairs are wanted, and this is a str", "no pair")
    expect(says(TypeError, mogyarsu.encode, "t", (), [1.5]) == "numbers: a number is wanted, and this is a float", "no number")


def test_version() -> None:
    told = subprocess.run(["./ti", "--version"], capture_output=True, text=True, check=True).stdout.split()[1]
    expect(".".join(map(str, ti.version())) == told, f"version {ti.version()}, not {told}")


def test_former_name() -> None:
    expect(ti.Entry is mogyarsu.Entry and ti.expand is mogyarsu.expand and ti.__version__ == mogyarsu.__version__, "ti")


for test in (test_mapping, test_wrong_arguments, test_kept, test_read_only, test_first_iteration, test_send, test_send_kept, test_buffers, test_counts, test_entry, test_expand, test_check_and_pad, test_encode,
             test_version, test_former_name):
    test()
print(f"python: {passed} passed, {failed} failed")
sys.exit(1 if failed else 0)
