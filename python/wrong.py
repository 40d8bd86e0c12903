"""Makes calls of the module mogyarsu, most of which are wrong, in an order that a seed gives; python/check runs it under AddressSanitizer.

    python/wrong.py CALLS SEED

What a call raises has to be of the kinds that the module names. The last line is 'wrong: N calls, M returned'.
"""

import random
import sys
from pathlib import Path

# The module is that which PYTHONPATH names, and not the one beside this file.
sys.path.append(sys.path.pop(0))

import mogyarsu

LINUX = Path("examples/linux").read_bytes()
ENTRY = mogyarsu.Entry(LINUX)
TEXTS = [value for value in ENTRY.values() if isinstance(value, bytes)]
RAISED = (mogyarsu.Fault, ValueError, TypeError, KeyError, AttributeError, IndexError, OverflowError, MemoryError, BufferError)


class Bad(Exception):
    """What the objects below raise."""


class Strange:
    """A number, a length and an order that change, or are none."""

    def __index__(self) -> int:
        return pick([1, -1, 2**31, 2**70, 10**18])

    def __bool__(self) -> bool:
        if chance.random() < 0.5:
            raise Bad
        return True

    def __len__(self) -> int:
        return pick([0, 52, 2**40])

    def __iter__(self):
        return iter(pick([[], [0] * 52, [None] * 52, [2**40] * 52]))


class Longer(bytes):
    def __len__(self) -> int:
        return 2**20


class Moving(mogyarsu.Variables):
    """Variables whose values are another thing at each look."""

    @property
    def values(self):
        array[:] = bytes(chance.randrange(300))
        return pick([[0] * 52, [1] * 51, [2**31] * 52, None, Strange(), [None] * 52, tuple(range(52))])

    @values.setter
    def values(self, values) -> None:
        if chance.random() < 0.2:
            raise Bad


chance = random.Random(int(sys.argv[2]))
pick, array = chance.choice, bytearray(b"%p1%d%s")


def text():
    """The bytes of a capability or of an entry, whole, cut or changed, in any type."""
    one = bytearray(pick([LINUX, b"", b"%p1%s%p2%l%d", b"%p1%PA%gA%d", b"$<5*>%p1%c", b"%", bytes(chance.randrange(2000)), *TEXTS[:40]]))
    if one and chance.random() < 0.3:
        one[chance.randrange(len(one))] = chance.randrange(256)
    if chance.random() < 0.2:
        del one[chance.randrange(len(one) + 1):]
    return pick([bytes, bytes, bytes, bytearray, memoryview, Longer, lambda data: memoryview(data)[::2], lambda data: array])(one)


def thing():
    """A value of any type."""
    return pick([
        lambda: chance.randrange(-100, 100), lambda: chance.randrange(300), lambda: pick([2**31, -2**31, 2**63, -2**70, 10**5000]), lambda: True, text,
        lambda: "cup", lambda: "\ud800", lambda: "\udcff", lambda: None, lambda: 1.5, Strange, lambda: [1], lambda: mogyarsu.Variables(), Moving,
        lambda: b"a" * chance.randrange(40000),
    ])()


def number():
    return chance.randrange(-5, 300) if chance.random() < 0.8 else thing()


def named():
    """Arguments that have names."""
    names = ["variables", "rate", "affected_lines", "xon", "pad_byte", "capability", "none"]
    found = {}
    for name in chance.sample(names, pick([0, 0, 1, 2, 4])):
        found[name] = pick([mogyarsu.Variables(), Moving(), None, thing()]) if name == "variables" else number()
    return found


def numbers():
    return [number() for _ in range(pick([0, 1, 2, 2, 9, 10, 12]))]


def call():
    """One call."""
    capability = mogyarsu.Capability(pick(TEXTS)) if chance.random() < 0.5 else None
    return pick([
        lambda: mogyarsu.expand(text(), *numbers(), **named()), lambda: mogyarsu.send(text(), *numbers(), **named()),
        lambda: mogyarsu.expand(thing(), *numbers()), lambda: mogyarsu.pad(text(), *[number() for _ in range(chance.randrange(5))]),
        lambda: mogyarsu.pad(thing(), **named()), lambda: mogyarsu.check(text(), number()), lambda: mogyarsu.Capability(text()),
        lambda: (capability or mogyarsu.Capability(text()))(*numbers(), **named()), lambda: (capability or mogyarsu.Capability(thing())).send(*numbers(), **named()),
        lambda: mogyarsu.Entry(text()), lambda: list(mogyarsu.Entry(text())), lambda: ENTRY[thing()], lambda: thing() in ENTRY, lambda: ENTRY.text(thing()),
        lambda: ENTRY.number(thing()), lambda: ENTRY.is_cancelled(pick(["text", "flag", "none"]), thing()), lambda: mogyarsu.Fault(thing(), number(), thing()),
        lambda: mogyarsu.expand(**named()), lambda: repr(capability), lambda: capability.bytes, lambda: capability.__init__(text()),
    ])()


returned = 0
for _ in range(int(sys.argv[1])):
    try:
        call()
        returned += 1
    except (Bad, *RAISED):
        pass
print(f"wrong: {sys.argv[1]} calls, {returned} returned")
