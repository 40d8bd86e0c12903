"""Does what once made the library read memory that was freed, or past the end of what it was given; python/check runs it under valgrind.

Each step goes on with what the module gives: the bytes of a capability are to be replaced, it is made anew while a call lasts, and a
class says that its bytes are more than they are.
"""

import contextlib
import sys

# The module is that which PYTHONPATH names, and not the one beside this file.
sys.path.append(sys.path.pop(0))

import mogyarsu

LONG = b"\x1b[%i%p1%d;%p2%dH" + b"X" * 200
OUTPUT = b"\x1b[5;10H" + b"X" * 200


def fill() -> list[bytes]:
    """New objects, which take the place of what was freed."""
    return [bytes([65 + place % 26]) * len(LONG) for place in range(50)]


class Index:
    """A number that makes its capability anew when it is read."""

    def __index__(self) -> int:
        capability.__init__(b"%p1%d")
        self.filled = fill()
        return 4


class Longer(bytes):
    def __len__(self) -> int:
        return 4000

    def __bytes__(self) -> bytes:
        return self


capability = mogyarsu.Capability(bytearray(LONG))
with contextlib.suppress(AttributeError):
    capability.bytes = b"other"
filled = fill()
assert capability(4, 9) == OUTPUT, "the bytes of a capability were replaced"

capability = mogyarsu.Capability(bytearray(LONG))
assert capability(Index(), 9) == OUTPUT, "a capability was made anew while a call lasted"

with open("examples/linux", "rb") as file:
    data = file.read()
assert mogyarsu.expand(Longer(b"abc")) == b"abc" and mogyarsu.pad(Longer(b"abc")) == b"abc"
assert mogyarsu.Entry(Longer(data))["colors"] == 8 and mogyarsu.expand(b"%p1%s", Longer(b"abc")) == b"abc"
