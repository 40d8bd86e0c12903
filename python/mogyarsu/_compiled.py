"""What mogyarsu has over its compiled module _ti, which is much faster than the same calls by ctypes (_by_ctypes.py)."""

from __future__ import annotations

from _collections_abc import Mapping

from mogyarsu import _ti
from mogyarsu._ti import Capability as Capability
from mogyarsu._ti import encode as encode
from mogyarsu._ti import expand as expand
from mogyarsu._ti import pad as pad
from mogyarsu._ti import send as send
from mogyarsu._ti import version as version

# What the hints of types name is imported for those who check them, and takes no time otherwise.
TYPE_CHECKING = False
if TYPE_CHECKING:
    from collections.abc import Iterator
    from os import PathLike
    from typing import Any, ClassVar

    from mogyarsu import Text

KINDS = ["flag", "number", "text"]
# The same in sentences, by the words of terminfo(5).
SAID = ["boolean", "numeric capability", "string"]
CANCELLED, MOST_BYTES = -2, 32768


class Fault(ValueError):
    """What a call refuses: the argument, the number, the word and the sentence of the fault (ti(3)), and its place, if there is one."""

    def __init__(self, argument: str, number: int, place: int | None = None) -> None:
        self.argument, self.number, self.place = argument, number, place
        self.word, self.message = _ti.word(number), _ti.message(number)
        where = "" if place is None else f" at {place}"
        super().__init__(f"{argument}: {self.message} ({self.word}{where})")

    def __reduce__(self) -> tuple[type[Fault], tuple[str, int, int | None]]:
        return Fault, (self.argument, self.number, self.place)


class _Record:
    """A class whose objects are equal if their fields are, and show them."""

    __hash__ = None  # type: ignore[assignment]
    __match_args__: ClassVar[tuple[str, ...]]

    def __eq__(self, other: object) -> bool:
        if other.__class__ is not self.__class__:
            return NotImplemented
        return self.__dict__ == other.__dict__

    def __repr__(self) -> str:
        return f"{self.__class__.__qualname__}({', '.join(f'{name}={self.__dict__[name]!r}' for name in self.__match_args__)})"


class Limits(_Record):
    """The most that a capability needs, over all its paths: values on the stack, conditionals that are open at once, and bytes
    of output; and the parameters that it names, and that it takes as strings."""

    __match_args__ = ("depth", "nest", "bound", "named", "texts")

    def __init__(self, depth: int, nest: int, bound: int, named: frozenset[int], texts: frozenset[int]) -> None:
        self.depth, self.nest, self.bound, self.named, self.texts = depth, nest, bound, named, texts


class Variables(_Record):
    """The variables a to z, then A to Z. Each expansion goes on with what the one before left."""

    __match_args__ = ("values",)

    def __init__(self, values: list[int] | None = None) -> None:
        self.values = [0] * 52 if values is None else values


_ti.take_classes(Fault, Variables)


def _numbers(mask: int) -> frozenset[int]:
    """The parameters of a mask: bit N - 1 is for parameter N."""
    return frozenset(number for number in range(1, 10) if mask >> (number - 1) & 1)


def check(capability: Text, longest_text: int = 0) -> Limits:
    """Checks a capability, for strings of this length among the parameters. Raises Fault if the bytes are no capability."""
    depth, nest, bound, named, texts = _ti.check(capability, longest_text)
    return Limits(depth, nest, bound, _numbers(named), _numbers(texts))


class Entry(_ti.View, Mapping):  # type: ignore[type-arg]
    """A compiled entry (term(5)), which has to be all of the bytes: a mapping of the names of what the terminal has to its values.

    A boolean is True, a numeric capability an int, a string bytes. Iteration goes over short names, the standard booleans, numeric
    capabilities and strings first. A name can be a long one, and bytes. The methods flag, number and text have the type of one kind,
    for who checks types.
    """

    _items: dict[str, bool | int | bytes] | None = None

    @property
    def names(self) -> list[bytes]:
        """The names of the terminal, the last of which describes it."""
        return self._names.split(b"|")

    @classmethod
    def from_path(cls, path: str | PathLike[str]) -> Entry:
        """The entry of a file. OSError if it cannot be read, Fault if it is none."""
        with open(path, "rb") as file:
            return cls(file.read(MOST_BYTES + 1))

    def _all(self) -> dict[str, bool | int | bytes]:
        """What the terminal has, by short names, found once. Others see it when it is whole."""
        if self._items is None:
            self._items = self._listed()
        return self._items

    def __iter__(self) -> Iterator[str]:
        return iter(self._all())

    def __len__(self) -> int:
        return len(self._all())

    def __repr__(self) -> str:
        return f"<Entry {self._names.decode('utf-8', 'backslashreplace')!r}, {len(self)} capabilities>"

    def __reduce__(self) -> tuple[type[Entry], tuple[bytes]]:
        return Entry, (self._data,)

    def _of_kind(self, kind: int, name: bytes | str) -> tuple[int, bytes | None]:
        """The number and the string of the capability with a name. KeyError if it is of another kind."""
        found, number, text = self._found(name)
        if found != kind:
            raise KeyError(f"{name!r}: this is a {SAID[found]}, and no {SAID[kind]}")
        return number, text

    def flag(self, name: bytes | str) -> bool:
        """Whether a boolean is set. KeyError if no boolean has the name."""
        return self._of_kind(0, name)[0] == 1

    def number(self, name: bytes | str) -> int | None:
        """A number, or None if it is absent or cancelled. KeyError if no number has the name."""
        number = self._of_kind(1, name)[0]
        return number if number >= 0 else None

    def text(self, name: bytes | str) -> bytes | None:
        """A string, or None if it is absent or cancelled. KeyError if no string has the name."""
        return self._of_kind(2, name)[1]

    def is_cancelled(self, kind: str, name: bytes | str) -> bool:
        """Whether the boolean, the numeric capability or the string of a name is cancelled; the kind is flag, number or text."""
        if kind not in KINDS:
            raise ValueError(f"kind: flag, number or text is wanted, and this is {kind!r}")
        return self._of_kind(KINDS.index(kind), name)[0] == CANCELLED

    def extended(self) -> dict[bytes, str]:
        """The names of the user-defined capabilities, each with the kind: flag, number or text."""
        named: dict[bytes, str] = {}
        for kind, word in enumerate(KINDS):
            for name in self._extended(kind):
                named.setdefault(name, word)
        return named
