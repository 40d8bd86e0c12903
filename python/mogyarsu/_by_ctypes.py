"""What mogyarsu has over the shared library, where its compiled module was not built."""

from collections.abc import Iterable, Iterator, Mapping
from ctypes import POINTER, Array, PyDLL, Structure, byref, c_char_p, c_int8, c_int32, c_size_t, c_uint8, c_uint16, c_uint32
from ctypes import c_uint64, c_void_p, cast, create_string_buffer, string_at
from dataclasses import dataclass, field
from os import PathLike
from pathlib import Path
from struct import Struct
from struct import error as StructError
from typing import Any, ClassVar, Union

from mogyarsu import LIBRARY

Value = Union[bool, int, bytes]
"""What an entry says: a boolean is a bool, a numeric capability an int, a string bytes."""
Text = Union[bytes, bytearray, memoryview]
Parameter = Union[int, str, Text]

DONE, TOO_MANY_PARAMETERS, TEXT_TOO_LONG, OUT_TOO_SMALL, BAD_PADDING, CANCELLED = 0, 201, 202, 203, 301, -2
KINDS = ["flag", "number", "text"]
# The same in sentences, by the words of terminfo(5).
SAID = ["boolean", "numeric capability", "string"]
MOST_BYTES, MOST_PARAMETERS = 32768, 9


def _load() -> PyDLL:
    """The library. Its calls take less time than to let other threads run meanwhile, so none of them does."""
    beside = Path(__file__).resolve().parent / LIBRARY
    try:
        return PyDLL(str(beside) if beside.exists() else beside.name)
    except OSError as fault:
        raise ImportError(f"the library libti is not found, neither as {beside} nor by the loader: {fault}") from fault


_library = _load()


# ---- the structures of ti.h


class _Bytes(Structure):
    _fields_ = [("address", c_void_p), ("length", c_size_t)]
    address: int | None
    length: int

    def copy(self) -> bytes:
        return string_at(self.address, self.length) if self.address and self.length else b""


class _Counts(Structure):
    COUNTS: ClassVar[list[str]] = ["flags", "numbers", "texts", "extended_flags", "extended_numbers", "extended_texts"]
    _fields_ = [("names", _Bytes), *((name, c_size_t) for name in COUNTS), ("number_bits", c_uint32), ("place", c_size_t)]
    names: _Bytes
    number_bits: int
    place: int


class _TextItem(Structure):
    _fields_ = [("text", _Bytes), ("mark", c_int8)]


class _Arrays(Structure):
    _fields_ = [
        ("flags", c_void_p), ("flag_room", c_size_t), ("numbers", c_void_p), ("number_room", c_size_t), ("texts", c_void_p),
        ("text_room", c_size_t), ("names", c_void_p), ("name_room", c_size_t),
    ]


class _View(Structure):
    _fields_ = [("counts", _Counts), ("bytes", _Bytes), ("base", c_size_t)]
    counts: _Counts
    # The bytes into which it points, and which live as long.
    data: bytes


class _Value(Structure):
    _fields_ = [("text", _Bytes), ("number", c_int32), ("kind", c_uint32)]
    text: _Bytes
    number: int
    kind: int

    def held(self) -> Value | None:
        """The value, or None if the entry lacks the capability."""
        if self.kind == 0:
            return True if self.number == 1 else None
        if self.number < 0:
            return None
        return self.number if self.kind == 1 else self.text.copy()


class _Parameter(Structure):
    _fields_ = [("text", _Bytes), ("number", c_int32), ("is_text", c_uint8)]
    text: _Bytes
    number: int
    is_text: int


class _Variables(Structure):
    _fields_ = [("values", c_int32 * 52)]
    values: Array[c_int32]


class _Limits(Structure):
    _fields_ = [
        ("depth", c_size_t), ("nest", c_size_t), ("bound", c_uint64), ("place", c_size_t), ("named", c_uint16), ("texts", c_uint16)
    ]
    depth: int
    nest: int
    bound: int
    place: int
    named: int
    texts: int


class _Run(Structure):
    _fields_ = [(name, c_size_t) for name in ("written", "ran", "passed", "peak", "place")]
    written: int
    place: int


class _Kept(Structure):
    _fields_ = [
        ("bytes", _Bytes), ("bound", c_uint64), ("count", c_uint32), ("marked", c_uint16), ("varied", c_uint16),
        ("steps", c_uint64 * 96),
    ]
    # The bytes into which it points, and which live as long.
    data: bytes
    bound: int
    marked: int
    varied: int


class _Padding(Structure):
    _fields_ = [("rate", c_uint32), ("affected_lines", c_uint32), ("xon", c_uint8), ("pad", c_uint8)]


class _Terminal(Structure):
    _fields_ = [("padding", _Padding), ("vars", _Variables)]
    vars: _Variables


class _Sent(Structure):
    _fields_ = [("length", c_size_t), ("place", c_size_t)]
    length: int
    place: int


def _declare(name: str, *arguments: Any) -> None:
    getattr(_library, name).argtypes = arguments
    getattr(_library, name).restype = c_uint32


_TEXT = (c_char_p, c_size_t)
_declare("ti_open", *_TEXT, POINTER(_View))
_declare("ti_view_find", POINTER(_View), *_TEXT, POINTER(_Value))
_declare("ti_view_item", POINTER(_View), c_size_t, POINTER(_Bytes), POINTER(c_uint32), POINTER(_Value))
_declare("ti_view_extended", POINTER(_View), c_uint32, c_size_t, POINTER(_Bytes), POINTER(_Value))
_declare("ti_encode", POINTER(_Arrays), POINTER(_Counts), c_uint32, c_void_p, c_size_t, POINTER(c_size_t))
_declare("ti_check", *_TEXT, c_uint16, POINTER(_Limits))
_declare("ti_expand", *_TEXT, c_void_p, c_size_t, POINTER(_Variables), c_void_p, c_size_t, POINTER(_Run))
_declare("ti_compile", *_TEXT, POINTER(_Kept), POINTER(c_size_t))
_declare("ti_pad", *_TEXT, POINTER(_Padding), c_void_p, c_size_t, POINTER(c_size_t))
_declare("ti_send", *_TEXT, c_void_p, c_size_t, POINTER(_Terminal), c_void_p, c_size_t, POINTER(_Sent))
_declare("ti_word", c_uint32, POINTER(_Bytes))
_declare("ti_message", c_uint32, POINTER(_Bytes))
_declare("ti_version")


# ---- faults and arguments


class Fault(ValueError):
    """What a call refuses: the argument, the number, the word and the sentence of the fault (ti(3)), and its place, if there is one."""

    def __init__(self, argument: str, number: int, place: int | None = None) -> None:
        word, message = _Bytes(), _Bytes()
        _library.ti_word(number, byref(word))
        _library.ti_message(number, byref(message))
        self.argument, self.number, self.place = argument, number, place
        self.word, self.message = word.copy().decode(), message.copy().decode()
        where = "" if place is None else f" at {place}"
        super().__init__(f"{argument}: {self.message} ({self.word}{where})")

    def __reduce__(self) -> tuple[type["Fault"], tuple[str, int, int | None]]:
        return Fault, (self.argument, self.number, self.place)


def _within(argument: str, value: int, least: int, most: int) -> int:
    """A number for C, which would be cut to its lowest bits if it did not fit."""
    if not isinstance(value, int):
        raise TypeError(f"{argument}: a number is wanted, and this is a {type(value).__name__}")
    value = int.__index__(value)
    if not least <= value <= most:
        raise ValueError(f"{argument}: {value} is not between {least} and {most}")
    return value


def _bytes_of(argument: str, value: Text) -> bytes:
    """The bytes of an argument, which is no str and no number."""
    if isinstance(value, (bytes, bytearray, memoryview)):
        # What a class says of the length of its bytes does not count.
        return memoryview(value).tobytes()
    raise TypeError(f"{argument}: bytes are wanted, and this is a {type(value).__name__}")


def _text_of(argument: str, value: str | Text, wanted: str = "a str or bytes are") -> bytes:
    """The bytes of a name or of a string among parameters; those of a str are UTF-8, as Python has the names of files."""
    if isinstance(value, (bytes, bytearray, memoryview)):
        return _bytes_of(argument, value)
    if not isinstance(value, str):
        raise TypeError(f"{argument}: {wanted} wanted, and this is a {type(value).__name__}")
    try:
        return str.encode(value, "utf-8", "surrogateescape")
    except UnicodeEncodeError:
        raise ValueError(f"{argument}: a surrogate is in it, which has no bytes in UTF-8") from None


# ---- entries


class Entry(Mapping[str, Any]):
    """A compiled entry (term(5)), which has to be all of the bytes: a mapping of the names of what the terminal has to its values.

    A boolean is True, a numeric capability an int, a string bytes. Iteration goes over short names, the standard booleans, numeric
    capabilities and strings first. A name can be a long one, and bytes. The methods flag, number and text have the type of one kind,
    for who checks types.
    """

    _view: _View
    _items: dict[str, Value] | None

    # It is whole before anyone has it, and never read anew.
    def __new__(cls, data: Text) -> "Entry":
        view = _View()
        view.data = _bytes_of("data", data)
        if fault := _library.ti_open(view.data, len(view.data), byref(view)):
            raise Fault("data", fault, view.counts.place)
        entry = super().__new__(cls)
        entry._view, entry._items = view, None
        return entry

    @property
    def names(self) -> list[bytes]:
        """The names of the terminal, the last of which describes it."""
        return self._view.counts.names.copy().split(b"|")

    @property
    def number_bits(self) -> int:
        """How wide the numbers are in the file: 16 or 32."""
        return self._view.counts.number_bits

    @classmethod
    def from_path(cls, path: str | PathLike[str]) -> "Entry":
        """The entry of a file. OSError if it cannot be read, Fault if it is none."""
        with open(path, "rb") as file:
            return cls(file.read(MOST_BYTES + 1))

    def _found(self, name: str | bytes) -> _Value:
        """What the entry says of the capability with a name."""
        try:
            word, value = _text_of("name", name), _Value()
        except ValueError:
            raise KeyError(f"{name!r}: no capability has this name") from None
        if _library.ti_view_find(byref(self._view), word, len(word), byref(value)):
            raise KeyError(f"{name!r}: no capability has this name")
        return value

    def _all(self) -> dict[str, Value]:
        """What the terminal has, by short names, found once. Others see it when it is whole."""
        if self._items is None:
            items: dict[str, Value] = {}
            name, extended, value, place = _Bytes(), c_uint32(), _Value(), 0
            while _library.ti_view_item(byref(self._view), place, byref(name), byref(extended), byref(value)) == DONE:
                held = value.held()
                if held is not None and name.length:
                    items.setdefault(name.copy().decode("utf-8", "surrogateescape"), held)
                place += 1
            self._items = items
        return self._items

    def __getitem__(self, name: str | bytes) -> Any:
        value = self._found(name)
        held = value.held()
        if held is None:
            raise KeyError(f"{name!r}: the terminal has no such {SAID[value.kind]}")
        return held

    def __iter__(self) -> Iterator[str]:
        return iter(self._all())

    def __len__(self) -> int:
        return len(self._all())

    def __contains__(self, name: object) -> bool:
        if not isinstance(name, (str, bytes)):
            return False
        try:
            return self._found(name).held() is not None
        except KeyError:
            return False

    def __repr__(self) -> str:
        return f"<Entry {b'|'.join(self.names).decode('utf-8', 'backslashreplace')!r}, {len(self)} capabilities>"

    def __reduce__(self) -> tuple[type["Entry"], tuple[bytes]]:
        return Entry, (self._view.data,)

    def _of_kind(self, kind: int, name: bytes | str) -> _Value:
        value = self._found(name)
        if value.kind != kind:
            raise KeyError(f"{name!r}: this is a {SAID[value.kind]}, and no {SAID[kind]}")
        return value

    def flag(self, name: bytes | str) -> bool:
        """Whether a boolean is set. KeyError if no boolean has the name."""
        return self._of_kind(0, name).number == 1

    def number(self, name: bytes | str) -> int | None:
        """A number, or None if it is absent or cancelled. KeyError if no number has the name."""
        number = self._of_kind(1, name).number
        return number if number >= 0 else None

    def text(self, name: bytes | str) -> bytes | None:
        """A string, or None if it is absent or cancelled. KeyError if no string has the name."""
        value = self._of_kind(2, name)
        return value.text.copy() if value.number == 0 else None

    def is_cancelled(self, kind: str, name: bytes | str) -> bool:
        """Whether the boolean, the numeric capability or the string of a name is cancelled; the kind is flag, number or text."""
        if kind not in KINDS:
            raise ValueError(f"kind: flag, number or text is wanted, and this is {kind!r}")
        return self._of_kind(KINDS.index(kind), name).number == CANCELLED

    def extended(self) -> dict[bytes, str]:
        """The names of the user-defined capabilities, each with the kind: flag, number or text."""
        named: dict[bytes, str] = {}
        name, value = _Bytes(), _Value()
        for kind, word in enumerate(KINDS):
            for index in range(getattr(self._view.counts, f"extended_{word}s")):
                _library.ti_view_extended(byref(self._view), kind, index, byref(name), byref(value))
                named.setdefault(name.copy(), word)
        return named


# ---- capabilities


ENCODE_FAULTS = {501: "names", 502: "texts", 503: "numbers"}


def _lent(argument: str, value: str | Text, held: list[bytes]) -> _Bytes:
    """The bytes of an argument, which last as long as the list of those that are held."""
    held.append(_text_of(argument, value))
    return _Bytes(cast(c_char_p(held[-1]), c_void_p), len(held[-1]))


def _mark(argument: str, value: int | None, least: int, most: int) -> int:
    """A number for C; None is absent."""
    return -1 if value is None else _within(argument, value, least, most)


def _text_item(value: str | Text | int | None, held: list[bytes]) -> _TextItem:
    if value is None or isinstance(value, int):
        return _TextItem(_Bytes(), _mark("texts", value, CANCELLED, -1))
    return _TextItem(_lent("texts", value, held), 0)


def _kind_of(value: int | str | Text) -> int:
    """The kind of a user-defined capability by the type of its value."""
    return 0 if isinstance(value, bool) else 1 if isinstance(value, int) else 2


def _pair(value: object) -> tuple[Any, Any]:
    if not isinstance(value, tuple):
        raise TypeError(f"extended: pairs are wanted, and this is a {type(value).__name__}")
    if len(value) != 2:
        raise TypeError("extended: pairs of a name and a value are wanted")
    return value[0], value[1]


def encode(
    names: str | Text, flags: Iterable[int | None] = (), numbers: Iterable[int | None] = (),
    texts: Iterable[str | Text | int | None] = (), extended: Iterable[tuple[str | Text, int | str | Text]] = (), number_bits: int = 16,
) -> bytes:
    """The bytes of the entry with these names, which | separates, and these capabilities: lists of the standard ones by their
    indexes, and of the user-defined ones pairs of a name and a bool, an int or bytes. None is absent, and -2 cancelled. Its numbers
    have 16 bits or 32. Raises Fault if the names are empty, a name or a string holds a NUL, a number is out of range, or the
    entry would have more than 32768 bytes."""
    if number_bits not in (16, 32):
        raise ValueError(f"number_bits: {number_bits} is neither 16 nor 32")
    held: list[bytes] = []
    lists: list[list[Any]] = [list(flags), list(numbers), list(texts)]
    pairs = [_pair(one) for one in extended]
    named = [[pair for pair in pairs if _kind_of(pair[1]) == kind] for kind in range(3)]
    counts = _Counts(_lent("names", names, held), *map(len, lists), *map(len, named))
    marks = [_mark("flags", one, CANCELLED, 1) for one in [*lists[0], *(value for _, value in named[0])]]
    words = [_mark("numbers", one, -(2**31), 2**31 - 1) for one in [*lists[1], *(value for _, value in named[1])]]
    items = [_text_item(one, held) for one in [*lists[2], *(value for _, value in named[2])]]
    called = [_lent("extended", name, held) for kind in named for name, _ in kind]
    filled: list[Any] = [
        (c_int8 * len(marks))(*marks), (c_int32 * len(words))(*words), (_TextItem * len(items))(*items), (_Bytes * len(called))(*called)
    ]
    arrays = _Arrays(*(part for one in filled for part in (cast(one, c_void_p), len(one))))
    out, length = create_string_buffer(MOST_BYTES), c_size_t()
    if fault := _library.ti_encode(byref(arrays), byref(counts), number_bits, out, MOST_BYTES, byref(length)):
        raise Fault(ENCODE_FAULTS.get(fault, "entry"), fault)
    return _front(out, length.value)


@dataclass
class Limits:
    """The most that a capability needs, over all its paths: values on the stack, conditionals that are open at once, and bytes
    of output; and the parameters that it names, and that it takes as strings."""

    depth: int
    nest: int
    bound: int
    named: frozenset[int]
    texts: frozenset[int]


@dataclass
class Variables:
    """The variables a to z, then A to Z. Each expansion goes on with what the one before left."""

    values: list[int] = field(default_factory=lambda: [0] * 52)


def _numbers(mask: int) -> frozenset[int]:
    """The parameters of a mask: bit N - 1 is for parameter N."""
    return frozenset(number for number in range(1, 10) if mask >> (number - 1) & 1)


def check(capability: Text, longest_text: int = 0) -> Limits:
    """Checks a capability, for strings of this length among the parameters. Raises Fault if the bytes are no capability."""
    bytes_, limits = _bytes_of("capability", capability), _Limits()
    if fault := _library.ti_check(bytes_, len(bytes_), _within("longest_text", longest_text, 0, 65535), byref(limits)):
        raise Fault("capability", fault, limits.place)
    return Limits(limits.depth, limits.nest, limits.bound, _numbers(limits.named), _numbers(limits.texts))


def _refuse_texts(capability: bytes, texts: list[int]) -> None:
    """Raises TypeError if the capability takes one of these parameters, which are strings, only as a number."""
    limits = _Limits()
    if _library.ti_check(capability, len(capability), 0, byref(limits)):
        # The fault is that of the call that follows.
        return
    for place in texts:
        if place in _numbers(limits.named) - _numbers(limits.texts):
            raise TypeError(f"parameter {place}: the capability takes an int, and this is a string")


def _given(capability: bytes, parameters: tuple[Parameter, ...]) -> tuple[Array[_Parameter], list[bytes]]:
    """The parameters for C, and the strings into which they point."""
    given, texts = (_Parameter * len(parameters))(), []
    for place, value in enumerate(parameters, 1):
        one = given[place - 1]
        if isinstance(value, int):
            one.number = _within(f"parameter {place}", value, -(2**31), 2**31 - 1)
        else:
            texts.append(_text_of(f"parameter {place}", value, "an int, a str or bytes are"))
            one.text.address, one.text.length, one.is_text = cast(c_char_p(texts[-1]), c_void_p).value, len(texts[-1]), 1
    if texts:
        _refuse_texts(capability, [place for place, one in enumerate(given, 1) if one.is_text])
    return given, texts


def _variables_for(variables: Variables | None) -> _Variables:
    if variables is None:
        return _Variables()
    if not isinstance(variables, Variables):
        raise TypeError(f"variables: Variables are wanted, and this is a {type(variables).__name__}")
    if len(variables.values) != 52:
        raise ValueError(f"variables: there are {len(variables.values)} values, and 52 are wanted")
    return _Variables((c_int32 * 52)(*(_within("variables", value, -(2**31), 2**31 - 1) for value in variables.values)))


def _fault_of(number: int, place: int) -> Fault:
    """The fault of an expansion, with the argument at which it is."""
    if number == TOO_MANY_PARAMETERS:
        return Fault("parameters", number)
    if number == TEXT_TOO_LONG:
        return Fault(f"parameter {place}", number, place)
    return Fault("padding", number) if number >= BAD_PADDING else Fault("capability", number, place)


def _front(out: Any, length: int) -> bytes:
    """The first bytes of a buffer, which it gives as bytes if it is sliced."""
    front: bytes = out[:length]
    return front


def expand(capability: Text, *parameters: Parameter, variables: Variables | None = None) -> bytes:
    """The output of a capability for up to nine parameters, each a number of 32 bits or a string. Delays are still in it; what a
    terminal gets, send returns.

    Raises Fault if the bytes are no capability, there are more parameters, or a string is longer than 32767 bytes, ValueError if a
    number does not have 32 bits, and TypeError if a parameter is a string that the capability takes as a number. Then the variables
    are as before.
    """
    bytes_ = _bytes_of("capability", capability)
    given, _texts = _given(bytes_, parameters)
    kept, run, room = _variables_for(variables), _Run(), 256
    while True:
        out = create_string_buffer(room)
        fault = _library.ti_expand(bytes_, len(bytes_), given, len(given), byref(kept), out, room, byref(run))
        if fault != OUT_TOO_SMALL:
            break
        room = run.place
    if fault:
        raise _fault_of(fault, run.place)
    if variables is not None:
        variables.values = list(kept.values)
    return _front(out, run.written)


def _padding(rate: int, affected_lines: int, xon: bool, pad_byte: int) -> _Padding:
    return _Padding(
        _within("rate", rate, 0, 2**32 - 1), _within("affected_lines", affected_lines, 0, 2**32 - 1), bool(xon),
        _within("pad_byte", pad_byte, 0, 255),
    )


def send(
    capability: Text, *parameters: Parameter, variables: Variables | None = None, rate: int = 0, affected_lines: int = 1,
    xon: bool = False, pad_byte: int = 0,
) -> bytes:
    """What a terminal gets: the output of a capability, as expand has it, with each delay as pad has it."""
    bytes_ = _bytes_of("capability", capability)
    given, _texts = _given(bytes_, parameters)
    terminal = _Terminal(_padding(rate, affected_lines, xon, pad_byte), _variables_for(variables))
    sent, room = _Sent(), 256
    while True:
        out = create_string_buffer(room)
        fault = _library.ti_send(bytes_, len(bytes_), given, len(given), byref(terminal), out, room, byref(sent))
        if fault != OUT_TOO_SMALL:
            break
        room = sent.place
    if fault:
        raise _fault_of(fault, sent.place)
    if variables is not None:
        variables.values = list(terminal.vars.values)
    return _front(out, sent.length)


def pad(text: Text, rate: int = 0, affected_lines: int = 1, xon: bool = False, pad_byte: int = 0) -> bytes:
    """The string with each delay, such as $<5>, as pad bytes for a line of this rate, in bytes per second. At the rate 0
    the delays vanish. Raises Fault if the rate, the lines or the padded string are above their limits, and ValueError if a number
    does not fit C's type of it."""
    bytes_, length = _bytes_of("text", text), c_size_t()
    padding, room = _padding(rate, affected_lines, xon, pad_byte), len(bytes_)
    while True:
        out = create_string_buffer(room or 1)
        fault = _library.ti_pad(bytes_, len(bytes_), byref(padding), out, room, byref(length))
        if fault != OUT_TOO_SMALL:
            break
        room = length.value
    if fault:
        raise Fault("padding" if fault == BAD_PADDING else "text", fault)
    return _front(out, length.value)


# ---- a capability that is kept

# The layouts of up to nine numbers, and how many there are as C takes it.
_LAYOUTS = [Struct(f"={count}i") for count in range(MOST_PARAMETERS + 1)]
_COUNTS = [c_size_t.from_param(count) for count in range(MOST_PARAMETERS + 1)]
# Its arguments are made for C once, so nothing of them is declared.
_expand_kept: Any = _library["ti_expand_kept_alone"]


# The type bytes, also in a class that has something else of this name.
_Data = bytes


class _Room:
    """What one expansion of a kept capability writes: the numbers that it takes, its output, and how long that is."""

    def __init__(self, kept: _Kept) -> None:
        self.numbers = create_string_buffer(4 * MOST_PARAMETERS)
        self.out: Any = create_string_buffer(max(kept.bound, 1))
        self.written = c_size_t()
        after = byref(self.out), c_size_t.from_param(kept.bound), byref(self.written)
        # What a call is handed, by the count of its parameters.
        self.arguments = [(byref(kept), byref(self.numbers), count, *after) for count in _COUNTS]


class Capability:
    """A capability that is compiled once, for what is sent often. Called with its parameters, it returns what expand does; its
    delays are still in it, and send returns what a terminal gets. Raises Fault if the bytes are no capability."""

    __slots__ = ("_data", "_free", "_kept")
    _data: "_Data"
    _free: list[_Room]
    _kept: _Kept | None

    # It is whole before anyone has it, and never compiled anew.
    def __new__(cls, capability: Text) -> "Capability":
        kept, place = _Kept(), c_size_t()
        kept.data = _bytes_of("capability", capability)
        fault = _library.ti_compile(kept.data, len(kept.data), byref(kept), byref(place))
        if 100 < fault < 200:
            raise Fault("capability", fault, place.value)
        made = super().__new__(cls)
        # One that takes a string, has variables, or needs more than is kept, is expanded anew at each call.
        made._data, made._free, made._kept = kept.data, [], None if fault or kept.varied else kept
        return made

    @property
    def bytes(self) -> "_Data":
        """The capability."""
        return self._data

    @property
    def marked(self) -> bool:
        """Whether delays can start in it."""
        return b"$<" in self._data

    def __call__(self, *parameters: Parameter, variables: Variables | None = None) -> "_Data":
        if self._kept is None:
            return expand(self._data, *parameters, variables=variables)
        # While a call lasts its room is its own, so that no two threads write into one.
        try:
            room = self._free.pop()
        except IndexError:
            room = _Room(self._kept)
        count = len(parameters)
        try:
            _LAYOUTS[count].pack_into(room.numbers, 0, *parameters)
        except (StructError, IndexError):
            # There is a string, or what is no parameter, or too many: this finds out.
            return expand(self._data, *parameters)
        _expand_kept(*room.arguments[count])
        output: _Data = room.out[: room.written.value]
        self._free.append(room)
        return output

    def send(
        self, *parameters: Parameter, variables: Variables | None = None, rate: int = 0, affected_lines: int = 1, xon: bool = False,
        pad_byte: int = 0,
    ) -> "_Data":
        """What a terminal gets: the output, as a call has it, with each delay as pad has it."""
        return send(self._data, *parameters, variables=variables, rate=rate, affected_lines=affected_lines, xon=xon, pad_byte=pad_byte)

    def __repr__(self) -> str:
        return f"Capability({self._data!r})"

    def __reduce__(self) -> "tuple[type[Capability], tuple[_Data]]":
        return Capability, (self._data,)


def version() -> tuple[int, int, int]:
    """The version of the library."""
    number: int = _library.ti_version()
    return number >> 16, number >> 8 & 255, number & 255

