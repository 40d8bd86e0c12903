"""What a capability can send to a terminal: an abstract run along all its paths, written from the parser of parser.py and terminfo(5),
to be compared with the proved code. reported.py says what of that is reported.

A place is one way in which a terminal may stand at a token: a parser of parser.py, of which a number may be unknown, and how much of a
padding mark was met. All places of all paths go forward together, with the values of the stack and of the variables that all paths
agree on; they are joined at `%e` and `%;`, and no test closes a path. A parameter may be any number of 32 bits, and a text may have any
printable characters but `?`.

A capability is read in each coding and by each rule for controls within functions, and its marks are taken out as `tputs` of ncurses
does and as `ti_pad` does. A run that meets a computed byte, or more than 64 places, stops with a word for it; where it stops is no end.
"""
from collections.abc import Callable, Iterable
from dataclasses import dataclass, field, replace
from functools import cache
from typing import NamedTuple

from capability import COMPUTE, Format, Token, printed, printed_text, tokens_of, wrapped
from parser import HEADERS, Function, Terminal

# A number that is not known. Arithmetic leaves it as it is, and no span has it.
UNKNOWN = float("-inf")
# The most places of a run; above it numbers are forgotten.
MOST = 64
# A digit that is not known is minus its base.
DECIMAL, OCTAL = -10, -8
READINGS = [(coding, goes_on) for coding in ("utf8", "stray", "bytes") for goes_on in (False, True)]
# The first parameter as it was given, where `%c` may print it.
FIRST = "first"
FIRST_BYTES = {"rep": [byte for byte in range(0x20, 0x7F) if byte != 0x3F], "S0": list(range(0x30, 0x7F))}
# What a text that is not known is made of.
TEXT = [*b"$<>.*/a", DECIMAL]
# States in which a text that is not known may be of a function.
CLOSED = HEADERS | {"osc number", "palette"}
NUMBERED = {"csi param", "dcs param", "osc number", "palette"}


# ---- the parser


class Parser(NamedTuple):
    """A terminal of parser.py between two bytes."""

    state: str = "ground"
    pending: bytes = b""
    kind: str = "Control"
    marker: int | None = None
    intermediates: tuple[int, ...] = ()
    numbers: tuple[float | None, ...] = ()
    letter: int | None = None
    asks: bool = False
    is_overfull: bool = False
    number: float | None = None


@dataclass(frozen=True)
class Step:
    """What a byte makes of a parser: others, what they hand out, and whether the byte shows that an escape cut a string off."""

    parsers: frozenset[Parser]
    functions: tuple[Function, ...]
    cuts: bool


@cache
def step(coding: str, goes_on: bool, parser: Parser, byte: int) -> Step:
    if byte < 0:
        return step_of_digit(coding, goes_on, parser, byte)
    terminal = Terminal(coding, goes_on)
    terminal.state, terminal.pending, terminal.number = parser.state, parser.pending, parser.number
    terminal.now = Function(parser.kind, parser.marker, list(parser.intermediates), list(parser.numbers), parser.letter, parser.asks, parser.is_overfull)
    terminal.byte(byte)
    now = terminal.now
    after = Parser(terminal.state, terminal.pending, now.kind, now.marker, tuple(now.intermediates[:3]), tuple(now.numbers), now.letter, now.asks, now.is_overfull, terminal.number)
    is_end = byte == 0x5C or coding == "bytes" and byte == 0xDC
    return Step(frozenset({after}), tuple(terminal.out), parser.state == "cut" and not is_end)


def step_of_digit(coding: str, goes_on: bool, parser: Parser, digit: int) -> Step:
    steps = [step(coding, goes_on, parser, 0x30 + value) for value in range(-digit)]
    after = {one._replace(number=UNKNOWN) if one.state in NUMBERED else one for each in steps for one in each.parsers}
    return Step(frozenset(after), tuple(out for each in steps for out in each.functions), any(each.cuts for each in steps))


def shown(function: Function) -> str:
    """A function in one line, as the programs of this folder print it."""
    return function.text().replace("-inf", "?")


# ---- padding marks

DOLLAR, LESS, GREATER = b"$<>"
# What each byte makes of a mark that has so many digits, a point, or flags. By `tputs` any other byte ends a mark, and is dropped.
BY_TPUTS = {
    "open": {"digit": "whole", ".": "decimals"},
    "whole": {"digit": "whole", ".": "decimals", "*": "flags", "/": "flags"},
    "decimals": {"digit": "decimals", "*": "flags", "/": "flags"},
    "flags": {"*": "flags", "/": "flags"},
}
# By `ti_pad` any other byte shows that it is none.
AFTER_NUMBER = {"*": "star", "/": "slash", ">": "text"}
BY_TI_PAD = {
    "open": {"digit": "1", ".": "point"},
    **{str(count): {"digit": str(count + 1), ".": "decimals", **AFTER_NUMBER} for count in range(1, 5)},
    "5": {".": "decimals", **AFTER_NUMBER},
    "point": {"digit": "decimals"},
    "decimals": {"digit": "decimals", **AFTER_NUMBER},
    "star": {"/": "both", ">": "text"},
    "slash": {"*": "both", ">": "text"},
    "both": {">": "text"},
}


class Place(NamedTuple):
    """Where a terminal may stand: its parser, the part of a mark, and whether a `>` must still come, may not come, or neither."""

    parser: Parser = Parser()
    part: str = "text"
    closes: bool | None = None


def kind_of(byte: int) -> str:
    return "digit" if byte < 0 or 0x30 <= byte <= 0x39 else chr(byte)


# ---- a run


@dataclass
class State:
    """What all paths to a token have: their places, the values at the top of the stack, whether that is all of it, and variables.
    None is a value that is not known."""

    places: set[Place]
    stack: list[int | str | None] = field(default_factory=list)
    is_whole: bool = True
    variables: dict[bytes, int | None] = field(default_factory=dict)
    is_increased: bool = False

    def pop(self) -> int | str | None:
        return self.stack.pop() if self.stack else 0 if self.is_whole else None

    def number(self) -> int | None:
        """The value that is popped, if it is a number that is known."""
        value = self.pop()
        return value if isinstance(value, int) else None

    def copy(self) -> "State":
        return replace(self, places=set(self.places), stack=list(self.stack), variables=dict(self.variables))


def agreed(one: object, other: object) -> object:
    return one if one == other else None


def joined(states: Iterable[State | None]) -> State | None:
    """What holds of the paths of all these states."""
    found = None
    for state in states:
        if state is None or found is None:
            found = found or state and state.copy()
            continue
        height = min(len(found.stack), len(state.stack))
        is_whole = found.is_whole and state.is_whole and len(found.stack) == len(state.stack)
        tops = zip(found.stack[len(found.stack) - height :], state.stack[len(state.stack) - height :])
        variables = {name: agreed(found.variables.get(name), state.variables.get(name)) for name in {*found.variables, *state.variables}}
        found = State(found.places | state.places, [agreed(*pair) for pair in tops], is_whole, variables, found.is_increased or state.is_increased)
    return found


class Stopped(Exception):
    """Why a run does not go on."""


@dataclass
class Sent:
    """What runs came to: the functions by their lines, the words for what was met, and the ends that are no plain text."""

    functions: dict[str, Function] = field(default_factory=dict)
    words: set[str] = field(default_factory=set)
    ends: set[tuple[str, bool]] = field(default_factory=set)


class Run:
    """A run in one reading, by one way to take marks out."""

    def __init__(self, reading: tuple[str, bool], way: str, first: str, sent: Sent) -> None:
        self.reading, self.sent = reading, sent
        self.first_bytes = FIRST_BYTES.get(first, [])
        self.receive = self.by_tputs if way == "tputs" else self.by_ti_pad
        # Whether a `>` comes after the token: surely, on no path, or perhaps.
        self.ahead = "perhaps"

    # ---- bytes

    def feed(self, place: Place, data: Iterable[int]) -> set[Place]:
        """Bytes that the terminal receives."""
        parsers = {place.parser}
        for byte in data:
            steps = [step(*self.reading, parser, byte) for parser in parsers]
            parsers = {parser for one in steps for parser in one.parsers}
            self.sent.functions.update((shown(function), function) for one in steps for function in one.functions)
            self.sent.words.update("string-cut" for one in steps if one.cuts)
        return {Place(parser, "text", place.closes) for parser in parsers}

    def by_tputs(self, place: Place, byte: int) -> set[Place]:
        if byte == GREATER:
            if place.closes is False:
                return set()
            place = place._replace(closes=None)
        if place.part == "text":
            return {place._replace(part="dollar")} if byte == DOLLAR else self.feed(place, [byte])
        if place.part == "dollar":
            return {place._replace(part="open")} if byte == LESS else self.feed(place, [DOLLAR, byte])
        part = BY_TPUTS[place.part].get(kind_of(byte), "text")
        if place.part != "open":
            return {place._replace(part=part)}
        return self.opened(place, part, byte)

    def opened(self, place: Place, part: str, byte: int) -> set[Place]:
        """After `$<`, by `tputs`: what begins with a digit or a point is a mark if a `>` comes later."""
        found: set[Place] = set()
        if part != "text" and self.ahead != "never" and place.closes is not False:
            found.add(place._replace(part=part, closes=place.closes or (None if self.ahead == "surely" else True)))
        if part == "text" or self.ahead != "surely" and not place.closes:
            closes = place.closes if part == "text" or self.ahead == "never" else False
            for one in self.feed(place._replace(closes=closes), [DOLLAR, LESS]):
                found |= self.receive(one, byte)
        return found

    def by_ti_pad(self, place: Place, byte: int) -> set[Place]:
        if place.part == "text":
            return {place._replace(part="dollar")} if byte == DOLLAR else self.feed(place, [byte])
        if place.part == "dollar" and byte == LESS:
            return {place._replace(part="open")}
        part = BY_TI_PAD.get(place.part, {}).get(kind_of(byte))
        if part:
            return {place._replace(part=part)}
        return {other for one in self.let_go(place) for other in self.receive(one, byte)}

    def let_go(self, place: Place) -> set[Place]:
        """The bytes of what is no mark. After `$<` no parser is where a digit, a point or a flag does something."""
        return self.feed(place, b"" if place.part == "text" else b"$" if place.part == "dollar" else b"$<")

    def advance(self, places: Iterable[Place], byte: int) -> set[Place]:
        return {after for place in places for after in self.receive(place, byte)}

    def any_of(self, places: set[Place], symbols: Iterable[int]) -> set[Place]:
        """The places after one of some bytes."""
        return {after for symbol in symbols for after in self.advance(places, symbol)}

    def many_of(self, places: set[Place], symbols: Iterable[int], most: int | None = None, changed: Callable[[Place], Place] = lambda place: place) -> set[Place]:
        """The places after any number of such bytes, or at most so many."""
        count, forgets = 0, False
        while most is None or count < most:
            more = places | {changed(place) for place in self.any_of(places, symbols)}
            forgets = forgets or len(more) > MOST
            more = self.limit({forgetful(place) for place in more}) if forgets else more
            if more == places:
                break
            places, count = more, count + 1
        return places

    # ---- what tokens print

    def limit(self, places: set[Place]) -> set[Place]:
        """The same places, or more of them in fewer forms."""
        if len(places) > MOST:
            places = {forgetful(place) for place in places}
        if len(places) > MOST:
            raise Stopped("not-tried")
        return places

    def print_number(self, places: set[Place], form: Format) -> set[Place]:
        """A number that is not known."""
        is_base_16 = form.conversion in "xX"
        if is_base_16 and any(place.parser.state in HEADERS for place in places):
            raise Stopped("computed-byte")
        digits = [OCTAL if form.conversion == "o" else DECIMAL, *(b"abcdef" if form.conversion == "x" else b"ABCDEF" if is_base_16 else b"")]
        has_zeros = "0" in form.flags and "-" not in form.flags and form.precision is None
        spaces = max(0, form.width - 1)
        if spaces and not has_zeros and "-" not in form.flags:
            places = self.many_of(places, b" ", spaces)
        found: set[Place] = set()
        for front in fronts_of(form):
            now = places
            for byte in front:
                now = self.advance(now, byte)
            least = form.width - len(front) if has_zeros else 1 if form.precision is None else form.precision
            for _ in range(least):
                now = self.limit(self.any_of(now, digits))
            found |= self.many_of(now, digits)
        return self.many_of(found, b" ", spaces) if spaces and "-" in form.flags else found

    def print_text(self, places: set[Place]) -> set[Place]:
        """A text that is not known: a printable character is like an `a` but where marks are. The first one of a string of ESC X, ^, _ or k
        is not known then, and no row looks at it."""
        if any(place.parser.state in CLOSED for place in places):
            raise Stopped("computed-byte")
        starts = {place for place in places if place.parser.state == "string start"}
        return self.many_of(places - starts, TEXT) | self.many_of(starts, TEXT, changed=unlettered)

    def print_value(self, places: set[Place], form: Format, value: int | str | None) -> set[Place]:
        if isinstance(value, int):
            data = printed_text(form, b"") if form.conversion == "s" else printed(form, value)
            return self.print_bytes(places, data)
        return self.print_text(places) if form.conversion == "s" else self.print_number(places, form)

    def print_bytes(self, places: set[Place], data: bytes) -> set[Place]:
        for byte in data:
            places = self.advance(places, byte)
        return places

    def print_character(self, places: set[Place], value: int | str | None) -> set[Place]:
        if isinstance(value, int):
            return self.advance(places, value % 256 or 128)
        if value != FIRST:
            raise Stopped("computed-byte")
        return self.any_of(places, self.first_bytes)

    # ---- tokens

    def take(self, state: State, token: Token) -> None:
        """A token on the paths that it is on, but for those of conditionals."""
        kind, value = token.kind, token.value
        if kind == "byte":
            state.places = self.advance(state.places, value)
        elif kind == "char":
            state.places = self.print_character(state.places, state.pop())
        elif kind == "print":
            state.places = self.print_value(state.places, value, state.pop())
        elif kind == "parameter":
            state.stack.append(FIRST if value == 1 and self.first_bytes and not state.is_increased else None)
        elif kind == "constant":
            state.stack.append(value)
        elif kind == "store":
            state.variables[value] = state.number()
        elif kind == "load":
            state.stack.append(state.variables.get(value))
        elif kind == "increment":
            state.is_increased = True
        else:
            state.stack.append(computed(state, token))
        state.places = self.limit(state.places)

    def follow(self, tokens: list[Token]) -> None:
        """All paths, to their ends. Of each open conditional there are the paths that a test failed, and those that are done."""
        here: State | None = State({Place()})
        frames: list[tuple[State | None, State | None]] = []
        for index, token in enumerate(tokens):
            self.ahead = ahead_of(tokens, index)
            if token.kind == "open":
                frames.append((None, None))
            elif token.kind == "then":
                here.pop()
                frames[-1] = (here.copy(), frames[-1][1])
            elif token.kind == "else":
                failed, done = frames[-1]
                frames[-1], here = (None, joined([done, here])), failed
            elif token.kind == "close":
                here = joined([here, *frames.pop()])
                here.places = self.limit(here.places)
            else:
                self.take(here, token)
        here = joined([here, *(state for frame in frames for state in frame)])
        self.end(here.places)

    def end(self, places: set[Place]) -> None:
        """No byte follows, and so no `>`."""
        parsers = {end.parser for place in places if not place.closes for end in self.let_go(place)}
        self.sent.ends |= {(parser.state, bool(parser.pending)) for parser in parsers}


def forgetful(place: Place) -> Place:
    """A place of which no number is known."""
    parser = place.parser
    numbers = tuple(None if number is None else UNKNOWN for number in parser.numbers)
    return place._replace(parser=parser._replace(numbers=numbers, number=None if parser.number is None else UNKNOWN))


def unlettered(place: Place) -> Place:
    """A place in a string of which the first character is not known."""
    return place._replace(parser=place.parser._replace(letter=None))


def fronts_of(form: Format) -> list[bytes]:
    """What may stand before the digits of a number that is not known."""
    if form.conversion == "d":
        return [b"-", b"+" if "+" in form.flags else b" " if " " in form.flags else b""]
    return [b"", b"0" + form.conversion.encode().replace(b"o", b"")] if "#" in form.flags else [b""]


def computed(state: State, token: Token) -> int | None:
    """The value of an operation on values that are known."""
    if token.kind == "length":
        state.pop()
        return None
    right = state.number()
    if token.kind in ("not", "invert"):
        return None if right is None else int(right == 0) if token.kind == "not" else ~right
    left = state.number()
    return None if left is None or right is None else wrapped(COMPUTE[token.value](left, right))


def ahead_of(tokens: list[Token], index: int) -> str:
    """Whether a `>` comes after a token."""
    on_all_paths = True
    found = "never"
    for token in tokens[index + 1 :]:
        on_all_paths = on_all_paths and token.kind not in ("open", "then", "else", "close")
        if token.kind == "byte" and token.value == GREATER:
            if on_all_paths:
                return "surely"
            found = "perhaps"
        elif token.kind == "char" or token.kind == "print" and token.value.conversion == "s":
            found = "perhaps"
    return found


# ---- a capability


@cache
def sent_of(text: bytes, first: str) -> Sent:
    """What a capability sends in all readings, by both ways to take marks out. Readings that cannot differ are left out."""
    tokens, sent = tokens_of(text)[0], Sent()
    may_be_high = max(text, default=0) > 0x7F or b"%c" in text
    for reading in READINGS if may_be_high else READINGS[:2]:
        for way in ("tputs", "ti_pad") if b"$" in text or b"%" in text else ("ti_pad",):
            try:
                Run(reading, way, first, sent).follow(tokens)
            except Stopped as why:
                sent.words.add(str(why))
    return sent
