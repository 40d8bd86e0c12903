"""The parser of a terminal, written from the published machine: P. Williams, "A parser for DEC's ANSI-compatible video terminals",
with the rows that today's terminals add. `Terminal` takes bytes and keeps the functions that it hands out.

A way is a word for what one terminal does in place of a row. `ti_parser` has none of them:

    no-palette     `ESC ] P` and `ESC ] R` are operating system commands as others are
    no-title       `ESC k` is an escape sequence
    plain-c1       the UTF-8 of a control of C1 is a character
    lost-byte      a byte that cuts a character of UTF-8 off is lost
    short-st       9C ends a device control string, SOS, PM and APC in UTF-8 too

`seen` has a word for each thing that parsers are known to differ in, if it came.
"""
from dataclasses import dataclass, field

MOST_NUMBERS = 32
LARGE = 65536

# What follows C1 after an escape starts a function: its kind, and the first state.
INTRODUCERS = {
    0x5B: ("Sequence", "csi entry"), 0x5D: ("System", "osc number"), 0x50: ("Device", "dcs entry"), 0x58: ("Start", "string start"),
    0x5E: ("Privacy", "string start"), 0x5F: ("Application", "string start"), 0x6B: ("Title", "string start"),
}
# States in which bytes are those of a sequence, or of the front of a device control string.
HEADERS = {"escape", "cut", "escape intermediate", "csi entry", "csi param", "csi intermediate", "csi ignore", "dcs entry", "dcs param", "dcs intermediate"}
STRINGS = {"dcs entry", "dcs param", "dcs intermediate", "dcs ignore", "osc number", "osc string", "palette", "string start", "string"}
C0_EXECUTED = {"ground", "escape", "cut", "escape intermediate", "csi entry", "csi param", "csi intermediate", "csi ignore", "palette"}


@dataclass
class Function:
    """What is handed out."""
    kind: str = "Control"
    marker: int | None = None
    intermediates: list[int] = field(default_factory=list)
    numbers: list[int | None] = field(default_factory=list)
    letter: int | None = None
    asks: bool = False
    is_overfull: bool = False

    def text(self) -> str:
        """Its parts in one line, as the programs beside this file print them."""
        numbers = ";".join("" if number is None else "*" if number >= LARGE else str(number) for number in self.numbers)
        between = "many" if len(self.intermediates) > 2 else bytes(self.intermediates).hex()
        marker, letter = (("" if byte is None else f"{byte:02x}") for byte in (self.marker, self.letter))
        return f"{self.kind}/{marker}/{len(self.numbers)}:{numbers}/{between}/{letter}/{int(self.asks)}{int(self.is_overfull)}"


class Terminal:
    """A parser in one coding: utf8, stray or bytes. With `goes_on` a function goes on at a control, which is carried out."""

    def __init__(self, coding: str, goes_on: bool = False, ways: frozenset[str] = frozenset()) -> None:
        self.coding, self.goes_on, self.ways = coding, goes_on, ways
        self.state = "ground"
        self.pending = b""
        self.out: list[Function] = []
        self.seen: set[str] = set()
        # Whether some private marker came.
        self.has_marker = False
        self.forget()

    def forget(self) -> None:
        self.now = Function()
        self.number: int | None = None
        self.has_number = False

    def keep_number(self) -> None:
        """Moves the number that is underway into the list."""
        if len(self.now.numbers) < MOST_NUMBERS:
            self.now.numbers.append(self.number)
        else:
            self.now.is_overfull = True
        self.number = None

    def hand_out(self, **parts: object) -> None:
        for name, value in parts.items():
            setattr(self.now, name, value)
        if self.number is not None or self.now.numbers:
            self.keep_number()
        self.out.append(self.now)
        self.forget()

    def control(self, byte: int) -> None:
        self.out.append(Function(letter=byte))

    # ---- bytes from 80 on

    def feed(self, data: bytes) -> None:
        for byte in data:
            self.byte(byte)

    def end(self) -> None:
        """No byte follows."""
        if self.state == "cut":
            self.seen.add("an escape cuts a string off")

    def byte(self, byte: int) -> None:
        if byte >= 0x80 and self.state != "ground":
            self.seen.add("eight bits within a function")
        if byte == 0x9B and self.has_marker:
            self.seen.add("a marker before a CSI of 8 bits")
        if self.coding == "bytes":
            if byte < 0x80:
                self.seven(byte)
            elif byte < 0xA0:
                self.upper(byte - 0x40)
            elif self.state in HEADERS:
                self.seven(byte - 0x80)
            else:
                self.character()
            return
        if self.pending:
            whole = self.pending + bytes([byte])
            self.pending = b""
            try:
                point = ord(whole.decode())
            except UnicodeDecodeError as error:
                if error.reason == "unexpected end of data":
                    self.pending = whole
                    return
                if "lost-byte" in self.ways:
                    return
            else:
                if point < 0xA0 and "plain-c1" not in self.ways:
                    self.upper(point - 0x40)
                else:
                    self.character()
                return
        if byte < 0x80:
            self.seven(byte)
        elif 0xC2 <= byte <= 0xF4 and not ("lost-byte" in self.ways and self.state != "ground"):
            self.pending = bytes([byte])
        elif byte < 0xA0 and self.coding == "stray":
            self.upper(byte - 0x40)
        elif byte == 0x9C and "short-st" in self.ways and self.state in ("dcs ignore", "string", "string start"):
            self.hand_out()
            self.state = "ground"
        else:
            self.character()

    def character(self) -> None:
        if self.state == "osc number":
            self.state = "osc string"
        elif self.state == "string start":
            self.state = "string"
        elif self.state == "palette":
            self.forget()
            self.state = "ground"

    def upper(self, byte: int) -> None:
        """A control of C1, by the byte of its form of seven bits."""
        if self.coding == "utf8":
            self.seen.add("UTF-8 of a control of C1")
        if self.goes_on and self.state != "ground" and byte != 0x5C and (self.state in STRINGS or byte not in INTRODUCERS):
            self.out.append(Function("Escape", letter=byte))
            return
        self.seven(0x1B)
        self.introduce(byte)

    # ---- the table

    def introduce(self, byte: int) -> None:
        if byte in INTRODUCERS and not (byte == 0x6B and "no-title" in self.ways):
            self.now.kind, self.state = INTRODUCERS[byte]
            if self.state == "string start":
                self.seen.add(f"{self.now.kind} strings")
        else:
            self.hand_out(kind="Escape", letter=byte)
            self.state = "ground"

    def seven(self, byte: int) -> None:
        """A byte below 80."""
        state = self.state
        if state == "cut" and byte != 0x5C:
            self.seen.add("an escape cuts a string off")
        if byte in (0x18, 0x1A):
            self.seen.add("CAN or SUB")
        if byte == 0:
            self.seen.add("NUL")
        if byte < 0x20 and byte not in (0x18, 0x1A, 0x1B) and state in STRINGS and not (byte == 7 and state[:3] == "osc"):
            self.seen.add("a control within a string")
        if byte in (0x18, 0x1A, 0x1B):
            if state in STRINGS:
                self.hand_out()
            self.forget()
            self.state = "ground" if byte != 0x1B else "cut" if state in STRINGS else "escape"
            if byte != 0x1B:
                self.control(byte)
        elif byte < 0x20:
            if state in C0_EXECUTED:
                self.control(byte)
            elif byte == 7 and state in ("osc number", "osc string"):
                self.hand_out()
                self.state = "ground"
            elif self.goes_on:
                self.control(byte)
        elif byte < 0x7F:
            self.printed(state, byte)

    def printed(self, state: str, byte: int) -> None:
        """A byte from 20 to 7E."""
        if state in ("escape", "cut", "escape intermediate"):
            if byte < 0x30:
                self.now.intermediates.append(byte)
                self.state = "escape intermediate"
            elif state == "escape intermediate" or byte < 0x40:
                if byte in (0x50, 0x5B, 0x5D):
                    self.seen.add("an introducer after an intermediate byte")
                self.hand_out(kind="Escape", letter=byte)
                self.state = "ground"
            else:
                self.introduce(byte)
        elif state[:3] in ("csi", "dcs"):
            self.sequence(state[:3], state[4:], byte)
        elif state == "osc number":
            self.command(byte)
        elif state == "palette":
            self.color(byte)
        elif state == "string start":
            self.now.letter, self.now.asks, self.state = byte, byte == 0x3F, "string"
        elif state in ("osc string", "string"):
            self.now.asks |= byte == 0x3F

    def sequence(self, kind: str, part: str, byte: int) -> None:
        """A byte of a control sequence, or of the front of a device control string."""
        if part == "ignore":
            if kind == "csi" and byte >= 0x40:
                self.forget()
                self.state = "ground"
        elif byte >= 0x40:
            if kind == "csi":
                self.hand_out(letter=byte)
                self.state = "ground"
            else:
                self.now.letter, self.state = byte, "string"
        elif byte < 0x30:
            self.now.intermediates.append(byte)
            self.state = f"{kind} intermediate"
        elif part == "intermediate" or byte >= 0x3C and part == "param":
            self.state = f"{kind} ignore"
            self.seen.add("a malformed sequence")
        else:
            self.parameter(byte)
            self.state = f"{kind} param"

    def parameter(self, byte: int) -> None:
        if byte >= 0x3C:
            self.now.marker = byte
            self.has_marker = True
        elif byte >= 0x3A:
            self.keep_number()
        else:
            self.number = min(10 * (self.number or 0) + byte - 0x30, LARGE)
            if self.number == LARGE:
                self.seen.add("a number above 65535")

    def command(self, byte: int) -> None:
        """A byte where the number of an operating system command stands."""
        is_palette = self.number is None and "no-palette" not in self.ways
        if byte in (0x50, 0x52) and is_palette:
            self.seen.add("colors of the Linux console")
        if 0x30 <= byte <= 0x39:
            self.number = min(10 * (self.number or 0) + byte - 0x30, LARGE)
        elif byte in (0x3A, 0x3B):
            self.state = "osc string"
        elif byte == 0x52 and is_palette:
            self.hand_out(letter=byte)
            self.state = "ground"
        else:
            self.now.letter, self.now.asks = byte, byte == 0x3F
            self.state = "palette" if byte == 0x50 and is_palette else "osc string"

    def color(self, byte: int) -> None:
        """A digit of a color of the Linux console."""
        if chr(byte) not in "0123456789abcdefABCDEF":
            self.forget()
            self.state = "ground"
            return
        if self.number is not None:
            self.keep_number()
        self.number = int(chr(byte), 16)
        if len(self.now.numbers) == 6:
            self.hand_out()
            self.state = "ground"
