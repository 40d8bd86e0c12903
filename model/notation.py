"""How texts are shown: in lower-case hex, or in the notation of terminfo(5); and how that is read.

Written from the manual pages and the choices of docs/DECISIONS.md, to be compared with the proved program.
"""
import re


def octal(byte):
    return b"\\%03o" % byte


def spelled(byte, before, at_end):
    """A byte in the notation, after the byte `before`; a space would be lost at an end, and `%^` is an operator."""
    if byte == 27:
        return b"\\E"
    if byte == 0 or byte > 127:
        return octal(byte)
    if byte < 32 or byte == 127:
        return octal(byte) if before == ord("%") else b"^" + bytes([byte ^ 64])
    if byte == ord(" ") and at_end:
        return b"\\s"
    return b"\\" + bytes([byte]) if byte in b"\\^," else bytes([byte])


def notation(text):
    if text in (b"-", b"cancelled"):
        return octal(text[0]) + text[1:]
    befores = b"\0" + text
    return b"".join(spelled(byte, befores[i], i in (0, len(text) - 1)) for i, byte in enumerate(text))


def label(name):
    """A name without a space: each byte as at an end of a text."""
    return b"".join(spelled(byte, before, True) for before, byte in zip(b"\0" + name, name))


def formed(text, escape):
    """A text in the notation or in hex."""
    return notation(text) if escape else text.hex().encode()


def shown(text, escape):
    """The same, and `-` if there is no byte."""
    return formed(text, escape) or b"-"


# ---- reading

# The most bytes of a capability.
MOST_BYTES = 32767

# What a letter means after a backslash; any other character is itself.
LETTERS = {b"E": 27, b"e": 27, b"n": 10, b"l": 10, b"r": 13, b"t": 9, b"b": 8, b"f": 12, b"s": 32, b"a": 7}


class Refused(Exception):
    """Why characters are no notation, as the line on it."""


def part(characters, after_percent):
    """The byte that the first part of some characters means, how long it is, and whether it is a percent sign."""
    first, second = characters[:1], characters[1:2]
    if first == b"\\":
        octal_digits = re.match(rb"[0-7]{1,3}", characters[1:4])
        if octal_digits:
            return int(octal_digits[0], 8) & 255, 1 + len(octal_digits[0]), False
        if not second:
            raise Refused("CutShort")
        return LETTERS.get(second, second[0]), 2, second == b"%"
    if first == b"^" and not after_percent:
        if not second:
            raise Refused("CutShort")
        if not b" " <= second <= b"~":
            raise Refused("BadControl")
        return 127 if second == b"?" else second[0] & 31, 2, False
    return first[0], 1, first == b"%"


def read(characters):
    """The text of a notation, or Refused with the first fault."""
    text, place, after_percent = bytearray(), 0, False
    while place < len(characters):
        try:
            byte, length, after_percent = part(characters[place:place + 4], after_percent)
        except Refused as refused:
            raise Refused(f"source: {refused} at {place}") from None
        text.append(byte)
        place += length
    return bytes(text)


def source_text(data):
    """The text of an input that is the notation of a capability, or Refused."""
    characters = data.removesuffix(b"\n")
    if len(characters) > 4 * MOST_BYTES:
        raise Refused(f"capability: TooLong at {MOST_BYTES}")
    return read(characters)
