"""How the strings of an entry are sent, and what is reported of what they send: the words of `lint` on functions of a terminal, written
from what they mean, to be compared with the proved code.

The words are effects of docs/effects.tsv, and

    unknown-function  a function that docs/functions.tsv does not have for the string
    computed-byte     a byte of which nothing is known
    string-open       an end within a function or a character
    string-cut        an escape without a backslash cuts a string off
    not-tried         there are more places than are followed

By default effects and `string-open` are reported, and of a stranger's entry all.
"""
import re
from collections.abc import Callable, Iterable

from capability import Refused, tokens_of
from sent import FIRST_BYTES, sent_of
from tables import effect_of, is_allowed, table

ROWS = table("functions.tsv")
EFFECTS = table("effects.tsv")
# Lists, labels, names of files, a program, what the terminal sends, and what no program is known to send.
NOT_SENT = {
    "u6", "u8", "xm", "PS", "PE", "box1", "XC", "C0", "RGB", "fln", "porder", "subcs", "supcs", "docr", "pctrm", "if", "rf", "iprog", "dispc",
    *(f"lf{number}" for number in range(11)),
}
# The strings that `fsl` ends, after a text of the program.
JOINED = {"tsl", "TS", "Swd"}
# Strings of which bytes are judged one by one, and the bytes that act. ST alone does nothing.
BY_BYTES = {"acsc", "pad"}
# Strings that program keys, by DECUDK on some terminals; and the forms of those that have the second parameter alone as their data.
KEYS = {"pfkey", "pfloc", "pfx", "pfxl", "pln"}
CLIPBOARD = re.compile(rb"\x1b\]52;(%p1%s|[a-z]*);%p2%s(\x07|\x1b\\|\x9c)")
KEY = re.compile(rb"[^/]*/%p2%s(\x07|\x1b\\|\x9c)")
SHOWN_BYTES = {5, 0x0E, 0x0F, 0x1B, *range(0x80, 0xA0)} - {0x9C}
# What is reported by default, and the kinds of functions that only a terminal of ECMA-48 has.
DEFAULT = {row.what for row in EFFECTS} | {"string-open"}
OF_ECMA = {"Control", "Escape", "Title"}


def is_looked_at(name: str, kind: str) -> bool:
    return name in BY_BYTES or kind in ("plain", "parameterized", "unknown") and name[:1] != "k" and name not in NOT_SENT


def is_capability(text: bytes) -> bool:
    try:
        return bool(tokens_of(text))
    except Refused:
        return False


def as_it_stands(text: bytes) -> bytes:
    """A capability that sends a text."""
    return text.replace(b"%", b"%%")


def sendings(name: str, kind: str, text: bytes, fsl: bytes | None) -> list[bytes]:
    """The capabilities by which a string is sent."""
    if name in JOINED and fsl is not None:
        whole = (text if kind == "parameterized" else as_it_stands(text)) + b"%p9%s" + as_it_stands(fsl)
        return [whole if is_capability(whole) else as_it_stands(whole)]
    stands = [as_it_stands(text)]
    if kind == "plain" or not is_capability(text):
        return stands
    return [text] if kind == "parameterized" else [*stands, text] if b"%" in text else stands


def is_ecma(texts: dict[str, bytes], without_marks: Callable[[bytes], bytes]) -> bool:
    """Whether an entry is of a terminal of ECMA-48."""
    own = (without_marks(texts.get(name, b"")) for name in ("cup", "home", "clear", "el", "ed", "sgr0"))
    return any(b"\x1b[" in text or b"\x9b" in text for text in own)


def words_of_bytes(name: str, text: bytes) -> set[tuple[str, str]]:
    """Of the characters of acsc, and of the pad character."""
    bytes_shown = SHOWN_BYTES & {*(text[1::2] if name == "acsc" else text[:1])}
    return {("answer" if byte == 5 else "unknown-function", f"Control/{byte:02x}") for byte in bytes_shown}


def asked_name(name: str, text: bytes, is_untrusted: bool) -> str:
    """The name by which the tables are asked. Of a stranger's entry it is none if the terminal keeps what the entry has in the place of
    the second parameter, as the data of the clipboard, or as what a key gets."""
    if is_untrusted and name == "Ms":
        return name if CLIPBOARD.fullmatch(text) else ""
    if is_untrusted and name in KEYS:
        return name if KEY.fullmatch(text) and b"%c" not in text else ""
    return name


def words_of(name: str, capabilities: Iterable[bytes]) -> set[tuple[str, str]]:
    """The words for what a string can send that it may not, each with the function or the state of the end."""
    found: set[tuple[str, str]] = set()
    for sent in (sent_of(text, name if name in FIRST_BYTES else "") for text in capabilities):
        beyond = {line: function for line, function in sent.functions.items() if not is_allowed(ROWS, name, function)}
        found |= {(effect_of(EFFECTS, name, function) or "unknown-function", line) for line, function in beyond.items()}
        found |= {(word, "") for word in sent.words}
        found |= {("string-open", state) for state, is_begun in sent.ends if state != "ground" or is_begun}
    return found


def by_default(found: Iterable[tuple[str, str]], is_of_ecma: bool) -> set[tuple[str, str]]:
    """Those that are reported by default. On a terminal that is not of ECMA-48 controls, escapes and ends are others."""
    own = {(word, what) for word, what in found if word in DEFAULT and what != "ground"}
    return own if is_of_ecma else {(word, what) for word, what in own if word != "string-open" and what.partition("/")[0] not in OF_ECMA}
