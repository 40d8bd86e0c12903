"""What `lint` says of texts for the values that they may be given, and of control sequences.

Written from the manual pages, ECMA-48 and the choices of docs/DECISIONS.md, to be compared with the proved program.
"""
import re

import capability
from capability import MARK
from notation import notation

MOST_BYTES, MOST_WRITTEN = 1024, 256
MOST_LINES, MOST_COLUMNS, MOST_COLORS = 200, 264, 256
ATTRIBUTES = ["smso", "smul", "rev", "blink", "dim", "bold", "invis", "prot", "smacs"]
# What terminfo(5) calls the parameters of sgr.
CALLED = ["standout", "underline", "reverse", "blink", "dim", "bold", "invis", "protect", "altcharset"]
ANSI = re.compile(rb"\x1b\[(?:%i)?(?:%p1%[0-9]*d;%p2%[0-9]*d|%p2%[0-9]*d;%p1%[0-9]*d)[Hf]")
UNENDED = re.compile(rb"\x1b\[(?![0-?]*[ -/]*[@-~])")
RENDITION = re.compile(rb"\x1b\[[0-?]*m")
PARAMETERS = re.compile(rb"(?:\x1b\[|\x9b)([0-?]*)m")
SHIFT = re.compile(rb"[\x0e\x0f]|\x1b[(-/][0-~]")
PARTS = re.compile(rb"(?:(?:\x1b\[|\x9b)[0-?]*m|[\x0e\x0f]|\x1b[(-/][0-~])*")
ONE_SEQUENCE = re.compile(rb"\x1b\[([0-9;]*)[@-~]")
SEQUENCE = re.compile(rb"\x1b(?:\[[0-?]*[ -/]*.?|[ -/]*.?)", re.DOTALL)


def ranges(numbers):
    """The values of each text that is tried, for the numbers of an entry by their names."""
    lines, columns, colors = (
        min(max(numbers.get(name, 0), 0), most)
        for name, most in [("lines", MOST_LINES), ("cols", MOST_COLUMNS), ("colors", MOST_COLORS)]
    )
    yield from ((name, [(color,) for color in range(colors)]) for name in ["setaf", "setab", "setf", "setb"])
    yield "cup", [(line, column) for line in range(lines) for column in range(columns)]
    yield "csr", [(top, bottom) for top in range(lines) for bottom in range(top + 1, lines)]
    yield "hpa", [(column,) for column in range(columns)]
    yield "vpa", [(line,) for line in range(lines)]
    yield from ((name, [(count + 1,) for count in range(columns)]) for name in ["cub", "cuf", "dch", "ech", "ich"])
    yield from ((name, [(count + 1,) for count in range(lines)]) for name in ["cud", "cuu", "dl", "il", "indn", "rin"])
    yield "sgr", [tuple(number >> bit & 1 for bit in range(9)) for number in range(512)]


def sent(text, value):
    """What a text sends for a value: what it writes, without padding marks."""
    output = capability.expanded(text, [*value, *(0 for _ in range(9 - len(value)))])
    return MARK.sub(b"", output)


def origin(text, count, may_leave_out=False):
    """The numbers of a text that for 0 is one control sequence with so many, of which the last may be left out; else none."""
    try:
        found = text is not None and is_short(text) and ONE_SEQUENCE.fullmatch(sent(text, ()))
    except capability.Refused:
        return None
    numbers = [int(number or 1) for number in found[1].split(b";")] if found else []
    if may_leave_out and len(numbers) == count - 1:
        numbers.append(1)
    return tuple(numbers) if len(numbers) == count else None


def prints_negative(text, value):
    """Whether a text prints a number below 0 in decimal for a value."""
    machine = capability.machine_after(text, [*value, *(0 for _ in range(9 - len(value)))])
    return any(number < 0 for number in machine.decimals)


def parameters(output):
    """The numbers of the renditions in an output."""
    return [number.lstrip(b"0") for found in PARAMETERS.findall(output) for number in re.split(rb"[^0-9]", found)]


def lacks(mine, theirs):
    return any(part not in mine for part in theirs)


def differs(output, text):
    """Whether an output lacks a part of a text, if both are renditions and shifts alone."""
    if not (PARTS.fullmatch(output) and PARTS.fullmatch(text)):
        return False
    return lacks(parameters(output), parameters(text)) or lacks(SHIFT.findall(output), SHIFT.findall(text))


def is_combination(outputs, number):
    """Whether what is sent for a set lacks a parameter that one of its attributes alone adds to those for none."""
    none, mine = parameters(outputs[0]), parameters(outputs[number])
    return any(number >> bit & 1 and lacks(none + mine, parameters(outputs[1 << bit])) for bit in range(9))


def lost(outputs, number):
    """The first parameter that an attribute of a set alone adds to those for none, and that is not sent for the set."""
    others = parameters(outputs[0]) + parameters(outputs[number])
    for bit, name in enumerate(CALLED):
        for part in parameters(outputs[1 << bit]) if number >> bit & 1 else []:
            if part not in others:
                return f"the {part.decode() or 0} of {name} alone"
    return None


def words(name, value):
    """The words for a value."""
    if name == "sgr":
        on = [f" %p{at + 1}" for at, flag in enumerate(value) if flag]
        return " for" + "".join(on) if on else " for no attribute"
    return " for " + " ".join(map(str, value))


def same(outputs):
    """The first value for which the same is sent as for an earlier one, and that one."""
    earlier = {}
    for at, output in enumerate(outputs):
        if output in earlier:
            return earlier[output], at
        earlier[output] = at
    return None


def of_numbers(name, text, values, outputs):
    if b"" in outputs:
        yield "empty-output", words(name, values[outputs.index(b"")]) + " it sends nothing"
    if pair := same(outputs):
        one, other = (words(name, values[at]) for at in pair)
        yield "same-output", f"{one} and{other} it sends {sends(outputs[pair[1]])}"
    for value, output in zip(values, outputs):
        if prints_negative(text, value):
            yield "negative-number", f"{words(name, value)} it sends {sends(output)}, with a number below 0"
            break


def of_attributes(texts, values, outputs):
    for bit, name in enumerate(ATTRIBUTES):
        if name in texts and outputs[1 << bit] == outputs[0]:
            yield "sgr-attribute-ignored", f" for %p{bit + 1} it sends the same as for no attribute, and there is {name}"
    for bit, name in enumerate(ATTRIBUTES):
        output = outputs[1 << bit]
        if name in texts and output != outputs[0] and differs(output, MARK.sub(b"", texts[name])):
            yield "sgr-attribute-differs", f" for %p{bit + 1} it sends {sends(output)}, and {name} is {shown(texts[name])}"
    for number, value in enumerate(values):
        if is_combination(outputs, number):
            called = ", ".join(name for name, flag in zip(CALLED, value) if flag)
            yield "sgr-combination", f"{words('sgr', value)} ({called}) it sends {sends(outputs[number])}, without {lost(outputs, number)}"
            break


def shown(output):
    return (notation(output) or b"-").decode("latin-1")


def sends(output):
    return shown(output) if output else "nothing"


# What stands among the numbers of a sequence, before another number, and what to do about it in a string with parameters or another.
SPLITS = {
    "a space": (re.compile(rb"\x1b\[[0-?]* [ -/]*[0-?]"), "write %d or %02d, and no space", "leave out the space"),
    "a minus": (re.compile(rb"\x1b\[[0-?]*-[ -/]*[0-?]"), "leave out the minus", "leave out the minus"),
}


def sequence_of(sent, meaning):
    """What is told of a sequence that is not ended."""
    if not meaning.endswith("unterminated \\E[ sequence"):
        return meaning
    for byte, (pattern, _, _) in SPLITS.items():
        if pattern.search(sent):
            return f"{', where ' * meaning.startswith(',')}{byte} stands among the numbers of a \\E["
    return meaning


def fix_of_sequence(meaning):
    for byte, (_, of_values, plain) in SPLITS.items():
        if f"{byte} stands among the numbers" in meaning:
            return of_values if ", where" in meaning else plain
    return "write the final byte of the sequence"


def first(name, values, outputs, holds, meaning):
    """What is told of the first value of which it holds."""
    for value, output in zip(values, outputs):
        if holds(output):
            yield f"{words(name, value)} it sends {sends(output)}{sequence_of(output, meaning)}"
            return


def shows(output):
    return any(0x20 <= byte <= 0x7e for byte in SEQUENCE.sub(b"", output))


def is_short(text):
    return len(text) <= MOST_BYTES and capability.bound(capability.tree_of(text), 0) <= MOST_WRITTEN


def findings(texts, numbers, all_told):
    """The name and the text, the word and the meaning of each finding, by the texts and numbers of terminfo(5) that are there."""
    ansi = ANSI.match(texts.get("cup", b""))
    for name, values in ranges(numbers):
        text = texts.get(name)
        try:
            tree = None if text is None else capability.tree_of(text)
        except capability.Refused:
            continue
        if tree is None or not is_short(text):
            if tree is not None and all_told:
                yield name, text, "not-tried", " it is too long, or may send too much"
            continue
        outputs = [sent(text, value) for value in values]
        found = list(of_attributes(texts, values, outputs) if name == "sgr" else of_numbers(name, text, values, outputs))
        if name == "sgr" and RENDITION.search(outputs[0]):
            found += [("sgr-text", meaning) for meaning in first(name, values, outputs, shows, ", of which some is shown")]
        if ansi:
            found += [("control-sequence", meaning)
                      for meaning in first(name, values, outputs, UNENDED.search, ", with an unterminated \\E[ sequence")]
        yield from ((name, text, word, meaning) for word, meaning in found)
