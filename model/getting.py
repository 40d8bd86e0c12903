"""What `ti get` makes of the value of a capability, and `ti trace --of` of a text.

Written from the manual page, to be compared with the proved program. Which parameters a capability takes as texts is found
by going along all paths of its tree, with the stack of each.
"""
import re
from pathlib import Path

import capability
import lint
from entry import ABSENT, CANCELLED
from notation import formed, notation

KINDS = ["flag", "number", "text"]
# The kind, which a text may leave out, and the index.
LABEL = r"(flag|number|text|)#([0-9]{1,5})"
# The short name of each text, what it is, and how many parameters terminfo(5) gives it.
CLASSES = [line.split() for line in (Path(__file__).parent / "classes.txt").read_text().splitlines()]
# A function key has a number and then texts, and so has its label.
TAKE_TEXTS = {"pfkey", "pfloc", "pfx", "pln", "pfxl"}


class Failed(Exception):
    """Why nothing is written, as the line on it."""

    status = 4


class Misfit(Failed):
    """The line on words that do not fit the capability with a name."""

    status = 2


# ---- the capability


def item_of(entry, name, tables, command):
    """The kind and the value that a name means, or Failed. The tables have short names, then long ones."""
    standard = {"flag": entry.flags, "number": entry.numbers, "text": entry.texts}
    missing = {"flag": "no", "number": -1, "text": ABSENT}

    def at(kind, index):
        values = standard[kind]
        return kind, values[index] if index < len(values) else missing[kind]

    label = re.fullmatch(LABEL, name)
    if label:
        return at(label[1] or "text", int(label[2]))
    for table in tables:
        for kind in KINDS:
            for index, its_name in table[kind].items():
                if its_name == name:
                    return at(kind, index)
    own = {"flag": entry.extended_flags, "number": entry.extended_numbers, "text": entry.extended_texts}
    for kind in KINDS:
        for its_name, value in own[kind]:
            if its_name == name.encode():
                return kind, value
    near = ", ".join(shown_name(other) for other in nearest(name, names_of(own, tables)))
    raise Failed(f"{command}: {shown_name(name)}: no such capability" + (f"; nearest: {near}" if near else ""))


def shown_name(name):
    shown = notation(name.encode())
    return shown.decode() if len(shown) <= 40 else ".."


def distance(word, name):
    """The distance of optimal string alignment, by its recursion over the fronts of both."""
    table = {}
    for i in range(len(word) + 1):
        for j in range(len(name) + 1):
            if not i or not j:
                table[i, j] = i + j
                continue
            ways = [table[i - 1, j] + 1, table[i, j - 1] + 1, table[i - 1, j - 1] + (word[i - 1] != name[j - 1])]
            if i > 1 and j > 1 and word[i - 1] == name[j - 2] and word[i - 2] == name[j - 1]:
                ways.append(table[i - 2, j - 2] + 1)
            table[i, j] = min(ways)
    return table[len(word), len(name)]


def names_of(own, tables):
    """All names, each once: those of the tables, then the entry's own that are UTF-8."""
    standard = [name for table in tables for kind in KINDS for name in table[kind].values()]
    return list(dict.fromkeys(standard + [text for kind in KINDS for name, _ in own[kind] for text in texts_in(name)]))


def texts_in(name):
    try:
        return [name.decode()]
    except UnicodeDecodeError:
        return []


def is_called(word, name):
    """Whether a word is a name but for capitals, or a function key, as F5 and KEY_F5 are kf5."""
    key = re.fullmatch(r"(?:KEY_)?[Ff]([0-9]*)", word)
    return bool(key) and name == "kf" + key[1] or lower(word) == lower(name)


def lower(word):
    """With small letters in place of the capitals of ASCII."""
    return re.sub("[A-Z]", lambda letter: letter[0].lower(), word)


def nearest(word, names):
    """The three names to which fewest edits lead, the first of those alike, if there is at most one edit for each three bytes. None
    leads to what is called so."""
    most = len(word.encode()) // 3
    called = [(0, name) for name in names if is_called(word, name)]
    near = [(distance(word, name), name) for name in names if abs(len(name) - len(word)) <= most and not is_called(word, name)]
    return [name for edits, name in sorted(called + near, key=lambda found: found[0]) if edits <= most][:3]


# ---- parameters


def stacks_after(items, stacks, texts):
    """The stacks that the paths through these items may leave, each a tuple of the numbers of parameters, or of None; the
    parameters that a path takes as texts go into `texts`."""
    for item in items:
        if isinstance(item, capability.Token):
            stacks = {stack_after(item, stack, texts) for stack in stacks}
            continue
        ends = set()
        for test, body in item.arms:
            stacks = {stack[:-1] for stack in stacks_after(test, stacks, texts)}
            ends |= stacks_after(body, stacks, texts)
        stacks = ends | stacks_after(item.otherwise or [], stacks, texts)
    return stacks


def stack_after(token, stack, texts):
    pops, pushes = capability.POPS_AND_PUSHES.get(token.kind, (0, 0))
    takes_text = token.kind == "length" or (token.kind == "print" and token.value.conversion == "s")
    if takes_text and stack:
        texts.add(stack[-1])
    rest = stack[:len(stack) - min(pops, len(stack))]
    return rest + pushes * (token.value if token.kind == "parameter" else None,)


def texts_of(text):
    """The parameters that some path takes as texts."""
    texts = set()
    stacks_after(capability.tree_of(text), {()}, texts)
    return texts


def is_number(word):
    return re.fullmatch(r"-?[0-9]+", word) is not None and -(2**31) <= int(word) < 2**31


def place_named(name, tables):
    """The kind and the index of the standard capability that a name or the label of a text means, or None."""
    label = re.fullmatch(LABEL, name)
    if label and label[1] in ("", "text"):
        return "text", int(label[2])
    places = [(kind, index) for table in tables for kind in KINDS for index, its_name in table[kind].items() if its_name == name]
    return places[0] if places else None


def has_class(name):
    """Whether a manual says what the user-defined text with a name is."""
    own = name.encode(errors="surrogateescape")
    return own[:1] == b"k" or own in lint.OWN_CLASSES


def is_other_word(word):
    return word[:2] not in ("n:", "s:") and not is_number(word)


def takes_numbers_alone(name, place):
    """Whether a capability without a count takes no text: a standard one, or a user-defined one of which a manual says what it is."""
    if place:
        return place[0] != "text" or place[1] < len(CLASSES)
    return has_class(name) and name not in lint.TEXT_PARAMETERS


def must_fit(name, words, tables):
    """A Misfit if these are more words than terminfo(5) gives the capability with a name, or if one is no number where it has
    a number."""
    place = place_named(name, tables)
    is_text = place and place[0] == "text" and place[1] < len(CLASSES)
    short, kind, count = CLASSES[place[1]] if is_text else ("", "", "0")
    is_other = [is_other_word(word) for word in words]
    if kind != "parameterized":
        if takes_numbers_alone(name, place) and True in is_other:
            raise Misfit(f"parameter {is_other.index(True) + 1}: no 32-bit number; an entry is named by --entry FILE")
        return
    if len(words) > int(count):
        hint = "; an entry is named by --entry FILE" if is_other[int(count)] else ""
        raise Misfit(f"parameters: {short} takes {count}, not {len(words)}{hint}")
    for which, other in enumerate(is_other[:1] if short in TAKE_TEXTS else is_other, 1):
        if other:
            raise Misfit(f"parameter {which} of {short}: no 32-bit number")


def must_fit_value(command, name, kind, value, words, tables):
    """Failed if no table has a name, and a word is no number where the value takes numbers alone."""
    is_known = any(name in table[its_kind].values() for table in tables for its_kind in KINDS) or has_class(name)
    is_other = [is_other_word(word) for word in words]
    if is_known or True not in is_other or kind == "text" and (value in (ABSENT, CANCELLED) or takes_text(value)):
        return
    raise Failed(f"{command}: {shown_name(name)}: takes numbers; parameter {is_other.index(True) + 1}: no 32-bit number; "
                 "an entry is named by --entry FILE")


def takes_text(text):
    capability.tokens_of(text)
    return any(texts_of(text))


def value_of(word, is_text):
    if word.startswith("n:"):
        return int(word[2:])
    if word.startswith("s:"):
        return word[2:].encode()
    return int(word) if is_number(word) and not is_text else word.encode()


def parameters_of(text, words):
    """The values of the words for a text, or Refused."""
    capability.tokens_of(text)
    texts = texts_of(text)
    return [value_of(word, which in texts) for which, word in enumerate(words, 1)]


# ---- the result


def got(entry, name, tables, words, rate, lines, xon, form):
    """The status and the output, or Failed or Refused."""
    must_fit(name, words, tables)
    kind, value = item_of(entry, name, tables, "get")
    must_fit_value("get", name, kind, value, words, tables)
    if kind == "flag":
        return (0 if value == "yes" else 1), b""
    if kind == "number":
        return 0, b"%d\n" % max(value, -1)
    if value in (ABSENT, CANCELLED):
        raise Failed(f"get: {shown_name(name)}: absent")
    if words:
        value = capability.expanded(value, parameters_of(value, words))
    padded = capability.padded(value, rate, lines, xon)
    return 0, padded if form is None else formed(padded, form == "--escape") + b"\n"


def traced(entry, name, tables, words, escape):
    """The status and the trace, or Failed or Refused."""
    must_fit(name, words, tables)
    kind, value = item_of(entry, name, tables, "trace")
    must_fit_value("trace", name, kind, value, words, tables)
    if kind != "text" or value in (ABSENT, CANCELLED):
        raise Failed(f"trace: {shown_name(name)}: no such string")
    return 0, capability.trace(value, parameters_of(value, words), escape)
