"""The wrong lines in place of a line or two, by kind: the usual ones, further ones, and the finest. mechanics.py tells of each kind."""

import re
from collections.abc import Iterable
from functools import lru_cache

from bodies import lines_of
from checks.crates import folder_of
from typed import Place, fields_of

CALL = re.compile(r"^ *[\w.:]+\(.*\)\??;$")
NUMBER = re.compile(r"(?<![\w.\"'#])(\d+)(?![\w.\"'])")
WORD = re.compile(r"\"(?:[^\"\\]|\\.)*\"")
# A variant without a value.
VARIANT = re.compile(r"\b([A-Z]\w+)::([A-Z]\w+)\b(?![({:<]| \{)")
SOME = re.compile(r"\bSome\((?:[^()]|\([^()]*\))*\)")
ASKED = re.compile(r"(?<![\w.!])((?:\w+\.)*(?:is|has|are|may|starts|ends)_\w+\()")
SLICE = re.compile(r"\[(\w+)\.\.\]|\[\.\.(\w+)\]")
ARM = re.compile(r"^( *)([^=]\S.*?) => ([^{].*),$")
TEST = re.compile(r"\bif (?!let\b)(.*) \{$")
COMPARED = {" == ": " != ", " != ": " == ", " < ": " <= ", " <= ": " < ", " > ": " >= ", " >= ": " > "}
LOGIC = {" && ": " || ", " || ": " && ", "true": "false", "false": "true", "if !": "if "}
BOUNDS = {" + 1": " + 2", " - 1": "", "0..": "1..", "..=": "..", "saturating_sub(": "saturating_add("}
LOOP = re.compile(r"^ *(?:'\w+: )?(?:for|while|loop)\b.* \{(\})?$")
BYTE = re.compile(r"b'([!-&(-\[\]-}])'")
LIMIT = re.compile(r"(?<![\w:'\"])[A-Z][A-Z0-9_]{3,}\b(?!::|\()")
FIELD = re.compile(r"^( *\w+: )(.*),$")
LENGTHS = {".min(": ".max(", ".max(": ".min(", ".len())": ".len() + 1)", ".len(),": ".len() + 1,", ".first()": ".last()", ".last()": ".first()"}
# What the last expression of a function may be in place of what it is, by the function's type.
ENDS = [
    (r"-> bool$", "!({0})"), (r"-> (?:usize|u8|u16|u32|u64|u128|i32)$", "({0}) + 1"), (r"-> Result<\(\),", "Ok(())"), (r"-> Result<\(\),", "{0}?; {0}"),
    (r"-> Option<", "{0}.and(None)"), (r"^(?!.*->)", ""), (r"^(?!.*->)", "{0}; {0}"),
]
# A call whose result counts for nothing.
DROPPED = re.compile(r"^ *let _ = [\w.:]+\(.*\);$")
LAST_OF_WORD = re.compile(r"(?:[^\"\\]|\\(?:x\w\w|u\{\w+\}|.))(?=\"$)")
GUARD = re.compile(r"\bif (?!let\b)([^{}]*) =>")
REPEATED = re.compile(r"\bwhile (?!let\b)(.*) \{\}?$")
EITHER = re.compile(r"\{ ([^{}]*) \} else \{ ([^{}]*) \}")
# What an arm may give in place of its result, by the function's type.
NOTHING = [(r"-> Option<", "None"), (r"-> Result<\(\),", "Ok(())")]
# One of the patterns of a `matches!`.
ONE_OF = re.compile(r"^ *\| [A-Z]\w+::\w+(?:\(.*\))?$")
PART = re.compile(r"\.([a-z]\w*)\b(?!\()")


def changed(line: str, pairs: dict[str, str]) -> Iterable[str]:
    """A line with one of its places changed, for each that is there."""
    for old, new in pairs.items():
        for found in re.finditer(re.escape(old), line):
            yield line[: found.start()] + new + line[found.end() :]


@lru_cache(None)
def variants_of(crate: str) -> dict[str, list[str]]:
    """The variants without a value that the sources of a crate name, by their type."""
    found: dict[str, set[str]] = {}
    for path in sorted((folder_of(crate) / "src").rglob("*.rt")):
        for name, variant in VARIANT.findall(path.read_text(encoding="utf-8")):
            found.setdefault(name, set()).add(variant)
    return {name: sorted(variants) for name, variants in found.items()}


def other_variant(crate: str, name: str, variant: str) -> str | None:
    """The variant after another, of the same type."""
    every = variants_of(crate).get(name, [])
    if variant not in every or len(every) < 2:
        return None
    return every[(every.index(variant) + 1) % len(every)]


def wrong_lines(crate: str, line: str, following: str) -> Iterable[tuple[str, list[str]]]:
    """The wrong lines in place of one, or of it and the one after it, by kind."""
    result = line.partition(" => ")[2] or line
    for found in VARIANT.finditer(line, len(line) - len(result)):
        if other := other_variant(crate, found[1], found[2]):
            is_pattern = " => " not in line and (line.lstrip().startswith("| ") or following.lstrip().startswith("| "))
            yield "pattern" if is_pattern else "variant", [line[: found.start(2)] + other + line[found.end(2) :]]
    for found in SOME.finditer(line, len(line) - len(result)):
        if "let " not in line:
            yield "none", [f"{line[: found.start()]}None{line[found.end() :]}"]
    for found in ASKED.finditer(line):
        yield "test", [f"{line[: found.start()]}!{line[found.start() :]}"]
    for found in SLICE.finditer(line):
        new = f"[{found[1]} + 1..]" if found[1] else f"[..{found[2]} - 1]"
        yield "bound", [line[: found.start()] + new + line[found.end() :]]
    if CALL.match(line):
        yield "call", [""]
    for found in NUMBER.finditer(line):
        yield "constant", [line[: found.start()] + str(int(found[1]) + 1) + line[found.end() :]]
    for found in WORD.finditer(line):
        if len(found[0]) > 2 and found[0][1] not in "\\{":
            yield "word", [f'{line[: found.start()]}"~{found[0][2:]}{line[found.end() :]}']
    for kind, pairs in [("comparison", COMPARED), ("logic", LOGIC), ("bound", BOUNDS)]:
        for new in changed(line, pairs):
            yield "pattern" if kind == "logic" and new.endswith(f" => {result}") and " if " not in line else kind, [new]
    if tested := TEST.search(line):
        yield "test", [f"{line[: tested.start(1)]}!({tested[1]}) {{"]
    if CALL.match(line) and CALL.match(following):
        yield "order", [following, line]
    first, second = ARM.match(line), ARM.match(following)
    if first and second and first[1] == second[1] and first[3] != second[3]:
        yield "arms", [f"{first[1]}{first[2]} => {second[3]},", f"{first[1]}{second[2]} => {first[3]},"]


def further_lines(line: str, following: str) -> Iterable[tuple[str, list[str]]]:
    """Further wrong lines, by kind."""
    if ends := LOOP.match(line):
        yield "loop", [f"{line[:-1]} break; }}" if ends[1] else f"{line} break;"]
    for found in BYTE.finditer(line):
        yield "byte", [f"{line[: found.start(1)]}{chr(ord(found[1]) ^ 1)}{line[found.end(1) :]}"]
    for new in changed(line, LENGTHS):
        yield "length", [new]
    for found in LIMIT.finditer(line):
        yield "limit", [f"{line[: found.start()]}({found[0]} + 1){line[found.end() :]}"]
    first, second = FIELD.match(line), FIELD.match(following)
    if first and second and first[2] != second[2]:
        yield "fields", [f"{first[1]}{second[2]},", f"{second[1]}{first[2]},"]
    # A line of a text of several lines.
    if re.match(r" {0,2}\w", line):
        yield "text", [re.sub(r"\w", "~", line, count=1)]


def further_ends(header: str, line: str) -> Iterable[tuple[str, list[str]]]:
    """What the last line of a function may be in place of what it is, if it is a whole expression."""
    is_whole = re.fullmatch(r" {4,8}(?:[\w&!*].*[\w)?\]])", line) and "{" not in line and line.count("(") == line.count(")")
    if is_whole and line.strip() not in ("Ok(())", "None"):
        for pattern, value in ENDS:
            if re.search(pattern, header):
                yield "end", [f"    {value.format(line.strip())}"]


def finest_lines(place: Place, line: str, following: str) -> Iterable[tuple[str, list[str]]]:
    """The finest wrong lines, by kind."""
    if DROPPED.match(line):
        yield "call", [""]
        if DROPPED.match(following):
            yield "order", [following, line]
    if CALL.match(line) or DROPPED.match(line):
        yield "twice", [f"{line} {line.strip()}"]
    for found in WORD.finditer(line):
        if len(found[0]) == 2:
            yield "word", [f"{line[: found.end() - 1]}~{line[found.end() - 1 :]}"]
        elif last := LAST_OF_WORD.search(found[0]):
            yield "last", [line[: found.start()] + found[0][: last.start()] + '"' + line[found.end() :]]
    if guarded := GUARD.search(line):
        yield "guard", [f"{line[: guarded.start(1)]}!({guarded[1]}){line[guarded.end(1) :]}"]
    if repeated := REPEATED.search(line):
        yield "test", [f"{line[: repeated.start(1)]}!({repeated[1]}){line[repeated.end(1) :]}"]
        yield from [("call", [""])] if line.endswith("{}") else []
    if either := EITHER.search(line):
        yield "either", [f"{line[: either.start()]}{{ {either[2]} }} else {{ {either[1]} }}{line[either.end() :]}"]
    if ONE_OF.match(line):
        yield "one", [""]
    for new in changed(line, {".iter()": ".iter().skip(1)"}):
        yield "items", [new]
    yield from (("part", [new]) for new in other_parts(place, line))


def other_parts(place: Place, line: str) -> Iterable[str]:
    """A line with a field that it takes of a struct of its file replaced by another of the type."""
    declared = re.findall(r"\bstruct (\w+)", "\n".join(lines_of(*place)))
    for found in PART.finditer(line):
        for name in declared:
            fields = fields_of(place, name)
            kind = dict(fields).get(found[1])
            for field, of in fields:
                if of == kind and field != found[1]:
                    yield f"{line[: found.start(1)]}{field}{line[found.end(1) :]}"


def names_in(text: str) -> set[str]:
    """The names in a text that a pattern may bind."""
    return set(re.findall(r"\b[a-z]\w*\b", text))


def finest_arms(crate: str, header: str, line: str, following: str) -> Iterable[tuple[str, list[str]]]:
    """The finest wrong arms, by kind: the result of the arm beside, none, or twice; another variant in the pattern."""
    first, second = ARM.match(line), ARM.match(following)
    if first and second and first[1] == second[1] and first[3] != second[3]:
        if not names_in(second[2]) & names_in(second[3]):
            yield "beside", [f"{first[1]}{first[2]} => {second[3]},"]
        if not names_in(first[2]) & names_in(first[3]):
            yield "beside", [line, f"{second[1]}{second[2]} => {first[3]},"]
    if first and ("->" not in header or first[3].endswith("?")):
        yield "arm", [f"{first[1]}{first[2]} => {{}}"]
        yield "twice", [f"{first[1]}{first[2]} => {{ {first[3]}; {first[3]} }}"]
    for pattern, value in NOTHING:
        if first and re.search(pattern, header) and not first[3].endswith("?") and first[3] != value:
            yield "arm", [f"{first[1]}{first[2]} => {value},"]
    for found in VARIANT.finditer(line, 0, line.find(" => ") if first else 0):
        if other := other_variant(crate, found[1], found[2]):
            yield "pattern", [line[: found.start(2)] + other + line[found.end(2) :]]
