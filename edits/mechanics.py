"""Mechanical wrong bodies: small changes of a body that a script makes, of the functions of presentation.

Each changes a line or two: a call is left out, a constant, a word, a variant or a comparison is another, a bound is off by one, a test
is turned round, two arms or two calls are swapped, a value is none, or the function returns at once. A name has the function, the
kind and the line within its body. Some do not compile, and count for nothing. A function of which few are made so has further ones: a
loop ends at once, the last call is left out, made twice, or its result is another, the values of two fields are swapped, a byte, a
length, a limit or a line of a text is another. One that has few of these too has the finest ones: a call is made twice, a word loses its
last character, an arm has the result of the one beside it, a guard or the test of a loop is turned round, a field is another of its
struct, and what typed.py makes by types.
"""

import random
import re
from collections.abc import Iterable
from functools import lru_cache

from bodies import HEADER, Edit, Function, function_at, lines_of
from changes import finest_arms, finest_lines, further_ends, further_lines, wrong_lines
from checks.crates import CRATES
from judges import is_presented, presentation
from schema import NO_ARMS, maker, opening_of
from typed import other_arguments, other_results, parameters_of, returned_of, twins

# So many wrong bodies a function has, and more if few of them are of kinds that mostly compile.
MOST_OF_A_FUNCTION = 4
# One with fewer has further ones.
LEAST_OF_A_FUNCTION = 3
# Of these kinds many do not compile, so they come after the others.
LATER = {"arms", "none", "limit", "fields", "beside", "one", "pattern", "twins"}
# What a function may return at once, by its type.
RETURNED = [
    (r"-> bool", "true"), (r"-> bool", "false"), (r"-> Result<\(\),", "Ok(())"), (r"-> Result<bool,", "Ok(false)"), (r"-> Result<Option<", "Ok(None)"),
    (r"-> Option<", "None"), (r"-> (?:usize|u8|u16|u32|u64|u128|i32)$", "0"), (r"-> &(?:'\w+ )?str", '""'), (r"-> &(?:'\w+ )?\[u8\]", 'b""'),
    (r"-> Result<Vec<u8, A>,", "Ok(Vec::new(alloc))"),
]
FURTHER_RETURNED = [
    (r"-> (?:usize|u8|u16|u32|u64|u128|i32)$", "1"), (r"-> &(?:'\w+ )?str", '"~"'), (r"-> &(?:'\w+ )?\[u8\]", 'b"~"'),
    (r"-> &(?:'\w+ )?\[(?!u8)", "&[]"), (r"-> Option<usize>", "Some(0)"), (r"-> Option<&(?:'\w+ )?str>", 'Some("~")'),
    (r"-> Result<usize,", "Ok(0)"), (r"-> Result<\(usize, u128\),", "Ok((0, 0))"), (r"\bself\b.*-> Self$", "self"),
]


@lru_cache(None)
def left_lines(crate: str, file: str) -> frozenset[str]:
    """The lines of a source that the crate for Rust has too."""
    return frozenset(maker().bare("\n".join(lines_of(crate, file))).split("\n"))


def functions_in(crate: str, file: str, are_all: bool = False) -> list[Function]:
    """The functions of a file that are of presentation, or all."""
    lines, found = lines_of(crate, file), {}
    for at, head in enumerate(map(HEADER.match, lines)):
        end = f"{head[1]}}}" if head else None
        if head and end in lines[at:]:
            function = function_at(crate, file, lines.index(end, at))
            if function and (are_all or is_presented(crate, file, function.path[-1])):
                found[function.name] = function
    return list(found.values())


def functions_of_presentation() -> Iterable[tuple[str, Function]]:
    """All functions of presentation that can have arms, each with its crate."""
    for crate in CRATES:
        for of, file in presentation():
            for function in functions_in(crate, file) if of == crate else []:
                lines = lines_of(crate, file)
                opening = opening_of(lines, function)
                if opening is not None and not NO_ARMS.search(" ".join(lines[function.first : opening + 1])):
                    yield crate, function


def further_wrong(crate: str, function: Function) -> list[tuple[str, dict[tuple[str, int], str]]]:
    """Further mechanical wrong bodies of a function."""
    lines, places = lines_of(crate, function.file), places_of(crate, function)
    _, header = head_of(crate, function)
    found: list[tuple[str, dict[tuple[str, int], str]]] = []
    for value in returns_of(header, False, FURTHER_RETURNED) if places else []:
        found.append(("return", {(function.file, places[0]): f"{value} {lines[places[0]].strip()}"}))
    for at in places:
        news = [*further_lines(lines[at], lines[at + 1] if at + 1 in places else "")]
        for kind, new in [*news, *(further_ends(header, lines[at]) if at + 1 == function.last else [])]:
            found.append((kind, {(function.file, at + step): line for step, line in enumerate(new)}))
    return found


def finest_wrong(crate: str, function: Function) -> list[tuple[str, dict[tuple[str, int], str]]]:
    """The finest mechanical wrong bodies of a function."""
    lines, places = lines_of(crate, function.file), places_of(crate, function)
    head, header = head_of(crate, function)
    place, parameters, kind = (crate, function.file), parameters_of(head), re.sub(r"\bSelf\b", function.path[-2], header.partition("-> ")[2])
    found: list[tuple[str, dict[tuple[str, int], str]]] = []
    for value in returned_of(kind, parameters) if places else []:
        found.append(("return", {(function.file, places[0]): f"{value} {lines[places[0]].strip()}"}))
    for at in places:
        following = lines[at + 1] if at + 1 in places else ""
        opener = next(line for line in reversed(lines[:at]) if line.strip() and indent_of(line) < indent_of(lines[at]))
        news = [*finest_lines(place, lines[at], following), *finest_arms(crate, header, lines[at], following)]
        is_of_struct = opener.endswith("{")
        news += [("argument", [new]) for new in other_arguments(place, lines[at], is_of_struct, parameters)]
        news += [("twins", new) for new in twins(lines[at], following, is_of_struct)]
        for kind_of, new in news:
            found.append((kind_of, {(function.file, at + step): line for step, line in enumerate(new) if line != lines[at + step]}))
    last = function.last - 1
    for value in other_results(place, kind):
        ends = {(function.file, last): f"{lines[last]} }}; {value}"}
        first = ends.get((function.file, places[0]), lines[places[0]])
        found.append(("made", {**ends, (function.file, places[0]): f"    let mut made = {{ {first.strip()}"}))
    return found


def indent_of(line: str) -> int:
    return len(line) - len(line.lstrip())


def returns_of(header: str, has_alloc: bool, known: list[tuple[str, str]]) -> Iterable[str]:
    """What a function may return at once."""
    if "->" not in header and known is RETURNED:
        yield "return;"
    for pattern, value in known:
        if re.search(pattern, header) and (has_alloc or "alloc" not in value):
            yield f"return {value};"


def head_of(crate: str, function: Function) -> tuple[str, str]:
    """The head of a function on one line, and the line of it that has the type."""
    lines = lines_of(crate, function.file)
    opening = opening_of(lines, function)
    assert opening is not None
    head = lines[function.head : opening + 1]
    whole = " ".join(head).split(" where ")[0]
    return whole, next((line for line in head if "->" in line), whole).removesuffix(" {")


def places_of(crate: str, function: Function) -> list[int]:
    """The numbers of a function's lines of code."""
    lines, left = lines_of(crate, function.file), left_lines(crate, function.file)
    opening = opening_of(lines, function)
    assert opening is not None
    return [at for at in range(opening + 1, function.last) if lines[at] in left and not re.match(r" *(?://|#\[|\}*$)", lines[at])]


def all_wrong(crate: str, function: Function) -> list[tuple[str, dict[tuple[str, int], str]]]:
    """All mechanical wrong bodies of a function: the kind, and the lines that are changed."""
    lines, places = lines_of(crate, function.file), places_of(crate, function)
    head, header = head_of(crate, function)
    found: list[tuple[str, dict[tuple[str, int], str]]] = []
    for value in returns_of(header, "alloc:" in head, RETURNED) if places else []:
        found.append(("return", {(function.file, places[0]): f"{value} {lines[places[0]].strip()}"}))
    for at in places:
        for kind, new in wrong_lines(crate, lines[at], lines[at + 1] if at + 1 in places else ""):
            found.append((kind, {(function.file, at + step): line for step, line in enumerate(new)}))
    return found


def drawn_of(crate: str, function: Function) -> list[tuple[str, dict[tuple[str, int], str]]]:
    """A few of the wrong bodies of a function, of as many kinds as may be, the same in each run."""
    every = all_wrong(crate, function)
    for more in (further_wrong, finest_wrong):
        if sum(kind not in LATER for kind, _ in every) < LEAST_OF_A_FUNCTION:
            every += more(crate, function)
    random.Random(f"{crate}::{function.name}").shuffle(every)
    ranks: dict[str, int] = {}
    order = []
    for one in every:
        ranks[one[0]] = ranks.get(one[0], 1 if one[0] in LATER else -1) + 1
        order.append((ranks[one[0]], one))
    order.sort(key=lambda pair: pair[0])
    chosen, left = ([one for _, one in part] for part in (order[:MOST_OF_A_FUNCTION], order[MOST_OF_A_FUNCTION:]))
    lacking = LEAST_OF_A_FUNCTION - sum(kind not in LATER for kind, _ in chosen)
    return chosen + [one for one in left if one[0] not in LATER][: max(lacking, 0)]


def mechanical_edits() -> list[Edit]:
    """The mechanical wrong bodies of all functions of presentation."""
    edits: list[Edit] = []
    for crate, function in functions_of_presentation():
        opening = opening_of(lines_of(crate, function.file), function)
        assert opening is not None
        names: set[str] = set()
        for kind, lines in drawn_of(crate, function):
            first = min(number for _, number in lines)
            name = f"{function.name}.{kind}-{first - opening}"
            while name in names:
                name += "+"
            names.add(name)
            edits.append(Edit(crate, name, "\n".join(lines.values()), lines, frozenset([function]), False, None))
    return edits
