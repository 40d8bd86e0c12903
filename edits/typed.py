"""Mechanical wrong bodies that the types of a function show.

A parameter that a call takes is another of its type, or another value: nothing, a part, the other of two. Or the function returns a
parameter at once. Or the body as a whole gives a result of which a part is another: a byte is missing, a field is turned round, a
number is one more.
"""

import re
from collections.abc import Iterable
from functools import lru_cache

from bodies import lines_of
from checks.crates import CRATES, folder_of

# A crate and a file.
Place = tuple[str, str]

# To the brace that is as far in as the first line.
ENUMS = re.compile(r"^(?:pub(?:\([^()]*\))? )?enum (\w+)(?:<[^{]*>)? \{\n((?: .*\n|\n)*)\}", re.M)
STRUCTS = re.compile(r"^(?:pub(?:\([^()]*\))? )?struct (\w+)(?:<[^{]*>)? \{\n((?: .*\n|\n)*)\}", re.M)
VARIANT = re.compile(r"^    (\w+)(?: = .*)?,$", re.M)
ALIASES = re.compile(r"^(?:pub(?:\(.*?\))? )?type (\w+)(?:<.*?>)? = (.*);$", re.M)
FIELD = re.compile(r"^    (pub(?:\(\w+\))? )?(\w+): (.*),$", re.M)
NUMBERS = {"usize", "u8", "u16", "u32", "u64", "u128", "i32"}
# A list of items, of which the last can be taken away.
LIST = re.compile(r"(?:Vec|ArrayVec)<")
OF_RESULT = re.compile(r"Result<(.*), \w+>$")
OF_OPTION = re.compile(r"Option<(.*)>$")
# A parameter that is an argument as it is.
ARGUMENT = r"(?<=[( ]){name}(?=,$|, |\)| \}})"
ARGUMENT_ALONE = re.compile(r"^ +[\w.&]+,$")
# Where a field of a struct that has the name of its value stands.
OF_FIELD = re.compile(r"\{ (?:\w+(?:: [^,{}]*)?, )*$")


@lru_cache(None)
def sources(crate: str) -> str:
    """The text of the sources of a crate."""
    return "\n".join(path.read_text(encoding="utf-8") for path in sorted((folder_of(crate) / "src").rglob("*.rt")))


@lru_cache(None)
def structs(crate: str) -> dict[str, str]:
    """The text of the fields of each struct of a crate; none of an enum."""
    return {**dict(STRUCTS.findall(sources(crate))), **{name: "" for name, _ in ENUMS.findall(sources(crate))}}


def fields_of(place: Place, name: str) -> list[tuple[str, str]]:
    """The fields of a struct that a file may name, with their types. It is that of the crate, or else the only one that has the name."""
    crate, file = place
    every = [structs(other)[name] for other in CRATES if name in structs(other)]
    text = structs(crate).get(name, every[0] if len(every) == 1 else "")
    is_own = re.search(rf"^(?:pub(?:\(\w+\))? )?struct {name}\b", "\n".join(lines_of(crate, file)), re.M)
    return [(field, kind) for public, field, kind in FIELD.findall(text) if public or is_own]


@lru_cache(None)
def variants() -> dict[str, list[str]]:
    """The variants without a value of each enum."""
    return {name: VARIANT.findall(body) for crate in CRATES for name, body in ENUMS.findall(sources(crate))}


@lru_cache(None)
def aliases() -> dict[str, str]:
    """What the name of a type means, if it is a type of another name."""
    return {name: kind for crate in CRATES for name, kind in ALIASES.findall(sources(crate))}


def name_of(kind: str) -> str:
    """The name of a type, without what it is of."""
    return re.sub(r"<.*", "", kind)


def plain(kind: str) -> str:
    """A type without lifetimes, and what its name means if it is another's."""
    bare = re.sub(r"'\w+ ", "", kind)
    return aliases().get(name_of(bare), bare)


def parts_of(text: str) -> list[str]:
    """The parts of a list between commas."""
    found, depth = [""], 0
    for mark in text.replace("->", "=>"):
        depth += (mark in "(<[") - (mark in ")>]")
        if mark == "," and not depth:
            found.append("")
        else:
            found[-1] += mark
    return [part.strip() for part in found if part.strip()]


def parameters_of(head: str) -> dict[str, str]:
    """The parameters of a function, with their types, by the text of its head."""
    start = re.search(r"fn \w+(?:<(?:[^<>]|<[^<>]*>)*>)?\(", head)
    depth, end = 1, start.end() if start else len(head)
    while end < len(head) and depth:
        depth += (head[end] in "([") - (head[end] in ")]")
        end += 1
    found = [part.partition(": ") for part in parts_of(head[start.end() : end - 1] if start else "")]
    return {name.removeprefix("mut "): plain(kind) for name, colon, kind in found if colon}


def other_values(place: Place, name: str, parameters: dict[str, str]) -> Iterable[str]:
    """What may stand in place of a parameter."""
    kind = parameters[name]
    yield from (other for other, of in parameters.items() if of == kind and other != name)
    if kind == "bool":
        yield f"!{name}"
    elif kind == "&[u8]":
        yield from ('b""', f"&{name}[{name}.len().min(1)..]")
    elif kind == "&str":
        yield '""'
    elif kind in NUMBERS:
        yield f"{name} + 1"
    elif kind.startswith("Option<"):
        yield "None"
    for variant in variants().get(kind, []):
        yield f"{kind}::{variant}"
    if truth := next((field for field, of in fields_of(place, kind) if of == "bool"), None):
        yield f"{kind} {{ {truth}: !{name}.{truth}, ..{name} }}"


def other_arguments(place: Place, line: str, is_of_struct: bool, parameters: dict[str, str]) -> Iterable[str]:
    """A line with a parameter that it passes on changed, for each. A line that is one alone may be a field of a struct."""
    for name in parameters:
        for found in re.compile(ARGUMENT.format(name=name)).finditer(line, line.find(" => ") + 1):
            before, after = line[: found.start()], line[found.end() :]
            is_field = OF_FIELD.search(before) or (is_of_struct and not before.strip())
            if "let " in before or not (is_field or after.startswith((",", ")"))):
                continue
            for other in other_values(place, name, parameters):
                yield f"{before}{name}: {other}{after}" if is_field else f"{before}{other}{after}"


def twins(line: str, following: str, is_of_struct: bool) -> Iterable[list[str]]:
    """Two arguments of a call, each on a line, as each other. Fields of a struct would be the same."""
    if ARGUMENT_ALONE.match(line) and ARGUMENT_ALONE.match(following) and not is_of_struct:
        yield [following, line]


def returned_of(kind: str, parameters: dict[str, str]) -> Iterable[str]:
    """What a function with such a result may return at once: a parameter of the type, or a variant of it."""
    of = OF_RESULT.match(plain(kind))
    bare = plain(of[1] if of else kind)
    values = [name for name, one in parameters.items() if one == bare] + [f"{bare}::{variant}" for variant in variants().get(bare, [])]
    values += ["0"] if of and bare in NUMBERS else []
    yield from (f"return Ok({value});" if of else f"return {value};" for value in values)


def changes_of(place: Place, made: str, kind: str) -> Iterable[str]:
    """Statements that change a value of a type."""
    bare = plain(kind)
    optional = OF_OPTION.match(bare)
    if bare == "bool":
        yield f"{made} = !{made};"
    elif bare in NUMBERS:
        yield f"{made} = {made}.wrapping_add(1);"
    elif LIST.match(bare):
        yield f"{made}.pop();"
        yield from [f"let _ = {made}.push(b'~');"] if re.match(r"\w+<u8\b", bare) else []
    elif bare == "String":
        yield f'let _ = {made}.push_str("~");'
    elif re.match(r"&(?:str$|\[)", bare):
        yield f"{made} = {made}.get(1..).unwrap_or({made});"
    elif optional:
        inner = next(iter(changes_of(place, "one", optional[1])), None)
        yield from ([f"{made} = {made}.map(|mut one| {{ {inner} one }});"] if inner else [])
        yield f"{made} = None;"
    else:
        for field, of in fields_of(place, name_of(bare)):
            yield from changes_of(place, f"{made}.{field}", of)


def other_results(place: Place, kind: str) -> Iterable[str]:
    """What may follow the whole body in place of its result, which is `made`."""
    of = OF_RESULT.match(plain(kind))
    if plain(kind).startswith("&["):
        # The body may give a whole array.
        yield from ("&made[made.len().min(1)..]", "&made[..made.len().saturating_sub(1)]")
        return
    for change in changes_of(place, "made", of[1] if of else kind):
        yield f"made.map(|mut made| {{ {change} made }})" if of else f"{change} made"
