"""What the verdict on a wrong body rests on, found by names, and the sum of it.

A check of a wrong body takes all other functions by their contracts. So it reads
  - the edit, the function that it changes, and what is written of its proof;
  - of this crate and those below: headers and contracts of functions, types, constants, traits, impls and macros;
  - the definitions in specs/ that these cite, and what the lemmas in proofs/ state.

A name in a source is not resolved: whatever has a name that the function's text has is read, wherever it is declared in this crate or
below, a function by its header and contract, a type whole and with its impls, and so are the imports of that name. A contract calls no
function, so of what is read only types, constants, traits and definitions are followed further. A name in a file of definitions or
lemmas is that of its imports. So more is read than a check reads, never less. Comments count for nothing, nor do attributes that
no proof reads. An edit that is made in place rests on its whole crate, and on what that reads of the crates below.
"""

import re
from collections.abc import Iterable
from dataclasses import dataclass
from functools import lru_cache
from hashlib import sha256
from pathlib import Path

from bodies import Edit, Function
from checks.crates import CRATES, below, folder_of
from checks.machine import ROOT

# A word of a source. A macro is called by its name with an exclamation mark.
WORD = re.compile(r"[A-Za-z_]\w*!?")
# Words that may call a function: those before a parenthesis, and those that are neither a field nor bound in the text.
CALLED = re.compile(r"\b(\w+)(?:::<[^()]*?>)?\(")
NO_FIELD = re.compile(r"(?<!\.)\b[A-Za-z_]\w*")
BOUND = re.compile(
    r"\b(?:let|for) (?:mut )?(\w+)|\|(?:mut )?(\w+)[|,:]|[(,] *(?:mut )?(\w+): |^ *(?:mut )?(\w+): |[A-Z]\w*\((\w+)\) (?:=>|=|if|\|)", re.M
)
# Lines that say nothing to a proof.
SILENT = {".rt": re.compile(r"\s*(//|#\[(inline|cold|must_use|doc)\b)"), ".antt": re.compile(r"\s*--(\s|$)")}
# A source is in the layout of `rt fmt`: an item starts with a word or an attribute at the left edge.
START = re.compile(r"[A-Za-z#]")
FUNCTION = re.compile(r'( *)(?:pub(?:\(.*?\))? )?(const )?(?:unsafe )?(?:extern "C" )?fn (\w+)')
DECLARED = re.compile(r"(?:pub(?:\(.*?\))? )?(?:unsafe )?(?:struct|enum|union|trait|const|static|type) +(\w+)")
MACRO = re.compile(r"macro_rules! (\w+)")
CALLING = re.compile(r"\b(const|static) ")
IMPL = re.compile(r"impl\b(.*?)(?: where .*)?\{?$")
BROUGHT = re.compile(r"^(pub(?:\(.*?\))? )?use ([^;{]*)(?:\{([^;]*)\})?;", re.M)
IMPORT = re.compile(r"^ *ghost use (Rattle\.[^\s{;]+?)\.?(?:\{([^}]*)\}|\s+as (\w+))?;", re.M)
# A file of definitions or proofs: what it imports, what starts a declaration, and the names in one.
USE = re.compile(r"^(?:pub |unfoldable )*use (Rattle\.[^\s{]+?)\.?(?:\{([^}]*)\}|\s+as (\S+))?$", re.M)
SIGNATURE = re.compile(r"((?:pattern |unfoldable |abbrev |axiom |pub )*)(\S+)(?: \{[^}]*\})* :")
DATA = re.compile(r"(?:unfoldable |abbrev |pub )*(?:data|record|mutual|ruleset|infix\w?|syntax)\b")
NAMED = re.compile(r"^ *(?:(?:pattern |unfoldable |abbrev |pub )*(\S+)(?: \{[^}]*\})* :|(?:pub )?(?:data|record) (\S+))", re.M)
PIECE = re.compile(r"[^\s(){};,.]+")


@lru_cache(None)
def text_of(path: Path) -> str:
    """The text of a file without the lines that say nothing to a proof."""
    return spoken(path.suffix, path.read_text(encoding="utf-8").split("\n"))


def spoken(suffix: str, lines: Iterable[str]) -> str:
    silent = SILENT.get(suffix)
    return "\n".join(line for line in lines if not (silent and silent.match(line)))


@lru_cache(None)
def files_of(crate: str, part: str, pattern: str) -> list[Path]:
    return sorted(path for path in (folder_of(crate) / part).rglob(pattern) if path.is_file())


def sum_of(parts: Iterable[object]) -> str:
    total = sha256()
    for part in parts:
        total.update(repr(part).encode())
    return total.hexdigest()[:20]


@lru_cache(None)
def named(path: Path) -> str:
    return path.relative_to(ROOT).as_posix()


@dataclass(frozen=True, eq=False)
class Item:
    """What a source declares: its name, or the type's if it is an impl, and what others read of it."""

    path: Path
    name: str
    text: str
    is_function: bool = False
    # Whether the functions that its text names are followed too, as those that a macro writes or a constant calls.
    has_calls: bool = False


def chunks_of(path: Path) -> list[list[str]]:
    """The items of a source with all their lines."""
    found: list[list[str]] = []
    for line in text_of(path).split("\n"):
        is_attributed = bool(found) and all(before.startswith("#") for before in found[-1])
        if START.match(line) and not is_attributed:
            found.append([line])
        elif found:
            found[-1].append(line)
    return found


def without_bodies(lines: list[str], indent: str) -> tuple[list[str], dict[str, list[str]]]:
    """The lines outside of functions at this indent, and by its name each function's header and contract. A `const fn` keeps its body."""
    outside: list[str] = []
    functions: dict[str, list[str]] = {}
    name, keeps, is_body = "", False, False
    for line in lines:
        head = FUNCTION.match(line)
        if not name and head and head[1] == indent:
            name, keeps, is_body = head[3], bool(head[2]), False
            functions[name] = []
        if not name:
            outside.append(line)
        elif keeps or not is_body:
            functions[name].append(line)
        opens = line.endswith("{") and (bool(head) or line.startswith((f"{indent}{{", f"{indent})")))
        is_body = is_body or bool(name) and opens
        if line == f"{indent}}}" or head and line.endswith("}"):
            name = ""
    return outside, functions


def items_of_impl(path: Path, lines: list[str]) -> list[Item]:
    """An impl: the functions of a type by their own names; all else belongs to the type, as do the functions of a trait."""
    at = next(at for at, line in enumerate(lines) if IMPL.match(line))
    head = IMPL.match(lines[at])
    plain = head[1] if head else ""
    while re.search(r"<[^<>]*>", plain):
        plain = re.sub(r"<[^<>]*>", "", plain)
    trait, _, owner = plain.rpartition(" for ")
    names = WORD.findall(owner)
    outside, functions = without_bodies(lines[at + 1 :], "    ")
    # The attributes of functions are those that their own check reads.
    outside = [line for line in outside if line.strip() and not line.startswith("    #[")]
    headers = [line for name in functions for line in functions[name]] if trait else []
    found = [Item(path, names[-1], "\n".join([*lines[: at + 1], *outside, *headers]))] if names else []
    own = [] if trait else functions.items()
    return found + [Item(path, name, "\n".join(header), is_function=True) for name, header in own]


@lru_cache(None)
def items_of(path: Path) -> list[Item]:
    found: list[Item] = []
    for lines in chunks_of(path):
        first = next((line for line in lines if not line.startswith("#")), "")
        if first.startswith("impl"):
            found += items_of_impl(path, lines)
        elif FUNCTION.match(first):
            _, functions = without_bodies(lines, "")
            found += [Item(path, name, "\n".join(header), is_function=True) for name, header in functions.items()]
        elif declared := DECLARED.match(first):
            found.append(Item(path, declared[1], "\n".join(lines), has_calls=CALLING.search(first) is not None))
        elif macro := MACRO.match(first):
            found.append(Item(path, f"{macro[1]}!", "\n".join(lines), has_calls=True))
    brought = [one for one in brought_by(path) if one.is_public or one.name != one.origin.rpartition("::")[2]]
    return found + [Item(path, one.name, one.origin, has_calls=True) for one in brought]


@dataclass(frozen=True, order=True)
class Brought:
    """A name that a `use` brings into a source: the path that it stands for, and whether others can use it from here."""

    name: str
    origin: str
    is_public: bool


@lru_cache(None)
def brought_by(path: Path) -> list[Brought]:
    found = []
    for public, front, several in BROUGHT.findall(text_of(path)):
        for part in several.split(",") if several else [""]:
            origin, _, name = f"{front}{part.strip()}".partition(" as ")
            found.append(Brought(name or origin.rpartition("::")[2], origin, bool(public)))
    return found


@lru_cache(None)
def file_of(module: str) -> Path | None:
    """The file of a module of this repository's definitions or lemmas. The prover makes the others of what sources declare."""
    parts = module.split(".")
    if len(parts) < 4 or parts[1] not in CRATES or parts[2] not in ("specs", "proofs"):
        return None
    path = folder_of(parts[1]) / parts[2] / Path(*parts[3:]).with_suffix(".antt")
    return path if path.is_file() else None


@dataclass(frozen=True, order=True)
class Import:
    """A name that a file imports: its module, and its name there. An alias of a module has no name there."""

    module: str
    there: str


def words_of(one: Import) -> list[str]:
    """The names in an import from what the prover makes of a source of this repository."""
    parts = one.module.split(".")
    return [*parts[2:], one.there] if len(parts) > 2 and parts[1] in CRATES else []


@lru_cache(None)
def imports_of(path: Path) -> dict[str, Import]:
    """What a source, or a file of definitions or proofs, imports from such files, by its own name for it."""
    found = {}
    for module, several, alias in (IMPORT if path.suffix == ".rt" else USE).findall(text_of(path)):
        for part in [f" as {alias}"] if alias else several.split(","):
            there, _, here = part.partition(" as ")
            found[(here or there).strip()] = Import(module, there.strip())
    return found


@dataclass(frozen=True, eq=False)
class Definition:
    """A declaration of a file of definitions or lemmas, with its clauses: what others read of it, and the names that it declares."""

    path: Path
    text: str
    names: frozenset[str]


@lru_cache(None)
def definitions_of(path: Path) -> list[Definition]:
    """The declarations of a file. The body of a lemma is left out, unless it unfolds."""
    is_lemmas = path.relative_to(ROOT).parts[2] == "proofs"
    found: list[list[str]] = []
    for block in re.split(r"\n(?=\S)", text_of(path)):
        if block.startswith("use "):
            continue
        if SIGNATURE.match(block) or DATA.match(block):
            found.append([block])
        elif found and not (is_lemmas and is_sealed(found[-1][0])):
            found[-1].append(block)
    texts = ["\n".join(blocks) for blocks in found]
    return [Definition(path, text, frozenset(name for head in NAMED.findall(text) for name in head if name)) for text in texts]


def is_sealed(block: str) -> bool:
    head = SIGNATURE.match(block)
    return bool(head) and not re.search(r"unfoldable|abbrev|pattern", head[1])


@lru_cache(None)
def definition_index(path: Path) -> dict[str, list[Definition]]:
    found: dict[str, list[Definition]] = {}
    for definition in definitions_of(path):
        for name in definition.names:
            found.setdefault(name, []).append(definition)
    return found


def is_operator_in(name: str, text: str) -> bool:
    """Whether a text may use an operator, such as ◌≡◌: whether it has a part of it."""
    return "◌" in name and any(part in text for part in name.split("◌") if part)


@lru_cache(None)
def names_in(definition: Definition) -> tuple[dict[str, Import], list[Definition]]:
    """What a declaration names: imports, and declarations of its own file."""
    words, text = set(PIECE.findall(definition.text)), definition.text
    imports = {name: one for name, one in imports_of(definition.path).items() if name in words or is_operator_in(name, text)}
    index = definition_index(definition.path)
    own = [found for name in index if name in words or is_operator_in(name, text) for found in index[name]]
    return imports, own


@dataclass(frozen=True, eq=False)
class Said:
    """What a text of a source names: definitions; what a `use` brings; its words; and those that may call a function."""

    imports: dict[str, Import]
    brought: list[Brought]
    words: frozenset[str]
    calls: frozenset[str]

    @property
    def meanings(self) -> list[object]:
        """What the names mean that are imported."""
        return [sorted(self.imports.items()), sorted(self.brought)]


def is_named_otherwise(name: str, text: str) -> bool:
    """Whether a text names something whose name is no word of a source: an operator, or a name that has other characters."""
    return not WORD.fullmatch(name) and (is_operator_in(name, text) if "◌" in name else name in text)


@lru_cache(None)
def said_in(path: Path, text: str) -> Said:
    words = frozenset(WORD.findall(text))
    imports = {name: one for name, one in imports_of(path).items() if name in words or is_named_otherwise(name, text)}
    brought = [one for one in brought_by(path) if one.name in words or one.name == "*"]
    bound = {name for names in BOUND.findall(text) for name in names}
    return Said(imports, brought, words, frozenset(CALLED.findall(text)) | frozenset(NO_FIELD.findall(text)) - bound)


@lru_cache(None)
def index_of(crate: str) -> dict[str, list[Item]]:
    """The items of a crate and of those below, by name."""
    found: dict[str, list[Item]] = {}
    for name in [crate, *below(crate)]:
        for path in files_of(name, "src", "*.rt"):
            for item in items_of(path):
                found.setdefault(item.name, []).append(item)
    return found


@lru_cache(None)
def lemmas_of(crate: str) -> dict[str, list[Path]]:
    """The files of lemmas of a crate and of those below, by the names of their modules: an attribute cites a lemma by such a path."""
    found: dict[str, list[Path]] = {}
    for name in [crate, *below(crate)]:
        for path in files_of(name, "proofs", "*Lemmas.antt"):
            found.setdefault(path.stem, []).append(path)
    return found


@lru_cache(None)
def sum_of_item(item: Item) -> str:
    return sum_of([named(item.path), item.name, item.text, said_in(item.path, item.text).meanings])


@lru_cache(None)
def sum_of_definition(definition: Definition) -> str:
    return sum_of([named(definition.path), definition.text, sorted(names_in(definition)[0].items())])


class Reading:
    """What is read for an edit: items of sources, and definitions."""

    def __init__(self, crate: str) -> None:
        self.crate = crate
        self.items: set[Item] = set()
        self.definitions: set[Definition] = set()
        self.imports: set[Import] = set()
        self.words: set[tuple[str, bool]] = set()
        self.left: list[tuple[str, bool]] = []

    def follow(self, word: str, calls: bool) -> None:
        if (word, calls) not in self.words:
            self.words.add((word, calls))
            self.left.append((word, calls))

    def read_source(self, path: Path, text: str, calls: bool) -> None:
        """Follows the words of a text that stands in a source."""
        said = said_in(path, text)
        for one in said.imports.values():
            self.read_import(one)
        for word in said.words:
            self.follow(word, False)
            for file in lemmas_of(self.crate).get(word, []):
                self.read_named(file, said.words)
        for word in said.calls if calls else []:
            self.follow(word, True)

    def read_import(self, one: Import) -> None:
        """Reads what an import of this repository names: a definition, or what a source declares."""
        if one in self.imports:
            return
        self.imports.add(one)
        path = file_of(one.module)
        if path:
            self.read_named(path, frozenset([one.there]))
        for word in [] if path else words_of(one):
            self.follow(word, False)

    def read_named(self, path: Path, names: frozenset[str]) -> None:
        """Reads the declarations of a file that have one of these names, or all if none has."""
        index = definition_index(path)
        found = [definition for name in names for definition in index.get(name, [])]
        for definition in found or definitions_of(path):
            self.read_definition(definition)

    def read_definition(self, definition: Definition) -> None:
        left = [definition]
        while left:
            one = left.pop()
            if one not in self.definitions:
                self.definitions.add(one)
                imports, own = names_in(one)
                left += own
                for imported in imports.values():
                    self.read_import(imported)

    def finish(self) -> None:
        while self.left:
            word, calls = self.left.pop()
            for item in index_of(self.crate).get(word, []):
                if item not in self.items and (calls or not item.is_function):
                    self.items.add(item)
                    self.read_source(item.path, item.text, item.has_calls)

    def sums(self) -> list[str]:
        return sorted([*map(sum_of_item, self.items), *map(sum_of_definition, self.definitions)])


def read_function(reading: Reading, crate: str, function: Function, edited: str) -> list[object]:
    """Reads what a check of a function reads. Returns the function's own text and what is written of its proof."""
    source = folder_of(crate) / function.file
    lines = source.read_text(encoding="utf-8").split("\n")[function.first : function.last + 1]
    head = lines[function.head - function.first]
    attributes, functions = without_bodies(lines, head[: -len(head.lstrip())])
    header = [*attributes, *functions[function.path[-1]]]
    reading.read_source(source, spoken(".rt", header), False)
    reading.read_source(source, spoken(".rt", [*lines[len(header) :], edited]), True)
    for name in function.path[:-1]:
        reading.follow(name, False)
    parts: list[object] = [(function.name, spoken(".rt", lines), said_in(source, spoken(".rt", lines)).meanings)]
    for path in sorted((folder_of(crate) / function.proof).rglob("*.antt")):
        parts.append((named(path), text_of(path)))
        for one in imports_of(path).values():
            reading.read_import(one)
    return parts


@lru_cache(None)
def sources_of(crate: str) -> list[Path]:
    """The sources that a check without tests reads."""
    return [path for path in files_of(crate, "src", "*.rt") if path.relative_to(folder_of(crate)).parts[1] != "tests"]


@lru_cache(None)
def whole_of(crate: str) -> str:
    """The sum of a crate without its tests."""
    paths = [*sources_of(crate), *files_of(crate, "specs", "*"), *files_of(crate, "proofs", "*")]
    return sum_of([CRATES[crate], *((named(path), text_of(path)) for path in paths)])


@lru_cache(None)
def attributes_of(crate: str) -> list[str]:
    """The attributes of a crate, such as that by which tactics are tried."""
    return [line for path in files_of(crate, "src", "*.rt") for line in text_of(path).split("\n") if line.startswith("#![")]


def read_crate(reading: Reading, crate: str) -> None:
    """Reads what a check of a whole crate reads."""
    for path in sources_of(crate):
        reading.read_source(path, text_of(path), True)
    for path in [*files_of(crate, "specs", "*.antt"), *files_of(crate, "proofs", "*.antt")]:
        for one in imports_of(path).values():
            reading.read_import(one)


def rests_on(crate: str, edit: Edit) -> str:
    """The sum of what the verdict on an edit rests on."""
    parts: list[object] = [edit.text, CRATES[crate], attributes_of(crate)]
    reading = Reading(crate)
    if edit.has_copies:
        for function in sorted(edit.functions, key=lambda function: function.name):
            parts += read_function(reading, crate, function, edit.new)
    else:
        parts.append(whole_of(crate))
        read_crate(reading, crate)
    reading.finish()
    return sum_of([*parts, *reading.sums()])
