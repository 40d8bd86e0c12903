"""Edits, the functions that they change, and the copies of a function in which wrong bodies are tried side by side."""

import re
import shutil
from collections import Counter
from dataclasses import dataclass
from functools import lru_cache
from pathlib import Path

from checks.crates import folder_of
from checks.machine import ROOT

HERE = Path(__file__).resolve().parent


class BadEdit(Exception):
    """Why an edit cannot be tried."""


@lru_cache(None)
def lines_of(crate, file):
    path = folder_of(crate) / file
    if not file.startswith("src/") or not path.is_file():
        raise BadEdit(f"there is no file {file} in src/")
    return path.read_text(encoding="utf-8").split("\n")


@dataclass(frozen=True)
class Function:
    """A function of a crate: its file, and there the numbers of its first line, of its header and of its last line.

    Its path has the modules, the impl and its own name, as a check prints them. A function of a trait can have no copy
    beside it.
    """

    file: str
    first: int
    head: int
    last: int
    path: tuple
    is_of_trait: bool

    @property
    def name(self):
        return "::".join(self.path)

    @property
    def proof(self):
        """The folder of what is written of its proof."""
        return Path("proofs", *self.path)


HEADER = re.compile(r'( *)(?:pub(?:\(.*?\))? )?(?:const )?(?:unsafe )?(?:extern "C" )?fn (\w+)')


def function_at(crate, file, number):
    """The function whose body has a line of a file; None if the line is in no body.

    In the layout of `rt fmt` a body begins with a brace at the end of its header, or on a line of its own as far in as
    the header, and ends with one as far in.
    """
    lines = lines_of(crate, file)
    heads = [(at, head) for at in range(number) if (head := HEADER.match(lines[at]))]
    if not heads:
        return None
    at, head = heads[-1]
    indent, before = head[1], lines[at:number]
    openings = (head[0], f"{indent})", f"{indent}{{")
    if f"{indent}}}" in before or not any(line.endswith("{") and line.startswith(openings) for line in before):
        return None
    first = at
    while first and lines[first - 1].strip() and not re.search(r"^\s*//|[{};]$", lines[first - 1]):
        first -= 1  # a line of an attribute
    last = lines.index(f"{indent}}}", at)
    owner, trait = impl_at(lines, at) if indent else ("", "")
    modules = module_of(home_of(crate, owner) or file)
    path = (*modules, *([owner + trait] if owner else []), head[2])
    return Function(file, first, at, last, path, trait != "")


@lru_cache(None)
def functions_of(crate):
    """The functions of a crate that have a body, but for those of traits."""
    found = set()
    for path in sorted((folder_of(crate) / "src").rglob("*.rt")):
        file = str(path.relative_to(folder_of(crate)))
        lines = lines_of(crate, file)
        for at, head in enumerate(map(HEADER.match, lines)):
            end = f"{head[1]}}}" if head else None
            if end in lines[at:]:
                found.add(function_at(crate, file, lines.index(end, at)))
    return [function for function in found - {None} if not function.is_of_trait]


@lru_cache(None)
def home_of(crate, owner):
    """The file that declares a type, if the crate does: a check calls a method by the module of its type."""
    declared = re.compile(rf"^\s*(?:pub(?:\(.*?\))? )?(?:struct|enum) {owner}\b", re.M)
    for path in sorted(folder_of(crate).glob("src/**/*.rt")):
        if owner and declared.search(path.read_text(encoding="utf-8")):
            return str(path.relative_to(folder_of(crate)))
    return None


def module_of(file):
    parts = Path(file).with_suffix("").parts[1:]
    return parts[:-1] if parts[-1] in ("lib", "main", "mod") else parts


def impl_at(lines, number):
    """The type of the impl that has the line, and the trait if it is of one, without lifetimes. A check prints one after the other."""
    head = next((line for line in reversed(lines[:number]) if line.startswith("impl")), "impl ? {")
    head = re.sub(r"^impl(<.*?>)? | where .*|\w+::|'\w+(, )?", "", head).rstrip(" {")
    trait, _, owner = head.rpartition(" for ")
    return re.sub(r"<.*", "", owner), re.sub(r"\W", "", trait)


@dataclass(eq=False)
class Edit:
    """An edit: its crate and name, its text, the lines that it changes, by file and number, and the functions in whose bodies they lie.

    If a line is in no body, `by` may name the function whose proof refuses the edit. Some are tried whatever the record says.
    """

    crate: str
    name: str
    text: str
    lines: dict
    functions: frozenset
    is_outside: bool
    by: str | None

    @property
    def label(self):
        return f"{self.crate}/{self.name}"

    @property
    def is_always_tried(self):
        return "tried: always" in self.text.split("\n")

    @property
    def new(self):
        """The texts that it writes."""
        return "\n".join(re.findall(r"^new: (.*)$", self.text, re.M))

    @property
    def place(self):
        return " and ".join(sorted(function.name for function in self.functions)) or "outside of bodies"

    @property
    def has_copies(self):
        """Whether all that it changes are bodies of functions that can have copies beside them."""
        return not self.is_outside and not any(function.is_of_trait for function in self.functions)

    @property
    def tried(self):
        """The names of the functions that are tried if the edit is made in place."""
        return [self.by] if self.by else [function.name for function in self.functions]


def texts_after(pairs, crate):
    """The texts of the files that an edit names, as it leaves them."""
    file, old, texts = None, None, {}
    for word, text in pairs:
        if word == "file":
            file = text.strip()
            texts.setdefault(file, "\n".join(lines_of(crate, file)))
        elif word == "old":
            old = text
        elif not file or not old:
            raise BadEdit("a line 'new:' has no 'file:' and 'old:' before it")
        else:
            found = texts[file].count(old)
            if found != 1:
                raise BadEdit(f"its old text stands in {file} {found} times, and not once: {old}")
            texts[file], old = texts[file].replace(old, text), None
    return texts


def read_edit(crate, name, text):
    """The edit with this text. An edit changes lines, and their number stays the same, so that several can be made at once."""
    pairs = re.findall(r"^(file|old|new|by):(?: (.*))?$", text, re.M)
    by = next((text.strip() for word, text in pairs if word == "by"), None)
    lines, functions = {}, set()
    for file, after in texts_after([pair for pair in pairs if pair[0] != "by"], crate).items():
        before = lines_of(crate, file)
        for number, (was, line) in enumerate(zip(before, after.split("\n"), strict=True)):
            if was != line:
                lines[file, number] = line
                functions.add(function_at(crate, file, number))
    if not lines:
        raise BadEdit("it changes nothing")
    return Edit(crate, name, text, lines, frozenset(functions - {None}), None in functions, by)


def texts_of_edits(crate, with_must_fail):
    """The names and texts of the edits of a crate: below the headings of its file in edits/, and those in its must-fail/ if these are wanted."""
    path = HERE / f"{crate}.edits"
    parts = re.split(r"^## ", path.read_text(encoding="utf-8"), flags=re.M)[1:] if path.exists() else []
    found = [(name.strip(), text.strip("\n")) for name, _, text in (part.partition("\n") for part in parts)]
    files = sorted((folder_of(crate) / "must-fail").glob("*.edit")) if with_must_fail else []
    return found + [(path.stem, path.read_text(encoding="utf-8").strip("\n")) for path in files]


def texts_in_place(crate, edits):
    """The texts of the files that edits change, with all of them. No two change the same line."""
    texts = {}
    for edit in edits:
        for (file, number), line in edit.lines.items():
            texts.setdefault(file, [*lines_of(crate, file)])[number] = line
    return {file: "\n".join(lines) for file, lines in texts.items()}


class Copies:
    """Copies of functions for some edits: for each edit those with its wrong bodies, and for each function one as it stands.

    A copy has its function's contract and what is written of its proof, and stands beside it. Nothing calls it, so whether
    it is proved depends on its body alone. The copy of the body as it stands shows that a copy is proved if its body is right;
    the functions `shown` need none, since an earlier try has shown that of them.
    """

    def __init__(self, crate, edits, shown):
        self.crate, self.of_edits, self.unedited, self.copied = crate, {}, {}, []
        counts = Counter()
        for edit in edits:
            for function in sorted(edit.functions, key=lambda function: function.name):
                if function not in self.unedited and function not in shown:
                    self.unedited[function] = self.copy(function, 0, {})
                counts[function] += 1
                name = self.copy(function, counts[function], edit.lines)
                self.of_edits.setdefault(edit, []).append(name)

    def copy(self, function, count, changed):
        """Adds a copy, and returns its name."""
        own = f"{function.path[-1]}__{count}"
        lines = [changed.get((function.file, at), line) for at, line in enumerate(lines_of(self.crate, function.file))]
        at = function.head - function.first
        text = lines[function.first : function.last + 1]
        text[at] = text[at].replace(f"fn {function.path[-1]}", f"fn {own}", 1)
        self.copied.append((function, own, text))
        return "::".join([*function.path[:-1], own])

    def texts(self):
        """The texts of the files, with the copies after their functions."""
        after = {}
        for function, _, text in self.copied:
            after.setdefault(function.file, {}).setdefault(function.last, []).extend(["", *text])
        return {
            file: "\n".join(line for at, own in enumerate(lines_of(self.crate, file)) for line in [own, *copies.get(at, [])])
            for file, copies in after.items()
        }

    def write(self, top):
        """Writes the files with the copies, and what is written of their proofs, in a copy of the crate."""
        for file, text in self.texts().items():
            (top / file).write_text(text, encoding="utf-8")
        for function, own, _ in self.copied:
            if (top / function.proof).is_dir():
                write_proof(top, function, own)
        write_holes(top, self.crate, [])


def write_proof(top, function, own):
    """Copies the folder of a function's proof. Its files name the modules with the goals, which lie at the function's path."""
    folder = top / function.proof.with_name(own)
    shutil.copytree(top / function.proof, folder)
    modules = ".".join(["", *function.proof.parts[:-1], ""])
    for path in folder.rglob("*.antt"):
        text = path.read_text(encoding="utf-8")
        path.write_text(text.replace(f"{modules}{function.path[-1]}.", f"{modules}{own}."), encoding="utf-8")


def write_holes(top, crate, proved):
    """Has the check take all functions but some by their contracts, as their callers do: a hole stands for each proof."""
    for function in functions_of(crate):
        if function.name not in proved:
            folder, name = top / function.proof, function.path[-1]
            folder.mkdir(parents=True, exist_ok=True)
            for written in ["Invariants", "Answers"]:
                (folder / f"{written}.antt").unlink(missing_ok=True)
            module = ".".join(["Rattle", crate, *function.proof.parts])
            text = f"use {module}.Statement.{{statement}}\n\npub {name}_spec : {{M : Type 1}} → statement M\n{name}_spec = ?\n"
            (folder / "Proof.antt").write_text(text, encoding="utf-8")
