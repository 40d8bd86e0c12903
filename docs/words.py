"""Whether what people read has one word for each thing: those of terminfo(5). Code, contracts, names of calls, members of JSON and the lines of
`show`, `check`, `diff` and `trace` have their own."""

import re
from collections.abc import Iterator
from pathlib import Path

from checks.machine import ROOT

# What is not said, and what is said in place of it.
SAID = {
    r"texts?": "string", r"flags?": "boolean", r"extended": "user-defined", r"padding marks?": "delay", r"entry's own": "user-defined",
}
# Phrases that mean something else: the flags of a format in terminfo(5), the parts of term(5), labels of indices, what a terminal shows.
ALLOWED = re.compile(
    r"sgr-text|(?:flag|number|text)#N?|flags? (?:does not|that do not|that its)|extended (?:header|part)|"
    r"flag, number (?:and|or) text|1 in extended|type=text|plain text|In the names of the calls a flag is .*?user-defined"
)
LITERAL = re.compile(r'"((?:[^"\\]|\\.)*)"', re.S)
VOICE = ["advice", "explanation", "item_line", "reason", "request_line", "sentence", "tally"]
# Sources whose literals people read, those with a space in them; comments and contracts apart.
SOURCES = [
    "crates/ti_line/src/help.rt", "crates/ti_line/src/command.rt", "crates/ti_line/src/tip.rt", "crates/ti_rules/src/table.rt",
    "crates/ti_forms/src/sentence.rt", "crates/ti_forms/src/which.rt", "crates/ti_forms/src/explanations.rt",
    *(f"crates/ti_tool/src/voice/{name}.rt" for name in VOICE),
    "crates/ti_tool/src/fault_line.rt", "crates/ti_c/src/messages.rt", "rust/library/src/message.rs",
]
PAGES = ["README.md", "rust/library/README.md", "docs/STABLE.md", "SECURITY.md", "docs/EXAMPLES.md"]


def wrong(text: str) -> Iterator[str]:
    """Each word of a text that another one stands for, with that."""
    text = ALLOWED.sub("", " ".join(text.split()))
    for word, other in SAID.items():
        for found in re.finditer(rf"(?<![\w#`.'-]){word}(?![\w#`'-])", text):
            yield f"'{text[max(0, found.start() - 30):found.end() + 30].strip()}': {other}, not {found[0]}"


def literals(path: Path) -> Iterator[str]:
    """The literals of a source that are sentences, and not contracts, comments or names."""
    code = re.sub(r"(?m)^ *//.*$|^ *(?:ghost|requires|ensures|#\[).*$", "", path.read_text("utf-8"))
    return (found[1] for found in LITERAL.finditer(code) if " " in found[1].strip())


def manual(path: Path) -> Iterator[str]:
    """The prose of a manual page: no examples, no macros, and nothing in bold or italics, which are names."""
    text = re.sub(r"(?ms)^\.EX\n.*?^\.EE\n|^\.nf\n.*?^\.fi\n", "", path.read_text("utf-8"))
    lines = [line for line in text.splitlines() if not line.startswith(".")]
    yield re.sub(r"\\f[BI].*?\\f[RP]", "", " ".join(lines)).replace("\\-", "-")


def page(path: Path) -> Iterator[str]:
    """The prose of a page: no code, and no table of it."""
    text = re.sub(r"(?ms)^```.*?^```$", "", path.read_text("utf-8"))
    yield re.sub(r"`[^`]*`", "", "\n".join(line for line in text.splitlines() if not line.startswith("    ")))


def docstrings(path: Path) -> Iterator[str]:
    """What help() prints of a module."""
    yield from re.findall(r'(?s)"""(.*?)"""', path.read_text("utf-8"))


def browser(path: Path) -> Iterator[str]:
    """What the page shows: the text of its markup, and the literals of its scripts that are sentences, on lines without templates."""
    text = path.read_text("utf-8")
    if path.suffix == ".html":
        yield re.sub(r"(?s)<(?:style|script).*?</(?:style|script)>|<[^>]*>", " ", text)
    else:
        lines = (line for line in text.splitlines() if "`" not in line and not re.match(r" *(?://|\*|/\*)", line))
        found = (found for line in lines for found in re.finditer(r'(class: )?"((?:[^"\\]|\\.)*)"', line))
        yield from (one[2] for one in found if " " in one[2] and not one[1])


def comments_of_rust(path: Path) -> Iterator[str]:
    """The documentation of a source of Rust, without its examples."""
    text = "\n".join(line.strip()[3:] for line in path.read_text("utf-8").splitlines() if re.match(r" *//[/!]", line))
    yield re.sub(r"`[^`]*`", "", re.sub(r"(?ms)^ ?```.*?^ ?```$", "", text))


def comments_of_c(path: Path) -> Iterator[str]:
    """The comments of a header, without their examples."""
    for comment in re.findall(r"(?s)/\*.*?\*/", path.read_text("utf-8")):
        yield " ".join(line.strip(" */") for line in comment.splitlines() if not line.startswith(" *     "))


def all_texts() -> Iterator[tuple[Path, str]]:
    """All that people read, with the file that has it."""
    for name in SOURCES:
        yield from ((ROOT / name, text) for text in literals(ROOT / name))
    for path in sorted(ROOT.glob("docs/*.[1-9]")):
        yield from ((path, text) for text in manual(path))
    for name in PAGES:
        yield from ((ROOT / name, text) for text in page(ROOT / name))
    # The roles of parameters in parameters.js are names.
    for path in sorted(set(ROOT.glob("page/source/*.[hj]*")) - {ROOT / "page/source/parameters.js"}):
        yield from ((path, text) for text in browser(path))
    yield from ((ROOT / "include/ti.h", text) for text in comments_of_c(ROOT / "include/ti.h"))
    for path in sorted(ROOT.glob("python/mogyarsu/*.py")):
        yield from ((path, text) for text in docstrings(path))
    for path in sorted(ROOT.glob("rust/library/src/*.rs")):
        yield from ((path, text) for text in comments_of_rust(path))
