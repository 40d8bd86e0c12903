#!/usr/bin/env python3
"""The explanations of findings, in ti_forms/src/explanations.rt: the paragraphs of ti-findings(7), without its marks.

    docs/explanations.py [--write]

prints the file, or writes it."""

import re
import sys
import textwrap
from pathlib import Path

sys.dont_write_bytecode = True
sys.path.insert(0, str(Path(__file__).resolve().parent.parent))
from checks.machine import ROOT

FILE = ROOT / "crates/ti_forms/src/explanations.rt"
ONLY_ALL = "Only with \\-\\-all"
WIDTH = 78


def plain(text: str) -> str:
    """The text of roff on one line, as it is read."""
    text = re.sub(r"\\f[BIR]", "", text).replace("\\(aq", "'").replace("\\-", "-").replace("\\e", "\\")
    return " ".join(text.split())


def lowered(text: str) -> str:
    return text[0].lower() + text[1:]


def summary(text: str) -> str:
    """The first sentence, to what explains it or is an example."""
    return re.split(r"[;:] |, (?:such )?as (?:in )?|\.$", text)[0]


def paragraphs() -> dict[str, tuple[str, str]]:
    """For each word its summary and its paragraph, in the order of the manual. What is reported with --all alone says so."""
    manual = (ROOT / "docs/ti-findings.7").read_text().split(".SH FINDINGS\n")[1].split(".SH ")[0]
    found: dict[str, tuple[str, str]] = {}
    # What is reported always comes first.
    for section in sorted(manual.split(".SS ")[1:], key=lambda section: section.startswith(ONLY_ALL)):
        for heading, text in re.findall(r"^\.TP\n\.B (\S+)\n((?:[^.].*\n)+)", section, re.M):
            word, first, text = plain(heading), summary(plain(text.split(".\n")[0])), plain(text)
            if not section.startswith(ONLY_ALL):
                found[word] = lowered(first), text
            elif word in found:
                found[word] = found[word][0], f"{found[word][1]} With --all: {lowered(text)}"
            else:
                found[word] = f"only with --all: {lowered(first)}", f"Only with --all: {lowered(text)}"
    headings = re.findall(r"^\.TP\n\.B (\S+)\n", manual, re.M)
    return {word: found[word] for word in dict.fromkeys(map(plain, headings))}


def literal(text: str) -> str:
    return text.replace("\\", "\\\\").replace('"', '\\"')


HEAD = """//! The words of findings, the summary of each, and its explanation: the paragraph of ti-findings(7) on it.
//! docs/explanations.py makes this file.

/// For each word a line with its summary, and indented lines.
pub const EXPLANATIONS: &str = "\\
"""


def made() -> str:
    """The file."""
    texts = ""
    for word, (first, text) in paragraphs().items():
        texts += f"{word}: {first}\n" + textwrap.fill(text, WIDTH, initial_indent="  ", subsequent_indent="  ", break_on_hyphens=False) + "\n"
    return f'{HEAD}{literal(texts)}";\n'


def main() -> None:
    if sys.argv[1:] == ["--write"]:
        FILE.write_text(made())
    else:
        print(made(), end="")


if __name__ == "__main__":
    main()
