"""Adds the tests of the sources to a crate that rust/make made, so that cargo runs them over it. Tests of memory that is refused are
not added, and if the crate is made alone, those of what only the program has. Each row of a table becomes a test of its own."""

import re
import shutil
from pathlib import Path
from types import ModuleType

from checks.crates import CRATES

HERE = Path(__file__).resolve().parent
# All crates of tests.
TESTS = [crate.removeprefix("ti_") for crate in CRATES if crate == "ti_fixtures" or crate.endswith("_tests")]
# A test of what only the version of `clap` says.
OF_WORDING = "refused_lines::other_words_are_refused_with_a_text"
# If the crate is made alone: the crates whose tests are added, each with the files that are not.
ALONE = {
    "fixtures": ["flushed", "sink", "source", "tally"],
    "entry_tests": ["entry_sources"],
    "draft_tests": ["entry_objects", "json"],
    "capability_tests": [],
    "notation_tests": ["padding_memory", "padding_rows", "padding_writers", "trace", "traces", "control", "sent_names", "parser"],
}
# Else what Rust's own test does is left out of each, and what tests `ti_parser`, which nothing of the program stands on.
LEFT_OUT = ["tally", "parser"]
# What tests of memory that is refused take. Rust's own allocator refuses none on request, so they are not added.
OF_MEMORY = ["LocalHeap", "Tally", "Tries", "tally_of", "GrowthsOf", "growths_of"]
# A function, a type or what is implemented for one, at the top of a file.
ITEM = re.compile(
    r"(?:^(?://|#\[).*\n)*^(?:pub )?(?:fn (\w+)|struct (\w+)|impl(?:<.*?>)? (?:.* for )?(\w+)).*(?<!;)(?:\n(?!\}).*)*\n\}\n\n?", re.M
)
# What a test of Rattle has for its handle `rt`, which those of Rust do without. KIT is the crate's own kit.
RENAMES = [
    # Any error that prints itself converts, so this one does not.
    (r"#\[derive\(Drop\)\]\n(?=pub struct Unfound;)", ""),
    (r"(?<=<E: Debug) \+ Drop(?=>)", ""),
    (r"\bstd::(?:test::Fail|process::Abort);", "KIT::testing::*;"),
    (r"\brt: (?:HostRuntime|&impl Abort|&\(impl Abort \+ AllocGlobal\))(?:,\s*)?", ""),
    (r"\(\$rt:expr; ", "("),
    (r"&\$rt, ", ""),
    (r"(?<=!\()rt;\s", ""),
    (r"(?<=\()\s*&?rt,\s*", ""),
    (r"\brt\.alloc\(\)|\*\w+\.allocator\(\)", "KIT::Global"),
    (r"format!\(in ", "format_in!("),
    (r"\.(to_string|to_vec)\((?=\w)", r".\1_in("),
]


def apart(test: str, tables: dict[str, str]) -> str:
    """A test of a table as a test of each row; another as it is."""
    named = [name for name in tables if re.search(rf"\b{name}\b", test)]
    if len(named) != 1:
        return test
    rows = [row for row in tables[named[0]].splitlines() if not row.startswith("# ")]
    alone = [re.sub(rf"\b{named[0]}\b", lambda _: f'r##"{row}"##', test) for row in rows]
    return "\n".join(re.sub(r"(?<=\nfn )\w+", rf"\g<0>_{place}", one) for place, one in enumerate(alone))


def by_rows(text: str) -> str:
    """The tests of a file, with each row of a table as a test of its own."""
    tables = dict(re.findall(r'^const (\w+): &str = r#*"\n(.*?)\n"#*;', text, re.M | re.S))
    return re.sub(r"^#\[test\]\nfn .*?^\}\n", lambda found: apart(found[0], tables), text, flags=re.M | re.S)


def without_memory(text: str) -> str:
    """The items of a file that take nothing of OF_MEMORY, nor one another that does."""
    gone = list(OF_MEMORY)
    while found := next((item for item in ITEM.finditer(text) if re.search(rf"\b(?:{'|'.join(gone)})\b", item[0])), None):
        gone += [name for name in found.groups() if name]
        text = text[: found.start()] + text[found.end() :]
    text = re.sub(r"^use linked_list_allocator::.*;\n", "", text, flags=re.M)
    text = re.sub(rf"^(?:(?://|#\[).*\n)*(?:pub )?struct (?:{'|'.join(gone)})\b.*;\n\n?", "", text, flags=re.M)
    return re.sub(rf"\b(?:{'|'.join(OF_MEMORY)})\b(?:,\s*)?", "", text)


def test_of_rust(text: str, make: ModuleType, crate: str, left_out: list[str]) -> str:
    """A file of tests as one of Rust."""
    text = by_rows(without_memory(make.bare(text)))
    text = re.sub(rf"^(?:pub )?(?:mod|use) (?:{'|'.join(['laws', *left_out])})\b.*;\n", "", text, flags=re.M)
    for pattern, name in RENAMES:
        text = re.sub(pattern, name, text)
    if re.search("to_vec_in|format_in!", text) and "testing::*" not in text:
        text = text.replace("\nuse ", "\nuse KIT::testing::*;\nuse ", 1)
    return make.renamed(text, crate).replace("KIT::", "crate::kit::")


def append(path: Path, text: str) -> None:
    path.write_text(path.read_text() + text)


def print_as_derived(shown: Path) -> None:
    """Takes out how the crate prints values with bytes, since the tests hold what Rattle derives."""
    text = shown.read_text()
    shown.write_text(text[: text.index("impl fmt::Debug for Text")])


def make_with_tests(make: ModuleType, target: Path, is_alone: bool) -> None:
    """Makes the crate with the tests in a folder."""
    make.SHOWN.clear()
    make.make_library(target, is_alone)
    print_as_derived(target / "src/shown.rs")
    added = ALONE if is_alone else dict.fromkeys(TESTS, LEFT_OUT)
    for crate, left_out in added.items():
        add_crate(make, target, crate, left_out)
    append(target / "src/kit.rs", "#[cfg(test)]\npub use vec::testing;\n")
    append(target / "src/kit/vec.rs", "#[cfg(test)]\npub mod testing;\n")
    (target / "src/kit/vec").mkdir()
    shutil.copy(HERE / "testing.rs", target / "src/kit/vec")


def add_crate(make: ModuleType, target: Path, crate: str, left_out: list[str]) -> None:
    """Adds the tests of a crate to the one in a folder."""
    folder = make.folder_of(crate)
    for path in sorted(folder.rglob("*.rt")):
        if path.stem not in left_out:
            made = target / "src/made" / crate / path.relative_to(folder).with_suffix(".rs")
            made = made.parent.with_suffix(".rs") if path.name == "lib.rt" else made
            made.parent.mkdir(parents=True, exist_ok=True)
            made.write_text(test_of_rust(path.read_text(), make, crate, left_out))
    append(target / "src/made.rs", f"#[cfg(test)]\npub mod {crate};\n")
