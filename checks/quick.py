"""The quick gate, ./gate --quick: what can be known of a change within minutes, and what tests the built program.

On a tree that differs from a commit, the last one if none is named, it looks at the layout of the changed crates, looks up what
the documents name, proves the changed crates and tries their wrong bodies. Then it runs the parts that test the built program
and the library for C, side by side: on what was proved and built here, or on what lies in dist/, if that is of these sources.
Where neither is, and rt has kept what it takes, they are built over that; else these parts are left out. A part that counts many
cases tries a draw of them (draw.py). The first line says what is tested, and the last what the processors took and what is left out.
"""

import os
import re
import resource
import subprocess
import sys
import time
from collections.abc import Iterable
from concurrent.futures import ThreadPoolExecutor
from dataclasses import dataclass, field
from pathlib import Path
from typing import NoReturn

from checks.crates import CRATES, below, folder_of
from checks.draw import seed_of_tree
from checks.kit import kit_folder
from checks.machine import DIST, PROVED_ARCHIVE, PROVED_PROGRAM, ROOT, is_there, taken

# The parts that test the built program and the library, those that take longest first.
OF_PROGRAM = [
    "rust/check", "page/check", "dist/qemu", "completions/check", "model/compare 500", "docs/commands", "c/installed", "c/check",
    "c/package", "model/names", "model/terminals", "model/paths", "model/allowed", "model/judged", "model/harmless", "model/tic", "model/tput", "model/upstream", "dist/check", "python/check",
    "c/header", "program/check", "checks/stable", "program/paths", "program/hostile", "program/tasks", "program/remedies", "program/sources", "program/rows", "program/memory",
    "clients/run", "compat/check", "program/oracle",
]
WHOLE = "./gate is the whole test"
# What cargo compiles for longer than half a minute.
OF_CARGO = "of rust/check the crate's own tests, its documentation, other processors and the program by cargo"
# What a part cannot try here, for lack of one of the packages that ./neighbours installs.
LACKING = re.compile(r"\w+: left out[:,] .*")
MADE = {"ti": PROVED_PROGRAM, "ti_c": PROVED_ARCHIVE}
STARTED = time.monotonic()


@dataclass
class Part:
    """A part that ran: its name, its status, its last line, and the seconds that it took by the clock and of the processors."""

    name: str
    status: int
    said: str
    seconds: float
    processors: float

    def line(self) -> str:
        times = f"{self.seconds:5.0f} s {self.processors:5.0f} s"
        return f"{self.name:24} {times}  {'' if not self.status else f'status {self.status}: '}{self.said}"


@dataclass
class Quick:
    """What a run of the quick gate came to."""

    parts: list[Part] = field(default_factory=list)
    left_out: list[str] = field(default_factory=list)
    lacking: set[str] = field(default_factory=set)

    def run(self, name: str, words: list[str], folder: Path = ROOT) -> bool:
        """Runs a part, and writes what it wrote when it has ended. Whether it went well."""
        began = time.monotonic()
        with subprocess.Popen(words, cwd=folder, stdin=subprocess.DEVNULL, stdout=subprocess.PIPE, stderr=subprocess.STDOUT) as process:
            lines = (process.stdout.read() if process.stdout else b"").decode(errors="replace").splitlines()
            _, status, used = os.wait4(process.pid, 0)
            process.returncode = os.waitstatus_to_exitcode(status)
        print("\n".join([f"== {name}", *lines]), flush=True)
        self.lacking.update(filter(LACKING.fullmatch, lines))
        said, taken_time = lines[-1] if lines else "", used.ru_utime + used.ru_stime
        self.parts.append(Part(name, process.returncode, said, time.monotonic() - began, taken_time))
        return process.returncode == 0

    def failed(self) -> list[str]:
        return [part.name for part in self.parts if part.status]

    def end(self) -> NoReturn:
        """Ends with a table of the parts, and a line on what failed and what was left out."""
        wall, used = time.monotonic() - STARTED, resource.getrusage(resource.RUSAGE_CHILDREN)
        processors = used.ru_utime + used.ru_stime
        head = f"{'part':24} {'clock':>7} {'processors':>7}"
        total = f"{'in total':24} {wall:5.0f} s {processors:5.0f} s"
        print("\n".join([head, *(part.line() for part in self.parts), total, *sorted(self.lacking)]))
        verdict = f"failed: {', '.join(self.failed())}" if self.failed() else f"{len(self.parts)} parts passed"
        left_out = "; ".join(self.left_out)
        print(f"quick: {verdict} in {processors:.0f} s of the processors, on {tested()}; left out: {left_out}; {WHOLE}")
        sys.exit(1 if self.failed() else 0)


def is_ready(crate: str) -> bool:
    """Whether what is made of a crate is there, of these sources."""
    return subprocess.run([DIST / "take", crate], stdout=subprocess.DEVNULL, check=False).returncode == 0


def tested() -> str:
    """What is tested, in words."""
    paths = [taken(crate, made) for crate, made in MADE.items() if is_ready(crate)]
    names = " and ".join(str(path.relative_to(ROOT)) for path in paths)
    if not names:
        return "no program"
    return f"{names}, which {'came with the repository' if paths[0].parent == DIST else 'was proved and built here'}"


# ---- what was changed


def lines_of_git(*words: str) -> list[str]:
    """The lines that a command of git writes; none where git knows nothing of the tree."""
    done = subprocess.run(["git", *words], cwd=ROOT, stdout=subprocess.PIPE, stderr=subprocess.DEVNULL, text=True, check=False)
    return done.stdout.splitlines() if done.returncode == 0 else []


def changes_since(commit: str) -> list[tuple[str, ...]]:
    """The files that differ from a commit, in parts of their paths."""
    names = lines_of_git("diff", "--name-only", commit, "--") + lines_of_git("ls-files", "--others", "--exclude-standard")
    return [Path(name).parts for name in names]


def changed_crates(changes: Iterable[tuple[str, ...]]) -> list[str]:
    """The crates whose sources were changed, each after those that it names."""
    changed = {path[1] for path in changes if path[0] == "crates" and path[2:3] in [("src",), ("specs",), ("proofs",)]}
    return sorted(changed & set(CRATES), key=lambda crate: len(below(crate)))


def crates_to_try(changes: Iterable[tuple[str, ...]], changed: list[str]) -> list[str]:
    """The crates whose wrong bodies are tried: those that were changed, or whose edits were."""
    edited = {path[1].split(".")[0] for path in changes if path[0] == "edits" and len(path) > 1}
    has_edits = {path.name.split(".")[0] for path in (ROOT / "edits").iterdir()}
    return [crate for crate in CRATES if crate in has_edits and (crate in edited or crate in changed)]


# ---- what is done about it


def has_kept(crate: str) -> bool:
    """Whether rt has kept what it proved of a crate."""
    return (folder_of(crate) / "out/incremental").is_dir()


def prove_changed(quick: Quick, crate: str, kit: Path) -> bool:
    """Looks at the layout of a crate, and proves it: over what rt kept, or else as ./prove does it. Whether all is well."""
    files = [str(path) for part in ["src", "specs", "proofs"] for path in sorted((folder_of(crate) / part).rglob("*.*t*"))
             if path.suffix in (".rt", ".antt")]
    if not quick.run(f"layout of {crate}", [str(kit / "bin/rattle"), "fmt", "--check", *files], folder_of(crate)):
        return False
    words = ["rt", "check"] if has_kept(crate) else [str(ROOT / "prove"), crate]
    return quick.run(f"{'rt check' if has_kept(crate) else './prove'} {crate}", words, folder_of(crate))


def tries_of(crates: list[str]) -> list[list[str]]:
    """The calls that have the prover try the wrong bodies of crates: if there is a record of those that were refused, only those of which
    it is out of date."""
    if crates and (ROOT / "edits/record.tsv").exists():
        return [["edits/try", "--judge", "prover", "--changed"]]
    return [["edits/try", "--judge", "prover", crate] for crate in crates]


def try_by_rows(quick: Quick, crates: list[str]) -> None:
    """Tries the wrong bodies of crates by rows, which needs no `rt`."""
    if crates and is_there("cargo") and not quick.run("edits/try by rows", [str(ROOT / "edits/try"), "--judge", "rows", *crates]):
        quick.end()


def look_at_changes(quick: Quick, commit: str) -> None:
    """What concerns the changed crates. The first that fails ends the run."""
    changes = changes_since(commit)
    changed = changed_crates(changes)
    tried = crates_to_try(changes, changed)
    if ("crates.txt",) in changes:
        quick.left_out.append("the crates whose lines in crates.txt were changed")
    try_by_rows(quick, tried)
    if not is_there("rt"):
        if changed or tried:
            quick.left_out.append(f"the proof of {', '.join(changed or tried)}, since there is no rt on the path")
        return
    kit = kit_folder()
    if not all(prove_changed(quick, crate, kit) for crate in changed):
        quick.end()
    if not all(quick.run(" ".join(words), [str(ROOT / words[0]), *words[1:]]) for words in tries_of(tried)):
        quick.end()
    tests = [crate for crate in changed if crate not in [*below("ti"), *below("ti_c"), "ti", "ti_c"]]
    if tests:
        quick.left_out.append(f"the tests of {', '.join(tests)} (rt test)")
    above = [crate for crate in CRATES if crate not in changed and set(below(crate)) & set(changed)]
    if above:
        quick.left_out.append(f"the proofs of the {len(above)} crates above")


def build(quick: Quick) -> None:
    """Builds the program and the library over what rt has kept, if neither was built of these sources nor lies in dist/."""
    for crate, words in {"ti": ["rt", "run", "--", "--version"], "ti_c": ["rt", "lib"]}.items():
        if is_ready(crate) or not is_there("rt"):
            continue
        if all(has_kept(name) for name in [*below(crate), crate]):
            quick.run(f"{words[0]} {words[1]} {crate}", words, folder_of(crate))


def test_program(quick: Quick) -> None:
    """The parts that test the built program, as many side by side as there are processors."""
    build(quick)
    # What was built meanwhile is taken from now on.
    taken.cache_clear()
    lacking = [crate for crate in MADE if not is_ready(crate)]
    if lacking:
        which = " && ".join(f"./prove {crate}" for crate in lacking)
        quick.left_out.append(f"all tests of the built program, which is not of these sources: {which}, and then ./gate --quick")
        return
    with ThreadPoolExecutor(min(len(os.sched_getaffinity(0)), 4)) as pool:
        list(pool.map(lambda words: quick.run(words, [str(ROOT / words.split()[0]), *words.split()[1:]]), OF_PROGRAM))


def main(commit: str = "HEAD") -> NoReturn:
    """The quick gate, of what differs from a commit."""
    quick = Quick()
    os.environ["TI_DRAW"] = seed_of_tree()
    print(f"quick: what takes minutes, on {tested()}; {WHOLE}", flush=True)
    quick.run("docs/check", [str(ROOT / "docs/check")])
    look_at_changes(quick, commit)
    test_program(quick)
    quick.left_out += ["rt ci", "the wrong bodies of other crates", "edits/mechanical", "edits/test", "dist/compare", "checks/license", OF_CARGO]
    quick.end()
