"""The judge by rows: the tests of the sources run over the crate for Rust with each wrong body, and must fail with it.

All edits that have arms (schema.py) are compiled together, and each runs the tests of all rows once, up to the first that fails. One
that the compiler refuses is left out, and is bad if it is refused alone too. An edit outside of bodies is made in place, one after
another. A run that takes too long, or too much memory, fails.
"""

import json
import os
import re
import resource
import shutil
import subprocess
import sys
import threading
from collections.abc import Callable
from concurrent.futures import ThreadPoolExecutor
from dataclasses import dataclass
from pathlib import Path

from bodies import HERE, Edit, texts_in_place
from checks.machine import ROOT, is_there
from schema import CHOICE, Crate, has_arms, sources_with
from trial import ACCEPTED, BAD, REFUSED, Stopped, tell

OUT = HERE / "out/rows"
# A run of all rows takes three seconds of a processor, and much longer by the clock if others work too.
MOST_PROCESSOR_SECONDS, MOST_SECONDS, MOST_BYTES = 20, 1800, 4 << 30
FAILED = re.compile(r"test (\S+) \.\.\. FAILED")
# The rows that mostly refuse an edit come first, and the tests of entries, which take longest, come last.
FIRST, LAST = ["rows_of_", "runs_of_", "report_tests::", "request_tests::", "notation_tests::"], "entry_tests::"
STAGES = [FIRST, ["_tests::", *(word for name in [*FIRST, LAST] for word in ("--skip", name))], [LAST]]
# So many runs are side by side at most.
MOST_SIDE_BY_SIDE = 4


@dataclass(frozen=True)
class Told:
    """What an edit comes to by rows, and the line that says so."""

    word: str
    line: str


@dataclass(frozen=True)
class Built:
    """What cargo made: the program of the tests, or what speaks against it, each with its file and line."""

    program: str
    errors: list[tuple[str, int, str]]


def why_not() -> str:
    """What is missing for this judge; empty if nothing is."""
    sys.path.insert(0, str(ROOT / "rust"))
    from targets import has_crates

    return "cargo" if not is_there("cargo") else "" if has_crates() else "librust-clap-dev and librust-strsim-dev"


def build(folder: Path) -> Built:
    """Compiles the crate with its tests."""
    words = ["cargo", "test", "--lib", "--features", "program", "--no-run", "--message-format=json"]
    settings = {**os.environ, "CARGO_NET_OFFLINE": "true", "CARGO_TARGET_DIR": str(OUT / "target"), "RUSTFLAGS": "-A warnings"}
    done = subprocess.run(words, cwd=folder, env=settings, capture_output=True, text=True, check=False)
    program, errors = "", []
    for message in map(json.loads, filter(lambda line: line.startswith("{"), done.stdout.splitlines())):
        program = message.get("executable") or program
        told = message.get("message", {})
        if told.get("level") == "error":
            spans = sorted(told["spans"], key=lambda span: not span["is_primary"])
            errors += [(span["file_name"], span["line_start"], told["message"]) for span in spans[:1]]
    if done.returncode and not errors:
        raise Stopped(f"cargo makes no tests: {done.stderr.splitlines()[-1:]}")
    return Built("" if done.returncode else program, errors)


def limited() -> None:
    """Keeps a run from taking all memory, or a processor forever."""
    resource.setrlimit(resource.RLIMIT_AS, (MOST_BYTES, MOST_BYTES))
    resource.setrlimit(resource.RLIMIT_CPU, (MOST_PROCESSOR_SECONDS, MOST_PROCESSOR_SECONDS))


def run_rows(program: str, number: int) -> Told:
    """Runs the rows with an edit, or with none if the number is 0, up to the first that fails."""
    from own_tests import OF_WORDING

    for which in STAGES:
        told = run_stage([program, *which, "--skip", OF_WORDING, "--test-threads=1"], number)
        if told.word == REFUSED:
            return told
    return Told(ACCEPTED, "all rows pass")


def run_stage(words: list[str], number: int) -> Told:
    """Runs some of the rows, up to the first that fails."""
    settings = {**os.environ, CHOICE: str(number), "RUST_BACKTRACE": "0"}
    with subprocess.Popen(
        words, env=settings, stdin=subprocess.DEVNULL, stdout=subprocess.PIPE, stderr=subprocess.DEVNULL, text=True, preexec_fn=limited
    ) as process:
        timer = threading.Timer(MOST_SECONDS, process.kill)
        timer.start()
        failed = next((found[1] for line in process.stdout or [] if (found := FAILED.match(line))), None)
        if failed:
            process.kill()
        status = process.wait()
        timer.cancel()
    if failed:
        return Told(REFUSED, f"the test {failed.removeprefix('made::')} fails")
    return Told(REFUSED, f"the tests end with status {status}") if status else Told(ACCEPTED, "all rows pass")


class Trial:
    """The trial of some edits by rows. Each verdict is passed on as it comes. What does not compile with the others is tried in place,
    or else is bad."""

    def __init__(self, edits: list[Edit], settle: Callable[[Edit, Told], None], has_place: bool = True) -> None:
        self.settle, self.has_place = settle, has_place
        self.numbered = {number: edit for number, edit in enumerate(edits, 1) if has_arms(edit)}
        self.in_place = [edit for edit in edits if edit not in self.numbered.values()]
        shutil.rmtree(OUT / "crate", ignore_errors=True)
        OUT.mkdir(parents=True, exist_ok=True)
        self.crate = Crate(OUT / "crate")

    def run(self) -> None:
        if self.numbered:
            self.try_together(self.numbered)
        for edit in self.in_place:
            self.try_in_place(edit)

    def try_together(self, numbered: dict[int, Edit]) -> None:
        """Tries edits that have arms. Those that do not compile with the others are tried in place."""
        left = dict(numbered)
        while True:
            self.crate.write(sources_with(left))
            built = build(self.crate.folder)
            if built.program:
                break
            blamed = {number for file, line, _ in built.errors if (number := self.crate.edit_at(file, line))}
            if not blamed:
                raise Stopped(f"the crate with all edits does not compile: {built.errors[0]}")
            tell(f"{len(blamed)} edits do not compile with the others")
            self.put_aside([left.pop(number) for number in sorted(blamed)])
        if run_rows(built.program, 0).word != ACCEPTED:
            raise Stopped("a row fails as the sources stand")
        # Compiled anew while it runs, it would be another.
        program = shutil.copy(built.program, OUT / "tests")
        with ThreadPoolExecutor(min(len(os.sched_getaffinity(0)), MOST_SIDE_BY_SIDE)) as pool:
            for number, told in zip(left, pool.map(lambda number: run_rows(str(program), number), left)):
                self.settle(left[number], told)

    def put_aside(self, edits: list[Edit]) -> None:
        """Leaves out what does not compile with the others."""
        if self.has_place:
            self.in_place += edits
        for edit in [] if self.has_place else edits:
            self.settle(edit, Told(BAD, "it does not compile"))

    def try_in_place(self, edit: Edit) -> None:
        """Tries an edit in place."""
        texts = texts_in_place(edit.crate, [edit])
        self.crate.write({(edit.crate, file): text for file, text in texts.items()})
        built = build(self.crate.folder)
        self.settle(edit, run_rows(built.program, 0) if built.program else Told(BAD, built.errors[0][2]))
