"""The trial of the edits of one crate: copies that are checked together, and edits that are made in place, one by one."""

import shutil
import subprocess
import sys
import tempfile
import threading
import time
from dataclasses import dataclass
from pathlib import Path

from bodies import HERE, Copies, texts_in_place, write_holes
from checks.crates import folder_of, words_for
from said import Said

OUT = HERE / "out"
STARTED = time.monotonic()
REFUSED, ACCEPTED, BAD = "refused", "accepted", "bad"


def tell(text):
    print(f"edits: {text} ({time.monotonic() - STARTED:.0f} s)", file=sys.stderr, flush=True)


class Stopped(Exception):
    """Why no edits can be tried."""


UNDER_WAY, IS_OVER = set(), threading.Event()


def run(words, folder, log):
    """Runs a command, which ends with this program. Returns its status."""
    with open(log, "w", encoding="utf-8") as said:
        process = subprocess.Popen(words, cwd=folder, stdin=subprocess.DEVNULL, stdout=said, stderr=said)
    UNDER_WAY.add(process)
    if IS_OVER.is_set():
        process.terminate()
    status = process.wait()
    UNDER_WAY.discard(process)
    return status


def end(*_):
    """Ends what is under way, and this program."""
    IS_OVER.set()
    for process in list(UNDER_WAY):
        process.terminate()
    sys.exit("edits: ended by a signal")


@dataclass(frozen=True)
class Verdict:
    """What an edit comes to, and whether it was made in place."""

    word: str
    is_in_place: bool


class Trial:
    """The trial of a crate's edits, which notes each verdict by the edit's name.

    Each check takes what is up to date from a folder of edits/out, and keeps there what it proves. It has one job, as a second one takes
    a tenth more processor time. The functions `shown` are known to be proved in a copy as they stand.
    """

    def __init__(self, crate, edits, kit, shown, verdicts):
        self.crate, self.edits, self.kit, self.shown, self.verdicts = crate, edits, kit, shown, verdicts
        self.folder, self.checks = OUT / crate, 0

    def run(self):
        """Tries each edit."""
        self.folder.mkdir(parents=True, exist_ok=True)
        for old in self.folder.glob("*.said"):
            old.unlink()
        in_place = [edit for edit in self.edits if not edit.has_copies]
        in_place += self.try_copies([edit for edit in self.edits if edit.has_copies])
        if in_place:
            functions = self.prove_as_it_stands(in_place)
            for edit in in_place:
                self.try_in_place(edit, functions)

    def try_copies(self, edits):
        """Tries edits in copies. Returns those that have to be tried in place."""
        if not edits:
            return []
        copies = Copies(self.crate, edits, self.shown)
        names = [name for named in copies.of_edits.values() for name in named]
        said = self.check(copies.write, [*copies.unedited.values(), *names])
        if not said.is_judged and len(edits) > 1:
            tell(f"{self.crate}: {len(edits)} edits do not compile together, so each half is tried")
            return self.try_copies(edits[: len(edits) // 2]) + self.try_copies(edits[len(edits) // 2 :])
        left = []
        for edit, own in copies.of_edits.items():
            as_they_stand = [copies.unedited[function] for function in edit.functions if function in copies.unedited]
            if not said.is_judged:
                self.settle(edit, BAD, said.complaint())
            elif not all(map(said.has_proved, as_they_stand)):
                left.append(edit)
            else:
                self.judge(edit, said, own)
        tell(f"{self.crate}: {len(edits)} edits are tried in copies")
        return left

    def judge(self, edit, said, functions, is_in_place=False):
        """Settles an edit by what a check said of the functions that have its wrong bodies."""
        if lines := said.lines_against(functions):
            self.settle(edit, REFUSED, lines[0], is_in_place)
        elif all(said.has_proved(function) for function in functions):
            self.settle(edit, ACCEPTED, "what it changes is proved")
        else:
            self.settle(edit, BAD, f"the check names no goal: {said.complaint()}")

    def prove_as_it_stands(self, edits):
        """Proves the functions that edits in place are tried by, without an edit. Returns their names: none for all of them."""
        whole = any(not edit.tried for edit in edits)
        functions = [] if whole else sorted({name for edit in edits for name in edit.tried})
        said = self.check(lambda top: write_in_place(top, self.crate, [], functions), functions)
        if not said.is_judged or any(not said.has_proved(name) for name in functions) or whole and not said.is_proved:
            raise Stopped(f"{self.crate} is not proved as it stands: see {self.log()}")
        return functions

    def try_in_place(self, edit, functions):
        """Tries an edit in place, beside functions of which all or these are proved."""
        said = self.check(lambda top: write_in_place(top, self.crate, [edit], functions), edit.tried)
        if not said.is_judged:
            self.settle(edit, BAD, said.complaint())
        elif edit.tried:
            self.judge(edit, said, edit.tried, is_in_place=True)
        elif said.is_proved:
            self.settle(edit, ACCEPTED, "the crate is proved with it")
        elif lines := said.lines_against():
            self.settle(edit, REFUSED, lines[0], is_in_place=True)
        else:
            self.settle(edit, BAD, f"the check names no goal: {said.complaint()}")

    def log(self):
        return self.folder / f"{self.checks}.said"

    def check(self, write, functions):
        """Checks functions of a copy of the crate into which edits are written, or all functions if none is named."""
        self.checks += 1
        with tempfile.TemporaryDirectory(prefix="edits-") as copy:
            for part in ["src", "specs", "proofs"]:
                if (folder_of(self.crate) / part).is_dir():
                    shutil.copytree(folder_of(self.crate) / part, Path(copy) / part)
            write(Path(copy))
            words = [self.kit / "bin/rattle", "check", *words_for(self.crate, self.kit, 1)]
            words += ["--incremental", self.folder / "kept", "--allow-holes"]
            for function in functions:
                words += ["--only", function]
            (self.folder / "kept").mkdir(exist_ok=True)
            status = run([str(word) for word in words], copy, self.log())
        if status < 0:
            raise Stopped(f"a check of {self.crate} was ended by signal {-status}")
        return Said(self.crate, status, self.log().read_text(encoding="utf-8", errors="replace"))

    def settle(self, edit, word, line, is_in_place=False):
        self.verdicts[edit.label] = Verdict(word, is_in_place)
        show(edit.label, word, line if word == REFUSED else f"{edit.place}: {line}")


def write_in_place(top, crate, edits, functions):
    """Writes the files that edits change. If functions are named, the others are taken by their contracts."""
    for file, text in texts_in_place(crate, edits).items():
        (top / file).write_text(text, encoding="utf-8")
    if functions:
        write_holes(top, crate, functions)


def show(label, word, text):
    print(f"{label}: {word}: {text}"[:300], flush=True)
