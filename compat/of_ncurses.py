"""ncurses 6.4 with two functions over the library for C, beside ncurses as it is.

ncurses/make puts both functions into a made tree of two files, which are compiled under sanitizers and run, and refuses another
tree and another archive. If the source of ncurses can be had, both are built, and must write the same: `infocmp -1x` of each entry of
this machine, the files that `tic -x` makes of all of them, what ncurses' own tests of tparm and sgr print of them, and sessions of
programs."""

import os
import re
import shutil
import subprocess
from concurrent.futures import ThreadPoolExecutor
from hashlib import sha256
from pathlib import Path

from checks.draw import is_left
from checks.machine import ARCHIVE, INCLUDE, ROOT, entry_file, entry_files, is_there
from checks.tally import Tally
from compilers import has_sanitizers
from sessions import EQUAL, LEFT_OUT, SESSIONS, compare

HERE = ROOT / "compat/ncurses"
MAKE = HERE / "make"
ORIGINAL = "ncurses_6.4.orig.tar.gz"
SANITIZED = ["-g", "-fsanitize=address,undefined", "-fno-sanitize-recover=all"]
# What the files of the made tree print, by terminfo(5) and by `infocmp -x linux`.
NAMES = "linux|Linux console: am 1, colors 8, cup [%i%p1%d;%p2%dH, cols -1"
PRINTED = {
    "lib_tparm": "6:[5;10H\n10:of termcap\n4:text\n3:904\n0:\n600:" + " " * 20 + "\n1:0\n1 faults\n",
    "read_entry": f"{NAMES}, 45+40+416, own 1+1+2 AX\n" * 2 + "none\n" * 3 + f"{NAMES}, 44+39+414, own 0+0+0 -\n",
}
# Calls of ncurses' own test of tparm, with the greatest value of each parameter.
CALLS = [["cup", "12", "12"], ["setaf", "18"], ["setab", "18"], ["cuu", "9"], ["ech", "9"], ["hpa", "90"], ["sgr", *["1"] * 9]]
TYPES = ["xterm-256color", "vt100", "wy60"]
SIDE_BY_SIDE = 4


def run(*words: str | Path, given: str = "", **more: str) -> "subprocess.CompletedProcess[str]":
    return subprocess.run(
        words, input=given, env={**os.environ, **more}, stdout=subprocess.PIPE, stderr=subprocess.STDOUT, text=True, errors="replace", check=False
    )


class Check:
    def __init__(self, scratch: Path, tally: Tally) -> None:
        self.scratch, self.tally = scratch, tally

    # ---- the made tree

    def refuses(self, name: str, wanted: str, *words: str | Path, status: int = 1) -> None:
        done = run(MAKE, *words)
        self.tally.tell(done.returncode == status and wanted in done.stdout, f"{name}: status {done.returncode}: {done.stdout}")

    def check_made_tree(self) -> None:
        made = self.scratch / "made"
        shutil.copytree(HERE / "made", made)
        done = run(MAKE, "--replace", made)
        self.tally.tell(done.returncode == 0, f"the made tree: {done.stdout}")
        options = SANITIZED if has_sanitizers("gcc", self.scratch) else []
        for name, wanted in PRINTED.items():
            program = self.scratch / name
            built = run("gcc", "-std=c11", *options, f"-I{INCLUDE}", made / f"ncurses/tinfo/{name}.c", ARCHIVE, "-o", program)
            said = run(program, ROOT / "examples/linux").stdout
            self.tally.tell(said == wanted, f"{name} of the made tree: {built.stdout}{said}")
        self.refuses("a tree without the places", "0 places", "--replace", made)
        shutil.copytree(HERE / "made", self.scratch / "twice")
        place = self.scratch / "twice/ncurses/tinfo/read_entry.c"
        place.write_text(place.read_text() * 2)
        before = (place.parent / "lib_tparm.c").read_text()
        self.refuses("a tree with two places", "2 places", "--replace", self.scratch / "twice")
        self.tally.tell((place.parent / "lib_tparm.c").read_text() == before, "a tree that is refused is changed")
        self.refuses("no tree", "there is no", "--replace", self.scratch / "nowhere")
        other = self.scratch / "other"
        other.mkdir()
        self.refuses("no archive", "there is no", ARCHIVE, self.scratch / "out", other, status=3)
        (other / ORIGINAL).write_text("another\n")
        self.refuses("another archive", "is refused", ARCHIVE, self.scratch / "out", other)

    # ---- both builds

    def both(self, name: str, *words: str, given: str = "", folder: Path) -> tuple[str, str]:
        """What a program of both builds prints."""
        said = [run(folder / tree / name, *words, given=given, LD_LIBRARY_PATH=str(folder / tree / "lib")).stdout for tree in ("plain", "over")]
        return said[0], said[1]

    def check_entries(self, built: Path, paths: list[Path]) -> None:
        names = [path.name for path in paths]
        with ThreadPoolExecutor(SIDE_BY_SIDE) as pool:
            pairs = list(pool.map(lambda name: self.both("progs/infocmp", "-1x", name, folder=built), names))
        for name, (wanted, got) in zip(names, pairs):
            self.tally.tell(wanted == got and bool(wanted), f"infocmp -1x {name} differs")
        source = self.scratch / "all"
        source.write_text("".join(wanted for wanted, _ in pairs))
        sums = []
        for tree in ("plain", "over"):
            made = self.scratch / f"made by {tree}"
            made.mkdir()
            run(built / tree / "progs/tic", "-x", "-o", made, source, LD_LIBRARY_PATH=str(built / tree / "lib"))
            sums.append({path.relative_to(made): sha256(path.read_bytes()).hexdigest() for path in made.rglob("*") if path.is_file()})
        self.tally.tell(sums[0] == sums[1] and len(sums[0]) > 0, "tic -x makes other files")
        self.tally.note(f"infocmp -1x: {sum(one == two for one, two in pairs)} of {len(pairs)} entries equal; tic -x: {len(sums[0])} files equal")

    def check_own_tests(self, built: Path, paths: list[Path]) -> None:
        names = "".join(f"{path.name}\n" for path in paths)
        for words in CALLS:
            wanted, got = self.both("test/test_tparm", "-T", "-", "-a", "-vvv", *words, given=names, folder=built)
            self.tally.tell(wanted == got and wanted.count("\n") > 10, f"test_tparm {' '.join(words)} differs")
        with ThreadPoolExecutor(SIDE_BY_SIDE) as pool:
            pairs = list(pool.map(lambda path: self.both("test/test_sgr", path.name, folder=built), paths))
        lines = sum(wanted.count("\n") for wanted, _ in pairs)
        # Such types pass 256 to %c, for which ncurses writes a NUL and the library the byte 200, as for 0.
        differ = [path.name for path, (wanted, got) in zip(paths, pairs) if wanted != got and not path.name.startswith("hp")]
        self.tally.tell(not differ and lines > 0, f"test_sgr differs of {differ}")
        self.tally.note(f"test_tparm: {len(CALLS)} calls over {len(paths)} types; test_sgr: {lines} lines")

    def check_sessions(self, built: Path) -> None:
        cases = [(name, kind) for kind in TYPES if entry_file(kind) for name, session in SESSIONS.items() if is_there(session.command) and is_there(name)]
        plain, over = ({"LD_LIBRARY_PATH": str(built / tree / "lib")} for tree in ("plain", "over"))
        with ThreadPoolExecutor(SIDE_BY_SIDE) as pool:
            verdicts = list(pool.map(lambda case: compare(SESSIONS[case[0]], case[1], self.scratch / "-".join(case), over, plain)[0], cases))
        for (name, kind), verdict in zip(cases, verdicts):
            if verdict != LEFT_OUT:
                self.tally.tell(verdict == EQUAL, f"{name} in {kind} over the library: what it writes differs")
        self.tally.note(f"sessions: {verdicts.count(EQUAL)} of {len(cases)} equal, {verdicts.count(LEFT_OUT)} with plain runs that differ")

    def run(self, folder: Path | None) -> None:
        self.check_made_tree()
        if folder is None and is_left("ncurses with two functions over the library", self.tally):
            return
        built = self.scratch / "ncurses"
        done = run(MAKE, ARCHIVE, built, *([folder] if folder else []))
        if done.returncode == 3 or not is_there("make"):
            self.tally.note(f"left out: ncurses with two functions over the library: {done.stdout.strip()}")
            return
        self.tally.tell(done.returncode == 0, f"ncurses/make: {done.stdout}")
        if done.returncode == 0:
            paths = entry_files()
            self.check_entries(built, paths)
            self.check_own_tests(built, paths)
            self.check_sessions(built)


def check(scratch: Path, folder: Path | None, tally: Tally) -> None:
    """All of it; the folder has the archive of the source, which else apt-get may have."""
    Check(scratch, tally).run(folder)
