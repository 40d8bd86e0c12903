"""A small tree in which dist/check tries the scripts: four crates of a line each, programs that are scripts of a line, and commands
in place of `rt`, ./prove and the parts of the gate."""

import os
import pwd
import shutil
import subprocess
from collections.abc import Iterable
from dataclasses import dataclass
from pathlib import Path

from checks.dist import FILES, sum_of
from checks.machine import ROOT

KIT = "a-kit logic 0123456789abcdef"
CRATES = "ti_base:\nti_c staticlib: ti_base\nti: ti_base\nti_capability_tests: ti_base\n"
SOURCES = {
    "crates/ti_base/src/version.rt": 'pub const VERSION: &str = "1.2.3";\n',
    "crates/ti_base/specs/Version.antt": "-- a definition\n",
    "crates/ti_base/proofs/Version.antt": "-- a proof\n",
    "crates/ti_base/README.md": "What it is.\n",
    "crates/ti_c/src/lib.rt": "fn ti_call() {}\n",
    "crates/ti/src/main.rt": "fn main() {}\n",
    "crates/ti_capability_tests/src/lib.rt": "fn test() {}\n",
    "page/source/main.js": "a page\n",
}
# What else the page is made of.
OF_PAGE = ["page/engine/Cargo.toml", "page/entries/t", "rust/library/Cargo.toml", "rust/make", "rust/targets.py", "examples/linux"]
SOURCES |= {name: "\n" for name in OF_PAGE}
# What the tree has of this repository.
SHARED = ["ti", "ti-path", "ti-source", "ti-lint", "install", "gate", "checks", "include", "python", "completions", "docs/ti.1", "docs/ti-path.1", "docs/ti-source.1", "docs/ti-lint.1", "docs/ti.3",
          "docs/ti-formats.5", "docs/ti-faults.7", "docs/ti-findings.7", "dist/common.sh", "dist/manifest.sh", "dist/take", "dist/sources",
          "dist/make", "dist/compare"]
# Each command in place of another writes its name to the file `called`.
PROVE = """#!/bin/sh
cd "$(dirname "$0")" && echo "prove $1" >>called || exit 1
mkdir -p crates/$1/out
case $1 in
    ti) printf '#!/bin/sh\\necho proved "$@"\\n' >crates/ti/out/ti && chmod +x crates/ti/out/ti ;;
    ti_c) echo 'int ti_call(void); int ti_call(void) { return 1; }' >crates/ti_c/out/c.c &&
        gcc -c -o crates/ti_c/out/c.o crates/ti_c/out/c.c && ar rcD crates/ti_c/out/libti_c.a crates/ti_c/out/c.o ;;
esac
"""
MAKE_PAGE = """#!/bin/sh
cd "$(dirname "$0")/.." || exit 1
if [ "$1" = --tools ]; then echo 'a compiler'; else cat page/source/main.js >"$1"; fi
"""
RT = f"""#!/bin/sh
case $1 in
    version) echo '{KIT}' ;;
    ci) ./prove ti && echo '1 passed, 0 failed' ;;
esac
"""
# Parts of the gate in place of others: they run the program as the parts do, and what is installed.
PART = """#!/bin/sh
cd "$(dirname "$0")/.." && $(dist/take ti) "$0" && ./ti "$0"
"""
INSTALLING = """#!/bin/sh
cd "$(dirname "$0")/.." && DESTDIR=$PWD/put ./install /usr >/dev/null && put/usr/bin/ti "$0"
"""
SHIPPED = '#!/bin/sh\necho shipped "$@"\n'
# Commands that are there without `rt` and the tools that build something.
LACKING = ["rt", "gcc", "cc", "cargo", "rustc", "ld", "clang"]


@dataclass(frozen=True)
class Ran:
    """What came of a command."""

    status: int
    output: str
    faults: str


def put(path: Path, text: str, mode: int = 0o644) -> None:
    path.parent.mkdir(parents=True, exist_ok=True)
    path.write_text(text)
    path.chmod(mode)


def bare_path(folder: Path) -> Path:
    """A folder that has the commands of this machine as links, but none that builds or proves."""
    folder.mkdir()
    for place in ["/usr/bin", "/bin"]:
        for command in os.listdir(place):
            if command not in LACKING and not (folder / command).is_symlink():
                (folder / command).symlink_to(f"{place}/{command}")
    return folder


class Tree:
    """A tree, and the environment in which its scripts run."""

    def __init__(self, folder: Path, bare: Path) -> None:
        self.folder, self.bare = folder, bare
        put(folder / "crates.txt", CRATES)
        for name, text in SOURCES.items():
            put(folder / name, text)
        for name in SHARED:
            (folder / name).parent.mkdir(parents=True, exist_ok=True)
            copy = shutil.copytree if (ROOT / name).is_dir() else shutil.copy
            copy(ROOT / name, folder / name)
        put(folder / "prove", PROVE, 0o755)
        put(folder / "page/make", MAKE_PAGE, 0o755)
        put(folder / "bin/rt", RT, 0o755)

    def ship(self, text: str = SHIPPED) -> None:
        """Puts a program into dist/, and files in place of the libraries, with a record that fits."""
        put(self.folder / "dist/ti", text, 0o755)
        for name in ["libti.a", "libti.so"]:
            put(self.folder / "dist" / name, f"in place of {name}\n")
        self.record()

    def record(self) -> None:
        """Writes a record that fits what is there."""
        lines = [f"kit {KIT}", "gcc none"]
        for name, crate in FILES.items():
            sources = self.run("dist/sources", crate).output
            lines.append(f"file {name} {sum_of(self.folder / 'dist' / name)} sources {sources}")
        put(self.folder / "dist/record", "\n".join(lines) + "\n")

    def environment(self, has_rt: bool, **more: str) -> dict[str, str]:
        path = f"{self.folder}/bin:{os.environ['PATH']}" if has_rt else str(self.bare)
        lacks = {"TI_PROVED_ONLY", "CI", "PREFIX", "LIBDIR", "PYTHONDIR", "DESTDIR"}
        return {name: value for name, value in os.environ.items() if name not in lacks} | {"PATH": path, **more}

    def words(self, command: str, words: Iterable[str], limit: int | None = None) -> list[str]:
        """The words that run a script of the tree, with a limit on the size of files, in kilobytes, if one is given."""
        call = [str(self.folder / command), *words]
        return call if limit is None else ["bash", "-c", f"trap '' XFSZ; ulimit -f {limit}; exec \"$@\"", "bash", *call]

    def run(self, command: str, *words: str, has_rt: bool = False, limit: int | None = None, **more: str) -> Ran:
        return self.run_in(self.folder, command, *words, has_rt=has_rt, limit=limit, **more)

    def run_in(self, folder: Path, command: str, *words: str, has_rt: bool = False, limit: int | None = None, **more: str) -> Ran:
        """Runs a script of the tree in another folder."""
        done = subprocess.run(self.words(command, words, limit), cwd=folder, env=self.environment(has_rt, **more),
                              stdin=subprocess.DEVNULL, capture_output=True, text=True, errors="replace", check=False)
        return Ran(done.returncode, done.stdout.rstrip("\n"), done.stderr.rstrip("\n"))

    def start(self, command: str, *words: str, has_rt: bool = False) -> "subprocess.Popen[str]":
        return subprocess.Popen(self.words(command, words), cwd=self.folder, env=self.environment(has_rt), stdin=subprocess.DEVNULL,
                                stdout=subprocess.PIPE, stderr=subprocess.PIPE, text=True)

    def run_as_another(self, command: str, *words: str) -> Ran:
        """Runs a script as a user who can write nothing in the tree."""
        user = pwd.getpwnam("nobody")
        drop = ["setpriv", f"--reuid={user.pw_uid}", f"--regid={user.pw_gid}", "--clear-groups"] if os.geteuid() == 0 else []
        done = subprocess.run([*drop, str(self.folder / command), *words], cwd="/", env=self.environment(False),
                              stdin=subprocess.DEVNULL, capture_output=True, text=True, check=False)
        return Ran(done.returncode, done.stdout.rstrip("\n"), done.stderr.rstrip("\n"))

    def commit(self) -> None:
        """Makes a repository of the tree, with one commit."""
        git = ["git", "-C", str(self.folder), "-c", "user.name=a", "-c", "user.email=a@example.org"]
        (self.folder / ".gitignore").write_text("out/\ncalled\n")
        for words in [["init", "-q"], ["add", "-A"], ["commit", "-qm", "All"]]:
            subprocess.run([*git, *words], check=True)

    def called(self) -> list[str]:
        """What ./prove was called with since the last question."""
        path = self.folder / "called"
        lines = path.read_text().splitlines() if path.exists() else []
        path.unlink(missing_ok=True)
        return lines

    def kept(self) -> list[str]:
        """What is kept in dist/out."""
        folder = self.folder / "dist/out"
        return sorted(path.name for path in folder.iterdir()) if folder.is_dir() else []

    def forget(self) -> None:
        """Removes all that was made."""
        for name in ["dist/out", "crates/ti/out", "crates/ti_c/out", "put"]:
            shutil.rmtree(self.folder / name, ignore_errors=True)
        self.called()

    def change(self, name: str, old: str, new: str) -> None:
        """Changes a part of a file, to which one of the same length can be no different in size."""
        path = self.folder / name
        text = path.read_text()
        assert old in text, f"{name}: no {old}"
        mode = path.stat().st_mode
        path.write_text(text.replace(old, new, 1))
        path.chmod(mode)
