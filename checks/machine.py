"""What the scripts share about this repository and this machine: where things are, which tools are there, and how the program
and the library are built.

PROGRAM and ARCHIVE are the program and the library for C that a script uses: what was proved and built here, or what lies in
dist/ if that was built of these sources. They are chosen as ./ti and ./install choose, when a script imports them."""

import shutil
import subprocess
import sys
from collections.abc import Iterable
from functools import cache
from pathlib import Path

ROOT = Path(__file__).resolve().parent.parent
LAUNCHER = ROOT / "ti"
DIST = ROOT / "dist"
# What ./prove makes of the crates in which all others end.
PROVED_PROGRAM = ROOT / "crates/ti/out/ti"
PROVED_ARCHIVE = ROOT / "crates/ti_c/out/libti_c.a"
INCLUDE = ROOT / "include"

# Debian's packages of what the checks run in or compare with, each with its commands. A package is known to be there by the
# first of them, even if it came from elsewhere.
PACKAGES: dict[str, tuple[str, ...]] = {
    "gcc": ("gcc", "cc"),
    "g++": ("g++",),
    "clang": ("clang", "clang++"),
    "libclang-rt-dev": (),
    "valgrind": ("valgrind",),
    "pkg-config": ("pkg-config",),
    "binutils": ("readelf", "nm"),
    "dpkg": ("dpkg-deb",),
    # Of these three page/make takes Debian's own.
    "cargo-web": ("/usr/bin/cargo", "cargo"),
    "rustc-web": ("/usr/bin/rustc", "rustc"),
    "rust-web-src": (),
    "lld": ("wasm-ld",),
    "chromium": ("chromium",),
    "librust-clap-dev": (),
    "librust-strsim-dev": (),
    "librust-term-dev": (),
    "librust-vte-dev": (),
    "libvterm-dev": (),
    "man-db": ("man",),
    "jq": ("jq",),
    "bash-completion": (),
    "zsh": ("zsh",),
    "fish": ("fish",),
    "ncurses-bin": ("tic", "infocmp", "tput"),
    "ncurses-base": (),
    "ncurses-term": (),
    "libncurses-dev": (),
    "libunibilium-dev": (),
    "vim": ("vim",),
    "less": ("less",),
    "tmux": ("tmux",),
    "bsdextrautils": ("ul",),
    "dialog": ("dialog",),
    "irssi": ("irssi",),
    "joe": ("joe",),
    "mg": ("mg",),
    "nano": ("nano",),
    "ne": ("ne",),
    "screen": ("screen",),
    "tcsh": ("tcsh",),
    "w3m": ("w3m",),
    "yash": ("yash",),
    "neovim": ("nvim",),
    "gcc-aarch64-linux-gnu": ("aarch64-linux-gnu-gcc",),
    "binutils-aarch64-linux-gnu": ("aarch64-linux-gnu-strip",),
    "libc6-dev-arm64-cross": (),
    "qemu-user": ("qemu-aarch64",),
    "lintian": ("lintian",),
    "mypy": ("mypy",),
    "python3-dev": ("python3-config",),
    "python3-pip": ("pip3",),
}

# Whether a check runs over another program than the proved one: rust/over.py.
OTHER = False

# The folders of compiled entries. On many machines /lib is a link to /usr/lib.
ENTRY_FOLDERS = [Path("/etc/terminfo"), Path("/lib/terminfo"), Path("/usr/lib/terminfo"), Path("/usr/share/terminfo")]


def is_there(command: str) -> bool:
    """Whether a command is on the path."""
    return shutil.which(command) is not None


def package_of(command: str) -> str:
    """Debian's package of a command."""
    return next((package for package, commands in PACKAGES.items() if command in commands), command)


def need(script: str, *commands: str) -> None:
    """Ends a script that cannot run without these commands, if one is missing."""
    for command in commands:
        if not is_there(command):
            sys.exit(f"{script}: there is no {command} on the path")


@cache
def taken(crate: str, made: Path) -> Path:
    """What is taken of a crate: what was proved and built here, or what lies in dist/. If neither is there, the first is what is
    to be made."""
    done = subprocess.run([DIST / "take", crate], stdout=subprocess.PIPE, text=True, check=False)
    return Path(done.stdout.strip()) if done.returncode == 0 else made


def __getattr__(name: str) -> Path:
    """PROGRAM and ARCHIVE, which only the scripts that import them look for."""
    if name == "PROGRAM":
        return taken("ti", PROVED_PROGRAM)
    if name == "ARCHIVE":
        return taken("ti_c", PROVED_ARCHIVE)
    raise AttributeError(name)


def tell_taken(path: Path) -> None:
    """Says that a check is one of what lies in dist/."""
    if path.parent == DIST:
        print(f"{'/'.join(Path(sys.argv[0]).parts[-2:])}: this is of {path.relative_to(ROOT)}, since it was not proved and built here", flush=True)


def build_program() -> None:
    """Builds the program if it is neither built nor in dist/. The launcher prints what is missing for it, and the script ends
    then."""
    if subprocess.run([LAUNCHER, "--help"], stdout=subprocess.DEVNULL, check=False).returncode:
        sys.exit(1)
    tell_taken(taken("ti", PROVED_PROGRAM))


def build_library() -> None:
    """Builds the library for C if it is neither built nor in dist/."""
    library = taken("ti_c", PROVED_ARCHIVE)
    if library == PROVED_ARCHIVE:
        prove("ti_c")
    tell_taken(library)


def prove(*crates: str) -> None:
    """Proves and builds crates with all below them, which ./prove reports on standard error. The script ends if that fails."""
    for crate in crates:
        if subprocess.run([ROOT / "prove", crate], check=False).returncode:
            sys.exit(1)


def entry_files(folders: Iterable[Path] = ENTRY_FOLDERS) -> list[Path]:
    """The files of compiled entries in these folders, each once: no link to another, and no folder that is one before it."""
    different: dict[Path, Path] = {}
    for folder in folders:
        different.setdefault(folder.resolve(), folder)
    paths = (path for folder in different.values() for path in sorted(folder.rglob("*")))
    return [path for path in paths if path.is_file() and not path.is_symlink() and path.name != "README"]


def entry_file(name: str) -> Path | None:
    """The file of the entry of this name, which can be a link."""
    return next((path for folder in ENTRY_FOLDERS if (path := folder / name[0] / name).exists()), None)
