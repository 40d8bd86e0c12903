"""Builds the programs that are measured, and the list of what they work on. A program knows some kinds of work."""

import re
import shutil
import subprocess
from pathlib import Path

from checks.machine import INCLUDE, PROVED_ARCHIVE, ROOT, entry_file, is_there, prove

PROVED = ROOT / "crates/ti_bench/out/ti_bench"
ENTRIES = "ansi linux rxvt screen screen-256color tmux tmux-256color vt100 vt220 xterm xterm-256color xterm-color".split()
# Names that programs look up: short ones, long ones, such as an entry has of its own, and such as nothing has.
NAMES = {
    "short": "cup clear setaf sgr smcup el rmcup cnorm civis kcuu1 kf1 bce colors smso op ri".split(),
    "long": "cursor_address clear_screen set_a_foreground set_attributes enter_ca_mode clr_eol key_up back_color_erase".split(),
    "own": "Smulx E3 kDC5 XT Ms Se Ss kUP5".split(),
    "none": "Nothing cupp setaff zz xyz sgr1000".split(),
}
# Where Debian puts the sources of crates.
REGISTRY = Path("/usr/share/cargo/registry")
SOURCES = ["--config", 'source.crates-io.replace-with="debian"', "--config", f'source.debian.directory="{REGISTRY}"']


def list_of_items() -> str:
    lines = [(ROOT / "bench/capabilities").read_text()]
    lines += [f"entry {name} {path.read_bytes().hex()}\n" for name in ENTRIES if (path := entry_file(name))]
    lines += [f"{group} {name} {name.encode().hex()}\n" for group, names in NAMES.items() for name in names]
    return "".join(lines)


def build_peers(folder: Path) -> tuple[Path, bool]:
    """The program of the libraries for C, and whether unibilium is in it."""
    peers = folder / "peers"
    command = ["gcc", "-O2", f"-I{INCLUDE}", "-o", peers, ROOT / "bench/peers.c", PROVED_ARCHIVE, "-ltinfo"]
    has_unibilium = subprocess.run(["pkg-config", "--exists", "unibilium"], check=False).returncode == 0
    if has_unibilium:
        command += ["-DUNIBILIUM", "-lunibilium"]
    else:
        print("bench: left out: unibilium (Debian's libunibilium-dev)")
    subprocess.run(command, check=True)
    return peers, has_unibilium


def build_rust(folder: Path) -> tuple[Path | None, bool]:
    """The program of the crates for Rust, if there is a cargo, and whether `term` is in it."""
    if not is_there("cargo"):
        print("bench: left out: the crate for Rust (Debian's cargo-web)")
        return None, False
    made = folder / "crate"
    subprocess.run([ROOT / "rust/make", made], check=True, stdout=subprocess.DEVNULL)
    program = folder / "rust"
    shutil.copytree(ROOT / "bench/rust", program)
    settings = (program / "Cargo.toml").read_text().replace("../../rust/out/library", str(made / "library"))
    has_term = any(REGISTRY.glob("term-0.5*"))
    if not has_term:
        print("bench: left out: the crate term (Debian's librust-term-dev)")
        settings = re.sub(r"^term = .*\n", "", settings, flags=re.M)
    (program / "Cargo.toml").write_text(settings)
    options = ["--features", "term", *SOURCES] if has_term else []
    subprocess.run(["cargo", "build", "--quiet", "--release", "--offline", *options], cwd=program, check=True)
    return program / "target/release/rust_bench", has_term


def programs(folder: Path) -> dict[str, Path]:
    """For each kind of work the program that knows it."""
    prove("ti_bench", "ti_c")
    known = dict.fromkeys(["parse", "expand_into", "parse+expand_into", "expand", "read", "feed512", "feed1"], PROVED)
    peers, has_unibilium = build_peers(folder)
    expanding = ["ti_expand", "ti_expand_needed", "ti_compile", "ti_expand_kept", "ti_expand_kept_needed", "ti_send_needed",
                 "ti_send_kept_needed", "call"]
    ours = ["ti_open", "ti_open+6_texts", "ti_open+6_names", "ti_read", "ti_find", "ti_view_find"]
    known.update(dict.fromkeys([*expanding, *ours, "tiparm", "tiparm_needed", "tparm", "tigetstr"], peers))
    if has_unibilium:
        known.update(dict.fromkeys(["unibi_run", "unibi_from_mem", "unibi+6_texts"], peers))
    rust, has_term = build_rust(folder)
    if rust:
        known.update(dict.fromkeys(["rust:parse", "rust:expand_into", "rust:expand", "rust:read"], rust))
    if rust and has_term:
        known.update(dict.fromkeys(["term:expand", "term:read"], rust))
    return known
