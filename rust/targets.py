"""The other processors and systems for which rust/check builds the crate and the program: what Rust's library for them is made of,
what links for them, and what runs their programs."""

import os
import subprocess
from dataclasses import dataclass, field
from functools import lru_cache
from pathlib import Path

from checks.machine import is_there

HERE = Path(__file__).resolve().parent
# The sources of crates of Debian's packages.
DEBIAN = Path("/usr/share/cargo/registry")
# Debian's C library for WebAssembly, for a library of Rust that is built from its sources.
WASI = Path("/usr/lib/wasm32-wasi")


@lru_cache(None)
def of_rustc(*words: str) -> Path | None:
    """A folder that rustc prints, or None if it knows none."""
    done = subprocess.run(["rustc", "--print", *words], capture_output=True, text=True, check=False)
    return Path(done.stdout.strip()) if done.returncode == 0 else None


def sources() -> Path | None:
    """The sources of Rust's library with all that they need, which Debian's package rust-web-src has."""
    root = of_rustc("sysroot")
    library = root / "lib/rustlib/src/rust/library" if root else None
    return library if library and (library / "vendor").is_dir() else None


def has_crates() -> bool:
    """Whether Debian's packages have the crates that the program needs."""
    return all(any(DEBIAN.glob(name)) for name in ["clap-4.*", "strsim-0.10.*"])


def all_sources(folder: Path) -> Path:
    """A folder with the sources of Debian's crates and of those that Rust's library needs, as links."""
    folder.mkdir(parents=True, exist_ok=True)
    vendored = sources()
    for path in [*(DEBIAN.iterdir() if DEBIAN.is_dir() else []), *((vendored / "vendor").iterdir() if vendored else [])]:
        if not (folder / path.name).is_symlink():
            (folder / path.name).symlink_to(path)
    return folder


@dataclass(frozen=True)
class Target:
    """Another processor or system. Its programs are linked by what is no part of Rust, if a linker is named, and run by the runner; `parts`
    are those of Rust's library that its programs need."""

    name: str
    linker: str | None = None
    runner: tuple[str, ...] = ()
    parts: str = "core,alloc"
    # If Rust's library is built from its sources: what links, with which flags.
    own_linker: str | None = None
    own_flags: tuple[str, ...] = field(default=())

    def has_library(self) -> bool:
        folder = of_rustc("target-libdir", "--target", self.name)
        return folder is not None and any(folder.glob("libcore-*.rlib"))

    def links(self) -> str | None:
        return self.linker if self.has_library() else self.own_linker or self.linker

    def why_not(self) -> str | None:
        """What is missing to try it, if anything is."""
        if not self.has_library() and not sources():
            return "library of Rust for it"
        if not self.has_library() and self.own_flags and not WASI.is_dir():
            return "wasi-libc"
        return next((command for command in [self.links(), *self.runner[:1]] if command and not is_there(command)), None)

    def options(self, folder: Path) -> list[str]:
        """The words for cargo. The folder has room for links to sources."""
        words = ["--target", self.name]
        if not self.has_library():
            replaced = [f"source.crates-io.replace-with='vendored'", f"source.vendored.directory='{all_sources(folder)}'"]
            words += [f"-Zbuild-std={self.parts}", *(word for setting in replaced for word in ("--config", setting))]
        return words

    def settings(self) -> dict[str, str]:
        """The environment for cargo. Building Rust's library is a thing that only its own releases may do without RUSTC_BOOTSTRAP."""
        settings = {} if self.has_library() else {"RUSTC_BOOTSTRAP": "1", "RUSTFLAGS": " ".join(self.own_flags)}
        if linker := self.links():
            settings[f"CARGO_TARGET_{self.name.upper().replace('-', '_')}_LINKER"] = linker
        return {"QEMU_LD_PREFIX": "/usr/aarch64-linux-gnu", **settings, **os.environ}


OTHERS = [
    Target("aarch64-unknown-linux-gnu", "aarch64-linux-gnu-gcc", ("qemu-aarch64",), "std,panic_abort"),
    Target(
        "wasm32-wasip1", None, ("node", "--no-warnings", str(HERE / "wasi.mjs")), "std,panic_abort", "wasm-ld",
        ("-C link-self-contained=no", f"-L {WASI}", f"-C link-arg={WASI}/crt1-command.o"),
    ),
]
# With 32 bits and without an operating system; the first that can be tried is.
BARE = [Target(name) for name in ["thumbv7em-none-eabi", "thumbv6m-none-eabi", "riscv32imac-unknown-none-elf"]]
WINDOWS = Target("x86_64-pc-windows-gnu", "x86_64-w64-mingw32-gcc", (), "std,panic_abort")
# What runs programs of Windows, if one is there: Debian's wine64 has no command on the path.
WINE = next((path for path in ["wine", "/usr/lib/wine/wine64"] if is_there(path)), None)
MACOS = Target("aarch64-apple-darwin", None, (), "std")
