#!/usr/bin/env python3
"""Makes the wheel of the module mogyarsu, which carries the library. It needs no network and nothing but Python.

    pip install ./python
    python/backend.py LIBRARY MACHINE FOLDER
    python/backend.py --compile ARCHIVE MACHINE FILE

The first makes it of the library that ./install takes, as the frontends of PEP 517 call it: with a C compiler and the headers of Python
3.11 or later it compiles mogyarsu/_ti.c over the archive; without them the wheel has what ./install puts. The second makes it of a
shared library, or of a compiled module, for a machine, such as x86_64, in a folder, and prints its name; ./package calls it so. The third
compiles the module alone, as dist/ has it, also for a machine for which no Python is configured here, and prints the version of Python's
headers; the status is 3 if something that it needs is not here. What is made of the same files is the same to the byte, at the time of
SOURCE_DATE_EPOCH.
"""

import base64
import hashlib
import os
import platform
import re
import shutil
import subprocess
import sys
import sysconfig
import tempfile
import time
import tomllib
import zipfile
from pathlib import Path

HERE = Path(__file__).resolve().parent
PROJECT = tomllib.loads((HERE / "pyproject.toml").read_text("utf-8"))["project"]
NAME = f"{PROJECT['name']}-{PROJECT['version']}"
INFO = f"{NAME}.dist-info"
COMPILED = "_ti.abi3.so"
# What every wheel has, and what those have that carry a compiled module or the shared library.
MODULES = ["mogyarsu/__init__.py", "mogyarsu/__init__.pyi", "mogyarsu/py.typed", "ti.py"]
OVER_COMPILED, OVER_LIBRARY = ["mogyarsu/_compiled.py"], ["mogyarsu/_by_ctypes.py"]
# A compiled module is for the stable ABI of Python 3.11. By glibc 2.17 all that the library calls is there, on both machines.
TAG_OF_COMPILED, TAG_OF_LIBRARY = "cp311-abi3-linux_", "py3-none-manylinux_2_17_"
# What compiles for a machine, and what Python's headers are to know of it: the same for each.
COMPILERS, SIZES = {"x86_64": "gcc", "aarch64": "aarch64-linux-gnu-gcc"}, HERE / "lp64.h"
MISSING = 3
OPTIONS = ["-std=c11", "-O2", "-fPIC", "-shared", "-s", "-Wl,--exclude-libs,ALL", "-Wl,--build-id=none", "-Wl,-z,relro,-z,now"]
METADATA = """Metadata-Version: 2.1
Name: {name}
Version: {version}
Summary: {description}
Requires-Python: {requires-python}
Description-Content-Type: text/plain

"""


def library_name() -> str:
    """The name by which the module looks for the library beside itself."""
    text = (HERE / MODULES[0]).read_text("utf-8")
    return str(re.findall(r'^LIBRARY = "(.+)"$', text, re.M)[0])


def run_compiler(compiler: str, headers: Path, archive: Path, include: Path, made: Path, *options: str) -> None:
    words: list[str | Path] = [compiler, *OPTIONS, *options, f"-I{include}", f"-I{headers}", HERE / "mogyarsu/_ti.c", archive, "-o", made]
    subprocess.run(words, check=True)


def has_headers(headers: Path) -> bool:
    return sys.version_info >= (3, 11) and (headers / "Python.h").exists()


def compile_module(archive: Path, include: Path, made: Path, *options: str) -> bool:
    """Compiles the module over an archive of the library. Whether there is what that takes."""
    headers, compiler = Path(sysconfig.get_path("include")), shutil.which(os.environ.get("CC", "cc"))
    if compiler is None or not has_headers(headers):
        return False
    run_compiler(compiler, headers, archive, include, made, *options)
    return True


def headers_in(folder: Path) -> Path:
    """Python's headers for each machine of LP64: its own, but for what was found out of this one."""
    headers = folder / "include"
    shutil.copytree(sysconfig.get_path("include"), headers)
    shutil.copy(SIZES, headers / "pyconfig.h")
    return headers


def compile_for(machine: str, archive: Path, made: Path) -> str | None:
    """Compiles the module for a machine, and returns the version of Python's headers; None if something is not here."""
    if shutil.which(COMPILERS[machine]) is None or not has_headers(Path(sysconfig.get_path("include"))):
        return None
    with tempfile.TemporaryDirectory() as scratch:
        headers = headers_in(Path(scratch))
        run_compiler(COMPILERS[machine], headers, archive, HERE.parent / "include", made)
        return str(re.findall(r'^#define PY_VERSION\s+"(.+)"', (headers / "patchlevel.h").read_text("utf-8"), re.M)[0])


def tag_of(library: Path) -> str:
    return TAG_OF_COMPILED if library.name == COMPILED else TAG_OF_LIBRARY


def members(library: Path, machine: str) -> dict[str, bytes]:
    """The files of the wheel by their names, but the list of them."""
    is_compiled = library.name == COMPILED
    files = {name: (HERE / name).read_bytes() for name in MODULES + (OVER_COMPILED if is_compiled else OVER_LIBRARY)}
    files[f"mogyarsu/{COMPILED if is_compiled else library_name()}"] = library.read_bytes()
    description = files[MODULES[0]].decode("utf-8").split('"""')[1]
    if (HERE.parent / "LICENSE").is_file():
        files[f"{INFO}/LICENSE"] = (HERE.parent / "LICENSE").read_bytes()
    files[f"{INFO}/METADATA"] = (METADATA.format_map(PROJECT) + description).encode()
    files[f"{INFO}/WHEEL"] = f"Wheel-Version: 1.0\nGenerator: mogyarsu\nRoot-Is-Purelib: false\nTag: {tag_of(library)}{machine}\n".encode()
    return files


def record_of(files: dict[str, bytes]) -> bytes:
    """The list of the files, each with its sum and size."""
    rows = []
    for name, data in files.items():
        total = base64.urlsafe_b64encode(hashlib.sha256(data).digest()).rstrip(b"=").decode()
        rows.append(f"{name},sha256={total},{len(data)}\n")
    return "".join([*rows, f"{INFO}/RECORD,,\n"]).encode()


def make(library: Path, machine: str, folder: Path) -> str:
    """Makes the wheel in a folder, and returns its name."""
    name = f"{NAME}-{tag_of(library)}{machine}.whl"
    files = members(library, machine)
    files[f"{INFO}/RECORD"] = record_of(files)
    # A zip can hold no time before 1980.
    when = time.gmtime(max(int(os.environ.get("SOURCE_DATE_EPOCH", "315532800")), 315532800))[:6]
    with zipfile.ZipFile(folder / name, "w", zipfile.ZIP_DEFLATED) as wheel:
        for member, data in files.items():
            row = zipfile.ZipInfo(member, when)
            row.external_attr, row.compress_type = 0o100644 << 16, zipfile.ZIP_DEFLATED
            wheel.writestr(row, data)
    return name


def build_wheel(wheel_directory: str, config_settings: object = None, metadata_directory: str | None = None) -> str:
    """Makes the wheel for this machine: what PEP 517 asks of a backend."""
    with tempfile.TemporaryDirectory() as scratch:
        settings = {**os.environ, "DESTDIR": scratch, "LIBDIR": "lib", "PYTHONDIR": "lib/python3"}
        subprocess.run([HERE.parent / "install", "/usr"], env=settings, stdout=subprocess.DEVNULL, check=True)
        installed, made = Path(scratch) / "usr", Path(scratch) / COMPILED
        if not compile_module(installed / "lib/libti.a", installed / "include", made):
            made = installed / "lib/python3/mogyarsu" / COMPILED
        if not made.exists():
            made = (installed / "lib/libti.so").resolve()
        return make(made, platform.machine(), Path(wheel_directory))


def main() -> None:
    if len(sys.argv) == 5 and sys.argv[1] == "--compile":
        version = compile_for(sys.argv[3], Path(sys.argv[2]), Path(sys.argv[4]))
        print(f"CPython {version}" if version else "there is no compiler, or no header of Python 3.11 or later")
        sys.exit(0 if version else MISSING)
    if len(sys.argv) != 4:
        sys.exit(__doc__)
    library, machine, folder = sys.argv[1:]
    print(make(Path(library), machine, Path(folder)))


if __name__ == "__main__":
    main()
