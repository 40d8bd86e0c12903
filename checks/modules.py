"""A folder with modules that leave a mark if a script imports one of them in place of Python's own."""

from pathlib import Path

NAMES = ["hashlib", "json", "os", "pathlib", "re", "shutil", "site", "subprocess", "sys", "tempfile", "typing", "zlib"]


def lay_out_modules(folder: Path) -> Path:
    """Makes the folder. The mark is a file, which is there once a module of the folder was imported."""
    folder.mkdir(parents=True)
    mark = folder / "imported"
    for name in NAMES:
        (folder / f"{name}.py").write_text(f"print(__name__, file=open({str(mark)!r}, 'a'))\n")
    return mark
