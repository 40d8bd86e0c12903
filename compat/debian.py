"""Sources of Debian's packages, which the checks here compare with, and which are not kept in this repository."""

import subprocess
from pathlib import Path

SETTINGS = ["Acquire::Retries=1", "Acquire::http::Timeout=20", "Acquire::https::Timeout=20", "APT::Sandbox::User=root"]


def fetch(package: str, folder: Path, *words: str) -> bool:
    """Fetches the files of a source into a folder, if apt-get knows sources and has them."""
    options = [word for setting in SETTINGS for word in ("-o", setting)]
    folder.mkdir(parents=True, exist_ok=True)
    try:
        done = subprocess.run(
            ["timeout", "-k", "10", "120", "apt-get", "-q", *options, "source", *words, package], cwd=folder, stdin=subprocess.DEVNULL,
            stdout=subprocess.DEVNULL, stderr=subprocess.DEVNULL, check=False,
        )
    except OSError:
        return False
    return done.returncode == 0


def source_of(package: str, folder: Path) -> Path | None:
    """The unpacked source of a package, or None."""
    if not fetch(package, folder):
        return None
    return next((path for path in sorted(folder.iterdir()) if path.is_dir()), None)
