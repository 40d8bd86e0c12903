"""A kit that stands in for another: the kit of this machine, under another name or with another logic. The tests of what differs from
kit to kit run over such ones."""

import os
from pathlib import Path

from checks.kit import Kit, kit_folder

RT = """#!/bin/sh
case $1 in
    version) cat '{folder}/KIT-ID' ;;
    doc) echo '{folder}/START-HERE.md' ;;
    *) exec '{rt}' "$@" ;;
esac
"""


def make_kit(folder: Path, kit: Kit) -> Path:
    """Makes a kit in a new folder, and returns the folder with its `rt`, for the path."""
    commands = folder / "commands"
    commands.mkdir(parents=True)
    for path in kit_folder().iterdir():
        if path.name != "KIT-ID":
            (folder / path.name).symlink_to(path)
    (folder / "KIT-ID").write_text(f"{kit}\n", encoding="utf-8")
    rt = commands / "rt"
    rt.write_text(RT.format(folder=folder, rt=kit_folder() / "bin/rt"), encoding="utf-8")
    rt.chmod(0o755)
    return commands


def path_with(commands: Path) -> str:
    """The path on which these commands come first."""
    return f"{commands}{os.pathsep}{os.environ['PATH']}"
