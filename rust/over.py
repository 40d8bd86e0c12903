"""Runs a check of the program over another program in place of the proved one: over.py PROGRAM SCRIPT"""

import runpy
import sys
from pathlib import Path

sys.dont_write_bytecode = True
ROOT = Path(__file__).resolve().parent.parent
sys.path.insert(0, str(ROOT))
from checks import machine


def main(program: str, script: str) -> None:
    other = Path(program)
    machine.LAUNCHER = machine.PROGRAM = other
    machine.OTHER = True
    machine.build_program = lambda: None
    path = ROOT / script
    sys.path.insert(0, str(path.parent))
    sys.argv = [str(path)]
    runpy.run_path(str(path), run_name="__main__")


if __name__ == "__main__":
    main(*sys.argv[1:])
