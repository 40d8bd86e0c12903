"""Counts what the checks of a script find, and ends the script with its closing line: 'NAME: N passed, M failed'."""

import sys
from typing import NoReturn


class Tally:
    """The counts of one script. Each line that it prints starts with the script's name."""

    def __init__(self, name: str) -> None:
        self.name = name
        self.passed = self.failed = self.skipped = 0

    def tell(self, holds: bool, what: str) -> None:
        """Counts a check, and prints what failed."""
        if holds:
            self.passed += 1
        else:
            self.failed += 1
            self.note(what)

    def left_out(self, what: str, package: str) -> None:
        """Prints what is not checked here, since Debian's package of it is missing. The gate prints these lines again."""
        self.skipped += 1
        self.note(f"left out: {what} (Debian's {package})")

    def note(self, what: str) -> None:
        """Prints a line that counts for nothing."""
        print(f"{self.name}: {what}", flush=True)

    def end(self, says_skipped: bool = False) -> NoReturn:
        """Prints the closing line, and exits with the status: 1 if a check failed."""
        skipped = f", {self.skipped} skipped" if says_skipped else ""
        self.note(f"{self.passed} passed, {self.failed} failed{skipped}")
        sys.exit(1 if self.failed else 0)
