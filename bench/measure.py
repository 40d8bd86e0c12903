"""Measures kinds of work on groups of items: times of short slices, and instructions, each for an item."""

import re
import statistics
import subprocess
from dataclasses import dataclass, field
from pathlib import Path

COUNTED_REPEATS = 10


@dataclass(frozen=True)
class Row:
    """A group of items, and in which order the work on them is repeated: one item after another, or each many times in a row."""

    group: str
    mixed: bool = False

    @property
    def label(self) -> str:
        return f"{self.group}, mixed" if self.mixed else self.group

    def words(self, repeats: int) -> list[str]:
        """The rounds, the turns and the group, as the programs take them."""
        return [str(repeats), "1", self.group] if self.mixed else ["1", str(repeats), self.group]


@dataclass
class Bench:
    """The programs that do each kind of work, the file of the items, and how long a slice is, in nanoseconds."""

    programs: dict[str, Path]
    file: Path
    slice: float
    repeats: dict[tuple[Row, str], int] = field(default_factory=dict)
    times: dict[tuple[Row, str], list[float]] = field(default_factory=dict)

    def run(self, *words: str | Path) -> "subprocess.CompletedProcess[str]":
        # A file in place of a pipe: how many reads it takes, and so the count of instructions, does not vary.
        with self.file.open() as items:
            return subprocess.run(words, stdin=items, capture_output=True, text=True, check=True)

    def lines_of(self, group: str) -> list[str]:
        return [line for line in self.file.read_text().splitlines() if line.startswith(f"{group} ")]

    def nanoseconds(self, row: Row, work: str, repeats: int) -> tuple[int, int]:
        """How many items there are, and how long so many repeats take."""
        _, _, items, time = self.run(self.programs[work], work, *row.words(repeats)).stdout.split()
        return int(items), int(time)

    def measure(self, row: Row, work: str) -> None:
        """Measures one slice, of as many repeats as fill it."""
        if (row, work) not in self.repeats:
            repeats, time = 1, 0
            while time < self.slice / 4:
                repeats *= 4
                _, time = self.nanoseconds(row, work, repeats)
            self.repeats[row, work] = max(1, round(repeats * self.slice / time))
        repeats = self.repeats[row, work]
        items, time = self.nanoseconds(row, work, repeats)
        self.times.setdefault((row, work), []).append(time / items / repeats)

    def least(self, row: Row, work: str) -> float:
        return min(self.times[row, work])

    def spread(self, row: Row, work: str) -> float:
        """The part by which the median is above the least."""
        return statistics.median(self.times[row, work]) / self.least(row, work) - 1

    def ratio(self, row: Row, work: str, peer: str) -> float:
        """The median of the ratios within a round, since a machine may run at two speeds."""
        return statistics.median(ours / theirs for ours, theirs in zip(self.times[row, work], self.times[row, peer]))

    def instructions(self, row: Row, work: str) -> float:
        """Instructions of one item, by the difference of two runs."""
        counts = []
        for repeats in [1, 1 + COUNTED_REPEATS]:
            command = ["valgrind", "--tool=callgrind", "--callgrind-out-file=/dev/null", self.programs[work], work]
            said = self.run(*command, *row.words(repeats)).stderr
            counts.append(int(re.findall(r"Collected : (\d+)", said)[0]))
        return (counts[1] - counts[0]) / COUNTED_REPEATS / len(self.lines_of(row.group))
