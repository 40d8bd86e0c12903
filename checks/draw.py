"""The draw of the quick gate: a part that counts many cases tries some of them, drawn by a seed.

./gate --quick sets TI_DRAW to the seed, which is the commit, or the sum of dist/record if git knows none. A second run on the same
commit draws the same. Without TI_DRAW each part tries all of its cases.
"""

import os
import random
import subprocess
from collections.abc import Iterable, Sequence
from hashlib import sha256
from typing import TypeVar

from checks.machine import DIST, ROOT
from checks.tally import Tally

Case = TypeVar("Case")
# At least so many cases are drawn if nothing else is said, or all if there are fewer.
LEAST = 20


def seed() -> str:
    """The seed by which this run draws; empty if it tries all cases."""
    return os.environ.get("TI_DRAW", "")


def seed_of_tree() -> str:
    """The seed of this tree: its last commit, or the sum of dist/record."""
    done = subprocess.run(["git", "rev-parse", "HEAD"], cwd=ROOT, stdout=subprocess.PIPE, stderr=subprocess.DEVNULL, text=True, check=False)
    if done.returncode == 0 and done.stdout.strip():
        return done.stdout.strip()[:12]
    record = DIST / "record"
    return sha256(record.read_bytes() if record.is_file() else b"").hexdigest()[:12]


def is_left(what: str, tally: Tally) -> bool:
    """Whether something is left to ./gate, of which a line says so."""
    if seed():
        tally.note(f"left to ./gate: {what}")
    return bool(seed())


def draw_of(total: int, one_of: int, what: str, tally: Tally, least: int = LEAST) -> int:
    """How many of so many cases are tried. If they are drawn, a line says so."""
    count = min(total, max(least, total // one_of)) if seed() else total
    if count < total:
        tally.note(f"{what}: {count} of {total}, seed {seed()}")
    return count


def drawn(cases: Iterable[Case], what: str, one_of: int, tally: Tally, least: int = LEAST) -> Sequence[Case]:
    """All cases, or one in so many of them in their order."""
    every = list(cases)
    count = draw_of(len(every), one_of, what, tally, least)
    if count == len(every):
        return every
    places = sorted(random.Random(f"{seed()} {what}").sample(range(len(every)), count))
    return [every[place] for place in places]
