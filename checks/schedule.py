"""What the gate would take on two processors: what it proved is watched while it runs, and laid out on two afterwards.

While a part runs, the processes of the prover below it are looked at once a second: which crate each proves, with its tests or
with a wrong body, and how long. A crate waits for those that it names, its tests for all below it, and its wrong bodies for both.
Memory is taken to be enough.
"""

import os
import threading
from collections.abc import Iterable
from dataclasses import dataclass, field
from pathlib import Path

from checks.crates import CRATES, below
from checks.machine import ROOT

PROOF, TESTS, EDITS = "proof", "tests", "edits"
TICKS = os.sysconf("SC_CLK_TCK")
PROCESSORS = 2


@dataclass(frozen=True)
class Job:
    """What a process of the prover does."""

    crate: str
    kind: str


def words_of(process: Path) -> list[str]:
    return (process / "cmdline").read_bytes().decode(errors="replace").split("\0")


def job_of(process: Path) -> Job | None:
    """What a process proves, if it is one of the prover's."""
    words = words_of(process)
    if "--crate-name" not in words:
        return None
    crate = words[words.index("--crate-name") + 1]
    if crate not in CRATES:
        return None
    if (process / "cwd").resolve() != ROOT / "crates" / crate or "--only" in words:
        return Job(crate, EDITS)
    return Job(crate, TESTS if "--test" in words else PROOF)


def seconds_of(process: Path) -> float:
    """The processor time of a process."""
    fields = (process / "stat").read_text(errors="replace").rpartition(")")[2].split()
    return (int(fields[11]) + int(fields[12])) / TICKS


def is_below(process: Path, top: int) -> bool:
    """Whether a process was started by another, or by one that it started."""
    number = int(process.name)
    while number > 1 and number != top:
        number = int((Path("/proc") / str(number) / "stat").read_text(errors="replace").rpartition(")")[2].split()[1])
    return number == top


@dataclass
class Watch:
    """The processor time of each process of the prover below this one, while the watch is kept."""

    seconds: dict[tuple[Job, str], float] = field(default_factory=dict)
    is_over: threading.Event = field(default_factory=threading.Event)

    def look(self) -> None:
        for process in Path("/proc").iterdir():
            if not process.name.isdigit():
                continue
            try:
                job = job_of(process)
                if job and is_below(process, os.getpid()):
                    self.seconds[job, process.name] = seconds_of(process)
            except OSError:
                # The process has ended, or is another's.
                continue

    def keep(self) -> None:
        while not self.is_over.wait(1.0):
            self.look()

    def __enter__(self) -> "Watch":
        threading.Thread(target=self.keep, daemon=True).start()
        return self

    def __exit__(self, *_: object) -> None:
        self.is_over.set()

    def jobs(self) -> dict[Job, float]:
        found: dict[Job, float] = {}
        for (job, _), taken in self.seconds.items():
            found[job] = found.get(job, 0.0) + taken
        return found


def waits_for(job: Job, jobs: Iterable[Job]) -> list[Job]:
    """The jobs that have to be done before one."""
    own = [Job(job.crate, kind) for kind in (PROOF, TESTS)] if job.kind == EDITS else []
    return [other for other in jobs if other in own or other.kind == PROOF and other.crate in below(job.crate)]


def chains_of(jobs: dict[Job, float]) -> dict[Job, float]:
    """For each job the longest chain of jobs that begins with it, in seconds."""
    chains: dict[Job, float] = {}

    def chain(job: Job) -> float:
        if job not in chains:
            chains[job] = jobs[job] + max((chain(other) for other in jobs if job in waits_for(other, jobs)), default=0.0)
        return chains[job]

    return {job: chain(job) for job in jobs}


def wall_of(jobs: dict[Job, float]) -> float:
    """How long the jobs take on two processors, if the one with the longest chain is begun first."""
    chains, done, running, now = chains_of(jobs), set[Job](), dict[Job, float](), 0.0
    while len(done) < len(jobs):
        waiting = [job for job in jobs if job not in done and job not in running]
        ready = [job for job in waiting if all(other in done for other in waits_for(job, jobs))]
        for job in sorted(ready, key=lambda job: -chains[job])[: PROCESSORS - len(running)]:
            running[job] = now + jobs[job]
        first = min(running, key=lambda job: running[job])
        now = running.pop(first)
        done.add(first)
    return now


@dataclass(frozen=True)
class Reckoned:
    """What a part would take on two processors, and its longest chain, in seconds."""

    wall: float
    chain: float


def reckoned(jobs: dict[Job, float], wall: float, processors: float) -> Reckoned:
    """What a part would take that took so long here. What is not seen of it is divided among both, if it was divided here."""
    rest = max(processors - sum(jobs.values()), 0.0)
    if not jobs:
        alone = min(wall, processors)
        return Reckoned(max(processors / PROCESSORS, alone), alone)
    return Reckoned(wall_of(jobs) + rest / PROCESSORS, max(chains_of(jobs).values()))
