"""Proves crates side by side, each as soon as those that it names are there, and builds what they end in."""

import os
import subprocess
import sys
import time
from pathlib import Path

from checks.crates import below, folder_of, is_program, is_static, made_of, named_by, words_for

STARTED = time.monotonic()


def tell(text: str) -> None:
    print(f"prove: {text} ({time.monotonic() - STARTED:.0f} s)", file=sys.stderr, flush=True)


def chains_above(due: list[str]) -> dict[str, int]:
    """For each crate how many others wait for it one after another, in the longest chain of them."""
    above = dict.fromkeys(due, 0)
    for name in reversed(due):
        for other in named_by(name):
            if other in above:
                above[other] = max(above[other], above[name] + 1)
    return above


def proof_of(crate: str, kit: Path, jobs: int) -> list[str]:
    """The command that proves a crate and writes what is made of it."""
    words = [str(kit / "bin/rattle"), "build", *words_for(crate, kit, jobs)]
    words += ["--toolchain", str(kit / "toolchain")] if is_static(crate) or is_program(crate) else ["--statements"]
    return [*words, "-o", f"{made_of(crate)}.o" if is_program(crate) else str(made_of(crate))]


def linking_of(crate: str, kit: Path) -> list[str]:
    """The command that links a program."""
    words = [kit / "bin/rattle-link", "--target", "x86_64-unknown-linux-gnu", "--toolchain", kit / "toolchain"]
    words += ["-o", made_of(crate), f"{made_of(crate)}.o", kit / "c/libos_c.a", kit / "c/liblibc_c.a"]
    return [str(word) for word in words]


class Proof:
    """The proof of a crate under way. The more patience it has, the more it leaves the processors to others."""

    def __init__(self, crate: str, kit: Path, log: Path, jobs: int, patience: int) -> None:
        made_of(crate).parent.mkdir(parents=True, exist_ok=True)
        # By its stamp `rt` knows a library that it made itself, which has more in it.
        (made_of(crate).parent / "stamp").unlink(missing_ok=True)
        self.crate, self.kit, self.log, self.jobs, self.began = crate, kit, log, jobs, time.time()
        self.process = self.start(["nice", "-n", str(patience), *proof_of(crate, kit, jobs)])

    def start(self, words: list[str]) -> "subprocess.Popen[bytes]":
        with open(self.log, "a", encoding="utf-8") as said:
            return subprocess.Popen(words, cwd=folder_of(self.crate), stdin=subprocess.DEVNULL, stdout=said, stderr=said)

    def finish(self) -> bool:
        """Links a program, and gives what was made the time of its sources. False if something failed."""
        if self.process.returncode or is_program(self.crate) and self.start(linking_of(self.crate, self.kit)).wait():
            return False
        os.utime(made_of(self.crate), (self.began, self.began))
        return True


def next_over(under_way: dict[str, Proof]) -> Proof:
    while True:
        for proof in under_way.values():
            if proof.process.poll() is not None:
                return proof
        time.sleep(0.1)


def shares(ready: list[str], free: int) -> dict[str, int]:
    """How many jobs each ready crate is begun with: one each while there are free ones, and the rest for the first."""
    begun = ready[:free]
    return {name: free - len(begun) + 1 if name == begun[0] else 1 for name in begun}


def prove(due: list[str], kit: Path, logs: Path) -> bool:
    """Proves the crates that are due, each of which says what failed in a file of the logs. False if something fails."""
    whole = len(due) > len(below(due[-1]))
    tell(f"crates to prove: {len(due)}{'; from nothing ti takes about twenty minutes on four cores' if whole else ''}")
    waiting, under_way, above = [*due], dict[str, Proof](), chains_above(due)
    processors = min(len(os.sched_getaffinity(0)), 4)
    while waiting or under_way:
        ready = [name for name in waiting if not any(other in waiting or other in under_way for other in named_by(name))]
        # Those that the most others wait for come first. There are half as many jobs again as processors, so that fewer
        # are idle while the last crates are proved.
        ready.sort(key=lambda name: above[name], reverse=True)
        free = processors + processors // 2 - sum(proof.jobs for proof in under_way.values())
        for name, jobs in shares(ready, free).items():
            waiting.remove(name)
            patience = min(4 * (max(above.values()) - above[name]), 19)
            under_way[name] = Proof(name, kit, logs / name, min(jobs, processors), patience)
        proof = next_over(under_way)
        del under_way[proof.crate]
        if not proof.finish():
            tell(f"{proof.crate} failed: see {proof.log}")
            for other in under_way.values():
                other.process.terminate()
            return False
        tell(f"{len(due) - len(waiting) - len(under_way)} of {len(due)}: {proof.crate} is proved")
    return True
