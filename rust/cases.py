"""Made inputs for the commands of `ti`, and what the proved program writes for them. They are those of model/compare, and the
entries of this machine, mostly broken by a few bytes."""

import os
import random
import subprocess
import sys
from collections.abc import Iterator, Mapping
from concurrent.futures import ThreadPoolExecutor
from dataclasses import dataclass
from importlib.machinery import SourceFileLoader
from importlib.util import module_from_spec, spec_from_loader
from pathlib import Path
from types import ModuleType

from checks.machine import PROGRAM, ROOT, entry_files

# Bytes that mean something in an entry, and in a capability.
ENTRY_BYTES = bytes([0, 1, 2, 3, 127, 128, 253, 254, 255])
CAPABILITY_BYTES = b"%%?te;pPg{'0123456789:.dsx}~aZ"
# Names of texts that many entries have, of other capabilities, and of none.
NAMES = ["cup", "setaf", "sgr", "flash", "rep", "csr", "initc", "Ss", "Ms", "XM", "am", "cols", "nosuch", "#10", "#500"]


@dataclass(frozen=True)
class Case:
    """A call of `ti`: its words, and what it reads."""

    words: tuple[str, ...]
    data: bytes

    def line(self) -> str:
        """The call as a line for the driver."""
        return " ".join([self.data.hex(), *(word.encode().hex() for word in self.words)])

    def run(self, *command: str | Path, environment: Mapping[str, str] = os.environ) -> str:
        """The line that a program gives for the call, as the driver writes it."""
        words = [*command, *self.words]
        # In a folder that has no file with a name of the calls.
        done = subprocess.run(words, input=self.data, env=environment, cwd=ROOT / "examples", capture_output=True, check=False)
        return f"{done.returncode} {done.stdout.hex()} {done.stderr.hex()}"


def model() -> ModuleType:
    """model/compare as a module, for the inputs that it makes."""
    path = ROOT / "model/compare"
    sys.path.insert(0, str(path.parent))
    loader = SourceFileLoader("compare", str(path))
    spec = spec_from_loader("compare", loader)
    assert spec
    module = module_from_spec(spec)
    loader.exec_module(module)
    return module


def parameters(made: ModuleType) -> list[str]:
    values = [made.made_value() for _ in range(random.choice([0, 1, 2, 5, 9, 9, 9]))]
    return [f"n:{value}" if isinstance(value, int) else f"s:{value.decode()}" for value in values]


def operand() -> bytes:
    """A token that pushes a value."""
    number = random.choice([0, 1, 7, 255, 2**31 - 1, random.randrange(1000)])
    letter = random.choice(b"aAzZ")
    return random.choice(5 * [b"%%p%d" % random.randint(1, 9)] + [b"%%{%d}" % number, b"%%'%c'" % letter, b"%%g%c" % letter])


def whole_capability(made: ModuleType, depth: int = 0) -> bytes:
    """A capability that prints most of what it computes, mostly without a fault."""

    def printed() -> bytes:
        return random.choice([made.made_format(), b"%d", b"%c"])

    parts = [
        lambda: operand() + operand() + b"%%%c" % random.choice(b"+-*/m&|^=><AO") + printed(),
        lambda: operand() + random.choice([b"%!", b"%~", b"%l", b""]) + printed(),
        lambda: operand() + b"%%P%c" % random.choice(b"aAzZ"),
        lambda: random.choice([b"%i", b"%%", b"$<5*/>", b"\x1b["]),
        lambda: b"%?" + operand() + b"%t" + part() + random.choice([b"", b"%e" + part()]) + b"%;" if depth < 3 else b"",
    ]

    def part() -> bytes:
        return whole_capability(made, depth + 1)

    return b"".join(random.choice(parts)() for _ in range(random.randint(1, 8)))


def a_capability(made: ModuleType) -> bytes:
    """A capability, of which half have mostly no fault."""
    return random.choice([whole_capability, lambda made: made.made_capability()])(made)


def form() -> str:
    return random.choice(["--hex", "--escape"])


def an_entry(made: ModuleType, installed: list[Path]) -> bytes:
    """An entry, made or of this machine, and mostly broken."""
    entry = random.choice(installed).read_bytes() if installed and random.random() < 0.5 else made.made_entry()
    return made.broken(entry, ENTRY_BYTES + bytes([random.randrange(256)]), random.choice([0, 0, 1, 3]))


def expanding(made: ModuleType, entry: bytes) -> Iterator[Case]:
    """An expansion of a text of an entry, and of one in an entry that is made for it."""
    text = a_capability(made).replace(b"\0", b"")
    for name, data in [
        (random.choice([*NAMES, f"#{random.randrange(420)}"]), entry),
        ("Ss", made.entries.encode(made.Entry(made.entries.LEGACY, b"t", extended_texts=[(b"Ss", text)]), made.entries.LEGACY)),
    ]:
        rate, lines = random.choice([0, 1, 333, 9600, 1_000_000]), random.choice([0, 1, 2, 24, 65_535])
        options = [form(), "--all-names", f"--rate={rate}", f"--lines={lines}", *random.choice([[], ["--xon"]])]
        yield Case(("expand", *options, "--", name, *parameters(made)), data)


def made_cases(rounds: int, seed: int) -> Iterator[Case]:
    """Cases of each command, for so many rounds."""
    made, installed = model(), entry_files()
    random.seed(seed)
    for _ in range(rounds):
        yield Case(("cap", form(), "--", *parameters(made)), a_capability(made))
        entry = an_entry(made, installed)
        yield Case(("show", "--all-names"), entry)
        yield Case(("check", "--all-names"), entry)
        yield Case(("convert", *random.choice([(), ("--wide",), ("--narrow",)])), entry)
        yield from expanding(made, entry)


def lines_of(cases: list[Case], *command: str | Path, environment: Mapping[str, str] = os.environ) -> list[str]:
    """What a program gives for each case."""
    with ThreadPoolExecutor(2) as pool:
        return list(pool.map(lambda case: case.run(*command, environment=environment), cases))


def proved_lines(cases: list[Case]) -> list[str]:
    """What the proved program gives for each case."""
    return lines_of(cases, PROGRAM)


def written(command: list[str | Path], cases: list[Case], environment: Mapping[str, str]) -> list[str]:
    """What a driver writes for the cases, a line for each up to one at which it ends early."""
    lines = "".join(f"{case.line()}\n" for case in cases)
    done = subprocess.run(command, input=lines, env=environment, capture_output=True, text=True, check=False)
    return done.stdout.splitlines() + done.stderr.splitlines()[:1]
