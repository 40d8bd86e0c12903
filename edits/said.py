"""What a check of the prover says, and which of its lines speak against a wrong body."""

import re
from dataclasses import dataclass


# What a check that passes over holes says of a function whose own goals are all proved.
PROVED = re.compile(r"no holes$|depends on a hole in ")


@dataclass
class Said:
    """What a check said."""

    crate: str
    status: int
    text: str

    @property
    def is_proved(self):
        return self.status == 0

    @property
    def is_judged(self):
        """Whether the prover judged the functions. If not, the crate does not compile, or the prover gave up."""
        return self.is_proved or self.status == 1 and re.search(r"^(only|holes)=", self.text, re.M) is not None

    def parts(self):
        """The functions and closures, with what is said of each: 'no holes', 'depends on a hole in ..', or why it is not proved."""
        return re.findall(rf"^fn {self.crate}::(\S+): (.*)$", self.text, re.M)

    def parts_of(self, function):
        """The lines of a function and of the closures in it, which a check calls '..::fn::FUNCTION::..'."""
        return [(name, told) for name, told in self.parts() if f"{name}::".replace("fn::", "").startswith(f"{function}::")]

    def has_proved(self, function):
        """Whether a function is proved with its closures, by the contracts of those that a hole stands for."""
        parts = self.parts_of(function)
        return parts != [] and all(PROVED.match(told) for _, told in parts)

    def line_against(self, name, told):
        """The line that names a goal that is not proved, or an answer that fails, if there is one.

        An answer that only names what an edit took away says nothing of the function.
        """
        if told.startswith("no proof") and "`search` did not prove" in told:
            return f"fn {name}: {told}"
        folder = "/".join(["./proofs", *name.split("::")])
        errors = re.findall(rf"^{re.escape(folder)}/\w+\.antt:\d+:\d+: error: .*$", self.text, re.M)
        names = re.compile(r"has no field|has no `|is not in scope|was not admitted")
        return next((line for line in errors if told.startswith("not proved") and not names.search(line)), None)

    def lines_against(self, functions=None):
        """The lines against some functions, or against any."""
        parts = self.parts() if functions is None else [part for function in functions for part in self.parts_of(function)]
        return [line for name, told in parts if (line := self.line_against(name, told))]

    def complaint(self):
        """The first line that says what is wrong."""
        lines = self.text.splitlines() or [""]
        wrong = re.compile(r"\berror\b|fn \S+: (?!no holes$|depends on a hole in )|note: src/")
        return next((line for line in lines if wrong.search(line)), lines[-1])
