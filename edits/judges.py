"""Which judges try an edit: the prover, the rows, or both.

An edit with the line `judge: rows` is tried by rows alone. All others are tried by the prover; those that change a function of
presentation, as edits/judges.txt lists them, or a file that rows show too, by rows as well, but for a few that it lists, which no row
can refuse.
"""

import re
from functools import lru_cache

from bodies import HERE, Edit

LIST = HERE / "judges.txt"
PROVER, ROWS = "prover", "rows"
BY_ROWS = f"judge: {ROWS}"
SECTION = re.compile(r"^## (.*)$", re.M)


@lru_cache(None)
def sections() -> dict[str, list[str]]:
    """The lines of the list below each heading."""
    parts = SECTION.split(LIST.read_text(encoding="utf-8")) if LIST.exists() else [""]
    lines = [[line for line in part.splitlines() if line and not line.startswith("#")] for part in parts[2::2]]
    return dict(zip(parts[1::2], lines))


@lru_cache(None)
def presentation() -> dict[tuple[str, str], frozenset[str]]:
    """The functions of presentation by crate and file; none are named of a file that is so as a whole."""
    found = {}
    for line in sections().get("presentation", []):
        crate, rest = line.split(" ", 1)
        file, _, names = rest.partition(": ")
        found[crate, file] = frozenset(names.split())
    return found


def is_presented(crate: str, file: str, name: str) -> bool:
    """Whether a function of a file tells something to people."""
    names = presentation().get((crate, file))
    return names is not None and (not names or name in names)


def is_of_presentation(edit: Edit) -> bool:
    """Whether an edit changes a function of presentation, or a line outside of bodies in a file that is so as a whole."""
    files = {file for file, _ in edit.lines}
    outside = edit.is_outside and any(is_presented(edit.crate, file, "") for file in files)
    return outside or any(is_presented(edit.crate, function.file, function.path[-1]) for function in edit.functions)


def is_shown_too(edit: Edit) -> bool:
    """Whether an edit changes a file whose clauses stay, and which rows show too."""
    return any(f"{edit.crate} {file}" in sections().get("files that rows show too", []) for file, _ in edit.lines)


def judges_of(edit: Edit) -> set[str]:
    """The judges that try an edit."""
    if BY_ROWS in edit.text.split("\n"):
        return {ROWS}
    excepted = [line.partition(": ")[0] for line in sections().get("edits that no row can refuse", [])]
    has_rows = is_of_presentation(edit) or is_shown_too(edit)
    return {PROVER, ROWS} if has_rows and edit.label not in excepted else {PROVER}
