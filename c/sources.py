"""Sources in C that show whether include/ti.h and include/ti_names.h are right: alone, beside other headers, in their names,
and in what compiled programs rest on."""

import re
from itertools import permutations
from pathlib import Path

from checks.machine import INCLUDE

ALONE = '#include "ti.h"\n#include "ti.h"\nint here(void);\nint here(void) { return TI_DONE; }\n'
# Headers that a program may include beside ours, each with Debian's package of it.
BESIDE = {"curses.h": "libncurses-dev", "term.h": "libncurses-dev", "unibilium.h": "libunibilium-dev"}
# The arrays of term.h, in the order of the enumerations of ti_names.h.
ARRAYS = ["Booleans", "Numbers", "Strings"]
ASKS = """#include <stdio.h>
#include <string.h>
#include "ti.h"
static const struct { uint32_t kind; size_t index; const char *name; } rows[] = {
ROWS
};
int main(void) {
    int failed = 0;
    for (size_t i = 0; i < sizeof rows / sizeof *rows; i++) {
        ti_bytes name = {0, 0};
        uint32_t kind = TI_NUMBER + TI_TEXT;
        size_t index = 0;
        if (ti_name(rows[i].kind, rows[i].index, &name) != TI_DONE || name.length != strlen(rows[i].name)
            || memcmp(name.bytes, rows[i].name, name.length) != 0
            || ti_find((const unsigned char *)rows[i].name, name.length, &kind, &index) != TI_DONE
            || kind != rows[i].kind || index != rows[i].index) {
            printf("ti_names.h: %s\\n", rows[i].name);
            failed = 1;
        }
    }
    return failed;
}
"""
# A line for each field: its place in the struct, its name and its size.
PRINTS = """#include <stdio.h>
#include "ti.h"
#define FIELD(type, field) printf("    %zu %s %zu\\n", offsetof(type, field), #field, sizeof(((type *)0)->field))
int main(void) {
BODY
    return 0;
}
"""


def path_of(name: str) -> Path:
    """Where the system has a header."""
    return Path("/usr/include", name)


def declared_calls() -> dict[str, str]:
    """The calls that the library has to have, each as it is declared."""
    found = re.findall(r"^(u?int(?:8|32)_t (ti_[a-z_]+)\([^;]*\));", header(), re.M)
    return {name: re.sub(r"\s+", " ", declaration) for declaration, name in found}


def header() -> str:
    """The header without its comments."""
    return re.sub(r"/\*.*?\*/", "", (INCLUDE / "ti.h").read_text(), flags=re.S)


def structs() -> dict[str, list[str]]:
    """The fields of each struct of the header."""
    found = re.findall(r"typedef struct \{(.*?)\} (\w+);", header(), re.S)
    return {name: re.findall(r"(\w+)(?:\[\d+\])?;", body) for body, name in found}


def use_of_fields() -> str:
    """A function that names each field of the structs."""
    sizes = " + ".join(f"sizeof((({name} *)0)->{field})" for name, fields in structs().items() for field in fields)
    return f"size_t here(void);\nsize_t here(void) {{ return {sizes}; }}\n"


def uses_beside() -> dict[str, str]:
    """A use of each field after the header and those beside it that are there, for each order of them."""
    there = [name for name in BESIDE if path_of(name).exists()]
    orders = [" ".join(order) for order in permutations(["ti.h", *there])]
    return {order: "".join(f"#include <{name}>\n" for name in order.split()) + use_of_fields() for order in orders}


def long_names() -> list[dict[str, tuple[int, str]]]:
    """For each kind the long names of ti_names.h, each with its index and the short name."""
    kinds = re.findall(r"^enum \{\n(.*?)^\};", (INCLUDE / "ti_names.h").read_text(), re.M | re.S)
    rows = [re.findall(r"^    TI_([A-Z0-9_]+) = (\d+),? /\* (\w+) \*/$", lines, re.M) for lines in kinds]
    return [{name.lower(): (int(index), short) for name, index, short in of_kind} for of_kind in rows]


def names_apart() -> list[str]:
    """The long names that only ti_names.h or only term.h has, or has at another index. Term.h names some texts twice."""
    text = path_of("term.h").read_text()
    wrong: list[str] = []
    for array, ours in zip(ARRAYS, long_names(), strict=True):
        theirs = {name: int(index) for name, index in re.findall(rf"^#define (\w+) +CUR {array}\[(\d+)\]", text, re.M)}
        indices = {name: index for name, (index, _) in ours.items()}
        wrong += sorted({name for name, _ in indices.items() ^ theirs.items()})
    return wrong


def asks_for_names() -> str:
    """A program that asks the library for each name of ti_names.h by its index, and for its index by its short name."""
    kinds = ["TI_FLAG", "TI_NUMBER", "TI_TEXT"]
    rows = [
        f'    {{{kind}, TI_{name.upper()}, "{short}"}},'
        for kind, names in zip(kinds, long_names(), strict=True)
        for name, (_, short) in names.items()
    ]
    return ASKS.replace("ROWS", "\n".join(rows))


def prints_abi() -> str:
    """A program that prints the soname, the calls, the layouts of the structs and the values of the constants."""
    body = ['    printf("soname libti.so.%d.%d\\n", TI_VERSION >> 16, TI_VERSION >> 8 & 255);']
    body += [f'    puts("{declaration}");' for declaration in declared_calls().values()]
    for name, fields in structs().items():
        body.append(f'    printf("{name} %zu\\n", sizeof({name}));')
        body += [f"    FIELD({name}, {field});" for field in fields]
    for constants in re.findall(r"^enum \{(.*?)\};", header(), re.M | re.S):
        body += [f'    printf("{name} %d\\n", {name});' for name in re.findall(r"(TI_\w+) =", constants)]
    return PRINTS.replace("BODY", "\n".join(body))
