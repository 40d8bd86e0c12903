#!/usr/bin/env python3
"""Writes what a string of an entry sends, as tput does: tput.py ENTRY-FILE NAME [PARAM..]

A parameter that the capability takes as a string is one, and another has to be a decimal number of 32 bits. The status is 2 for a
wrong call, 3 for a file that can't be read, and 4 if the entry, its string or the parameters are refused.
"""
import re
import sys
from typing import NoReturn

import mogyarsu


def fail(status: int, why: str) -> NoReturn:
    print(f"tput.py: {why}", file=sys.stderr)
    sys.exit(status)


def parameter(name, place, word, limits):
    is_number = re.fullmatch(r"-?[0-9]+", word) and -(2**31) <= int(word) < 2**31
    if not is_number and place in limits.named - limits.texts:
        fail(2, f"parameter {place} of {name}: no 32-bit number")
    return int(word) if is_number and place not in limits.texts else word


def main():
    if not 3 <= len(sys.argv) <= 12:
        fail(2, "tput.py ENTRY-FILE NAME [PARAM..]")
    path, name, *words = sys.argv[1:]
    try:
        entry = mogyarsu.Entry.from_path(path)
        text = entry.text(name)
        if text is None:
            fail(4, f"{name}: absent")
        limits = mogyarsu.check(text)
        parameters = [parameter(name, place, word, limits) for place, word in enumerate(words, 1)]
        # At the rate 0 padding vanishes.
        sys.stdout.buffer.write(mogyarsu.send(text, *parameters))
    except OSError as fault:
        fail(3, f"{path}: {fault.strerror}")
    except KeyError:
        fail(4, f"{name}: no text has this name")
    except mogyarsu.Fault as fault:
        fail(4, f"{path}: {name}: {fault}")


main()
