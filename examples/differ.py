#!/usr/bin/env python3
"""Prints the names of the capabilities in which two entries differ: differ.py ENTRY-FILE ENTRY-FILE"""
import sys

import mogyarsu

try:
    one, other = map(mogyarsu.Entry.from_path, sys.argv[1:])
except (OSError, ValueError) as fault:
    sys.exit(f"differ.py: {fault}")
for name in {**one, **other}:
    if one.get(name) != other.get(name):
        print(name)
