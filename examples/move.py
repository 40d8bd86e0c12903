#!/usr/bin/env python3
"""Moves the cursor of the terminal whose entry is a file, to a row and a column counted from 0: move.py ENTRY-FILE ROW COLUMN"""
import sys

import mogyarsu

try:
    path, row, column = sys.argv[1:]
    entry = mogyarsu.Entry.from_path(path)
    sys.stdout.buffer.write(mogyarsu.send(entry["cup"], int(row), int(column)))
except (OSError, ValueError, KeyError) as fault:
    sys.exit(f"move.py: {fault}")
