#!/usr/bin/env python3
"""Says what is wrong with a file that is no compiled entry, and where; its status is 1 then: refuse.py FILE"""
import sys

import mogyarsu

try:
    mogyarsu.Entry.from_path(sys.argv[1])
except mogyarsu.Fault as fault:
    print(f"{sys.argv[1]}: byte {fault.place}: {fault.message}")
    sys.exit(1)
