#!/usr/bin/env python3
"""The script of calls on the whole: the office's day, the two services' cases, the player's cases, the object numbers' cases, those of the office's own
titles, those of the clock, those of the manual's Goto and those of what all know when things go quiet, with the line that each call must give.

    python3 vectors/script.py            writes the files below
    python3 vectors/script.py --check    compares them, and fails on a difference

    crates/office/stdin    the script, framed
    crates/office/stdout   its lines
"""
import sys

from calls import CASES, FRAMES, LINES
from vector_files import write_or_compare

# Each of the eight adds its calls when it is imported, so their order is that of the script.
import office  # noqa: F401
import services  # noqa: F401
import player  # noqa: F401
import objects  # noqa: F401
import titles  # noqa: F401
import clock  # noqa: F401
import manual  # noqa: F401
import quiet  # noqa: F401

differing = write_or_compare(__doc__, sys.argv[1:], {
    'crates/office/stdin': b''.join(FRAMES),
    'crates/office/stdout': ''.join(line + '\n' for line in LINES).encode('ascii'),
})
print('cases: %d, calls: %d' % (CASES[0], len(LINES) - CASES[0]))
if differing:
    sys.exit(1)
