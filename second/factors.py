#!/usr/bin/env python3
"""The factors of the playback speeds (SCOPE 13.2): the table FACTOR of ref.c, by exact whole numbers.

    python3 factors.py            prints the lines of the table
    python3 factors.py --check    compares them with those in ref.c, asks the inequality of each number there, and fails on a difference

A table of 256 entries gives e for each p from −128 to 127, the whole number with (2e−1)^64 ≤ 2^(1088+p) < (2e+1)^64 (SCOPE 13.2).
"""
import math
import os
import re
import sys

SPEEDS = range(-128, 128)
TO_A_LINE = 16


def factor(p):
    """A square root six times, each without its fraction, is the 64th root without its fraction; 2e − 1 is the last odd number up to there."""
    root = 2 ** (1088 + p)
    for _ in range(6):
        root = math.isqrt(root)
    return (root + 1) // 2


def lines():
    numbers = [str(factor(p)) for p in SPEEDS]
    rows = [', '.join(numbers[k:k + TO_A_LINE]) for k in range(0, len(numbers), TO_A_LINE)]
    return '    ' + ',\n    '.join(rows) + '\n'


def check():
    with open(os.path.join(os.path.dirname(os.path.abspath(__file__)), 'ref.c'), encoding='utf-8') as file:
        found = re.search(r'FACTOR\[256\] = \{\n(.*?)\};', file.read(), re.DOTALL)
    numbers = [int(number) for number in re.findall(r'\d+', found.group(1))] if found else []
    if len(numbers) != len(SPEEDS):
        sys.exit('ref.c has %d factors' % len(numbers))
    for p, e in zip(SPEEDS, numbers):
        if not (2 * e - 1) ** 64 <= 2 ** (1088 + p) < (2 * e + 1) ** 64:
            sys.exit('ref.c: %d is not the factor of %d' % (e, p))
    if found.group(1) != lines():
        sys.exit('ref.c: the lines of the factors differ')


if sys.argv[1:] == ['--check']:
    check()
elif sys.argv[1:] == []:
    sys.stdout.write(lines())
else:
    sys.exit(__doc__)
