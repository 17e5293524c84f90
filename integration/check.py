#!/usr/bin/env python3
"""Holds docs/INTEGRATION.md to the code and to docs/SCOPE.md: check.py PROGRAM .., by which the program integration is run.

The table of characteristics is the one that the bridge makes; the numbers of each call are those of SCOPE 20.3, and are divided as MCS_IS_ATT_ERROR does; every
line of C stands in gatt.c; every function and macro that is named is there. Prints what it compared, or what differs, with status 1.
"""
import pathlib
import re
import subprocess
import sys

here = pathlib.Path(__file__).resolve().parent
root = here.parent
paper = (root / "docs/INTEGRATION.md").read_text()
code = {name: (here / name).read_text() for name in ("gatt.h", "gatt.c")}
headers = "".join((root / "include" / name).read_text() for name in ("mcs.h", "mcs_desk.h"))
faults = []


def cells(line):
    return [cell.strip() for cell in line.strip().strip("|").split("|")]


def table(text, first):
    """The rows of the table whose heading begins with these cells."""
    lines = iter(text.split("\n"))
    for line in lines:
        if line.startswith("|") and cells(line)[: len(first)] == first:
            next(lines)
            rows = []
            for row in lines:
                if not row.startswith("|"):
                    return rows
                rows.append(cells(row))
    faults.append(f"there is no table that begins with {first}")
    return []


def the_characteristics():
    made = subprocess.run(sys.argv[1:] + ["table"], capture_output=True, text=True, check=True).stdout.splitlines()
    made = [cells(line) for line in made]
    said = [row[:5] for row in table(paper, ["number", "in C"])]
    for one, other in zip(made + [None] * len(said), said + [None] * len(made)):
        if one != other:
            faults.append(f"the bridge has {one}, the paper {other}")
    return len(made)


def numbers(words):
    return re.findall(r"0x[0-9A-F]{2}|\d{3}", words)


def the_numbers():
    rule = {}
    for row in table((root / "docs/SCOPE.md").read_text(), ["call", "rows"]):
        for call in row[0].split(", "):
            rule[call] = numbers(row[1])
    count = 0
    rows = [(row[0], row[1], row[2]) for row in table(paper, ["call", "goes on air as it is"])]
    rows += [(row[0], None, row[1]) for row in table(paper, ["call", "numbers"])]
    for calls, air, fault in rows:
        for call in calls.split(", "):
            said = numbers((air or "") + " " + fault)
            if sorted(said) != sorted(rule.get(call, [])):
                faults.append(f"{call}: the paper has {said}, SCOPE 20.3 {rule.get(call)}")
            if air is not None and any(int(number, 0) > 0x80 for number in numbers(air)) | any(int(number, 0) <= 0x80 for number in numbers(fault)):
                faults.append(f"{call}: a number is on the wrong side")
            count += len(said)
    return count


def the_lines():
    blocks = re.findall(r"^```c\n(.*?)^```", paper, re.M | re.S)
    for block in blocks:
        if block not in code["gatt.c"]:
            faults.append(f"lines of C that gatt.c does not have:\n{block}")
    return sum(block.count("\n") for block in blocks)


def the_names():
    names = set(re.findall(r"`(gatt_\w+|mcs_\w+|MCS_\w+)`", paper))
    for name in sorted(names):
        if not re.search(rf"\b{name}\b", code["gatt.h"] + headers):
            faults.append(f"there is no {name}")
    return len(names)


counted = (the_characteristics(), the_numbers(), the_lines(), the_names())
if faults or 0 in counted:
    print("\n".join(faults or ["nothing is compared"]))
    sys.exit(1)
print("the paper has the bridge's %u characteristics, the rules' %u numbers, %u lines of gatt.c and %u names that are there" % counted)
