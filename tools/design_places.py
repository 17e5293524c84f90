"""Counts, in the sources under a checkout, the places of older forms that docs/DESIGN-PASS.md speaks of. Prints a line for each place, and the counts.

python3 tools/design_places.py [CHECKOUT] [--counts]
"""

import glob
import os
import re
import sys
from collections import Counter, defaultdict

counts_only = "--counts" in sys.argv
arguments = [a for a in sys.argv[1:] if not a.startswith("--")]
root = arguments[0] if arguments else "."
found = defaultdict(list)
kept = Counter()


def place(point, name, line, text):
    found[point].append("%s:%d: %s" % (name, line, text.strip()))


def line_of(text, at):
    return text.count("\n", 0, at) + 1


def blocks(text, head):
    """Each item that begins by `head`, with what stands between its outermost braces."""
    for m in re.finditer(head, text, re.M):
        start = text.index("{", m.end() - 1)
        depth = 0
        for i in range(start, len(text)):
            depth += {"{": 1, "}": -1}.get(text[i], 0)
            if depth == 0:
                yield m, text[start + 1:i]
                break


SIX = ["groups", "tracks", "segments", "text", "renames", "office"]
bodies = defaultdict(list)
enums = defaultdict(list)

for path in sorted(glob.glob(os.path.join(root, "crates", "*", "src", "*.rt"))):
    name = os.path.relpath(path, os.path.join(root, "crates"))
    whole = open(path).read()
    text = re.sub(r"//[^\n]*", lambda m: " " * len(m.group(0)), whole)
    lines = whole.split("\n")

    # Point 1: an enum that is an Option or a Result under another name, or one of the numbers of a kind.
    for m, body in blocks(text, r"^(?:pub )?enum \w+(?:<\w+>)? \{"):
        variants = [v.strip() for v in re.split(r",(?![^()]*\))", body) if v.strip()]
        payload = [v for v in variants if "(" in v]
        shape = tuple(sorted(re.sub(r"\w+::", "", v.split("(", 1)[1]) if "(" in v else "" for v in variants))
        enums[tuple(v.split("(")[0] for v in variants)].append((name, line_of(text, m.start()), m.group(0)))
        if any("Refusal" in v for v in payload) or (len(variants) == 2 and len(payload) == 1):
            place("1 enum of the shape of Option or Result", name, line_of(text, m.start()), m.group(0))
    for m in re.finditer(r"^(?:pub )?const (\w+): u(?:8|32) = (?:0x)?[0-9A-Fa-f_]+;", text, re.M):
        if re.match(r"(?:pub )?const (BAD|NO|NOT|ALREADY|SMALL|VALUE|BEYOND|TOO|LONG|MANY)_", m.group(0)):
            place("1 number of a refusal", name, line_of(text, m.start()), m.group(0))
    for m in re.finditer(r"^fn \w+[^{]*|^pub fn \w+[^{]*", text, re.M):
        if re.search(r"\bnumber: u32", m.group(0)) and "ensures" in m.group(0) and "refus" in m.group(0) + name:
            place("1 parameter that is the number of a refusal", name, line_of(text, m.start()), m.group(0).split("(")[0])
    for m, body in blocks(text, r"^(?:pub )?struct \w+(?:<'?\w+>)? \{"):
        fields = re.findall(r"(\w+): ([^,\n]+)", body)
        flags = [f for f, t in fields if t.strip() == "bool" or f in ("fault",)]
        if flags and len(fields) > 1:
            place("1 struct with a flag beside values", name, line_of(text, m.start()), m.group(0) + " " + ", ".join(flags))

    # Point 3: a loop that counts by hand.
    for m in re.finditer(r"^\s+while .*\{$", text, re.M):
        at = line_of(text, m.start() + 1)
        above = [l.strip() for l in lines[max(0, at - 4):at]]
        stays = any(l.startswith("// Stays a while") for l in above)
        place("3 while", name, at, m.group(0) + ("   (stays, with a reason)" if stays else ""))

    # Point 4: a cast or an equality by hand.
    for m in re.finditer(r"\bas (?:u8|u16|u32|u64|usize)\b", text):
        place("4 cast", name, line_of(text, m.start()), lines[line_of(text, m.start()) - 1])

    # Point 5: what is lent, as five or six parameters.
    for m in re.finditer(r"^(?:pub )?(?:extern \"C\" )?fn (\w+)(?:<'a>)?\(([^{]*?)\)", text, re.M):
        names = re.findall(r"(\w+): &", m.group(2))
        if sum(n in names for n in SIX) >= 5:
            place("5 function that takes what is lent piece by piece", name, line_of(text, m.start()), m.group(1))

    # Point 6: octets with their length beside.
    for m, body in blocks(text, r"^(?:pub )?struct \w+(?:<'?\w+>)? \{"):
        if re.search(r": \[\w+; \w+\]", body) and re.search(r"\b(len|count|waiting): ", body):
            place("6 array with a length beside", name, line_of(text, m.start()), m.group(0))

    # Point 7: a number that says which step is run.
    for m, body in blocks(text, r"^    match (?:kind|opcode|c\.kind) \{"):
        arms = re.findall(r"^        (?:0x)?[0-9A-F]+ => \{", body, re.M)
        if len(arms) > 2:
            place("7 switch on which step to run", name, line_of(text, m.start()), m.group(0))

    # Point 2: functions that are the same but for types, constants and names of calls.
    for m in re.finditer(r"^(?:pub )?fn (\w+)[^{]*", text, re.M):
        pass
    for m, body in blocks(text, r"^(?:pub )?fn \w+[^;{]*?\n?\{$"):
        shape = re.sub(r"\b(?:0x)?[0-9][0-9A-Fa-f_]*\b", "N", body)
        shape = re.sub(r"\b[A-Z]\w*\b", "T", shape)
        shape = re.sub(r"\bu(?:8|16|32|64)\b|\busize\b", "W", shape)
        shape = re.sub(r"\s+", " ", shape)
        if len(shape) > 60:
            fn = re.search(r"fn (\w+)", m.group(0)).group(1)
            bodies[shape].append((name, line_of(text, m.start()), fn))

for shape, places in bodies.items():
    if len(places) > 1 and not all(p[0].startswith("mcs_c/") for p in places):
        for name, line, fn in places:
            place("2 function whose body stands again but for a type or a constant", name, line, fn)
for names, places in enums.items():
    if len(places) > 1:
        for name, line, head in places:
            place("2 enum whose variants stand again", name, line, head)

# Point 8: a typed `let` that stands in more than one answer of a file.
for path in sorted(glob.glob(os.path.join(root, "crates", "*", "proofs", "**", "*.antt"), recursive=True)):
    lets = re.findall(r"^    let (\w+ : [^=\n]+) =", open(path).read(), re.M)
    again = sum(n - 1 for n in Counter(lets).values() if n > 1)
    if again:
        found["8 typed let of an answer that stands again in its file"] += ["%s" % os.path.relpath(path, os.path.join(root, "crates"))] * again

for point in sorted(found):
    print("%s: %d" % (point, len(found[point])))
    if not counts_only and not point.startswith("8"):
        for p in found[point]:
            print("    " + p)
