#!/usr/bin/env python3
"""Gives the repository's own definitions, fields and lemmas the spelling of today's Rattle: words in snake case.

usage: python3 tools/respell.py [--dry]      at the top of the repository, once, after the toolchain's own script

What is declared in crates/*/specs and crates/*/proofs in camel case (charOf) or with dashes (row-gap) is written with underscores (char_of, row_gap) wherever it
stands: in .antt files, in the clauses of .rt files, in must-fail edits, and between backticks in comments and in papers. Types, modules, files, functions of src/
and their own words stay, and so does a dash behind a type's name (Each-take). A lemma that would fall together with a definition gets _lem.
"""
import collections
import glob
import re
import sys

SIGNATURE = re.compile(r"^(?P<indent>\s*)(?:(?:abbrev|unfoldable|pub|opaque) )*(?P<name>[^\s(){};.,\"]+) :(?= |$)")
TOKEN = re.compile(r"[^\s(){};,.\"@`]+")


def antt_files():
    return sorted(glob.glob("crates/*/specs/**/*.antt", recursive=True) + glob.glob("crates/*/proofs/**/*.antt", recursive=True))


def declared():
    """Each declared name, with the files that declare it and its signatures."""
    files, signatures = collections.defaultdict(set), collections.defaultdict(list)
    for path in antt_files():
        lines = open(path, encoding="utf-8").read().split("\n")
        for i, line in enumerate(lines):
            m = SIGNATURE.match(line)
            if not m or len(m["indent"]) > 12 or m["name"] in ("let", "in", "use", "module", "where"):
                continue
            whole, j = line, i
            while j + 1 < len(lines) and lines[j + 1].startswith(m["indent"] + "    "):
                j += 1
                whole += " " + lines[j].strip()
            files[m["name"]].add(path)
            signatures[m["name"]].append(whole)
    return files, signatures


def brought(text):
    """The names that a file brings from a library that is not of this repository: they stay in it."""
    names = set()
    for module, listed in re.findall(r"\buse ([\w.·]+)\.\{([^}]*)\}", text):
        if not re.match(r"Rattle[.·]", module) or module.startswith("Rattle.std."):
            names |= {n.strip().split(" ")[0] for n in listed.split(",")}
    return names


def in_snake_case(name):
    if not name[0].islower():
        head, dash, rest = name.partition("-")
        return head + dash + in_snake_case(rest) if rest[:1].islower() else name
    if "-" not in name:
        name = re.sub(r"(?<!_[a-z])(?<=[a-z0-9])[A-Z]", lambda m: "_" + m[0], name)
    return name.replace("-", "_").lower()


def table():
    files, signatures = declared()
    new = {}
    for name, where in files.items():
        of_functions = all(p.count("/") > 3 and "/proofs/" in p for p in where)
        if of_functions and any(re.search(r": tie\.(Need|invariant|decreases)", s) for s in signatures[name]):
            continue
        if of_functions and name.endswith("-spec"):
            continue
        if in_snake_case(name) != name:
            new[name] = in_snake_case(name)
    by_new = collections.defaultdict(list)
    for old, to in new.items():
        by_new[to].append(old)
    for to, olds in by_new.items():
        if to in files:
            olds.append(to)
        if len(olds) == 1:
            continue
        # The definition has the name; of two lemmas the one whose name changes more.
        of_specs = [o for o in olds if any("/specs/" in p for p in files[o])]
        first = (of_specs or sorted(olds, key=lambda o: (o == to, "-" in o)))[0]
        for old in olds:
            if old != first:
                new[old] = to + "_lem"
        if first == to:
            new.pop(to, None)
        else:
            new[first] = to
    return {old: to for old, to in new.items() if old != to}


def main(argv):
    new = table()
    taken = collections.Counter(new.values())
    together = {to: [o for o in new if new[o] == to] for to, n in taken.items() if n > 1}
    if together:
        print("fall together:", together)
        return 1
    if "--dry" in argv:
        print("\n".join(f"{a} {b}" for a, b in sorted(new.items())))
        return 0

    stay = set()

    def token(m):
        old = m[0]
        to = old if old in stay else new.get(old, old)
        # A name that was in snake case before is one of a path too, as proofs.place_at.Tie: that stays.
        return old if "-" not in old and old.islower() and m.string[: m.start()].endswith(".") else to

    def words(text):
        return TOKEN.sub(token, text)

    def ticked(text):
        return re.sub(r"`[^`\n]*`", lambda m: words(m[0]), text)

    def line_of_rt(line):
        code, comment = re.match(r"((?:[^\"/]|\"(?:[^\"\\]|\\.)*\"|/(?!/))*)(.*)", line, re.S).groups()
        parts = re.split(r"(\"(?:[^\"\\]|\\.)*\")", code)
        # In code, which has no clauses, only what was in camel case or has a dash is a word of a definition.
        turned = "".join(p if p.startswith('"') else TOKEN.sub(lambda m: m[0] if m[0].islower() and "-" not in m[0] else token(m), p) for p in parts)
        return turned + ticked(comment)

    def line_of_antt(line):
        if line.lstrip().startswith("--"):
            return ticked(line)
        code, dashes, comment = line.partition(" -- ")
        return words(code) + dashes + ticked(comment)

    def line_of_edit(line):
        return ticked(line) if line.startswith("#") or not re.match(r"(old|new):", line) else line[:4] + (line_of_antt if line_of_edit.antt else line_of_rt)(line[4:])

    def turn(path, by_line):
        text = open(path, encoding="utf-8").read()
        stay.clear()
        stay.update(brought(text))
        to = "".join(by_line(line) for line in text.splitlines(keepends=True))
        if to != text:
            open(path, "w", encoding="utf-8").write(to)

    for path in antt_files():
        turn(path, line_of_antt)
    for path in sorted(glob.glob("crates/*/src/**/*.rt", recursive=True)):
        turn(path, line_of_rt)
    for path in sorted(glob.glob("crates/*/must-fail/*.edit")):
        line_of_edit.antt = ".antt" in open(path, encoding="utf-8").read()
        turn(path, line_of_edit)
    for path in sorted(glob.glob("*.md") + glob.glob("docs/**/*.md", recursive=True)):
        turn(path, ticked)
    print(f"{len(new)} names")
    return 0


if __name__ == "__main__":
    raise SystemExit(main(sys.argv[1:]))
