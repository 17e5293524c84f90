#!/usr/bin/env python3
"""Holds the papers, the definitions and each other together. Prints what it counted; what is wrong is printed a line each, and the status is then 1.

- Every rule of docs/SCOPE.md that is cited, anywhere in the repository, is there; and every rule from section 2 on is cited in crates/.
- A quotation in a comment of specs/ stands, word for word, in a rule that the same comment cites.
- Files and folders that a paper links or names are there, and so are the headings that it links.
- docs/PROMISES.md names every must-fail edit once, and none that there is not.
- No cell of a table has more characters than somebody reads at a glance.
- Nothing cites a paper that the repository does not have.
"""

import os
import re
import subprocess
import sys

os.chdir(os.path.join(os.path.dirname(os.path.abspath(__file__)), ".."))

MOST_IN_A_CELL = 240
FIRST_SECTION_THAT_IS_DEFINED = 2
# The papers that tell how the project came about, and the one that says what the requests' names mean.
HISTORY = ("docs/CHANGES/", "CHANGELOG.md", "docs/SCOPE.md")

faults = []


def fault(where, what):
    faults.append(f"{where}: {what}")


def the_files():
    """Every file of the repository that is text, by its name."""
    names = subprocess.run(["git", "ls-files", "-co", "--exclude-standard"], capture_output=True, text=True, check=True).stdout.split("\n")
    texts = {}
    for name in sorted(set(filter(os.path.isfile, names))):
        try:
            with open(name, encoding="utf-8") as file:
                texts[name] = file.read()
        except UnicodeDecodeError:
            pass
    return texts


def folded(text):
    return " ".join(text.split())


# ---- The rules, and who cites them ----


def the_rules(scope):
    """The text of each rule by its number, up to the next rule or heading."""
    rules = {}
    for found in re.finditer(r"^\*\*(\d+\.\d+)\*\* (.*?)(?=^\*\*\d+\.\d+\*\* |^## |\Z)", scope, re.M | re.S):
        if found[1] in rules:
            fault("docs/SCOPE.md", f"rule {found[1]} is there twice")
        rules[found[1]] = folded(found[2]).replace("*", "")
    last = {}
    for number in rules:
        section, place = map(int, number.split("."))
        if place != last.get(section, 0) + 1:
            fault("docs/SCOPE.md", f"rule {number} does not follow rule {section}.{last.get(section, 0)}")
        last[section] = place
    return rules


NUMBER = r"\d+(?:\.\d+)?"
CITED = re.compile(rf"SCOPE[ \n]+({NUMBER}(?:(?:,| and| to| or|, and)[ \n]+{NUMBER})*)")


def citations(text):
    """The numbers that a text cites, ranges spelled out, with the place of each; a whole section by its number alone."""
    for found in CITED.finditer(text):
        words = re.findall(rf"{NUMBER}|to", found[1])
        for i, word in enumerate(words):
            if word == "to":
                first, end = words[i - 1], words[i + 1]
                if "." in first and "." in end and first.split(".")[0] == end.split(".")[0]:
                    section, low = map(int, first.split("."))
                    for place in range(low + 1, int(end.split(".")[1])):
                        yield f"{section}.{place}", found.start()
                elif "." not in first and "." not in end:
                    for section in range(int(first) + 1, int(end)):
                        yield str(section), found.start()
                else:
                    yield f"{first} to {end}", found.start()
            else:
                yield word, found.start()


def line_of(text, place):
    return text.count("\n", 0, place) + 1


def plain(text):
    """A text whose comments' marks and line ends are gone, so that a citation that is broken over two lines is found; places stay the same."""
    return re.sub(r"\n[ \t]*(--|//|#|\*)", lambda mark: "\n" + " " * (len(mark[0]) - 1), text)


def check_citations(files, rules):
    cited_in_crates = set()
    sections = {number.split(".")[0] for number in rules}
    count = 0
    for name, text in files.items():
        if name == "docs/check.py":
            continue
        for number, place in citations(plain(text)):
            count += 1
            if number not in rules and number not in sections:
                fault(f"{name}:{line_of(text, place)}", f"there is no rule {number} in docs/SCOPE.md")
            elif name.startswith("crates/"):
                cited_in_crates.add(number)
    for number in rules:
        if int(number.split(".")[0]) >= FIRST_SECTION_THAT_IS_DEFINED and number not in cited_in_crates:
            fault("docs/SCOPE.md", f"nothing in crates/ cites rule {number}")
    return count


def comment_blocks(text):
    """The comments of a definitions' file: the words of each block of lines, and its first line."""
    block, begin = [], 0
    for number, line in enumerate(text.split("\n") + [""], 1):
        found = re.match(r"\s*-- ?(.*)$", line)
        if found:
            if not block:
                begin = number
            block.append(found[1])
        elif block:
            yield begin, folded(" ".join(block))
            block = []


def check_quotations(files, rules):
    count = 0
    for name, text in files.items():
        if not re.match(r"crates/[^/]*/specs/.*\.antt$", name):
            continue
        for line, words in comment_blocks(text):
            told = [rules.get(number, "") for number, _ in citations(words)]
            without_code = re.sub(r"`[^`]*`", "``", words)
            for quotation in re.findall(r'"([^"]*)"', without_code):
                count += 1
                pieces = [piece.strip() for piece in re.split(r" ?\.\. ?", quotation)]
                if not any(all(re.sub(r"`[^`]*`", "``", piece) in re.sub(r"`[^`]*`", "``", rule) for piece in pieces) for rule in told):
                    fault(f"{name}:{line}", f'no rule that is cited there says "{quotation}"')
    return count


# ---- The papers ----


def slug(heading):
    """The anchor of a heading, as it is made of Markdown."""
    heading = re.sub(r"\[([^\]]*)\]\([^)]*\)", r"\1", heading).replace("`", "").replace("*", "")
    return re.sub(r"[^\w\- ]", "", heading.strip().lower()).replace(" ", "-")


def anchors(text):
    seen = {}
    for heading in re.findall(r"^#+ (.*)$", text, re.M):
        name = slug(heading)
        seen[name] = seen.get(name, -1) + 1
        yield name if seen[name] == 0 else f"{name}-{seen[name]}"


def without_blocks(text):
    """A paper whose blocks of code are blanked out."""
    return re.sub(r"^```.*?^```", lambda block: "\n" * block[0].count("\n"), text, flags=re.M | re.S)


def check_links(files):
    count = 0
    for name, text in files.items():
        if not name.endswith(".md"):
            continue
        for found in re.finditer(r"\]\(([^)\s]+)\)", without_blocks(text)):
            target, _, anchor = found[1].partition("#")
            if re.match(r"[a-z]+:", target):
                continue
            count += 1
            path = os.path.normpath(os.path.join(os.path.dirname(name), target)) if target else name
            if not os.path.exists(path):
                fault(f"{name}:{line_of(text, found.start())}", f"there is no {path}")
            elif anchor and anchor not in anchors(files.get(path, "")):
                fault(f"{name}:{line_of(text, found.start())}", f"{path} has no heading #{anchor}")
    return count


def check_named_files(files):
    """Files of the crates that a paper names, from the root or from crates/ on."""
    count = 0
    for name, text in files.items():
        if not name.endswith(".md") or name.startswith(HISTORY[:2]):
            continue
        for found in re.finditer(r"`((?:crates/)?\w+/(?:specs|proofs|src|must-fail)/[\w/.]*)`", text):
            if "NAME" in found[1]:
                continue
            count += 1
            path = found[1] if found[1].startswith("crates/") else f"crates/{found[1]}"
            if not os.path.exists(path):
                fault(f"{name}:{line_of(text, found.start())}", f"there is no {path}")
    return count


def check_cells(files):
    longest = 0
    for name, text in files.items():
        if not name.endswith(".md"):
            continue
        for number, line in enumerate(without_blocks(text).split("\n"), 1):
            if line.startswith("|"):
                for cell in re.split(r"(?<!\\)\|", line.strip().strip("|")):
                    shown = re.sub(r"\]\([^)]*\)", "]", cell.strip())
                    longest = max(longest, len(shown))
                    if len(shown) > MOST_IN_A_CELL:
                        fault(f"{name}:{number}", f"a cell has {len(shown)} characters: {shown[:60]}..")
    return longest


def check_edits(files):
    """Every edit is named in docs/PROMISES.md once, as `crate/edit`, and their number is said."""
    text = files["docs/PROMISES.md"]
    edits = {f"{found[1]}/{found[2]}" for found in (re.match(r"crates/(\w+)/must-fail/(\w+)\.edit$", name) for name in files) if found}
    named = set(re.findall(r"`(\w+/\w+)`", text))
    for edit in sorted(edits):
        times = text.count(f"`{edit}`")
        if times != 1:
            fault("docs/PROMISES.md", f"the edit {edit} is named {times} times")
    if f"There are {len(edits)} edits" not in text:
        fault("docs/PROMISES.md", f"it does not say that there are {len(edits)} edits")
    crates = {edit.split("/")[0] for edit in edits}
    for edit in sorted(named - edits):
        if edit.split("/")[0] in crates and not os.path.exists(f"crates/{edit}"):
            fault("docs/PROMISES.md", f"there is no edit {edit}")
    return len(edits)


OTHER_PAPERS = re.compile(r"\b[Dd]ocument(?:s)? 0[0-9]|\b[Ss]ource 00[0-9]|\bW-2[01][0-9]\b|\b(?:of|in|and|by) 00[01]\b")


def check_other_papers(files):
    for name, text in files.items():
        if name.startswith(HISTORY) or name == "docs/check.py":
            continue
        for found in OTHER_PAPERS.finditer(text):
            fault(f"{name}:{line_of(text, found.start())}", f"a paper that is not here: {found[0]}")


def check(files):
    """What was counted in these files, in words; what is wrong is in faults."""
    faults.clear()
    rules = the_rules(files["docs/SCOPE.md"])
    cited = check_citations(files, rules)
    quoted = check_quotations(files, rules)
    linked = check_links(files)
    named = check_named_files(files)
    longest = check_cells(files)
    edits = check_edits(files)
    check_other_papers(files)
    return (
        f"{len(rules)} rules, cited {cited} times, quoted {quoted} times; {linked} links and {named} names of files; "
        f"{edits} edits; no cell over {longest} characters"
    )


# ---- The check itself: each of these makes one file wrong, in memory, and must be seen ----

SEGMENTS = "crates/player_segments/specs/Segments.antt"
WRONG = (
    (SEGMENTS, "SCOPE 10.2", "SCOPE 10.99", "there is no rule 10.99"),
    (SEGMENTS, "greatest start not above", "greatest start above", "no rule that is cited there says"),
    ("docs/SCOPE.md", "**10.2** ", "**10.1** ", "rule 10.1 is there twice"),
    ("docs/SCOPE.md", "**10.2** ", "**10.20** ", "rule 10.20 does not follow rule 10.1"),
    ("docs/SCOPE.md", "\n## 11 ", "\n**10.10** A rule that nothing cites.\n\n## 11 ", "nothing in crates/ cites rule 10.10"),
    ("README.md", "(docs/SCOPE.md)", "(docs/SCOPES.md)", "there is no docs/SCOPES.md"),
    ("docs/SCOPE.md", "(../README.md#glossary)", "(../README.md#words)", "README.md has no heading #words"),
    ("README.md", "/proofs/Apart.antt`", "/proofs/Asunder.antt`", "there is no crates/desk_history/proofs/Asunder.antt"),
    ("README.md", "| you want to |", "| " + "long " * 60 + "|", "a cell has 299 characters"),
    ("docs/PROMISES.md", "`player_moves/always_success`", "`player_moves/always`", "the edit player_moves/always_success is named 0 times"),
    ("docs/PROMISES.md", "`player_moves/always_success`", "`player_moves/always`", "there is no edit player_moves/always"),
    ("README.md", "# Mantelhona", "# Mantelhona, by document 01", "a paper that is not here: document 01"),
)


def check_the_check(files):
    for name, right, wrong, seen in WRONG:
        if right not in files[name]:
            sys.exit(f"docs/check.py: {name} has no {right!r} that could be made wrong")
        check({**files, name: files[name].replace(right, wrong, 1)})
        if not any(seen in what for what in faults):
            sys.exit(f"docs/check.py: {wrong!r} in {name} is not seen")


def main():
    files = the_files()
    counted = check(files)
    if faults:
        print("\n".join(faults))
        print(f"{len(faults)} things are wrong in the papers")
        sys.exit(1)
    check_the_check(files)
    print(f"{counted}; {len(WRONG)} wrong papers seen")


main()
