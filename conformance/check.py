#!/usr/bin/env python3
"""Runs the conformance program and holds what it prints, the suite's cases (suite.txt) and docs/CONFORMANCE.md together.

    check.py [--suite TEXT] COMMAND [ARGUMENT ...]

Every case of the suite has one row of the page, with its name and items. A row is two cases, one of MCS and one of GMCS. A case
applies where the page's table of answers says yes to each of its items. Then the program has run it, once, on the core's service
that the header has for it (MCS_GENERIC for GMCS, MCS_NAMED for MCS), with an expectation at least, and has printed the row's verdict,
file and function. Where an answer is no, the row says so with the answer's reason, and the program has not run it. The answer is
yes for the characteristics and opcodes that the header has, and for no others.

A choice that a verdict names is printed by the program, with its number, words and rules. It has a row in the page's table of
choices, with the same, and a heading with the same number and words. The row names the cases whose verdicts name the choice.
Numbers in the page are those of the run. With --suite, TEXT is the suite's own text, and suite.txt must say the same.

Exit 1 and a line for each difference, or exit 0 and one line."""
import collections
import pathlib
import re
import subprocess
import sys

HERE = pathlib.Path(__file__).resolve().parent
CASES = 234  # of MCS.TS.p5
TCID = r"G?MCS/SR(?:/[A-Z]+)+/B[VI]-\d+-C"
RUN = re.compile(r"(%s) (.+) \[service (\d+), (\S+) (\w+), (\d+) expectations\]" % TCID)
SERVICES = {"MCS": "MCS_NAMED", "GMCS": "MCS_GENERIC"}  # the front of a TCID to the service's name in the header
CHOICES, NOT = "the project's choice", "does not apply"
NAMED = re.compile(r"%s: (\d+(?:, \d+)*)" % CHOICES)  # a verdict that names choices
CHOICE = re.compile(r"choice (\d+): (.+) \((SCOPE [^()]+)\)")  # what the program prints of one
KINDS = ("pass", CHOICES, "pass in part", NOT)

differences = []


def differs(what, *values):
    differences.append(what % values)


def once(table, key, value, where):
    if key in table:
        differs("%s: twice %s", key, where)
    table[key] = value


def the_text(name):
    return (HERE / name).read_text(encoding="utf-8")


def the_header_numbers():
    """The numbers of include/mcs.h by their names."""
    return dict(re.findall(r"^#define (MCS_\w+) (\d+)u", the_text("../include/mcs.h"), re.MULTILINE))


def the_suite():
    """The cases: TCID to items and name."""
    suite = {}
    for line in the_text("suite.txt").splitlines():
        if not line.startswith("#"):
            tcid, items, name = line.split("\t")
            once(suite, tcid, (items, name), "in suite.txt")
    if len(suite) != CASES:
        differs("suite.txt has %d cases, and the suite %d", len(suite), CASES)
    return suite


def compare_suite(suite, text):
    """suite.txt says what the suite's text does."""
    said = {}
    names = dict(re.findall(r"(%s) \[([^\]]+)\]" % TCID, text))
    for items, cases in re.findall(r"^(MCS \d+/\d+[^\t]*)\t[^\t]*\t(.*)$", text, re.MULTILINE):
        for tcid in re.findall(TCID, cases):
            once(said, tcid, (items.replace("MCS ", "").replace(" AND ", " and "), names[tcid]), "in the suite's mapping table")
    for tcid in sorted(said.keys() | suite.keys()):
        if said.get(tcid) != suite.get(tcid):
            differs("%s: suite.txt says %s, the suite %s", tcid, suite.get(tcid), said.get(tcid))


def the_run(command):
    """What the program prints: TCID to verdict and by what it was run; the choices, number to words and rules; the first line and
    the last."""
    ended = subprocess.run(command, stdout=subprocess.PIPE, text=True)
    lines = ended.stdout.splitlines() or [""]
    run, choices = {}, {}
    numbers = the_header_numbers()
    for line in lines[1:-1]:
        match, choice = RUN.fullmatch(line), CHOICE.fullmatch(line)
        if choice is not None:
            once(choices, choice[1], choice.group(2, 3), "among the choices of the run")
        elif match is None or match[3] != numbers[SERVICES[match[1].split("/")[0]]] or match[6] == "0":
            differences.append(line)
        else:
            once(run, match[1], (match[2], "`%s` `%s`" % match.group(4, 5)), "in the run")
    if ended.returncode != 0 or not lines[-1].startswith("%d cases, 0 failures, " % len(run)):
        differs("the program ended with %d: %s", ended.returncode, lines[-1])
    return run, choices, lines[0], lines[-1]


def the_tables(text):
    """The tables of the page: heading cells to rows of cells."""
    found = collections.defaultdict(list)
    heading = None
    for line in text.splitlines():
        cells = tuple(cell.strip() for cell in line.strip("|").split("|"))
        if not line.startswith("|"):
            heading = None
        elif heading is None:
            heading = cells
        elif set("".join(cells)) != {"-"}:
            found[heading].append(cells)
    return found


def the_answers(suite, rows):
    """ICS item to None for yes, or the reason for no; of the generic service the same, with 20 added to the table's number."""
    answers = {}
    for items, _, answer in rows:
        if answer != "yes" and not answer.startswith("no: "):
            differs("%s: neither yes nor no: %s", items, answer)
        for part in items.split(", "):
            table, first, last = re.fullmatch(r"(\d+)/(\d+)(?: to \1/(\d+))?", part).groups()
            for number in range(int(first), int(last or first) + 1):
                for added in (0, 20):
                    once(answers, "%d/%d" % (int(table) + added, number), answer[4:] or None, "answered")
    asked = {item for items, _ in suite.values() for item in items.split(" and ")}
    if answers.keys() != asked:
        differs("items without an answer, or answers that no case asks for: %s", sorted(answers.keys() ^ asked))
    return answers


def compare_header(suite, answers):
    """The answer is yes for what the header has. Of the cases on characteristics the n-th is on that of the standard, 3.n, whose
    number is n here; the items 3/n are the opcodes, in the order of their bits."""
    header = the_text("../include/mcs_desk.h")
    numbers = the_header_numbers()
    characteristics = {int(numbers[name]) for name in re.findall(r"ROW\((MCS_\w+), MCS_MAY", header)}
    opcodes = len(re.findall(r"ROW\(MCS_OPCODE_", header))
    there = {items: int(number) in characteristics
             for tcid, (items, _) in suite.items() for number in re.findall(r"CHA/BV-(\d+)", tcid)}
    there.update((item, int(item.split("/")[1]) <= opcodes) for item in answers if item.split("/")[0] in ("3", "23"))
    for item, is_there in there.items():
        if is_there != (answers.get(item, "") is None):
            differs("%s: the header %s it, and the answer is the other", item, "has" if is_there else "does not have")


def the_rows(rows):
    """The two cases of each row: TCID to items, name, verdict and by what it was run. The items are those of MCS and of GMCS. There
    is one name for both, or that of MCS and that of GMCS."""
    written = {}
    for tcid, name, *items, verdict, run_by in rows:
        names = name.split(" / ")
        if len(items) != len(SERVICES) or len(names) not in (1, len(SERVICES)):
            differs("%s: not a row of two cases: %s, %s", tcid, name, items)
            continue
        for service, its_items, its_name in zip(SERVICES, items, names * len(SERVICES)):
            once(written, "%s/%s" % (service, tcid), (its_items, its_name, verdict, run_by), "in the page")
    return written


def compare_rows(suite, written, answers, run):
    """Each case has its row, which follows from its items, their answers and the run. The verdicts of the rows."""
    for tcid in sorted(suite.keys() | written.keys() | run.keys()):
        if tcid not in suite or tcid not in written:
            differs("%s: no case of suite.txt" if tcid in written else "%s: no row", tcid)
            continue
        items, name, verdict, run_by = written[tcid]
        reasons = [answers[item] for item in suite[tcid][0].split(" and ") if answers.get(item)]
        if (items, name) != suite[tcid]:
            differs("%s: the row says %s, suite.txt %s", tcid, (items, name), suite[tcid])
        if reasons and tcid in run:
            differs("%s: run, and by the answers it does not apply", tcid)
        elif reasons and (verdict not in ["%s: %s" % (NOT, reason) for reason in reasons] or run_by != "–"):
            differs("%s: by the answers it does not apply: %s; the row says %s, %s", tcid, " or ".join(reasons), verdict, run_by)
        elif not reasons and tcid not in run:
            differs("%s: by the answers it applies, and it was not run", tcid)
        elif not reasons and run[tcid] != (verdict, run_by):
            differs("%s: the row says %s, the run %s", tcid, (verdict, run_by), run[tcid])
    return {tcid: verdict for tcid, (_, _, verdict, _) in written.items()}


def the_named_cases(cases):
    """The cases of a row of the table of choices, which are written as in 'MCP/BV-30 to -32, -34, SP/BV-02'."""
    named = set()
    group = None
    for part in cases.split(", "):
        match = re.fullmatch(r"(\w+/B[VI])?-(\d+)(?: to -(\d+))?", part)
        group = match and (match[1] or group)
        if not group:
            differs("not understood among the cases of a choice: %s", part)
            break
        named.update("%s-%02d" % (group, number) for number in range(int(match[2]), int(match[3] or match[2]) + 1))
    return named


def compare_choices(verdicts, choices, rows, text):
    """Each choice that a verdict names is printed by the program, and each that is printed is named. It has a row, with the same
    words and rules, and a heading, with the same words; and the row names the cases whose verdicts name it."""
    named = collections.defaultdict(set)
    for tcid, verdict in verdicts.items():
        match = NAMED.fullmatch(verdict)
        if match is None and CHOICES in verdict:
            differs("%s: no choices: %s", tcid, verdict)
        for number in match[1].split(", ") if match else ():
            named[number].add(re.search(r"\w+/B[VI]-\d+", tcid)[0])
    written, explained, headings = {}, {}, {}
    for number, words, rules, cases in rows:
        once(written, number, (words, rules), "among the choices of the page")
        explained[number] = the_named_cases(cases)
    for number, words in re.findall(r"^### Choice (\d+): (.*)$", text, re.MULTILINE):
        once(headings, number, words, "among the headings of choices")
    for number in sorted(named.keys() | choices.keys() | written.keys() | headings.keys(), key=int):
        said = choices.get(number, (None, None))
        if written.get(number) != said or headings.get(number) != said[0]:
            differs("choice %s: the run says %s, the table %s, the heading %s", number, said, written.get(number), headings.get(number))
        if named.get(number) != explained.get(number):
            differs("choice %s: named by %s, explained for %s", number, sorted(named.get(number, ())), sorted(explained.get(number, ())))


def main(arguments):
    suite = the_suite()
    if arguments[:1] == ["--suite"]:
        compare_suite(suite, pathlib.Path(arguments[1]).read_text(encoding="utf-8"))
        arguments = arguments[2:]
    if not arguments:
        sys.exit(__doc__)
    run, choices, first, last = the_run(arguments)

    text = the_text("../docs/CONFORMANCE.md")
    tables = the_tables(text)
    answers = the_answers(suite, tables[("ICS item", "what it is", "answer")])
    compare_header(suite, answers)
    written = the_rows(tables[("TCID", "case", "MCS items", "GMCS items", "verdict", "run by")])
    verdicts = compare_rows(suite, written, answers, run)
    compare_choices(verdicts, choices, tables[("choice", "what the core does", "rules", "cases")], text)

    counts = collections.Counter(verdict.split(": ")[0] for verdict in verdicts.values())
    counted = {kind: str(counts[kind]) for kind in (*KINDS, *counts)} | {"all": str(len(verdicts))}
    summary = {kind: number for kind, number, _ in tables[("verdict", "cases", "meaning")]}
    if summary != counted:
        differs("the page counts %s, and its rows are %s", summary, counted)
    for line in (first, last):
        if "`%s`" % line not in text:
            differs("the run prints what the page does not quote: %s", line)

    print(*(differences or ["%d cases of the suite, each with its row; run: %s" % (len(suite), last)]), sep="\n")
    sys.exit(1 if differences else 0)


if __name__ == "__main__":
    main(sys.argv[1:])
