/* The cases of the Media Control Service's test suite (MCS.TS.p5) that apply, run against the library through its C interface.
 *
 *   conformance              runs all: a line for each case, its TCID and its verdict, or the first thing that failed; then a
 *                            line for each choice that a verdict names; then 'N cases, M failures, L expectations'. Exit 1
 *                            where M is not 0.
 *   conformance TCID ...     runs these.
 *   conformance --all ...    tells everything that fails, on standard error.
 *
 * Before the cases the tester is shown wrong things, which it must see. docs/CONFORMANCE.md has every case of the suite in a
 * row, and explains every choice; check.py holds the two, and the list of the suite's cases, together. */
#include "cases.h"

#include <stdio.h>
#include <string.h>

static const struct tested_case *const families[] = {
    gatt_cases, playing_cases, position_cases, track_cases, group_cases, procedure_cases,
};

/* What the core does by each choice, and the rules that make it. A verdict names choices by their numbers, from 1. */
static const struct {
    const char *words, *rules;
} choices[CHOICES] = {
    [EQUAL_UNSENT] = {"an equal title, duration or Object ID is not sent", "SCOPE 18.1, 18.8"},
    [STAYING_UNSENT] = {"a Goto that leads to where the player is sends its result alone", "SCOPE 18.1, 18.2"},
    [STOPPED_AT_0] = {"a Stop at position 0 sends no Track Position", "SCOPE 18.1, 18.9"},
    [UNMOVED_UNSENT] = {"a write that leaves the position sends nothing", "SCOPE 18.1, 18.5"},
    [PAUSED_UNSENT] = {"step 14 sends no Track Position for being paused", "SCOPE 18.1, 18.9"},
    [LENT_UNSENT] = {"other titles that the office lends send nothing", "SCOPE 5.9, 17.14"},
    [SEEKING_GOES_ON] = {"Seeking goes on after the move", "SCOPE 9.10, 10.9"},
    [SINGLE_ORDERS] = {"in the orders 1 and 2 the current track is the whole list", "SCOPE 11.1"},
    [EMPTY_GROUPS] = {"groups without tracks are passed over", "SCOPE 12.1"},
    [EMPTY_LISTED] = {"a parent's object lists groups without tracks too", "SCOPE 7.3"},
    [TRACKS_BY_NUMBER] = {"an object lists tracks by number in the orders 5 to 8 too", "SCOPE 7.3, 11.1"},
    [LENGTH_FIRST] = {"a wrong length is refused (0x0D), without a result", "SCOPE 20.6"},
};

static struct tester t;

static void print_verdict(uint32_t verdict)
{
    const char *before = "the project's choice: ";
    if (verdict == PASS || verdict == IN_PART) {
        printf("%s", verdict == PASS ? "pass" : "pass in part: the declaration is the host's");
    }
    for (unsigned which = 0; which < CHOICES; which++) {
        if ((verdict & CHOICE(which)) != 0) {
            printf("%s%u", before, which + 1);
            before = ", ";
        }
    }
}

static void print_choices(uint32_t named)
{
    for (unsigned which = 0; which < CHOICES; which++) {
        if ((named & CHOICE(which)) != 0) {
            printf("choice %u: %s (%s)\n", which + 1, choices[which].words, choices[which].rules);
        }
    }
}

/* Whether it failed. */
static bool run(const char *tcid, const struct tested_case *c)
{
    t.opcode = c->opcode;
    t.initial = c->initial;
    t.cccds = c->cccds;
    c->run(&t);
    end_case(&t);
    if (t.failures == 0) {
        printf("%s ", tcid);
        print_verdict(c->verdict);
        printf(" [service %u, %s %s, %u expectations]\n", (unsigned)TESTED(&t), file_name(c->file), c->function,
               t.expectations);
    } else {
        printf("%s FAIL %s (%u failures)\n", tcid, t.first_failure, t.failures);
    }
    return t.failures != 0;
}

static bool named(const char *tcid, int count, char **names)
{
    for (int k = 0; k < count; k++) {
        if (strcmp(names[k], tcid) == 0) {
            return true;
        }
    }
    return count == 0;
}

int main(int argc, char **argv)
{
    const bool tell_all = argc > 1 && strcmp(argv[1], "--all") == 0;
    const int first = tell_all ? 2 : 1;
    unsigned cases = 0, failures = 0, expectations = 0, shown, seen;
    uint32_t verdicts = 0;

    shown = show_wrong_things(&t, &seen);
    printf("%u wrong things shown to the tester, %u seen\n", shown, seen);
    for (size_t f = 0; f < sizeof families / sizeof families[0]; f++) {
        for (const struct tested_case *c = families[f]; c->tcid != NULL; c++) {
            for (size_t s = 0; s < MCS_SERVICES; s++) {
                char tcid[64];
                (void)snprintf(tcid, sizeof tcid, "%s%s", SERVICE[s].tcid, c->tcid);
                if (named(tcid, argc - first, argv + first)) {
                    begin_case(&t, &SERVICE[s], tell_all);
                    cases++;
                    if (run(tcid, c)) {
                        failures++;
                    } else {
                        verdicts |= c->verdict;
                    }
                    expectations += t.expectations;
                }
            }
        }
    }
    print_choices(verdicts);
    printf("%u cases, %u failures, %u expectations\n", cases, failures, expectations);
    if (argc > first && cases != (unsigned)(argc - first)) {
        fprintf(stderr, "conformance: of %d cases that are named, %u are run here\n", argc - first, cases);
        return 2;
    }
    return failures == 0 && seen == shown ? 0 : 1;
}
