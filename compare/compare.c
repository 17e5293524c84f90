/* Compares the proved library with the second program, call by call.
 *
 *   compare CALLS [SEED]        the cases of the rules, then random trials until at least CALLS calls are made
 *   compare --trial SEED NUMBER one trial
 *   compare --office            a script from standard input on both; the library's lines on standard output
 *
 * Ends with 0 where nothing differs. At a difference it prints the seed and the trial, and a short list of calls that
 * differs too. From a million calls on, everything that can happen has to have happened. A seed gives the same calls on every
 * machine. */
#include "cases.h"
#include "count.h"
#include "guard.h"
#include "lend.h"
#include "office.h"
#include "print.h"
#include "shrink.h"
#include "wide.h"

#include <inttypes.h>
#include <stdlib.h>
#include <string.h>
#include <time.h>

#define USUAL_SEED 1u
#define ALL_FROM 1000000u
#define SECONDS_OF_A_TRIAL 120u
#define SECONDS_TO_SHRINK 60u
#define LAST_STEPS 12u /* shown of a trial that cannot be shrunk */

static run pair;
static trial drawn;
static char what_runs[64];

static int is_number(const char *text, uint64_t *to)
{
    char *end;
    *to = strtoull(text, &end, 10);
    return text[0] >= '0' && text[0] <= '9' && *end == 0;
}

/* Whether a trial shows no difference. */
static int trial_agrees(uint64_t seed, uint64_t number)
{
    int unshrinkable;
    uint32_t steps;
    unsigned long plays;
    snprintf(what_runs, sizeof what_runs, "seed %" PRIu64 ", trial %" PRIu64, seed, number);
    if (play_trial(seed, number, &drawn, &pair, &unshrinkable)) {
        return 1;
    }
    steps = drawn.count;
    printf("compare: DIFFERENCE: seed %" PRIu64 ", trial %" PRIu64 ", step %u, call %lu of the run: %s\n", seed, number,
           (unsigned)steps, calls_counted() + 1u, pair.difference);
    printf("to play it again: compare --trial %" PRIu64 " %" PRIu64 "\n", seed, number);
    fflush(stdout);
    if (unshrinkable) {
        print_trial(stdout, &drawn, &pair, LAST_STEPS);
        return 0;
    }
    plays = shrink_trial(&drawn, &pair, SECONDS_TO_SHRINK);
    printf("shrunk from %u steps to %u, playing %lu times\n", (unsigned)steps, (unsigned)drawn.count, plays);
    print_trial(stdout, &drawn, &pair, drawn.count);
    return 0;
}

static int compare_random(uint64_t calls, uint64_t seed)
{
    clock_t began = clock();
    uint64_t trials = 0;
    double seconds;
    int right;
    printf("compare: seed %" PRIu64 "\n", seed);
    fflush(stdout);
    while (calls_counted() < calls) {
        if (!trial_agrees(seed, trials++)) {
            return 1;
        }
    }
    seconds = (double)(clock() - began) / CLOCKS_PER_SEC;
    right = counts_are_right(stdout, calls >= ALL_FROM);
    printf("compare: seed %" PRIu64 ": %lu calls in %" PRIu64 " trials, %.1f seconds of processor time: %s\n", seed,
           calls_counted(), trials, seconds, right ? "no difference" : "no difference, but the counts are not right");
    return right ? 0 : 1;
}

static int compare_cases(void)
{
    static unsigned long (*const PLAYS[])(FILE *, run *) = {play_cases,   play_limits,       play_bad_blocks, play_bad_texts,
                                                            play_edges,   play_two_services, play_numbers,    play_entries,
                                                            play_renames, play_clock,        play_gotos,      play_quiet};
    unsigned long wrong = 0;
    strcpy(what_runs, "the cases of the rules");
    for (size_t k = 0; k < sizeof PLAYS / sizeof PLAYS[0]; k++) {
        wind_the_watch();
        wrong += PLAYS[k](stdout, &pair);
    }
    strcpy(what_runs, "lengths of more than 32 bits");
    wind_the_watch();
    wrong += play_wide_lengths(stdout);
    return wrong == 0 ? 0 : 1;
}

static int usage(void)
{
    fprintf(stderr, "usage: compare CALLS [SEED] | compare --trial SEED NUMBER | compare --office < SCRIPT\n");
    return 2;
}

int main(int argc, char **argv)
{
    uint64_t first, second = USUAL_SEED;
    prepare_lending();
    watch_for_faults(what_runs, SECONDS_OF_A_TRIAL);
    if (argc == 2 && strcmp(argv[1], "--office") == 0) {
        strcpy(what_runs, "the script");
        wind_the_watch();
        return play_office(stdin, stdout, stderr, &pair) == 0 ? 0 : 1;
    }
    if (argc == 4 && strcmp(argv[1], "--trial") == 0 && is_number(argv[2], &first) && is_number(argv[3], &second)) {
        if (!trial_agrees(first, second)) {
            return 1;
        }
        printf("compare: %s: no difference in %lu calls\n", what_runs, calls_counted());
        return 0;
    }
    if ((argc != 2 && argc != 3) || !is_number(argv[1], &first) || (argc == 3 && !is_number(argv[2], &second))) {
        return usage();
    }
    return compare_cases() != 0 ? 1 : compare_random(first, second);
}
