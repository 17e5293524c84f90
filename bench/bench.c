/* The proved library beside the second program, as gcc and as clang build it, call by call, in one run.
 *
 *     bench WHERE [REPETITIONS]                      times every row, and prints the report in Markdown; WHERE is the machine's name
 *     bench once ROW library|gcc|clang TIMES         makes the call of a row so many times, for an instruction counter or a profiler;
 *                                                    ROW is its number, or 'all' for one row after the other
 */
#define _POSIX_C_SOURCE 199309L /* clock_gettime */

#include <stdio.h>
#include <stdlib.h>
#include <string.h>
#include <time.h>

#include "rival.h"
#include "rows.h"

#define MOST_REPETITIONS 99u
#define BATCH_NS 4e6

static table rows;
static volatile uint32_t numbers; /* keeps what a batch adds up */

static double now(void)
{
    struct timespec t;
    clock_gettime(CLOCK_MONOTONIC, &t);
    return (double)t.tv_sec * 1e9 + (double)t.tv_nsec;
}

/* ---- What is timed: the library; the second program by each compiler; and by clang, the library's own back end, behind octets */

enum { LIBRARY, BY_GCC, BY_CLANG, BEHIND_OCTETS, TIMED };

static const struct {
    const char *name;
    uint32_t (*make)(const call *);
    int on_octets;
} PROGRAMS[TIMED] = {
    {"library", call_library, 1}, {"gcc", gcc_call, 0}, {"clang", clang_call, 0}, {"clang behind octets", clang_lent_call, 1}};

/* Nanoseconds that so many calls take. Before each, the state is put back: about the same octets for every program. */
static double batch(const row *r, uint32_t times, uint32_t which)
{
    static answers handed_back;
    const void *before = PROGRAMS[which].on_octets ? (const void *)r->before.octets : (const void *)&r->before.state;
    size_t octets = PROGRAMS[which].on_octets ? sizeof r->before.octets : sizeof r->before.state;
    desk state;
    call c = lend(r->made, &state, &handed_back);
    uint32_t sum = 0;
    double began;
    began = now();
    for (uint32_t k = 0; k < times; k++) {
        memcpy(&state, before, octets);
        sum += PROGRAMS[which].make(&c);
    }
    numbers = sum;
    return now() - began;
}

/* Nanoseconds a call, the best of the batches. The programs take turns, batch by batch, so that whatever else the machine does
 * falls on all. */
static void time_row(const row *r, uint32_t repetitions, double best[TIMED])
{
    uint32_t times = 1;
    while (batch(r, times, LIBRARY) + batch(r, times, BY_GCC) < BATCH_NS) {
        times *= 2u;
    }
    for (uint32_t k = 0; k < repetitions; k++) {
        for (uint32_t turn = 0; turn < TIMED; turn++) {
            const uint32_t which = (turn + k) % TIMED;
            const double took = batch(r, times, which) / times;
            best[which] = k == 0 || took < best[which] ? took : best[which];
        }
    }
}

static struct {
    size_t within; /* rows at most 1.00 */
    double highest;
    const row *slowest;
} beside[TIMED];
static size_t timed;

static void print_row(const row *r, uint32_t repetitions)
{
    double best[TIMED];
    time_row(r, repetitions, best);
    printf("| %s | %s | %.0f |", r->name, r->lent->name, best[LIBRARY]);
    for (uint32_t k = BY_GCC; k < TIMED; k++) {
        const double ratio = best[LIBRARY] / best[k];
        printf(" %.0f | %.2f |", best[k], ratio);
        beside[k].within += ratio <= 1.0;
        if (ratio > beside[k].highest) {
            beside[k].highest = ratio;
            beside[k].slowest = r;
        }
    }
    printf("\n");
    fflush(stdout);
    timed += 1u;
}

/* The rows of one table of the report. Every one is first made once by all programs, which must agree. */
static void print_rows(const char *title, const char *on, size_t from, size_t to, uint32_t repetitions)
{
    printf(
        "\n%s\n\n| call | %s | library, ns | C by gcc, ns | ratio | C by clang, ns | ratio | C by clang behind octets, ns | ratio |\n"
        "|---|---|---:|---:|---:|---:|---:|---:|---:|\n",
        title, on);
    for (size_t k = from; k < to; k++) {
        if (!row_agrees(&rows.rows[k])) {
            fprintf(stderr, "bench: the programs differ in '%s' on '%s'\n", rows.rows[k].name, rows.rows[k].lent->name);
            exit(1);
        }
        print_row(&rows.rows[k], repetitions);
    }
}

/* ---- The rows */

static size_t calls_end, text_end, sheets_end;

/* A catalogue that shows how cost grows: so many of each table, and its card. */
typedef struct {
    const char *name;
    uint32_t groups, tracks, segments, text;
    enum letters letters;
} size;

static const size SIZES[] = {
    {"empty", 0, 0, 0, 0, ASCII},
    {"16 groups", 16, 0, 0, 0, ASCII},
    {"64 groups", 64, 0, 0, 0, ASCII},
    {"1 group, 64 tracks", 1, 64, 0, 0, ASCII},
    {"1 group, 256 tracks", 1, 256, 0, 0, ASCII},
    {"1 group, 1 track, 256 segments", 1, 1, 256, 0, ASCII},
    {"1 group, 1 track, 1,024 segments", 1, 1, 1024, 0, ASCII},
    {"1 group, 64 tracks, 8,192 octets, ASCII", 1, 64, 0, 8192, ASCII},
    {"1 group, 256 tracks, 32,768 octets, ASCII", 1, 256, 0, 32768, ASCII},
    {"1 group, 64 tracks, 8,192 octets, mixed", 1, 64, 0, 8192, MIXED},
    {"1 group, 256 tracks, 32,768 octets, mixed", 1, 256, 0, 32768, MIXED},
    {"a quarter of all, ASCII", 16, 64, 256, 8192, ASCII},
    {"half of all, ASCII", 32, 128, 512, 16384, ASCII},
    {"full, ASCII", 64, 256, 1024, 32768, ASCII},
    {"a quarter of all, mixed", 16, 64, 256, 8192, MIXED},
    {"half of all, mixed", 32, 128, 512, 16384, MIXED},
    {"full, mixed", 64, 256, 1024, 32768, MIXED},
};
#define SIZES_COUNT (sizeof SIZES / sizeof SIZES[0])

static void make_rows(void)
{
    static catalogue whole[4], renamed[2], grown[SIZES_COUNT];
    make_sample(&whole[0]);
    make_even(&whole[1], "full, ASCII", 64, 256, 1024, 32768, ASCII);
    make_even(&whole[2], "full, mixed", 64, 256, 1024, 32768, MIXED);
    make_uneven(&whole[3], "full, uneven");
    for (size_t k = 0; k < 4u; k++) {
        add_calls(&rows, &whole[k]);
        if (k == 0) {
            add_speeds(&rows, &whole[k]);
        }
        if (k == 0 || k == 3u) {
            add_gotos(&rows, &whole[k]);
        }
        if (k == 3u) {
            add_group_gotos(&rows, &whole[k]);
        }
    }
    make_renamed(&renamed[0], "full, ASCII, all tracks renamed", ASCII);
    make_renamed(&renamed[1], "full, mixed, all tracks renamed", MIXED);
    for (size_t k = 0; k < 2u; k++) {
        add_renamed(&rows, &renamed[k]);
    }
    calls_end = rows.count;
    add_text_checks(&rows);
    text_end = rows.count;
    add_cue_sheets(&rows);
    sheets_end = rows.count;
    for (size_t k = 0; k < SIZES_COUNT; k++) {
        const size *s = &SIZES[k];
        make_even(&grown[k], s->name, s->groups, s->tracks, s->segments, s->text, s->letters);
        add_check(&rows, &grown[k]);
    }
    for (size_t k = 0; k < SIZES_COUNT; k++) {
        if (SIZES[k].groups > 1u && SIZES[k].text > 0 && SIZES[k].letters == ASCII) {
            add_card_load(&rows, &grown[k]);
        }
    }
}

static void report(const char *where, uint32_t repetitions)
{
    char date[16];
    time_t today = time(NULL);
    strftime(date, sizeof date, "%Y-%m-%d", gmtime(&today));
    printf("%s, %s: best of %u batches, the programs in turn, the second program at -O3.\n", where, date, repetitions);
    print_rows("Calls", "catalogue", 0, calls_end, repetitions);
    print_rows("Text check (no call is the check alone: set name, no catalogue, the name before is empty)", "catalogue",
               calls_end, text_end, repetitions);
    print_rows("Cue sheets", "sheet", text_end, sheets_end, repetitions);
    print_rows("Growth with the tables (catalogue check: deactivate while Inactive; card load)", "catalogue", sheets_end,
               rows.count, repetitions);
    printf("\n");
    for (uint32_t k = BY_GCC; k < TIMED; k++) {
        printf("Beside C by %s: %zu of %zu rows at most 1.00; highest %.2f (%s, %s).\n", PROGRAMS[k].name, beside[k].within,
               timed, beside[k].highest, beside[k].slowest->name, beside[k].slowest->lent->name);
    }
}

static int once(const char *which, const char *program, const char *times)
{
    const int all = strcmp(which, "all") == 0;
    size_t k = (size_t)strtoul(which, NULL, 10);
    const size_t end = all ? rows.count : k + 1u;
    uint32_t n = (uint32_t)strtoul(times, NULL, 10);
    if (k >= rows.count) {
        fprintf(stderr, "bench: rows are 0 to %zu\n", rows.count - 1u);
        return 2;
    }
    for (uint32_t p = 0; p < TIMED; p++) {
        if (strcmp(program, PROGRAMS[p].name) == 0) {
            for (; k < end; k++) {
                fprintf(stderr, "%s, %s\n", rows.rows[k].name, rows.rows[k].lent->name);
                (void)batch(&rows.rows[k], n, p);
            }
            return 0;
        }
    }
    fprintf(stderr, "bench: there is no program %s\n", program);
    return 2;
}

int main(int count, char **words)
{
    unsigned long repetitions = count == 3 ? strtoul(words[2], NULL, 10) : 15;
    make_rows();
    if (count == 5 && strcmp(words[1], "once") == 0) {
        return once(words[2], words[3], words[4]);
    }
    if (count < 2 || count > 3 || repetitions < 1 || repetitions > MOST_REPETITIONS) {
        fprintf(stderr, "usage: bench WHERE [REPETITIONS, 1 to %u] | bench once ROW PROGRAM TIMES\n", MOST_REPETITIONS);
        return 2;
    }
    report(words[1], (uint32_t)repetitions);
    return 0;
}
