/* The manual's Goto. A comment that names a rule, such as SCOPE 18.2, says it in a few words; docs/SCOPE.md has the rule. */
#include "cases.h"
#include "expect.h"

#include <string.h>

#define LEAST (-2147483647 - 1)
#define MOST 2147483647
#define ALL_THERE_ARE 0xFFFFFFFFu

enum { SEGMENT = MCS_OPCODE_GOTO_SEGMENT, TRACK = MCS_OPCODE_GOTO_TRACK, GROUP = MCS_OPCODE_GOTO_GROUP };
enum {
    RAN_OUT = MCS_RAN_OUT,
    MADE = MCS_RESULT_SUCCESS,
    UNKNOWN = MCS_RESULT_NOT_SUPPORTED,
    STOPPED = MCS_RESULT_NOT_COMPLETED
};

/* Every player here has a rest, so that it is seen where one is told. */
enum { A_REST = 12 };

static void tells(uint32_t opcode, int64_t n, uint32_t allowed, uint32_t outcome, uint32_t steps)
{
    const answer *a = &both->library_said;
    step s = blank(MANUAL_GOTO);
    s.what = opcode;
    s.number = (uint32_t)n;
    s.allowed = allowed;
    makes(s, MCS_OK);
    expect("the outcome", a->made[MADE_OUTCOME], outcome);
    expect("the steps", a->made[MADE_STEPS], steps);
}

static void leads_to(uint32_t group, uint32_t track, uint32_t position, uint32_t rest)
{
    const uint32_t *place = both->library_said.place;
    expect("the group told", place[PLACE_GROUP], group);
    expect("the track told", place[PLACE_TRACK], track);
    expect("the position told", place[PLACE_POSITION], position);
    expect("the rest told", place[PLACE_REST], rest);
}

/* In group 1 of the sample, on that track at that position, with a rest. */
static void stand_with_rest(const char *what, uint8_t order, uint32_t track, uint32_t position)
{
    stand(what, order, track, position);
    poke_number(player_at(MCS_IN_REST), A_REST, 4);
}

/* ---- First or Last and then each step (SCOPE 15.1) */

typedef struct {
    const char *what;
    uint8_t order;
    uint32_t track, position;
    uint32_t opcode;
    int64_t n;
    uint32_t allowed, outcome, steps;
    uint32_t to_group, to_track, to_position, to_rest;
} walk;

/* Where nothing moves, it is told where the player stands. */
#define STAYS(track, position) 1, track, position, A_REST

static const walk WALKS[] = {
    /* Track 0 has 6,000 hundredths, and starts at 0, 1500 and 4000. */
    {"Goto Segment 1", 3, 0, 77, SEGMENT, 1, 1, MADE, 1, 1, 0, 0, 0},
    {"Goto Segment 3", 3, 0, 77, SEGMENT, 3, 3, MADE, 3, 1, 0, 4000, 0},
    {"Goto Segment 3 with a step to spare", 3, 0, 77, SEGMENT, 3, 4, MADE, 3, 1, 0, 4000, 0},
    {"Goto Segment 3 with a step too few", 3, 0, 77, SEGMENT, 3, 2, RAN_OUT, 2, STAYS(0, 77)},
    {"Goto Segment 3 with none", 3, 0, 77, SEGMENT, 3, 0, RAN_OUT, 0, STAYS(0, 77)},
    {"Goto Segment 4, to D", 3, 0, 77, SEGMENT, 4, 4, MADE, 4, 1, 0, 6000, 0},
    {"Goto Segment 7, at D", 3, 0, 77, SEGMENT, 7, 9, MADE, 7, 1, 0, 6000, 0},
    {"Goto Segment 7 with six", 3, 0, 77, SEGMENT, 7, 6, RAN_OUT, 6, STAYS(0, 77)},
    {"Goto Segment -1", 3, 0, 77, SEGMENT, -1, 1, MADE, 1, 1, 0, 4000, 0},
    {"Goto Segment -2", 3, 0, 77, SEGMENT, -2, 2, MADE, 2, 1, 0, 1500, 0},
    {"Goto Segment -3", 3, 0, 77, SEGMENT, -3, 3, MADE, 3, 1, 0, 0, 0},
    {"Goto Segment -9, at 0", 3, 0, 77, SEGMENT, -9, 9, MADE, 9, 1, 0, 0, 0},
    {"Goto Segment 2147483647", 3, 0, 77, SEGMENT, MOST, 1000, RAN_OUT, 1000, STAYS(0, 77)},
    {"Goto Segment -2147483648", 3, 0, 77, SEGMENT, LEAST, 1000, RAN_OUT, 1000, STAYS(0, 77)},
    {"Goto Segment 100000", 3, 0, 77, SEGMENT, 100000, 100000, MADE, 100000, 1, 0, 6000, 0},
    /* Goto Segment 0 moves nothing (SCOPE 10.7). */
    {"Goto Segment 0", 3, 0, 77, SEGMENT, 0, 0, MADE, 0, STAYS(0, 77)},
    {"Goto Segment 0 with many", 3, 0, 77, SEGMENT, 0, ALL_THERE_ARE, MADE, 0, STAYS(0, 77)},
    /* A track without segments is one segment from 0 (SCOPE 10.1). Track 1 has 300 hundredths. */
    {"Goto Segment 1 without segments", 3, 1, 250, SEGMENT, 1, 1, MADE, 1, 1, 1, 0, 0},
    {"Goto Segment 2 without segments", 3, 1, 250, SEGMENT, 2, 2, MADE, 2, 1, 1, 300, 0},
    {"Goto Segment -2 without segments", 3, 1, 250, SEGMENT, -2, 2, MADE, 2, 1, 1, 0, 0},
    {"Goto Segment 5 of a track of no time", 3, 2, 0, SEGMENT, 5, 5, MADE, 5, 1, 2, 0, 0},

    /* Group 1 has the tracks 0, 1 and 2; in order 5 they are 1, 2, 0, and in order 7 they are 0, 1, 2. */
    {"Goto Track 1", 3, 1, 55, TRACK, 1, 1, MADE, 1, 1, 0, 0, 0},
    {"Goto Track 3", 3, 1, 55, TRACK, 3, 3, MADE, 3, 1, 2, 0, 0},
    {"Goto Track 2, where it is", 3, 1, 55, TRACK, 2, 2, MADE, 2, 1, 1, 0, 0},
    {"Goto Track 3 with a step too few", 3, 1, 55, TRACK, 3, 2, RAN_OUT, 2, STAYS(1, 55)},
    {"Goto Track 4", 3, 1, 55, TRACK, 4, 4, STOPPED, 4, STAYS(1, 55)},
    {"Goto Track 4 with three", 3, 1, 55, TRACK, 4, 3, RAN_OUT, 3, STAYS(1, 55)},
    {"Goto Track 5 with four", 3, 1, 55, TRACK, 5, 4, STOPPED, 4, STAYS(1, 55)},
    {"Goto Track -3", 3, 1, 55, TRACK, -3, 3, MADE, 3, 1, 0, 0, 0},
    {"Goto Track -4", 3, 1, 55, TRACK, -4, ALL_THERE_ARE, STOPPED, 4, STAYS(1, 55)},
    {"Goto Track 2147483647", 3, 1, 55, TRACK, MOST, MOST, STOPPED, 4, STAYS(1, 55)},
    {"Goto Track -2147483648", 3, 1, 55, TRACK, LEAST, 0x80000000u, STOPPED, 4, STAYS(1, 55)},
    {"Goto Track -2147483648 with three", 3, 1, 55, TRACK, LEAST, 3, RAN_OUT, 3, STAYS(1, 55)},
    {"order 5 Goto Track 2", 5, 1, 55, TRACK, 2, 2, MADE, 2, 1, 2, 0, 0},
    {"order 5 Goto Track -1", 5, 1, 55, TRACK, -1, 1, MADE, 1, 1, 0, 0, 0},
    {"order 5 Goto Track -4", 5, 1, 55, TRACK, -4, 4, STOPPED, 4, STAYS(1, 55)},
    {"order 7 Goto Track 2", 7, 0, 55, TRACK, 2, 2, MADE, 2, 1, 1, 0, 0},
    {"order 4 Goto Track 4, round the end", 4, 1, 55, TRACK, 4, 4, MADE, 4, 1, 0, 0, 0},
    {"order 4 Goto Track -5, round the end", 4, 1, 55, TRACK, -5, 5, MADE, 5, 1, 1, 0, 0},
    {"order 6 Goto Track 6, round the end", 6, 1, 55, TRACK, 6, 6, MADE, 6, 1, 0, 0, 0},
    {"order 8 Goto Track -4, round the end", 8, 1, 55, TRACK, -4, 4, MADE, 4, 1, 2, 0, 0},
    {"order 4 Goto Track 100000", 4, 1, 55, TRACK, 100000, 100000, MADE, 100000, 1, 0, 0, 0},
    {"order 4 Goto Track 100000 with 99999", 4, 1, 55, TRACK, 100000, 99999, RAN_OUT, 99999, STAYS(1, 55)},
    {"order 4 Goto Track -2147483648", 4, 1, 55, TRACK, LEAST, 1000, RAN_OUT, 1000, STAYS(1, 55)},
    /* Orders 1 and 2 have the current track alone (SCOPE 11.1). */
    {"order 1 Goto Track 1", 1, 2, 0, TRACK, 1, 1, MADE, 1, 1, 2, 0, 0},
    {"order 1 Goto Track 2", 1, 1, 55, TRACK, 2, 2, STOPPED, 2, STAYS(1, 55)},
    {"order 1 Goto Track -2 with one", 1, 1, 55, TRACK, -2, 1, RAN_OUT, 1, STAYS(1, 55)},
    {"order 2 Goto Track 1000", 2, 1, 55, TRACK, 1000, 1000, MADE, 1000, 1, 1, 0, 0},
    /* 0 keeps the track, and the position becomes 0 (SCOPE 11.6, 11.7). */
    {"Goto Track 0", 3, 1, 55, TRACK, 0, 0, MADE, 0, 1, 1, 0, 0},
    {"order 1 Goto Track 0 with many", 1, 1, 55, TRACK, 0, ALL_THERE_ARE, MADE, 0, 1, 1, 0, 0},

    /* Of the groups of parent 0 only 1 and 3 have tracks; track 3 is group 3's. */
    {"Goto Group 1", 3, 2, 0, GROUP, 1, 1, MADE, 1, 1, 0, 0, 0},
    {"Goto Group 2", 3, 1, 55, GROUP, 2, 2, MADE, 2, 3, 3, 0, 0},
    {"Goto Group 2 with one", 3, 1, 55, GROUP, 2, 1, RAN_OUT, 1, STAYS(1, 55)},
    {"Goto Group 3", 3, 1, 55, GROUP, 3, 3, STOPPED, 3, STAYS(1, 55)},
    {"Goto Group 3 with two", 3, 1, 55, GROUP, 3, 2, RAN_OUT, 2, STAYS(1, 55)},
    {"Goto Group -1", 3, 1, 55, GROUP, -1, 1, MADE, 1, 3, 3, 0, 0},
    {"Goto Group -2", 3, 1, 55, GROUP, -2, 2, MADE, 2, 1, 0, 0, 0},
    {"Goto Group -3", 3, 1, 55, GROUP, -3, 4, STOPPED, 3, STAYS(1, 55)},
    /* Group moves do not repeat (SCOPE 12.2), in whichever order. */
    {"order 4 Goto Group 3", 4, 1, 55, GROUP, 3, 3, STOPPED, 3, STAYS(1, 55)},
    {"order 2 Goto Group -2147483648", 2, 1, 55, GROUP, LEAST, ALL_THERE_ARE, STOPPED, 3, STAYS(1, 55)},
    {"Goto Group 2147483647", 3, 1, 55, GROUP, MOST, MOST, STOPPED, 3, STAYS(1, 55)},
    {"order 5 Goto Group -2", 5, 2, 0, GROUP, -2, 2, MADE, 2, 1, 1, 0, 0},
    /* 0 keeps the group, and leads to its first track, at position 0 (SCOPE 12.2, 12.3); in orders 1 and 2 its lowest track comes
     * first (SCOPE 11.4). */
    {"Goto Group 0", 3, 1, 55, GROUP, 0, 0, MADE, 0, 1, 0, 0, 0},
    {"order 6 Goto Group 0", 6, 0, 55, GROUP, 0, 0, MADE, 0, 1, 1, 0, 0},
    {"order 1 Goto Group 0 with many", 1, 2, 0, GROUP, 0, ALL_THERE_ARE, MADE, 0, 1, 0, 0, 0},
};

/* Playing, Paused and Seeking, which play no part in it. */
static void walk_cases(void)
{
    for (size_t k = 0; k < sizeof WALKS / sizeof WALKS[0]; k++) {
        const walk *w = &WALKS[k];
        for (uint8_t media = MCS_PLAYING; media <= MCS_SEEKING; media++) {
            stand_with_rest(w->what, w->order, w->track, w->position);
            poke(player_at(MCS_IN_MEDIA_STATE), &media, 1);
            poke(player_at(MCS_IN_SEEKING), media == MCS_SEEKING ? "\4" : "\0", 1);
            tells(w->opcode, w->n, w->allowed, w->outcome, w->steps);
            leads_to(w->to_group, w->to_track, w->to_position, w->to_rest);
            expect("what the call left unchanged", both->unchanged, 1);
        }
    }
}

/* ---- Of a running recording Next Segment with no later start, and a Goto that needs it, have result 4 (SCOPE 10.4, 10.8) */

static void running_cases(void)
{
    static tables t;
    stand_with_rest("a running recording", 3, 0, 5000);
    sample_catalogue(&t);
    t.tracks[DURATION] = t.tracks[MCS_TRACK_WORDS + DURATION] = MCS_RUNNING;
    lend_tables(both, &t);
    tells(SEGMENT, 3, 3, MADE, 3);
    leads_to(1, 0, 4000, 0);
    tells(SEGMENT, 4, 4, STOPPED, 4);
    leads_to(1, 0, 5000, A_REST);
    tells(SEGMENT, 4, 3, RAN_OUT, 3);
    leads_to(1, 0, 5000, A_REST);
    tells(SEGMENT, MOST, ALL_THERE_ARE, STOPPED, 4);
    tells(SEGMENT, -1, 1, MADE, 1);
    leads_to(1, 0, 4000, 0);
    tells(SEGMENT, -5, 5, MADE, 5);
    leads_to(1, 0, 0, 0);
    tells(SEGMENT, 0, 0, MADE, 0);
    leads_to(1, 0, 5000, A_REST);
    poke_number(player_at(MCS_IN_TRACK), 1, 4);
    tells(SEGMENT, 1, 1, MADE, 1);
    leads_to(1, 1, 0, 0);
    tells(SEGMENT, 2, 2, STOPPED, 2);
    leads_to(1, 1, 5000, A_REST);
    tells(SEGMENT, 2, 1, RAN_OUT, 1);
    tells(SEGMENT, -2, 2, MADE, 2);
    leads_to(1, 1, 0, 0);
}

/* ---- A named track is for Next Track and the end of a track, and not for the steps of a Goto (SCOPE 11.8, 15.7) */

static void named_cases(void)
{
    static const uint8_t NAMED[MCS_OBJECT_OCTETS] = {0x02, 0x10}; /* track 2 */
    stand_with_rest("a next track that is named", 3, 0, 0);
    write_value(MCS_NEXT_TRACK_OBJECT, NAMED, sizeof NAMED);
    tells(TRACK, 2, 2, MADE, 2);
    leads_to(1, 1, 0, 0);
    tells(TRACK, 4, 4, STOPPED, 4);
    leads_to(1, 0, 0, A_REST);
    expect("the name", meant().next, 3);
    commands(MCS_OPCODE_NEXT_TRACK, 0, MCS_RESULT_SUCCESS);
    stands_at(1, 2, 0);
}

/* ---- Results 2 and 3 come first, with a count of 0 (SCOPE 15.3). */

static void result_cases(void)
{
    static const uint32_t NO_GOTO[] = {0,        0x01,     0x10,        0x20,        0x21,       0x22,  0x23,  0x25,
                                       0x30,     0x31,     0x32,        0x33,        0x35,       0x40,  0x41,  0x42,
                                       0x43,     0x45,     0xFF,        0x100,       0x124,      0x134, 0x144, 0x10024u,
                                       0x10034u, 0x10044u, 0x24000000u, 0x80000034u, 0xFFFFFFFFu};
    static const uint32_t OPCODES_AND_BITS[3][2] = {{SEGMENT, 10}, {TRACK, 15}, {GROUP, 20}};
    stand_with_rest("opcodes that are no Goto", 3, 0, 77);
    for (size_t k = 0; k < sizeof NO_GOTO / sizeof NO_GOTO[0]; k++) {
        for (int64_t n = -1; n <= 1; n++) {
            tells(NO_GOTO[k], n, 1, UNKNOWN, 0);
            leads_to(1, 0, 77, A_REST);
        }
    }
    for (uint32_t k = 0; k < 9; k++) {
        const uint32_t opcode = OPCODES_AND_BITS[k / 3u][0], bit = OPCODES_AND_BITS[k % 3u][1];
        int without = k / 3u == k % 3u;
        stand_with_rest("a Goto that is not in the mask, beside those that are", 3, 0, 77);
        poke_number(player_at(MCS_IN_MASK), MCS_ALL_OPCODES & ~(1u << bit), 4);
        tells(opcode, 1, 1, without ? UNKNOWN : MADE, without ? 0 : 1);
        tells(opcode, 0, 0, without ? UNKNOWN : MADE, 0);
        poke_number(player_at(MCS_IN_MASK), 1u << bit, 4);
        tells(opcode, 1, 0, without ? RAN_OUT : UNKNOWN, 0);
        poke_number(player_at(MCS_IN_MASK), 0xFFE00000u, 4); /* Higher mask bits count as 0 (SCOPE 9.2). */
        tells(opcode, 1, 1, UNKNOWN, 0);
        leads_to(1, 0, 77, A_REST);
    }
    for (uint32_t k = 0; k < 3; k++) {
        stand_with_rest("a Goto while Inactive", 3, 0, 77);
        makes(blank(DEACTIVATE), 0);
        tells(OPCODES_AND_BITS[k][0], 1, 1, MCS_RESULT_INACTIVE, 0);
        leads_to(0, 0, 0, 0);
        poke_number(player_at(MCS_IN_REST), A_REST, 4);
        tells(OPCODES_AND_BITS[k][0], 0, 0, MCS_RESULT_INACTIVE, 0);
        leads_to(0, 0, 0, A_REST);
        poke_number(player_at(MCS_IN_MASK), 0, 4);
        tells(OPCODES_AND_BITS[k][0], LEAST, ALL_THERE_ARE, UNKNOWN, 0);
        leads_to(0, 0, 0, A_REST);
    }
}

/* ---- 200, 224, 201, 219: each is told where those before it do not apply, also of what has no steps */

static void refusal_cases(void)
{
    static const uint32_t OPCODES_TRIED[4] = {SEGMENT, TRACK, GROUP, 0};
    static tables t;
    for (uint32_t k = 0; k < 4; k++) {
        step s = blank(MANUAL_GOTO);
        four_clients("a manual Goto with everything wrong");
        s.what = OPCODES_TRIED[k];
        s.number = 2;
        s.allowed = 1;
        s.service = MCS_SERVICES;
        poke_number(MCS_AT_TURN, MCS_CLIENTS, 4);
        sample_catalogue(&t);
        t.length[RENAMES]--;
        t.text[11] = 0xFF;
        lend_tables(both, &t);
        makes(s, MCS_BAD_CATALOGUE);
        carries(1, 1);
        sample_catalogue(&t);
        t.length[RENAMES]--;
        lend_tables(both, &t);
        makes(s, MCS_BAD_RENAMES);
        sample_catalogue(&t);
        lend_tables(both, &t);
        makes(s, MCS_BAD_STATE);
        poke_number(MCS_AT_TURN, 0, 4);
        makes(s, MCS_NO_SERVICE);
        s.service = 0xFFFFFFFFu;
        makes(s, MCS_NO_SERVICE);
        s.service = tried_service;
        makes(s, MCS_OK);
    }
}

static void cases_of_a_service(void)
{
    walk_cases();
    running_cases();
    named_cases();
    result_cases();
    refusal_cases();
}

static void all_gotos(void) { in_each_service(cases_of_a_service); }

unsigned long play_gotos(FILE *out, run *r) { return expect_on(r, out, all_gotos); }
