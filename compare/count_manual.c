#include "count_manual.h"
#include "clock.h"
#include "manual.h"
#include "order.h"
#include "tell.h"
#include "words.h"

enum { OUTCOMES = MCS_RESULT_NOT_COMPLETED + 1 };

/* The steps that are allowed, beside the amount of the number. */
enum { NONE_OF_SOME, FEWER, ONE_LESS, AS_MANY, ONE_MORE, MANY_MORE, NONE_OF_NONE, SOME_OF_NONE, RELATIONS };

/* The number, beside the places that a Goto runs over. */
enum { IS_0, TO_THE_END, WITHIN, TO_THE_OTHER_END, ONE_BEYOND, BEYOND, FARTHEST, NUMBERS_BY_PLACES };
enum { UPWARD, DOWNWARD, WAYS };

/* The steps that are allowed, beside the one that cannot be made. */
enum { BEFORE_THE_STOP, AT_THE_STOP, BEHIND_THE_STOP, STOPS };

/* Opcodes that are no Goto. */
enum { OTHER_OPCODE, NO_OPCODE, GOTO_WITH_MORE, ELSE_OVER_255, NO_GOTOS };

/* What becomes of the place. */
enum {
    REST_TOLD,          /* not 0, by an outcome that moves nothing */
    REST_TOLD_INACTIVE, /* the same while Inactive */
    REST_GONE,          /* by steps */
    REST_STAYS_AT_0,    /* by Goto Segment 0 */
    REST_GOES_AT_0,     /* by Goto Track 0 and Goto Group 0 */
    ANOTHER_TRACK_AT_0, /* by Goto Group 0, which enters its group anew */
    PLACE_CASES
};

/* A next track that is named, which a Goto Track does not use. */
enum { NAMED_ELSEWHERE, NAMED_AT_THE_END, NAMED_AT_0, NAMED_AND_ANOTHER_OUTCOME, NAMED_CASES };

/* Goto Segment in a track that is known, and in a recording that is still running. */
enum { TO_D, STAYS_AT_D, STAYS_AT_FIRST, KNOWN_CASES };
enum { RUNNING_UP, RUNNING_DOWN, RUNNING_STOPS, RUNNING_BARE_STOPS, RUNNING_RUNS_OUT, RUNNING_CASES };

static unsigned long by_outcome[MCS_SERVICES][GOTOS][OUTCOMES], by_relation[GOTOS][OUTCOMES][RELATIONS],
    written[GOTOS][OUTCOMES];
static unsigned long by_number[GOTOS][WAYS][NUMBERS_BY_PLACES], by_stop[GOTOS][WAYS][STOPS], by_media[GOTOS][4];
static unsigned long by_opcode[OPCODES], by_no_goto[NO_GOTOS], not_in_mask[GOTOS][2], by_order[9][WAYS][OUTCOMES],
    round_in[9][WAYS];
static unsigned long by_place[GOTOS][PLACE_CASES], by_name[NAMED_CASES], in_known[KNOWN_CASES], in_running[RUNNING_CASES];
static unsigned long longest[GOTOS], far_number_stops[GOTOS];

/* ---- Gotos that a player cannot begin */

static void count_no_goto(uint32_t opcode)
{
    if (opcode > 255) {
        by_no_goto[runs_over(opcode & 255u) != NO_GOTO ? GOTO_WITH_MORE : ELSE_OVER_255]++;
    } else {
        by_no_goto[opcode_place((uint8_t)opcode) < OPCODES ? OTHER_OPCODE : NO_OPCODE]++;
    }
}

/* ---- Steps */

static uint32_t relation_of(uint32_t amount, uint32_t allowed)
{
    if (amount == 0) {
        return allowed == 0 ? NONE_OF_NONE : SOME_OF_NONE;
    }
    return allowed == 0             ? NONE_OF_SOME
           : allowed == amount      ? AS_MANY
           : allowed + 1u == amount ? ONE_LESS
           : allowed == amount + 1u ? ONE_MORE
           : allowed < amount       ? FEWER
                                    : MANY_MORE;
}

/* 2,147,483,647 and -2,147,483,648 are the farthest. */
static uint32_t number_by_places(uint32_t number, uint32_t places)
{
    uint32_t amount = amount_of(number);
    return number == 0x7FFFFFFFu || number == 0x80000000u ? FARTHEST
           : amount == 0                                  ? IS_0
           : amount == 1                                  ? TO_THE_END
           : amount < places                              ? WITHIN
           : amount == places                             ? TO_THE_OTHER_END
           : amount == places + 1u                        ? ONE_BEYOND
                                                          : BEYOND;
}

static void count_stop(const tables *t, const step *s, const standing *p, uint32_t over, uint32_t way)
{
    uint32_t stop = stop_of(t, p, over, s->number);
    if (amount_of(s->number) >= stop) {
        by_stop[over][way][BEFORE_THE_STOP] += s->allowed + 1u == stop;
        by_stop[over][way][AT_THE_STOP] += s->allowed == stop;
        by_stop[over][way][BEHIND_THE_STOP] += s->allowed > stop;
        far_number_stops[over] += amount_of(s->number) == 0x80000000u && s->allowed >= 0x80000000u;
    }
}

static void count_place(const step *s, const answer *a, const standing *p, uint32_t over)
{
    unsigned long *counts = by_place[over];
    if (p->rest == 0) {
        return;
    }
    if (a->made[MADE_OUTCOME] != MCS_RESULT_SUCCESS) {
        counts[p->media == MCS_INACTIVE ? REST_TOLD_INACTIVE : REST_TOLD]++;
    } else if (s->number != 0) {
        counts[REST_GONE]++;
    } else {
        counts[over == OVER_SEGMENTS ? REST_STAYS_AT_0 : REST_GOES_AT_0]++;
        counts[ANOTHER_TRACK_AT_0] += a->place[PLACE_TRACK] != p->track;
    }
}

/* A name is seen not to be used where the first Next would lead elsewhere by it; and at the end of a list, where it would lead on. */
static void count_named(const tables *t, const step *s, const answer *a, const standing *p)
{
    uint32_t first, amount = amount_of(s->number);
    if (p->next == 0) {
        return;
    }
    if (a->made[MADE_OUTCOME] == MCS_RESULT_SUCCESS && s->number == 0) {
        by_name[NAMED_AT_0]++;
    } else if (a->made[MADE_OUTCOME] == MCS_RESULT_SUCCESS && amount > 1 && signed_of(s->number) > 0) {
        first = track_after(t, p->group, p->track, p->order, MCS_OPCODE_GOTO_TRACK, 2);
        by_name[NAMED_ELSEWHERE] += first != p->next - 1u;
    } else if (a->made[MADE_OUTCOME] == MCS_RESULT_NOT_COMPLETED) {
        by_name[NAMED_AT_THE_END] += signed_of(s->number) > 0;
    } else {
        by_name[NAMED_AND_ANOTHER_OUTCOME]++;
    }
}

static void count_tracks(const tables *t, const step *s, const answer *a, const standing *p, uint32_t way)
{
    by_order[p->order][way][a->made[MADE_OUTCOME]]++;
    round_in[p->order][way] +=
        a->made[MADE_OUTCOME] == MCS_RESULT_SUCCESS && amount_of(s->number) > places_of(t, p, OVER_TRACKS);
    count_named(t, s, a, p);
}

static void count_segments(const tables *t, const step *s, const answer *a, const standing *p, uint32_t way)
{
    uint32_t amount = amount_of(s->number), places = places_of(t, p, OVER_SEGMENTS);
    int made = a->made[MADE_OUTCOME] == MCS_RESULT_SUCCESS && amount > 0;
    if (!is_running(t, p)) {
        in_known[TO_D] += made && way == UPWARD && amount == places + 1u;
        in_known[STAYS_AT_D] += made && way == UPWARD && amount > places + 1u;
        in_known[STAYS_AT_FIRST] += made && way == DOWNWARD && amount > places;
        return;
    }
    in_running[RUNNING_UP] += made && way == UPWARD;
    in_running[RUNNING_DOWN] += made && way == DOWNWARD && amount > places;
    if (a->made[MADE_OUTCOME] == MCS_RESULT_NOT_COMPLETED) {
        in_running[track_word(t, p->track, SEGMENT_COUNT) == 0 ? RUNNING_BARE_STOPS : RUNNING_STOPS]++;
    }
    in_running[RUNNING_RUNS_OUT] += a->made[MADE_OUTCOME] == MCS_RAN_OUT;
}

void count_manual(const run *r, const step *s)
{
    const tables *t = &r->lent;
    const answer *a = &r->second_said;
    standing p = standing_in(r->octets, s->service);
    uint32_t over = runs_over(s->what), outcome = a->made[MADE_OUTCOME], way = signed_of(s->number) < 0 ? DOWNWARD : UPWARD;
    if (s->what <= 255 && opcode_place((uint8_t)s->what) < OPCODES) {
        by_opcode[opcode_place((uint8_t)s->what)]++;
    }
    if (over == NO_GOTO) {
        count_no_goto(s->what);
        return;
    }
    by_outcome[s->service][over][outcome]++;
    written[over][outcome] += is_written_too(s) != 0;
    count_place(s, a, &p, over);
    if (outcome == MCS_RESULT_NOT_SUPPORTED) {
        not_in_mask[over][p.media == MCS_INACTIVE]++;
    }
    if (outcome == MCS_RESULT_NOT_SUPPORTED || outcome == MCS_RESULT_INACTIVE) {
        return;
    }
    by_media[over][p.media]++;
    by_relation[over][outcome][relation_of(amount_of(s->number), s->allowed)]++;
    by_number[over][way][number_by_places(s->number, places_of(t, &p, over))]++;
    longest[over] = a->made[MADE_STEPS] > longest[over] ? a->made[MADE_STEPS] : longest[over];
    count_stop(t, s, &p, over, way);
    if (over == OVER_TRACKS) {
        count_tracks(t, s, a, &p, way);
    } else if (over == OVER_SEGMENTS) {
        count_segments(t, s, a, &p, way);
    }
}

/* ---- Rows */

static const char *const GOTO_NAME[GOTOS] = {"Goto Segment", "Goto Track", "Goto Group"};
static const char *const WAY[WAYS] = {"upward", "downward"};

/* All steps are made where as many are allowed, or more; they run out where fewer are; and a stop comes before the last step, or is
 * that one, so that it can come with any allowance that is not 0. */
static unsigned long relation_can_be(uint32_t outcome, uint32_t relation)
{
    switch (outcome) {
    case MCS_RESULT_SUCCESS:
        return relation >= AS_MANY;
    case MCS_RAN_OUT:
        return relation <= ONE_LESS;
    default:
        return relation > NONE_OF_SOME && relation < NONE_OF_NONE;
    }
}

static void tell_outcomes(void)
{
    static const char *const RELATION[RELATIONS] = {"none",     "fewer",     "one less",   "as many",
                                                    "one more", "many more", "none for 0", "some for 0"};
    static const uint32_t WITH_STEPS[3] = {MCS_RAN_OUT, MCS_RESULT_SUCCESS, MCS_RESULT_NOT_COMPLETED};
    for (uint32_t k = 0; k < MCS_SERVICES * GOTOS; k++) {
        row("manual %s in service %u, by outcome", GOTO_NAME[k % GOTOS], (unsigned)(k / GOTOS));
        for (uint32_t outcome = 0; outcome < OUTCOMES; outcome++) {
            tell(by_outcome[k / GOTOS][k % GOTOS][outcome], 1, "%s", mcs_outcome_words(outcome));
        }
    }
    for (uint32_t k = 0; k < GOTOS * 3u; k++) {
        row("manual %s with the outcome '%s', by the steps allowed", GOTO_NAME[k / 3u], mcs_outcome_words(WITH_STEPS[k % 3u]));
        for (uint32_t relation = 0; relation < RELATIONS; relation++) {
            tell(by_relation[k / 3u][WITH_STEPS[k % 3u]][relation], relation_can_be(WITH_STEPS[k % 3u], relation), "%s",
                 RELATION[relation]);
        }
    }
    for (uint32_t over = 0; over < GOTOS; over++) {
        row("manual %s held against a write, by outcome", GOTO_NAME[over]);
        for (uint32_t outcome = 0; outcome < OUTCOMES; outcome++) {
            tell(written[over][outcome], outcome != MCS_RAN_OUT, "%s", mcs_outcome_words(outcome));
        }
        row("manual %s with steps, by the state", GOTO_NAME[over]);
        for (uint32_t media = 0; media <= MCS_SEEKING; media++) {
            tell(by_media[over][media], media != MCS_INACTIVE, "%s", mcs_media_state_words(media));
        }
    }
}

/* No step downward over segments is one that cannot be made. */
static void tell_numbers_and_stops(void)
{
    static const char *const NUMBER[NUMBERS_BY_PLACES] = {"0",          "to the end", "within",  "to the other end",
                                                          "one beyond", "beyond",     "farthest"};
    static const char *const STOP[STOPS] = {"one step short of it", "up to it", "beyond it"};
    for (uint32_t k = 0; k < GOTOS * WAYS; k++) {
        uint32_t over = k / WAYS, way = k % WAYS;
        row("manual %s %s, by number", GOTO_NAME[over], WAY[way]);
        for (uint32_t number = 0; number < NUMBERS_BY_PLACES; number++) {
            tell(by_number[over][way][number], way == UPWARD || number != IS_0, "%s", NUMBER[number]);
        }
        if (over == OVER_SEGMENTS && way == DOWNWARD) {
            continue;
        }
        row("manual %s %s to a stop, by the steps allowed", GOTO_NAME[over], WAY[way]);
        for (uint32_t stop = 0; stop < STOPS; stop++) {
            tell(by_stop[over][way][stop], 1, "%s", STOP[stop]);
        }
    }
    row("manual Gotos of -2,147,483,648 that stop, with as many steps allowed");
    for (uint32_t over = 0; over < GOTOS; over++) {
        tell(far_number_stops[over], over != OVER_SEGMENTS, "%s", GOTO_NAME[over]);
    }
    row("the most steps of a manual Goto");
    for (uint32_t over = 0; over < GOTOS; over++) {
        tell(longest[over], over == OVER_GROUPS ? 10 : 1000, "%s", GOTO_NAME[over]);
    }
}

static void tell_opcodes(void)
{
    static const char *const NO_GOTO_NAME[NO_GOTOS] = {"another opcode", "no opcode", "a Goto in the low octet",
                                                       "another over 255"};
    row("manual Gotos by opcode");
    for (uint32_t k = 0; k < OPCODES; k++) {
        tell(by_opcode[k], 1, "%s", mcs_opcode_words(OPCODE[k]));
    }
    row("manual Gotos with an opcode that is none");
    for (uint32_t k = 0; k < NO_GOTOS; k++) {
        tell(by_no_goto[k], 1, "%s", NO_GOTO_NAME[k]);
    }
    row("manual Gotos that are not in the mask");
    for (uint32_t over = 0; over < GOTOS; over++) {
        tell(not_in_mask[over][0], 1, "%s", GOTO_NAME[over]);
        tell(not_in_mask[over][1], 1, "while Inactive");
    }
}

/* Past an end comes the other end in a repeat order, else result 4 (SCOPE 11.5). */
static void tell_tracks(void)
{
    static const char *const NAMED[NAMED_CASES] = {"elsewhere than the steps lead", "where they stop", "at Goto Track 0",
                                                   "and another outcome"};
    for (uint32_t k = 0; k < 8u * WAYS; k++) {
        uint32_t order = 1u + k / WAYS, way = k % WAYS, repeats = order % 2u == 0;
        row("manual Goto Track %s in order %u", WAY[way], (unsigned)order);
        tell(by_order[order][way][MCS_RESULT_SUCCESS], 1, "made");
        tell(round_in[order][way], repeats, "made past the end");
        tell(by_order[order][way][MCS_RESULT_NOT_COMPLETED], 1u - repeats, "stopped");
        tell(by_order[order][way][MCS_RAN_OUT], 1, "ran out");
    }
    row("manual Goto Track with a named next track");
    for (uint32_t k = 0; k < NAMED_CASES; k++) {
        tell(by_name[k], 1, "%s", NAMED[k]);
    }
}

static void tell_segments(void)
{
    static const char *const KNOWN[KNOWN_CASES] = {"to D", "staying at D", "staying at 0"};
    static const char *const IN_RUNNING[RUNNING_CASES] = {"made upward", "made downward, beyond the first", "stopped",
                                                          "stopped without segments", "ran out"};
    row("manual Goto Segment in a known track");
    for (uint32_t k = 0; k < KNOWN_CASES; k++) {
        tell(in_known[k], 1, "%s", KNOWN[k]);
    }
    row("manual Goto Segment in a running recording");
    for (uint32_t k = 0; k < RUNNING_CASES; k++) {
        tell(in_running[k], 1, "%s", IN_RUNNING[k]);
    }
}

static unsigned long place_can_be(uint32_t over, uint32_t place)
{
    switch (place) {
    case REST_STAYS_AT_0:
        return over == OVER_SEGMENTS;
    case REST_GOES_AT_0:
        return over != OVER_SEGMENTS;
    case ANOTHER_TRACK_AT_0:
        return over == OVER_GROUPS;
    default:
        return 1;
    }
}

void tell_manual(void)
{
    static const char *const PLACE[PLACE_CASES] = {
        "told where nothing moves",   "told while Inactive", "gone by steps", "kept by 0", "gone by 0",
        "gone by 0, at another track"};
    tell_outcomes();
    tell_numbers_and_stops();
    tell_opcodes();
    tell_tracks();
    tell_segments();
    for (uint32_t over = 0; over < GOTOS; over++) {
        row("a rest and a manual %s", GOTO_NAME[over]);
        for (uint32_t k = 0; k < PLACE_CASES; k++) {
            tell(by_place[over][k], place_can_be(over, k), "%s", PLACE[k]);
        }
    }
}
