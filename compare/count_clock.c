#include "count_clock.h"
#include "clock.h"
#include "count_services.h"
#include "tell.h"
#include "words.h"

/* Steps of the clock in Playing. Where position + d is below D, the track would not end at speed 0. */
enum {
    SLOW_WITH_REST,
    FAST_WITH_REST,
    AT_0_WITH_REST, /* which is the one before */
    REST_ALONE,     /* no whole hundredth, and the rest grows */
    CARRIED,        /* a hundredth more than the time alone gives */
    OF_NO_TIME,     /* with a rest */
    JUST_MISSED,    /* with a hundredth of time more the track would end */
    JUST_REACHED,   /* with a hundredth of time less it would not */
    BY_THE_REST,    /* without the rest it would not */
    BEFORE_ITS_TIME,
    PAST_ITS_TIME,
    OF_0_AT_END,   /* with a rest */
    OVER_THE_MOST, /* more than 8,640,000 whole hundredths */
    OVER_32_BITS,  /* so many that they would not reach the end if they had 32 bits */
    HELD,          /* a running recording comes to 8,640,000, with a rest */
    HELD_STILL,    /* and stays there */
    CLOCK_STEPS
};

/* Where a track's end leads from a rest. */
enum { TO_ANOTHER, ONTO_ITSELF, PAUSED_AT_END, ENDS };

/* Advances that are no step of the clock within a track. */
enum { WHILE_PAUSED, WHILE_INACTIVE, WHILE_HELD, WHILE_SEEKING, AT_AN_END, ADVANCES };

/* Writes of 7 that move nothing. */
enum { NEGATIVE_ON_RUNNING, WRITTEN_INACTIVE, IDLE_WRITES };

enum { KEPT, CLEARED, CLEARED_IN_PLACE, FATES };       /* in place: where track and position are what they were */
enum { OF_65536, BEYOND_65536, IN_LOW_OCTETS, OVERS }; /* the last would be right without its upper two octets, and not 0 */

static unsigned long by_step[MCS_SERVICES][CLOCK_STEPS], by_end[MCS_SERVICES][ENDS];
static unsigned long by_call[FATES][CALLS], by_characteristic[FATES][CHARACTERISTIC_BOUND], by_opcode[FATES][OPCODES];
static unsigned long by_advance[FATES][ADVANCES], by_result[5], by_idle_write[IDLE_WRITES];
static unsigned long over[MCS_SERVICES][CALLS], by_over[OVERS], with_most[MCS_SERVICES], while_inactive[MCS_SERVICES];
static unsigned long by_speed[256];

/* ---- 201 */

/* A state that would be right with another rest in one service. */
static void count_over(const run *r, const step *s)
{
    static ref_state mended;
    for (uint32_t k = 0; k < MCS_SERVICES; k++) {
        uint32_t rest = standing_in(r->octets, k).rest;
        if (rest < PARTS_OF_A_HUNDREDTH) {
            continue;
        }
        mended = r->second;
        mended.services[k].player.rest = 0;
        if (number_on(r, s, &mended, s->service) != MCS_BAD_STATE) {
            over[k][s->kind]++;
            by_over[OF_65536] += rest == PARTS_OF_A_HUNDREDTH;
            by_over[BEYOND_65536] += rest > PARTS_OF_A_HUNDREDTH;
            by_over[IN_LOW_OCTETS] += rest % PARTS_OF_A_HUNDREDTH != 0;
        }
    }
}

/* ---- Steps of the clock */

static void count_step(const tables *t, const step *s, const standing *was, const standing *is)
{
    unsigned long *counts = by_step[s->service];
    standing without = *was;
    uint64_t whole = parts_after(was, s->number) / PARTS_OF_A_HUNDREDTH;
    uint32_t duration = track_word(t, was->track, DURATION), end = end_of_track(duration);
    uint32_t in_time = (uint64_t)was->position + s->number < end;
    without.rest = 0;
    by_speed[(uint8_t)was->speed]++;
    counts[OVER_THE_MOST] += whole > MCS_MOST_DURATION;
    counts[OVER_32_BITS] += whole > UINT32_MAX && was->position + (whole & UINT32_MAX) < end;
    if (stays_below(t, was, s->number)) {
        counts[SLOW_WITH_REST] += was->speed < 0 && is->rest != 0;
        counts[FAST_WITH_REST] += was->speed > 0 && is->rest != 0;
        counts[AT_0_WITH_REST] += was->speed == 0 && s->number > 0 && is->rest != 0;
        counts[REST_ALONE] += whole == 0 && is->rest > was->rest;
        counts[CARRIED] += whole > parts_after(&without, s->number) / PARTS_OF_A_HUNDREDTH;
        counts[OF_NO_TIME] += s->number == 0 && was->rest != 0;
        counts[JUST_MISSED] += s->number < UINT32_MAX && !stays_below(t, was, s->number + 1u);
        counts[PAST_ITS_TIME] += 1u - in_time;
    } else if (duration == MCS_RUNNING) {
        counts[was->position == end ? HELD_STILL : HELD] += was->rest != 0;
    } else {
        counts[JUST_REACHED] += s->number > 0 && stays_below(t, was, s->number - 1u);
        counts[BY_THE_REST] += stays_below(t, &without, s->number) != 0;
        counts[BEFORE_ITS_TIME] += in_time;
        counts[OF_0_AT_END] += s->number == 0 && was->rest != 0;
        if (was->rest != 0) {
            by_end[s->service][is->media == MCS_PAUSED ? PAUSED_AT_END : is->track == was->track ? ONTO_ITSELF : TO_ANOTHER]++;
        }
    }
}

/* ---- A rest before the call: kept or not, by the call */

static uint32_t advanced_as(const tables *t, const standing *was)
{
    switch (was->media) {
    case MCS_INACTIVE:
        return WHILE_INACTIVE;
    case MCS_PAUSED:
        return WHILE_PAUSED;
    case MCS_SEEKING:
        return WHILE_SEEKING;
    default:
        return track_word(t, was->track, DURATION) == MCS_RUNNING ? WHILE_HELD : AT_AN_END;
    }
}

static void count_written(const tables *t, const step *s, const standing *was, uint32_t fate)
{
    uint32_t result;
    if (s->what != MCS_CONTROL_POINT) {
        by_characteristic[fate][s->what]++;
        if (s->what == MCS_POSITION && fate == KEPT) {
            by_idle_write[was->media == MCS_INACTIVE ? WRITTEN_INACTIVE : NEGATIVE_ON_RUNNING]++;
        }
        return;
    }
    result = result_of(t, s, was);
    if (result == MCS_RESULT_SUCCESS) {
        by_opcode[fate][opcode_place(s->octets[0])]++;
    } else {
        by_result[result] += fate == KEPT;
    }
}

static void count_fate(const tables *t, const step *s, const standing *was, const standing *is)
{
    int in_place =
        was->media != MCS_INACTIVE && is->media != MCS_INACTIVE && was->track == is->track && was->position == is->position;
    uint32_t fate = is->rest != 0 ? KEPT : in_place ? CLEARED_IN_PLACE : CLEARED;
    if (s->kind == ADVANCE) {
        if (fate_of_rest(t, s, was) != REST_CLOCKED) {
            by_advance[fate][advanced_as(t, was)]++;
        }
    } else if (s->kind == WRITE) {
        count_written(t, s, was, fate);
    } else {
        by_call[fate][s->kind]++;
    }
}

void count_clock(const run *r, const step *s)
{
    uint32_t number = r->second_said.number;
    if (number == MCS_BAD_STATE) {
        count_over(r, s);
    }
    for (uint32_t k = 0; number == 0 && k < MCS_SERVICES; k++) {
        standing was = standing_in(r->octets_before, k), is = standing_in(r->octets, k);
        if (has_service(s->kind) && s->service != k) {
            continue;
        }
        with_most[k] += s->kind != START && was.rest == PARTS_OF_A_HUNDREDTH - 1u;
        while_inactive[k] += s->kind != START && was.media == MCS_INACTIVE && was.rest != 0;
        if (s->kind == ADVANCE && was.media == MCS_PLAYING) {
            count_step(&r->lent, s, &was, &is);
        }
        if (was.rest != 0) {
            count_fate(&r->lent, s, &was, &is);
        }
    }
}

/* ---- Rows */

static void tell_over(void)
{
    for (uint32_t service = 0; service < MCS_SERVICES; service++) {
        row("201 for the rest of service %u", (unsigned)service);
        for (uint32_t kind = SET_NAME; has_state(kind); kind++) {
            tell(over[service][kind], 1, "%s", CALL_NAME[kind]);
        }
    }
    row("201 for a rest");
    tell(by_over[OF_65536], 1, "of 65,536");
    tell(by_over[BEYOND_65536], 1, "beyond");
    tell(by_over[IN_LOW_OCTETS], 1, "whose lower two octets are a rest");
    for (uint32_t service = 0; service < MCS_SERVICES; service++) {
        row("rests that are right in service %u", (unsigned)service);
        tell(with_most[service], 1, "65,535");
        tell(while_inactive[service], 1, "not 0 while Inactive");
    }
}

static void tell_steps(void)
{
    static const char *const STEP[CLOCK_STEPS] = {[SLOW_WITH_REST] = "a rest left at a negative speed",
                                                  [FAST_WITH_REST] = "a rest left at a positive speed",
                                                  [AT_0_WITH_REST] = "a rest kept at speed 0",
                                                  [REST_ALONE] = "a rest that grows alone",
                                                  [CARRIED] = "a hundredth more by the rest",
                                                  [OF_NO_TIME] = "no time, with a rest",
                                                  [JUST_MISSED] = "an end missed by a hundredth of time",
                                                  [JUST_REACHED] = "an end reached by a hundredth of time",
                                                  [BY_THE_REST] = "an end reached by the rest",
                                                  [BEFORE_ITS_TIME] = "an end though position + d is below D",
                                                  [PAST_ITS_TIME] = "no end though position + d is not below D",
                                                  [OF_0_AT_END] = "an end by no time, with a rest",
                                                  [OVER_THE_MOST] = "more than 8,640,000",
                                                  [OVER_32_BITS] = "more than 32 bits, few in them",
                                                  [HELD] = "held at 8,640,000 with a rest",
                                                  [HELD_STILL] = "held there again with a rest"};
    static const char *const END[ENDS] = {"at another track", "at the same one", "Paused at D"};
    unsigned long rarest = by_speed[0];
    for (uint32_t k = 0; k < 256; k++) {
        rarest = by_speed[k] < rarest ? by_speed[k] : rarest;
    }
    row("steps of the clock");
    tell(rarest, 1, "at the rarest of the 256 speeds");
    for (uint32_t service = 0; service < MCS_SERVICES; service++) {
        row("steps of the clock in service %u", (unsigned)service);
        for (uint32_t k = 0; k < CLOCK_STEPS; k++) {
            tell(by_step[service][k], 1, "%s", STEP[k]);
        }
        row("a rest gone at a track's end in service %u", (unsigned)service);
        for (uint32_t k = 0; k < ENDS; k++) {
            tell(by_end[service][k], 1, "%s", END[k]);
        }
    }
}

/* Play, Pause, Fast Rewind and Fast Forward keep it, and so does a Goto Segment 0; all others clear it. A neighbouring group is never
 * the current one. */
static unsigned long can_be(uint8_t opcode, uint32_t fate)
{
    switch (fate) {
    case KEPT:
        return opcode < MCS_OPCODE_STOP || opcode == MCS_OPCODE_GOTO_SEGMENT;
    case CLEARED:
        return opcode >= MCS_OPCODE_STOP;
    default:
        return opcode >= MCS_OPCODE_STOP && opcode != MCS_OPCODE_PREVIOUS_GROUP && opcode != MCS_OPCODE_NEXT_GROUP;
    }
}

static unsigned long call_can_be(uint32_t kind, uint32_t fate)
{
    int clears = kind == START || kind == ACTIVATE || kind == DEACTIVATE;
    return (unsigned long)(fate == KEPT               ? !clears && kind != ADVANCE && kind != WRITE
                           : fate == CLEARED_IN_PLACE ? kind == ACTIVATE
                                                      : clears);
}

static unsigned long written_can_be(uint32_t characteristic, uint32_t fate)
{
    switch (characteristic) {
    case MCS_POSITION:
        return 1;
    case MCS_TRACK_OBJECT:
    case MCS_GROUP_OBJECT:
        return fate != KEPT;
    case MCS_PLAYBACK_SPEED:
    case MCS_NEXT_TRACK_OBJECT:
    case MCS_PLAYING_ORDER:
        return fate == KEPT;
    default:
        return 0;
    }
}

static void tell_fates(void)
{
    static const char *const FATE[FATES] = {"kept", "cleared", "cleared where the position stays"};
    static const char *const ADVANCED[ADVANCES] = {"while Paused", "while Inactive", "a recording that is held",
                                                   "a step in Seeking", "a track's end"};
    for (uint32_t fate = 0; fate < FATES; fate++) {
        row("a rest %s", FATE[fate]);
        for (uint32_t kind = 0; has_state(kind); kind++) {
            tell(by_call[fate][kind], call_can_be(kind, fate), "%s", CALL_NAME[kind]);
        }
        for (uint32_t k = 0; k < ADVANCES; k++) {
            tell(by_advance[fate][k], (k < WHILE_SEEKING) == (fate == KEPT), "%s", ADVANCED[k]);
        }
        for (uint32_t c = 0; c < CHARACTERISTIC_BOUND; c++) {
            tell(by_characteristic[fate][c], written_can_be(c, fate), "write of %u", (unsigned)c);
        }
        for (uint32_t k = 0; k < OPCODES; k++) {
            tell(by_opcode[fate][k], can_be(OPCODE[k], fate), "%s", mcs_opcode_words(OPCODE[k]));
        }
    }
    row("a rest kept by results");
    for (uint32_t result = MCS_RESULT_NOT_SUPPORTED; result <= MCS_RESULT_NOT_COMPLETED; result++) {
        tell(by_result[result], 1, "%u", (unsigned)result);
    }
    row("a rest kept by a write of 7");
    tell(by_idle_write[NEGATIVE_ON_RUNNING], 1, "a negative one on a running recording");
    tell(by_idle_write[WRITTEN_INACTIVE], 1, "one while Inactive");
}

void tell_clock(void)
{
    tell_over();
    tell_steps();
    tell_fates();
}
