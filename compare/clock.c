#include "clock.h"
#include "order.h"
#include "words.h"

#include <string.h>

/* ---- A table of 256 entries gives e for each p from −128 to 127, the whole number with (2e−1)^64 ≤ 2^(1088+p) < (2e+1)^64
 * (SCOPE 13.2) */

/* Whole numbers of 1,216 bits, the lowest first: what is below 2^19 fits to the power 64, and so does 2^(1088 + 127). */
enum { WORDS = 38, LEAST_SPEED = -128, SPEEDS = 256, E_BOUND = 1 << 18 };

static void square(uint32_t words[WORDS])
{
    uint32_t product[WORDS] = {0};
    for (uint32_t k = 0; k < WORDS; k++) {
        uint64_t carried = 0;
        for (uint32_t j = 0; words[k] != 0 && j + k < WORDS; j++) {
            carried += (uint64_t)words[k] * words[j] + product[k + j];
            product[k + j] = (uint32_t)carried;
            carried >>= 32;
        }
    }
    memcpy(words, product, sizeof product);
}

/* Whether 2 to a power is less than an odd number above 1 to the power 64. That one is no power of 2, and so it is the greater one
 * where it has any bit from there up. */
static int power_is_less(uint32_t power, uint32_t odd)
{
    uint32_t words[WORDS] = {odd}, any;
    for (uint32_t k = 0; k < 6; k++) {
        square(words);
    }
    any = words[power / 32u] >> power % 32u;
    for (uint32_t k = power / 32u + 1u; k < WORDS; k++) {
        any |= words[k];
    }
    return any != 0;
}

/* The least e that the upper bound lets be; so the one below it breaks that bound, which is the lower one of e. */
static uint32_t least_e(uint32_t power)
{
    uint32_t least = 1, most = E_BOUND - 1u;
    while (least < most) {
        uint32_t middle = (least + most) / 2u;
        if (power_is_less(power, 2u * middle + 1u)) {
            most = middle;
        } else {
            least = middle + 1u;
        }
    }
    return least;
}

uint32_t e_of(int speed)
{
    static uint32_t e[SPEEDS];
    for (uint32_t k = 0; e[SPEEDS - 1] == 0 && k < SPEEDS; k++) {
        e[k] = least_e(1088u - 128u + k);
    }
    return e[speed - LEAST_SPEED];
}

/* ---- A clock step of d in Playing adds d times e to the rest, advances by the whole 65,536ths (more than 8,640,000 counts as
 * that) and keeps the rest, 0 to 65,535 (SCOPE 13.3). */

uint64_t parts_after(const standing *p, uint32_t d) { return p->rest + (uint64_t)d * e_of(p->speed); }

static uint32_t position_after(const standing *p, uint32_t d)
{
    uint64_t whole = parts_after(p, d) / PARTS_OF_A_HUNDREDTH;
    return p->position + (whole < MCS_MOST_DURATION ? (uint32_t)whole : MCS_MOST_DURATION);
}

int stays_below(const tables *t, const standing *p, uint32_t d)
{
    return position_after(p, d) < end_of_track(track_word(t, p->track, DURATION));
}

int is_running(const tables *t, const standing *p) { return track_word(t, p->track, DURATION) == MCS_RUNNING; }

/* Seeking adds d times the seeking speed, held to 0 and D (SCOPE 13.7). */
static uint32_t position_sought(const tables *t, const standing *p, uint32_t d)
{
    int64_t to = p->position + (int64_t)d * p->seeking, end = end_of_track(track_word(t, p->track, DURATION));
    return (uint32_t)(to < 0 ? 0 : to > end ? end : to);
}

/* ---- The result of a control write, since a move that is not made sets no position */

/* Of a running recording Next Segment with no later start, and a Goto that needs it, have result 4 (SCOPE 10.4, 10.8). */
static int has_segment(const tables *t, const standing *p, uint8_t opcode, int64_t n)
{
    uint32_t first = track_word(t, p->track, FIRST_SEGMENT), count = track_word(t, p->track, SEGMENT_COUNT);
    if (!is_running(t, p)) {
        return 1;
    }
    if (opcode == MCS_OPCODE_NEXT_SEGMENT) {
        return count > 0 && t->segments[first + count - 1u] > p->position;
    }
    return opcode != MCS_OPCODE_GOTO_SEGMENT || n <= (count > 0 ? (int64_t)count : 1);
}

static int can_be_made(const tables *t, const standing *p, uint8_t opcode, int64_t n)
{
    return opcode < MCS_OPCODE_PREVIOUS_SEGMENT ? 1
           : opcode < MCS_OPCODE_PREVIOUS_TRACK ? has_segment(t, p, opcode, n)
           : opcode < MCS_OPCODE_PREVIOUS_GROUP ? named_or_next(t, p, opcode, n) != NO_TRACK
                                                : group_after(t, p->group, opcode, n) != NO_GROUP;
}

uint32_t result_of(const tables *t, const step *s, const standing *was)
{
    uint32_t place = opcode_place(s->octets[0]);
    if (place == OPCODES || (was->mask >> place & 1u) == 0) {
        return MCS_RESULT_NOT_SUPPORTED;
    }
    if (was->media == MCS_INACTIVE) {
        return MCS_RESULT_INACTIVE;
    }
    return can_be_made(t, was, s->octets[0], signed_word(s->octets + 1)) ? MCS_RESULT_SUCCESS : MCS_RESULT_NOT_COMPLETED;
}

/* ---- The rest becomes 0 whenever anything but a clock step in Playing within a track sets the position (SCOPE 13.9). */

/* Play, Pause, Fast Rewind and Fast Forward set none, and Goto Segment 0 neither (SCOPE 10.7, 13.10). */
static int sets_position(const step *s)
{
    return s->octets[0] >= MCS_OPCODE_STOP && !(s->octets[0] == MCS_OPCODE_GOTO_SEGMENT && word_at(s->octets + 1) == 0);
}

static uint32_t fate_by_write(const tables *t, const step *s, const standing *was)
{
    int sets = 0;
    switch (s->what) {
    case MCS_POSITION: /* the negative one on a running recording is accepted and moves nothing (SCOPE 9.9), and every one while Inactive */
        sets = was->media != MCS_INACTIVE && !(is_running(t, was) && signed_word(s->octets) < 0);
        break;
    case MCS_TRACK_OBJECT:
    case MCS_GROUP_OBJECT:
        sets = 1;
        break;
    case MCS_CONTROL_POINT:
        sets = result_of(t, s, was) == MCS_RESULT_SUCCESS && sets_position(s);
        break;
    default:
        break;
    }
    return sets ? REST_CLEARED : REST_KEPT;
}

/* A running recording that is held at 8,640,000 keeps its rest, and its track does not end. */
static uint32_t fate_by_advance(const tables *t, const step *s, const standing *was)
{
    if (was->media != MCS_PLAYING) {
        return was->media == MCS_SEEKING ? REST_CLEARED : REST_KEPT;
    }
    return stays_below(t, was, s->number) ? REST_CLOCKED : is_running(t, was) ? REST_KEPT : REST_CLEARED;
}

uint32_t fate_of_rest(const tables *t, const step *s, const standing *was)
{
    switch (s->kind) {
    case START:
    case ACTIVATE:
    case DEACTIVATE:
        return REST_CLEARED;
    case ADVANCE:
        return fate_by_advance(t, s, was);
    case WRITE:
        return fate_by_write(t, s, was);
    default:
        return REST_KEPT;
    }
}

static const char *wrong_rest(const tables *t, const step *s, const standing *was, const standing *is)
{
    switch (fate_of_rest(t, s, was)) {
    case REST_CLEARED:
        return is->rest == 0 ? NULL
                             : "both leave a rest where something else than a clock step within a track sets the position";
    case REST_CLOCKED:
        return is->rest == parts_after(was, s->number) % PARTS_OF_A_HUNDREDTH
                   ? NULL
                   : "both leave another rest after a clock step within a track than its own";
    default:
        return is->rest == was->rest ? NULL : "both alter a rest by a call that sets no position";
    }
}

/* ---- Where an advance leads that does not end a track */

static const char *wrong_advance(const tables *t, const step *s, const standing *was, const standing *is)
{
    standing should = *was;
    int ends = was->media == MCS_PLAYING && !is_running(t, was) && !stays_below(t, was, s->number);
    should.rest = is->rest;
    if (was->media == MCS_PLAYING) {
        should.position = stays_below(t, was, s->number) ? position_after(was, s->number) : MCS_MOST_DURATION;
    } else if (was->media == MCS_SEEKING) {
        should.position = position_sought(t, was, s->number);
    }
    return ends || memcmp(&should, is, sizeof should) == 0 ? NULL
                                                           : "both go elsewhere by an advance than the time and the speed lead";
}

/* ---- The position is told whenever the track number changes, to or from none too (SCOPE 18.2), and when it changes, but not
 * when an advance in Playing stays below D (SCOPE 18.3); the rest plays no part in either, nor in the mark for 0x80 */

static uint32_t position_read(const standing *p) { return p->media == MCS_INACTIVE ? 0xFFFFFFFFu : p->position; }

static const char *wrong_owed(const tables *t, const step *s, const standing *was, const standing *is, const uint8_t *before,
                              const uint8_t *after)
{
    int changed = position_read(was) != position_read(is);
    int quiet = s->kind == ADVANCE && was->media == MCS_PLAYING && stays_below(t, was, s->number);
    int none_before = was->media == MCS_INACTIVE, none_after = is->media == MCS_INACTIVE;
    int due = (changed && !quiet) || none_before != none_after || (!none_after && was->track != is->track);
    for (uint32_t client = 0; client < MCS_CLIENTS; client++) {
        int owed = slot_bit(before, s->service, client, MCS_IN_OWED, MCS_POSITION);
        int falls_due = due && slot_bit(before, s->service, client, MCS_IN_SUBSCRIBED, MCS_POSITION);
        if (slot_bit(after, s->service, client, MCS_IN_OWED, MCS_POSITION) != (owed || falls_due)) {
            return "both owe the position where they do not have to, or do not where they have to";
        }
        if (read_mark(after, s->service, client, MCS_POSITION) !=
            (!changed && read_mark(before, s->service, client, MCS_POSITION))) {
            return "both leave another mark of a change at the position than they have to";
        }
    }
    return NULL;
}

/* ---- All of it */

const char *wrong_clock(const tables *t, const step *s, const uint8_t before[MCS_STATE_OCTETS],
                        const uint8_t after[MCS_STATE_OCTETS])
{
    const char *wrong = NULL;
    for (uint32_t k = 0; k < MCS_SERVICES && wrong == NULL; k++) {
        standing was = standing_in(before, k), is = standing_in(after, k);
        if (has_service(s->kind) && s->service != k) {
            continue; /* which stays as it is, octet by octet */
        }
        wrong = wrong_rest(t, s, &was, &is);
        if (wrong == NULL && s->kind == ADVANCE) {
            wrong = wrong_advance(t, s, &was, &is);
        }
        if (wrong == NULL && has_service(s->kind) && (s->kind <= ADVANCE || s->kind == WRITE)) {
            wrong = wrong_owed(t, s, &was, &is, before, after);
        }
    }
    return wrong;
}
