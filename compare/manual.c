#include "manual.h"
#include "clock.h"
#include "lend.h"
#include "order.h"
#include "words.h"

#include <string.h>

uint32_t runs_over(uint32_t opcode)
{
    switch (opcode) {
    case MCS_OPCODE_GOTO_SEGMENT:
        return OVER_SEGMENTS;
    case MCS_OPCODE_GOTO_TRACK:
        return OVER_TRACKS;
    case MCS_OPCODE_GOTO_GROUP:
        return OVER_GROUPS;
    default:
        return NO_GOTO;
    }
}

uint32_t amount_of(uint32_t number) { return number < 0x80000000u ? number : 0u - number; }

/* ---- The step at which it stops */

/* A track without segments is one segment from 0 (SCOPE 10.1); orders 1 and 2 have the current track alone (SCOPE 11.1). */
uint32_t places_of(const tables *t, const standing *p, uint32_t over)
{
    uint32_t list[MCS_MOST_GROUPS], segments;
    switch (over) {
    case OVER_SEGMENTS:
        segments = track_word(t, p->track, SEGMENT_COUNT);
        return segments > 0 ? segments : 1;
    case OVER_TRACKS:
        return p->order < 3 ? 1 : group_word(t, p->group, TRACK_COUNT);
    default:
        return groups_beside(t, p->group, list);
    }
}

/* First or Last leads to the end of what it runs over, and each further step to the next place there: so the first step that
 * leads out is the one behind as many as there are places. A known track's segments go on to D and to 0, and stay; a running
 * recording has nothing behind its last start (SCOPE 10.4); odd orders play once, even ones repeat (SCOPE 11.3); group moves do
 * not repeat (SCOPE 12.2). */
uint32_t stop_of(const tables *t, const standing *p, uint32_t over, uint32_t number)
{
    int goes_on =
        over == OVER_SEGMENTS ? !is_running(t, p) || signed_of(number) < 0 : over == OVER_TRACKS && p->order % 2u == 0;
    return goes_on ? NO_STOP : places_of(t, p, over) + 1u;
}

/* Tables and state may be wrong, and then the call is refused; so a track that is there is all that is asked for. */
int takes_long(const run *r, const step *s)
{
    uint32_t over = runs_over(s->what), amount = amount_of(s->number);
    standing p;
    if (s->kind != MANUAL_GOTO || s->service >= MCS_SERVICES ||
        (amount < s->allowed ? amount : s->allowed) <= MOST_GOTO_STEPS) {
        return 0;
    }
    p = standing_in(r->octets, s->service);
    if (over == OVER_SEGMENTS) {
        return signed_of(s->number) < 0 || p.track >= track_count(&r->lent) || !is_running(&r->lent, &p);
    }
    return over == OVER_TRACKS && p.order % 2u == 0;
}

/* ---- Its answer carries the steps made, First or Last counted, and that is |n| when all were made (SCOPE 15.2). */

/* Results 2 and 3 come first, with a count of 0. Where a step cannot be made it stops there, the count includes that step, and
 * result 4 stands. If the allowed steps run out before the last step or such a stop, it says so, the count is the number allowed,
 * and nothing moves (SCOPE 15.3 to 15.5). */
static void should_make(const tables *t, const step *s, const standing *p, uint32_t made[MCS_GOTO_MADE_WORDS])
{
    uint32_t over = runs_over(s->what), amount = amount_of(s->number), stop, last;
    made[MADE_STEPS] = 0;
    if (over == NO_GOTO || (p->mask >> opcode_place((uint8_t)s->what) & 1u) == 0) {
        made[MADE_OUTCOME] = MCS_RESULT_NOT_SUPPORTED;
        return;
    }
    if (p->media == MCS_INACTIVE) {
        made[MADE_OUTCOME] = MCS_RESULT_INACTIVE;
        return;
    }
    stop = stop_of(t, p, over, s->number);
    last = amount < stop ? amount : stop;
    if (s->allowed < last) {
        made[MADE_OUTCOME] = MCS_RAN_OUT;
        made[MADE_STEPS] = s->allowed;
        return;
    }
    made[MADE_OUTCOME] = amount < stop ? MCS_RESULT_SUCCESS : MCS_RESULT_NOT_COMPLETED;
    made[MADE_STEPS] = last;
}

static int stands_there(const uint32_t place[MCS_GOTO_PLACE_WORDS], const standing *p)
{
    return place[PLACE_GROUP] == p->group && place[PLACE_TRACK] == p->track && place[PLACE_POSITION] == p->position &&
           place[PLACE_REST] == p->rest;
}

/* ---- With |n| or more steps allowed it comes to what the control point's Goto comes to, of segments, tracks and groups (SCOPE
 * 15.8) */

int is_written_too(const step *s) { return runs_over(s->what) != NO_GOTO && amount_of(s->number) <= s->allowed; }

/* A client that is connected, encrypted and subscribed to the results of the service, of which none waits. */
enum { WRITER = 0 };

static void admit_writer(uint8_t *state, uint8_t *account)
{
    state[MCS_AT_LINK(WRITER) + MCS_IN_CONNECTED] = state[MCS_AT_LINK(WRITER) + MCS_IN_ENCRYPTED] = 1;
    put_word(account + MCS_IN_SUBSCRIBED, 1u << (SLOTS - 1));
    put_word(account + MCS_IN_OWED, 0);
    memset(account + MCS_IN_WAITING, 0, MCS_IN_RESULTS - MCS_IN_WAITING);
}

/* The library's write on a copy of the state. */
static const char *unlike_a_write(const tables *t, const step *s, const answer *a, const uint8_t *before)
{
    static uint8_t copy[MCS_STATE_OCTETS];
    uint8_t *account = copy + MCS_AT_SERVICE(s->service) + MCS_IN_ACCOUNT(WRITER), value[5];
    uint32_t track, octet;
    standing there;
    call c = {.kind = WRITE,
              .who = WRITER,
              .service = s->service,
              .what = MCS_CONTROL_POINT,
              .catalogue = lent(t),
              .titles = lent_titles(t),
              .state = copy,
              .octets = value,
              .track = &track,
              .octet = &octet};
    memcpy(copy, before, sizeof copy);
    admit_writer(copy, account);
    c.length = control_value(value, (uint8_t)s->what, signed_of(s->number));
    if (call_library(&c) != MCS_OK || word_at(account + MCS_IN_WAITING) != 1) {
        return "the library refuses the write of a Goto whose steps it makes, or has no result of it";
    }
    if (a->made[MADE_OUTCOME] != last_result(account)) {
        return "the result of a Goto is another than the outcome of its steps";
    }
    there = standing_in(copy, s->service);
    return stands_there(a->place, &there) ? NULL : "a Goto leads elsewhere than its steps";
}

/* ---- All of it */

static int is_untold(const step *s, const uint32_t *words, uint32_t count)
{
    for (uint32_t k = 0; k < count; k++) {
        if (words[k] != filled_told(s->fill, k)) {
            return 0;
        }
    }
    return 1;
}

const char *wrong_manual(const tables *t, const step *s, const answer *a, const uint8_t before[MCS_STATE_OCTETS],
                         const uint8_t after[MCS_STATE_OCTETS])
{
    uint32_t should[MCS_GOTO_MADE_WORDS];
    standing now;
    if (s->kind != MANUAL_GOTO) {
        return NULL;
    }
    if (a->number != MCS_OK) {
        return is_untold(s, a->made, MCS_GOTO_MADE_WORDS) && is_untold(s, a->place, MCS_GOTO_PLACE_WORDS)
                   ? NULL
                   : "both tell something of a manual Goto that they refuse";
    }
    if (memcmp(before, after, MCS_STATE_OCTETS) != 0) {
        return "both alter the state by a manual Goto";
    }
    now = standing_in(before, s->service);
    should_make(t, s, &now, should);
    if (memcmp(a->made, should, sizeof should) != 0) {
        return "both tell another outcome or number of steps of a manual Goto than it has";
    }
    if (a->made[MADE_OUTCOME] != MCS_RESULT_SUCCESS && !stands_there(a->place, &now)) {
        return "both move a player by a manual Goto that does not succeed";
    }
    return is_written_too(s) ? unlike_a_write(t, s, a, before) : NULL;
}
