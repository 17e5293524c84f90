#include "draw.h"
#include "arguments.h"
#include "manual.h"
#include "random_state.h"
#include "service.h"
#include "words.h"

#include <string.h>

/* In the order of the calls: start, set name, activate, deactivate, advance, connect, disconnect, subscribe, unsubscribe,
 * read, write, take, title, manual Goto. */
static const uint32_t MOODS[][CARD_LOAD] = {
    {1, 12, 20, 2, 50, 16, 4, 50, 8, 60, 160, 120, 20, 30}, /* a bit of all */
    {0, 8, 8, 1, 30, 4, 1, 10, 1, 10, 200, 40, 4, 30},      /* pressing buttons, so that results pile up */
    {0, 8, 6, 1, 20, 4, 0, 10, 2, 10, 100, 140, 10, 10},    /* handing out what falls due */
    {0, 6, 4, 1, 20, 4, 1, 4, 2, 200, 30, 10, 40, 10},      /* reading, also in pieces */
    {0, 2, 8, 1, 150, 2, 0, 4, 1, 20, 100, 40, 10, 30},     /* playing and seeking */
    {1, 6, 6, 2, 10, 60, 20, 120, 30, 20, 60, 60, 4, 10},   /* coming and going */
};
static const uint32_t EVEN[CARD_LOAD] = {1, 1, 1, 1, 1, 1, 1, 1, 1, 1, 1, 1, 1, 1};

static mood mood_of(const uint32_t *weight, uint32_t wrong)
{
    mood m;
    memcpy(m.weight, weight, sizeof m.weight);
    m.wrong = wrong;
    return m;
}

mood even_mood(uint32_t wrong) { return mood_of(EVEN, wrong); }
mood random_mood(dice *d, uint32_t wrong) { return mood_of(MOODS[below(d, sizeof MOODS / sizeof MOODS[0])], wrong); }

/* ---- What a write, and a read, is about */

/* Whether the position is 299 or 300 past the start of a segment behind the first: beside the margin of Previous Segment. */
static int beside_margin(const run *r, const ref_player *p)
{
    const uint32_t *record;
    if (!has_track(r, p)) {
        return 0;
    }
    record = r->lent.tracks + MCS_TRACK_WORDS * p->track;
    for (uint32_t k = 1; k < record[SEGMENT_COUNT] && record[FIRST_SEGMENT] + k < SEGMENTS_ROOM; k++) {
        uint32_t past = p->position - r->lent.segments[record[FIRST_SEGMENT] + k];
        if (past == 299 || past == 300) {
            return 1;
        }
    }
    return 0;
}

static void draw_control(dice *d, const run *r, uint32_t wrong, step *s)
{
    const ref_player *p = player_of(r, s->service);
    uint8_t opcode = OPCODE[below(d, OPCODES)];
    if (one_in(d, 4)) {
        opcode = (uint8_t)ONE_OF(d, 0x10, 0x24, 0x34, 0x44); /* their numbers make more cases */
    }
    if (p->media == REF_SEEKING && one_in(d, 4)) {
        opcode = (uint8_t)ONE_OF(d, 0x03, 0x04); /* so that the end rungs are reached */
    }
    if (beside_margin(r, p) && one_in(d, 2)) {
        opcode = MCS_OPCODE_PREVIOUS_SEGMENT; /* of the many positions few are there */
    }
    if (p->rest != 0 && p->position == 0 && one_in(d, 4)) {
        opcode = (uint8_t)ONE_OF(d, 0x30, 0x31, 0x32, 0x33, 0x34, 0x42, 0x43, 0x44); /* some of them lead to where it is */
    }
    if (one_in(d, 24)) {
        opcode = (uint8_t)ONE_OF(d, 0x00, 0x06, 0x0F, 0x11, 0x14, 0x1F, 0x25, 0x2F, 0x35, 0x45, 0x50, 0x7F, 0x80, 0x81, 0xFF);
        s->length = between(d, 1, 5);
    } else {
        s->length = carries_number(opcode) ? 5 : 1;
    }
    s->octets[0] = opcode;
    put_word(s->octets + 1, some_number(d, reach(r, p, opcode)));
    if (one_in(d, wrong)) {
        s->length = ONE_OF(d, 0, 1, 2, 3, 4, 5, 6, 7, 9, 257, 261);
    }
}

static void draw_write(dice *d, const run *r, uint32_t wrong, step *s)
{
    const ref_player *p = player_of(r, s->service);
    uint32_t kind = below(d, 20);
    memset(s->octets, 0, 264);
    if (one_in(d, wrong)) {
        s->what = one_in(d, 2) ? no_characteristic(d) : ONE_OF(d, 1, 4, 5, 6, 9, 10, 13, 16, 17, 19, 22);
        s->length = below(d, 7);
    } else if (kind >= 16) {
        s->what = ONE_OF(d, MCS_TRACK_OBJECT, MCS_NEXT_TRACK_OBJECT, MCS_NEXT_TRACK_OBJECT, MCS_GROUP_OBJECT);
        s->length = one_in(d, wrong) ? ONE_OF(d, 0, 1, 4, 5, 7, 8, 262) : MCS_OBJECT_OCTETS;
        mcs_put_object(s->octets, some_object(d, r, p, s->what));
    } else if (kind < 10) {
        s->what = MCS_CONTROL_POINT;
        draw_control(d, r, wrong, s);
    } else if (kind < 12) {
        s->what = MCS_POSITION;
        s->length = one_in(d, wrong) ? ONE_OF(d, 0, 1, 2, 3, 5, 6, 8, 260) : 4;
        put_word(s->octets, one_in(d, 2) && has_track(r, p) ? random_position(d, &r->lent, p->track)
                            : one_in(d, 6)                  ? p->position /* so that nothing but a rest changes */
                                                            : some_number(d, reach(r, p, 0x10)));
    } else if (kind < 14) {
        s->what = MCS_PLAYBACK_SPEED;
        s->length = one_in(d, wrong) ? ONE_OF(d, 0, 2, 4, 257) : 1;
        s->octets[0] = (uint8_t)(one_in(d, 2) ? ONE_OF(d, 0, 64, 0xC0, 0x80, 0x7F, 1, 0xFF) : any_word(d));
    } else {
        s->what = MCS_PLAYING_ORDER;
        s->length = one_in(d, wrong) ? ONE_OF(d, 0, 2, 4, 257) : 1;
        s->octets[0] = (uint8_t)(one_in(d, wrong) ? ONE_OF(d, 0, 9, 10, 16, 128, 255) : between(d, 1, 8));
    }
}

static void draw_read(dice *d, const run *r, uint32_t wrong, step *s)
{
    int both = s->who < REF_CLIENTS && s->service < REF_SERVICES;
    uint32_t fresh = both ? r->second.services[s->service].accounts[s->who].fresh : 0, length;
    s->room[0] = some_room(d, wrong);
    s->what = one_in(d, 3) ? ONE_OF(d, MCS_NAME, MCS_TITLE) : readable_at(below(d, READABLES));
    if (one_in(d, wrong)) {
        s->what = one_in(d, 2) ? no_characteristic(d) : ONE_OF(d, MCS_TRACK_CHANGED, MCS_CONTROL_POINT);
    }
    if (one_in(d, 2)) {
        return; /* at 0 */
    }
    /* Where one was read at 0 and has not changed, one may go on reading. */
    for (uint32_t k = 0; k < 4 && s->what < 32 && (fresh >> s->what & 1u) == 0; k++) {
        s->what = readable_at(below(d, READABLES));
    }
    length = value_length(r, player_of(r, s->service), s->what);
    s->number = one_in(d, 4) ? ONE_OF(d, 1, 2, 22, 44, 128, 129, 256, 0x80000000u, 0xFFFFFFFFu) : below(d, length + 2u);
    if (one_in(d, 4)) {
        s->number = length + below(d, 2);
    }
}

/* Mostly one of the three Gotos; or another opcode, none, or what would be one of the three if its upper octets were dropped. */
static uint32_t some_goto(dice *d)
{
    if (!one_in(d, 8)) {
        return ONE_OF(d, MCS_OPCODE_GOTO_SEGMENT, MCS_OPCODE_GOTO_TRACK, MCS_OPCODE_GOTO_GROUP);
    }
    return one_in(d, 2) ? OPCODE[below(d, OPCODES)]
                        : ONE_OF(d, 0, 0x06, 0x14, 0x25, 0x35, 0x45, 0x7F, 0xFF, 0x124, 0x134, 0x144, 0x10024u, 0x10034u,
                                 0x10044u, 0x80000024u, 0x80000034u, 0x80000044u, 0xFFFFFFFFu, any_word(d));
}

static void draw_goto(dice *d, const run *r, step *s)
{
    const ref_player *p = player_of(r, s->service);
    uint32_t far;
    s->what = some_goto(d);
    if (has_track(r, p) && track_word(&r->lent, p->track, DURATION) == MCS_RUNNING && one_in(d, 2)) {
        s->what = MCS_OPCODE_GOTO_SEGMENT; /* of few tracks the segments end */
    }
    far = reach(r, p, (uint8_t)s->what);
    s->number = some_number(d, far);
    if (one_in(d, 32)) {
        s->number = below(d, MOST_GOTO_STEPS); /* often round what it runs over */
        s->number = one_in(d, 2) ? s->number : 0u - s->number;
    }
    s->allowed = some_allowance(d, amount_of(s->number), far);
    if (takes_long(r, s)) {
        s->allowed = below(d, one_in(d, 16) ? MOST_GOTO_STEPS : 100);
    }
}

/* ---- Calls */

#define ONE_TWICE_IN 4u

void blank_step(dice *d, uint32_t kind, step *s)
{
    uint32_t bits = any_word(d);
    s->kind = (uint8_t)kind;
    s->against = bits & 1u;
    s->null = (uint8_t)(bits >> 1 & 1u);
    s->twice = (bits >> 2) % ONE_TWICE_IN == 0;
    s->fill = (uint8_t)(bits >> 8);
    s->who = s->service = s->what = s->number = s->allowed = s->length = 0;
    memset(s->room, 0, sizeof s->room);
    memset(s->players, 0, sizeof s->players);
}

/* Either name may be wrong, and both. */
static void draw_start(dice *d, const run *r, uint32_t wrong, step *s)
{
    for (uint32_t k = 0; k < MCS_SERVICES; k++) {
        step_player *p = &s->players[k];
        p->length = some_name(d, player_of(r, k), wrong, s->octets + START_NAME_AT(k), START_NAME_ROOM);
        p->mask = random_mask(d);
        p->ccid = below(d, 256);
    }
}

void draw_this_call(dice *d, const run *r, uint32_t kind, uint32_t wrong, step *s)
{
    blank_step(d, kind, s);
    s->service = has_service(kind) ? some_service(d, wrong) : 0;
    switch (kind) {
    case START:
        draw_start(d, r, wrong, s);
        break;
    case SET_NAME:
        s->length = some_name(d, player_of(r, s->service), wrong, s->octets, sizeof s->octets);
        break;
    case ACTIVATE:
        s->number = some_group(d, r, wrong);
        break;
    case ADVANCE:
        s->number = some_time(d, r, player_of(r, s->service));
        break;
    case CONNECT:
        s->who = some_client(d, r, 0, wrong);
        s->number = one_in(d, wrong) ? ONE_OF(d, 0, 22, 518, 0x10017u, 0x80000017u, 0xFFFFFFFFu) : random_mtu(d);
        s->what = one_in(d, 8) ? 0 : ONE_OF(d, 1, 1, 2, 255);
        break;
    case DISCONNECT:
        s->who = some_client(d, r, 1, wrong);
        break;
    case SUBSCRIBE:
    case UNSUBSCRIBE:
        s->who = some_client(d, r, 1, wrong);
        s->what = slot_at(below(d, SLOTS));
        if (one_in(d, wrong)) {
            s->what = one_in(d, 2)
                          ? no_characteristic(d)
                          : ONE_OF(d, MCS_SEGMENTS_OBJECT, MCS_ORDERS_SUPPORTED, MCS_OPCODES_SUPPORTED, MCS_CONTENT_CONTROL_ID);
        }
        break;
    case READ:
        s->who = some_client(d, r, 1, wrong);
        draw_read(d, r, wrong, s);
        break;
    case WRITE:
        s->who = some_writer(d, r, s->service, wrong);
        draw_write(d, r, wrong, s);
        break;
    case TAKE:
        s->room[0] = some_room(d, wrong);
        break;
    case MANUAL_GOTO:
        draw_goto(d, r, s);
        break;
    default:
        break;
    }
}

void draw_call(dice *d, const run *r, const mood *m, step *s)
{
    uint32_t all = 0, at, kind = 0;
    for (uint32_t k = 0; k < CARD_LOAD; k++) {
        all += m->weight[k];
    }
    at = below(d, all);
    while (at >= m->weight[kind]) {
        at -= m->weight[kind++];
    }
    /* Most is to be seen while there is a current track, in either service. */
    for (uint32_t k = 0; k < MCS_SERVICES; k++) {
        if (player_of(r, k)->media == REF_INACTIVE && kind != START && one_in(d, 4)) {
            draw_this_call(d, r, ACTIVATE, m->wrong, s);
            s->service = k;
            return;
        }
    }
    draw_this_call(d, r, kind, m->wrong, s);
}
