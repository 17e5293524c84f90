#include "rows.h"

#include <stdio.h>
#include <stdlib.h>
#include <string.h>

#include "rival.h"
#include "service.h"
#include "state.h"

#define ACCEPTED 0u

/* A group with tracks in every catalogue here. */
#define GROUP 1u

/* More card loads than the report has. */
#define MOST_CARDS 16u

static answers from_library, from_rival;

/* ---- The call by each program */

call lend(call made, void *state, answers *a)
{
    memset(a, 0x5A, sizeof *a);
    made.state = state;
    made.out = a->out;
    made.out_len = sizeof a->out;
    made.room = whole_room(&a->loaded);
    made.entries = a->entries;
    made.entries_len = MOST_STARTS;
    made.written = a->written;
    made.written_len = sizeof a->written;
    made.word = &a->word;
    made.count = &a->count;
    made.served = a->served;
    made.part = a->part;
    made.made = a->made;
    made.place = a->place;
    made.counts = a->counts;
    made.block = &a->block;
    made.line = &a->line;
    made.track = &a->track;
    made.octet = &a->octet;
    return made;
}

/* Whether a rival leaves what the library did: answers, and a state that means the same, in the struct or in octets. */
static int answers_alike(const call *made, const desk *d, uint32_t number, uint32_t (*rival)(const call *), int behind_octets,
                         const uint8_t *by_library, desk *after)
{
    ref_state meant;
    call c;
    *after = *d;
    c = lend(*made, behind_octets ? (void *)after->octets : (void *)&after->state, &from_rival);
    if (rival(&c) != number || memcmp(&from_library, &from_rival, sizeof from_library) != 0) {
        return 0;
    }
    if (behind_octets) {
        state_of_octets(after->octets, &after->state);
    }
    state_of_octets(by_library, &meant);
    return same_meaning(&meant, &after->state, NULL, 0);
}

/* The call by all programs on d, which is then as they left it. Whether they agree that it gives this number and on all else. */
static int all_give(const call *made, desk *d, uint32_t number)
{
    desk by_library = *d, by_rival;
    call c = lend(*made, by_library.octets, &from_library);
    int same = call_library(&c) == number;
    same &= answers_alike(made, d, number, gcc_lent_call, 1, by_library.octets, &by_rival);
    same &= answers_alike(made, d, number, clang_lent_call, 1, by_library.octets, &by_rival);
    same &= answers_alike(made, d, number, clang_call, 0, by_library.octets, &by_rival);
    same &= answers_alike(made, d, number, gcc_call, 0, by_library.octets, &by_rival);
    by_library.state = by_rival.state;
    *d = by_library;
    return same;
}

int row_agrees(const row *r)
{
    desk d = r->before;
    return all_give(&r->made, &d, r->number);
}

/* A call on the way to the state of a row. */
static void make(desk *d, const catalogue *c, call made)
{
    made.catalogue = lent(&c->tables);
    made.titles = lent_titles(&c->tables);
    if (!all_give(&made, d, ACCEPTED)) {
        fprintf(stderr, "bench: the programs differ in '%s' on the catalogue '%s'\n", CALL_NAME[made.kind], c->name);
        exit(1);
    }
}

/* ---- Arguments: a call is to the generic service, unless it is made one to the other */

static call plain(uint32_t kind, uint32_t who, uint32_t what, uint32_t number)
{
    call c;
    memset(&c, 0, sizeof c);
    c.kind = kind;
    c.who = who;
    c.what = what;
    c.number = number;
    return c;
}

static call with_octets(uint32_t kind, uint32_t who, uint32_t what, const uint8_t *octets, size_t length)
{
    call c = plain(kind, who, what, 0);
    c.octets = octets;
    c.length = length;
    return c;
}

static call manual_goto(uint32_t opcode, uint32_t steps)
{
    call c = plain(MANUAL_GOTO, 0, opcode, steps);
    c.allowed = steps;
    return c;
}

static call to_named(call c)
{
    c.service = MCS_NAMED;
    return c;
}

/* Both players have this name. */
static call start(const uint8_t *name, size_t length)
{
    call c = plain(START, 0, 0, 0);
    for (uint32_t k = 0; k < MCS_SERVICES; k++) {
        struct mcs_player player = {name, length, MCS_ALL_OPCODES, (uint8_t)(7u + k)};
        c.players[k] = player;
    }
    return c;
}

static call connect_with(uint32_t client, uint32_t mtu) { return plain(CONNECT, client, 1, mtu); }

static call written(uint32_t client, uint32_t characteristic, uint8_t octet)
{
    static uint8_t values[256];
    values[octet] = octet;
    return with_octets(WRITE, client, characteristic, values + octet, 1);
}

static call opcode(uint32_t client, uint8_t opcode) { return written(client, MCS_CONTROL_POINT, opcode); }

/* The number of an object, to be written. */
static call numbered(uint32_t client, uint32_t characteristic, uint32_t object)
{
    static uint8_t values[64][MCS_OBJECT_OCTETS];
    static size_t used;
    uint8_t *value = values[used];
    if (used == sizeof values / sizeof values[0]) {
        fprintf(stderr, "bench: more written numbers than there is room for\n");
        exit(1);
    }
    used += 1u;
    mcs_put_object(value, object);
    return with_octets(WRITE, client, characteristic, value, MCS_OBJECT_OCTETS);
}

/* Goto Segment -2, and so on: Last, and one step before it. */
static const uint8_t BACK_2_SEGMENTS[5] = {MCS_OPCODE_GOTO_SEGMENT, 0xFE, 0xFF, 0xFF, 0xFF};
static const uint8_t BACK_2_TRACKS[5] = {MCS_OPCODE_GOTO_TRACK, 0xFE, 0xFF, 0xFF, 0xFF};
static const uint8_t BACK_1_GROUP[5] = {MCS_OPCODE_GOTO_GROUP, 0xFF, 0xFF, 0xFF, 0xFF};
static const uint8_t POSITION[4] = {100, 0, 0, 0};
static const uint8_t NAME[] = "Interviews, room 3, left desk";

/* ---- States */

/* Four clients that are subscribed to everything in both services, and no group. */
static desk idle(const catalogue *c)
{
    static const uint32_t MTU[MCS_CLIENTS] = {23, 64, 185, 517};
    desk d;
    uint32_t k, s;
    memset(&d, 0, sizeof d);
    make(&d, c, start(NAME, sizeof NAME - 1u));
    for (k = 0; k < MCS_CLIENTS; k++) {
        make(&d, c, connect_with(k, MTU[k]));
        for (s = 0; s < SLOTS; s++) {
            make(&d, c, plain(SUBSCRIBE, k, slot_at(s), 0));
            make(&d, c, to_named(plain(SUBSCRIBE, k, slot_at(s), 0)));
        }
    }
    return d;
}

/* Takes until the next would serve the characteristic; 0: until nothing is owed. */
static void take_until(desk *d, const catalogue *c, uint32_t characteristic)
{
    for (;;) {
        desk next = *d;
        make(&next, c, plain(TAKE, 0, 0, 0));
        if (from_library.served[SERVED_CHARACTERISTIC] == characteristic) {
            return;
        }
        *d = next;
    }
}

/* Paused at the start of the group's first track in an order, and nothing owed. */
static desk paused(const catalogue *c, uint8_t order)
{
    desk d = idle(c);
    make(&d, c, written(0, MCS_PLAYING_ORDER, order));
    make(&d, c, plain(ACTIVATE, 0, 0, GROUP));
    take_until(&d, c, 0);
    return d;
}

static desk playing(const catalogue *c)
{
    desk d = paused(c, 3);
    make(&d, c, opcode(1, MCS_OPCODE_PLAY));
    take_until(&d, c, 0);
    return d;
}

/* Both players play, and nothing is owed. */
static desk both_playing(const catalogue *c)
{
    desk d = playing(c);
    make(&d, c, to_named(plain(ACTIVATE, 0, 0, GROUP)));
    make(&d, c, to_named(opcode(1, MCS_OPCODE_PLAY)));
    take_until(&d, c, 0);
    return d;
}

/* The last track of that group. */
static uint32_t last_track(const catalogue *c)
{
    return group_word(&c->tables, GROUP, FIRST_TRACK) + group_word(&c->tables, GROUP, TRACK_COUNT) - 1u;
}

/* Paused in an order, and the group's last track is named to come next; nothing is owed. */
static desk named_last(const catalogue *c, uint8_t order)
{
    desk d = paused(c, order);
    make(&d, c, numbered(0, MCS_NEXT_TRACK_OBJECT, MCS_OBJECT_OF_TRACK(last_track(c))));
    take_until(&d, c, 0);
    return d;
}

static desk disconnected(const catalogue *c, uint32_t client)
{
    desk d = paused(c, 3);
    make(&d, c, plain(DISCONNECT, client, 0, 0));
    return d;
}

static desk unsubscribed(const catalogue *c, uint32_t client, uint32_t characteristic)
{
    desk d = paused(c, 3);
    make(&d, c, plain(UNSUBSCRIBE, client, characteristic, 0));
    return d;
}

/* The title of a new track is owed next. */
static desk owing_title(const catalogue *c)
{
    desk d = idle(c);
    make(&d, c, plain(ACTIVATE, 0, 0, GROUP));
    take_until(&d, c, MCS_TITLE);
    return d;
}

/* The first of three results is owed next. */
static desk owing_results(const catalogue *c)
{
    desk d = paused(c, 3);
    uint32_t k;
    for (k = 0; k < 3u; k++) {
        make(&d, c, opcode(2, MCS_OPCODE_PLAY));
    }
    take_until(&d, c, MCS_CONTROL_POINT);
    return d;
}

/* Both players are at a new track, the generic one's slots are served, and the title of the named one's is owed next. */
static desk owing_named_title(const catalogue *c)
{
    desk d = owing_title(c);
    take_until(&d, c, 0);
    make(&d, c, to_named(plain(ACTIVATE, 0, 0, GROUP)));
    take_until(&d, c, MCS_TITLE);
    return d;
}

/* Each client has pressed Next Track on both players: both services owe it a result, and all that a new track brings. */
static desk owing_by_both(const catalogue *c)
{
    desk d = both_playing(c);
    uint32_t k;
    for (k = 0; k < MCS_CLIENTS; k++) {
        make(&d, c, opcode(k, MCS_OPCODE_NEXT_TRACK));
        make(&d, c, to_named(opcode(k, MCS_OPCODE_NEXT_TRACK)));
    }
    return d;
}

static desk wrong_turn(const catalogue *c)
{
    desk d = paused(c, 3);
    d.octets[MCS_AT_TURN] = MCS_CLIENTS;
    d.state.turn = MCS_CLIENTS;
    return d;
}

/* ---- Rows */

static void add(table *t, const char *name, const catalogue *c, call made, desk before, uint32_t number)
{
    row *r = &t->rows[t->count];
    if (t->count == MOST_ROWS) {
        fprintf(stderr, "bench: more than %u rows\n", MOST_ROWS);
        exit(1);
    }
    t->count += 1u;
    r->name = name;
    r->lent = c;
    r->made = made;
    r->made.catalogue = lent(&c->tables);
    r->made.titles = lent_titles(&c->tables);
    r->before = before;
    r->number = number;
}

static void add_refusals(table *t, const catalogue *c)
{
    /* The catalogue with a table that ends inside a record, and with a last title that is no UTF-8. */
    static catalogue copies[16];
    static size_t used;
    catalogue *cut = &copies[used], *spoilt = &copies[used + 1u];
    desk before = playing(c);
    call beyond = plain(ADVANCE, 0, 0, 1);
    call no_object = numbered(0, MCS_TRACK_OBJECT, MCS_OBJECT_OF_TRACK(MCS_MOST_TRACKS));
    beyond.service = MCS_SERVICES;
    used += 2u;
    *cut = *c;
    cut->tables.length[GROUPS] -= 1u;
    *spoilt = *c;
    spoilt->tables.text[spoilt->tables.length[TEXT] - 1u] = 0xFF;
    add(t, "advance, refused at once (200)", cut, plain(ADVANCE, 0, 0, 1), before, MCS_BAD_CATALOGUE);
    add(t, "advance, refused for the last title (200)", spoilt, plain(ADVANCE, 0, 0, 1), before, MCS_BAD_CATALOGUE);
    add(t, "advance, refused for the state (201)", c, plain(ADVANCE, 0, 0, 1), wrong_turn(c), MCS_BAD_STATE);
    add(t, "advance, refused for the service (219)", c, beyond, before, MCS_NO_SERVICE);
    add(t, "activate, refused (208)", c, plain(ACTIVATE, 0, 0, MCS_MOST_GROUPS), before, MCS_BAD_GROUP);
    add(t, "write, track object, refused (0x13)", c, no_object, before, MCS_NOT_ALLOWED);
}

void add_card_load(table *t, const catalogue *c)
{
    static card cards[MOST_CARDS];
    static size_t used;
    card *made = &cards[used];
    desk none;
    if (used == MOST_CARDS) {
        fprintf(stderr, "bench: more than %u cards\n", MOST_CARDS);
        exit(1);
    }
    used += 1u;
    make_card(&c->tables, made);
    memset(&none, 0, sizeof none);
    make(&none, c, start(NAME, 0));
    add(t, "card load", c, with_octets(CARD_LOAD, 0, 0, made->octets, made->length), none, ACCEPTED);
}

void add_cue_sheets(table *t)
{
    static catalogue none[SHEETS];
    static uint8_t sheets[SHEETS][MCS_SHEET_OCTETS];
    desk before;
    uint32_t k;
    for (k = 0; k < SHEETS; k++) {
        make_sheet((enum sheet_of)k, sheets[k]);
        make_even(&none[k], SHEET_NAME[k], 0, 0, 0, 0, ASCII);
        memset(&before, 0, sizeof before);
        make(&before, &none[k], start(NAME, 0));
        add(t, "cue sheet, 65,536 octets", &none[k], with_octets(CUE_SHEET, 0, 0, sheets[k], MCS_SHEET_OCTETS), before,
            k == WRONG_AT_ONCE ? MCS_BAD_LINE : ACCEPTED);
    }
}

/* The objects of the group and of the first track with segments, written; and what is written, read. */
static void add_objects(table *t, const catalogue *c, desk before)
{
    static uint8_t objects[8][MCS_MOST_SEGMENTS_OBJECT];
    static size_t used;
    static const struct {
        const char *write, *read;
        uint32_t kind;
    } OBJECT[2] = {{"group object write", "group object read", GROUP_OBJECT_WRITE},
                   {"segments object write", "segments object read", SEGMENTS_OBJECT_WRITE}};
    uint32_t k;
    for (k = 0; k < 2u; k++) {
        call made = plain(OBJECT[k].kind, 0, 0, k == 0 ? GROUP : 0);
        desk d = before;
        while (k == 1u && track_word(&c->tables, made.number, SEGMENT_COUNT) == 0) {
            made.number += 1u;
        }
        make(&d, c, made);
        memcpy(objects[used], from_library.written, from_library.word);
        add(t, OBJECT[k].write, c, made, before, ACCEPTED);
        add(t, OBJECT[k].read, c, with_octets(GROUP_OBJECT_READ + k, 0, 0, objects[used], from_library.word), before, ACCEPTED);
        used += 1u;
    }
}

void add_check(table *t, const catalogue *c)
{
    desk none;
    memset(&none, 0, sizeof none);
    make(&none, c, start(NAME, 0));
    add(t, "deactivate, no client", c, plain(DEACTIVATE, 0, 0, 0), none, ACCEPTED);
}

void add_calls(table *t, const catalogue *c)
{
    desk by_number = paused(c, 3), by_stamp = paused(c, 5), plays = playing(c), inactive = idle(c);
    uint32_t end = track_word(&c->tables, plays.state.services[MCS_GENERIC].player.track, DURATION);
    desk falling = inactive, both_play = both_playing(c), both_owe = owing_by_both(c), named = named_last(c, 5);
    uint32_t last = MCS_OBJECT_OF_TRACK(last_track(c));

    make(&falling, c, written(0, MCS_PLAYING_ORDER, 7));
    take_until(&falling, c, 0);

    add_card_load(t, c);
    add(t, "card write", c, plain(CARD_WRITE, 0, 0, 0), inactive, ACCEPTED);
    add_objects(t, c, inactive);
    add(t, "start", c, start(NAME, sizeof NAME - 1u), inactive, ACCEPTED);
    add(t, "set name", c, with_octets(SET_NAME, 0, 0, NAME, 10), plays, ACCEPTED);
    add(t, "activate, order 3", c, plain(ACTIVATE, 0, 0, GROUP), inactive, ACCEPTED);
    add(t, "activate, order 7", c, plain(ACTIVATE, 0, 0, GROUP), falling, ACCEPTED);
    add(t, "deactivate", c, plain(DEACTIVATE, 0, 0, 0), plays, ACCEPTED);
    add(t, "advance, within a track", c, plain(ADVANCE, 0, 0, 10), plays, ACCEPTED);
    add(t, "advance, to the next track", c, plain(ADVANCE, 0, 0, end), plays, ACCEPTED);
    add(t, "connect", c, connect_with(2, 185), disconnected(c, 2), ACCEPTED);
    add(t, "disconnect", c, plain(DISCONNECT, 2, 0, 0), plays, ACCEPTED);
    add(t, "subscribe", c, plain(SUBSCRIBE, 2, MCS_TITLE, 0), unsubscribed(c, 2, MCS_TITLE), ACCEPTED);
    add(t, "unsubscribe", c, plain(UNSUBSCRIBE, 2, MCS_TITLE, 0), plays, ACCEPTED);
    add(t, "read, name", c, plain(READ, 3, MCS_NAME, 0), plays, ACCEPTED);
    add(t, "read, title", c, plain(READ, 3, MCS_TITLE, 0), plays, ACCEPTED);
    add(t, "read, position", c, plain(READ, 0, MCS_POSITION, 0), plays, ACCEPTED);
    add(t, "read, segments object", c, plain(READ, 0, MCS_SEGMENTS_OBJECT, 0), plays, ACCEPTED);
    add(t, "read, track object", c, plain(READ, 0, MCS_TRACK_OBJECT, 0), plays, ACCEPTED);
    add(t, "read, next track object, order 3", c, plain(READ, 0, MCS_NEXT_TRACK_OBJECT, 0), plays, ACCEPTED);
    add(t, "read, next track object, order 5", c, plain(READ, 0, MCS_NEXT_TRACK_OBJECT, 0), by_stamp, ACCEPTED);
    add(t, "read, next track object, named", c, plain(READ, 0, MCS_NEXT_TRACK_OBJECT, 0), named, ACCEPTED);
    add(t, "read, parent group object", c, plain(READ, 0, MCS_PARENT_GROUP_OBJECT, 0), plays, ACCEPTED);
    add(t, "read, group object", c, plain(READ, 0, MCS_GROUP_OBJECT, 0), plays, ACCEPTED);
    add(t, "write, Play", c, opcode(0, MCS_OPCODE_PLAY), by_number, ACCEPTED);
    add(t, "write, Next Segment", c, opcode(0, MCS_OPCODE_NEXT_SEGMENT), by_number, ACCEPTED);
    add(t, "write, Goto Segment", c, with_octets(WRITE, 0, MCS_CONTROL_POINT, BACK_2_SEGMENTS, 5), by_number, ACCEPTED);
    add(t, "write, Next Track, order 3", c, opcode(0, MCS_OPCODE_NEXT_TRACK), by_number, ACCEPTED);
    add(t, "write, Next Track, order 5", c, opcode(0, MCS_OPCODE_NEXT_TRACK), by_stamp, ACCEPTED);
    add(t, "write, Goto Track, order 5", c, with_octets(WRITE, 0, MCS_CONTROL_POINT, BACK_2_TRACKS, 5), by_stamp, ACCEPTED);
    add(t, "write, Goto Group, order 3", c, with_octets(WRITE, 0, MCS_CONTROL_POINT, BACK_1_GROUP, 5), by_number, ACCEPTED);
    add(t, "write, position", c, with_octets(WRITE, 0, MCS_POSITION, POSITION, 4), by_number, ACCEPTED);
    add(t, "write, order", c, written(0, MCS_PLAYING_ORDER, 6), by_number, ACCEPTED);
    add(t, "write, track object", c, numbered(0, MCS_TRACK_OBJECT, last), by_number, ACCEPTED);
    add(t, "write, next track object", c, numbered(0, MCS_NEXT_TRACK_OBJECT, last), by_number, ACCEPTED);
    add(t, "write, group object, order 3", c, numbered(0, MCS_GROUP_OBJECT, MCS_OBJECT_OF_GROUP(3)), by_number, ACCEPTED);
    add(t, "write, group object, order 5", c, numbered(0, MCS_GROUP_OBJECT, MCS_OBJECT_OF_GROUP(3)), by_stamp, ACCEPTED);
    add(t, "write, Next Track, named", c, opcode(0, MCS_OPCODE_NEXT_TRACK), named, ACCEPTED);
    add(t, "take, a title", c, plain(TAKE, 0, 0, 0), owing_title(c), ACCEPTED);
    add(t, "take, a result", c, plain(TAKE, 0, 0, 0), owing_results(c), ACCEPTED);
    add(t, "take, nothing owed", c, plain(TAKE, 0, 0, 0), plays, ACCEPTED);
    add(t, "title", c, plain(TITLE, 0, 0, 0), plays, ACCEPTED);
    add(t, "advance, both play, service 1", c, to_named(plain(ADVANCE, 0, 0, 10)), both_play, ACCEPTED);
    add(t, "read, title, both play, service 1", c, to_named(plain(READ, 3, MCS_TITLE, 0)), both_play, ACCEPTED);
    add(t, "write, Next Track, both play, service 1", c, to_named(opcode(0, MCS_OPCODE_NEXT_TRACK)), both_play, ACCEPTED);
    add(t, "disconnect, both owe", c, plain(DISCONNECT, 2, 0, 0), both_owe, ACCEPTED);
    add(t, "take, a title of service 1", c, plain(TAKE, 0, 0, 0), owing_named_title(c), ACCEPTED);
    add(t, "take, both owe", c, plain(TAKE, 0, 0, 0), both_owe, ACCEPTED);
    add_refusals(t, c);
}

void add_speeds(table *t, const catalogue *c)
{
    desk faster = playing(c);
    make(&faster, c, written(0, MCS_PLAYBACK_SPEED, 32));
    take_until(&faster, c, 0);
    add(t, "advance, within a track, speed 32", c, plain(ADVANCE, 0, 0, 10), faster, ACCEPTED);
    add(t, "advance, Paused", c, plain(ADVANCE, 0, 0, 10), paused(c, 3), ACCEPTED);
}

void add_gotos(table *t, const catalogue *c)
{
    static const struct {
        const char *segments, *tracks;
        uint32_t steps;
    } GOTO[3] = {{"manual Goto Segment, 10 steps", "manual Goto Track, order 4, 10 steps", 10},
                 {"manual Goto Segment, 1,000 steps", "manual Goto Track, order 4, 1,000 steps", 1000},
                 {"manual Goto Segment, 100,000 steps", "manual Goto Track, order 4, 100,000 steps", 100000}};
    desk repeats = paused(c, 4);
    uint32_t k;
    for (k = 0; k < 3u; k++) {
        add(t, GOTO[k].segments, c, manual_goto(MCS_OPCODE_GOTO_SEGMENT, GOTO[k].steps), repeats, ACCEPTED);
    }
    for (k = 0; k < 3u; k++) {
        add(t, GOTO[k].tracks, c, manual_goto(MCS_OPCODE_GOTO_TRACK, GOTO[k].steps), repeats, ACCEPTED);
    }
}

void add_group_gotos(table *t, const catalogue *c)
{
    desk before = paused(c, 3);
    add(t, "manual Goto Group, 10 steps", c, manual_goto(MCS_OPCODE_GOTO_GROUP, 10), before, ACCEPTED);
    add(t, "manual Goto Group, to the stop behind the last", c, manual_goto(MCS_OPCODE_GOTO_GROUP, 1000), before, ACCEPTED);
}

void add_renamed(table *t, const catalogue *c)
{
    /* The same with a last title of the office that is no UTF-8. */
    static catalogue copies[2];
    static size_t used;
    catalogue *spoilt = &copies[used];
    desk plays = playing(c);
    uint32_t end = track_word(&c->tables, plays.state.services[MCS_GENERIC].player.track, DURATION);
    used += 1u;
    *spoilt = *c;
    spoilt->tables.office[spoilt->tables.length[OFFICE] - 1u] = 0xFF;
    add_check(t, c);
    add(t, "advance, within a track", c, plain(ADVANCE, 0, 0, 10), plays, ACCEPTED);
    add(t, "advance, to the next track", c, plain(ADVANCE, 0, 0, end), plays, ACCEPTED);
    add(t, "read, title", c, plain(READ, 3, MCS_TITLE, 0), plays, ACCEPTED);
    add(t, "take, a title", c, plain(TAKE, 0, 0, 0), owing_title(c), ACCEPTED);
    add(t, "title", c, plain(TITLE, 0, 0, 0), plays, ACCEPTED);
    add(t, "title, refused for the last one (224)", spoilt, plain(TITLE, 0, 0, 0), plays, MCS_BAD_RENAMES);
}

void add_text_checks(table *t)
{
    static catalogue none;
    static uint8_t plain_text[128], mixed_text[128];
    desk before;

    make_text(plain_text, sizeof plain_text, ASCII);
    make_text(mixed_text, sizeof mixed_text, MIXED);
    make_even(&none, "none", 0, 0, 0, 0, ASCII);
    memset(&before, 0, sizeof before);
    make(&before, &none, start(NAME, 0));
    add(t, "set name, no octets", &none, with_octets(SET_NAME, 0, 0, plain_text, 0), before, ACCEPTED);
    add(t, "set name, 128 octets, ASCII", &none, with_octets(SET_NAME, 0, 0, plain_text, 128), before, ACCEPTED);
    add(t, "set name, 128 octets, mixed", &none, with_octets(SET_NAME, 0, 0, mixed_text, 128), before, ACCEPTED);
}
