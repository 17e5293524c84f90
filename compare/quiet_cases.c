/* Screens that agree when things go quiet. A comment that names a rule, such as SCOPE 18.2, says it in a few words;
 * docs/SCOPE.md has the rule. */
#include "cases.h"
#include "expect.h"
#include "quiet.h"

#include <string.h>

/* ---- Steps of any client, in the service that is tried */

static void goes(uint32_t client)
{
    step s = blank(DISCONNECT);
    s.who = client;
    makes(s, 0);
}

static void unsubscribe_from(uint32_t client, uint32_t characteristic)
{
    step s = blank(UNSUBSCRIBE);
    s.who = client;
    s.what = characteristic;
    makes(s, 0);
}

static void commands_by(uint32_t client, uint8_t opcode) { write_by(client, MCS_CONTROL_POINT, &opcode, 1); }

/* What a client reads of a value. */
static void reads(uint32_t client, uint32_t characteristic, const void *octets, uint32_t length)
{
    const answer *a = &both->library_said;
    step s = blank(READ);
    s.who = client;
    s.what = characteristic;
    makes(s, 0);
    expect("the octets read", a->length, length);
    expect("octets read that differ", a->length == length && memcmp(a->out, octets, length) == 0, 1);
}

/* A desk on the sample: group 1 in order 3, Paused on track 0, with the clients 0 and 1, of whom nobody is subscribed. */
static void quiet_desk(const char *what)
{
    begin_desk(what, &SAMPLE_LINES);
    activate(1, 0);
    connect_with(0, 23);
    connect_with(1, 23);
}

/* Nothing is owed: what each client knows of what changed is what it has to know, and what is read. */
static void is_quiet(void)
{
    step s = blank(READ_SCREENS);
    takes_nothing();
    expect("what is owed", all_owed(both->octets), 0);
    expect("whether the screens show what is read", do_step(both, &s), 1);
}

/* What a client knows of a slot that changed since it subscribed, and how, in both programs. */
static void knows(uint32_t client, uint32_t characteristic, uint32_t by, const void *octets, uint32_t length)
{
    for (uint32_t program = 0; program < PROGRAMS; program++) {
        const knowledge *n = known_of(&both->shown[program], client, tried_service, characteristic);
        expect("whether the history is followed", both->shown[program].following, 1);
        expect("whether the slot changed while subscribed", n->subscribed && n->changed, 1);
        expect("how the client knows it", n->by, by);
        expect("whether it knows that", n->length == length && memcmp(n->octets, octets, length) == 0, 1);
    }
}

/* Nothing has changed since the client subscribed, so that nothing is said of what it knows. */
static void has_no_claim(uint32_t client, uint32_t characteristic)
{
    for (uint32_t program = 0; program < PROGRAMS; program++) {
        const knowledge *n = known_of(&both->shown[program], client, tried_service, characteristic);
        expect("whether the slot is subscribed to", n->subscribed, 1);
        expect("whether it changed since", n->changed, 0);
    }
}

/* Tracks and groups by their numbers as objects, with the length of such a value. */
#define OBJECT(low, kind) low kind "\0\0\0", MCS_OBJECT_OCTETS
#define TRACK_0 OBJECT("\0", "\x10")
#define TRACK_1 OBJECT("\1", "\x10")
#define TRACK_2 OBJECT("\2", "\x10")
#define GROUP_0 OBJECT("\0", "\x20")
#define GROUP_1 OBJECT("\1", "\x20")
#define GROUP_2 OBJECT("\2", "\x20")
#define GROUP_3 OBJECT("\3", "\x20")

/* ---- After at most 168 takes nothing more is owed (SCOPE 21.11): a history after which it is 168 */

/* What is handed out by place, but for the name: track 0 of group 1, in order 3, whose next track is 1, Seeking at 32. */
static const struct {
    uint32_t characteristic;
    const char *octets;
    uint32_t length;
} OWED[SLOTS] = {
    {1, "", 0},    {4, "", 0},     {5, u8"Überfahrt", 10}, {6, "\x70\x17\0\0", 4}, {7, "\0\0\0\0", 4},
    {8, "\2", 1},  {9, "\x20", 1}, {11, TRACK_0},          {12, TRACK_1},          {13, GROUP_0},
    {14, GROUP_1}, {15, "\3", 1},  {17, "\3", 1},          {18, "\4\1", 2},
};
static const char *const NAMED[MCS_SERVICES] = {"Zero", "One"};

/* From Inactive 4, 5, 6, 7, 11 to 14 and 17 change by an activation. 8 and 15 are written by two clients, so that either is owed
 * the other's; the order is 3 again then. Fast Forward, written eight times by each client, is Seeking at 4 and goes to the end
 * rung 32: 9 changes, and all results are 1. */
static void owe_all(void)
{
    begin_desk("all that can be owed, from a start on", &SAMPLE_LINES);
    for (uint32_t client = 0; client < MCS_CLIENTS; client++) {
        connect_with(client, 23);
    }
    for (tried_service = 0; tried_service < MCS_SERVICES; tried_service++) {
        for (uint32_t k = 0; k < MCS_CLIENTS * SLOTS; k++) {
            subscribe_to(k / SLOTS, OWED[k % SLOTS].characteristic);
        }
        set_name(NAMED[tried_service]);
        activate(1, 0);
        write_by(0, MCS_PLAYBACK_SPEED, "\1", 1);
        write_by(1, MCS_PLAYBACK_SPEED, "\2", 1);
        write_by(0, MCS_PLAYING_ORDER, "\4", 1);
        write_by(1, MCS_PLAYING_ORDER, "\3", 1);
        for (uint32_t k = 0; k < 8u * MCS_CLIENTS; k++) {
            commands_by(k % MCS_CLIENTS, MCS_OPCODE_FAST_FORWARD);
        }
    }
}

/* The clients by turns, and each one's places in order: the first 112 takes serve every place once, and the 56 behind them the
 * seven results that are left in each service, by turns. */
static void most_takes_cases(void)
{
    owe_all();
    expect("the most that can be owed", MCS_MOST_OWED, 168);
    expect("what is owed", all_owed(both->octets), 168);
    for (uint32_t k = 0; k < 168; k++) {
        uint32_t round = k / MCS_CLIENTS, place = round < PLACES ? round : round % 2u == 0 ? 13 : 27;
        uint32_t slot = place % SLOTS;
        tried_service = place / SLOTS;
        if (slot == 0) {
            takes(k % MCS_CLIENTS, MCS_NAME, NAMED[tried_service], (uint32_t)strlen(NAMED[tried_service]));
        } else {
            takes(k % MCS_CLIENTS, OWED[slot].characteristic, OWED[slot].octets, OWED[slot].length);
        }
        expect("what is still owed", all_owed(both->octets), 167 - k);
    }
    is_quiet();
    is_quiet();
    for (uint32_t k = 0; k < MCS_SERVICES * MCS_CLIENTS; k++) {
        tried_service = k / MCS_CLIENTS;
        for (uint32_t slot = 1; slot < SLOTS; slot++) {
            if (is_claimed(OWED[slot].characteristic)) {
                knows(k % MCS_CLIENTS, OWED[slot].characteristic, BY_TAKE, OWED[slot].octets, OWED[slot].length);
            }
        }
    }
    tried_service = MCS_GENERIC;
}

/* ---- A client knows what it last took, or itself wrote with success since (SCOPE 21.12) */

/* 8, 11, 12, 14 and 15 are not owed to the client that wrote them (SCOPE 18.4). Each is another value than there is: speed 0,
 * order 3, track 0 of group 1, next track 1. */
static void writer_cases(void)
{
    static const struct {
        uint32_t characteristic;
        const char *octets;
        uint32_t length;
    } WRITTEN[] = {
        {8, "\xC0", 1}, {11, TRACK_2}, {12, TRACK_2}, {14, GROUP_3}, {15, "\1", 1},
    };
    for (size_t k = 0; k < sizeof WRITTEN / sizeof WRITTEN[0]; k++) {
        uint32_t c = WRITTEN[k].characteristic;
        quiet_desk("a writer that is not owed what it wrote");
        subscribe_to(0, c);
        subscribe_to(1, c);
        write_by(0, c, WRITTEN[k].octets, WRITTEN[k].length);
        expect("what is owed", all_owed(both->octets), 1);
        takes(1, c, WRITTEN[k].octets, WRITTEN[k].length);
        is_quiet();
        knows(0, c, BY_WRITE, WRITTEN[k].octets, WRITTEN[k].length);
        knows(1, c, BY_TAKE, WRITTEN[k].octets, WRITTEN[k].length);
        reads(0, c, WRITTEN[k].octets, WRITTEN[k].length);
    }
}

/* What is already owed stays owed until served or dropped, also when the value changes back or the client writes it (SCOPE
 * 18.6). */
static void later_cases(void)
{
    quiet_desk("a value that another client changes and changes back");
    subscribe_to(0, MCS_PLAYBACK_SPEED);
    write_by(0, MCS_PLAYBACK_SPEED, "\5", 1);
    write_by(1, MCS_PLAYBACK_SPEED, "\6", 1);
    write_by(1, MCS_PLAYBACK_SPEED, "\5", 1);
    takes(0, MCS_PLAYBACK_SPEED, "\5", 1);
    is_quiet();
    knows(0, MCS_PLAYBACK_SPEED, BY_TAKE, "\5", 1);

    quiet_desk("a client that writes what it is owed");
    subscribe_to(0, MCS_PLAYBACK_SPEED);
    write_by(1, MCS_PLAYBACK_SPEED, "\5", 1);
    write_by(0, MCS_PLAYBACK_SPEED, "\6", 1);
    knows(0, MCS_PLAYBACK_SPEED, BY_WRITE, "\6", 1);
    takes(0, MCS_PLAYBACK_SPEED, "\6", 1);
    is_quiet();
    knows(0, MCS_PLAYBACK_SPEED, BY_TAKE, "\6", 1);

    quiet_desk("a client that writes behind its take");
    subscribe_to(0, MCS_PLAYING_ORDER);
    write_by(1, MCS_PLAYING_ORDER, "\5", 1);
    takes(0, MCS_PLAYING_ORDER, "\5", 1);
    write_by(0, MCS_PLAYING_ORDER, "\7", 1);
    is_quiet();
    knows(0, MCS_PLAYING_ORDER, BY_WRITE, "\7", 1);
    write_by(1, MCS_PLAYING_ORDER, "\5", 1);
    takes(0, MCS_PLAYING_ORDER, "\5", 1);
    is_quiet();
    knows(0, MCS_PLAYING_ORDER, BY_TAKE, "\5", 1);
}

/* Only the slot that is written is spared. */
static void other_slot_cases(void)
{
    static const group_line nested_groups[] = {{0, 1}, {0, 1}, {1, 1}};
    static const track_line nested_tracks[] = {{100, 1, "a", 0, {0}}, {200, 2, "b", 0, {0}}, {300, 3, "c", 0, {0}}};
    static const catalogue_lines NESTED = LINES(nested);

    quiet_desk("the writer of 15, which is owed 12");
    write_by(1, MCS_TRACK_OBJECT, TRACK_2); /* the last one, of which no next track exists in order 3, but in order 4 */
    subscribe_to(0, MCS_NEXT_TRACK_OBJECT);
    subscribe_to(0, MCS_PLAYING_ORDER);
    write_by(0, MCS_PLAYING_ORDER, "\4", 1);
    takes(0, MCS_NEXT_TRACK_OBJECT, TRACK_0);
    is_quiet();
    knows(0, MCS_PLAYING_ORDER, BY_WRITE, "\4", 1);
    knows(0, MCS_NEXT_TRACK_OBJECT, BY_TAKE, TRACK_0);

    quiet_desk("the writer of 11, which is owed 12");
    subscribe_to(0, MCS_TRACK_OBJECT);
    subscribe_to(0, MCS_NEXT_TRACK_OBJECT);
    write_by(0, MCS_TRACK_OBJECT, TRACK_1);
    takes(0, MCS_NEXT_TRACK_OBJECT, TRACK_2);
    is_quiet();
    knows(0, MCS_TRACK_OBJECT, BY_WRITE, TRACK_1);
    knows(0, MCS_NEXT_TRACK_OBJECT, BY_TAKE, TRACK_2);

    /* From group 1, whose parent is 0, to group 2, whose parent is 1; in order 4 the one track of a group is the next one too. */
    begin_desk("the writer of 14, which is owed 11, 12 and 13", &NESTED);
    activate(1, 0);
    connect_with(0, 23);
    write_by(0, MCS_PLAYING_ORDER, "\4", 1);
    for (uint32_t c = MCS_TRACK_OBJECT; c <= MCS_GROUP_OBJECT; c++) {
        subscribe_to(0, c);
    }
    write_by(0, MCS_GROUP_OBJECT, GROUP_2);
    takes(0, MCS_TRACK_OBJECT, TRACK_2);
    takes(0, MCS_NEXT_TRACK_OBJECT, TRACK_2);
    takes(0, MCS_PARENT_GROUP_OBJECT, GROUP_1);
    is_quiet();
    knows(0, MCS_GROUP_OBJECT, BY_WRITE, GROUP_2);
    knows(0, MCS_PARENT_GROUP_OBJECT, BY_TAKE, GROUP_1);
}

/* 12 names a track that Next Track or the end of a track uses once (SCOPE 14.4, 14.5). */
static void name_cases(void)
{
    quiet_desk("a name that another client uses");
    subscribe_to(0, MCS_NEXT_TRACK_OBJECT);
    write_by(0, MCS_NEXT_TRACK_OBJECT, TRACK_2);
    is_quiet();
    knows(0, MCS_NEXT_TRACK_OBJECT, BY_WRITE, TRACK_2);
    commands_by(1, MCS_OPCODE_NEXT_TRACK); /* to track 2, behind which there is none in order 3 */
    takes(0, MCS_NEXT_TRACK_OBJECT, "", 0);
    is_quiet();
    knows(0, MCS_NEXT_TRACK_OBJECT, BY_TAKE, "", 0);

    quiet_desk("the name of the current track, which its end uses");
    subscribe_to(0, MCS_NEXT_TRACK_OBJECT);
    commands_by(1, MCS_OPCODE_PLAY);
    write_by(0, MCS_NEXT_TRACK_OBJECT, TRACK_0);
    is_quiet();
    advance_by(6000);
    stands_at(1, 0, 0);
    takes(0, MCS_NEXT_TRACK_OBJECT, TRACK_1);
    is_quiet();
    knows(0, MCS_NEXT_TRACK_OBJECT, BY_TAKE, TRACK_1);

    quiet_desk("the name of the track that comes next anyway");
    subscribe_to(0, MCS_NEXT_TRACK_OBJECT);
    write_by(0, MCS_NEXT_TRACK_OBJECT, TRACK_1);
    is_quiet();
    has_no_claim(0, MCS_NEXT_TRACK_OBJECT);
    write_by(1, MCS_PLAYING_ORDER, "\1", 1); /* a name hides the order's */
    is_quiet();
    has_no_claim(0, MCS_NEXT_TRACK_OBJECT);
}

/* ---- It holds of every subscribed slot that changed since subscribing (SCOPE 21.12) */

static void subscription_cases(void)
{
    quiet_desk("a value that changes between two subscriptions");
    subscribe_to(0, MCS_PLAYBACK_SPEED);
    write_by(1, MCS_PLAYBACK_SPEED, "\5", 1);
    takes(0, MCS_PLAYBACK_SPEED, "\5", 1);
    subscribe_to(0, MCS_PLAYBACK_SPEED); /* subscribing twice changes nothing (SCOPE 17.10) */
    knows(0, MCS_PLAYBACK_SPEED, BY_TAKE, "\5", 1);
    unsubscribe_from(0, MCS_PLAYBACK_SPEED);
    write_by(1, MCS_PLAYBACK_SPEED, "\6", 1);
    subscribe_to(0, MCS_PLAYBACK_SPEED);
    is_quiet();
    has_no_claim(0, MCS_PLAYBACK_SPEED); /* what it took is 5, and the value 6 */
    write_by(1, MCS_PLAYBACK_SPEED, "\7", 1);
    takes(0, MCS_PLAYBACK_SPEED, "\7", 1);
    is_quiet();
    knows(0, MCS_PLAYBACK_SPEED, BY_TAKE, "\7", 1);

    quiet_desk("what is owed, and dropped by unsubscribing");
    subscribe_to(0, MCS_PLAYBACK_SPEED);
    write_by(1, MCS_PLAYBACK_SPEED, "\5", 1);
    unsubscribe_from(0, MCS_PLAYBACK_SPEED);
    subscribe_to(0, MCS_PLAYBACK_SPEED);
    is_quiet();
    has_no_claim(0, MCS_PLAYBACK_SPEED);

    quiet_desk("a write before subscribing");
    write_by(0, MCS_PLAYBACK_SPEED, "\5", 1);
    subscribe_to(0, MCS_PLAYBACK_SPEED);
    is_quiet();
    has_no_claim(0, MCS_PLAYBACK_SPEED);

    quiet_desk("a write of the value that is there");
    subscribe_to(0, MCS_PLAYING_ORDER);
    subscribe_to(1, MCS_PLAYING_ORDER);
    write_by(0, MCS_PLAYING_ORDER, "\3", 1);
    is_quiet();
    has_no_claim(0, MCS_PLAYING_ORDER);
    has_no_claim(1, MCS_PLAYING_ORDER);

    /* 4 is owed whenever the track number changes, to or from none too (SCOPE 18.2), and it is empty. */
    quiet_desk("Track Changed");
    subscribe_to(0, MCS_TRACK_CHANGED);
    is_quiet();
    has_no_claim(0, MCS_TRACK_CHANGED);
    makes(blank(DEACTIVATE), 0);
    activate(1, 0);
    takes(0, MCS_TRACK_CHANGED, "", 0);
    is_quiet();
    knows(0, MCS_TRACK_CHANGED, BY_TAKE, "", 0);
}

/* Of the same slot in the other service nothing is known, and nothing has to be. */
static void other_service_cases(void)
{
    uint32_t here = tried_service, there = (tried_service + 1u) % MCS_SERVICES;
    quiet_desk("a value of one service alone");
    subscribe_to(0, MCS_PLAYBACK_SPEED);
    tried_service = there;
    subscribe_to(0, MCS_PLAYBACK_SPEED);
    tried_service = here;
    write_by(0, MCS_PLAYBACK_SPEED, "\5", 1);
    is_quiet();
    knows(0, MCS_PLAYBACK_SPEED, BY_WRITE, "\5", 1);
    tried_service = there;
    has_no_claim(0, MCS_PLAYBACK_SPEED);
    write_by(1, MCS_PLAYBACK_SPEED, "\6", 1);
    takes(0, MCS_PLAYBACK_SPEED, "\6", 1);
    tried_service = here;
    is_quiet();
    knows(0, MCS_PLAYBACK_SPEED, BY_WRITE, "\5", 1);
}

/* ---- What is known is the present value as far as ATT_MTU − 3 reaches (SCOPE 21.12) */

static void reach_cases(void)
{
    static const char LONG_NAME[] = "Interviews of the autumn, in forty-eight octets.";
    static const group_line yard_groups[] = {{0, 3}};
    static const track_line yard_tracks[] = {{100, 1, "In the yard, evening, one", 0, {0}},
                                             {200, 2, "In the yard, evening, two", 0, {0}},
                                             {300, 3, "In the yard, evening", 0, {0}}};
    static const catalogue_lines YARD = LINES(yard);

    quiet_desk("a client that comes again with another ATT_MTU");
    subscribe_to(0, MCS_NAME);
    set_name(LONG_NAME);
    takes(0, MCS_NAME, LONG_NAME, 20);
    is_quiet();
    knows(0, MCS_NAME, BY_TAKE, LONG_NAME, 20);
    goes(0);
    connect_with(0, 33);
    set_name("A name");
    is_quiet();
    subscribe_to(0, MCS_NAME);
    is_quiet();
    has_no_claim(0, MCS_NAME);
    set_name(LONG_NAME);
    takes(0, MCS_NAME, LONG_NAME, 30);
    is_quiet();
    knows(0, MCS_NAME, BY_TAKE, LONG_NAME, 30);

    /* The three titles have their first 20 octets in common. */
    begin_desk("a title that changes behind what is handed out of it", &YARD);
    activate(0, 0);
    connect_with(0, 23);
    connect_with(1, 517);
    subscribe_to(0, MCS_TITLE);
    subscribe_to(1, MCS_TITLE);
    for (uint32_t k = 1; k < 3; k++) {
        uint32_t whole = (uint32_t)strlen(yard_tracks[k].title);
        commands_by(1, MCS_OPCODE_NEXT_TRACK);
        takes(0, MCS_TITLE, yard_tracks[0].title, 20);
        takes(1, MCS_TITLE, yard_tracks[k].title, whole);
        is_quiet();
        knows(0, MCS_TITLE, BY_TAKE, yard_tracks[0].title, 20);
        knows(1, MCS_TITLE, BY_TAKE, yard_tracks[k].title, whole);
    }
}

/* ---- 7 and 18 are left out (SCOPE 21.12): of the position it does not hold, since 7 is not owed when an advance in Playing
 * stays below D (SCOPE 18.3) */

static void position_cases(void)
{
    quiet_desk("a position that has moved on since it was taken");
    subscribe_to(0, MCS_POSITION);
    commands_by(1, MCS_OPCODE_PLAY);
    write_by(1, MCS_POSITION, "\x64\0\0\0", 4);
    takes(0, MCS_POSITION, "\x64\0\0\0", 4);
    advance_by(50);
    is_quiet();
    reads(0, MCS_POSITION, "\x96\0\0\0", 4);

    /* A written position is no value either: -4000 leads to 2000 of 6000. Its writer is owed it. */
    quiet_desk("a position that is written");
    subscribe_to(0, MCS_POSITION);
    write_by(0, MCS_POSITION, "\x60\xF0\xFF\xFF", 4);
    takes(0, MCS_POSITION, "\xD0\x07\0\0", 4);
    is_quiet();
}

/* ---- What is told where it is not so: each case is right but for one thing that a client is made to know, or not to know */

enum { ANOTHER_OCTET, ONE_OCTET_LESS, NOTHING_LEARNT, A_TAKE_TOO_MANY, WRONG_WAYS };

static void know_otherwise(screens *k, uint32_t way)
{
    knowledge *n = known_of(k, 0, tried_service, MCS_NAME);
    switch (way) {
    case ANOTHER_OCTET:
        n->octets[19]++;
        break;
    case ONE_OCTET_LESS:
        n->length--;
        break;
    case NOTHING_LEARNT:
        n->by = NOT_KNOWN;
        break;
    default:
        k->takes++;
        break;
    }
}

static void wrong_cases(void)
{
    static const char *const WHOSE[PROGRAMS] = {"the library:", "the second program:"};
    for (uint32_t k = 0; k < PROGRAMS * WRONG_WAYS; k++) {
        step take = blank(TAKE), look = blank(READ_SCREENS);
        uint32_t program = k % PROGRAMS, way = k / PROGRAMS;
        quiet_desk("a screen that does not show what it has to");
        subscribe_to(0, MCS_NAME);
        set_name("A name of more than twenty octets");
        takes(0, MCS_NAME, "A name of more than ", 20);
        know_otherwise(&both->shown[program], way);
        expect("a take that is right", do_step(both, &take), 0);
        expect("whose screens it is told of", strncmp(both->difference, WHOSE[program], strlen(WHOSE[program])), 0);
        expect("whether reads are right", do_step(both, &look), way == A_TAKE_TOO_MANY);
    }
}

static void cases_of_a_service(void)
{
    writer_cases();
    later_cases();
    other_slot_cases();
    name_cases();
    subscription_cases();
    other_service_cases();
    reach_cases();
    position_cases();
    wrong_cases();
}

static void all_quiet(void)
{
    most_takes_cases();
    in_each_service(cases_of_a_service);
}

unsigned long play_quiet(FILE *out, run *r) { return expect_on(r, out, all_quiet); }
