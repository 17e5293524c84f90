/* The numbers of objects and the named next track. A comment that names a rule, such as SCOPE 18.2, says it in a few words;
 * docs/SCOPE.md has the rule. */
#include "cases.h"
#include "expect.h"
#include "numbers.h"
#include "words.h"

#include <string.h>

/* ---- Steps of client 0, in the service that is tried */

static void writes(uint32_t characteristic, uint64_t object, uint32_t length, uint32_t number)
{
    step s = blank(WRITE);
    s.what = characteristic;
    s.length = length;
    mcs_put_object(s.octets, object);
    makes(s, number);
}

static void reads(uint32_t characteristic, uint64_t object)
{
    step s = blank(READ);
    s.what = characteristic;
    makes(s, 0);
    expect("the octets read", both->library_said.length, object == NO_OBJECT ? 0 : 6);
    if (object != NO_OBJECT && both->library_said.length == 6) {
        expect("the number read", (int64_t)mcs_object_at(both->library_said.out), (int64_t)object);
    }
}

/* The values of 10 to 14. */
static void reads_all(uint64_t segments, uint64_t track, uint64_t next, uint64_t parent, uint64_t group)
{
    reads(10, segments);
    reads(11, track);
    reads(12, next);
    reads(13, parent);
    reads(14, group);
}

/* The track that is named, or none. */
static void names(uint32_t track) { expect("the named track plus 1", meant().next, track + 1u); }
#define NOBODY 0xFFFFFFFFu

static void stand_named(const char *what, uint8_t order, uint32_t track, uint32_t position, uint32_t named)
{
    stand(what, order, track, position);
    writes(12, 0x1000 + named, 6, 0);
    names(named);
}

/* ---- A value of 10 to 14 is six octets, or none while Inactive, of 10 where the track has no segments, and of 12 where no next
 * track exists (SCOPE 16.5, 16.6). */

static void value_cases(void)
{
    static const struct {
        uint8_t order;
        uint32_t track;
        uint64_t next;
    } CASES[] = {
        {1, 0, NO_OBJECT}, {2, 0, 0x1000},    {3, 0, 0x1001}, {3, 1, 0x1002}, {3, 2, NO_OBJECT}, {4, 2, 0x1000},
        {5, 0, NO_OBJECT}, {5, 1, 0x1002},    {5, 2, 0x1000}, {6, 0, 0x1001}, {7, 0, 0x1001},    {7, 2, NO_OBJECT},
        {8, 2, 0x1000},    {1, 1, NO_OBJECT}, {2, 1, 0x1001}, {8, 1, 0x1002},
    };
    for (size_t k = 0; k < sizeof CASES / sizeof CASES[0]; k++) {
        uint32_t track = CASES[k].track;
        stand("the values of 10 to 14", CASES[k].order, track, 0);
        for (uint8_t opcode = 0; opcode <= MCS_OPCODE_FAST_FORWARD; opcode++) {
            if (opcode > 0) {
                commands(opcode, 0, MCS_RESULT_SUCCESS);
            }
            reads_all(track == 0 ? 0x3000u : NO_OBJECT, 0x1000u + track, CASES[k].next, 0x2000, 0x2001);
        }
    }
    now_trying("the values of 10 to 14 in a group of one track");
    activate(3, 0);
    reads_all(NO_OBJECT, 0x1003, 0x1003, 0x2000, 0x2003); /* in order 8 */
    now_trying("the values of 10 to 14 while Inactive");
    makes(blank(DEACTIVATE), 0);
    reads_all(NO_OBJECT, NO_OBJECT, NO_OBJECT, NO_OBJECT, NO_OBJECT);
}

/* ---- 0x0D is for a length other than 6 (SCOPE 20.6); 0x13 for any other number, for a group without tracks in 14, and while
 * Inactive (SCOPE 14.8) */

static void refusal_cases(void)
{
    static const uint32_t WRITABLE[3] = {11, 12, 14}, FIXED[2] = {10, 13};
    for (uint32_t k = 0; k < 3; k++) {
        uint32_t c = WRITABLE[k];
        uint64_t right = c == 14 ? 0x2001 : 0x1001;
        stand("numbers that are written", 3, 0, 5);
        for (uint32_t length = 0; length < 10; length++) {
            writes(c, right, length, length == 6 ? MCS_OK : MCS_BAD_LENGTH);
            writes(c, 0, length, length == 6 ? MCS_NOT_ALLOWED : MCS_BAD_LENGTH);
        }
        /* All 48 bits count. */
        for (uint32_t bit = 12; bit < 48; bit++) {
            writes(c, right ^ (uint64_t)1 << bit, 6, MCS_NOT_ALLOWED);
        }
        for (uint32_t number = 0; number < 0x140; number++) {
            int may = c == 14 ? number == 1 || number == 3 : number < 3;
            stand("every track and group as a number", 3, 0, 5);
            writes(c, (right & 0xF000u) + number, 6, may ? MCS_OK : MCS_NOT_ALLOWED);
        }
        makes(blank(DEACTIVATE), 0);
        writes(c, right, 6, MCS_NOT_ALLOWED);
        writes(c, right, 5, MCS_BAD_LENGTH);
    }
    stand("numbers that may not be written", 3, 0, 5);
    for (uint32_t k = 0; k < 2; k++) {
        writes(FIXED[k], 0x3000, 6, MCS_NOT_WRITABLE);
        writes(FIXED[k], 0x2000, 0, MCS_NOT_WRITABLE);
    }
    for (uint32_t c = 10; c <= 14; c++) {
        step s = blank(SUBSCRIBE), back = blank(UNSUBSCRIBE);
        s.what = back.what = c;
        makes(s, c == 10 ? MCS_NO_SLOT : MCS_OK);
        makes(back, c == 10 ? MCS_NO_SLOT : MCS_OK);
    }
    /* The opcode mask plays no part. */
    start_desk(0);
    activate(1, 0);
    connect_client(0);
    writes(11, 0x1002, 6, 0);
    writes(12, 0x1001, 6, 0);
    stands_at(1, 2, 0);
    writes(14, 0x2003, 6, 0);
    stands_at(3, 3, 0);
    takes_nothing();
}

/* ---- 11 goes to a track of the current group at 0, 14 to a group as activate does, but keeping the state, where Seeking becomes
 * Playing (SCOPE 14.2, 14.3) */

static void move_cases(void)
{
    static const struct {
        uint8_t order;
        uint32_t characteristic, number, group, track;
    } CASES[] = {
        {3, 11, 0x1002, 1, 2}, {1, 11, 0x1001, 1, 1}, {7, 11, 0x1000, 1, 0}, {3, 14, 0x2001, 1, 0},
        {5, 14, 0x2001, 1, 1}, {7, 14, 0x2001, 1, 0}, {1, 14, 0x2003, 3, 3}, {2, 14, 0x2001, 1, 0},
    };
    static const struct {
        uint8_t opcode, media;
    } STATES[] = {{MCS_OPCODE_PLAY, MCS_PLAYING},
                  {MCS_OPCODE_PAUSE, MCS_PAUSED},
                  {MCS_OPCODE_FAST_FORWARD, MCS_PLAYING},
                  {MCS_OPCODE_FAST_REWIND, MCS_PLAYING}};
    for (size_t k = 0; k < 4u * (sizeof CASES / sizeof CASES[0]); k++) {
        stand("a written number that is gone to", CASES[k / 4u].order, 0, 70);
        commands(STATES[k % 4u].opcode, 0, MCS_RESULT_SUCCESS);
        writes(CASES[k / 4u].characteristic, CASES[k / 4u].number, 6, 0);
        stands_at(CASES[k / 4u].group, CASES[k / 4u].track, 0);
        expect("the state", meant().media, STATES[k % 4u].media);
        expect("the seeking speed", meant().seeking, 0);
        expect("the order", meant().order, CASES[k / 4u].order);
    }
}

/* ---- 12 names a track of the current group that Next Track or the end of a track uses once, and Goto's steps do not; a call
 * that ends on another track or group than it began on drops it, what lies between does not (SCOPE 11.8, 14.4 to 14.6) */

/* From track 1 of group 1 at 100, in order 3, with track 0 named: neither the next by the order nor the current one. */
static void command_cases(void)
{
    static const struct {
        uint8_t opcode;
        int64_t n;
        uint8_t result;
        uint32_t group, track, position, named;
    } CASES[] = {
        {MCS_OPCODE_PLAY, 0, 1, 1, 1, 100, 0},
        {MCS_OPCODE_STOP, 0, 1, 1, 1, 0, 0},
        {MCS_OPCODE_FAST_FORWARD, 0, 1, 1, 1, 100, 0},
        {MCS_OPCODE_MOVE_RELATIVE, 1000, 1, 1, 1, 300, 0},
        {MCS_OPCODE_NEXT_SEGMENT, 0, 1, 1, 1, 300, 0},
        {MCS_OPCODE_NEXT_TRACK, 0, 1, 1, 0, 0, NOBODY},
        {MCS_OPCODE_PREVIOUS_TRACK, 0, 1, 1, 0, 0, NOBODY},
        {MCS_OPCODE_FIRST_TRACK, 0, 1, 1, 0, 0, NOBODY},
        {MCS_OPCODE_LAST_TRACK, 0, 1, 1, 2, 0, NOBODY},
        {MCS_OPCODE_GOTO_TRACK, 0, 1, 1, 1, 0, 0},
        {MCS_OPCODE_GOTO_TRACK, 2, 1, 1, 1, 0, 0},
        {MCS_OPCODE_GOTO_TRACK, -2, 1, 1, 1, 0, 0},
        {MCS_OPCODE_GOTO_TRACK, 3, 1, 1, 2, 0, NOBODY},
        {MCS_OPCODE_GOTO_TRACK, 4, 4, 1, 1, 100, 0},
        {MCS_OPCODE_PREVIOUS_GROUP, 0, 4, 1, 1, 100, 0},
        {MCS_OPCODE_NEXT_GROUP, 0, 1, 3, 3, 0, NOBODY},
        {MCS_OPCODE_FIRST_GROUP, 0, 1, 1, 0, 0, NOBODY},
        {MCS_OPCODE_LAST_GROUP, 0, 1, 3, 3, 0, NOBODY},
        {MCS_OPCODE_GOTO_GROUP, 0, 1, 1, 0, 0, NOBODY},
        {MCS_OPCODE_GOTO_GROUP, 9, 4, 1, 1, 100, 0},
        {0x7F, 0, 2, 1, 1, 100, 0},
    };
    for (size_t k = 0; k < sizeof CASES / sizeof CASES[0]; k++) {
        stand_named("a command where a track is named", 3, 1, 100, 0);
        commands(CASES[k].opcode, CASES[k].n, CASES[k].result);
        stands_at(CASES[k].group, CASES[k].track, CASES[k].position);
        names(CASES[k].named);
    }
}

/* Other calls, from the same. */
static void call_cases(void)
{
    stand_named("other calls where a track is named", 3, 1, 100, 0);
    set_name("Door");
    write_position(7);
    write_value(MCS_PLAYBACK_SPEED, "\5", 1);
    write_value(MCS_PLAYING_ORDER, "\7", 1);
    advance_by(10000);
    writes(11, 0x1003, 6, MCS_NOT_ALLOWED);
    writes(12, 0x1003, 6, MCS_NOT_ALLOWED);
    reads(12, 0x1000);
    names(0);
    stands_at(1, 1, 7);
    /* In order 7 the first is track 0, so that the group's first track is another than the current one. */
    activate(1, 0);
    stands_at(1, 0, 0);
    names(NOBODY);
    writes(12, 0x1002, 6, 0);
    activate(1, 0);
    names(2);
    writes(14, 0x2001, 6, 0);
    names(2);
    writes(11, 0x1000, 6, 0);
    names(2);
    writes(11, 0x1001, 6, 0);
    names(NOBODY);
    writes(12, 0x1001, 6, 0);
    writes(14, 0x2001, 6, 0);
    names(NOBODY);
    writes(12, 0x1001, 6, 0);
    activate(3, 0);
    names(NOBODY);
    writes(12, 0x1003, 6, 0);
    makes(blank(DEACTIVATE), 0);
    names(NOBODY);
}

/* Next Track and the end of a track use it once: in every order, also where it is the current track; then the order holds again. */
static void use_cases(void)
{
    for (uint32_t k = 0; k < 8u * 3u * 3u; k++) {
        uint8_t order = (uint8_t)(1u + k % 8u);
        uint32_t track = k / 8u % 3u, named = k / 24u;
        uint32_t duration;
        stand_named("Next Track where a track is named", order, track, 0, named);
        commands(MCS_OPCODE_NEXT_TRACK, 0, MCS_RESULT_SUCCESS);
        stands_at(1, named, 0);
        names(NOBODY);
        expect("the state", meant().media, MCS_PAUSED);
        stand_named("the end of a track where a track is named", order, track, 0, named);
        duration = track_word(&both->lent, track, DURATION);
        commands(MCS_OPCODE_PLAY, 0, MCS_RESULT_SUCCESS);
        if (duration > 0) {
            advance_by(duration - 1u);
            stands_at(1, track, duration - 1u);
            names(named);
        }
        advance_by(duration);
        stands_at(1, named, 0);
        names(NOBODY);
        expect("the state", meant().media, MCS_PLAYING);
    }
    stand_named("Next Track twice", 1, 0, 50, 0);
    commands(MCS_OPCODE_NEXT_TRACK, 0, MCS_RESULT_SUCCESS);
    commands(MCS_OPCODE_NEXT_TRACK, 0, MCS_RESULT_NOT_COMPLETED);
    stand_named("two ends past the last of a once order", 3, 2, 0, 2);
    commands(MCS_OPCODE_PLAY, 0, MCS_RESULT_SUCCESS);
    advance_by(0);
    expect("the state", meant().media, MCS_PLAYING);
    advance_by(0);
    expect("the state", meant().media, MCS_PAUSED);
    /* A Next Track that is not offered uses nothing. */
    stand_named("Next Track that is not offered", 3, 0, 50, 2);
    poke_number(player_at(MCS_IN_MASK), MCS_ALL_OPCODES & ~(1u << 12), 4);
    commands(MCS_OPCODE_NEXT_TRACK, 0, MCS_RESULT_NOT_SUPPORTED);
    stands_at(1, 0, 50);
    names(2);
}

/* A running recording never ends, and so uses no name (SCOPE 13.6). */
static void running_cases(void)
{
    static tables t;
    stand_named("a running recording", 3, 0, 50, 2);
    sample_catalogue(&t);
    t.tracks[DURATION] = MCS_RUNNING;
    lend_tables(both, &t);
    commands(MCS_OPCODE_PLAY, 0, MCS_RESULT_SUCCESS);
    advance_by(0xFFFFFFFFu);
    stands_at(1, 0, MCS_MOST_DURATION);
    names(2);
}

/* ---- 201 refuses a named next track while Inactive, or one that is not of the current group (SCOPE 20.5) */

static void has_name(uint32_t next, int right)
{
    poke_number(player_at(MCS_IN_NEXT), next, 4);
    makes(blank(TAKE), right ? MCS_OK : MCS_BAD_STATE);
    calls_give(right ? MCS_OK : MCS_BAD_STATE);
}

static void state_cases(void)
{
    static const uint32_t NEXT[] = {0, 1, 2, 3, 4, 5, 6, 256, 257, 0x80000000u, 0xFFFFFFFFu};
    for (size_t k = 0; k < sizeof NEXT / sizeof NEXT[0]; k++) {
        four_clients("a named track in a state");
        has_name(NEXT[k], NEXT[k] <= 3);
        four_clients("a named track in a state, in another group");
        activate(3, 0);
        has_name(NEXT[k], NEXT[k] == 0 || NEXT[k] == 4);
        four_clients("a named track in a state, while Inactive");
        makes(blank(DEACTIVATE), 0);
        has_name(NEXT[k], NEXT[k] == 0);
    }
}

/* ---- Slots 11 to 14 are owed on change, 11, 12 and 14 not to their writer (SCOPE 18.1, 18.4) */

/* Clients 0 and 1 have all slots of the service, and are owed nothing. */
static void stand_told(const char *what, const tables *t, uint32_t group)
{
    now_trying(what);
    begin_run(both, t);
    start_desk(MCS_ALL_OPCODES);
    activate(group, 0);
    for (uint32_t client = 0; client < 2; client++) {
        connect_client(client);
        for (uint32_t slot = 0; slot < SLOTS; slot++) {
            step s = blank(SUBSCRIBE);
            s.who = client;
            s.what = slot_at(slot);
            makes(s, 0);
        }
    }
}

/* What a client is owed, as bits by characteristic, and is not owed from then on. */
static uint32_t owed_to(uint32_t client)
{
    uint32_t owed = 0, slots = word_at(both->octets + account_at(client, MCS_IN_OWED));
    for (uint32_t bit = 0; bit < SLOTS; bit++) {
        owed |= (slots >> bit & 1u) << slot_at(bit);
    }
    poke_number(account_at(client, MCS_IN_OWED), 0, 4);
    poke_number(account_at(client, MCS_IN_WAITING), 0, 4);
    return owed;
}

#define OF(characteristic) (1u << (characteristic))
#define OF_TRACK (OF(4) | OF(5) | OF(6) | OF(7) | OF(11))

static void owes(uint32_t to_writer, uint32_t to_other)
{
    expect("what the writer is owed", owed_to(0), to_writer);
    expect("what the other is owed", owed_to(1), to_other);
}

static void told_cases(void)
{
    static const group_line folder_groups[] = {{0, 1}, {0, 2}, {1, 0}, {1, 1}};
    static const track_line folder_tracks[] = {
        {600, 1, "A", 2, {0, 150}}, {700, 2, "B", 0, {0}}, {800, 3, "C", 1, {0}}, {900, 4, "D", 0, {0}}};
    static const catalogue_lines FOLDERS = LINES(folder);
    static tables t;
    tables_of_lines(&FOLDERS, &t);
    stand_told("who is told what", &t, 1);
    reads_all(NO_OBJECT, 0x1001, 0x1002, 0x2000, 0x2001);
    writes(11, 0x1002, 6, 0);
    owes((OF_TRACK | OF(12)) & ~OF(11), OF_TRACK | OF(12));
    reads_all(0x3002, 0x1002, NO_OBJECT, 0x2000, 0x2001);
    writes(12, 0x1002, 6, 0);
    owes(0, OF(12));
    /* The same name again, and another order beside it. */
    writes(12, 0x1002, 6, 0);
    write_value(MCS_PLAYING_ORDER, "\2", 1);
    owes(0, OF(15));
    write_value(MCS_PLAYING_ORDER, "\3", 1);
    owes(0, OF(15));
    writes(14, 0x2003, 6, 0);
    owes(OF_TRACK | OF(12) | OF(13), OF_TRACK | OF(12) | OF(13) | OF(14));
    reads_all(NO_OBJECT, 0x1003, NO_OBJECT, 0x2001, 0x2003);
    /* In group 0, which is its own parent. */
    writes(14, 0x2000, 6, 0);
    owes(OF_TRACK | OF(13), OF_TRACK | OF(13) | OF(14));
    reads_all(0x3000, 0x1000, NO_OBJECT, 0x2000, 0x2000);
    writes(14, 0x2001, 6, 0);
    owes(OF_TRACK | OF(12), OF_TRACK | OF(12) | OF(14));
    /* Naming the track that comes next anyway changes no value (SCOPE 16.6). */
    writes(12, 0x1002, 6, 0);
    owes(0, 0);
    write_value(MCS_PLAYING_ORDER, "\2", 1);
    owes(0, OF(15));
    writes(11, 0x1001, 6, 0);
    owes(0, 0);
    /* The name is gone by its use, so that 12 is the order's again: in order 2 the track itself, which it was before too. */
    write_value(MCS_CONTROL_POINT, "\x31", 1);
    owes(OF_TRACK | OF(18), OF_TRACK);
    write_value(MCS_PLAYING_ORDER, "\1", 1);
    owes(OF(12), OF(12) | OF(15));
    write_value(MCS_PLAYING_ORDER, "\4", 1);
    owes(OF(12), OF(12) | OF(15));
    activate(1, 0);
    owes(OF_TRACK | OF(12), OF_TRACK | OF(12));
    makes(blank(DEACTIVATE), 0);
    owes(OF_TRACK | OF(12) | OF(13) | OF(14) | OF(17), OF_TRACK | OF(12) | OF(13) | OF(14) | OF(17));
    activate(0, 0);
    owes(OF_TRACK | OF(12) | OF(13) | OF(14) | OF(17), OF_TRACK | OF(12) | OF(13) | OF(14) | OF(17));
}

/* What is handed out is the present value: six octets, or none. */
static void taken_cases(void)
{
    stand("numbers that are taken", 3, 0, 5);
    connect_client(1);
    for (uint32_t c = 11; c <= 14; c++) {
        step s = blank(SUBSCRIBE);
        s.who = 1;
        s.what = c;
        makes(s, 0);
    }
    writes(12, 0x1002, 6, 0);
    takes(1, 12, "\2\x10\0\0\0", 6);
    takes_nothing();
    writes(12, 0x1000, 6, 0);
    writes(12, 0x1002, 6, 0);
    takes(1, 12, "\2\x10\0\0\0", 6);
    /* Track 2 was named, and now it comes next by the order. */
    writes(11, 0x1001, 6, 0);
    takes(1, 11, "\1\x10\0\0\0", 6);
    takes_nothing();
    writes(14, 0x2003, 6, 0);
    takes(1, 12, "", 0);
    takes(1, 14, "\3\x20\0\0\0", 6);
    takes(1, 11, "\3\x10\0\0\0", 6);
    takes_nothing();
    makes(blank(DEACTIVATE), 0);
    takes(1, 13, "", 0);
    takes(1, 14, "", 0);
    takes(1, 11, "", 0);
    takes_nothing();
}

/* ---- 0x80 is for all five */

static void read_on(uint32_t characteristic, uint32_t number)
{
    step s = blank(READ);
    s.what = characteristic;
    s.number = 2;
    makes(s, number);
    if (number == 0) {
        expect("the octets read", both->library_said.length, 4);
    }
}

static void mark_cases(void)
{
    static const uint32_t WRITTEN[] = {11, 12, 14};
    for (uint32_t k = 0; k < 3; k++) {
        stand("the changed mark at 10 to 14", 3, 0, 50);
        for (uint32_t c = 10; c <= 14; c++) {
            read_on(c, MCS_VALUE_CHANGED);
        }
        reads_all(0x3000, 0x1000, 0x1001, 0x2000, 0x2001);
        for (uint32_t c = 10; c <= 14; c++) {
            read_on(c, 0);
        }
        writes(WRITTEN[k], WRITTEN[k] == 14 ? 0x2003 : 0x1002, 6, 0);
        for (uint32_t c = 10; c <= 14; c++) {
            int stays = c == 13 || (c != 12 && WRITTEN[k] == 12) || (c == 14 && WRITTEN[k] == 11);
            read_on(c, stays ? MCS_OK : MCS_VALUE_CHANGED);
        }
    }
}

static void cases_of_a_service(void)
{
    value_cases();
    refusal_cases();
    move_cases();
    command_cases();
    call_cases();
    use_cases();
    running_cases();
    state_cases();
    told_cases();
    taken_cases();
    mark_cases();
}

static void all_numbers(void) { in_each_service(cases_of_a_service); }

unsigned long play_numbers(FILE *out, run *r) { return expect_on(r, out, all_numbers); }
