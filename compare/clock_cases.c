/* The clock and the rest. A comment that names a rule, such as SCOPE 18.2, says it in a few words; docs/SCOPE.md has the rule. */
#include "cases.h"
#include "clock.h"
#include "expect.h"
#include "service.h"
#include "words.h"

#include <string.h>

enum { LEAST_SPEED = -128, MOST_SPEED = 127 };

/* ---- Where the player stands */

static void has_speed(int speed) { poke_number(player_at(MCS_IN_SPEED), (uint8_t)speed, 1); }
static void has_rest(uint32_t rest) { poke_number(player_at(MCS_IN_REST), rest, 4); }
static void has_position(uint32_t position) { poke_number(player_at(MCS_IN_POSITION), position, 4); }

/* The media state; the seeking speed is 4 while Seeking, and else 0. */
static void has_media(uint32_t media)
{
    poke_number(player_at(MCS_IN_MEDIA_STATE), media, 1);
    poke_number(player_at(MCS_IN_SEEKING), media == MCS_SEEKING ? 4 : 0, 1);
}

static void rests(uint32_t rest) { expect("the rest", meant().rest, rest); }
static void is_in(uint32_t media) { expect("the state", meant().media, media); }

/* Playing on a track of group 1 of the sample, with client 0. */
static void play(const char *what, uint8_t order, uint32_t track, uint32_t position, int speed, uint32_t rest)
{
    stand(what, order, track, position);
    has_speed(speed);
    has_rest(rest);
    commands(MCS_OPCODE_PLAY, 0, MCS_RESULT_SUCCESS);
    rests(rest);
}

/* The same on track 0, which is a running recording. */
static void play_running(const char *what, uint32_t position, int speed, uint32_t rest)
{
    static tables t;
    play(what, 3, 0, 0, speed, rest);
    sample_catalogue(&t);
    t.tracks[DURATION] = MCS_RUNNING;
    lend_tables(both, &t);
    has_position(position);
}

/* ---- A clock step of d in Playing adds d times e to the rest, advances by the whole 65,536ths (more than 8,640,000 counts as
 * that) and keeps the rest, 0 to 65,535 (SCOPE 13.3). e is 16384 at −128, 16562 at −127, 32768 at −64, 45842 at −33, 46341 at
 * −32, 64830 at −1, 65536 at 0, 66250 at 1, 92682 at 32, 131072 at 64, 256527 at 126 and 259320 at 127. */

static void step_cases(void)
{
    static const struct {
        int speed;
        uint32_t position, rest, d, to, leaves;
    } CASES[] = {
        {0, 100, 0, 25, 125, 0},          {0, 100, 40000, 25, 125, 40000},
        {0, 100, 65535, 0, 100, 65535},   {-64, 100, 0, 1, 100, 32768},
        {-64, 100, 32767, 1, 100, 65535}, {-64, 100, 32768, 1, 101, 0},
        {-64, 100, 0, 25, 112, 32768},    {-64, 100, 32768, 25, 113, 0},
        {-64, 100, 65535, 0, 100, 65535}, {64, 100, 0, 1, 102, 0},
        {64, 100, 7, 25, 150, 7},         {-128, 100, 0, 3, 100, 49152},
        {-128, 100, 49152, 1, 101, 0},    {-127, 100, 65535, 3, 101, 49685},
        {127, 100, 0, 1, 103, 62712},     {127, 100, 62712, 1, 104, 59888},
        {126, 0, 1, 1000, 3914, 19097},   {1, 100, 0, 100, 201, 5864},
        {-1, 100, 0, 100, 198, 60472},    {32, 100, 0, 10, 114, 9316},
        {-32, 100, 0, 10, 107, 4658},     {-33, 4000, 60000, 777, 4544, 27650},
    };
    for (size_t k = 0; k < sizeof CASES / sizeof CASES[0]; k++) {
        play("a step of the clock", 3, 0, CASES[k].position, CASES[k].speed, CASES[k].rest);
        advance_by(CASES[k].d);
        stands_at(1, 0, CASES[k].to);
        rests(CASES[k].leaves);
        is_in(MCS_PLAYING);
    }
}

/* Every entry of the table: a hundredth of time gives e as a whole part and a rest, 65,536 of them give e as the position, and as many
 * short steps lead as far as a long one. */
static void table_cases(void)
{
    for (int speed = LEAST_SPEED; speed <= MOST_SPEED; speed++) {
        uint32_t e = e_of(speed), steps = 0;
        play_running("every speed", 0, speed, 0);
        advance_by(1);
        stands_at(1, 0, e / 65536u);
        rests(e % 65536u);
        has_position(0);
        has_rest(0);
        advance_by(65536);
        stands_at(1, 0, e);
        rests(0);
        has_position(0);
        for (uint32_t d = 0; d < 20; d++) {
            advance_by(d);
            steps += d;
        }
        stands_at(1, 0, steps * e / 65536u);
        rests(steps * e % 65536u);
    }
}

/* The speed that counts is the one that the step finds (SCOPE 13.11), and writing 8 keeps the rest (SCOPE 13.10). */
static void changing_cases(void)
{
    play("a speed that is written between steps", 3, 0, 100, -64, 0);
    advance_by(1);
    write_value(MCS_PLAYBACK_SPEED, "\0", 1);
    stands_at(1, 0, 100);
    rests(32768);
    advance_by(1);
    stands_at(1, 0, 101);
    rests(32768);
    write_value(MCS_PLAYBACK_SPEED, "\x80", 1);
    advance_by(1);
    stands_at(1, 0, 101);
    rests(49152);
    write_value(MCS_PLAYBACK_SPEED, "\x40", 1);
    advance_by(1);
    stands_at(1, 0, 103);
    rests(49152);
    write_value(MCS_PLAYBACK_SPEED, "\xC0", 1);
    advance_by(1);
    stands_at(1, 0, 104);
    rests(16384);
}

/* ---- Position plus the whole part decides whether the track ends: track 1 has 300 hundredths, and track 2, which comes next, none */

static void end_cases(void)
{
    static const struct {
        int speed;
        uint32_t position, rest, d, to, leaves;
        int ends;
    } CASES[] = {
        {0, 0, 0, 299, 299, 0, 0},         {0, 0, 0, 300, 0, 0, 1},
        {0, 299, 65535, 0, 299, 65535, 0}, {0, 299, 65535, 1, 0, 0, 1},
        {-64, 0, 0, 300, 150, 0, 0},       {-64, 0, 0, 599, 299, 32768, 0},
        {-64, 0, 0, 600, 0, 0, 1},         {-64, 299, 32767, 1, 299, 65535, 0},
        {-64, 299, 32768, 1, 0, 0, 1},     {64, 0, 0, 149, 298, 0, 0},
        {64, 0, 0, 150, 0, 0, 1},          {64, 0, 9, 149, 298, 9, 0},
        {64, 1, 0, 149, 299, 0, 0},        {127, 0, 0, 75, 296, 50344, 0},
        {127, 0, 0, 76, 0, 0, 1},          {-128, 0, 0, 1199, 299, 49152, 0},
        {-128, 0, 0, 1200, 0, 0, 1},       {0, 300, 0, 0, 0, 0, 1},
        {-128, 300, 5, 0, 0, 0, 1},        {127, 300, 65535, 0, 0, 0, 1},
    };
    for (size_t k = 0; k < sizeof CASES / sizeof CASES[0]; k++) {
        play("the end of a track by the clock", 3, 1, CASES[k].position, CASES[k].speed, CASES[k].rest);
        advance_by(CASES[k].d);
        stands_at(1, CASES[k].ends ? 2 : 1, CASES[k].to);
        rests(CASES[k].leaves);
        is_in(MCS_PLAYING);
    }
}

/* Times whose product with e, or the whole part of that, is little without the bits from 32 up. */
static void long_cases(void)
{
    static const uint32_t TIMES[] = {0x10000u,    0x20000u,    0x40000000u, 0x80000000u,
                                     0x80000001u, 0xC0000000u, 0xFFFF0000u, 0xFFFFFFFFu};
    for (uint32_t k = 0; k < 256u * (sizeof TIMES / sizeof TIMES[0]); k++) {
        int speed = LEAST_SPEED + (int)(k % 256u);
        uint32_t d = TIMES[k / 256u];
        play("a long time", 3, 0, 0, speed, 65535);
        advance_by(d);
        stands_at(1, 1, 0);
        rests(0);
        if (d > 0x20000u) {
            play_running("a long time of a running recording", 100, speed, 77);
            advance_by(d);
            stands_at(1, 0, MCS_MOST_DURATION);
            rests(77);
        }
    }
}

/* Where a track's end leads: in order 1 nowhere, in order 2 to itself, else to the next track, or to a named one. */
static void ended_cases(void)
{
    for (uint8_t order = 1; order <= 3; order++) {
        play("where a track's end leads", order, 0, 5999, -64, 40000);
        advance_by(1);
        stands_at(1, order == 3 ? 1 : 0, order == 1 ? 6000 : 0);
        rests(0);
        is_in(order == 1 ? MCS_PAUSED : MCS_PLAYING);
        play("where a track's end leads, with a named track", order, 0, 5999, -64, 40000);
        poke_number(player_at(MCS_IN_NEXT), 1u + 2u, 4);
        advance_by(1);
        stands_at(1, 2, 0);
        rests(0);
        is_in(MCS_PLAYING);
    }
    /* A call makes at most one such move (SCOPE 13.5). */
    play("one move in a call", 3, 0, 0, 127, 65535);
    advance_by(0xFFFFFFFFu);
    stands_at(1, 1, 0);
    advance_by(0xFFFFFFFFu);
    stands_at(1, 2, 0);
    advance_by(0);
    stands_at(1, 2, 0);
    is_in(MCS_PAUSED);
}

/* ---- A running recording: at 8,640,000 the player stays there in its state (SCOPE 13.6), and its rest stays what it was before
 * the step */

static void held_cases(void)
{
    static const struct {
        int speed;
        uint32_t position, rest, d, to, leaves;
    } CASES[] = {
        {0, 8639998, 65535, 1, 8639999, 65535},   {0, 8639999, 65535, 0, 8639999, 65535},
        {0, 8639999, 65535, 1, 8640000, 65535},   {-64, 8639999, 32767, 1, 8639999, 65535},
        {-64, 8639999, 32768, 1, 8640000, 32768}, {64, 8639998, 3, 1, 8640000, 3},
        {64, 8639997, 3, 1, 8639999, 3},          {127, 8639999, 0, 1, 8640000, 0},
        {-128, 8640000, 5, 0, 8640000, 5},        {-128, 8640000, 65535, 1, 8640000, 65535},
        {0, 0, 9, 8640000, 8640000, 9},           {0, 0, 9, 8639999, 8639999, 9},
    };
    for (size_t k = 0; k < sizeof CASES / sizeof CASES[0]; k++) {
        play_running("a running recording near its most", CASES[k].position, CASES[k].speed, CASES[k].rest);
        advance_by(CASES[k].d);
        stands_at(1, 0, CASES[k].to);
        rests(CASES[k].leaves);
        is_in(MCS_PLAYING);
    }
    /* 7 is owed where the step comes there, and not where it stays. */
    play_running("who is told of a recording that is held", 8639999, -64, 32768);
    subscribe_to(0, MCS_POSITION);
    advance_by(1);
    takes(0, MCS_POSITION, "\x00\xD6\x83\x00", 4);
    advance_by(1);
    advance_by(0xFFFFFFFFu);
    takes_nothing();
    rests(32768);
    /* Of a running recording a negative position write is accepted and moves nothing (SCOPE 9.9); any other sets the position,
     * also where it is. */
    write_position(-1);
    write_position(-2147483647 - 1);
    rests(32768);
    write_position(MCS_MOST_DURATION);
    rests(0);
    stands_at(1, 0, MCS_MOST_DURATION);
    takes_nothing();
}

/* ---- The rest becomes 0 whenever anything but a clock step in Playing within a track sets the position (SCOPE 13.9). */

#define A_REST 12345u

static void command_cases(void)
{
    static const struct {
        uint8_t opcode;
        int64_t n;
        uint32_t track, position;
        uint8_t result;
        uint32_t leaves;
    } CASES[] = {
        {MCS_OPCODE_PLAY, 0, 0, 1500, 1, A_REST},
        {MCS_OPCODE_PAUSE, 0, 0, 1500, 1, A_REST},
        {MCS_OPCODE_FAST_REWIND, 0, 0, 1500, 1, A_REST},
        {MCS_OPCODE_FAST_FORWARD, 0, 0, 1500, 1, A_REST},
        {MCS_OPCODE_STOP, 0, 0, 1500, 1, 0},
        {MCS_OPCODE_STOP, 0, 0, 0, 1, 0},
        {MCS_OPCODE_MOVE_RELATIVE, 1, 0, 1500, 1, 0},
        {MCS_OPCODE_MOVE_RELATIVE, 0, 0, 1500, 1, 0},
        {MCS_OPCODE_MOVE_RELATIVE, 9, 0, 6000, 1, 0},
        {MCS_OPCODE_MOVE_RELATIVE, -9, 0, 0, 1, 0},
        {MCS_OPCODE_PREVIOUS_SEGMENT, 0, 0, 1500, 1, 0},
        {MCS_OPCODE_PREVIOUS_SEGMENT, 0, 0, 0, 1, 0},
        {MCS_OPCODE_NEXT_SEGMENT, 0, 0, 1500, 1, 0},
        {MCS_OPCODE_NEXT_SEGMENT, 0, 0, 6000, 1, 0},
        {MCS_OPCODE_FIRST_SEGMENT, 0, 0, 1500, 1, 0},
        {MCS_OPCODE_FIRST_SEGMENT, 0, 0, 0, 1, 0},
        {MCS_OPCODE_LAST_SEGMENT, 0, 0, 1500, 1, 0},
        {MCS_OPCODE_LAST_SEGMENT, 0, 0, 4000, 1, 0},
        {MCS_OPCODE_GOTO_SEGMENT, 1, 0, 1500, 1, 0},
        {MCS_OPCODE_GOTO_SEGMENT, 2, 0, 1500, 1, 0},
        {MCS_OPCODE_GOTO_SEGMENT, -3, 0, 0, 1, 0},
        {MCS_OPCODE_GOTO_SEGMENT, 0, 0, 1500, 1, A_REST},
        {MCS_OPCODE_GOTO_SEGMENT, 0, 0, 0, 1, A_REST},
        {MCS_OPCODE_PREVIOUS_TRACK, 0, 1, 100, 1, 0},
        {MCS_OPCODE_PREVIOUS_TRACK, 0, 0, 100, 4, A_REST},
        {MCS_OPCODE_NEXT_TRACK, 0, 0, 100, 1, 0},
        {MCS_OPCODE_NEXT_TRACK, 0, 2, 0, 4, A_REST},
        {MCS_OPCODE_FIRST_TRACK, 0, 1, 100, 1, 0},
        {MCS_OPCODE_FIRST_TRACK, 0, 0, 0, 1, 0},
        {MCS_OPCODE_LAST_TRACK, 0, 1, 100, 1, 0},
        {MCS_OPCODE_LAST_TRACK, 0, 2, 0, 1, 0},
        {MCS_OPCODE_GOTO_TRACK, 0, 1, 100, 1, 0},
        {MCS_OPCODE_GOTO_TRACK, 0, 1, 0, 1, 0},
        {MCS_OPCODE_GOTO_TRACK, 2, 1, 0, 1, 0},
        {MCS_OPCODE_GOTO_TRACK, 4, 1, 0, 4, A_REST},
        {MCS_OPCODE_PREVIOUS_GROUP, 0, 0, 0, 4, A_REST},
        {MCS_OPCODE_NEXT_GROUP, 0, 0, 0, 1, 0},
        {MCS_OPCODE_FIRST_GROUP, 0, 0, 0, 1, 0},
        {MCS_OPCODE_LAST_GROUP, 0, 0, 0, 1, 0},
        {MCS_OPCODE_GOTO_GROUP, 0, 0, 0, 1, 0},
        {MCS_OPCODE_GOTO_GROUP, 1, 0, 0, 1, 0},
        {MCS_OPCODE_GOTO_GROUP, 3, 0, 0, 4, A_REST},
        {0x7F, 0, 0, 0, 2, A_REST},
    };
    for (size_t k = 0; k < 3u * (sizeof CASES / sizeof CASES[0]); k++) {
        stand("a rest before a command", 3, CASES[k / 3u].track, CASES[k / 3u].position);
        has_media((uint32_t)(MCS_PLAYING + k % 3u));
        has_rest(A_REST);
        commands(CASES[k / 3u].opcode, CASES[k / 3u].n, CASES[k / 3u].result);
        rests(CASES[k / 3u].leaves);
    }
    for (uint32_t k = 0; k < OPCODES; k++) {
        stand("a rest before a command that is not offered, and while Inactive", 4, 1, 100);
        has_rest(A_REST);
        poke_number(player_at(MCS_IN_MASK), MCS_ALL_OPCODES & ~(1u << k), 4);
        commands(OPCODE[k], 1, MCS_RESULT_NOT_SUPPORTED);
        rests(A_REST);
        poke_number(player_at(MCS_IN_MASK), MCS_ALL_OPCODES, 4);
        makes(blank(DEACTIVATE), 0);
        rests(0);
        has_rest(A_REST);
        commands(OPCODE[k], 1, MCS_RESULT_INACTIVE);
        rests(A_REST);
    }
    /* Moves of segments that a running recording does not have (SCOPE 10.4). */
    play_running("a rest before a segment that there is not", 4000, 0, A_REST);
    commands(MCS_OPCODE_NEXT_SEGMENT, 0, MCS_RESULT_NOT_COMPLETED);
    commands(MCS_OPCODE_GOTO_SEGMENT, 4, MCS_RESULT_NOT_COMPLETED);
    rests(A_REST);
    commands(MCS_OPCODE_GOTO_SEGMENT, 3, MCS_RESULT_SUCCESS);
    stands_at(1, 0, 4000);
    rests(0);
}

static void write_number(uint32_t characteristic, uint64_t object)
{
    uint8_t value[MCS_OBJECT_OCTETS];
    mcs_put_object(value, object);
    write_value(characteristic, value, MCS_OBJECT_OCTETS);
}

static void call_cases(void)
{
    step read = blank(READ), come = blank(CONNECT), again = blank(CONNECT);
    read.what = MCS_POSITION;
    come.who = 1;
    come.number = again.number = 23;
    stand("calls that keep a rest", 3, 0, 1500);
    has_rest(A_REST);
    set_name("Door");
    write_value(MCS_PLAYBACK_SPEED, "\xC0", 1);
    write_value(MCS_PLAYING_ORDER, "\4", 1);
    write_number(MCS_NEXT_TRACK_OBJECT, 0x1002);
    makes(read, 0);
    makes(come, 0);
    makes(again, MCS_ALREADY_CONNECTED);
    makes(blank(TITLE), 0);
    makes(blank(MANUAL_GOTO), 0);
    makes(blank(TAKE), 0);
    advance_by(1000); /* while Paused */
    stands_at(1, 0, 1500);
    rests(A_REST);
    /* Each of these leaves the position as it was. */
    write_position(1500);
    rests(0);
    has_rest(A_REST);
    write_position(-4500);
    rests(0);
    write_position(0);
    has_rest(A_REST);
    write_number(MCS_TRACK_OBJECT, 0x1000);
    rests(0);
    has_rest(A_REST);
    write_number(MCS_GROUP_OBJECT, 0x2001);
    rests(0);
    has_rest(A_REST);
    activate(1, 0);
    rests(0);
    stands_at(1, 0, 0);
    has_rest(A_REST);
    makes(blank(DEACTIVATE), 0);
    rests(0);
    now_trying("calls that keep a rest while Inactive");
    has_rest(A_REST);
    advance_by(1000);
    write_position(7);
    write_value(MCS_PLAYBACK_SPEED, "\0", 1);
    rests(A_REST);
    activate(3, 0);
    rests(0);
    has_rest(A_REST);
    start_desk(MCS_ALL_OPCODES);
    rests(0);
}

/* In Seeking the playback speed plays no part (SCOPE 13.7); each step of it makes the rest 0, also one of no time and one that is
 * held at an end, and what leads into Seeking and out of it keeps the rest. */
static void seeking_cases(void)
{
    static const struct {
        uint8_t opcode;
        uint32_t position, d, to;
    } CASES[] = {
        {MCS_OPCODE_FAST_FORWARD, 1000, 25, 1100},
        {MCS_OPCODE_FAST_FORWARD, 1000, 0, 1000},
        {MCS_OPCODE_FAST_FORWARD, 6000, 25, 6000},
        {MCS_OPCODE_FAST_FORWARD, 6000, 0, 6000},
        {MCS_OPCODE_FAST_FORWARD, 1000, 0xFFFFFFFFu, 6000},
        {MCS_OPCODE_FAST_REWIND, 1000, 25, 900},
        {MCS_OPCODE_FAST_REWIND, 0, 25, 0},
        {MCS_OPCODE_FAST_REWIND, 1000, 0xFFFFFFFFu, 0},
    };
    for (size_t k = 0; k < sizeof CASES / sizeof CASES[0]; k++) {
        play("a rest while Seeking", 3, 0, CASES[k].position, -64, A_REST);
        commands(CASES[k].opcode, 0, MCS_RESULT_SUCCESS);
        rests(A_REST);
        advance_by(CASES[k].d);
        stands_at(1, 0, CASES[k].to);
        rests(0);
        is_in(MCS_SEEKING);
    }
    play("a rest over Seeking", 3, 0, 1000, -64, A_REST);
    commands(MCS_OPCODE_FAST_FORWARD, 0, MCS_RESULT_SUCCESS);
    commands(MCS_OPCODE_PLAY, 0, MCS_RESULT_SUCCESS);
    rests(A_REST);
    advance_by(1);
    stands_at(1, 0, 1000);
    rests(A_REST + 32768);
}

/* ---- No value shows the rest: for it alone nothing is owed, and no value counts as changed */

static void reads_on(uint32_t number)
{
    step s = blank(READ);
    s.what = MCS_POSITION;
    s.number = 2;
    makes(s, number);
}

static void told_cases(void)
{
    step whole = blank(READ);
    whole.what = MCS_POSITION;
    play("who is told of a rest", 3, 0, 1000, -64, 0);
    for (uint32_t bit = 0; bit < SLOTS; bit++) {
        subscribe_to(0, slot_at(bit));
    }
    makes(whole, 0);
    advance_by(1);
    rests(32768);
    takes_nothing();
    reads_on(0);
    write_position(1000);
    rests(0);
    takes_nothing();
    reads_on(0);
    /* 7 is not owed when an advance in Playing stays below D (SCOPE 18.3), which changes the value all the same. */
    advance_by(2);
    stands_at(1, 0, 1001);
    takes_nothing();
    reads_on(MCS_VALUE_CHANGED);
    makes(whole, 0);
    advance_by(0);
    reads_on(0);
    /* At the end it is owed; the track's number does not change, since nothing comes next. */
    write_value(MCS_PLAYING_ORDER, "\1", 1);
    has_position(5999);
    has_rest(32768);
    poke_number(account_at(0, MCS_IN_OWED), 0, 4);
    advance_by(1);
    takes(0, MCS_POSITION, "\x70\x17\x00\x00", 4);
    takes(0, MCS_MEDIA_STATE, "\2", 1);
    takes_nothing();
}

/* ---- 201 refuses a rest over 65,535 (SCOPE 20.5), of which nothing else is asked */

static void state_cases(void)
{
    static const uint32_t REST[] = {0,      1,      255,        256,         65535,       65536,      65537,
                                    131071, 131072, 0x1000000u, 0x7FFFFFFFu, 0x80000000u, 0xFFFFFFFFu};
    for (uint32_t k = 0; k < 4u * (sizeof REST / sizeof REST[0]); k++) {
        uint32_t rest = REST[k / 4u];
        four_clients("a rest in a state");
        if (k % 4u == MCS_INACTIVE) {
            makes(blank(DEACTIVATE), 0);
        } else {
            has_media(k % 4u);
        }
        has_rest(rest);
        makes(blank(TAKE), rest < 65536 ? MCS_OK : MCS_BAD_STATE);
        calls_give(rest < 65536 ? MCS_OK : MCS_BAD_STATE);
    }
}

static void cases_of_a_service(void)
{
    step_cases();
    table_cases();
    changing_cases();
    end_cases();
    long_cases();
    ended_cases();
    held_cases();
    command_cases();
    call_cases();
    seeking_cases();
    told_cases();
    state_cases();
}

static void all_clock(void) { in_each_service(cases_of_a_service); }

unsigned long play_clock(FILE *out, run *r) { return expect_on(r, out, all_clock); }
