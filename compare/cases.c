/* The cases of SCOPE 22.2 with the values that it states, and those of a yes or no among a state's octets. A comment that
 * names a rule, such as SCOPE 18.2, says it in a few words; docs/SCOPE.md has the rule. */
#include "cases.h"
#include "expect.h"

#include <string.h>

#define LEAST (-2147483647 - 1)
#define MOST 2147483647

/* ---- In track 0 and in group 1 (SCOPE 22.2) */

static void sample_cases(void)
{
    static const struct {
        const char *what;
        uint8_t order;
        uint32_t track, position;
        uint8_t opcode;
        int64_t n;
        uint8_t result;
        uint32_t to_group, to_track, to_position;
    } CASES[] = {
        {"1500 Previous Segment", 3, 0, 1500, 0x20, 0, 1, 1, 0, 0},
        {"1501 Previous Segment", 3, 0, 1501, 0x20, 0, 1, 1, 0, 0},
        {"1799 Previous Segment", 3, 0, 1799, 0x20, 0, 1, 1, 0, 0},
        {"1800 Previous Segment", 3, 0, 1800, 0x20, 0, 1, 1, 0, 1500},
        {"4299 Previous Segment", 3, 0, 4299, 0x20, 0, 1, 1, 0, 1500},
        {"4300 Previous Segment", 3, 0, 4300, 0x20, 0, 1, 1, 0, 4000},
        {"6000 Previous Segment", 3, 0, 6000, 0x20, 0, 1, 1, 0, 4000},
        {"1499 Previous Segment", 3, 0, 1499, 0x20, 0, 1, 1, 0, 0},
        {"250 Previous Segment of a track without segments", 3, 1, 250, 0x20, 0, 1, 1, 1, 0},
        {"4000 Next Segment", 3, 0, 4000, 0x21, 0, 1, 1, 0, 6000},
        {"Goto Segment 3", 3, 0, 77, 0x24, 3, 1, 1, 0, 4000},
        {"Goto Segment 4", 3, 0, 77, 0x24, 4, 1, 1, 0, 6000},
        {"Goto Segment -2", 3, 0, 77, 0x24, -2, 1, 1, 0, 1500},
        {"Goto Segment -2147483648", 3, 0, 77, 0x24, LEAST, 1, 1, 0, 0},
        {"1500 Move Relative 2147483647", 3, 0, 1500, 0x10, MOST, 1, 1, 0, 6000},
        {"order 3 Next Track from 2", 3, 2, 0, 0x31, 0, 4, 1, 2, 0},
        {"order 4 Next Track from 2", 4, 2, 0, 0x31, 0, 1, 1, 0, 0},
        {"order 5 Next Track from 2", 5, 2, 0, 0x31, 0, 1, 1, 0, 0},
        {"order 4 Goto Track -2147483648", 4, 0, 55, 0x34, LEAST, 1, 1, 1, 0},
        {"Next Group", 3, 0, 55, 0x41, 0, 1, 3, 3, 0},
        /* An error that looks right: letting group 2 count in Goto Group (SCOPE 22.4). */
        {"Goto Group 3", 3, 0, 55, 0x44, 3, 4, 1, 0, 55},
        {"Goto Group 2", 3, 0, 55, 0x44, 2, 1, 3, 3, 0},
        {"Goto Group -3", 3, 0, 55, 0x44, -3, 4, 1, 0, 55},
        /* An error that looks right: making |n| in signed 32 bits (SCOPE 22.4). */
        {"Goto Group -2147483648", 3, 0, 55, 0x44, LEAST, 4, 1, 0, 55},
        {"1500 Move Relative -2147483648", 3, 0, 1500, 0x10, LEAST, 1, 1, 0, 0},
        /* An error that looks right: folding a long Goto Track by the count of tracks in an order that plays once (SCOPE 22.4). */
        {"order 3 Goto Track 4", 3, 1, 5, 0x34, 4, 4, 1, 1, 5},
        {"order 5 Goto Track 2147483647", 5, 1, 5, 0x34, MOST, 4, 1, 1, 5},
        {"order 7 Goto Track -2147483648", 7, 1, 5, 0x34, LEAST, 4, 1, 1, 5},
        {"order 6 Goto Track 2147483647", 6, 1, 5, 0x34, MOST, 1, 1, 1, 0},
        /* An error that looks right: the newest order as the reverse of the oldest, by which equal stamps come out 2, 1 (SCOPE
         * 22.4). */
        {"order 7 Next Track from 0", 7, 0, 9, 0x31, 0, 1, 1, 1, 0},
        {"order 7 Next Track from 1", 7, 1, 9, 0x31, 0, 1, 1, 2, 0},
        {"order 7 Next Track from 2", 7, 2, 0, 0x31, 0, 4, 1, 2, 0},
        {"order 8 Last Track", 8, 0, 9, 0x33, 0, 1, 1, 2, 0},
    };
    for (size_t k = 0; k < sizeof CASES / sizeof CASES[0]; k++) {
        stand(CASES[k].what, CASES[k].order, CASES[k].track, CASES[k].position);
        commands(CASES[k].opcode, CASES[k].n, CASES[k].result);
        stands_at(CASES[k].to_group, CASES[k].to_track, CASES[k].to_position);
    }
}

static void position_cases(void)
{
    stand("write -4000", 3, 0, 10);
    write_position(-4000);
    stands_at(1, 0, 2000);
    /* An error that looks right: reading a written −1 as "unavailable" (SCOPE 22.4). */
    stand("write -1", 3, 0, 10);
    write_position(-1);
    stands_at(1, 0, 5999);
    stand("write -2147483648", 3, 0, 10);
    write_position(LEAST);
    stands_at(1, 0, 0);
    stand("write 2147483647", 3, 0, 10);
    write_position(MOST);
    stands_at(1, 0, 6000);
}

/* What the program orders prints for the sample: "1: 1 2 0" and "3: 3" (SCOPE 22.3). */
static void order_5_cases(void)
{
    stand("the tracks of group 1 in order 5", 5, 0, 0);
    activate(1, 0);
    stands_at(1, 1, 0);
    commands(0x31, 0, 1);
    stands_at(1, 2, 0);
    commands(0x31, 0, 1);
    stands_at(1, 0, 0);
    commands(0x31, 0, 4);
    now_trying("the tracks of group 3 in order 5");
    activate(3, 0);
    stands_at(3, 3, 0);
    commands(0x31, 0, 4);
    now_trying("groups without tracks");
    activate(0, MCS_BAD_GROUP);
    activate(2, MCS_BAD_GROUP);
    activate(4, MCS_BAD_GROUP);
}

/* An error that looks right: clearing the mark at a read above offset 0 (SCOPE 22.4). */
static void mark_cases(void)
{
    stand("the changed mark", 3, 0, 0);
    read_name(1, MCS_VALUE_CHANGED);
    read_name(0, 0);
    read_name(1, 0);
    set_name("Door");
    read_name(1, MCS_VALUE_CHANGED);
    read_name(1, MCS_VALUE_CHANGED);
    set_name("Desk");
    read_name(1, MCS_VALUE_CHANGED);
    read_name(0, 0);
    read_name(4, 0);
    expect("the length at the end", both->library_said.length, 0);
    read_name(5, MCS_BEYOND_END);
}

/* ---- A yes or no: 1 or 0, and any other octet is 201 */

static void lend_groups(uint32_t words)
{
    step s = blank(TABLE_LENGTH);
    s.who = GROUPS;
    s.number = words;
    do_step(both, &s);
}

static void truth_cases(void)
{
    static const uint8_t WRONG[4] = {2, 128, 254, 255};
    static const uint32_t IN[2] = {MCS_IN_CONNECTED, MCS_IN_ENCRYPTED};
    for (uint32_t k = 0; k < 8u * sizeof WRONG; k++) {
        uint32_t at = MCS_AT_LINK(k / 2u % REF_CLIENTS) + IN[k % 2u];
        uint8_t right;
        four_clients("a yes or no that is neither 1 nor 0");
        right = both->octets[at];
        poke(at, &WRONG[k / 8u], 1);
        calls_give(MCS_BAD_STATE);
        lend_groups(both->lent.length[GROUPS] - 1u);
        calls_give(MCS_BAD_CATALOGUE);
        lend_groups(both->lent.length[GROUPS] + 1u);
        poke(at, &right, 1);
        calls_give(0);
        /* A start does not look at what the octets held. */
        poke(at, &WRONG[k / 8u], 1);
        start_desk(0);
        expect("the octet behind a start", both->octets[at], 0);
    }
}

/* The argument of connect is no octet of the state: encrypted or not (SCOPE 17.8). */
static void argument_cases(void)
{
    static const uint8_t ARGUMENT[5] = {0, 1, 2, 128, 255};
    for (uint32_t k = 0; k < 5; k++) {
        step s = blank(CONNECT);
        stand("what says of a connect that it is encrypted", 3, 0, 0);
        s.who = 1;
        s.number = 23;
        s.what = ARGUMENT[k];
        makes(s, 0);
        expect("connected", both->octets[MCS_AT_LINK(1) + MCS_IN_CONNECTED], 1);
        expect("encrypted", both->octets[MCS_AT_LINK(1) + MCS_IN_ENCRYPTED], k > 0);
    }
}

static void changes_nothing(step s)
{
    makes(s, 0);
    expect("a call that changes nothing", both->unchanged, 1);
}

/* Calls that change nothing leave every octet as it was, here with octets that mean nothing and are not 0. */
static void nothing_cases(void)
{
    step s, read = blank(READ), subscribe_again = blank(SUBSCRIBE), unsubscribe = blank(UNSUBSCRIBE), group = blank(ACTIVATE);
    uint8_t dead[MCS_STATE_OCTETS];
    memset(dead, 0xE7, sizeof dead);
    four_clients("calls that change nothing");
    poke(player_at(MCS_IN_NAME) + 4, dead, 124);
    for (uint32_t k = 0; k < REF_CLIENTS; k++) {
        poke(account_at(k, MCS_IN_RESULTS), dead, 16);
    }
    changes_nothing(with_octets(blank(SET_NAME), "Desk", 4));
    group.number = 1;
    changes_nothing(group);
    s = blank(ADVANCE);
    s.number = 100;
    changes_nothing(s); /* Paused */
    subscribe_again.what = unsubscribe.what = MCS_CONTROL_POINT;
    changes_nothing(subscribe_again); /* subscribing twice changes nothing (SCOPE 17.10) */
    unsubscribe.what = MCS_NAME;
    changes_nothing(unsubscribe);
    read_name(0, 0);
    read.what = MCS_NAME;
    changes_nothing(read);
    read.number = 2;
    changes_nothing(read);
    s = with_octets(blank(WRITE), "\3", 1);
    s.what = MCS_PLAYING_ORDER;
    changes_nothing(s);
    s = with_octets(s, "\0", 1);
    s.what = MCS_PLAYBACK_SPEED;
    changes_nothing(s);
    s = with_octets(s, "\0\0\0", 4);
    s.what = MCS_POSITION;
    changes_nothing(s);
    changes_nothing(blank(TAKE)); /* Where nothing is owed, the answer says so and nothing changes (SCOPE 19.5). */
    makes(blank(DEACTIVATE), 0);
    changes_nothing(blank(DEACTIVATE));
    changes_nothing(s); /* While Inactive a position write is accepted and alters nothing (SCOPE 9.9). */
    expect("octets behind the name that changed", memcmp(both->octets + player_at(MCS_IN_NAME) + 4, dead, 124) != 0, 0);
}

/* ---- Octets that mean nothing, as the comments at MCS_IN_NAME and MCS_IN_RESULTS have them */

static void leaves(uint32_t at, const char *octets, uint32_t length)
{
    uint8_t rest[MCS_STATE_OCTETS] = {0};
    uint32_t room = at == player_at(MCS_IN_NAME) ? REF_NAME_ROOM : 2u * REF_RESULTS;
    expect("octets that differ", memcmp(both->octets + at, octets, length) != 0, 0);
    expect("octets behind that are not 0", memcmp(both->octets + at + length, rest, room - length) != 0, 0);
}

static void control(uint32_t client, uint8_t opcode)
{
    step s = with_octets(blank(WRITE), &opcode, 1);
    s.who = client;
    s.what = MCS_CONTROL_POINT;
    makes(s, 0);
}

/* Results of a player that is Inactive: 3. */
static void dead_cases(void)
{
    const uint32_t name = player_at(MCS_IN_NAME), results = account_at(1, MCS_IN_RESULTS);
    step subscribe = blank(SUBSCRIBE), unsubscribe = blank(UNSUBSCRIBE), disconnect = blank(DISCONNECT), again = blank(CONNECT);
    uint8_t any[MCS_STATE_OCTETS];
    memset(any, 0xE7, sizeof any);
    stand("octets that mean nothing", 3, 0, 0);
    poke(0, any, sizeof any);
    start_desk(MCS_ALL_OPCODES);
    leaves(name, "Desk", 4);
    for (uint32_t k = 0; k < REF_CLIENTS; k++) {
        leaves(account_at(k, MCS_IN_RESULTS), "", 0);
    }
    set_name("Interview");
    set_name("Door");
    leaves(name, "Doorrview", 9);
    connect_client(1);
    control(1, MCS_OPCODE_PLAY);
    control(1, MCS_OPCODE_PAUSE);
    leaves(results, "\1\3\2\3", 4);
    takes(1, MCS_CONTROL_POINT, "\1\3", 2);
    leaves(results, "\2\3", 2);
    control(1, MCS_OPCODE_STOP);
    unsubscribe.who = subscribe.who = disconnect.who = again.who = 1;
    unsubscribe.what = subscribe.what = MCS_CONTROL_POINT;
    makes(unsubscribe, 0);
    leaves(results, "\2\3\5\3", 4);
    control(1, MCS_OPCODE_PLAY);
    leaves(results, "\2\3\5\3", 4);
    makes(subscribe, 0);
    control(1, MCS_OPCODE_PLAY);
    leaves(results, "\1\3\5\3", 4);
    takes(1, MCS_CONTROL_POINT, "\1\3", 2);
    leaves(results, "\5\3", 2);
    for (uint32_t k = 0; k < REF_RESULTS; k++) {
        control(1, MCS_OPCODE_PLAY);
    }
    takes(1, MCS_CONTROL_POINT, "\1\3", 2);
    leaves(results, "\1\3\1\3\1\3\1\3\1\3\1\3\1\3", 14);
    makes(disconnect, 0);
    leaves(results, "", 0);
    poke(results, any, 2u * REF_RESULTS);
    again.number = 23;
    makes(again, 0);
    leaves(results, "", 0);
    leaves(name, "Doorrview", 9);
}

static void cases_of_a_service(void)
{
    sample_cases();
    position_cases();
    order_5_cases();
    mark_cases();
    truth_cases();
    argument_cases();
    nothing_cases();
    dead_cases();
}

static void all_cases(void) { in_each_service(cases_of_a_service); }

unsigned long play_cases(FILE *out, run *r) { return expect_on(r, out, all_cases); }
