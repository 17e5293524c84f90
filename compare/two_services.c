/* Two services over one catalogue. A comment that names a rule, such as SCOPE 18.2, says it in a few words; docs/SCOPE.md has
 * the rule. */
#include "apart.h"
#include "cases.h"
#include "expect.h"
#include "words.h"

#include <string.h>

/* ---- 219, for a service number over 1, comes after 202 (SCOPE 20.2) */

static void no_service_cases(void)
{
    static const uint32_t NONE[] = {2, 3, 10, 255, 256, 257, 0x10000u, 0x80000000u, 0x80000001u, 0xFFFFFFFFu};
    for (size_t k = 0; k < sizeof NONE / sizeof NONE[0]; k++) {
        four_clients("a service that there is not");
        for (uint32_t kind = 0; kind < CARD_LOAD; kind++) {
            for (uint32_t client = 0; client <= MCS_CLIENTS && has_service(kind); client++) {
                /* The characteristic is none, the group absent and the name too long, all of which comes later. */
                step s = blank(kind), small, wrong;
                s.who = client;
                s.service = NONE[k];
                s.number = MCS_MOST_GROUPS;
                s.length = MCS_OUTPUT_OCTETS + 1u;
                makes(s, has_client(kind) && client == MCS_CLIENTS ? MCS_NO_CLIENT : MCS_NO_SERVICE);
                carries(MCS_NOWHERE, MCS_NOWHERE);
                small = s;
                small.room[0] = MCS_OUTPUT_OCTETS - 1u;
                makes(small, kind == READ                                ? MCS_SMALL_OUTPUT
                             : has_client(kind) && client == MCS_CLIENTS ? MCS_NO_CLIENT
                                                                         : MCS_NO_SERVICE);
                wrong = s;
                poke_number(MCS_AT_TURN, MCS_CLIENTS, 4);
                makes(wrong, MCS_BAD_STATE);
                poke_number(MCS_AT_TURN, 0, 4);
            }
        }
    }
    /* Of the services that there are, 203 is the next. */
    for (uint32_t kind = SUBSCRIBE; kind <= WRITE; kind++) {
        for (uint32_t service = 0; service < MCS_SERVICES; service++) {
            step s = blank(kind);
            s.who = 3;
            s.service = service;
            makes(s, MCS_NOT_CONNECTED);
        }
    }
}

/* ---- Start names both players at once, and service 0's name is checked first (SCOPE 17.6) */

static void start_cases(void)
{
    static const struct {
        const char *what;
        struct {
            uint32_t length;
            const char *octets; /* the first ones; all others are the letter a */
        } names[MCS_SERVICES];
        uint32_t number, octet;
    } CASES[] = {
        {"both names right", {{4, "Desk"}, {6, "Player"}}, MCS_OK, MCS_NOWHERE},
        {"no names", {{0, ""}, {0, ""}}, MCS_OK, MCS_NOWHERE},
        {"names of 128 octets", {{128, ""}, {128, ""}}, MCS_OK, MCS_NOWHERE},
        {"the generic name bad", {{4, "a\xFF"}, {6, "Player"}}, MCS_BAD_NAME, 1},
        {"the named player's name bad", {{4, "Desk"}, {6, "aaa\xC3"}}, MCS_BAD_NAME, 3},
        {"both names bad, the generic one earlier", {{4, "\xFF"}, {6, "aaa\xC3"}}, MCS_BAD_NAME, 0},
        {"both names bad, the generic one later", {{4, "aaa\xC3"}, {6, "\xFF"}}, MCS_BAD_NAME, 3},
        {"the generic name long, the other bad", {{129, ""}, {6, "a\xFF"}}, MCS_BAD_NAME, 128},
        {"the generic name bad, the other long", {{9, "aaaaa\xC3"}, {129, ""}}, MCS_BAD_NAME, 5},
        {"the named player's name long", {{128, ""}, {129, ""}}, MCS_BAD_NAME, 128},
        {"both names long", {{129, "\xFF"}, {200, "\xFF"}}, MCS_BAD_NAME, 128},
    };
    for (size_t k = 0; k < sizeof CASES / sizeof CASES[0]; k++) {
        step s = blank(START);
        four_clients(CASES[k].what);
        for (uint32_t service = 0; service < MCS_SERVICES; service++) {
            uint8_t *name = s.octets + START_NAME_AT(service);
            memset(name, 'a', START_NAME_ROOM);
            memcpy(name, CASES[k].names[service].octets, strlen(CASES[k].names[service].octets));
            s.players[service].length = CASES[k].names[service].length;
            s.players[service].mask = 0x11u << service;
            s.players[service].ccid = 7u + service;
        }
        makes(s, CASES[k].number);
        carries(MCS_NOWHERE, CASES[k].octet);
        for (uint32_t service = 0; service < MCS_SERVICES && CASES[k].number == MCS_OK; service++) {
            const uint8_t *at = both->octets + MCS_AT_SERVICE(service);
            uint32_t length = CASES[k].names[service].length;
            expect("the name's length", at[MCS_IN_NAME_LENGTH], length);
            expect("octets of the name that differ", memcmp(at + MCS_IN_NAME, s.octets + START_NAME_AT(service), length) != 0,
                   0);
            expect("the mask", word_at(at + MCS_IN_MASK), 0x11u << service);
            expect("the Content Control ID", at[MCS_IN_CCID], 7u + service);
        }
        expect("the first octet", both->octets[MCS_AT_LAYOUT], 0x84);
    }
}

/* ---- The state's first octet, and the marks of the round */

static void layout_cases(void)
{
    for (uint32_t octet = 0; octet < 256; octet++) {
        four_clients("the first octet of a state");
        poke_number(MCS_AT_LAYOUT, octet, 1);
        calls_give(octet == 0x84 ? 0 : MCS_BAD_STATE);
    }
}

static void round_mark_cases(void)
{
    static const uint32_t MARKS[] = {28, 29, 41, 42, 255, 256, 0x10000u, 0x80000000u, 0xFFFFFFFFu};
    for (uint32_t k = 0; k < 28u + sizeof MARKS / sizeof MARKS[0]; k++) {
        uint32_t mark = k < 28 ? k : MARKS[k - 28u];
        for (uint32_t client = 0; client < MCS_CLIENTS; client++) {
            four_clients("a mark of the round");
            poke_number(MCS_AT_LINK(client) + MCS_IN_MARK, mark, 4);
            /* Client 3 is not connected, and has start's. */
            calls_give((client < 3 ? mark < 28 : mark == 27) ? 0 : MCS_BAD_STATE);
        }
    }
}

/* ---- A client's round runs through the slots of service 0 and then those of service 1 (SCOPE 19.3); a client has 28 places, and
 * the bound is 112 (SCOPE 19.3, 21.4) */

/* A client that is owed these places, and has eight results where the last slot of a service is among them. */
static void owe(uint32_t client, uint32_t places, uint32_t mark)
{
    for (tried_service = 0; tried_service < MCS_SERVICES; tried_service++) {
        uint32_t slots = places >> SLOTS * tried_service & ((1u << SLOTS) - 1u);
        uint8_t results[2 * REF_RESULTS];
        memset(results, 1, sizeof results);
        poke_number(account_at(client, MCS_IN_SUBSCRIBED), (1u << SLOTS) - 1u, 4);
        poke_number(account_at(client, MCS_IN_OWED), slots, 4);
        poke_number(account_at(client, MCS_IN_WAITING), slots >> (SLOTS - 1) != 0 ? REF_RESULTS : 0, 4);
        poke(account_at(client, MCS_IN_RESULTS), results, sizeof results);
    }
    tried_service = MCS_GENERIC;
    poke_number(MCS_AT_LINK(client) + MCS_IN_MARK, mark, 4);
}

static void serves(uint32_t client, uint32_t place)
{
    const uint32_t *served = both->library_said.served;
    makes(blank(TAKE), 0);
    expect("the client served", served[SERVED_CLIENT], client);
    expect("the service served", served[SERVED_SERVICE], place / 14u);
    expect("the characteristic served", served[SERVED_CHARACTERISTIC], slot_at(place % 14u));
    expect("the mark", word_at(both->octets + MCS_AT_LINK(client) + MCS_IN_MARK), place);
    expect("the turn", word_at(both->octets + MCS_AT_TURN), client);
}

/* Every mark with every place that is owed alone, and with two of them: the first behind the mark is served, and then the
 * other. */
static void round_cases(void)
{
    four_clients("the round of twenty-eight places");
    for (uint32_t k = 0; k < 28u * 28u * 28u; k++) {
        uint32_t mark = k % 28u, one = k / 28u % 28u, other = k / 784u, from = (mark + 1u) % 28u;
        uint32_t nearer = (one + 28u - from) % 28u <= (other + 28u - from) % 28u ? one : other;
        owe(0, 1u << one | 1u << other, mark);
        serves(0, nearer);
        if (one != other && one % 14u != 13 && other % 14u != 13) {
            serves(0, nearer == one ? other : one);
            takes_nothing();
        }
    }
}

/* All four are owed all there is: every place is served once in 112 takes, the last at the 112th. */
static void bound_cases(void)
{
    uint64_t longest = 0;
    four_clients("all that can be owed");
    expect("the bound", BOUND, 112);
    for (uint32_t client = 0; client < MCS_CLIENTS; client++) {
        poke_number(MCS_AT_LINK(client) + MCS_IN_CONNECTED, 1, 1);
        poke_number(MCS_AT_LINK(client) + MCS_IN_ENCRYPTED, 1, 1);
        owe(client, (1u << PLACES) - 1u, (7u * client + 3u) % 28u);
    }
    poke_number(MCS_AT_TURN, 1, 4);
    for (uint32_t k = 0; k < 112; k++) {
        uint32_t client = (2u + k) % 4u;
        serves(client, ((7u * client + 3u) % 28u + 1u + k / 4u) % 28u);
        longest = both->waited.of_served > longest ? both->waited.of_served : longest;
    }
    expect("the takes before the one that served what waited longest", (int64_t)longest, 111);
    /* Each service has its own player, name, subscriptions and results (SCOPE 17.2): of each eight, one was handed out. */
    for (uint32_t k = 0; k < 7u * 8u; k++) {
        makes(blank(TAKE), 0);
        expect("the characteristic served", both->library_said.served[SERVED_CHARACTERISTIC], MCS_CONTROL_POINT);
    }
    takes_nothing();
}

/* ---- Connect and disconnect act on both services (SCOPE 17.9). */

static void link_cases(void)
{
    step leave = blank(DISCONNECT), come = blank(CONNECT);
    uint8_t clean[MCS_STATE_OCTETS] = {0};
    four_clients("a client that leaves and comes");
    owe(1, (1u << PLACES) - 1u, 4);
    leave.who = come.who = 1;
    come.number = 64;
    come.what = 1;
    makes(leave, 0);
    for (uint32_t k = 0; k < 2; k++) {
        for (tried_service = 0; tried_service < MCS_SERVICES; tried_service++) {
            expect("octets of the account that are not 0", memcmp(both->octets + account_at(1, 0), clean, 36) != 0, 0);
        }
        expect("the mark", word_at(both->octets + MCS_AT_LINK(1) + MCS_IN_MARK), 27);
        expect("ATT_MTU", word_at(both->octets + MCS_AT_LINK(1) + MCS_IN_MTU), k == 0 ? 23 : 64);
        makes(come, k == 0 ? 0 : MCS_ALREADY_CONNECTED);
    }
    tried_service = MCS_GENERIC;
    /* The round begins at the generic service's lowest slot. */
    owe(1, (1u << PLACES) - 1u, 27);
    serves(1, 0);
}

/* ---- A call to one service never alters replies, state or owed values of the other (SCOPE 17.4) */

static step other(step s)
{
    s.service = (tried_service + 1u) % MCS_SERVICES;
    return s;
}

/* Client 0 is subscribed to all of both services, and 1 to the results of this one. */
static void stand_in_both(const char *what)
{
    four_clients(what);
    for (uint32_t place = 0; place < PLACES; place++) {
        step s = blank(SUBSCRIBE);
        s.service = place / SLOTS;
        s.what = slot_at(place % SLOTS);
        makes(s, 0);
    }
}

/* Eight results in each; the ninth is refused in the one that it is written to. */
static void results_cases(void)
{
    step play = with_octets(blank(WRITE), "\1", 1), read = blank(READ);
    play.what = MCS_CONTROL_POINT;
    stand_in_both("eight results in each service");
    for (uint32_t k = 0; k < REF_RESULTS; k++) {
        makes(play, 0);
    }
    makes(play, MCS_TOO_MANY_RESULTS);
    for (uint32_t k = 0; k < REF_RESULTS; k++) {
        makes(other(play), 0);
    }
    makes(other(play), MCS_TOO_MANY_RESULTS);
    makes(play, MCS_TOO_MANY_RESULTS);
    /* Only the order of the takes is shared: what is left in one is not changed by those of the other. */
    while (both->second.services[other(play).service].accounts[0].waiting == REF_RESULTS) {
        makes(blank(TAKE), 0);
    }
    makes(other(play), 0);
    makes(other(play), MCS_TOO_MANY_RESULTS);
    read.what = MCS_MEDIA_STATE;
    makes(read, 0);
    expect("the media state", both->library_said.out[0], MCS_PLAYING);
    makes(other(read), 0);
    expect("the other's media state", both->library_said.out[0], MCS_INACTIVE);
}

/* 8 and 15 are not owed to the client that wrote them, but the next track, which another order changes, is (SCOPE 18.4); and
 * nothing of it to anyone in the other service. */
static void owed_cases(void)
{
    static const uint32_t WRITTEN[2] = {MCS_PLAYBACK_SPEED, MCS_PLAYING_ORDER};
    for (uint32_t k = 0; k < 2; k++) {
        step s = with_octets(blank(WRITE), "\5", 1), listen = blank(SUBSCRIBE);
        stand_in_both("a value that one client writes");
        listen.who = 1;
        listen.what = s.what = WRITTEN[k];
        makes(listen, 0);
        makes(other(listen), 0);
        makes(s, 0);
        takes(1, WRITTEN[k], "\5", 1);
        if (WRITTEN[k] == MCS_PLAYING_ORDER) {
            takes(0, MCS_NEXT_TRACK_OBJECT, "", 0);
        }
        takes_nothing();
    }
}

/* A value that changes in one service is still the one that was read of the other. */
static void read_cases(void)
{
    step name = blank(READ);
    name.what = MCS_NAME;
    stand_in_both("a long read of both names");
    makes(name, 0);
    makes(other(name), 0);
    set_name("Door");
    name.number = 4;
    makes(other(name), 0);
    expect("the octets read", both->library_said.length, 2);
    makes(name, MCS_VALUE_CHANGED);
    name.number = 0;
    makes(name, 0);
    name.number = 4;
    makes(name, 0);
}

/* Time passes for one. */
static void time_cases(void)
{
    step play = with_octets(blank(WRITE), "\1", 1), group = blank(ACTIVATE), s = blank(ADVANCE);
    play.what = MCS_CONTROL_POINT;
    group.number = 3;
    s.number = 70;
    stand_in_both("time that passes for one player");
    makes(other(group), 0);
    makes(play, 0);
    makes(other(play), 0);
    makes(s, 0);
    stands_at(1, 0, 70);
    makes(other(s), 0);
    makes(other(s), 0);
    stands_at(1, 0, 70);
    tried_service = other(s).service;
    stands_at(3, 3, 140);
    tried_service = other(s).service;
}

static void cases_of_a_service(void)
{
    results_cases();
    owed_cases();
    read_cases();
    time_cases();
}

static void all_two_services(void)
{
    no_service_cases();
    start_cases();
    layout_cases();
    round_mark_cases();
    round_cases();
    bound_cases();
    link_cases();
    in_each_service(cases_of_a_service);
}

unsigned long play_two_services(FILE *out, run *r) { return expect_on(r, out, all_two_services); }
