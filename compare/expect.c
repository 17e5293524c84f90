#include "expect.h"
#include "lend.h"
#include "service.h"
#include "words.h"

#include <string.h>

run *both;
uint32_t tried_service;
static FILE *report;
static unsigned long wrong, expected;
static const char *now;
static struct mcs_place untouched; /* what the words for a place held before the last call */

void now_trying(const char *what) { now = what; }

void expect(const char *what, int64_t is, int64_t should)
{
    expected++;
    if (is != should) {
        fprintf(report, "compare: %s: %s is %lld, not %lld\n", now, what, (long long)is, (long long)should);
        wrong++;
    }
}

unsigned long expect_on(run *r, FILE *out, void (*cases)(void))
{
    both = r;
    report = out;
    tried_service = MCS_GENERIC;
    wrong = expected = 0;
    cases();
    fprintf(out, "compare: %lu expectations, %lu not met\n", expected, wrong);
    return expected > 0 ? wrong : 1;
}

void in_each_service(void (*cases)(void))
{
    for (tried_service = 0; tried_service < MCS_SERVICES; tried_service++) {
        cases();
    }
    tried_service = MCS_GENERIC;
}

uint32_t player_at(uint32_t part) { return MCS_AT_SERVICE(tried_service) + part; }
uint32_t account_at(uint32_t client, uint32_t part) { return player_at(MCS_IN_ACCOUNT(client) + part); }

step blank(uint32_t kind)
{
    step s;
    memset(&s, 0, sizeof s);
    s.kind = (uint8_t)kind;
    s.service = tried_service;
    s.twice = 1;
    s.fill = 0xA5;
    s.room[0] = MCS_OUTPUT_OCTETS;
    return s;
}

step with_octets(step s, const void *octets, uint32_t length)
{
    s.length = length;
    memcpy(s.octets, octets, length);
    return s;
}

step with_name(step s, const void *octets, uint32_t length)
{
    s.players[tried_service].length = length;
    memcpy(s.octets + START_NAME_AT(tried_service), octets, length);
    return s;
}

void makes(step s, uint32_t number)
{
    s.fill = (uint8_t)(s.fill ^ (expected & 1u)); /* so that the stacks are painted in both ways */
    untouched = filled_place(s.fill);
    if (!do_step(both, &s)) {
        fprintf(report, "compare: %s: %s: %s\n", now, CALL_NAME[s.kind], both->difference);
        wrong++;
    }
    expect("the number", both->library_said.number, number);
}

void carries(uint32_t track, uint32_t octet)
{
    const answer *a = &both->library_said;
    expect("the track carried", a->track, track == MCS_NOWHERE ? untouched.track : track);
    expect("the octet carried", a->octet, octet == MCS_NOWHERE ? untouched.octet : octet);
}

/* ---- Steps */

void start_desk(uint32_t mask)
{
    step s = blank(START);
    for (uint32_t k = 0; k < MCS_SERVICES; k++) {
        s.players[k] = (step_player){MCS_ALL_OPCODES, 42, 6};
        memcpy(s.octets + START_NAME_AT(k), "Beside", 6);
    }
    s = with_name(s, "Desk", 4);
    s.players[tried_service].mask = mask;
    s.players[tried_service].ccid = 7;
    makes(s, 0);
}

void activate(uint32_t group, uint32_t number)
{
    step s = blank(ACTIVATE);
    s.number = group;
    makes(s, number);
}

void connect_with(uint32_t client, uint32_t mtu)
{
    step s = blank(CONNECT);
    s.who = client;
    s.number = mtu;
    s.what = 1;
    makes(s, 0);
}

void connect_client(uint32_t client)
{
    connect_with(client, 23);
    subscribe_to(client, MCS_CONTROL_POINT);
}

void subscribe_to(uint32_t client, uint32_t characteristic)
{
    step s = blank(SUBSCRIBE);
    s.who = client;
    s.what = characteristic;
    makes(s, 0);
}

void set_name(const char *name) { makes(with_octets(blank(SET_NAME), name, (uint32_t)strlen(name)), 0); }

void write_by(uint32_t client, uint32_t characteristic, const void *octets, uint32_t length)
{
    step s = with_octets(blank(WRITE), octets, length);
    s.who = client;
    s.what = characteristic;
    makes(s, 0);
}

void write_value(uint32_t characteristic, const void *octets, uint32_t length) { write_by(0, characteristic, octets, length); }

void write_position(int64_t n)
{
    uint8_t value[4];
    put_word(value, (uint32_t)n);
    write_value(MCS_POSITION, value, 4);
}

void advance_by(uint32_t hundredths)
{
    step s = blank(ADVANCE);
    s.number = hundredths;
    makes(s, 0);
}

void read_name(uint32_t offset, uint32_t number)
{
    step s = blank(READ);
    s.what = MCS_NAME;
    s.number = offset;
    makes(s, number);
}

void takes(uint32_t client, uint32_t characteristic, const void *octets, uint32_t length)
{
    const answer *a = &both->library_said;
    makes(blank(TAKE), 0);
    expect("the client served", a->served[SERVED_CLIENT], client);
    expect("the service served", a->served[SERVED_SERVICE], tried_service);
    expect("the characteristic served", a->served[SERVED_CHARACTERISTIC], characteristic);
    expect("the octets served", a->served[SERVED_LENGTH], length);
    if (a->served[SERVED_LENGTH] == length && length > 0) {
        expect("octets that differ", memcmp(a->out, octets, length) != 0, 0);
    }
}

void takes_nothing(void)
{
    makes(blank(TAKE), 0);
    expect("words of a take where nothing is owed",
           both->library_said.served[SERVED_CLIENT] | both->library_said.served[SERVED_SERVICE] |
               both->library_said.served[SERVED_CHARACTERISTIC] | both->library_said.served[SERVED_LENGTH],
           0);
}

void commands(uint8_t opcode, int64_t n, uint8_t result)
{
    uint8_t value[5], answered[2] = {opcode, result};
    write_value(MCS_CONTROL_POINT, value, control_value(value, opcode, n));
    takes(0, MCS_CONTROL_POINT, answered, 2);
}

void poke(uint32_t at, const void *octets, uint32_t length)
{
    step s = with_octets(blank(POKE_STATE), octets, length);
    s.number = at;
    do_step(both, &s);
}

void poke_number(uint32_t at, uint32_t number, uint32_t octets)
{
    uint8_t word[4];
    put_word(word, number);
    poke(at, word, octets);
}

/* ---- States */

ref_player meant(void)
{
    static ref_state s;
    state_of_octets(both->octets, &s);
    return s.services[tried_service].player;
}

void stands_at(uint32_t group, uint32_t track, uint32_t position)
{
    ref_player s = meant();
    expect("the group", s.group, group);
    expect("the track", s.track, track);
    expect("the position", s.position, position);
}

void begin_desk(const char *what, const catalogue_lines *lines)
{
    static tables t;
    now_trying(what);
    tables_of_lines(lines, &t);
    begin_run(both, &t);
    start_desk(MCS_ALL_OPCODES);
}

void stand(const char *what, uint8_t order, uint32_t track, uint32_t position)
{
    begin_desk(what, &SAMPLE_LINES);
    activate(1, 0);
    connect_client(0);
    commands(MCS_OPCODE_GOTO_TRACK, (int64_t)track + 1, MCS_RESULT_SUCCESS);
    write_value(MCS_PLAYING_ORDER, &order, 1);
    write_position(position);
    stands_at(1, track, position);
}

void four_clients(const char *what)
{
    step s = blank(CONNECT);
    stand(what, 3, 0, 0);
    connect_client(1);
    s.who = 2;
    s.number = 23;
    makes(s, 0);
}

void calls_give(uint32_t number)
{
    step small = blank(TAKE), nobody = blank(DISCONNECT), absent = blank(DISCONNECT), name = blank(SET_NAME), none = name;
    int before_205 = number == MCS_BAD_CATALOGUE || number == MCS_BAD_RENAMES;
    small.room[0] = MCS_OUTPUT_OCTETS - 1u;
    nobody.who = 4;
    absent.who = 3;
    name.length = none.length = 129;
    none.service = MCS_SERVICES;
    makes(blank(DEACTIVATE), number);
    makes(small, before_205 ? number : MCS_SMALL_OUTPUT);
    small.kind = READ;
    makes(small, before_205 ? number : MCS_SMALL_OUTPUT);
    makes(nobody, number == 0 ? MCS_NO_CLIENT : number);
    makes(absent, number == 0 ? MCS_NOT_CONNECTED : number);
    makes(name, number == 0 ? MCS_BAD_NAME : number);
    makes(none, number == 0 ? MCS_NO_SERVICE : number);
}

void all_calls_give(int (*has)(uint32_t kind), uint32_t number, uint32_t track, uint32_t octet)
{
    for (uint32_t kind = 0; kind < CALLS; kind++) {
        step s = blank(kind);
        if (has(kind)) {
            s.who = MCS_CLIENTS;
            s.service = MCS_SERVICES;
            s.number = MCS_MOST_GROUPS;
            s.length = s.players[MCS_NAMED].length = REF_NAME_ROOM + 1u;
            s.room[0] = 0;
            makes(s, number);
            carries(track, octet);
        }
    }
}
