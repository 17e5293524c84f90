/* Tests of the second program: cases whose answers were worked out by hand from the rules of docs/SCOPE.md, then random calls,
 * which are made for the sanitizers, and whose 200, 207, 224, order of takes, titles, object numbers, clock, manual's Goto and what
 * clients know when nothing is owed are worked out a second time. That it gives the library's answers is not tried here; the
 * comparison does that.
 *
 * Usage: test [histories [seed]]. A comment that names a rule, such as SCOPE 18.2, says it in a few words; docs/SCOPE.md has
 * the rule. */
#include "ref.h"

#include <stdio.h>
#include <stdlib.h>
#include <string.h>

static unsigned long checks, failures;

static void equal_at(int line, long long is, long long should, const char *what)
{
    checks++;
    if (is != should && ++failures <= 20) {
        printf("test.c:%d: %s is %lld, not %lld\n", line, what, is, should);
    }
}
#define EQUAL(is, should) equal_at(__LINE__, (long long)(is), (long long)(should), #is)
#define CHECK(x) EQUAL((x) != 0, 1)
#define EACH(from, to) for (uint32_t k = (from); k < (to); k++)

/* ---- What is lent, and the calls on a state */

enum { GROUPS, TRACKS, SEGMENTS, TEXT, TABLES };

typedef struct {
    uint32_t words[3][257 * 6];
    uint8_t text[32769];
    size_t len[TABLES]; /* in words, of the text in octets */
} tables;

static tables lent;

/* What the office lends beside it. Where it renames nothing, that is an empty text and an entry of zeros for each track of the
 * catalogue, and the rest of this does not count. */
typedef struct {
    int renames;
    uint32_t words[520]; /* offset and length of each track */
    uint8_t text[70000];
    size_t words_len, text_len;
} titles;

static titles office;
static void rename_nothing(void) { office.renames = 0; }
static void rename_track(uint32_t track, uint32_t offset, uint32_t len)
{
    office.words[2 * track] = offset;
    office.words[2 * track + 1] = len;
}
/* An entry of zeros for each track of the lent catalogue, and that text. */
static void lend_office(const void *text, size_t len)
{
    office = (titles){.renames = 1, .words_len = lent.len[TRACKS] / 6 * 2, .text_len = len};
    memcpy(office.text, text, len);
}

static ref_state s;
/* The service that is called, and what is its in the state. */
static uint32_t service;
#define PLAYER s.services[service].player
#define ACCOUNT(client) s.services[service].accounts[client]

/* Groups: 0 (no tracks), 1 (tracks 0–2), 2 (none), 3 (track 3); parents 0. Track, duration, stamp: 0, 6000, 30 with starts 0,
 * 1500, 4000; 1, 300, 10; 2, 0, 10; 3, 900, 5 (SCOPE 22.1). */
static void lend_sample(void)
{
    static const tables SAMPLE = {{{0, 0, 0, 0, 0, 3, 0, 3, 0, 0, 3, 1},
                                   {6000, 30, 0, 3, 0, 10, 300, 10, 3, 0, 10, 4, 0, 10, 3, 0, 14, 0, 900, 5, 3, 0, 14, 4},
                                   {0, 1500, 4000}},
                                  u8"ÜberfahrtRastZiel",
                                  {12, 24, 3, 18}};
    lent = SAMPLE;
}

/* Each group of the sample has the track of its number; 2 is a child of 1, and 1 and 3 are of 0. */
static void nest_groups(void)
{
    static const uint32_t NESTED[12] = {0, 0, 1, 0, 1, 1, 1, 2, 1, 0, 3, 1};
    memcpy(lent.words[GROUPS], NESTED, sizeof NESTED);
}

/* At most 64 groups, 256 tracks, 1,024 segments, 32,768 text octets (SCOPE 4.2): group 0 has so many tracks, 193 or 256, and
 * each other group one of those that are left. */
static void lend_full(uint32_t first)
{
    lent = (tables){.len = {192, 1536, 1024, 32768}};
    EACH(0, 64) {
        lent.words[GROUPS][3 * k + 1] = k == 0 ? 0 : first == 256 ? 256 : first + k - 1;
        lent.words[GROUPS][3 * k + 2] = k == 0 ? first : first < 256;
    }
    EACH(0, 256) {
        const uint32_t record[6] = {400, k % 7, 4 * k, 4, 128 * k, k % 129};
        memcpy(lent.words[TRACKS] + 6 * k, record, sizeof record);
    }
    EACH(0, 1024) lent.words[SEGMENTS][k] = k % 4 * 100;
    memset(lent.text, 'a', 32768);
}

#define FILL 0xA5
#define UNTOUCHED 0xA5A5A5A5u /* four of FILL */
static int all_are(const void *octets, uint8_t octet, size_t len)
{
    const uint8_t *p = octets;
    return len == 0 || (p[0] == octet && memcmp(p, p + 1, len - 1) == 0);
}

/* A copy that ends where it is lent, so that the sanitizers see whoever goes beyond it. */
static void *exact(const void *from, size_t octets)
{
    void *to = octets == 0 ? NULL : malloc(octets);
    return to == NULL ? NULL : memcpy(to, from, octets);
}

enum {
    START,
    SET_NAME,
    ACTIVATE,
    DEACTIVATE,
    ADVANCE,
    CONNECT,
    DISCONNECT,
    SUBSCRIBE,
    UNSUBSCRIBE,
    READ,
    WRITE,
    TAKE,
    SAY_TITLE,
    MANUAL_GOTO,
    CALLS
};

static struct {
    uint8_t out[160];
    uint32_t length, served[4], part[3], made[2], spot[4];
} said;

/* Where the text is wrong. A 200 carries both or neither, 207 the offset alone; nothing else touches them. */
static struct {
    uint32_t track, offset;
} place;
#define PLACE &place.track, &place.offset
static int place_fits(uint32_t refusal)
{
    int has_track = place.track != UNTOUCHED, has_offset = place.offset != UNTOUCHED;
    return refusal == 200 ? has_track == has_offset : !has_track && has_offset == (refusal == 207);
}

/* What a start gives the service that is not called. */
typedef struct {
    const void *name;
    size_t len;
    uint32_t mask;
    uint8_t ccid;
} named;
static const named OTHER = {"Player", 6, 0x1FFFFF, 9};
static named other;

/* A call to one service never alters replies, state or owed values of the other (SCOPE 17.4), a take is a call to neither (SCOPE
 * 19.1), and connect and disconnect act on both (SCOPE 17.9): of all that is a client's and a service's, only what the call is
 * about may differ. */
static int leaves_others(int call, uint32_t client, const ref_state *before)
{
    int of_client = call == CONNECT || call == DISCONNECT, of_take = call == TAKE, right = s.layout == before->layout;
    if (call == START)
        return 1;
    if (call == SAY_TITLE || call == MANUAL_GOTO)
        return memcmp(&s, before, sizeof s) == 0;
    if (of_take)
        client = said.served[0];
    right &= of_take || s.turn == before->turn;
    for (uint32_t j = 0; j < REF_CLIENTS; j++) {
        right &= ((of_client || of_take) && j == client) || memcmp(&s.links[j], &before->links[j], sizeof s.links[j]) == 0;
    }
    for (uint32_t i = 0; i < REF_SERVICES; i++) {
        const ref_service *is = &s.services[i], *was = &before->services[i];
        int called = !of_client && !of_take && i == service;
        right &= called || memcmp(&is->player, &was->player, sizeof is->player) == 0;
        for (uint32_t j = 0; j < REF_CLIENTS; j++) {
            int about = called || (of_client && j == client) || (of_take && j == client && i == said.served[1]);
            right &= about || memcmp(&is->accounts[j], &was->accounts[j], sizeof is->accounts[j]) == 0;
        }
    }
    return right;
}

static int64_t signed_number(uint32_t word) { return word < 0x80000000u ? (int64_t)word : (int64_t)word - 4294967296; }
static uint32_t without_sign(int64_t n) { return (uint32_t)(n < 0 ? -n : n); }
/* The steps that are counted fit the outcome, the number, and the steps that were allowed: |n| when all were made (SCOPE 15.2),
 * the number allowed when they ran out (SCOPE 15.5), the step that could not be made included (SCOPE 15.4), and 0 with results 2
 * and 3 (SCOPE 15.3). */
static int count_fits(int64_t n, uint32_t allowed)
{
    uint32_t outcome = said.made[0], count = said.made[1], all = without_sign(n);
    if (outcome == REF_RAN_OUT)
        return count == allowed && allowed < all;
    if (outcome == 4)
        return count > 0 && count <= all && count <= allowed;
    return outcome == 1 ? count == all && count <= allowed : outcome < 4 && count == 0;
}

/* Exact copies of what is lent, for one call. */
typedef struct {
    uint32_t *words[3], *renames;
    uint8_t *text, *office;
    size_t renames_len, office_len;
} copies;
static copies copy_lent(void)
{
    static const uint32_t ZEROS[sizeof office.words / sizeof office.words[0]];
    copies t;
    EACH(0, 3) t.words[k] = exact(lent.words[k], 4 * lent.len[k]);
    t.text = exact(lent.text, lent.len[TEXT]);
    t.renames_len = office.renames ? office.words_len : lent.len[TRACKS] / 6 * 2;
    t.renames = exact(office.renames ? office.words : ZEROS, 4 * t.renames_len);
    t.office_len = office.renames ? office.text_len : 0;
    t.office = exact(office.text, t.office_len);
    return t;
}
static void free_copies(copies t)
{
    EACH(0, 3) free(t.words[k]);
    free(t.text);
    free(t.renames);
    free(t.office);
}
#define LENT(t) t.words[0], lent.len[0], t.words[1], lent.len[1], t.words[2], lent.len[2], t.text, lent.len[3]
/* What the calls on a state are lent. */
#define LENT_ALL(t) LENT(t), t.renames, t.renames_len, t.office, t.office_len

/* A call to `service`. `what` is a characteristic, the Content Control ID of a start, whether a connect is encrypted, or an opcode;
 * `number` a mask, group, time, ATT_MTU, offset, or the word of a manual's Goto, of which `client` is the steps allowed; the octets are
 * a name or a value; `room` is that of the output. */
static uint32_t makes(int call, uint32_t client, uint32_t what, uint32_t number, const void *octets, size_t len, size_t room)
{
    copies t = copy_lent();
    uint32_t refusal, answer = 0;
    uint8_t *in = exact(octets, len), *other_in = exact(other.name, other.len), *out;
    ref_state before;

    memset(&said, FILL, sizeof said);
    memset(&place, FILL, sizeof place);
    out = exact(said.out, room);
    memcpy(&before, &s, sizeof s);
    switch (call) {
#define OF_CALL in, len, number, (uint8_t)what
#define OF_OTHER other_in, other.len, other.mask, other.ccid
    case START:
        refusal = service == 0 ? ref_start(LENT_ALL(t), OF_CALL, OF_OTHER, &s, PLACE)
                               : ref_start(LENT_ALL(t), OF_OTHER, OF_CALL, &s, PLACE);
        break;
    case SET_NAME:
        refusal = ref_set_name(LENT_ALL(t), &s, service, in, len, PLACE);
        break;
    case ACTIVATE:
        refusal = ref_activate(LENT_ALL(t), &s, service, number, PLACE);
        break;
    case DEACTIVATE:
        refusal = ref_deactivate(LENT_ALL(t), &s, service, PLACE);
        break;
    case ADVANCE:
        refusal = ref_advance(LENT_ALL(t), &s, service, number, PLACE);
        break;
    case CONNECT:
        refusal = ref_connect(LENT_ALL(t), &s, client, number, (uint8_t)what, PLACE);
        break;
    case DISCONNECT:
        refusal = ref_disconnect(LENT_ALL(t), &s, client, PLACE);
        break;
    case SUBSCRIBE:
        refusal = ref_subscribe(LENT_ALL(t), &s, client, service, what, PLACE);
        break;
    case UNSUBSCRIBE:
        refusal = ref_unsubscribe(LENT_ALL(t), &s, client, service, what, PLACE);
        break;
    case READ:
        refusal = ref_read(LENT_ALL(t), &s, client, service, what, number, out, room, &said.length, PLACE);
        answer = said.length;
        break;
    case WRITE:
        refusal = ref_write(LENT_ALL(t), &s, client, service, what, in, len, PLACE);
        break;
    case TAKE:
        refusal = ref_take(LENT_ALL(t), &s, out, room, said.served, PLACE);
        answer = said.served[3];
        break;
    case SAY_TITLE:
        refusal = ref_title(LENT_ALL(t), &s, service, said.part, PLACE);
        break;
    default:
        refusal = ref_manual_goto(LENT_ALL(t), &s, service, what, (int32_t)signed_number(number), client, said.made, said.spot,
                                  PLACE);
        if (refusal == 0)
            CHECK(count_fits(signed_number(number), client));
        break;
    }
    memcpy(said.out, room == 0 ? said.out : out, room);
    /* A refusal returns its number and alters nothing (SCOPE 20.1). */
    CHECK(refusal == 0 || (memcmp(&before, &s, sizeof s) == 0 && all_are(&said, FILL, sizeof said)));
    CHECK(refusal != 0 || leaves_others(call, client, &before));
    /* Lent octets behind the answer stay (SCOPE 17.13); and the state that is left stands, since 202 comes behind 201. */
    CHECK(refusal != 0 || (answer <= room && all_are(said.out + answer, FILL, sizeof said.out - answer)));
    CHECK(refusal != 0 || ref_disconnect(LENT_ALL(t), &s, 4, PLACE) == 202);
    CHECK(place_fits(refusal));
    free_copies(t);
    free(in);
    free(other_in);
    free(out);
    return refusal;
}

/* What the lent catalogue is written as, into that room, and into `to` where it is: a card, or the object of a group or of the
 * segments of a track. A refusal leaves room and count as they were, a success what lies behind the octets written. Its 200
 * carries what every 200 does. */
enum { CARD, GROUP_OBJECT, SEGMENTS_OBJECT };
static uint32_t writes_as(int as, uint32_t number, uint8_t *to, size_t most, size_t room, size_t *len)
{
    copies t = copy_lent();
    uint32_t refusal, count;
    uint8_t *out;
    memset(to, FILL, most);
    memset(&count, FILL, sizeof count);
    memset(&place, FILL, sizeof place);
    out = exact(to, room);
    refusal = as == CARD           ? ref_card_write(LENT(t), out, room, &count, PLACE)
              : as == GROUP_OBJECT ? ref_group_object_write(LENT(t), number, out, room, &count, PLACE)
                                   : ref_segments_object_write(LENT(t), number, out, room, &count, PLACE);
    *len = refusal != 0 ? 0 : as == CARD ? 512 * (size_t)count : count;
    CHECK(refusal == 0 || count == UNTOUCHED);
    CHECK(place_fits(refusal));
    CHECK(*len <= room && (room == 0 || all_are(out + *len, FILL, room - *len)));
    memcpy(to, room == 0 ? to : out, *len);
    free_copies(t);
    free(out);
    return refusal;
}

#define ROOM 128u
#define ALL_OPCODES 0x1FFFFFu
#define LEAST (-2147483647L - 1L)
#define MOST 2147483647L
enum { PLAY = 0x01, PAUSE, REWIND, FORWARD, STOP, RELATIVE = 0x10, SEGMENT = 0x20, TRACK = 0x30, GROUP = 0x40 };
enum { PREVIOUS, NEXT, FIRST, LAST, GOTO }; /* added to SEGMENT, TRACK or GROUP */
static const uint8_t OPCODE[21] = {0x01, 0x02, 0x03, 0x04, 0x05, 0x10, 0x20, 0x21, 0x22, 0x23, 0x24,
                                   0x30, 0x31, 0x32, 0x33, 0x34, 0x40, 0x41, 0x42, 0x43, 0x44};
#define CARRIES_NUMBER(opcode) (memchr("\x10\x24\x34\x44", opcode, 4) != NULL)
/* A client has 28 places (SCOPE 19.3). */
#define SLOTS 14u
#define ROUND 28u
static const uint32_t SLOT[SLOTS] = {1, 4, 5, 6, 7, 8, 9, 11, 12, 13, 14, 15, 17, 18};
/* Their bits, and those that come together: of the track's number, and of the group's, to or from none. */
enum {
    B1 = 1,
    B4 = 2,
    B5 = 4,
    B6 = 8,
    B7 = 16,
    B8 = 32,
    B9 = 64,
    B11 = 128,
    B12 = 256,
    B13 = 512,
    B14 = 1024,
    B15 = 2048,
    B17 = 4096,
    B18 = 8192,
    TRACK_BITS = B4 | B7 | B11,
    NONE_BITS = TRACK_BITS | B13 | B14 | B17
};

static void put_number(uint8_t out[4], long n)
{
    uint32_t word = (uint32_t)(n < 0 ? (long long)n + 4294967296LL : (long long)n);
    EACH(0, 4) out[k] = (uint8_t)(word >> (8 * k));
}

static uint32_t start(uint32_t mask) { return makes(START, 0, 7, mask, "Desk", 4, 0); }
static uint32_t set_name(const char *name) { return makes(SET_NAME, 0, 0, 0, name, strlen(name), 0); }
static uint32_t activate(uint32_t group) { return makes(ACTIVATE, 0, 0, group, NULL, 0, 0); }
static uint32_t deactivate(void) { return makes(DEACTIVATE, 0, 0, 0, NULL, 0, 0); }
static uint32_t advance(uint32_t d) { return makes(ADVANCE, 0, 0, d, NULL, 0, 0); }
static uint32_t connects(uint32_t client, uint32_t mtu) { return makes(CONNECT, client, 1, mtu, NULL, 0, 0); }
static uint32_t disconnects(uint32_t client) { return makes(DISCONNECT, client, 0, 0, NULL, 0, 0); }
static uint32_t subscribes(uint32_t client, uint32_t to) { return makes(SUBSCRIBE, client, to, 0, NULL, 0, 0); }
static uint32_t unsubscribes(uint32_t client, uint32_t from) { return makes(UNSUBSCRIBE, client, from, 0, NULL, 0, 0); }
static uint32_t reads(uint32_t client, uint32_t what, uint32_t offset)
{
    return makes(READ, client, what, offset, NULL, 0, ROOM);
}
static uint32_t title(void) { return makes(SAY_TITLE, 0, 0, 0, NULL, 0, 0); }
static uint32_t manual(uint32_t opcode, long n, uint32_t allowed)
{
    return makes(MANUAL_GOTO, allowed, opcode, (uint32_t)n, NULL, 0, 0);
}
static uint32_t writes(uint32_t client, uint32_t what, uint8_t octet) { return makes(WRITE, client, what, 0, &octet, 1, 0); }

static const uint8_t *numbered(int opcode, long n)
{
    static uint8_t value[5];
    value[0] = (uint8_t)opcode;
    put_number(value + 1, n);
    return value;
}
static uint32_t moves_to(uint32_t client, long n) { return makes(WRITE, client, 7, 0, numbered(0, n) + 1, 4, 0); }
static uint32_t commands(uint32_t client, int opcode, long n)
{
    return makes(WRITE, client, 18, 0, numbered(opcode, n), CARRIES_NUMBER(opcode) ? 5 : 1, 0);
}

/* A command's result: for as long as that takes, client 3 is connected and has a subscription to 18 and nothing else. */
static int result(int opcode, long n)
{
    ref_link kept_link = s.links[3];
    ref_account kept = ACCOUNT(3), *r = &ACCOUNT(3);
    int code;
    s.links[3] = (ref_link){.connected = 1, .encrypted = 1, .mtu = 23};
    *r = (ref_account){.subscribed = B18};
    EQUAL(commands(3, opcode, n), 0);
    CHECK(r->waiting == 1 && r->results[0].opcode == opcode);
    code = r->results[0].code;
    *r = kept;
    s.links[3] = kept_link;
    return code;
}

/* A take serves that slot of `service`, or nothing, which is characteristic 0. */
static int takes(uint32_t client, uint32_t what, const void *octets, uint32_t len)
{
    return makes(TAKE, 0, 0, 0, NULL, 0, ROOM) == 0 && said.served[0] == client &&
           said.served[1] == (what == 0 ? 0 : service) && said.served[2] == what && said.served[3] == len &&
           memcmp(said.out, octets, len) == 0;
}

static int reads_as(uint32_t client, uint32_t what, uint32_t offset, const void *octets, uint32_t len)
{
    return reads(client, what, offset) == 0 && said.length == len && memcmp(said.out, octets, len) == 0;
}

/* An object number, of six octets; NO_OBJECT is that of no octets. */
#define NO_OBJECT 0u
static const uint8_t *object(uint64_t number)
{
    static uint8_t octets[6];
    EACH(0, 6) octets[k] = (uint8_t)(number >> (8 * k));
    return octets;
}
static uint32_t sets(uint32_t client, uint32_t what, uint64_t number)
{
    return makes(WRITE, client, what, 0, object(number), 6, 0);
}
static int takes_object(uint32_t client, uint32_t what, uint64_t number)
{
    return takes(client, what, object(number), number == NO_OBJECT ? 0 : 6);
}
static int shows(uint32_t what, uint64_t number) { return reads_as(0, what, 0, object(number), number == NO_OBJECT ? 0 : 6); }

/* The lent catalogue's group 1 in that order, Paused on that track at that position; client 0 is connected. */
static void stand(uint8_t order, uint32_t track, uint32_t position)
{
    EQUAL(start(ALL_OPCODES) + connects(0, 23) + activate(1), 0);
    EQUAL(result(TRACK + GOTO, (long)track + 1), 1);
    EQUAL(writes(0, 15, order) + moves_to(0, (long)position), 0);
    CHECK(PLAYER.track == track && PLAYER.position == position);
}

/* ---- The player */

#define NOT_MADE 999u
#define IS(group_, track_, position_, media_, seeking_)                                                                        \
    CHECK(PLAYER.group == (group_) && PLAYER.track == (track_) && PLAYER.position == (position_) &&                            \
          PLAYER.media == (media_) && PLAYER.seeking == (seeking_))
#define PLAYS(group, track, position) IS(group, track, position, REF_PLAYING, 0)
#define PAUSES(group, track, position) IS(group, track, position, REF_PAUSED, 0)
#define SEEKS(position, speed) IS(1, 0, position, REF_SEEKING, speed)

/* A command in track 0, whose starts are 0, 1500 and 4000, leads from one position to another. */
#define LEADS(from, opcode, n, to)                                                                                             \
    do {                                                                                                                       \
        stand(3, 0, from);                                                                                                     \
        EQUAL(result(opcode, n), 1);                                                                                           \
        PAUSES(1, 0, to);                                                                                                      \
    } while (0)
/* A track command in group 1, in that order, leads to the start of another track; or it cannot be made. */
#define TURNS(order, from, move, n, to)                                                                                        \
    do {                                                                                                                       \
        stand(order, from, from == 2 ? 0 : 55);                                                                                \
        EQUAL(result(TRACK + (move), n), to == NOT_MADE ? 4 : 1);                                                              \
        PAUSES(1, to == NOT_MADE ? from : to, to == NOT_MADE && from != 2 ? 55 : 0);                                           \
    } while (0)
/* A group command gives that result and leads to the start of that track of that group. */
#define GOES(move, n, code, group, track)                                                                                      \
    do {                                                                                                                       \
        EQUAL(result(GROUP + (move), n), code);                                                                                \
        PAUSES(group, track, 0);                                                                                               \
    } while (0)

static void move_cases(void)
{
    lend_sample();
    /* In track 0, with the ends of the numbers' range. */
    LEADS(1499, SEGMENT + NEXT, 0, 1500);
    LEADS(1500, SEGMENT + NEXT, 0, 4000);
    LEADS(4000, SEGMENT + NEXT, 0, 6000);
    LEADS(77, SEGMENT + FIRST, 0, 0);
    LEADS(77, SEGMENT + LAST, 0, 4000);
    LEADS(77, SEGMENT + GOTO, 0, 77);
    LEADS(77, SEGMENT + GOTO, 3, 4000);
    LEADS(77, SEGMENT + GOTO, 4, 6000);
    LEADS(77, SEGMENT + GOTO, MOST, 6000);
    LEADS(77, SEGMENT + GOTO, -2, 1500);
    LEADS(77, SEGMENT + GOTO, -4, 0);
    LEADS(77, SEGMENT + GOTO, LEAST, 0);
    LEADS(1500, RELATIVE, MOST, 6000);
    LEADS(1500, RELATIVE, LEAST, 0);
    LEADS(1500, RELATIVE, -700, 800);
    /* A track without segments is one segment from 0 (SCOPE 10.1). Its duration is 300. */
    stand(3, 1, 200);
    EQUAL(result(SEGMENT + PREVIOUS, 0), 1);
    PAUSES(1, 1, 0);
    EQUAL(result(SEGMENT + NEXT, 0), 1);
    PAUSES(1, 1, 300);
    /* v ≥ 0 gives the lesser of v and D; v < 0 gives D + v, not below 0 (SCOPE 9.8); −1 is not "unavailable". */
    stand(3, 0, 10);
    EQUAL(moves_to(0, -4000), 0);
    PAUSES(1, 0, 2000);
    EQUAL(moves_to(0, -1), 0);
    PAUSES(1, 0, 5999);
    EQUAL(moves_to(0, LEAST), 0);
    PAUSES(1, 0, 0);
    EQUAL(moves_to(0, MOST), 0);
    PAUSES(1, 0, 6000);
    /* In group 1: orders 3 and 4 are 0, 1, 2; 5 and 6 are 1, 2, 0; 7 and 8 are 0, 1, 2. The newest order as the reverse of the
     * oldest, by which equal stamps come out 2, 1, is an error that looks right (SCOPE 22.4). */
    TURNS(3, 2, NEXT, 0, NOT_MADE);
    TURNS(4, 2, NEXT, 0, 0);
    TURNS(3, 0, PREVIOUS, 0, NOT_MADE);
    TURNS(4, 0, PREVIOUS, 0, 2);
    TURNS(5, 1, NEXT, 0, 2);
    TURNS(5, 2, NEXT, 0, 0);
    TURNS(5, 0, NEXT, 0, NOT_MADE);
    TURNS(6, 0, NEXT, 0, 1);
    TURNS(5, 0, FIRST, 0, 1);
    TURNS(5, 1, LAST, 0, 0);
    TURNS(7, 0, NEXT, 0, 1);
    TURNS(7, 1, NEXT, 0, 2);
    TURNS(8, 0, LAST, 0, 2);
    /* Orders 1 and 2 have the current track alone (SCOPE 11.1). */
    TURNS(1, 1, NEXT, 0, NOT_MADE);
    TURNS(2, 1, NEXT, 0, 1);
    TURNS(1, 1, LAST, 0, 1);
    TURNS(1, 1, GOTO, 2, NOT_MADE);
    /* Goto: 2147483646 and 2147483647 steps are 0 and 1 beyond whole rounds of three. Folding a long Goto Track by the count of
     * tracks in an order that plays once is an error that looks right, and so is making |n| in signed 32 bits (SCOPE 22.4). */
    TURNS(3, 1, GOTO, 0, 1);
    TURNS(3, 1, GOTO, 3, 2);
    TURNS(3, 1, GOTO, -3, 0);
    TURNS(3, 1, GOTO, 4, NOT_MADE);
    TURNS(3, 1, GOTO, -4, NOT_MADE);
    TURNS(5, 1, GOTO, MOST, NOT_MADE);
    TURNS(7, 1, GOTO, LEAST, NOT_MADE);
    TURNS(4, 0, GOTO, LEAST, 1);
    TURNS(4, 1, GOTO, MOST, 0);
    TURNS(4, 0, GOTO, -4, 2);
    TURNS(6, 1, GOTO, LEAST, 2);
    /* With the stamps 5, 10, 10 falling is 1, 2, 0, and no longer by number. */
    lent.words[TRACKS][1] = 5;
    TURNS(7, 0, FIRST, 0, 1);
    TURNS(7, 2, NEXT, 0, 0);
    TURNS(8, 0, NEXT, 0, 1);

    /* Groups 1 and 3 are of one parent and have tracks; group 2 does not count. Group moves do not repeat (SCOPE 12.2), in a
     * repeat order either. */
    lend_sample();
    stand(4, 0, 0);
    GOES(PREVIOUS, 0, 4, 1, 0);
    GOES(NEXT, 0, 1, 3, 3);
    GOES(NEXT, 0, 4, 3, 3);
    GOES(FIRST, 0, 1, 1, 0);
    GOES(LAST, 0, 1, 3, 3);
    GOES(PREVIOUS, 0, 1, 1, 0);
    GOES(GOTO, 3, 4, 1, 0);
    GOES(GOTO, 2, 1, 3, 3);
    GOES(GOTO, -2, 1, 1, 0);
    GOES(GOTO, LEAST, 4, 1, 0);
    /* The group's first track (SCOPE 11.4), where it is activated and moved to, in orders 5 and 1; 0 keeps the group (SCOPE
     * 12.2). */
    stand(5, 0, 55);
    EQUAL(activate(1), 0);
    PAUSES(1, 1, 0);
    EQUAL(result(TRACK + NEXT, 0), 1);
    GOES(GOTO, 0, 1, 1, 1);
    stand(1, 2, 0);
    EQUAL(activate(1), 0);
    PAUSES(1, 0, 0);
    stand(1, 2, 0);
    GOES(GOTO, 0, 1, 1, 0);
    /* For group 0 moves run over itself alone (SCOPE 12.1). */
    nest_groups();
    EQUAL(start(ALL_OPCODES) + activate(0), 0);
    GOES(NEXT, 0, 4, 0, 0);
    GOES(PREVIOUS, 0, 4, 0, 0);
    GOES(GOTO, 2, 4, 0, 0);
    GOES(LAST, 0, 1, 0, 0);
    EQUAL(activate(1), 0);
    GOES(PREVIOUS, 0, 4, 1, 1);
    GOES(NEXT, 0, 1, 3, 3);
    EQUAL(activate(2), 0);
    GOES(NEXT, 0, 4, 2, 2);
    GOES(GOTO, -1, 1, 2, 2);
}

/* If the position is less than 300 past the start of the segment it lies in, and there is a segment before, Previous Segment goes
 * to that one's start; otherwise to the start of its own (SCOPE 10.3). */
#define GOES_BACK(from, to) LEADS(from, SEGMENT + PREVIOUS, 0, to)

static void previous_segment_cases(void)
{
    uint32_t *starts = lent.words[SEGMENTS], *duration = lent.words[TRACKS];
    /* 1501 → 0, 1799 → 0, 1800 → 1500, 4299 → 1500 (SCOPE 22.2); at a start, and 1, 299, 300, 301 past it. */
    lend_sample();
    GOES_BACK(1500, 0);
    GOES_BACK(1501, 0);
    GOES_BACK(1799, 0);
    GOES_BACK(1800, 1500);
    GOES_BACK(1801, 1500);
    GOES_BACK(3999, 1500);
    GOES_BACK(4000, 1500);
    GOES_BACK(4001, 1500);
    GOES_BACK(4299, 1500);
    GOES_BACK(4300, 4000);
    GOES_BACK(4301, 4000);
    /* There is no segment before the first one. */
    GOES_BACK(0, 0);
    GOES_BACK(1, 0);
    GOES_BACK(299, 0);
    GOES_BACK(300, 0);
    GOES_BACK(301, 0);
    GOES_BACK(1499, 0);
    /* At D the position lies in the last segment, here of 2000, 299 and 300. */
    GOES_BACK(6000, 4000);
    *duration = 4299;
    GOES_BACK(4299, 1500);
    *duration = 4300;
    GOES_BACK(4300, 4000);
    /* Starts less than 300 apart: one step is one segment, however near the one before that is. */
    lend_sample();
    starts[1] = 3900;
    GOES_BACK(4150, 3900);
    GOES_BACK(4000, 3900);
    GOES_BACK(3999, 0);
    GOES_BACK(4300, 4000);
    /* A track without segments: its duration is 300. */
    lend_sample();
    EACH(0, 3) {
        stand(3, 1, 150 * k);
        EQUAL(result(SEGMENT + PREVIOUS, 0), 1);
        PAUSES(1, 1, 0);
    }
    /* State and speed play no part, and are kept. */
    stand(3, 0, 1799);
    EQUAL(result(PLAY, 0), 1);
    EQUAL(result(SEGMENT + PREVIOUS, 0), 1);
    PLAYS(1, 0, 0);
    stand(3, 0, 1800);
    EQUAL(result(REWIND, 0), 1);
    EQUAL(result(SEGMENT + PREVIOUS, 0), 1);
    SEEKS(1500, -4);
    /* For n below 0 Goto is Last and then Previous |n| − 1 times (SCOPE 10.6): from a start each step is one segment back,
     * whatever the margin. */
    starts[1] = 3900;
    LEADS(4150, SEGMENT + GOTO, -1, 4000);
    LEADS(4150, SEGMENT + GOTO, -2, 3900);
    LEADS(4150, SEGMENT + GOTO, -3, 0);
    LEADS(4150, SEGMENT + GOTO, -4, 0);
    LEADS(4150, SEGMENT + GOTO, LEAST, 0);
    EQUAL(result(SEGMENT + LAST, 0), 1);
    PAUSES(1, 0, 4000);
    EQUAL(result(SEGMENT + PREVIOUS, 0), 1);
    PAUSES(1, 0, 3900);
    EQUAL(result(SEGMENT + PREVIOUS, 0), 1);
    PAUSES(1, 0, 0);
    EQUAL(result(SEGMENT + PREVIOUS, 0), 1);
    PAUSES(1, 0, 0);
}

/* A track whose duration is not yet known. END is what its D is taken for. */
#define UNKNOWN 0xFFFFFFFFu
#define END 8640000u
#define CANNOT(from, opcode, n)                                                                                                \
    do {                                                                                                                       \
        stand(3, 0, from);                                                                                                     \
        EQUAL(result(opcode, n), 4);                                                                                           \
        PAUSES(1, 0, from);                                                                                                    \
    } while (0)

static void running_cases(void)
{
    uint32_t *tracks = lent.words[TRACKS];
    lend_sample();
    tracks[0] = UNKNOWN;
    /* 6 reads −1 (SCOPE 16.4); D is 8,640,000 (SCOPE 4.9): Move Relative, the position write, Seeking at both ends. */
    stand(3, 0, 5000);
    CHECK(reads_as(0, 6, 0, "\xFF\xFF\xFF\xFF", 4) && reads_as(0, 7, 0, "\x88\x13\x00\x00", 4));
    LEADS(5000, RELATIVE, 1, 5001);
    LEADS(5000, RELATIVE, MOST, END);
    LEADS(5000, RELATIVE, LEAST, 0);
    LEADS(END, RELATIVE, -1, END - 1);
    stand(3, 0, 5000);
    EQUAL(moves_to(0, 8640001), 0);
    PAUSES(1, 0, END);
    EQUAL(moves_to(0, 8639999), 0);
    PAUSES(1, 0, END - 1);
    EQUAL(result(FORWARD, 0), 1);
    EQUAL(advance(1), 0);
    SEEKS(END, 4);
    EQUAL(advance(0xFFFFFFFFu), 0);
    SEEKS(END, 4);
    EQUAL(result(PAUSE, 0), 1);
    EQUAL(result(REWIND, 0), 1);
    EQUAL(advance(1), 0);
    SEEKS(END - 4, -4);
    EQUAL(advance(0xFFFFFFFFu), 0);
    SEEKS(0, -4);
    EQUAL(advance(1), 0);
    SEEKS(0, -4);
    /* Of a running recording a negative position write is accepted and moves nothing (SCOPE 9.9). */
    stand(3, 0, 5000);
    EQUAL(moves_to(0, -1) + moves_to(0, -8640000) + moves_to(0, LEAST), 0);
    PAUSES(1, 0, 5000);
    /* An advance never ends a running recording: at 8,640,000 the player stays there in its state (SCOPE 13.6): in once and
     * repeat orders. */
    for (uint8_t order = 1; order <= 8; order++) {
        stand(order, 0, END - 2);
        EQUAL(result(PLAY, 0), 1);
        EQUAL(advance(1), 0);
        PLAYS(1, 0, END - 1);
        EQUAL(advance(1), 0);
        PLAYS(1, 0, END);
        EQUAL(advance(0), 0);
        PLAYS(1, 0, END);
        EQUAL(advance(0xFFFFFFFFu), 0);
        PLAYS(1, 0, END);
    }
    stand(3, 0, 0);
    EQUAL(result(PLAY, 0), 1);
    EQUAL(advance(0xFFFFFFFFu), 0);
    PLAYS(1, 0, END);
    EQUAL(result(PAUSE, 0), 1);
    EQUAL(advance(1), 0);
    PAUSES(1, 0, END);
    /* The last of a once order, and Next Track, which is as ever. */
    tracks[12] = UNKNOWN;
    stand(3, 2, END);
    EQUAL(result(PLAY, 0), 1);
    EQUAL(advance(1), 0);
    PLAYS(1, 2, END);
    TURNS(3, 0, NEXT, 0, 1);
    /* Of a running recording Next Segment with no later start, and a Goto that needs it, have result 4 (SCOPE 10.4, 10.8). */
    LEADS(1499, SEGMENT + NEXT, 0, 1500);
    LEADS(3999, SEGMENT + NEXT, 0, 4000);
    CANNOT(4000, SEGMENT + NEXT, 0);
    CANNOT(END, SEGMENT + NEXT, 0);
    LEADS(77, SEGMENT + GOTO, 3, 4000);
    CANNOT(77, SEGMENT + GOTO, 4);
    CANNOT(77, SEGMENT + GOTO, MOST);
    LEADS(77, SEGMENT + GOTO, 0, 77);
    LEADS(77, SEGMENT + GOTO, -3, 0);
    LEADS(77, SEGMENT + GOTO, LEAST, 0);
    LEADS(77, SEGMENT + LAST, 0, 4000);
    LEADS(END, SEGMENT + PREVIOUS, 0, 4000);
    stand(3, 0, 4000);
    EQUAL(result(FORWARD, 0), 1);
    EQUAL(result(SEGMENT + NEXT, 0), 4);
    SEEKS(4000, 4);
    /* Without segments there is one start, 0. */
    tracks[6] = UNKNOWN;
    stand(3, 1, 0);
    EQUAL(result(SEGMENT + NEXT, 0), 4);
    EQUAL(moves_to(0, 9), 0);
    EQUAL(result(SEGMENT + NEXT, 0), 4);
    EQUAL(result(SEGMENT + GOTO, 2), 4);
    PAUSES(1, 1, 9);
    EQUAL(result(SEGMENT + GOTO, 1), 1);
    PAUSES(1, 1, 0);
    EQUAL(moves_to(0, 9), 0);
    EQUAL(result(SEGMENT + GOTO, -2), 1);
    PAUSES(1, 1, 0);
}

static void media_cases(void)
{
    static const int8_t DOWN[6] = {-4, -8, -16, -32, -32, -32}, UP[9] = {-16, -8, -4, 4, 8, 16, 32, 32, 32};
    lend_sample();
    /* Fast Forward enters Seeking at 4, Rewind at −4; while Seeking they go one rung up or down, and stay at the end rung (SCOPE
     * 9.6). */
    stand(3, 0, 1000);
    EQUAL(result(FORWARD, 0), 1);
    SEEKS(1000, 4);
    EACH(0, 6) {
        EQUAL(result(REWIND, 0), 1);
        SEEKS(1000, DOWN[k]);
    }
    EACH(0, 9) {
        EQUAL(result(FORWARD, 0), 1);
        SEEKS(1000, UP[k]);
    }
    /* Segment moves and Move Relative keep the state (SCOPE 10.9, 9.10); Seeking adds d times the seeking speed, held to 0 and D
     * (SCOPE 13.7). */
    EQUAL(result(SEGMENT + NEXT, 0), 1);
    SEEKS(1500, 32);
    EQUAL(result(RELATIVE, -100), 1);
    SEEKS(1400, 32);
    EQUAL(advance(10), 0);
    SEEKS(1720, 32);
    EQUAL(advance(0xFFFFFFFFu), 0);
    SEEKS(6000, 32);
    /* Track and group moves turn Seeking into Playing (SCOPE 11.7, 12.3), where they are made. */
    EQUAL(result(TRACK + PREVIOUS, 0), 4);
    SEEKS(6000, 32);
    EQUAL(result(TRACK + GOTO, 0), 1);
    PLAYS(1, 0, 0);
    EQUAL(result(REWIND, 0), 1);
    SEEKS(0, -4);
    EQUAL(moves_to(0, 50) + advance(5), 0);
    SEEKS(30, -4);
    EQUAL(advance(0xFFFFFFFFu), 0);
    SEEKS(0, -4);
    EQUAL(result(GROUP + GOTO, 0), 1);
    PLAYS(1, 0, 0);
    /* At D or beyond comes the next track at 0 or, where there is none, Paused at D; a call makes at most one such move (SCOPE
     * 13.5). */
    stand(3, 0, 0);
    EQUAL(advance(50), 0);
    PAUSES(1, 0, 0);
    EQUAL(result(PLAY, 0), 1);
    EQUAL(advance(5999), 0);
    PLAYS(1, 0, 5999);
    EQUAL(advance(1), 0);
    PLAYS(1, 1, 0);
    EQUAL(advance(0xFFFFFFFFu), 0);
    PLAYS(1, 2, 0);
    EQUAL(advance(0), 0);
    PAUSES(1, 2, 0);
    stand(1, 0, 5999);
    EQUAL(result(PLAY, 0), 1);
    EQUAL(advance(2), 0);
    PAUSES(1, 0, 6000);
    EQUAL(result(STOP, 0), 1);
    PAUSES(1, 0, 0);
    stand(2, 0, 5999);
    EQUAL(result(PLAY, 0), 1);
    EQUAL(advance(2), 0);
    PLAYS(1, 0, 0);
    EQUAL(result(PAUSE, 0), 1);
    PAUSES(1, 0, 0);
    /* The first result that applies is given, in the order 2, 3, 4, 1 (SCOPE 9.4). Higher mask bits count as 0 (SCOPE 9.2). */
    EQUAL(start(0xFFFFFFFEu) + connects(0, 23), 0);
    CHECK(reads_as(0, 19, 0, "\xFE\xFF\x1F\x00", 4));
    EQUAL(result(PLAY, 0), 2);
    EQUAL(result(0x06, 0), 2);
    EQUAL(result(0x45, 0), 2);
    EQUAL(result(GROUP + GOTO, 9), 3);
    EACH(0, 42) {
        EQUAL(start(k < 21 ? 1u << k : ~(1u << k % 21)), 0);
        EQUAL(result(OPCODE[k % 21], 1), k < 21 ? 3 : 2);
    }
    /* While Inactive a position write is accepted and alters nothing (SCOPE 9.9); order and playback speed are kept (SCOPE 8.10);
     * and the values that are then read. */
    EQUAL(start(ALL_OPCODES) + connects(0, 23) + moves_to(0, 100), 0);
    IS(0, 0, 0, REF_INACTIVE, 0);
    EQUAL(writes(0, 15, 6) + writes(0, 8, 0x80) + activate(1), 0);
    PAUSES(1, 1, 0);
    EQUAL(deactivate(), 0);
    IS(0, 0, 0, REF_INACTIVE, 0);
    CHECK(reads_as(0, 8, 0, "\x80", 1) && reads_as(0, 15, 0, "\x06", 1));
    CHECK(reads_as(0, 16, 0, "\xFF\x00", 2) && reads_as(0, 22, 0, "\x07", 1));
    CHECK(reads_as(0, 5, 0, "", 0) && reads_as(0, 6, 0, "\xFF\xFF\xFF\xFF", 4) && reads_as(0, 7, 0, "\xFF\xFF\xFF\xFF", 4));
}

/* ---- What is owed, rounds, cuts */

#define OWES(client, slots) EQUAL(ACCOUNT(client).owed, slots)
#define FORGIVE()                                                                                                              \
    EACH(0, 4) ACCOUNT(k).owed = ACCOUNT(k).waiting = 0
/* The client has start's record, as one that was never connected has. */
static int starts_record(uint32_t client)
{
    static const ref_account NONE;
    const ref_link *link = &s.links[client];
    int right = !link->connected && !link->encrypted && link->mtu == 23 && link->mark == ROUND - 1;
    EACH(0, REF_SERVICES) right &= memcmp(&s.services[k].accounts[client], &NONE, sizeof NONE) == 0;
    return right;
}

static void owed_cases(void)
{
    lend_sample();
    stand(3, 0, 0);
    EQUAL(connects(1, 64), 0);
    EACH(0, SLOTS) EQUAL(subscribes(0, SLOT[k]) + subscribes(1, SLOT[k]), 0);
    /* 4 and 7 are owed whenever the track number changes (SCOPE 18.2); 18 is owed to whoever wrote it; the writer of 7 is owed a
     * change of it (SCOPE 18.5). The next track is 2 and no longer 1. */
    EQUAL(commands(0, TRACK + NEXT, 0), 0);
    OWES(0, TRACK_BITS | B5 | B6 | B12 | B18);
    OWES(1, TRACK_BITS | B5 | B6 | B12);
    FORGIVE();
    EQUAL(moves_to(0, 20), 0);
    OWES(0, B7);
    OWES(1, B7);
    FORGIVE();
    EQUAL(moves_to(0, 20), 0);
    OWES(0, 0);
    OWES(1, 0);
    /* 8 and 15 are not owed to the client that wrote them (SCOPE 18.4); what is already owed stays owed, also when the client
     * writes it (SCOPE 18.6). */
    EQUAL(writes(0, 8, 5), 0);
    OWES(0, 0);
    OWES(1, B8);
    EQUAL(writes(1, 8, 6), 0);
    OWES(0, B8);
    OWES(1, B8);
    FORGIVE();
    EQUAL(writes(1, 15, 4), 0);
    OWES(0, B15);
    OWES(1, 0);
    EQUAL(writes(1, 15, 3), 0);
    OWES(0, B15);
    FORGIVE();
    /* By Seeking 7 is owed; by Playing it is not, while it stays below D (SCOPE 18.3), and yet the value has changed (0x80). */
    EQUAL(commands(0, FORWARD, 0), 0);
    OWES(1, B9 | B17);
    FORGIVE();
    EQUAL(advance(1), 0);
    OWES(0, B7);
    EQUAL(commands(0, PLAY, 0), 0);
    FORGIVE();
    EQUAL(reads(0, 7, 0) + reads(0, 7, 1) + advance(1), 0);
    OWES(0, 0);
    EQUAL(reads(0, 7, 1), 0x80);
    EQUAL(advance(1000), 0);
    OWES(0, TRACK_BITS | B5 | B6 | B12);
    FORGIVE();
    EQUAL(advance(0), 0);
    OWES(0, B17);
    FORGIVE();
    /* 4 and 7 are owed also for a change to or from none (SCOPE 18.2); the title of track 2 is empty, and so is none's, and
     * neither has a next track. In order 2 the track number stays. */
    EQUAL(deactivate(), 0);
    OWES(0, NONE_BITS | B6);
    FORGIVE();
    EQUAL(deactivate(), 0);
    OWES(0, 0);
    EQUAL(activate(1), 0);
    OWES(0, NONE_BITS | B5 | B6 | B12);
    EQUAL(writes(0, 15, 2) + commands(1, PLAY, 0), 0);
    FORGIVE();
    EQUAL(advance(6000), 0);
    OWES(0, 0);
    EQUAL(advance(5) + advance(6000), 0);
    OWES(0, B7);
    EQUAL(writes(0, 15, 3), 0);
    FORGIVE();
    /* What is owed goes by the same D (SCOPE 4.9): 7 when the step reaches 8,640,000, and no more then. A negative write owes
     * nothing. */
    lent.words[TRACKS][0] = UNKNOWN;
    EQUAL(moves_to(0, 8639998) + commands(0, PLAY, 0), 0);
    FORGIVE();
    EQUAL(advance(1) + moves_to(0, -5), 0);
    OWES(0, 0);
    EQUAL(advance(1), 0);
    OWES(0, B7);
    FORGIVE();
    EQUAL(advance(1), 0);
    OWES(0, 0);
    /* 6 is −1 before and after: to and from none, and from one such track to another. From a duration of 300 it changes. */
    EQUAL(deactivate(), 0);
    OWES(0, NONE_BITS | B5 | B12);
    FORGIVE();
    EQUAL(activate(1), 0);
    OWES(0, NONE_BITS | B5 | B12);
    FORGIVE();
    EQUAL(commands(1, TRACK + NEXT, 0), 0);
    OWES(0, TRACK_BITS | B5 | B6 | B12);
    FORGIVE();
    EQUAL(commands(1, TRACK + PREVIOUS, 0), 0);
    OWES(0, TRACK_BITS | B5 | B6 | B12);
    FORGIVE();
    lent.words[TRACKS][6] = UNKNOWN;
    EQUAL(commands(1, TRACK + NEXT, 0), 0);
    OWES(0, TRACK_BITS | B5 | B12);
    lend_sample();
    EQUAL(activate(1) + advance(0), 0);
    FORGIVE();
    /* An equal title on another track is no change of 5. 7 is owed with its value as it was, and 0x80 is about values. */
    lent.words[TRACKS][6 + 4] = 0;
    lent.words[TRACKS][6 + 5] = 10;
    EQUAL(reads(0, 5, 0) + reads(0, 7, 0) + reads(0, 6, 0) + commands(1, TRACK + NEXT, 0), 0);
    OWES(0, TRACK_BITS | B6 | B12);
    EQUAL(reads(0, 5, 1), 0);
    EQUAL(reads(0, 7, 1), 0);
    EQUAL(reads(0, 6, 1), 0x80);
    /* Unsubscribing drops what the slot owes (SCOPE 17.11); disconnecting gives start's record (SCOPE 17.9). */
    stand(3, 0, 0);
    EQUAL(commands(0, PLAY, 0), 0);
    EQUAL(ACCOUNT(0).waiting, 0);
    OWES(0, 0);
    EQUAL(subscribes(0, 18) + subscribes(0, 17) + commands(0, PAUSE, 0) + subscribes(0, 17), 0);
    OWES(0, B17 | B18);
    EQUAL(unsubscribes(0, 18), 0);
    OWES(0, B17);
    EQUAL(ACCOUNT(0).waiting, 0);
    EQUAL(ACCOUNT(0).subscribed, B17);
    EQUAL(reads(0, 1, 0) + disconnects(0), 0);
    CHECK(starts_record(0));
    EQUAL(connects(0, 23), 0);
    EQUAL(reads(0, 1, 1), 0x80);
}

static void take_cases(void)
{
    static const uint32_t CUT[5][3] = {{23, 20, 22}, {64, 61, 63}, {130, 127, 128}, {131, 128, 128}, {517, 128, 128}};
    uint8_t name[128];
    /* A take starts after the client that was served last, in number order round the four (SCOPE 19.2). */
    lend_sample();
    EQUAL(start(ALL_OPCODES), 0);
    EACH(0, 4) EQUAL(connects(k, 23) + subscribes(k, 1), 0);
    EQUAL(set_name("B"), 0);
    CHECK(takes(0, 1, "B", 1) && takes(1, 1, "B", 1));
    EQUAL(set_name("C") + disconnects(0), 0);
    CHECK(takes(2, 1, "C", 1) && takes(3, 1, "C", 1) && takes(1, 1, "C", 1) && takes(0, 0, "", 0));
    /* Within a client comes the first owed slot after the one that was served last (SCOPE 19.3); of results one goes with each
     * take, oldest first. */
    EQUAL(start(ALL_OPCODES) + activate(1) + connects(3, 23), 0);
    EACH(0, SLOTS) EQUAL(subscribes(3, SLOT[k]), 0);
    EQUAL(commands(3, FORWARD, 0) + commands(3, TRACK + PREVIOUS, 0) + commands(3, TRACK + NEXT, 0) + set_name("D"), 0);
    CHECK(takes(3, 1, "D", 1) && takes(3, 4, "", 0) && takes(3, 5, "Rast", 4) && takes(3, 6, "\x2C\x01\x00\x00", 4));
    EQUAL(set_name("E"), 0);
    CHECK(takes(3, 7, "\x00\x00\x00\x00", 4) && takes(3, 9, "\x00", 1));
    CHECK(takes_object(3, 11, 0x1001) && takes_object(3, 12, 0x1002) && takes(3, 17, "\x01", 1));
    CHECK(takes(3, 18, "\x04\x01", 2) && takes(3, 1, "E", 1) && takes(3, 18, "\x30\x04", 2) && takes(3, 18, "\x31\x01", 2));
    /* A take hands out the first ATT_MTU − 3 octets (SCOPE 19.4); a read hands out up to ATT_MTU − 1 octets (SCOPE 17.13). */
    EACH(0, 128) name[k] = (uint8_t)(' ' + k % 90);
    EACH(0, 5) {
        EQUAL(start(ALL_OPCODES) + connects(2, CUT[k][0]) + subscribes(2, 1) + makes(SET_NAME, 0, 0, 0, name, 128, 0), 0);
        CHECK(takes(2, 1, name, CUT[k][1]) && reads_as(2, 1, 0, name, CUT[k][2]) && reads_as(2, 1, 128, "", 0));
        CHECK(reads_as(2, 1, 100, name + 100, k == 0 ? 22 : 28));
        EQUAL(reads(2, 1, 129), 0x07);
    }
}

/* ---- SCOPE 20.4 a second time: UTF-8 by the table of RFC 3629, and each rule apart */

/* The octets of a character: how many, the range of the first, and that of the second; all others are 80 to BF. */
static const struct {
    uint32_t octets;
    uint8_t first[2], second[2];
} CHARACTER[9] = {{1, {0x00, 0x7F}, {0x00, 0xFF}}, {2, {0xC2, 0xDF}, {0x80, 0xBF}}, {3, {0xE0, 0xE0}, {0xA0, 0xBF}},
                  {3, {0xE1, 0xEC}, {0x80, 0xBF}}, {3, {0xED, 0xED}, {0x80, 0x9F}}, {3, {0xEE, 0xEF}, {0x80, 0xBF}},
                  {4, {0xF0, 0xF0}, {0x90, 0xBF}}, {4, {0xF1, 0xF3}, {0x80, 0xBF}}, {4, {0xF4, 0xF4}, {0x80, 0x8F}}};

static int is_character(uint32_t row, const uint8_t *p, uint32_t left)
{
    if (CHARACTER[row].octets > left || p[0] < CHARACTER[row].first[0] || p[0] > CHARACTER[row].first[1])
        return 0;
    EACH(1, CHARACTER[row].octets) {
        if (p[k] < (k == 1 ? CHARACTER[row].second[0] : 0x80) || p[k] > (k == 1 ? CHARACTER[row].second[1] : 0xBF))
            return 0;
    }
    return 1;
}

/* Marks the offsets to which whole valid characters lead; the farthest is the length, or where none starts. At most 255 octets. */
static uint32_t farthest(const uint8_t *p, uint32_t len)
{
    uint8_t reached[256] = {1};
    uint32_t far = 0;
    for (uint32_t at = 0; at <= len; at++) {
        if (!reached[at])
            continue;
        far = at;
        EACH(0, 9)
            if (is_character(k, p + at, len - at))
                reached[at + CHARACTER[k].octets] = 1;
    }
    return far;
}

/* The offset that 207 is to carry for a name, or none. */
static uint32_t bad_at(const uint8_t *name, size_t len)
{
    uint32_t far = len > 128 ? 128 : farthest(name, (uint32_t)len);
    return far < len ? far : UNTOUCHED;
}

/* What 200 is to carry for the lent catalogue, where `wrong`; and whether there is a bad title beside another rule that is broken. */
static struct {
    int wrong, beside;
    uint32_t track, offset;
} judged;
static void judge(void)
{
    const uint32_t *g = lent.words[GROUPS], *t = lent.words[TRACKS], *starts = lent.words[SEGMENTS];
    const size_t *len = lent.len;
    uint64_t tracks = 0, segments = 0;
    uint32_t lowest = UNTOUCHED, offset = UNTOUCHED;
    int plain = len[0] > 192 || len[1] > 1536 || len[2] > 1024 || len[3] > 32768 || len[0] % 3 != 0 || len[1] % 6 != 0;

    EACH(0, len[0] / 3) {
        plain |= g[3 * k] > (k == 0 ? 0 : k - 1) || g[3 * k + 1] != tracks;
        tracks += g[3 * k + 2];
    }
    plain |= tracks != len[1] / 6;
    EACH(0, len[1] / 6) segments += t[6 * k + 3];
    plain |= segments != len[2];
    /* From the last track to the first, so that the bad title found last is the lowest. */
    for (uint32_t k = (uint32_t)(len[1] / 6); k > 0; k--) {
        const uint32_t *track = t + 6 * (k - 1), d = track[0] == UNKNOWN ? END : track[0];
        uint64_t end = (uint64_t)track[4] + track[5];
        segments -= track[3];
        plain |= d > END || track[2] != segments || track[5] > 128 || end > len[3];
        for (uint64_t at = segments; at < segments + track[3] && at < len[2]; at++) {
            plain |= starts[at] >= d || (at == segments ? starts[at] != 0 : starts[at - 1] >= starts[at]);
        }
        if (track[5] <= 128 && end <= len[3] && farthest(lent.text + track[4], track[5]) < track[5]) {
            lowest = k - 1;
            offset = farthest(lent.text + track[4], track[5]);
        }
    }
    judged.wrong = plain || lowest != UNTOUCHED;
    judged.beside = plain && lowest != UNTOUCHED;
    judged.track = plain ? UNTOUCHED : lowest;
    judged.offset = plain ? UNTOUCHED : offset;
}
/* The lent catalogue was judged, and a call gave this. */
#define AS_JUDGED(refusal)                                                                                                     \
    CHECK(((refusal) == 200) == judged.wrong &&                                                                                \
          ((refusal) != 200 || (place.track == judged.track && place.offset == judged.offset)))

/* SCOPE 5 a second time: whether 224 refuses an entry, and whether it refuses what the office lends beside a catalogue that
 * stands. */
static int is_unfit(uint32_t offset, uint32_t len)
{
    return len > 128 || (len > 0 && ((uint64_t)offset + len > office.text_len || farthest(office.text + offset, len) < len));
}
static int office_is_unfit(void)
{
    int unfit = office.words_len != lent.len[TRACKS] / 6 * 2;
    EACH(0, unfit ? 0 : lent.len[TRACKS] / 6) unfit |= is_unfit(office.words[2 * k], office.words[2 * k + 1]);
    return office.renames && unfit;
}

/* ---- Refusals: 200, 207, the order of the table, 201 */

/* Service numbers over 1. */
static const uint32_t OVER[6] = {2, 3, 10, 255, 256, 0xFFFFFFFFu};

/* The lent catalogue into that room, and into `card`. */
static uint8_t card[129 * 512];
static size_t card_len;
static uint32_t writes_card(size_t room) { return writes_as(CARD, 0, card, sizeof card, room, &card_len); }

/* The object of that group, or of the segments of that track, likewise. */
static uint8_t made[5200];
static size_t made_len;
static uint32_t writes_object(int of, uint32_t number, size_t room)
{
    return writes_as(of, number, made, sizeof made, room, &made_len);
}

/* Every call that is lent the catalogue gives 200 with that place, those that write cards and objects too. An absent group or
 * track, and no room, come behind it. */
static void all_give_200(int line, uint32_t track, uint32_t offset)
{
    EACH(0, CALLS + 5) {
        int as = (int)(k + 1 - CALLS) / 2;
        equal_at(line,
                 k < CALLS    ? makes((int)k, 0, 1, 0, "a", 1, ROOM)
                 : as == CARD ? writes_card(65536)
                              : writes_object(as, k % 2 == 0 ? 0 : 256, k % 2 == 0 ? sizeof made : 0),
                 200, "the refusal");
        equal_at(line, place.track, track, "the track");
        equal_at(line, place.offset, offset, "the offset");
    }
}

/* Spoils no title, or every one that is not empty, or one: the sample's are at 0, 10 and 14, and the full catalogue's lowest and
 * highest that are not empty at 128 and 32640. */
#define SPOILS 7
static void spoil_titles(uint32_t how)
{
    static const uint32_t AT[SPOILS] = {0, 0, 0, 10, 14, 128, 32640};
    if (how == 1)
        memset(lent.text, 0x80, sizeof lent.text);
    if (how > 1)
        lent.text[AT[how]] = 0x80;
}

/* A rule is broken that is not a title's UTF-8. Every other 200 carries nothing and comes before (SCOPE 4.14), be a bad title
 * before it, behind it, or of the same track. */
#define WRONG(edit)                                                                                                            \
    EACH(0, SPOILS) {                                                                                                          \
        lend_sample();                                                                                                         \
        edit;                                                                                                                  \
        spoil_titles(k);                                                                                                       \
        all_give_200(__LINE__, UNTOUCHED, UNTOUCHED);                                                                          \
    }
#define TITLE(edit, track, offset)                                                                                             \
    do {                                                                                                                       \
        lend_sample();                                                                                                         \
        edit;                                                                                                                  \
        all_give_200(__LINE__, track, offset);                                                                                 \
    } while (0)
#define RIGHT(edit)                                                                                                            \
    do {                                                                                                                       \
        lend_sample();                                                                                                         \
        edit;                                                                                                                  \
        EQUAL(start(0), 0);                                                                                                    \
    } while (0)
static void catalogue_cases(void)
{
    size_t *len = lent.len;
    uint32_t *g = lent.words[GROUPS], *t = lent.words[TRACKS], *starts = lent.words[SEGMENTS];
    lent = (tables){.len = {0}};
    EQUAL(start(0), 0);
    EQUAL(activate(0), 208); /* an empty one passes */
    /* A lent table ends inside a record (SCOPE 4.4) or without the last one; tracks without a group. */
    WRONG(len[0] = 11);
    WRONG(len[0] = 10);
    WRONG(len[0] = 9);
    WRONG(len[0] = 0);
    WRONG(len[1] = 23);
    WRONG(len[1] = 18);
    WRONG(len[1] = 27);
    WRONG(len[1] = 30);
    WRONG(len[2] = 2);
    WRONG(len[2] = 4);
    WRONG(len[3] = 17);
    /* Parents; runs, also such as come out right when their sum wraps round. */
    WRONG(g[0] = 1);
    WRONG(g[3] = 1);
    WRONG(g[9] = 3);
    WRONG(g[9] = 0xFFFFFFFFu);
    RIGHT(g[9] = 2);
    RIGHT(len[0] = 15; g[13] = 4);
    WRONG(g[1] = 1);
    WRONG(g[7] = 0);
    WRONG(g[5] = 2);
    WRONG(g[5] = 0xFFFFFFFFu);
    WRONG(g[11] = 2);
    WRONG(g[11] = 0);
    WRONG(t[2] = 1);
    WRONG(t[3] = 2);
    WRONG(t[3] = 4);
    WRONG(t[3] = 0xFFFFFFFFu);
    WRONG(t[8] = 2);
    WRONG(t[20] = 0);
    WRONG(g[8] = 0xFFFFFFFFu; g[10] = 2; g[11] = 2);
    WRONG(t[9] = 0xFFFFFFFFu; t[14] = 2; t[15] = 1);
    /* A duration is 0 to 8,640,000 (SCOPE 4.8); starts begin at 0, rise strictly and lie below D (SCOPE 4.10). A stamp may be
     * any. The duration word 0xFFFFFFFF says that it is not yet known (SCOPE 4.8), and D is then 8,640,000 (SCOPE 4.9). */
    RIGHT(t[0] = UNKNOWN);
    WRONG(t[0] = UNKNOWN - 1);
    RIGHT(t[0] = UNKNOWN; starts[2] = END - 1);
    WRONG(t[0] = UNKNOWN; starts[2] = END);
    RIGHT(t[12] = UNKNOWN);
    RIGHT(t[0] = END);
    WRONG(t[0] = END + 1);
    RIGHT(t[0] = 4001);
    WRONG(t[0] = 4000);
    WRONG(t[0] = 0);
    WRONG(starts[0] = 1);
    WRONG(starts[1] = 0);
    WRONG(starts[2] = 1500);
    RIGHT(starts[2] = 5999);
    RIGHT(t[1] = 0xFFFFFFFFu);
    /* Titles, also empty ones, lie in the text, have at most 128 octets and are UTF-8 (SCOPE 4.11, 4.12). What is no title may
     * be anything. */
    RIGHT(t[16] = 18);
    WRONG(t[16] = 19);
    WRONG(t[16] = 0xFFFFFFFFu);
    WRONG(t[22] = 15);
    WRONG(t[23] = 5);
    WRONG(t[23] = 0xFFFFFFFFu);
    TITLE(t[4] = 1, 0, 0);
    TITLE(t[5] = 1, 0, 0);
    RIGHT(t[5] = 0);
    RIGHT(t[16] = 1);
    TITLE(lent.text[17] = 0x80, 3, 3);
    RIGHT(t[23] = 3; lent.text[17] = 0xFF);
    RIGHT(len[3] = 146; t[22] = 18; t[23] = 128);
    WRONG(len[3] = 147; t[22] = 18; t[23] = 129);
    /* At most 64 groups, 256 tracks, 1,024 segments, 32,768 text octets (SCOPE 4.2). */
    RIGHT(lend_full(193));
    RIGHT(lend_full(256));
    WRONG(lend_full(193); len[0] = 195; g[193] = 256);
    WRONG(lend_full(193); len[3] = 32769);
    WRONG(lend_full(193); len[1] = 1542; g[191] = 2; t[1538] = 1024);
    WRONG(lend_full(193); len[2] = 1025; starts[1024] = 399; t[1533] = 5);
}

/* All titles of the full catalogue have 128 octets, and use up the text. */
static void lend_long_titles(void)
{
    lend_full(193);
    EACH(0, 256) lent.words[TRACKS][6 * k + 5] = 128;
}

/* 200 for a bad title carries the lowest such track and the offset (SCOPE 4.14). The sample's titles are C3 9C and "berfahrt",
 * "Rast", none and "Ziel", of tracks 0 to 3. */
static void title_cases(void)
{
    size_t *len = lent.len;
    uint32_t *t = lent.words[TRACKS], *starts = lent.words[SEGMENTS];
    uint8_t *text = lent.text;
    /* At the front, in the middle, at the end. */
    TITLE(text[0] = 0x9C, 0, 0);
    TITLE(text[10] = 0x80, 1, 0);
    TITLE(text[14] = 0xFF, 3, 0);
    TITLE(text[2] = 0x9C, 0, 2);
    TITLE(text[12] = 0xFF, 1, 2);
    TITLE(text[9] = 0xF8, 0, 9);
    TITLE(text[13] = 0xBF, 1, 3);
    TITLE(text[17] = 0xC1, 3, 3);
    /* A truncated end, at the offset of the character's first octet; what lies behind the title does not make it whole. */
    TITLE(text[13] = 0xC3, 1, 3);
    TITLE(text[13] = 0xC3; text[14] = 0xA4; t[22] = 15; t[23] = 3, 1, 3);
    TITLE(text[17] = 0xC3, 3, 3);
    TITLE(text[9] = 0xE2, 0, 9);
    TITLE(memcpy(text + 12, "\xE2\x82", 2), 1, 2);
    TITLE(memcpy(text + 12, "\xE2\x82\xAC", 3), 1, 2);
    TITLE(memcpy(text + 11, "\xF0\x9F\x8E", 3), 1, 1);
    TITLE(memcpy(text + 14, "\xF0\x9F\x8E\xB5", 4); t[23] = 3, 3, 0);
    RIGHT(memcpy(text + 14, "\xF0\x9F\x8E\xB5", 4));
    /* A bad octet inside a character, likewise; and characters that are whole, but not valid. */
    TITLE(text[1] = 'x', 0, 0);
    TITLE(text[1] = 0xC3, 0, 0);
    TITLE(memcpy(text + 10, "\xF0\x9F\x8Ex", 4), 1, 0);
    TITLE(memcpy(text + 11, "\xE2\x82x", 3), 1, 1);
    TITLE(memcpy(text + 10, "a\xE2x\xAC", 4), 1, 1);
    TITLE(memcpy(text + 11, "\xE0\x9F\xBF", 3), 1, 1);
    TITLE(memcpy(text + 15, "\xED\xA0\x80", 3), 3, 1);
    TITLE(memcpy(text + 4, "\xF4\x90\x80\x80", 4), 0, 4);
    TITLE(memcpy(text + 12, "\xC0\x80", 2), 1, 2);
    /* Two bad titles, of which the lower track's is bad further on, or lies further on in the text; and all of them. */
    TITLE(text[10] = text[14] = 0x80, 1, 0);
    TITLE(text[13] = text[14] = 0x80, 1, 3);
    TITLE(text[9] = text[10] = 0x80, 0, 9);
    TITLE(t[10] = 14; t[22] = 10; text[10] = text[17] = 0x80, 1, 3);
    TITLE(t[4] = 14; t[5] = 4; text[10] = text[16] = 0x80, 0, 2);
    TITLE(memset(text, 0x80, 18), 0, 0);
    TITLE(memset(text, 0x80, 18); t[5] = 0, 1, 0);
    TITLE(memset(text, 0x80, 18); t[5] = t[11] = 0, 3, 0);
    /* Two octets in one title: the first. */
    TITLE(text[11] = text[13] = 0xFF, 1, 1);
    /* One title of two tracks. */
    TITLE(t[22] = 10; text[12] = 0xFF, 1, 2);
    TITLE(t[22] = 0; t[23] = 10; text[9] = 0xC3, 0, 9);
    TITLE(t[16] = 14; t[17] = 4; text[15] = 0x80, 2, 1);
    /* Titles that overlap: the bad octet has an offset in each. One begins, and one ends, inside a character of another. */
    TITLE(t[5] = 14; text[12] = 0xFF, 0, 12);
    TITLE(t[10] = 8; t[11] = 6; text[12] = 0xFF, 1, 4);
    TITLE(t[22] = 11; t[23] = 3; text[12] = 0xFF, 1, 2);
    TITLE(t[11] = 2; t[22] = 10; text[12] = 0xFF, 3, 2);
    TITLE(t[22] = 1; t[23] = 4, 3, 0);
    TITLE(t[22] = 0; t[23] = 1, 3, 0);
    TITLE(t[16] = 1; t[17] = 1, 2, 0);
    TITLE(text[9] = 0xC3; text[10] = 0xA4, 0, 9);
    TITLE(t[5] = 9; text[9] = 0xC3; text[10] = 0xA4, 1, 0);
    /* Over 128 octets, or outside the text, and not UTF-8 as well; and such as would not be UTF-8 if they were cut at 128, or where the
     * text ends. */
    WRONG(len[3] = 147; t[22] = 18; t[23] = 129; text[18] = 0x80);
    WRONG(len[3] = 147; t[22] = 18; t[23] = 129; text[146] = 0x80);
    WRONG(len[3] = 147; t[22] = 18; t[23] = 129; text[145] = 0xC3; text[146] = 0xA4);
    WRONG(t[23] = 5; text[14] = 0x80);
    WRONG(t[23] = 5; text[17] = 0xC3; text[18] = 0xA4);
    WRONG(t[22] = 19; text[18] = 0x80);
    WRONG(len[3] = 200; t[5] = 129; t[4] = 1);
    /* Two rules of one track, and of two: a title that is bad at 0, and a later one that is too long or too far on. */
    WRONG(t[4] = 1; t[0] = END + 1);
    WRONG(t[4] = 1; t[23] = 5);
    WRONG(len[3] = 200; t[4] = 1; t[23] = 129);
    WRONG(t[4] = 1; t[16] = 19);
    /* The rules of duration and starts at the last track, behind every bad title, since above they are broken at track 0. */
    WRONG(t[18] = END + 1);
    RIGHT(len[2] = 5; t[21] = 2; starts[4] = 899);
    WRONG(len[2] = 5; t[21] = 2; starts[4] = 900);
    WRONG(len[2] = 5; t[21] = 2; starts[3] = 1; starts[4] = 2);
    WRONG(len[2] = 5; t[21] = 2);
    WRONG(t[21] = 1);
    WRONG(t[20] = 4);
    /* 128 octets, of which the last, or the last character, is bad. */
    TITLE(len[3] = 146; t[22] = 18; t[23] = 128; text[145] = 0x80, 3, 127);
    TITLE(len[3] = 146; t[22] = 18; t[23] = 128; text[145] = 0xC3, 3, 127);
    TITLE(len[3] = 146; t[22] = 18; t[23] = 128; memcpy(text + 144, "\xE2\x82", 2), 3, 126);
    TITLE(len[3] = 146; t[22] = 18; t[23] = 128; memcpy(text + 143, "\xF0\x9F\x8E", 3), 3, 125);
    RIGHT(len[3] = 146; t[22] = 18; t[23] = 128; memcpy(text + 142, "\xF0\x9F\x8E\xB5", 4));
    /* The full catalogue: its last track, a character across two titles, and an octet at every 131st place. */
    TITLE(lend_long_titles(); text[32767] = 0xC3, 255, 127);
    TITLE(lend_long_titles(); text[32640] = 0x80, 255, 0);
    TITLE(lend_long_titles(); text[127] = 0xC3; text[128] = 0xA4, 0, 127);
    TITLE(lend_long_titles(); memset(text, 0xBF, 32768), 0, 0);
    RIGHT(lend_long_titles());
    RIGHT(lend_long_titles(); EACH(0, 16384) {
        text[2 * k] = 0xC3;
        text[2 * k + 1] = 0xA4;
    });
    lend_long_titles();
    EACH(0, 251) {
        text[131 * k] = 0xFF;
        EQUAL(start(0), 200);
        EQUAL(place.track, 131 * k / 128);
        EQUAL(place.offset, 131 * k % 128);
        text[131 * k] = 'a';
    }
}

/* UTF-8 is RFC 3629 (SCOPE 2.5): the bounds of its table of octets, and one beyond each. Of a name over 128 octets 207 carries
 * 128, tested first (SCOPE 20.4). */
#define NAMED(len, refusal, at)                                                                                                \
    do {                                                                                                                       \
        EQUAL(makes(START, 0, 0, 0, name, len, 0), refusal);                                                                   \
        EQUAL(place.offset, at);                                                                                               \
        EQUAL(makes(SET_NAME, 0, 0, 0, name, len, 0), refusal);                                                                \
        EQUAL(place.offset, at);                                                                                               \
    } while (0)
static void name_cases(void)
{
    static const char *const GOOD[] = {"",
                                       "\x01\x7F",
                                       "\xC2\x80",
                                       "\xDF\xBF",
                                       "\xE0\xA0\x80",
                                       "\xE0\xBF\xBF",
                                       "\xE1\x80\x80",
                                       "\xEC\xBF\xBF",
                                       "\xED\x80\x80",
                                       "\xED\x9F\xBF",
                                       "\xEE\x80\x80",
                                       "\xEF\xBF\xBF",
                                       "\xF0\x90\x80\x80",
                                       "\xF0\xBF\xBF\xBF",
                                       "\xF1\x80\x80\x80",
                                       "\xF3\xBF\xBF\xBF",
                                       "\xF4\x80\x80\x80",
                                       "\xF4\x8F\xBF\xBF",
                                       "a\xC3\xA4\xE2\x82\xAC\xF0\x9F\x8E\xB5z"};
    static const struct {
        const char *name;
        uint32_t at;
    } BAD[] = {{"\x80\x90\x80\x80", 0},
               {"\xBF\x80", 0},
               {"\xC0\x80", 0},
               {"\xC1\xBF", 0},
               {"\xC2\x7F", 0},
               {"\xC2\xC0", 0},
               {"a\xC2", 1},
               {"\xE0\x9F\xBF", 0},
               {"\xED\xA0\x80", 0},
               {"\xED\xBF\xBF", 0},
               {"\xE1\x80", 0},
               {"\xE1\x7F\x80", 0},
               {"\xE1\x80\x7F", 0},
               {"\xE1\x80\xC0", 0},
               {"\xF0\x8F\xBF\xBF", 0},
               {"\xF4\x90\x80\x80", 0},
               {"\xF5\x80\x80\x80", 0},
               {"\xF7\xBF\xBF\xBF", 0},
               {"\xF1\x80\x80", 0},
               {"\xF1\x80\x7F\x80", 0},
               {"\xF1\x80\x80\xC0", 0},
               {"\xF8\x90\x80\x80", 0},
               {"\xFF", 0},
               {"\xC3\xA4\xA4", 2},
               {"ab\xE2\x82", 2},
               {"\xE2\x82\xAC\xE2\x82", 3},
               {"\xF0\x9F\x8E\xB5\xF0\x9F\x8E", 4},
               {"a\xC3\xA4\xF0\x9F\x8Ez", 3}};
    static const uint8_t SECOND[10] = {0x00, 0x7F, 0x80, 0x8F, 0x90, 0x9F, 0xA0, 0xBF, 0xC0, 0xFF};
    enum { GOODS = sizeof GOOD / sizeof GOOD[0] };
    uint8_t name[1000];
    lend_sample();
    EQUAL(start(0), 0);
    EACH(0, GOODS) EQUAL(set_name(GOOD[k]), 0);
    /* Behind whole characters the offset is so much more, and what follows is no tail and does not matter. */
    EACH(0, sizeof BAD / sizeof BAD[0]) {
        EQUAL(set_name(BAD[k].name), 207);
        EQUAL(place.offset, BAD[k].at);
        for (uint32_t j = 0; j < GOODS; j++) {
            size_t len = (size_t)sprintf((char *)name, "%s%s%s", GOOD[j], BAD[k].name, GOOD[(j + k) % GOODS]);
            NAMED(len, 207, strlen(GOOD[j]) + BAD[k].at);
        }
    }
    /* No octets, 128 and more; zero is an octet as any other. */
    memset(name, 'x', sizeof name);
    name[7] = 0;
    NAMED(0, 0, UNTOUCHED);
    NAMED(127, 0, UNTOUCHED);
    NAMED(128, 0, UNTOUCHED);
    EQUAL(PLAYER.name_len, 128);
    NAMED(129, 207, 128);
    NAMED(1000, 207, 128);
    /* Over 128 octets and not UTF-8 either, from the first octet on, or from the 128th, or from the one behind. */
    name[0] = 0x80;
    NAMED(1, 207, 0);
    NAMED(128, 207, 0);
    NAMED(129, 207, 128);
    NAMED(1000, 207, 128);
    name[0] = 'x';
    name[128] = 0xFF;
    NAMED(128, 0, UNTOUCHED);
    NAMED(129, 207, 128);
    name[128] = 'x';
    /* Cut inside a character of two, three or four octets, which ends at 129 or at 128. */
    name[127] = 0xC3;
    NAMED(128, 207, 127);
    NAMED(129, 207, 128);
    name[128] = 0xA4;
    NAMED(128, 207, 127);
    NAMED(129, 207, 128);
    memcpy(name + 125, "\xE2\x82\xAC", 3);
    NAMED(128, 0, UNTOUCHED);
    NAMED(127, 207, 125);
    NAMED(126, 207, 125);
    NAMED(125, 0, UNTOUCHED);
    memcpy(name + 124, "\xF0\x9F\x8E\xB5", 4);
    NAMED(128, 0, UNTOUCHED);
    EACH(125, 128) NAMED(k, 207, 124);
    name[127] = 'x';
    NAMED(128, 207, 124);
    name[125] = 'x';
    NAMED(128, 207, 124);
    name[124] = 'x';
    NAMED(128, 207, 126);
    memset(name, 'x', sizeof name);
    EACH(0, 128) {
        name[k] = 0xFF;
        NAMED(128, 207, k);
        name[k] = 'x';
    }
    /* Every first octet, with the bounds of the second, cut behind each. */
    for (uint32_t first = 0; first < 256; first++) {
        EACH(0, 40) {
            uint32_t len = 1 + k / 10;
            const uint8_t octets[4] = {(uint8_t)first, SECOND[k % 10], 0x80, 0xBF};
            uint32_t refusal = makes(START, 0, 0, 0, octets, len, 0), at = farthest(octets, len);
            EQUAL(refusal, at < len ? 207 : 0);
            EQUAL(place.offset, at < len ? at : UNTOUCHED);
        }
    }
    /* 200 comes before 207 and has its own place; 201 has none, also where it is for the name of the state. */
    EQUAL(start(0), 0);
    lent.text[17] = 0x80;
    EQUAL(set_name("a\xFF"), 200);
    EQUAL(place.track, 3);
    EQUAL(place.offset, 3);
    EQUAL(makes(START, 0, 0, 0, "\xFF", 1, 0), 200);
    EQUAL(place.track, 3);
    EQUAL(place.offset, 3);
    lent.len[TEXT] = 17;
    EQUAL(set_name("a\xFF"), 200);
    EQUAL(place.track, UNTOUCHED);
    EQUAL(place.offset, UNTOUCHED);
    lend_sample();
    PLAYER.name[2] = 0xFF;
    EQUAL(set_name("a\xFF"), 201);
    EQUAL(place.offset, UNTOUCHED);
    EQUAL(deactivate(), 201);
    EQUAL(place.offset, UNTOUCHED);
    PLAYER.name_len = 129;
    EQUAL(set_name("a\xFF"), 201);
    EQUAL(place.offset, UNTOUCHED);
}

/* Titles that 224 refuses: the sample's last entry is cut, or has 129 octets, or its part is behind the text. */
static void spoil_office(uint32_t how)
{
    static const uint8_t LONG[129];
    lend_office(LONG, 129);
    if (how % 3 == 0)
        office.words_len--;
    else
        rename_track(3, how % 3 == 1 ? 0 : 129, how % 3 == 1 ? 129 : 1);
}

/* Each refusal of each call, with every later one of the table that can apply as well. Client 0 is encrypted, has read the name
 * and has eight results waiting, 1 is unencrypted, 2 not connected. The octets written are zeros. 219, for a service number over
 * 1, comes after 202 (SCOPE 20.2), and so before all the others that a row gives; connect, disconnect and take are of no service.
 * 224 comes after 200 (SCOPE 20.2), and so before all others. */
static void order_cases(void)
{
    static const struct {
        int call;
        uint32_t client, what, number, len, gives;
    } ROW[] = {
        {SET_NAME, 0, 0, 0, 129, 207},
        {ACTIVATE, 0, 0, 0, 0, 208},
        {ACTIVATE, 0, 0, 2, 0, 208},
        {ACTIVATE, 0, 0, 4, 0, 208},
        {DEACTIVATE, 0, 0, 0, 0, 0},
        {ADVANCE, 0, 0, 9, 0, 0},
        {TAKE, 0, 0, 0, 0, 0},
        {SAY_TITLE, 0, 0, 0, 0, 0},
        {MANUAL_GOTO, 9, SEGMENT + GOTO, 3, 0, 0},
        {MANUAL_GOTO, 0, TRACK + GOTO, 0, 0, 0},
        {MANUAL_GOTO, 4, 0x124, 0x80000000u, 0, 0},
        {CONNECT, 4, 1, 22, 0, 202},
        {CONNECT, 0, 1, 22, 0, 204},
        {CONNECT, 2, 1, 22, 0, 206},
        {CONNECT, 2, 1, 518, 0, 206},
        {DISCONNECT, 4, 0, 0, 0, 202},
        {DISCONNECT, 2, 0, 0, 0, 203},
        {SUBSCRIBE, 4, 3, 0, 0, 202},
        {SUBSCRIBE, 2, 3, 0, 0, 203},
        {SUBSCRIBE, 1, 3, 0, 0, 0x01},
        {SUBSCRIBE, 1, 16, 0, 0, 209},
        {SUBSCRIBE, 1, 1, 0, 0, 0x0F},
        {UNSUBSCRIBE, 4, 3, 0, 0, 202},
        {UNSUBSCRIBE, 1, 16, 0, 0, 209},
        {READ, 4, 3, 9, 0, 202},
        {READ, 2, 3, 9, 0, 203},
        {READ, 1, 3, 9, 0, 0x01},
        {READ, 1, 4, 9, 0, 0x02},
        {READ, 1, 18, 9, 0, 0x02},
        {READ, 1, 1, 9, 0, 0x0F},
        {READ, 0, 5, 11, 0, 0x80},
        {READ, 0, 1, 5, 0, 0x07},
        {READ, 0, 1, 4, 0, 0},
        {WRITE, 4, 3, 0, 0, 202},
        {WRITE, 2, 3, 0, 0, 203},
        {WRITE, 1, 3, 0, 0, 0x01},
        {WRITE, 1, 17, 0, 0, 0x03},
        {WRITE, 1, 15, 0, 0, 0x0F},
        {WRITE, 0, 15, 0, 0, 0x0D},
        {WRITE, 0, 15, 0, 2, 0x0D},
        {WRITE, 0, 15, 0, 1, 0x13},
        {WRITE, 0, 8, 0, 2, 0x0D},
        {WRITE, 0, 7, 0, 3, 0x0D},
        {WRITE, 0, 7, 0, 5, 0x0D},
        {WRITE, 0, 18, 0, 6, 0x0D},
        {WRITE, 0, 18, 0, 1, 0x11},
        {WRITE, 0, 18, 0, 5, 0x11},
        {SUBSCRIBE, 1, 10, 0, 0, 209},
        {UNSUBSCRIBE, 1, 10, 0, 0, 209},
        {SUBSCRIBE, 1, 13, 0, 0, 0x0F},
        {SUBSCRIBE, 0, 13, 0, 0, 0},
        {READ, 1, 10, 9, 0, 0x0F},
        {READ, 0, 10, 9, 0, 0x80},
        {READ, 0, 14, 6, 0, 0x80},
        {WRITE, 1, 10, 0, 0, 0x03},
        {WRITE, 1, 13, 0, 0, 0x03},
        {WRITE, 0, 10, 0, 6, 0x03},
        {WRITE, 0, 13, 0, 6, 0x03},
        {WRITE, 1, 11, 0, 0, 0x0F},
        {WRITE, 1, 12, 0, 6, 0x0F},
        {WRITE, 1, 14, 0, 6, 0x0F},
        {WRITE, 0, 11, 0, 0, 0x0D},
        {WRITE, 0, 11, 0, 5, 0x0D},
        {WRITE, 0, 11, 0, 7, 0x0D},
        {WRITE, 0, 12, 0, 5, 0x0D},
        {WRITE, 0, 12, 0, 7, 0x0D},
        {WRITE, 0, 14, 0, 1, 0x0D},
        {WRITE, 0, 14, 0, 8, 0x0D},
        {WRITE, 0, 11, 0, 6, 0x13},
        {WRITE, 0, 12, 0, 6, 0x13},
        {WRITE, 0, 14, 0, 6, 0x13},
    };
    static const uint8_t ZEROS[129];
    uint32_t right = service;
    ref_state good;
    lend_sample();
    stand(3, 0, 0);
    EQUAL(makes(CONNECT, 1, 0, 100, NULL, 0, 0) + subscribes(0, 18) + reads(0, 1, 0), 0);
    EACH(0, 8) EQUAL(commands(0, k % 2 ? 0x77 : PAUSE, 0), 0);
    good = s;
    EACH(0, sizeof ROW / sizeof ROW[0]) {
        size_t room = ROW[k].call == READ || ROW[k].call == TAKE ? ROOM : 0, small = room > 0 ? room - 1 : 0;
        int of_none = ROW[k].call == CONNECT || ROW[k].call == DISCONNECT || ROW[k].call == TAKE;
#define MAKES(room) makes(ROW[k].call, ROW[k].client, ROW[k].what, ROW[k].number, ZEROS, ROW[k].len, room)
        for (uint32_t j = 0; j < 6; j++) {
            service = OVER[j];
            s = good;
            EQUAL(MAKES(room), of_none || ROW[k].gives == 202 ? ROW[k].gives : 219);
            s = good;
            s.turn = 4;
            EQUAL(MAKES(room), 201);
            EQUAL(MAKES(small), room > 0 ? 205 : 201);
            spoil_office(j);
            EQUAL(MAKES(small), 224);
            EQUAL(MAKES(room), 224);
            lent.len[GROUPS] = 11;
            EQUAL(MAKES(small), 200);
            lent.len[GROUPS] = 12;
            rename_nothing();
        }
        service = right;
        s = good;
        EQUAL(MAKES(room), ROW[k].gives);
        s = good;
        EQUAL(MAKES(small), room > 0 ? 205 : ROW[k].gives);
        spoil_office(k);
        s = good;
        EQUAL(MAKES(small), 224);
        EQUAL(MAKES(room), 224);
        s.turn = 4;
        EQUAL(MAKES(small), 224);
        EQUAL(MAKES(room), 224);
        EQUAL(makes(START, 0, 0, 0, ZEROS, 129, 0), 224);
        lent.text[17] = 0xC3;
        EQUAL(MAKES(small), 200);
        EQUAL(place.track, 3);
        EQUAL(place.offset, 3);
        lent.text[17] = 'l';
        rename_nothing();
        EQUAL(MAKES(small), room > 0 ? 205 : 201);
        EQUAL(MAKES(room), 201);
        lent.len[GROUPS] = 11;
        EQUAL(MAKES(small), 200);
        EQUAL(makes(START, 0, 0, 0, ZEROS, 129, 0), 200);
        lent.len[GROUPS] = 12;
        lent.text[17] = 0xC3;
        EQUAL(MAKES(small), 200);
        EQUAL(place.track, 3);
        EQUAL(place.offset, 3);
        lent.text[17] = 'l';
    }
    EQUAL(start(0), 0); /* it is lent no state to look at */
    EQUAL(connects(2, 517), 0);
    EQUAL(writes(2, 15, 9), 0x13);
    EQUAL(writes(2, 15, 8) + writes(2, 15, 1), 0);
    /* 0x0D for 18: 0 octets, over 5, or not 1 or 5 as a known opcode asks (SCOPE 20.6), though none is in the mask; an unknown
     * one has any of 1 to 5. */
    EACH(0, 22 * 6) {
        uint32_t len = k % 6;
        int known = k / 6 < 21, opcode = known ? OPCODE[k / 6] : 0x77,
            right = known ? len == (CARRIES_NUMBER(opcode) ? 5 : 1) : len > 0;
        EQUAL(makes(WRITE, 2, 18, 0, numbered(opcode, 0), len, 0), right ? 0 : 0x0D);
    }
}

#define BROKEN(edit)                                                                                                           \
    do {                                                                                                                       \
        s = good;                                                                                                              \
        edit;                                                                                                                  \
        EQUAL(disconnects(4), 201);                                                                                            \
    } while (0)
#define STANDS(edit)                                                                                                           \
    do {                                                                                                                       \
        s = good;                                                                                                              \
        edit;                                                                                                                  \
        EQUAL(disconnects(4), 202);                                                                                            \
    } while (0)
static void state_cases(void)
{
    ref_state good;
    ref_player *p = &PLAYER;
    ref_account *r = &ACCOUNT(0);
    ref_link *l = &s.links[0];
    lend_sample();
    stand(3, 0, 0);
    EQUAL(subscribes(0, 17) + subscribes(0, 18) + commands(0, PLAY, 0) + commands(0, PAUSE, 0), 0);
    good = s;
    /* The name in the state, and group, track in it, position, state, seeking speed and order (SCOPE 20.5). */
    STANDS(p->name_len = 128);
    BROKEN(p->name_len = 129);
    BROKEN(p->name[3] = 0xC3);
    STANDS(p->name[4] = 0xFF);
    STANDS(p->order = 8);
    BROKEN(p->order = 0);
    BROKEN(p->order = 9);
    BROKEN(p->media = 0);
    BROKEN(p->media = 3);
    BROKEN(p->media = 4);
    BROKEN(p->seeking = 4);
    STANDS(p->media = 3; p->seeking = -32);
    BROKEN(p->media = 3; p->seeking = 5);
    BROKEN(p->group = 2);
    BROKEN(p->group = 3);
    BROKEN(p->group = 4);
    STANDS(p->track = 2);
    BROKEN(p->track = 3);
    STANDS(p->group = p->track = 3);
    STANDS(p->position = 6000);
    BROKEN(p->position = 6001);
    BROKEN(p->track = 2; p->position = 1);
    BROKEN(s.turn = 4);
    /* 201 refuses a named next track while Inactive, or one that is not of the current group (SCOPE 20.5): its number plus 1,
     * whatever the order. */
    EACH(0, 8) {
        s = good;
        p->next = k;
        EQUAL(disconnects(4), k <= 3 ? 202 : 201);
    }
    EACH(0, 8) {
        s = good;
        p->group = p->track = 3;
        p->next = k;
        EQUAL(disconnects(4), k == 0 || k == 4 ? 202 : 201);
    }
    STANDS(p->order = 1; p->next = 3);
    STANDS(p->track = 2; p->next = 1);
    BROKEN(p->next = 0x1001);
    BROKEN(p->next = 0xFFFFFFFFu);
    BROKEN(p->next = 257);
    BROKEN(p->next = 0x80000001u);
    /* 201 refuses a rest over 65,535 (SCOPE 20.5), and no other, wherever the position is and whatever the state. */
    EACH(0, 17) {
        STANDS(p->rest = (1u << k) - 1);
        STANDS(p->rest = k * 4095; p->position = 6000);
        STANDS(p->media = 1; p->rest = 65535);
    }
    EACH(16, 32) {
        BROKEN(p->rest = 1u << k);
        BROKEN(p->rest = (1u << k) + 5; p->media = 1);
        BROKEN(p->rest = 0xFFFFFFFFu << k);
    }
    BROKEN(p->rest = 0xFFFFFFFFu);
    STANDS(p->media = 3; p->seeking = 8; p->rest = 65535);
    BROKEN(p->media = 3; p->seeking = 8; p->rest = 65536);
    /* D is 8,640,000 (SCOPE 4.9). */
    lent.words[TRACKS][0] = UNKNOWN;
    STANDS(p->position = END);
    BROKEN(p->position = END + 1);
    lend_sample();
    /* A connected client has over 8 results, or a result code that is not 1 to 4 (SCOPE 20.5): two wait, PLAY and PAUSE. The
     * octets behind eight results are those of the next account's subscriptions, here 1 and 1, and would pass for a ninth. */
    BROKEN(r->waiting = 0);
    BROKEN(r->waiting = 3);
    STANDS(r->waiting = 8; EACH(0, 8) r->results[k].code = 4);
    BROKEN(r->waiting = 9; EACH(0, 8) r->results[k].code = 1; s.links[1].connected = s.links[1].encrypted = 1;
           ACCOUNT(1).subscribed = 0x101);
    BROKEN(r->results[0].code = 0);
    BROKEN(r->results[1].code = 5);
    STANDS(r->results[2].code = 5);
    /* A slot is owed but not subscribed, or 18 is owed otherwise than when results wait (SCOPE 20.5). */
    BROKEN(r->owed |= B7);
    BROKEN(r->subscribed = B18);
    BROKEN(r->subscribed = B17);
    BROKEN(r->owed = B17);
    STANDS(r->owed = B18);
    BROKEN(r->subscribed |= 1u << 14);
    BROKEN(r->subscribed |= 1u << 31);
    BROKEN(r->subscribed |= 1u << 14; r->owed |= 1u << 14);
    /* ATT_MTU is not 23 to 517, the place of the round is none of the 28, or a slot is subscribed while unencrypted (SCOPE 20.5);
     * a yes or no is 1 or 0. */
    BROKEN(l->mtu = 22);
    BROKEN(l->mtu = 518);
    STANDS(l->mtu = 517);
    STANDS(l->mark = 0);
    STANDS(l->mark = 27);
    BROKEN(l->mark = 28);
    BROKEN(l->encrypted = 0);
    BROKEN(l->encrypted = 2);
    BROKEN(l->connected = 0);
    BROKEN(l->connected = 2);
    /* What may be read: 1, 5 to 17, 19, 22. */
    EACH(0, 32) {
        s = good;
        r->fresh = 1u << k;
        EQUAL(disconnects(4), (0x4BFFE2u >> k & 1u) != 0 ? 202 : 201);
    }
    /* A client that is not connected does not have start's record (SCOPE 20.5). */
    r = &ACCOUNT(3);
    l = &s.links[3];
    BROKEN(l->encrypted = 1);
    BROKEN(l->mtu = 24);
    BROKEN(r->subscribed = 1);
    BROKEN(r->owed = 1);
    BROKEN(r->fresh = 2);
    BROKEN(l->mark = 0);
    BROKEN(r->waiting = 1);
    STANDS(r->results[0].code = 7);
    /* While Inactive group, track and position are those of start. */
    s = good;
    EQUAL(deactivate(), 0);
    good = s;
    BROKEN(p->group = 1);
    BROKEN(p->track = 1);
    BROKEN(p->position = 1);
    BROKEN(p->media = 2);
    BROKEN(p->next = 1);
    BROKEN(p->next = 4);
    BROKEN(p->next = 0xFFFFFFFFu);
    STANDS(p->next = 0);
    STANDS(p->rest = 1);
    STANDS(p->rest = 65535);
    BROKEN(p->rest = 65536);
    BROKEN(p->rest = 0xFFFFFFFFu);
}

/* ---- Two services */

/* A call to that service. Calls of which each is to be accepted are joined by ||, which keeps their order. */
#define IN(number, call) (service = (number), (call))
#define OWES_IN(number, client, slots) EQUAL(s.services[number].accounts[client].owed, slots)

/* Start names both players at once, and service 0's name is checked first (SCOPE 17.6). */
#define STARTS(name0, len0, name1, len1, refusal, octet)                                                                       \
    do {                                                                                                                       \
        service = 0;                                                                                                           \
        other.name = name1;                                                                                                    \
        other.len = len1;                                                                                                      \
        EQUAL(makes(START, 0, 7, ALL_OPCODES, name0, len0, 0), refusal);                                                       \
        EQUAL(place.offset, octet);                                                                                            \
    } while (0)
static void start_cases(void)
{
    uint8_t x[300];
    lend_sample();
    memset(x, 'x', sizeof x);
    /* Bad in both: the offset is service 0's, be it below, above or the same as that of service 1. */
    STARTS("a\xFF", 2, "bcd\xFF", 4, 207, 1);
    STARTS("abc\xC3", 4, "\x80", 1, 207, 3);
    STARTS("ab\xFF", 3, "cd\x80", 3, 207, 2);
    STARTS(x, 129, "\xFF", 1, 207, 128);
    STARTS("\xFF", 1, x, 129, 207, 0);
    STARTS(x, 129, x, 300, 207, 128);
    STARTS("\xE2\x82", 2, x, 300, 207, 0);
    /* Bad in service 0 alone, and in service 1 alone. */
    STARTS("ab\xFF", 3, "Player", 6, 207, 2);
    STARTS(x, 129, "", 0, 207, 128);
    STARTS("Desk", 4, "ab\xFF", 3, 207, 2);
    STARTS("", 0, "\x80", 1, 207, 0);
    STARTS("Desk", 4, x, 129, 207, 128);
    STARTS(x, 128, "abcde\xF0\x9F\x8E", 8, 207, 5);
    /* 200 comes before both and has its own place. */
    lent.text[17] = 0x80;
    STARTS("a\xFF", 2, "\xFF", 1, 200, 3);
    EQUAL(place.track, 3);
    lend_sample();
    /* Good in both. */
    STARTS("", 0, "", 0, 0, UNTOUCHED);
    STARTS(x, 128, x, 128, 0, UNTOUCHED);
    STARTS("Desk", 4, "Player", 6, 0, UNTOUCHED);
    /* Start leaves both players Inactive, in order 3, at speed 0 (SCOPE 8.7); octets behind the names are zeros; the rounds begin
     * at client 0 and place 0. */
    EQUAL(s.layout, 0x84);
    EQUAL(s.turn, 3);
    EACH(0, 4) CHECK(starts_record(k));
    for (service = 0; service < 2; service++) {
        IS(0, 0, 0, REF_INACTIVE, 0);
        EQUAL(PLAYER.order, 3);
        EQUAL(PLAYER.speed, 0);
        EQUAL(PLAYER.rest, 0);
        EQUAL(PLAYER.name_len, service == 0 ? 4 : 6);
        CHECK(memcmp(PLAYER.name, service == 0 ? "Desk\0" : "Player", 6) == 0 && all_are(PLAYER.name + 6, 0, 122));
    }
    /* Each has its name, its mask and its Content Control ID: in 0 Play is known, in 1 Pause. */
    other = (named){"Player", 6, 2, 9};
    EQUAL(IN(0, start(1)) || connects(0, 23) || activate(1) || IN(1, activate(1)), 0);
    CHECK(IN(0, reads_as(0, 1, 0, "Desk", 4)) && IN(1, reads_as(0, 1, 0, "Player", 6)));
    CHECK(IN(0, reads_as(0, 19, 0, "\x01\x00\x00\x00", 4)) && IN(1, reads_as(0, 19, 0, "\x02\x00\x00\x00", 4)));
    CHECK(IN(0, reads_as(0, 22, 0, "\x07", 1)) && IN(1, reads_as(0, 22, 0, "\x09", 1)));
    EQUAL(IN(0, result(PLAY, 0)), 1);
    EQUAL(IN(1, result(PLAY, 0)), 2);
    EQUAL(IN(1, result(PAUSE, 0)), 1);
    EQUAL(IN(0, result(PAUSE, 0)), 2);
    PLAYS(1, 0, 0);
    service = 1;
    PAUSES(1, 0, 0);
    other = OTHER;
}

/* 219, for a service number over 1, comes after 202 (SCOPE 20.2). Client 0 is connected, 1 unencrypted, 2 not connected. */
static void number_cases(void)
{
    static const int CALL[4] = {SUBSCRIBE, UNSUBSCRIBE, READ, WRITE};
    service = 0;
    lend_sample();
    stand(3, 0, 0);
    EQUAL(makes(CONNECT, 1, 0, 100, NULL, 0, 0), 0);
    EACH(0, 24) {
        int call = CALL[k / 6];
        uint32_t over = OVER[k % 6];
        /* 202, 219, 203 and 0x01 at once; without the first; without the first two; and 0x01 alone. */
#define BY(client, number) IN(number, makes(call, client, 3, 0, "\x01", 1, ROOM))
        EQUAL(BY(4, over), 202);
        EQUAL(BY(2, over), 219);
        EQUAL(BY(2, 0), 203);
        EQUAL(BY(2, 1), 203);
        EQUAL(BY(0, over), 219);
        EQUAL(BY(0, 0), 0x01);
        EQUAL(BY(0, 1), 0x01);
        EQUAL(BY(4, 0), 202);
        EQUAL(BY(4, 1), 202);
        EQUAL(BY(1, over), 219);
        /* 201 comes before 202, 219 and 203, whichever of the two services breaks it. */
        s.services[k % 2].player.order = 9;
        EQUAL(BY(4, over), 201);
        EQUAL(BY(2, over), 201);
        EQUAL(BY(2, 0), 201);
        EQUAL(BY(2, 1), 201);
        s.services[k % 2].player.order = 3;
    }
    EACH(0, 6) {
        /* 201, then 219, then 207 and 208. */
        service = OVER[k];
        EQUAL(set_name("\xFF"), 219);
        EQUAL(set_name("Desk"), 219);
        EQUAL(activate(2), 219);
        EQUAL(activate(1), 219);
        EQUAL(deactivate(), 219);
        EQUAL(advance(1), 219);
        EQUAL(title(), 219);
        EQUAL(manual(TRACK + GOTO, 2, 2), 219);
        s.layout = 0;
        EQUAL(set_name("\xFF"), 201);
        EQUAL(activate(2), 201);
        EQUAL(deactivate(), 201);
        EQUAL(advance(1), 201);
        EQUAL(title(), 201);
        EQUAL(manual(TRACK + GOTO, 2, 2), 201);
        s.layout = 0x84;
    }
    for (service = 0; service < 2; service++) {
        EQUAL(set_name("\xFF"), 207);
        EQUAL(activate(2), 208);
    }
}

/* Each service has its own player, name, subscriptions and results (SCOPE 17.2). The connection, the ATT_MTU and the encryption
 * are the client's. */
static void apart_cases(void)
{
    ref_service kept;
    lend_sample();
    EQUAL(IN(0, start(ALL_OPCODES)) || connects(0, 24) || connects(1, 100) || IN(0, activate(1)) || IN(1, activate(3)), 0);
    CHECK(IN(0, reads_as(0, 5, 0, u8"Überfahrt", 10)) && IN(1, reads_as(0, 5, 0, "Ziel", 4)));
    CHECK(IN(0, reads_as(0, 6, 0, "\x70\x17\x00\x00", 4)) && IN(1, reads_as(0, 6, 0, "\x84\x03\x00\x00", 4)));
    EQUAL(IN(1, writes(0, 15, 8)) || writes(0, 8, 0x85) || commands(0, FORWARD, 0) || advance(100), 0);
    IS(3, 3, 400, REF_SEEKING, 4);
    service = 0;
    PAUSES(1, 0, 0);
    EQUAL(PLAYER.order, 3);
    EQUAL(PLAYER.speed, 0);
    EQUAL(commands(0, PLAY, 0) || advance(6000) || advance(7), 0);
    PLAYS(1, 1, 7);
    EQUAL(deactivate(), 0);
    IS(0, 0, 0, REF_INACTIVE, 0);
    service = 1;
    IS(3, 3, 400, REF_SEEKING, 4);
    EQUAL(PLAYER.order, 8);
    EQUAL(PLAYER.speed, -123);
    EQUAL(IN(0, result(PLAY, 0)), 3);
    EQUAL(IN(1, result(PLAY, 0)), 1);
    PLAYS(3, 3, 400);
    /* A value of one is cut by the same ATT_MTU as that of the other; unencrypted and unconnected are of both. */
    for (uint32_t first = 0; first < 2; first++) {
        EQUAL(IN(first, subscribes(0, 1)) || set_name("0123456789012345678901234"), 0);
        CHECK(takes(0, 1, "012345678901234567890", 21) && reads_as(0, 1, 0, "01234567890123456789012", 23));
        EQUAL(disconnects(0) || makes(CONNECT, 0, 0, 24, NULL, 0, 0), 0);
        EQUAL(reads(0, 1, 0), 0x0F);
        EQUAL(IN(1 - first, reads(0, 1, 0)), 0x0F);
        EQUAL(subscribes(0, 1), 0x0F);
        EQUAL(disconnects(0), 0);
        EQUAL(reads(0, 1, 0), 203);
        EQUAL(IN(first, reads(0, 1, 0)), 203);
        EQUAL(connects(0, 24), 0);
        EQUAL(connects(0, 24), 204);
    }
    /* Every call to one, while the other has subscriptions, owed values, changed marks, results and a rest: its octets stay. */
    for (uint32_t to = 0; to < 2; to++) {
        service = 1 - to;
        EQUAL(start(ALL_OPCODES) || connects(0, 23) || connects(1, 64) || activate(1), 0);
        EACH(0, SLOTS) EQUAL(subscribes(0, SLOT[k]) || subscribes(1, SLOT[k]), 0);
        EQUAL(reads(0, 1, 0) || reads(1, 7, 0) || commands(0, FORWARD, 0) || commands(1, 0x77, 0) || writes(0, 8, 3), 0);
        OWES(0, B9 | B17 | B18);
        OWES(1, B8 | B9 | B17 | B18);
        EQUAL(ACCOUNT(0).fresh, 1u << 1);
        EQUAL(ACCOUNT(1).fresh, 1u << 7);
        PLAYER.rest = 777;
        memcpy(&kept, &s.services[service], sizeof kept);
        service = to;
#define STAYS(call)                                                                                                            \
    do {                                                                                                                       \
        EQUAL(call, 0);                                                                                                        \
        CHECK(memcmp(&kept, &s.services[1 - to], sizeof kept) == 0);                                                           \
    } while (0)
        STAYS(subscribes(0, 8));
        STAYS(subscribes(1, 18));
        STAYS(set_name("Other"));
        STAYS(activate(1));
        STAYS(writes(0, 8, 9));
        STAYS(writes(1, 15, 4));
        STAYS(moves_to(0, 50));
        STAYS(commands(1, PLAY, 0));
        STAYS(advance(3));
        STAYS(advance(6000));
        STAYS(reads(0, 7, 0));
        STAYS(reads(1, 1, 0));
        STAYS(reads(1, 1, 2));
        STAYS(commands(1, TRACK + NEXT, 0));
        STAYS(title());
        STAYS(manual(SEGMENT + GOTO, 2, 2));
        STAYS(manual(TRACK + GOTO, -2, 2));
        STAYS(manual(GROUP + GOTO, 2, 2));
        STAYS(sets(0, 12, 0x1002));
        STAYS(sets(1, 11, 0x1000));
        STAYS(sets(0, 14, 0x2003));
        STAYS(deactivate());
        OWES(0, 0);
        OWES(1, B18);
        STAYS(unsubscribes(1, 18));
        STAYS(unsubscribes(0, 8));
        STAYS(unsubscribes(0, 17));
        /* Another client's coming and going is nothing to it either. */
        STAYS(connects(2, 99));
        STAYS(subscribes(2, 1));
        STAYS(disconnects(2));
    }
}

static void both_owed_cases(void)
{
    static const uint8_t CODE[2][8] = {{1, 4, 1, 1, 1, 1, 2, 1}, {3, 3, 3, 3, 3, 3, 2, 3}};
    static const uint8_t GIVEN[8] = {PLAY, TRACK + PREVIOUS, TRACK + NEXT, PAUSE, FORWARD, STOP, 0x99, REWIND};
    /* The writer of 8 is spared in the service that it wrote to, and the other client is owed it there; nobody is elsewhere. */
    lend_sample();
    EQUAL(IN(0, start(ALL_OPCODES)) || connects(0, 23) || connects(1, 23), 0);
    EACH(0, 4) EQUAL(IN(k / 2, subscribes(k % 2, 8)) || subscribes(k % 2, 15), 0);
    EQUAL(IN(0, writes(0, 8, 5)), 0);
    OWES_IN(0, 0, 0);
    OWES_IN(0, 1, B8);
    OWES_IN(1, 0, 0);
    OWES_IN(1, 1, 0);
    /* The writer there, client 1, is still owed what the other service owes it; and client 0 is now owed 8 by service 1. */
    EQUAL(IN(1, writes(1, 8, 6)), 0);
    OWES_IN(0, 0, 0);
    OWES_IN(0, 1, B8);
    OWES_IN(1, 0, B8);
    OWES_IN(1, 1, 0);
    /* What is already owed stays owed (SCOPE 18.6), also when the client writes it, to the same service or to the other. */
    EQUAL(IN(0, writes(1, 8, 7)), 0);
    OWES_IN(0, 0, B8);
    OWES_IN(0, 1, B8);
    EQUAL(IN(1, writes(0, 8, 7)), 0);
    OWES_IN(0, 0, B8);
    OWES_IN(1, 0, B8);
    OWES_IN(1, 1, B8);
    /* The same value again changes nothing, though the other service has another one. */
    EQUAL(IN(0, writes(1, 15, 3)), 0);
    OWES_IN(0, 0, B8);
    EQUAL(IN(1, writes(1, 15, 4)), 0);
    OWES_IN(0, 0, B8);
    OWES_IN(1, 0, B8 | B15);
    OWES_IN(1, 1, B8);
    EQUAL(IN(0, writes(0, 15, 4)), 0);
    OWES_IN(0, 1, B8 | B15);
    OWES_IN(1, 1, B8);
    /* Whose value is handed out: the present one of the service that owes it. */
    CHECK(IN(0, takes(0, 8, "\x07", 1)) && IN(0, takes(1, 8, "\x07", 1)) && IN(1, takes(0, 8, "\x07", 1)));
    EQUAL(IN(1, writes(0, 15, 6)), 0);
    CHECK(IN(0, takes(1, 15, "\x04", 1)) && IN(1, takes(0, 15, "\x06", 1)));
    CHECK(IN(1, takes(1, 8, "\x07", 1)) && IN(1, takes(1, 15, "\x06", 1)) && takes(0, 0, "", 0));

    /* 7 is not owed when an advance in Playing stays below D (SCOPE 18.3): of the service that is advanced. */
    EQUAL(IN(0, start(ALL_OPCODES)) || connects(0, 23) || IN(0, activate(1)) || IN(1, activate(1)), 0);
    EQUAL(IN(0, subscribes(0, 7)) || IN(1, subscribes(0, 7)) || IN(0, commands(0, PLAY, 0)) || IN(1, commands(0, FORWARD, 0)),
          0);
    EQUAL(IN(0, advance(5)), 0);
    OWES_IN(0, 0, 0);
    OWES_IN(1, 0, 0);
    EQUAL(IN(1, advance(5)), 0);
    OWES_IN(0, 0, 0);
    OWES_IN(1, 0, B7);
    EQUAL(IN(0, advance(5)), 0);
    OWES_IN(0, 0, 0);
    OWES_IN(1, 0, B7);
    EQUAL(IN(0, moves_to(0, 1)), 0);
    OWES_IN(0, 0, B7);
    OWES_IN(1, 0, B7);
    CHECK(IN(0, takes(0, 7, "\x01\x00\x00\x00", 4)) && IN(1, takes(0, 7, "\x14\x00\x00\x00", 4)) && takes(0, 0, "", 0));

    /* Eight results in each: service 0 is in group 1, whose first track has none before it; service 1 is Inactive. */
    EQUAL(IN(0, start(ALL_OPCODES)) || connects(2, 23) || activate(1) || subscribes(2, 18) || IN(1, subscribes(2, 18)), 0);
    EACH(0, 8) EQUAL(IN(0, commands(2, GIVEN[k], 0)), 0);
    /* 0x11 looks at the service that is written to. */
    EQUAL(IN(0, commands(2, PLAY, 0)), 0x11);
    EACH(0, 8) EQUAL(IN(1, commands(2, GIVEN[k], 0)), 0);
    EQUAL(IN(1, commands(2, PLAY, 0)), 0x11);
    EQUAL(IN(0, commands(2, 0x99, 0)), 0x11);
    OWES_IN(0, 2, B18);
    OWES_IN(1, 2, B18);
    EQUAL(s.services[0].accounts[2].waiting, 8);
    EQUAL(s.services[1].accounts[2].waiting, 8);
    /* 17 takes: places 13 and 27 by turns, each the oldest result of its service, and then nothing. */
    EACH(0, 16) {
        const uint8_t is[2] = {GIVEN[k / 2], CODE[k % 2][k / 2]};
        CHECK(IN(k % 2, takes(2, 18, is, 2)));
        EQUAL(s.links[2].mark, k % 2 == 0 ? 13 : 27);
        EQUAL(s.services[0].accounts[2].waiting, 7 - k / 2);
        EQUAL(s.services[1].accounts[2].waiting, 8 - (k + 1) / 2);
    }
    CHECK(takes(0, 0, "", 0));
    EQUAL(s.links[2].mark, 27);
    OWES_IN(0, 2, 0);
    OWES_IN(1, 2, 0);

    /* Unsubscribing in one service only: the same slot of the other is still subscribed to, owed, and has its results. */
    EQUAL(IN(0, subscribes(2, 17)) || IN(1, subscribes(2, 17)) || IN(0, commands(2, PAUSE, 0)) || IN(1, activate(3)), 0);
    EQUAL(IN(1, commands(2, PLAY, 0)) || commands(2, STOP, 0), 0);
    OWES_IN(0, 2, B17 | B18);
    OWES_IN(1, 2, B17 | B18);
    EQUAL(IN(1, unsubscribes(2, 18)), 0);
    OWES_IN(0, 2, B17 | B18);
    OWES_IN(1, 2, B17);
    EQUAL(s.services[0].accounts[2].waiting, 1);
    EQUAL(s.services[1].accounts[2].waiting, 0);
    EQUAL(IN(0, unsubscribes(2, 17)), 0);
    OWES_IN(0, 2, B18);
    OWES_IN(1, 2, B17);
    EQUAL(s.services[0].accounts[2].subscribed, B18);
    EQUAL(s.services[1].accounts[2].subscribed, B17);
    EQUAL(IN(0, commands(2, PLAY, 0)) || IN(1, commands(2, PLAY, 0)), 0);
    OWES_IN(0, 2, B18);
    OWES_IN(1, 2, B17);
    CHECK(IN(0, takes(2, 18, "\x02\x01", 2)) && IN(1, takes(2, 17, "\x01", 1)) && IN(0, takes(2, 18, "\x01\x01", 2)));
    CHECK(takes(0, 0, "", 0));
}

/* The changed marks (0x80) are the client's and the service's. */
static void mark_cases(void)
{
    lend_sample();
    EQUAL(IN(0, start(ALL_OPCODES)) || connects(0, 23) || connects(1, 23), 0);
    /* A read at 0 in one is none in the other. */
    EQUAL(IN(0, reads(0, 1, 0)), 0);
    EQUAL(reads(0, 1, 1), 0);
    EQUAL(IN(1, reads(0, 1, 1)), 0x80);
    EQUAL(reads(0, 1, 0) || reads(0, 1, 1), 0);
    EQUAL(IN(0, reads(1, 1, 1)), 0x80);
    EQUAL(IN(0, reads(1, 1, 0)) || IN(1, reads(1, 1, 0)), 0);
    /* A change in one is none in the other; also one that is changed back. */
    EQUAL(IN(1, set_name("New")), 0);
    EQUAL(reads(0, 1, 1), 0x80);
    EQUAL(reads(1, 1, 1), 0x80);
    EQUAL(IN(0, reads(0, 1, 1)), 0);
    EQUAL(reads(1, 1, 1), 0);
    EQUAL(IN(0, set_name("New")) || set_name("Desk"), 0);
    EQUAL(reads(0, 1, 1), 0x80);
    EQUAL(IN(1, reads(1, 1, 0)), 0);
    EQUAL(IN(0, reads(1, 1, 1)), 0x80);
    EQUAL(IN(1, reads(1, 1, 1)), 0);
    EQUAL(reads(0, 1, 1), 0x80);
    /* An advance in Playing changes 7 of the service that is advanced. */
    EQUAL(IN(0, activate(1)) || IN(1, activate(1)) || IN(0, commands(0, PLAY, 0)) || IN(1, commands(0, PLAY, 0)), 0);
    EQUAL(IN(0, reads(0, 7, 0)) || IN(1, reads(0, 7, 0)) || IN(0, advance(1)), 0);
    EQUAL(reads(0, 7, 1), 0x80);
    EQUAL(IN(1, reads(0, 7, 1)), 0);
    /* There was no such read since connecting, in either service (SCOPE 17.14). */
    EQUAL(IN(0, reads(0, 7, 0)) || disconnects(0) || connects(0, 23), 0);
    EQUAL(reads(0, 7, 1), 0x80);
    EQUAL(IN(1, reads(0, 7, 1)), 0x80);
}

/* After these calls every client is owed all its 28 places, with one result in each service: 4, 5, 6, 7, 11, 13, 14 and 17 by the
 * activation, 8 and 15 by what two of the clients write, 9 by the first Fast Forward. 12 is owed by the activation of group 1, and in
 * group 3, of one track, by order 8, in which that track is the next one. */
static void owe_everything(void)
{
    EQUAL(IN(0, start(ALL_OPCODES)), 0);
    EACH(0, 4) EQUAL(connects(k, 23), 0);
    EACH(0, 4 * ROUND) EQUAL(IN(k / 4 / SLOTS, subscribes(k % 4, SLOT[k / 4 % SLOTS])), 0);
    for (service = 0; service < 2; service++) {
        EQUAL(set_name(service == 0 ? "Zero" : "One") || activate(service == 0 ? 1 : 3), 0);
        EQUAL(writes(0, 8, 1) || writes(1, 8, service == 0 ? 2 : 3), 0);
        EQUAL(writes(2, 15, 5) || writes(3, 15, service == 0 ? 6 : 8), 0);
        EACH(0, 4) EQUAL(commands(k, FORWARD, 0), 0);
    }
    EACH(0, 8) OWES_IN(k % 2, k / 2, 0x3FFF);
}
/* What is then handed out, by place. */
static const struct {
    const char *octets;
    uint32_t len;
} EVERYTHING[ROUND] = {{"Zero", 4},
                       {"", 0},
                       {u8"Überfahrt", 10},
                       {"\x70\x17\x00\x00", 4},
                       {"\x00\x00\x00\x00", 4},
                       {"\x02", 1},
                       {"\x20", 1},
                       {"\x00\x10\x00\x00\x00\x00", 6},
                       {"\x01\x10\x00\x00\x00\x00", 6},
                       {"\x00\x20\x00\x00\x00\x00", 6},
                       {"\x01\x20\x00\x00\x00\x00", 6},
                       {"\x06", 1},
                       {"\x03", 1},
                       {"\x04\x01", 2},
                       {"One", 3},
                       {"", 0},
                       {"Ziel", 4},
                       {"\x84\x03\x00\x00", 4},
                       {"\x00\x00\x00\x00", 4},
                       {"\x03", 1},
                       {"\x20", 1},
                       {"\x03\x10\x00\x00\x00\x00", 6},
                       {"\x03\x10\x00\x00\x00\x00", 6},
                       {"\x00\x20\x00\x00\x00\x00", 6},
                       {"\x03\x20\x00\x00\x00\x00", 6},
                       {"\x08", 1},
                       {"\x03", 1},
                       {"\x04\x01", 2}};
/* Whether the next take serves a place of a client with that. */
static int serves(uint32_t client, uint32_t at)
{
    return IN(at / SLOTS, takes(client, SLOT[at % SLOTS], EVERYTHING[at].octets, EVERYTHING[at].len));
}

/* Only the order of takes is shared: a client's round runs through the slots of service 0 and then those of service 1 (SCOPE
 * 17.4, 19.3); a client has 28 places, and the bound is 112 (SCOPE 19.3, 21.4). */
static void round_cases(void)
{
    /* 112 takes, of which none answers that nothing is owed: the clients by turns, and each client's places in order. */
    lend_sample();
    owe_everything();
    EACH(0, 4 * ROUND) {
        CHECK(serves(k % 4, k / 4));
        EQUAL(s.links[k % 4].mark, k / 4);
    }
    CHECK(takes(0, 0, "", 0));
    EQUAL(s.turn, 3);
    EACH(0, 4) EQUAL(s.links[k].mark, 27);
    /* From every mark: the places behind it, round the 28. */
    owe_everything();
    EQUAL(disconnects(1) || disconnects(2) || disconnects(3), 0);
    for (uint32_t mark = 0; mark < ROUND; mark++) {
        ref_state owes_all = s;
        s.links[0].mark = mark;
        EACH(1, ROUND + 1) {
            uint32_t next = (mark + k) % ROUND;
            CHECK(serves(0, next));
            EQUAL(s.links[0].mark, next);
        }
        CHECK(takes(0, 0, "", 0));
        s = owes_all;
    }
    /* Every pair of a mark and one place that is owed: it is served, the mark's own place too. */
    EACH(0, ROUND * ROUND) {
        uint32_t next = k / ROUND;
        EQUAL(IN(next / SLOTS, start(ALL_OPCODES)) || connects(3, 23) || subscribes(3, SLOT[next % SLOTS]), 0);
        s.links[3].mark = k % ROUND;
        ACCOUNT(3).owed = 1u << next % SLOTS;
        if (SLOT[next % SLOTS] == 18) {
            ACCOUNT(3).waiting = 1;
            ACCOUNT(3).results[0] = (ref_result){1, 1};
        }
        EQUAL(makes(TAKE, 0, 0, 0, NULL, 0, ROOM), 0);
        EQUAL(said.served[0], 3);
        EQUAL(said.served[1], service);
        EQUAL(said.served[2], SLOT[next % SLOTS]);
        EQUAL(s.links[3].mark, next);
        EQUAL(s.turn, 3);
        OWES_IN(0, 3, 0);
        OWES_IN(1, 3, 0);
    }

    /* The order of the clients comes first (SCOPE 19.2): client 0 is owed by service 1, client 1 by service 0 and the lowest
     * place. */
    EQUAL(IN(0, start(ALL_OPCODES)) || connects(0, 23) || connects(1, 23), 0);
    EQUAL(IN(1, subscribes(0, 17)) || IN(0, subscribes(1, 1)) || set_name("A") || IN(1, activate(3)), 0);
    CHECK(IN(1, takes(0, 17, "\x02", 1)) && IN(0, takes(1, 1, "A", 1)) && takes(0, 0, "", 0));
    /* What becomes owed behind the mark comes before what is owed in front of it, though that is of service 0. */
    EQUAL(IN(0, subscribes(0, 1)) || subscribes(0, 8) || IN(1, subscribes(0, 1)) || deactivate() || IN(0, set_name("B")), 0);
    EQUAL(IN(1, writes(1, 15, 4)) || subscribes(0, 18) || commands(0, PLAY, 0) || IN(0, writes(1, 8, 9)), 0);
    EQUAL(s.links[0].mark, 26);
    EQUAL(disconnects(1), 0);
    OWES_IN(0, 0, B1 | B8);
    OWES_IN(1, 0, B17 | B18);
    CHECK(IN(1, takes(0, 18, "\x01\x03", 2)) && IN(0, takes(0, 1, "B", 1)));
    EQUAL(IN(1, set_name("C")) || IN(0, set_name("D")), 0);
    CHECK(IN(0, takes(0, 8, "\x09", 1)) && IN(1, takes(0, 1, "C", 1)) && takes(0, 17, "\x00", 1) && IN(0, takes(0, 1, "D", 1)));
    CHECK(takes(0, 0, "", 0));
    EQUAL(s.links[0].mark, 0);
    /* Behind 18 of service 0 the round goes on in service 1, also where more results wait. */
    EQUAL(IN(0, subscribes(0, 18)) || commands(0, PLAY, 0) || commands(0, STOP, 0), 0);
    EQUAL(IN(1, set_name("E")) || commands(0, PAUSE, 0) || commands(0, 0x77, 0), 0);
    CHECK(IN(0, takes(0, 18, "\x01\x03", 2)) && IN(1, takes(0, 1, "E", 1)) && IN(1, takes(0, 18, "\x02\x03", 2)));
    CHECK(IN(0, takes(0, 18, "\x05\x03", 2)) && IN(1, takes(0, 18, "\x77\x02", 2)) && takes(0, 0, "", 0));

    /* Reconnecting: the round begins at service 0's lowest slot, and both accounts are start's. */
    EQUAL(IN(1, subscribes(0, 8)) || connects(1, 23) || IN(1, writes(1, 8, 1)), 0);
    CHECK(takes(0, 8, "\x01", 1));
    EQUAL(s.links[0].mark, 19);
    for (service = 0; service < 2; service++) EQUAL(set_name("F") || reads(0, 1, 0) || commands(0, PLAY, 0), 0);
    OWES_IN(0, 0, B1 | B18);
    OWES_IN(1, 0, B1 | B18);
    EQUAL(disconnects(0), 0);
    CHECK(starts_record(0));
    CHECK(takes(0, 0, "", 0));
    EQUAL(connects(0, 64), 0);
    EQUAL(s.links[0].mark, 27);
    EQUAL(s.links[0].mtu, 64);
    EQUAL(s.turn, 0);
    EACH(0, 2) {
        EQUAL(s.services[k].accounts[0].subscribed, 0);
        OWES_IN(k, 0, 0);
        EQUAL(s.services[k].accounts[0].waiting, 0);
    }
    EQUAL(IN(0, reads(0, 1, 1)), 0x80);
    EQUAL(IN(1, reads(0, 1, 1)), 0x80);
    EQUAL(IN(0, set_name("H")) || IN(1, set_name("I")), 0);
    CHECK(takes(0, 0, "", 0));
    EQUAL(IN(0, subscribes(0, 1)) || IN(1, subscribes(0, 1)) || IN(1, set_name("J")) || IN(0, set_name("K")), 0);
    CHECK(IN(0, takes(0, 1, "K", 1)) && IN(1, takes(0, 1, "J", 1)) && takes(0, 0, "", 0));
}

/* All that is owed, values and results that wait. */
static uint32_t owed_to_all(void)
{
    uint32_t all = 0;
    EACH(0, 8 * SLOTS) {
        const ref_account *a = &s.services[k / SLOTS % 2].accounts[k / SLOTS / 2];
        all += SLOT[k % SLOTS] == 18 ? a->waiting : a->owed >> k % SLOTS & 1;
    }
    return all;
}
/* After at most 168 takes nothing more is owed (SCOPE 21.11): all four are owed all 13 values of either service, and eight
 * results there, of which one is handed out with the 28 places, and the others by turns behind them. No rung is above 32. */
static void most_owed_cases(void)
{
    lend_sample();
    owe_everything();
    EACH(0, 7 * 8) EQUAL(IN(k % 2, commands(k / 2 % 4, FORWARD, 0)), 0);
    EACH(0, 8) EQUAL(IN(k % 2, commands(k / 2, FORWARD, 0)), 0x11);
    EQUAL(owed_to_all(), 168);
    EACH(0, 168) {
        CHECK(serves(k % 4, k < 4 * ROUND ? k / 4 : k / 4 % 2 == 0 ? 13 : 27));
        EQUAL(owed_to_all(), 167 - k);
    }
    CHECK(takes(0, 0, "", 0) && takes(0, 0, "", 0));
    EQUAL(owed_to_all(), 0);
}

/* 201 looks at the layout, at both players and at all records, in every call that takes a state, whichever service it is to. */
#define ALL_GIVE_201(edit)                                                                                                     \
    do {                                                                                                                       \
        s = good;                                                                                                              \
        edit;                                                                                                                  \
        EACH(SET_NAME, CALLS * 3) {                                                                                            \
            service = k / CALLS;                                                                                               \
            if (k % CALLS != START)                                                                                            \
                EQUAL(makes((int)(k % CALLS), 1, 1, 1, "a", 1, ROOM), 201);                                                    \
        }                                                                                                                      \
    } while (0)
static void both_states_cases(void)
{
    ref_state good;
    ref_service *one = &s.services[1], *zero = &s.services[0];
    lend_sample();
    EQUAL(IN(0, start(ALL_OPCODES)) || connects(0, 23) || IN(0, activate(1)) || IN(1, activate(3)), 0);
    EQUAL(IN(1, subscribes(0, 17)) || subscribes(0, 18) || commands(0, PLAY, 0), 0);
    memcpy(&good, &s, sizeof s);
    /* The first octet of the state is 0x80 and the layout's number, 4. */
    EACH(0, 256) {
        s = good;
        s.layout = (uint8_t)k;
        EQUAL(disconnects(4), k == 0x84 ? 202 : 201);
    }
    ALL_GIVE_201(s.layout = 0);
    ALL_GIVE_201(s.layout = 0x83);
    ALL_GIVE_201(s.layout = 0x85);
    ALL_GIVE_201(s.layout = 'D');
    ALL_GIVE_201(s.turn = 4);
    /* A mark of 27 stands and one of 28 does not; unconnected it is 27. */
    EACH(0, 56) {
        s = good;
        s.links[0].mark = k;
        EQUAL(disconnects(4), k < 28 ? 202 : 201);
        s = good;
        s.links[2].mark = k;
        EQUAL(disconnects(4), k == 27 ? 202 : 201);
    }
    BROKEN(s.links[0].mark = 0xFFFFFFFFu);
    ALL_GIVE_201(s.links[0].mark = 28);
    ALL_GIVE_201(s.links[2].mark = 13);
    /* A player of either that breaks a rule. In service 1 it is track 3 of group 3, of 900; the other is in group 1. */
    ALL_GIVE_201(one->player.position = 901);
    STANDS(one->player.position = 900);
    ALL_GIVE_201(zero->player.position = 6001);
    ALL_GIVE_201(one->player.group = 1);
    ALL_GIVE_201(one->player.track = 0);
    ALL_GIVE_201(one->player.name[5] = 0xC3);
    ALL_GIVE_201(zero->player.name_len = 129);
    ALL_GIVE_201(one->player.name_len = 129);
    ALL_GIVE_201(one->player.order = 0);
    ALL_GIVE_201(one->player.media = 0);
    ALL_GIVE_201(one->player.seeking = 4);
    ALL_GIVE_201(one->player.next = 1);
    STANDS(one->player.next = 4);
    ALL_GIVE_201(zero->player.next = 4);
    STANDS(zero->player.next = 1);
    ALL_GIVE_201(one->player.rest = 65536);
    ALL_GIVE_201(zero->player.rest = 65536);
    ALL_GIVE_201(one->player.rest = 0xFFFFFFFFu);
    ALL_GIVE_201(zero->player.rest = 0xFFFFFFFFu);
    STANDS(one->player.rest = 65535);
    STANDS(zero->player.rest = 65535);
    /* An unconnected client with a leftover in either service; the results that do not wait mean nothing. */
    ALL_GIVE_201(one->accounts[2].subscribed = 1);
    ALL_GIVE_201(one->accounts[2].subscribed = one->accounts[2].owed = 1);
    ALL_GIVE_201(one->accounts[2].owed = 1);
    ALL_GIVE_201(one->accounts[2].fresh = 2);
    ALL_GIVE_201(one->accounts[2].waiting = 1);
    ALL_GIVE_201(one->accounts[3].fresh = 2);
    ALL_GIVE_201(zero->accounts[2].fresh = 2);
    STANDS(one->accounts[2].results[0] = ((ref_result){1, 9}));
    STANDS(zero->accounts[2].results[7] = ((ref_result){1, 9}));
    /* A connected client's account in either: client 0 has a result, and 17 and 18, in service 1 alone. */
    ALL_GIVE_201(one->accounts[0].results[0].code = 5);
    ALL_GIVE_201(one->accounts[0].waiting = 9);
    ALL_GIVE_201(one->accounts[0].waiting = 0);
    ALL_GIVE_201(one->accounts[0].owed |= B7);
    ALL_GIVE_201(one->accounts[0].subscribed |= 1u << 14);
    ALL_GIVE_201(one->accounts[0].fresh = 1u << 18);
    ALL_GIVE_201(s.links[0].encrypted = 0);
    ALL_GIVE_201(s.links[0].connected = 0);
    /* A slot that is subscribed to in one is not in the other, and a result that waits in one does not in the other. */
    ALL_GIVE_201(zero->accounts[0].owed = B17);
    ALL_GIVE_201(zero->accounts[0].subscribed = zero->accounts[0].owed = B18);
    STANDS(zero->accounts[0].subscribed = zero->accounts[0].owed = B17);
    ALL_GIVE_201(one->accounts[0].waiting = 0; zero->accounts[0].waiting = 1);
    /* Unencrypted, a client may have nothing subscribed in either. */
    STANDS(s.links[0].encrypted = 0; memset(&one->accounts[0], 0, sizeof one->accounts[0]));
    BROKEN(s.links[0].encrypted = 0; memset(&one->accounts[0], 0, sizeof one->accounts[0]); one->accounts[0].subscribed = 1);
    BROKEN(s.links[0].encrypted = 0; memset(&one->accounts[0], 0, sizeof one->accounts[0]); zero->accounts[0].subscribed = 1);
    /* Every call leaves the layout's octet, and disconnecting the other client's records. */
    s = good;
    EQUAL(IN(0, disconnects(0)), 0);
    EQUAL(s.layout, 0x84);
    CHECK(starts_record(0));
}

/* ---- Object numbers */

/* The next track of tracks 0, 1 and 2 in each order of the sample's group 1; "-" is none. By number it is 0, 1, 2, by rising stamp 1, 2,
 * 0, and by falling stamp 0, 1, 2. */
static const char *const NEXT_OF[9] = {"", "---", "012", "12-", "120", "-20", "120", "12-", "120"};
static uint64_t next_object(uint32_t order, uint32_t track)
{
    return NEXT_OF[order][track] == '-' ? NO_OBJECT : 0x1000u + (uint64_t)(NEXT_OF[order][track] - '0');
}
#define SHOW(segments, track, next, parent, group)                                                                             \
    CHECK(shows(10, segments) && shows(11, track) && shows(12, next) && shows(13, parent) && shows(14, group))

/* A value of 10 to 14 is six octets, or none while Inactive, of 10 where the track has no segments, and of 12 where no next track
 * exists (SCOPE 16.5, 16.6). */
static void value_cases(void)
{
    static const int INTO[3] = {PAUSE, PLAY, REWIND};
    static const char *const STATE[3] = {"\x02\x00", "\x01\x00", "\x03\xFC"}; /* and the seeking speed */
    lend_sample();
    /* Every value that may be read, in each state. */
    EACH(0, 3) {
        stand(3, 0, 1500);
        EQUAL(result(INTO[k], 0), 1);
        SHOW(0x3000, 0x1000, 0x1001, 0x2000, 0x2001);
        CHECK(reads_as(0, 1, 0, "Desk", 4) && reads_as(0, 5, 0, u8"Überfahrt", 10) && reads_as(0, 6, 0, "\x70\x17\x00\x00", 4));
        CHECK(reads_as(0, 7, 0, "\xDC\x05\x00\x00", 4) && reads_as(0, 8, 0, "\x00", 1) && reads_as(0, 9, 0, STATE[k] + 1, 1));
        CHECK(reads_as(0, 15, 0, "\x03", 1) && reads_as(0, 16, 0, "\xFF\x00", 2) && reads_as(0, 17, 0, STATE[k], 1));
        CHECK(reads_as(0, 19, 0, "\xFF\xFF\x1F\x00", 4) && reads_as(0, 22, 0, "\x07", 1));
    }
    EQUAL(start(ALL_OPCODES) || connects(0, 23), 0);
    SHOW(NO_OBJECT, NO_OBJECT, NO_OBJECT, NO_OBJECT, NO_OBJECT);
    CHECK(reads_as(0, 1, 0, "Desk", 4) && reads_as(0, 5, 0, "", 0) && reads_as(0, 6, 0, "\xFF\xFF\xFF\xFF", 4));
    CHECK(reads_as(0, 7, 0, "\xFF\xFF\xFF\xFF", 4) && reads_as(0, 8, 0, "\x00", 1) && reads_as(0, 9, 0, "\x00", 1));
    CHECK(reads_as(0, 15, 0, "\x03", 1) && reads_as(0, 16, 0, "\xFF\x00", 2) && reads_as(0, 17, 0, "\x00", 1));
    /* Tracks without segments, without a next one, alone in their group; and Inactive again. */
    EQUAL(activate(1), 0);
    EQUAL(result(TRACK + NEXT, 0), 1);
    SHOW(NO_OBJECT, 0x1001, 0x1002, 0x2000, 0x2001);
    EQUAL(result(TRACK + NEXT, 0), 1);
    SHOW(NO_OBJECT, 0x1002, NO_OBJECT, 0x2000, 0x2001);
    EQUAL(activate(3), 0);
    SHOW(NO_OBJECT, 0x1003, NO_OBJECT, 0x2000, 0x2003);
    EQUAL(writes(0, 15, 4), 0);
    SHOW(NO_OBJECT, 0x1003, 0x1003, 0x2000, 0x2003);
    EQUAL(deactivate(), 0);
    SHOW(NO_OBJECT, NO_OBJECT, NO_OBJECT, NO_OBJECT, NO_OBJECT);
    /* 12 is where Next Track then leads. */
    for (uint8_t order = 1; order <= 8; order++) {
        EACH(0, 3) {
            uint64_t next = next_object(order, k);
            stand(order, k, 0);
            CHECK(shows(12, next));
            EQUAL(result(TRACK + NEXT, 0), next == NO_OBJECT ? 4 : 1);
            EQUAL(PLAYER.track, next == NO_OBJECT ? k : next - 0x1000);
        }
    }
    /* A recording that still runs has a next track as any other. */
    lent.words[TRACKS][0] = UNKNOWN;
    stand(3, 0, END);
    SHOW(0x3000, 0x1000, 0x1001, 0x2000, 0x2001);
    /* The standard, 3.13: a group without a parent is shown as its own. */
    lend_sample();
    nest_groups();
    EQUAL(start(ALL_OPCODES) || connects(0, 23) || writes(0, 15, 2) || activate(0), 0);
    SHOW(0x3000, 0x1000, 0x1000, 0x2000, 0x2000);
    EQUAL(activate(1), 0);
    SHOW(NO_OBJECT, 0x1001, 0x1001, 0x2000, 0x2001);
    EQUAL(activate(2), 0);
    SHOW(NO_OBJECT, 0x1002, 0x1002, 0x2001, 0x2002);
    EQUAL(activate(3), 0);
    SHOW(NO_OBJECT, 0x1003, 0x1003, 0x2000, 0x2003);
    /* The highest numbers. */
    lend_full(256);
    EQUAL(start(ALL_OPCODES) || connects(0, 23) || writes(0, 15, 4) || activate(0), 0);
    EQUAL(result(TRACK + LAST, 0), 1);
    SHOW(0x30FF, 0x10FF, 0x1000, 0x2000, 0x2000);
    lend_full(193);
    lent.words[GROUPS][3 * 63] = 62;
    EQUAL(start(ALL_OPCODES) || connects(0, 23) || activate(63), 0);
    SHOW(0x30FF, 0x10FF, NO_OBJECT, 0x203E, 0x203F);
    /* Read in parts, and beyond the end, also of none. */
    lend_sample();
    stand(3, 0, 0);
    EACH(10, 15) {
        EQUAL(reads(0, k, 1), 0x80);
        EQUAL(reads(0, k, 0), 0);
        EQUAL(said.length, 6);
        CHECK(reads_as(0, k, 1,
                       k < 11   ? "\x30\0\0\0\0"
                       : k < 13 ? "\x10\0\0\0\0"
                                : "\x20\0\0\0\0",
                       5) &&
              reads_as(0, k, 6, "", 0));
        EQUAL(reads(0, k, 7), 0x07);
    }
    EQUAL(deactivate(), 0);
    EACH(10, 15) {
        EQUAL(reads(0, k, 1), 0x80);
        EQUAL(reads(0, k, 0), 0);
        EQUAL(said.length, 0);
        EQUAL(reads(0, k, 1), 0x07);
    }
}

/* The changed marks (0x80) of 10 to 14, bit by bit: all are read at 0, and then the call changes those. */
#define CHANGES(call, changed)                                                                                                 \
    do {                                                                                                                       \
        EACH(10, 15) EQUAL(reads(0, k, 0), 0);                                                                                 \
        EQUAL(ACCOUNT(0).fresh >> 10 & 31, 31);                                                                                \
        EQUAL(call, 0);                                                                                                        \
        EQUAL(~ACCOUNT(0).fresh >> 10 & 31, changed);                                                                          \
    } while (0)
enum { M10 = 1, M11 = 2, M12 = 4, M13 = 8, M14 = 16 };
static void object_mark_cases(void)
{
    lend_sample();
    stand(3, 0, 0);
    EQUAL(connects(1, 23), 0);
    CHANGES(commands(1, PLAY, 0), 0);
    CHANGES(advance(5), 0);
    CHANGES(set_name("N"), 0);
    CHANGES(writes(1, 8, 3), 0);
    CHANGES(moves_to(1, 9), 0);
    CHANGES(commands(1, TRACK + NEXT, 0), M10 | M11 | M12); /* to track 1, which has no segments */
    CHANGES(commands(1, TRACK + NEXT, 0), M11 | M12);       /* to track 2, the last; 10 is none before and after */
    CHANGES(commands(1, TRACK + NEXT, 0), 0);               /* result 4 */
    CHANGES(writes(1, 15, 4), M12);
    CHANGES(writes(0, 15, 6), 0); /* next is none, 0, and 0 */
    CHANGES(sets(0, 12, 0x1000), 0);
    CHANGES(sets(0, 12, 0x1001), M12);
    CHANGES(sets(1, 12, 0x1001), 0);
    CHANGES(sets(0, 11, 0x1000), M10 | M11);             /* 12 was 1 by name and is 1 by order 6 */
    CHANGES(sets(0, 14, 0x2003), M10 | M11 | M12 | M14); /* of the same parent */
    CHANGES(deactivate(), M11 | M12 | M13 | M14);
    CHANGES(deactivate(), 0);
    CHANGES(activate(1), M11 | M12 | M13 | M14);
    /* One that is changed back is changed. */
    EQUAL(reads(0, 12, 0) || sets(0, 12, 0x1001) || sets(0, 12, 0x1002), 0);
    EQUAL(reads(0, 12, 1), 0x80);
    nest_groups();
    EQUAL(start(ALL_OPCODES) || connects(0, 23) || connects(1, 23) || activate(1), 0);
    CHANGES(sets(1, 14, 0x2002), M11 | M13 | M14);
    CHANGES(sets(1, 14, 0x2000), M10 | M11 | M13 | M14);
    CHANGES(sets(1, 14, 0x2003), M10 | M11 | M14);
}

#define NOT_AN_OBJECT(what, number) EQUAL(sets(0, what, number), 0x13)
/* A number that is right gives 0x13 with any of its high bits set. */
static void high_octets(uint32_t what, uint64_t number)
{
    EACH(16, 48) NOT_AN_OBJECT(what, number | (uint64_t)1 << k);
    NOT_AN_OBJECT(what, number | 0xFFFF00000000u);
    NOT_AN_OBJECT(what, number | 0xFFFFFFFF0000u);
    EQUAL(sets(0, what, number), 0);
}

/* 11 goes to a track of the current group at 0, 14 to a group as activate does, but keeping the state, where Seeking becomes
 * Playing; 12 names a track of the current group (SCOPE 14.2 to 14.4). */
static void object_write_cases(void)
{
    static const uint8_t EIGHT[8] = {0x01, 0x10, 0, 0, 0, 0, 0, 0};
    static const uint32_t WRITTEN[3] = {11, 12, 14};
    lend_sample();
    for (uint8_t order = 1; order <= 8; order++) {
        EACH(0, 3) {
            uint32_t first = order == 5 || order == 6 ? 1 : 0;
            stand(order, 0, 1500);
            EQUAL(sets(0, 11, 0x1000 + k), 0);
            PAUSES(1, k, 0);
            stand(order, 0, 1500);
            EQUAL(commands(0, PLAY, 0) || sets(0, 11, 0x1000 + k), 0);
            PLAYS(1, k, 0);
            stand(order, 0, 1500);
            EQUAL(commands(0, REWIND, 0) || sets(0, 11, 0x1000 + k), 0);
            PLAYS(1, k, 0);
            stand(order, 0, 1500);
            EQUAL(commands(0, REWIND, 0) || sets(0, 12, 0x1000 + k), 0);
            SEEKS(1500, -4);
            EQUAL(PLAYER.next, k + 1);
            stand(order, k, 0);
            EQUAL(sets(0, 14, 0x2001), 0);
            PAUSES(1, first, 0);
            stand(order, k, 0);
            EQUAL(commands(0, PLAY, 0) || sets(0, 14, 0x2003), 0);
            PLAYS(3, 3, 0);
            EQUAL(commands(0, FORWARD, 0) || sets(0, 14, 0x2001), 0);
            PLAYS(1, first, 0);
            EQUAL(commands(0, PAUSE, 0) || moves_to(0, 9) || sets(0, 14, 0x2001), 0);
            PAUSES(1, first, 0);
        }
    }
    /* 0x13 is for any other number, and for a group without tracks in 14 (SCOPE 14.8): track 3 is of group 3, groups 0 and 2 have
     * no tracks. */
    stand(3, 0, 1500);
    EACH(11, 13) {
        NOT_AN_OBJECT(k, 0x1003);
        NOT_AN_OBJECT(k, 0x1004);
        NOT_AN_OBJECT(k, 0x0FFF);
        NOT_AN_OBJECT(k, 0);
        NOT_AN_OBJECT(k, 1);
        NOT_AN_OBJECT(k, 0x2001);
        NOT_AN_OBJECT(k, 0x3000);
        NOT_AN_OBJECT(k, 0xFFFFFFFFFFFFu);
        NOT_AN_OBJECT(k, 0xFFFFFFFFu);
        NOT_AN_OBJECT(k, 0x1100);
        NOT_AN_OBJECT(k, 0x0110);
        NOT_AN_OBJECT(k, 0x10FF);
        PAUSES(1, 0, 1500);
        EQUAL(PLAYER.next, 0);
    }
    NOT_AN_OBJECT(14, 0x2000);
    NOT_AN_OBJECT(14, 0x2002);
    NOT_AN_OBJECT(14, 0x2004);
    NOT_AN_OBJECT(14, 0x1FFF);
    NOT_AN_OBJECT(14, 0);
    NOT_AN_OBJECT(14, 1);
    NOT_AN_OBJECT(14, 3);
    NOT_AN_OBJECT(14, 0x1001);
    NOT_AN_OBJECT(14, 0x3001);
    NOT_AN_OBJECT(14, 0xFFFFFFFFFFFFu);
    NOT_AN_OBJECT(14, 0xFFFFFFFFu);
    NOT_AN_OBJECT(14, 0x203F);
    NOT_AN_OBJECT(14, 0x2040);
    PAUSES(1, 0, 1500);
    /* All 48 bits count. */
    high_octets(12, 0x1001);
    PAUSES(1, 0, 1500);
    high_octets(11, 0x1001);
    PAUSES(1, 1, 0);
    high_octets(14, 0x2003);
    PAUSES(3, 3, 0);
    EACH(11, 13) {
        NOT_AN_OBJECT(k, 0x1000);
        NOT_AN_OBJECT(k, 0x1002);
        EQUAL(sets(0, k, 0x1003), 0);
    }
    /* Group 0 may be gone to where it has tracks. */
    nest_groups();
    EQUAL(start(ALL_OPCODES) || connects(0, 23) || activate(1) || sets(0, 14, 0x2000), 0);
    PAUSES(0, 0, 0);
    EQUAL(sets(0, 14, 0x2002), 0);
    PAUSES(2, 2, 0);
    lend_sample();
    /* 0x0D is for a length other than 6 (SCOPE 20.6), before 0x13, which is also for any number while Inactive (SCOPE 14.8). A
     * name is not taken back by no octets. */
    for (uint32_t len = 0; len <= 8; len++) {
        EACH(0, 3) {
            stand(3, 0, 5);
            EQUAL(sets(0, 12, 0x1002), 0);
            EQUAL(makes(WRITE, 0, WRITTEN[k], 0, EIGHT, len, 0), len != 6 ? 0x0D : k == 2 ? 0x13 : 0);
            EQUAL(PLAYER.next, len != 6 || k == 2 ? 3 : k == 1 ? 2 : 0);
            EQUAL(deactivate(), 0);
            EQUAL(makes(WRITE, 0, WRITTEN[k], 0, EIGHT, len, 0), len != 6 ? 0x0D : 0x13);
        }
    }
    EACH(0, 5) {
        NOT_AN_OBJECT(11, 0x1000 + k);
        NOT_AN_OBJECT(12, 0x1000 + k);
        NOT_AN_OBJECT(14, 0x2000 + k);
    }
    /* 10 and 13 may not be written, 10 not be subscribed to; 16 has no slot either. */
    stand(3, 0, 5);
    EQUAL(sets(0, 10, 0x3000), 0x03);
    EQUAL(sets(0, 13, 0x2000), 0x03);
    EQUAL(subscribes(0, 10), 209);
    EQUAL(unsubscribes(0, 10), 209);
    EQUAL(subscribes(0, 13) || subscribes(0, 11) || subscribes(0, 12) || subscribes(0, 14), 0);
    EQUAL(ACCOUNT(0).subscribed, B11 | B12 | B13 | B14);
    /* The opcode mask plays no part, no result goes to 18, and eight that wait are in nobody's way. */
    EQUAL(start(0) || connects(0, 23) || activate(1) || subscribes(0, 18), 0);
    EACH(0, 9) {
        EQUAL(sets(0, 12, 0x1001) || sets(0, 11, 0x1002) || sets(0, 14, 0x2003) || sets(0, 14, 0x2001), 0);
        PAUSES(1, 0, 0);
        EQUAL(ACCOUNT(0).waiting, k);
        OWES(0, k == 0 ? 0 : B18);
        EQUAL(commands(0, TRACK + NEXT, 0), k < 8 ? 0 : 0x11);
    }
}

/* A name in the sample's group 1, in order 3 on track 0 at 100: that of track 2, which is not the next one of the order. */
static void name_track_2(void)
{
    lend_sample();
    stand(3, 0, 100);
    EQUAL(sets(0, 12, 0x1002), 0);
    EQUAL(PLAYER.next, 3);
}
#define LEAVES(call, gives, on, name, then)                                                                                    \
    do {                                                                                                                       \
        name_track_2();                                                                                                        \
        EQUAL(call, gives);                                                                                                    \
        EQUAL(PLAYER.track, on);                                                                                               \
        EQUAL(PLAYER.next, name);                                                                                              \
        CHECK(shows(12, then));                                                                                                \
    } while (0)
#define NAME_KEPT(call) LEAVES(call, 0, 0, 3, 0x1002)
#define KEPT_BY(opcode, n, code) LEAVES(result(opcode, n), code, 0, 3, 0x1002)
/* The call ends on that track, and 12 is the order's again. */
#define NAME_DROPPED(call, to, then) LEAVES(call, 0, to, 0, then)
#define DROPPED_BY(opcode, n, to, then) NAME_DROPPED(commands(0, opcode, n), to, then)

/* A call that ends on another track or group than it began on drops the name, what lies between does not (SCOPE 14.6). */
static void name_kept_cases(void)
{
    NAME_KEPT(0);
    NAME_KEPT(set_name("Other"));
    NAME_KEPT(connects(1, 23));
    NAME_KEPT(connects(1, 23) || disconnects(1));
    NAME_KEPT(disconnects(0) || connects(0, 23));
    NAME_KEPT(subscribes(0, 12));
    NAME_KEPT(subscribes(0, 12) || unsubscribes(0, 12));
    NAME_KEPT(reads(0, 12, 0) || reads(0, 11, 0) || reads(0, 12, 3));
    NAME_KEPT(makes(TAKE, 0, 0, 0, NULL, 0, ROOM));
    NAME_KEPT(subscribes(0, 1) || set_name("X") || !takes(0, 1, "X", 1));
    NAME_KEPT(activate(1));
    PAUSES(1, 0, 0);
    /* Advance: Paused, Playing below D, Seeking, and at the end of a recording that still runs. */
    NAME_KEPT(advance(9999));
    NAME_KEPT(commands(0, PLAY, 0) || advance(5899));
    PLAYS(1, 0, 5999);
    NAME_KEPT(commands(0, FORWARD, 0) || advance(9999));
    SEEKS(6000, 4);
    NAME_KEPT(commands(0, REWIND, 0) || advance(9999));
    SEEKS(0, -4);
    name_track_2();
    lent.words[TRACKS][0] = UNKNOWN;
    EQUAL(commands(0, PLAY, 0) || advance(0xFFFFFFFFu) || advance(1), 0);
    PLAYS(1, 0, END);
    EQUAL(PLAYER.next, 3);
    EQUAL(result(TRACK + NEXT, 0), 1);
    PLAYS(1, 2, 0);
    EQUAL(PLAYER.next, 0);
    /* Writes: of all that does not move, and of 11 and 14 onto the same track. 12 itself takes another name, or the same. */
    NAME_KEPT(writes(0, 8, 7));
    NAME_KEPT(moves_to(0, 5) || moves_to(0, -1));
    NAME_KEPT(sets(0, 12, 0x1002));
    NAME_KEPT(sets(0, 11, 0x1000));
    PAUSES(1, 0, 0);
    NAME_KEPT(sets(0, 14, 0x2001));
    PAUSES(1, 0, 0);
    NAME_KEPT(sets(0, 12, 0x1001) || sets(0, 12, 0x1002));
    EACH(1, 9) NAME_KEPT(writes(0, 15, (uint8_t)k));
    NAME_KEPT(manual(TRACK + GOTO, 2, 2));
    NAME_KEPT(manual(GROUP + GOTO, 2, 2));
    NAME_KEPT(manual(TRACK + GOTO, 4, 4));
    NAME_KEPT(commands(0, FORWARD, 0) || sets(0, 11, 0x1000));
    PLAYS(1, 0, 0);
    NAME_KEPT(commands(0, FORWARD, 0) || sets(0, 14, 0x2001));
    PLAYS(1, 0, 0);
    /* Refusals, and commands that are refused as results. */
    NAME_KEPT(sets(0, 11, 0x1003) != 0x13);
    NAME_KEPT(sets(0, 12, 0x1003) != 0x13);
    NAME_KEPT(sets(0, 14, 0x2002) != 0x13);
    NAME_KEPT(activate(2) != 208);
    NAME_KEPT(set_name("\xFF") != 207);
    NAME_KEPT(writes(0, 15, 9) != 0x13);
    NAME_KEPT(writes(0, 12, 0) != 0x0D);
    KEPT_BY(0x77, 0, 2);
    KEPT_BY(TRACK + PREVIOUS, 0, 4);
    KEPT_BY(TRACK + GOTO, 4, 4);
    KEPT_BY(TRACK + GOTO, -4, 4);
    KEPT_BY(GROUP + PREVIOUS, 0, 4);
    KEPT_BY(GROUP + GOTO, 3, 4);
    KEPT_BY(GROUP + GOTO, -3, 4);
    KEPT_BY(TRACK + GOTO, LEAST, 4);
    name_track_2();
    PLAYER.mask = ALL_OPCODES & ~(1u << 12);
    EQUAL(result(TRACK + NEXT, 0), 2);
    EQUAL(PLAYER.next, 3);
    CHECK(shows(12, 0x1002));
    EQUAL(commands(0, PLAY, 0) || advance(6000), 0);
    PLAYS(1, 2, 0);
    EQUAL(PLAYER.next, 0); /* the mask is not asked at an end */
    /* Every command that stays on the track, or comes back to it. */
    KEPT_BY(PLAY, 0, 1);
    KEPT_BY(PAUSE, 0, 1);
    KEPT_BY(REWIND, 0, 1);
    KEPT_BY(FORWARD, 0, 1);
    KEPT_BY(STOP, 0, 1);
    KEPT_BY(RELATIVE, 50, 1);
    KEPT_BY(SEGMENT + PREVIOUS, 0, 1);
    KEPT_BY(SEGMENT + NEXT, 0, 1);
    KEPT_BY(SEGMENT + FIRST, 0, 1);
    KEPT_BY(SEGMENT + LAST, 0, 1);
    KEPT_BY(SEGMENT + GOTO, 2, 1);
    KEPT_BY(SEGMENT + GOTO, 0, 1);
    KEPT_BY(TRACK + FIRST, 0, 1);
    KEPT_BY(TRACK + GOTO, 0, 1);
    KEPT_BY(TRACK + GOTO, 1, 1);
    KEPT_BY(TRACK + GOTO, -3, 1);
    KEPT_BY(GROUP + FIRST, 0, 1);
    KEPT_BY(GROUP + GOTO, 0, 1);
    KEPT_BY(GROUP + GOTO, 1, 1);
    KEPT_BY(GROUP + GOTO, -2, 1);
    /* What lies between drops no name (SCOPE 14.6): in order 4 the steps of Goto 4 are over 1 and 2, and back to 0. */
    NAME_KEPT(writes(0, 15, 4) || commands(0, TRACK + GOTO, 4));
    NAME_KEPT(writes(0, 15, 1) || commands(0, TRACK + LAST, 0));
    NAME_KEPT(writes(0, 15, 2) || commands(0, TRACK + PREVIOUS, 0));
    NAME_KEPT(writes(0, 15, 2) || commands(0, TRACK + GOTO, MOST));
    /* Those that end on another track or group, the named one too. */
    DROPPED_BY(TRACK + LAST, 0, 2, NO_OBJECT);
    DROPPED_BY(TRACK + GOTO, 2, 1, 0x1002);
    DROPPED_BY(TRACK + GOTO, 3, 2, NO_OBJECT);
    DROPPED_BY(TRACK + GOTO, -2, 1, 0x1002);
    DROPPED_BY(GROUP + NEXT, 0, 3, NO_OBJECT);
    DROPPED_BY(GROUP + LAST, 0, 3, NO_OBJECT);
    DROPPED_BY(GROUP + GOTO, 2, 3, NO_OBJECT);
    DROPPED_BY(GROUP + GOTO, -1, 3, NO_OBJECT);
    NAME_DROPPED(writes(0, 15, 4) || commands(0, TRACK + PREVIOUS, 0), 2, 0x1000);
    NAME_DROPPED(activate(3), 3, NO_OBJECT);
    NAME_DROPPED(sets(0, 11, 0x1001), 1, 0x1002);
    NAME_DROPPED(sets(0, 11, 0x1002), 2, NO_OBJECT);
    NAME_DROPPED(sets(0, 14, 0x2003), 3, NO_OBJECT);
    NAME_DROPPED(deactivate(), 0, NO_OBJECT);
    NAME_DROPPED(deactivate() || activate(1), 0, 0x1001);
    /* In order 5 the group's first track is 1: Activate, 14 and Goto Group 0 end there, and Goto Track 0 does not. */
    NAME_DROPPED(writes(0, 15, 5) || activate(1), 1, 0x1002);
    NAME_DROPPED(writes(0, 15, 5) || sets(0, 14, 0x2001), 1, 0x1002);
    NAME_DROPPED(writes(0, 15, 5) || commands(0, GROUP + GOTO, 0), 1, 0x1002);
    NAME_KEPT(writes(0, 15, 5) || commands(0, TRACK + GOTO, 0));
    /* Away and back again: it is gone. */
    NAME_DROPPED(sets(0, 11, 0x1001) || sets(0, 11, 0x1000), 0, 0x1001);
    NAME_DROPPED(activate(3) || activate(1), 0, 0x1001);
    /* Deactivate drops it on track 0 of group 0 as well, which are the numbers that it leaves. */
    nest_groups();
    EQUAL(start(ALL_OPCODES) || connects(0, 23) || activate(0) || sets(0, 12, 0x1000) || deactivate(), 0);
    EQUAL(PLAYER.next, 0);
    EQUAL(activate(0), 0);
    CHECK(shows(12, NO_OBJECT));
}

/* Next Track or the end of a track uses the name once, and Goto's steps do not (SCOPE 11.8, 14.5). */
static void name_used_cases(void)
{
    static const struct {
        int opcode;
        long n;
    } OTHERS[] = {{TRACK + PREVIOUS, 0}, {TRACK + FIRST, 0},    {TRACK + LAST, 0},     {TRACK + GOTO, 0},  {TRACK + GOTO, 1},
                  {TRACK + GOTO, 2},     {TRACK + GOTO, 3},     {TRACK + GOTO, 4},     {TRACK + GOTO, -1}, {TRACK + GOTO, -2},
                  {TRACK + GOTO, -3},    {TRACK + GOTO, LEAST}, {GROUP + PREVIOUS, 0}, {GROUP + NEXT, 0},  {GROUP + FIRST, 0},
                  {GROUP + LAST, 0},     {GROUP + GOTO, 0},     {GROUP + GOTO, 2}};
    lend_sample();
    /* In every order, on every track, every name: the current track too, in orders 1 and 2, and at the end of a once order. */
    EACH(0, 72) {
        uint8_t order = (uint8_t)(1 + k / 9);
        uint32_t track = k / 3 % 3, named = k % 3, at = track == 2 ? 0 : 55;
        uint64_t then = next_object(order, named);
        ref_state has_name;
        stand(order, track, at);
        EQUAL(sets(0, 12, 0x1000 + named), 0);
        PAUSES(1, track, at);
        CHECK(shows(12, 0x1000 + named));
        has_name = s;
        EQUAL(result(TRACK + NEXT, 0), 1);
        PAUSES(1, named, 0);
        EQUAL(PLAYER.next, 0);
        CHECK(shows(12, then));
        /* Once: the order's next track comes then. */
        EQUAL(result(TRACK + NEXT, 0), then == NO_OBJECT ? 4 : 1);
        PAUSES(1, then == NO_OBJECT ? named : then - 0x1000, 0);
        s = has_name;
        EQUAL(result(REWIND, 0), 1);
        EQUAL(PLAYER.next, named + 1);
        EQUAL(result(TRACK + NEXT, 0), 1);
        PLAYS(1, named, 0);
        /* The end of the track, of which each is at most 6000; a call makes at most one such move (SCOPE 13.5). */
        s = has_name;
        EQUAL(commands(0, PLAY, 0) || advance(6000 - at), 0);
        PLAYS(1, named, 0);
        EQUAL(PLAYER.next, 0);
        CHECK(shows(12, then));
        EQUAL(advance(6000), 0);
        IS(1, then == NO_OBJECT ? named : then - 0x1000,
           then != NO_OBJECT || named == 2 ? 0
           : named == 0                    ? 6000
                                           : 300,
           then == NO_OBJECT ? REF_PAUSED : REF_PLAYING, 0);
        s = has_name;
        EQUAL(commands(0, PLAY, 0) || advance(0xFFFFFFFFu), 0);
        PLAYS(1, named, 0);
        EQUAL(PLAYER.next, 0);
        /* All others do what they do without a name. */
        for (uint32_t j = 0; j < sizeof OTHERS / sizeof OTHERS[0]; j++) {
            ref_player with;
            int code;
            s = has_name;
            code = result(OTHERS[j].opcode, OTHERS[j].n);
            with = PLAYER;
            s = has_name;
            PLAYER.next = 0;
            EQUAL(result(OTHERS[j].opcode, OTHERS[j].n), code);
            IS(with.group, with.track, with.position, with.media, with.seeking);
            EQUAL(PLAYER.next, 0);
            EQUAL(with.next, with.track == track ? named + 1 : 0);
        }
    }
    /* A track alone in its group; the newest name counts; a name that is the order's is one all the same. */
    stand(3, 0, 0);
    EQUAL(activate(3) || sets(0, 12, 0x1003), 0);
    CHECK(shows(12, 0x1003));
    EQUAL(result(TRACK + NEXT, 0), 1);
    PAUSES(3, 3, 0);
    CHECK(shows(12, NO_OBJECT));
    EQUAL(result(TRACK + NEXT, 0), 4);
    stand(3, 0, 0);
    EQUAL(sets(0, 12, 0x1001) || sets(0, 12, 0x1002), 0);
    EQUAL(result(TRACK + NEXT, 0), 1);
    PAUSES(1, 2, 0);
    stand(3, 0, 0);
    EQUAL(sets(0, 12, 0x1001) || writes(0, 15, 1), 0);
    EQUAL(result(TRACK + NEXT, 0), 1);
    PAUSES(1, 1, 0);
}

/* Two clients with all slots, in the state that `stand` leaves; nothing is owed. */
static void stand_with_two(uint8_t order, uint32_t track, uint32_t position)
{
    stand(order, track, position);
    EQUAL(connects(1, 64), 0);
    EACH(0, SLOTS) EQUAL(subscribes(0, SLOT[k]) || subscribes(1, SLOT[k]), 0);
}
#define TOLD(call, slots0, slots1)                                                                                             \
    do {                                                                                                                       \
        EQUAL(call, 0);                                                                                                        \
        OWES(0, slots0);                                                                                                       \
        OWES(1, slots1);                                                                                                       \
        FORGIVE();                                                                                                             \
    } while (0)

/* Slots 11 to 14 are owed on change, 11, 12 and 14 not to their writer (SCOPE 18.1, 18.4). TRACK_BITS has 11 in it. */
static void told_cases(void)
{
    lend_sample();
    stand_with_two(3, 0, 0);
    /* 12: the writer is spared, the other is told what changed; the order's next track by name is no change. */
    TOLD(sets(0, 12, 0x1001), 0, 0);
    EQUAL(PLAYER.next, 2);
    TOLD(sets(0, 12, 0x1002), 0, B12);
    TOLD(sets(0, 12, 0x1002), 0, 0);
    TOLD(sets(1, 12, 0x1002), 0, 0);
    TOLD(sets(1, 12, 0x1001), B12, 0);
    TOLD(sets(1, 12, 0x1000), B12, 0);
    /* 11: to track 1, whose next is 2; the writer is told all the others. Onto itself it changes the position alone. */
    stand_with_two(3, 0, 50);
    TOLD(sets(0, 11, 0x1000), B7, B7);
    TOLD(sets(0, 11, 0x1000), 0, 0);
    TOLD(sets(0, 11, 0x1001), B4 | B5 | B6 | B7 | B12, TRACK_BITS | B5 | B6 | B12);
    TOLD(sets(1, 11, 0x1000), TRACK_BITS | B5 | B6 | B12, B4 | B5 | B6 | B7 | B12);
    EQUAL(sets(0, 12, 0x1002), 0);
    FORGIVE();
    TOLD(sets(1, 11, 0x1001), TRACK_BITS | B5 | B6, B4 | B5 | B6 | B7); /* 12 is 2, then and now */
    TOLD(commands(0, FORWARD, 0), B9 | B17 | B18, B9 | B17);
    TOLD(sets(0, 11, 0x1001), B9 | B17, B9 | B17);
    /* 14: to group 3, of the same parent, whose track has no next one; and back. */
    TOLD(sets(1, 14, 0x2003), TRACK_BITS | B5 | B6 | B12 | B14, TRACK_BITS | B5 | B6 | B12);
    TOLD(sets(0, 14, 0x2001), TRACK_BITS | B5 | B6 | B12, TRACK_BITS | B5 | B6 | B12 | B14);
    TOLD(sets(0, 14, 0x2001), 0, 0);
    /* One who moves by 18 is told all, and so is everybody of a call that no client makes. */
    TOLD(commands(0, GROUP + NEXT, 0), TRACK_BITS | B5 | B6 | B12 | B14 | B18, TRACK_BITS | B5 | B6 | B12 | B14);
    TOLD(activate(1), TRACK_BITS | B5 | B6 | B12 | B14 | B17, TRACK_BITS | B5 | B6 | B12 | B14 | B17);
    TOLD(commands(1, TRACK + NEXT, 0), TRACK_BITS | B5 | B6 | B12, TRACK_BITS | B5 | B6 | B12 | B18);
    TOLD(commands(1, TRACK + NEXT, 0), TRACK_BITS | B5 | B6 | B12, TRACK_BITS | B5 | B6 | B12 | B18);
    /* 15: on the last track order 4 has a next one; its writer is told that. In order 8 it is the same one, in order 3 none. */
    TOLD(writes(0, 15, 4), B12, B12 | B15);
    TOLD(writes(1, 15, 8), B15, 0);
    TOLD(writes(1, 15, 3), B12 | B15, B12);
    /* A name hides the order's: an order that is written changes nothing of it. */
    TOLD(sets(0, 12, 0x1001), 0, B12);
    TOLD(writes(0, 15, 4), 0, B15);
    TOLD(writes(0, 15, 1), 0, B15);
    TOLD(deactivate(), NONE_BITS | B6 | B12, NONE_BITS | B6 | B12);
    TOLD(activate(1), NONE_BITS | B5 | B6, NONE_BITS | B5 | B6);
    /* The name of the current track is used: 12 is the order's again, and the track is the same. */
    stand_with_two(3, 0, 0);
    TOLD(sets(0, 12, 0x1000), 0, B12);
    TOLD(commands(1, TRACK + NEXT, 0), B12, B12 | B18);
    PAUSES(1, 0, 0);
    EQUAL(sets(0, 12, 0x1000) || moves_to(0, 9), 0);
    FORGIVE();
    TOLD(commands(0, TRACK + NEXT, 0), B7 | B12 | B18, B7 | B12);
    EQUAL(sets(0, 12, 0x1000) || commands(0, PLAY, 0) || advance(5), 0);
    FORGIVE();
    TOLD(advance(6000), B7 | B12, B7 | B12);
    PLAYS(1, 0, 0);
    /* The end of a once order, with a name and without: 12 is 0 by name, then 1 by order. */
    stand_with_two(3, 2, 0);
    EQUAL(sets(0, 12, 0x1000) || commands(0, PLAY, 0), 0);
    FORGIVE();
    TOLD(advance(0), TRACK_BITS | B5 | B6 | B12, TRACK_BITS | B5 | B6 | B12);
    PLAYS(1, 0, 0);
    /* 13 changes with the parent: group 2's is 1, those of the others are 0. In order 2 the next track is the current one. */
    nest_groups();
    EQUAL(start(ALL_OPCODES) || connects(0, 23) || connects(1, 23) || writes(0, 15, 2) || activate(1), 0);
    EACH(0, SLOTS) EQUAL(subscribes(0, SLOT[k]) || subscribes(1, SLOT[k]), 0);
    TOLD(sets(0, 14, 0x2002), TRACK_BITS | B5 | B6 | B12 | B13, TRACK_BITS | B5 | B6 | B12 | B13 | B14);
    TOLD(sets(1, 14, 0x2003), TRACK_BITS | B5 | B6 | B12 | B13 | B14, TRACK_BITS | B5 | B6 | B12 | B13);
    TOLD(sets(1, 14, 0x2000), TRACK_BITS | B5 | B6 | B12 | B14, TRACK_BITS | B5 | B6 | B12);
    TOLD(deactivate(), NONE_BITS | B5 | B6 | B12, NONE_BITS | B5 | B6 | B12);
    TOLD(activate(0), NONE_BITS | B5 | B6 | B12, NONE_BITS | B5 | B6 | B12);
    /* What is already owed stays owed (SCOPE 18.6), also when the client writes it; what is handed out is the present value. */
    lend_sample();
    stand_with_two(3, 0, 0);
    EQUAL(sets(0, 12, 0x1002) || sets(1, 12, 0x1001), 0);
    OWES(0, B12);
    OWES(1, B12);
    EQUAL(sets(0, 12, 0x1000), 0);
    CHECK(takes_object(0, 12, 0x1000) && takes_object(1, 12, 0x1000) && takes(0, 0, "", 0));
    /* In their order behind the lowest place, of group 3, which has no next track: that is handed out as no octets. */
    EQUAL(sets(1, 14, 0x2003), 0);
    ACCOUNT(0).owed &= B11 | B12 | B14;
    ACCOUNT(1).owed &= B11 | B12 | B14;
    s.links[0].mark = s.links[1].mark = service * SLOTS;
    s.turn = 3;
    CHECK(takes_object(0, 11, 0x1003) && takes_object(1, 11, 0x1003) && takes_object(0, 12, NO_OBJECT) &&
          takes_object(1, 12, NO_OBJECT));
    CHECK(takes_object(0, 14, 0x2003) && takes(0, 0, "", 0));
    /* A client without a subscription is told nothing, and one with a subscription to 13 alone of a change of 13. */
    EQUAL(deactivate() || unsubscribes(1, 11) || unsubscribes(1, 12) || unsubscribes(1, 14), 0);
    FORGIVE();
    TOLD(activate(1), NONE_BITS | B5 | B6 | B12, (NONE_BITS | B5 | B6) & ~(B11 | B14));
}

/* ---- Objects */

static struct {
    uint32_t words[21000];
    size_t count;
} back;
/* Into that many words. A refusal leaves them and the count, a success the words behind the entries. */
static uint32_t reads_object(int of, const void *octets, size_t len, size_t room)
{
    uint8_t *in = exact(octets, len);
    uint32_t *words, refusal;
    size_t filled;
    memset(back.words, FILL, 4 * room);
    memset(&back.count, FILL, sizeof back.count);
    words = exact(back.words, 4 * room);
    refusal = (of == GROUP_OBJECT ? ref_group_object_read : ref_segments_object_read)(in, len, words, room, &back.count);
    filled = refusal != 0 ? 0 : of == GROUP_OBJECT ? 3 * back.count : back.count;
    CHECK(all_are(&back.count, FILL, sizeof back.count) == (refusal != 0));
    CHECK(filled <= room && (room == 0 || all_are(words + filled, FILL, 4 * (room - filled))));
    memcpy(back.words, room == 0 ? back.words : words, 4 * filled);
    free(in);
    free(words);
    return refusal;
}

/* What an object of the lent catalogue is to be, entry by entry, and what it is to be read back as; whether there is one. */
static struct {
    uint8_t octets[5120];
    size_t len;
    uint32_t words[1024];
    size_t count;
} entries;
static void add_entry(int of, uint32_t type, uint64_t number)
{
    uint32_t *word = entries.words + (of == GROUP_OBJECT ? 3 : 1) * entries.count++;
    uint8_t *at = entries.octets + entries.len;
    at[0] = (uint8_t)type; /* of a segment the length of its name, 0 */
    EACH(0, of == GROUP_OBJECT ? 6 : 4) at[1 + k] = (uint8_t)(number >> (8 * k));
    if (of == GROUP_OBJECT) {
        word[0] = type;
        word[1] = (uint32_t)number;
        word[2] = 0;
    } else {
        word[0] = (uint32_t)number;
    }
    entries.len += of == GROUP_OBJECT ? 7 : 5;
}
static int has_object(int of, uint32_t number)
{
    const uint32_t *g = lent.words[GROUPS], *t = lent.words[TRACKS];
    entries.len = entries.count = 0;
    if (of == GROUP_OBJECT) {
        if (number >= lent.len[GROUPS] / 3)
            return 0;
        /* A child's number is above its parent's. */
        EACH(number + 1, lent.len[GROUPS] / 3)
            if (g[3 * k] == number)
                add_entry(of, 1, 0x2000 + k);
        EACH(g[3 * number + 1], g[3 * number + 1] + g[3 * number + 2]) add_entry(of, 0, 0x1000 + k);
        return 1;
    }
    if (number >= lent.len[TRACKS] / 6 || t[6 * number + 3] == 0)
        return 0;
    EACH(t[6 * number + 2], t[6 * number + 2] + t[6 * number + 3]) add_entry(of, 0, lent.words[SEGMENTS][k]);
    return 1;
}

/* The object of that number, or 0x13; an octet too few, exactly enough, and more; and what was written, read back. */
static void goes_round(int of, uint32_t number)
{
    size_t words;
    if (!has_object(of, number)) {
        EQUAL(writes_object(of, number, 0), 0x13);
        EQUAL(writes_object(of, number, sizeof made), 0x13);
        return;
    }
    words = (of == GROUP_OBJECT ? 3 : 1) * entries.count;
    if (entries.len > 0) {
        EQUAL(writes_object(of, number, entries.len - 1), 223);
        EQUAL(writes_object(of, number, 0), 223);
    }
    EQUAL(writes_object(of, number, entries.len + 9), 0);
    EQUAL(made_len, entries.len);
    EQUAL(writes_object(of, number, entries.len), 0);
    EQUAL(made_len, entries.len);
    CHECK(memcmp(made, entries.octets, made_len) == 0);
    if (words > 0) {
        EQUAL(reads_object(of, made, made_len, words - 1), 223);
        EQUAL(reads_object(of, made, made_len, 0), 223);
    }
    EQUAL(reads_object(of, made, made_len, words + 5), 0);
    EQUAL(reads_object(of, made, made_len, words), 0);
    EQUAL(back.count, entries.count);
    CHECK(memcmp(back.words, entries.words, 4 * words) == 0);
}
static void all_go_round(void)
{
    EACH(0, lent.len[GROUPS] / 3 + 2) goes_round(GROUP_OBJECT, k);
    EACH(0, lent.len[TRACKS] / 6 + 2) goes_round(SEGMENTS_OBJECT, k);
}

#define OBJECT_IS(of, number, text)                                                                                            \
    do {                                                                                                                       \
        EQUAL(writes_object(of, number, sizeof made), 0);                                                                      \
        EQUAL(made_len, sizeof text - 1);                                                                                      \
        CHECK(memcmp(made, text, sizeof text - 1) == 0);                                                                       \
        goes_round(of, number);                                                                                                \
    } while (0)
#define NO_SUCH(of, number)                                                                                                    \
    do {                                                                                                                       \
        EQUAL(writes_object(of, number, sizeof made), 0x13);                                                                   \
        EQUAL(writes_object(of, number, 0), 0x13);                                                                             \
    } while (0)

/* A group's child groups by number (group 0 is not its own child), then its tracks by number; a track's segments in order, names
 * of length 0 (SCOPE 7.3, 7.4). */
static void object_cases(void)
{
    uint32_t *g = lent.words[GROUPS], *t = lent.words[TRACKS], *starts = lent.words[SEGMENTS];
    lend_sample();
    /* Group 0, with children with tracks and without; tracks alone; neither, which is an object of no octets. */
    OBJECT_IS(GROUP_OBJECT, 0,
              "\1\x01\x20\0\0\0\0"
              "\1\x02\x20\0\0\0\0"
              "\1\x03\x20\0\0\0\0");
    OBJECT_IS(GROUP_OBJECT, 1,
              "\0\x00\x10\0\0\0\0"
              "\0\x01\x10\0\0\0\0"
              "\0\x02\x10\0\0\0\0");
    OBJECT_IS(GROUP_OBJECT, 2, "");
    OBJECT_IS(GROUP_OBJECT, 3, "\0\x03\x10\0\0\0\0");
    EQUAL(writes_object(GROUP_OBJECT, 2, 0), 0);
    NO_SUCH(GROUP_OBJECT, 4);
    NO_SUCH(GROUP_OBJECT, 64);
    NO_SUCH(GROUP_OBJECT, 0x2000);
    NO_SUCH(GROUP_OBJECT, 0x2001);
    NO_SUCH(GROUP_OBJECT, 0xFFFFFFFFu);
    NO_SUCH(GROUP_OBJECT, 0x80000000u);
    NO_SUCH(GROUP_OBJECT, 0x55555556u); /* times 3 it is 2 */
    OBJECT_IS(SEGMENTS_OBJECT, 0,
              "\0\0\0\0\0"
              "\0\xDC\x05\0\0"
              "\0\xA0\x0F\0\0");
    EACH(1, 257) NO_SUCH(SEGMENTS_OBJECT, k);
    NO_SUCH(SEGMENTS_OBJECT, 0x3000);
    NO_SUCH(SEGMENTS_OBJECT, 0xFFFFFFFFu);
    NO_SUCH(SEGMENTS_OBJECT, 0x2AAAAAABu); /* times 6 it is 2 */
    EACH(0, 21) {
        EQUAL(writes_object(GROUP_OBJECT, 0, k), 223);
        EQUAL(writes_object(GROUP_OBJECT, 1, k), 223);
    }
    EACH(0, 15) EQUAL(writes_object(SEGMENTS_OBJECT, 0, k), 223);
    /* The order, the stamps and the titles play no part; a recording that still runs, with the last start there can be. */
    t[1] = 0;
    t[0] = UNKNOWN;
    starts[2] = END - 1;
    OBJECT_IS(SEGMENTS_OBJECT, 0,
              "\0\0\0\0\0"
              "\0\xDC\x05\0\0"
              "\0\xFF\xD5\x83\0");
    OBJECT_IS(GROUP_OBJECT, 1,
              "\0\x00\x10\0\0\0\0"
              "\0\x01\x10\0\0\0\0"
              "\0\x02\x10\0\0\0\0");
    /* Children and tracks. */
    lend_sample();
    nest_groups();
    OBJECT_IS(GROUP_OBJECT, 0,
              "\1\x01\x20\0\0\0\0"
              "\1\x03\x20\0\0\0\0"
              "\0\x00\x10\0\0\0\0");
    OBJECT_IS(GROUP_OBJECT, 1,
              "\1\x02\x20\0\0\0\0"
              "\0\x01\x10\0\0\0\0");
    OBJECT_IS(GROUP_OBJECT, 2, "\0\x02\x10\0\0\0\0");
    /* Group 0 alone is not its own child; nothing has no object. */
    lent = (tables){.len = {3}};
    OBJECT_IS(GROUP_OBJECT, 0, "");
    NO_SUCH(GROUP_OBJECT, 1);
    NO_SUCH(SEGMENTS_OBJECT, 0);
    lent = (tables){.len = {0}};
    NO_SUCH(GROUP_OBJECT, 0);
    NO_SUCH(SEGMENTS_OBJECT, 0);
    EQUAL(writes_object(GROUP_OBJECT, 0, 0), 0x13);
    /* All 64 groups and 256 tracks: 63 children and 256 tracks are 2,233 octets. */
    lend_full(256);
    EQUAL(writes_object(GROUP_OBJECT, 0, 2233), 0);
    EQUAL(made_len, 2233);
    EACH(0, 319) {
        const uint8_t *at = made + 7 * k;
        EQUAL(at[0], k < 63);
        EQUAL(at[1], k < 63 ? k + 1 : k - 63);
        EQUAL(at[2], k < 63 ? 0x20 : 0x10);
        CHECK(all_are(at + 3, 0, 4));
    }
    EQUAL(writes_object(GROUP_OBJECT, 0, 2232), 223);
    OBJECT_IS(GROUP_OBJECT, 63, "");
    NO_SUCH(GROUP_OBJECT, 64);
    NO_SUCH(SEGMENTS_OBJECT, 256);
    OBJECT_IS(SEGMENTS_OBJECT, 255,
              "\0\0\0\0\0"
              "\0\x64\0\0\0"
              "\0\xC8\0\0\0"
              "\0\x2C\x01\0\0");
    all_go_round();
    lend_full(193);
    OBJECT_IS(GROUP_OBJECT, 63, "\0\xFF\x10\0\0\0\0");
    EQUAL(writes_object(GROUP_OBJECT, 0, 1791), 223);
    EQUAL(writes_object(GROUP_OBJECT, 0, 1792), 0);
    all_go_round();
    /* A chain: each group is the child of the one before. */
    EACH(1, 64) g[3 * k] = k - 1;
    OBJECT_IS(GROUP_OBJECT, 62,
              "\1\x3F\x20\0\0\0\0"
              "\0\xFE\x10\0\0\0\0");
    all_go_round();
    /* A track of 1,024 segments: 5,120 octets. */
    lent = (tables){{{0, 0, 1}, {END, 0, 0, 1024}}, {0}, {3, 6, 1024}};
    EACH(0, 1024) starts[k] = 8437 * k;
    EQUAL(writes_object(SEGMENTS_OBJECT, 0, 5119), 223);
    EQUAL(writes_object(SEGMENTS_OBJECT, 0, 5120), 0);
    EQUAL(made_len, 5120);
    all_go_round();
}

#define READ_AS(of, text, room) reads_object(of, text, sizeof text - 1, room)
#define NOT_ENTRIES(of, text)                                                                                                  \
    do {                                                                                                                       \
        EQUAL(READ_AS(of, text, 99), 222);                                                                                     \
        EQUAL(READ_AS(of, text, 0), 222);                                                                                      \
    } while (0)
#define POSITION(text, n, last)                                                                                                \
    do {                                                                                                                       \
        EQUAL(READ_AS(SEGMENTS_OBJECT, text, n), 0);                                                                           \
        EQUAL(back.count, n);                                                                                                  \
        EQUAL(back.words[n - 1], last);                                                                                        \
    } while (0)

/* Octets that are not whole entries give 222, and too little room gives 223 (SCOPE 7.7). */
static void object_read_cases(void)
{
    static uint8_t octets[100000];
    static const uint8_t TWO[14] = {1, 0x04, 0x03, 0x02, 0x01, 0x06, 0x05, 0, 0xFF, 0xFF, 0xFF, 0xFF, 0xFF, 0xFF};
    static const uint32_t WORDS[6] = {1, 0x01020304, 0x0506, 0, 0xFFFFFFFFu, 0xFFFF};
    /* No octets are no entries. */
    EACH(0, 4) {
        EQUAL(reads_object(GROUP_OBJECT + (int)(k % 2), NULL, 0, k / 2), 0);
        EQUAL(back.count, 0);
    }
    /* Two entries of a group, of any object number: every length, in every room. */
    for (uint32_t len = 0; len <= 14; len++) {
        EACH(0, 9) {
            EQUAL(reads_object(GROUP_OBJECT, TWO, len, k), len % 7 != 0 ? 222 : k < len / 7 * 3 ? 223 : 0);
            if (len % 7 == 0 && k >= len / 7 * 3) {
                EQUAL(back.count, len / 7);
                CHECK(memcmp(back.words, WORDS, 4 * (len / 7 * 3)) == 0);
            }
        }
    }
    /* The standard, 4.4.1: all types but 0 and 1 are reserved, in each place, whatever the room. */
    EACH(0, 256) {
        memcpy(octets, TWO, 14);
        octets[0] = (uint8_t)k;
        EQUAL(reads_object(GROUP_OBJECT, octets, 14, 6), k > 1 ? 222 : 0);
        if (k <= 1)
            EQUAL(back.words[0], k);
        memcpy(octets, TWO, 14);
        octets[7] = (uint8_t)k;
        EQUAL(reads_object(GROUP_OBJECT, octets, 14, 0), k > 1 ? 222 : 223);
        EQUAL(reads_object(GROUP_OBJECT, octets, 13, 6), 222);
    }
    /* Segments: names of 0, 1, 2 and 255 octets are passed over; positions need not rise, and be of any track. */
    POSITION("\0\0\0\0\0", 1, 0);
    POSITION("\0\xFF\xFF\xFF\x7F", 1, 0x7FFFFFFF);
    POSITION("\0\1\2\3\4"
             "\0\0\0\0\0",
             2, 0);
    POSITION("\1a\1\2\3\4", 1, 0x04030201);
    POSITION("\2\xC3\xA4\1\0\0\0"
             "\0\2\0\0\0"
             "\4\xF0\x9F\x8E\xB5\3\0\0\0",
             3, 3);
    POSITION("\5\0\0\0\0\0\7\0\0\0", 1, 7);
    POSITION("\3\xE2\x82\xAC\0\0\0\0"
             "\0\xD6\0\0\0",
             2, 0xD6);
    EACH(0, 256) {
        memset(octets, 'n', sizeof octets);
        octets[0] = (uint8_t)k;
        memcpy(octets + 1 + k, "\4\3\2\1\0\5\0\0\0", 9);
        EQUAL(reads_object(SEGMENTS_OBJECT, octets, k + 10, 2), 0);
        EQUAL(back.count, 2);
        EQUAL(back.words[0], 0x01020304);
        EQUAL(back.words[1], 5);
        EQUAL(reads_object(SEGMENTS_OBJECT, octets, k + 10, 1), 223);
        EQUAL(reads_object(SEGMENTS_OBJECT, octets, k + 10, 0), 223);
        /* Cut anywhere but between the two; 222 comes before 223. */
        for (uint32_t len = 1; len < k + 10; len++) {
            EQUAL(reads_object(SEGMENTS_OBJECT, octets, len, len % 3), len != k + 5 ? 222 : len % 3 == 0 ? 223 : 0);
        }
        /* Of the standard, 4.2.2, not UTF-8: an octet of the name, the first and the last. */
        if (k > 0) {
            octets[1] = 0x80;
            EQUAL(reads_object(SEGMENTS_OBJECT, octets, k + 10, 2), 222);
            octets[1] = 'n';
        }
        if (k > 0) {
            octets[k] = 0xC3;
            EQUAL(reads_object(SEGMENTS_OBJECT, octets, k + 10, 2), 222);
            octets[k] = 'n';
        }
        /* The standard, 4.2.3: no position is negative, in the first entry or the last. */
        octets[4 + k] = 0x80;
        EQUAL(reads_object(SEGMENTS_OBJECT, octets, k + 10, 2), 222);
        octets[4 + k] = 0x7F;
        EQUAL(reads_object(SEGMENTS_OBJECT, octets, k + 10, 2), 0);
        octets[9 + k] = 0xFF;
        EQUAL(reads_object(SEGMENTS_OBJECT, octets, k + 10, 1), 222);
    }
    NOT_ENTRIES(SEGMENTS_OBJECT, "\0\0\0\0\x80");
    NOT_ENTRIES(SEGMENTS_OBJECT, "\0\xFF\xFF\xFF\xFF");
    NOT_ENTRIES(SEGMENTS_OBJECT, "\0");
    NOT_ENTRIES(SEGMENTS_OBJECT, "\0\0\0\0\0"
                                 "\0\0\0\0");
    NOT_ENTRIES(SEGMENTS_OBJECT, "\0\0\0\0\0"
                                 "\1\0\0\0\0");
    NOT_ENTRIES(SEGMENTS_OBJECT, "\1\0\0\0\0");
    NOT_ENTRIES(SEGMENTS_OBJECT, "\xFF\0\0\0\0");
    /* What lies behind a name does not make it whole; overlong, surrogates, above 10FFFF; a bad one behind a good one. */
    NOT_ENTRIES(SEGMENTS_OBJECT, "\1\xC3\xA4\0\0\0");
    NOT_ENTRIES(SEGMENTS_OBJECT, "\2\xC0\x80\0\0\0\0");
    NOT_ENTRIES(SEGMENTS_OBJECT, "\3\xED\xA0\x80\0\0\0\0");
    NOT_ENTRIES(SEGMENTS_OBJECT, "\4\xF4\x90\x80\x80\0\0\0\0");
    NOT_ENTRIES(SEGMENTS_OBJECT, "\2ab\0\0\0\0"
                                 "\2a\xFF\0\0\0\0");
    NOT_ENTRIES(SEGMENTS_OBJECT, "\3\xE0\x9F\xBF\0\0\0\0");
    /* Objects of any length: more entries than a catalogue has. */
    memset(octets, 0, sizeof octets);
    EQUAL(reads_object(SEGMENTS_OBJECT, octets, 100000, 20000), 0);
    EQUAL(back.count, 20000);
    EQUAL(reads_object(SEGMENTS_OBJECT, octets, 100000, 19999), 223);
    EQUAL(reads_object(SEGMENTS_OBJECT, octets, 99999, 20000), 222);
    EQUAL(reads_object(GROUP_OBJECT, octets, 49000, 21000), 0);
    EQUAL(back.count, 7000);
    EQUAL(reads_object(GROUP_OBJECT, octets, 49000, 20999), 223);
    octets[48993] = 2;
    EQUAL(reads_object(GROUP_OBJECT, octets, 49000, 20999), 222);
}

/* ---- The office's titles */

/* "Abfahrt" at 0, "Rast" at 7, C3 9C and "bung" at 11, and a character of three octets at 17; 20 octets. The sample's own titles are C3
 * 9C and "berfahrt" of track 0, at 0, "Rast" of track 1, at 10, none of track 2, at 14, and "Ziel" of track 3, at 14. */
static const char OFFICE[] = u8"AbfahrtRastÜbung€";
#define CARD_0 u8"Überfahrt"
#define LEND_OFFICE()                                                                                                          \
    do {                                                                                                                       \
        lend_sample();                                                                                                         \
        lend_office(OFFICE, 20);                                                                                               \
    } while (0)
/* The call, with another title of track 0 than the calls before; of length 0 it is the card's. */
#define WITH(offset, len, call) (rename_track(0, offset, len), (call))
/* The title is that part of that text, and 5 reads as its octets. */
enum { CARDS, OFFICES };
#define SHOWS_PART(which, offset, octets, len)                                                                                 \
    do {                                                                                                                       \
        EQUAL(title(), 0);                                                                                                     \
        EQUAL(said.part[0], which);                                                                                            \
        EQUAL(said.part[1], offset);                                                                                           \
        EQUAL(said.part[2], len);                                                                                              \
        CHECK(reads_as(0, 5, 0, octets, len));                                                                                 \
    } while (0)

/* The title is a part of the office's text or of the card's text (SCOPE 5.6), and length 0 says that the track is not renamed
 * (SCOPE 5.2). */
static void renamed_cases(void)
{
    LEND_OFFICE();
    stand(3, 0, 0);
    SHOWS_PART(CARDS, 0, CARD_0, 10);
    rename_track(0, 0, 7);
    SHOWS_PART(OFFICES, 0, "Abfahrt", 7);
    rename_track(0, 7, 4);
    SHOWS_PART(OFFICES, 7, "Rast", 4);
    rename_track(0, 0, 20);
    SHOWS_PART(OFFICES, 0, OFFICE, 20);
    rename_track(0, 17, 3);
    SHOWS_PART(OFFICES, 17, "\xE2\x82\xAC", 3);
    rename_track(0, 3, 1);
    SHOWS_PART(OFFICES, 3, "a", 1);
    /* Not renamed, wherever the offset is. */
    rename_track(0, 20, 0);
    SHOWS_PART(CARDS, 0, CARD_0, 10);
    rename_track(0, 21, 0);
    SHOWS_PART(CARDS, 0, CARD_0, 10);
    rename_track(0, 0xFFFFFFFFu, 0);
    SHOWS_PART(CARDS, 0, CARD_0, 10);
    /* Each track has its own entry: 1 is renamed to what it is called already, 3 to another title; 0 and 2 are not renamed. */
    rename_track(1, 7, 4);
    rename_track(3, 11, 6);
    SHOWS_PART(CARDS, 0, CARD_0, 10);
    EQUAL(result(TRACK + NEXT, 0), 1);
    SHOWS_PART(OFFICES, 7, "Rast", 4);
    rename_track(1, 0, 0);
    SHOWS_PART(CARDS, 10, "Rast", 4);
    EQUAL(result(TRACK + NEXT, 0), 1);
    SHOWS_PART(CARDS, 14, "", 0);
    rename_track(2, 11, 6);
    SHOWS_PART(OFFICES, 11, u8"Übung", 6);
    EQUAL(result(GROUP + NEXT, 0), 1);
    SHOWS_PART(OFFICES, 11, u8"Übung", 6);
    rename_track(3, 11, 0);
    SHOWS_PART(CARDS, 14, "Ziel", 4);
    /* An empty title of the card is at its own offset, at the text's end too. */
    EQUAL(sets(0, 14, 0x2001) || sets(0, 11, 0x1002), 0);
    rename_track(2, 5, 0);
    SHOWS_PART(CARDS, 14, "", 0);
    lent.words[TRACKS][6 * 2 + 4] = 18;
    SHOWS_PART(CARDS, 18, "", 0);
    lent.words[TRACKS][6 * 2 + 4] = 0;
    SHOWS_PART(CARDS, 0, "", 0);
    /* Refused or Inactive, the part is the empty front of the card's text (SCOPE 5.7), whatever track 0 of group 0 is called. */
    EACH(0, 4) rename_track(k, 0, 7);
    SHOWS_PART(OFFICES, 0, "Abfahrt", 7);
    EQUAL(deactivate(), 0);
    SHOWS_PART(CARDS, 0, "", 0);
    nest_groups();
    EQUAL(activate(0), 0);
    SHOWS_PART(OFFICES, 0, "Abfahrt", 7);
    EQUAL(deactivate(), 0);
    SHOWS_PART(CARDS, 0, "", 0);
    /* An office that renames nothing. */
    lend_sample();
    rename_nothing();
    stand(3, 0, 0);
    SHOWS_PART(CARDS, 0, CARD_0, 10);
    lend_office("", 0);
    SHOWS_PART(CARDS, 0, CARD_0, 10);
    rename_nothing();
}

/* Both clients have read 5 at 0; then a call makes that owed to each, and changes 5, which loses their marks of it, or does not. */
#define TITLE_TOLD(call, slots0, slots1, changed)                                                                              \
    do {                                                                                                                       \
        EQUAL(reads(0, 5, 0) || reads(1, 5, 0), 0);                                                                            \
        TOLD(call, slots0, slots1);                                                                                            \
        EQUAL(ACCOUNT(0).fresh >> 5 & 1, !(changed));                                                                          \
        EQUAL(ACCOUNT(1).fresh >> 5 & 1, !(changed));                                                                          \
    } while (0)
/* What a client is told of the step from track 0 to 1 beside 5, and 18 where it made it; and so is it of the step back. */
#define STEP (TRACK_BITS | B6 | B12)

/* 5 is the title of the current track (SCOPE 16.3), in reads, takes and marks. */
static void renamed_owed_cases(void)
{
    LEND_OFFICE();
    stand_with_two(3, 0, 0);
    /* From the office's text to the card's and back; both of the office's; both of the card's. */
    rename_track(0, 0, 7);
    TITLE_TOLD(commands(1, TRACK + NEXT, 0), STEP | B5, STEP | B5 | B18, 1);
    TITLE_TOLD(commands(1, TRACK + PREVIOUS, 0), STEP | B5, STEP | B5 | B18, 1);
    rename_track(1, 11, 6);
    TITLE_TOLD(sets(0, 11, 0x1001), (STEP | B5) & ~B11, STEP | B5, 1);
    TITLE_TOLD(sets(1, 11, 0x1000), STEP | B5, (STEP | B5) & ~B11, 1);
    rename_track(0, 0, 0);
    rename_track(1, 0, 0);
    TITLE_TOLD(commands(0, TRACK + LAST, 0), STEP | B5 | B18, STEP | B5, 1);
    TITLE_TOLD(activate(1), STEP | B5, STEP | B5, 1);
    /* Two tracks that share a renamed title: 4 is owed, and 5 is not. Equal octets of two parts, likewise. */
    rename_track(0, 7, 4);
    rename_track(1, 7, 4);
    TITLE_TOLD(commands(0, TRACK + NEXT, 0), STEP | B18, STEP, 0);
    TITLE_TOLD(commands(0, TRACK + PREVIOUS, 0), STEP | B18, STEP, 0);
    lend_office("RastRaste", 9);
    rename_track(0, 0, 4);
    rename_track(1, 4, 4);
    TITLE_TOLD(commands(0, TRACK + NEXT, 0), STEP | B18, STEP, 0);
    TITLE_TOLD(activate(1), STEP, STEP, 0);
    /* One octet more is another title, and one that is as long and differs in the last. */
    rename_track(1, 4, 5);
    TITLE_TOLD(commands(0, TRACK + NEXT, 0), STEP | B5 | B18, STEP | B5, 1);
    TITLE_TOLD(commands(0, TRACK + PREVIOUS, 0), STEP | B5 | B18, STEP | B5, 1);
    lend_office("RastRasz", 8);
    rename_track(0, 0, 4);
    rename_track(1, 4, 4);
    TITLE_TOLD(commands(0, TRACK + NEXT, 0), STEP | B5 | B18, STEP | B5, 1);
    EQUAL(activate(1), 0);
    FORGIVE();
    /* Equal from the two texts: track 0 is renamed to what the card calls track 1, and then 1 to what it calls 0. */
    rename_track(1, 0, 0);
    TITLE_TOLD(commands(0, TRACK + NEXT, 0), STEP | B18, STEP, 0);
    TITLE_TOLD(commands(0, TRACK + PREVIOUS, 0), STEP | B18, STEP, 0);
    lend_office(CARD_0, 10);
    rename_track(1, 0, 10);
    TITLE_TOLD(commands(0, TRACK + NEXT, 0), STEP | B18, STEP, 0);
    TITLE_TOLD(commands(0, TRACK + PREVIOUS, 0), STEP | B18, STEP, 0);
    /* Equal on the card, and one is renamed. */
    lent.words[TRACKS][6 + 4] = 0;
    lent.words[TRACKS][6 + 5] = 10;
    lend_office(OFFICE, 20);
    TITLE_TOLD(commands(0, TRACK + NEXT, 0), STEP | B18, STEP, 0);
    rename_track(1, 0, 7);
    TITLE_TOLD(commands(0, TRACK + PREVIOUS, 0), STEP | B5 | B18, STEP | B5, 1);
    /* The end of a track, once the step is not below D (SCOPE 18.3); and group 3, whose track has no next one. */
    LEND_OFFICE();
    rename_track(0, 0, 7);
    rename_track(1, 7, 4);
    EQUAL(commands(0, PLAY, 0), 0);
    FORGIVE();
    TITLE_TOLD(advance(5999), 0, 0, 0);
    TITLE_TOLD(advance(1), STEP | B5, STEP | B5, 1);
    rename_track(3, 7, 4);
    TITLE_TOLD(sets(0, 14, 0x2003), TRACK_BITS | B6 | B12, TRACK_BITS | B6 | B12 | B14, 0);
    /* To and from none: track 2 has no title on the card, and is then renamed. 12 is none before and after. */
    stand_with_two(3, 2, 0);
    TITLE_TOLD(deactivate(), NONE_BITS | B6, NONE_BITS | B6, 0);
    stand_with_two(3, 2, 0);
    rename_track(2, 17, 3);
    TITLE_TOLD(deactivate(), NONE_BITS | B5 | B6, NONE_BITS | B5 | B6, 1);
    TITLE_TOLD(activate(1), NONE_BITS | B5 | B6 | B12, NONE_BITS | B5 | B6 | B12, 1);

    /* Titles exchanged between calls make nothing owed and mark nothing: each of these has another title of the current track. */
    LEND_OFFICE();
    stand_with_two(3, 0, 0);
    EQUAL(reads(0, 5, 0) || reads(1, 5, 0), 0);
    TOLD(WITH(0, 7, set_name("N")), B1, B1);
    TOLD(WITH(7, 4, writes(0, 8, 1)), 0, B8);
    TOLD(WITH(0, 0, moves_to(0, 5)), B7, B7);
    TOLD(WITH(11, 6, commands(0, PLAY, 0)), B17 | B18, B17);
    TOLD(WITH(0, 7, advance(1)), 0, 0);
    TOLD(WITH(7, 4, advance(0)), 0, 0);
    TOLD(WITH(17, 3, commands(1, 0x77, 0)), 0, B18);
    TOLD(WITH(0, 20, sets(0, 12, 0x1002)), 0, B12);
    TOLD(WITH(0, 0, sets(0, 11, 0x1000)), B7, B7);
    TOLD(WITH(7, 4, activate(1)), B17, B17);
    TOLD(WITH(0, 7, writes(1, 15, 4)), B15, 0);
    TOLD(WITH(7, 4, sets(0, 14, 0x2001)), 0, 0);
    TOLD(WITH(0, 7, commands(0, TRACK + GOTO, 0)), B18, 0);
    TOLD(WITH(11, 6, connects(2, 23)), 0, 0);
    TOLD(WITH(7, 4, subscribes(2, 5)), 0, 0);
    TOLD(WITH(0, 7, unsubscribes(2, 5)), 0, 0);
    TOLD(WITH(0, 0, disconnects(2)), 0, 0);
    TOLD(WITH(7, 4, reads(0, 1, 0)), 0, 0);
    TOLD(WITH(0, 7, title()), 0, 0);
    CHECK(WITH(11, 6, takes(0, 0, "", 0)));
    EQUAL(ACCOUNT(0).fresh >> 5 & 1, 1);
    EQUAL(ACCOUNT(1).fresh >> 5 & 1, 1);
    /* Both values are read with what the call is lent: the clients have read the card's title of track 0, and now 0 and 1 are both
     * "Rast". And the other way round: what was equal when they read it is not so in the call. */
    LEND_OFFICE();
    stand_with_two(3, 0, 0);
    EQUAL(reads(0, 5, 0) || reads(1, 5, 0), 0);
    TOLD(WITH(7, 4, commands(0, TRACK + NEXT, 0)), STEP | B18, STEP);
    EQUAL(ACCOUNT(0).fresh >> 5 & 1, 1);
    CHECK(reads_as(0, 5, 1, "ast", 3));
    TOLD(WITH(0, 0, commands(0, TRACK + PREVIOUS, 0)), STEP | B5 | B18, STEP | B5);
    EQUAL(ACCOUNT(0).fresh >> 5 & 1, 0);
    EQUAL(ACCOUNT(1).fresh >> 5 & 1, 0);
    /* What a take hands out is the value by what the take is lent; what is owed stays owed. */
    LEND_OFFICE();
    stand(3, 0, 0);
    rename_track(1, 0, 7);
    EQUAL(subscribes(0, 5) || commands(0, TRACK + NEXT, 0), 0);
    OWES(0, B5);
    rename_track(1, 11, 6);
    CHECK(takes(0, 5, u8"Übung", 6) && takes(0, 0, "", 0));
    EQUAL(commands(0, TRACK + PREVIOUS, 0), 0);
    OWES(0, B5);
    CHECK(takes(0, 5, CARD_0, 10) && takes(0, 0, "", 0));
    EQUAL(WITH(0, 7, commands(0, TRACK + NEXT, 0)), 0);
    rename_nothing();
    OWES(0, B5);
    CHECK(takes(0, 5, "Rast", 4) && takes(0, 0, "", 0));
}

/* A title of 128 octets, which an ATT_MTU of 23 cuts: the office's text is 300 octets, of which no two near each other are the same. */
static void renamed_read_cases(void)
{
    static const uint32_t CUT[4][3] = {{23, 20, 22}, {130, 127, 128}, {131, 128, 128}, {517, 128, 128}};
    uint8_t text[300];
    EACH(0, 300) text[k] = (uint8_t)(' ' + k % 90);
    lend_sample();
    lend_office(text, 300);
    rename_track(0, 50, 128);
    stand(3, 0, 0);
    EACH(0, 6) CHECK(reads_as(0, 5, 22 * k, text + 50 + 22 * k, k < 5 ? 22 : 18));
    CHECK(reads_as(0, 5, 127, text + 177, 1) && reads_as(0, 5, 128, "", 0));
    EQUAL(reads(0, 5, 129), 0x07);
    /* Only other titles are lent between: the read goes on in what is lent now, and 0x07 is above the length of that. */
    rename_track(0, 60, 128);
    CHECK(reads_as(0, 5, 22, text + 82, 22));
    rename_track(0, 172, 128);
    CHECK(reads_as(0, 5, 110, text + 282, 18));
    rename_track(0, 60, 30);
    CHECK(reads_as(0, 5, 22, text + 82, 8) && reads_as(0, 5, 30, "", 0));
    EQUAL(reads(0, 5, 31), 0x07);
    rename_track(0, 0, 0);
    CHECK(reads_as(0, 5, 2, "berfahrt", 8) && reads_as(0, 5, 10, "", 0));
    EQUAL(reads(0, 5, 11), 0x07);
    EQUAL(reads(0, 5, 22), 0x07);
    rename_nothing();
    CHECK(reads_as(0, 5, 9, "t", 1));
    EQUAL(reads(0, 5, 22), 0x07);
    lend_office(text, 300);
    rename_track(0, 50, 128);
    CHECK(reads_as(0, 5, 44, text + 94, 22));
    /* What 224 refuses between alters nothing of it either. */
    rename_track(0, 173, 128);
    EQUAL(reads(0, 5, 44), 224);
    EQUAL(reads(0, 5, 0), 224);
    EQUAL(commands(0, TRACK + NEXT, 0), 224);
    EQUAL(deactivate(), 224);
    rename_track(0, 50, 128);
    CHECK(reads_as(0, 5, 66, text + 116, 22));
    /* The track changed between, and back; then a read at 0, after which it goes on. */
    EQUAL(commands(0, TRACK + NEXT, 0), 0);
    EQUAL(reads(0, 5, 66), 0x80);
    EQUAL(reads(0, 5, 200), 0x80);
    EQUAL(reads(0, 5, 1), 0x80);
    EQUAL(commands(0, TRACK + PREVIOUS, 0), 0);
    EQUAL(reads(0, 5, 66), 0x80);
    CHECK(reads_as(0, 5, 0, text + 50, 22) && reads_as(0, 5, 66, text + 116, 22));
    /* Onto a track that shares the title, by another part of equal octets: 90 octets further on they are the same. */
    rename_track(1, 140, 128);
    EQUAL(commands(0, TRACK + NEXT, 0), 0);
    CHECK(reads_as(0, 5, 88, text + 138, 22));
    EQUAL(commands(0, TRACK + NEXT, 0), 0);
    EQUAL(reads(0, 5, 88), 0x80);
    EQUAL(reads(0, 5, 0), 0);
    EQUAL(reads(0, 5, 1), 0x07);
    /* From a renamed track to none: 0x80 comes before 0x07. */
    EQUAL(activate(1) || reads(0, 5, 0) || reads(0, 5, 22) || deactivate(), 0);
    EQUAL(reads(0, 5, 22), 0x80);
    EQUAL(reads(0, 5, 0), 0);
    EQUAL(said.length, 0);
    EQUAL(reads(0, 5, 22), 0x07);
    EQUAL(reads(0, 5, 1), 0x07);
    /* The first ATT_MTU − 3 octets in a take, up to ATT_MTU − 1 in a read. */
    EACH(0, 4) {
        EQUAL(start(ALL_OPCODES) || connects(2, CUT[k][0]) || subscribes(2, 5) || activate(1), 0);
        CHECK(takes(2, 5, text + 50, CUT[k][1]) && reads_as(2, 5, 0, text + 50, CUT[k][2]) &&
              reads_as(2, 5, 120, text + 170, 8));
    }
    rename_nothing();
}

/* 224: not one entry for each track, a length over 128, a part of length above 0 that is outside the text or not UTF-8 (SCOPE
 * 5.3): every call on a state gives it, and it carries nothing. */
static void all_give_224(int line)
{
    EACH(0, CALLS) {
        equal_at(line, makes((int)k, 0, 1, 0, "a", 1, ROOM), 224, "the refusal");
        equal_at(line, place.track, UNTOUCHED, "the track");
        equal_at(line, place.offset, UNTOUCHED, "the offset");
    }
}
#define UNFIT(edit)                                                                                                            \
    do {                                                                                                                       \
        LEND_OFFICE();                                                                                                         \
        edit;                                                                                                                  \
        all_give_224(__LINE__);                                                                                                \
    } while (0)
#define FIT(edit)                                                                                                              \
    do {                                                                                                                       \
        ref_state kept = s;                                                                                                    \
        LEND_OFFICE();                                                                                                         \
        edit;                                                                                                                  \
        EQUAL(start(0), 0);                                                                                                    \
        s = kept;                                                                                                              \
    } while (0)
/* Of so many octets of a text, that part is the title of a track, or cannot be. */
#define IS_PART(octets, n, offset, len) FIT(lend_office(octets, n); rename_track(k, offset, len))
#define NO_PART(octets, n, offset, len) UNFIT(lend_office(octets, n); rename_track(k, offset, len))
static void rename_refusal_cases(void)
{
    static const struct {
        const char *octets;
        uint32_t len;
    } NOT_TEXT[] = {{"\x80", 1},
                    {"\xC3", 1},
                    {"\xC0\x80", 2},
                    {"\xC3x", 2},
                    {"\xE2\x82", 2},
                    {"\xE0\x9F\xBF", 3},
                    {"\xED\xA0\x80", 3},
                    {"\xF0\x9F\x8E", 3},
                    {"\xF4\x90\x80\x80", 4},
                    {"\xF5\x80\x80\x80", 4},
                    {"\xFF", 1}};
    static const char BESIDE[] = "\x80\377Rast\xC3\xF8";
    size_t *len = &office.words_len;
    uint8_t text[400];
    memset(text, 'a', sizeof text);
    lend_sample();
    rename_nothing();
    EQUAL(start(ALL_OPCODES) || connects(0, 23) || activate(1), 0);
    /* There is not one entry for each track (SCOPE 5.3): four tracks, eight words. One too few, one too many, and a table that
     * ends inside an entry. */
    FIT(*len = 8);
    UNFIT(*len = 6);
    UNFIT(*len = 10);
    UNFIT(*len = 7);
    UNFIT(*len = 9);
    UNFIT(*len = 0);
    UNFIT(*len = 1);
    UNFIT(*len = 4);
    UNFIT(*len = 16);
    UNFIT(*len = 24);
    UNFIT(*len = 0; office.text_len = 0);
    /* Three tracks; none; and the most that there may be. */
    FIT(lent.len[TRACKS] = 18; lent.words[GROUPS][11] = 0; *len = 6);
    UNFIT(lent.len[TRACKS] = 18; lent.words[GROUPS][11] = 0);
    FIT(lent = (tables){.len = {0}}; *len = 0);
    UNFIT(lent = (tables){.len = {0}}; *len = 1);
    UNFIT(lent = (tables){.len = {0}}; *len = 2);
    FIT(lend_full(256); *len = 512);
    UNFIT(lend_full(256); *len = 511);
    UNFIT(lend_full(256); *len = 510);
    UNFIT(lend_full(256); *len = 513);
    UNFIT(lend_full(256); *len = 514);
    /* Of each track, be it the current one, 0, or not. */
    EACH(0, 4) {
        /* A length over 128 (SCOPE 5.3), though all of it lies in the text. */
        IS_PART(text, 400, 0, 128);
        NO_PART(text, 400, 0, 129);
        IS_PART(text, 400, 271, 128);
        NO_PART(text, 400, 271, 129);
        NO_PART(text, 400, 0, 256);
        NO_PART(text, 400, 0, 0x10000);
        NO_PART(text, 400, 0, 0x80000000u);
        NO_PART(text, 400, 0, 0xFFFFFFFFu);
        NO_PART(text, 400, 1, 0xFFFFFFFFu);
        NO_PART(text, 400, 0xFFFFFFFFu, 0xFFFFFFFFu);
        /* A part that ends with the text's last octet, and one octet beyond. */
        IS_PART(OFFICE, 20, 17, 3);
        IS_PART(OFFICE, 20, 0, 20);
        IS_PART(text, 128, 0, 128);
        NO_PART(text, 127, 0, 128);
        IS_PART(text, 400, 272, 128);
        NO_PART(text, 400, 273, 128);
        IS_PART(text, 400, 399, 1);
        NO_PART(text, 400, 399, 2);
        NO_PART(text, 400, 400, 1);
        NO_PART(text, 400, 401, 1);
        NO_PART(text, 0, 0, 1);
        /* The offset and the length come to 2^32 and more, in 32 bits to a place inside the text; and to less than that. */
        NO_PART(OFFICE, 20, 0xFFFFFFFFu, 1);
        NO_PART(OFFICE, 20, 0xFFFFFFFFu, 2);
        NO_PART(OFFICE, 20, 0xFFFFFFF0u, 20);
        NO_PART(OFFICE, 20, 0xFFFFFF80u, 128);
        NO_PART(text, 400, 0xFFFFFFFFu, 128);
        NO_PART(text, 400, 0xFFFFFF81u, 128);
        NO_PART(OFFICE, 20, 0x80000000u, 7);
        NO_PART(OFFICE, 20, 0x10000, 7);
        NO_PART(OFFICE, 20, 0xFFFFFF00u, 7);
        /* A part of length above 0 (SCOPE 5.3): an entry of length 0 is not looked at further. */
        IS_PART(OFFICE, 20, 20, 0);
        IS_PART(OFFICE, 20, 21, 0);
        IS_PART(OFFICE, 20, 0xFFFFFFFFu, 0);
        IS_PART(OFFICE, 20, 12, 0);
        IS_PART("", 0, 0xFFFFFFFFu, 0);
        IS_PART("\x80", 1, 0, 0);
        /* Cut inside a character, at its front and at its end; what lies beside the part does not make it whole. */
        NO_PART(OFFICE, 20, 12, 5);
        NO_PART(OFFICE, 20, 12, 1);
        NO_PART(OFFICE, 20, 7, 5);
        NO_PART(OFFICE, 20, 11, 1);
        IS_PART(OFFICE, 20, 11, 2);
        IS_PART(OFFICE, 20, 13, 4);
        NO_PART(OFFICE, 20, 13, 5);
        NO_PART(OFFICE, 20, 13, 6);
        IS_PART(OFFICE, 20, 13, 7);
        NO_PART(OFFICE, 20, 18, 2);
        NO_PART(OFFICE, 20, 19, 1);
        NO_PART(OFFICE, 20, 0, 18);
        /* Outside the part any octets, also such as a character begins or ends with. */
        IS_PART(BESIDE, 8, 2, 4);
        NO_PART(BESIDE, 8, 2, 5);
        NO_PART(BESIDE, 8, 1, 5);
        NO_PART(BESIDE, 8, 0, 8);
        for (uint32_t j = 0; j < sizeof NOT_TEXT / sizeof NOT_TEXT[0]; j++) {
            uint32_t n = NOT_TEXT[j].len;
            /* Alone, and in the middle of a part; and directly before and behind one, where it is none of it. */
            NO_PART(NOT_TEXT[j].octets, n, 0, n);
            memcpy(text + 100, NOT_TEXT[j].octets, n);
            NO_PART(text, 400, 50, 128);
            IS_PART(text, 400, 0, 100);
            IS_PART(text, 400, 100 + n, 128);
            IS_PART(text, 400, 100, 0);
            memset(text + 100, 'a', n);
        }
        /* It is the office's text that counts. The card's has 18 octets; the office's has none, or more, and then has no limit. */
        NO_PART("", 0, 0, 4);
        FIT(office.text_len = 70000; rename_track(k, 69872, 128));
        UNFIT(office.text_len = 70000; rename_track(k, 69873, 128));
        UNFIT(office.text_len = 69999; rename_track(k, 69872, 128));
        /* The last tracks of the full catalogue. */
        FIT(lend_full(193); *len = 512; rename_track(252 + k, 17, 3));
        UNFIT(lend_full(193); *len = 512; rename_track(252 + k, 17, 2));
    }
    /* Parts may be shared, overlap, and stand in any order. */
    FIT(EACH(0, 4) rename_track(k, 0, 20));
    FIT(rename_track(0, 11, 6); rename_track(1, 0, 13); rename_track(2, 7, 4); rename_track(3, 3, 4));
    /* While Inactive; with a state that is wrong as well; and with a name that is. */
    EQUAL(start(0), 0);
    UNFIT(rename_track(3, 12, 1));
    UNFIT(rename_track(3, 12, 1); s.turn = 9);
    s.turn = 3;
    EQUAL(set_name("\xFF"), 224);
    EQUAL(makes(START, 0, 0, 0, "\xFF", 1, 0), 224);
    /* 200 comes before it: a plain one, which carries nothing, and a bad title with its place. */
    LEND_OFFICE();
    rename_track(0, 12, 1);
    *len = 7;
    lent.len[GROUPS] = 11;
    all_give_200(__LINE__, UNTOUCHED, UNTOUCHED);
    LEND_OFFICE();
    rename_track(0, 12, 1);
    lent.text[12] = 0xFF;
    all_give_200(__LINE__, 1, 2);
    LEND_OFFICE();
    *len = 0;
    lent.text[12] = 0xFF;
    all_give_200(__LINE__, 1, 2);
    rename_nothing();
}

/* Both services show the same titles, each that of its own track; the calls to one are nothing to the other. */
static void both_titles_cases(void)
{
    LEND_OFFICE();
    rename_track(0, 0, 7);
    rename_track(3, 11, 6);
    EQUAL(IN(0, start(ALL_OPCODES)) || connects(0, 23) || IN(0, activate(1)) || subscribes(0, 5) || IN(1, subscribes(0, 5)), 0);
    service = 0;
    SHOWS_PART(OFFICES, 0, "Abfahrt", 7);
    service = 1;
    SHOWS_PART(CARDS, 0, "", 0);
    EQUAL(IN(1, activate(3)), 0);
    OWES_IN(0, 0, 0);
    OWES_IN(1, 0, B5);
    SHOWS_PART(OFFICES, 11, u8"Übung", 6);
    service = 0;
    SHOWS_PART(OFFICES, 0, "Abfahrt", 7);
    EQUAL(commands(0, TRACK + NEXT, 0), 0);
    OWES_IN(0, 0, B5);
    SHOWS_PART(CARDS, 10, "Rast", 4);
    CHECK(IN(0, takes(0, 5, "Rast", 4)) && IN(1, takes(0, 5, u8"Übung", 6)));
    /* A title that changed in one is read on in the other. */
    EQUAL(IN(0, reads(0, 5, 0)) || IN(1, reads(0, 5, 0)) || IN(0, commands(0, TRACK + PREVIOUS, 0)), 0);
    EQUAL(reads(0, 5, 1), 0x80);
    CHECK(IN(1, reads_as(0, 5, 2, "bung", 4)));
    /* The title call: 224 before 201, 201 before 219, of whichever service; refused it leaves the part as it was. */
    EACH(0, 6) {
        service = OVER[k];
        EQUAL(title(), 219);
        EQUAL(said.part[0], UNTOUCHED);
        s.services[k % 2].player.order = 9;
        EQUAL(title(), 201);
        EQUAL(said.part[1], UNTOUCHED);
        rename_track(2, 20, 1);
        EQUAL(title(), 224);
        EQUAL(said.part[2], UNTOUCHED);
        lent.len[TEXT] = 17;
        EQUAL(title(), 200);
        EQUAL(said.part[0], UNTOUCHED);
        EQUAL(place.track, UNTOUCHED);
        lent.len[TEXT] = 18;
        lent.text[17] = 0xC3;
        EQUAL(title(), 200);
        EQUAL(place.track, 3);
        EQUAL(place.offset, 3);
        lent.text[17] = 'l';
        for (service = 0; service < 2; service++) {
            EQUAL(title(), 224);
            rename_track(2, 20, 0);
            EQUAL(title(), 201);
            EQUAL(said.part[2], UNTOUCHED);
            rename_track(2, 20, 1);
        }
        s.services[k % 2].player.order = 3;
        rename_track(2, 0, 0);
    }
    rename_nothing();
}

/* ---- The clock */

/* Whether the 64th power of a number below 2^20 is above 2 to the power n. Six squarings make it, in digits of 32 bits, of which it has at
 * most 40. */
static int is_above(uint32_t number, uint32_t n)
{
    uint32_t digits[40] = {number};
    for (uint32_t times = 0; times < 6; times++) {
        uint32_t square[40] = {0};
        for (uint32_t i = 0; i < 40; i++) {
            uint64_t carried = 0;
            for (uint32_t j = 0; i + j < 40; j++, carried >>= 32) {
                carried += (uint64_t)digits[i] * digits[j] + square[i + j];
                square[i + j] = (uint32_t)carried;
            }
        }
        memcpy(digits, square, sizeof digits);
    }
    for (uint32_t k = 40; k-- > 0;) {
        uint32_t digit = k == n / 32 ? 1u << n % 32 : 0;
        if (digits[k] != digit)
            return digits[k] > digit;
    }
    return 0;
}

/* The whole number with (2e−1)^64 ≤ 2^(1088+p) < (2e+1)^64 (SCOPE 13.2), by the octet of p: the least with the second half of
 * that, since the first half is that the second does not hold of e − 1. */
static uint32_t factors[256];
static void find_factors(void)
{
    EACH(0, 256) {
        uint32_t low = 0, high = 1u << 18;
        while (high - low > 1) {
            uint32_t middle = (low + high) / 2;
            if (is_above(2 * middle + 1, k < 128 ? 1088 + k : 1088 + k - 256))
                high = middle;
            else
                low = middle;
        }
        factors[k] = high;
    }
    /* 1, 2, a half and a quarter are exact: of p = 0 it is (2 · 65536)^64 = 2^1088. The others are the nearest to 66249.6, 64830.04,
     * 92681.9, 46340.95 and 259320.2. */
    EQUAL(factors[0], 65536);
    EQUAL(factors[64], 131072);
    EQUAL(factors[256 - 64], 32768);
    EQUAL(factors[128], 16384);
    EQUAL(factors[1], 66250);
    EQUAL(factors[255], 64830);
    EQUAL(factors[32], 92682);
    EQUAL(factors[256 - 32], 46341);
    EQUAL(factors[127], 259320);
}

/* Playing in group 1 on that track, at that position and that speed; the rest is 0. */
static void play_at(uint8_t order, uint32_t track, uint32_t position, int speed)
{
    stand(order, track, position);
    EQUAL(writes(0, 8, (uint8_t)speed) || commands(0, PLAY, 0), 0);
    EQUAL(PLAYER.rest, 0);
}
/* A call that gave that was to give this, and to lead to that track, position and rest. */
static void leads_at(int line, uint32_t gave, uint32_t gives, uint32_t track, uint32_t position, uint32_t rest)
{
    equal_at(line, gave, gives, "the answer");
    equal_at(line, PLAYER.track, track, "the track");
    equal_at(line, PLAYER.position, position, "the position");
    equal_at(line, PLAYER.rest, rest, "the rest");
}
/* The step stays on track 0, in Playing, and leads to that position and that rest; or it leads there, and the rest is 0. */
static void ticks_at(int line, uint32_t d, uint32_t position, uint32_t rest)
{
    leads_at(line, advance(d), 0, 0, position, rest);
    equal_at(line, PLAYER.media, REF_PLAYING, "the state");
}
#define TICKS(d, position, rest) ticks_at(__LINE__, d, position, rest)
#define ZEROES(d, leads_to)                                                                                                    \
    do {                                                                                                                       \
        EQUAL(advance(d), 0);                                                                                                  \
        leads_to;                                                                                                              \
        EQUAL(PLAYER.rest, 0);                                                                                                 \
    } while (0)

/* A clock step of d in Playing adds d times e to the rest, advances by the whole 65,536ths and keeps the rest, 0 to 65,535 (SCOPE
 * 13.3). */
static void clock_cases(void)
{
    lend_sample();
    /* Half, double, and a quarter. */
    play_at(3, 0, 100, -64);
    TICKS(7, 103, 32768);
    TICKS(1, 104, 0);
    TICKS(1, 104, 32768);
    TICKS(0, 104, 32768);
    TICKS(3, 106, 0);
    TICKS(1000, 606, 0);
    TICKS(10787, 5999, 32768);
    play_at(3, 0, 100, 64);
    TICKS(1, 102, 0);
    TICKS(7, 116, 0);
    TICKS(0, 116, 0);
    TICKS(2941, 5998, 0);
    play_at(3, 0, 100, -128);
    TICKS(1, 100, 16384);
    TICKS(1, 100, 32768);
    TICKS(1, 100, 49152);
    TICKS(1, 101, 0);
    TICKS(7, 102, 49152);
    /* 92682 is 1 and 27146; three of them are 278046, or 4 and 15902, and 1003 are 92960046, or 1418 and 29998. */
    play_at(3, 0, 0, 32);
    TICKS(1, 1, 27146);
    TICKS(2, 4, 15902);
    TICKS(1000, 1418, 29998);
    /* A thousand times 46341 are 707 and 7048. 259320 is 3 and 62712; twice that is 7 and 59888. */
    play_at(3, 0, 0, -32);
    TICKS(1, 0, 46341);
    TICKS(1, 1, 27146);
    TICKS(998, 707, 7048);
    play_at(3, 0, 0, 127);
    TICKS(1, 3, 62712);
    TICKS(1, 7, 59888);
    play_at(3, 0, 0, 1);
    TICKS(1, 1, 714);
    play_at(3, 0, 0, -1);
    TICKS(1, 0, 64830);
    TICKS(1, 1, 64124);
    /* The speed in force is that at the step, and writing it keeps the rest: 3 halves, 2, 10, and 2 quarters. */
    play_at(3, 0, 0, -64);
    TICKS(3, 1, 32768);
    EQUAL(writes(0, 8, 64), 0);
    PLAYS(1, 0, 1);
    EQUAL(PLAYER.rest, 32768);
    TICKS(1, 3, 32768);
    EQUAL(writes(0, 8, 0), 0);
    TICKS(10, 13, 32768);
    EQUAL(writes(0, 8, 0x80), 0);
    TICKS(2, 14, 0);
    /* Through Pause and Play, whatever time passes between, and a speed written then. */
    play_at(3, 0, 50, -64);
    TICKS(1, 50, 32768);
    EQUAL(commands(0, PAUSE, 0) || advance(1000) || advance(0) || advance(0xFFFFFFFFu), 0);
    PAUSES(1, 0, 50);
    EQUAL(PLAYER.rest, 32768);
    EQUAL(commands(0, PLAY, 0), 0);
    TICKS(1, 51, 0);
    TICKS(1, 51, 32768);
    EQUAL(commands(0, PAUSE, 0) || writes(0, 8, 0x80) || commands(0, PLAY, 0), 0);
    TICKS(2, 52, 0);
    /* Seeking: it is kept until a step is made there, be it of 0. In Seeking the playback speed plays no part (SCOPE 13.7). */
    play_at(3, 0, 50, -64);
    TICKS(1, 50, 32768);
    EQUAL(commands(0, FORWARD, 0) || commands(0, FORWARD, 0) || commands(0, PLAY, 0), 0);
    TICKS(1, 51, 0);
    TICKS(1, 51, 32768);
    EQUAL(commands(0, FORWARD, 0), 0);
    ZEROES(0, SEEKS(51, 4));
    ZEROES(10, SEEKS(91, 4));
    EQUAL(commands(0, PLAY, 0), 0);
    TICKS(1, 91, 32768);
    EQUAL(commands(0, REWIND, 0), 0);
    ZEROES(1, SEEKS(87, -4));
    EQUAL(writes(0, 8, 127), 0);
    ZEROES(2, SEEKS(79, -4));
    PLAYER.rest = 5;
    ZEROES(100, SEEKS(0, -4));
    PLAYER.rest = 5;
    ZEROES(1, SEEKS(0, -4));
    EQUAL(commands(0, PLAY, 0), 0);
    TICKS(1, 3, 62712);
    EQUAL(commands(0, FORWARD, 0), 0);
    ZEROES(0xFFFFFFFFu, SEEKS(6000, 4));
    PLAYER.rest = 5;
    ZEROES(1, SEEKS(6000, 4));
    /* At speed 0 it is as without a clock, and whatever rest there is stays. */
    for (uint32_t rest = 0; rest < 65536; rest += 21845) {
        play_at(3, 0, 0, 0);
        PLAYER.rest = rest;
        TICKS(0, 0, rest);
        TICKS(1, 1, rest);
        TICKS(5537, 5538, rest);
        TICKS(461, 5999, rest);
        TICKS(0, 5999, rest);
        ZEROES(1, PLAYS(1, 1, 0));
        play_at(3, 0, 1, 0);
        PLAYER.rest = rest;
        ZEROES(5999, PLAYS(1, 1, 0));
    }
}

/* At D or beyond comes the next track at 0 or, where there is none, Paused at D (SCOPE 13.5): the rest is then 0, and none of it
 * goes over to the next track. */
static void clock_end_cases(void)
{
    lend_sample();
    /* Two halves past 5999 is D, one is below it; a step beyond D by half a hundredth; twice one to 5999, and to D. */
    play_at(3, 0, 5999, -64);
    TICKS(1, 5999, 32768);
    ZEROES(1, PLAYS(1, 1, 0));
    EQUAL(advance(1), 0);
    PLAYS(1, 1, 0);
    EQUAL(PLAYER.rest, 32768);
    play_at(3, 0, 5998, -64);
    TICKS(3, 5999, 32768);
    play_at(3, 0, 5998, -64);
    ZEROES(5, PLAYS(1, 1, 0));
    play_at(3, 0, 5997, 64);
    TICKS(1, 5999, 0);
    ZEROES(1, PLAYS(1, 1, 0));
    play_at(3, 0, 5998, 64);
    ZEROES(1, PLAYS(1, 1, 0));
    play_at(3, 0, 5998, 32);
    TICKS(1, 5999, 27146);
    ZEROES(1, PLAYS(1, 1, 0));
    /* A call makes at most one such move (SCOPE 13.5). D of track 2 is 0. */
    play_at(3, 0, 5999, -64);
    TICKS(1, 5999, 32768);
    ZEROES(0xFFFFFFFFu, PLAYS(1, 1, 0));
    ZEROES(0xFFFFFFFFu, PLAYS(1, 2, 0));
    PLAYER.rest = 9;
    ZEROES(0, PAUSES(1, 2, 0));
    play_at(4, 2, 0, -128);
    PLAYER.rest = 9;
    ZEROES(0, PLAYS(1, 0, 0));
    TICKS(3, 0, 49152);
    /* Paused at D. A step of 0 at D, or one of less than a hundredth, ends the track again, with whatever rest is handed in. */
    play_at(1, 0, 5999, -64);
    TICKS(1, 5999, 32768);
    ZEROES(1, PAUSES(1, 0, 6000));
    ZEROES(9, PAUSES(1, 0, 6000));
    EACH(0, 4) {
        EQUAL(commands(0, PLAY, 0), 0);
        PLAYS(1, 0, 6000);
        PLAYER.rest = k * 21845;
        ZEROES(k % 2, PAUSES(1, 0, 6000));
        stand(3, 0, 6000);
        EQUAL(writes(0, 8, 0x80) || commands(0, PLAY, 0), 0);
        PLAYER.rest = k * 21845;
        ZEROES(k % 2, PLAYS(1, 1, 0));
        stand(1, 0, 6000);
        EQUAL(writes(0, 8, 0x80), 0);
    }
    /* Onto itself: in order 2, alone in a repeat order, and by its name. */
    play_at(2, 0, 5999, -64);
    TICKS(1, 5999, 32768);
    ZEROES(2, PLAYS(1, 0, 0));
    TICKS(1, 0, 32768);
    ZEROES(12001, PLAYS(1, 0, 0));
    play_at(4, 0, 0, -64);
    EQUAL(activate(3) || commands(0, PLAY, 0) || advance(1799), 0);
    PLAYS(3, 3, 899);
    EQUAL(PLAYER.rest, 32768);
    ZEROES(1, PLAYS(3, 3, 0));
    play_at(3, 0, 5999, -64);
    TICKS(1, 5999, 32768);
    EQUAL(sets(0, 12, 0x1000), 0);
    ZEROES(3, PLAYS(1, 0, 0));
    EQUAL(PLAYER.next, 0);

    /* At 8,640,000 the player stays there in its state (SCOPE 13.6). The step that leads there, and every one made there, leaves
     * the rest as it was before it: it is 32768 and not 0, 27146 and not 15902. */
    lent.words[TRACKS][0] = UNKNOWN;
    for (uint8_t order = 1; order <= 8; order++) {
        play_at(order, 0, END - 1, -64);
        TICKS(1, END - 1, 32768);
        TICKS(1, END, 32768);
        TICKS(0, END, 32768);
        TICKS(1, END, 32768);
        TICKS(0xFFFFFFFFu, END, 32768);
    }
    play_at(3, 0, END - 2, 32);
    TICKS(1, END - 1, 27146);
    TICKS(2, END, 27146);
    TICKS(1, END, 27146);
    EQUAL(writes(0, 8, 0x80), 0);
    TICKS(3, END, 27146);
    play_at(3, 0, END - 1, 32);
    TICKS(1, END, 0);
    TICKS(1, END, 0);
    play_at(3, 0, END - 3, 64);
    TICKS(1, END - 1, 0);
    TICKS(1, END, 0);
    play_at(3, 0, 0, 127);
    TICKS(0xFFFFFFFFu, END, 0);
    /* Kept by Pause, Play and time between, by a negative position write, and where no start is later; then a Seeking step that holds it
     * there, Move Relative that does, and a position write there make it 0. */
#define HOLDS()                                                                                                                \
    do {                                                                                                                       \
        play_at(3, 0, END - 1, -64);                                                                                           \
        TICKS(3, END, 0);                                                                                                      \
        PLAYER.rest = 32769;                                                                                                   \
        TICKS(1, END, 32769);                                                                                                  \
    } while (0)
    HOLDS();
    EQUAL(commands(0, PAUSE, 0) || advance(7) || commands(0, PLAY, 0) || moves_to(0, -1) || moves_to(0, LEAST), 0);
    EQUAL(result(SEGMENT + NEXT, 0), 4);
    EQUAL(result(SEGMENT + GOTO, 4), 4);
    EQUAL(result(SEGMENT + GOTO, 0), 1);
    TICKS(1, END, 32769);
    HOLDS();
    EQUAL(commands(0, FORWARD, 0), 0);
    EQUAL(PLAYER.rest, 32769);
    ZEROES(0, SEEKS(END, 4));
    PLAYER.rest = 5;
    ZEROES(9, SEEKS(END, 4));
    HOLDS();
    EQUAL(commands(0, RELATIVE, 5), 0);
    PLAYS(1, 0, END);
    EQUAL(PLAYER.rest, 0);
    HOLDS();
    EQUAL(moves_to(0, MOST), 0);
    PLAYS(1, 0, END);
    EQUAL(PLAYER.rest, 0);
    HOLDS();
    EQUAL(commands(0, STOP, 0), 0);
    PAUSES(1, 0, 0);
    EQUAL(PLAYER.rest, 0);
}

/* Half a hundredth past that position of track 0, in Playing or what that command gives: 0 is none. */
static int stands_by;
static void stand_past(uint32_t position)
{
    lend_sample();
    play_at(3, 0, position, -64);
    TICKS(1, position, 32768);
    if (stands_by != 0)
        EQUAL(commands(0, stands_by, 0), 0);
    CHECK(PLAYER.position == position && PLAYER.rest == 32768);
}
/* From there the call gives that and leads to that position of that track. */
#define PAST(from, call, gives, track, to, rest)                                                                               \
    do {                                                                                                                       \
        stand_past(from);                                                                                                      \
        leads_at(__LINE__, (uint32_t)(call), gives, track, to, rest);                                                          \
    } while (0)
#define REST_GOES(from, call, track, to) PAST(from, call, 0, track, to, 0)
#define GOES_BY(from, opcode, n, track, to) PAST(from, result(opcode, n), 1, track, to, 0)
#define REST_STAYS(call) PAST(1500, call, 0, 0, 1500, 32768)
#define STAYS_BY(opcode, n, code) PAST(1500, result(opcode, n), code, 0, 1500, 32768)

/* The rest becomes 0 whenever anything but a clock step in Playing within a track sets the position (SCOPE 13.9): also where
 * the position comes out the same, and nowhere else. */
static void rest_cases(void)
{
    static const int STATES[4] = {0, PAUSE, FORWARD, REWIND};
    EACH(0, 4) {
        stands_by = STATES[k];
        GOES_BY(1500, STOP, 0, 0, 0);
        GOES_BY(0, STOP, 0, 0, 0);
        GOES_BY(1500, RELATIVE, 0, 0, 1500);
        GOES_BY(1500, RELATIVE, 1, 0, 1501);
        GOES_BY(1500, RELATIVE, -1, 0, 1499);
        GOES_BY(0, RELATIVE, -5, 0, 0);
        GOES_BY(0, RELATIVE, LEAST, 0, 0);
        GOES_BY(5999, RELATIVE, MOST, 0, 6000);
        GOES_BY(1500, SEGMENT + PREVIOUS, 0, 0, 0);
        GOES_BY(1800, SEGMENT + PREVIOUS, 0, 0, 1500);
        GOES_BY(0, SEGMENT + PREVIOUS, 0, 0, 0);
        GOES_BY(1500, SEGMENT + NEXT, 0, 0, 4000);
        GOES_BY(4000, SEGMENT + NEXT, 0, 0, 6000);
        GOES_BY(5, SEGMENT + FIRST, 0, 0, 0);
        GOES_BY(0, SEGMENT + FIRST, 0, 0, 0);
        GOES_BY(5, SEGMENT + LAST, 0, 0, 4000);
        GOES_BY(4000, SEGMENT + LAST, 0, 0, 4000);
        GOES_BY(0, SEGMENT + GOTO, 1, 0, 0);
        GOES_BY(1500, SEGMENT + GOTO, 2, 0, 1500);
        GOES_BY(1500, SEGMENT + GOTO, 3, 0, 4000);
        GOES_BY(1500, SEGMENT + GOTO, 4, 0, 6000);
        GOES_BY(1500, SEGMENT + GOTO, MOST, 0, 6000);
        GOES_BY(4000, SEGMENT + GOTO, -1, 0, 4000);
        GOES_BY(1500, SEGMENT + GOTO, -2, 0, 1500);
        GOES_BY(0, SEGMENT + GOTO, -3, 0, 0);
        GOES_BY(1500, SEGMENT + GOTO, LEAST, 0, 0);
        /* Track and group moves: to another one, and onto the same, from 1500 and from 0. */
        GOES_BY(1500, TRACK + NEXT, 0, 1, 0);
        GOES_BY(1500, TRACK + LAST, 0, 2, 0);
        GOES_BY(1500, TRACK + GOTO, 2, 1, 0);
        GOES_BY(1500, TRACK + GOTO, -1, 2, 0);
        GOES_BY(1500, GROUP + NEXT, 0, 3, 0);
        GOES_BY(1500, GROUP + LAST, 0, 3, 0);
        GOES_BY(1500, GROUP + GOTO, 2, 3, 0);
        REST_GOES(1500, writes(0, 15, 4) || commands(0, TRACK + PREVIOUS, 0), 2, 0);
        for (uint32_t from = 0; from <= 1500; from += 1500) {
            GOES_BY(from, TRACK + FIRST, 0, 0, 0);
            GOES_BY(from, TRACK + GOTO, 0, 0, 0);
            GOES_BY(from, TRACK + GOTO, 1, 0, 0);
            GOES_BY(from, TRACK + GOTO, -3, 0, 0);
            GOES_BY(from, GROUP + FIRST, 0, 0, 0);
            GOES_BY(from, GROUP + GOTO, 0, 0, 0);
            GOES_BY(from, GROUP + GOTO, 1, 0, 0);
            GOES_BY(from, GROUP + GOTO, -2, 0, 0);
            REST_GOES(from, writes(0, 15, 2) || commands(0, TRACK + NEXT, 0), 0, 0);
            REST_GOES(from, writes(0, 15, 2) || commands(0, TRACK + PREVIOUS, 0), 0, 0);
            REST_GOES(from, sets(0, 12, 0x1000) || commands(0, TRACK + NEXT, 0), 0, 0);
            /* Writes of 11 and 14, Activate, Deactivate and start. */
            REST_GOES(from, sets(0, 11, 0x1000), 0, 0);
            REST_GOES(from, sets(0, 11, 0x1001), 1, 0);
            REST_GOES(from, sets(0, 14, 0x2001), 0, 0);
            REST_GOES(from, sets(0, 14, 0x2003), 3, 0);
            REST_GOES(from, activate(1), 0, 0);
            REST_GOES(from, activate(3), 3, 0);
            REST_GOES(from, deactivate(), 0, 0);
            REST_GOES(from, start(ALL_OPCODES), 0, 0);
        }
        /* Writes of 7, and a Seeking step, also of 0 and held at an end; in Playing that is a clock step, and in Paused nothing. */
        REST_GOES(1500, moves_to(0, 1500), 0, 1500);
        REST_GOES(1500, moves_to(0, 7), 0, 7);
        REST_GOES(1500, moves_to(0, MOST), 0, 6000);
        REST_GOES(1500, moves_to(0, -4500), 0, 1500);
        REST_GOES(1500, moves_to(0, -1), 0, 5999);
        REST_GOES(0, moves_to(0, LEAST), 0, 0);
        REST_GOES(0, moves_to(0, 0), 0, 0);
        PAST(1500, advance(0), 0, 0, 1500, k < 2 ? 32768 : 0);
        PAST(1500, advance(5), 0, 0, k == 0 ? 1503 : k == 1 ? 1500 : k == 2 ? 1520 : 1480, k == 1 ? 32768 : 0);
        PAST(0, advance(0xFFFFFFFFu), 0, k == 0, k == 2 ? 6000 : 0, k == 1 ? 32768 : 0);

        REST_STAYS(0);
        REST_STAYS(commands(0, PLAY, 0));
        REST_STAYS(commands(0, PAUSE, 0));
        REST_STAYS(commands(0, FORWARD, 0));
        REST_STAYS(commands(0, REWIND, 0));
        REST_STAYS(commands(0, FORWARD, 0) || commands(0, FORWARD, 0));
        STAYS_BY(SEGMENT + GOTO, 0, 1);
        REST_STAYS(writes(0, 8, 0));
        REST_STAYS(writes(0, 8, 0xC0));
        REST_STAYS(writes(0, 8, 127));
        REST_STAYS(sets(0, 12, 0x1000));
        REST_STAYS(sets(0, 12, 0x1002));
        REST_STAYS(writes(0, 15, 3));
        REST_STAYS(writes(0, 15, 2));
        REST_STAYS(writes(0, 15, 5));
        REST_STAYS(set_name("Other"));
        REST_STAYS(set_name("Desk"));
        REST_STAYS(connects(1, 64));
        REST_STAYS(disconnects(0));
        REST_STAYS(reads(0, 7, 0) || subscribes(0, 7) || makes(TAKE, 0, 0, 0, NULL, 0, ROOM) || unsubscribes(0, 7) || title());
        REST_STAYS(manual(SEGMENT + GOTO, 1, 1));
        REST_STAYS(manual(TRACK + GOTO, 0, 0));
        REST_STAYS(manual(GROUP + GOTO, -1, 1));
        /* Results 2 and 4, and refusals. */
        STAYS_BY(0x77, 0, 2);
        STAYS_BY(TRACK + PREVIOUS, 0, 4);
        STAYS_BY(TRACK + GOTO, 4, 4);
        STAYS_BY(TRACK + GOTO, -4, 4);
        STAYS_BY(GROUP + PREVIOUS, 0, 4);
        STAYS_BY(GROUP + GOTO, 3, 4);
        STAYS_BY(GROUP + GOTO, LEAST, 4);
        REST_STAYS(writes(0, 15, 1) || commands(0, TRACK + NEXT, 0));
        for (uint32_t j = 0; j < 21; j++) PAST(1500, (PLAYER.mask = 0, result(OPCODE[j], 1)), 2, 0, 1500, 32768);
        REST_STAYS(activate(2) != 208);
        REST_STAYS(set_name("\xFF") != 207);
        REST_STAYS(writes(0, 15, 9) != 0x13);
        REST_STAYS(writes(0, 7, 0) != 0x0D);
        REST_STAYS(sets(0, 11, 0x1003) != 0x13);
        REST_STAYS(sets(0, 14, 0x2002) != 0x13);
        REST_STAYS(makes(WRITE, 0, 18, 0, numbered(STOP, 0), 5, 0) != 0x0D);
        REST_STAYS(moves_to(1, 0) != 203);
        /* Of a running recording a negative position write is accepted and moves nothing (SCOPE 9.9). Without a later start Next
         * Segment gives 4. */
        REST_STAYS((lent.words[TRACKS][0] = UNKNOWN, moves_to(0, -1) || moves_to(0, LEAST)));
        REST_GOES(1500, (lent.words[TRACKS][0] = UNKNOWN, moves_to(0, 1500)), 0, 1500);
        PAST(4000, (lent.words[TRACKS][0] = UNKNOWN, result(SEGMENT + NEXT, 0)), 4, 0, 4000, 32768);
        PAST(4000, (lent.words[TRACKS][0] = UNKNOWN, result(SEGMENT + GOTO, 4)), 4, 0, 4000, 32768);
    }
    stands_by = 0;
    /* While Inactive a rest may be handed in. Result 3, writes, refusals and time keep it; Deactivate and Activate set the position. */
    lend_sample();
    EQUAL(start(ALL_OPCODES) || connects(0, 23), 0);
    PLAYER.rest = 65535;
    EACH(0, 21) EQUAL(result(OPCODE[k], 0), 3);
    EQUAL(moves_to(0, 5) || moves_to(0, -5) || writes(0, 8, 9) || writes(0, 15, 4) || advance(0) || advance(0xFFFFFFFFu) ||
              set_name("N"),
          0);
    EQUAL(sets(0, 11, 0x1000), 0x13);
    EQUAL(sets(0, 14, 0x2001), 0x13);
    IS(0, 0, 0, REF_INACTIVE, 0);
    EQUAL(PLAYER.rest, 65535);
    EQUAL(deactivate(), 0);
    EQUAL(PLAYER.rest, 0);
    PLAYER.rest = 1;
    EQUAL(activate(1), 0);
    PAUSES(1, 0, 0);
    EQUAL(PLAYER.rest, 0);
}

/* No value shows the rest. It alone makes nothing owed and changes no mark; 7 is owed as before, by the position that comes of it. */
static void rest_told_cases(void)
{
    static const uint32_t READABLE[16] = {1, 5, 6, 7, 8, 9, 10, 11, 12, 13, 14, 15, 16, 17, 19, 22};
    lend_sample();
    play_at(3, 0, 100, -64);
    EACH(0, 16) {
        uint8_t octets[ROOM];
        uint32_t len;
        PLAYER.rest = 0;
        EQUAL(reads(0, READABLE[k], 0), 0);
        len = said.length;
        memcpy(octets, said.out, len);
        PLAYER.rest = 65535;
        CHECK(reads_as(0, READABLE[k], 0, octets, len));
    }
    /* Half a hundredth changes no value, the other half 7; neither is owed, since both stay below D. */
    stand_with_two(3, 0, 100);
    EQUAL(writes(0, 8, 0xC0) || commands(0, PLAY, 0), 0);
    FORGIVE();
    EQUAL(reads(0, 7, 0) || reads(1, 7, 0), 0);
    TOLD(advance(1), 0, 0);
    EQUAL(PLAYER.rest, 32768);
    EQUAL(reads(0, 7, 1) || reads(1, 7, 4), 0);
    TOLD(advance(1), 0, 0);
    PLAYS(1, 0, 101);
    EQUAL(reads(0, 7, 1), 0x80);
    EQUAL(reads(1, 7, 1), 0x80);
    /* A rest that becomes 0 where the position is as it was. */
    EQUAL(advance(1) || reads(0, 7, 0), 0);
    EQUAL(PLAYER.rest, 32768);
    TOLD(commands(1, RELATIVE, 0), 0, B18);
    EQUAL(PLAYER.rest, 0);
    EQUAL(advance(1), 0);
    EQUAL(PLAYER.rest, 32768);
    TOLD(moves_to(0, 101), 0, 0);
    EQUAL(PLAYER.rest, 0);
    EQUAL(reads(0, 7, 1), 0);
    /* The end by the speed: twice 2950 from 101 is 6001. Onto itself 7 is owed where it changed, and twice 3000 lead from 0 to 0. */
    EQUAL(writes(0, 8, 64), 0);
    FORGIVE();
    TOLD(advance(2949), 0, 0);
    PLAYS(1, 0, 5999);
    TOLD(advance(1), TRACK_BITS | B5 | B6 | B12, TRACK_BITS | B5 | B6 | B12);
    PLAYS(1, 1, 0);
    stand_with_two(2, 0, 0);
    EQUAL(writes(0, 8, 64) || commands(0, PLAY, 0), 0);
    FORGIVE();
    TOLD(advance(3000), 0, 0);
    PLAYS(1, 0, 0);
    TOLD(advance(1), 0, 0);
    TOLD(advance(2999), B7, B7);
    PLAYS(1, 0, 0);
    /* A running recording: 7 by the step that reaches 8,640,000, and by none that is made there. */
    lent.words[TRACKS][0] = UNKNOWN;
    stand_with_two(3, 0, END - 1);
    EQUAL(writes(0, 8, 0xC0) || commands(0, PLAY, 0), 0);
    FORGIVE();
    TOLD(advance(1), 0, 0);
    TOLD(advance(1), B7, B7);
    PLAYS(1, 0, END);
    EQUAL(reads(0, 7, 0), 0);
    TOLD(advance(1), 0, 0);
    TOLD(advance(0xFFFFFFFFu), 0, 0);
    EQUAL(reads(0, 7, 1), 0);
    TOLD(commands(0, FORWARD, 0), B9 | B17 | B18, B9 | B17);
    EQUAL(PLAYER.rest, 32768);
    TOLD(advance(0), 0, 0);
    EQUAL(PLAYER.rest, 0);
    EQUAL(reads(0, 7, 1), 0);
}

/* Every speed, from a position and a rest that differ: one hundredth; the greatest d that stays below 8,640,000; one more; and the
 * greatest d that there is. The products are below 2^50. */
static void every_speed_cases(void)
{
    static const uint32_t PARTS[7] = {0, 1, 2, 63, 64, 1000, 65537};
    lend_sample();
    EACH(0, 512) {
        uint32_t octet = k % 256, word = k < 256 ? UNKNOWN : END, from = 3000 * k, rest = k * 40503 % 65536;
        uint64_t e = factors[octet], past = (uint64_t)from * 65536 + rest, most = ((uint64_t)END * 65536 - 1 - past) / e;
        ref_state begun;
        lent.words[TRACKS][0] = word;
        play_at(3, 0, from, (int)octet);
        PLAYER.rest = rest;
        memcpy(&begun, &s, sizeof s);
        EQUAL(PLAYER.speed, octet < 128 ? (int)octet : (int)octet - 256);
#define BEGIN() memcpy(&s, &begun, sizeof s)
#define EXACT(d)                                                                                                               \
    do {                                                                                                                       \
        PLAYS(1, 0, (past + (d)*e) / 65536);                                                                                   \
        EQUAL(PLAYER.rest, (past + (d)*e) % 65536);                                                                            \
    } while (0)
        TICKS(0, from, rest);
        EQUAL(advance(1), 0);
        EXACT(1);
        BEGIN();
        CHECK(most < 0xFFFFFFFFu);
        EQUAL(advance((uint32_t)most), 0);
        EXACT(most);
        for (uint32_t last = 0; last < 2; last++) {
            BEGIN();
            EQUAL(advance(last ? 0xFFFFFFFFu : (uint32_t)most + 1), 0);
            if (word == END)
                PLAYS(1, 1, 0);
            else
                PLAYS(1, 0, END);
            EQUAL(PLAYER.rest, word == END ? 0 : rest);
        }
        /* Where no next track is, Paused at D; of a running recording any order does. */
        BEGIN();
        EQUAL(writes(0, 15, 1) || advance(0xFFFFFFFFu), 0);
        IS(1, 0, END, word == END ? REF_PAUSED : REF_PLAYING, 0);
        EQUAL(PLAYER.rest, word == END ? 0 : rest);
        /* A step of d1 and one of d2 are one of their sum. */
        for (uint32_t j = 0; j < 49; j += 1 + k % 5) {
            uint32_t d1 = PARTS[j / 7], d2 = PARTS[j % 7];
            BEGIN();
            EQUAL(advance(d1) || advance(d2), 0);
            EXACT(d1 + d2);
            BEGIN();
            EQUAL(advance(d1 + d2), 0);
            EXACT(d1 + d2);
        }
    }
}

/* An hour at every speed, in 3,600 steps of 1 to 199 hundredths, 200 in two: at each the position and the rest are those of one product. */
static void hour_cases(void)
{
    lend_sample();
    lent.words[TRACKS][0] = END;
    EACH(0, 256) {
        copies t = copy_lent();
        uint64_t time = 0;
        play_at(3, 0, 0, (int)k);
        for (uint32_t step = 0; step < 3600; step++) {
            uint32_t uneven = 1 + step / 2 * 37 % 199, d = step % 2 == 0 ? uneven : 200 - uneven;
            time += d;
            EQUAL(ref_advance(LENT_ALL(t), &s, service, d, PLACE), 0);
            EQUAL((uint64_t)PLAYER.position * 65536 + PLAYER.rest, time * factors[k]);
            CHECK(PLAYER.rest < 65536);
        }
        EQUAL(time, 360000);
        PLAYS(1, 0, 360000 * (uint64_t)factors[k] / 65536);
        free_copies(t);
    }
}

/* ---- The manual's Goto */

/* Where a player is. */
typedef struct {
    uint32_t group, track, position, rest;
} spot;
static spot spot_of(const ref_player *p) { return (spot){p->group, p->track, p->position, p->rest}; }

/* The call gave that, and was to say that outcome, so many steps, and that the player would be there. */
static void says_at(int line, uint32_t gave, uint32_t outcome, uint32_t steps, spot at)
{
    equal_at(line, gave, 0, "the refusal");
    equal_at(line, said.made[0], outcome, "the outcome");
    equal_at(line, said.made[1], steps, "the steps");
    equal_at(line, said.spot[0], at.group, "the group");
    equal_at(line, said.spot[1], at.track, "the track");
    equal_at(line, said.spot[2], at.position, "the position");
    equal_at(line, said.spot[3], at.rest, "the rest");
}
#define AT(group, track, position, rest) ((spot){group, track, position, rest})
#define SAYS(opcode, n, allowed, outcome, steps, at) says_at(__LINE__, manual(opcode, n, allowed), outcome, steps, at)

/* What it says with so many steps allowed, and with any more. With fewer, it says so, the count is the number allowed, and
 * nothing moves (SCOPE 15.5). */
static void whole_at(int line, uint32_t opcode, long n, uint32_t outcome, uint32_t steps, spot at)
{
    const uint32_t enough[4] = {steps, steps + 1, 0x80000000u, 0xFFFFFFFFu};
    spot now = spot_of(&PLAYER);
    EACH(0, steps < 6 ? steps : 6) says_at(line, manual(opcode, n, k), REF_RAN_OUT, k, now);
    if (steps > 6)
        says_at(line, manual(opcode, n, steps - 1), REF_RAN_OUT, steps - 1, now);
    EACH(0, 4) says_at(line, manual(opcode, n, enough[k]), outcome, steps, at);
}
/* All steps are made and lead there; or the step of that number cannot be made. */
#define ARRIVES(opcode, n, group, track, position)                                                                             \
    whole_at(__LINE__, opcode, n, 1, without_sign(n), AT(group, track, position, 0))
#define STOPS(opcode, n, steps) whole_at(__LINE__, opcode, n, 4, steps, spot_of(&PLAYER))
/* No step is made, whatever is allowed, and nothing moves. */
static void stays_at(int line, uint32_t opcode, long n, uint32_t outcome)
{
    static const uint32_t ALLOWED[3] = {0, 1, 1000};
    EACH(0, 3) says_at(line, manual(opcode, n, ALLOWED[k]), outcome, 0, spot_of(&PLAYER));
}
#define MOVES_NOTHING(opcode, n, outcome) stays_at(__LINE__, opcode, n, outcome)
/* Group 1 in that order, on that track, and so far past that position. */
#define PAST_BY(order, track, position, rest_)                                                                                 \
    do {                                                                                                                       \
        stand(order, track, position);                                                                                         \
        PLAYER.rest = (rest_);                                                                                                 \
    } while (0)

enum { GOTO_SEGMENT = SEGMENT + GOTO, GOTO_TRACK = TRACK + GOTO, GOTO_GROUP = GROUP + GOTO };
static const uint32_t GOTOS[3] = {GOTO_SEGMENT, GOTO_TRACK, GOTO_GROUP};
static int is_goto(uint32_t opcode) { return opcode == GOTO_SEGMENT || opcode == GOTO_TRACK || opcode == GOTO_GROUP; }
/* The commands that lead to each state, Seeking both ways. */
static const int INTO[4] = {PAUSE, PLAY, FORWARD, REWIND};

/* The sample's track 0 is of 6000 and has the starts 0, 1500 and 4000. */
static void manual_segment_cases(void)
{
    uint32_t *starts = lent.words[SEGMENTS], *tracks = lent.words[TRACKS];
    lend_sample();
    EACH(0, 4) {
        PAST_BY(3, 0, 77, 9);
        EQUAL(commands(0, INTO[k], 0), 0);
        /* Goto Segment 0 moves nothing (SCOPE 10.7), whatever is allowed; the rest stays too. */
        SAYS(GOTO_SEGMENT, 0, 0, 1, 0, AT(1, 0, 77, 9));
        SAYS(GOTO_SEGMENT, 0, 1, 1, 0, AT(1, 0, 77, 9));
        MOVES_NOTHING(GOTO_SEGMENT, 0, 1);
        /* One less than 3, 3, one more, and none. */
        SAYS(GOTO_SEGMENT, 3, 2, REF_RAN_OUT, 2, AT(1, 0, 77, 9));
        SAYS(GOTO_SEGMENT, 3, 3, 1, 3, AT(1, 0, 4000, 0));
        SAYS(GOTO_SEGMENT, 3, 4, 1, 3, AT(1, 0, 4000, 0));
        SAYS(GOTO_SEGMENT, 3, 0, REF_RAN_OUT, 0, AT(1, 0, 77, 9));
        ARRIVES(GOTO_SEGMENT, 1, 1, 0, 0);
        ARRIVES(GOTO_SEGMENT, 2, 1, 0, 1500);
        ARRIVES(GOTO_SEGMENT, 3, 1, 0, 4000);
        ARRIVES(GOTO_SEGMENT, -1, 1, 0, 4000);
        ARRIVES(GOTO_SEGMENT, -2, 1, 0, 1500);
        ARRIVES(GOTO_SEGMENT, -3, 1, 0, 0);
        /* Past the last start it is D, and from D Next stays there; before the first it is 0, and Previous stays there. */
        ARRIVES(GOTO_SEGMENT, 4, 1, 0, 6000);
        ARRIVES(GOTO_SEGMENT, 5, 1, 0, 6000);
        ARRIVES(GOTO_SEGMENT, 1000, 1, 0, 6000);
        ARRIVES(GOTO_SEGMENT, -4, 1, 0, 0);
        ARRIVES(GOTO_SEGMENT, -5, 1, 0, 0);
        ARRIVES(GOTO_SEGMENT, -1000, 1, 0, 0);
        /* Making |n| in signed 32 bits is an error that looks right (SCOPE 22.4). */
        SAYS(GOTO_SEGMENT, MOST, 0, REF_RAN_OUT, 0, AT(1, 0, 77, 9));
        SAYS(GOTO_SEGMENT, MOST, 1000, REF_RAN_OUT, 1000, AT(1, 0, 77, 9));
        SAYS(GOTO_SEGMENT, LEAST, 0, REF_RAN_OUT, 0, AT(1, 0, 77, 9));
        SAYS(GOTO_SEGMENT, LEAST, 1, REF_RAN_OUT, 1, AT(1, 0, 77, 9));
        SAYS(GOTO_SEGMENT, LEAST, 1000, REF_RAN_OUT, 1000, AT(1, 0, 77, 9));
    }
    /* Where the position comes out as it is, the rest is 0 all the same: something else than a clock step sets it (SCOPE 13.9). */
    PAST_BY(3, 0, 1500, 65535);
    ARRIVES(GOTO_SEGMENT, 2, 1, 0, 1500);
    ARRIVES(GOTO_SEGMENT, -2, 1, 0, 1500);
    SAYS(GOTO_SEGMENT, 0, 0, 1, 0, AT(1, 0, 1500, 65535));
    SAYS(GOTO_SEGMENT, 2, 1, REF_RAN_OUT, 1, AT(1, 0, 1500, 65535));
    PAST_BY(3, 0, 0, 1);
    ARRIVES(GOTO_SEGMENT, 1, 1, 0, 0);
    ARRIVES(GOTO_SEGMENT, -3, 1, 0, 0);
    MOVES_NOTHING(GOTO_SEGMENT, 0, 1);
    PAST_BY(3, 0, 6000, 1);
    ARRIVES(GOTO_SEGMENT, 4, 1, 0, 6000);
    ARRIVES(GOTO_SEGMENT, 3, 1, 0, 4000);
    ARRIVES(GOTO_SEGMENT, -1, 1, 0, 4000);
    /* Last comes first, so that a position less than 300 past a start is nothing to it; nor are starts less than 300 apart. */
    PAST_BY(3, 0, 4299, 5);
    ARRIVES(GOTO_SEGMENT, -1, 1, 0, 4000);
    ARRIVES(GOTO_SEGMENT, -2, 1, 0, 1500);
    starts[1] = 3900;
    ARRIVES(GOTO_SEGMENT, -2, 1, 0, 3900);
    ARRIVES(GOTO_SEGMENT, -3, 1, 0, 0);
    ARRIVES(GOTO_SEGMENT, -4, 1, 0, 0);
    ARRIVES(GOTO_SEGMENT, 2, 1, 0, 3900);
    ARRIVES(GOTO_SEGMENT, 3, 1, 0, 4000);
    ARRIVES(GOTO_SEGMENT, 4, 1, 0, 6000);
    /* A track without segments is one segment from 0 (SCOPE 10.1): of 300, and of 0. */
    lend_sample();
    PAST_BY(3, 1, 200, 9);
    ARRIVES(GOTO_SEGMENT, 1, 1, 1, 0);
    ARRIVES(GOTO_SEGMENT, 2, 1, 1, 300);
    ARRIVES(GOTO_SEGMENT, 3, 1, 1, 300);
    ARRIVES(GOTO_SEGMENT, 50, 1, 1, 300);
    ARRIVES(GOTO_SEGMENT, -1, 1, 1, 0);
    ARRIVES(GOTO_SEGMENT, -2, 1, 1, 0);
    ARRIVES(GOTO_SEGMENT, -50, 1, 1, 0);
    MOVES_NOTHING(GOTO_SEGMENT, 0, 1);
    PAST_BY(3, 2, 0, 9);
    ARRIVES(GOTO_SEGMENT, 1, 1, 2, 0);
    ARRIVES(GOTO_SEGMENT, 2, 1, 2, 0);
    ARRIVES(GOTO_SEGMENT, 50, 1, 2, 0);
    ARRIVES(GOTO_SEGMENT, -1, 1, 2, 0);
    ARRIVES(GOTO_SEGMENT, -50, 1, 2, 0);
    /* A thousand starts, 0 to 999. */
    tracks[3] = 1000;
    lent.len[SEGMENTS] = 1000;
    tracks[8] = tracks[14] = tracks[20] = 1000;
    EACH(0, 1000) starts[k] = k;
    PAST_BY(3, 0, 77, 9);
    ARRIVES(GOTO_SEGMENT, 500, 1, 0, 499);
    ARRIVES(GOTO_SEGMENT, 1000, 1, 0, 999);
    ARRIVES(GOTO_SEGMENT, 1001, 1, 0, 6000);
    ARRIVES(GOTO_SEGMENT, -500, 1, 0, 500);
    ARRIVES(GOTO_SEGMENT, -1000, 1, 0, 0);
    ARRIVES(GOTO_SEGMENT, -1001, 1, 0, 0);
    tracks[0] = UNKNOWN;
    ARRIVES(GOTO_SEGMENT, 1000, 1, 0, 999);
    STOPS(GOTO_SEGMENT, 1001, 1001);
    STOPS(GOTO_SEGMENT, MOST, 1001);

    /* Of a running recording Next Segment with no later start, and a Goto that needs it, have result 4 (SCOPE 10.4, 10.8): the
     * fourth step, which needs its own allowance and is counted. Nothing moves; the rest stays. */
    lend_sample();
    tracks[0] = UNKNOWN;
    PAST_BY(3, 0, 77, 9);
    SAYS(GOTO_SEGMENT, 4, 3, REF_RAN_OUT, 3, AT(1, 0, 77, 9));
    SAYS(GOTO_SEGMENT, 4, 4, 4, 4, AT(1, 0, 77, 9));
    SAYS(GOTO_SEGMENT, 4, 5, 4, 4, AT(1, 0, 77, 9));
    SAYS(GOTO_SEGMENT, 9, 3, REF_RAN_OUT, 3, AT(1, 0, 77, 9));
    SAYS(GOTO_SEGMENT, 9, 4, 4, 4, AT(1, 0, 77, 9));
    SAYS(GOTO_SEGMENT, 9, 9, 4, 4, AT(1, 0, 77, 9));
    for (uint32_t position = 77; position <= END; position += END - 77) {
        PAST_BY(3, 0, position, 9);
        MOVES_NOTHING(GOTO_SEGMENT, 0, 1);
        ARRIVES(GOTO_SEGMENT, 1, 1, 0, 0);
        ARRIVES(GOTO_SEGMENT, 2, 1, 0, 1500);
        ARRIVES(GOTO_SEGMENT, 3, 1, 0, 4000);
        STOPS(GOTO_SEGMENT, 4, 4);
        STOPS(GOTO_SEGMENT, 5, 4);
        STOPS(GOTO_SEGMENT, MOST, 4);
        ARRIVES(GOTO_SEGMENT, -1, 1, 0, 4000);
        ARRIVES(GOTO_SEGMENT, -3, 1, 0, 0);
        ARRIVES(GOTO_SEGMENT, -4, 1, 0, 0);
        ARRIVES(GOTO_SEGMENT, -100, 1, 0, 0);
        SAYS(GOTO_SEGMENT, LEAST, 100, REF_RAN_OUT, 100, AT(1, 0, position, 9));
    }
    /* Without segments there is one start, 0. */
    tracks[6] = UNKNOWN;
    PAST_BY(3, 1, 9, 65535);
    ARRIVES(GOTO_SEGMENT, 1, 1, 1, 0);
    STOPS(GOTO_SEGMENT, 2, 2);
    STOPS(GOTO_SEGMENT, 3, 2);
    STOPS(GOTO_SEGMENT, MOST, 2);
    ARRIVES(GOTO_SEGMENT, -1, 1, 1, 0);
    ARRIVES(GOTO_SEGMENT, -2, 1, 1, 0);
    ARRIVES(GOTO_SEGMENT, -30, 1, 1, 0);
    MOVES_NOTHING(GOTO_SEGMENT, 0, 1);
    /* A repeat order is for tracks. */
    EQUAL(writes(0, 15, 4), 0);
    STOPS(GOTO_SEGMENT, 2, 2);
    ARRIVES(GOTO_SEGMENT, -2, 1, 1, 0);
}

/* Goto Track by 1 to 7 steps leads to those tracks, one for each step, from First and from Last; where they end, the next step cannot be
 * made. It is asked on track 1. */
static void orders_at(int line, uint8_t order, const char *from_first, const char *from_last)
{
    PAST_BY(order, 1, 55, 9);
    for (long n = -7; n <= 7; n++) {
        const char *to = n > 0 ? from_first : from_last;
        uint32_t all = without_sign(n), most = (uint32_t)strlen(to);
        if (n == 0)
            whole_at(line, GOTO_TRACK, n, 1, 0, AT(1, 1, 0, 0));
        else if (all <= most)
            whole_at(line, GOTO_TRACK, n, 1, all, AT(1, (uint32_t)(to[all - 1] - '0'), 0, 0));
        else
            whole_at(line, GOTO_TRACK, n, 4, most + 1, AT(1, 1, 55, 9));
    }
}
#define ORDERS(order, from_first, from_last) orders_at(__LINE__, order, from_first, from_last)

/* Group 1 has the tracks 0, 1 and 2, with the stamps 30, 10 and 10; group 3 has track 3 alone. */
static void manual_track_cases(void)
{
    lend_sample();
    /* Orders 3 and 4 are by number, 5 and 6 by rising stamp, 7 and 8 by falling stamp, and 1 and 2 have the current track alone
     * (SCOPE 11.1). The odd ones play once, the even ones repeat (SCOPE 11.3). */
    ORDERS(3, "012", "210");
    ORDERS(4, "0120120", "2102102");
    ORDERS(5, "120", "021");
    ORDERS(6, "1201201", "0210210");
    ORDERS(7, "012", "210");
    ORDERS(8, "0120120", "2102102");
    ORDERS(1, "1", "1");
    ORDERS(2, "1111111", "1111111");
    EACH(0, 4) {
        PAST_BY(3, 1, 55, 9);
        EQUAL(commands(0, INTO[k], 0), 0);
        /* 0 keeps the track, and the position becomes 0 (SCOPE 11.6, 11.7), whatever is allowed. */
        SAYS(GOTO_TRACK, 0, 0, 1, 0, AT(1, 1, 0, 0));
        SAYS(GOTO_TRACK, 0, 1, 1, 0, AT(1, 1, 0, 0));
        SAYS(GOTO_TRACK, 1, 0, REF_RAN_OUT, 0, AT(1, 1, 55, 9));
        SAYS(GOTO_TRACK, 1, 1, 1, 1, AT(1, 0, 0, 0));
        SAYS(GOTO_TRACK, 1, 2, 1, 1, AT(1, 0, 0, 0));
        SAYS(GOTO_TRACK, -1, 0, REF_RAN_OUT, 0, AT(1, 1, 55, 9));
        SAYS(GOTO_TRACK, -1, 1, 1, 1, AT(1, 2, 0, 0));
        SAYS(GOTO_TRACK, 3, 2, REF_RAN_OUT, 2, AT(1, 1, 55, 9));
        SAYS(GOTO_TRACK, 3, 3, 1, 3, AT(1, 2, 0, 0));
        SAYS(GOTO_TRACK, 3, 4, 1, 3, AT(1, 2, 0, 0));
        /* The fourth step cannot be made. */
        SAYS(GOTO_TRACK, 4, 3, REF_RAN_OUT, 3, AT(1, 1, 55, 9));
        SAYS(GOTO_TRACK, 4, 4, 4, 4, AT(1, 1, 55, 9));
        SAYS(GOTO_TRACK, 4, 5, 4, 4, AT(1, 1, 55, 9));
        SAYS(GOTO_TRACK, 9, 3, REF_RAN_OUT, 3, AT(1, 1, 55, 9));
        SAYS(GOTO_TRACK, 9, 8, 4, 4, AT(1, 1, 55, 9));
        STOPS(GOTO_TRACK, MOST, 4);
        STOPS(GOTO_TRACK, LEAST, 4);
        STOPS(GOTO_TRACK, -4, 4);
    }
    /* On the track where it ends, at 0: the rest is 0 where a step was made, and by Goto 0. */
    PAST_BY(3, 0, 0, 9);
    ARRIVES(GOTO_TRACK, 1, 1, 0, 0);
    ARRIVES(GOTO_TRACK, -3, 1, 0, 0);
    SAYS(GOTO_TRACK, 0, 0, 1, 0, AT(1, 0, 0, 0));
    SAYS(GOTO_TRACK, 1, 0, REF_RAN_OUT, 0, AT(1, 0, 0, 9));
    STOPS(GOTO_TRACK, 4, 4);
    /* Long ones in a repeat order: 999, 1000 and 1001 steps behind First or Last, of rounds of three. */
    PAST_BY(4, 1, 55, 9);
    ARRIVES(GOTO_TRACK, 1000, 1, 0, 0);
    ARRIVES(GOTO_TRACK, 1001, 1, 1, 0);
    ARRIVES(GOTO_TRACK, 1002, 1, 2, 0);
    ARRIVES(GOTO_TRACK, -1000, 1, 2, 0);
    ARRIVES(GOTO_TRACK, -1001, 1, 1, 0);
    ARRIVES(GOTO_TRACK, -1002, 1, 0, 0);
    SAYS(GOTO_TRACK, LEAST, 1000, REF_RAN_OUT, 1000, AT(1, 1, 55, 9));
    SAYS(GOTO_TRACK, MOST, 999, REF_RAN_OUT, 999, AT(1, 1, 55, 9));
    /* Orders 1 and 2, on each track. */
    EACH(0, 3) {
        uint32_t at = k == 2 ? 0 : 55;
        PAST_BY(1, k, at, 9);
        SAYS(GOTO_TRACK, 0, 0, 1, 0, AT(1, k, 0, 0));
        ARRIVES(GOTO_TRACK, 1, 1, k, 0);
        ARRIVES(GOTO_TRACK, -1, 1, k, 0);
        SAYS(GOTO_TRACK, 2, 1, REF_RAN_OUT, 1, AT(1, k, at, 9));
        SAYS(GOTO_TRACK, 2, 2, 4, 2, AT(1, k, at, 9));
        STOPS(GOTO_TRACK, -2, 2);
        STOPS(GOTO_TRACK, MOST, 2);
        STOPS(GOTO_TRACK, LEAST, 2);
        PAST_BY(2, k, at, 9);
        SAYS(GOTO_TRACK, 0, 0, 1, 0, AT(1, k, 0, 0));
        ARRIVES(GOTO_TRACK, 1, 1, k, 0);
        ARRIVES(GOTO_TRACK, -1, 1, k, 0);
        ARRIVES(GOTO_TRACK, 2, 1, k, 0);
        ARRIVES(GOTO_TRACK, 500, 1, k, 0);
        ARRIVES(GOTO_TRACK, -500, 1, k, 0);
    }
    /* The stamps 5, 10 and 10: falling is 1, 2, 0. */
    lent.words[TRACKS][1] = 5;
    ORDERS(7, "120", "021");
    ORDERS(8, "1201201", "0210210");
    ORDERS(5, "012", "210");
    lend_sample();
    /* A group of one track. */
    stand(3, 0, 0);
    EQUAL(activate(3) || moves_to(0, 50), 0);
    ARRIVES(GOTO_TRACK, 1, 3, 3, 0);
    ARRIVES(GOTO_TRACK, -1, 3, 3, 0);
    STOPS(GOTO_TRACK, 2, 2);
    STOPS(GOTO_TRACK, -2, 2);
    EQUAL(writes(0, 15, 4), 0);
    ARRIVES(GOTO_TRACK, 2, 3, 3, 0);
    ARRIVES(GOTO_TRACK, -9, 3, 3, 0);

    /* Goto's steps use no named track (SCOPE 15.7). The name is track 2's, on track 0, and then the current track's; it stays. */
    name_track_2();
    SAYS(GOTO_TRACK, 2, 2, 1, 2, AT(1, 1, 0, 0));
    ARRIVES(GOTO_TRACK, 1, 1, 0, 0);
    ARRIVES(GOTO_TRACK, 3, 1, 2, 0);
    STOPS(GOTO_TRACK, 4, 4);
    ARRIVES(GOTO_TRACK, -1, 1, 2, 0);
    ARRIVES(GOTO_TRACK, -2, 1, 1, 0);
    STOPS(GOTO_TRACK, -4, 4);
    ARRIVES(GOTO_GROUP, 2, 3, 3, 0);
    ARRIVES(GOTO_SEGMENT, 2, 1, 0, 1500);
    EQUAL(PLAYER.next, 3);
    CHECK(shows(12, 0x1002));
    EQUAL(writes(0, 15, 4), 0);
    ARRIVES(GOTO_TRACK, 2, 1, 1, 0);
    ARRIVES(GOTO_TRACK, 4, 1, 0, 0);
    ARRIVES(GOTO_TRACK, 5, 1, 1, 0);
    EQUAL(writes(0, 15, 1), 0);
    STOPS(GOTO_TRACK, 2, 2);
    EQUAL(writes(0, 15, 2), 0);
    ARRIVES(GOTO_TRACK, 5, 1, 0, 0);
    EQUAL(writes(0, 15, 3) || sets(0, 12, 0x1000), 0);
    ARRIVES(GOTO_TRACK, 2, 1, 1, 0);
    STOPS(GOTO_TRACK, 4, 4);
    EQUAL(PLAYER.next, 1);
}

/* The sample's groups 1 and 3 have tracks and are of one parent; group 2 has none. */
static void manual_group_cases(void)
{
    lend_sample();
    /* A group move leads to the group's first track, at position 0 (SCOPE 12.3): of group 1 that is track 1 in orders 5 and 6. 0
     * keeps the group (SCOPE 12.2). Group moves do not repeat (SCOPE 12.2). */
    EACH(1, 9) {
        uint32_t first = k == 5 || k == 6;
        PAST_BY((uint8_t)k, 1, 55, 9);
        SAYS(GOTO_GROUP, 0, 0, 1, 0, AT(1, first, 0, 0));
        SAYS(GOTO_GROUP, 0, 7, 1, 0, AT(1, first, 0, 0));
        ARRIVES(GOTO_GROUP, 1, 1, first, 0);
        ARRIVES(GOTO_GROUP, 2, 3, 3, 0);
        ARRIVES(GOTO_GROUP, -1, 3, 3, 0);
        ARRIVES(GOTO_GROUP, -2, 1, first, 0);
        STOPS(GOTO_GROUP, 3, 3);
        STOPS(GOTO_GROUP, 4, 3);
        STOPS(GOTO_GROUP, MOST, 3);
        STOPS(GOTO_GROUP, -3, 3);
        STOPS(GOTO_GROUP, -4, 3);
        STOPS(GOTO_GROUP, LEAST, 3);
        SAYS(GOTO_GROUP, 3, 2, REF_RAN_OUT, 2, AT(1, 1, 55, 9));
        SAYS(GOTO_GROUP, 3, 3, 4, 3, AT(1, 1, 55, 9));
        SAYS(GOTO_GROUP, 3, 4, 4, 3, AT(1, 1, 55, 9));
        SAYS(GOTO_GROUP, 2, 0, REF_RAN_OUT, 0, AT(1, 1, 55, 9));
        SAYS(GOTO_GROUP, 2, 1, REF_RAN_OUT, 1, AT(1, 1, 55, 9));
        SAYS(GOTO_GROUP, 2, 2, 1, 2, AT(3, 3, 0, 0));
        /* From the other group. */
        EQUAL(activate(3) || moves_to(0, 50), 0);
        PLAYER.rest = 9;
        SAYS(GOTO_GROUP, 0, 0, 1, 0, AT(3, 3, 0, 0));
        ARRIVES(GOTO_GROUP, 1, 1, first, 0);
        ARRIVES(GOTO_GROUP, 2, 3, 3, 0);
        STOPS(GOTO_GROUP, 3, 3);
        ARRIVES(GOTO_GROUP, -1, 3, 3, 0);
        ARRIVES(GOTO_GROUP, -2, 1, first, 0);
        STOPS(GOTO_GROUP, -3, 3);
    }
    EACH(0, 4) {
        PAST_BY(5, 2, 0, 9);
        EQUAL(commands(0, INTO[k], 0), 0);
        SAYS(GOTO_GROUP, 0, 0, 1, 0, AT(1, 1, 0, 0));
        ARRIVES(GOTO_GROUP, 1, 1, 1, 0);
        ARRIVES(GOTO_GROUP, -2, 1, 1, 0);
        ARRIVES(GOTO_GROUP, 2, 3, 3, 0);
        STOPS(GOTO_GROUP, 3, 3);
    }
    /* The lowest track of a group comes first (SCOPE 11.4): in orders 1 and 2, on the last track. */
    EACH(1, 3) {
        PAST_BY((uint8_t)k, 2, 0, 9);
        SAYS(GOTO_GROUP, 0, 0, 1, 0, AT(1, 0, 0, 0));
        ARRIVES(GOTO_GROUP, 1, 1, 0, 0);
    }
    /* For group 0 moves run over itself alone (SCOPE 12.1); groups 1 and 3 are its children, and 2 is 1's. */
    nest_groups();
    EQUAL(start(ALL_OPCODES) || connects(0, 23) || activate(0) || moves_to(0, 50), 0);
    PLAYER.rest = 9;
    SAYS(GOTO_GROUP, 0, 0, 1, 0, AT(0, 0, 0, 0));
    ARRIVES(GOTO_GROUP, 1, 0, 0, 0);
    ARRIVES(GOTO_GROUP, -1, 0, 0, 0);
    STOPS(GOTO_GROUP, 2, 2);
    STOPS(GOTO_GROUP, -2, 2);
    STOPS(GOTO_GROUP, LEAST, 2);
    EQUAL(activate(1) || moves_to(0, 50), 0);
    ARRIVES(GOTO_GROUP, 1, 1, 1, 0);
    ARRIVES(GOTO_GROUP, 2, 3, 3, 0);
    ARRIVES(GOTO_GROUP, -1, 3, 3, 0);
    STOPS(GOTO_GROUP, 3, 3);
    EQUAL(activate(2), 0);
    ARRIVES(GOTO_GROUP, 1, 2, 2, 0);
    ARRIVES(GOTO_GROUP, -1, 2, 2, 0);
    STOPS(GOTO_GROUP, 2, 2);
    STOPS(GOTO_GROUP, -2, 2);
    /* The 63 groups of the full catalogue, whose tracks are 193 to 255; and group 0, which is then the only one with tracks. */
    lend_full(193);
    EQUAL(start(ALL_OPCODES) || connects(0, 23) || activate(5) || moves_to(0, 50), 0);
    ARRIVES(GOTO_GROUP, 1, 1, 193, 0);
    ARRIVES(GOTO_GROUP, 63, 63, 255, 0);
    STOPS(GOTO_GROUP, 64, 64);
    ARRIVES(GOTO_GROUP, -62, 2, 194, 0);
    STOPS(GOTO_GROUP, LEAST, 64);
    STOPS(GOTO_GROUP, MOST, 64);
    lend_full(256);
    EQUAL(start(ALL_OPCODES) || activate(0), 0);
    ARRIVES(GOTO_GROUP, 1, 0, 0, 0);
    STOPS(GOTO_GROUP, 2, 2);
}

/* Results 2 and 3 come first, with a count of 0 (SCOPE 15.3): whatever the number and however many steps are allowed, and 2
 * before 3. */
static void manual_result_cases(void)
{
    static const long NUMBERS[6] = {0, 1, -1, 4, MOST, LEAST};
    static const uint32_t BIT[3] = {10, 15, 20};
    lend_sample();
    for (uint32_t inactive = 0; inactive < 2; inactive++) {
        PAST_BY(3, 1, 55, 0);
        if (inactive)
            EQUAL(deactivate(), 0);
        PLAYER.rest = 65535;
        for (uint32_t j = 0; j < 6; j++) {
            long n = NUMBERS[j];
            /* Every other opcode, those of single moves among them; and numbers over 255, of which some have an opcode in an octet. */
            EACH(0, 256) {
                if (!is_goto(k))
                    MOVES_NOTHING(k, n, 2);
                MOVES_NOTHING(k + 256, n, 2);
                if (k > 0)
                    MOVES_NOTHING(k << 8, n, 2);
            }
            EACH(0, 3) {
                MOVES_NOTHING(GOTOS[k] + 0x10000, n, 2);
                MOVES_NOTHING(GOTOS[k] | 0x80000000u, n, 2);
                MOVES_NOTHING(GOTOS[k] | 0xFFFFFF00u, n, 2);
                MOVES_NOTHING(GOTOS[k] << 16, n, 2);
                MOVES_NOTHING(GOTOS[k] << 24, n, 2);
                /* Every mask of one opcode, and every one without one. Higher mask bits count as 0 (SCOPE 9.2). */
                for (uint32_t bit = 0; bit < 32; bit++) {
                    int alone = bit == BIT[k];
                    PLAYER.mask = 1u << bit;
                    if (!alone || inactive)
                        MOVES_NOTHING(GOTOS[k], n, alone ? 3 : 2);
                    PLAYER.mask = ~(1u << bit);
                    if (alone || inactive)
                        MOVES_NOTHING(GOTOS[k], n, alone ? 2 : 3);
                }
                PLAYER.mask = ALL_OPCODES;
            }
            MOVES_NOTHING(0xFFFFFFFFu, n, 2);
        }
    }
    SAYS(GOTO_SEGMENT, 0, 0, 3, 0, AT(0, 0, 0, 65535));
    SAYS(GOTO_TRACK, 0, 9, 3, 0, AT(0, 0, 0, 65535));
    SAYS(GOTO_GROUP, 1, 0, 3, 0, AT(0, 0, 0, 65535));
    SAYS(GOTO_SEGMENT + 1, 0, 0, 2, 0, AT(0, 0, 0, 65535));
    PAST_BY(3, 1, 55, 7);
    SAYS(GOTO_SEGMENT - 1, 1, 1, 2, 0, AT(1, 1, 55, 7));
    /* The masks of the three alone let each be made, and the others not; single moves need not be in it. */
    EACH(0, 3) {
        PLAYER.mask = 1u << BIT[k];
        EQUAL(manual(GOTOS[k], 1, 1), 0);
        EQUAL(said.made[0], 1);
        EQUAL(manual(GOTOS[k], -2, 2), 0);
        EQUAL(said.made[0], 1);
        MOVES_NOTHING(GOTOS[(k + 1) % 3], 1, 2);
        MOVES_NOTHING(GOTOS[(k + 2) % 3], 1, 2);
    }
    PLAYER.mask = 1u << 15;
    ARRIVES(GOTO_TRACK, 3, 1, 2, 0);
    STOPS(GOTO_TRACK, -4, 4);
    PLAYER.mask = ALL_OPCODES;
    /* Nobody is told of it, and no mark is lost. */
    stand_with_two(3, 0, 77);
    EQUAL(reads(0, 7, 0) || reads(1, 11, 0), 0);
    TOLD(manual(GOTO_SEGMENT, 2, 2), 0, 0);
    TOLD(manual(GOTO_TRACK, 2, 2), 0, 0);
    TOLD(manual(GOTO_GROUP, 2, 2), 0, 0);
    TOLD(manual(GOTO_TRACK, 4, 4), 0, 0);
    PAUSES(1, 0, 77);
    EQUAL(reads(0, 7, 1) || reads(1, 11, 1), 0);
}

/* Both services, each of its own player; and the refusals, of which 200 comes before 224, that before 201, and that before 219, whatever
 * the opcode and the number are. A refusal leaves the answer as it was, which is asked of every call. */
static void manual_refusal_cases(void)
{
    static const struct {
        uint32_t opcode;
        long n;
        uint32_t allowed;
    } ASKED[6] = {{GOTO_SEGMENT, 3, 3}, {GOTO_TRACK, -2, 1}, {GOTO_GROUP, 0, 0}, {GOTO_GROUP, LEAST, 0xFFFFFFFFu},
                  {PLAY, 1, 1},         {0x124, 0, 9}};
    ref_state good;
    LEND_OFFICE();
    EQUAL(IN(0, start(ALL_OPCODES)) || connects(0, 23) || IN(0, activate(1)) || IN(1, activate(3)) || moves_to(0, 50), 0);
    service = 0;
    SAYS(GOTO_SEGMENT, 3, 3, 1, 3, AT(1, 0, 4000, 0));
    SAYS(GOTO_TRACK, 2, 2, 1, 2, AT(1, 1, 0, 0));
    SAYS(GOTO_GROUP, 2, 2, 1, 2, AT(3, 3, 0, 0));
    service = 1;
    SAYS(GOTO_SEGMENT, 3, 3, 1, 3, AT(3, 3, 900, 0));
    SAYS(GOTO_TRACK, 2, 2, 4, 2, AT(3, 3, 50, 0));
    SAYS(GOTO_GROUP, 1, 1, 1, 1, AT(1, 0, 0, 0));
    EQUAL(IN(0, deactivate()), 0);
    SAYS(GOTO_SEGMENT, 3, 3, 3, 0, AT(0, 0, 0, 0));
    service = 1;
    SAYS(GOTO_SEGMENT, 1, 1, 1, 1, AT(3, 3, 0, 0));
    good = s;
    EACH(0, 36) {
        const uint32_t opcode = ASKED[k / 6].opcode, allowed = ASKED[k / 6].allowed;
        const long n = ASKED[k / 6].n;
#define ASK() manual(opcode, n, allowed)
        /* All four at once, with a plain 200 and with a bad title; then without the first, and so on. */
        service = OVER[k % 6];
        s.services[k % 2].player.order = 9;
        rename_track(2, 20, 1);
        lent.len[TEXT] = 17;
        lent.text[12] = 0xFF;
        EQUAL(ASK(), 200);
        EQUAL(place.track, UNTOUCHED);
        EQUAL(place.offset, UNTOUCHED);
        lent.len[TEXT] = 18;
        EQUAL(ASK(), 200);
        EQUAL(place.track, 1);
        EQUAL(place.offset, 2);
        lent.text[12] = 's';
        EQUAL(ASK(), 224);
        rename_track(2, 20, 0);
        EQUAL(ASK(), 201);
        s = good;
        EQUAL(ASK(), 219);
        /* Each alone. */
        for (service = 0; service < 2; service++) {
            EQUAL(ASK(), 0);
            lent.len[GROUPS] = 11;
            EQUAL(ASK(), 200);
            EQUAL(place.track, UNTOUCHED);
            lent.len[GROUPS] = 12;
            lent.text[17] = 0xC3;
            EQUAL(ASK(), 200);
            EQUAL(place.track, 3);
            EQUAL(place.offset, 3);
            lent.text[17] = 'l';
            rename_track(k % 4, 20, 1);
            EQUAL(ASK(), 224);
            rename_track(k % 4, 0, 0);
            office.words_len = 7;
            EQUAL(ASK(), 224);
            office.words_len = 8;
            s.services[k % 2].player.rest = 65536;
            EQUAL(ASK(), 201);
            s = good;
            s.links[k % 4].mtu = 22;
            EQUAL(ASK(), 201);
            s = good;
        }
    }
    rename_nothing();
    service = 0;
}

/* SCOPE 15 a second time. The number of the first step that cannot be made, or 0 where each can be: of the tracks and of the
 * groups that there are, or of the starts where the recording still runs. */
static uint32_t stop_of(const ref_player *p, uint32_t opcode, int ahead)
{
    const uint32_t *g = lent.words[GROUPS], *track = lent.words[TRACKS] + 6 * p->track;
    uint32_t count = 0;
    if (opcode == GOTO_SEGMENT)
        return ahead && track[0] == UNKNOWN ? (track[3] == 0 ? 1 : track[3]) + 1 : 0;
    if (opcode == GOTO_TRACK)
        return p->order % 2 == 0 ? 0 : p->order == 1 ? 2 : g[3 * p->group + 2] + 1;
    EACH(1, lent.len[GROUPS] / 3) count += g[3 * k] == g[3 * p->group] && g[3 * k + 2] > 0;
    return p->group == 0 ? 2 : count + 1;
}

/* What the manual's Goto is to say with enough steps allowed: the result and the place are those of the present one, which is written to
 * the control point and then undone. */
typedef struct {
    uint32_t outcome, steps;
    spot at;
} answer;
static answer whole_goto(uint32_t opcode, long n)
{
    static ref_state kept;
    answer is = {2, 0, spot_of(&PLAYER)};
    uint32_t stop;
    int stops;
    if (!is_goto(opcode) || (PLAYER.mask >> opcode / 16 * 5 & 1) == 0)
        return is;
    is.outcome = 3;
    if (PLAYER.media == REF_INACTIVE)
        return is;
    stop = stop_of(&PLAYER, opcode, n > 0);
    stops = stop > 0 && stop <= without_sign(n);
    memcpy(&kept, &s, sizeof s);
    is.outcome = (uint32_t)result((int)opcode, n);
    is.steps = stops ? stop : without_sign(n);
    is.at = spot_of(&PLAYER);
    memcpy(&s, &kept, sizeof s);
    EQUAL(is.outcome, stops ? 4 : 1);
    return is;
}

/* Both agree on that number, and with fewer steps allowed it runs out. */
static void agrees_on(uint32_t opcode, long n)
{
    answer is = whole_goto(opcode, n);
    whole_at(__LINE__, opcode, n, is.outcome, is.steps, is.at);
}

/* The steps made one after the other as a client makes them, by single commands, and with no track named: the manual's Goto of each number
 * leads where they have led, and stops where one cannot be made. At most so many. */
static void walks(uint32_t opcode, int ahead, long most)
{
    static ref_state begun, here;
    int code = 1;
    memcpy(&begun, &s, sizeof s);
    memcpy(&here, &s, sizeof s);
    here.services[service].player.next = 0;
    for (long n = 1; n <= most && code == 1; n++) {
        int move = n == 1 ? ahead ? FIRST : LAST : ahead ? NEXT : PREVIOUS;
        memcpy(&s, &here, sizeof s);
        code = result((int)opcode - GOTO + move, 0);
        memcpy(&here, &s, sizeof s);
        memcpy(&s, &begun, sizeof s);
        says_at(__LINE__, manual(opcode, ahead ? n : -n, (uint32_t)n), (uint32_t)code, (uint32_t)n,
                spot_of(code == 1 ? &here.services[service].player : &PLAYER));
    }
}

/* Ten catalogues, of which every other has recordings that run; every track, order and state of them, with a track named and without;
 * every number from −9 to 9. */
static void manual_sweep_cases(void)
{
    static const long LONG[4] = {20, -20, 99, -99};
    uint32_t *g = lent.words[GROUPS], *tracks = lent.words[TRACKS];
    EACH(0, 10) {
        uint32_t how = k / 2;
        lend_sample();
        if (k % 2 == 1)
            tracks[0] = tracks[18] = UNKNOWN;
        /* Stamps by which falling is 1, 2, 0, and starts less than 300 apart; one child of 0 has a child; three of them have none; and one
         * group has all tracks. */
        if (how == 1) {
            tracks[1] = 5;
            tracks[6] = UNKNOWN;
            lent.words[SEGMENTS][1] = 3900;
        }
        if (how == 2 || how == 3)
            nest_groups();
        if (how == 3)
            g[6] = 0;
        if (how == 4) {
            g[5] = g[7] = g[10] = 4;
            g[11] = 0;
        }
        service = k % 2;
        EQUAL(start(ALL_OPCODES) || connects(0, 23), 0);
        for (uint32_t at = 0; at < 4 * 8 * 3; at++) {
            uint32_t track = at / 24, group = 0, d = tracks[6 * track] == UNKNOWN ? END : tracks[6 * track], media = at % 3;
            while (track - g[3 * group + 1] >= g[3 * group + 2]) group++;
            EQUAL(activate(group), 0);
            PLAYER.track = track;
            PLAYER.order = (uint8_t)(1 + at / 3 % 8);
            PLAYER.position = media == 0 ? 0 : media == 1 ? d : d * 2 / 3;
            PLAYER.rest = at * 683;
            PLAYER.next = at % 2 == 0 ? 0 : g[3 * group + 1] + at % g[3 * group + 2] + 1;
            PLAYER.media = (uint8_t)(media == 0 ? REF_PLAYING : media == 1 ? REF_PAUSED : REF_SEEKING);
            PLAYER.seeking = media == 2 ? -8 : 0;
            for (uint32_t kind = 0; kind < 3; kind++) {
                for (long n = -9; n <= 9; n++) agrees_on(GOTOS[kind], n);
                agrees_on(GOTOS[kind], LONG[at % 4]);
                walks(GOTOS[kind], 0, 9);
                walks(GOTOS[kind], 1, 9);
            }
        }
    }
    service = 0;
}

/* The longest lists that there may be: 256 tracks of one group, 63 groups, and 1,024 starts. */
static void manual_full_cases(void)
{
    uint32_t *tracks = lent.words[TRACKS];
    lend_full(256);
    EQUAL(start(ALL_OPCODES) || connects(0, 23) || activate(0), 0);
    EACH(3, 9) {
        EQUAL(writes(0, 15, (uint8_t)k) || sets(0, 11, 0x1000 + 31 * k), 0);
        for (long n = 256; n < 259; n++) agrees_on(GOTO_TRACK, n);
        agrees_on(GOTO_TRACK, 600);
        agrees_on(GOTO_TRACK, k % 2 == 0 ? -257 : -256);
    }
    lend_full(193);
    EQUAL(start(ALL_OPCODES) || connects(0, 23) || activate(9), 0);
    for (long n = 1; n < 70; n++) {
        agrees_on(GOTO_GROUP, n);
        agrees_on(GOTO_GROUP, -n);
    }
    agrees_on(GOTO_GROUP, MOST);
    agrees_on(GOTO_GROUP, LEAST);
    walks(GOTO_GROUP, 1, 70);
    walks(GOTO_GROUP, 0, 70);
    /* One track has every start. */
    lend_full(256);
    tracks[0] = END;
    tracks[3] = 1024;
    EACH(0, 1024) lent.words[SEGMENTS][k] = 8437 * k;
    EACH(1, 256) {
        tracks[6 * k + 2] = 1024;
        tracks[6 * k + 3] = 0;
    }
    for (uint32_t last = 0; last < 2; last++, tracks[0] = UNKNOWN) {
        EQUAL(start(ALL_OPCODES) || connects(0, 23) || activate(0) || moves_to(0, 12345), 0);
        for (long n = 1; n < 1030; n += n < 1020 ? 97 : 1) {
            agrees_on(GOTO_SEGMENT, n);
            agrees_on(GOTO_SEGMENT, -n);
        }
        agrees_on(GOTO_SEGMENT, 2000);
        agrees_on(GOTO_SEGMENT, -2000);
        walks(GOTO_SEGMENT, 1, 30);
        walks(GOTO_SEGMENT, 0, 30);
    }
}

/* ---- Cards */

static tables got;
static uint32_t counts[TABLES], bad_block;

/* The check octets; both sums are held below 255 as they go. */
static void seal(uint8_t *block)
{
    uint32_t sum = 0, sum_of_sums = 0;
    EACH(0, 510) {
        sum = (sum + block[k]) % 255;
        sum_of_sums = (sum_of_sums + sum) % 255;
    }
    block[510] = (uint8_t)sum;
    block[511] = (uint8_t)sum_of_sums;
}

/* One more block of that kind, with the octets 1, 2, 3 and so on in front of its records. */
static uint8_t *add_block(uint32_t kind, uint32_t count, uint32_t octets)
{
    uint8_t *block = card + card_len;
    memset(block, 0, 512);
    put_number(block, (long)(card_len / 512 + (kind << 16))); /* the number takes two octets */
    put_number(block + 3, (long)count);
    EACH(0, octets) block[5 + k] = (uint8_t)(1 + k);
    seal(block);
    card_len += 512;
    return block;
}

/* Into tables of that room. A refusal leaves them and the counts, a success what lies behind the records. 211 and 214
 * to 218 give a block of the card; nothing else touches that word. */
static uint32_t loads(size_t groups, size_t tracks, size_t segments, size_t text)
{
    const size_t room[TABLES] = {4 * groups, 4 * tracks, 4 * segments, text}, record[TABLES] = {12, 24, 4, 1};
    void *to[TABLES] = {got.words[0], got.words[1], got.words[2], got.text}, *t[TABLES], *from = exact(card, card_len);
    uint32_t refusal;
    memset(&got, FILL, sizeof got);
    memset(counts, FILL, sizeof counts);
    memset(&bad_block, FILL, sizeof bad_block);
    EACH(0, TABLES) t[k] = exact(to[k], room[k]);
    refusal = ref_card_load(from, card_len, t[0], groups, t[1], tracks, t[2], segments, t[3], text, counts, &bad_block);
    CHECK(refusal == 0 || all_are(counts, FILL, sizeof counts));
    CHECK(refusal == 211 || (refusal >= 214 && refusal <= 218) ? bad_block < card_len / 512 : bad_block == UNTOUCHED);
    EACH(0, TABLES) {
        size_t filled = refusal == 0 ? record[k] * counts[k] : 0;
        CHECK(filled <= room[k] && (room[k] == 0 || all_are((uint8_t *)t[k] + filled, FILL, room[k] - filled)));
        memcpy(to[k], room[k] == 0 ? to[k] : t[k], room[k]);
        free(t[k]);
    }
    free(from);
    return refusal;
}
#define LOADS() loads(195, 1542, 1025, 32769)
/* The refusal and the lowest bad block. */
#define BAD(refusal, at)                                                                                                       \
    do {                                                                                                                       \
        EQUAL(LOADS(), refusal);                                                                                               \
        EQUAL(bad_block, at);                                                                                                  \
    } while (0)
/* A card of one block of one track, changed in one place and sealed again. */
#define ONE(edit, refusal)                                                                                                     \
    do {                                                                                                                       \
        card_len = 0;                                                                                                          \
        b = add_block(2, 1, 24);                                                                                               \
        edit;                                                                                                                  \
        seal(b);                                                                                                               \
        BAD(refusal, (refusal) == 0 ? UNTOUCHED : 0);                                                                          \
    } while (0)

static void card_cases(void)
{
    static const uint32_t OCTETS[4] = {12, 24, 4, 1}, LIMITS[4][3] = {{1, 42, 22}, {12, 21, 4}, {8, 126, 16}, {64, 505, 448}};
    uint8_t *b;
    /* Some records of each kind, of which the first is not zeros; words are little endian. */
    card_len = 0;
    EACH(0, 4) (void)add_block(k + 1, 4 - k, OCTETS[k]);
    EQUAL(LOADS(), 0);
    EACH(0, 4) EQUAL(counts[k], 4 - k);
    EACH(0, 6) EQUAL(got.words[TRACKS][k], 0x04030201u + 0x04040404u * k);
    EACH(0, 3) EQUAL(got.words[GROUPS][k], 0x04030201u + 0x04040404u * k);
    EQUAL(got.words[SEGMENTS][0], 0x04030201u);
    EQUAL(got.text[0], 1);
    /* A lent table's room is exceeded (SCOPE 3.13), in whole records; 211 comes before it, for every octet of every block. */
    EQUAL(loads(12, 18, 2, 1), 0);
    EQUAL(loads(14, 23, 2, 1), 0);
    EQUAL(loads(11, 18, 2, 1), 212);
    EQUAL(loads(12, 17, 2, 1), 212);
    EQUAL(loads(12, 18, 1, 1), 212);
    EQUAL(loads(12, 18, 2, 0), 212);
    EACH(0, 2048) {
        card[k] ^= 0x10;
        EQUAL(loads(0, 0, 0, 0), 211);
        EQUAL(bad_block, k / 512);
        card[k] ^= 0x10;
    }
    /* The card's length is no multiple of 512, or over 65,536 (SCOPE 3.11). */
    card_len = 2047;
    EQUAL(LOADS(), 210);
    card_len = 65536 + 512;
    EQUAL(LOADS(), 210);
    card_len = 0;
    EQUAL(loads(0, 0, 0, 0), 0);
    /* The octets 4, 1, 250 at 2, 3, 5 have the sum 255, that is 0, and 508 · 4 + 507 · 1 + 505 · 250 = 128,789, that is 14; 255 in
     * place of 0 breaks the block. */
    b = add_block(4, 1, 1);
    b[5] = 250;
    b[510] = 0;
    b[511] = 14;
    EQUAL(LOADS(), 0);
    b[510] = 255;
    BAD(211, 0);
    /* The remainder of each sum is 0 to 254 (SCOPE 3.4). 4, 2, 47, 1 at 2, 3, 5, 6: 54, and 2,032 + 1,014 + 23,735 + 504 = 107 ·
     * 255, that is 0. */
    card_len = 0;
    b = add_block(4, 2, 2);
    b[5] = 47;
    b[6] = 1;
    b[510] = 54;
    b[511] = 0;
    EQUAL(LOADS(), 0);
    b[511] = 255;
    BAD(211, 0);
    /* The greatest sums, of 505 octets of 255 behind 4, 249, 1 at 2, 3, 4: 505 · 255 + 254, and a multiple of 255 more than
     * 2,032 + 126,243 + 506 = 505 · 255 + 6. */
    card_len = 0;
    b = add_block(4, 505, 0);
    memset(b + 5, 255, 505);
    b[510] = 254;
    b[511] = 6;
    EQUAL(LOADS(), 0);
    b[511] = 7;
    BAD(211, 0);
    /* Octets 0 and 1 are the block number, from 0, and octet 2 is the kind (SCOPE 3.2, 3.5); octets 3 and 4 are the record count,
     * 1 up to 42, 21, 126 or 505 by kind (SCOPE 3.2, 3.7); then the records, and zeros up to octet 509 (SCOPE 3.9). */
    ONE((void)0, 0);
    ONE(b[0] = 1, 215);
    ONE(b[1] = 1, 215);
    ONE(b[2] = 0, 216);
    ONE(b[2] = 5, 216);
    ONE(b[2] = 255, 216);
    ONE(b[3] = 0, 217);
    ONE(b[3] = 21, 0);
    ONE(b[3] = 22, 217);
    ONE(b[4] = 255, 217);
    ONE(b[2] = 1; b[3] = 42, 0);
    ONE(b[2] = 1; b[3] = 43, 217);
    ONE(b[2] = 3; b[3] = 126, 0);
    ONE(b[2] = 3; b[3] = 127, 217);
    ONE(b[2] = 4; b[3] = 0xF9; b[4] = 1, 0);
    ONE(b[2] = 4; b[3] = 0xFA; b[4] = 1, 217);
    ONE(b[28] = 9, 0);
    ONE(b[29] = 9, 218);
    ONE(b[509] = 9, 218);
    ONE(b[3] = 21; b[508] = 9, 0);
    ONE(b[3] = 21; b[509] = 9, 218);
    /* The 24 octets are also two groups, six segments or 24 octets of text. */
    ONE(b[2] = 1, 218);
    ONE(b[2] = 1; b[3] = 2, 0);
    ONE(b[2] = 1; b[3] = 2; b[29] = 9, 218);
    ONE(b[2] = 3; b[3] = 5, 218);
    ONE(b[2] = 3; b[3] = 6, 0);
    ONE(b[2] = 4; b[3] = 23, 218);
    ONE(b[2] = 4; b[3] = 24, 0);
    /* Kinds never fall; they may be left out, and may stay (SCOPE 3.6). */
    card_len = 0;
    (void)add_block(2, 1, 0);
    (void)add_block(1, 1, 0);
    BAD(216, 1);
    card_len = 0;
    (void)add_block(4, 1, 0);
    (void)add_block(3, 1, 0);
    (void)add_block(4, 1, 0);
    BAD(216, 1);
    card_len = 0;
    (void)add_block(1, 1, 0);
    (void)add_block(4, 505, 0);
    (void)add_block(4, 1, 0);
    EQUAL(LOADS(), 0);
    EQUAL(counts[3], 506);
    /* A limit (SCOPE 3.13): 64 groups, 256 tracks, 1,024 segments, 32,768 text octets, in so many full blocks and one of the
     * rest; and one more. */
    for (uint32_t j = 0; j < 4; j++) {
        card_len = 0;
        EACH(0, LIMITS[j][0]) (void)add_block(j + 1, LIMITS[j][1], 0);
        (void)add_block(j + 1, LIMITS[j][2], 0);
        EQUAL(LOADS(), 0);
        EQUAL(counts[j], LIMITS[j][0] * LIMITS[j][1] + LIMITS[j][2]);
        card_len -= 512;
        (void)add_block(j + 1, LIMITS[j][2] + 1, 0);
        EQUAL(LOADS(), 212);
    }
}

/* The five reasons in their order, as bits: check, block number, kind, count, padding; and 214 between 217 and 218 (SCOPE 3.12). */
static const uint32_t REASON[6] = {211, 215, 216, 217, 214, 218};
enum { KIND_REASON = 2, SHORT_REASON = 4 };
/* Gives the block at that place, which is full, those reasons. Its kind octet becomes one less than that of the block before, so
 * that it falls or is none; a record is taken away, and the block behind has its kind octet; its count becomes 0. All but the check
 * is sealed again. */
static void spoil(uint32_t place, uint32_t reasons)
{
    uint8_t *b = card + 512 * place;
    if ((reasons & 2) != 0)
        b[1] = 1;
    if ((reasons & 4) != 0)
        b[2] = (uint8_t)(place == 0 ? 0 : b[2 - 512] - 1);
    if ((reasons & 16) != 0) {
        b[3]--;
        b[512 + 2] = b[2];
        seal(b + 512);
    }
    if ((reasons & 8) != 0)
        b[3] = b[4] = 0;
    if ((reasons & 32) != 0)
        b[509] = 9;
    seal(b);
    if ((reasons & 1) != 0)
        b[511] ^= 1;
}
static void four_of_tracks(void)
{
    card_len = 0;
    EACH(0, 4) (void)add_block(2, 21, 0);
}

static void reason_cases(void)
{
    static const uint32_t PLACES[3][2] = {{0, 1}, {0, 2}, {1, 2}};
    four_of_tracks();
    BAD(0, UNTOUCHED);
    for (uint32_t i = 0; i < 6; i++) {
        /* 211 comes first, then 215, 216, 217 and 218, in that order within a block (SCOPE 3.12): each alone, with each that
         * comes after it, and with all that do; in each block but the last. */
        for (uint32_t place = 0; place < 3; place++) {
            EACH(i, 6) {
                four_of_tracks();
                spoil(place, 1u << i | 1u << k);
                BAD(REASON[i], place);
            }
            four_of_tracks();
            spoil(place, 63u << i & 63u);
            BAD(REASON[i], place);
        }
        /* The lowest bad block is named (SCOPE 3.12): the reason is that block's, also where a higher one has one that is earlier
         * in the order. The kind octet behind a short block makes it the last of its kind where that octet is another, so that it
         * is good. */
        for (uint32_t j = 0; j < 3; j++) {
            EACH(0, 6) {
                int last = i == SHORT_REASON && k == KIND_REASON && PLACES[j][0] + 1 == PLACES[j][1];
                four_of_tracks();
                spoil(PLACES[j][0], 1u << i);
                spoil(PLACES[j][1], 1u << k);
                BAD(REASON[last ? k : i], PLACES[j][last]);
            }
        }
        /* All blocks come before 212: behind 65 groups, and where there is no room. */
        card_len = 0;
        (void)add_block(1, 42, 0);
        (void)add_block(1, 23, 0);
        (void)add_block(2, 21, 0);
        (void)add_block(2, 1, 0);
        BAD(212, UNTOUCHED);
        spoil(2, 1u << i);
        BAD(REASON[i], 2);
        four_of_tracks();
        EQUAL(loads(3, 503, 1, 1), 212);
        EQUAL(bad_block, UNTOUCHED);
        EQUAL(loads(0, 504, 0, 0), 0);
        spoil(2, 1u << i);
        EQUAL(loads(3, 503, 1, 1), REASON[i]);
        EQUAL(bad_block, 2);
        EQUAL(loads(0, 0, 0, 0), REASON[i]);
        EQUAL(bad_block, 2);
        /* The highest place, behind 127 · 505 = 64,135 text octets; its block of 504 leaves an octet of padding. It is the last of
         * its kind, so that the highest that is short is the one before. 210 comes before all of them. */
        card_len = 0;
        EACH(0, 128) (void)add_block(4, k == 127 ? 504 : 505, 0);
        BAD(212, UNTOUCHED);
        spoil(i == SHORT_REASON ? 126 : 127, 1u << i);
        BAD(REASON[i], i == SHORT_REASON ? 126 : 127);
        (void)add_block(4, 1, 0);
        BAD(210, UNTOUCHED);
        four_of_tracks();
        spoil(0, 1u << i);
        card_len = 2047;
        BAD(210, UNTOUCHED);
        card_len = 511;
        BAD(210, UNTOUCHED);
    }
    /* A kind that is none allows no count and has no records: 216 comes before both. */
    EACH(0, 256) {
        card_len = 0;
        (void)add_block(k, 0, 255);
        BAD(k >= 1 && k <= 4 ? 217 : 216, 0);
        card_len = 0;
        (void)add_block(k, 65535, 255);
        BAD(k >= 1 && k <= 4 ? 217 : 216, 0);
    }
    /* The block is the place on the card, not the number that stands in it: 0, 2, 1, 3, and 0, 1, 1, 3. */
    four_of_tracks();
    card[512] = 2;
    card[1024] = 1;
    seal(card + 512);
    seal(card + 1024);
    BAD(215, 1);
    four_of_tracks();
    card[1024] = 1;
    seal(card + 1024);
    BAD(215, 2);
    /* An empty card has no block. */
    card_len = 0;
    BAD(0, UNTOUCHED);
}

/* The records of a full block by kind. */
static const uint32_t FULL[5] = {0, 42, 21, 126, 505};

/* A card is refused where a block that is not the last of its kind is not full (SCOPE 3.8). */
static void short_cases(void)
{
    static const uint32_t BEHIND[5] = {0, 211, 215, 217, 218};
    /* One record, and one less than the most: as the last block, in front, and in the middle. 42 groups and 41 are too many. */
    for (uint32_t kind = 1; kind <= 4; kind++) {
        for (uint32_t j = 0; j < 2; j++) {
            uint32_t full = FULL[kind], few = j == 0 ? 1 : full - 1;
            card_len = 0;
            (void)add_block(kind, few, 0);
            BAD(0, UNTOUCHED);
            EQUAL(counts[kind - 1], few);
            (void)add_block(kind, 1, 0);
            BAD(214, 0);
            card_len = 0;
            (void)add_block(kind, few, 0);
            (void)add_block(kind, full, 0);
            (void)add_block(kind, 1, 0);
            BAD(214, 0);
            card_len = 0;
            (void)add_block(kind, full, 0);
            (void)add_block(kind, few, 0);
            BAD(kind == 1 && j == 1 ? 212 : 0, UNTOUCHED);
            (void)add_block(kind, 1, 0);
            BAD(214, 1);
            /* Between the kinds, each of them short; then a block more of each. */
            card_len = 0;
            EACH(1, 5) (void)add_block(k, k == kind ? few : 1, 0);
            BAD(0, UNTOUCHED);
            card_len = 0;
            EACH(1, 5) {
                (void)add_block(k, k == kind ? few : FULL[k], 0);
                (void)add_block(k, 1, 0);
            }
            BAD(214, 2 * kind - 2);
        }
        /* A full block, and one that is over, which is not short: 217. */
        card_len = 0;
        (void)add_block(kind, FULL[kind], 0);
        (void)add_block(kind, 1, 0);
        BAD(0, UNTOUCHED);
        EQUAL(counts[kind - 1], FULL[kind] + 1);
        card_len = 0;
        (void)add_block(kind, FULL[kind] + 1, 0);
        (void)add_block(kind, 1, 0);
        BAD(217, 0);
        /* A block of no records is not full either, but 217 comes first. An octet behind the records is 218, which comes after
         * 214 (SCOPE 3.12). */
        card_len = 0;
        (void)add_block(kind, 0, 0);
        (void)add_block(kind, 1, 0);
        BAD(217, 0);
        card_len = 0;
        (void)add_block(kind, FULL[kind] - 1, 0);
        card[509] = 9;
        seal(card);
        BAD(218, 0);
        (void)add_block(kind, 1, 0);
        BAD(214, 0);
    }
    /* The last of a kind is judged by the kind octet of the block behind it, even if that one is bad (SCOPE 3.8): every octet
     * there, behind 20 and 21 tracks, in a block that is good else, or has one of the reasons. Where the first block is the last
     * of its kind or full, the one behind answers: 211 and 215 come before 216, which all octets but 2, 3 and 4 give, and 217 and
     * 218 after it. */
    for (uint32_t j = 0; j < 10; j++) {
        uint32_t count = 20 + j % 2, behind = BEHIND[j / 2];
        EACH(0, 256) {
            uint32_t answer = k >= 2 && k <= 4 ? behind : behind == 211 || behind == 215 ? behind : 216;
            uint8_t *b;
            card_len = 0;
            (void)add_block(2, count, 24);
            b = add_block(k, behind == 217 ? 0 : 1, 0);
            if (behind == 215)
                b[0] = 7;
            if (behind == 218)
                b[509] = 9;
            seal(b);
            if (behind == 211)
                b[510] ^= 1;
            if (k == 2 && count == 20) {
                BAD(214, 0);
            } else {
                BAD(answer, answer == 0 ? UNTOUCHED : 1);
            }
        }
    }
}

/* Loading what was written gives the tables back (SCOPE 3.18), and every block but the last of its kind is full (SCOPE 3.15).
 * What the blocks hold besides is what the reader asks for, so there is one card only that does all this. */
static int comes_back(void)
{
    int right = LOADS() == 0 && 3 * counts[0] == lent.len[0] && 6 * counts[1] == lent.len[1] && counts[2] == lent.len[2] &&
                counts[3] == lent.len[3] && memcmp(got.text, lent.text, lent.len[3]) == 0;
    EACH(0, 3) right &= memcmp(got.words[k], lent.words[k], 4 * lent.len[k]) == 0;
    EACH(1, card_len / 512) {
        const uint8_t *b = card + 512 * (k - 1);
        right &= b[512 + 2] != b[2] || b[3] + 256u * b[4] == FULL[b[2]];
    }
    return right;
}
/* It takes so many blocks: that room suffices, an octet less does not. */
#define TAKES(blocks)                                                                                                          \
    do {                                                                                                                       \
        size_t octets = 512u * (size_t)(blocks), less = octets == 0 ? 0 : octets - 1;                                          \
        EQUAL(writes_card(octets), 0);                                                                                         \
        EQUAL(card_len, octets);                                                                                               \
        CHECK(comes_back());                                                                                                   \
        EQUAL(writes_card(less), octets == 0 ? 0 : 213);                                                                       \
    } while (0)

static void writer_cases(void)
{
    static uint8_t before[1536];
    /* A block of the sample by hand: number 2, kind 3, count 3, the words 0, 1500 and 4000. Its sum is 408, that is 153; the sum
     * of sums 1,020 + 1,524 + 1,521 + 110,220 + 2,500 + 79,520 + 7,440 = 799 · 255, that is 0. */
    lend_sample();
    TAKES(4);
    EQUAL(writes_card(65536), 0);
    CHECK(memcmp(card + 1024, "\x02\x00\x03\x03\x00\x00\x00\x00\x00\xDC\x05\x00\x00\xA0\x0F\x00\x00", 17) == 0);
    CHECK(all_are(card + 1024 + 17, 0, 510 - 17));
    EQUAL(card[1024 + 510], 153);
    EQUAL(card[1024 + 511], 0);
    /* Octets behind the last block stay: rooms beside whole blocks. 200 comes first, then 213 (SCOPE 3.17). */
    EQUAL(writes_card(2049), 0);
    EQUAL(writes_card(2559), 0);
    EQUAL(writes_card(2560), 0);
    EQUAL(writes_card(1536), 213);
    EQUAL(writes_card(511), 213);
    EQUAL(writes_card(0), 213);
    lent.len[GROUPS] = 11;
    EQUAL(writes_card(0), 200);
    EQUAL(writes_card(65536), 200);
    lend_sample();
    lent.text[12] = 0xE2;
    EQUAL(writes_card(0), 200);
    EQUAL(place.track, 1);
    EQUAL(place.offset, 2);
    lend_sample();
    lent.words[TRACKS][0] = UNKNOWN;
    TAKES(4);
    /* Nothing; groups alone, and text alone: exactly full last blocks, and one record over. */
    lent = (tables){.len = {0}};
    TAKES(0);
    EQUAL(writes_card(600), 0);
    lent.len[GROUPS] = 3;
    TAKES(1);
    lent.len[GROUPS] = 42 * 3;
    TAKES(1);
    lent.len[GROUPS] = 43 * 3;
    TAKES(2);
    lent.len[GROUPS] = 192;
    TAKES(2);
    lent = (tables){.len = {0, 0, 0, 1}};
    EACH(0, 32768) lent.text[k] = (uint8_t)(k % 251); /* no title, so any octets */
    TAKES(1);
    lent.len[TEXT] = 505;
    TAKES(1);
    lent.len[TEXT] = 506;
    TAKES(2);
    lent.len[TEXT] = 1010;
    TAKES(2);
    lent.len[TEXT] = 32768;
    TAKES(65);
    /* A group of tracks, and a track of segments: one block, or two, and those of the tracks or the segments. */
    static const uint32_t TRACK_COUNTS[5][2] = {{21, 2}, {22, 3}, {252, 13}, {253, 14}, {256, 14}};
    static const uint32_t START_COUNTS[5][2] = {{126, 3}, {127, 4}, {1008, 10}, {1009, 11}, {1024, 11}};
    EACH(0, 5) {
        uint32_t n = TRACK_COUNTS[k][0];
        lent = (tables){.len = {3, 6 * n}};
        lent.words[GROUPS][2] = n;
        for (uint32_t j = 0; j < n; j++) lent.words[TRACKS][6 * j + 1] = j;
        TAKES(TRACK_COUNTS[k][1]);
        n = START_COUNTS[k][0];
        lent = (tables){{{0, 0, 1}, {END, 0, 0, n}}, {0}, {3, 6, n}};
        for (uint32_t j = 0; j < n; j++) lent.words[SEGMENTS][j] = 7 * j;
        TAKES(START_COUNTS[k][1]);
    }
    /* All four limits: 2, 13, 9 and 65 blocks, 45,568 octets. */
    lend_full(193);
    TAKES(89);
    /* Writing what was loaded gives the card back, for every card that is accepted and whose tables pass 200 (SCOPE 3.18). */
    card_len = 0;
    (void)add_block(4, 505, 255);
    (void)add_block(4, 505, 7);
    (void)add_block(4, 3, 3);
    memcpy(before, card, 1536);
    EQUAL(LOADS(), 0);
    EQUAL(counts[3], 1013);
    lent = (tables){.len = {0, 0, 0, 1013}};
    memcpy(lent.text, got.text, 1013);
    TAKES(3);
    EQUAL(writes_card(1536), 0);
    CHECK(memcmp(card, before, 1536) == 0);
    /* Another card of the same tables, which the writer does not make: "a", "b" and "c" in two blocks. */
    lent = (tables){.text = "abc", .len = {0, 0, 0, 3}};
    TAKES(1);
    card_len = 0;
    add_block(4, 2, 0)[5] = 'a';
    card[6] = 'b';
    seal(card);
    add_block(4, 1, 0)[5] = 'c';
    seal(card + 512);
    BAD(214, 0);
    /* Three blocks of text of 1, 504 or 505 octets each: accepted where two are full, and then given back. */
    static const uint32_t FEW[3] = {505, 504, 1};
    EACH(0, 27) {
        uint32_t first = FEW[k / 9], second = FEW[k / 3 % 3], third = FEW[k % 3];
        card_len = 0;
        (void)add_block(4, first, first < 505 ? first : 255);
        (void)add_block(4, second, 1);
        (void)add_block(4, third, 1);
        memcpy(before, card, 1536);
        if (k >= 3) {
            BAD(214, k >= 9 ? 0 : 1);
            continue;
        }
        EQUAL(LOADS(), 0);
        lent = (tables){.len = {0, 0, 0, 1010 + third}};
        memcpy(lent.text, got.text, 1010 + third);
        EQUAL(writes_card(1536), 0);
        EQUAL(card_len, 1536);
        CHECK(memcmp(card, before, 1536) == 0);
    }
}

/* ---- Cue sheets */

#define SHEET 65536u
static struct {
    uint32_t starts[3641], count, line;
} cue;

/* A refusal writes nothing (SCOPE 6.10) but the line of 226 and 227; a success leaves the line and the words behind the starts. */
static uint32_t reads_sheet(const void *octets, size_t len, size_t room)
{
    uint8_t *sheet = exact(octets, len);
    uint32_t *starts, refusal, found;
    memset(&cue, FILL, sizeof cue);
    starts = exact(cue.starts, 4 * room);
    refusal = ref_cue_sheet(sheet, len, starts, room, &cue.count, &cue.line);
    memcpy(cue.starts, room == 0 ? cue.starts : starts, 4 * room);
    found = refusal == 0 ? cue.count : 0;
    CHECK(all_are(&cue.line, FILL, 4) == (refusal != 226 && refusal != 227) && all_are(&cue.count, FILL, 4) == (refusal != 0));
    CHECK(found <= room && all_are(cue.starts + found, FILL, 4 * (3641 - found)));
    free(sheet);
    free(starts);
    return refusal;
}

#define READS(text, room) reads_sheet(text, sizeof text - 1, room)
#define REFUSED(text, number, at)                                                                                              \
    do {                                                                                                                       \
        EQUAL(READS(text, 9), number);                                                                                         \
        EQUAL(cue.line, at);                                                                                                   \
    } while (0)
#define UNCLEAR(text) REFUSED(text, 226, 1)
#define NO_START(text)                                                                                                         \
    do {                                                                                                                       \
        EQUAL(READS(text, 9), 0);                                                                                              \
        EQUAL(cue.count, 0);                                                                                                   \
    } while (0)
#define HAS(text, n, last)                                                                                                     \
    do {                                                                                                                       \
        EQUAL(READS(text, 9), 0);                                                                                              \
        EQUAL(cue.count, n);                                                                                                   \
        EQUAL(cue.starts[n - 1], last);                                                                                        \
    } while (0)
#define AT_0 "INDEX 01 00:00:00"

static void sheet_cases(void)
{
    static uint8_t sheet[SHEET + 1];
    /* Empty lines are passed over; leading spaces are allowed, and lines end in LF or CR LF or at the end of the text (SCOPE 6.3,
     * 6.4, 6.7). */
    NO_START("");
    NO_START("\n");
    NO_START("\r\n");
    NO_START("   \n  \r\n ");
    HAS(AT_0, 1, 0);
    HAS("\n\r\n \n " AT_0 "\r\n\n", 1, 0);
    UNCLEAR(AT_0 "\r");
    UNCLEAR(AT_0 "\r\r\n");
    UNCLEAR("\r \n");
    REFUSED("\n\r", 226, 2);
    REFUSED("REM\n\r\n x\n", 226, 3);
    /* Lines beginning INDEX, one space and two other digits, or REM, TITLE, PERFORMER, FILE or TRACK are passed over (SCOPE 6.7). */
    NO_START("INDEX 00");
    NO_START("INDEX 02 99:99:99");
    NO_START("INDEX 10");
    NO_START("INDEX 11");
    NO_START("INDEX 99x\t\r\xFF");
    NO_START("REM");
    NO_START("TITLE");
    NO_START("PERFORMER\t");
    NO_START("FILE" AT_0);
    NO_START(" TRACK\r\n");
    NO_START("REM\r");
    UNCLEAR("RE");
    UNCLEAR("TITL");
    UNCLEAR("PERFORME");
    UNCLEAR("FIL");
    UNCLEAR("TRAC");
    UNCLEAR("rem");
    UNCLEAR("CATALOG 1");
    UNCLEAR("\tREM");
    UNCLEAR("INDEX ");
    UNCLEAR("INDEX 0");
    UNCLEAR("INDEX 0:");
    UNCLEAR("INDEX /0");
    UNCLEAR("INDEX  02");
    /* A line INDEX 01 mm:ss:ff gives a start: two digits each, ss to 59, ff to 74 (SCOPE 6.5). */
    UNCLEAR("INDEX 01");
    UNCLEAR("INDEX 011");
    UNCLEAR("INDEX 01 00:00:0");
    UNCLEAR(AT_0 "0");
    UNCLEAR(AT_0 " ");
    UNCLEAR("INDEX 01 00 00:00");
    UNCLEAR("INDEX 01 00:00 00");
    UNCLEAR("INDEX 01 00:60:00");
    UNCLEAR("INDEX 01 00:00:75");
    UNCLEAR("INDEX 01\t00:00:00");
    UNCLEAR("INDEX 01 a0:00:00");
    UNCLEAR("INDEX 01 00:a0:00");
    UNCLEAR("index 01 00:00:00");
    /* The start is (60 times mm + ss) times 100 plus the whole part of 4 times ff over 3 (SCOPE 6.6). */
    HAS(AT_0 "\nINDEX 01 00:00:01", 2, 1);
    HAS(AT_0 "\nINDEX 01 00:00:02\r\n", 2, 2);
    HAS(AT_0 "\r\nINDEX 01 00:00:03\n", 2, 4);
    HAS(AT_0 "\nINDEX 01 10:20:37", 2, 62049);
    HAS(AT_0 "\nINDEX 01 01:02:38", 2, 6250);
    HAS(AT_0 "\nINDEX 01 99:59:74", 2, 599998);
    /* The first start is not 0, or a start is not above the one before (SCOPE 6.9). Of 226 and 227 the one of the lowest line is
     * given, and then comes 228 (SCOPE 6.10). */
    REFUSED("INDEX 01 00:00:01\nx", 227, 1);
    REFUSED("x\nINDEX 01 00:01:00", 226, 1);
    REFUSED(AT_0 "\n" AT_0, 227, 2);
    REFUSED(AT_0 "\nINDEX 00 09:00:00\nINDEX 01 00:02:00\r\nINDEX 01 00:01:74", 227, 4);
    REFUSED(AT_0 "\nx\n" AT_0, 226, 2);
    EQUAL(READS(AT_0, 1), 0);
    EQUAL(READS(AT_0, 0), 228);
    EQUAL(READS(AT_0 "\nx", 0), 226);
    EQUAL(READS(AT_0 "\n" AT_0, 0), 227);
    /* A sheet has at most 65,536 octets (SCOPE 6.2): in 65,536 lines; and as many starts as they can have, 3,640 lines of 18
     * octets. */
    memset(sheet, '\n', sizeof sheet);
    EQUAL(reads_sheet(sheet, SHEET, 0), 0);
    sheet[SHEET - 1] = 'x';
    EQUAL(reads_sheet(sheet, SHEET, 0), 226);
    EQUAL(cue.line, SHEET);
    EQUAL(reads_sheet(sheet, SHEET + 1, 0), 225);
    EACH(0, 3640) {
        char line[40];
        (void)sprintf(line, "INDEX 01 00:%02u:%02u\n", (unsigned)(k / 75), (unsigned)(k % 75));
        memcpy(sheet + 18 * k, line, 18);
    }
    EQUAL(reads_sheet(sheet, 65520, 3640), 0);
    EQUAL(cue.starts[3639], 4852);
    EQUAL(reads_sheet(sheet, 65520, 3639), 228);
}

/* ---- Random calls, cards and sheets, for the sanitizers */

static uint64_t seed = 88172645463325252u;
static uint32_t any(void)
{
    seed = seed * 6364136223846793005u + 1442695040888963407u;
    return (uint32_t)(seed >> 32);
}
static uint32_t below(uint32_t n) { return any() % n; }
static int one_in(uint32_t n) { return below(n) == 0; }

/* Whole characters, of which the last may be cut; one time in so many an octet of them becomes any other. */
static void random_text(uint8_t *to, size_t len, uint32_t damage)
{
    static const char *const PIECE[8] = {
        "a", "r", "\xC2\x80", "\xC3\xA4", "\xE2\x82\xAC", "\xED\x9F\xBF", "\xF0\x9F\x8E\xB5", "\xF4\x8F\xBF\xBF"};
    for (size_t at = 0; at < len; at++) {
        const char *piece = PIECE[one_in(2) ? 0 : below(8)];
        if (at + strlen(piece) > len && !one_in(damage))
            piece = "z";
        for (to[at] = (uint8_t)*piece++; *piece != 0 && at + 1 < len; piece++) to[++at] = (uint8_t)*piece;
    }
    if (len > 0 && one_in(damage))
        to[below((uint32_t)len)] = (uint8_t)any();
}

/* SCOPE 16.5 and 16.6 a second time: what 10 to 14 are to read of a player in the lent catalogue. The order is that of these
 * keys. */
static uint64_t key_of(uint32_t order, uint32_t track)
{
    uint32_t stamp = lent.words[TRACKS][6 * track + 1];
    return (uint64_t)(order <= 4 ? 0 : order <= 6 ? stamp : ~stamp) << 32 | track;
}
/* The track of the least key above that one, or none, which is UNTOUCHED. */
static uint32_t least_above(const ref_player *p, uint64_t key, int or_same)
{
    const uint32_t *g = lent.words[GROUPS] + 3 * p->group;
    uint32_t least = UNTOUCHED;
    EACH(g[1], g[1] + g[2]) {
        uint64_t own = key_of(p->order, k);
        if ((own > key || (or_same && own == key)) && (least == UNTOUCHED || own < key_of(p->order, least)))
            least = k;
    }
    return least;
}
static uint64_t should_show(const ref_player *p, uint32_t what)
{
    uint32_t next;
    if (p->media == REF_INACTIVE)
        return NO_OBJECT;
    if (what == 10)
        return lent.words[TRACKS][6 * p->track + 3] == 0 ? NO_OBJECT : 0x3000 + p->track;
    if (what != 12)
        return what == 11 ? 0x1000 + p->track : 0x2000 + (what == 13 ? lent.words[GROUPS][3 * p->group] : p->group);
    if (p->next != 0)
        return 0x1000 + p->next - 1;
    if (p->order <= 2)
        return p->order == 1 ? NO_OBJECT : 0x1000 + p->track;
    next = least_above(p, key_of(p->order, p->track), 0);
    if (next == UNTOUCHED && p->order % 2 == 0)
        next = least_above(p, 0, 1);
    return next == UNTOUCHED ? NO_OBJECT : 0x1000 + next;
}
/* Whether so many octets of the output are that value from that offset on. */
static int is_shown(const ref_player *p, uint32_t what, uint32_t offset, uint32_t len)
{
    uint64_t shown = should_show(p, what);
    return len == (shown == NO_OBJECT ? 0 : 6) - offset && memcmp(said.out, object(shown) + offset, len) == 0;
}

/* SCOPE 5 a second time: where the title of a player's track begins, in which text, and how long it is. */
typedef struct {
    uint32_t text, offset, len;
    const uint8_t *octets;
} part;
static part should_be_called(const ref_player *p)
{
    const uint32_t *own = lent.words[TRACKS] + 6 * p->track + 4, *given = office.words + 2 * p->track;
    if (p->media == REF_INACTIVE)
        return (part){CARDS, 0, 0, lent.text};
    if (office.renames && given[1] > 0)
        return (part){OFFICES, given[0], given[1], office.text + given[0]};
    return (part){CARDS, own[0], own[1], lent.text + own[0]};
}
static int are_equal(part a, part b) { return a.len == b.len && memcmp(a.octets, b.octets, a.len) == 0; }
/* Whether so many octets of the output are the title's from that offset on, at most so many. */
static int is_called(const ref_player *p, uint32_t offset, uint32_t most, uint32_t len)
{
    part is = should_be_called(p);
    return len == (is.len - offset > most ? most : is.len - offset) && memcmp(said.out, is.octets + offset, len) == 0;
}

/* How often a random call gave a name, kept one, used one by Next Track and by an end, used that of the current track, and dropped one;
 * went to a track and to a group by 11 and 14; was refused with 0x13 for an object number; changed the title from or to one of the
 * office's; went from one such to another track, which has the same part, or an equal one; read and took a title of the office's, and
 * read on in one; found that one had changed, and that one was too short for that; said which text it is a part of, the card's or the
 * office's; was refused with 224; stepped by the clock to a rest, was held at 8,640,000 with one, made one 0, and kept one; was a manual's
 * Goto that had another opcode, or the number 0, passed a name by, went round a repeat order, stayed with a rest, and left one behind. */
enum {
    GIVEN,
    KEPT,
    BY_NEXT,
    BY_END,
    ONTO_ITSELF,
    DROPPED,
    TO_TRACK,
    TO_GROUP,
    NOT_OBJECT,
    RENAMED,
    SAME_PART,
    EQUAL_PART,
    READ_TITLE,
    TOOK_TITLE,
    READ_ON,
    READ_CHANGED,
    READ_SHORT,
    OF_CARD,
    OF_OFFICE,
    NOT_FIT,
    STEPPED,
    HELD,
    ZEROED,
    RESTED,
    NO_GOTO,
    GOTO_0,
    PASSED_BY,
    WENT_ROUND,
    STAYED,
    LEFT,
    MET
};
static unsigned long met[MET];

/* A client's round runs through the slots of service 0 and then those of service 1 (SCOPE 19.3): of all that is owed, the least
 * by the clients behind the one served last, and then by the places behind the client's mark. */
static void take_is_next(const ref_state *was)
{
    uint32_t least = UNTOUCHED, next[3] = {0, 0, 0};
    for (uint32_t client = 0; client < 4; client++) {
        EACH(0, ROUND) {
            uint32_t key = (client + 3 - was->turn) % 4 * ROUND + (k + ROUND - 1 - was->links[client].mark) % ROUND;
            if ((was->services[k / SLOTS].accounts[client].owed >> k % SLOTS & 1) == 0 || key >= least)
                continue;
            least = key;
            next[0] = client;
            next[1] = k / SLOTS;
            next[2] = SLOT[k % SLOTS];
        }
    }
    CHECK(memcmp(next, said.served, sizeof next) == 0);
    EQUAL(s.turn, least == UNTOUCHED ? was->turn : next[0]);
    /* Of 5 and of 11 to 14 the present value is handed out. */
    if (next[2] >= 11 && next[2] <= 14)
        CHECK(is_shown(&s.services[next[1]].player, next[2], 0, said.served[3]));
    if (next[2] == 5) {
        const ref_player *p = &s.services[next[1]].player;
        CHECK(is_called(p, 0, s.links[next[0]].mtu - 3, said.served[3]));
        met[TOOK_TITLE] += should_be_called(p).text == OFFICES;
    }
}

/* What an object number is to do that is written to a player, which leads to the group and track that it is then to be on. */
static int goes_there(const ref_player *b, uint32_t what, uint64_t number, uint32_t *group, uint32_t *track)
{
    const uint32_t *g = lent.words[GROUPS] + 3 * b->group;
    ref_player to = *b;
    *group = b->group;
    *track = b->track;
    if (b->media == REF_INACTIVE)
        return 0;
    if (what != 14) {
        if (number < 0x1000 + (uint64_t)g[1] || number >= 0x1000 + (uint64_t)g[1] + g[2])
            return 0;
        if (what == 11)
            *track = (uint32_t)number - 0x1000;
        return 1;
    }
    if (number < 0x2000 || number >= 0x2000 + lent.len[GROUPS] / 3 || lent.words[GROUPS][3 * (number - 0x2000) + 2] == 0)
        return 0;
    to.group = *group = (uint32_t)number - 0x2000;
    *track = to.order <= 2 ? lent.words[GROUPS][3 * to.group + 1] : least_above(&to, 0, 1);
    return 1;
}

/* What a call makes owed, and marks, of a characteristic whose value it changed or did not. `spared` is the client that is not told of
 * it; `reader` is the one that read it at 0. */
#define NOBODY 4u
static void is_told(const ref_state *was, uint32_t c, int changed, uint32_t spared, uint32_t reader)
{
    EACH(0, 4) {
        const ref_account *had = &was->services[service].accounts[k], *has = &ACCOUNT(k);
        for (uint32_t slot = 0; slot < SLOTS; slot++) {
            uint32_t told = changed && k != spared ? had->subscribed >> slot & 1 : 0;
            if (SLOT[slot] == c)
                CHECK((has->owed >> slot & 1) == ((had->owed >> slot & 1) | told));
        }
        EQUAL(has->fresh >> c & 1, changed ? 0 : k == reader ? 1 : had->fresh >> c & 1);
    }
}

/* The calls that read or write a player, by whichever client. */
static int may_move(int call)
{
    return call == SET_NAME || call == ACTIVATE || call == DEACTIVATE || call == ADVANCE || call == READ || call == WRITE;
}

/* SCOPE 13.3 a second time: where a clock step leads a player, in 65,536ths, if no track ended. */
static uint64_t clock_after(const ref_player *p, uint32_t d)
{
    return (uint64_t)p->position * 65536 + p->rest + (uint64_t)d * factors[(uint8_t)p->speed];
}

/* A call to `service` that was accepted: where a step leads, and the rest that each call leaves. Whether a command was made is known where
 * its writer has 18. */
static void clock_rules_hold(const ref_state *was, uint32_t call, uint32_t client, uint32_t what, uint32_t number,
                             const uint8_t *octets)
{
    const ref_player *b = &was->services[service].player, *a = &PLAYER;
    const ref_account *r = &ACCOUNT(client % 4);
    int active = b->media != REF_INACTIVE, running = active && lent.words[TRACKS][6 * b->track] == UNKNOWN, moves = 0;
    int64_t d = !active   ? 0
                : running ? END
                          : lent.words[TRACKS][6 * b->track],
            sought = b->position + (int64_t)number * b->seeking;
    if (call == ADVANCE && b->media == REF_PLAYING) {
        uint64_t to = clock_after(b, number);
        moves = to / 65536 >= (uint64_t)d && !running;
        if (moves) {
            CHECK(a->media == REF_PAUSED ? a->position == d && a->track == b->track
                                         : a->media == REF_PLAYING && a->position == 0);
        } else {
            int held = to / 65536 >= (uint64_t)d;
            IS(b->group, b->track, held ? END : to / 65536, REF_PLAYING, 0);
            EQUAL(a->rest, held ? b->rest : to % 65536);
            met[held ? HELD : STEPPED] += a->rest != 0;
            return;
        }
    } else if (call == ADVANCE && b->media == REF_SEEKING) {
        moves = 1;
        IS(b->group, b->track, sought < 0 ? 0 : sought > d ? d : sought, REF_SEEKING, b->seeking);
    } else if (call == ACTIVATE || call == DEACTIVATE) {
        moves = 1;
    } else if (call == WRITE && what == 18) {
        if ((r->subscribed & B18) == 0)
            return;
        moves = r->results[r->waiting - 1].code == 1 && memchr("\x01\x02\x03\x04", octets[0], 4) == NULL;
        if (octets[0] == SEGMENT + GOTO && all_are(octets + 1, 0, 4))
            moves = 0;
    } else if (call == WRITE) {
        moves = what == 11 || what == 14 || (what == 7 && active && (!running || octets[3] < 128));
    }
    EQUAL(a->rest, moves ? 0 : b->rest);
    CHECK(moves || a->position == b->position);
    met[moves ? ZEROED : RESTED] += b->rest != 0;
}

/* A call that was made to `service` and got past the rows before 0x13: the player and the name that it leaves, and what of 10 to 14 it
 * makes owed and marks. */
static void object_rules_hold(const ref_state *was, uint32_t refusal, uint32_t call, uint32_t client, uint32_t what,
                              uint32_t number, const uint8_t *octets)
{
    const ref_player *b = &was->services[service].player, *a = &PLAYER;
    int by_object = call == WRITE && (what == 11 || what == 12 || what == 14), active = b->media != REF_INACTIVE;
    int moved = a->media == REF_INACTIVE || a->group != b->group || a->track != b->track;
    uint32_t d = active ? lent.words[TRACKS][6 * b->track] : 0, name, group, track;
    int by_next = call == WRITE && what == 18 && octets[0] == TRACK + NEXT && active && (b->mask >> 12 & 1) != 0;
    int by_end = call == ADVANCE && b->media == REF_PLAYING && d != UNKNOWN && clock_after(b, number) / 65536 >= d;
    uint64_t object_number = 0;
    EACH(0, 6) object_number |= (uint64_t)octets[k] << (8 * k);
    if (by_object) {
        EQUAL(refusal, goes_there(b, what, object_number, &group, &track) ? 0 : 0x13);
        if (refusal != 0) {
            met[NOT_OBJECT]++;
            return;
        }
        EQUAL(a->group, group);
        EQUAL(a->track, track);
        EQUAL(a->position, what == 12 ? b->position : 0);
        EQUAL(a->media, what != 12 && b->media == REF_SEEKING ? REF_PLAYING : b->media);
        EQUAL(a->seeking, what == 12 ? b->seeking : 0);
        met[what == 11 ? TO_TRACK : what == 14 ? TO_GROUP : GIVEN]++;
    }
    if ((by_next || by_end) && b->next != 0) {
        EQUAL(a->group, b->group);
        EQUAL(a->track, b->next - 1);
        EQUAL(a->position, 0);
        EQUAL(a->media, b->media == REF_PAUSED ? REF_PAUSED : REF_PLAYING);
        met[by_next ? BY_NEXT : BY_END]++;
        met[ONTO_ITSELF] += !moved;
    } else if (b->next != 0 && what != 12) {
        met[moved ? DROPPED : KEPT]++;
    }
    name = moved || by_next || by_end ? 0 : call == WRITE && what == 12 ? (uint32_t)object_number - 0x1000 + 1 : b->next;
    EQUAL(a->next, name);
    for (uint32_t c = 10; c < 15; c++) {
        is_told(was, c, should_show(b, c) != should_show(a, c), by_object && what == c ? client : NOBODY,
                call == READ && what == c && number == 0 ? client : NOBODY);
    }
    if (call == READ && what >= 10 && what <= 14)
        CHECK(is_shown(a, what, number, said.length));
}

/* A call to `service` that was accepted, or a read of 5 that 0x80 or 0x07 refused. The titles before and after it are those of
 * what it was lent. */
static void title_rules_hold(const ref_state *was, uint32_t refusal, uint32_t call, uint32_t client, uint32_t what,
                             uint32_t number)
{
    const ref_player *b = &was->services[service].player, *a = &PLAYER;
    part before = should_be_called(b), after = should_be_called(a);
    int reads_it = call == READ && what == 5, of_office = before.text == OFFICES || after.text == OFFICES;
    if (reads_it) {
        int fresh = (was->services[service].accounts[client].fresh >> 5 & 1) != 0;
        EQUAL(refusal, number > 0 && !fresh ? 0x80 : number > before.len ? 0x07 : 0);
        if (refusal == 0)
            CHECK(is_called(b, number, s.links[client].mtu - 1, said.length));
        if (of_office)
            met[refusal == 0x80 ? READ_CHANGED : refusal == 0x07 ? READ_SHORT : number > 0 ? READ_ON : READ_TITLE]++;
    }
    is_told(was, 5, !are_equal(before, after), NOBODY, reads_it && refusal == 0 && number == 0 ? client : NOBODY);
    if (of_office && !are_equal(before, after))
        met[RENAMED]++;
    if (of_office && are_equal(before, after) && a->track != b->track)
        met[before.octets == after.octets ? SAME_PART : EQUAL_PART]++;
    if (call == SAY_TITLE) {
        EQUAL(said.part[0], after.text);
        EQUAL(said.part[1], after.offset);
        EQUAL(said.part[2], after.len);
        met[after.text == OFFICES ? OF_OFFICE : OF_CARD]++;
    }
}

/* A manual's Goto of `service` that was accepted, with so many steps allowed. How often each of the three had each outcome. */
static unsigned long shown[3][5];
static void goto_rules_hold(uint32_t opcode, long n, uint32_t allowed)
{
    uint8_t kept[sizeof said];
    const uint32_t outcome = said.made[0], steps = said.made[1], tracks = lent.words[GROUPS][3 * PLAYER.group + 2];
    const spot now = spot_of(&PLAYER);
    answer is;
    memcpy(kept, &said, sizeof said);
    is = whole_goto(opcode, n);
    memcpy(&said, kept, sizeof said);
    if (allowed < is.steps)
        is = (answer){REF_RAN_OUT, allowed, now};
    says_at(__LINE__, 0, is.outcome, is.steps, is.at);
    if (outcome > 4)
        return;
    if (!is_goto(opcode)) {
        met[NO_GOTO]++;
        return;
    }
    shown[opcode / 16 - 2][outcome]++;
    met[GOTO_0] += n == 0 && outcome == 1;
    met[PASSED_BY] += PLAYER.next > 0 && opcode == GOTO_TRACK && steps > 1 && outcome == 1;
    met[WENT_ROUND] += opcode == GOTO_TRACK && outcome == 1 && PLAYER.order > 2 && steps > tracks;
    if (now.rest > 0 && outcome != 2 && outcome != 3)
        met[said.spot[3] == now.rest ? STAYED : LEFT]++;
}

static void exchange_services(void)
{
    ref_service kept;
    memcpy(&kept, &s.services[0], sizeof kept);
    memcpy(&s.services[0], &s.services[1], sizeof kept);
    memcpy(&s.services[1], &kept, sizeof kept);
}

/* A call to one service never alters replies, state or owed values of the other (SCOPE 17.4): the call that led from `was` to the
 * present state gives and does the same where the two services have changed places, and where the other one is as start leaves
 * it. */
static void is_the_called_ones(const ref_state *was, uint32_t gave, int call, uint32_t client, uint32_t what, uint32_t number,
                               const void *octets, size_t len, size_t room)
{
    ref_state now;
    uint32_t kept = service;
    uint8_t answer[sizeof said], where[sizeof place];
#define THE_SAME()                                                                                                             \
    (makes(call, client, what, number, octets, len, room) == gave && memcmp(answer, &said, sizeof said) == 0 &&                \
     memcmp(where, &place, sizeof place) == 0)
    memcpy(&now, &s, sizeof s);
    memcpy(answer, &said, sizeof said);
    memcpy(where, &place, sizeof place);
    memcpy(&s, was, sizeof s);
    exchange_services();
    if (kept < 2)
        service = 1 - kept;
    CHECK(THE_SAME());
    exchange_services();
    CHECK(memcmp(&s, &now, sizeof s) == 0);
    service = kept;
    if (gave != 201 && service < 2) {
        memcpy(&s, was, sizeof s);
        memset(&s.services[1 - service], 0, sizeof s.services[0]);
        s.services[1 - service].player.order = 3;
        CHECK(THE_SAME() && memcmp(&s.services[service], &now.services[service], sizeof s.services[0]) == 0);
        CHECK(memcmp(s.links, now.links, sizeof s.links) == 0 && s.turn == now.turn);
    }
    memcpy(&s, &now, sizeof s);
    memcpy(&said, answer, sizeof said);
    memcpy(&place, where, sizeof place);
}

/* A call, and all of it that is worked out a second time. */
static unsigned long accepted[CALLS], refused[CALLS];
static uint32_t tries(uint32_t call, uint32_t client, uint32_t what, uint32_t number, const uint8_t *octets, size_t len,
                      size_t room)
{
    ref_state was;
    uint32_t refusal;
    memcpy(&was, &s, sizeof s);
    refusal = makes((int)call, client, what, number, octets, len, room);
    (refusal == 0 ? accepted : refused)[call]++;
    /* 207 and its offset, where nothing comes before; the generic player's name is checked first (SCOPE 17.6). */
    if ((call == START || call == SET_NAME) && refusal != 200 && refusal != 224 && refusal != 201 && refusal != 219) {
        uint32_t bad = call == START && service > 0 ? bad_at(other.name, other.len) : bad_at(octets, len);
        if (bad == UNTOUCHED && call == START)
            bad = service > 0 ? bad_at(octets, len) : bad_at(other.name, other.len);
        EQUAL(refusal, bad == UNTOUCHED ? 0 : 207);
        EQUAL(place.offset, bad);
    }
    met[NOT_FIT] += refusal == 224;
    if (call == TAKE && refusal == 0)
        take_is_next(&was);
    if (refusal == 0 && may_move((int)call))
        clock_rules_hold(&was, call, client, what, number, octets);
    if (may_move((int)call) && (refusal == 0 || (refusal == 0x13 && what != 15))) {
        object_rules_hold(&was, refusal, call, client, what, number, octets);
    }
    if ((refusal == 0 && (may_move((int)call) || call == SAY_TITLE)) ||
        (call == READ && what == 5 && (refusal == 0x80 || refusal == 0x07))) {
        title_rules_hold(&was, refusal, call, client, what, number);
    }
    if (refusal == 0 && call == MANUAL_GOTO)
        goto_rules_hold(what, (long)signed_number(number), client);
    if (call != START && call != TAKE)
        is_the_called_ones(&was, refusal, (int)call, client, what, number, octets, len, room);
    return refusal;
}

/* Most of the tracks are the current group's. */
static const uint8_t *random_number(uint32_t what)
{
    const uint32_t *g = lent.words[GROUPS] + 3 * (s.services[service % 2].player.group % 64);
    uint64_t number = what == 14 ? 0x2000 + below(5) : one_in(8) ? 0x1000 + below(5) : 0x1000 + g[1] + below(g[2] % 300 + 1);
    if (one_in(16))
        number = any();
    return object(one_in(16) ? number | (uint64_t)1 << (16 + below(32)) : number);
}

static uint32_t random_call(void)
{
    static const uint32_t WRITABLE[9] = {7, 8, 11, 12, 14, 15, 18, 18, 18},
                          RANGE[CALLS] = {1, 1, 65, 1, 300, 600, 1, 1, 1, 140, 1, 1, 1, 6};
    uint32_t call = below(CALLS + 6), client = one_in(24) ? 4 : below(4), what = one_in(12) ? below(30) : SLOT[below(SLOTS)],
             number;
    uint8_t octets[140], beside[140];
    uint32_t refusal;
    size_t len = below(131), room = one_in(16) ? below(128) : 128 + below(20);
    service = one_in(24) ? OVER[below(6)] : below(2);
    call = call >= CALLS ? WRITE : call == START && !one_in(20) ? TAKE : call == DISCONNECT && !one_in(4) ? SUBSCRIBE : call;
    number = one_in(3) ? 0 : one_in(8) ? any() : below(RANGE[call]);
    memset(octets, 'n', sizeof octets);
    random_text(octets, len, 4);
    if (call == WRITE) {
        what = one_in(8) ? what : WRITABLE[below(9)];
        octets[0] = what == 15 ? (uint8_t)below(10) : one_in(12) ? (uint8_t)any() : OPCODE[below(21)];
        put_number(octets + 1, one_in(4) ? (long)any() : (long)below(20) - 10);
        len = what == 7 ? 4 : what >= 10 && what <= 14 ? 6 : what == 18 && CARRIES_NUMBER(octets[0]) ? 5 : 1;
        if (len == 6)
            memcpy(octets, random_number(what), len);
        if (one_in(16))
            len = below(8);
    }
    if (call == MANUAL_GOTO && !one_in(8))
        what = GOTOS[below(3)];
    if (call == START) {
        other.len = below(131);
        memset(beside, 'o', sizeof beside);
        random_text(beside, other.len, 4);
        other.name = beside;
    }
    refusal = tries(call, client, what, number, octets, len, room);
    other = OTHER;
    return refusal;
}

/* One of the calls by which tracks are named, and names used, kept and dropped; and a take, so that results do not pile up. */
static void random_name(void)
{
    static const uint32_t WRITES[8] = {11, 12, 12, 12, 14, 15, 18, 18};
    uint32_t client = below(3), what = WRITES[below(8)], call;
    uint8_t octets[6] = {(uint8_t)(what == 15 ? 1 + below(8) : one_in(3) ? PLAY : TRACK + below(4))};
    service = below(2);
    call = PLAYER.media == REF_INACTIVE && !one_in(4) ? ACTIVATE
           : one_in(3)                                ? TAKE
           : one_in(4)                                ? ADVANCE
           : one_in(10)                               ? one_in(3) ? DEACTIVATE : ACTIVATE
                                                      : WRITE;
    if (what < 15)
        memcpy(octets, random_number(what), 6);
    (void)tries(call, client, what,
                call == ACTIVATE ? below(4)
                : one_in(2)      ? below(400)
                                 : 10000,
                octets, what < 15 ? 6 : 1, ROOM);
}

/* A part of a text, as its offset and its length: most begin and end between characters, and have at most 128 octets. */
static void random_part(const uint8_t *text, uint32_t octets, uint32_t words[2])
{
    uint32_t from = below(octets + 1), to = from + below(octets - from + 1);
    int apart = one_in(8);
    while (!apart && from > 0 && from < octets && (text[from] & 0xC0) == 0x80) from--;
    if (to > from + 128 && !one_in(30))
        to = from + 128;
    while (!apart && to > from && to < octets && (text[to] & 0xC0) == 0x80) to--;
    words[0] = from;
    words[1] = to - from;
}

/* Titles for the lent catalogue that 224 does not refuse. The office's text is sometimes a copy of the card's, sometimes of one letter,
 * from which the titles are short, so that many are equal. Some tracks are called as the card calls one of them, some as the office
 * calls another; some are not renamed, and sometimes none is. */
static void lend_random_titles(void)
{
    uint8_t text[300];
    uint32_t octets = below(300), tracks = (uint32_t)(lent.len[TRACKS] / 6), how = below(3);
    if (how == 0)
        random_text(text, octets, 3);
    else if (how == 1)
        memcpy(text, lent.text, octets);
    else
        memset(text, 'a', octets);
    lend_office(text, octets);
    EACH(0, tracks) {
        uint32_t *words = office.words + 2 * k;
        random_part(text, octets, words);
        if (how == 2)
            words[1] = 1 + below(2);
        if (how < 2 && one_in(3))
            memcpy(words, lent.words[TRACKS] + 6 * below(tracks) + 4, 8);
        if (k > 0 && one_in(3))
            memcpy(words, office.words + 2 * below(k), 8);
        if (one_in(4) || is_unfit(words[0], words[1])) {
            words[0] = any();
            words[1] = 0;
        }
    }
    office.renames = !one_in(6);
}

/* A word, an octet or a length of what the office lends is changed. */
static void damage_office(void)
{
    uint32_t how = below(4);
    if (how < 2)
        office.words[below((uint32_t)office.words_len + 1)] = one_in(2) ? 0xFFFFFFFFu - below(200) : below(200);
    if (how == 2)
        office.text[below((uint32_t)office.text_len + 1)] = (uint8_t)any();
    if (how == 3 && one_in(2))
        office.words_len = below((uint32_t)office.words_len + 3);
    else if (how == 3)
        office.text_len = below((uint32_t)office.text_len + 1);
}

/* One of the calls that read titles, in parts too, that change and take them, and that say where they stand; before some of
 * them other titles are lent. */
static void random_title(void)
{
    static const struct {
        uint32_t call, what;
    } HOW[8] = {{READ, 5}, {READ, 5}, {READ, 5}, {TAKE, 0}, {SAY_TITLE, 0}, {WRITE, 18}, {WRITE, 11}, {ACTIVATE, 0}};
    uint32_t how = below(8), number = one_in(2) ? 0 : below(HOW[how].call == ACTIVATE ? 4 : 30);
    uint8_t octets[6] = {(uint8_t)(TRACK + below(4))};
    service = below(2);
    if (HOW[how].what == 11)
        memcpy(octets, random_number(11), 6);
    if (one_in(4))
        lend_random_titles();
    (void)tries(HOW[how].call, below(3), HOW[how].what, number, octets, HOW[how].what == 11 ? 6 : 1, ROOM);
}

/* One of the calls by which the clock goes on, at any speed, also up to 8,640,000, and the rest is kept or becomes 0; and a
 * take. */
static void random_clock(void)
{
    static const uint32_t WRITES[5] = {7, 8, 8, 18, 18};
    uint32_t client = below(3), what = WRITES[below(5)], call, time = one_in(3) ? below(4) : one_in(6) ? any() : below(400);
    uint8_t octets[6] = {one_in(3) ? OPCODE[below(21)] : PLAY};
    service = below(2);
    call = PLAYER.media == REF_INACTIVE && !one_in(4) ? ACTIVATE
           : one_in(3)                                ? TAKE
           : one_in(2)                                ? ADVANCE
           : one_in(20)                               ? one_in(3) ? DEACTIVATE : ACTIVATE
                                                      : WRITE;
    put_number(octets + (what == 18), what == 8 ? (long)any() : one_in(3) ? (long)below(4) - 2 : (long)END - (long)below(400));
    (void)tries(call, client, what, call == ACTIVATE ? below(4) : time, octets,
                what == 7                                 ? 4
                : what == 18 && CARRIES_NUMBER(octets[0]) ? 5
                                                          : 1,
                ROOM);
}

/* A manual's Goto, of which most have a number near the ends of the lists, and steps allowed near that; before it, sometimes,
 * a call by which the player comes to be elsewhere, has another order or name, is left with a rest, or is Inactive. */
static void random_goto(void)
{
    static const uint32_t WRITES[6] = {7, 11, 12, 14, 15, 15};
    uint32_t how = below(6), what = WRITES[below(6)], opcode = GOTOS[below(3)], all, allowed;
    uint8_t octets[6] = {(uint8_t)(1 + below(8))};
    int64_t n = one_in(8) ? signed_number(any()) : (int64_t)below(15) - 7;
    service = below(2);
    if (what != 15 && what != 7)
        memcpy(octets, random_number(what), 6);
    else if (what == 7)
        put_number(octets, (long)below(6000));
    if (how < 3)
        (void)tries(PLAYER.media == REF_INACTIVE ? ACTIVATE
                    : one_in(12)                 ? DEACTIVATE
                                                 : WRITE,
                    below(3), what, below(4), octets,
                    what == 15  ? 1
                    : what == 7 ? 4
                                : 6,
                    0);
    if (how == 3 && one_in(2))
        PLAYER.rest = below(65536);
    all = without_sign(n);
    allowed = one_in(4) ? below(40) : all > 40 ? 40 - below(4) : one_in(3) ? any() : all + below(3) - (all > 0);
    if (one_in(12))
        opcode = one_in(2) ? opcode + 256 * (1 + below(1000)) : below(256);
    (void)tries(MANUAL_GOTO, allowed, opcode, (uint32_t)n, octets, 0, 0);
}

/* A call with an octet of the state, or a word, an octet and a length of the catalogue, or one of them of the titles, changed and then
 * changed back. */
static void damaged_call(void)
{
    static tables right;
    static titles right_titles;
    ref_state stood = s;
    uint32_t table = below(3), refusal;
    right = lent;
    right_titles = office;
    if (one_in(2))
        damage_office();
    if (one_in(2)) {
        ((uint8_t *)&s)[below(sizeof s)] = (uint8_t)any();
    } else if (one_in(2)) {
        lent.words[table][below((uint32_t)lent.len[table] + 1)] = one_in(2) ? 0xFFFFFFFFu - below(3) : below(9);
        lent.text[below(18)] = one_in(8) ? (uint8_t)any() : 'b';
        lent.len[below(4)] -= one_in(4) ? below(4) : 0;
    }
    judge();
    refusal = random_call();
    AS_JUDGED(refusal);
    EQUAL(refusal == 224, !judged.wrong && office_is_unfit());
    lent = right;
    office = right_titles;
    s = stood;
}

/* A small catalogue that stands, but for a title that is cut or an octet of the text that is changed; sometimes a word or a length is
 * then changed as well. */
static void lend_random(void)
{
    uint32_t groups = below(5), tracks = groups == 0 ? 0 : below(9), octets = below(300), track = 0, segment = 0,
             table = below(3);
    lent = (tables){.len = {3 * groups, 6 * tracks, 0, octets}};
    random_text(lent.text, octets, 3);
    EACH(0, groups) {
        uint32_t count = k + 1 == groups ? tracks - track : below(tracks - track + 1);
        const uint32_t record[3] = {k == 0 ? 0 : below(k), track, count};
        memcpy(lent.words[GROUPS] + 3 * k, record, sizeof record);
        track += count;
    }
    EACH(0, tracks) {
        uint32_t starts = below(4), last = 0;
        for (uint32_t j = 0; j < starts; j++) lent.words[SEGMENTS][segment + j] = last += j == 0 ? 0 : 1 + below(9);
        const uint32_t record[4] = {one_in(4) ? UNKNOWN : last + 1, below(5), segment, starts};
        memcpy(lent.words[TRACKS] + 6 * k, record, sizeof record);
        segment += starts;
        random_part(lent.text, octets, lent.words[TRACKS] + 6 * k + 4);
    }
    lent.len[SEGMENTS] = segment;
    if (one_in(4))
        lent.words[table][below((uint32_t)lent.len[table] + 1)] = one_in(2) ? 0xFFFFFFFFu - below(3) : below(9);
    if (one_in(16)) {
        table = below(4);
        lent.len[table] -= lent.len[table] > 0;
    }
}

/* In any state of a catalogue that stands, both agree on a number and take the same way there. */
static void random_agreement(void)
{
    static ref_state kept;
    const uint32_t *g = lent.words[GROUPS], *tracks = lent.words[TRACKS];
    uint32_t group = lent.len[TRACKS] == 0 ? 0 : below((uint32_t)lent.len[GROUPS] / 3), opcode = GOTOS[below(3)], track, d;
    int renames = office.renames;
    if (lent.len[TRACKS] == 0 || g[3 * group + 2] == 0)
        return;
    memcpy(&kept, &s, sizeof s);
    rename_nothing();
    service = below(2);
    EQUAL(start(ALL_OPCODES) || activate(group), 0);
    track = g[3 * group + 1] + below(g[3 * group + 2]);
    d = tracks[6 * track] == UNKNOWN ? END : tracks[6 * track];
    PLAYER.track = track;
    PLAYER.order = (uint8_t)(1 + below(8));
    PLAYER.position = below(d + 1);
    PLAYER.rest = below(65536);
    PLAYER.next = one_in(2) ? 0 : g[3 * group + 1] + below(g[3 * group + 2]) + 1;
    agrees_on(opcode, (long)below(25) - 12);
    walks(opcode, one_in(2), 8);
    memcpy(&s, &kept, sizeof s);
    office.renames = renames;
}

/* How many random catalogues stand, have a bad title, break another rule, and do both. The titles lent beside each are sometimes such as
 * 224 refuses, which is given where the catalogue stands, and by the calls on a state alone. */
static unsigned long kinds[4];
static void random_catalogue(void)
{
    uint32_t refusal;
    int of_tables = one_in(3);
    lend_random();
    judge();
    lend_random_titles();
    if (one_in(3))
        damage_office();
    kinds[judged.beside ? 3 : judged.wrong ? judged.track == UNTOUCHED ? 2 : 1 : 0]++;
    refusal = !of_tables  ? one_in(8) ? start(ALL_OPCODES) : random_call()
               : one_in(3) ? writes_card(below(9) * 512)
                          : writes_object(GROUP_OBJECT + (int)below(2), below(9), below(100));
    AS_JUDGED(refusal);
    EQUAL(refusal == 224, !of_tables && !judged.wrong && office_is_unfit());
    if (!judged.wrong) {
        all_go_round();
        if (one_in(3))
            random_agreement();
    }
}

/* Octets that are entries of a Track Segments or a Group object but for what is spoiled, cut or reserved, read into any room, and read a
 * second time by this. */
static unsigned long objects[3]; /* accepted, 222, 223 */
static void random_object(void)
{
    uint8_t octets[1200];
    uint32_t low[240], should = 0, len = 0, count = 0, most = below(5), room;
    int of = GROUP_OBJECT + (int)below(2), unit = of == GROUP_OBJECT ? 3 : 1;
    EACH(0, most) {
        uint32_t name = of == GROUP_OBJECT || one_in(3) ? 0 : below(one_in(8) ? 256 : 12);
        octets[len] = (uint8_t)(of == GROUP_OBJECT ? below(one_in(12) ? 256 : 2) : name);
        random_text(octets + len + 1, name, 12);
        len += 1 + name;
        put_number(octets + len, one_in(16) ? -1 - (long)below(MOST) : (long)below(MOST));
        len += 4;
        if (of == GROUP_OBJECT) {
            octets[len++] = (uint8_t)any();
            octets[len++] = (uint8_t)any();
        }
    }
    if (len > 0 && one_in(8))
        octets[below(len)] = (uint8_t)any();
    if (one_in(8))
        len = below(len + 1);
    for (uint32_t at = 0; at < len && should == 0; count++) {
        uint32_t name = of == GROUP_OBJECT ? 2 : octets[at];
        if (at + 5 + name > len || (of == GROUP_OBJECT && octets[at] > 1)) {
            should = 222;
            break;
        }
        if (of == SEGMENTS_OBJECT && (farthest(octets + at + 1, name) < name || octets[at + name + 4] > 127)) {
            should = 222;
            break;
        }
        low[count] = 0;
        EACH(0, 4) low[count] |= (uint32_t)octets[at + (of == GROUP_OBJECT ? 0 : name) + 1 + k] << (8 * k);
        at += 5 + name;
    }
    room = one_in(2) ? (uint32_t)unit * count : below(20);
    if (should == 0 && room < (uint32_t)unit * count)
        should = 223;
    EQUAL(reads_object(of, octets, len, room), should);
    objects[should == 0 ? 0 : should - 221]++;
    if (should != 0)
        return;
    EQUAL(back.count, count);
    EACH(0, count) {
        uint32_t *word = back.words + (uint32_t)unit * k;
        EQUAL(word[of == GROUP_OBJECT], low[k]);
        if (of == GROUP_OBJECT) {
            EQUAL(word[0], octets[7 * k]);
            EQUAL(word[2], octets[7 * k + 5] + 256 * octets[7 * k + 6]);
        }
    }
}

/* A card and a sheet with an octet changed and an end anywhere, into tables of any room. */
static void damaged_octets(void)
{
    char sheet[] = "REM x\r\n INDEX 00 00:00:00\n" AT_0 "\nTITLE\r\n  INDEX 01 00:59:74\r\nINDEX 01 99:00:00";
    sheet[below(sizeof sheet - 1)] = "\r\n 0179:INDEXx\xFF"[below(15)];
    (void)reads_sheet(sheet, one_in(2) ? sizeof sheet - 1 : below(sizeof sheet), below(4));
    card_len = 0;
    EACH(0, 4) (void)add_block(k + 1 - (k > 0 && one_in(4)), one_in(4) ? 21 : 1 + below(21), 4);
    card[below(2048)] ^= (uint8_t)any();
    seal(card + 512 * below(4));
    card_len = one_in(8) ? below(2048) : 2048;
    (void)(one_in(2) ? LOADS() : loads(below(63), below(126), below(21), below(21)));
}

static void history(void)
{
    one_in(4) ? lend_full(one_in(2) ? 193 : 256) : lend_sample();
    lent.words[TRACKS][6 * below(4)] = one_in(3) ? UNKNOWN : END;
    lend_random_titles();
    service = below(2);
    EQUAL(start(one_in(3) ? any() : ALL_OPCODES), 0);
    EACH(0, 3 * ROUND) {
        service = k / SLOTS % 2;
        if (k < ROUND && k % SLOTS == 0)
            (void)activate(below(2));
        EQUAL((k % ROUND == 0 ? connects(k / ROUND, 23 + below(200)) : 0) + subscribes(k / ROUND, SLOT[k % SLOTS]), 0);
    }
    EACH(0, 100) random_name();
    EACH(0, 100) random_title();
    if (!one_in(4))
        lent.words[TRACKS][0] = UNKNOWN;
    EACH(0, 100) random_clock();
    EACH(0, 60) random_goto();
    EACH(0, 150) {
        if (one_in(6))
            damaged_call();
        else
            (void)random_call();
    }
    EACH(0, 30) {
        damaged_octets();
        random_object();
    }
    (void)writes_card(below(50000));
    EACH(0, 150) random_catalogue();
}

/* ---- What a client knows when nothing is owed */

/* A slot since the client subscribed to it: whether it changed, how the client last heard of it, and what. `again` says that it had
 * been subscribed to before, since the client connected. */
enum { UNHEARD, TOOK, WROTE };
typedef struct {
    int on, again, changed, how;
    uint32_t len;
    uint8_t octets[128];
} hearing;
static hearing heard[4][ROUND];
static uint32_t mtu_of[4];
static hearing *heard_of(uint32_t client, uint32_t what)
{
    uint32_t slot = 0;
    while (SLOT[slot] != what) slot++;
    return &heard[client][service * SLOTS + slot];
}
static void hear(hearing *h, int how, const uint8_t *octets, uint32_t len)
{
    CHECK(len <= sizeof h->octets);
    h->how = how;
    h->len = len;
    memcpy(h->octets, octets, len % (sizeof h->octets + 1));
}

/* The values by place, as client 0 reads them on a copy of the state, on which it is connected with ATT_MTU 517. The number of the
 * track stands for 4, which is empty and cannot be read, and tells when it changes. Of 18 there is no value. */
static struct {
    uint32_t len;
    uint8_t octets[128];
} values[ROUND];
static void look(uint32_t at)
{
    copies t = copy_lent();
    ref_state there;
    memcpy(&there, &s, sizeof s);
    if (there.links[0].connected)
        EQUAL(ref_disconnect(LENT_ALL(t), &there, 0, PLACE), 0);
    EQUAL(ref_connect(LENT_ALL(t), &there, 0, 517, 1, PLACE), 0);
    EACH(at *SLOTS, at * SLOTS + SLOTS - 1) {
        uint32_t what = SLOT[k % SLOTS] == 4 ? 11 : SLOT[k % SLOTS];
        memset(&values[k], 0, sizeof values[k]);
        EQUAL(ref_read(LENT_ALL(t), &there, 0, at, what, 0, values[k].octets, sizeof values[k].octets, &values[k].len, PLACE),
              0);
    }
    free_copies(t);
}
/* The values of a service are looked at anew, and those that are others have changed for whoever is subscribed. */
static void note_changes(uint32_t at)
{
    uint8_t before[sizeof values];
    memcpy(before, values, sizeof values);
    look(at);
    EACH(0, 4 * ROUND) {
        hearing *h = &heard[k / ROUND][k % ROUND];
        if (memcmp(before + k % ROUND * sizeof values[0], &values[k % ROUND], sizeof values[0]) != 0)
            h->changed |= h->on;
    }
}

/* A call, and what it tells. A player of which no octet has changed has the values that it had. */
static uint32_t hears(int call, uint32_t client, uint32_t what, uint32_t number, const void *octets, size_t len, size_t room)
{
    ref_state was;
    uint32_t refusal;
    hearing *h;
    memcpy(&was, &s, sizeof s);
    refusal = makes(call, client, what, number, octets, len, room);
    if (refusal != 0)
        return refusal;
    EACH(0, 2)
        if (memcmp(&was.services[k].player, &s.services[k].player, sizeof was.services[k].player) != 0)
            note_changes(k);
    if (call == CONNECT || call == DISCONNECT)
        memset(heard[client], 0, sizeof heard[client]);
    if (call == CONNECT)
        mtu_of[client] = number;
    if (call == TAKE) {
        client = said.served[0];
        service = said.served[1];
        what = said.served[2];
    }
    if ((call != TAKE && call != WRITE && call != SUBSCRIBE && call != UNSUBSCRIBE) || what == 0)
        return 0;
    h = heard_of(client, what);
    if (call == SUBSCRIBE && !h->on) {
        h->on = 1;
        h->changed = h->how = 0;
    }
    if (call == UNSUBSCRIBE) {
        h->again |= h->on;
        h->on = 0;
    }
    if (call == TAKE) {
        CHECK(h->on);
        hear(h, TOOK, said.out, said.served[3]);
    }
    if (call == WRITE && h->on)
        hear(h, WROTE, octets, (uint32_t)len);
    return 0;
}

/* How often a slot that changed was known by a take and by its client's own write, by characteristic; had been subscribed to again;
 * was longer than ATT_MTU − 3; and had not changed, so that nothing is said of it. And the most takes that were needed. */
static unsigned long known[3][23], known_again, known_cut, not_changed, most_takes;
static int is_known(const hearing *h, uint32_t slot, uint32_t mtu)
{
    uint32_t len = SLOT[slot % SLOTS] == 4 ? 0 : values[slot].len, most = mtu - 3;
    known_again += h->again != 0;
    known_cut += len > most;
    known[h->how][SLOT[slot % SLOTS]]++;
    return h->how != UNHEARD && h->len == (len < most ? len : most) && memcmp(h->octets, values[slot].octets, h->len) == 0;
}
/* Once only takes with enough room are called (SCOPE 21.11): as many serve as things are owed, and then none. Then of every
 * subscribed slot but 7 and 18 that changed since subscribing what the client last took, or itself wrote since, is the present
 * value as far as ATT_MTU − 3 reaches (SCOPE 21.12). */
static void goes_quiet(void)
{
    ref_state was;
    uint32_t owed = owed_to_all(), takes_made = 0;
    EQUAL(hears(TAKE, 0, 0, 0, NULL, 0, ROOM + below(32)), 0);
    for (; said.served[2] != 0 && takes_made < 1000; takes_made++) EQUAL(hears(TAKE, 0, 0, 0, NULL, 0, ROOM + below(32)), 0);
    EQUAL(takes_made, owed);
    CHECK(takes_made <= 168);
    EQUAL(owed_to_all(), 0);
    most_takes = takes_made > most_takes ? takes_made : most_takes;
    memcpy(&was, &s, sizeof s);
    CHECK(takes(0, 0, "", 0));
    CHECK(memcmp(&was, &s, sizeof s) == 0);
    look(0);
    look(1);
    EACH(0, 4 * ROUND) {
        const hearing *h = &heard[k / ROUND][k % ROUND];
        uint32_t what = SLOT[k % SLOTS];
        not_changed += h->on && !h->changed;
        if (h->on && h->changed && what != 7 && what != 18)
            CHECK(is_known(h, k % ROUND, mtu_of[k / ROUND]));
    }
}

/* One of the calls by which values change, and by which clients hear of them. Some are refused. */
static void random_hearing(void)
{
    static const int CALL[14] = {ADVANCE,   ADVANCE,     ADVANCE, SET_NAME, ACTIVATE, ACTIVATE, SUBSCRIBE,
                                 SUBSCRIBE, UNSUBSCRIBE, TAKE,    TAKE,     READ,     CONNECT,  DISCONNECT};
    static const uint32_t WRITES[12] = {7, 8, 8, 11, 12, 12, 14, 15, 15, 18, 18, 18};
    static const char *const NAME[4] = {"", "Desk", "Door", "The desk at which the interviews of the autumn are typed"};
    int call = one_in(2) ? WRITE : CALL[below(14)];
    uint32_t client = below(4), what = call == WRITE ? WRITES[below(12)] : SLOT[below(SLOTS)];
    uint32_t number = one_in(2) ? below(4) : below(7000);
    const char *name = NAME[below(4)];
    uint8_t octets[6];
    size_t len = what == 7 ? 4 : what >= 11 && what <= 14 ? 6 : 1, room = one_in(12) ? below(ROOM) : ROOM + below(32);
    service = below(2);
    if (call == DISCONNECT && !one_in(3))
        call = one_in(4) ? DEACTIVATE : TAKE;
    if (call == ACTIVATE || call == READ)
        number = call == READ ? 0 : below(4);
    if (call == CONNECT) {
        what = 1;
        number = 22 + below(498);
    }
    put_number(octets, what == 7 ? (long)below(8000) - 1000 : (long)below(9));
    if (len == 6)
        memcpy(octets, random_number(what), 6);
    if (what == 18) {
        octets[0] = OPCODE[below(21)];
        put_number(octets + 1, (long)below(9) - 4);
        len = CARRIES_NUMBER(octets[0]) ? 5 : 1;
    }
    if (call == SET_NAME)
        (void)hears(call, 0, 0, 0, name, strlen(name), 0);
    else
        (void)hears(call, client, what, number, octets, call == WRITE ? len : 0, room);
    if (call == UNSUBSCRIBE && one_in(2))
        (void)hears(SUBSCRIBE, client, what, 0, NULL, 0, 0);
}

/* From a fresh start, with one catalogue and one text of renamed titles, things go quiet now and then. */
static void quiet_history(void)
{
    lend_sample();
    if (one_in(2))
        nest_groups();
    if (one_in(3))
        lent.words[TRACKS][6 * below(4)] = UNKNOWN;
    lend_random_titles();
    service = below(2);
    EQUAL(start(one_in(4) ? any() : ALL_OPCODES), 0);
    memset(heard, 0, sizeof heard);
    look(0);
    look(1);
    EACH(0, 4)
        if (!one_in(6))
            EQUAL(hears(CONNECT, k, 1, 23 + (one_in(2) ? 0 : below(495)), NULL, 0, 0), 0);
    EACH(0, 4 * ROUND) {
        service = k / SLOTS % 2;
        if (!one_in(4))
            (void)hears(SUBSCRIBE, k / ROUND, SLOT[k % SLOTS], 0, NULL, 0, 0);
    }
    EACH(0, 3) {
        for (uint32_t calls = below(80); calls > 0; calls--) random_hearing();
        goes_quiet();
    }
}

int main(int argc, char **argv)
{
    unsigned long histories = argc > 1 ? strtoul(argv[1], NULL, 10) : 300, made = 0;
    seed += (argc > 2 ? strtoul(argv[2], NULL, 10) : 0) * 0x9E3779B97F4A7C15u;
    other = OTHER;
    find_factors();
    for (service = 0; service < REF_SERVICES; service++) {
        move_cases();
        previous_segment_cases();
        running_cases();
        media_cases();
        owed_cases();
        take_cases();
        name_cases();
        order_cases();
        state_cases();
        value_cases();
        object_mark_cases();
        object_write_cases();
        name_kept_cases();
        name_used_cases();
        told_cases();
        renamed_cases();
        renamed_owed_cases();
        renamed_read_cases();
        clock_cases();
        clock_end_cases();
        rest_cases();
        rest_told_cases();
        manual_segment_cases();
        manual_track_cases();
        manual_group_cases();
        manual_result_cases();
    }
    service = 1;
    every_speed_cases();
    hour_cases();
    service = 0;
    catalogue_cases();
    title_cases();
    start_cases();
    number_cases();
    apart_cases();
    both_owed_cases();
    mark_cases();
    round_cases();
    most_owed_cases();
    both_states_cases();
    rename_refusal_cases();
    both_titles_cases();
    manual_refusal_cases();
    manual_sweep_cases();
    manual_full_cases();
    object_cases();
    object_read_cases();
    card_cases();
    reason_cases();
    short_cases();
    writer_cases();
    sheet_cases();
    for (unsigned long k = 0; k < histories; k++) history();
    for (unsigned long k = 0; k < 10 * histories; k++) quiet_history();
    EACH(0, CALLS) {
        CHECK(histories < 40 || (accepted[k] > 0 && refused[k] > 0));
        made += accepted[k] + refused[k];
    }
    EACH(0, 4) CHECK(histories < 40 || kinds[k] > 5 * histories);
    EACH(0, MET) CHECK(histories < 40 || met[k] > histories / 3);
    EACH(0, 15) CHECK(histories < 40 || shown[k / 5][k % 5] > histories / 3);
    EACH(0, 3) CHECK(histories < 40 || objects[k] > histories);
    EACH(0, SLOTS - 1) CHECK(histories < 40 || SLOT[k] == 7 || known[TOOK][SLOT[k]] > histories);
    EACH(0, 5) CHECK(histories < 40 || known[WROTE]["\x08\x0B\x0C\x0E\x0F"[k] & 31] > histories / 3);
    CHECK(histories < 40 || (known_again > histories && known_cut > histories && not_changed > histories && most_takes > 56));
    printf("checks: %lu, failures: %lu; random histories: %lu, calls: %lu; ", checks, failures, histories, made);
    printf("until nothing was owed: %lu times, by at most %lu takes\n", 30 * histories, most_takes);
    return failures == 0 ? 0 : 1;
}
