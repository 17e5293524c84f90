/* A history of pseudo-random calls on the sample card, all twenty-one of them, accepted and refused. Every number that is returned and
 * everything that is written goes into one hash, which is printed at the end and must be the same wherever this runs. A place that can
 * tell how deep the calls went has that printed too. */
#include "place.h"
#include "words.h"

#include <string.h>

#ifndef HISTORY_CALLS
#define HISTORY_CALLS 20000u
#endif

/* The card lies in flash; its tables, the state and what calls write lie in RAM. */
static const uint8_t CARD[] = {
#include "card.inc"
};

#define GROUPS 4u
#define TRACKS 4u
#define STARTS 8u
#define TEXT_OCTETS 32u
#define ENTRIES 12u
#define OUT_OF 16u /* one call of so many has something wrong that is drawn for it */

static uint32_t groups[MCS_GROUP_WORDS * GROUPS], tracks[MCS_TRACK_WORDS * TRACKS], segments[STARTS];
static uint8_t text[TEXT_OCTETS], state[MCS_STATE_OCTETS], written[sizeof CARD];

/* What calls tell, in one piece, so that it can be hashed. */
static struct {
    uint32_t word, served[SERVED_WORDS], part[MCS_PART_WORDS], made[MCS_GOTO_MADE_WORDS], place[MCS_GOTO_PLACE_WORDS];
    uint32_t counts[4], block, line, track, octet, entries[ENTRIES];
    uint8_t out[MCS_OUTPUT_OCTETS];
} told;
static size_t count;

/* ---- Draws and the hash: xorshift, and Fowler, Noll and Vo's */

static uint32_t seed = 20261117u, hash = 2166136261u;

static uint32_t draw(uint32_t below)
{
    seed ^= seed << 13;
    seed ^= seed >> 17;
    seed ^= seed << 5;
    return seed % below;
}

static int rarely(void) { return draw(OUT_OF) == 0; }

static void hash_octets(const void *from, uint32_t octets)
{
    const uint8_t *octet = from;
    for (uint32_t k = 0; k < octets; k++) {
        hash = (hash ^ octet[k]) * 16777619u;
    }
}

/* ---- What is lent */

/* The office's text; the first part is no UTF-8, and no title. */
static const uint8_t OFFICE[] = "\xC3 Baker's, first hour  Pr\xC3\xA9lude";
static const uint32_t RENAMES[][MCS_RENAME_WORDS * TRACKS] = {
    {0}, {2, 19, 0, 0, 23, 8, 0, 0}, {0, 0, 23, 8, 2, 7, 10, 5}, {0, 1, 0, 0, 0, 0, 0, 0}, {25, 8, 0, 0, 0, 0, 0, 0},
};

static struct mcs_titles drawn_titles(void)
{
    /* The last two are refused. */
    const uint32_t which = rarely() ? 3u + draw(2) : draw(3);
    struct mcs_titles titles = {RENAMES[which], sizeof RENAMES[which] / sizeof RENAMES[which][0] - (rarely() ? 1u : 0u), OFFICE,
                                sizeof OFFICE - 1u};
    return titles;
}

static struct mcs_catalogue loaded_catalogue(void)
{
    struct mcs_catalogue c = {groups,   MCS_GROUP_WORDS * told.counts[0],
                              tracks,   MCS_TRACK_WORDS * told.counts[1],
                              segments, told.counts[2],
                              text,     told.counts[3]};
    return c;
}

static const struct {
    const char *octets;
    uint32_t length;
} NAMES[] = {{"Desk", 4},
             {"", 0},
             {"Desk 4, Pr\xC3\xA9lude", 16},
             {"The desk \xE2\x82\xAC\xF0\x9D\x84\x9E", 16},
             {"Desk\xC3", 5}},
  SHEETS[] = {{"", 0},
              {"INDEX 01 00:00:00\nINDEX 01 00:15:00\r\n  INDEX 01 01:02:74", 56},
              {"TITLE \"An hour\"\nTRACK 01 AUDIO\nINDEX 00 00:00:00\nINDEX 01 00:00:00\n", 66},
              {"INDEX 01 00:00:00\nINDEX 01 00:00:00\n", 36},
              {"REM nothing\nINDEX 01 00:60:00\n", 30}};
#define A_NAME draw(sizeof NAMES / sizeof NAMES[0])

static struct mcs_player drawn_player(void)
{
    const uint32_t name = A_NAME;
    struct mcs_player p = {(const uint8_t *)NAMES[name].octets, NAMES[name].length,
                           rarely() ? draw(MCS_ALL_OPCODES) : MCS_ALL_OPCODES, (uint8_t)draw(256)};
    return p;
}

/* ---- What is written: a value that may be right, of a length that mostly is */

#define OPCODE(number, parameter, words) {number, 1u + (parameter)},
static const uint8_t OPCODES[][2] = {MCS_EACH_OPCODE(OPCODE){0x66u, 1u}};
#undef OPCODE

static uint8_t value[8];

static uint32_t drawn_command(void)
{
    const uint8_t *opcode = OPCODES[draw(sizeof OPCODES / sizeof OPCODES[0])];
    value[0] = opcode[0];
    put_word(value + 1, draw(9) - 4u);
    return opcode[1];
}

static uint32_t drawn_value(uint32_t characteristic)
{
    static const uint8_t SPEEDS[] = {0, 0xC0, 64, 32, 0x80, 127, 1};
    memset(value, 0, sizeof value);
    switch (characteristic) {
    case MCS_CONTROL_POINT:
        return drawn_command();
    case MCS_POSITION:
        put_word(value, draw(7000) - 500u);
        return 4;
    case MCS_PLAYBACK_SPEED:
        value[0] = SPEEDS[draw(sizeof SPEEDS)];
        return 1;
    case MCS_GROUP_OBJECT:
        put_word(value, MCS_OBJECT_OF_GROUP(draw(GROUPS + 1u)));
        return MCS_OBJECT_OCTETS;
    case MCS_TRACK_OBJECT:
    case MCS_NEXT_TRACK_OBJECT:
        put_word(value, MCS_OBJECT_OF_TRACK(draw(TRACKS + 1u)));
        return MCS_OBJECT_OCTETS;
    default:
        value[0] = (uint8_t)draw(10);
        return 1;
    }
}

/* ---- The calls */

static uint32_t drawn_characteristic(uint32_t kind)
{
    static const uint8_t WRITTEN[] = {MCS_POSITION,          MCS_PLAYBACK_SPEED, MCS_TRACK_OBJECT,
                                      MCS_NEXT_TRACK_OBJECT, MCS_GROUP_OBJECT,   MCS_PLAYING_ORDER,
                                      MCS_CONTROL_POINT,     MCS_CONTROL_POINT,  MCS_CONTROL_POINT};
    if (kind == WRITE && !rarely()) {
        return WRITTEN[draw(sizeof WRITTEN)];
    }
    return draw(24);
}

static void lend_octets(call *c)
{
    uint32_t which = A_NAME;
    c->octets = (const uint8_t *)NAMES[which].octets;
    c->length = NAMES[which].length;
    if (c->kind == WRITE) {
        c->length = drawn_value(c->what) + (rarely() ? 1u : 0u);
        c->octets = value;
    } else if (c->kind == CARD_LOAD) {
        c->octets = CARD;
        c->length = sizeof CARD - (rarely() ? MCS_BLOCK_OCTETS - draw(2) : 0u);
    } else if (c->kind == CUE_SHEET) {
        which = draw(sizeof SHEETS / sizeof SHEETS[0]);
        c->octets = (const uint8_t *)SHEETS[which].octets;
        c->length = SHEETS[which].length;
    } else if (reads_object(c->kind)) {
        /* What was written last: an object of either kind, or the front of a card. */
        c->octets = written;
        c->length = told.word <= sizeof written ? told.word : 0;
    }
}

static uint32_t drawn_number(uint32_t kind)
{
    switch (kind) {
    case ADVANCE:
        return draw(rarely() ? 100000u : 900u);
    case CONNECT:
        return 20u + draw(120);
    case READ:
        return rarely() ? draw(20) : 0;
    case MANUAL_GOTO:
        return draw(25) - 12u;
    default:
        return draw(GROUPS + 1u);
    }
}

static call drawn_call(uint32_t kind)
{
    static const uint8_t GOTOS[] = {MCS_OPCODE_GOTO_SEGMENT, MCS_OPCODE_GOTO_TRACK, MCS_OPCODE_GOTO_GROUP, MCS_OPCODE_PLAY};
    call c = {
        .kind = kind, .who = rarely() ? 4u : draw(4), .service = rarely() ? 2u : draw(2), .allowed = draw(12), .state = state};
    c.what = kind == CONNECT ? !rarely() : kind == MANUAL_GOTO ? GOTOS[draw(sizeof GOTOS)] : drawn_characteristic(kind);
    c.number = drawn_number(kind);
    c.catalogue = loaded_catalogue();
    c.titles = drawn_titles();
    c.players[MCS_GENERIC] = drawn_player();
    c.players[MCS_NAMED] = drawn_player();
    lend_octets(&c);
    c.room = (struct mcs_room){groups,   sizeof groups / 4u,     tracks, sizeof tracks / 4u,
                               segments, rarely() ? 1u : STARTS, text,   sizeof text};
    c.out = told.out;
    c.out_len = sizeof told.out - (rarely() ? 1u : 0u);
    c.entries = told.entries;
    c.entries_len = draw(ENTRIES + 1u);
    c.written = written;
    c.written_len = rarely() ? draw(40) : sizeof written;
    c.word = &told.word;
    c.count = &count;
    c.served = told.served;
    c.part = told.part;
    c.made = told.made;
    c.place = told.place;
    c.counts = told.counts;
    c.block = &told.block;
    c.line = &told.line;
    c.track = &told.track;
    c.octet = &told.octet;
    return c;
}

/* Rarely an octet of the state or of the text is another one during a call, and is put back where the call refused it. */
static uint32_t made_with_damage(const call *c, uint32_t *deepest)
{
    uint8_t *octet = draw(2) == 0 ? &state[draw(sizeof state)] : &text[draw(sizeof text)];
    const uint8_t before = *octet;
    uint32_t number;
    *octet = (uint8_t)draw(256);
    number = made_here(c, deepest);
    if (number != MCS_OK) {
        *octet = before;
    }
    return number;
}

/* ---- The history */

static uint32_t made[CALLS], accepted[CALLS], deepest[CALLS];

static void make(uint32_t kind)
{
    const call c = drawn_call(kind);
    uint32_t deep, number, counted;
    number = has_state(kind) && rarely() ? made_with_damage(&c, &deep) : made_here(&c, &deep);
    made[kind]++;
    accepted[kind] += number == MCS_OK;
    deepest[kind] = deep > deepest[kind] ? deep : deepest[kind];
    counted = (uint32_t)count;
    hash_octets(&number, sizeof number);
    hash_octets(&counted, sizeof counted);
    hash_octets(&told, sizeof told);
    hash_octets(state, sizeof state);
    hash_octets(written, kind == CARD_WRITE || writes_object(kind) ? sizeof written : 0);
}

/* A start, a disconnect and a deactivate undo what a history has come to, so they are rare; a card load and a start come first. */
static uint32_t drawn_kind(void)
{
    const uint32_t kind = draw(3) == 0 ? WRITE : draw(3) == 0 ? TAKE : draw(CALLS);
    const int undoes = kind == START || kind == DISCONNECT || kind == DEACTIVATE;
    return undoes && !rarely() ? SUBSCRIBE : kind;
}

static void say_number(const char *before, uint32_t number)
{
    char digits[11];
    uint32_t at = sizeof digits - 1u;
    digits[at] = 0;
    do {
        digits[--at] = (char)('0' + number % 10u);
        number /= 10u;
    } while (number != 0);
    say(before);
    say(digits + at);
}

void play_history(void)
{
    while (accepted[CARD_LOAD] == 0) {
        make(CARD_LOAD);
    }
    while (accepted[START] == 0) {
        make(START);
    }
    for (uint32_t k = 0; k < HISTORY_CALLS; k++) {
        make(drawn_kind());
    }
    for (uint32_t kind = 0; kind < CALLS; kind++) {
        say(CALL_NAME[kind]);
        say_number(": accepted ", accepted[kind]);
        say_number(" of ", made[kind]);
        say_number(", deepest ", deepest[kind]);
        say("\n");
    }
    say_number("hash ", hash);
    say("\n");
}
