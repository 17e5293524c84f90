/* The titles that an office gives to tracks. A comment that names a rule, such as SCOPE 18.2, says it in a few words;
 * docs/SCOPE.md has the rule. */
#include "cases.h"
#include "expect.h"
#include "titles.h"

#include <string.h>

/* The sample's tracks 0, 1 and 3 have the titles "\xC3\x9Cberfahrt" at 0, "Rast" at 10 and "Ziel" at 14 of the card's text; track 2
 * has an empty one at 14. */
enum { SAMPLE_TRACKS = 4 };

typedef struct {
    uint32_t offset, length;
} entry;

/* The sample with so many words of these entries, the last one over and over, and an office's text. */
static tables t;

static void lend_sample(const entry entries[SAMPLE_TRACKS], uint32_t words, const void *text, uint32_t octets)
{
    sample_catalogue(&t);
    for (uint32_t k = 0; k < words; k++) {
        const entry *e = &entries[k / 2u < SAMPLE_TRACKS ? k / 2u : SAMPLE_TRACKS - 1];
        t.renames[k] = k % 2u == RENAME_OFFSET ? e->offset : e->length;
    }
    memcpy(t.office, text, octets);
    t.length[RENAMES] = words;
    t.length[OFFICE] = octets;
    lend_tables(both, &t);
}

static void rename_tracks(const entry entries[SAMPLE_TRACKS], const char *text)
{
    lend_sample(entries, MCS_RENAME_WORDS * SAMPLE_TRACKS, text, (uint32_t)strlen(text));
}

/* ---- 224, after 200: not one entry for each track, a length over 128, a part of length above 0 that is outside the text or not
 * UTF-8 (SCOPE 5.3) */

/* All octets of the office's text are the letter a, but one that starts no character, and a character of two octets. */
enum { OFFICE_OCTETS = 300, NONE_AT = 200, CHARACTER_AT = 250 };

/* The formatter takes a list in braces for a block. */
/* clang-format off */
#define NOT {0, 0}
/* clang-format on */

static const struct {
    const char *what;
    uint32_t words;
    entry entries[SAMPLE_TRACKS];
    uint32_t number;
} REFUSALS[] = {
    {"no track renamed", 8, {NOT, NOT, NOT, NOT}, MCS_OK},
    {"offsets of tracks that are not renamed", 8, {{0xFFFFFFFFu, 0}, {300, 0}, {301, 0}, {NONE_AT, 0}}, MCS_OK},
    {"no entries", 0, {NOT, NOT, NOT, NOT}, MCS_BAD_RENAMES},
    {"half an entry", 1, {NOT, NOT, NOT, NOT}, MCS_BAD_RENAMES},
    {"an entry too few", 6, {NOT, NOT, NOT, NOT}, MCS_BAD_RENAMES},
    {"a word too few", 7, {NOT, NOT, NOT, NOT}, MCS_BAD_RENAMES},
    {"a word too many", 9, {NOT, NOT, NOT, NOT}, MCS_BAD_RENAMES},
    {"an entry too many", 10, {NOT, NOT, NOT, NOT}, MCS_BAD_RENAMES},
    {"an entry too many, of a track that there is", 10, {{0, 1}, {0, 1}, {0, 1}, {0, 1}}, MCS_BAD_RENAMES},
    {"titles of 1 and of 128 octets", 8, {{0, 1}, {0, 128}, {1, 128}, {72, 128}}, MCS_OK},
    {"a title of 129 octets", 8, {{0, 129}, NOT, NOT, NOT}, MCS_BAD_RENAMES},
    {"the last title of 129 octets", 8, {NOT, NOT, NOT, {0, 129}}, MCS_BAD_RENAMES},
    {"a title of 256 octets", 8, {NOT, {0, 256}, NOT, NOT}, MCS_BAD_RENAMES},
    {"a title of 0x80000000 octets", 8, {NOT, {0, 0x80000000u}, NOT, NOT}, MCS_BAD_RENAMES},
    {"a title of 0xFFFFFFFF octets", 8, {NOT, {1, 0xFFFFFFFFu}, NOT, NOT}, MCS_BAD_RENAMES},
    {"titles up to the text's end", 8, {{299, 1}, {295, 5}, {252, 48}, {250, 50}}, MCS_OK},
    {"an octet behind the text", 8, {NOT, NOT, {295, 6}, NOT}, MCS_BAD_RENAMES},
    {"a title at the text's end", 8, {NOT, NOT, {300, 1}, NOT}, MCS_BAD_RENAMES},
    {"a title behind the text", 8, {NOT, NOT, {301, 1}, NOT}, MCS_BAD_RENAMES},
    {"a title at 0x80000000", 8, {NOT, NOT, {0x80000000u, 1}, NOT}, MCS_BAD_RENAMES},
    /* The sum of offset and length needs more than 32 bits, and would lie in the text without the upper ones. */
    {"a title at 0xFFFFFFFF", 8, {NOT, NOT, {0xFFFFFFFFu, 1}, NOT}, MCS_BAD_RENAMES},
    {"a title of 128 octets at 0xFFFFFF81", 8, {{0xFFFFFF81u, 128}, NOT, NOT, NOT}, MCS_BAD_RENAMES},
    {"a title bad at its first octet", 8, {NOT, {NONE_AT, 5}, NOT, NOT}, MCS_BAD_RENAMES},
    {"a title bad in the middle", 8, {NOT, NOT, {190, 20}, NOT}, MCS_BAD_RENAMES},
    {"a title bad at its last octet", 8, {NOT, NOT, NOT, {196, 5}}, MCS_BAD_RENAMES},
    {"a title of 128 octets bad at the last", 8, {{73, 128}, NOT, NOT, NOT}, MCS_BAD_RENAMES},
    {"titles beside what is no character", 8, {{100, 100}, {201, 49}, NOT, NOT}, MCS_OK},
    {"a title that ends inside a character", 8, {{240, 11}, NOT, NOT, NOT}, MCS_BAD_RENAMES},
    {"a title that ends behind the character", 8, {{240, 12}, NOT, NOT, NOT}, MCS_OK},
    {"a title that begins inside a character", 8, {{251, 3}, NOT, NOT, NOT}, MCS_BAD_RENAMES},
    {"a title of half a character", 8, {{250, 1}, NOT, NOT, NOT}, MCS_BAD_RENAMES},
    {"one title for all tracks", 8, {{10, 20}, {10, 20}, {10, 20}, {10, 20}}, MCS_OK},
    {"titles that overlap", 8, {{10, 20}, {15, 20}, {12, 3}, {29, 2}}, MCS_OK},
};

static void refusal_cases(void)
{
    uint8_t text[OFFICE_OCTETS];
    memset(text, 'a', sizeof text);
    memcpy(text + NONE_AT, "\xFF", 1);
    memcpy(text + CHARACTER_AT, "\xC3\xA9", 2);
    for (size_t k = 0; k < sizeof REFUSALS / sizeof REFUSALS[0]; k++) {
        four_clients(REFUSALS[k].what);
        lend_sample(REFUSALS[k].entries, REFUSALS[k].words, text, OFFICE_OCTETS);
        calls_give(REFUSALS[k].number);
        if (REFUSALS[k].number == MCS_OK) {
            continue;
        }
        /* 224 comes before 205, 201, 202, 219 and all others, and it carries nothing. */
        all_calls_give(has_state, MCS_BAD_RENAMES, MCS_NOWHERE, MCS_NOWHERE);
        poke_number(MCS_AT_TURN, MCS_CLIENTS, 4);
        all_calls_give(has_state, MCS_BAD_RENAMES, MCS_NOWHERE, MCS_NOWHERE);
        /* 224 comes after 200 (SCOPE 20.2), which carries the place of a bad title. */
        t.text[11] = 0xFF;
        lend_tables(both, &t);
        all_calls_give(has_state, MCS_BAD_CATALOGUE, 1, 1);
        t.groups[MCS_GROUP_WORDS * 3 + PARENT] = 3;
        lend_tables(both, &t);
        all_calls_give(has_state, MCS_BAD_CATALOGUE, MCS_NOWHERE, MCS_NOWHERE);
    }
    four_clients("an empty text of the office");
    lend_sample((const entry[SAMPLE_TRACKS]){NOT, NOT, NOT, {0, 1}}, 8, "", 0);
    calls_give(MCS_BAD_RENAMES);
    now_trying("a catalogue without tracks");
    memset(&t, 0, sizeof t);
    begin_run(both, &t);
    start_desk(0);
    t.length[RENAMES] = 1;
    lend_tables(both, &t);
    makes(blank(TAKE), MCS_BAD_RENAMES);
    t.length[RENAMES] = 2;
    lend_tables(both, &t);
    makes(blank(TAKE), MCS_BAD_RENAMES);
}

/* ---- The title is a part of the office's text or of the card's text (SCOPE 5.6) */

static void stands_in(uint32_t text, uint32_t offset, uint32_t length)
{
    const uint32_t *words = both->library_said.part;
    makes(blank(TITLE), 0);
    expect("the text of the title", words[PART_TEXT], text);
    expect("the offset of the title", words[PART_OFFSET], offset);
    expect("the length of the title", words[PART_LENGTH], length);
}

static void on_track(uint32_t track)
{
    poke_number(player_at(MCS_IN_GROUP), track == 3 ? 3 : 1, 4);
    poke_number(player_at(MCS_IN_TRACK), track, 4);
}

static void part_cases(void)
{
    static const entry NOTHING[SAMPLE_TRACKS] = {NOT, NOT, NOT, NOT}, SOME[SAMPLE_TRACKS] = {{4, 3}, {7, 0}, {0, 1}, NOT};
    stand("where a title stands", 3, 0, 0);
    stands_in(MCS_CARD_TEXT, 0, 10);
    on_track(1);
    stands_in(MCS_CARD_TEXT, 10, 4);
    on_track(2);
    stands_in(MCS_CARD_TEXT, 14, 0);
    on_track(3);
    stands_in(MCS_CARD_TEXT, 14, 4);
    rename_tracks(SOME, "Hafen 2");
    stands_in(MCS_CARD_TEXT, 14, 4);
    on_track(2);
    stands_in(MCS_OFFICE_TEXT, 0, 1);
    on_track(1);
    stands_in(MCS_CARD_TEXT, 10, 4);
    on_track(0);
    stands_in(MCS_OFFICE_TEXT, 4, 3);
    rename_tracks(NOTHING, "Hafen 2");
    stands_in(MCS_CARD_TEXT, 0, 10);
    rename_tracks(SOME, "Hafen 2");
    /* Refused or Inactive, the part is the empty front of the card's text (SCOPE 5.7). */
    makes(blank(DEACTIVATE), 0);
    stands_in(MCS_CARD_TEXT, 0, 0);
}

/* 200, 224, 201, 219: each is told where those before it do not apply. */
static void title_refusal_cases(void)
{
    static const entry LONG[SAMPLE_TRACKS] = {{0, 129}, NOT, NOT, NOT}, SHORT[SAMPLE_TRACKS] = {{0, 1}, NOT, NOT, NOT};
    step s = blank(TITLE);
    four_clients("a title call with everything wrong");
    s.service = MCS_SERVICES;
    poke_number(MCS_AT_TURN, MCS_CLIENTS, 4);
    rename_tracks(LONG, "x");
    t.length[GROUPS]--;
    lend_tables(both, &t);
    makes(s, MCS_BAD_CATALOGUE);
    rename_tracks(LONG, "x");
    makes(s, MCS_BAD_RENAMES);
    rename_tracks(SHORT, "x");
    makes(s, MCS_BAD_STATE);
    poke_number(MCS_AT_TURN, 0, 4);
    makes(s, MCS_NO_SERVICE);
    s.service = 0xFFFFFFFFu;
    makes(s, MCS_NO_SERVICE);
    stands_in(MCS_OFFICE_TEXT, 0, 1);
}

/* ---- 5 is the title of the current track (SCOPE 16.3), in reads, takes and marks */

static void reads_title(uint32_t offset, uint32_t number, const char *octets)
{
    step s = blank(READ);
    s.what = MCS_TITLE;
    s.number = offset;
    makes(s, number);
    if (number == MCS_OK) {
        expect("the octets read", both->library_said.length, (int64_t)strlen(octets));
        expect("octets that differ", memcmp(both->library_said.out, octets, strlen(octets)) != 0, 0);
    }
}

static void takes_title(const char *octets) { takes(0, MCS_TITLE, octets, (uint32_t)strlen(octets)); }

/* ATT_MTU is 23: a read hands out 22 octets, and a take 20. */
static void value_cases(void)
{
    static const entry LONG[SAMPLE_TRACKS] = {{1, 30}, NOT, {31, 22}, {0, 1}};
    stand("a title of the office that is read and taken", 3, 0, 0);
    subscribe_to(0, MCS_TITLE);
    rename_tracks(LONG, u8"-Gespräch mit dem Hafenmeister1234567890123456789012-");
    reads_title(0, MCS_OK, u8"Gespräch mit dem Hafe");
    reads_title(22, MCS_OK, "nmeister");
    reads_title(30, MCS_OK, "");
    reads_title(31, MCS_BEYOND_END, "");
    takes_nothing();
    activate(3, 0);
    takes_title("-");
    activate(1, 0);
    takes_title(u8"Gespräch mit dem Ha");
    makes(blank(DEACTIVATE), 0);
    takes_title("");
    reads_title(0, MCS_OK, "");
    takes_nothing();
}

/* From group 1, whose first track is 0, to group 3, whose track is 3: what is owed is the title of track 3, unless it is the same. */
static void change_cases(void)
{
    static const struct {
        const char *what;
        entry entries[SAMPLE_TRACKS];
        const char *text, *from;
        const char *to; /* where it is another */
    } CASES[] = {
        {"neither renamed", {NOT, NOT, NOT, NOT}, "", u8"Überfahrt", "Ziel"},
        {"the first renamed", {{0, 5}, NOT, NOT, NOT}, "Hafen", "Hafen", "Ziel"},
        {"the second renamed", {NOT, NOT, NOT, {0, 5}}, "Hafen", u8"Überfahrt", "Hafen"},
        {"both renamed", {{0, 5}, NOT, NOT, {5, 5}}, "HafenKueste", "Hafen", "Kuest"},
        {"the first renamed as the second is on the card", {{1, 4}, NOT, NOT, NOT}, "-Ziel-", "Ziel", NULL},
        {"the second renamed as the first is on the card", {NOT, NOT, NOT, {0, 10}}, u8"Überfahrt", u8"Überfahrt", NULL},
        {"one part for both", {{2, 3}, NOT, NOT, {2, 3}}, "Hafen", "fen", NULL},
        {"two parts that are equal", {{0, 5}, NOT, NOT, {6, 5}}, "Hafen-Hafen", "Hafen", NULL},
        {"two parts, one the other's front", {{0, 5}, NOT, NOT, {0, 4}}, "Hafen", "Hafen", "Hafe"},
        {"two parts of one length", {{0, 4}, NOT, NOT, {1, 4}}, "Hafen", "Hafe", "afen"},
        /* The title of another track plays no part. */
        {"the tracks between renamed", {NOT, {0, 4}, {0, 4}, NOT}, "Ziel", u8"Überfahrt", "Ziel"},
    };
    for (size_t k = 0; k < sizeof CASES / sizeof CASES[0]; k++) {
        stand(CASES[k].what, 3, 0, 0);
        rename_tracks(CASES[k].entries, CASES[k].text);
        subscribe_to(0, MCS_TITLE);
        reads_title(0, MCS_OK, CASES[k].from);
        activate(3, 0);
        reads_title(1, CASES[k].to == NULL ? MCS_OK : MCS_VALUE_CHANGED, CASES[k].from + 1);
        if (CASES[k].to != NULL) {
            takes_title(CASES[k].to);
        }
        takes_nothing();
        reads_title(0, MCS_OK, CASES[k].to == NULL ? CASES[k].from : CASES[k].to);
    }
}

/* A call reads the titles before and after it with what it is lent itself, so that other titles make nothing owed and mark nothing. */
static void exchange_cases(void)
{
    static const entry FIRST[SAMPLE_TRACKS] = {{0, 5}, NOT, NOT, NOT}, NOTHING[SAMPLE_TRACKS] = {NOT, NOT, NOT, NOT};
    static const entry LAST[SAMPLE_TRACKS] = {NOT, NOT, NOT, {0, 5}}, AS_LAST[SAMPLE_TRACKS] = {{0, 4}, NOT, NOT, NOT};
    stand("other titles between two calls", 3, 0, 0);
    subscribe_to(0, MCS_TITLE);
    reads_title(0, MCS_OK, u8"Überfahrt");
    rename_tracks(FIRST, "Hafen");
    takes_nothing();
    reads_title(1, MCS_OK, "afen");
    reads_title(5, MCS_OK, "");
    reads_title(6, MCS_BEYOND_END, "");
    set_name("Door");
    reads_title(1, MCS_OK, "afen");
    takes_nothing();
    /* With what the call is lent, both tracks have one title, whatever was shown before. */
    rename_tracks(AS_LAST, "Ziel");
    activate(3, 0);
    takes_nothing();
    reads_title(1, MCS_OK, "iel");
    /* What is owed is handed out as it is at the take. */
    activate(1, 0);
    takes_nothing();
    rename_tracks(FIRST, "Hafen");
    activate(3, 0);
    rename_tracks(LAST, "Kueste");
    reads_title(1, MCS_VALUE_CHANGED, "");
    takes_title("Kuest");
    takes_nothing();
    rename_tracks(NOTHING, "");
    takes_nothing();
    reads_title(0, MCS_OK, "Ziel");
}

static void cases_of_a_service(void)
{
    part_cases();
    title_refusal_cases();
    value_cases();
    change_cases();
    exchange_cases();
}

static void all_renames(void)
{
    refusal_cases();
    in_each_service(cases_of_a_service);
}

unsigned long play_renames(FILE *out, run *r) { return expect_on(r, out, all_renames); }
