/* Texts that are not UTF-8: what 200 and 207 carry, in every call that gives them. A comment that names a rule, such as SCOPE
 * 18.2, says it in a few words; docs/SCOPE.md has the rule. */
#include "cases.h"
#include "expect.h"

#include <string.h>

/* The sample with a text of these octets: all are the letter a, but one that starts no character, and a character of two octets. */
enum { TEXT_OCTETS = 400, NONE_AT = 200, CHARACTER_AT = 300, LONGEST_NAME = 128 };

/* What else is wrong with the catalogue. */
enum { NOTHING_ELSE, OWN_PARENT, CUT_TRACKS, SPARE_SEGMENT, LONG_FIRST_TRACK, LONG_LAST_TRACK, LATE_START };

static void spoil_rule(tables *t, uint32_t rule)
{
    switch (rule) {
    case OWN_PARENT:
        t->groups[MCS_GROUP_WORDS * 3 + PARENT] = 3;
        break;
    case CUT_TRACKS:
        t->length[TRACKS] -= 1;
        break;
    case SPARE_SEGMENT:
        t->length[SEGMENTS] += 1;
        break;
    case LONG_FIRST_TRACK:
        t->tracks[DURATION] = MCS_MOST_DURATION + 1u;
        break;
    case LONG_LAST_TRACK:
        t->tracks[MCS_TRACK_WORDS * 3 + DURATION] = MCS_MOST_DURATION + 1u;
        break;
    case LATE_START:
        t->segments[2] = t->tracks[DURATION];
        break;
    default:
        break;
    }
}

#define CARRIED_NOWHERE MCS_NOWHERE, MCS_NOWHERE

/* 200 for a bad title carries the lowest such track and the offset; every other 200 carries nothing and comes before (SCOPE
 * 4.14). */
static void title_cases(void)
{
    static const struct {
        const char *what;
        struct {
            uint32_t at, length;
        } titles[4];
        uint32_t rule, track, octet;
    } CASES[] = {
        {"a title bad at its first octet", {{0, 9}, {NONE_AT, 5}, {0, 0}, {0, 4}}, NOTHING_ELSE, 1, 0},
        {"a title bad in the middle", {{0, 9}, {195, 10}, {0, 0}, {0, 4}}, NOTHING_ELSE, 1, 5},
        {"a title bad at its last octet", {{0, 9}, {0, 0}, {196, 5}, {0, 4}}, NOTHING_ELSE, 2, 4},
        {"a title of 128 octets bad at the last", {{73, 128}, {0, 0}, {0, 128}, {0, 4}}, NOTHING_ELSE, 0, 127},
        {"a title that ends inside a character", {{0, 9}, {290, 11}, {290, 12}, {0, 4}}, NOTHING_ELSE, 1, 10},
        {"a title that begins inside a character", {{0, 9}, {300, 2}, {301, 9}, {0, 4}}, NOTHING_ELSE, 2, 0},
        {"the last title bad", {{0, 9}, {0, 0}, {300, 100}, {NONE_AT, 1}}, NOTHING_ELSE, 3, 0},
        {"two bad titles, the offset of the second lower", {{0, 9}, {101, 100}, {0, 0}, {NONE_AT, 1}}, NOTHING_ELSE, 1, 99},
        {"two bad titles, the first behind in the text", {{0, 9}, {301, 1}, {NONE_AT, 1}, {0, 4}}, NOTHING_ELSE, 1, 0},
        {"one bad title of all tracks", {{190, 20}, {190, 20}, {190, 20}, {190, 20}}, NOTHING_ELSE, 0, 10},
        {"bad titles that overlap", {{0, 9}, {150, 50}, {198, 10}, {195, 10}}, NOTHING_ELSE, 2, 2},
        {"no title bad", {{0, 9}, {150, 50}, {201, 99}, {300, 2}}, OWN_PARENT, CARRIED_NOWHERE},
        /* A title over 128 octets or outside the text is not a bad one: it carries nothing, wherever it is. */
        {"a bad title of 129 octets", {{0, 9}, {190, 129}, {0, 0}, {0, 4}}, NOTHING_ELSE, CARRIED_NOWHERE},
        {"one of 129 octets before a bad one", {{0, 129}, {NONE_AT, 1}, {0, 0}, {0, 4}}, NOTHING_ELSE, CARRIED_NOWHERE},
        {"one of 129 octets behind a bad one", {{NONE_AT, 1}, {0, 0}, {0, 0}, {0, 129}}, NOTHING_ELSE, CARRIED_NOWHERE},
        {"one outside the text behind a bad one", {{NONE_AT, 1}, {390, 11}, {0, 0}, {0, 4}}, NOTHING_ELSE, CARRIED_NOWHERE},
        {"an empty one outside the text", {{NONE_AT, 1}, {0, 9}, {401, 0}, {0, 4}}, NOTHING_ELSE, CARRIED_NOWHERE},
        {"an empty one at the text's end", {{NONE_AT, 1}, {0, 9}, {400, 0}, {0, 4}}, NOTHING_ELSE, 0, 0},
        {"a group that is its own parent", {{NONE_AT, 1}, {0, 0}, {0, 0}, {0, 4}}, OWN_PARENT, CARRIED_NOWHERE},
        {"tracks that end inside a record", {{NONE_AT, 1}, {0, 0}, {0, 0}, {0, 4}}, CUT_TRACKS, CARRIED_NOWHERE},
        {"a segment of no track", {{NONE_AT, 1}, {0, 0}, {0, 0}, {0, 4}}, SPARE_SEGMENT, CARRIED_NOWHERE},
        {"a long track before a bad title", {{0, 9}, {NONE_AT, 1}, {0, 0}, {0, 4}}, LONG_FIRST_TRACK, CARRIED_NOWHERE},
        {"a long track behind a bad title", {{NONE_AT, 1}, {0, 0}, {0, 0}, {0, 4}}, LONG_LAST_TRACK, CARRIED_NOWHERE},
        {"a long track with a bad title", {{0, 9}, {0, 0}, {0, 0}, {NONE_AT, 1}}, LONG_LAST_TRACK, CARRIED_NOWHERE},
        {"a late start behind no bad title", {{0, 9}, {0, 0}, {0, 0}, {NONE_AT, 1}}, LATE_START, CARRIED_NOWHERE},
    };
    static tables t;
    for (size_t k = 0; k < sizeof CASES / sizeof CASES[0]; k++) {
        four_clients(CASES[k].what);
        sample_catalogue(&t);
        memset(t.text, 'a', TEXT_OCTETS);
        memcpy(t.text + NONE_AT, "\xFF", 1);
        memcpy(t.text + CHARACTER_AT, "\xC3\xA9", 2);
        t.length[TEXT] = TEXT_OCTETS;
        for (uint32_t track = 0; track < 4; track++) {
            t.tracks[MCS_TRACK_WORDS * track + TITLE_OFFSET] = CASES[k].titles[track].at;
            t.tracks[MCS_TRACK_WORDS * track + TITLE_LENGTH] = CASES[k].titles[track].length;
        }
        spoil_rule(&t, CASES[k].rule);
        lend_tables(both, &t);
        all_calls_give(has_catalogue, MCS_BAD_CATALOGUE, CASES[k].track, CASES[k].octet);
        /* 200 comes before 201. */
        poke_number(MCS_AT_TURN, MCS_CLIENTS, 4);
        all_calls_give(has_catalogue, MCS_BAD_CATALOGUE, CASES[k].track, CASES[k].octet);
    }
}

/* 207 carries an offset; of a name over 128 octets it is 128, tested first (SCOPE 20.4). */
static void name_cases(void)
{
    static const struct {
        uint32_t length, at;
        const char *octets; /* there; all others are the letter a */
        uint32_t number, octet;
    } CASES[] = {
        {0, 0, "", MCS_OK, MCS_NOWHERE},
        {1, 0, "\xFF", MCS_BAD_NAME, 0},
        {1, 0, "\xC3", MCS_BAD_NAME, 0},
        {9, 0, "\xA9", MCS_BAD_NAME, 0},
        {9, 5, "\xC3", MCS_BAD_NAME, 5},
        {9, 5, "\xE2\x82", MCS_BAD_NAME, 5},
        {9, 7, "\xE2\x82", MCS_BAD_NAME, 7},
        {9, 4, "\xC3\xA9\xF4\x90", MCS_BAD_NAME, 6},
        {128, 127, "\xFF", MCS_BAD_NAME, 127},
        {128, 127, "\xC3", MCS_BAD_NAME, 127},
        {128, 124, "\xF0\x9F\x8E\xB5", MCS_OK, MCS_NOWHERE},
        {128, 125, "\xF0\x9F\x8E\xB5", MCS_BAD_NAME, 125},
        {129, 0, "", MCS_BAD_NAME, 128},
        {129, 0, "\xFF", MCS_BAD_NAME, 128},
        {129, 127, "\xC3\xA9", MCS_BAD_NAME, 128},
        {129, 128, "\xFF", MCS_BAD_NAME, 128},
        {START_NAME_ROOM, 5, "\xC3", MCS_BAD_NAME, 128},
    };
    for (size_t k = 0; k < sizeof CASES / sizeof CASES[0]; k++) {
        uint8_t octets[START_NAME_ROOM];
        step start = blank(START), name;
        memset(octets, 'a', sizeof octets);
        memcpy(octets + CASES[k].at, CASES[k].octets, strlen(CASES[k].octets));
        four_clients("a name");
        name = with_octets(blank(SET_NAME), octets, CASES[k].length);
        makes(name, CASES[k].number);
        carries(MCS_NOWHERE, CASES[k].octet);
        /* 201 comes before 207, of a set name; and for its own name too it carries nothing. */
        poke_number(MCS_AT_TURN, MCS_CLIENTS, 4);
        makes(name, MCS_BAD_STATE);
        carries(MCS_NOWHERE, MCS_NOWHERE);
        start = with_name(start, octets, CASES[k].length);
        makes(start, CASES[k].number);
        carries(MCS_NOWHERE, CASES[k].octet);
        if (CASES[k].length > 0 && CASES[k].length <= LONGEST_NAME && CASES[k].number != MCS_OK) {
            start_desk(0);
            poke(player_at(MCS_IN_NAME), octets, LONGEST_NAME);
            poke_number(player_at(MCS_IN_NAME_LENGTH), CASES[k].length, 1);
            makes(blank(DEACTIVATE), MCS_BAD_STATE);
            carries(MCS_NOWHERE, MCS_NOWHERE);
        }
    }
}

static void all_bad_texts(void)
{
    title_cases();
    in_each_service(name_cases);
}

unsigned long play_bad_texts(FILE *out, run *r) { return expect_on(r, out, all_bad_texts); }
