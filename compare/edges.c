/* What random calls meet late: words of one bit, long groups in every order, characters at the bounds of UTF-8, every rung. A
 * comment that names a rule, such as SCOPE 18.2, says it in a few words; docs/SCOPE.md has the rule. */
#include "cases.h"
#include "expect.h"
#include "order.h"
#include "service.h"

#include <string.h>

#define LEAST (-2147483647 - 1)
#define MOST 2147483647

/* ---- Words of one bit. A bit of subscribed or owed is a slot's, one of what was read that of a characteristic that may be read;
 * a slot that is owed but not subscribed, 18 owed otherwise than when results wait, a subscription while unencrypted, and a
 * client that is not connected and does not have start's record (SCOPE 20.5) are wrong. */

static void bit_cases(void)
{
    uint8_t standing[MCS_STATE_OCTETS];
    four_clients("a word of one bit");
    memcpy(standing, both->octets, sizeof standing);
    for (uint32_t k = 0; k < 32u * REF_CLIENTS; k++) {
        uint32_t bit = k % 32u, client = k / 32u, all = (1u << SLOTS) - 1u;
        int subscribes = client < 2, connected = client < 3;
        const struct {
            uint32_t subscribed, owed, read;
            int right;
        } WORDS[] = {
            {1u << bit, 0, 0, subscribes && bit < SLOTS},
            {all | 1u << bit, 0, 0, subscribes && bit < SLOTS},
            {1u << bit, 1u << bit, 0, subscribes && bit < SLOTS - 1},
            {all, 1u << bit, 0, subscribes && bit < SLOTS - 1},
            {all & ~(1u << bit), 1u << bit, 0, 0},
            {0, 0, 1u << bit, connected && (properties_of(bit) & MCS_MAY_READ) != 0},
        };
        for (uint32_t j = 0; j < sizeof WORDS / sizeof WORDS[0]; j++) {
            poke(0, standing, sizeof standing);
            poke_number(account_at(client, MCS_IN_SUBSCRIBED), WORDS[j].subscribed, 4);
            poke_number(account_at(client, MCS_IN_OWED), WORDS[j].owed, 4);
            poke_number(account_at(client, MCS_IN_READ), WORDS[j].read, 4);
            calls_give(WORDS[j].right ? 0 : MCS_BAD_STATE);
        }
    }
}

/* ---- Long groups: a group of over 64 tracks is put in order in another way than a shorter one */

enum { BEFORE = 2, LONG_GROUP = 2, DURATION_OF_ALL = 100 };

static uint32_t stamp_of(uint32_t pattern, uint32_t k)
{
    static const uint32_t ENDS[3] = {0xFFFFFFFFu, 0, 0x80000000u};
    switch (pattern) {
    case 0:
        return 7; /* ties alone */
    case 1:
        return 1000u - k;
    case 2:
        return ENDS[k % 3u];
    default:
        return (k / 2u) * 0x9E3779B1u; /* all over the range, two and two alike */
    }
}

/* Group 1 has two tracks, group 2 so many, group 3 one. */
static void long_catalogue(tables *t, uint32_t count, uint32_t pattern)
{
    const uint32_t tracks[4] = {0, BEFORE, count, 1};
    uint32_t first = 0;
    memset(t, 0, sizeof *t);
    for (uint32_t g = 0; g < 4; g++) {
        t->groups[MCS_GROUP_WORDS * g + FIRST_TRACK] = first;
        t->groups[MCS_GROUP_WORDS * g + TRACK_COUNT] = tracks[g];
        first += tracks[g];
    }
    for (uint32_t k = 0; k < first; k++) {
        t->tracks[MCS_TRACK_WORDS * k + DURATION] = DURATION_OF_ALL;
        t->tracks[MCS_TRACK_WORDS * k + STAMP] = stamp_of(pattern, k);
    }
    t->length[GROUPS] = 4 * MCS_GROUP_WORDS;
    t->length[TRACKS] = first * MCS_TRACK_WORDS;
    rename_nothing(t);
}

static void stand_in_list(uint32_t track, uint32_t position, uint8_t media)
{
    poke_number(player_at(MCS_IN_TRACK), track, 4);
    poke_number(player_at(MCS_IN_POSITION), position, 4);
    poke_number(player_at(MCS_IN_MEDIA_STATE), media, 1);
}

/* Every move from a place of a list; and the end of the track. */
static void moves_from(uint32_t place, const uint32_t *list, uint32_t length, int repeats)
{
    const int64_t count = (int64_t)group_word(&both->lent, LONG_GROUP, TRACK_COUNT);
    const int64_t numbers[13] = {0, 1, 2, count - 1, count, count + 1, MOST, -1, -2, 1 - count, -count, -1 - count, LEAST};
    int64_t to;
    for (uint32_t k = 0; k < 4 + 13; k++) {
        uint8_t opcode = (uint8_t)(k < 4 ? MCS_OPCODE_PREVIOUS_TRACK + k : MCS_OPCODE_GOTO_TRACK);
        int64_t n = k < 4 ? 0 : numbers[k - 4u];
        to = place_after(opcode, n, place, length, repeats);
        stand_in_list(list[place], 7, MCS_PAUSED);
        commands(opcode, n, to < 0 ? MCS_RESULT_NOT_COMPLETED : MCS_RESULT_SUCCESS);
        stands_at(LONG_GROUP, to < 0 ? list[place] : list[to], to < 0 ? 7 : 0);
    }
    /* At D or beyond comes the next track at 0 or, where there is none, Paused at D (SCOPE 13.5). */
    to = place_after(MCS_OPCODE_NEXT_TRACK, 0, place, length, repeats);
    stand_in_list(list[place], DURATION_OF_ALL, MCS_PLAYING);
    makes(blank(ADVANCE), 0);
    stands_at(LONG_GROUP, to < 0 ? list[place] : list[to], to < 0 ? DURATION_OF_ALL : 0);
    expect("the state", meant().media, to < 0 ? MCS_PAUSED : MCS_PLAYING);
}

static void order_cases(void)
{
    static const uint32_t COUNTS[3] = {64, 65, MCS_MOST_TRACKS - BEFORE - 1u};
    static tables t;
    uint32_t list[MCS_MOST_TRACKS];
    for (uint32_t k = 0; k < 3u * 4u; k++) {
        uint32_t count = COUNTS[k / 4u];
        long_catalogue(&t, count, k % 4u);
        now_trying("a long group");
        begin_run(both, &t);
        start_desk(MCS_ALL_OPCODES);
        connect_client(0);
        for (uint32_t order = 1; order <= 8; order++) {
            const uint32_t places[5] = {0, 1, count / 2u, count - 2u, count - 1u};
            poke_number(player_at(MCS_IN_ORDER), order, 1);
            list_in_order(&t, LONG_GROUP, order, list);
            activate(1, 0);
            commands(MCS_OPCODE_NEXT_GROUP, 0, MCS_RESULT_SUCCESS);
            stands_at(LONG_GROUP, list[0], 0);
            for (uint32_t j = 0; j < 5; j++) {
                /* Orders 1 and 2 have the current track alone (SCOPE 11.1). */
                if (order < 3) {
                    moves_from(0, list + places[j], 1, order == 2);
                } else {
                    moves_from(places[j], list, count, order % 2u == 0);
                }
            }
        }
    }
}

/* ---- Characters at the bounds of RFC 3629's lengths and ranges, and one beyond each */

static const struct {
    const char *octets;
    uint32_t length;
    int right;
} CHARACTER[] = {
    {"\x7F", 1, 1},
    {"\x80", 1, 0},
    {"\xC1\xBF", 2, 0},
    {"\xC2\x80", 2, 1},
    {"\xDF\xBF", 2, 1},
    {"\xE0\x9F\xBF", 3, 0},
    {"\xE0\xA0\x80", 3, 1},
    {"\xED\x9F\xBF", 3, 1},
    {"\xED\xA0\x80", 3, 0},
    {"\xEE\x80\x80", 3, 1},
    {"\xEF\xBF\xBF", 3, 1},
    {"\xF0\x8F\xBF\xBF", 4, 0},
    {"\xF0\x90\x80\x80", 4, 1},
    {"\xF3\xBF\xBF\xBF", 4, 1},
    {"\xF4\x8F\xBF\xBF", 4, 1},
    {"\xF4\x90\x80\x80", 4, 0},
    {"\xF5\x80\x80\x80", 4, 0},
    {"\xF1\x7F\x80\x80", 4, 0},
    {"\xF1\x80\xC0\x80", 4, 0},
    {"\xF1\x80\x80\x7F", 4, 0},
};

/* As the octets of a title, behind an octet that would begin a character, with the text ending there or going on. */
static void titled(const uint8_t *octets, uint32_t length, int right, uint32_t at)
{
    static tables t;
    for (uint32_t behind = 0; behind < 2; behind++) {
        sample_catalogue(&t);
        t.text[0] = 0xF1;
        memcpy(t.text + 1, octets, MCS_OUTPUT_OCTETS);
        t.length[TEXT] = 1u + (behind ? MCS_OUTPUT_OCTETS : length);
        for (uint32_t k = 0; k < track_count(&t); k++) {
            t.tracks[MCS_TRACK_WORDS * k + TITLE_OFFSET] = 1;
            t.tracks[MCS_TRACK_WORDS * k + TITLE_LENGTH] = k == 1 ? length : 0;
        }
        lend_tables(both, &t);
        makes(blank(START), right ? 0 : MCS_BAD_CATALOGUE);
        carries(right ? MCS_NOWHERE : 1, right ? MCS_NOWHERE : at);
    }
}

/* As a name that is set, and as one that a state has. */
static void named(const uint8_t *octets, uint32_t length, int right, uint32_t at)
{
    makes(with_octets(blank(SET_NAME), octets, length), right ? 0 : MCS_BAD_NAME);
    carries(MCS_NOWHERE, right ? MCS_NOWHERE : at);
    poke(player_at(MCS_IN_NAME), octets, MCS_OUTPUT_OCTETS);
    poke_number(player_at(MCS_IN_NAME_LENGTH), length, 1);
    makes(blank(TAKE), right ? 0 : MCS_BAD_STATE);
    poke_number(player_at(MCS_IN_NAME_LENGTH), 0, 1);
}

/* Each character at every place, cut behind each of its octets, and with one more behind it. Where it is not right, its first
 * octet is the one that SCOPE 2.6 asks for. */
static void in_every_place(void (*has)(const uint8_t *octets, uint32_t length, int right, uint32_t at))
{
    for (uint32_t k = 0; k < MCS_OUTPUT_OCTETS * (sizeof CHARACTER / sizeof CHARACTER[0]); k++) {
        uint32_t at = k % MCS_OUTPUT_OCTETS, which = k / MCS_OUTPUT_OCTETS, size = CHARACTER[which].length;
        uint8_t octets[MCS_OUTPUT_OCTETS + 4u];
        memset(octets, 'a', sizeof octets);
        memcpy(octets + at, CHARACTER[which].octets, size);
        for (uint32_t length = at + 1u; length <= at + size + 1u && length <= MCS_OUTPUT_OCTETS; length++) {
            has(octets, length, CHARACTER[which].right && length >= at + size, at);
        }
    }
}

/* ---- Seeking speed rungs: −32, −16, −8, −4, 4, 8, 16, 32 (SCOPE 8.5). */

static const int RUNG[8] = {-32, -16, -8, -4, 4, 8, 16, 32};

static void seek_at(int speed, uint32_t position)
{
    poke_number(player_at(MCS_IN_MEDIA_STATE), MCS_SEEKING, 1);
    poke_number(player_at(MCS_IN_SEEKING), (uint8_t)speed, 1);
    poke_number(player_at(MCS_IN_POSITION), position, 4);
}

static void seeks(uint32_t media, int speed)
{
    expect("the state", meant().media, media);
    expect("the seeking speed", meant().seeking, speed);
}

/* While Seeking, Fast Forward and Fast Rewind go one rung up or down, and stay at the end rung (SCOPE 9.6): from each rung to
 * each. */
static void climb_cases(void)
{
    for (int rung = 0; rung < 8; rung++) {
        seek_at(RUNG[rung], 10);
        for (int k = rung + 1; k < 10; k++) {
            commands(MCS_OPCODE_FAST_FORWARD, 0, MCS_RESULT_SUCCESS);
            seeks(MCS_SEEKING, RUNG[k < 8 ? k : 7]);
        }
        seek_at(RUNG[rung], 10);
        for (int k = rung - 1; k > -3; k--) {
            commands(MCS_OPCODE_FAST_REWIND, 0, MCS_RESULT_SUCCESS);
            seeks(MCS_SEEKING, RUNG[k > 0 ? k : 0]);
        }
    }
    /* Fast Forward enters Seeking at 4, Rewind at −4 (SCOPE 9.6). */
    for (uint32_t media = MCS_PLAYING; media <= MCS_PAUSED; media++) {
        seek_at(0, 10);
        poke_number(player_at(MCS_IN_MEDIA_STATE), media, 1);
        commands(MCS_OPCODE_FAST_FORWARD, 0, MCS_RESULT_SUCCESS);
        seeks(MCS_SEEKING, 4);
        seek_at(0, 10);
        poke_number(player_at(MCS_IN_MEDIA_STATE), media, 1);
        commands(MCS_OPCODE_FAST_REWIND, 0, MCS_RESULT_SUCCESS);
        seeks(MCS_SEEKING, -4);
    }
}

/* Seeking adds d times the seeking speed, held to 0 and D (SCOPE 13.7). Segment moves and Move Relative keep the state (SCOPE
 * 10.9, 9.10). Track and group moves turn Seeking into Playing (SCOPE 11.7, 12.3). Outside Seeking the speed is 0 (SCOPE 8.5). */
static void rung_cases(void)
{
    static const uint32_t TIMES[5] = {0, 1, 93, 94, 0xFFFFFFFFu};
    for (uint32_t rung = 0; rung < 8; rung++) {
        for (uint32_t k = 0; k < 5; k++) {
            int64_t to = 3000 + (int64_t)TIMES[k] * RUNG[rung];
            step s = blank(ADVANCE);
            s.number = TIMES[k];
            seek_at(RUNG[rung], 3000);
            makes(s, 0);
            stands_at(1, 0, (uint32_t)(to < 0 ? 0 : to > 6000 ? 6000 : to));
        }
        for (uint32_t k = 0; k < OPCODES; k++) {
            uint8_t opcode = OPCODE[k];
            uint32_t media = opcode == MCS_OPCODE_PLAY || opcode > MCS_OPCODE_GOTO_SEGMENT ? MCS_PLAYING
                             : opcode == MCS_OPCODE_PAUSE || opcode == MCS_OPCODE_STOP     ? MCS_PAUSED
                                                                                           : MCS_SEEKING;
            if (opcode == MCS_OPCODE_FAST_FORWARD || opcode == MCS_OPCODE_FAST_REWIND) {
                continue;
            }
            stand("a command while seeking", 4, 0, 1);
            /* In order 4 every track move is made; beside group 1 there is only group 3, the next. */
            seek_at(RUNG[rung], 3000);
            if (opcode == MCS_OPCODE_PREVIOUS_GROUP) {
                commands(opcode, 0, MCS_RESULT_NOT_COMPLETED);
                seeks(MCS_SEEKING, RUNG[rung]);
            } else {
                commands(opcode, 1, MCS_RESULT_SUCCESS);
                seeks(media, media == MCS_SEEKING ? RUNG[rung] : 0);
            }
        }
    }
}

/* Every octet as a seeking speed, in every state. */
static void speed_cases(void)
{
    stand("a seeking speed in a state", 3, 0, 0);
    for (uint32_t k = 0; k < 256u * 5u; k++) {
        uint32_t media = k / 256u;
        int is_rung = 0;
        for (uint32_t rung = 0; rung < 8; rung++) {
            is_rung |= (uint8_t)RUNG[rung] == k % 256u;
        }
        seek_at((int)(k % 256u), 0);
        poke_number(player_at(MCS_IN_MEDIA_STATE), media, 1);
        poke_number(player_at(MCS_IN_GROUP), media == MCS_INACTIVE ? 0 : 1, 4);
        makes(blank(TAKE), media < 4 && (media == MCS_SEEKING ? is_rung : k % 256u == 0) ? 0 : MCS_BAD_STATE);
    }
}

static void edges_of_a_service(void)
{
    bit_cases();
    order_cases();
    stand("a character at a bound, in a name", 3, 0, 0);
    in_every_place(named);
    stand("from rung to rung", 3, 0, 10);
    climb_cases();
    rung_cases();
    speed_cases();
}

static void all_edges(void)
{
    in_each_service(edges_of_a_service);
    now_trying("a character at a bound, in a title");
    in_every_place(titled);
}

unsigned long play_edges(FILE *out, run *r) { return expect_on(r, out, all_edges); }
