#include "places.h"

/* "UTF8-char = UTF8-1 / UTF8-2 / UTF8-3 / UTF8-4" (RFC 3629, section 4): a row for each line of these, with the bounds of the first
 * two octets; any further octet is 80 to BF. */
static const struct {
    uint8_t octets, first_least, first_most, second_least, second_most;
} ROWS[] = {
    {1, 0x00, 0x7F, 0, 0},       {2, 0xC2, 0xDF, 0x80, 0xBF}, {3, 0xE0, 0xE0, 0xA0, 0xBF},
    {3, 0xE1, 0xEC, 0x80, 0xBF}, {3, 0xED, 0xED, 0x80, 0x9F}, {3, 0xEE, 0xEF, 0x80, 0xBF},
    {4, 0xF0, 0xF0, 0x90, 0xBF}, {4, 0xF1, 0xF3, 0x80, 0xBF}, {4, 0xF4, 0xF4, 0x80, 0x8F},
};

static int between_both(uint8_t octet, uint8_t least, uint8_t most) { return octet >= least && octet <= most; }

/* The octets of the character that starts here; 0 where none does. */
static uint32_t character_at(const uint8_t *octets, uint32_t left)
{
    for (uint32_t row = 0; row < sizeof ROWS / sizeof ROWS[0]; row++) {
        int is = left >= ROWS[row].octets && between_both(octets[0], ROWS[row].first_least, ROWS[row].first_most);
        for (uint32_t k = 1; is && k < ROWS[row].octets; k++) {
            is = k == 1 ? between_both(octets[k], ROWS[row].second_least, ROWS[row].second_most)
                        : between_both(octets[k], 0x80, 0xBF);
        }
        if (is) {
            return ROWS[row].octets;
        }
    }
    return 0;
}

uint32_t wrong_octet(const uint8_t *octets, uint32_t length)
{
    uint32_t at = 0, character = 1;
    while (at < length && character > 0) {
        character = character_at(octets + at, length - at);
        at += character;
    }
    return at;
}

int is_cut_off(const uint8_t *octets, uint32_t at, uint32_t length)
{
    uint32_t needs = octets[at] >= 0xF0 ? 4 : octets[at] >= 0xE0 ? 3 : octets[at] >= 0xC2 ? 2 : 1;
    return length - at < needs;
}

/* ---- The rules of a catalogue (SCOPE 4), one by one */

/* At most 64 groups, 256 tracks, 1,024 segments, 32,768 text octets (SCOPE 4.2); a lent table ends inside a record (SCOPE 4.4). */
static int sizes_are_right(const tables *t)
{
    static const uint32_t MOST[TABLES] = {MCS_MOST_GROUPS, MCS_MOST_TRACKS, MCS_MOST_SEGMENTS, MCS_MOST_TEXT};
    for (uint32_t table = 0; table < TABLES; table++) {
        if (t->length[table] % record_entries(table) != 0 || t->length[table] / record_entries(table) > MOST[table]) {
            return 0;
        }
    }
    return 1;
}

/* Group 0, if any, is its own parent; every other parent number is smaller than its child's. The groups' track runs follow each
 * other from 0 in group order and use up all tracks (SCOPE 4.5, 4.6). */
static int groups_are_right(const tables *t)
{
    uint64_t tracks = 0;
    for (uint32_t g = 0; g < group_count(t); g++) {
        uint32_t parent = group_word(t, g, PARENT);
        if ((g == 0 ? parent != 0 : parent >= g) || group_word(t, g, FIRST_TRACK) != tracks) {
            return 0;
        }
        tracks += group_word(t, g, TRACK_COUNT);
    }
    return tracks == track_count(t);
}

/* A duration is 0 to 8,640,000, or not yet known (SCOPE 4.8); titles, also empty ones, lie in the text, have at most 128 octets
 * (SCOPE 4.11). */
int duration_and_title_fit(const tables *t, uint32_t track)
{
    uint32_t duration = track_word(t, track, DURATION), length = track_word(t, track, TITLE_LENGTH);
    return (duration <= MCS_MOST_DURATION || duration == MCS_RUNNING) && length <= 128 &&
           (uint64_t)track_word(t, track, TITLE_OFFSET) + length <= t->length[TEXT];
}

/* The tracks' segment runs follow each other in the same way (SCOPE 4.7); segment starts begin at 0, rise strictly and lie below
 * D (SCOPE 4.10). */
static int tracks_are_right(const tables *t)
{
    uint64_t segments = 0;
    for (uint32_t k = 0; k < track_count(t); k++) {
        uint32_t count = track_word(t, k, SEGMENT_COUNT), end = end_of_track(track_word(t, k, DURATION));
        if (!duration_and_title_fit(t, k) || track_word(t, k, FIRST_SEGMENT) != segments ||
            count > t->length[SEGMENTS] - segments) {
            return 0;
        }
        for (uint32_t j = 0; j < count; j++) {
            const uint32_t *start = t->segments + segments + j;
            if (*start >= end || (j == 0 ? *start != 0 : *start <= start[-1])) {
                return 0;
            }
        }
        segments += count;
    }
    return segments == t->length[SEGMENTS];
}

int plain_rules_hold(const tables *t) { return sizes_are_right(t) && groups_are_right(t) && tracks_are_right(t); }

/* ---- Where a text is wrong (SCOPE 20.4) */

uint32_t wrong_octet_of_title(const tables *t, uint32_t track)
{
    return wrong_octet(t->text + track_word(t, track, TITLE_OFFSET), track_word(t, track, TITLE_LENGTH));
}

uint32_t next_bad_title(const tables *t, uint32_t from)
{
    while (from < track_count(t) &&
           (!duration_and_title_fit(t, from) || wrong_octet_of_title(t, from) == track_word(t, from, TITLE_LENGTH))) {
        from++;
    }
    return from;
}

int catalogue_is_right(const tables *t) { return plain_rules_hold(t) && next_bad_title(t, 0) == track_count(t); }

uint32_t wrong_octet_of_name(const uint8_t *octets, uint32_t length)
{
    uint32_t wrong = length > 128 ? 128 : wrong_octet(octets, length);
    return wrong < length ? wrong : MCS_NOWHERE;
}

/* Of a start it is the generic player's name where that is bad, since it is checked first (SCOPE 17.6). */
static uint32_t wrong_octet_of_names(const step *s)
{
    uint32_t wrong = MCS_NOWHERE;
    if (s->kind != START) {
        return wrong_octet_of_name(s->octets, s->length);
    }
    for (uint32_t k = 0; k < MCS_SERVICES && wrong == MCS_NOWHERE; k++) {
        wrong = wrong_octet_of_name(s->octets + START_NAME_AT(k), s->players[k].length);
    }
    return wrong;
}

/* 207 carries an offset; of a name over 128 octets it is 128, tested first (SCOPE 20.4). 200 for a bad title carries the lowest
 * such track and the offset; every other 200 carries nothing and comes before (SCOPE 4.14). */
struct mcs_place place_of(const tables *t, const step *s, uint32_t number)
{
    struct mcs_place place = {MCS_NOWHERE, MCS_NOWHERE};
    if (number == MCS_BAD_NAME) {
        place.octet = wrong_octet_of_names(s);
    } else if (number == MCS_BAD_CATALOGUE && plain_rules_hold(t)) {
        place.track = next_bad_title(t, 0);
        place.octet = place.track < track_count(t) ? wrong_octet_of_title(t, place.track) : 0;
    }
    return place;
}
