#include "catalogue.h"
#include "places.h"
#include "text.h"

#include <string.h>

#define NEVER UINT32_MAX

/* Most are small, since every call checks the whole; some reach a limit in one table, a few in all. */
typedef struct {
    uint32_t groups, tracks, segments, text;
} shape;

static shape random_shape(dice *d)
{
    shape s;
    uint32_t kind = below(d, 64);
    s.groups = between(d, 1, 6);
    s.tracks = one_in(d, 24) ? 0 : between(d, 1, 12);
    s.segments = below(d, 24);
    s.text = below(d, 260);
    if (kind < 40) {
        return s;
    }
    if (kind < 54) {
        s.groups = between(d, 1, 20);
        s.tracks = between(d, 1, 50);
        s.segments = below(d, 80);
        s.text = below(d, 1200);
        return s;
    }
    switch (kind) {
    case 54:
        return (shape){0, 0, 0, 0};
    case 55:
        return (shape){0, 0, 0, below(d, 30)};
    case 56:
    case 57:
        s.groups = MCS_MOST_GROUPS;
        return s;
    case 58:
    case 59:
        s.tracks = MCS_MOST_TRACKS;
        s.segments = below(d, 24);
        return s;
    case 60:
        s.segments = MCS_MOST_SEGMENTS;
        return s;
    case 61:
        s.text = MCS_MOST_TEXT;
        return s;
    case 62:
        s.tracks = 1;
        s.groups = 1;
        return s;
    default:
        if (!one_in(d, 4)) {
            return s;
        }
        return (shape){MCS_MOST_GROUPS, MCS_MOST_TRACKS, MCS_MOST_SEGMENTS, MCS_MOST_TEXT};
    }
}

static void draw_groups(dice *d, tables *t, const shape *s)
{
    uint32_t share[MCS_MOST_GROUPS] = {0}, with_tracks[MCS_MOST_GROUPS], count = 0, first = 0;
    int flat = one_in(d, 3), nested = one_in(d, 4);
    /* Some groups stay without tracks; group 0 mostly does. */
    for (uint32_t g = 0; g < s->groups; g++) {
        if (g == 0 ? one_in(d, 4) : !one_in(d, 4)) {
            with_tracks[count++] = g;
        }
    }
    if (count == 0) {
        with_tracks[count++] = s->groups - 1u;
    }
    for (uint32_t k = 0; k < s->tracks; k++) {
        /* Low ones are favoured, so that there are long groups and short ones. */
        uint32_t a = below(d, count), b = below(d, count);
        share[with_tracks[a < b ? a : b]]++;
    }
    for (uint32_t g = 0; g < s->groups; g++) {
        uint32_t *record = t->groups + MCS_GROUP_WORDS * g;
        record[PARENT] = g == 0 || flat || (!nested && one_in(d, 2)) ? 0 : nested && one_in(d, 3) ? g - 1u : below(d, g);
        record[FIRST_TRACK] = first;
        record[TRACK_COUNT] = share[g];
        first += share[g];
    }
}

static uint32_t random_duration(dice *d, uint32_t starts)
{
    uint32_t duration = one_in(d, 8)   ? MCS_RUNNING
                        : one_in(d, 6) ? ONE_OF(d, 0, 1, 2, MCS_MOST_DURATION, MCS_MOST_DURATION - 1u)
                        : one_in(d, 3) ? below(d, MCS_MOST_DURATION + 1u)
                                       : between(d, 1, 400);
    return duration < starts ? starts + below(d, 3) : duration;
}

/* Segment starts begin at 0, rise strictly and lie below D (SCOPE 4.10). One in a few ends right below it. */
static void draw_starts(dice *d, uint32_t *starts, uint32_t count, uint32_t duration)
{
    uint32_t at = 0, slack = duration - count;
    for (uint32_t k = 0; k < count; k++) {
        uint32_t more = one_in(d, 2) ? 0 : below(d, slack / 2u + 1u);
        starts[k] = at;
        slack -= more;
        at += 1u + more;
    }
    if (count > 1 && one_in(d, 8)) {
        starts[count - 1u] = duration - 1u;
    }
}

static void draw_tracks(dice *d, tables *t, const shape *s)
{
    uint32_t first = 0, few_stamps = between(d, 1, 4), filled = s->tracks == 0 ? 0 : below(d, s->tracks);
    for (uint32_t k = 0; k < s->tracks; k++) {
        uint32_t *record = t->tracks + MCS_TRACK_WORDS * k, left = s->segments - first, count;
        count = one_in(d, 3) ? 0 : 1u + below(d, 5);
        if (s->segments == MCS_MOST_SEGMENTS && k == filled) {
            count = left; /* one track takes what is left of a full table */
        }
        if (count > left) {
            count = left;
        }
        record[DURATION] = random_duration(d, count);
        record[STAMP] = one_in(d, 6) ? ONE_OF(d, 0, 0x7FFFFFFFu, 0x80000000u, 0xFFFFFFFFu) : below(d, few_stamps);
        record[FIRST_SEGMENT] = first;
        record[SEGMENT_COUNT] = count;
        draw_starts(d, t->segments + first, count, end_of_track(record[DURATION]));
        first += count;
    }
    t->length[SEGMENTS] = first;
}

/* A text is pieces of whole characters, with octets between them that no title has and that need not be UTF-8. */
#define MOST_PIECES 512u

typedef struct {
    uint32_t at, length;
} piece;

/* Draws the text and its pieces, of at most so many octets each, and returns how many they are. */
static uint32_t draw_pieces(dice *d, uint8_t *text, uint32_t octets, uint32_t most, piece drawn[MOST_PIECES])
{
    uint32_t pieces = 0, at = 0;
    while (at < octets) {
        uint32_t left = octets - at;
        uint32_t length = one_in(d, 5) ? most : 1u + below(d, most);
        if (pieces == MOST_PIECES || one_in(d, 6)) {
            length = left < 3 || pieces == MOST_PIECES ? left : between(d, 1, 3);
            for (uint32_t k = 0; k < length; k++) {
                text[at + k] = (uint8_t)any_word(d);
            }
            at += length;
            continue;
        }
        if (length > left) {
            length = left;
        }
        right_text(d, text + at, length);
        drawn[pieces].at = at;
        drawn[pieces].length = length;
        pieces++;
        at += length;
    }
    return pieces;
}

static void draw_titles(dice *d, tables *t, const shape *s)
{
    piece drawn[MOST_PIECES];
    uint32_t most = one_in(d, 3) || s->text == MCS_MOST_TEXT ? 128u : 40u, none = one_in(d, 3) ? 2u : 8u;
    uint32_t pieces = draw_pieces(d, t->text, s->text, most, drawn);
    for (uint32_t k = 0; k < s->tracks; k++) {
        uint32_t *record = t->tracks + MCS_TRACK_WORDS * k;
        if (pieces == 0 || one_in(d, none)) {
            record[TITLE_OFFSET] = one_in(d, 2) ? s->text : below(d, s->text + 1u);
            record[TITLE_LENGTH] = 0;
        } else {
            uint32_t which = below(d, pieces);
            record[TITLE_OFFSET] = drawn[which].at;
            record[TITLE_LENGTH] = drawn[which].length;
        }
    }
}

/* ---- The office's titles */

/* In the place of some pieces a title of the card, or an earlier piece, that fits there: the same octets elsewhere. */
static void copy_titles(dice *d, tables *t, piece *drawn, uint32_t pieces)
{
    for (uint32_t k = 0; k < pieces; k++) {
        uint32_t track = below(d, track_count(t)), earlier = below(d, k);
        int fits = duration_and_title_fit(t, track), of_card = fits && one_in(d, 3), of_office = k > 0 && one_in(d, 4);
        const uint8_t *from = of_card ? t->text + track_word(t, track, TITLE_OFFSET) : t->office + drawn[earlier].at;
        uint32_t length = of_card ? track_word(t, track, TITLE_LENGTH) : drawn[earlier].length;
        if ((of_card || of_office) && length > 0 && length <= drawn[k].length) {
            memcpy(t->office + drawn[k].at, from, length);
            drawn[k].length = length;
        }
    }
}

/* One in a few has as many octets as all tracks can have titles; and one in two ends where its last piece does. */
static uint32_t draw_office(dice *d, tables *t, piece drawn[MOST_PIECES])
{
    uint32_t octets = one_in(d, 12) ? 128u * track_count(t) : below(d, 400), pieces;
    octets = octets < OFFICE_ROOM ? octets : OFFICE_ROOM;
    pieces = draw_pieces(d, t->office, octets, one_in(d, 2) ? 128u : 24u, drawn);
    copy_titles(d, t, drawn, pieces);
    t->length[OFFICE] = pieces > 0 && one_in(d, 2) ? drawn[pieces - 1u].at + drawn[pieces - 1u].length : octets;
    return pieces;
}

/* A piece, or the front of it. */
static uint32_t some_front(dice *d, const uint8_t *octets, uint32_t length)
{
    uint32_t front = wrong_octet(octets, between(d, 1, length));
    return front > 0 && one_in(d, 6) ? front : length;
}

/* All tracks are renamed, most, few or none. One that is not has any offset; several may share a piece, and one in a few has the last
 * of all. */
void random_titles(dice *d, tables *t)
{
    piece drawn[MOST_PIECES];
    uint32_t pieces, not_renamed = ONE_OF(d, 1, 2, 4, NEVER);
    rename_nothing(t);
    if (track_count(t) == 0 || one_in(d, 8)) {
        return;
    }
    pieces = draw_office(d, t, drawn);
    for (uint32_t k = 0; k < track_count(t); k++) {
        uint32_t *entry = t->renames + MCS_RENAME_WORDS * k;
        if (pieces == 0 || one_in(d, not_renamed)) {
            entry[RENAME_OFFSET] = one_in(d, 2) ? any_word(d) : 0;
        } else {
            uint32_t which = one_in(d, 6) ? pieces - 1u : below(d, pieces);
            entry[RENAME_OFFSET] = drawn[which].at;
            entry[RENAME_LENGTH] = some_front(d, t->office + drawn[which].at, drawn[which].length);
        }
    }
}

void random_catalogue(dice *d, tables *t)
{
    shape s = random_shape(d);
    memset(t, 0, sizeof *t);
    t->length[GROUPS] = MCS_GROUP_WORDS * s.groups;
    t->length[TRACKS] = MCS_TRACK_WORDS * s.tracks;
    t->length[TEXT] = s.text;
    if (s.groups > 0) {
        draw_groups(d, t, &s);
        draw_tracks(d, t, &s);
    }
    draw_titles(d, t, &s);
    /* Behind the groups lies one more that would fit. */
    t->groups[t->length[GROUPS] + FIRST_TRACK] = s.tracks;
    random_titles(d, t);
}

void random_tables(dice *d, tables *t)
{
    memset(t, 0, sizeof *t);
    for (uint32_t table = 0; table < LENT_TABLES; table++) {
        uint32_t most = one_in(d, 20) ? table_room(table) : 40u;
        int small = one_in(d, 2);
        t->length[table] = one_in(d, 4) ? 0 : below(d, most + 1u);
        for (uint32_t k = 0; k < t->length[table]; k++) {
            set_table_entry(t, table, k, small ? below(d, 4) : any_word(d));
        }
    }
}
