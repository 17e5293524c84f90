#include "catalogues.h"

#include <string.h>

void make_text(uint8_t *text, uint32_t len, enum letters letters)
{
    /* One character each of one to four octets. */
    static const uint8_t CHARACTERS[4][4] = {{'a'}, {0xC3, 0xA9}, {0xE2, 0x82, 0xAC}, {0xF0, 0x9D, 0x84, 0x9E}};
    uint32_t at = 0, turn = 0;

    while (at < len) {
        uint32_t octets = turn % 4u + 1u;
        if (letters == MIXED && octets <= len - at) {
            memcpy(text + at, CHARACTERS[octets - 1u], octets);
            at += octets;
        } else {
            text[at] = (uint8_t)('a' + turn % 26u);
            at += 1u;
        }
        turn += 1u;
    }
}

/* The first of record i's run, where `total` are shared out evenly among n records. */
static uint32_t share(uint32_t i, uint32_t n, uint32_t total) { return (uint32_t)((uint64_t)total * i / n); }

/* Age stamps in no order, and some of them equal. */
static uint32_t stamp_of(uint32_t track) { return (track * 2654435761u >> 16) % 1000u; }

static void put_group(catalogue *c, uint32_t g, uint32_t first, uint32_t count)
{
    uint32_t *group = c->tables.groups + MCS_GROUP_WORDS * g;
    group[PARENT] = 0; /* one family: group moves have the most to go through */
    group[FIRST_TRACK] = first;
    group[TRACK_COUNT] = count;
}

/* The track, and the starts of its segments: a second and a half apart, and as much behind the last. */
static void put_track(catalogue *c, uint32_t t, uint32_t first, uint32_t count, uint32_t title, uint32_t title_len,
                      enum letters letters)
{
    uint32_t *track = c->tables.tracks + MCS_TRACK_WORDS * t;
    uint32_t k;
    track[DURATION] = 150u * (count + 1u);
    track[STAMP] = stamp_of(t);
    track[FIRST_SEGMENT] = first;
    track[SEGMENT_COUNT] = count;
    track[TITLE_OFFSET] = title;
    track[TITLE_LENGTH] = title_len;
    for (k = 0; k < count; k++) {
        c->tables.segments[first + k] = 150u * k;
    }
    make_text(c->tables.text + title, title_len, letters);
}

static void put_sizes(catalogue *c, const char *name, uint32_t groups, uint32_t tracks, uint32_t segments, uint32_t text)
{
    c->name = name;
    c->tables.length[GROUPS] = MCS_GROUP_WORDS * groups;
    c->tables.length[TRACKS] = MCS_TRACK_WORDS * tracks;
    c->tables.length[SEGMENTS] = segments;
    c->tables.length[TEXT] = text;
    rename_nothing(&c->tables);
}

void make_even(catalogue *c, const char *name, uint32_t groups, uint32_t tracks, uint32_t segments, uint32_t text,
               enum letters letters)
{
    uint32_t i;
    put_sizes(c, name, groups, tracks, segments, text);
    for (i = 0; i < groups; i++) {
        uint32_t first = share(i, groups, tracks);
        put_group(c, i, first, share(i + 1u, groups, tracks) - first);
    }
    for (i = 0; i < tracks; i++) {
        uint32_t first = share(i, tracks, segments), title = share(i, tracks, text);
        put_track(c, i, first, share(i + 1u, tracks, segments) - first, title, share(i + 1u, tracks, text) - title, letters);
    }
}

void make_uneven(catalogue *c, const char *name)
{
    /* Group 1 is the long one, and its first track has the most segments. */
    uint32_t many_tracks = MCS_MOST_TRACKS - (MCS_MOST_GROUPS - 1u);
    uint32_t many_segments = MCS_MOST_SEGMENTS - (MCS_MOST_TRACKS - 1u);
    uint32_t title = MCS_MOST_TEXT / MCS_MOST_TRACKS;
    uint32_t i, first = 0;

    put_sizes(c, name, MCS_MOST_GROUPS, MCS_MOST_TRACKS, MCS_MOST_SEGMENTS, MCS_MOST_TEXT);
    for (i = 0; i < MCS_MOST_GROUPS; i++) {
        uint32_t count = i == 1u ? many_tracks : 1u;
        put_group(c, i, first, count);
        first += count;
    }
    first = 0;
    for (i = 0; i < MCS_MOST_TRACKS; i++) {
        uint32_t count = i == 1u ? many_segments : 1u;
        put_track(c, i, first, count, title * i, title, ASCII);
        first += count;
    }
}

void make_renamed(catalogue *c, const char *name, enum letters letters)
{
    const uint32_t title = MCS_MOST_TEXT / MCS_MOST_TRACKS;
    make_even(c, name, MCS_MOST_GROUPS, MCS_MOST_TRACKS, MCS_MOST_SEGMENTS, MCS_MOST_TEXT, letters);
    for (uint32_t i = 0; i < MCS_MOST_TRACKS; i++) {
        c->tables.renames[MCS_RENAME_WORDS * i + RENAME_OFFSET] = title * i;
        c->tables.renames[MCS_RENAME_WORDS * i + RENAME_LENGTH] = title;
        make_text(c->tables.office + title * i, title, letters);
    }
    c->tables.length[OFFICE] = title * MCS_MOST_TRACKS;
}

void make_sample(catalogue *c)
{
    c->name = "sample";
    sample_catalogue(&c->tables);
}
