/* The Group and Track Segments objects: written, and read back. A comment that names a rule, such as SCOPE 18.2, says it in a
 * few words; docs/SCOPE.md has the rule. */
#include "cases.h"
#include "expect.h"

#include <string.h>

/* ---- Written */

/* The catalogue's object of that kind and number into so much room: the number, and the octets where it is accepted. */
static void writes(const char *what, uint32_t kind, uint32_t of, uint32_t room, uint32_t number, const void *octets,
                   uint32_t length)
{
    step s = blank(kind);
    now_trying(what);
    s.number = of;
    s.room[0] = room;
    makes(s, number);
    if (number == MCS_OK) {
        expect("the octets written", both->library_said.length, length);
        expect("octets that differ", memcmp(both->written.octets, octets, length) != 0, 0);
    }
}

/* In room for it, in more, in one octet less and in none. */
static void is_written(const char *what, uint32_t kind, uint32_t of, const void *octets, uint32_t length)
{
    writes(what, kind, of, length, MCS_OK, octets, length);
    writes(what, kind, of, length + 9u, MCS_OK, octets, length);
    if (length > 0) {
        writes(what, kind, of, length - 1u, MCS_NO_OBJECT_ROOM, "", 0);
        writes(what, kind, of, 0, MCS_NO_OBJECT_ROOM, "", 0);
    }
}

/* There is no object of a group or track that is absent, nor of a track without segments: 0x13 (SCOPE 7.5). */
static void is_none(const char *what, uint32_t kind, uint32_t of)
{
    writes(what, kind, of, 0, MCS_NOT_ALLOWED, "", 0);
    writes(what, kind, of, 4096, MCS_NOT_ALLOWED, "", 0);
}

#define WRITTEN(what, kind, of, octets) is_written(what, kind, of, octets, sizeof(octets) - 1u)

static void sample_cases(void)
{
    static const uint32_t ABSENT[] = {4, 64, 256, 0x1000, 0x2001, 0x10000u, 0x80000000u, 0xFFFFFFFFu};
    static tables t;
    sample_catalogue(&t);
    begin_run(both, &t);
    /* A group's child groups by number (group 0 is not its own child), then its tracks by number (SCOPE 7.3). */
    WRITTEN("group 0 of the sample", GROUP_OBJECT_WRITE, 0,
            "\1\1\x20\0\0\0\0"
            "\1\2\x20\0\0\0\0"
            "\1\3\x20\0\0\0\0");
    WRITTEN("group 1 of the sample", GROUP_OBJECT_WRITE, 1,
            "\0\0\x10\0\0\0\0"
            "\0\1\x10\0\0\0\0"
            "\0\2\x10\0\0\0\0");
    WRITTEN("a group without children and tracks", GROUP_OBJECT_WRITE, 2, "");
    WRITTEN("group 3 of the sample", GROUP_OBJECT_WRITE, 3, "\0\3\x10\0\0\0\0");
    /* A track's segments in order, names of length 0 (SCOPE 7.4): 0, 1500 and 4000. */
    WRITTEN("the segments of track 0", SEGMENTS_OBJECT_WRITE, 0,
            "\0\0\0\0\0"
            "\0\xDC\5\0\0"
            "\0\xA0\x0F\0\0");
    for (uint32_t track = 1; track < 4; track++) {
        is_none("a track without segments", SEGMENTS_OBJECT_WRITE, track);
    }
    for (size_t k = 0; k < sizeof ABSENT / sizeof ABSENT[0]; k++) {
        is_none("a group that there is not", GROUP_OBJECT_WRITE, ABSENT[k]);
        is_none("a track that there is not", SEGMENTS_OBJECT_WRITE, ABSENT[k]);
    }
    /* Groups within groups: group 1 has group 3 and its own three tracks. */
    t.groups[MCS_GROUP_WORDS * 3 + PARENT] = 1;
    begin_run(both, &t);
    WRITTEN("a group with a group and tracks", GROUP_OBJECT_WRITE, 1,
            "\1\3\x20\0\0\0\0"
            "\0\0\x10\0\0\0\0"
            "\0\1\x10\0\0\0\0"
            "\0\2\x10\0\0\0\0");
    WRITTEN("a group with another's child", GROUP_OBJECT_WRITE, 0,
            "\1\1\x20\0\0\0\0"
            "\1\2\x20\0\0\0\0");
    /* 200 comes before 0x13. */
    t.length[GROUPS] -= 1;
    begin_run(both, &t);
    writes("a wrong catalogue", GROUP_OBJECT_WRITE, 4, 0, MCS_BAD_CATALOGUE, "", 0);
    writes("a wrong catalogue", SEGMENTS_OBJECT_WRITE, 4, 0, MCS_BAD_CATALOGUE, "", 0);
    memset(&t, 0, sizeof t);
    begin_run(both, &t);
    is_none("no groups", GROUP_OBJECT_WRITE, 0);
    is_none("no tracks", SEGMENTS_OBJECT_WRITE, 0);
}

/* 63 child groups and 256 tracks in group 0, and 1,024 segments in track 0. */
static void most_cases(void)
{
    static uint8_t group[2233], segments[5120];
    static tables t;
    memset(&t, 0, sizeof t);
    t.length[GROUPS] = MCS_GROUP_WORDS * 64;
    t.length[TRACKS] = MCS_TRACK_WORDS * 256;
    t.length[SEGMENTS] = t.tracks[SEGMENT_COUNT] = 1024;
    t.groups[TRACK_COUNT] = 256;
    for (uint32_t k = 1; k < 64; k++) {
        t.groups[MCS_GROUP_WORDS * k + FIRST_TRACK] = 256;
        memcpy(group + 7u * (k - 1u), (const uint8_t[7]){1, (uint8_t)k, 0x20, 0, 0, 0, 0}, 7);
    }
    for (uint32_t k = 0; k < 256; k++) {
        t.tracks[MCS_TRACK_WORDS * k + FIRST_SEGMENT] = k == 0 ? 0 : 1024;
        t.tracks[MCS_TRACK_WORDS * k + DURATION] = MCS_MOST_DURATION;
        memcpy(group + 7u * (63u + k), (const uint8_t[7]){0, (uint8_t)k, 0x10, 0, 0, 0, 0}, 7);
    }
    for (uint32_t k = 0; k < 1024; k++) {
        t.segments[k] = 0x100u * k;
        memcpy(segments + 5u * k, (const uint8_t[5]){0, 0, (uint8_t)k, (uint8_t)(k >> 8), 0}, 5);
    }
    begin_run(both, &t);
    is_written("64 groups and 256 tracks", GROUP_OBJECT_WRITE, 0, group, sizeof group);
    is_written("1,024 segments", SEGMENTS_OBJECT_WRITE, 0, segments, sizeof segments);
    expect("the most octets of a group's object", MCS_MOST_GROUP_OBJECT, sizeof group);
    expect("the most octets of a track's segments", MCS_MOST_SEGMENTS_OBJECT, sizeof segments);
}

/* ---- Read */

/* These octets, behind so many entries of 0 octets, into room for so many words. */
static void reads(const char *what, uint32_t kind, uint32_t entries, const void *octets, uint32_t length, uint32_t room,
                  uint32_t number)
{
    step before = blank(ADD_TEXT), last, read = blank(kind), empty = blank(NEW_SHEET);
    now_trying(what);
    before.length = kind == GROUP_OBJECT_READ ? 7 : 5;
    before.number = entries;
    last = with_octets(blank(ADD_TEXT), octets, length);
    last.number = 1;
    do_step(both, &empty);
    do_step(both, &before);
    do_step(both, &last);
    read.room[0] = room;
    makes(read, number);
}

/* An object of these octets is whole, in room for its words, in one less and with more before it; these are the words of its last
 * entry. */
static void is_read(const char *what, uint32_t kind, const void *octets, uint32_t length, uint32_t entries,
                    const uint32_t *last, uint32_t words)
{
    uint32_t needed = words * entries;
    for (uint32_t before = 0; before < 3; before++) {
        uint32_t all = words * before + needed;
        reads(what, kind, before, octets, length, all, MCS_OK);
        expect("the entries", (int64_t)both->library_said.count, before + entries);
        for (uint32_t k = 0; k < words && entries > 0; k++) {
            expect("a word of the last entry", both->entries[all - words + k], last[k]);
        }
        reads(what, kind, before, octets, length, all + 2u, MCS_OK);
        if (all > 0) {
            reads(what, kind, before, octets, length, all - 1u, MCS_NO_OBJECT_ROOM);
            reads(what, kind, before, octets, length, 0, MCS_NO_OBJECT_ROOM);
        }
    }
}

/* Octets that are not whole entries give 222, and too little room gives 223 (SCOPE 7.7); of the two the first in the table of
 * SCOPE 20.2. */
static void is_not_read(const char *what, uint32_t kind, const void *octets, uint32_t length)
{
    for (uint32_t before = 0; before < 3; before++) {
        reads(what, kind, before, octets, length, 100, MCS_BAD_ENTRIES);
        reads(what, kind, before, octets, length, 0, MCS_BAD_ENTRIES);
    }
}

#define IS_GROUP(what, octets, entries, ...)                                                                                   \
    is_read(what, GROUP_OBJECT_READ, octets, sizeof(octets) - 1u, entries, (const uint32_t[3]){__VA_ARGS__}, 3)
#define IS_SEGMENTS(what, octets, entries, position)                                                                           \
    is_read(what, SEGMENTS_OBJECT_READ, octets, sizeof(octets) - 1u, entries, (const uint32_t[1]){position}, 1)
#define NO_GROUP(what, octets) is_not_read(what, GROUP_OBJECT_READ, octets, sizeof(octets) - 1u)
#define NO_SEGMENTS(what, octets) is_not_read(what, SEGMENTS_OBJECT_READ, octets, sizeof(octets) - 1u)

static void group_read_cases(void)
{
    IS_GROUP("an object of no octets", "", 0, 0);
    IS_GROUP("a track", "\0\3\x10\0\0\0\0", 1, 0, 0x1003, 0);
    IS_GROUP("a group", "\1\3\x20\0\0\0\0", 1, 1, 0x2003, 0);
    IS_GROUP("the greatest number", "\1\xFF\xFF\xFF\xFF\xFF\xFF", 1, 1, 0xFFFFFFFFu, 0xFFFF);
    IS_GROUP("a number of six different octets", "\0\1\2\3\4\5\6", 1, 0, 0x04030201u, 0x0605);
    IS_GROUP("a track before a group",
             "\0\3\x10\0\0\0\0"
             "\1\1\x20\0\0\0\x80",
             2, 1, 0x2001, 0x8000);
    NO_GROUP("one octet", "\0");
    NO_GROUP("six octets", "\0\3\x10\0\0\0");
    NO_GROUP("eight octets", "\0\3\x10\0\0\0\0\1");
    NO_GROUP("thirteen octets", "\0\3\x10\0\0\0\0\1\3\x10\0\0\0");
    for (uint32_t type = 2; type < 256; type++) {
        const uint8_t entry[7] = {(uint8_t)type, 3, 0x10};
        is_not_read("a type above 1", GROUP_OBJECT_READ, entry, sizeof entry);
    }
    NO_GROUP("a type above 1 before a track", "\2\3\x10\0\0\0\0"
                                              "\0\3\x10\0\0\0\0");
}

static void segments_read_cases(void)
{
    uint8_t longest[5 + 255] = {255};
    IS_SEGMENTS("an object of no octets", "", 0, 0);
    IS_SEGMENTS("no name", "\0\xDC\5\0\0", 1, 1500);
    IS_SEGMENTS("a name", "\1x\xDC\5\0\0", 1, 1500);
    IS_SEGMENTS("a name of a character of two octets", "\2\xC3\xA9\1\0\0\0", 1, 1);
    IS_SEGMENTS("the greatest position", "\0\xFF\xFF\xFF\x7F", 1, 0x7FFFFFFFu);
    IS_SEGMENTS("positions that fall",
                "\0\2\0\0\0"
                "\0\1\0\0\0",
                2, 1);
    IS_SEGMENTS("a name before no name",
                "\3abc\2\0\0\0"
                "\0\3\0\0\0",
                2, 3);
    NO_SEGMENTS("a negative position", "\0\0\0\0\x80");
    NO_SEGMENTS("position -1", "\0\xFF\xFF\xFF\xFF");
    NO_SEGMENTS("a negative position behind a name", "\1x\0\0\0\x80");
    NO_SEGMENTS("one octet", "\0");
    NO_SEGMENTS("four octets", "\0\0\0\0");
    NO_SEGMENTS("an octet behind", "\0\0\0\0\0\0");
    NO_SEGMENTS("a name that is cut", "\5abc");
    NO_SEGMENTS("a position that is cut", "\1x\0\0\0");
    NO_SEGMENTS("a name that is not UTF-8", "\1\xFF\0\0\0\0");
    NO_SEGMENTS("a character whose second octet would be the position's", "\1\xC3\xA9\0\0\0");
    NO_SEGMENTS("a surrogate", "\3\xED\xA0\x80\0\0\0\0");
    NO_SEGMENTS("a wrong name before a right entry", "\2\xC3\x41\0\0\0\0"
                                                     "\0\0\0\0\0");
    memset(longest + 1, 'a', 255);
    is_read("a name of 255 octets", SEGMENTS_OBJECT_READ, longest, sizeof longest, 1, (const uint32_t[1]){0}, 1);
    is_not_read("a name of 255 octets that is cut", SEGMENTS_OBJECT_READ, longest, sizeof longest - 5u);
    longest[255] = 0xC3;
    is_not_read("a wrong name of 255 octets", SEGMENTS_OBJECT_READ, longest, sizeof longest);
}

static void all_entries(void)
{
    sample_cases();
    most_cases();
    group_read_cases();
    segments_read_cases();
}

unsigned long play_entries(FILE *out, run *r) { return expect_on(r, out, all_entries); }
