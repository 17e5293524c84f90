/* The bounds of catalogues, cards and cue sheets, and one beyond each. A comment that names a rule, such as SCOPE 18.2, says
 * it in a few words; docs/SCOPE.md has the rule. */
#include "cases.h"
#include "expect.h"

#include <string.h>

/* At most 64 groups, 256 tracks, 1,024 segments, 32,768 text octets (SCOPE 4.2), and the other bounds of a catalogue. */

static void starts(const char *what, const tables *t, uint32_t number)
{
    step s = blank(START);
    now_trying(what);
    begin_run(both, t);
    makes(s, number);
}

/* The groups but the first have a track each, and the last has the rest; the first track has the segments. */
static void full_catalogue(tables *t, uint32_t groups, uint32_t tracks, uint32_t segments, uint32_t text)
{
    memset(t, 0, sizeof *t);
    for (uint32_t g = 0; g < groups; g++) {
        uint32_t *record = t->groups + MCS_GROUP_WORDS * g;
        record[FIRST_TRACK] = g == 0 ? 0 : g - 1u;
        record[TRACK_COUNT] = g == 0 ? 0 : g + 1u < groups ? 1 : tracks - (g - 1u);
    }
    for (uint32_t k = 0; k < tracks; k++) {
        uint32_t *record = t->tracks + MCS_TRACK_WORDS * k;
        record[DURATION] = MCS_MOST_DURATION;
        record[FIRST_SEGMENT] = k == 0 ? 0 : segments;
        record[SEGMENT_COUNT] = k == 0 ? segments : 0;
        record[TITLE_OFFSET] = k == 0 ? text - 128u : text;
        record[TITLE_LENGTH] = k == 0 ? 128u : 0;
    }
    for (uint32_t k = 0; k < segments; k++) {
        t->segments[k] = k;
    }
    t->length[GROUPS] = MCS_GROUP_WORDS * groups;
    t->length[TRACKS] = MCS_TRACK_WORDS * tracks;
    t->length[SEGMENTS] = segments;
    t->length[TEXT] = text;
    rename_nothing(t);
}

static void loads(const char *what, const tables *t, uint32_t number)
{
    step make = blank(MAKE_CARD), load = blank(CARD_LOAD);
    now_trying(what);
    begin_run(both, t);
    do_step(both, &make);
    for (uint32_t table = 0; table < TABLES; table++) {
        load.room[table] = table_room(table);
    }
    makes(load, number);
    if (number == 0) {
        expect("groups", both->library_said.counts[GROUPS], group_count(t));
        expect("tracks", both->library_said.counts[TRACKS], track_count(t));
        expect("segments", both->library_said.counts[SEGMENTS], t->length[SEGMENTS]);
        expect("octets of text", both->library_said.counts[TEXT], t->length[TEXT]);
        expect("tables that differ", !loaded_what_is_lent(both), 0);
    }
}

static void limit_cases(void)
{
    static const struct {
        const char *what;
        uint32_t groups, tracks, segments, text, number, of_card;
    } CASES[] = {
        {"all limits", 64, 256, 1024, 32768, 0, 0},
        {"65 groups", 65, 256, 1024, 32768, MCS_BAD_CATALOGUE, MCS_NO_ROOM},
        {"257 tracks", 64, 257, 1024, 32768, MCS_BAD_CATALOGUE, MCS_NO_ROOM},
        {"1,025 segments", 64, 256, 1025, 32768, MCS_BAD_CATALOGUE, MCS_NO_ROOM},
        {"32,769 octets of text", 64, 256, 1024, 32769, MCS_BAD_CATALOGUE, MCS_NO_ROOM},
    };
    static tables t;
    for (size_t k = 0; k < sizeof CASES / sizeof CASES[0]; k++) {
        full_catalogue(&t, CASES[k].groups, CASES[k].tracks, CASES[k].segments, CASES[k].text);
        starts(CASES[k].what, &t, CASES[k].number);
        loads(CASES[k].what, &t, CASES[k].of_card);
    }
    full_catalogue(&t, 64, 256, 1024, 32768);
    t.tracks[DURATION] = MCS_MOST_DURATION + 1u;
    starts("a duration too long", &t, MCS_BAD_CATALOGUE);
    /* The duration word 0xFFFFFFFF says that it is not yet known (SCOPE 4.8); starts then lie below 8,640,000 (SCOPE 4.9, 4.10). */
    t.tracks[DURATION] = MCS_RUNNING - 1u;
    starts("a duration of 0xFFFFFFFE", &t, MCS_BAD_CATALOGUE);
    t.tracks[DURATION] = MCS_RUNNING;
    starts("a running recording", &t, 0);
    t.segments[1023] = MCS_MOST_DURATION - 1u;
    starts("a start right below the end of a running recording", &t, 0);
    t.segments[1023] = MCS_MOST_DURATION;
    starts("a start at the end of a running recording", &t, MCS_BAD_CATALOGUE);
    full_catalogue(&t, 64, 256, 1024, 32768);
    t.tracks[TITLE_OFFSET] -= 1;
    t.tracks[TITLE_LENGTH] = 129;
    starts("a title of 129 octets", &t, MCS_BAD_CATALOGUE);
    sample_catalogue(&t);
    loads("the sample's card", &t, 0);
    memset(&t, 0, sizeof t);
    loads("a card of no blocks", &t, 0);
}

/* ---- Written cards: a block holds 42 groups, 21 tracks, 126 segments or 505 octets */

static void writes(const char *what, const tables *t, uint32_t room, uint32_t number, uint32_t blocks)
{
    step s = blank(CARD_WRITE);
    now_trying(what);
    begin_run(both, t);
    s.room[0] = room;
    makes(s, number);
    if (number == 0) {
        expect("the blocks", both->library_said.length, blocks);
    }
}

static void written_cases(void)
{
    static tables t;
    memset(&t, 0, sizeof t);
    writes("no blocks without room", &t, 0, 0, 0);
    sample_catalogue(&t);
    writes("the sample", &t, 4 * 512, 0, 4);
    writes("the sample with room behind", &t, 4 * 512 + 1, 0, 4);
    writes("the sample with an octet less", &t, 4 * 512 - 1, MCS_NO_CARD_ROOM, 0);
    writes("the sample without room", &t, 0, MCS_NO_CARD_ROOM, 0);
    t.length[GROUPS] -= 1;
    writes("a wrong catalogue without room", &t, 0, MCS_BAD_CATALOGUE, 0);
    /* 2 + 13 + 9 + 65 */
    full_catalogue(&t, 64, 256, 1024, 32768);
    writes("all limits", &t, 89 * 512, 0, 89);
    writes("all limits with an octet less", &t, 89 * 512 - 1, MCS_NO_CARD_ROOM, 0);
    full_catalogue(&t, 42, 42, 126, 505);
    writes("blocks that are exactly full", &t, 5 * 512, 0, 1 + 2 + 1 + 1);
    full_catalogue(&t, 43, 43, 127, 506);
    writes("one record over in each kind", &t, 9 * 512, 0, 2 + 3 + 2 + 2);
}

/* ---- Cue sheets */

/* A sheet of lines 1 frame apart from a frame on, then so often an octet, then a line; what it gives, where it is refused with
 * 226 or 227 the line, else how many starts. */
static void reads(const char *what, const uint32_t lines[2], char octet, uint32_t times, const char *text, uint32_t room,
                  uint32_t number, uint32_t gives)
{
    step starts = blank(ADD_STARTS), fill = blank(ADD_TEXT), last = blank(ADD_TEXT), read = blank(CUE_SHEET);
    static tables none;
    now_trying(what);
    begin_run(both, &none);
    starts.who = lines[0];
    starts.number = lines[1];
    starts.what = starts.length = 1;
    starts.octets[0] = '\n';
    fill.octets[0] = (uint8_t)octet;
    fill.length = 1;
    fill.number = times;
    last.length = (uint32_t)strlen(text);
    memcpy(last.octets, text, last.length);
    last.number = 1;
    do_step(both, &starts);
    do_step(both, &fill);
    do_step(both, &last);
    read.room[0] = room;
    makes(read, number);
    if (number == MCS_BAD_LINE || number == MCS_NOT_RISING) {
        expect("the line", both->library_said.line, gives);
    } else if (number == 0) {
        expect("the starts", both->library_said.length, gives);
    }
}

static void sheet_cases(void)
{
    static const uint32_t NONE[2] = {0, 0}, FULL[2] = {0, 3640}, FROM_1[2] = {1, 2}, TWO[2] = {0, 2}, SECOND_ON[2] = {0, 76};
    reads("an empty sheet", NONE, 0, 0, "", 0, 0, 0);
    /* A sheet has at most 65,536 octets (SCOPE 6.2): 3,640 lines of 18 octets and 16 more. */
    reads("as many starts as fit", FULL, '\n', 16, "", 3640, 0, 3640);
    expect("the last start", both->entries[3639], 4852);
    reads("one start too many for the room", FULL, '\n', 16, "", 3639, MCS_MANY_STARTS, 0);
    reads("no room for starts", FULL, '\n', 16, "", 0, MCS_MANY_STARTS, 0);
    reads("65,537 octets", FULL, '\n', 17, "", 3640, MCS_LONG_SHEET, 0);
    reads("65,536 octets of spaces", NONE, ' ', 65536, "", 0, 0, 0);
    reads("65,536 lines", NONE, '\n', 65535, "x", 0, MCS_BAD_LINE, 65536);
    reads("a wrong line behind the limit", NONE, '\n', 65536, "x", 0, MCS_LONG_SHEET, 0);
    reads("a start that ends at the limit", NONE, '\n', 65519, "INDEX 01 00:00:00", 1, 0, 1);
    /* The start is (60 times mm + ss) times 100 plus the whole part of 4 times ff over 3 (SCOPE 6.6). */
    reads("the frames of a second and the last of all", SECOND_ON, '\n', 1, "INDEX 01 99:59:74", 77, 0, 77);
    for (uint32_t frame = 0; frame < 76; frame++) {
        expect("a frame's start", both->entries[frame], 4u * frame / 3u);
    }
    expect("the last frame's start", both->entries[76], 599998);
    reads("ss 60", TWO, ' ', 2, "INDEX 01 00:60:00", 9, MCS_BAD_LINE, 3);
    reads("ff 75", TWO, ' ', 2, "INDEX 01 00:00:75", 9, MCS_BAD_LINE, 3);
    /* The first start is not 0, or a start is not above the one before (SCOPE 6.9). Of 226 and 227 the one of the lowest line is
     * given, and then comes 228 (SCOPE 6.10). */
    reads("a first start of 1", FROM_1, '\n', 0, "x", 0, MCS_NOT_RISING, 1);
    reads("an equal start", TWO, '\n', 3, "INDEX 01 00:00:01", 1, MCS_NOT_RISING, 6);
    reads("a falling start behind a wrong line", TWO, 'x', 1, "\r\nINDEX 01 00:00:00", 1, MCS_BAD_LINE, 3);
    reads("a wrong line behind a falling start", TWO, ' ', 1, "INDEX 01 00:00:00\r\nx", 1, MCS_NOT_RISING, 3);
    reads("a CR at the end", TWO, '\n', 0, "INDEX 01 00:00:02\r", 9, MCS_BAD_LINE, 3);
}

static void all_limits(void)
{
    limit_cases();
    written_cases();
    sheet_cases();
}

unsigned long play_limits(FILE *out, run *r) { return expect_on(r, out, all_limits); }
