/* Lengths that need more than 32 bits: whoever drops their upper half takes a long table for a short one. The memory is
 * address space alone, of which only the first pages are ever looked at. Where size_t has 32 bits there are no such lengths. */
#define _DEFAULT_SOURCE
#include "wide.h"

#include <stdint.h>

#if SIZE_MAX >> 16 >> 16 == 0

unsigned long play_wide_lengths(FILE *to)
{
    fprintf(to, "compare: lengths of more than 32 bits: none can be lent here, since size_t has 32\n");
    return 0;
}

#else

#include "lend.h"

#include <string.h>
#include <sys/mman.h>

#define MORE ((size_t)1 << 32)

/* What is right but for its length is refused; a room that would be none without its upper half suffices. */
static const struct {
    const char *what;
    uint32_t kind, buffer, characteristic, number;
} CASES[] = {
    {"groups", START, GROUPS, 0, MCS_BAD_CATALOGUE},
    {"groups", TAKE, GROUPS, 0, MCS_BAD_CATALOGUE},
    {"tracks", START, TRACKS, 0, MCS_BAD_CATALOGUE},
    {"tracks", TAKE, TRACKS, 0, MCS_BAD_CATALOGUE},
    {"segments", START, SEGMENTS, 0, MCS_BAD_CATALOGUE},
    {"segments", TAKE, SEGMENTS, 0, MCS_BAD_CATALOGUE},
    {"text", START, TEXT, 0, MCS_BAD_CATALOGUE},
    {"text", TAKE, TEXT, 0, MCS_BAD_CATALOGUE},
    {"the entries of the office's titles", START, RENAMES, 0, MCS_BAD_RENAMES},
    {"the entries of the office's titles", TAKE, RENAMES, 0, MCS_BAD_RENAMES},
    {"the entries of the office's titles", TITLE, RENAMES, 0, MCS_BAD_RENAMES},
    {"groups", MANUAL_GOTO, GROUPS, 0, MCS_BAD_CATALOGUE},
    {"the entries of the office's titles", MANUAL_GOTO, RENAMES, 0, MCS_BAD_RENAMES},
    {"the generic player's name", START, NAMES + MCS_GENERIC, 0, MCS_BAD_NAME},
    {"the named player's name", START, NAMES + MCS_NAMED, 0, MCS_BAD_NAME},
    {"a name", SET_NAME, OCTETS, 0, MCS_BAD_NAME},
    {"a position", WRITE, OCTETS, MCS_POSITION, MCS_BAD_LENGTH},
    {"a playback speed", WRITE, OCTETS, MCS_PLAYBACK_SPEED, MCS_BAD_LENGTH},
    {"a playing order", WRITE, OCTETS, MCS_PLAYING_ORDER, MCS_BAD_LENGTH},
    {"a command", WRITE, OCTETS, MCS_CONTROL_POINT, MCS_BAD_LENGTH},
    {"a card", CARD_LOAD, OCTETS, 0, MCS_BAD_CARD_LENGTH},
    {"a cue sheet", CUE_SHEET, OCTETS, 0, MCS_LONG_SHEET},
    {"the number of a track", WRITE, OCTETS, MCS_TRACK_OBJECT, MCS_BAD_LENGTH},
    {"the number of a next track", WRITE, OCTETS, MCS_NEXT_TRACK_OBJECT, MCS_BAD_LENGTH},
    {"the number of a group", WRITE, OCTETS, MCS_GROUP_OBJECT, MCS_BAD_LENGTH},
    {"a group's object", GROUP_OBJECT_READ, OCTETS, 0, MCS_BAD_ENTRIES},
    {"a track's segments", SEGMENTS_OBJECT_READ, OCTETS, 0, MCS_BAD_ENTRIES},
    {"the output of a read", READ, OUTPUT, MCS_DURATION, MCS_OK},
    {"the output of a take", TAKE, OUTPUT, 0, MCS_OK},
    {"the room of groups", CARD_LOAD, ROOM + GROUPS, 0, MCS_OK},
    {"the room of tracks", CARD_LOAD, ROOM + TRACKS, 0, MCS_OK},
    {"the room of segments", CARD_LOAD, ROOM + SEGMENTS, 0, MCS_OK},
    {"the room of text", CARD_LOAD, ROOM + TEXT, 0, MCS_OK},
    {"the room of starts", CUE_SHEET, ENTRIES, 0, MCS_OK},
    {"the room of a card", CARD_WRITE, WRITTEN, 0, MCS_OK},
    {"the room of a group's object", GROUP_OBJECT_WRITE, WRITTEN, 0, MCS_OK},
    {"the room of a track's segments", SEGMENTS_OBJECT_WRITE, WRITTEN, 0, MCS_OK},
    {"the room of a group's entries", GROUP_OBJECT_READ, ENTRIES, 0, MCS_OK},
    {"the room of a track's positions", SEGMENTS_OBJECT_READ, ENTRIES, 0, MCS_OK},
};

static tables sample, loaded;
static card made, written;
static uint8_t octets[MCS_STATE_OCTETS], out[MCS_OUTPUT_OCTETS], line_of_0[17];
static ref_state state;
static uint32_t word, served[SERVED_WORDS], part[MCS_PART_WORDS], goto_made[MCS_GOTO_MADE_WORDS],
    goto_place[MCS_GOTO_PLACE_WORDS];
static uint32_t counts[4], block, line, track, octet, entries[MCS_GROUP_ENTRY_WORDS];
static size_t count;

/* The length of a value that is written. */
static size_t value_length(uint32_t what)
{
    int has_object = what == MCS_TRACK_OBJECT || what == MCS_NEXT_TRACK_OBJECT || what == MCS_GROUP_OBJECT;
    return what == MCS_POSITION ? 4 : has_object ? MCS_OBJECT_OCTETS : 1;
}

/* A call on the sample that is accepted, but for the number of an object while Inactive: the octet 1 is a name, a speed, an order
 * and Play, and octets of 0 an entry of either object. */
static call right_call(uint32_t kind, uint32_t what)
{
    static const uint8_t ONE[MCS_OBJECT_OCTETS] = {1}, ENTRY[MCS_GROUP_ENTRY_OCTETS] = {0};
    call c = {.kind = kind, .what = what, .octets = ONE, .out = out, .out_len = sizeof out};
    c.catalogue = lent(&sample);
    c.titles = lent_titles(&sample);
    c.number = kind == CONNECT ? 23 : 0;
    for (uint32_t k = 0; k < MCS_SERVICES; k++) {
        c.players[k].name = ONE;
        c.players[k].name_len = 1;
    }
    c.length = value_length(what);
    c.word = &word;
    c.count = &count;
    c.served = served;
    c.part = part;
    c.made = goto_made;
    c.place = goto_place;
    c.counts = counts;
    c.block = &block;
    c.line = &line;
    c.track = &track;
    c.octet = &octet;
    c.room = whole_room(&loaded);
    c.entries = entries;
    c.entries_len = sizeof entries / sizeof entries[0];
    c.written = written.octets;
    c.written_len = sizeof written.octets;
    if (kind == CARD_LOAD) {
        c.octets = made.octets;
        c.length = made.length;
    } else if (kind == CUE_SHEET) {
        c.octets = line_of_0;
        c.length = sizeof line_of_0;
    } else if (reads_object(kind)) {
        c.octets = ENTRY;
        c.length = kind == GROUP_OBJECT_READ ? MCS_GROUP_ENTRY_OCTETS : MCS_SEGMENT_ENTRY_OCTETS;
    }
    return c;
}

/* Whether both programs return that number, and carry nothing but the 128 of a name that is too long. */
static int give(FILE *to, const char *what, call c, uint32_t number)
{
    uint32_t library, second;
    int carried = 1;
    track = octet = MCS_NOWHERE;
    c.state = octets;
    library = call_library(&c);
    carried &= track == MCS_NOWHERE && octet == (number == MCS_BAD_NAME ? 128 : MCS_NOWHERE);
    octet = MCS_NOWHERE;
    c.state = &state;
    second = call_second(&c);
    carried &= track == MCS_NOWHERE && octet == (number == MCS_BAD_NAME ? 128 : MCS_NOWHERE);
    if (library != number || second != number || !carried) {
        fprintf(to, "compare: with a length of over 32 bits, %s: library %u, second %u, not %u%s\n", what, (unsigned)library,
                (unsigned)second, (unsigned)number, carried ? "" : "; and something else is carried");
        return 0;
    }
    return 1;
}

/* The office's text has no limit. One of over 32 bits is lent, and a part that begins at the last octet that 32 bits number and ends
 * with the text, or an octet behind it. The octets are 0, as all of the memory is, and characters. */
static unsigned long give_wide_text(FILE *to, void *space)
{
    static uint32_t renames[MCS_RENAME_WORDS * 4] = {[RENAME_OFFSET] = 0xFFFFFFFFu};
    unsigned long wrong = 0;
    for (uint32_t length = 1; length <= 2; length++) {
        call c = right_call(TITLE, 0);
        renames[RENAME_LENGTH] = length;
        c.titles.renames = renames;
        c.titles.office = space;
        c.titles.office_len = MORE - 1u + length;
        wrong += !give(to, "a part at the end of the office's text", c, MCS_OK);
        c.titles.office_len--;
        wrong += !give(to, "a part that ends behind the office's text", c, MCS_BAD_RENAMES);
    }
    return wrong;
}

unsigned long play_wide_lengths(FILE *to)
{
    size_t all = (MORE + 65536u) * sizeof(uint32_t);
    void *space = mmap(NULL, all, PROT_READ | PROT_WRITE, MAP_PRIVATE | MAP_ANONYMOUS | MAP_NORESERVE, -1, 0);
    unsigned long wrong = 0;
    if (space == MAP_FAILED) {
        fprintf(to, "compare: no address space for lengths of more than 32 bits\n");
        return 1;
    }
    sample_catalogue(&sample);
    make_card(&sample, &made);
    index_line(line_of_0, 0);
    wrong += !give(to, "a start without one", right_call(START, 0), 0);
    wrong += give_wide_text(to, space);
    wrong += !give(to, "a connect without one", right_call(CONNECT, 1), 0);
    for (size_t k = 0; k < sizeof CASES / sizeof CASES[0]; k++) {
        call c = right_call(CASES[k].kind, CASES[k].characteristic);
        size_t entries = CASES[k].number == MCS_OK ? 0 : lent_entries(&c, CASES[k].buffer);
        memcpy(space, lent_at(&c, CASES[k].buffer), lent_octets(&c, CASES[k].buffer));
        /* Behind what would be lent without the upper half no entry begins, so that nobody has to look further. */
        memset((uint8_t *)space + lent_octets(&c, CASES[k].buffer), 0xFF, CASES[k].number == MCS_BAD_ENTRIES ? 2 : 0);
        lend_at(&c, CASES[k].buffer, space);
        lend_entries(&c, CASES[k].buffer, MORE + entries);
        wrong += !give(to, CASES[k].what, c, CASES[k].number);
    }
    munmap(space, all);
    return wrong;
}

#endif
