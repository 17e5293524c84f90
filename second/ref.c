/* The desk player core, written along the rules that docs/SCOPE.md has. A comment that names a rule, such as SCOPE 18.2, says
 * it in a few words; docs/SCOPE.md has the rule. */
#include "ref.h"

#include <string.h>

enum {
    CATALOGUE_WRONG = 200,
    STATE_WRONG = 201,
    CLIENT_OVER_3 = 202,
    NOT_CONNECTED = 203,
    ALREADY_CONNECTED = 204,
    OUTPUT_SMALL = 205,
    MTU_WRONG = 206,
    NAME_WRONG = 207,
    GROUP_WRONG = 208,
    NO_SLOT = 209,
    CARD_LENGTH = 210,
    CHECK_WRONG = 211,
    NO_ROOM = 212,
    CARD_SMALL = 213,
    BLOCK_SHORT = 214,
    NUMBER_WRONG = 215,
    KIND_WRONG = 216,
    COUNT_WRONG = 217,
    PADDING_WRONG = 218,
    SERVICE_OVER_1 = 219,
    ENTRIES_WRONG = 222,
    OBJECT_SMALL = 223,
    TITLES_WRONG = 224,
    SHEET_LONG = 225,
    LINE_WRONG = 226,
    NOT_RISING = 227,
    STARTS_MANY = 228,
    ATT_NO_SUCH = 0x01,
    ATT_NO_READ = 0x02,
    ATT_NO_WRITE = 0x03,
    ATT_OFFSET = 0x07,
    ATT_LENGTH = 0x0D,
    ATT_NOT_ENCRYPTED = 0x0F,
    ATT_FULL = 0x11,
    ATT_VALUE = 0x13,
    ATT_CHANGED = 0x80
};

enum {
    C_NAME = 1,
    C_TRACK_CHANGED = 4,
    C_TITLE = 5,
    C_DURATION = 6,
    C_POSITION = 7,
    C_SPEED = 8,
    C_SEEKING = 9,
    C_SEGMENTS_OBJECT = 10,
    C_TRACK_OBJECT = 11,
    C_NEXT_OBJECT = 12,
    C_PARENT_OBJECT = 13,
    C_GROUP_OBJECT = 14,
    C_ORDER = 15,
    C_ORDERS = 16,
    C_STATE = 17,
    C_CONTROL = 18,
    C_OPCODES = 19,
    C_CCID = 22
};

/* The slots: what may be subscribed to (SCOPE 16.2). */
static const uint32_t SLOT[REF_SLOTS] = {1, 4, 5, 6, 7, 8, 9, 11, 12, 13, 14, 15, 17, 18};
#define ALL_SLOTS 0x3FFFu
#define CONTROL_SLOT 13u
#define NO_SUCH_SLOT REF_SLOTS

/* The eighteen characteristics (SCOPE 16.1). */
#define CHARACTERISTICS 18u
static const uint32_t CHARACTERISTIC[CHARACTERISTICS] = {1, 4, 5, 6, 7, 8, 9, 10, 11, 12, 13, 14, 15, 16, 17, 18, 19, 22};

#define VALUE_ROOM 128u
#define LOWEST_MTU 23u
#define HIGHEST_MTU 517u
#define ALL_OPCODES 0x1FFFFFu

/* ---- The catalogue */

typedef struct {
    const uint32_t *groups, *tracks, *segments;
    const uint8_t *text;
    uint32_t group_count, track_count, segment_count, text_count;
    /* The office's, which are lent to the calls on a state alone. */
    const uint32_t *renames;
    const uint8_t *office;
} catalogue;

/* The words of a group: parent, first track, track count (SCOPE 4.3). */
static uint32_t group_parent(const catalogue *c, uint32_t g) { return c->groups[3u * g]; }
static uint32_t group_first(const catalogue *c, uint32_t g) { return c->groups[3u * g + 1u]; }
static uint32_t group_tracks(const catalogue *c, uint32_t g) { return c->groups[3u * g + 2u]; }

/* The words of a track: duration, age stamp, first segment, segment count, title offset, title length (SCOPE 4.3). */
static uint32_t track_duration_word(const catalogue *c, uint32_t t) { return c->tracks[6u * t]; }
static uint32_t track_stamp(const catalogue *c, uint32_t t) { return c->tracks[6u * t + 1u]; }
static uint32_t track_first(const catalogue *c, uint32_t t) { return c->tracks[6u * t + 2u]; }
static uint32_t track_segments(const catalogue *c, uint32_t t) { return c->tracks[6u * t + 3u]; }
static uint32_t track_title(const catalogue *c, uint32_t t) { return c->tracks[6u * t + 4u]; }
static uint32_t track_title_len(const catalogue *c, uint32_t t) { return c->tracks[6u * t + 5u]; }

/* An offset and a length for each track, where length 0 says that it is not renamed (SCOPE 5.1, 5.2). */
static uint32_t rename_title(const catalogue *c, uint32_t t) { return c->renames[2u * t]; }
static uint32_t rename_len(const catalogue *c, uint32_t t) { return c->renames[2u * t + 1u]; }

/* The card's and the office's. */
#define LONGEST_TITLE 128u

#define LONGEST_DURATION 8640000u

/* The duration word 0xFFFFFFFF says that it is not yet known (SCOPE 4.8). */
static int is_running(const catalogue *c, uint32_t t) { return track_duration_word(c, t) == 0xFFFFFFFFu; }

/* D: the duration, or 8,640,000 while the recording is still running (SCOPE 4.9). */
static uint32_t track_d(const catalogue *c, uint32_t t)
{
    return is_running(c, t) ? LONGEST_DURATION : track_duration_word(c, t);
}

/* A group that is absent or has no tracks is refused by Activate (SCOPE 8.9), and where it is written to 14 (SCOPE 14.8). */
static int has_tracks(const catalogue *c, uint32_t g) { return g < c->group_count && group_tracks(c, g) > 0; }

/* Whether the track is in the group (SCOPE 20.5), of a group that there is. */
static int is_in_group(const catalogue *c, uint32_t g, uint32_t t)
{
    return t >= group_first(c, g) && t - group_first(c, g) < group_tracks(c, g);
}

/* UTF8-tail of RFC 3629: each octet of a character but its first. */
static int is_tail(uint8_t octet) { return (octet & 0xC0u) == 0x80u; }

/* The text check answers the offset, within the name or title, of the first octet that does not start a whole valid character,
 * with all octets before it being whole valid characters (SCOPE 2.6). Where there is none, the answer is the length. UTF-8 is RFC
 * 3629 (SCOPE 2.5): each character is decoded; overlong forms, surrogates and what lies above 10FFFF are none. */
static size_t valid_front(const uint8_t *s, size_t len)
{
    size_t at = 0;
    while (at < len) {
        uint32_t lead = s[at];
        uint32_t code, least;
        size_t octets;
        /* Most characters are of one octet: on to the first that is not. */
        while (lead < 0x80u) {
            at += 1;
            if (at == len) {
                return at;
            }
            lead = s[at];
        }
        if (lead >= 0xC0u && lead <= 0xDFu) {
            if (len - at < 2 || !is_tail(s[at + 1])) {
                return at;
            }
            octets = 2;
            code = (lead & 0x1Fu) << 6 | (s[at + 1] & 0x3Fu);
            least = 0x80u;
        } else if (lead >= 0xE0u && lead <= 0xEFu) {
            if (len - at < 3 || !is_tail(s[at + 1]) || !is_tail(s[at + 2])) {
                return at;
            }
            octets = 3;
            code = (lead & 0x0Fu) << 12 | (s[at + 1] & 0x3Fu) << 6 | (s[at + 2] & 0x3Fu);
            least = 0x800u;
        } else if (lead >= 0xF0u && lead <= 0xF7u) {
            if (len - at < 4 || !is_tail(s[at + 1]) || !is_tail(s[at + 2]) || !is_tail(s[at + 3])) {
                return at;
            }
            octets = 4;
            code = (lead & 0x07u) << 18 | (s[at + 1] & 0x3Fu) << 12 | (s[at + 2] & 0x3Fu) << 6 | (s[at + 3] & 0x3Fu);
            least = 0x10000u;
        } else {
            return at;
        }
        if (code < least || code > 0x10FFFFu || (code >= 0xD800u && code <= 0xDFFFu)) {
            return at;
        }
        at += octets;
    }
    return at;
}

/* 200 for a bad title carries the lowest such track and the offset; every other 200 carries nothing and comes before (SCOPE
 * 4.14). So the first bad title is kept until every other rule has been tried, and no title behind it is read. */
static int catalogue_stands(const catalogue *c, REF_PLACE)
{
    uint32_t g, t, k, running, lowest = c->track_count;
    size_t front = 0;

    /* Group 0, if any, is its own parent; every other parent number is smaller than its child's (SCOPE 4.5). */
    for (g = 0; g < c->group_count; g++) {
        if (g == 0 ? group_parent(c, g) != 0 : group_parent(c, g) >= g) {
            return 0;
        }
    }

    /* The groups' track runs follow each other from 0 in group order and use up all tracks (SCOPE 4.6). */
    running = 0;
    for (g = 0; g < c->group_count; g++) {
        if (group_first(c, g) != running || group_tracks(c, g) > c->track_count - running) {
            return 0;
        }
        running += group_tracks(c, g);
    }
    if (running != c->track_count) {
        return 0;
    }

    /* The tracks' segment runs follow each other in the same way (SCOPE 4.7). */
    running = 0;
    for (t = 0; t < c->track_count; t++) {
        if (track_first(c, t) != running || track_segments(c, t) > c->segment_count - running) {
            return 0;
        }
        running += track_segments(c, t);
    }
    if (running != c->segment_count) {
        return 0;
    }

    for (t = 0; t < c->track_count; t++) {
        /* A duration is 0 to 8,640,000, or not yet known (SCOPE 4.8). */
        if (track_d(c, t) > LONGEST_DURATION) {
            return 0;
        }
        /* Segment starts begin at 0, rise strictly and lie below D (SCOPE 4.10). */
        for (k = 0; k < track_segments(c, t); k++) {
            uint32_t at = c->segments[track_first(c, t) + k];
            if (k == 0 ? at != 0 : at <= c->segments[track_first(c, t) + k - 1u]) {
                return 0;
            }
            if (at >= track_d(c, t)) {
                return 0;
            }
        }
        /* Titles, also empty ones, lie in the text, have at most 128 octets and are UTF-8 (SCOPE 4.11, 4.12). */
        if (track_title(c, t) > c->text_count || track_title_len(c, t) > c->text_count - track_title(c, t)) {
            return 0;
        }
        if (track_title_len(c, t) > LONGEST_TITLE) {
            return 0;
        }
        /* An empty title is UTF-8, and a text of no octets need have no address. */
        if (track_title_len(c, t) > 0u && lowest == c->track_count) {
            front = valid_front(c->text + track_title(c, t), track_title_len(c, t));
            if (front < track_title_len(c, t)) {
                lowest = t;
            }
        }
    }
    if (lowest < c->track_count) {
        *bad_track = lowest;
        *bad_offset = (uint32_t)front;
        return 0;
    }
    return 1;
}

/* 200 where a rule of the catalogue fails, or a lent table ends inside a record (SCOPE 4.14). */
static int lend(catalogue *c, REF_CATALOGUE, REF_PLACE)
{
    if (groups_len % 3u != 0 || tracks_len % 6u != 0) {
        return 0;
    }
    /* At most 64 groups, 256 tracks, 1,024 segments, 32,768 text octets (SCOPE 4.2). */
    if (groups_len / 3u > 64u || tracks_len / 6u > 256u || segments_len > 1024u || text_len > 32768u) {
        return 0;
    }
    c->groups = groups;
    c->tracks = tracks;
    c->segments = segments;
    c->text = text;
    c->group_count = (uint32_t)(groups_len / 3u);
    c->track_count = (uint32_t)(tracks_len / 6u);
    c->segment_count = (uint32_t)segments_len;
    c->text_count = (uint32_t)text_len;
    return catalogue_stands(c, bad_track, bad_offset);
}

#define LEND(c)                                                                                                                \
    lend(&(c), groups, groups_len, tracks, tracks_len, segments, segments_len, text, text_len, bad_track, bad_offset)

/* 224: not one entry for each track, a length over 128, a part of length above 0 that is outside the text or not UTF-8 (SCOPE
 * 5.3). What the text holds outside the parts is not asked, nor the offset of a length of 0. */
static int titles_stand(const catalogue *c, size_t renames_len, size_t office_len)
{
    uint32_t t;

    if (renames_len != 2u * c->track_count) {
        return 0;
    }
    for (t = 0; t < c->track_count; t++) {
        if (rename_len(c, t) == 0) {
            continue;
        }
        if (rename_len(c, t) > LONGEST_TITLE) {
            return 0;
        }
        if (rename_title(c, t) > office_len || rename_len(c, t) > office_len - rename_title(c, t)) {
            return 0;
        }
        if (valid_front(c->office + rename_title(c, t), rename_len(c, t)) < rename_len(c, t)) {
            return 0;
        }
    }
    return 1;
}

/* The rows 200 and 224 of a call that is lent the office's titles: 224 comes after 200 (SCOPE 20.2). */
static uint32_t lend_titles(catalogue *c, REF_CATALOGUE, REF_TITLES, REF_PLACE)
{
    if (!LEND(*c)) {
        return CATALOGUE_WRONG;
    }
    c->renames = renames;
    c->office = office;
    return titles_stand(c, renames_len, office_len) ? 0 : TITLES_WRONG;
}

#define LEND_TITLES(c)                                                                                                         \
    lend_titles(&(c), groups, groups_len, tracks, tracks_len, segments, segments_len, text, text_len, renames, renames_len,    \
                office, office_len, bad_track, bad_offset)

/* Of a name over 128 octets 207 carries 128, tested first (SCOPE 20.4). A name breaks 207 exactly where this is less than its
 * length, and this is then the offset. */
static size_t name_front(const uint8_t *name, size_t len)
{
    return len > REF_NAME_ROOM ? REF_NAME_ROOM : valid_front(name, len);
}

/* ---- The card */

static uint32_t octets_16(const uint8_t *p) { return (uint32_t)p[0] | ((uint32_t)p[1] << 8); }

static uint32_t octets_32(const uint8_t *p)
{
    return (uint32_t)p[0] | ((uint32_t)p[1] << 8) | ((uint32_t)p[2] << 16) | ((uint32_t)p[3] << 24);
}

static void put_16(uint8_t *out, uint32_t number)
{
    out[0] = (uint8_t)(number & 0xFFu);
    out[1] = (uint8_t)(number >> 8 & 0xFFu);
}

static uint32_t put_32(uint8_t *out, uint32_t word)
{
    put_16(out, word & 0xFFFFu);
    put_16(out + 2, word >> 16);
    return 4;
}

#define BLOCK 512u
#define RECORDS_AT 5u
#define CHECK_AT 510u
/* The most records of a block: 42, 21, 126 or 505 by kind (SCOPE 3.3). */
static const uint32_t MOST_RECORDS[5] = {0, 42, 21, 126, 505};
/* Octets of a record by kind. */
static const uint32_t RECORD_OCTETS[5] = {0, 12, 24, 4, 1};

/* Octet 510 is the sum of octets 0 to 509 modulo 255; octet 511 is the sum of the 510 running sums modulo 255 (SCOPE 3.4). The
 * sums are made plainly, and the remainder of each is taken once, at the end. An octet is in its own running sum and in all that
 * follow: the one at k in 510 − k of them. Both sums fit 32 bits, since 255 · (510 + 509 + ... + 1) is 33,227,775. */
static void check_octets(const uint8_t *block, uint8_t check[2])
{
    uint32_t sum = 0, sum_of_sums = 0, k;

    for (k = 0; k < CHECK_AT; k++) {
        sum += block[k];
        sum_of_sums += (CHECK_AT - k) * block[k];
    }
    check[0] = (uint8_t)(sum % 255u);
    check[1] = (uint8_t)(sum_of_sums % 255u);
}

/* The reasons, in their order within a block: 211 check, 215 block number, 216 kind, 217 count, 214 not full, 218 padding (SCOPE
 * 3.12). The first reason against the block, or 0. The block before it is good, so that its kind octet is a kind; that of the
 * block behind is any octet. In front of the first block and behind the last it is 0, which is no kind. */
static uint32_t block_reason(const uint8_t *block, uint32_t number, uint32_t kind_before, uint32_t kind_behind)
{
    uint32_t kind = block[2], count = octets_16(block + 3), k;
    uint8_t check[2];

    check_octets(block, check);
    if (block[CHECK_AT] != check[0] || block[CHECK_AT + 1u] != check[1]) {
        return CHECK_WRONG;
    }
    /* Octets 0 and 1 are the block number, from 0 (SCOPE 3.5). */
    if (octets_16(block) != number) {
        return NUMBER_WRONG;
    }
    /* Octet 2 is the kind (1 groups, 2 tracks, 3 segments, 4 text), which never falls (SCOPE 3.3, 3.6). */
    if (kind < 1 || kind > 4 || kind < kind_before) {
        return KIND_WRONG;
    }
    /* Octets 3 and 4 are the record count, 1 up to 42, 21, 126 or 505 by kind (SCOPE 3.2, 3.7). */
    if (count < 1 || count > MOST_RECORDS[kind]) {
        return COUNT_WRONG;
    }
    /* A block that is not the last of its kind is not full. Which is the last is judged by the kind octet of the block behind it,
     * even if that one is bad (SCOPE 3.8). */
    if (kind_behind == kind && count < MOST_RECORDS[kind]) {
        return BLOCK_SHORT;
    }
    /* The records follow, and then zeros up to octet 509 (SCOPE 3.2). */
    for (k = RECORDS_AT + count * RECORD_OCTETS[kind]; k < CHECK_AT; k++) {
        if (block[k] != 0) {
            return PADDING_WRONG;
        }
    }
    return 0;
}

uint32_t ref_card_load(const uint8_t *card, size_t card_len, uint32_t *groups, size_t groups_len, uint32_t *tracks,
                       size_t tracks_len, uint32_t *segments, size_t segments_len, uint8_t *text, size_t text_len,
                       uint32_t counts[4], uint32_t *block)
{
    uint32_t total[5] = {0, 0, 0, 0, 0};
    uint32_t blocks, number, kind_before = 0, k;
    uint32_t *words[4];

    /* The card's length is no multiple of 512, or over 65,536 (SCOPE 3.11). */
    if (card_len % BLOCK != 0 || card_len > 65536u) {
        return CARD_LENGTH;
    }
    blocks = (uint32_t)(card_len / BLOCK);
    /* The lowest bad block is named, with one of six reasons (SCOPE 3.12). They come before 212, so that all blocks are judged
     * before the totals are. */
    for (number = 0; number < blocks; number++) {
        const uint8_t *at = card + BLOCK * number;
        uint32_t kind_behind = number + 1u < blocks ? at[BLOCK + 2u] : 0u;
        uint32_t reason = block_reason(at, number, kind_before, kind_behind);
        if (reason != 0) {
            *block = number;
            return reason;
        }
        kind_before = at[2];
        total[kind_before] += octets_16(at + 3);
    }
    /* A limit or a lent table's room is exceeded (SCOPE 3.13). */
    if (total[1] > 64u || total[2] > 256u || total[3] > 1024u || total[4] > 32768u) {
        return NO_ROOM;
    }
    if (total[1] > groups_len / 3u || total[2] > tracks_len / 6u || total[3] > segments_len || total[4] > text_len) {
        return NO_ROOM;
    }
    /* A card that is loaded fills the front of each table and gives the counts (SCOPE 3.14). */
    words[1] = groups;
    words[2] = tracks;
    words[3] = segments;
    for (number = 0; number < blocks; number++) {
        const uint8_t *at = card + BLOCK * number;
        uint32_t kind = at[2];
        uint32_t octets = octets_16(at + 3) * RECORD_OCTETS[kind];
        if (kind == 4u) {
            for (k = 0; k < octets; k++) {
                *text++ = at[RECORDS_AT + k];
            }
        } else {
            for (k = 0; k < octets; k += 4u) {
                *words[kind]++ = octets_32(at + RECORDS_AT + k);
            }
        }
    }
    for (k = 0; k < 4u; k++) {
        counts[k] = total[k + 1u];
    }
    return 0;
}

static uint32_t record_count(const catalogue *c, uint32_t kind)
{
    return kind == 1u ? c->group_count : kind == 2u ? c->track_count : kind == 3u ? c->segment_count : c->text_count;
}

/* The work is done one block of 512 zeros at a time, filled and then given its check octets (SCOPE 3.16). Its records are `count`
 * of that kind, from number `first` on. */
static void fill_block(const catalogue *c, uint32_t number, uint32_t kind, uint32_t first, uint32_t count, uint8_t block[BLOCK])
{
    const uint32_t *table = kind == 1u ? c->groups : kind == 2u ? c->tracks : c->segments;
    uint32_t record_words = RECORD_OCTETS[kind] / 4u, k;

    memset(block, 0, BLOCK);
    put_16(block, number);
    block[2] = (uint8_t)kind;
    put_16(block + 3, count);
    if (kind == 4u) {
        memcpy(block + RECORDS_AT, c->text + first, count);
    } else {
        for (k = 0; k < count * record_words; k++) {
            (void)put_32(block + RECORDS_AT + 4u * k, table[first * record_words + k]);
        }
    }
    check_octets(block, block + CHECK_AT);
}

/* From a catalogue the writer fills lent octets with blocks, every block but the last of its kind full, and returns how many
 * there are (SCOPE 3.15). Octets behind the last block stay (SCOPE 3.17). */
uint32_t ref_card_write(REF_CATALOGUE, uint8_t *card, size_t card_len, uint32_t *blocks, REF_PLACE)
{
    catalogue c;
    uint32_t needed = 0, number = 0, kind, first, count;

    /* 200 comes first, then 213 exactly when the blocks exceed the lent room (SCOPE 3.17). */
    if (!LEND(c)) {
        return CATALOGUE_WRONG;
    }
    for (kind = 1; kind <= 4u; kind++) {
        needed += (record_count(&c, kind) + MOST_RECORDS[kind] - 1u) / MOST_RECORDS[kind];
    }
    if (needed > card_len / BLOCK) {
        return CARD_SMALL;
    }
    for (kind = 1; kind <= 4u; kind++) {
        for (first = 0; first < record_count(&c, kind); first += count) {
            count = record_count(&c, kind) - first;
            if (count > MOST_RECORDS[kind]) {
                count = MOST_RECORDS[kind];
            }
            fill_block(&c, number, kind, first, count, card + BLOCK * number);
            number++;
        }
    }
    *blocks = number;
    return 0;
}

/* ---- The cue sheet */

#define MOST_SHEET 65536u
/* `INDEX 01 mm:ss:ff`: its octets, and where mm is. */
#define INDEX_LINE 17u
#define INDEX_TIME 9u
/* So many lines of that length fit a sheet, with an LF between two. */
#define MOST_STARTS ((MOST_SHEET + 1u) / (INDEX_LINE + 1u))

/* What a line says, where it is no start: the greatest start is 599,998. */
#define PASSED_OVER 0xFFFFFFFEu
#define NOT_UNDERSTOOD 0xFFFFFFFFu

#define NO_DIGITS 100u

static int is_digit(uint8_t octet) { return octet >= '0' && octet <= '9'; }

/* 0 to 99, or NO_DIGITS */
static uint32_t two_digits(const uint8_t *p)
{
    return is_digit(p[0]) && is_digit(p[1]) ? 10u * (uint32_t)(p[0] - '0') + (uint32_t)(p[1] - '0') : NO_DIGITS;
}

static int begins(const uint8_t *line, size_t len, const char *with)
{
    size_t k;
    for (k = 0; with[k] != 0; k++) {
        if (k == len || line[k] != (uint8_t)with[k]) {
            return 0;
        }
    }
    return 1;
}

/* mm:ss:ff, two digits each, ss to 59, ff to 74, gives a start of (60 times mm + ss) times 100 plus the whole part of 4 times ff
 * over 3 (SCOPE 6.5, 6.6). */
static uint32_t start_of(const uint8_t time[8])
{
    uint32_t mm = two_digits(time), ss = two_digits(time + 3), ff = two_digits(time + 6);
    if (mm == NO_DIGITS || time[2] != ':' || ss > 59u || time[5] != ':' || ff > 74u) {
        return NOT_UNDERSTOOD;
    }
    return (60u * mm + ss) * 100u + 4u * ff / 3u;
}

/* A line without its leading spaces and its end: a start, PASSED_OVER or NOT_UNDERSTOOD. */
static uint32_t line_says(const uint8_t *line, size_t len)
{
    static const char *const PASSED[5] = {"REM", "TITLE", "PERFORMER", "FILE", "TRACK"};
    uint32_t k;

    if (len == 0) {
        return PASSED_OVER;
    }
    if (begins(line, len, "INDEX 01")) {
        return len == INDEX_LINE && line[INDEX_TIME - 1u] == ' ' ? start_of(line + INDEX_TIME) : NOT_UNDERSTOOD;
    }
    /* Lines beginning INDEX, one space and two other digits, or REM, TITLE, PERFORMER, FILE or TRACK are passed over (SCOPE 6.7). */
    if (begins(line, len, "INDEX ")) {
        return len >= 8u && two_digits(line + 6) != NO_DIGITS ? PASSED_OVER : NOT_UNDERSTOOD;
    }
    for (k = 0; k < 5u; k++) {
        if (begins(line, len, PASSED[k])) {
            return PASSED_OVER;
        }
    }
    return NOT_UNDERSTOOD;
}

uint32_t ref_cue_sheet(const uint8_t *sheet, size_t sheet_len, uint32_t *starts, size_t starts_len, uint32_t *count,
                       uint32_t *line)
{
    /* A refusal writes nothing (SCOPE 6.10), so the starts stand here until the last line is understood. */
    uint32_t found[MOST_STARTS];
    uint32_t found_count = 0, number = 0;
    size_t at = 0;

    if (sheet_len > MOST_SHEET) {
        return SHEET_LONG;
    }
    while (at < sheet_len) {
        /* Lines end in LF or CR LF or at the end of the text (SCOPE 6.3). */
        const uint8_t *lf = memchr(sheet + at, '\n', sheet_len - at);
        size_t end = lf == NULL ? sheet_len : (size_t)(lf - sheet), next = lf == NULL ? sheet_len : end + 1u;
        uint32_t says;

        if (lf != NULL && end > at && sheet[end - 1u] == '\r') {
            end -= 1u;
        }
        /* Leading spaces are allowed (SCOPE 6.4). */
        while (at < end && sheet[at] == ' ') {
            at += 1u;
        }
        number += 1u;
        says = line_says(sheet + at, end - at);
        if (says == NOT_UNDERSTOOD) {
            *line = number;
            return LINE_WRONG;
        }
        if (says != PASSED_OVER) {
            /* The first start is not 0, or a start is not above the one before (SCOPE 6.9). */
            if (found_count == 0 ? says != 0 : says <= found[found_count - 1u]) {
                *line = number;
                return NOT_RISING;
            }
            found[found_count++] = says;
        }
        at = next;
    }
    /* Then comes 228, where there are more starts than room (SCOPE 6.10). */
    if (found_count > starts_len) {
        return STARTS_MANY;
    }
    if (found_count > 0) {
        memcpy(starts, found, found_count * sizeof found[0]);
    }
    *count = found_count;
    return 0;
}

/* ---- Objects */

/* Track t is object 0x1000 + t, group g 0x2000 + g, the segments of t 0x3000 + t (SCOPE 7.1). */
#define TRACK_OBJECTS 0x1000u
#define GROUP_OBJECTS 0x2000u
#define SEGMENTS_OBJECTS 0x3000u
/* The standard, 3.10 to 3.14: a uint48. */
#define OBJECT_OCTETS 6u

static uint32_t put_object(uint8_t *out, uint32_t object)
{
    (void)put_32(out, object);
    put_16(out + 4, 0);
    return OBJECT_OCTETS;
}

#define NO_SUCH_OBJECT 0xFFFFFFFFu

/* What the object number at `value` is the number of among those that begin at `from`, or NO_SUCH_OBJECT, which is more than any. */
static uint32_t object_at(const uint8_t value[OBJECT_OCTETS], uint32_t from)
{
    uint32_t low = octets_32(value), high = octets_16(value + 4);
    return high == 0 && low >= from ? low - from : NO_SUCH_OBJECT;
}

/* The standard, 4.4: the type, 0 of a track and 1 of a group, and then the object number. */
#define GROUP_ENTRY (1u + OBJECT_OCTETS)
#define TRACK_TYPE 0u
#define GROUP_TYPE 1u
#define GROUP_ENTRY_WORDS 3u
/* The standard, 4.2: the length of the name, the name, and then the position. The octets without those of the name. */
#define SEGMENT_ENTRY 5u

static int is_child(const catalogue *c, uint32_t g, uint32_t of)
{
    /* Group 0 is not its own child (SCOPE 7.3). */
    return g > 0 && group_parent(c, g) == of;
}

static uint8_t *put_entry(uint8_t *out, uint8_t type, uint32_t object)
{
    out[0] = type;
    return out + 1 + put_object(out + 1, object);
}

uint32_t ref_group_object_write(REF_CATALOGUE, uint32_t group, uint8_t *out, size_t out_len, uint32_t *length, REF_PLACE)
{
    catalogue c;
    uint32_t entries, g, k;

    if (!LEND(c)) {
        return CATALOGUE_WRONG;
    }
    /* There is no object of a group or track that is absent, nor of a track without segments: 0x13 (SCOPE 7.5). */
    if (group >= c.group_count) {
        return ATT_VALUE;
    }
    entries = group_tracks(&c, group);
    for (g = 0; g < c.group_count; g++) {
        entries += is_child(&c, g, group) ? 1u : 0u;
    }
    /* 223 where there is too little room (SCOPE 7.5, 7.7). */
    if (out_len < GROUP_ENTRY * entries) {
        return OBJECT_SMALL;
    }
    /* A group's child groups by number (group 0 is not its own child), then its tracks by number (SCOPE 7.3). */
    for (g = 0; g < c.group_count; g++) {
        if (is_child(&c, g, group)) {
            out = put_entry(out, GROUP_TYPE, GROUP_OBJECTS + g);
        }
    }
    for (k = 0; k < group_tracks(&c, group); k++) {
        out = put_entry(out, TRACK_TYPE, TRACK_OBJECTS + group_first(&c, group) + k);
    }
    *length = GROUP_ENTRY * entries;
    return 0;
}

uint32_t ref_segments_object_write(REF_CATALOGUE, uint32_t track, uint8_t *out, size_t out_len, uint32_t *length, REF_PLACE)
{
    catalogue c;
    uint32_t k;

    if (!LEND(c)) {
        return CATALOGUE_WRONG;
    }
    if (track >= c.track_count || track_segments(&c, track) == 0) {
        return ATT_VALUE;
    }
    if (out_len < SEGMENT_ENTRY * track_segments(&c, track)) {
        return OBJECT_SMALL;
    }
    /* A track's segments in order, names of length 0 (SCOPE 7.4). */
    for (k = 0; k < track_segments(&c, track); k++) {
        out[SEGMENT_ENTRY * k] = 0;
        (void)put_32(out + SEGMENT_ENTRY * k + 1u, c.segments[track_first(&c, track) + k]);
    }
    *length = SEGMENT_ENTRY * track_segments(&c, track);
    return 0;
}

/* Octets that are not whole entries give 222 (SCOPE 7.7); all octets are looked at before the room is. */
uint32_t ref_group_object_read(const uint8_t *octets, size_t octets_len, uint32_t *words, size_t words_len, size_t *count)
{
    size_t entries = octets_len / GROUP_ENTRY, k;

    if (octets_len % GROUP_ENTRY != 0) {
        return ENTRIES_WRONG;
    }
    for (k = 0; k < entries; k++) {
        if (octets[GROUP_ENTRY * k] > GROUP_TYPE) {
            return ENTRIES_WRONG;
        }
    }
    if (words_len / GROUP_ENTRY_WORDS < entries) {
        return OBJECT_SMALL;
    }
    for (k = 0; k < entries; k++) {
        const uint8_t *entry = octets + GROUP_ENTRY * k;
        uint32_t *to = words + GROUP_ENTRY_WORDS * k;
        to[0] = entry[0];
        to[1] = octets_32(entry + 1);
        to[2] = octets_16(entry + 5);
    }
    *count = entries;
    return 0;
}

/* The octets of the whole entry of 4.2 that these begin with, and its position; 0 where they begin with none. the standard,
 * 4.2.2: the name is UTF-8; 4.2.3: the position is 0 or more. */
static size_t segment_entry(const uint8_t *octets, size_t len, uint32_t *position)
{
    size_t name_len;

    if (len < SEGMENT_ENTRY) {
        return 0;
    }
    name_len = octets[0];
    if (len - SEGMENT_ENTRY < name_len || valid_front(octets + 1, name_len) < name_len) {
        return 0;
    }
    *position = octets_32(octets + 1 + name_len);
    return *position < 0x80000000u ? SEGMENT_ENTRY + name_len : 0;
}

uint32_t ref_segments_object_read(const uint8_t *octets, size_t octets_len, uint32_t *positions, size_t positions_len,
                                  size_t *count)
{
    size_t entries = 0, at, step, k;
    uint32_t position;

    for (at = 0; at < octets_len; at += step) {
        step = segment_entry(octets + at, octets_len - at, &position);
        if (step == 0) {
            return ENTRIES_WRONG;
        }
        entries++;
    }
    if (positions_len < entries) {
        return OBJECT_SMALL;
    }
    for (at = 0, k = 0; k < entries; k++) {
        at += segment_entry(octets + at, octets_len - at, &positions[k]);
    }
    *count = entries;
    return 0;
}

/* ---- The player */

/* Orders 3 and 4 are by number, 5 and 6 by rising stamp, 7 and 8 by falling stamp; of equal stamps the lower number comes first
 * (SCOPE 11.1, 11.2). */
static int comes_before(const catalogue *c, uint32_t order, uint32_t track, uint32_t other)
{
    uint32_t stamp = track_stamp(c, track), other_stamp = track_stamp(c, other);
    if (order <= 4u || stamp == other_stamp) {
        return track < other;
    }
    return order <= 6u ? stamp < other_stamp : stamp > other_stamp;
}

/* The tracks of the order, in its order; how many. `current` is the current track, for orders 1 and 2. */
static uint32_t order_list(const catalogue *c, uint32_t order, uint32_t group, uint32_t current, uint32_t list[256])
{
    uint32_t count = group_tracks(c, group), k, j;

    /* Orders 1 and 2 have the current track alone (SCOPE 11.1). */
    if (order <= 2u) {
        list[0] = current;
        return 1;
    }
    /* Each track is put behind those that it does not come before. */
    for (k = 0; k < count; k++) {
        uint32_t track = group_first(c, group) + k;
        for (j = k; j > 0 && comes_before(c, order, track, list[j - 1u]); j--) {
            list[j] = list[j - 1u];
        }
        list[j] = track;
    }
    return count;
}

/* The rest becomes 0 whenever anything but a clock step in Playing within a track sets the position (SCOPE 13.9). So all but
 * that step set it by this, also where it comes out as it was. */
static void set_position(ref_player *p, uint32_t position)
{
    p->position = position;
    p->rest = 0;
}

static void go_to_track(ref_player *p, uint32_t track)
{
    p->track = track;
    /* The position becomes 0 (SCOPE 11.7). */
    set_position(p, 0);
}

/* The group's first track in the order (SCOPE 8.9); in orders 1 and 2, when a group is activated or moved to, that is its lowest
 * track (SCOPE 11.4). */
static void enter_group(const catalogue *c, ref_player *p, uint32_t group)
{
    uint32_t list[256];
    (void)order_list(c, p->order, group, group_first(c, group), list);
    p->group = group;
    go_to_track(p, list[0]);
}

/* The player is Inactive exactly when there is no current track (SCOPE 8.2); group, track, position and the named next track are
 * then those of start. */
static void leave_group(ref_player *p)
{
    p->media = REF_INACTIVE;
    p->seeking = 0;
    p->group = 0;
    p->track = 0;
    set_position(p, 0);
    p->next = 0;
}

static void set_media(ref_player *p, uint8_t media)
{
    /* Outside Seeking the speed is 0 (SCOPE 8.5). */
    p->media = media;
    p->seeking = 0;
}

/* Track and group moves turn Seeking into Playing (SCOPE 11.7, 12.3), and so do writes of 14 and of 11 (SCOPE 14.2, 14.3). */
static void leave_seeking(ref_player *p)
{
    if (p->media == REF_SEEKING) {
        set_media(p, REF_PLAYING);
    }
}

static uint32_t held(int64_t to, uint32_t most)
{
    if (to < 0) {
        return 0;
    }
    return to > (int64_t)most ? most : (uint32_t)to;
}

/* Two's complement. */
static int64_t signed_32(uint32_t word) { return word >= 0x80000000u ? (int64_t)word - 4294967296 : (int64_t)word; }

enum { PREVIOUS, NEXT, FIRST, LAST, GOTO };

/* Where a move of a track or a group leads in a list of `count`, or `count` where it cannot be made. */
static uint32_t list_move(uint32_t count, uint32_t at, int repeats, int move, int64_t n)
{
    uint64_t steps;

    switch (move) {
    case PREVIOUS:
        /* The neighbour; past an end the other end in a repeat order, else result 4 (SCOPE 11.5). */
        return at > 0 ? at - 1u : repeats ? count - 1u : count;
    case NEXT:
        /* Of groups, which have no repeat (SCOPE 12.2); that of tracks is next_in_order. Behind the last it is `count`. */
        return at + 1u;
    case FIRST:
        return 0;
    case LAST:
        return count - 1u;
    default:
        break;
    }
    /* 0 keeps the track (SCOPE 11.6), 0 keeps the group (SCOPE 12.2). */
    if (n == 0) {
        return at;
    }
    /* Goto Track is First or Last and then steps; if one step cannot be made, the whole has result 4 (SCOPE 10.6, 11.6). The
     * steps are not walked here: they lead |n| − 1 places away from that end, and `count` of them, one way, come back to where
     * they began. */
    steps = (uint64_t)(n > 0 ? n : -n) - 1u;
    if (steps >= count) {
        if (!repeats) {
            return count;
        }
        steps = steps % count;
    }
    return n > 0 ? (uint32_t)steps : count - 1u - (uint32_t)steps;
}

#define NO_TRACK 0xFFFFFFFFu

/* The track to which a move but Next leads in the order, or NO_TRACK where it cannot be made. */
static uint32_t track_in_order(const catalogue *c, const ref_player *p, int move, int64_t n)
{
    uint32_t list[256];
    uint32_t count = order_list(c, p->order, p->group, p->track, list), at = 0, to;

    while (list[at] != p->track) {
        at++;
    }
    /* Odd orders play once, even ones repeat (SCOPE 11.3). */
    to = list_move(count, at, p->order % 2u == 0, move, n);
    return to == count ? NO_TRACK : list[to];
}

/* Where Next leads in the order, or NO_TRACK. It is asked before and after every call, as a value, and therefore without the list. */
static uint32_t next_in_order(const catalogue *c, const ref_player *p)
{
    uint32_t first = p->track, behind = NO_TRACK, k;

    /* Orders 1 and 2 have the current track alone (SCOPE 11.1). */
    for (k = 0; p->order > 2u && k < group_tracks(c, p->group); k++) {
        uint32_t track = group_first(c, p->group) + k;
        if (comes_before(c, p->order, track, first)) {
            first = track;
        }
        if (comes_before(c, p->order, p->track, track) && (behind == NO_TRACK || comes_before(c, p->order, track, behind))) {
            behind = track;
        }
    }
    /* The neighbour; past an end the other end in a repeat order, else result 4 (SCOPE 11.5). */
    return behind != NO_TRACK ? behind : p->order % 2u == 0 ? first : NO_TRACK;
}

/* The track that 12 names comes next (SCOPE 14.4, 14.5); where none is named, the order's. */
static uint32_t next_track(const catalogue *c, const ref_player *p)
{
    return p->next != 0 ? p->next - 1u : next_in_order(c, p);
}

static int track_move(const catalogue *c, ref_player *p, int move, int64_t n)
{
    /* Goto's steps use no named track (SCOPE 11.8). */
    uint32_t to = move == NEXT ? next_track(c, p) : track_in_order(c, p, move, n);

    if (to == NO_TRACK) {
        return 0;
    }
    /* The name is used once (SCOPE 14.5), also where it leads to the track that it began on. */
    if (move == NEXT) {
        p->next = 0;
    }
    go_to_track(p, to);
    return 1;
}

static int group_move(const catalogue *c, ref_player *p, int move, int64_t n)
{
    uint32_t list[64];
    uint32_t count = 0, at = 0, to, g;

    /* Group moves run over the groups of the same parent that have tracks, group 0 left out; for group 0 over itself alone
     * (SCOPE 12.1). */
    if (p->group == 0) {
        list[count++] = 0;
    } else {
        for (g = 1; g < c->group_count; g++) {
            if (group_parent(c, g) == group_parent(c, p->group) && group_tracks(c, g) > 0) {
                list[count++] = g;
            }
        }
    }
    while (at + 1 < count && list[at] != p->group) {
        at++;
    }
    /* Group moves do not repeat; Goto is First or Last and then steps, and 0 keeps the group. Each leads to the group's first
     * track, at position 0 (SCOPE 12.2, 12.3). */
    to = list_move(count, at, 0, move, n);
    if (to == count) {
        return 0;
    }
    enter_group(c, p, list[to]);
    return 1;
}

/* The margin: less than 300 past the start of the segment that the position lies in (SCOPE 10.3). */
#define PREVIOUS_MARGIN 300u

/* Where Previous Segment leads: if the position is less than 300 past the start of the segment it lies in, and there is a segment
 * before, to that one's start; otherwise to the start of its own. The segment it lies in has the greatest start not above the
 * position (SCOPE 10.2, 10.3). The first start is 0, so there always is one. */
static uint32_t previous_start(const uint32_t *starts, uint32_t count, uint32_t position)
{
    uint32_t own = 0;
    while (own + 1u < count && starts[own + 1u] <= position) {
        own++;
    }
    return position - starts[own] < PREVIOUS_MARGIN && own > 0 ? starts[own - 1u] : starts[own];
}

/* Next Segment where no start is later: it goes to D. While the recording is still running it has result 4, and so has a Goto
 * that needs it (SCOPE 10.4, 10.8). Whether the move can be made. */
static int next_without_later_start(const catalogue *c, ref_player *p)
{
    if (is_running(c, p->track)) {
        return 0;
    }
    set_position(p, track_d(c, p->track));
    return 1;
}

/* Whether the move can be made; where it cannot, nothing moves. */
static int segment_move(const catalogue *c, ref_player *p, int move, int64_t n)
{
    static const uint32_t WHOLE[1] = {0};
    const uint32_t *starts;
    uint32_t count = track_segments(c, p->track), k;
    uint64_t steps;

    /* A track without segments is one segment from 0 (SCOPE 10.1). */
    if (count == 0) {
        starts = WHOLE;
        count = 1;
    } else {
        starts = c->segments + track_first(c, p->track);
    }
    switch (move) {
    case PREVIOUS:
        set_position(p, previous_start(starts, count, p->position));
        return 1;
    case NEXT:
        /* Next Segment goes to the least start above the position, or to D (SCOPE 10.4). */
        for (k = 0; k < count; k++) {
            if (starts[k] > p->position) {
                set_position(p, starts[k]);
                return 1;
            }
        }
        return next_without_later_start(c, p);
    case FIRST:
        set_position(p, starts[0]);
        return 1;
    case LAST:
        set_position(p, starts[count - 1u]);
        return 1;
    default:
        break;
    }
    /* Goto n is, for n above 0, First and then Next n − 1 times; for n below 0 Last and then Previous |n| − 1 times; for 0 no
     * step is made (SCOPE 10.6). From a start Next leads to the following one, from the last, where it can be made, to D, and
     * from D it stays there. Previous is made step by step, until it is at 0 and stays there. */
    if (n == 0) {
        return 1;
    }
    steps = (uint64_t)(n > 0 ? n : -n) - 1u;
    if (n > 0) {
        if (steps >= count) {
            return next_without_later_start(c, p);
        }
        set_position(p, starts[steps]);
    } else {
        set_position(p, starts[count - 1u]);
        for (; steps > 0 && p->position > 0; steps--) {
            set_position(p, previous_start(starts, count, p->position));
        }
    }
    return 1;
}

/* Seeking speed rungs: −32, −16, −8, −4, 4, 8, 16, 32 (SCOPE 8.5). */
static const int8_t RUNG[8] = {-32, -16, -8, -4, 4, 8, 16, 32};

static int is_rung(int8_t speed)
{
    uint32_t k;
    for (k = 0; k < 8u; k++) {
        if (RUNG[k] == speed) {
            return 1;
        }
    }
    return 0;
}

/* Fast Forward enters Seeking at 4, Rewind at −4; while Seeking they go one rung up or down, and stay at the end rung (SCOPE
 * 9.6). */
static void seek(ref_player *p, int up)
{
    uint32_t k = 0;
    if (p->media != REF_SEEKING) {
        p->media = REF_SEEKING;
        p->seeking = up ? 4 : -4;
        return;
    }
    while (RUNG[k] != p->seeking) {
        k++;
    }
    if (up) {
        p->seeking = RUNG[k < 7u ? k + 1u : k];
    } else {
        p->seeking = RUNG[k > 0u ? k - 1u : k];
    }
}

/* The bit of an opcode in the mask (SCOPE 9.1), or 32 for one that is unknown. */
static uint32_t mask_bit(uint8_t opcode)
{
    /* 0x01 Play (0), 0x02 Pause (1), 0x03 Fast Rewind (2), 0x04 Fast Forward (3), 0x05 Stop (4), 0x10 Move Relative (5),
     * 0x20–0x24 Previous, Next, First, Last, Goto Segment (6–10), 0x30–0x34 the same of Track (11–15), 0x40–0x44 of Group
     * (16–20) (SCOPE 9.1). */
    static const uint8_t KNOWN[21] = {0x01, 0x02, 0x03, 0x04, 0x05, 0x10, 0x20, 0x21, 0x22, 0x23, 0x24,
                                      0x30, 0x31, 0x32, 0x33, 0x34, 0x40, 0x41, 0x42, 0x43, 0x44};
    uint32_t k;
    for (k = 0; k < 21u; k++) {
        if (KNOWN[k] == opcode) {
            return k;
        }
    }
    return 32u;
}

/* Whether the opcode is known and in the mask, so that result 2 does not apply (SCOPE 9.4). Higher mask bits count as 0 (SCOPE
 * 9.2). */
static int is_in_mask(const ref_player *p, uint8_t opcode)
{
    uint32_t bit = mask_bit(opcode);
    return bit != 32u && ((p->mask & ALL_OPCODES) >> bit & 1u) != 0;
}

/* 0x10, 0x24, 0x34, 0x44 carry a signed 32-bit number (SCOPE 9.3). */
static int carries_number(uint8_t opcode) { return opcode == 0x10 || opcode == 0x24 || opcode == 0x34 || opcode == 0x44; }

/* The result code: 1 success; 2 the opcode is unknown or not in the mask; 3 Inactive; 4 cannot be completed. The first result
 * that applies is given, in the order 2, 3, 4, 1; after 2, 3 and 4 the player is as before (SCOPE 9.4). */
static uint8_t control(const catalogue *c, ref_player *p, uint8_t opcode, int64_t n)
{
    int made;

    if (!is_in_mask(p, opcode)) {
        return 2;
    }
    if (p->media == REF_INACTIVE) {
        return 3;
    }
    switch (opcode) {
    case 0x01:
        /* Play gives Playing, Pause gives Paused, and Stop gives Paused at 0 (SCOPE 9.5). */
        set_media(p, REF_PLAYING);
        break;
    case 0x02:
        set_media(p, REF_PAUSED);
        break;
    case 0x03:
        seek(p, 0);
        break;
    case 0x04:
        seek(p, 1);
        break;
    case 0x05:
        set_media(p, REF_PAUSED);
        set_position(p, 0);
        break;
    case 0x10:
        /* Move Relative goes to the sum, held to 0 and D (SCOPE 9.7). Segment moves and Move Relative keep the state (SCOPE 10.9,
         * 9.10). */
        set_position(p, held((int64_t)p->position + n, track_d(c, p->track)));
        break;
    case 0x20:
    case 0x21:
    case 0x22:
    case 0x23:
    case 0x24:
        if (!segment_move(c, p, opcode - 0x20, n)) {
            return 4;
        }
        break;
    default:
        made = opcode < 0x40 ? track_move(c, p, opcode - 0x30, n) : group_move(c, p, opcode - 0x40, n);
        if (!made) {
            return 4;
        }
        leave_seeking(p);
        break;
    }
    return 1;
}

#define GOTO_SEGMENT 0x24u
#define GOTO_TRACK 0x34u
#define GOTO_GROUP 0x44u

/* The moves that the single steps of a Goto are, or NULL for any other opcode. */
typedef int (*single_move)(const catalogue *c, ref_player *p, int move, int64_t n);

static single_move steps_of(uint32_t opcode)
{
    return opcode == GOTO_SEGMENT ? segment_move : opcode == GOTO_TRACK ? track_move : opcode == GOTO_GROUP ? group_move : NULL;
}

/* Goto 0, which makes no step. Of segments 0 moves nothing (SCOPE 10.7); of tracks 0 keeps the track, and the position becomes 0
 * (SCOPE 11.6, 11.7); of groups 0 keeps the group, and leads to its first track, at position 0 (SCOPE 12.2, 12.3). */
static void goto_0(const catalogue *c, ref_player *p, uint32_t opcode)
{
    if (opcode == GOTO_TRACK) {
        go_to_track(p, p->track);
    } else if (opcode == GOTO_GROUP) {
        enter_group(c, p, p->group);
    }
}

/* A second player of the three Gotos that really makes First or Last and then each step, up to a given number of steps (SCOPE
 * 15.1). The answer: a result as `control` gives it, or REF_RAN_OUT; the player moves where all steps were made, and no other
 * time. `count` is the steps made, First or Last counted (SCOPE 15.2). The player is a copy, of which nothing is looked at but
 * where it is. */
static uint32_t manual_goto(const catalogue *c, ref_player *p, uint32_t opcode, int64_t n, uint32_t allowed, uint32_t *count)
{
    single_move step = steps_of(opcode);
    uint32_t all = (uint32_t)(n > 0 ? n : -n);
    int end = n > 0 ? FIRST : LAST, onward = n > 0 ? NEXT : PREVIOUS;
    ref_player walker;

    *count = 0;
    /* Results 2 and 3 come first, with a count of 0 (SCOPE 15.3). */
    if (step == NULL || !is_in_mask(p, (uint8_t)opcode)) {
        return 2;
    }
    if (p->media == REF_INACTIVE) {
        return 3;
    }
    if (n == 0) {
        goto_0(c, p, opcode);
        return 1;
    }
    walker = *p;
    /* A named track is for Next Track and the end of a track, and not for the steps of a Goto (SCOPE 11.8, 15.7). */
    walker.next = 0;
    while (*count < all) {
        /* If the allowed steps run out before the last step or such a stop, it says so, the count is the number allowed, and
         * nothing moves (SCOPE 15.5). */
        if (*count == allowed) {
            return REF_RAN_OUT;
        }
        *count += 1u;
        /* Where a step cannot be made it stops there, the count includes that step, and result 4 stands (SCOPE 15.4). */
        if (!step(c, &walker, *count == 1u ? end : onward, 0)) {
            return 4;
        }
    }
    *p = walker;
    return 1;
}

/* Position write: v ≥ 0 gives the lesser of v and D; v < 0 gives D + v, not below 0 (SCOPE 9.8). While Inactive it is accepted
 * and alters nothing, and of a running recording a negative one is accepted and moves nothing (SCOPE 9.9). */
static void write_position(const catalogue *c, ref_player *p, int64_t v)
{
    uint32_t d;
    if (p->media == REF_INACTIVE || (v < 0 && is_running(c, p->track))) {
        return;
    }
    d = track_d(c, p->track);
    set_position(p, held(v >= 0 ? v : (int64_t)d + v, d));
}

/* 11, 12, 14 may be written (SCOPE 16.1). */
static int carries_object(uint32_t characteristic)
{
    return characteristic == C_TRACK_OBJECT || characteristic == C_NEXT_OBJECT || characteristic == C_GROUP_OBJECT;
}

/* 0x13 is for any other number, for a group without tracks in 14, and while Inactive (SCOPE 14.8). */
static int object_may_be_written(const catalogue *c, const ref_player *p, uint32_t characteristic,
                                 const uint8_t value[OBJECT_OCTETS])
{
    if (p->media == REF_INACTIVE) {
        return 0;
    }
    return characteristic == C_GROUP_OBJECT ? has_tracks(c, object_at(value, GROUP_OBJECTS))
                                            : is_in_group(c, p->group, object_at(value, TRACK_OBJECTS));
}

/* 11 goes to a track of the current group at 0, 14 to a group as activate does, but keeping the state, where Seeking becomes
 * Playing; 12 names a track of the current group (SCOPE 14.2 to 14.4). */
static void write_object(const catalogue *c, ref_player *p, uint32_t characteristic, const uint8_t value[OBJECT_OCTETS])
{
    if (characteristic == C_NEXT_OBJECT) {
        p->next = object_at(value, TRACK_OBJECTS) + 1u;
        return;
    }
    if (characteristic == C_TRACK_OBJECT) {
        go_to_track(p, object_at(value, TRACK_OBJECTS));
    } else {
        enter_group(c, p, object_at(value, GROUP_OBJECTS));
    }
    leave_seeking(p);
}

/* A table of 256 entries gives e for each p from −128 to 127, the whole number with (2e−1)^64 ≤ 2^(1088+p) < (2e+1)^64 (SCOPE
 * 13.2). factors.py makes these lines, and asks that of each of them. */
#define LEAST_SPEED (-128)
/* clang-format off */
static const uint32_t FACTOR[256] = {
    16384, 16562, 16743, 16925, 17109, 17296, 17484, 17674, 17867, 18061, 18258, 18457, 18658, 18861, 19066, 19274,
    19484, 19696, 19911, 20127, 20347, 20568, 20792, 21019, 21247, 21479, 21713, 21949, 22188, 22430, 22674, 22921,
    23170, 23423, 23678, 23936, 24196, 24460, 24726, 24995, 25268, 25543, 25821, 26102, 26386, 26674, 26964, 27258,
    27554, 27855, 28158, 28464, 28774, 29088, 29405, 29725, 30048, 30376, 30706, 31041, 31379, 31720, 32066, 32415,
    32768, 33125, 33486, 33850, 34219, 34591, 34968, 35349, 35734, 36123, 36516, 36914, 37316, 37722, 38133, 38548,
    38968, 39392, 39821, 40255, 40693, 41136, 41584, 42037, 42495, 42958, 43425, 43898, 44376, 44859, 45348, 45842,
    46341, 46846, 47356, 47871, 48393, 48920, 49452, 49991, 50535, 51085, 51642, 52204, 52773, 53347, 53928, 54515,
    55109, 55709, 56316, 56929, 57549, 58176, 58809, 59449, 60097, 60751, 61413, 62081, 62757, 63441, 64132, 64830,
    65536, 66250, 66971, 67700, 68438, 69183, 69936, 70698, 71468, 72246, 73032, 73828, 74632, 75444, 76266, 77096,
    77936, 78785, 79642, 80510, 81386, 82273, 83169, 84074, 84990, 85915, 86851, 87796, 88752, 89719, 90696, 91684,
    92682, 93691, 94711, 95743, 96785, 97839, 98905, 99982, 101070, 102171, 103283, 104408, 105545, 106694, 107856, 109031,
    110218, 111418, 112631, 113858, 115098, 116351, 117618, 118899, 120194, 121502, 122825, 124163, 125515, 126882, 128263, 129660,
    131072, 132499, 133942, 135401, 136875, 138366, 139872, 141395, 142935, 144491, 146065, 147655, 149263, 150889, 152532, 154193,
    155872, 157569, 159285, 161019, 162773, 164545, 166337, 168148, 169979, 171830, 173701, 175593, 177505, 179438, 181392, 183367,
    185364, 187382, 189423, 191485, 193571, 195678, 197809, 199963, 202141, 204342, 206567, 208816, 211090, 213389, 215712, 218061,
    220436, 222836, 225263, 227716, 230195, 232702, 235236, 237798, 240387, 243005, 245651, 248326, 251030, 253763, 256527, 259320
};
/* clang-format on */

/* A hundredth, in 65,536ths (SCOPE 13.3). */
#define HUNDREDTH 65536u

/* At D or beyond comes the next track at 0 or, where there is none, Paused at D; a call makes at most one such move (SCOPE 13.5).
 * A clock step of d in Playing adds d times e to the rest, advances by the whole 65,536ths (more than 8,640,000 counts as that)
 * and keeps the rest, 0 to 65,535 (SCOPE 13.3). The sum fits 50 bits. Whether the step stays below D (SCOPE 18.3). */
static int clock_step(const catalogue *c, ref_player *p, uint32_t d)
{
    uint64_t sum = p->rest + (uint64_t)d * FACTOR[p->speed - LEAST_SPEED], whole = sum / HUNDREDTH;
    uint32_t end = track_d(c, p->track);

    if (whole > LONGEST_DURATION) {
        whole = LONGEST_DURATION;
    }
    if (p->position + whole < end) {
        p->position += (uint32_t)whole;
        p->rest = (uint32_t)(sum % HUNDREDTH);
        return 1;
    }
    if (is_running(c, p->track)) {
        /* An advance never ends a running recording: at 8,640,000 the player stays there in its state (SCOPE 13.6). Nothing but a
         * clock step sets the position there, and nothing of it that lies behind is played: the rest stays what it was before the
         * step. */
        p->position = end;
    } else if (!track_move(c, p, NEXT, 0)) {
        set_media(p, REF_PAUSED);
        set_position(p, end);
    }
    return 0;
}

/* ---- Values */

/* The value of 10 to 14 is six octets, or none while Inactive, of 10 where the track has no segments, and of 12 where no next
 * track exists (SCOPE 16.5, 16.6). */
static uint32_t object_value(const catalogue *c, const ref_player *p, uint32_t characteristic, uint8_t out[OBJECT_OCTETS])
{
    uint32_t next;

    if (p->media == REF_INACTIVE) {
        return 0;
    }
    switch (characteristic) {
    case C_SEGMENTS_OBJECT:
        return track_segments(c, p->track) == 0 ? 0 : put_object(out, SEGMENTS_OBJECTS + p->track);
    case C_TRACK_OBJECT:
        return put_object(out, TRACK_OBJECTS + p->track);
    case C_NEXT_OBJECT:
        next = next_track(c, p);
        return next == NO_TRACK ? 0 : put_object(out, TRACK_OBJECTS + next);
    case C_PARENT_OBJECT:
        /* Group 0, if any, is its own parent (SCOPE 4.5), as the standard, 3.13, has it of a group that has none. */
        return put_object(out, GROUP_OBJECTS + group_parent(c, p->group));
    default:
        return put_object(out, GROUP_OBJECTS + p->group);
    }
}

/* The title is a part of the office's text or of the card's text (SCOPE 5.6): which of the two, the offset in it, and the length.
 * Refused or Inactive, the part is the empty front of the card's text (SCOPE 5.7), so that 5 is empty while Inactive (SCOPE
 * 16.3). */
static void title_part(const catalogue *c, const ref_player *p, uint32_t part[3])
{
    part[0] = REF_CARD_TEXT;
    part[1] = 0;
    part[2] = 0;
    if (p->media == REF_INACTIVE) {
        return;
    }
    if (rename_len(c, p->track) > 0) {
        part[0] = REF_OFFICE_TEXT;
        part[1] = rename_title(c, p->track);
        part[2] = rename_len(c, p->track);
    } else {
        part[1] = track_title(c, p->track);
        part[2] = track_title_len(c, p->track);
    }
}

/* The values: 1 and 5 are text, 4 is empty; 6, 7 and 19 have four octets, 16 and 18 two, 10 to 14 six or none, the others one
 * (SCOPE 16.1). The answer is the length; 18 has no value apart from its results and comes out empty here. */
static uint32_t value_of(const catalogue *c, const ref_player *p, uint32_t characteristic, uint8_t out[VALUE_ROOM])
{
    int inactive = p->media == REF_INACTIVE;
    uint32_t part[3];

    switch (characteristic) {
    case C_NAME:
        memcpy(out, p->name, p->name_len);
        return p->name_len;
    case C_TITLE:
        /* 5 is the title of the current track (SCOPE 16.3), in reads, takes and marks. A text of no octets need have no address. */
        title_part(c, p, part);
        if (part[2] > 0) {
            memcpy(out, (part[0] == REF_OFFICE_TEXT ? c->office : c->text) + part[1], part[2]);
        }
        return part[2];
    case C_DURATION:
        /* While Inactive duration and position read −1 (SCOPE 16.4); 6 does so of a running recording too, which is the word
         * itself (SCOPE 16.4). */
        return put_32(out, inactive ? 0xFFFFFFFFu : track_duration_word(c, p->track));
    case C_POSITION:
        return put_32(out, inactive ? 0xFFFFFFFFu : p->position);
    case C_SPEED:
        out[0] = (uint8_t)p->speed;
        return 1;
    case C_SEEKING:
        out[0] = (uint8_t)p->seeking;
        return 1;
    case C_SEGMENTS_OBJECT:
    case C_TRACK_OBJECT:
    case C_NEXT_OBJECT:
    case C_PARENT_OBJECT:
    case C_GROUP_OBJECT:
        return object_value(c, p, characteristic, out);
    case C_ORDER:
        out[0] = p->order;
        return 1;
    case C_ORDERS:
        /* 16 reads 0x00FF (SCOPE 16.7). */
        out[0] = 0xFF;
        out[1] = 0x00;
        return 2;
    case C_STATE:
        out[0] = p->media;
        return 1;
    case C_OPCODES:
        return put_32(out, p->mask & ALL_OPCODES);
    case C_CCID:
        out[0] = p->ccid;
        return 1;
    default:
        return 0;
    }
}

static int is_characteristic(uint32_t characteristic)
{
    uint32_t k;
    for (k = 0; k < CHARACTERISTICS; k++) {
        if (CHARACTERISTIC[k] == characteristic) {
            return 1;
        }
    }
    return 0;
}

/* All but 4 and 18 may be read; 7, 8, 11, 12, 14, 15 and 18 may be written (SCOPE 16.1). */
static int may_be_read(uint32_t characteristic)
{
    return is_characteristic(characteristic) && characteristic != C_TRACK_CHANGED && characteristic != C_CONTROL;
}

static int may_be_written(uint32_t characteristic)
{
    return characteristic == C_POSITION || characteristic == C_SPEED || characteristic == C_ORDER ||
           characteristic == C_CONTROL || carries_object(characteristic);
}

static uint32_t slot_of(uint32_t characteristic)
{
    uint32_t k;
    for (k = 0; k < REF_SLOTS; k++) {
        if (SLOT[k] == characteristic) {
            return k;
        }
    }
    return NO_SUCH_SLOT;
}

/* ---- The state: 201 */

/* Connect and disconnect act on both services (SCOPE 17.9). */
static void start_record(ref_state *s, uint32_t client)
{
    ref_link *link = &s->links[client];
    uint32_t k;

    memset(link, 0, sizeof *link);
    link->mtu = LOWEST_MTU;
    link->mark = REF_PLACES - 1u;
    for (k = 0; k < REF_SERVICES; k++) {
        memset(&s->services[k].accounts[client], 0, sizeof s->services[k].accounts[client]);
    }
}

static int player_stands(const catalogue *c, const ref_player *p)
{
    /* The player's name breaks SCOPE 8.3 (SCOPE 20.5). */
    if (name_front(p->name, p->name_len) < p->name_len) {
        return 0;
    }
    if (p->order < 1 || p->order > 8 || p->media > REF_SEEKING) {
        return 0;
    }
    /* 201 refuses a rest over 65,535 (SCOPE 20.5), which is all that is asked of it, while Inactive too. */
    if (p->rest >= HUNDREDTH) {
        return 0;
    }
    /* Outside Seeking the speed is 0 (SCOPE 8.5). */
    if (p->media == REF_SEEKING ? !is_rung(p->seeking) : p->seeking != 0) {
        return 0;
    }
    /* The player is Inactive exactly when there is no current track (SCOPE 8.2). */
    if (p->media == REF_INACTIVE) {
        return p->group == 0 && p->track == 0 && p->position == 0 && p->next == 0;
    }
    if (p->group >= c->group_count || !is_in_group(c, p->group, p->track)) {
        return 0;
    }
    /* 201 refuses a named next track while Inactive, or one that is not of the current group (SCOPE 20.5). */
    if (p->next != 0 && !is_in_group(c, p->group, p->next - 1u)) {
        return 0;
    }
    /* Otherwise the position is 0 to D (SCOPE 8.2). */
    return p->position <= track_d(c, p->track);
}

static int link_stands(const ref_link *link)
{
    /* A yes or no is 1 or 0. */
    if (link->connected > 1 || link->encrypted > 1) {
        return 0;
    }
    /* A client that is not connected does not have start's record (SCOPE 20.5). */
    if (!link->connected) {
        return !link->encrypted && link->mtu == LOWEST_MTU && link->mark == REF_PLACES - 1u;
    }
    /* ATT_MTU is not 23 to 517, or the place of the round is none of the 28 (SCOPE 20.5). */
    return link->mtu >= LOWEST_MTU && link->mtu <= HIGHEST_MTU && link->mark < REF_PLACES;
}

/* What one service has of the client whose link this is. */
static int account_stands(const ref_link *link, const ref_account *a)
{
    uint32_t k;

    /* A client that is not connected has start's record (SCOPE 20.5); the results behind those that wait mean nothing. */
    if (!link->connected) {
        return a->subscribed == 0 && a->owed == 0 && a->fresh == 0 && a->waiting == 0;
    }
    /* A connected client has over 8 results, or a result code that is not 1 to 4 (SCOPE 20.5). */
    if (a->waiting > REF_RESULTS) {
        return 0;
    }
    for (k = 0; k < a->waiting; k++) {
        if (a->results[k].code < 1 || a->results[k].code > 4) {
            return 0;
        }
    }
    /* Bits outside the slots, and of what may not be read. */
    if ((a->subscribed & ~ALL_SLOTS) != 0 || (a->owed & ~ALL_SLOTS) != 0) {
        return 0;
    }
    for (k = 0; k < 32u && a->fresh >> k != 0; k++) {
        if ((a->fresh >> k & 1u) != 0 && !may_be_read(k)) {
            return 0;
        }
    }
    /* A slot is owed but not subscribed, or 18 is owed otherwise than when results wait (SCOPE 20.5). */
    if ((a->owed & ~a->subscribed) != 0 || (a->owed >> CONTROL_SLOT & 1u) != (a->waiting > 0 ? 1u : 0u)) {
        return 0;
    }
    /* A slot is subscribed while unencrypted (SCOPE 20.5). */
    return link->encrypted || a->subscribed == 0;
}

/* Every call asks it of both players and of every client's records in both services, whichever it is a call to. */
static int state_stands(const catalogue *c, const ref_state *s)
{
    uint32_t k, j;

    if (s->layout != REF_STATE_MARK || s->turn >= REF_CLIENTS) {
        return 0;
    }
    for (k = 0; k < REF_CLIENTS; k++) {
        if (!link_stands(&s->links[k])) {
            return 0;
        }
    }
    for (j = 0; j < REF_SERVICES; j++) {
        const ref_service *service = &s->services[j];
        if (!player_stands(c, &service->player)) {
            return 0;
        }
        for (k = 0; k < REF_CLIENTS; k++) {
            if (!account_stands(&s->links[k], &service->accounts[k])) {
                return 0;
            }
        }
    }
    return 1;
}

/* ---- What is owed */

#define NO_CLIENT REF_CLIENTS
#define NOTHING 0u

/* 8, 11, 12, 14 and 15 are not owed to the client that wrote them (SCOPE 18.4). But the writer of 7 is owed a change of it (SCOPE
 * 18.5). */
static int spares_writer(uint32_t characteristic)
{
    return characteristic == C_SPEED || characteristic == C_ORDER || carries_object(characteristic);
}

/* A call to one service never alters replies, state or owed values of the other (SCOPE 17.4), so this is about one service: the
 * values before the call are those of `before`, after it those of its player. Both are read with the titles that this call is
 * lent, so that lending others than the call before makes nothing owed and marks nothing. `writer` is the client that wrote
 * `written` there, or nobody; `quiet` says that it was an advance in Playing that stays below D (SCOPE 18.3). */
static void make_owed(const catalogue *c, const ref_player *before, ref_service *service, const ref_link links[REF_CLIENTS],
                      uint32_t writer, uint32_t written, int quiet)
{
    const ref_player *after = &service->player;
    uint8_t was[VALUE_ROOM], is[VALUE_ROOM];
    uint32_t k, j;
    int track_changed = before->media == REF_INACTIVE ? after->media != REF_INACTIVE
                                                      : after->media == REF_INACTIVE || after->track != before->track;

    for (k = 0; k < CHARACTERISTICS; k++) {
        uint32_t characteristic = CHARACTERISTIC[k], slot = slot_of(characteristic);
        uint32_t was_len, is_len;
        int changed, owed;

        if (characteristic == C_CONTROL) {
            continue; /* owed by its results */
        }
        was_len = value_of(c, before, characteristic, was);
        is_len = value_of(c, after, characteristic, is);
        /* A slot is owed to a subscribed client when a call changes its value (SCOPE 18.1). */
        changed = was_len != is_len || memcmp(was, is, is_len) != 0;
        owed = changed;
        /* 7 is not owed when an advance in Playing stays below D (SCOPE 18.3). */
        if (characteristic == C_POSITION && quiet) {
            owed = 0;
        }
        /* 4 and 7 are owed whenever the track number changes, to or from none too (SCOPE 18.2). */
        if ((characteristic == C_TRACK_CHANGED || characteristic == C_POSITION) && track_changed) {
            owed = 1;
        }
        for (j = 0; j < REF_CLIENTS; j++) {
            ref_account *a = &service->accounts[j];
            if (!links[j].connected) {
                continue;
            }
            /* 0x80 where some call changed the value, even if it changed back (SCOPE 17.14). */
            if (changed) {
                a->fresh &= ~(1u << characteristic);
            }
            /* What is already owed stays owed (SCOPE 18.6). */
            if (j == writer && characteristic == written && spares_writer(characteristic)) {
                continue;
            }
            if (owed && slot != NO_SUCH_SLOT && (a->subscribed >> slot & 1u) != 0) {
                a->owed |= 1u << slot;
            }
        }
    }
}

/* What every call to a service ends with that may have changed its player. */
static void end_call(const catalogue *c, const ref_player *before, ref_service *service, const ref_link links[REF_CLIENTS],
                     uint32_t writer, uint32_t written, int quiet)
{
    ref_player *p = &service->player;

    /* A call that ends on another track or group than it began on drops the name, what lies between does not (SCOPE 14.6). */
    if (p->group != before->group || p->track != before->track) {
        p->next = 0;
    }
    make_owed(c, before, service, links, writer, written, quiet);
}

/* ---- The calls */

uint32_t ref_start(REF_CATALOGUE, REF_TITLES, const uint8_t *name0, size_t name0_len, uint32_t mask0, uint8_t ccid0,
                   const uint8_t *name1, size_t name1_len, uint32_t mask1, uint8_t ccid1, ref_state *state, REF_PLACE)
{
    const struct {
        const uint8_t *name;
        size_t name_len;
        uint32_t mask;
        uint8_t ccid;
    } given[REF_SERVICES] = {{name0, name0_len, mask0, ccid0}, {name1, name1_len, mask1, ccid1}};
    catalogue c;
    uint32_t refusal, k;

    refusal = LEND_TITLES(c);
    if (refusal != 0) {
        return refusal;
    }
    /* Start names both players at once, and service 0's name is checked first (SCOPE 17.6). */
    for (k = 0; k < REF_SERVICES; k++) {
        size_t front = name_front(given[k].name, given[k].name_len);
        if (front < given[k].name_len) {
            *bad_offset = (uint32_t)front;
            return NAME_WRONG;
        }
    }
    memset(state, 0, sizeof *state);
    state->layout = REF_STATE_MARK;
    for (k = 0; k < REF_SERVICES; k++) {
        ref_player *p = &state->services[k].player;
        if (given[k].name_len > 0) {
            memcpy(p->name, given[k].name, given[k].name_len);
        }
        p->name_len = (uint32_t)given[k].name_len;
        p->mask = given[k].mask;
        p->ccid = given[k].ccid;
        /* Start leaves the player Inactive, in order 3, at speed 0 (SCOPE 8.7). */
        p->order = 3;
        leave_group(p);
    }
    for (k = 0; k < REF_CLIENTS; k++) {
        start_record(state, k);
    }
    /* After start the round of clients begins at 0 (SCOPE 17.6). */
    state->turn = REF_CLIENTS - 1u;
    return 0;
}

/* 219, for a service number over 1, comes after 202 (SCOPE 20.2). */
static uint32_t service_row(uint32_t service) { return service < REF_SERVICES ? 0 : SERVICE_OVER_1; }

/* The rows of a call to a service that no client makes: those of what is lent, which were asked, and then 201 and 219. */
static uint32_t service_rows(uint32_t lent, const catalogue *c, const ref_state *state, uint32_t service)
{
    return lent != 0 ? lent : state_stands(c, state) ? service_row(service) : STATE_WRONG;
}

uint32_t ref_set_name(REF_CATALOGUE, REF_TITLES, ref_state *state, uint32_t service, const uint8_t *name, size_t name_len,
                      REF_PLACE)
{
    catalogue c;
    ref_player before, *p;
    uint32_t refusal;
    size_t front;

    refusal = service_rows(LEND_TITLES(c), &c, state, service);
    if (refusal != 0) {
        return refusal;
    }
    front = name_front(name, name_len);
    if (front < name_len) {
        *bad_offset = (uint32_t)front;
        return NAME_WRONG;
    }
    p = &state->services[service].player;
    before = *p;
    /* What lies behind the name stays, so that the same name again leaves every octet as it was. */
    if (name_len > 0) {
        memcpy(p->name, name, name_len);
    }
    p->name_len = (uint32_t)name_len;
    end_call(&c, &before, &state->services[service], state->links, NO_CLIENT, NOTHING, 0);
    return 0;
}

uint32_t ref_activate(REF_CATALOGUE, REF_TITLES, ref_state *state, uint32_t service, uint32_t group, REF_PLACE)
{
    catalogue c;
    ref_player before, *p;
    uint32_t refusal;

    refusal = service_rows(LEND_TITLES(c), &c, state, service);
    if (refusal != 0) {
        return refusal;
    }
    /* The group is absent or has no tracks (SCOPE 20.2). */
    if (!has_tracks(&c, group)) {
        return GROUP_WRONG;
    }
    p = &state->services[service].player;
    before = *p;
    /* Activate goes to the group's first track in the order, at position 0, Paused, with seeking speed 0 (SCOPE 8.9). */
    enter_group(&c, p, group);
    set_media(p, REF_PAUSED);
    end_call(&c, &before, &state->services[service], state->links, NO_CLIENT, NOTHING, 0);
    return 0;
}

uint32_t ref_deactivate(REF_CATALOGUE, REF_TITLES, ref_state *state, uint32_t service, REF_PLACE)
{
    catalogue c;
    ref_player before, *p;
    uint32_t refusal;

    refusal = service_rows(LEND_TITLES(c), &c, state, service);
    if (refusal != 0) {
        return refusal;
    }
    p = &state->services[service].player;
    before = *p;
    /* Deactivate leaves the player Inactive; order and playback speed are kept (SCOPE 8.10). */
    leave_group(p);
    end_call(&c, &before, &state->services[service], state->links, NO_CLIENT, NOTHING, 0);
    return 0;
}

uint32_t ref_advance(REF_CATALOGUE, REF_TITLES, ref_state *state, uint32_t service, uint32_t d, REF_PLACE)
{
    catalogue c;
    ref_player before, *p;
    uint32_t refusal;
    int quiet = 0;

    refusal = service_rows(LEND_TITLES(c), &c, state, service);
    if (refusal != 0) {
        return refusal;
    }
    p = &state->services[service].player;
    before = *p;
    if (p->media == REF_PLAYING) {
        quiet = clock_step(&c, p, d);
    } else if (p->media == REF_SEEKING) {
        /* Seeking adds d times the seeking speed, held to 0 and D (SCOPE 13.7). */
        set_position(p, held((int64_t)p->position + (int64_t)d * p->seeking, track_d(&c, p->track)));
    }
    end_call(&c, &before, &state->services[service], state->links, NO_CLIENT, NOTHING, quiet);
    return 0;
}

/* The rows 201 and 202, which every call by a client has, to whichever service. */
static uint32_t client_rows(const catalogue *c, const ref_state *state, uint32_t client)
{
    if (!state_stands(c, state)) {
        return STATE_WRONG;
    }
    return client < REF_CLIENTS ? 0 : CLIENT_OVER_3;
}

uint32_t ref_connect(REF_CATALOGUE, REF_TITLES, ref_state *state, uint32_t client, uint32_t mtu, uint8_t encrypted, REF_PLACE)
{
    catalogue c;
    ref_link *link;
    uint32_t refusal;

    refusal = LEND_TITLES(c);
    if (refusal != 0) {
        return refusal;
    }
    refusal = client_rows(&c, state, client);
    if (refusal != 0) {
        return refusal;
    }
    link = &state->links[client];
    if (link->connected) {
        return ALREADY_CONNECTED;
    }
    if (mtu < LOWEST_MTU || mtu > HIGHEST_MTU) {
        return MTU_WRONG;
    }
    /* Connect sets that client's round to the lowest place, and nothing else (SCOPE 17.8). */
    start_record(state, client);
    link->connected = 1;
    link->encrypted = encrypted != 0;
    link->mtu = mtu;
    return 0;
}

uint32_t ref_disconnect(REF_CATALOGUE, REF_TITLES, ref_state *state, uint32_t client, REF_PLACE)
{
    catalogue c;
    uint32_t refusal;

    refusal = LEND_TITLES(c);
    if (refusal != 0) {
        return refusal;
    }
    refusal = client_rows(&c, state, client);
    if (refusal != 0) {
        return refusal;
    }
    if (!state->links[client].connected) {
        return NOT_CONNECTED;
    }
    /* Disconnecting gives start's record (SCOPE 17.9). */
    start_record(state, client);
    return 0;
}

/* The rows 201, 202, 219 and 203, which the four calls by a client to a service have in common. */
static uint32_t common_rows(const catalogue *c, const ref_state *state, uint32_t client, uint32_t service)
{
    uint32_t refusal = client_rows(c, state, client);
    if (refusal == 0) {
        refusal = service_row(service);
    }
    if (refusal != 0) {
        return refusal;
    }
    return state->links[client].connected ? 0 : NOT_CONNECTED;
}

static uint32_t subscription_rows(const catalogue *c, const ref_state *state, uint32_t client, uint32_t service,
                                  uint32_t characteristic)
{
    uint32_t refusal = common_rows(c, state, client, service);
    if (refusal != 0) {
        return refusal;
    }
    if (!is_characteristic(characteristic)) {
        return ATT_NO_SUCH;
    }
    if (slot_of(characteristic) == NO_SUCH_SLOT) {
        return NO_SLOT;
    }
    return state->links[client].encrypted ? 0 : ATT_NOT_ENCRYPTED;
}

uint32_t ref_subscribe(REF_CATALOGUE, REF_TITLES, ref_state *state, uint32_t client, uint32_t service, uint32_t characteristic,
                       REF_PLACE)
{
    catalogue c;
    uint32_t refusal;

    refusal = LEND_TITLES(c);
    if (refusal != 0) {
        return refusal;
    }
    refusal = subscription_rows(&c, state, client, service, characteristic);
    if (refusal != 0) {
        return refusal;
    }
    /* Subscribing twice changes nothing (SCOPE 17.10). */
    state->services[service].accounts[client].subscribed |= 1u << slot_of(characteristic);
    return 0;
}

uint32_t ref_unsubscribe(REF_CATALOGUE, REF_TITLES, ref_state *state, uint32_t client, uint32_t service,
                         uint32_t characteristic, REF_PLACE)
{
    catalogue c;
    uint32_t refusal, bit;
    ref_account *a;

    refusal = LEND_TITLES(c);
    if (refusal != 0) {
        return refusal;
    }
    refusal = subscription_rows(&c, state, client, service, characteristic);
    if (refusal != 0) {
        return refusal;
    }
    /* Unsubscribing drops what the slot owes (SCOPE 17.11). */
    a = &state->services[service].accounts[client];
    bit = 1u << slot_of(characteristic);
    a->subscribed &= ~bit;
    a->owed &= ~bit;
    if (characteristic == C_CONTROL) {
        a->waiting = 0;
    }
    return 0;
}

uint32_t ref_read(REF_CATALOGUE, REF_TITLES, ref_state *state, uint32_t client, uint32_t service, uint32_t characteristic,
                  uint32_t offset, uint8_t *out, size_t out_len, uint32_t *length, REF_PLACE)
{
    catalogue c;
    uint32_t refusal, len, part;
    uint8_t value[VALUE_ROOM];
    const ref_link *link;
    ref_account *a;

    refusal = LEND_TITLES(c);
    if (refusal != 0) {
        return refusal;
    }
    /* The lent output of a read or take is under 128 octets (SCOPE 20.2). */
    if (out_len < VALUE_ROOM) {
        return OUTPUT_SMALL;
    }
    refusal = common_rows(&c, state, client, service);
    if (refusal != 0) {
        return refusal;
    }
    if (!is_characteristic(characteristic)) {
        return ATT_NO_SUCH;
    }
    if (!may_be_read(characteristic)) {
        return ATT_NO_READ;
    }
    link = &state->links[client];
    if (!link->encrypted) {
        return ATT_NOT_ENCRYPTED;
    }
    /* A read above offset 0, where some call changed the value, even if it changed back, since the client's last accepted read of
     * it at 0, or where there was no such read since connecting (SCOPE 17.14). */
    a = &state->services[service].accounts[client];
    if (offset > 0 && (a->fresh >> characteristic & 1u) == 0) {
        return ATT_CHANGED;
    }
    len = value_of(&c, &state->services[service].player, characteristic, value);
    if (offset > len) {
        return ATT_OFFSET;
    }
    /* A read hands out up to ATT_MTU − 1 octets; lent octets behind the answer stay (SCOPE 17.13). */
    part = len - offset;
    if (part > link->mtu - 1u) {
        part = link->mtu - 1u;
    }
    if (part > 0) {
        memcpy(out, value + offset, part);
    }
    *length = part;
    if (offset == 0) {
        a->fresh |= 1u << characteristic;
    }
    return 0;
}

uint32_t ref_write(REF_CATALOGUE, REF_TITLES, ref_state *state, uint32_t client, uint32_t service, uint32_t characteristic,
                   const uint8_t *value, size_t value_len, REF_PLACE)
{
    catalogue c;
    ref_player before, *p;
    ref_account *a;
    uint32_t refusal;

    refusal = LEND_TITLES(c);
    if (refusal != 0) {
        return refusal;
    }
    refusal = common_rows(&c, state, client, service);
    if (refusal != 0) {
        return refusal;
    }
    if (!is_characteristic(characteristic)) {
        return ATT_NO_SUCH;
    }
    if (!may_be_written(characteristic)) {
        return ATT_NO_WRITE;
    }
    if (!state->links[client].encrypted) {
        return ATT_NOT_ENCRYPTED;
    }
    /* What is written has not 4 octets for 7, 1 for 8 and 15, 6 for 11, 12 and 14; or for 18 it has 0, over 5, or not 1 or 5 as a
     * known opcode asks (SCOPE 20.6). */
    if (characteristic == C_POSITION) {
        if (value_len != 4) {
            return ATT_LENGTH;
        }
    } else if (carries_object(characteristic)) {
        if (value_len != OBJECT_OCTETS) {
            return ATT_LENGTH;
        }
    } else if (characteristic == C_CONTROL) {
        if (value_len == 0 || value_len > 5) {
            return ATT_LENGTH;
        }
        if (mask_bit(value[0]) != 32u && value_len != (carries_number(value[0]) ? 5u : 1u)) {
            return ATT_LENGTH;
        }
    } else if (value_len != 1) {
        return ATT_LENGTH;
    }
    /* The written order is not 1 to 8 (SCOPE 20.2). */
    if (characteristic == C_ORDER && (value[0] < 1 || value[0] > 8)) {
        return ATT_VALUE;
    }
    p = &state->services[service].player;
    if (carries_object(characteristic) && !object_may_be_written(&c, p, characteristic, value)) {
        return ATT_VALUE;
    }
    /* A write to 18 by a client with 8 results waiting (SCOPE 20.2), in the service that is written to. */
    a = &state->services[service].accounts[client];
    if (characteristic == C_CONTROL && a->waiting == REF_RESULTS) {
        return ATT_FULL;
    }
    before = *p;
    if (characteristic == C_POSITION) {
        write_position(&c, p, signed_32(octets_32(value)));
    } else if (characteristic == C_SPEED) {
        p->speed = (int8_t)(value[0] < 128 ? value[0] : value[0] - 256);
    } else if (characteristic == C_ORDER) {
        p->order = value[0];
    } else if (carries_object(characteristic)) {
        write_object(&c, p, characteristic, value);
    } else {
        uint8_t code = control(&c, p, value[0], value_len == 5 ? signed_32(octets_32(value + 1)) : 0);
        /* Slot 18 holds up to 8 results, oldest first: requested opcode and result, one for each accepted control write by a
         * client subscribed to 18 at the time (SCOPE 18.7). */
        if ((a->subscribed >> CONTROL_SLOT & 1u) != 0) {
            a->results[a->waiting].opcode = value[0];
            a->results[a->waiting].code = code;
            a->waiting += 1;
            a->owed |= 1u << CONTROL_SLOT;
        }
    }
    end_call(&c, &before, &state->services[service], state->links, client, characteristic, 0);
    return 0;
}

/* A client's round runs through the slots of service 0 and then those of service 1 (SCOPE 19.3): bit p is place p of the client. */
static uint32_t owed_places(const ref_state *s, uint32_t client)
{
    uint32_t owed = 0, k;
    for (k = 0; k < REF_SERVICES; k++) {
        owed |= s->services[k].accounts[client].owed << (k * REF_SLOTS);
    }
    return owed;
}

uint32_t ref_take(REF_CATALOGUE, REF_TITLES, ref_state *state, uint8_t *out, size_t out_len, uint32_t served[4], REF_PLACE)
{
    catalogue c;
    uint32_t refusal, k;

    refusal = LEND_TITLES(c);
    if (refusal != 0) {
        return refusal;
    }
    if (out_len < VALUE_ROOM) {
        return OUTPUT_SMALL;
    }
    if (!state_stands(&c, state)) {
        return STATE_WRONG;
    }
    /* A take starts after the client that was served last, in number order round the four, and serves the first that is owed
     * something (SCOPE 19.2). */
    for (k = 1; k <= REF_CLIENTS; k++) {
        uint32_t client = (state->turn + k) % REF_CLIENTS, owed = owed_places(state, client), place, service, slot, len;
        ref_link *link = &state->links[client];
        ref_account *a;
        uint8_t value[VALUE_ROOM];

        if (owed == 0) {
            continue;
        }
        /* Within it comes the first owed slot after the one that was served last, round its 28 places (SCOPE 19.3). */
        place = (link->mark + 1u) % REF_PLACES;
        while ((owed >> place & 1u) == 0) {
            place = (place + 1u) % REF_PLACES;
        }
        service = place / REF_SLOTS;
        slot = place % REF_SLOTS;
        a = &state->services[service].accounts[client];
        if (slot == CONTROL_SLOT) {
            uint32_t m;
            value[0] = a->results[0].opcode;
            value[1] = a->results[0].code;
            len = 2;
            for (m = 1; m < a->waiting; m++) {
                a->results[m - 1u] = a->results[m];
            }
            a->waiting -= 1;
        } else {
            len = value_of(&c, &state->services[service].player, SLOT[slot], value);
        }
        /* What is handed out is the present value, its first ATT_MTU − 3 octets (SCOPE 19.4). */
        if (len > link->mtu - 3u) {
            len = link->mtu - 3u;
        }
        if (len > 0) {
            memcpy(out, value, len);
        }
        if (slot != CONTROL_SLOT || a->waiting == 0) {
            a->owed &= ~(1u << slot);
        }
        link->mark = place;
        state->turn = client;
        served[0] = client;
        served[1] = service;
        served[2] = SLOT[slot];
        served[3] = len;
        return 0;
    }
    /* Where nothing is owed, the answer says so and nothing changes (SCOPE 19.5). */
    served[0] = 0;
    served[1] = 0;
    served[2] = 0;
    served[3] = 0;
    return 0;
}

/* Which part the title is, or the refusal (SCOPE 5.8). */
uint32_t ref_title(REF_CATALOGUE, REF_TITLES, const ref_state *state, uint32_t service, uint32_t part[3], REF_PLACE)
{
    catalogue c;
    uint32_t refusal;

    refusal = service_rows(LEND_TITLES(c), &c, state, service);
    if (refusal != 0) {
        return refusal;
    }
    title_part(&c, &state->services[service].player, part);
    return 0;
}

/* The manual's Goto (SCOPE 15.1), made by a copy of the service's player. */
uint32_t ref_manual_goto(REF_CATALOGUE, REF_TITLES, const ref_state *state, uint32_t service, uint32_t opcode, int32_t number,
                         uint32_t allowed, uint32_t made[2], uint32_t place[4], REF_PLACE)
{
    catalogue c;
    ref_player p;
    uint32_t refusal;

    refusal = service_rows(LEND_TITLES(c), &c, state, service);
    if (refusal != 0) {
        return refusal;
    }
    p = state->services[service].player;
    made[0] = manual_goto(&c, &p, opcode, number, allowed, &made[1]);
    place[0] = p.group;
    place[1] = p.track;
    place[2] = p.position;
    place[3] = p.rest;
    return 0;
}
