#include "tables.h"

#include <string.h>

struct mcs_catalogue lent(const tables *t)
{
    struct mcs_catalogue c = {t->groups,   t->length[GROUPS],   t->tracks, t->length[TRACKS],
                              t->segments, t->length[SEGMENTS], t->text,   t->length[TEXT]};
    return c;
}

struct mcs_titles lent_titles(const tables *t)
{
    struct mcs_titles titles = {t->renames, t->length[RENAMES], t->office, t->length[OFFICE]};
    return titles;
}

struct mcs_room whole_room(tables *t)
{
    struct mcs_room r = {t->groups, GROUPS_ROOM, t->tracks, TRACKS_ROOM, t->segments, SEGMENTS_ROOM, t->text, TEXT_ROOM};
    return r;
}

void rename_nothing(tables *t)
{
    memset(t->renames, 0, sizeof t->renames);
    t->length[RENAMES] = MCS_RENAME_WORDS * track_count(t);
    t->length[OFFICE] = 0;
}

const void *table_octets(const tables *t, uint32_t table)
{
    switch (table) {
    case GROUPS:
        return t->groups;
    case TRACKS:
        return t->tracks;
    case SEGMENTS:
        return t->segments;
    case TEXT:
        return t->text;
    case RENAMES:
        return t->renames;
    default:
        return t->office;
    }
}

uint32_t table_room(uint32_t table)
{
    static const uint32_t ROOM[LENT_TABLES] = {GROUPS_ROOM, TRACKS_ROOM, SEGMENTS_ROOM, TEXT_ROOM, RENAMES_ROOM, OFFICE_ROOM};
    return ROOM[table];
}

uint32_t entry_octets(uint32_t table) { return table == TEXT || table == OFFICE ? 1u : 4u; }

uint32_t table_entry(const tables *t, uint32_t table, uint32_t at)
{
    const void *octets = table_octets(t, table);
    return entry_octets(table) == 1u ? ((const uint8_t *)octets)[at] : ((const uint32_t *)octets)[at];
}

void set_table_entry(tables *t, uint32_t table, uint32_t at, uint32_t to)
{
    switch (table) {
    case GROUPS:
        t->groups[at] = to;
        break;
    case TRACKS:
        t->tracks[at] = to;
        break;
    case SEGMENTS:
        t->segments[at] = to;
        break;
    case TEXT:
        t->text[at] = (uint8_t)to;
        break;
    case RENAMES:
        t->renames[at] = to;
        break;
    default:
        t->office[at] = (uint8_t)to;
        break;
    }
}

uint32_t record_entries(uint32_t table)
{
    static const uint32_t ENTRIES[LENT_TABLES] = {MCS_GROUP_WORDS, MCS_TRACK_WORDS, MCS_SEGMENT_WORDS, 1, MCS_RENAME_WORDS, 1};
    return ENTRIES[table];
}

uint32_t group_count(const tables *t) { return t->length[GROUPS] / MCS_GROUP_WORDS; }
uint32_t track_count(const tables *t) { return t->length[TRACKS] / MCS_TRACK_WORDS; }
uint32_t group_word(const tables *t, uint32_t group, uint32_t word) { return t->groups[MCS_GROUP_WORDS * group + word]; }
uint32_t track_word(const tables *t, uint32_t track, uint32_t word) { return t->tracks[MCS_TRACK_WORDS * track + word]; }
uint32_t rename_word(const tables *t, uint32_t track, uint32_t word) { return t->renames[MCS_RENAME_WORDS * track + word]; }

uint32_t end_of_track(uint32_t duration) { return duration == MCS_RUNNING ? MCS_MOST_DURATION : duration; }

void tables_of_lines(const catalogue_lines *lines, tables *t)
{
    uint32_t first_track = 0;
    memset(t, 0, sizeof *t);
    for (uint32_t g = 0; g < lines->group_count; g++) {
        uint32_t *record = t->groups + MCS_GROUP_WORDS * g;
        record[PARENT] = lines->groups[g].parent;
        record[FIRST_TRACK] = first_track;
        record[TRACK_COUNT] = lines->groups[g].tracks;
        first_track += lines->groups[g].tracks;
    }
    for (uint32_t k = 0; k < lines->track_count; k++) {
        const track_line *line = &lines->tracks[k];
        uint32_t *record = t->tracks + MCS_TRACK_WORDS * k;
        record[DURATION] = line->duration;
        record[STAMP] = line->stamp;
        record[FIRST_SEGMENT] = t->length[SEGMENTS];
        record[SEGMENT_COUNT] = line->segments;
        record[TITLE_OFFSET] = t->length[TEXT];
        record[TITLE_LENGTH] = (uint32_t)strlen(line->title);
        memcpy(t->segments + t->length[SEGMENTS], line->starts, sizeof(uint32_t) * line->segments);
        memcpy(t->text + t->length[TEXT], line->title, record[TITLE_LENGTH]);
        t->length[SEGMENTS] += line->segments;
        t->length[TEXT] += record[TITLE_LENGTH];
    }
    t->length[GROUPS] = MCS_GROUP_WORDS * lines->group_count;
    t->length[TRACKS] = MCS_TRACK_WORDS * lines->track_count;
    rename_nothing(t);
}

/* Groups: 0 (no tracks), 1 (tracks 0–2), 2 (none), 3 (track 3); parents 0. Track, duration, stamp: 0, 6000, 30 with starts 0,
 * 1500, 4000; 1, 300, 10; 2, 0, 10; 3, 900, 5 (SCOPE 22.1). It gives no titles: no two of these are alike, and one is empty. */
static const group_line sample_groups[] = {{0, 0}, {0, 3}, {0, 0}, {0, 1}};
static const track_line sample_tracks[] = {
    {6000, 30, u8"Überfahrt", 3, {0, 1500, 4000}},
    {300, 10, "Rast", 0, {0}},
    {0, 10, "", 0, {0}},
    {900, 5, "Ziel", 0, {0}},
};
const catalogue_lines SAMPLE_LINES = LINES(sample);

void sample_catalogue(tables *t) { tables_of_lines(&SAMPLE_LINES, t); }
