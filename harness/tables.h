/* The tables of a catalogue and the office's titles beside them, with room for a little more than the limits allow. */
#ifndef TABLES_H
#define TABLES_H

#include "mcs_desk.h"

/* The tables that a card holds; and behind them those of the office, its entries and its text. */
enum { GROUPS, TRACKS, SEGMENTS, TEXT, TABLES, RENAMES = TABLES, OFFICE, LENT_TABLES };

#define GROUPS_ROOM (MCS_GROUP_WORDS * (MCS_MOST_GROUPS + 4u))
#define TRACKS_ROOM (MCS_TRACK_WORDS * (MCS_MOST_TRACKS + 4u))
#define SEGMENTS_ROOM (MCS_MOST_SEGMENTS + 8u)
#define TEXT_ROOM (MCS_MOST_TEXT + 64u)
#define RENAMES_ROOM (MCS_RENAME_WORDS * (MCS_MOST_TRACKS + 4u))
#define OFFICE_ROOM (MCS_MOST_TEXT + 64u) /* the office's text has no limit; so it holds the longest title for every track */

/* Words of a record. */
enum { PARENT, FIRST_TRACK, TRACK_COUNT };
enum { DURATION, STAMP, FIRST_SEGMENT, SEGMENT_COUNT, TITLE_OFFSET, TITLE_LENGTH };
enum { RENAME_OFFSET, RENAME_LENGTH };

/* The texts begin at a line of the cache, so that what a call takes does not depend on where a program has its tables. */
#define CACHE_LINE 64

typedef struct {
    uint32_t groups[GROUPS_ROOM], tracks[TRACKS_ROOM], segments[SEGMENTS_ROOM];
    _Alignas(CACHE_LINE) uint8_t text[TEXT_ROOM];
    uint32_t renames[RENAMES_ROOM];
    _Alignas(CACHE_LINE) uint8_t office[OFFICE_ROOM];
    uint32_t length[LENT_TABLES]; /* as lent: in words, of the texts in octets */
} tables;

/* The tables as a call is lent them, and as a card is loaded into them: with their whole room. */
struct mcs_catalogue lent(const tables *t);
struct mcs_titles lent_titles(const tables *t);
struct mcs_room whole_room(tables *t);

/* The office has an entry of zeros for each track, and an empty text. */
void rename_nothing(tables *t);

/* The table's octets and their room in entries, its words or octets. */
const void *table_octets(const tables *t, uint32_t table);
uint32_t table_room(uint32_t table);
uint32_t entry_octets(uint32_t table);
uint32_t table_entry(const tables *t, uint32_t table, uint32_t at);
void set_table_entry(tables *t, uint32_t table, uint32_t at, uint32_t to);

/* Words of a table's record; of a text 1, an octet. */
uint32_t record_entries(uint32_t table);

/* Whole records. */
uint32_t group_count(const tables *t);
uint32_t track_count(const tables *t);
uint32_t group_word(const tables *t, uint32_t group, uint32_t word);
uint32_t track_word(const tables *t, uint32_t track, uint32_t word);
uint32_t rename_word(const tables *t, uint32_t track, uint32_t word);

/* D of a track: its duration, or the most that there is where the recording is still running. */
uint32_t end_of_track(uint32_t duration);

/* ---- Catalogues from lines: runs of tracks, runs of segments and places of titles follow from them */

#define MOST_STARTS_OF_A_LINE 4u

typedef struct {
    uint32_t parent;
    uint32_t tracks; /* how many */
} group_line;

typedef struct {
    uint32_t duration, stamp;
    const char *title;
    uint32_t segments; /* how many */
    uint32_t starts[MOST_STARTS_OF_A_LINE];
} track_line;

typedef struct {
    const group_line *groups;
    uint32_t group_count;
    const track_line *tracks;
    uint32_t track_count;
} catalogue_lines;

/* The lines of two tables, name_groups and name_tracks. */
#define LINES(name)                                                                                                            \
    {                                                                                                                          \
        name##_groups, sizeof name##_groups / sizeof name##_groups[0], name##_tracks,                                          \
            sizeof name##_tracks / sizeof name##_tracks[0]                                                                     \
    }

/* The office renames nothing. */
void tables_of_lines(const catalogue_lines *lines, tables *t);

/* The sample catalogue (SCOPE 22.1), with titles that are chosen here. */
extern const catalogue_lines SAMPLE_LINES;
void sample_catalogue(tables *t);

#endif
