/* The folders, as the screen draws them: each from a Group object that the desk hands out by its number, and the way from the topmost
 * one to the one that is open. What a folder says of a track is asked of a desk of its own, which goes to the track by its number. */
#ifndef FOLDERS_H
#define FOLDERS_H

#include <stddef.h>
#include <stdint.h>

/* Begins at the topmost folder, group 0. */
void open_folders(void);

/* Into the chosen group. Whether a group is chosen. Back to the folder above, if there is one. */
int enter_folder(void);
void leave_folder(void);

/* To the folder with this number, by the way that leads there from the topmost one. Whether there is such a way. */
int find_folder(uint64_t group);

/* Another entry is chosen, so many below; it stays within the folder. */
void choose_entry(int below);

/* The open folder, how deep it lies, its entries, and the chosen one of them. */
typedef struct {
    int is_group;
    uint64_t object;
} folder_entry;

uint64_t open_folder(void);
uint32_t folder_depth(void);
uint64_t folder_above(uint32_t depth); /* on the way, the topmost being 0 */
size_t entry_count(void);
folder_entry entry_at(size_t place);
size_t chosen_place(void);

/* A track's title and duration. */
typedef struct {
    int is_asked;
    const uint8_t *title;
    size_t title_length;
    uint32_t duration; /* 0xFFFFFFFF where it is not yet known */
} track_facts;

/* Of a track in the open folder. */
const track_facts *facts_of(uint64_t track);

/* The starts of a track's segments, from its Track Segments object; none where it has no such object. */
typedef struct {
    const uint32_t *starts;
    size_t count;
} segment_starts;

segment_starts segments_of(uint32_t service, uint32_t track);

#endif
