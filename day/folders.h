/* The folders, as a device draws them: from the objects that it is handed, and with marks from what it was told. */
#ifndef FOLDERS_H
#define FOLDERS_H

#include <stdint.h>

/* Draws a folder, given by its object's number, and all folders in it. The current track and group of a player and its next track
 * are marked, where the device knows them. Each folder is held against the catalogue. */
void draw_folder(uint32_t who, uint32_t service, uint64_t folder);

/* The first and the last track that a folder lists; NO_OBJECT where it lists none. */
typedef struct {
    uint64_t first, last;
} listed_tracks;
listed_tracks tracks_in(uint64_t folder);

#endif
