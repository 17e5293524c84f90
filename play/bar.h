/* The bar of a player's position. Its cells are numbered from 0, and the last one is the end of the track: a place in the track lies in
 * the cell with the number of the whole part of place times last cell over end. */
#ifndef BAR_H
#define BAR_H

#include <stdint.h>

#include "folders.h"

typedef struct {
    int has_track;
    uint32_t position;
    uint32_t duration; /* 0xFFFFFFFF: the recording is still running */
    segment_starts segments;
} bar;

/* Puts it into a row, from a column on. A recording without an end is drawn on a scale that grows with it, and ends in an arrow. */
void put_bar(int row, int column, int width, const bar *b);

/* The end of the scale that a bar is drawn on: a minute, or twice that as often as is needed for what is there to lie below it. */
uint32_t end_of_scale(const bar *b);

/* The segment that the position lies in, counted from 1: the one with the greatest start that is not above it. 0 where the track has no
 * segments. */
uint32_t current_segment(const bar *b);

#endif
