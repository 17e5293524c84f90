/* Cue sheets, put together from pieces. */
#ifndef SHEET_H
#define SHEET_H

#include "mcs.h"

#define SHEET_ROOM (MCS_SHEET_OCTETS + 4096u)
/* The longest sheet that is accepted has 3,640 starts. */
#define STARTS_ROOM 3648u

/* Frames of a second, a minute, and of all that mm:ss:ff can say. */
#define SECOND 75u
#define MINUTE (60u * SECOND)
#define FRAMES (100u * MINUTE)

typedef struct {
    uint8_t octets[SHEET_ROOM];
    uint32_t length;
} sheet;

/* The octets so many times behind the sheet's end; where there is no room for all of them, none. */
void add_text(sheet *c, const uint8_t *octets, uint32_t length, uint32_t times);

/* The line of a start without its end, 17 octets. */
void index_line(uint8_t line[17], uint32_t frame);

/* So many lines of starts from a frame on, so many frames apart, each with this end. Where they do not fit, none. */
void add_starts(sheet *c, uint32_t from, uint32_t apart, uint32_t count, const uint8_t *end, uint32_t end_length);

/* The octets of a line, from 1, become spaces. */
void blank_line(sheet *c, uint32_t line);

#endif
