/* The cue sheets that are timed, each of the most octets that a sheet may have. */
#ifndef SHEETS_H
#define SHEETS_H

#include <stddef.h>
#include <stdint.h>

#include "mcs.h"

/* The most starts that a sheet can have: lines of 17 octets with an LF between two. */
#define MOST_STARTS ((MCS_SHEET_OCTETS + 1u) / 18u)

enum sheet_of {
    TRACKS_OF_A_FILE, /* FILE, then TRACK, TITLE, INDEX 00 and INDEX 01 over and over, with CR LF */
    ALL_STARTS,       /* INDEX 01 in every line, with LF */
    LONG_REMARKS,     /* REM lines of 200 octets */
    ODD_TITLES,       /* the first, with titles of 0 to 60 octets in no order: lines that no two ends of which are alike */
    WRONG_AT_ONCE,    /* the first, with a first line that is not understood */
    SHEETS
};

extern const char *const SHEET_NAME[SHEETS];

void make_sheet(enum sheet_of what, uint8_t sheet[MCS_SHEET_OCTETS]);

#endif
