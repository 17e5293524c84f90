#include "sheets.h"

#include <stdio.h>
#include <string.h>

const char *const SHEET_NAME[SHEETS] = {"727 tracks with titles", "3,640 lines INDEX 01", "REM lines of 200 octets",
                                        "tracks with titles of all lengths", "refused for its first line (226)"};

/* mm:ss:ff of so many seconds and frames. */
static void put_time(char *to, size_t room, unsigned seconds, unsigned frames)
{
    snprintf(to, room, "%02u:%02u:%02u", seconds / 60u % 100u, seconds % 60u, frames % 75u);
}

/* The lines of the track or start `number`, their length. */
static size_t put_lines(enum sheet_of what, unsigned number, char *to, size_t room)
{
    static const char LETTERS[] = "An interview about the harbour and the years before the bridge";
    char before[16], at[16];
    int length;
    switch (what) {
    case ALL_STARTS:
        put_time(at, sizeof at, number / 75u, number);
        length = snprintf(to, room, "INDEX 01 %s\n", at);
        break;
    case LONG_REMARKS:
        length = snprintf(to, room, "REM %0194u\r\n", number);
        break;
    case ODD_TITLES:
        put_time(before, sizeof before, number == 0 ? 0 : 8u * number - 1u, 0);
        put_time(at, sizeof at, 8u * number, number == 0 ? 0 : 37);
        length = snprintf(to, room, "  TRACK %02u AUDIO\r\n    TITLE \"%.*s\"\r\n    INDEX 00 %s\r\n    INDEX 01 %s\r\n",
                          number % 100u, (int)(number * 2654435761u >> 16) % 61, LETTERS, before, at);
        break;
    default:
        /* Eight seconds a track, and a second between two. */
        put_time(before, sizeof before, number == 0 ? 0 : 8u * number - 1u, 0);
        put_time(at, sizeof at, 8u * number, number == 0 ? 0 : 37);
        length =
            snprintf(to, room, "  TRACK %02u AUDIO\r\n    TITLE \"Interview %02u\"\r\n    INDEX 00 %s\r\n    INDEX 01 %s\r\n",
                     number % 100u, number % 100u, before, at);
        break;
    }
    return (size_t)length;
}

void make_sheet(enum sheet_of what, uint8_t sheet[MCS_SHEET_OCTETS])
{
    static const char FILE_LINE[] = "FILE \"desk.wav\" WAVE\r\n";
    char lines[256];
    size_t at = 0, length;
    unsigned number = 0;

    /* A line of spaces is empty: they fill what is left behind the last lines that fit. */
    memset(sheet, ' ', MCS_SHEET_OCTETS);
    if (what == TRACKS_OF_A_FILE || what == ODD_TITLES || what == WRONG_AT_ONCE) {
        at = sizeof FILE_LINE - 1u;
        memcpy(sheet, FILE_LINE, at);
    }
    while (length = put_lines(what, number++, lines, sizeof lines), length <= MCS_SHEET_OCTETS - at) {
        memcpy(sheet + at, lines, length);
        at += length;
    }
    if (what == WRONG_AT_ONCE) {
        sheet[0] = 'f';
    }
}
