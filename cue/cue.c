/* The segment starts of a recorder's cue sheet.
 *
 *     cue FILE
 *
 * A line for each start says its number from 1, its time as minutes:seconds.hundredths, and its hundredths; the last line
 * says how many there are. Of a sheet that is refused it prints the refusal, and the line of the sheet that it carries.
 * Exit status 0, or 1 where the sheet is refused, or 2 where the file cannot be read or the program is called otherwise.
 */
#include <stdio.h>

#include "file.h"
#include "mcs_desk.h"

/* One octet more than the longest sheet, so that a longer file is refused for its length. */
static uint8_t sheet[MCS_SHEET_OCTETS + 1u];
static uint32_t starts[MCS_MOST_SEGMENTS];

static void print_starts(uint32_t count)
{
    uint32_t k;
    for (k = 0; k < count; k++) {
        uint32_t start = starts[k];
        printf("%4u  %02u:%02u.%02u  %u\n", k + 1u, start / 6000u, start / 100u % 60u, start % 100u, start);
    }
    printf("The sheet has %u start%s.\n", count, count == 1u ? "" : "s");
}

/* A line of the sheet, counted from 1, without the LF or CR LF that ends it. Octets that are no printable ASCII are written
 * in hexadecimal. */
static void print_line(size_t len, uint32_t line)
{
    size_t from = 0, to;

    while (line > 1u && from < len) {
        if (sheet[from] == '\n') {
            line--;
        }
        from++;
    }
    to = from;
    while (to < len && sheet[to] != '\n') {
        to++;
    }
    if (to < len && to > from && sheet[to - 1u] == '\r') {
        to--;
    }
    for (; from < to; from++) {
        if (sheet[from] >= 0x20u && sheet[from] <= 0x7Eu) {
            putchar(sheet[from]);
        } else {
            printf("\\x%02X", (unsigned)sheet[from]);
        }
    }
}

static void print_refusal(uint32_t number, size_t len, uint32_t line)
{
    printf("Refused, %u: %s.\n", number, mcs_refusal_words(number));
    if (number == MCS_BAD_LINE || number == MCS_NOT_RISING) {
        printf("Line %u reads \"", line);
        print_line(len, line);
        printf("\".\n");
    }
}

int main(int count, char **words)
{
    struct mcs_cue cue = {0, 0};
    uint32_t number;
    size_t len;

    if (count != 2) {
        fprintf(stderr, "cue FILE prints the segment starts of a cue sheet.\n");
        return 2;
    }
    if (!read_file(words[1], sheet, sizeof sheet, &len)) {
        fprintf(stderr, "cue: cannot read %s\n", words[1]);
        return 2;
    }
    number = mcs_cue_load(sheet, len, starts, MCS_MOST_SEGMENTS, &cue);
    if (number != MCS_OK) {
        print_refusal(number, len, cue.line);
        return 1;
    }
    print_starts(cue.count);
    return 0;
}
