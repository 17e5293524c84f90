#include "tell.h"
#include "calls.h"

#include <stdarg.h>

static FILE *to;
static int printing, asking_all, right;
static char row_name[128];
static const char *before; /* what is printed before the next count */

uint32_t counted_as(uint32_t number) { return number < NUMBERS ? number : NUMBERS - 1u; }

void row(const char *format, ...)
{
    va_list words;
    va_start(words, format);
    vsnprintf(row_name, sizeof row_name, format, words);
    va_end(words);
    before = ":";
    if (printing) {
        fprintf(to, "\n%s", row_name);
    }
}

void tell(unsigned long count, unsigned long least, const char *format, ...)
{
    char name[64];
    va_list words;
    va_start(words, format);
    vsnprintf(name, sizeof name, format, words);
    va_end(words);
    if (printing && (least > 0 || count > 0)) {
        fprintf(to, "%s %s %lu", before, name, count);
        before = ",";
    }
    if (!printing && (least > 0 ? asking_all && count < least : count > 0)) {
        fprintf(to, "compare: %s: %s: %lu times, not %s%lu\n", row_name, name, count, least > 0 ? "at least " : "", least);
        right = 0;
    }
}

/* The rows of the table of SCOPE 20.2 that can apply, of cards, cue sheets and objects too, and of services and the office's
 * titles, in their order; 0, accepted, ends each list. */
static const uint8_t ROWS[CALLS][13] = {
    [START] = {200, 224, 207, 0},
    [SET_NAME] = {200, 224, 201, 219, 207, 0},
    [ACTIVATE] = {200, 224, 201, 219, 208, 0},
    [DEACTIVATE] = {200, 224, 201, 219, 0},
    [ADVANCE] = {200, 224, 201, 219, 0},
    [CONNECT] = {200, 224, 201, 202, 204, 206, 0},
    [DISCONNECT] = {200, 224, 201, 202, 203, 0},
    [SUBSCRIBE] = {200, 224, 201, 202, 219, 203, 0x01, 209, 0x0F, 0},
    [UNSUBSCRIBE] = {200, 224, 201, 202, 219, 203, 0x01, 209, 0x0F, 0},
    [READ] = {200, 224, 205, 201, 202, 219, 203, 0x01, 0x02, 0x0F, 0x80, 0x07, 0},
    [WRITE] = {200, 224, 201, 202, 219, 203, 0x01, 0x03, 0x0F, 0x0D, 0x13, 0x11, 0},
    [TAKE] = {200, 224, 205, 201, 0},
    [TITLE] = {200, 224, 201, 219, 0},
    [MANUAL_GOTO] = {200, 224, 201, 219, 0},
    [CARD_LOAD] = {210, 211, 215, 216, 217, 214, 218, 212, 0},
    [CUE_SHEET] = {225, 226, 227, 228, 0},
    [CARD_WRITE] = {200, 213, 0},
    [GROUP_OBJECT_WRITE] = {200, 0x13, 223, 0},
    [SEGMENTS_OBJECT_WRITE] = {200, 0x13, 223, 0},
    [GROUP_OBJECT_READ] = {222, 223, 0},
    [SEGMENTS_OBJECT_READ] = {222, 223, 0},
};

void tell_numbers(uint32_t kind, const unsigned long counts[NUMBERS], uint32_t behind, uint32_t but)
{
    uint32_t first = 0;
    while (behind != 0 && ROWS[kind][first++] != behind) {
    }
    for (uint32_t number = 0; number < NUMBERS; number++) {
        unsigned long least = number == 0;
        for (uint32_t k = first; ROWS[kind][k] != 0; k++) {
            least |= ROWS[kind][k] == number && number != but;
        }
        tell(counts[number], least, number == 0 ? "accepted" : number < 200 ? "0x%02X" : "%u", (unsigned)number);
    }
}

int rows_are_right(FILE *out, int all, void (*all_rows)(void))
{
    to = out;
    asking_all = all;
    right = 1;
    printing = 1;
    all_rows();
    fprintf(out, "\n");
    printing = 0;
    all_rows();
    return right;
}
