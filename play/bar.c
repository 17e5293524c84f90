#include "bar.h"

#include "canvas.h"
#include "mcs_desk.h"

#define MINUTE 6000u

#define PLAYED "\xE2\x94\x81"       /* a heavy line */
#define UNPLAYED "\xE2\x94\x80"     /* a light one */
#define PLAYED_START "\xE2\x94\xBF" /* crossed where a segment starts */
#define UNPLAYED_START "\xE2\x94\xBC"
#define HEAD "\xE2\x97\x8F"
#define GOES_ON "\xE2\x86\x92"

uint32_t end_of_scale(const bar *b)
{
    uint32_t there = b->position, end = MINUTE;
    if (b->duration != MCS_RUNNING) {
        return b->duration;
    }
    if (b->segments.count > 0 && b->segments.starts[b->segments.count - 1u] > there) {
        there = b->segments.starts[b->segments.count - 1u];
    }
    while (end <= there) {
        end *= 2u;
    }
    return end;
}

uint32_t current_segment(const bar *b)
{
    uint32_t segment = 0;
    while (segment < b->segments.count && b->segments.starts[segment] <= b->position) {
        segment++;
    }
    return segment;
}

static int cell_of(uint32_t place, uint32_t end, int width)
{
    return end == 0 ? 0 : (int)((uint64_t)place * (uint64_t)(width - 1) / end);
}

void put_bar(int row, int column, int width, const bar *b)
{
    const uint32_t end = end_of_scale(b);
    const int head = cell_of(b->position, end, width);
    size_t segment = 0;
    int at;
    for (at = 0; at < width; at++) {
        const int is_played = b->has_track && at < head;
        int starts = 0;
        while (segment < b->segments.count && cell_of(b->segments.starts[segment], end, width) <= at) {
            starts = 1;
            segment++;
        }
        if (!b->has_track) {
            put_text(row, column + at, 1, LOOK_FAINT, UNPLAYED);
        } else if (at == head) {
            put_text(row, column + at, 1, LOOK_BOLD, HEAD);
        } else if (at == width - 1 && b->duration == MCS_RUNNING) {
            put_text(row, column + at, 1, LOOK_PLAIN, GOES_ON);
        } else if (is_played) {
            put_text(row, column + at, 1, LOOK_BOLD, starts ? PLAYED_START : PLAYED);
        } else {
            put_text(row, column + at, 1, LOOK_PLAIN, starts ? UNPLAYED_START : UNPLAYED);
        }
    }
}
