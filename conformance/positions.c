/* 4.4.4 Move Relative, 4.4.5 Segment Movement, 4.4.6 Goto Segment. */
#include "cases.h"

/* Track 0 of group 1: in the archive of duration 15000, its segments start at 0, 3000, 7000 and 11000, each of 30 seconds or
 * more, as 4.4.5 asks; in the sample of duration 6000, at 0, 1500 and 4000. */
static const catalogue_lines *const catalogues[] = {&SAMPLE_LINES, &ARCHIVE_LINES};
#define CATALOGUES (sizeof catalogues / sizeof catalogues[0])

/* How time passes after a step, of which the suite says nothing, though over the air some passes: not at all, or a quarter of a
 * second; where the player is Playing, as it was recorded or at half speed, of which it says nothing either; where it is Seeking,
 * forward or backward (SEEKING_GOES_ON). At half speed, when half a hundredth was played before the step, the quarter is 12 and a
 * half hundredths, of which the position shows 12: the step has set the position, and so the half before it is gone (SCOPE
 * 13.9). */
static const struct clock {
    uint32_t passes;
    int8_t speed;
    uint32_t played;
    uint8_t seeks_by;
} clocks[] = {
    {0, 0, 0, MCS_OPCODE_FAST_FORWARD},
    {25, 0, 25, MCS_OPCODE_FAST_FORWARD},
    {25, HALF_SPEED, 12, MCS_OPCODE_FAST_FORWARD},
    {25, HALF_SPEED, 12, MCS_OPCODE_FAST_REWIND},
};
#define CLOCKS(t) ((t)->initial == MCS_SEEKING ? 4u : (t)->initial == MCS_PLAYING ? 3u : 2u)

/* Step 1: the Upper Tester puts the player there. */
static void begin(struct tester *t, const catalogue_lines *lines, const struct clock *clock, uint32_t position)
{
    struct setting setting = {3, 1, 0, position, t->initial};
    t->seeks_by = clock->seeks_by;
    preamble(t, lines);
    upper_orders(t, setting);
    if (clock->speed == HALF_SPEED && t->initial == MCS_PLAYING) {
        upper_plays_half(t);
    } else {
        upper_sets_speed(t, clock->speed);
    }
}

/* 4.4.4. The offset of step 7, which is a part of the duration, in sixteenths of it. */
static void move_relative_by(struct tester *t, const catalogue_lines *lines, const struct clock *clock, uint32_t sixteenths)
{
    const uint32_t duration = lines->tracks[0].duration, offset = duration / 16 * sixteenths;
    uint32_t position = 2500, end;

    begin(t, lines, clock, position);
    /* Steps 2 and 3 */
    expect_reads(t, MCS_DURATION, duration);
    expect_reads(t, MCS_POSITION, position);
    /* Steps 4 to 6: ten before the start; less than 600, by the standard it is 0 */
    lower_controls(t, t->opcode, -(int64_t)duration - 10);
    expect_repositioned(t, position, 0);
    position = expect_time_passing(t, 0, clock->passes, clock->played);
    /* Steps 7 to 9: within 600 of the offset */
    lower_controls(t, t->opcode, offset);
    expect_repositioned(t, position, position + offset);
    position = expect_time_passing(t, position + offset, clock->passes, clock->played);
    /* Steps 10 to 12: the duration less that offset leads to the end, unless time that passed in Seeking led back. */
    end = position < offset ? duration - (offset - position) : duration;
    lower_controls(t, t->opcode, duration - offset);
    expect_repositioned(t, position, end);
}

static void move_relative(struct tester *t)
{
    static const uint32_t sixteenths[] = {1, 5, 8, 15};

    for (size_t c = 0; c < CATALOGUES; c++) {
        for (size_t k = 0; k < CLOCKS(t); k++) {
            for (size_t f = 0; f < sizeof sixteenths / sizeof sixteenths[0]; f++) {
                move_relative_by(t, catalogues[c], &clocks[k], sixteenths[f]);
            }
        }
    }
}

/* 4.4.5, from positions outside the first and the last segment. */
struct segment_move {
    uint8_t opcode;
    const catalogue_lines *lines;
    uint32_t from, to;
};

static const struct segment_move segment_move[] = {
    /* The standard, 3.18.1.7, lets the server choose: the segment before the current one, or the current one's start. It
     * recommends the first within a few seconds of that start and the second later; here it is less than 300 past it (SCOPE
     * 10.3). The sample's segments are shorter than the suite's 30 seconds: its rows are cases of SCOPE 22.2. */
    {MCS_OPCODE_PREVIOUS_SEGMENT, &ARCHIVE_LINES, 7000, 3000},
    {MCS_OPCODE_PREVIOUS_SEGMENT, &ARCHIVE_LINES, 3000, 0},
    {MCS_OPCODE_PREVIOUS_SEGMENT, &ARCHIVE_LINES, 7100, 3000},
    {MCS_OPCODE_PREVIOUS_SEGMENT, &ARCHIVE_LINES, 7299, 3000},
    {MCS_OPCODE_PREVIOUS_SEGMENT, &ARCHIVE_LINES, 7300, 7000},
    {MCS_OPCODE_PREVIOUS_SEGMENT, &ARCHIVE_LINES, 8000, 7000},
    {MCS_OPCODE_PREVIOUS_SEGMENT, &ARCHIVE_LINES, 6999, 3000},
    {MCS_OPCODE_PREVIOUS_SEGMENT, &SAMPLE_LINES, 1501, 0},
    {MCS_OPCODE_PREVIOUS_SEGMENT, &SAMPLE_LINES, 1799, 0},
    {MCS_OPCODE_PREVIOUS_SEGMENT, &SAMPLE_LINES, 1800, 1500},
    {MCS_OPCODE_PREVIOUS_SEGMENT, &SAMPLE_LINES, 4299, 1500},
    /* The standard, 3.18.1.8 to 10 */
    {MCS_OPCODE_NEXT_SEGMENT, &ARCHIVE_LINES, 3000, 7000},
    {MCS_OPCODE_NEXT_SEGMENT, &ARCHIVE_LINES, 5000, 7000},
    {MCS_OPCODE_NEXT_SEGMENT, &ARCHIVE_LINES, 7000, 11000},
    {MCS_OPCODE_NEXT_SEGMENT, &ARCHIVE_LINES, 10999, 11000},
    {MCS_OPCODE_FIRST_SEGMENT, &ARCHIVE_LINES, 3000, 0},
    {MCS_OPCODE_FIRST_SEGMENT, &ARCHIVE_LINES, 8000, 0},
    {MCS_OPCODE_LAST_SEGMENT, &ARCHIVE_LINES, 3000, 11000},
    {MCS_OPCODE_LAST_SEGMENT, &ARCHIVE_LINES, 8000, 11000},
};

/* The Result Position of Table 4.7: the number of the segment that the move leads to among those of an object. */
static size_t segment_of(const struct segment_move *m, const struct segments_object *segments)
{
    size_t from = 0; /* the one that it begins in */
    while (from < segments->count && segments->positions[from] <= m->from) {
        from++;
    }
    switch (m->opcode) {
    case MCS_OPCODE_FIRST_SEGMENT:
        return 1;
    case MCS_OPCODE_LAST_SEGMENT:
        return segments->count;
    case MCS_OPCODE_NEXT_SEGMENT:
        return from + 1;
    default:
        /* The one before, or the same, as the server chooses */
        return from > 0 && m->from - segments->positions[from - 1] < 300 ? from - 1 : from;
    }
}

static void segment_moves(struct tester *t)
{
    for (const struct segment_move *m = segment_move; m < segment_move + sizeof segment_move / sizeof segment_move[0]; m++) {
        for (size_t k = 0; m->opcode == t->opcode && k < CLOCKS(t); k++) {
            struct segments_object segments;
            long long object;
            begin(t, m->lines, &clocks[k], m->from);
            /* Steps 2 and 3: the segments' Object ID; Track Position */
            object = lower_reads_object(t, MCS_SEGMENTS_OBJECT);
            expect_reads(t, MCS_POSITION, m->from);
            /* Steps 4 to 8: the opcode; Media State, if the server chooses so; result; Track Position; the object */
            lower_controls(t, t->opcode, 0);
            expect_repositioned(t, m->from, m->to);
            fetch_segments(t, object, &segments);
            expect_in_segment(t, &segments, m->to, segment_of(m, &segments));
            expect_time_passing(t, m->to, clocks[k].passes, clocks[k].played);
        }
    }
}

/* 4.4.6, with every N of round 1 and every N of round 2, where the suite takes one of each at random. Both may lead to one
 * segment (STAYING_UNSENT). */
static void goto_segments(struct tester *t, const catalogue_lines *lines, const struct clock *clock)
{
    const track_line *track = &lines->tracks[0];
    const uint32_t segments = track->segments; /* TSPX_Number_Segments */

    for (uint32_t n1 = 2; n1 <= segments; n1++) { /* segment 1 is the current one */
        for (uint32_t n2 = 1; n2 <= segments; n2++) {
            if (n2 != n1) { /* which round 2 leaves out */
                const uint32_t to1 = track->starts[n1 - 1], to2 = track->starts[segments - n2];
                uint32_t position = 1000;
                struct segments_object listed;
                begin(t, lines, clock, position);
                /* Steps 2 and 3: the segments' Object ID, and the object */
                fetch_segments(t, lower_reads_object(t, MCS_SEGMENTS_OBJECT), &listed);
                /* Steps 4 to 7 of round 1: Track Position; the opcode; result; Track Position */
                expect_reads(t, MCS_POSITION, position);
                lower_controls(t, t->opcode, n1);
                expect_repositioned(t, position, to1);
                expect_in_segment(t, &listed, to1, n1);
                position = expect_time_passing(t, to1, clock->passes, clock->played);
                /* The same of round 2: segment N from the end */
                lower_controls(t, t->opcode, -(int64_t)n2);
                expect_repositioned(t, position, to2);
                expect_in_segment(t, &listed, to2, listed.count - n2 + 1);
            }
        }
    }
}

static void goto_segment(struct tester *t)
{
    for (size_t c = 0; c < CATALOGUES; c++) {
        for (size_t k = 0; k < CLOCKS(t); k++) {
            goto_segments(t, catalogues[c], &clocks[k]);
        }
    }
}

#define MOVE_CCCDS (CCCD(MCS_CONTROL_POINT) | CCCD(MCS_POSITION))
#define SEGMENT_CCCDS (MOVE_CCCDS | CCCD(MCS_MEDIA_STATE))
#define GOTO_FROM_SEEKING (CHOICE(STAYING_UNSENT) | CHOICE(SEEKING_GOES_ON))

const struct tested_case position_cases[] = {
    /* Table 4.6 */
    CASE("/SR/MCP/BV-12-C", PASS, move_relative, MCS_OPCODE_MOVE_RELATIVE, MCS_PLAYING, MOVE_CCCDS),
    CASE("/SR/MCP/BV-13-C", PASS, move_relative, MCS_OPCODE_MOVE_RELATIVE, MCS_PAUSED, MOVE_CCCDS),
    CASE("/SR/MCP/BV-14-C", CHOICE(SEEKING_GOES_ON), move_relative, MCS_OPCODE_MOVE_RELATIVE, MCS_SEEKING, MOVE_CCCDS),
    INACTIVE_CASE("/SR/MCP/BV-75-C", MCS_OPCODE_MOVE_RELATIVE, MOVE_CCCDS),
    /* Table 4.7 */
    CASE("/SR/MCP/BV-15-C", PASS, segment_moves, MCS_OPCODE_PREVIOUS_SEGMENT, MCS_PLAYING, SEGMENT_CCCDS),
    CASE("/SR/MCP/BV-16-C", PASS, segment_moves, MCS_OPCODE_PREVIOUS_SEGMENT, MCS_PAUSED, SEGMENT_CCCDS),
    CASE("/SR/MCP/BV-17-C", CHOICE(SEEKING_GOES_ON), segment_moves, MCS_OPCODE_PREVIOUS_SEGMENT, MCS_SEEKING, SEGMENT_CCCDS),
    INACTIVE_CASE("/SR/MCP/BV-76-C", MCS_OPCODE_PREVIOUS_SEGMENT, SEGMENT_CCCDS),
    CASE("/SR/MCP/BV-18-C", PASS, segment_moves, MCS_OPCODE_NEXT_SEGMENT, MCS_PLAYING, SEGMENT_CCCDS),
    CASE("/SR/MCP/BV-19-C", PASS, segment_moves, MCS_OPCODE_NEXT_SEGMENT, MCS_PAUSED, SEGMENT_CCCDS),
    CASE("/SR/MCP/BV-20-C", CHOICE(SEEKING_GOES_ON), segment_moves, MCS_OPCODE_NEXT_SEGMENT, MCS_SEEKING, SEGMENT_CCCDS),
    INACTIVE_CASE("/SR/MCP/BV-77-C", MCS_OPCODE_NEXT_SEGMENT, SEGMENT_CCCDS),
    CASE("/SR/MCP/BV-21-C", PASS, segment_moves, MCS_OPCODE_FIRST_SEGMENT, MCS_PLAYING, SEGMENT_CCCDS),
    CASE("/SR/MCP/BV-22-C", PASS, segment_moves, MCS_OPCODE_FIRST_SEGMENT, MCS_PAUSED, SEGMENT_CCCDS),
    CASE("/SR/MCP/BV-23-C", CHOICE(SEEKING_GOES_ON), segment_moves, MCS_OPCODE_FIRST_SEGMENT, MCS_SEEKING, SEGMENT_CCCDS),
    INACTIVE_CASE("/SR/MCP/BV-78-C", MCS_OPCODE_FIRST_SEGMENT, SEGMENT_CCCDS),
    CASE("/SR/MCP/BV-24-C", PASS, segment_moves, MCS_OPCODE_LAST_SEGMENT, MCS_PLAYING, SEGMENT_CCCDS),
    CASE("/SR/MCP/BV-25-C", PASS, segment_moves, MCS_OPCODE_LAST_SEGMENT, MCS_PAUSED, SEGMENT_CCCDS),
    CASE("/SR/MCP/BV-26-C", CHOICE(SEEKING_GOES_ON), segment_moves, MCS_OPCODE_LAST_SEGMENT, MCS_SEEKING, SEGMENT_CCCDS),
    INACTIVE_CASE("/SR/MCP/BV-79-C", MCS_OPCODE_LAST_SEGMENT, SEGMENT_CCCDS),
    /* Table 4.8 */
    CASE("/SR/MCP/BV-27-C", CHOICE(STAYING_UNSENT), goto_segment, MCS_OPCODE_GOTO_SEGMENT, MCS_PLAYING, MOVE_CCCDS),
    CASE("/SR/MCP/BV-28-C", CHOICE(STAYING_UNSENT), goto_segment, MCS_OPCODE_GOTO_SEGMENT, MCS_PAUSED, MOVE_CCCDS),
    CASE("/SR/MCP/BV-29-C", GOTO_FROM_SEEKING, goto_segment, MCS_OPCODE_GOTO_SEGMENT, MCS_SEEKING, MOVE_CCCDS),
    INACTIVE_CASE("/SR/MCP/BV-80-C", MCS_OPCODE_GOTO_SEGMENT, MOVE_CCCDS),
    END_OF_CASES,
};
