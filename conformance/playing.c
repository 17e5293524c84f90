/* 4.4.1 Play and Pause, 4.4.2 Fast Rewind and Fast Forward, 4.4.3 Stop. */
#include "cases.h"

/* Where a case begins: in track 0 of group 1, whose duration is 6000 in the sample and 15000 in the archive, at a position. */
struct start {
    const catalogue_lines *lines;
    uint32_t position;
};

static const struct start starts[] = {
    {&SAMPLE_LINES, 0},  {&SAMPLE_LINES, 1},  {&SAMPLE_LINES, 3000},  {&SAMPLE_LINES, 5999},   {&SAMPLE_LINES, 6000},
    {&ARCHIVE_LINES, 0}, {&ARCHIVE_LINES, 1}, {&ARCHIVE_LINES, 3000}, {&ARCHIVE_LINES, 14999}, {&ARCHIVE_LINES, 15000},
};
#define END_OF_STARTS (starts + sizeof starts / sizeof starts[0])

/* Step 1: the Upper Tester puts the player there; step 2 reads Media State. */
static void begin(struct tester *t, const struct start *start)
{
    struct setting setting = {3, 1, 0, start->position, t->initial};
    preamble(t, start->lines);
    upper_orders(t, setting);
    expect_reads(t, MCS_MEDIA_STATE, t->initial);
}

/* Neither of the two sets the position, nor does what leads to Seeking: half a hundredth that was played before is not lost
 * (SCOPE 13.10). */
static void half_is_kept(struct tester *t, uint8_t end)
{
    struct setting playing = {3, 1, 0, 3000, MCS_PLAYING};
    preamble(t, &SAMPLE_LINES);
    upper_orders(t, playing);
    upper_plays_half(t);
    if (t->initial != MCS_PLAYING) {
        upper_controls(t, t->initial == MCS_PAUSED ? MCS_OPCODE_PAUSE : t->seeks_by);
        expect_notified(t, MCS_MEDIA_STATE, t->initial);
    }
    lower_controls(t, t->opcode, 0);
    expect_result(t, t->opcode, MCS_RESULT_SUCCESS);
    expect_notified(t, MCS_MEDIA_STATE, end);
    if (end != MCS_PLAYING) {
        upper_lets_pass(t, 100);
        upper_controls(t, MCS_OPCODE_PLAY);
        expect_notified(t, MCS_MEDIA_STATE, MCS_PLAYING);
    }
    expect_reads(t, MCS_POSITION, 3000);
    upper_lets_pass(t, 1);
    expect_reads(t, MCS_POSITION, 3001);
}

/* 4.4.1 */
static void play_or_pause(struct tester *t)
{
    const uint8_t end = t->opcode == MCS_OPCODE_PLAY ? MCS_PLAYING : MCS_PAUSED;

    half_is_kept(t, end);
    for (const struct start *start = starts; start < END_OF_STARTS; start++) {
        begin(t, start);
        /* Steps 3 to 5: the opcode; its result; Media State */
        lower_controls(t, t->opcode, 0);
        expect_result(t, t->opcode, MCS_RESULT_SUCCESS);
        expect_notified(t, MCS_MEDIA_STATE, end);
        expect_silence(t);
        expect_reads(t, MCS_MEDIA_STATE, end);
    }
}

/* 4.4.2, from a position between the track's ends */
static void seek(struct tester *t)
{
    /* Fast Forward enters Seeking at 4, and Fast Rewind at -4 (SCOPE 9.6). That, times the time that passes, is added to the
     * position, which is held to the track's ends (SCOPE 13.7). */
    const int speed = t->opcode == MCS_OPCODE_FAST_FORWARD ? 4 : -4;

    for (const struct start *start = starts; start < END_OF_STARTS; start++) {
        const long long duration = start->lines->tracks[0].duration, sum = start->position + speed * 100LL;
        const long long there = sum < 0 ? 0 : sum > duration ? duration : sum;
        if (start->position == 0 || start->position == duration) {
            continue;
        }
        begin(t, start);
        if (t->initial == MCS_PLAYING) {
            upper_plays_half(t);
        }
        /* Step 3 */
        expect_reads(t, MCS_POSITION, start->position);
        /* Steps 4 and 5: the opcode and its result; by the standard, 3.18.1.3 and 4, Seeking, and the Seeking Speed of 3.9 */
        lower_controls(t, t->opcode, 0);
        expect_result(t, t->opcode, MCS_RESULT_SUCCESS);
        expect_notified(t, MCS_MEDIA_STATE, MCS_SEEKING);
        expect_notified(t, MCS_SEEKING_SPEED, speed);
        expect_silence(t);
        /* Step 6, a second later: the position has moved in the opcode's direction. */
        upper_lets_pass(t, 100);
        expect_reads(t, MCS_POSITION, there);
        /* That set the position, so that half a hundredth which was played before is gone (SCOPE 13.9): another one is not seen
         * either. At its end the track would be over. */
        if (t->initial == MCS_PLAYING && there < duration) {
            upper_controls(t, MCS_OPCODE_PLAY);
            expect_notified(t, MCS_MEDIA_STATE, MCS_PLAYING);
            expect_notified(t, MCS_SEEKING_SPEED, 0);
            upper_lets_pass(t, 1);
            expect_reads(t, MCS_POSITION, there);
        }
    }
}

/* 4.4.3. The suite leaves the position open; at 0 it does not change (STOPPED_AT_0). */
static void stop(struct tester *t)
{
    for (const struct start *start = starts; start < END_OF_STARTS; start++) {
        begin(t, start);
        /* Steps 3 to 6: Stop; its result; Media State, unless it was Paused; Track Position, which is 0 */
        lower_controls(t, t->opcode, 0);
        expect_result(t, t->opcode, MCS_RESULT_SUCCESS);
        if (t->initial != MCS_PAUSED) {
            expect_notified(t, MCS_MEDIA_STATE, MCS_PAUSED);
        }
        if (start->position != 0) {
            expect_notified(t, MCS_POSITION, 0);
        }
        expect_silence(t);
        expect_reads(t, MCS_POSITION, 0);
        expect_reads(t, MCS_MEDIA_STATE, MCS_PAUSED);
    }
}

#define PLAY_CCCDS (CCCD(MCS_MEDIA_STATE) | CCCD(MCS_CONTROL_POINT))
#define SEEK_CCCDS (PLAY_CCCDS | CCCD(MCS_SEEKING_SPEED))
#define STOP_CCCDS (PLAY_CCCDS | CCCD(MCS_POSITION))

const struct tested_case playing_cases[] = {
    /* Table 4.3 */
    CASE("/SR/MCP/BV-01-C", PASS, play_or_pause, MCS_OPCODE_PLAY, MCS_PAUSED, PLAY_CCCDS),
    CASE("/SR/MCP/BV-02-C", PASS, play_or_pause, MCS_OPCODE_PLAY, MCS_SEEKING, PLAY_CCCDS),
    INACTIVE_CASE("/SR/MCP/BV-70-C", MCS_OPCODE_PLAY, PLAY_CCCDS),
    CASE("/SR/MCP/BV-03-C", PASS, play_or_pause, MCS_OPCODE_PAUSE, MCS_PLAYING, PLAY_CCCDS),
    CASE("/SR/MCP/BV-04-C", PASS, play_or_pause, MCS_OPCODE_PAUSE, MCS_SEEKING, PLAY_CCCDS),
    INACTIVE_CASE("/SR/MCP/BV-71-C", MCS_OPCODE_PAUSE, PLAY_CCCDS),
    /* Table 4.4 */
    CASE("/SR/MCP/BV-05-C", PASS, seek, MCS_OPCODE_FAST_REWIND, MCS_PLAYING, SEEK_CCCDS),
    CASE("/SR/MCP/BV-06-C", PASS, seek, MCS_OPCODE_FAST_REWIND, MCS_PAUSED, SEEK_CCCDS),
    INACTIVE_CASE("/SR/MCP/BV-72-C", MCS_OPCODE_FAST_REWIND, SEEK_CCCDS),
    CASE("/SR/MCP/BV-07-C", PASS, seek, MCS_OPCODE_FAST_FORWARD, MCS_PLAYING, SEEK_CCCDS),
    CASE("/SR/MCP/BV-08-C", PASS, seek, MCS_OPCODE_FAST_FORWARD, MCS_PAUSED, SEEK_CCCDS),
    INACTIVE_CASE("/SR/MCP/BV-73-C", MCS_OPCODE_FAST_FORWARD, SEEK_CCCDS),
    /* Table 4.5 */
    CASE("/SR/MCP/BV-09-C", CHOICE(STOPPED_AT_0), stop, MCS_OPCODE_STOP, MCS_PLAYING, STOP_CCCDS),
    CASE("/SR/MCP/BV-10-C", CHOICE(STOPPED_AT_0), stop, MCS_OPCODE_STOP, MCS_PAUSED, STOP_CCCDS),
    CASE("/SR/MCP/BV-11-C", CHOICE(STOPPED_AT_0), stop, MCS_OPCODE_STOP, MCS_SEEKING, STOP_CCCDS),
    INACTIVE_CASE("/SR/MCP/BV-74-C", MCS_OPCODE_STOP, STOP_CCCDS),
    END_OF_CASES,
};
