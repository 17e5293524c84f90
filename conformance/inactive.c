/* The rows "from Inactive" of the tables of 4.4, which all end alike: the result is Media Player Inactive, the first of the two
 * outcomes that the suite allows there, and by the standard, 3.18.1, nothing else is done. */
#include "cases.h"

/* As many segments, tracks and groups as an N of the archive counts to: four segments in track 0, four tracks in group 1, four
 * groups with tracks below group 0. While Inactive no number is the current one, so N is any of them, of either round. */
#define MOST_N 4

static void expect_no_track(struct tester *t)
{
    expect_reads(t, MCS_MEDIA_STATE, MCS_INACTIVE);
    expect_reads_text(t, MCS_TITLE, "");
    expect_reads(t, MCS_DURATION, UNAVAILABLE);
    expect_reads(t, MCS_POSITION, UNAVAILABLE);
    for (uint32_t object = MCS_SEGMENTS_OBJECT; object <= MCS_GROUP_OBJECT; object++) {
        expect_reads(t, object, NO_OBJECT);
    }
}

static void inactive_with(struct tester *t, int64_t number)
{
    /* The steps before the write read Media State, Track Duration, Track Position or Object IDs. */
    expect_no_track(t);
    lower_controls(t, t->opcode, number);
    expect_result(t, t->opcode, MCS_RESULT_INACTIVE);
    expect_silence(t);
    expect_no_track(t);
}

static void inactive(struct tester *t)
{
    if (t->opcode == MCS_OPCODE_MOVE_RELATIVE) {
        inactive_with(t, -(UNAVAILABLE + 10)); /* (Track Duration + 10) times -1, with a duration that reads -1 */
    } else if (carries_number(t->opcode)) {
        for (int64_t n = -MOST_N; n <= MOST_N; n++) {
            if (n != 0) {
                inactive_with(t, n);
            }
        }
    } else {
        inactive_with(t, 0);
    }
}

void from_inactive(struct tester *t)
{
    const catalogue_lines *const catalogues[] = {&SAMPLE_LINES, &ARCHIVE_LINES};

    for (size_t c = 0; c < sizeof catalogues / sizeof catalogues[0]; c++) {
        /* As after the start, where there never was a track; and again after a track in each group. */
        preamble(t, catalogues[c]);
        inactive(t);
        for (uint32_t group = 0; group < catalogues[c]->group_count; group++) {
            const uint32_t tracks = catalogues[c]->groups[group].tracks;
            if (tracks != 0) {
                struct setting left = {3, group, group_word(&t->made, group, FIRST_TRACK) + tracks - 1, 0, MCS_INACTIVE};
                upper_orders(t, left);
                inactive(t);
            }
        }
    }
}
