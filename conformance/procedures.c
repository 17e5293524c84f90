/* 4.5 Update Characteristics – Oversized Values, 4.6 Service procedures, 4.8 Service Procedure Error Handling. */
#include "cases.h"

static const catalogue_lines *const catalogues[] = {&SAMPLE_LINES, &ARCHIVE_LINES};
#define CATALOGUES (sizeof catalogues / sizeof catalogues[0])

static const uint8_t active_states[] = {MCS_PLAYING, MCS_PAUSED, MCS_SEEKING};
#define ACTIVE_STATES 3u
#define PLAYING_OR_PAUSED 2u

static void begin(struct tester *t, const catalogue_lines *lines, struct setting setting)
{
    preamble(t, lines);
    upper_orders(t, setting);
}

/* ---- 4.5 Update Characteristics – Oversized Values ------------------------------------------------------------------------ */

/* Values above ATT_MTU - 3: these have 128 octets, the most there are. */
#define NAME_BEFORE                                                                                                            \
    "Floor 1, desk 1.Floor 1, desk 2.Floor 1, desk 3.Floor 1, desk 4."                                                         \
    "Floor 1, desk 5.Floor 1, desk 6.Floor 1, desk 7.Floor 1, desk 8."
#define NAME_AFTER                                                                                                             \
    "Floor 2, desk 1.Floor 2, desk 2.Floor 2, desk 3.Floor 2, desk 4."                                                         \
    "Floor 2, desk 5.Floor 2, desk 6.Floor 2, desk 7.Floor 2, desk 8."

/* The least ATT_MTU; one between; one whose answers hold such a value exactly, so that an empty part follows; the greatest whose
 * notifications it still exceeds, 127 octets of 128. */
static const uint32_t oversized_mtus[] = {23, 64, 129, 130};
#define OVERSIZED_MTUS (sizeof oversized_mtus / sizeof oversized_mtus[0])

/* From step 3 on, when the value is `after`: it is notified, in ATT_MTU - 3 octets; a Read Long that goes on after them is
 * refused, for the value has changed; one from the start is not. */
static void oversized_value_was_updated(struct tester *t, uint32_t characteristic, const char *after)
{
    expect_notified_text(t, characteristic, after);
    expect_silence(t);
    expect_read_refused(t, LOWER(t), characteristic, t->mtu - 3u, MCS_VALUE_CHANGED);
    expect_reads_text(t, characteristic, after);
}

static void update_name_oversized(struct tester *t)
{
    for (size_t k = 0; k < OVERSIZED_MTUS; k++) {
        preamble_with(t, &SAMPLE_LINES, MCS_ALL_OPCODES, oversized_mtus[k]);
        upper_renames(t, NAME_BEFORE);
        lower_subscribes(t, CCCD(MCS_NAME));
        /* Step 1: Read Long; step 2: another value */
        expect_reads_text(t, MCS_NAME, NAME_BEFORE);
        upper_renames(t, NAME_AFTER);
        oversized_value_was_updated(t, MCS_NAME, NAME_AFTER);
    }
}

/* The card's titles or an office's (SCOPE 5.1), and the other ones lent afterwards. */
static void update_titles_oversized(struct tester *t, uint32_t mtu, const char *const *titles, const char *const *others)
{
    preamble_with(t, &LONG_TITLES_LINES, MCS_ALL_OPCODES, mtu);
    upper_lends(t, titles);
    upper_activates(t, 0);
    lower_subscribes(t, CCCD(MCS_TITLE));
    /* The same; a title is its track's, so for another value another track becomes the current one. */
    expect_reads_text(t, MCS_TITLE, title_of(t, 0));
    upper_activates(t, 1);
    oversized_value_was_updated(t, MCS_TITLE, title_of(t, 1));
    /* Or the office calls the track otherwise. That is no call of the core, so nothing is sent, nor by the next call, which leaves
     * the paused player alone; and a Read Long that goes on is not refused (LENT_UNSENT). */
    upper_lends(t, others);
    expect_silence(t);
    upper_lets_pass(t, 1);
    expect_silence(t);
    expect_reads_on(t, MCS_TITLE, mtu - 3u, title_of(t, 1));
    expect_reads_text(t, MCS_TITLE, title_of(t, 1));
}

static void update_title_oversized(struct tester *t)
{
    for (size_t k = 0; k < OVERSIZED_MTUS; k++) {
        update_titles_oversized(t, oversized_mtus[k], NULL, LONG_TITLES_OFFICE);
        update_titles_oversized(t, oversized_mtus[k], LONG_TITLES_OFFICE, NULL);
    }
}

/* ---- 4.6 Service procedures ----------------------------------------------------------------------------------------------- */

/* 4.6.1: group 0 has no parent, and group 1 below it has; the player comes there by activation, and by a write of the group's
 * Object ID. Step 1 reads the current track's Object ID, and the outcome compares the current group's: both are read. */
static void no_parent_group(struct tester *t)
{
    for (uint32_t group = 0; group < LONG_TITLES_LINES.group_count; group++) {
        for (size_t s = 0; s < ACTIVE_STATES; s++) {
            struct setting there = {3, 0, 0, 0, active_states[s]};
            long long current, parent;
            begin(t, &LONG_TITLES_LINES, there);
            if (group != 0) {
                lower_writes_object(t, MCS_GROUP_OBJECT, MCS_OBJECT_OF_GROUP(group));
                there.group = group;
                there.track = group_word(&t->made, group, FIRST_TRACK);
            }
            /* Steps 1 and 2 */
            expect_objects_of(t, there);
            current = lower_reads_object(t, MCS_GROUP_OBJECT);
            parent = lower_reads_object(t, MCS_PARENT_GROUP_OBJECT);
            if (group == 0) {
                expect_same_object(t, current, parent);
            } else {
                expect_other_object(t, current, parent);
                lower_writes_object(t, MCS_GROUP_OBJECT, parent);
                expect_reads(t, MCS_GROUP_OBJECT, parent);
                expect_reads(t, MCS_PARENT_GROUP_OBJECT, parent);
            }
        }
    }
}

/* 4.6.2. Steps 2 and 3 lead to a third of the duration, D. The suite leaves open where the player is before: from the start, from
 * the end, and from that third itself, where the position does not change (UNMOVED_UNSENT). */
static void valid_track_position_writes(struct tester *t)
{
    for (size_t c = 0; c < CATALOGUES; c++) {
        const uint32_t duration = catalogues[c]->tracks[0].duration, two_thirds = duration * 2 / 3,
                       third = duration - two_thirds;
        const uint32_t starts[] = {0, third, duration};

        for (size_t p = 0; p < 3; p++) {
            for (size_t s = 0; s < ACTIVE_STATES; s++) {
                struct setting setting = {3, 1, 0, starts[p], active_states[s]};
                begin(t, catalogues[c], setting);
                /* Step 1 */
                expect_reads(t, MCS_DURATION, duration);
                /* Steps 2 and 3: two thirds of it back from the end (the standard, 3.7.1). The writer is told (SCOPE 18.5). */
                lower_commands_position(t, -(int64_t)two_thirds);
                if (starts[p] != third) {
                    expect_notified(t, MCS_POSITION, third);
                }
                expect_silence(t);
                expect_reads(t, MCS_POSITION, third);
                /* Between the writes half a hundredth is played at half speed, where the player plays: the next write sets the
                 * position, and so that half is gone (SCOPE 13.9). */
                if (setting.state == MCS_PLAYING) {
                    upper_plays_half(t);
                }
                /* Steps 4 and 5: the same from the start */
                lower_commands_position(t, two_thirds);
                expect_notified(t, MCS_POSITION, two_thirds);
                expect_silence(t);
                expect_reads(t, MCS_POSITION, two_thirds);
                if (setting.state == MCS_PLAYING) {
                    upper_lets_pass(t, 1);
                    expect_reads(t, MCS_POSITION, two_thirds);
                }
            }
        }
    }
}

/* 4.6.3: the CCID, before and after a new connection */
static void ccid_has_not_changed(struct tester *t)
{
    preamble(t, &SAMPLE_LINES);
    expect_reads(t, MCS_CONTENT_CONTROL_ID, t->service->ccid);
    lower_drops_bearer(t);
    lower_connects(t);
    expect_reads(t, MCS_CONTENT_CONTROL_ID, t->service->ccid);
}

/* ---- 4.8 Service Procedure Error Handling --------------------------------------------------------------------------------- */

/* 4.8.1: an opcode that is reserved or not in the mask, with the octets behind it that are given: the result, and no more. The
 * manual's Goto does not know it either. */
static void not_supported(struct tester *t, const uint8_t *octets, size_t length)
{
    const struct mcs_goto said = upper_asks_manual(t, octets[0], 1);
    lower_commands(t, MCS_CONTROL_POINT, octets, length);
    expect_as_manual(t, 1, said);
    expect_result(t, octets[0], MCS_RESULT_NOT_SUPPORTED);
    expect_silence(t);
}

/* The project's choice (LENGTH_FIRST): without a result; the answer of a Write says why, a Write Without Response has none. */
static void wrong_length(struct tester *t, const uint8_t *octets, size_t length)
{
    expect_write_refused(t, LOWER(t), MCS_CONTROL_POINT, octets, length, MCS_BAD_LENGTH);
    expect_command_ignored(t, MCS_CONTROL_POINT, octets, length);
}

static void opcodes_not_supported(struct tester *t, uint32_t mask, uint8_t state)
{
    preamble_with(t, &SAMPLE_LINES, mask, t->service->mtu);
    if (state != MCS_INACTIVE) {
        upper_activates(t, 1);
    }
    /* Steps 1 and 2, with every reserved opcode, in every length that is taken; over five octets are not. */
    for (uint32_t opcode = 0; opcode <= 0xFF; opcode++) {
        const uint8_t octets[6] = {(uint8_t)opcode, 1, 0, 0, 0, 0};
        for (size_t length = 1; opcode_place((uint8_t)opcode) == OPCODES && length <= 5; length++) {
            not_supported(t, octets, length);
        }
        if (opcode_place((uint8_t)opcode) == OPCODES) {
            wrong_length(t, octets, 6);
        }
    }
    /* Step 3 */
    expect_reads(t, MCS_OPCODES_SUPPORTED, mask & MCS_ALL_OPCODES);
    /* Steps 4 and 5, with every opcode that step 3 leaves out. With another opcode's length none is taken, supported or not. */
    for (uint32_t bit = 0; bit < OPCODES; bit++) {
        const uint8_t octets[5] = {OPCODE[bit], 1, 0, 0, 0};
        const size_t length = carries_number(OPCODE[bit]) ? 5 : 1;
        if ((mask >> bit & 1u) == 0) {
            not_supported(t, octets, length);
        }
        wrong_length(t, octets, 6 - length);
    }
    expect_reads(t, MCS_MEDIA_STATE, state);
}

static void opcode_not_supported(struct tester *t)
{
    /* Every second opcode; the others, with all bits above set, which are reserved and read as 0; none; all. */
    static const uint32_t masks[] = {0x00155555u, 0xFFEAAAAAu, 0, MCS_ALL_OPCODES};

    for (size_t k = 0; k < sizeof masks / sizeof masks[0]; k++) {
        opcodes_not_supported(t, masks[k], MCS_INACTIVE);
        opcodes_not_supported(t, masks[k], MCS_PAUSED);
    }
}

/* 4.8.3: more than six seconds from the end, the opcode with 0 does not move the position, nor is it notified. */
static void goto_segment_zero(struct tester *t)
{
    for (size_t c = 0; c < CATALOGUES; c++) {
        for (size_t s = 0; s < PLAYING_OR_PAUSED; s++) {
            struct setting setting = {3, 1, 0, 2345, active_states[s]};
            begin(t, catalogues[c], setting);
            if (setting.state == MCS_PLAYING) {
                upper_plays_half(t);
            }
            expect_reads(t, MCS_POSITION, 2345);
            lower_controls(t, MCS_OPCODE_GOTO_SEGMENT, 0);
            expect_result(t, MCS_OPCODE_GOTO_SEGMENT, MCS_RESULT_SUCCESS);
            expect_silence(t);
            /* Less than 600 further; by the standard, 3.18.1.11, not at all */
            expect_reads(t, MCS_POSITION, 2345);
            /* It sets no position. So half a hundredth that was played before is not lost (SCOPE 10.7). */
            upper_lets_pass(t, 1);
            expect_silence(t);
            expect_reads(t, MCS_POSITION, setting.state == MCS_PLAYING ? 2346 : 2345);
        }
    }
}

/* 4.8.4 and 4.8.5: in every group with tracks, from every track of it, the opcode with 0 keeps the track or the group, and no
 * Track Changed comes of Goto Track, nor the group's Object ID of Goto Group. The position becomes 0, and Goto Group leads to the
 * group's first track (the standard, 3.18.1.16 and 21); Seeking becomes Playing (SCOPE 11.7 and 12.3). */
static void goto_zero(struct tester *t)
{
    const uint32_t kept = t->opcode == MCS_OPCODE_GOTO_TRACK ? MCS_TRACK_OBJECT : MCS_GROUP_OBJECT;
    for (size_t c = 0; c < CATALOGUES; c++) {
        for (uint32_t group = 0, track = 0; group < catalogues[c]->group_count; group++) {
            const uint32_t first = track;
            for (; track < first + catalogues[c]->groups[group].tracks; track++) {
                for (size_t s = 0; s < ACTIVE_STATES; s++) {
                    struct setting at = {3, group, track, catalogues[c]->tracks[track].duration / 2, active_states[s]};
                    long long object;
                    begin(t, catalogues[c], at);
                    object = lower_reads_object(t, kept);
                    lower_controls(t, t->opcode, 0);
                    expect_result(t, t->opcode, MCS_RESULT_SUCCESS);
                    expect_silence(t);
                    expect_same_object(t, lower_reads_object(t, kept), object);
                    at.track = t->opcode == MCS_OPCODE_GOTO_TRACK ? track : first;
                    at.position = 0;
                    at.state = active_states[s] == MCS_SEEKING ? MCS_PLAYING : active_states[s];
                    expect_objects_of(t, at);
                    upper_confirms(t, at);
                }
            }
        }
    }
}

/* 4.8.6: from each of the orders, every order whose bit step 2 leaves out; bit b is the order b + 1 (the standard, Tables 3.3 and
 * 3.4). */
static void playing_order_ignored(struct tester *t)
{
    for (uint8_t order = 1; order <= 8; order++) {
        struct setting setting = {order, 1, 0, 0, MCS_PAUSED};
        begin(t, &SAMPLE_LINES, setting);
        /* Steps 1 and 2 */
        expect_reads(t, MCS_PLAYING_ORDER, order);
        expect_reads(t, MCS_ORDERS_SUPPORTED, 0x00FF);
        for (uint8_t ignored = 9; ignored <= 16; ignored++) {
            /* Steps 3 and 4: by Write Without Response nothing tells of it; a Write would bring back 0x13. */
            expect_command_ignored(t, MCS_PLAYING_ORDER, &ignored, 1);
            expect_reads(t, MCS_PLAYING_ORDER, order);
            expect_write_refused(t, LOWER(t), MCS_PLAYING_ORDER, &ignored, 1, MCS_NOT_ALLOWED);
        }
    }
}

/* 4.8.7: positions beyond the duration, and as far before the start, by Write. What is read lies between 0 and the duration
 * (SCOPE 9.8). */
static void invalid_track_position(struct tester *t)
{
    static const uint32_t beyond[] = {1, 600, 1000000};

    for (size_t c = 0; c < CATALOGUES; c++) {
        const uint32_t duration = catalogues[c]->tracks[0].duration;
        for (size_t b = 0; b < sizeof beyond / sizeof beyond[0]; b++) {
            struct setting setting = {3, 1, 0, 100, MCS_PAUSED};
            begin(t, catalogues[c], setting);
            expect_reads(t, MCS_DURATION, duration);
            lower_writes_position(t, duration + beyond[b]);
            expect_reads(t, MCS_POSITION, duration);
            lower_writes_position(t, -(int64_t)duration - beyond[b]);
            expect_reads(t, MCS_POSITION, 0);
        }
    }
}

#define POSITION_CCCD CCCD(MCS_POSITION)
#define POINT_CCCD CCCD(MCS_CONTROL_POINT)
#define CHANGED_CCCD CCCD(MCS_TRACK_CHANGED)

/* Tables 4.19, 4.20, 4.21, 4.22, 4.25, 4.27, 4.28, 4.29, 4.30 and 4.31 */
const struct tested_case procedure_cases[] = {
    CASE("/SR/SPN/BV-01-C", PASS, update_name_oversized, 0, 0, 0),
    CASE("/SR/SPN/BV-02-C", CHOICE(LENT_UNSENT), update_title_oversized, 0, 0, 0),
    CASE("/SR/SP/BV-01-C", PASS, no_parent_group, 0, 0, 0),
    CASE("/SR/SP/BV-02-C", CHOICE(UNMOVED_UNSENT), valid_track_position_writes, 0, 0, POSITION_CCCD),
    CASE("/SR/SP/BV-03-C", PASS, ccid_has_not_changed, 0, 0, 0),
    CASE("/SR/SPE/BI-01-C", CHOICE(LENGTH_FIRST), opcode_not_supported, 0, 0, POINT_CCCD),
    CASE("/SR/SPE/BI-03-C", PASS, goto_segment_zero, MCS_OPCODE_GOTO_SEGMENT, 0, POSITION_CCCD | POINT_CCCD),
    CASE("/SR/SPE/BI-04-C", PASS, goto_zero, MCS_OPCODE_GOTO_TRACK, 0, CHANGED_CCCD | POINT_CCCD),
    CASE("/SR/SPE/BI-05-C", PASS, goto_zero, MCS_OPCODE_GOTO_GROUP, 0, CCCD(MCS_GROUP_OBJECT) | POINT_CCCD),
    CASE("/SR/SPE/BI-06-C", PASS, playing_order_ignored, 0, 0, 0),
    CASE("/SR/SPE/BI-07-C", PASS, invalid_track_position, 0, 0, 0),
    END_OF_CASES,
};
