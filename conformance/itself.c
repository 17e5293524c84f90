/* The tester itself: every step and every expectation is shown something wrong, and must fail. So none of them passes whatever
 * the core does. */
#include "cases.h"

#include <stdio.h>
#include <string.h>

/* Group 1 of the sample, Paused at 700 of its track 0; everything is subscribed to. */
static const struct setting paused = {3, 1, 0, 700, MCS_PAUSED};

static void begin(struct tester *t)
{
    preamble(t, &SAMPLE_LINES);
    upper_orders(t, paused);
    for (uint32_t bit = 0; bit < SLOTS; bit++) {
        lower_subscribes(t, CCCD(slot_at(bit)));
    }
}

unsigned show_wrong_things(struct tester *t, unsigned *seen)
{
    static const uint8_t order_5[1] = {5}, order_9[1] = {9}, others_order[1] = {OTHERS_ORDER}, unknown[1] = {0xFF};
    const struct setting beyond_the_end = {3, 1, 0, 6001, MCS_PAUSED}, in_another_group = {3, 1, 3, 0, MCS_PAUSED};
    static const uint32_t groups[] = {1, 2, 3},
                          tracks[] = {0, 1, 2}; /* that the sample's group 0 lists, and that group 1 does */
    const char *title = LONG_TITLES_LINES.tracks[0].title;
    static const char *const cut_inside_a_character[] = {"Wei\xC3", NULL, NULL, NULL};
    struct group_object group;
    struct segments_object segments;
    struct mcs_goto said;
    unsigned shown = 0;

#define WRONG(what)                                                                                                            \
    do {                                                                                                                       \
        const unsigned before = t->failures;                                                                                   \
        what;                                                                                                                  \
        shown++;                                                                                                               \
        *seen += t->failures != before ? 1u : 0u;                                                                              \
        if (t->failures == before) {                                                                                           \
            printf("%s:%d: wrong, and not seen: %s\n", file_name(__FILE__), __LINE__, #what);                                  \
        }                                                                                                                      \
    } while (0)

    *seen = 0;

    /* A case that expects nothing */
    begin_case(t, &SERVICE[0], false);
    begin(t);
    WRONG(end_case(t));

    /* Steps that the core refuses, or that do not lead where they should */
    WRONG(preamble_with(t, &SAMPLE_LINES, MCS_ALL_OPCODES, 22));
    begin(t);
    WRONG(upper_activates(t, 0));
    WRONG(upper_renames(t, "\xFF"));
    WRONG(upper_writes(t, MCS_PLAYING_ORDER, order_9, 1));
    WRONG(lower_writes(t, MCS_PLAYING_ORDER, order_9, 1));
    WRONG(lower_subscribes(t, CCCD(MCS_ORDERS_SUPPORTED)));
    WRONG(lower_unsubscribes(t, CCCD(MCS_ORDERS_SUPPORTED)));
    WRONG(lower_connects(t));
    third_connects_unencrypted(t);
    WRONG(third_connects_unencrypted(t));
    WRONG(upper_lends(t, cut_inside_a_character));
    WRONG((void)upper_asks_manual(t, MCS_OPCODE_GOTO_TRACK, 1));
    upper_lends(t, NULL);
    WRONG(upper_orders(t, beyond_the_end));
    WRONG(upper_orders(t, in_another_group));
    lower_drops_bearer(t);
    WRONG(lower_drops_bearer(t));
    WRONG(lower_controls(t, MCS_OPCODE_PLAY, 0)); /* the host writes for a client that is not there */

    /* Other values, lengths and numbers than those of the core */
    begin(t);
    WRONG(expect_reads(t, MCS_POSITION, 701));
    WRONG(expect_reads(t, MCS_NAME, t->service->player_name[0]));
    WRONG(expect_reads(t, MCS_CONTROL_POINT, 0));
    WRONG(expect_reads_text(t, MCS_TITLE, SAMPLE_LINES.tracks[1].title));
    WRONG(expect_reads_text(t, MCS_NAME, "Desk 5"));
    WRONG(expect_reads_text(t, MCS_NAME, "Desk"));
    WRONG(expect_reads_text(t, MCS_NAME, "Desk 44"));
    WRONG(expect_reads_text(t, MCS_CONTROL_POINT, ""));
    upper_lends(t, SAMPLE_OFFICE);
    WRONG(expect_reads_text(t, MCS_TITLE, SAMPLE_LINES.tracks[0].title));
    WRONG(expect_reads_on(t, MCS_TITLE, 1, SAMPLE_LINES.tracks[0].title));
    upper_lends(t, NULL);
    WRONG(expect_read_refused(t, LOWER(t), MCS_POSITION, 0, MCS_NOT_READABLE));
    WRONG(expect_read_refused(t, LOWER(t), MCS_CONTROL_POINT, 0, MCS_NOT_ENCRYPTED));
    WRONG(expect_write_refused(t, LOWER(t), MCS_PLAYING_ORDER, order_9, 1, MCS_BAD_LENGTH));
    WRONG(expect_write_refused(t, LOWER(t), MCS_PLAYING_ORDER, order_5, 1, MCS_OK)); /* it alters the state */
    WRONG(expect_subscription_refused(t, LOWER(t), MCS_ORDERS_SUPPORTED, MCS_NOT_ENCRYPTED));
    for (int field = 0; field < 5; field++) {
        struct setting elsewhere = paused;
        elsewhere.order = field == 0 ? 4 : paused.order;
        elsewhere.group = field == 1 ? 3 : paused.group;
        elsewhere.track = field == 2 ? 1 : paused.track;
        elsewhere.position = field == 3 ? 701 : paused.position;
        elsewhere.state = field == 4 ? MCS_PLAYING : paused.state;
        WRONG(upper_confirms(t, elsewhere));
    }

    /* Object IDs: other numbers, none where there is one and one where there is none, what is no Object ID; numbers that the core
     * does not take, and one that it does */
    WRONG(expect_reads(t, MCS_TRACK_OBJECT, MCS_OBJECT_OF_TRACK(1)));
    WRONG(expect_reads(t, MCS_TRACK_OBJECT, MCS_OBJECT_OF_TRACK(0) | 1LL << 40));
    WRONG(expect_reads(t, MCS_GROUP_OBJECT, NO_OBJECT));
    WRONG((void)lower_reads_object(t, MCS_TITLE));
    WRONG((void)lower_reads_object(t, MCS_CONTROL_POINT));
    WRONG(lower_writes_object(t, MCS_TRACK_OBJECT, MCS_OBJECT_OF_TRACK(3)));
    WRONG(upper_writes_object(t, MCS_GROUP_OBJECT, MCS_OBJECT_OF_GROUP(2)));
    WRONG(expect_object_refused(t, MCS_NEXT_TRACK_OBJECT, MCS_OBJECT_OF_TRACK(2)));
    WRONG(expect_same_object(t, MCS_OBJECT_OF_TRACK(0), MCS_OBJECT_OF_GROUP(0)));
    WRONG(expect_other_object(t, NO_OBJECT, NO_OBJECT));
    for (int field = 0; field < 2; field++) {
        struct setting elsewhere = paused;
        elsewhere.group = field == 0 ? 3 : paused.group;
        elsewhere.track = field == 1 ? 1 : paused.track;
        WRONG(expect_objects_of(t, elsewhere));
    }

    /* Objects that are not there, and others than those that are; segments that a position is not in */
    begin(t);
    WRONG(fetch_group(t, MCS_OBJECT_OF_GROUP(4), &group));
    WRONG(fetch_group(t, MCS_OBJECT_OF_TRACK(1), &group));
    WRONG(fetch_group(t, NO_OBJECT, &group));
    WRONG(fetch_segments(t, MCS_OBJECT_OF_SEGMENTS(1), &segments)); /* track 1 has none */
    WRONG(fetch_segments(t, MCS_OBJECT_OF_GROUP(1), &segments));
    fetch_group(t, MCS_OBJECT_OF_GROUP(0), &group);
    WRONG(expect_lists(t, &group, groups, 2, NULL, 0));
    WRONG(expect_lists(t, &group, groups, 3, tracks, 1));
    WRONG(expect_lists(t, &group, tracks, 3, NULL, 0));
    fetch_group(t, MCS_OBJECT_OF_GROUP(1), &group);
    WRONG(expect_lists(t, &group, NULL, 0, groups, 3));
    fetch_segments(t, MCS_OBJECT_OF_SEGMENTS(0), &segments);
    WRONG(expect_in_segment(t, &segments, 700, 0));
    WRONG(expect_in_segment(t, &segments, 700, 2));
    WRONG(expect_in_segment(t, &segments, 1500, 1));
    WRONG(expect_in_segment(t, &segments, 5000, 4));

    /* Parts of a Read Long that are longer or shorter than the ATT_MTU asks, and a notification that is longer */
    preamble_with(t, &LONG_TITLES_LINES, MCS_ALL_OPCODES, 64);
    upper_activates(t, 0);
    t->mtu = 23;
    WRONG(expect_reads_text(t, MCS_TITLE, title));
    t->mtu = 130;
    WRONG(expect_reads_text(t, MCS_TITLE, title));
    t->mtu = 23;
    lower_subscribes(t, CCCD(MCS_TITLE));
    WRONG(upper_activates(t, 1));

    /* Notifications that are missing, other than expected, not expected, or another client's */
    begin(t);
    WRONG(expect_notified(t, MCS_DURATION, 6000));
    WRONG(expect_notified_text(t, MCS_TRACK_CHANGED, ""));
    WRONG(expect_result(t, MCS_OPCODE_PLAY, MCS_RESULT_SUCCESS));
    upper_activates(t, 3);
    WRONG(expect_notified(t, MCS_DURATION, 901));
    WRONG(expect_notified(t, MCS_TITLE, SAMPLE_LINES.tracks[3].title[0]));
    WRONG(expect_notified(t, MCS_NEXT_TRACK_OBJECT, MCS_OBJECT_OF_TRACK(3))); /* it is the group's only one: none is next */
    WRONG(expect_reads(t, MCS_NEXT_TRACK_OBJECT, MCS_OBJECT_OF_TRACK(3)));
    t->cccds = CCCD(MCS_GROUP_OBJECT) | CCCD(MCS_PARENT_GROUP_OBJECT);
    WRONG(expect_told(t, MCS_GROUP_OBJECT, MCS_OBJECT_OF_GROUP(1), MCS_OBJECT_OF_GROUP(2)));
    WRONG(expect_told(t, MCS_PARENT_GROUP_OBJECT, MCS_OBJECT_OF_GROUP(1), MCS_OBJECT_OF_GROUP(0)));
    t->cccds = 0;
    WRONG(expect_silence(t));
    WRONG(upper_lets_pass(t, 0));
    upper_renames(t, "Desk 5");
    WRONG(expect_notified_text(t, MCS_NAME, "Desk 6"));
    upper_renames(t, "Desk 6");
    WRONG(expect_notified_text(t, MCS_NAME, "Desk"));
    begin(t);
    upper_activates(t, 3);
    WRONG(end_case(t));
    lower_controls(t, MCS_OPCODE_PAUSE, 0);
    WRONG(expect_result(t, MCS_OPCODE_PLAY, MCS_RESULT_SUCCESS));
    lower_controls(t, MCS_OPCODE_PAUSE, 0);
    WRONG(expect_result(t, MCS_OPCODE_PAUSE, MCS_RESULT_NOT_COMPLETED));
    (void)mcs_desk_subscribe(&t->desk, UPPER(t), TESTED(t), MCS_NAME);
    lower_unsubscribes(t, CCCD(MCS_NAME));
    WRONG(upper_renames(t, "Desk 9"));

    /* At the end something is owed, or a take is refused. */
    begin(t);
    (void)mcs_desk_set_name(&t->desk, TESTED(t), NULL, 0);
    WRONG(end_case(t));
    t->desk.state[MCS_AT_SERVICE(TESTED(t)) + MCS_IN_ORDER] = 0;
    WRONG(end_case(t));

    /* The other service is altered and nothing of it is notified, by a hundredth at its speed, which alters the rest behind the
     * position alone; it is notified and is as it was before; its player is altered where a client disconnects. */
    begin(t);
    (void)mcs_desk_advance(&t->desk, OTHER(t), 1);
    WRONG(upper_lets_pass(t, 0));
    begin(t);
    (void)mcs_desk_write(&t->desk, UPPER(t), OTHER(t), MCS_PLAYING_ORDER, order_5, 1);
    (void)mcs_desk_write(&t->desk, UPPER(t), OTHER(t), MCS_PLAYING_ORDER, others_order, 1);
    WRONG(upper_lets_pass(t, 0));
    begin(t);
    (void)mcs_desk_advance(&t->desk, OTHER(t), 1);
    WRONG(lower_drops_bearer(t));

    /* Commands that are not ignored: the state is altered, or a result comes. */
    begin(t);
    WRONG(expect_command_ignored(t, MCS_PLAYING_ORDER, order_5, 1));
    WRONG(expect_command_ignored(t, MCS_CONTROL_POINT, unknown, 1));

    /* Moves that lead elsewhere */
    t->opcode = MCS_OPCODE_NEXT_TRACK;
    begin(t);
    lower_controls(t, t->opcode, 0);
    WRONG(expect_moved(t, paused, 1, 2));
    begin(t);
    lower_controls(t, t->opcode, 0);
    WRONG(expect_not_completed(t, paused));
    t->opcode = MCS_OPCODE_FIRST_SEGMENT;
    t->initial = MCS_PLAYING;
    begin(t);
    lower_controls(t, t->opcode, 0);
    WRONG(expect_repositioned(t, 700, 1500));
    begin(t);
    WRONG(expect_time_passing(t, 700, 25, 25));

    /* A Goto whose result, steps, group, track, position or rest is not what the manual's says */
    begin(t);
    said = upper_asks_manual(t, MCS_OPCODE_GOTO_TRACK, 2);
    lower_controls(t, MCS_OPCODE_GOTO_TRACK, 2);
    for (int word = 0; word < 6; word++) {
        struct mcs_goto other = said;
        other.outcome = word == 0 ? MCS_RESULT_NOT_COMPLETED : said.outcome;
        other.steps += word == 1 ? 1u : 0;
        other.group += word == 2 ? 1u : 0;
        other.track += word == 3 ? 1u : 0;
        other.position += word == 4 ? 1u : 0;
        other.rest += word == 5 ? 1u : 0;
        WRONG(expect_as_manual(t, 2, other));
    }

    /* At half speed: a player that is paused is given no half of a hundredth; one that plays gets 12 and a half on in 25 by the
     * clock, which is not 13, and in twice 25 it gets 25 on, which is not twice 12. */
    begin(t);
    lower_unsubscribes(t, CCCD(MCS_PLAYBACK_SPEED));
    WRONG(upper_plays_half(t));
    upper_controls(t, MCS_OPCODE_PLAY);
    expect_notified(t, MCS_MEDIA_STATE, MCS_PLAYING);
    WRONG(expect_time_passing(t, 700, 25, 13));
    WRONG(expect_time_passing(t, 712, 25, 12));
    return shown;
}
