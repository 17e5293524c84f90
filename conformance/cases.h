/* What the cases are made of: the tester's steps and expectations, which note where they stand; rows and verdicts. */
#ifndef CASES_H
#define CASES_H

#include "tester.h"

/* ---- Steps and expectations note where they stand --------------------------------------------------------------------------
 * A case's call of the tester notes the case's line, for the report of what fails. The tester's own calls note none, so that what
 * fails below a call is reported by the line of the case. */

#define HERE(t) standing(t, __FILE__, __LINE__)
#define preamble(t, ...) preamble(HERE(t), __VA_ARGS__)
#define preamble_with(t, ...) preamble_with(HERE(t), __VA_ARGS__)
#define upper_orders(t, ...) upper_orders(HERE(t), __VA_ARGS__)
#define upper_lends(t, ...) upper_lends(HERE(t), __VA_ARGS__)
#define upper_activates(t, ...) upper_activates(HERE(t), __VA_ARGS__)
#define upper_renames(t, ...) upper_renames(HERE(t), __VA_ARGS__)
#define upper_lets_pass(t, ...) upper_lets_pass(HERE(t), __VA_ARGS__)
#define upper_writes(t, ...) upper_writes(HERE(t), __VA_ARGS__)
#define upper_controls(t, ...) upper_controls(HERE(t), __VA_ARGS__)
#define upper_writes_object(t, ...) upper_writes_object(HERE(t), __VA_ARGS__)
#define upper_sets_speed(t, ...) upper_sets_speed(HERE(t), __VA_ARGS__)
#define upper_plays_half(t) upper_plays_half(HERE(t))
#define upper_confirms(t, ...) upper_confirms(HERE(t), __VA_ARGS__)
#define upper_asks_manual(t, ...) upper_asks_manual(HERE(t), __VA_ARGS__)
#define expect_as_manual(t, ...) expect_as_manual(HERE(t), __VA_ARGS__)
#define lower_subscribes(t, ...) lower_subscribes(HERE(t), __VA_ARGS__)
#define lower_unsubscribes(t, ...) lower_unsubscribes(HERE(t), __VA_ARGS__)
#define lower_drops_bearer(t) lower_drops_bearer(HERE(t))
#define lower_connects(t) lower_connects(HERE(t))
#define third_connects_unencrypted(t) third_connects_unencrypted(HERE(t))
#define lower_writes(t, ...) lower_writes(HERE(t), __VA_ARGS__)
#define lower_writes_position(t, ...) lower_writes_position(HERE(t), __VA_ARGS__)
#define lower_writes_object(t, ...) lower_writes_object(HERE(t), __VA_ARGS__)
#define lower_commands(t, ...) lower_commands(HERE(t), __VA_ARGS__)
#define lower_controls(t, ...) lower_controls(HERE(t), __VA_ARGS__)
#define lower_commands_position(t, ...) lower_commands_position(HERE(t), __VA_ARGS__)
#define expect_reads(t, ...) expect_reads(HERE(t), __VA_ARGS__)
#define lower_reads_object(t, ...) lower_reads_object(HERE(t), __VA_ARGS__)
#define expect_reads_text(t, ...) expect_reads_text(HERE(t), __VA_ARGS__)
#define expect_reads_on(t, ...) expect_reads_on(HERE(t), __VA_ARGS__)
#define expect_command_ignored(t, ...) expect_command_ignored(HERE(t), __VA_ARGS__)
#define expect_read_refused(t, ...) expect_read_refused(HERE(t), __VA_ARGS__)
#define expect_write_refused(t, ...) expect_write_refused(HERE(t), __VA_ARGS__)
#define expect_subscription_refused(t, ...) expect_subscription_refused(HERE(t), __VA_ARGS__)
#define expect_object_refused(t, ...) expect_object_refused(HERE(t), __VA_ARGS__)
#define fetch_group(t, ...) fetch_group(HERE(t), __VA_ARGS__)
#define fetch_segments(t, ...) fetch_segments(HERE(t), __VA_ARGS__)
#define expect_lists(t, ...) expect_lists(HERE(t), __VA_ARGS__)
#define expect_in_segment(t, ...) expect_in_segment(HERE(t), __VA_ARGS__)
#define expect_same_object(t, ...) expect_same_object(HERE(t), __VA_ARGS__)
#define expect_other_object(t, ...) expect_other_object(HERE(t), __VA_ARGS__)
#define expect_objects_of(t, ...) expect_objects_of(HERE(t), __VA_ARGS__)
#define expect_told(t, ...) expect_told(HERE(t), __VA_ARGS__)
#define expect_notified(t, ...) expect_notified(HERE(t), __VA_ARGS__)
#define expect_notified_text(t, ...) expect_notified_text(HERE(t), __VA_ARGS__)
#define expect_result(t, ...) expect_result(HERE(t), __VA_ARGS__)
#define expect_silence(t) expect_silence(HERE(t))
#define expect_moved(t, ...) expect_moved(HERE(t), __VA_ARGS__)
#define expect_not_completed(t, ...) expect_not_completed(HERE(t), __VA_ARGS__)
#define expect_repositioned(t, ...) expect_repositioned(HERE(t), __VA_ARGS__)
#define expect_time_passing(t, ...) expect_time_passing(HERE(t), __VA_ARGS__)

/* ---- Rows ----------------------------------------------------------------------------------------------------------------- */

/* A row of the suite's tables, which is two cases: the suite has each for both services, and makes no difference between them. */
struct tested_case {
    const char *tcid; /* after the service's part */
    uint32_t verdict; /* what it comes to where every expectation holds */
    const char *file, *function;
    void (*run)(struct tester *t);
    uint8_t opcode, initial;
    uint32_t cccds;
};

/* The formatter takes a list in braces for a block. */
/* clang-format off */
#define CASE(tcid, verdict, run, opcode, initial, cccds) {tcid, verdict, __FILE__, #run, run, opcode, initial, cccds}
/* The rows "from Inactive" of 4.4, which are run alike. */
#define INACTIVE_CASE(tcid, opcode, cccds)                                                                                     \
    {tcid, PASS, "inactive.c", "from_inactive", from_inactive, opcode, MCS_INACTIVE, cccds}
void from_inactive(struct tester *t);
#define END_OF_CASES {NULL, 0, NULL, NULL, NULL, 0, 0, 0}
/* clang-format on */

/* The initial condition of 4.4.7 to 4.4.10, and that of 4.4.11 to 4.4.13. */
#define TRACK_CCCDS                                                                                                            \
    (CCCD(MCS_CONTROL_POINT) | CCCD(MCS_MEDIA_STATE) | CCCD(MCS_TRACK_CHANGED) | CCCD(MCS_POSITION) | CCCD(MCS_DURATION) |     \
     CCCD(MCS_TITLE) | CCCD(MCS_TRACK_OBJECT))
#define GROUP_CCCDS (TRACK_CCCDS | CCCD(MCS_GROUP_OBJECT))

/* In the suite's order. */
extern const struct tested_case gatt_cases[];      /* 4.3 */
extern const struct tested_case playing_cases[];   /* 4.4.1 to 4.4.3 */
extern const struct tested_case position_cases[];  /* 4.4.4 to 4.4.6 */
extern const struct tested_case track_cases[];     /* 4.4.7 to 4.4.10 */
extern const struct tested_case group_cases[];     /* 4.4.11 to 4.4.13 */
extern const struct tested_case procedure_cases[]; /* 4.5, 4.6, 4.8 */

/* Shows the tester what is wrong, for each of its expectations; how many it was shown, and in *seen how many it failed at. */
unsigned show_wrong_things(struct tester *t, unsigned *seen);

/* ---- Verdicts ------------------------------------------------------------------------------------------------------------- */

/* Every step of the suite is met, wherever the suite leaves a start, a catalogue or a value open. */
#define PASS 0u

/* The core's part is met; what is declared of a characteristic is the host's. */
#define IN_PART (1u << 31)

/* Not wherever the suite leaves one open: for some, a rule of docs/SCOPE.md has the core do otherwise than the suite expects.
 * Both are run, what the suite expects and what the rule says. The verdict is the set of such choices. conformance.c has the
 * words and the rules of each, and docs/CONFORMANCE.md explains it. */
enum choice {
    EQUAL_UNSENT,
    STAYING_UNSENT,
    STOPPED_AT_0,
    UNMOVED_UNSENT,
    PAUSED_UNSENT,
    LENT_UNSENT,
    SEEKING_GOES_ON,
    SINGLE_ORDERS,
    EMPTY_GROUPS,
    EMPTY_LISTED,
    TRACKS_BY_NUMBER,
    LENGTH_FIRST,
    CHOICES
};
#define CHOICE(which) (1u << (which))

#endif
