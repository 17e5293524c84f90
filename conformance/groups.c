/* 4.4.11 Previous and Next Group, 4.4.12 First and Last Group, 4.4.13 Goto Group. */
#include "cases.h"

/* A group with its first and its last track in the orders 1 and 2, 3 and 4, 5 and 6, 7 and 8, worked out by hand from the stamps
 * (SCOPE 11.1, 11.2 and 11.4). The last in 1 and 2 is the last by number. */
struct member {
    uint32_t group;
    uint32_t first[4], last[4];
};

/* The groups with tracks of one parent, in these catalogues, and what the parent's object lists: its child groups by number, and
 * then its tracks by number (SCOPE 7.3). Between the archive's groups 1 and 3, and the sample's, lies one without tracks
 * (EMPTY_GROUPS), which the object lists (EMPTY_LISTED); among the archive's three there is none. */
static const struct family {
    const catalogue_lines *lines[2];
    uint32_t count; /* TSPX_Number_Groups */
    struct member groups[4];
    uint32_t listed_groups, listed_tracks; /* how many */
    uint32_t listed_group[5], listed_track[3];
} families[] = {
    {{&ARCHIVE_LINES, &TWINS_LINES},
     4,
     {{1, {0, 0, 1, 0}, {3, 3, 0, 3}},
      {3, {4, 4, 4, 5}, {6, 6, 5, 4}},
      {4, {7, 7, 8, 7}, {8, 8, 7, 8}},
      {6, {10, 10, 12, 10}, {12, 12, 11, 12}}},
     5,
     0,
     {1, 2, 3, 4, 6},
     {0}},
    {{&ARCHIVE_LINES, &TWINS_LINES},
     3,
     {{5, {9, 9, 9, 9}, {9, 9, 9, 9}}, {7, {13, 13, 13, 14}, {14, 14, 14, 13}}, {8, {15, 15, 15, 15}, {15, 15, 15, 15}}},
     3,
     3,
     {5, 7, 8},
     {4, 5, 6}},
    {{&SAMPLE_LINES, NULL}, 2, {{1, {0, 0, 1, 0}, {2, 2, 0, 2}}, {3, {3, 3, 3, 3}, {3, 3, 3, 3}}}, 3, 0, {1, 2, 3}, {0}},
};

/* Where a case begins: at a place among a family's groups, in an order. */
struct start {
    const catalogue_lines *lines;
    const struct family *family;
    uint32_t place;
    uint8_t order;
};

/* Calls a case's steps from every start. */
static void from_everywhere(struct tester *t, void (*steps)(struct tester *t, const struct start *start))
{
    for (size_t f = 0; f < sizeof families / sizeof families[0]; f++) {
        for (size_t c = 0; c < 2 && families[f].lines[c] != NULL; c++) {
            struct start start = {families[f].lines[c], &families[f], 0, 0};
            for (start.place = 0; start.place < families[f].count; start.place++) {
                for (start.order = 1; start.order <= 8; start.order++) {
                    steps(t, &start);
                }
            }
        }
    }
}

/* Where a case stands: the player, and the groups that its parent's object of step 2 lists, without those whose own objects list
 * no track. */
struct stand {
    struct setting at;
    uint32_t count;
    long long groups[MOST_ENTRIES];
};

/* Step 1: the Upper Tester puts the player there, into the middle of the group's last track. Step 2: the Object IDs, and the
 * parent's object. */
static struct stand begin(struct tester *t, const struct start *start)
{
    const struct family *family = start->family;
    const struct member *m = &family->groups[start->place];
    const uint32_t track = m->last[(start->order - 1) / 2];
    struct stand stand = {.at = {start->order, m->group, track, start->lines->tracks[track].duration / 2, t->initial}};
    struct group_object parent, child;

    preamble(t, start->lines);
    upper_orders(t, stand.at);
    expect_objects_of(t, stand.at);
    fetch_group(t, lower_reads_object(t, MCS_PARENT_GROUP_OBJECT), &parent);
    expect_lists(t, &parent, family->listed_group, family->listed_groups, family->listed_track, family->listed_tracks);
    for (uint32_t k = 0; k < parent.group_count; k++) {
        fetch_group(t, parent.groups[k], &child);
        if (child.track_count != 0) {
            stand.groups[stand.count++] = parent.groups[k];
        }
    }
    return stand;
}

/* Behind the opcode: the notifications; the group at a place, at its first track, which in the orders 1 to 4 is the first that its
 * object lists (TRACKS_BY_NUMBER). */
static struct stand expect_group(struct tester *t, const struct start *start, struct stand from, uint32_t place)
{
    const struct member *m = &start->family->groups[place];
    struct stand to = from;
    struct group_object entered;

    to.at = expect_moved(t, from.at, m->group, m->first[(start->order - 1) / 2]);
    expect_same_object(t, lower_reads_object(t, MCS_GROUP_OBJECT), from.groups[place]);
    fetch_group(t, lower_reads_object(t, MCS_GROUP_OBJECT), &entered);
    if (start->order <= 4) {
        expect_same_object(t, lower_reads_object(t, MCS_TRACK_OBJECT), entered.tracks[0]);
    }
    return to;
}

/* 4.4.11, from a group that is neither the first nor the last */
static void neighbouring_group_from(struct tester *t, const struct start *start)
{
    if (start->place > 0 && start->place + 1 < start->family->count) {
        struct stand from = begin(t, start);
        const long long left = lower_reads_object(t, MCS_GROUP_OBJECT);
        /* Step 3: the opcode; steps 4 to 10: the notifications */
        lower_controls(t, t->opcode, 0);
        expect_group(t, start, from, t->opcode == MCS_OPCODE_NEXT_GROUP ? start->place + 1 : start->place - 1);
        expect_other_object(t, lower_reads_object(t, MCS_GROUP_OBJECT), left);
    }
}
static void neighbouring_group(struct tester *t) { from_everywhere(t, neighbouring_group_from); }

/* 4.4.12, from the second group for First Group, and the last but one for Last Group */
static void outermost_group_from(struct tester *t, const struct start *start)
{
    const uint32_t last = start->family->count - 1, place = t->opcode == MCS_OPCODE_FIRST_GROUP ? 0 : last;

    /* Between the two writes no time passes, or half a second. */
    for (uint32_t pass = 0; pass <= 50 && start->place == (place == 0 ? 1 : last - 1); pass += 50) {
        struct stand from = begin(t, start);
        const long long left = lower_reads_object(t, MCS_GROUP_OBJECT);
        long long reached;
        /* Steps 3 to 10 as in 4.4.11 */
        lower_controls(t, t->opcode, 0);
        from = expect_group(t, start, from, place);
        reached = lower_reads_object(t, MCS_GROUP_OBJECT);
        expect_other_object(t, reached, left);
        upper_lets_pass(t, pass);
        from.at.position = from.at.state == MCS_PLAYING ? pass : 0;
        /* Steps 11 to 15, the opcode once more: its result, and neither title, duration, Track Changed nor an Object ID. Track
         * Position is sent where it changed, and by the suite where the player is paused (PAUSED_UNSENT); else it reads as in
         * step 9. */
        lower_controls(t, t->opcode, 0);
        expect_group(t, start, from, place);
        expect_same_object(t, lower_reads_object(t, MCS_GROUP_OBJECT), reached);
    }
}
static void outermost_group(struct tester *t) { from_everywhere(t, outermost_group_from); }

/* 4.4.13: from every group, every N of round 1 with every N of round 2, where the suite takes one of each at random. Both may
 * lead to one group (STAYING_UNSENT). */
static void goto_group_from(struct tester *t, const struct start *start)
{
    const uint32_t count = start->family->count;

    for (uint32_t n1 = 1; n1 <= count; n1++) {
        for (uint32_t n2 = 1; n2 <= count; n2++) {
            /* Round 1 leaves out the current group's number, round 2 that of round 1. */
            if (n1 != start->place + 1 && n2 != n1) {
                struct stand from = begin(t, start);
                /* Steps 3 to 10 of round 1: group N; and of round 2: group N from the end */
                lower_controls(t, t->opcode, n1);
                from = expect_group(t, start, from, n1 - 1);
                lower_controls(t, t->opcode, -(int64_t)n2);
                expect_group(t, start, from, count - n2);
            }
        }
    }
}
static void goto_group(struct tester *t) { from_everywhere(t, goto_group_from); }

#define GROUP_CHOICES (CHOICE(EQUAL_UNSENT) | CHOICE(EMPTY_GROUPS) | CHOICE(EMPTY_LISTED) | CHOICE(TRACKS_BY_NUMBER))
#define PAUSED_GROUP_CHOICES (GROUP_CHOICES | CHOICE(PAUSED_UNSENT))
#define GOTO_GROUP_CHOICES (GROUP_CHOICES | CHOICE(STAYING_UNSENT))

const struct tested_case group_cases[] = {
    /* Table 4.15 */
    CASE("/SR/MCP/BV-50-C", GROUP_CHOICES, neighbouring_group, MCS_OPCODE_PREVIOUS_GROUP, MCS_PLAYING, GROUP_CCCDS),
    CASE("/SR/MCP/BV-51-C", GROUP_CHOICES, neighbouring_group, MCS_OPCODE_PREVIOUS_GROUP, MCS_PAUSED, GROUP_CCCDS),
    CASE("/SR/MCP/BV-52-C", GROUP_CHOICES, neighbouring_group, MCS_OPCODE_PREVIOUS_GROUP, MCS_SEEKING, GROUP_CCCDS),
    INACTIVE_CASE("/SR/MCP/BV-53-C", MCS_OPCODE_PREVIOUS_GROUP, GROUP_CCCDS),
    CASE("/SR/MCP/BV-54-C", GROUP_CHOICES, neighbouring_group, MCS_OPCODE_NEXT_GROUP, MCS_PLAYING, GROUP_CCCDS),
    CASE("/SR/MCP/BV-55-C", GROUP_CHOICES, neighbouring_group, MCS_OPCODE_NEXT_GROUP, MCS_PAUSED, GROUP_CCCDS),
    CASE("/SR/MCP/BV-56-C", GROUP_CHOICES, neighbouring_group, MCS_OPCODE_NEXT_GROUP, MCS_SEEKING, GROUP_CCCDS),
    INACTIVE_CASE("/SR/MCP/BV-57-C", MCS_OPCODE_NEXT_GROUP, GROUP_CCCDS),
    /* Table 4.16 */
    CASE("/SR/MCP/BV-58-C", GROUP_CHOICES, outermost_group, MCS_OPCODE_FIRST_GROUP, MCS_PLAYING, GROUP_CCCDS),
    CASE("/SR/MCP/BV-59-C", PAUSED_GROUP_CHOICES, outermost_group, MCS_OPCODE_FIRST_GROUP, MCS_PAUSED, GROUP_CCCDS),
    CASE("/SR/MCP/BV-60-C", GROUP_CHOICES, outermost_group, MCS_OPCODE_FIRST_GROUP, MCS_SEEKING, GROUP_CCCDS),
    INACTIVE_CASE("/SR/MCP/BV-61-C", MCS_OPCODE_FIRST_GROUP, GROUP_CCCDS),
    CASE("/SR/MCP/BV-62-C", GROUP_CHOICES, outermost_group, MCS_OPCODE_LAST_GROUP, MCS_PLAYING, GROUP_CCCDS),
    CASE("/SR/MCP/BV-63-C", PAUSED_GROUP_CHOICES, outermost_group, MCS_OPCODE_LAST_GROUP, MCS_PAUSED, GROUP_CCCDS),
    CASE("/SR/MCP/BV-64-C", GROUP_CHOICES, outermost_group, MCS_OPCODE_LAST_GROUP, MCS_SEEKING, GROUP_CCCDS),
    INACTIVE_CASE("/SR/MCP/BV-65-C", MCS_OPCODE_LAST_GROUP, GROUP_CCCDS),
    /* Table 4.17 */
    CASE("/SR/MCP/BV-66-C", GOTO_GROUP_CHOICES, goto_group, MCS_OPCODE_GOTO_GROUP, MCS_PLAYING, GROUP_CCCDS),
    CASE("/SR/MCP/BV-67-C", GOTO_GROUP_CHOICES, goto_group, MCS_OPCODE_GOTO_GROUP, MCS_PAUSED, GROUP_CCCDS),
    CASE("/SR/MCP/BV-68-C", GOTO_GROUP_CHOICES, goto_group, MCS_OPCODE_GOTO_GROUP, MCS_SEEKING, GROUP_CCCDS),
    INACTIVE_CASE("/SR/MCP/BV-69-C", MCS_OPCODE_GOTO_GROUP, GROUP_CCCDS),
    END_OF_CASES,
};
