/* 4.4.7 Previous and Next Track, 4.4.9 First and Last Track, 4.4.10 Goto Track. (4.4.8 is 4.4.7 from Inactive.) */
#include "cases.h"

#define GROUP 1u

/* The tracks of group 1 in the orders 3 and 4, 5 and 6, 7 and 8, worked out by hand from the stamps (SCOPE 11.1 and
 * 11.2). Sample: 30, 10, 10. Archive and twins: 40, 10, 30, 10. The archive is listed a second time with the titles of an office
 * (SCOPE 5.1). */
static const struct listing {
    const catalogue_lines *lines;
    const char *const *titles; /* the office's */
    uint32_t count;            /* TSPX_Number_Tracks */
    uint32_t tracks[3][4];
} listings[] = {
    {&SAMPLE_LINES, NULL, 3, {{0, 1, 2}, {1, 2, 0}, {0, 1, 2}}},
    {&ARCHIVE_LINES, NULL, 4, {{0, 1, 2, 3}, {1, 3, 2, 0}, {0, 2, 1, 3}}},
    {&ARCHIVE_LINES, ARCHIVE_OFFICE, 4, {{0, 1, 2, 3}, {1, 3, 2, 0}, {0, 2, 1, 3}}},
    {&TWINS_LINES, NULL, 4, {{0, 1, 2, 3}, {1, 3, 2, 0}, {0, 2, 1, 3}}},
};
#define END_OF_LISTINGS (listings + sizeof listings / sizeof listings[0])

/* Where a case stands: the player, and what steps 2 and 10 read. */
struct stand {
    const struct listing *listing;
    struct setting at;
    long long track, next;     /* the Object IDs of the current and of the next track */
    struct group_object group; /* the object of the current group, from step 2 */
};

/* The number of the track behind another in an order. The odd orders play once, and the even ones repeat (SCOPE 11.3); 1 and 2 have
 * the current track alone (SCOPE 11.1). */
static long long behind(const struct listing *listing, uint8_t order, uint32_t track)
{
    const bool alone = order <= 2;
    const uint32_t *tracks = alone ? &track : listing->tracks[(order - 3) / 2], count = alone ? 1 : listing->count;
    uint32_t place = 0;
    while (tracks[place] != track) {
        place++;
    }
    return place + 1 == count && order % 2 != 0 ? NO_OBJECT : MCS_OBJECT_OF_TRACK(tracks[(place + 1) % count]);
}

/* Step 1: the Upper Tester puts the player into a track, at so many halves of it, and names a next track, unless that is
 * NO_OBJECT: the suite leaves open whether one is named. Step 2: the Object IDs, and the group's object, which lists the tracks by
 * number. */
static struct stand begin(struct tester *t, const struct listing *listing, uint8_t order, uint32_t track, uint32_t halves,
                          long long named)
{
    struct stand stand = {.listing = listing,
                          .at = {order, GROUP, track, listing->lines->tracks[track].duration * halves / 2, t->initial},
                          .next = named == NO_OBJECT ? behind(listing, order, track) : named};
    preamble(t, listing->lines);
    upper_lends(t, listing->titles);
    upper_orders(t, stand.at);
    if (named != NO_OBJECT) {
        t->forgets = true;
        upper_writes_object(t, MCS_NEXT_TRACK_OBJECT, named);
        t->forgets = false;
    }
    expect_objects_of(t, stand.at);
    expect_reads(t, MCS_NEXT_TRACK_OBJECT, stand.next);
    stand.track = lower_reads_object(t, MCS_TRACK_OBJECT);
    fetch_group(t, lower_reads_object(t, MCS_GROUP_OBJECT), &stand.group);
    expect_lists(t, &stand.group, NULL, 0, listing->tracks[0], listing->count);
    return stand;
}

/* Behind the opcode: the notifications; the track, and which one is the next then, by the order or as it was named. */
static struct stand expect_track(struct tester *t, struct stand from, uint32_t track, long long next)
{
    struct stand to = from;
    expect_told(t, MCS_NEXT_TRACK_OBJECT, from.next, next);
    to.at = expect_moved(t, from.at, GROUP, track);
    expect_reads(t, MCS_NEXT_TRACK_OBJECT, next);
    to.track = lower_reads_object(t, MCS_TRACK_OBJECT);
    to.next = lower_reads_object(t, MCS_NEXT_TRACK_OBJECT);
    return to;
}

/* In the orders 1 and 2 (SINGLE_ORDERS): what leads to the track itself is made, and a step beyond it in order 2, which repeats. */
static void single_track(struct tester *t, const struct listing *listing, int64_t number, bool leaves)
{
    for (uint8_t order = 1; order <= 2; order++) {
        for (uint32_t track = 0; track < listing->count; track++) {
            struct stand from = begin(t, listing, order, track, 1, NO_OBJECT);
            lower_controls(t, t->opcode, number);
            if (leaves && order == 1) {
                expect_not_completed(t, from.at);
            } else {
                expect_track(t, from, track, from.next);
            }
        }
    }
}

/* Next Track where a track is named, in all orders and from every track, also onto the track itself (SCOPE 14.4 and
 * 14.5) */
static void named_track(struct tester *t, const struct listing *listing)
{
    for (uint8_t order = 1; order <= 8; order++) {
        for (uint32_t track = 0; track < listing->count; track++) {
            for (uint32_t named = 0; named < listing->count; named++) {
                struct stand from = begin(t, listing, order, track, 1, MCS_OBJECT_OF_TRACK(named)), to;
                lower_controls(t, t->opcode, 0);
                to = expect_track(t, from, named, behind(listing, order, named));
                expect_same_object(t, to.track, from.next);
            }
        }
    }
}

/* The comparison of Object IDs in Table 4.10, and what the outcome of 4.4.9 says of them: the track is the first or the last of the
 * object's in the playing order, which in the orders 3 and 4 is the order of the object itself. */
static void expect_verdict(struct tester *t, const struct stand *from, const struct stand *to)
{
    if (t->opcode == MCS_OPCODE_PREVIOUS_TRACK) {
        expect_same_object(t, to->next, from->track);
    } else if (t->opcode == MCS_OPCODE_NEXT_TRACK) {
        expect_same_object(t, to->track, from->next);
    } else {
        expect_other_object(t, to->track, from->track);
        if (from->at.order <= 4) {
            const uint32_t place = t->opcode == MCS_OPCODE_FIRST_TRACK ? 0 : from->listing->count - 1;
            expect_same_object(t, to->track, from->group.tracks[place]);
        }
    }
}

/* 4.4.7 and 4.4.9: from every track that is neither the first nor the last, at its start, in its middle and at its end */
static void track_moves(struct tester *t)
{
    const bool neighbour = t->opcode == MCS_OPCODE_PREVIOUS_TRACK || t->opcode == MCS_OPCODE_NEXT_TRACK;

    for (const struct listing *listing = listings; listing < END_OF_LISTINGS; listing++) {
        for (uint8_t order = 3; order <= 8; order++) {
            const uint32_t *tracks = listing->tracks[(order - 3) / 2];
            for (uint32_t place = 1; place + 1 < listing->count; place++) {
                const uint32_t to = t->opcode == MCS_OPCODE_PREVIOUS_TRACK ? place - 1
                                    : t->opcode == MCS_OPCODE_NEXT_TRACK   ? place + 1
                                    : t->opcode == MCS_OPCODE_FIRST_TRACK  ? 0
                                                                           : listing->count - 1;
                for (uint32_t halves = 0; halves <= 2; halves++) {
                    struct stand from = begin(t, listing, order, tracks[place], halves, NO_OBJECT), reached;
                    /* Step 3: the opcode; steps 4 to 10: the notifications */
                    lower_controls(t, t->opcode, 0);
                    reached = expect_track(t, from, tracks[to], behind(listing, order, tracks[to]));
                    expect_verdict(t, &from, &reached);
                }
            }
        }
        single_track(t, listing, 0, neighbour);
        if (t->opcode == MCS_OPCODE_NEXT_TRACK) {
            named_track(t, listing);
        }
    }
}

/* A round of 4.4.10: the track at a place of the order, which in the orders 3 and 4 is that of the object (TRACKS_BY_NUMBER). */
static struct stand expect_place(struct tester *t, struct stand from, const uint32_t *tracks, uint32_t place)
{
    struct stand to = expect_track(t, from, tracks[place], behind(from.listing, from.at.order, tracks[place]));
    if (from.at.order <= 4) {
        expect_same_object(t, to.track, from.group.tracks[place]);
    }
    return to;
}

/* 4.4.10: from every track, every N of round 1 with every N of round 2, where the suite takes one of each at random. Both may
 * lead to one track (STAYING_UNSENT). No next track is named, or the order's last, which a Goto does not use (SCOPE
 * 11.8). */
static void goto_tracks(struct tester *t, const struct listing *listing, uint8_t order)
{
    const uint32_t *tracks = listing->tracks[(order - 3) / 2], count = listing->count;
    const long long names[] = {NO_OBJECT, MCS_OBJECT_OF_TRACK(tracks[count - 1])};

    for (uint32_t place = 0; place < count; place++) {
        for (uint32_t n1 = 1; n1 <= count; n1++) {
            for (uint32_t n2 = 1; n2 <= count; n2++) {
                /* Round 1 leaves out the current track's number, round 2 that of round 1. */
                for (size_t k = 0; k < 2 && n1 != place + 1 && n2 != n1; k++) {
                    struct stand from = begin(t, listing, order, tracks[place], 1, names[k]);
                    /* Steps 3 to 10 of round 1: track N; and of round 2: track N from the end */
                    lower_controls(t, t->opcode, n1);
                    from = expect_place(t, from, tracks, n1 - 1);
                    lower_controls(t, t->opcode, -(int64_t)n2);
                    expect_place(t, from, tracks, count - n2);
                }
            }
        }
    }
}

static void goto_track(struct tester *t)
{
    for (const struct listing *listing = listings; listing < END_OF_LISTINGS; listing++) {
        for (uint8_t order = 3; order <= 8; order++) {
            goto_tracks(t, listing, order);
        }
        for (int64_t n = 1; n <= listing->count; n++) {
            single_track(t, listing, n, n != 1);
            single_track(t, listing, -n, n != 1);
        }
    }
}

#define TRACK_CHOICES (CHOICE(EQUAL_UNSENT) | CHOICE(SINGLE_ORDERS))
#define GOTO_TRACK_CHOICES (TRACK_CHOICES | CHOICE(STAYING_UNSENT) | CHOICE(TRACKS_BY_NUMBER))
/* Step 10b of 4.4.7 has the next track's Object ID notified, for which its initial condition does not ask. */
#define NEXT_CCCDS (TRACK_CCCDS | CCCD(MCS_NEXT_TRACK_OBJECT))

const struct tested_case track_cases[] = {
    /* Table 4.10 */
    CASE("/SR/MCP/BV-30-C", TRACK_CHOICES, track_moves, MCS_OPCODE_PREVIOUS_TRACK, MCS_PLAYING, NEXT_CCCDS),
    CASE("/SR/MCP/BV-31-C", TRACK_CHOICES, track_moves, MCS_OPCODE_PREVIOUS_TRACK, MCS_PAUSED, NEXT_CCCDS),
    CASE("/SR/MCP/BV-32-C", TRACK_CHOICES, track_moves, MCS_OPCODE_PREVIOUS_TRACK, MCS_SEEKING, NEXT_CCCDS),
    CASE("/SR/MCP/BV-34-C", TRACK_CHOICES, track_moves, MCS_OPCODE_NEXT_TRACK, MCS_PLAYING, NEXT_CCCDS),
    CASE("/SR/MCP/BV-35-C", TRACK_CHOICES, track_moves, MCS_OPCODE_NEXT_TRACK, MCS_PAUSED, NEXT_CCCDS),
    CASE("/SR/MCP/BV-36-C", TRACK_CHOICES, track_moves, MCS_OPCODE_NEXT_TRACK, MCS_SEEKING, NEXT_CCCDS),
    /* Table 4.11 */
    INACTIVE_CASE("/SR/MCP/BV-33-C", MCS_OPCODE_PREVIOUS_TRACK, TRACK_CCCDS),
    INACTIVE_CASE("/SR/MCP/BV-37-C", MCS_OPCODE_NEXT_TRACK, TRACK_CCCDS),
    /* Table 4.12 */
    CASE("/SR/MCP/BV-38-C", TRACK_CHOICES, track_moves, MCS_OPCODE_FIRST_TRACK, MCS_PLAYING, TRACK_CCCDS),
    CASE("/SR/MCP/BV-39-C", TRACK_CHOICES, track_moves, MCS_OPCODE_FIRST_TRACK, MCS_PAUSED, TRACK_CCCDS),
    CASE("/SR/MCP/BV-40-C", TRACK_CHOICES, track_moves, MCS_OPCODE_FIRST_TRACK, MCS_SEEKING, TRACK_CCCDS),
    INACTIVE_CASE("/SR/MCP/BV-41-C", MCS_OPCODE_FIRST_TRACK, TRACK_CCCDS),
    CASE("/SR/MCP/BV-42-C", TRACK_CHOICES, track_moves, MCS_OPCODE_LAST_TRACK, MCS_PLAYING, TRACK_CCCDS),
    CASE("/SR/MCP/BV-43-C", TRACK_CHOICES, track_moves, MCS_OPCODE_LAST_TRACK, MCS_PAUSED, TRACK_CCCDS),
    CASE("/SR/MCP/BV-44-C", TRACK_CHOICES, track_moves, MCS_OPCODE_LAST_TRACK, MCS_SEEKING, TRACK_CCCDS),
    INACTIVE_CASE("/SR/MCP/BV-45-C", MCS_OPCODE_LAST_TRACK, TRACK_CCCDS),
    /* Table 4.13 */
    CASE("/SR/MCP/BV-46-C", GOTO_TRACK_CHOICES, goto_track, MCS_OPCODE_GOTO_TRACK, MCS_PLAYING, TRACK_CCCDS),
    CASE("/SR/MCP/BV-47-C", GOTO_TRACK_CHOICES, goto_track, MCS_OPCODE_GOTO_TRACK, MCS_PAUSED, TRACK_CCCDS),
    CASE("/SR/MCP/BV-48-C", GOTO_TRACK_CHOICES, goto_track, MCS_OPCODE_GOTO_TRACK, MCS_SEEKING, TRACK_CCCDS),
    INACTIVE_CASE("/SR/MCP/BV-49-C", MCS_OPCODE_GOTO_TRACK, TRACK_CCCDS),
    END_OF_CASES,
};
