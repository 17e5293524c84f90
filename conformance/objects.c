/* What stands for the Object Transfer Service, and what is compared with objects. */
#include "tester.h"
#include "words.h"

#include <string.h>

/* The group or the track whose object has this number, where that of the first one has `first`; whether there may be one. */
static bool names(struct tester *t, long long object, uint32_t first, uint32_t most, uint32_t *named)
{
    *named = (uint32_t)(object - first);
    return require(t, object >= first && object < (long long)first + most, "0x%llX is the number of no such object",
                   (unsigned long long)object);
}

static bool accepted(struct tester *t, const char *what, uint32_t number)
{
    return require(t, number == MCS_OK, "%s: %s", what, mcs_refusal_words(number));
}

/* ---- Group objects -------------------------------------------------------------------------------------------------------- */

static void list(struct tester *t, struct group_object *object, uint32_t type, long long number)
{
    if (type == MCS_ENTRY_GROUP) {
        require(t, object->track_count == 0, "an object lists a group behind a track");
        object->groups[object->group_count++] = number;
    } else {
        require(t, type == MCS_ENTRY_TRACK, "an object lists what is neither a group nor a track");
        object->tracks[object->track_count++] = number;
    }
}

void fetch_group(struct tester *t, long long object, struct group_object *fetched)
{
    uint8_t octets[MCS_MOST_GROUP_OBJECT];
    uint32_t words[MOST_ENTRIES * MCS_GROUP_ENTRY_WORDS], length = 0, group;
    struct mcs_entries entries = {words, sizeof words / sizeof words[0], 0};

    memset(fetched, 0, sizeof *fetched);
    if (names(t, object, MCS_OBJECT_OF_GROUP(0), MCS_MOST_GROUPS, &group) &&
        accepted(t, "writing a group's object", mcs_desk_group_object(&t->desk, group, octets, sizeof octets, &length)) &&
        accepted(t, "reading a group's object", mcs_group_entries(octets, length, &entries)) &&
        require(t, length == entries.count * MCS_GROUP_ENTRY_OCTETS, "a group's object of %u octets has %zu entries",
                (unsigned)length, entries.count)) {
        for (size_t k = 0; k < entries.count; k++) {
            /* What it is, and its number */
            const uint8_t *entry = octets + MCS_GROUP_ENTRY_OCTETS * k;
            const uint64_t number = mcs_entry_object(&entries, k);
            require(t, mcs_entry_type(&entries, k) == entry[0] && number == mcs_object_at(entry + 1),
                    "an entry is read back otherwise than it is laid out");
            list(t, fetched, entry[0], (long long)number);
        }
    }
}

void expect_lists(struct tester *t, const struct group_object *object, const uint32_t *groups, uint32_t group_count,
                  const uint32_t *tracks, uint32_t track_count)
{
    if (!expect(t, object->group_count == group_count && object->track_count == track_count,
                "an object lists %u groups and %u tracks, expected %u and %u", (unsigned)object->group_count,
                (unsigned)object->track_count, (unsigned)group_count, (unsigned)track_count)) {
        return;
    }
    for (uint32_t k = 0; k < group_count; k++) {
        expect_same_object(t, object->groups[k], MCS_OBJECT_OF_GROUP(groups[k]));
    }
    for (uint32_t k = 0; k < track_count; k++) {
        expect_same_object(t, object->tracks[k], MCS_OBJECT_OF_TRACK(tracks[k]));
    }
}

void expect_same_object(struct tester *t, long long object, long long other)
{
    expect(t, object == other, "an Object ID is 0x%llX and not 0x%llX", (unsigned long long)object, (unsigned long long)other);
}

void expect_other_object(struct tester *t, long long object, long long other)
{
    expect(t, object != other, "two Object IDs are both 0x%llX", (unsigned long long)object);
}

/* ---- Track Segments objects ----------------------------------------------------------------------------------------------- */

void fetch_segments(struct tester *t, long long object, struct segments_object *fetched)
{
    uint8_t octets[MCS_MOST_SEGMENTS_OBJECT];
    uint32_t length = 0, track;
    struct mcs_positions segments = {fetched->positions, MCS_MOST_SEGMENTS, 0};

    memset(fetched, 0, sizeof *fetched);
    if (names(t, object, MCS_OBJECT_OF_SEGMENTS(0), MCS_MOST_TRACKS, &track) &&
        accepted(t, "writing a track's segments", mcs_desk_segments_object(&t->desk, track, octets, sizeof octets, &length)) &&
        accepted(t, "reading a track's segments", mcs_segment_positions(octets, length, &segments)) &&
        require(t, length == segments.count * MCS_SEGMENT_ENTRY_OCTETS, "segments of %u octets have %zu entries",
                (unsigned)length, segments.count)) {
        fetched->count = segments.count;
        for (size_t k = 0; k < segments.count; k++) {
            /* A name of no octets, and the position */
            const uint8_t *entry = octets + MCS_SEGMENT_ENTRY_OCTETS * k;
            require(t, entry[0] == 0 && word_at(entry + 1) == fetched->positions[k],
                    "a segment is read back otherwise than it is laid out");
        }
    }
}

void expect_in_segment(struct tester *t, const struct segments_object *object, uint32_t position, size_t number)
{
    expect(t,
           number >= 1 && number <= object->count && object->positions[number - 1] <= position &&
               (number == object->count || position < object->positions[number]),
           "%u is not in segment %zu of %zu", (unsigned)position, number, object->count);
}
