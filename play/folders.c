#include "folders.h"

#include <string.h>

#include "host.h"
#include "words.h"

#define MOST_ENTRIES (MCS_MOST_GROUP_OBJECT / MCS_GROUP_ENTRY_OCTETS)
#define ENTRY_WORDS (MCS_GROUP_ENTRY_WORDS * MOST_ENTRIES)

/* A folder that is open: its number, its entries as they were read, and the chosen one. */
typedef struct {
    uint64_t object;
    uint32_t words[ENTRY_WORDS];
    size_t count;
    size_t chosen;
} folder;

/* The way from the topmost folder to the open one. A group's parent has a lower number, so that no way is longer. */
static folder way[MCS_MOST_GROUPS];
static uint32_t depth;

/* Asks for a folder's object and reads its entries; none where there is no such object. */
static void read_folder(folder *f, uint64_t object)
{
    uint8_t octets[MCS_MOST_GROUP_OBJECT];
    struct mcs_entries entries = {f->words, ENTRY_WORDS, 0};
    uint32_t length = 0;
    f->object = object;
    f->chosen = 0;
    f->count = 0;
    if (mcs_desk_group_object(&desk, (uint32_t)(object - MCS_OBJECT_OF_GROUP(0)), octets, sizeof octets, &length) == MCS_OK &&
        mcs_group_entries(octets, length, &entries) == MCS_OK) {
        f->count = entries.count;
    }
}

static folder_entry entry_in(folder *f, size_t place)
{
    const struct mcs_entries entries = {f->words, ENTRY_WORDS, f->count};
    folder_entry entry = {0, 0};
    if (place < f->count) {
        entry.is_group = mcs_entry_type(&entries, place) == MCS_ENTRY_GROUP;
        entry.object = mcs_entry_object(&entries, place);
    }
    return entry;
}

void open_folders(void)
{
    depth = 0;
    read_folder(&way[0], MCS_OBJECT_OF_GROUP(0));
}

uint64_t open_folder(void) { return way[depth].object; }
uint32_t folder_depth(void) { return depth; }
uint64_t folder_above(uint32_t at) { return way[at].object; }
size_t entry_count(void) { return way[depth].count; }
folder_entry entry_at(size_t place) { return entry_in(&way[depth], place); }
size_t chosen_place(void) { return way[depth].chosen; }

void choose_entry(int below)
{
    folder *f = &way[depth];
    if (below < 0 && f->chosen > 0) {
        f->chosen--;
    } else if (below > 0 && f->chosen + 1u < f->count) {
        f->chosen++;
    }
}

int enter_folder(void)
{
    const folder_entry entry = entry_at(chosen_place());
    if (!entry.is_group || depth + 1u >= MCS_MOST_GROUPS) {
        return 0;
    }
    depth++;
    read_folder(&way[depth], entry.object);
    return 1;
}

void leave_folder(void)
{
    if (depth > 0) {
        depth--;
    }
}

/* Whether the folder that is open, or one in it, is the one that is looked for; the way then leads there, and else stays. */
static int search(uint64_t group)
{
    const uint32_t from = depth;
    folder *f = &way[from];
    const size_t chosen = f->chosen;
    if (f->object == group) {
        return 1;
    }
    for (f->chosen = 0; f->chosen < f->count; f->chosen++) {
        if (enter_folder()) {
            if (search(group)) {
                return 1;
            }
            depth = from;
        }
    }
    f->chosen = chosen;
    return 0;
}

int find_folder(uint64_t group)
{
    const uint32_t from = depth;
    static folder before[MCS_MOST_GROUPS];
    memcpy(before, way, sizeof way);
    open_folders();
    if (search(group)) {
        return 1;
    }
    memcpy(way, before, sizeof way);
    depth = from;
    return 0;
}

/* ---- Tracks. A desk of its own answers for them, so that asking alters nothing of the one that is played. */

#define ASKING 0u /* the client and the service by which it is asked */

const track_facts *facts_of(uint64_t track)
{
    static track_facts facts[MCS_MOST_TRACKS];
    static const track_facts NOTHING = {1, NULL, 0, 0};
    const uint64_t number = track - MCS_OBJECT_OF_TRACK(0);
    const uint32_t group = (uint32_t)(open_folder() - MCS_OBJECT_OF_GROUP(0));
    struct mcs_desk answering = desk;
    struct mcs_title title;
    uint8_t value[MCS_OUTPUT_OCTETS];
    uint32_t length;
    track_facts *of;
    if (number >= MCS_MOST_TRACKS) {
        return &NOTHING;
    }
    of = &facts[number];
    if (of->is_asked) {
        return of;
    }
    if (is_connected(ASKING)) {
        mcs_desk_disconnect(&answering, ASKING);
    }
    mcs_put_object(value, track);
    if (mcs_desk_connect(&answering, ASKING, 23, 1) == MCS_OK && mcs_desk_activate(&answering, ASKING, group) == MCS_OK &&
        mcs_desk_write(&answering, ASKING, ASKING, MCS_TRACK_OBJECT, value, MCS_OBJECT_OCTETS) == MCS_OK &&
        mcs_desk_title(&answering, ASKING, &title) == MCS_OK &&
        mcs_desk_read(&answering, ASKING, ASKING, MCS_DURATION, 0, value, sizeof value, &length) == MCS_OK) {
        of->is_asked = 1;
        of->title = title.octets;
        of->title_length = title.length;
        of->duration = word_at(value);
        return of;
    }
    return &NOTHING;
}

segment_starts segments_of(uint32_t service, uint32_t track)
{
    /* Of each service the track that was asked for last: it is drawn many times, and the catalogue stays. */
    static struct {
        int is_asked;
        uint32_t track;
        uint32_t starts[MCS_MOST_SEGMENTS];
        size_t count;
    } asked[MCS_SERVICES];
    uint8_t octets[MCS_MOST_SEGMENTS_OBJECT];
    uint32_t length = 0;
    if (!asked[service].is_asked || asked[service].track != track) {
        struct mcs_positions positions = {asked[service].starts, MCS_MOST_SEGMENTS, 0};
        asked[service].is_asked = 1;
        asked[service].track = track;
        asked[service].count = 0;
        if (mcs_desk_segments_object(&desk, track, octets, sizeof octets, &length) == MCS_OK &&
            mcs_segment_positions(octets, length, &positions) == MCS_OK) {
            asked[service].count = positions.count;
        }
    }
    return (segment_starts){asked[service].starts, asked[service].count};
}
