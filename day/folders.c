#include "folders.h"

#include <stdio.h>

#include "books.h"
#include "lines.h"
#include "office.h"
#include "tables.h"

#define MOST_ENTRIES (MCS_MOST_GROUP_OBJECT / MCS_GROUP_ENTRY_OCTETS)
#define ENTRY_WORDS (MCS_GROUP_ENTRY_WORDS * MOST_ENTRIES)

/* Asks for a folder's object, and reads its entries into words that have room for all; none where it is not understood. */
static struct mcs_entries entries_of(uint64_t folder, uint32_t words[ENTRY_WORDS])
{
    struct mcs_entries entries = {words, ENTRY_WORDS, 0};
    uint8_t octets[MCS_MOST_GROUP_OBJECT];
    uint32_t length = hand_out(folder, octets);
    return mcs_group_entries(octets, length, &entries) == MCS_OK ? entries : (struct mcs_entries){words, ENTRY_WORDS, 0};
}

static int is_group(const struct mcs_entries *entries, size_t entry)
{
    return mcs_entry_type(entries, entry) == MCS_ENTRY_GROUP;
}

/* Whether the entries are those of the catalogue: the groups whose parent the folder is, then its tracks, each by number. */
static int is_right(uint64_t folder, const struct mcs_entries *entries)
{
    const struct mcs_catalogue *c = the_catalogue();
    uint32_t group = (uint32_t)(folder - MCS_OBJECT_OF_GROUP(0)), k;
    const uint32_t *record = c->groups + (size_t)MCS_GROUP_WORDS * group;
    size_t at = 0;
    int right = 1;
    for (k = 1; k < c->groups_len / MCS_GROUP_WORDS; k++) {
        if (c->groups[MCS_GROUP_WORDS * k + PARENT] == group) {
            right = right && at < entries->count && is_group(entries, at) &&
                    mcs_entry_object(entries, at) == MCS_OBJECT_OF_GROUP(k);
            at += 1u;
        }
    }
    for (k = 0; k < record[TRACK_COUNT]; k++) {
        right = right && at < entries->count && !is_group(entries, at) &&
                mcs_entry_object(entries, at) == MCS_OBJECT_OF_TRACK(record[FIRST_TRACK] + k);
        at += 1u;
    }
    return right && at == entries->count;
}

/* A line of the drawing, up to its marks. */
static void begin_entry(uint32_t who, uint32_t service, uint32_t depth, const char *what, uint64_t object)
{
    begin_line("draw", service, who);
    printf("%*s%s 0x%04llX", (int)(2u * depth), "", what, (unsigned long long)object);
}

/* A mark on what the device knows to be that of the player. */
static void print_mark(uint32_t who, uint32_t service, uint32_t characteristic, uint64_t object, const char *mark)
{
    const known_value *known = value_known(who, service, characteristic);
    if (known->length == MCS_OBJECT_OCTETS && mcs_object_at(known->octets) == object) {
        printf(", %s", mark);
    }
}

static void draw(uint32_t who, uint32_t service, uint64_t folder, uint32_t depth)
{
    uint32_t words[ENTRY_WORDS];
    struct mcs_entries entries = entries_of(folder, words);
    int right = book_folder(is_right(folder, &entries));
    size_t k;
    begin_entry(who, service, depth, "folder", folder);
    print_mark(who, service, MCS_GROUP_OBJECT, folder, "current");
    printf("%s", entries.count == 0 ? ", empty" : "");
    if (!right) {
        paint(RED);
        printf("  WRONG: the catalogue has something else in it");
    }
    end_line();
    for (k = 0; right && k < entries.count; k++) {
        uint64_t object = mcs_entry_object(&entries, k);
        if (is_group(&entries, k)) {
            draw(who, service, object, depth + 1u);
        } else {
            begin_entry(who, service, depth + 1u, "track", object);
            print_mark(who, service, MCS_TRACK_OBJECT, object, "current");
            print_mark(who, service, MCS_NEXT_TRACK_OBJECT, object, "next");
            end_line();
        }
    }
}

void draw_folder(uint32_t who, uint32_t service, uint64_t folder) { draw(who, service, folder, 0); }

listed_tracks tracks_in(uint64_t folder)
{
    uint32_t words[ENTRY_WORDS];
    struct mcs_entries entries = entries_of(folder, words);
    listed_tracks tracks = {NO_OBJECT, NO_OBJECT};
    size_t k;
    for (k = 0; k < entries.count; k++) {
        if (!is_group(&entries, k)) {
            tracks.last = mcs_entry_object(&entries, k);
            tracks.first = tracks.first == NO_OBJECT ? tracks.last : tracks.first;
        }
    }
    return tracks;
}
