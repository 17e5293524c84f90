/* Objects: written of any group or track into any room and read back; damaged; and made of any entries, or of any octets. */
#include "entries.h"
#include "play.h"
#include "text.h"
#include "words.h"

#include <string.h>

/* One that there is, mostly; and such as would be one if its upper octets were dropped. */
static uint32_t some_record(dice *d, uint32_t count)
{
    if (count > 0 && !one_in(d, 6)) {
        return below(d, count);
    }
    return ONE_OF(d, count, count + 1u, 64, 256, 0x1000, 0x2000, 0x10000u, 0x80000000u, 0xFFFFFFFFu);
}

/* About as much as is needed, an entry more or less, or none. */
static uint32_t some_room_for(dice *d, uint32_t needed, uint32_t entry, uint32_t most)
{
    uint32_t room = one_in(d, 3)   ? needed
                    : one_in(d, 2) ? needed + below(d, 5u * entry)
                                   : ONE_OF(d, 0, needed - 1u, needed - 1u, needed + 1u, needed - entry, needed / 2u);
    return room <= most ? room : 0;
}

/* Where the catalogue is right, its room is about what the object needs. */
static void write_object(play *p, uint32_t kind, int right)
{
    static uint8_t octets[MCS_MOST_SEGMENTS_OBJECT];
    const tables *t = &p->r->lent;
    step *s = new_step(p);
    uint32_t needed;
    if (!p->going) {
        return;
    }
    blank_step(&p->d, kind, s);
    s->number = some_record(&p->d, kind == GROUP_OBJECT_WRITE ? group_count(t) : track_count(t));
    needed = right ? octets_of_object(t, kind, s->number, octets) : ABSENT;
    s->room[0] = some_room_for(&p->d, needed == ABSENT ? below(&p->d, 100) : needed, 7, CARD_ROOM);
    take_step(p);
}

static void read_object(play *p, uint32_t kind)
{
    static entries_read e;
    step *s = new_step(p);
    if (p->going) {
        entries_of_octets(kind, &p->r->lent_sheet, &e);
        blank_step(&p->d, kind, s);
        s->room[0] = some_room_for(&p->d, entry_words(kind) * e.count, entry_words(kind), STARTS_ROOM);
        take_step(p);
    }
}

/* ---- Objects are written as sections 4.4 and 4.2 of the standard lay them out, and read back (SCOPE 7.2, 7.4, 7.6): what is
 * read is what the catalogue has */

static int is_entry(const run *r, uint32_t entry, uint32_t type, uint32_t object)
{
    const uint32_t *words = r->entries + 3u * entry;
    return words[0] == type && words[1] == object && words[2] == 0;
}

static int gave_the_group(const run *r, uint32_t group)
{
    uint32_t entry = 0, first = group_word(&r->lent, group, FIRST_TRACK), tracks = group_word(&r->lent, group, TRACK_COUNT);
    int right = 1;
    for (uint32_t child = 1; child < group_count(&r->lent); child++) {
        if (group_word(&r->lent, child, PARENT) == group) {
            right &= is_entry(r, entry++, MCS_ENTRY_GROUP, MCS_OBJECT_OF_GROUP(child));
        }
    }
    for (uint32_t track = first; track < first + tracks; track++) {
        right &= is_entry(r, entry++, MCS_ENTRY_TRACK, MCS_OBJECT_OF_TRACK(track));
    }
    return right && r->second_said.count == entry;
}

static int gave_the_segments(const run *r, uint32_t track)
{
    uint32_t count = track_word(&r->lent, track, SEGMENT_COUNT);
    return r->second_said.count == count &&
           memcmp(r->entries, r->lent.segments + track_word(&r->lent, track, FIRST_SEGMENT), sizeof(uint32_t) * count) == 0;
}

static void write_and_read(play *p, uint32_t kind)
{
    int of_group = kind == GROUP_OBJECT_WRITE;
    uint32_t number;
    write_object(p, kind, 1);
    if (!p->going || p->r->second_said.number != 0) {
        return;
    }
    number = p->t->steps[p->t->count - 1u].number;
    bare_step(p, WRITTEN_OBJECT, 0);
    read_object(p, of_group ? GROUP_OBJECT_READ : SEGMENTS_OBJECT_READ);
    if (p->going && p->r->second_said.number != MCS_NO_OBJECT_ROOM &&
        (p->r->second_said.number != 0 || !(of_group ? gave_the_group : gave_the_segments)(p->r, number))) {
        cannot_be(p, "both read something else from an object that they have written");
    }
}

/* ---- Octets of another's making */

/* Any number of 48 bits is an object's. */
static uint32_t any_group_entry(dice *d, uint32_t wrong, uint8_t *to)
{
    to[0] = (uint8_t)(one_in(d, wrong) ? ONE_OF(d, 2, 3, 128, 255) : below(d, 2));
    put_word(to + 1, one_in(d, 2) ? any_word(d) : MCS_OBJECT_OF_TRACK(below(d, 256)));
    put_half_word(to + 5, one_in(d, 2) ? any_word(d) : 0);
    return MCS_GROUP_ENTRY_OCTETS;
}

/* A name of any length, and a position up to the greatest. */
static uint32_t any_segment_entry(dice *d, uint32_t wrong, uint8_t *to)
{
    uint32_t name = one_in(d, 3) ? 0 : one_in(d, 3) ? ONE_OF(d, 1, 127, 128, 129, 254, 255) : below(d, 24);
    uint32_t position = one_in(d, wrong) ? any_word(d) | 0x80000000u
                                         : ONE_OF(d, 0, 1, MCS_MOST_DURATION, 0x7FFFFFFFu, any_word(d) >> 1, below(d, 6000));
    to[0] = (uint8_t)name;
    (name > 0 && one_in(d, wrong) ? wrong_text : right_text)(d, to + 1, name);
    put_word(to + 1 + name, position);
    return MCS_SEGMENT_ENTRY_OCTETS + name;
}

/* Entries, of which one in so many is wrong; few, or the same over and over. */
static void make_object(play *p, uint32_t kind)
{
    uint32_t wrong = one_in(&p->d, 2) ? NONE : ONE_OF(&p->d, 4, 12), entries = below(&p->d, 7);
    bare_step(p, NEW_SHEET, 0);
    for (; entries > 0; entries--) {
        uint8_t entry[MCS_SEGMENT_ENTRY_OCTETS + 255u];
        uint32_t length = (kind == GROUP_OBJECT_READ ? any_group_entry : any_segment_entry)(&p->d, wrong, entry);
        add_piece(p, entry, length, one_in(&p->d, 24) ? between(&p->d, 2, 250) : 1);
    }
}

static void damage_object(dice *d, const run *r, step *s)
{
    uint32_t length = r->lent_sheet.length, at = below(d, length);
    blank_step(d, POKE_SHEET, s);
    if (one_in(d, 3)) {
        s->kind = CUT_SHEET;
        s->number = one_in(d, 2) ? length - 1u : at;
        return;
    }
    /* The first octet of an entry, the last of its position or number, or any. */
    s->number = one_in(d, 4) ? at : one_in(d, 2) ? at - at % 7u : at - at % 5u + (one_in(d, 2) ? 0 : 4u);
    s->what = ONE_OF(d, 0, 1, 2, 3, 4, 5, 7, 127, 128, 255, below(d, 256));
}

static void any_octets(play *p)
{
    uint8_t octets[40];
    uint32_t length = below(&p->d, sizeof octets), few = one_in(&p->d, 2) ? 4 : 256;
    for (uint32_t k = 0; k < length; k++) {
        octets[k] = (uint8_t)below(&p->d, few);
    }
    bare_step(p, NEW_SHEET, 0);
    add_piece(p, octets, length, 1);
}

void play_objects(play *p)
{
    p->share = FROM_OBJECT;
    for (uint32_t round = 0; round < 40 && goes_on(p); round++) {
        uint32_t of_segments = below(&p->d, 2), kind = GROUP_OBJECT_READ + of_segments;
        write_and_read(p, GROUP_OBJECT_WRITE + of_segments);
        if (one_in(&p->d, 4)) {
            any_octets(p);
        } else if (p->r->lent_sheet.length == 0 || one_in(&p->d, 2)) {
            make_object(p, kind);
        }
        if (p->going && p->r->lent_sheet.length > 0 && one_in(&p->d, 2)) {
            damage(p, few_times(p), damage_object);
        }
        read_object(p, one_in(&p->d, 8) ? (uint32_t)GROUP_OBJECT_READ + (uint32_t)SEGMENTS_OBJECT_READ - kind : kind);
        bare_step(p, KEEP, 0);
        damage_titles_or_more(p);
        write_object(p, GROUP_OBJECT_WRITE + of_segments, 0);
        bare_step(p, PUT_BACK, 0);
    }
}
