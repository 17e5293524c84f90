#include "entries.h"
#include "lend.h"
#include "places.h"
#include "words.h"

/* 4.4: an octet for what it is, and six for its number. */
static uint32_t put_entry(uint8_t *to, uint8_t type, uint32_t number)
{
    to[0] = type;
    put_word(to + 1, number);
    put_half_word(to + 5, 0);
    return 7;
}

/* A group's child groups by number (group 0 is not its own child), then its tracks by number (SCOPE 7.3). */
static uint32_t octets_of_group(const tables *t, uint32_t group, uint8_t *octets)
{
    uint32_t length = 0;
    if (group >= group_count(t)) {
        return ABSENT;
    }
    for (uint32_t child = 1; child < group_count(t); child++) {
        if (group_word(t, child, PARENT) == group) {
            length += put_entry(octets + length, 1, 0x2000u + child);
        }
    }
    for (uint32_t k = 0; k < group_word(t, group, TRACK_COUNT); k++) {
        length += put_entry(octets + length, 0, 0x1000u + group_word(t, group, FIRST_TRACK) + k);
    }
    return length;
}

/* A track's segments in order, names of length 0 (SCOPE 7.4): by the standard, 4.2, the length, no name, and four octets for the
 * position. */
static uint32_t octets_of_segments(const tables *t, uint32_t track, uint8_t *octets)
{
    if (track >= track_count(t) || track_word(t, track, SEGMENT_COUNT) == 0) {
        return ABSENT;
    }
    for (uint32_t k = 0; k < track_word(t, track, SEGMENT_COUNT); k++) {
        octets[5u * k] = 0;
        put_word(octets + 5u * k + 1u, t->segments[track_word(t, track, FIRST_SEGMENT) + k]);
    }
    return 5u * track_word(t, track, SEGMENT_COUNT);
}

uint32_t octets_of_object(const tables *t, uint32_t kind, uint32_t number, uint8_t octets[MCS_MOST_SEGMENTS_OBJECT])
{
    return (kind == GROUP_OBJECT_WRITE ? octets_of_group : octets_of_segments)(t, number, octets);
}

/* ---- Back into entries */

/* The fault of the entry that is begun there, with so many octets left; where it has none, its octets and its words. */
static uint32_t group_entry_at(const uint8_t *octets, uint32_t left, uint32_t *length, uint32_t *words)
{
    *length = 7;
    if (octets[0] > 1) {
        return OTHER_TYPE;
    }
    if (left < 7) {
        return CUT_ENTRY;
    }
    words[0] = octets[0];
    words[1] = word_at(octets + 1);
    words[2] = half_word_at(octets + 5);
    return NO_FAULT;
}

static uint32_t segment_entry_at(const uint8_t *octets, uint32_t left, uint32_t *length, uint32_t *words)
{
    *length = 5u + octets[0];
    if (left < *length) {
        return CUT_ENTRY;
    }
    if (wrong_octet(octets + 1, octets[0]) < octets[0]) {
        return BAD_SEGMENT_NAME;
    }
    words[0] = word_at(octets + *length - 4u);
    return words[0] > 0x7FFFFFFFu ? NEGATIVE_POSITION : NO_FAULT;
}

uint32_t entry_words(uint32_t kind) { return kind == GROUP_OBJECT_READ ? 3 : 1; }

void entries_of_octets(uint32_t kind, const sheet *object, entries_read *e)
{
    uint32_t at = 0, length;
    e->fault = NO_FAULT;
    for (e->count = 0; at < object->length; e->count++, at += length) {
        uint32_t *words = e->words + entry_words(kind) * e->count;
        e->fault = (kind == GROUP_OBJECT_READ ? group_entry_at : segment_entry_at)(object->octets + at, object->length - at,
                                                                                   &length, words);
        if (e->fault != NO_FAULT) {
            return;
        }
    }
}

/* ---- What both did */

static const char *wrong_written(const run *r, const step *s)
{
    static uint8_t octets[MCS_MOST_SEGMENTS_OBJECT];
    uint32_t length = octets_of_object(&r->lent, s->kind, s->number, octets), number = r->library_said.number;
    if (number != (length == ABSENT ? MCS_NOT_ALLOWED : length > s->room[0] ? MCS_NO_OBJECT_ROOM : MCS_OK)) {
        return "both do not say of an object that is to be written what they have to";
    }
    if (number == 0 && r->library_said.length != length) {
        return "both write another length of an object than it has";
    }
    for (uint32_t k = 0; k < s->room[0]; k++) {
        if (r->written.octets[k] != (number == 0 && k < length ? octets[k] : filled(s->fill, k))) {
            return number == 0 ? "both write another object than the catalogue's" : "both write an object that they refuse";
        }
    }
    return NULL;
}

/* Octets that are not whole entries give 222, and too little room gives 223 (SCOPE 7.7). */
static const char *wrong_entries(const run *r, const step *s)
{
    static entries_read e;
    uint32_t words, number = r->library_said.number;
    entries_of_octets(s->kind, &r->lent_sheet, &e);
    words = entry_words(s->kind) * e.count;
    if (number != (e.fault != NO_FAULT ? MCS_BAD_ENTRIES : words > s->room[0] ? MCS_NO_OBJECT_ROOM : MCS_OK)) {
        return "both do not say of an object that is read what they have to";
    }
    if (number == 0 && r->library_said.count != e.count) {
        return "both count other entries of an object than it has";
    }
    for (uint32_t k = 0; k < s->room[0]; k++) {
        if (r->entries[k] != (number == 0 && k < words ? e.words[k] : filled_word(s->fill, k))) {
            return number == 0 ? "both read other entries of an object than it has" : "both read an object that they refuse";
        }
    }
    return NULL;
}

const char *wrong_object(const run *r, const step *s)
{
    if (reads_object(s->kind)) {
        return wrong_entries(r, s);
    }
    return writes_object(s->kind) && r->library_said.number != MCS_BAD_CATALOGUE ? wrong_written(r, s) : NULL;
}
