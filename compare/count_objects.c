#include "count_objects.h"
#include "count_services.h"
#include "entries.h"
#include "numbers.h"
#include "order.h"
#include "tell.h"
#include "words.h"

enum { FIRST_OBJECT = 10, OBJECTS = 5 }; /* the characteristics 10 to 14 */
enum {
    TAKEN,
    WRONG_LENGTH,
    WHILE_INACTIVE,
    HIGH_OCTETS,
    MIDDLE_OCTETS,
    OTHER_KIND,
    OTHER_GROUPS,
    NO_TRACKS,
    NOT_THERE,
    NUMBERS_WRITTEN
};
enum { SIX_OCTETS, NONE_INACTIVE, NONE_ACTIVE, BY_NAME, VALUES };
enum { USED_BY_NEXT, USED_AT_END, USES };
enum { OF_ANOTHER, OF_ITSELF, IN_ORDER_1, PAST_THE_END, IN_REPEAT, WHILE_SEEKING, USE_CASES };
enum { KEPT, DROPPED, FATES };
enum { NAMED_INACTIVE, NAMED_OUTSIDE, MISNAMED };
enum { TO_WRITER, TO_OTHERS, TOLD };
enum { BY_11, BY_12, BY_14, BY_15, BY_18, BY_ACTIVATE, BY_DEACTIVATE, BY_ADVANCE, CAUSES };
enum {
    NO_OCTETS,
    OF_GROUP_0,
    CHILD_WITHOUT_TRACKS,
    GROUPS_AND_TRACKS, /* and those before it are of a group's object alone */
    EXACTLY,
    BEHIND,
    ONE_SHORT,
    NO_ROOM,
    OF_NONE,
    WITHOUT_SEGMENTS,
    WRITE_CASES
};
enum { READ_NONE, READ_EXACTLY, READ_BEHIND, ONE_WORD_SHORT, HIGH_NUMBER, SHORT_NAME, LONGEST_NAME, BAD_AND_SHORT, READ_CASES };

static unsigned long by_written[REF_SERVICES][OBJECTS][NUMBERS_WRITTEN], by_value[REF_SERVICES][OBJECTS][VALUES];
static unsigned long by_use[REF_SERVICES][USES][USE_CASES];
static unsigned long by_call[FATES][CALLS], by_characteristic[FATES][CHARACTERISTIC_BOUND], by_opcode[FATES][OPCODES];
static unsigned long by_misnamed[MISNAMED][CALLS], by_cause[CAUSES][OBJECTS][TOLD];
static unsigned long by_write[2][WRITE_CASES], by_fault[2][ENTRY_FAULTS], by_read[2][READ_CASES];

/* ---- Writes of 11, 12 and 14, by what is wrong with the number */

static uint32_t written_as(const tables *t, const standing *p, const step *s, uint32_t number)
{
    uint64_t object = mcs_object_at(s->octets), kind = s->what == MCS_GROUP_OBJECT ? 0x2000 : 0x1000;
    if (number != MCS_NOT_ALLOWED) {
        return number == 0 ? TAKEN : WRONG_LENGTH;
    }
    if (p->media == MCS_INACTIVE) {
        return WHILE_INACTIVE;
    }
    if (object >> 16 != 0) {
        return !may_be_written(t, p, s->what, object & 0xFFFFu) ? NOT_THERE : object >> 32 != 0 ? HIGH_OCTETS : MIDDLE_OCTETS;
    }
    if ((object & 0xF000u) != kind) {
        return may_be_written(t, p, s->what, (object & 0xFFFu) | kind) ? OTHER_KIND : NOT_THERE;
    }
    if ((object & 0xFFFu) >= (kind == 0x2000 ? group_count(t) : track_count(t))) {
        return NOT_THERE;
    }
    return kind == 0x2000 ? NO_TRACKS : OTHER_GROUPS;
}

/* ---- Values that are handed out */

static void count_value(const tables *t, uint32_t service, const standing *p, uint32_t characteristic)
{
    unsigned long *counts = by_value[service][characteristic - FIRST_OBJECT];
    counts[object_of(t, p, characteristic) != NO_OBJECT ? SIX_OCTETS
           : p->media == MCS_INACTIVE                   ? NONE_INACTIVE
                                                        : NONE_ACTIVE]++;
    counts[BY_NAME] += characteristic == MCS_NEXT_TRACK_OBJECT && p->next != 0;
}

/* ---- A name before the call: used, kept or dropped, by the call */

/* The use is seen by the name being gone, since only a call that uses it ends where it began and has none any more. */
static void count_use(const tables *t, const step *s, const standing *was, const standing *is)
{
    unsigned long *counts = by_use[s->service][s->kind == ADVANCE ? USED_AT_END : USED_BY_NEXT];
    counts[was->next - 1u == was->track ? OF_ITSELF : OF_ANOTHER]++;
    counts[IN_ORDER_1] += was->order == 1;
    counts[PAST_THE_END] += was->order > 2 && was->order % 2u == 1 &&
                            track_after(t, was->group, was->track, was->order, MCS_OPCODE_NEXT_TRACK, 0) == NO_TRACK;
    counts[IN_REPEAT] += was->order % 2u == 0;
    counts[WHILE_SEEKING] += was->media == MCS_SEEKING && is->media == MCS_PLAYING;
}

static void count_name(const tables *t, const step *s, const standing *was, const standing *is)
{
    int by_control = s->kind == WRITE && s->what == MCS_CONTROL_POINT, fate = is->next == 0 ? DROPPED : KEPT;
    if (fate == DROPPED && (s->kind == ADVANCE || (by_control && s->octets[0] == MCS_OPCODE_NEXT_TRACK))) {
        count_use(t, s, was, is);
        return;
    }
    if (s->kind != WRITE) {
        by_call[fate][s->kind]++;
    } else if (!by_control) {
        by_characteristic[fate][s->what]++;
    } else if (opcode_place(s->octets[0]) < OPCODES) {
        by_opcode[fate][opcode_place(s->octets[0])]++;
    }
}

/* ---- Who falls due one of 11 to 14, and by what */

static uint32_t cause_of(const step *s)
{
    switch (s->kind == WRITE ? s->what : s->kind + CHARACTERISTIC_BOUND) {
    case MCS_TRACK_OBJECT:
        return BY_11;
    case MCS_NEXT_TRACK_OBJECT:
        return BY_12;
    case MCS_GROUP_OBJECT:
        return BY_14;
    case MCS_PLAYING_ORDER:
        return BY_15;
    case MCS_CONTROL_POINT:
        return BY_18;
    case ACTIVATE + CHARACTERISTIC_BOUND:
        return BY_ACTIVATE;
    case DEACTIVATE + CHARACTERISTIC_BOUND:
        return BY_DEACTIVATE;
    case ADVANCE + CHARACTERISTIC_BOUND:
        return BY_ADVANCE;
    default:
        return CAUSES;
    }
}

static void count_told(const run *r, const step *s)
{
    uint32_t cause = cause_of(s);
    for (uint32_t k = 0; cause < CAUSES && k < MCS_CLIENTS * (OBJECTS - 1u); k++) {
        uint32_t client = k % MCS_CLIENTS, c = FIRST_OBJECT + 1u + k / MCS_CLIENTS;
        if (slot_bit(r->octets, s->service, client, MCS_IN_OWED, c) &&
            !slot_bit(r->octets_before, s->service, client, MCS_IN_OWED, c)) {
            by_cause[cause][c - FIRST_OBJECT][s->kind == WRITE && s->who == client ? TO_WRITER : TO_OTHERS]++;
        }
    }
}

/* A state that would be right without the names that are wrong. */
static void count_misnamed(const run *r, const step *s)
{
    static ref_state mended;
    uint32_t wrong = MISNAMED;
    mended = r->second;
    for (uint32_t k = 0; k < MCS_SERVICES; k++) {
        standing p = standing_in(r->octets, k);
        if (is_misnamed(&r->lent, &p)) {
            wrong = p.media == MCS_INACTIVE ? NAMED_INACTIVE : NAMED_OUTSIDE;
            mended.services[k].player.next = 0;
        }
    }
    if (wrong < MISNAMED && number_on(r, s, &mended, s->service) != MCS_BAD_STATE) {
        by_misnamed[wrong][s->kind]++;
    }
}

void count_numbers(const run *r, const step *s)
{
    uint32_t number = r->second_said.number, service = s->kind == TAKE ? r->second_said.served[SERVED_SERVICE] : s->service;
    standing was, is;
    if (number == MCS_BAD_STATE) {
        count_misnamed(r, s);
    }
    if (s->kind == START || service >= MCS_SERVICES) {
        return;
    }
    was = standing_in(r->octets_before, service);
    is = standing_in(r->octets, service);
    if (s->kind == WRITE && has_object(s->what) && (number == 0 || number == MCS_BAD_LENGTH || number == MCS_NOT_ALLOWED)) {
        by_written[service][s->what - FIRST_OBJECT][written_as(&r->lent, &was, s, number)]++;
    }
    if (number != 0) {
        return;
    }
    if (s->kind == READ && has_object(s->what)) {
        count_value(&r->lent, service, &was, s->what);
    }
    if (s->kind == TAKE && has_object(r->second_said.served[SERVED_CHARACTERISTIC])) {
        count_value(&r->lent, service, &was, r->second_said.served[SERVED_CHARACTERISTIC]);
    }
    if (was.next != 0 && !(s->kind == WRITE && s->what == MCS_NEXT_TRACK_OBJECT)) {
        count_name(&r->lent, s, &was, &is);
    }
    if (has_service(s->kind)) {
        count_told(r, s);
    }
}

/* ---- Objects */

/* Whether a group's object has an entry for a group without tracks. */
static int has_bare_child(const tables *t, uint32_t group)
{
    for (uint32_t child = 1; child < group_count(t); child++) {
        if (group_word(t, child, PARENT) == group && group_word(t, child, TRACK_COUNT) == 0) {
            return 1;
        }
    }
    return 0;
}

static void count_object_write(const run *r, const step *s)
{
    const tables *t = &r->lent;
    uint32_t number = r->second_said.number, length = r->written.length, of_group = s->kind == GROUP_OBJECT_WRITE;
    unsigned long *counts = by_write[s->kind - GROUP_OBJECT_WRITE];
    static uint8_t octets[MCS_MOST_SEGMENTS_OBJECT];
    if (number == MCS_NOT_ALLOWED) {
        counts[of_group || s->number >= track_count(t) ? OF_NONE : WITHOUT_SEGMENTS]++;
    } else if (number == MCS_NO_OBJECT_ROOM) {
        counts[ONE_SHORT] += octets_of_object(t, s->kind, s->number, octets) == s->room[0] + 1u;
        counts[NO_ROOM] += s->room[0] == 0;
    } else if (number == 0) {
        counts[NO_OCTETS] += length == 0;
        counts[EXACTLY] += length > 0 && s->room[0] == length;
        counts[BEHIND] += s->room[0] > length;
    }
    if (number == 0 && of_group) {
        counts[OF_GROUP_0] += s->number == 0;
        counts[CHILD_WITHOUT_TRACKS] += has_bare_child(t, s->number) != 0;
        counts[GROUPS_AND_TRACKS] += group_word(t, s->number, TRACK_COUNT) > 0 && length > 0 && r->written.octets[0] == 1;
    }
}

static void count_object_read(const run *r, const step *s)
{
    static entries_read e;
    uint32_t number = r->second_said.number, words, octet = r->lent_sheet.length > 0 ? r->lent_sheet.octets[0] : 0;
    unsigned long *counts = by_read[s->kind - GROUP_OBJECT_READ];
    entries_of_octets(s->kind, &r->lent_sheet, &e);
    words = entry_words(s->kind) * e.count;
    if (number == MCS_BAD_ENTRIES) {
        by_fault[s->kind - GROUP_OBJECT_READ][e.fault]++;
        counts[BAD_AND_SHORT] += words > s->room[0];
    } else if (number == MCS_NO_OBJECT_ROOM) {
        counts[ONE_WORD_SHORT] += words == s->room[0] + 1u;
    } else {
        counts[READ_NONE] += words == 0;
        counts[READ_EXACTLY] += words > 0 && words == s->room[0];
        counts[READ_BEHIND] += words > 0 && words < s->room[0];
        counts[HIGH_NUMBER] += s->kind == GROUP_OBJECT_READ && words > 0 && e.words[2] != 0;
        counts[SHORT_NAME] += s->kind == SEGMENTS_OBJECT_READ && octet > 0 && octet < 255;
        counts[LONGEST_NAME] += s->kind == SEGMENTS_OBJECT_READ && octet == 255;
    }
}

void count_object(const run *r, const step *s)
{
    if (writes_object(s->kind)) {
        count_object_write(r, s);
    } else {
        count_object_read(r, s);
    }
}

/* ---- Rows */

static void tell_written(void)
{
    static const char *const CASE[NUMBERS_WRITTEN] = {"accepted",
                                                      "0x0D",
                                                      "0x13 while Inactive",
                                                      "for octets 4 and 5",
                                                      "for octets 2 and 3",
                                                      "for another kind's number",
                                                      "for a track of another group",
                                                      "for a group without tracks",
                                                      "for one that there is not"};
    for (uint32_t k = 0; k < REF_SERVICES * OBJECTS; k++) {
        uint32_t service = k % REF_SERVICES, c = FIRST_OBJECT + k / REF_SERVICES;
        if ((properties_of(c) & MCS_MAY_WRITE) != 0) {
            row("writes of %u in service %u", (unsigned)c, (unsigned)service);
            for (uint32_t j = 0; j < NUMBERS_WRITTEN; j++) {
                tell(by_written[service][c - FIRST_OBJECT][j], j != (c == MCS_GROUP_OBJECT ? OTHER_GROUPS : NO_TRACKS), "%s",
                     CASE[j]);
            }
        }
    }
}

static void tell_values(void)
{
    for (uint32_t k = 0; k < REF_SERVICES * OBJECTS; k++) {
        uint32_t service = k % REF_SERVICES, c = FIRST_OBJECT + k / REF_SERVICES;
        const unsigned long *counts = by_value[service][c - FIRST_OBJECT];
        row("values of %u handed out in service %u", (unsigned)c, (unsigned)service);
        tell(counts[SIX_OCTETS], 1, "six octets");
        tell(counts[NONE_INACTIVE], 1, "none while Inactive");
        tell(counts[NONE_ACTIVE], c == MCS_SEGMENTS_OBJECT || c == MCS_NEXT_TRACK_OBJECT, "none while active");
        tell(counts[BY_NAME], c == MCS_NEXT_TRACK_OBJECT, "of a named track");
    }
}

/* A name is kept by every call that leaves the track, also by a Next Track that is not offered; it is dropped by those that can end
 * elsewhere. */
static int can_drop(uint8_t opcode) { return opcode >= MCS_OPCODE_PREVIOUS_TRACK && opcode != MCS_OPCODE_NEXT_TRACK; }

static void tell_names(void)
{
    static const char *const CASE[USE_CASES] = {"another track",       "the current one",   "in order 1",
                                                "past the last track", "in a repeat order", "while Seeking"};
    static const char *const FATE[FATES] = {"kept", "dropped"};
    for (uint32_t k = 0; k < REF_SERVICES * USES; k++) {
        uint32_t service = k / USES, use = k % USES;
        row("a named track gone to %s in service %u", use == USED_AT_END ? "at a track's end" : "by Next Track",
            (unsigned)service);
        for (uint32_t j = 0; j < USE_CASES; j++) {
            tell(by_use[service][use][j], use != USED_AT_END || j != WHILE_SEEKING, "%s", CASE[j]);
        }
    }
    for (uint32_t fate = 0; fate < FATES; fate++) {
        row("a named track %s", FATE[fate]);
        for (uint32_t kind = SET_NAME; has_state(kind); kind++) {
            int drops = kind == ACTIVATE || kind == DEACTIVATE, keeps = kind != DEACTIVATE && kind != WRITE;
            tell(by_call[fate][kind], (unsigned long)(fate == DROPPED ? drops : keeps), "%s", CALL_NAME[kind]);
        }
        for (uint32_t c = 0; c < CHARACTERISTIC_BOUND; c++) {
            int drops = c == MCS_TRACK_OBJECT || c == MCS_GROUP_OBJECT, writable = (properties_of(c) & MCS_MAY_WRITE) != 0;
            int keeps = writable && c != MCS_NEXT_TRACK_OBJECT && c != MCS_CONTROL_POINT;
            tell(by_characteristic[fate][c], (unsigned long)(fate == DROPPED ? drops : keeps), "write of %u", (unsigned)c);
        }
        for (uint32_t k = 0; k < OPCODES; k++) {
            tell(by_opcode[fate][k], fate == KEPT || can_drop(OPCODE[k]), "%s", mcs_opcode_words(OPCODE[k]));
        }
    }
    row("201 for a track that is named while Inactive");
    for (uint32_t kind = SET_NAME; has_state(kind); kind++) {
        tell(by_misnamed[NAMED_INACTIVE][kind], 1, "%s", CALL_NAME[kind]);
    }
    row("201 for a named track that is not of the current group");
    for (uint32_t kind = SET_NAME; has_state(kind); kind++) {
        tell(by_misnamed[NAMED_OUTSIDE][kind], 1, "%s", CALL_NAME[kind]);
    }
}

/* Slots 11 to 14 are owed on change, 11, 12 and 14 not to their writer (SCOPE 18.1, 18.4); a write of 11 stays in the group,
 * group moves stay below one parent, and another order changes the next track alone. */
static void tell_told(void)
{
    static const struct {
        const char *words;
        uint8_t to_writer[OBJECTS], to_others[OBJECTS];
    } CAUSE[CAUSES] = {
        [BY_11] = {"a write of 11", {0, 0, 1, 0, 0}, {0, 1, 1, 0, 0}},
        [BY_12] = {"a write of 12", {0, 0, 0, 0, 0}, {0, 0, 1, 0, 0}},
        [BY_14] = {"a write of 14", {0, 1, 1, 1, 0}, {0, 1, 1, 1, 1}},
        [BY_15] = {"a write of 15", {0, 0, 1, 0, 0}, {0, 0, 1, 0, 0}},
        [BY_18] = {"a write of 18", {0, 1, 1, 0, 1}, {0, 1, 1, 0, 1}},
        [BY_ACTIVATE] = {"activate", {0, 0, 0, 0, 0}, {0, 1, 1, 1, 1}},
        [BY_DEACTIVATE] = {"deactivate", {0, 0, 0, 0, 0}, {0, 1, 1, 1, 1}},
        [BY_ADVANCE] = {"advance", {0, 0, 0, 0, 0}, {0, 1, 1, 0, 0}},
    };
    for (uint32_t cause = 0; cause < CAUSES; cause++) {
        row("owed by %s", CAUSE[cause].words);
        for (uint32_t k = 0; k < OBJECTS; k++) {
            tell(by_cause[cause][k][TO_WRITER], CAUSE[cause].to_writer[k], "%u to the writer", (unsigned)(FIRST_OBJECT + k));
            tell(by_cause[cause][k][TO_OTHERS], CAUSE[cause].to_others[k], "%u", (unsigned)(FIRST_OBJECT + k));
        }
    }
}

static void tell_entries(void)
{
    static const char *const WRITE_CASE[WRITE_CASES] = {
        "no octets",      "group 0", "a child without tracks", "groups and tracks",       "exact room", "room behind",
        "an octet short", "no room", "none that there is",     "a track without segments"};
    static const char *const FAULT[ENTRY_FAULTS] = {"none", "cut", "another type", "a bad name", "a negative position"};
    static const char *const READ_CASE[READ_CASES] = {"no entries",
                                                      "exact room",
                                                      "room behind",
                                                      "a word short",
                                                      "a number over 32 bits",
                                                      "a name",
                                                      "a name of 255 octets",
                                                      "222 where the room is short too"};
    for (uint32_t kind = 0; kind < 2; kind++) {
        row("%s", CALL_NAME[GROUP_OBJECT_WRITE + kind]);
        for (uint32_t k = 0; k < WRITE_CASES; k++) {
            int of_group_alone = k <= GROUPS_AND_TRACKS;
            tell(by_write[kind][k], kind == 0 ? k != WITHOUT_SEGMENTS : !of_group_alone, "%s", WRITE_CASE[k]);
        }
        row("%s refused with 222, by the first that is no entry", CALL_NAME[GROUP_OBJECT_READ + kind]);
        for (uint32_t k = 0; k < ENTRY_FAULTS; k++) {
            int of_group = k == OTHER_TYPE, of_segments = k == BAD_SEGMENT_NAME || k == NEGATIVE_POSITION;
            tell(by_fault[kind][k], k == CUT_ENTRY || (kind == 0 ? of_group : of_segments), "%s", FAULT[k]);
        }
        row("%s", CALL_NAME[GROUP_OBJECT_READ + kind]);
        for (uint32_t k = 0; k < READ_CASES; k++) {
            tell(by_read[kind][k], kind == 0 ? k != SHORT_NAME && k != LONGEST_NAME : k != HIGH_NUMBER, "%s", READ_CASE[k]);
        }
    }
}

void tell_objects(void)
{
    tell_written();
    tell_values();
    tell_names();
    tell_told();
    tell_entries();
}
