#include "numbers.h"
#include "clock.h"
#include "order.h"
#include "words.h"

#include <string.h>

standing standing_in(const uint8_t state[MCS_STATE_OCTETS], uint32_t service)
{
    const uint8_t *p = state + MCS_AT_SERVICE(service);
    standing s = {.media = p[MCS_IN_MEDIA_STATE],
                  .order = p[MCS_IN_ORDER],
                  .mask = word_at(p + MCS_IN_MASK),
                  .group = word_at(p + MCS_IN_GROUP),
                  .track = word_at(p + MCS_IN_TRACK),
                  .position = word_at(p + MCS_IN_POSITION),
                  .next = word_at(p + MCS_IN_NEXT),
                  .rest = word_at(p + MCS_IN_REST),
                  .speed = signed_octet(p[MCS_IN_SPEED]),
                  .seeking = signed_octet(p[MCS_IN_SEEKING])};
    return s;
}

int has_object(uint32_t characteristic) { return characteristic >= 10 && characteristic <= 14; }

/* Track t is object 0x1000 + t, group g 0x2000 + g, the segments of t 0x3000 + t (SCOPE 7.1). A value is six octets, or none
 * while Inactive, of 10 where the track has no segments, and of 12 where no next track exists (SCOPE 16.5, 16.6). 13 of group 0,
 * which is its own parent, is that group itself. */
uint64_t object_of(const tables *t, const standing *p, uint32_t characteristic)
{
    uint32_t next;
    if (p->media == MCS_INACTIVE) {
        return NO_OBJECT;
    }
    switch (characteristic) {
    case 10:
        return track_word(t, p->track, SEGMENT_COUNT) == 0 ? NO_OBJECT : 0x3000u + p->track;
    case 11:
        return 0x1000u + p->track;
    case 12:
        next = p->next != 0 ? p->next - 1u : track_after(t, p->group, p->track, p->order, MCS_OPCODE_NEXT_TRACK, 0);
        return next == NO_TRACK ? NO_OBJECT : 0x1000u + next;
    case 13:
        return 0x2000u + group_word(t, p->group, PARENT);
    default:
        return 0x2000u + p->group;
    }
}

static int is_in_group(const tables *t, uint32_t group, uint64_t track)
{
    uint32_t first = group_word(t, group, FIRST_TRACK);
    return track >= first && track - first < group_word(t, group, TRACK_COUNT);
}

/* 0x13 is for any other number, for a group without tracks in 14, and while Inactive (SCOPE 14.8). */
int may_be_written(const tables *t, const standing *p, uint32_t characteristic, uint64_t number)
{
    if (p->media == MCS_INACTIVE) {
        return 0;
    }
    if (characteristic == 14) {
        return number >= 0x2000 && number - 0x2000 < group_count(t) &&
               group_word(t, (uint32_t)number - 0x2000u, TRACK_COUNT) > 0;
    }
    return number >= 0x1000 && is_in_group(t, p->group, number - 0x1000);
}

/* 201 refuses a named next track while Inactive, or one that is not of the current group (SCOPE 20.5). */
int is_misnamed(const tables *t, const standing *p)
{
    return p->next != 0 && (p->media == MCS_INACTIVE || p->group >= group_count(t) || !is_in_group(t, p->group, p->next - 1u));
}

int ends_elsewhere(const standing *was, const standing *is)
{
    return was->media == MCS_INACTIVE || is->media == MCS_INACTIVE || is->group != was->group || is->track != was->track;
}

uint32_t bit_of(uint32_t characteristic)
{
    uint32_t bit = 0;
    while (bit < SLOTS && slot_at(bit) != characteristic) {
        bit++;
    }
    return bit;
}

int slot_bit(const uint8_t state[MCS_STATE_OCTETS], uint32_t service, uint32_t client, uint32_t part, uint32_t characteristic)
{
    return (word_at(state + MCS_AT_SERVICE(service) + MCS_IN_ACCOUNT(client) + part) >> bit_of(characteristic) & 1u) != 0;
}

int read_mark(const uint8_t state[MCS_STATE_OCTETS], uint32_t service, uint32_t client, uint32_t characteristic)
{
    return (word_at(state + MCS_AT_SERVICE(service) + MCS_IN_ACCOUNT(client) + MCS_IN_READ) >> characteristic & 1u) != 0;
}

/* ---- Refusals of what is done to 10 to 14, behind those that come before them */

static const char *wrong_refusal(const tables *t, const step *s, uint32_t number, const standing *was)
{
    int writable = s->what == 11 || s->what == 12 || s->what == 14;
    uint32_t should;
    if (number == MCS_NO_CHARACTERISTIC || number == MCS_NOT_READABLE) {
        return "both do not know a characteristic that there is, or do not let it be read";
    }
    if (s->kind == SUBSCRIBE || s->kind == UNSUBSCRIBE) {
        return (number == MCS_NO_SLOT) == (s->what == 10) ? NULL : "both take 10 for a slot, or one of 11 to 14 for none";
    }
    if (s->kind != WRITE || (writable && number == MCS_NOT_ENCRYPTED)) {
        return NULL;
    }
    /* 0x0D is for a length other than 6 (SCOPE 20.6), which comes before 0x13 in the table of SCOPE 20.2. */
    should = !writable                                                   ? MCS_NOT_WRITABLE
             : s->length != 6                                            ? MCS_BAD_LENGTH
             : may_be_written(t, was, s->what, mcs_object_at(s->octets)) ? MCS_OK
                                                                         : MCS_NOT_ALLOWED;
    return number == should ? NULL : "both do not say of a write of 10 to 14 what they have to";
}

/* ---- Values that are read or taken: the octets of the number from an offset on, none where there is no object */

static const char *wrong_value(uint64_t number, uint32_t offset, const uint8_t *octets, uint32_t length)
{
    uint32_t whole = number == NO_OBJECT ? 0 : 6;
    if (offset > whole || length != whole - offset) {
        return "both hand out another length of an object's number than it has";
    }
    for (uint32_t k = 0; k < length; k++) {
        if (octets[k] != (uint8_t)(number >> 8u * (offset + k))) {
            return "both hand out another number than the object has that is played";
        }
    }
    return NULL;
}

/* ---- Moves */

/* Track and group moves turn Seeking into Playing (SCOPE 11.7, 12.3); outside Seeking the speed is 0 (SCOPE 8.5). */
static standing gone_to(standing p, uint32_t group, uint32_t track)
{
    p.group = group;
    p.track = track;
    p.position = 0;
    p.media = p.media == MCS_SEEKING ? MCS_PLAYING : p.media;
    p.seeking = 0;
    return p;
}

/* 12 names a track of the current group that Next Track or the end of a track uses once, and Goto's steps do not (SCOPE 11.8,
 * 14.4, 14.5). */
uint32_t named_or_next(const tables *t, const standing *p, uint8_t opcode, int64_t n)
{
    return opcode == MCS_OPCODE_NEXT_TRACK && p->next != 0 ? p->next - 1u
                                                           : track_after(t, p->group, p->track, p->order, opcode, n);
}

/* Whether the track ends: at D or beyond (SCOPE 13.5), by the clock (SCOPE 13.3), but of a running recording never (SCOPE 13.6). */
static int track_ends(const tables *t, const step *s, const standing *was)
{
    return s->kind == ADVANCE && was->media == MCS_PLAYING && track_word(t, was->track, DURATION) != MCS_RUNNING &&
           !stays_below(t, was, s->number);
}

/* A track move that the player offers while it is active. */
static int moves_track(const step *s, const standing *was)
{
    return s->kind == WRITE && s->what == MCS_CONTROL_POINT && s->octets[0] >= MCS_OPCODE_PREVIOUS_TRACK &&
           s->octets[0] <= MCS_OPCODE_GOTO_TRACK && was->media != MCS_INACTIVE &&
           (was->mask >> opcode_place(s->octets[0]) & 1u) != 0;
}

/* Where a player is after a call to its service that is a write of 11, 12 or 14, a track move or a track's end; where it was,
 * for a call that leaves it. Returns whether the call is one of these; the name is not looked at. */
static int should_stand(const tables *t, const step *s, const standing *was, standing *should)
{
    uint32_t list[MCS_MOST_TRACKS], to, number = word_at(s->octets);
    *should = *was;
    if (s->kind == WRITE && s->what == 11) {
        *should = gone_to(*was, was->group, number - 0x1000u);
        return 1;
    }
    if (s->kind == WRITE && s->what == 14) {
        list_in_order(t, number - 0x2000u, was->order, list);
        *should = gone_to(*was, number - 0x2000u, list[0]);
        return 1;
    }
    if (moves_track(s, was)) {
        to = named_or_next(t, was, s->octets[0], signed_word(s->octets + 1));
        *should = to == NO_TRACK ? *was : gone_to(*was, was->group, to);
        return 1;
    }
    if (track_ends(t, s, was)) {
        to = named_or_next(t, was, MCS_OPCODE_NEXT_TRACK, 0);
        *should = gone_to(*was, was->group, to);
        if (to == NO_TRACK) {
            *should = *was;
            should->media = MCS_PAUSED;
            should->position = track_word(t, was->track, DURATION);
        }
        return 1;
    }
    return s->kind == WRITE && s->what == 12;
}

/* A call that ends on another track or group than it began on drops the name, what lies between does not (SCOPE 14.6). */
static uint32_t should_name(const tables *t, const step *s, const standing *was, const standing *is)
{
    int used = track_ends(t, s, was) || (moves_track(s, was) && s->octets[0] == MCS_OPCODE_NEXT_TRACK);
    if (s->kind == WRITE && s->what == 12) {
        return word_at(s->octets) - 0x1000u + 1u;
    }
    return used || ends_elsewhere(was, is) ? 0 : was->next;
}

uint32_t last_result(const uint8_t *account)
{
    return account[MCS_IN_RESULTS + 2u * (word_at(account + MCS_IN_WAITING) - 1u) + 1u];
}

static const char *wrong_move(const tables *t, const step *s, const standing *was, const standing *is, const uint8_t *after)
{
    standing should;
    const uint8_t *account = after + MCS_AT_SERVICE(s->service) + MCS_IN_ACCOUNT(s->who % MCS_CLIENTS);
    if (is->next != should_name(t, s, was, is)) {
        return "both name another next track after the call than they have to";
    }
    if (!should_stand(t, s, was, &should)) {
        return NULL;
    }
    if (is->media != should.media || is->group != should.group || is->track != should.track ||
        is->position != should.position || is->seeking != should.seeking) {
        return "both go elsewhere than a written number, a track move or the end of a track leads";
    }
    if (moves_track(s, was) && slot_bit(after, s->service, s->who, MCS_IN_SUBSCRIBED, MCS_CONTROL_POINT) &&
        last_result(account) != (named_or_next(t, was, s->octets[0], signed_word(s->octets + 1)) == NO_TRACK ? 4 : 1)) {
        return "both give another result of a track move than its own";
    }
    return NULL;
}

/* ---- Slots 11 to 14 are owed on change, 11, 12 and 14 not to their writer (SCOPE 18.1, 18.4), and 0x80 is for all five */

static const char *wrong_owed(const tables *t, const step *s, const standing *was, const standing *is, const uint8_t *before,
                              const uint8_t *after)
{
    int same = memcmp(was, is, sizeof *was) == 0;
    for (uint32_t c = 10; c <= 14; c++) {
        int changed = !same && object_of(t, was, c) != object_of(t, is, c);
        for (uint32_t client = 0; client < MCS_CLIENTS; client++) {
            int wrote_it = s->kind == WRITE && s->what == c && s->who == client;
            if (read_mark(after, s->service, client, c) != (!changed && read_mark(before, s->service, client, c))) {
                return "both leave another mark of a change at one of 10 to 14 than they have to";
            }
            if (c > 10 && slot_bit(after, s->service, client, MCS_IN_OWED, c) !=
                              (slot_bit(before, s->service, client, MCS_IN_OWED, c) ||
                               (changed && !wrote_it && slot_bit(before, s->service, client, MCS_IN_SUBSCRIBED, c)))) {
                return "both owe one of 11 to 14 where they do not have to, or do not where they have to";
            }
        }
    }
    return NULL;
}

/* The opcode mask plays no part in a write of 11, 12 or 14, and it has no result. */
static int results_stay(uint32_t service, const uint8_t *before, const uint8_t *after)
{
    for (uint32_t client = 0; client < MCS_CLIENTS; client++) {
        uint32_t at = MCS_AT_SERVICE(service) + MCS_IN_ACCOUNT(client) + MCS_IN_WAITING;
        if (memcmp(before + at, after + at, 8) != 0) {
            return 0;
        }
    }
    return 1;
}

/* ---- All of it */

static int has_no_place(const tables *t, const standing *p)
{
    return p->media != MCS_INACTIVE && (p->group >= group_count(t) || p->track >= track_count(t));
}

static const char *wrong_call_to_service(const tables *t, const step *s, const uint8_t *before, const uint8_t *after)
{
    standing was = standing_in(before, s->service), is = standing_in(after, s->service);
    const char *wrong = wrong_move(t, s, &was, &is, after);
    if (wrong == NULL && (s->kind <= ADVANCE || s->kind == WRITE)) {
        wrong = wrong_owed(t, s, &was, &is, before, after);
    }
    if (wrong == NULL && s->kind == WRITE && has_object(s->what) && !results_stay(s->service, before, after)) {
        wrong = "both have a result of a write that is not to 18";
    }
    return wrong;
}

/* The names that a call not to their service has nothing to do with; a start has none. */
static const char *wrong_other_name(const step *s, const uint8_t *before, const uint8_t *after)
{
    for (uint32_t k = 0; k < MCS_SERVICES; k++) {
        uint32_t should = s->kind == START ? 0 : standing_in(before, k).next;
        if (!(has_service(s->kind) && s->service == k) && standing_in(after, k).next != should) {
            return "both alter a next track that is named in a service by a call that is not to it";
        }
    }
    return NULL;
}

const char *wrong_number(const tables *t, const step *s, const answer *a, const uint8_t before[MCS_STATE_OCTETS],
                         const uint8_t after[MCS_STATE_OCTETS])
{
    standing was;
    const char *wrong = NULL;
    uint32_t service = s->kind == TAKE && a->number == 0 ? a->served[SERVED_SERVICE] : s->service;
    switch (a->number) {
    case MCS_BAD_CATALOGUE:
    case MCS_BAD_RENAMES:
    case MCS_SMALL_OUTPUT:
    case MCS_BAD_STATE:
    case MCS_NO_CLIENT:
    case MCS_NO_SERVICE:
    case MCS_NOT_CONNECTED:
        return NULL;
    default:
        break;
    }
    if (s->kind == START || service >= MCS_SERVICES) {
        return a->number == 0 ? wrong_other_name(s, before, after) : NULL;
    }
    was = standing_in(before, service);
    if (has_no_place(t, &was)) {
        return "both take a state whose group or track there is not";
    }
    if (s->kind >= SUBSCRIBE && s->kind <= WRITE && has_object(s->what)) {
        wrong = wrong_refusal(t, s, a->number, &was);
    }
    if (wrong != NULL || a->number != 0) {
        return wrong;
    }
    if (s->kind == READ && has_object(s->what)) {
        wrong = wrong_value(object_of(t, &was, s->what), s->number, a->out, a->length);
    } else if (s->kind == TAKE && has_object(a->served[SERVED_CHARACTERISTIC])) {
        wrong = wrong_value(object_of(t, &was, a->served[SERVED_CHARACTERISTIC]), 0, a->out, a->served[SERVED_LENGTH]);
    }
    if (wrong == NULL && has_service(s->kind)) {
        wrong = wrong_call_to_service(t, s, before, after);
    }
    return wrong == NULL ? wrong_other_name(s, before, after) : wrong;
}
