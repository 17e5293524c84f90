#include "random_state.h"
#include "service.h"
#include "text.h"

#include <string.h>

#define ALL_SLOTS ((1u << REF_SLOTS) - 1u)
#define RESULTS_BIT (REF_SLOTS - 1u)

uint32_t random_mask(dice *d)
{
    uint32_t all = one_in(d, 2) ? 0x1FFFFFu : 0xFFFFFFFFu;
    if (one_in(d, 8)) {
        return one_in(d, 2) ? any_word(d) : 0;
    }
    return one_in(d, 2) ? all : all & ~(1u << below(d, 21)) & ~(1u << below(d, 21));
}

uint32_t random_mtu(dice *d)
{
    return one_in(d, 2) ? ONE_OF(d, 23, 24, 25, 26, 64, 127, 128, 129, 130, 131, 132, 516, 517)
                        : between(d, 23, one_in(d, 3) ? 517 : 140);
}

/* None; at the bounds, and what halves and quarters of a hundredth leave; or any. */
uint32_t random_rest(dice *d)
{
    return one_in(d, 3) ? 0 : one_in(d, 3) ? ONE_OF(d, 1, 16384, 32767, 32768, 49152, 65534, 65535) : below(d, 65536);
}

/* At the ends or near the last; at or beside a start, or as far past one as the margin of Previous Segment is; or anywhere. */
uint32_t random_position(dice *d, const tables *t, uint32_t track)
{
    uint32_t duration = end_of_track(track_word(t, track, DURATION)), starts = track_word(t, track, SEGMENT_COUNT);
    uint32_t start = (track_word(t, track, FIRST_SEGMENT) + below(d, starts)) % SEGMENTS_ROOM, at;
    switch (below(d, 4)) {
    case 0:
        at = one_in(d, 2) ? 0 : duration;
        break;
    case 1:
        at = one_in(d, 3) ? duration - below(d, duration < 400u ? duration + 1u : 400u) : below(d, duration + 1u);
        break;
    default:
        at = (starts == 0 ? 0 : t->segments[start]) + (one_in(d, 3) ? 298u : 0) + below(d, 4);
        at -= at > 0 && one_in(d, 2) ? 1u : 0u;
        break;
    }
    return at < duration ? at : duration;
}

/* A group with tracks, or the number of groups where there is none. */
static uint32_t group_with_tracks(dice *d, const tables *t)
{
    uint32_t groups = group_count(t), from = groups == 0 ? 0 : below(d, groups);
    for (uint32_t k = 0; k < groups; k++) {
        uint32_t g = (from + k) % groups;
        if (group_word(t, g, TRACK_COUNT) > 0) {
            return g;
        }
    }
    return groups;
}

static void random_player(dice *d, const tables *t, ref_player *s)
{
    static const int8_t RUNG[8] = {-32, -16, -8, -4, 4, 8, 16, 32};
    uint32_t group = group_with_tracks(d, t);
    s->name_len = one_in(d, 3) ? ONE_OF(d, 0, 19, 20, 21, 22, 127, 128) : below(d, 129);
    right_text(d, s->name, s->name_len);
    for (uint32_t k = s->name_len; k < REF_NAME_ROOM; k++) {
        s->name[k] = (uint8_t)any_word(d);
    }
    s->mask = random_mask(d);
    s->ccid = (uint8_t)any_word(d);
    s->order = (uint8_t)between(d, 1, 8);
    s->speed = (int8_t)(one_in(d, 8) ? 0 : (int)below(d, 256) - 128);
    s->rest = random_rest(d);
    if (group == group_count(t) || one_in(d, 6)) {
        return; /* Inactive */
    }
    s->media = (uint8_t)between(d, REF_PLAYING, REF_SEEKING);
    s->seeking = s->media == REF_SEEKING ? RUNG[below(d, 8)] : (int8_t)0;
    s->group = group;
    s->track = group_word(t, group, FIRST_TRACK) + below(d, group_word(t, group, TRACK_COUNT));
    /* Many moves lead to 0, and are to find a rest there. */
    s->position = s->rest != 0 && one_in(d, 4) ? 0 : random_position(d, t, s->track);
    s->next = one_in(d, 2) ? 0 : 1u + group_word(t, group, FIRST_TRACK) + below(d, group_word(t, group, TRACK_COUNT));
}

static void random_link(dice *d, ref_link *l)
{
    l->mtu = 23;
    l->mark = PLACES - 1;
    l->connected = !one_in(d, 4);
    if (l->connected) {
        l->encrypted = !one_in(d, 6);
        l->mtu = random_mtu(d);
        l->mark = below(d, PLACES);
    }
}

/* Of a client with that link. */
static void random_account(dice *d, const ref_link *l, ref_account *a)
{
    for (uint32_t k = 0; k < REF_RESULTS; k++) {
        a->results[k].opcode = (uint8_t)any_word(d);
        a->results[k].code = (uint8_t)between(d, 1, 4);
    }
    for (uint32_t k = 0; l->connected && k < READABLES; k++) {
        a->fresh |= one_in(d, 2) ? 1u << readable_at(k) : 0u;
    }
    if (!l->encrypted) {
        return;
    }
    a->subscribed = one_in(d, 3) ? ALL_SLOTS : one_in(d, 4) ? 0 : any_word(d) & ALL_SLOTS;
    a->owed = one_in(d, 3) ? 0 : a->subscribed & any_word(d) & ~(1u << RESULTS_BIT);
    if ((a->subscribed >> RESULTS_BIT & 1u) != 0 && !one_in(d, 3)) {
        a->waiting = one_in(d, 3) ? 8u : between(d, 1, 8);
        a->owed |= 1u << RESULTS_BIT;
    }
}

void random_state(dice *d, const tables *t, ref_state *s)
{
    memset(s, 0, sizeof *s);
    s->layout = MCS_STATE_MARK;
    s->turn = below(d, REF_CLIENTS);
    for (uint32_t k = 0; k < REF_CLIENTS; k++) {
        random_link(d, &s->links[k]);
    }
    for (uint32_t k = 0; k < REF_SERVICES; k++) {
        random_player(d, t, &s->services[k].player);
        for (uint32_t client = 0; client < REF_CLIENTS; client++) {
            random_account(d, &s->links[client], &s->services[k].accounts[client]);
        }
    }
}
