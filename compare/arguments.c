#include "arguments.h"
#include "clock.h"
#include "text.h"

#include <string.h>

#define RESULTS_BIT (REF_SLOTS - 1u)

const ref_player *player_of(const run *r, uint32_t service)
{
    return &r->second.services[service < REF_SERVICES ? service : 0].player;
}

uint32_t some_client(dice *d, const run *r, uint32_t connected, uint32_t wrong)
{
    uint32_t from = below(d, REF_CLIENTS);
    if (one_in(d, wrong)) {
        return ONE_OF(d, 4, 5, 7, 255, 256, 0x10000u, 0x80000000u, 0xFFFFFFFFu);
    }
    if (one_in(d, wrong)) {
        return from;
    }
    for (uint32_t k = 0; k < REF_CLIENTS; k++) {
        uint32_t client = (from + k) % REF_CLIENTS;
        if ((r->second.links[client].connected != 0 ? 1u : 0u) == connected) {
            return client;
        }
    }
    return from;
}

uint32_t some_service(dice *d, uint32_t wrong)
{
    if (one_in(d, wrong)) {
        return one_in(d, 4) ? any_word(d) | 2u
                            : ONE_OF(d, 2, 2, 3, 9, 10, 20, 255, 256, 257, 0x10001u, 0x80000000u, 0xFFFFFFFFu);
    }
    return below(d, MCS_SERVICES);
}

static int keeps_results(const run *r, uint32_t client, uint32_t service)
{
    return service >= REF_SERVICES || (r->second.services[service].accounts[client].subscribed >> RESULTS_BIT & 1u) != 0;
}

uint32_t some_writer(dice *d, const run *r, uint32_t service, uint32_t wrong)
{
    uint32_t client = some_client(d, r, 1, wrong);
    for (uint32_t k = 0; k < 2 && client < REF_CLIENTS && !keeps_results(r, client, service); k++) {
        client = some_client(d, r, 1, UINT32_MAX);
    }
    return client;
}

uint32_t no_characteristic(dice *d)
{
    return ONE_OF(d, 0, 2, 3, 20, 21, 23, 24, 31, 32, 33, 36, 39, 42, 43, 46, 50, 255, 257, 0x105, 0x10B, 0x10012u, 0x80000007u,
                  0xFFFFFFFFu);
}

uint32_t some_room(dice *d, uint32_t wrong)
{
    if (one_in(d, wrong)) {
        return one_in(d, 2) ? ONE_OF(d, 0, 1, 126, 127) : below(d, MCS_OUTPUT_OCTETS);
    }
    return one_in(d, 2) ? MCS_OUTPUT_OCTETS : between(d, MCS_OUTPUT_OCTETS, OUT_ROOM);
}

uint32_t some_name(dice *d, const ref_player *p, uint32_t wrong, uint8_t *octets, uint32_t most)
{
    uint32_t length;
    if (one_in(d, wrong)) {
        length = ONE_OF(d, 129, 130, 200, 256, 257, most);
        (one_in(d, 2) ? right_text : wrong_text)(d, octets, length);
        return length;
    }
    length = one_in(d, 3) ? ONE_OF(d, 0, 1, 19, 20, 21, 22, 23, 127, 128) : below(d, one_in(d, 3) ? 129 : 30);
    if (one_in(d, wrong) && length > 0) {
        length = one_in(d, 4) ? 128 : length; /* its last octet is wrong in few of them */
        wrong_text(d, octets, length);
        return length;
    }
    right_text(d, octets, length);
    if (p->name_len <= REF_NAME_ROOM && p->name_len > 0 && one_in(d, 4)) {
        /* The same name again, or another of its length. */
        length = p->name_len;
        memcpy(octets, p->name, length);
        if (one_in(d, 2)) {
            uint32_t at = below(d, length);
            octets[at] = (uint8_t)between(d, 'a', 'z');
        }
    }
    return length;
}

int has_track(const run *r, const ref_player *p) { return p->media != REF_INACTIVE && p->track < track_count(&r->lent); }

uint32_t some_number(dice *d, uint32_t far)
{
    uint32_t n;
    switch (below(d, 8)) {
    case 0:
        return ONE_OF(d, 0x80000000u, 0x80000001u, 0x7FFFFFFFu, 0x7FFFFFFEu, 0xFFFFFFFFu, 0);
    case 1:
        return any_word(d);
    case 2:
    case 3:
        n = far + below(d, 3);
        n -= n > 0 && one_in(d, 2) ? 1u : 0u;
        break;
    case 4:
        n = below(d, far < 0xFFFFFFFFu ? far + 1u : far);
        break;
    default:
        n = below(d, 5);
        break;
    }
    return one_in(d, 2) ? n : 0u - n;
}

uint32_t reach(const run *r, const ref_player *p, uint8_t opcode)
{
    if (!has_track(r, p)) {
        return 3;
    }
    switch (opcode) {
    case 0x24:
        return track_word(&r->lent, p->track, SEGMENT_COUNT);
    case 0x34:
        return p->group < group_count(&r->lent) ? group_word(&r->lent, p->group, TRACK_COUNT) : 3;
    case 0x44:
        return group_count(&r->lent);
    default:
        return end_of_track(track_word(&r->lent, p->track, DURATION));
    }
}

uint32_t some_allowance(dice *d, uint32_t amount, uint32_t far)
{
    switch (below(d, 8)) {
    case 0:
        return one_in(d, 2) ? 0 : below(d, 3);
    case 1:
        return amount - 1u;
    case 2:
        return amount + 1u;
    case 3:
        return below(d, amount);
    case 4:
        return amount + below(d, 300);
    case 5:
        return far + below(d, 4);
    case 6:
        return ONE_OF(d, 0x7FFFFFFFu, 0x80000000u, 0xFFFFFFFFu, any_word(d));
    default:
        return amount;
    }
}

uint32_t value_length(const run *r, const ref_player *p, uint32_t characteristic)
{
    switch (characteristic) {
    case MCS_NAME:
        return p->name_len;
    case MCS_TITLE:
        return !has_track(r, p)                                     ? 0
               : rename_word(&r->lent, p->track, RENAME_LENGTH) > 0 ? rename_word(&r->lent, p->track, RENAME_LENGTH)
                                                                    : track_word(&r->lent, p->track, TITLE_LENGTH);
    case MCS_DURATION:
    case MCS_POSITION:
    case MCS_OPCODES_SUPPORTED:
        return 4;
    case MCS_SEGMENTS_OBJECT:
    case MCS_TRACK_OBJECT:
    case MCS_NEXT_TRACK_OBJECT:
    case MCS_PARENT_GROUP_OBJECT:
    case MCS_GROUP_OBJECT:
        return has_track(r, p) ? MCS_OBJECT_OCTETS : 0;
    default:
        return 1;
    }
}

/* The least time after which a player that plays has come so much further. */
static uint32_t time_for(const ref_player *p, uint32_t further)
{
    uint64_t parts = (uint64_t)further * PARTS_OF_A_HUNDREDTH, e = e_of(p->speed);
    return parts <= p->rest ? 0 : (uint32_t)((parts - p->rest + e - 1u) / e);
}

uint32_t some_time(dice *d, const run *r, const ref_player *p)
{
    uint32_t left = has_track(r, p) ? end_of_track(track_word(&r->lent, p->track, DURATION)) - p->position : 100;
    uint32_t until = one_in(d, 3) ? left : time_for(p, left), e = e_of(p->speed);
    switch (below(d, 8)) {
    case 0:
        return ONE_OF(d, 0, 1, 0x7FFFFFFFu, 0x80000000u, 0xFFFFFFFFu, 0x08000000u, (uint32_t)(((uint64_t)1 << 32) / e + 1u),
                      (uint32_t)(((uint64_t)1 << 48) / e + 1u));
    case 1:
        return any_word(d);
    case 2:
        return until;
    case 3:
        return until + 1u;
    case 4:
        return until - 1u;
    case 5:
        return until / 4u;
    default:
        return below(d, one_in(d, 3) ? 3 : 60);
    }
}

uint32_t some_group(dice *d, const run *r, uint32_t wrong)
{
    uint32_t groups = group_count(&r->lent);
    if (groups == 0 || one_in(d, wrong)) {
        return ONE_OF(d, groups, groups + 1u, 64, 256, 0x80000000u, 0xFFFFFFFFu);
    }
    for (uint32_t k = 0; k < 3; k++) {
        uint32_t group = below(d, groups);
        if (group_word(&r->lent, group, TRACK_COUNT) > 0) {
            return group;
        }
    }
    return below(d, groups);
}

/* Nearly a right number: with a bit set in one of its upper octets, of another kind, beside the right ones, or any. */
static uint64_t wrong_object(dice *d, const tables *t, uint64_t right, uint32_t first, uint32_t count)
{
    switch (below(d, 6)) {
    case 0:
        return right ^ (uint64_t)1 << between(d, 32, 47);
    case 1:
        return right ^ (uint64_t)1 << between(d, 16, 31);
    case 2:
        return (right & 0xFFFu) + ONE_OF(d, 0, 0x1000, 0x2000, 0x3000, 0x4000);
    case 3:
        return (right & 0xF000u) + ONE_OF(d, first - 1u, first + count, first + count + 1u, 63, 64, 255, 256, 0xFFF, 0x1000);
    case 4:
        return ((uint64_t)any_word(d) << 32 | any_word(d)) >> between(d, 16, 40);
    default:
        return MCS_OBJECT_OF_TRACK(below(d, track_count(t) + 1u));
    }
}

uint64_t some_object(dice *d, const run *r, const ref_player *p, uint32_t characteristic)
{
    uint32_t groups = group_count(&r->lent), group = p->group < groups ? p->group : 0, first = 0, count = groups;
    uint64_t right;
    if (characteristic == MCS_GROUP_OBJECT) {
        right = MCS_OBJECT_OF_GROUP(one_in(d, 4) ? group : some_group(d, r, 16));
    } else {
        first = groups == 0 ? 0 : group_word(&r->lent, group, FIRST_TRACK);
        count = groups == 0 ? 0 : group_word(&r->lent, group, TRACK_COUNT);
        right = MCS_OBJECT_OF_TRACK(one_in(d, 4) ? p->track : first + below(d, count));
    }
    return one_in(d, 5) ? wrong_object(d, &r->lent, right, first, count) : right;
}
