#include "damage.h"
#include "arguments.h"
#include "draw.h"
#include "random_state.h"
#include "text.h"

#include <string.h>

/* ---- States */

static void poke_word(step *s, uint32_t at, uint32_t word, uint32_t octets)
{
    s->number = at;
    s->length = octets;
    for (uint32_t k = 0; k < octets; k++) {
        s->octets[k] = (uint8_t)(k < 4 ? word >> (8 * k) : 0u);
    }
}

static void damage_player(dice *d, const run *r, step *s)
{
    uint32_t service = below(d, MCS_SERVICES), at = MCS_AT_SERVICE(service);
    const ref_player *now = player_of(r, service);
    uint32_t groups = group_count(&r->lent), duration = 0, first = 0, count = 0;
    if (now->track < track_count(&r->lent)) {
        duration = end_of_track(track_word(&r->lent, now->track, DURATION));
    }
    if (now->group < groups) {
        first = group_word(&r->lent, now->group, FIRST_TRACK);
        count = group_word(&r->lent, now->group, TRACK_COUNT);
    }
    switch (below(d, 15)) {
    case 0:
        poke_word(s, at + MCS_IN_NAME_LENGTH, ONE_OF(d, 0, 1, 127, 128, 129, 255), 1);
        break;
    case 1: /* the name's octets, live or dead */
        s->number = at + MCS_IN_NAME + below(d, 120);
        s->length = between(d, 1, 8);
        wrong_text(d, s->octets, s->length);
        break;
    case 2:
        poke_word(s, at + MCS_IN_MEDIA_STATE, ONE_OF(d, 0, 1, 2, 3, 4, 5, 255), 1);
        break;
    case 3:
        poke_word(s, at + MCS_IN_ORDER, ONE_OF(d, 0, 1, 2, 8, 9, 255), 1);
        break;
    case 4:
        at += MCS_IN_SEEKING;
        poke_word(s, at, ONE_OF(d, 0, 1, 4, 8, 16, 32, 64, 128, 0xE0, 0xF0, 0xF8, 0xFC, 0xFE, 0xFF, 5, 12), 1);
        break;
    case 5:
        poke_word(s, at + MCS_IN_MASK, any_word(d), 4);
        break;
    case 6:
        at += MCS_IN_GROUP;
        poke_word(s, at, ONE_OF(d, 0, 1, groups - 1u, groups, groups + 1u, now->group + 1u, 256, 0xFFFFFFFFu), 4);
        break;
    case 7:
        at += MCS_IN_TRACK;
        poke_word(s, at, ONE_OF(d, 0, first - 1u, first, first + count - 1u, first + count, 256, 0xFFFFFFFFu), 4);
        break;
    case 8:
        at += MCS_IN_POSITION;
        poke_word(s, at, ONE_OF(d, 0, 1, duration - 1u, duration, duration + 1u, 0x80000000u, 0xFFFFFFFFu), 4);
        break;
    case 9:
    case 10: /* of the tracks about the current group's run, as the number plus 1 */
        at += MCS_IN_NEXT;
        poke_word(s, at, ONE_OF(d, 0, 1, first, first + 1u, first + count, first + count + 1u, 257, 0x80000001u, 0xFFFFFFFFu),
                  4);
        break;
    case 11:
    case 12: /* about the bound, and such as would be right if their upper octets were dropped */
        at += MCS_IN_REST;
        poke_word(s, at, ONE_OF(d, 65535, 65536, 65536, 65537, now->rest | 1u << between(d, 16, 31), 0x80000000u, 0xFFFFFFFFu),
                  4);
        break;
    case 13:
        poke_word(s, at + MCS_IN_REST, random_rest(d), 4);
        break;
    default:
        poke_word(s, at + MCS_IN_SPEED, any_word(d), 1);
        break;
    }
}

/* What is neither service's: the layout, the turn and the links. */
static void damage_link(dice *d, step *s)
{
    uint32_t at = MCS_AT_LINK(below(d, REF_CLIENTS)), to;
    switch (below(d, 7)) {
    case 0: /* another layout's mark, and what a state without one begins with: a name */
        to = ONE_OF(d, 0, 2, 0x80, MCS_STATE_MARK - 1u, MCS_STATE_MARK, MCS_STATE_MARK + 1u, 'D', 0xC3);
        poke_word(s, MCS_AT_LAYOUT, to, 1);
        break;
    case 1:
        poke_word(s, MCS_AT_TURN, ONE_OF(d, 0, 1, 2, 3, 4, 7, 256, 0x80000000u, 0xFFFFFFFFu), 4);
        break;
    case 2:
        poke_word(s, at + MCS_IN_CONNECTED, ONE_OF(d, 0, 0, 1, 1, 2, 128, 255), 1);
        break;
    case 3:
        poke_word(s, at + MCS_IN_ENCRYPTED, ONE_OF(d, 0, 0, 1, 1, 2, 128, 255), 1);
        break;
    case 4:
        poke_word(s, at + MCS_IN_MTU, ONE_OF(d, 0, 1, 2, 3, 22, 23, 24, 517, 518, 0x10017u, 0xFFFFFFFFu), 4);
        break;
    default: /* the places of both services, and beyond */
        to = one_in(d, 2) ? below(d, PLACES + 4u) : ONE_OF(d, 13, 14, 26, 27, 28, 31, 32, 256, 0x80000000u, 0xFFFFFFFFu);
        poke_word(s, at + MCS_IN_MARK, to, 4);
        break;
    }
}

static void damage_account(dice *d, const run *r, step *s)
{
    uint32_t who = below(d, REF_CLIENTS), service = below(d, REF_SERVICES), at = MCS_AT_SERVICE(service) + MCS_IN_ACCOUNT(who);
    const ref_account *a = &r->second.services[service].accounts[who];
    switch (below(d, 7)) {
    case 0:
        poke_word(s, at + MCS_IN_SUBSCRIBED, one_in(d, 2) ? a->subscribed ^ 1u << below(d, 32) : any_word(d) & 0x3FFFu, 4);
        break;
    case 1:
        poke_word(s, at + MCS_IN_OWED, one_in(d, 2) ? a->owed ^ 1u << below(d, 32) : any_word(d) & a->subscribed, 4);
        break;
    case 2:
        poke_word(s, at + MCS_IN_READ, one_in(d, 2) ? a->fresh ^ 1u << below(d, 32) : any_word(d) & 0x004BFFE2u, 4);
        break;
    case 3:
        poke_word(s, at + MCS_IN_WAITING, ONE_OF(d, 0, 1, 2, 7, 8, 9, 16, 256, 0x80000000u, 0xFFFFFFFFu), 8);
        break;
    case 4: /* the upper half of the number of results */
        poke_word(s, at + MCS_IN_WAITING + 4, ONE_OF(d, 0, 1, 256, 0x80000000u, 0xFFFFFFFFu), 4);
        break;
    case 5:
        at += MCS_IN_RESULTS + 2u * below(d, REF_RESULTS) + 1u;
        poke_word(s, at, ONE_OF(d, 0, 1, 2, 3, 4, 5, 255), 1);
        break;
    default: /* a part of another's account, or of the client's own in the other service */
        s->number = at + 2u * below(d, 8);
        s->length = 20;
        memcpy(s->octets,
               r->octets + MCS_AT_SERVICE(below(d, REF_SERVICES)) + MCS_IN_ACCOUNT(below(d, REF_CLIENTS)) + (s->number - at),
               s->length);
        break;
    }
}

void damage_state(dice *d, const run *r, step *s)
{
    uint32_t at = below(d, MCS_STATE_OCTETS);
    blank_step(d, POKE_STATE, s);
    switch (below(d, 8)) {
    case 0:
        poke_word(s, at, any_word(d), 1);
        break;
    case 1:
        poke_word(s, at, r->octets[at] ^ 1u << below(d, 8), 1);
        break;
    case 2:
    case 3:
    case 4:
        damage_player(d, r, s);
        break;
    case 5:
        damage_link(d, s);
        break;
    default:
        damage_account(d, r, s);
        break;
    }
}

void damage_truth(dice *d, const run *r, step *s)
{
    uint32_t at = MCS_AT_LINK(below(d, REF_CLIENTS)) + (one_in(d, 2) ? MCS_IN_CONNECTED : MCS_IN_ENCRYPTED);
    (void)r;
    blank_step(d, POKE_STATE, s);
    poke_word(s, at, one_in(d, 4) ? ONE_OF(d, 2, 3, 128, 129, 254, 255) : between(d, 2, 255), 1);
}

/* ---- Catalogues */

static void damage_length(dice *d, const run *r, step *s)
{
    uint32_t length, record;
    s->kind = TABLE_LENGTH;
    s->who = below(d, TABLES);
    length = r->lent.length[s->who];
    record = record_entries(s->who);
    s->number = ONE_OF(d, 0, length - 1u, length + 1u, length - record, length + record, length + 2u, below(d, length + 1u));
    if (s->number > table_room(s->who)) {
        s->number = length;
    }
}

static void damage_group(dice *d, const run *r, step *s)
{
    uint32_t groups = group_count(&r->lent), group = below(d, groups), word = below(d, 3);
    uint32_t is = group_word(&r->lent, group, word);
    s->who = GROUPS;
    s->number = MCS_GROUP_WORDS * group + word;
    s->what = word == PARENT ? ONE_OF(d, 0, group - 1u, group, group + 1u, groups, 0xFFFFFFFFu, below(d, group + 1u))
                             : ONE_OF(d, 0, is - 1u, is + 1u, is + 2u, 0x80000000u, 0xFFFFFFFFu, 256);
}

static void damage_track(dice *d, const run *r, step *s)
{
    uint32_t track = below(d, track_count(&r->lent)), word = below(d, 6), is = track_word(&r->lent, track, word);
    uint32_t starts = track_word(&r->lent, track, SEGMENT_COUNT), text = r->lent.length[TEXT];
    uint32_t last = r->lent.segments[(track_word(&r->lent, track, FIRST_SEGMENT) + starts - 1u) % SEGMENTS_ROOM];
    s->who = TRACKS;
    s->number = MCS_TRACK_WORDS * track + word;
    switch (word) {
    case DURATION:
        s->what = ONE_OF(d, 0, last, last + 1u, last - 1u, MCS_MOST_DURATION, MCS_MOST_DURATION + 1u, 0x80000000u,
                         MCS_RUNNING - 1u, MCS_RUNNING);
        break;
    case STAMP:
        s->what = any_word(d);
        break;
    case TITLE_OFFSET:
        s->what = ONE_OF(d, 0, is - 1u, is + 1u, text, text + 1u, text - track_word(&r->lent, track, TITLE_LENGTH),
                         text - track_word(&r->lent, track, TITLE_LENGTH) + 1u, 0x80000000u, 0xFFFFFFFFu);
        break;
    case TITLE_LENGTH:
        s->what = ONE_OF(d, 0, is - 1u, is + 1u, 127, 128, 129, text - track_word(&r->lent, track, TITLE_OFFSET),
                         text - track_word(&r->lent, track, TITLE_OFFSET) + 1u, 0xFFFFFFFFu);
        break;
    default:
        s->what = ONE_OF(d, 0, is - 1u, is + 1u, is + 2u, 0x80000000u, 0xFFFFFFFFu, 1024);
        break;
    }
}

static void damage_start(dice *d, const run *r, step *s)
{
    uint32_t at = below(d, r->lent.length[SEGMENTS]), is = r->lent.segments[at];
    uint32_t before = at > 0 ? r->lent.segments[at - 1u] : 0;
    s->who = SEGMENTS;
    s->number = at;
    s->what = ONE_OF(d, 0, is - 1u, is + 1u, before, before + 1u, r->lent.segments[(at + 1u) % SEGMENTS_ROOM], 0x80000000u,
                     0xFFFFFFFFu);
}

/* A group more, with no tracks, which only the limit refuses; or the same of the text. */
static void append(dice *d, const run *r, step *s)
{
    s->kind = TABLE_LENGTH;
    s->who = one_in(d, 2) ? GROUPS : TEXT;
    s->number = r->lent.length[s->who] + (s->who == GROUPS ? MCS_GROUP_WORDS : 1u);
    if (s->number > table_room(s->who)) {
        s->number = r->lent.length[s->who];
    }
}

void damage_catalogue(dice *d, const run *r, step *s)
{
    blank_step(d, POKE_TABLE, s);
    switch (below(d, 10)) {
    case 0:
    case 1:
        damage_length(d, r, s);
        return;
    case 2:
    case 3:
        if (group_count(&r->lent) > 0) {
            damage_group(d, r, s);
            return;
        }
        break;
    case 4:
    case 5:
    case 6:
        if (track_count(&r->lent) > 0) {
            damage_track(d, r, s);
            return;
        }
        break;
    case 7:
        if (r->lent.length[SEGMENTS] > 0) {
            damage_start(d, r, s);
            return;
        }
        break;
    case 8:
        if (r->lent.length[TEXT] > 0) {
            s->who = TEXT;
            s->number = below(d, r->lent.length[TEXT]);
            s->what = ONE_OF(d, 0x80, 0xBF, 0xC0, 0xC3, 0xE0, 0xED, 0xF0, 0xF4, 0xF5, 0xFF, 'a', below(d, 256));
            return;
        }
        break;
    default:
        break;
    }
    append(d, r, s);
}

/* ---- Titles */

/* A track with a title, the last of all among the likely ones; any where no track has one. */
static uint32_t some_titled_track(dice *d, const tables *t)
{
    uint32_t tracks = track_count(t), from = one_in(d, 4) ? tracks - 1u : below(d, tracks), back = 0;
    while (back < from && track_word(t, from - back, TITLE_LENGTH) == 0) {
        back++;
    }
    return from - back;
}

void damage_title(dice *d, const run *r, step *s)
{
    const tables *t = &r->lent;
    uint32_t track, other, at, length;
    if (track_count(t) == 0) {
        damage_catalogue(d, r, s);
        return;
    }
    blank_step(d, POKE_TABLE, s);
    track = some_titled_track(d, t);
    other = below(d, track_count(t));
    at = track_word(t, track, TITLE_OFFSET);
    length = track_word(t, track, TITLE_LENGTH);
    if (length > 0 && !one_in(d, 3)) {
        s->who = TEXT;
        s->number = at + (one_in(d, 3) ? 0 : one_in(d, 2) ? length - 1u : below(d, length));
        s->what = ONE_OF(d, 0x80, 0xBF, 0xC0, 0xC3, 0xE0, 0xED, 0xF0, 0xF4, 0xF5, 0xFF);
        return;
    }
    /* It may end inside a character, or begin inside one, be another's, overlap that, or have octets that no title had. */
    s->who = TRACKS;
    if (one_in(d, 2)) {
        s->number = MCS_TRACK_WORDS * track + TITLE_LENGTH;
        s->what = ONE_OF(d, length - 1u, length + 1u, between(d, 1, 128), 128, track_word(t, other, TITLE_LENGTH));
    } else {
        s->number = MCS_TRACK_WORDS * track + TITLE_OFFSET;
        s->what = ONE_OF(d, at - 1u, at + 1u, below(d, t->length[TEXT] + 1u), track_word(t, other, TITLE_OFFSET));
    }
}

/* ---- The office's titles */

/* A renamed track; any where none is. */
static uint32_t some_renamed_track(dice *d, const tables *t)
{
    uint32_t tracks = track_count(t), from = below(d, tracks);
    for (uint32_t k = 0; k < tracks; k++) {
        if (rename_word(t, (from + k) % tracks, RENAME_LENGTH) > 0) {
            return (from + k) % tracks;
        }
    }
    return from;
}

/* One entry too few or too many, half of one, or none; a text that ends too early, or later. */
static void damage_titles_length(dice *d, const run *r, step *s)
{
    uint32_t length;
    s->kind = TABLE_LENGTH;
    s->who = one_in(d, 3) ? OFFICE : RENAMES;
    length = r->lent.length[s->who];
    s->number = ONE_OF(d, length - 1u, length + 1u, length - 2u, length + 2u, below(d, length + 1u), 0);
    if (s->number > table_room(s->who)) {
        s->number = length;
    }
}

/* An entry that is too long, ends or begins inside a character, lies outside the text, also such as would lie in it if the sum of its
 * words had 32 bits; or an entry of length 0, which may be any. */
static void damage_entry(dice *d, const run *r, step *s)
{
    const tables *t = &r->lent;
    uint32_t track = some_renamed_track(d, t), office = t->length[OFFICE], other = below(d, track_count(t));
    uint32_t at = rename_word(t, track, RENAME_OFFSET), length = rename_word(t, track, RENAME_LENGTH);
    s->who = RENAMES;
    if (one_in(d, 2)) {
        s->number = MCS_RENAME_WORDS * track + RENAME_LENGTH;
        s->what = ONE_OF(d, 0, length - 1u, length + 1u, 1, 128, 129, 130, 256, office - at, office - at + 1u, 0x80000000u,
                         0u - at, 0xFFFFFFFFu);
    } else {
        s->number = MCS_RENAME_WORDS * track + RENAME_OFFSET;
        s->what = ONE_OF(d, at - 1u, at + 1u, office - length, office - length + 1u, office, 0u - length, 0u - 1u, 0x80000000u,
                         rename_word(t, other, RENAME_OFFSET), below(d, office + 1u));
    }
}

void damage_renames(dice *d, const run *r, step *s)
{
    const tables *t = &r->lent;
    uint32_t track, length;
    blank_step(d, POKE_TABLE, s);
    if (track_count(t) == 0 || one_in(d, 4)) {
        damage_titles_length(d, r, s);
        return;
    }
    track = some_renamed_track(d, t);
    length = rename_word(t, track, RENAME_LENGTH);
    if (length == 0 || one_in(d, 2)) {
        damage_entry(d, r, s);
        return;
    }
    s->who = OFFICE;
    s->number = rename_word(t, track, RENAME_OFFSET) + (one_in(d, 3) ? 0 : one_in(d, 2) ? length - 1u : below(d, length));
    s->what = ONE_OF(d, 0x80, 0xBF, 0xC0, 0xC3, 0xE0, 0xED, 0xF0, 0xF4, 0xF5, 0xFF);
}

/* ---- Cards */

void damage_card(dice *d, const run *r, step *s)
{
    uint32_t blocks = r->lent_card.length / MCS_BLOCK_OCTETS, block = blocks == 0 ? 0 : below(d, blocks), at, is;
    blank_step(d, POKE_CARD, s);
    if (one_in(d, 8)) {
        s->kind = CARD_LENGTH;
        s->number = ONE_OF(d, 0, r->lent_card.length - 1u, r->lent_card.length + 1u, r->lent_card.length + 512u,
                           r->lent_card.length - 512u, 511, 256, 65536, 65536 + 512, 65536 + 1024, 65535, 65537);
        if (s->number > CARD_ROOM) {
            s->number = 0;
        }
        return;
    }
    if (blocks > 1 && one_in(d, 8)) {
        s->kind = SWAP_BLOCKS;
        s->who = block;
        s->what = below(d, blocks);
        return;
    }
    if (one_in(d, 3)) {
        s->kind = MEND_BLOCK;
        s->number = block;
        return;
    }
    /* The head of a block, its sums, its last octets, or any octet. */
    at = one_in(d, 4) ? below(d, MCS_BLOCK_OCTETS) : ONE_OF(d, 0, 0, 1, 2, 2, 2, 3, 3, 3, 4, 4, 5, 508, 509, 509, 510, 511);
    s->number = MCS_BLOCK_OCTETS * block + at;
    is = r->lent_card.octets[s->number];
    s->what =
        ONE_OF(d, is + 1u, is - 1u, 0, 1, 2, 3, 4, 5, 255, 21, 22, 42, 43, 126, 127, 505 & 255, 506 & 255, below(d, 256)) &
        255u;
}
