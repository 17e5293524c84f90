/* Cards: made of a catalogue, damaged or with bad blocks, loaded into tables of any room, and written again; and written, into any
 * room. */
#include "blocks.h"
#include "damage.h"
#include "play.h"

#include <string.h>

/* How often a table is lent too small: one in so many. */
#define USUAL 16u
#define OFTEN 6u

static int room_suffices(const run *r, const step *s)
{
    for (uint32_t table = 0; table < TABLES; table++) {
        if (s->room[table] < r->lent.length[table]) {
            return 0;
        }
    }
    return 1;
}

/* One table in `small` may be too small. */
static void draw_room(play *p, uint32_t small, step *s)
{
    for (uint32_t table = 0; table < TABLES; table++) {
        uint32_t length = p->r->lent.length[table], record = record_entries(table);
        s->room[table] = length + below(&p->d, 2u * record + 2u);
        if (one_in(&p->d, small)) {
            s->room[table] = ONE_OF(&p->d, 0, length - 1u, length - record, length / 2u, table_room(table));
        }
        if (s->room[table] > table_room(table)) {
            s->room[table] = table_room(table);
        }
    }
}

/* Whether the tables are loaded that the card was made of. */
static int gave_the_catalogue(const run *r)
{
    const answer *a = &r->second_said;
    return a->number == 0 && a->counts[GROUPS] == group_count(&r->lent) && a->counts[TRACKS] == track_count(&r->lent) &&
           a->counts[SEGMENTS] == r->lent.length[SEGMENTS] && a->counts[TEXT] == r->lent.length[TEXT] && loaded_what_is_lent(r);
}

/* Whether of a card of a right length the lowest bad block is named, and what is wrong with it; and of no other any block. */
static int named_the_block(const run *r)
{
    const card *c = &r->lent_card;
    const answer *a = &r->second_said;
    uint32_t lowest;
    if (c->length % MCS_BLOCK_OCTETS != 0 || c->length > MCS_CARD_OCTETS) {
        return a->number == MCS_BAD_CARD_LENGTH;
    }
    lowest = next_bad_block(c, 0);
    if (lowest == c->length / MCS_BLOCK_OCTETS) {
        return a->number == 0 || a->number == MCS_NO_ROOM;
    }
    return a->number == REASON_NUMBER[first_reason(reasons_against(c, lowest))] && a->block == lowest;
}

/* Writing what was loaded gives the card back, for every card that is accepted and whose tables pass 200 (SCOPE 3.18): what both
 * write of the tables that they have loaded is the card. */
static void write_again(play *p)
{
    uint32_t number, octets = p->r->lent_card.length;
    step *s;
    bare_step(p, SWAP_TABLES, 0);
    s = new_step(p);
    if (!p->going) {
        return;
    }
    blank_step(&p->d, CARD_WRITE, s);
    s->room[0] = one_in(&p->d, 2) ? octets : between(&p->d, octets, CARD_ROOM);
    take_step(p);
    number = p->r->second_said.number;
    if (p->going && number != MCS_BAD_CATALOGUE && (number != 0 || !same_card(&p->r->written, &p->r->lent_card))) {
        cannot_be(p, "both write another card than the one that they have loaded");
    }
    bare_step(p, SWAP_TABLES, 0);
}

static void load(play *p, uint32_t small, int right)
{
    step *s = new_step(p);
    if (!p->going) {
        return;
    }
    blank_step(&p->d, CARD_LOAD, s);
    draw_room(p, small, s);
    right = right && room_suffices(p->r, s);
    take_step(p);
    if (right && !gave_the_catalogue(p->r)) {
        cannot_be(p, "both load something else from a card that was made right");
    }
    if (p->going && !named_the_block(p->r)) {
        cannot_be(p, "both say something else of the card's blocks than is to be seen in them");
    }
    if (p->going && p->r->second_said.number == 0) {
        write_again(p);
    }
}

static void poke_card(play *p, uint32_t at, uint32_t to)
{
    step *s = new_step(p);
    if (p->going) {
        blank_step(&p->d, POKE_CARD, s);
        s->number = at;
        s->what = to;
        take_step(p);
    }
}

/* A block whose sum is 0; or 255, which leaves the same remainder, and is wrong. */
static void sum_of_0(play *p)
{
    uint32_t blocks = p->r->lent_card.length / MCS_BLOCK_OCTETS, block, of_sums = below(&p->d, 2);
    if (blocks == 0) {
        return;
    }
    block = below(&p->d, blocks);
    poke_card(p, MCS_BLOCK_OCTETS * block + ANY_OCTET_AT, octet_for_sum_0(&p->r->lent_card, block, of_sums));
    bare_step(p, MEND_BLOCK, block);
    if (one_in(&p->d, 2)) {
        poke_card(p, MCS_BLOCK_OCTETS * block + (of_sums ? SUM_OF_SUMS_AT : SUM_AT), 255);
    }
}

/* One reason, or two. */
static uint32_t some_reasons(dice *d)
{
    uint32_t reasons = 1u << below(d, REASONS);
    return one_in(d, 2) ? reasons : reasons | 1u << below(d, REASONS);
}

/* A bad block: the first, the last, or any. */
static void spoil(play *p)
{
    uint32_t blocks = p->r->lent_card.length / MCS_BLOCK_OCTETS;
    step *s = new_step(p);
    if (!p->going || blocks == 0) {
        return;
    }
    blank_step(&p->d, SPOIL_BLOCK, s);
    s->who = one_in(&p->d, 4) ? 0 : one_in(&p->d, 3) ? blocks - 1u : below(&p->d, blocks);
    s->number = some_reasons(&p->d);
    s->what = any_word(&p->d);
    take_step(p);
}

/* Records beyond a limit. */
static void too_many(play *p)
{
    static const uint32_t LEAST[TABLES] = {MCS_GROUP_WORDS * MCS_MOST_GROUPS, MCS_TRACK_WORDS * MCS_MOST_TRACKS,
                                           MCS_MOST_SEGMENTS, MCS_MOST_TEXT};
    step *s = new_step(p);
    if (!p->going) {
        return;
    }
    blank_step(&p->d, TABLE_LENGTH, s);
    s->who = one_in(&p->d, 8) ? (uint32_t)TEXT : below(&p->d, 3);
    s->number = between(&p->d, LEAST[s->who] - 1u, table_room(s->who));
    take_step(p);
}

/* As much room as the blocks need, or about that. */
static void draw_card_room(play *p, step *s)
{
    uint32_t octets = 0, room;
    for (uint32_t table = 0; table < TABLES; table++) {
        octets += MCS_BLOCK_OCTETS * blocks_for(table, p->r->lent.length[table] / record_entries(table));
    }
    room = one_in(&p->d, 3)   ? octets
           : one_in(&p->d, 3) ? ONE_OF(&p->d, 0, octets - 1u, octets + 1u, octets - MCS_BLOCK_OCTETS, octets + MCS_BLOCK_OCTETS)
                              : octets + below(&p->d, 1024);
    s->room[0] = room > CARD_ROOM ? CARD_ROOM : room;
}

static void write_card(play *p)
{
    step *s = new_step(p);
    if (p->going) {
        blank_step(&p->d, CARD_WRITE, s);
        draw_card_room(p, s);
        take_step(p);
    }
}

/* What both wrote is the card that is made of the catalogue here; loading what was written gives the tables back (SCOPE 3.18). */
static void write_right_card(play *p)
{
    static card made;
    write_card(p);
    if (!p->going || p->r->second_said.number != 0) {
        return;
    }
    make_card(&p->r->lent, &made);
    if (!same_card(&p->r->written, &made)) {
        cannot_be(p, "both write another card than the catalogue's");
        return;
    }
    bare_step(p, WRITTEN_CARD, 0);
    load(p, USUAL, 1);
}

void play_cards(play *p)
{
    p->share = FROM_CARD;
    for (uint32_t round = 0; round < 12 && goes_on(p); round++) {
        int beyond = one_in(&p->d, 10), right = !beyond && one_in(&p->d, 4), bad = !right && one_in(&p->d, 2);
        bare_step(p, KEEP, 0);
        if (beyond) {
            too_many(p);
        }
        bare_step(p, MAKE_CARD, right || !one_in(&p->d, 4) ? 0 : any_word(&p->d));
        if (bad) {
            for (uint32_t k = few_times(p); k > 0; k--) {
                spoil(p);
            }
            if (one_in(&p->d, 16)) {
                bare_step(p, CARD_LENGTH, p->r->lent_card.length + between(&p->d, 1, MCS_BLOCK_OCTETS - 1u));
            }
        } else if (!right && one_in(&p->d, 4)) {
            sum_of_0(p);
        } else if (!right && !(beyond && one_in(&p->d, 2))) {
            damage(p, few_times(p), damage_card);
        }
        load(p, bad ? OFTEN : USUAL, right);
        if (beyond) {
            write_card(p);
        }
        bare_step(p, PUT_BACK, 0);
        write_right_card(p);
        bare_step(p, KEEP, 0);
        damage_titles_or_more(p);
        write_card(p);
        bare_step(p, PUT_BACK, 0);
    }
}
