#include "blocks.h"
#include "random.h"
#include "words.h"

#include <string.h>

/* Fewer records, by one or by any number that leaves some. */
static uint32_t fewer(dice *d, uint32_t count) { return one_in(d, 2) ? count - 1u : between(d, 1, count - 1u); }

void fill_card(const tables *t, uint32_t how, card *c)
{
    dice d = dice_of(how, 0);
    uint32_t blocks = 0, shortened; /* the tables have room for 90 blocks, so that there may be one more */
    for (uint32_t table = 0; table < TABLES; table++) {
        blocks += blocks_for(table, t->length[table] / record_entries(table));
    }
    shortened = how == 0 ? blocks : below(&d, blocks);
    memset(c->octets, 0xE7, sizeof c->octets);
    c->length = 0;
    for (uint32_t table = 0; table < TABLES; table++) {
        uint32_t records = t->length[table] / record_entries(table), first = 0;
        while (first < records) {
            uint32_t left = records - first, count = left < block_room(table) ? left : block_room(table);
            if (count > 1 && c->length == MCS_BLOCK_OCTETS * shortened) {
                count = fewer(&d, count);
            }
            add_block(t, table, first, count, c);
            first += count;
        }
    }
}

uint8_t octet_for_sum_0(const card *c, uint32_t block, uint32_t of_sums)
{
    /* The octet is in each of the running sums from its own on; 32 times 8 leaves 1. */
    const uint8_t *at = c->octets + MCS_BLOCK_OCTETS * block;
    uint32_t is = at[ANY_OCTET_AT], by = of_sums ? 32u * at[SUM_OF_SUMS_AT] : 255u - at[SUM_AT];
    return (uint8_t)((is + by) % 255u);
}

void swap_blocks(card *c, uint32_t one, uint32_t other)
{
    uint8_t kept[MCS_BLOCK_OCTETS], *a = c->octets + MCS_BLOCK_OCTETS * one, *b = c->octets + MCS_BLOCK_OCTETS * other;
    memcpy(kept, a, MCS_BLOCK_OCTETS);
    memmove(a, b, MCS_BLOCK_OCTETS);
    memcpy(b, kept, MCS_BLOCK_OCTETS);
    number_block(c, one);
    number_block(c, other);
    mend_block(c, one);
    mend_block(c, other);
}

/* ---- Bad blocks */

static int among(uint32_t reasons, uint32_t reason) { return (reasons >> reason & 1u) != 0; }

/* Another one, in either octet. */
static void spoil_number(dice *d, uint8_t *at)
{
    uint32_t octet = NUMBER_AT + below(d, 2);
    at[octet] = (uint8_t)(at[octet] + (one_in(d, 2) ? 1u : between(d, 1, 255)));
}

/* One that falls where it can, half of the time, or where it has to; else one that there is not. */
static void spoil_kind(dice *d, uint8_t *at, uint32_t before, int has_to_fall)
{
    if (before > 1 && (has_to_fall || one_in(d, 2))) {
        at[KIND_AT] = (uint8_t)between(d, 1, (before <= TABLES ? before : TABLES + 1u) - 1u);
    } else {
        at[KIND_AT] = (uint8_t)ONE_OF(d, 0, TABLES + 1u, TABLES + 2u, 128, 255);
    }
}

/* 0, or more than the kind has; 0 where the block is to be short or its padding to be wrong as well, since more is neither. */
static uint32_t wrong_count(dice *d, uint32_t most, int has_to_be_0)
{
    return has_to_be_0 ? 0 : ONE_OF(d, 0, most + 1u, most + 1u, most + 2u, 506, 512, 0xFFFF);
}

/* A short block is the last of its kind, or is not, by the kind octet of the block behind. */
static void settle_behind(dice *d, card *c, uint32_t block, int last)
{
    uint8_t *at = c->octets + MCS_BLOCK_OCTETS * block, *behind = at + MCS_BLOCK_OCTETS;
    if (block + 1u < c->length / MCS_BLOCK_OCTETS && is_short(c, block) && is_last_of_kind(c, block) != last) {
        behind[KIND_AT] = (uint8_t)(at[KIND_AT] + (last ? between(d, 1, 255) : 0u));
        mend_block(c, block + 1u);
    }
}

void spoil_block(card *c, uint32_t block, uint32_t reasons, uint32_t how)
{
    dice d = dice_of(how, 0);
    uint8_t *at = c->octets + MCS_BLOCK_OCTETS * block;
    uint32_t kind = at[KIND_AT], count = half_word_at(at + COUNT_AT), table, most, end;
    int has_padding = among(reasons, WRONG_PADDING), not_full = among(reasons, NOT_FULL);
    if (among(reasons, WRONG_NUMBER)) {
        spoil_number(&d, at);
    }
    if (among(reasons, WRONG_KIND)) {
        spoil_kind(&d, at, kind_before(c, block), has_padding || not_full);
    }
    /* A kind that there is not has as many records as any has, of one octet. */
    table = at[KIND_AT] >= 1 && at[KIND_AT] <= TABLES ? at[KIND_AT] - 1u : (uint32_t)TEXT;
    most = block_room(table);
    if (among(reasons, WRONG_COUNT)) {
        count = wrong_count(&d, most, has_padding || not_full);
    } else if (not_full || at[KIND_AT] != kind || (has_padding && table == TEXT)) {
        count = fewer(&d, most); /* which leaves padding */
    }
    put_half_word(at + COUNT_AT, count);
    end = records_end(table, count);
    if (end < SUM_AT) {
        memset(at + end, 0, SUM_AT - end);
    }
    if (has_padding && end < SUM_AT) {
        at[one_in(&d, 3) ? end : one_in(&d, 2) ? SUM_AT - 1u : between(&d, end, SUM_AT - 1u)] = (uint8_t)between(&d, 1, 255);
    }
    settle_behind(&d, c, block, !not_full);
    mend_block(c, block);
    if (among(reasons, WRONG_CHECK)) {
        uint32_t octet = one_in(&d, 2) ? SUM_AT : SUM_OF_SUMS_AT;
        at[octet] = (uint8_t)(at[octet] + (one_in(&d, 2) ? 1u : between(&d, 1, 255)));
    }
}
