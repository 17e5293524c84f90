#include "card.h"
#include "words.h"

#include <string.h>

uint32_t block_room(uint32_t table)
{
    static const uint32_t MOST_RECORDS[TABLES] = {42, 21, 126, 505};
    return MOST_RECORDS[table];
}

uint32_t blocks_for(uint32_t table, uint32_t records) { return (records + block_room(table) - 1u) / block_room(table); }

uint32_t records_end(uint32_t table, uint32_t count)
{
    return RECORDS_AT + count * record_entries(table) * entry_octets(table);
}

void check_octets(const uint8_t block[MCS_BLOCK_OCTETS], uint8_t check[2])
{
    uint32_t sum = 0, sum_of_sums = 0;
    for (uint32_t k = 0; k < SUM_AT; k++) {
        sum = (sum + block[k]) % 255u;
        sum_of_sums = (sum_of_sums + sum) % 255u;
    }
    check[0] = (uint8_t)sum;
    check[1] = (uint8_t)sum_of_sums;
}

void mend_block(card *c, uint32_t block)
{
    uint8_t *at = c->octets + MCS_BLOCK_OCTETS * block;
    check_octets(at, at + SUM_AT);
}

void number_block(card *c, uint32_t block) { put_half_word(c->octets + MCS_BLOCK_OCTETS * block + NUMBER_AT, block); }

void add_block(const tables *t, uint32_t table, uint32_t first, uint32_t count, card *c)
{
    uint32_t block = c->length / MCS_BLOCK_OCTETS, entries = record_entries(table);
    uint8_t *at = c->octets + c->length, *to = at + RECORDS_AT;
    memset(at, 0, MCS_BLOCK_OCTETS);
    number_block(c, block);
    at[KIND_AT] = (uint8_t)(table + 1u);
    put_half_word(at + COUNT_AT, count);
    for (uint32_t k = first * entries; k < (first + count) * entries; k++) {
        uint32_t entry = table_entry(t, table, k);
        for (uint32_t j = 0; j < entry_octets(table); j++) {
            *to++ = (uint8_t)(entry >> (8 * j));
        }
    }
    mend_block(c, block);
    c->length += MCS_BLOCK_OCTETS;
}

int same_card(const card *one, const card *other)
{
    return one->length == other->length && memcmp(one->octets, other->octets, one->length) == 0;
}

void make_card(const tables *t, card *c)
{
    c->length = 0;
    for (uint32_t table = 0; table < TABLES; table++) {
        uint32_t records = t->length[table] / record_entries(table);
        for (uint32_t first = 0; first < records; first += block_room(table)) {
            uint32_t left = records - first;
            add_block(t, table, first, left < block_room(table) ? left : block_room(table), c);
        }
    }
}
