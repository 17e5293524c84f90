/* Cards made of tables, block by block. */
#ifndef CARD_H
#define CARD_H

#include "tables.h"

#define MOST_BLOCKS (MCS_CARD_OCTETS / MCS_BLOCK_OCTETS)
#define CARD_ROOM (MCS_CARD_OCTETS + 2u * MCS_BLOCK_OCTETS)

/* In a block. */
enum { NUMBER_AT = 0, KIND_AT = 2, COUNT_AT = 3, RECORDS_AT = 5, SUM_AT = 510, SUM_OF_SUMS_AT = 511 };

typedef struct {
    uint8_t octets[CARD_ROOM];
    uint32_t length;
} card;

/* The most records of a table that a block holds, and the blocks that so many records need. */
uint32_t block_room(uint32_t table);
uint32_t blocks_for(uint32_t table, uint32_t records);

/* Where so many records of a table end in a block. */
uint32_t records_end(uint32_t table, uint32_t count);

/* A right block behind the last, with so many records of a table from one on. */
void add_block(const tables *t, uint32_t table, uint32_t first, uint32_t count, card *c);

/* A right card of the tables' whole records, every block but the last of its kind full. */
void make_card(const tables *t, card *c);

/* Whether both have the same octets. */
int same_card(const card *one, const card *other);

/* The check octets that a block's octets before them ask for: their sum, and the sum of their running sums. */
void check_octets(const uint8_t block[MCS_BLOCK_OCTETS], uint8_t check[2]);

/* Gives the block its place as its number; the check octets that it asks for. */
void number_block(card *c, uint32_t block);
void mend_block(card *c, uint32_t block);

#endif
