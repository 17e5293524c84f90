/* What is wrong with the blocks of a card, by rules of their own here: what was met is counted by them, and not by what either of
 * the two programs says. */
#ifndef JUDGE_H
#define JUDGE_H

#include "card.h"

/* In the order in which they count within a block (SCOPE 3.12). Sets of them are bits. */
enum { WRONG_CHECK, WRONG_NUMBER, WRONG_KIND, WRONG_COUNT, NOT_FULL, WRONG_PADDING, REASONS };
extern const uint32_t REASON_NUMBER[REASONS];

/* The kind octet of the block before, 0 where there is none. */
uint32_t kind_before(const card *c, uint32_t block);

/* Whether the block at a place has fewer records than one of its kind holds; never where there is no such kind. */
int is_short(const card *c, uint32_t block);

/* Whether a block is the last of its kind is judged by the kind octet of the block behind it, even if that one is bad (SCOPE
 * 3.8). */
int is_last_of_kind(const card *c, uint32_t block);

/* All that is wrong with the block at a place, each of the six by itself: the count of a kind that there is not only where no
 * kind has it, and its padding not at all. */
uint32_t reasons_against(const card *c, uint32_t block);

/* The first of a set that is not empty. */
uint32_t first_reason(uint32_t reasons);

/* The first bad block from a place on; the number of the card's blocks where there is none. */
uint32_t next_bad_block(const card *c, uint32_t from);

/* The records of each table in the blocks before a place, which are right. */
void records_before(const card *c, uint32_t block, uint32_t records[TABLES]);

#endif
