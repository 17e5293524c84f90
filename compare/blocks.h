/* Cards with a block that is not full, whose blocks change places, whose blocks are bad, and whose sums are 0. */
#ifndef BLOCKS_H
#define BLOCKS_H

#include "judge.h"

/* The top octet of a block's first word, or of text. */
enum { ANY_OCTET_AT = 8 };

/* A card of the tables' whole records. Where `how` is 0 it is right; else one block is short, the records that it lacks follow in
 * blocks of the same kind, and `how` decides which one it is. A block of a single record is left as it is. */
void fill_card(const tables *t, uint32_t how, card *c);

/* What the octet at ANY_OCTET_AT of a right block has to be for the sum, or the sum of sums, to become 0. */
uint8_t octet_for_sum_0(const card *c, uint32_t block, uint32_t of_sums);

/* The blocks change places, are numbered by their places and mended. */
void swap_blocks(card *c, uint32_t one, uint32_t other);

/* A right block becomes bad, for these reasons and for no other; its sums are right again where the check is none of them. `how`
 * decides in which way. The block behind gets the same kind octet where this one is to be not full, and another where it is short
 * and not to be refused for that. A block whose kind cannot fall is not short beside its kind, and has no padding to be wrong; the
 * last block of the card may be short, and stays right. */
void spoil_block(card *c, uint32_t block, uint32_t reasons, uint32_t how);

#endif
