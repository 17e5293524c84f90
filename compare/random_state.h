/* Random states that pass 201, and their parts. */
#ifndef RANDOM_STATE_H
#define RANDOM_STATE_H

#include "random.h"
#include "state.h"
#include "tables.h"

/* A state that passes 201 in this right catalogue, also one that no history reaches. */
void random_state(dice *d, const tables *t, ref_state *s);

uint32_t random_mask(dice *d);
uint32_t random_position(dice *d, const tables *t, uint32_t track); /* the catalogue may be damaged */
uint32_t random_mtu(dice *d);
uint32_t random_rest(dice *d);

#endif
