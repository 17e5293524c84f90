/* Random calls: mostly such as are accepted where the run stands, and some for every refusal. */
#ifndef DRAW_H
#define DRAW_H

#include "random.h"
#include "run.h"

/* How often each call comes up, and how often an argument is meant to be wrong: one in `wrong`. */
typedef struct {
    uint32_t weight[CARD_LOAD];
    uint32_t wrong;
} mood;

/* All calls alike. */
mood even_mood(uint32_t wrong);

/* The next stretch of a history: one has many writes, another many takes. */
mood random_mood(dice *d, uint32_t wrong);

/* One of the fourteen calls on a state. */
void draw_call(dice *d, const run *r, const mood *m, step *s);
void draw_this_call(dice *d, const run *r, uint32_t kind, uint32_t wrong, step *s);

/* A step of that kind with nothing in it but how buffers are lent. */
void blank_step(dice *d, uint32_t kind, step *s);

#endif
