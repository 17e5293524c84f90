/* What the calls of a run have met of the clock and the rest (SCOPE 13). */
#ifndef COUNT_CLOCK_H
#define COUNT_CLOCK_H

#include "run.h"

/* A call on a state. */
void count_clock(const run *r, const step *s);

/* Its rows. */
void tell_clock(void);

#endif
