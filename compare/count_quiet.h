/* What the calls of a run have met of the screens when things go quiet (SCOPE 21.11, 21.12). */
#ifndef COUNT_QUIET_H
#define COUNT_QUIET_H

#include "run.h"

/* A call on a state. */
void count_quiet(const run *r, const step *s);

/* A history that has ended in takes until nothing was owed. */
void count_screens(const run *r);

/* Its rows. */
void tell_quiet(void);

#endif
