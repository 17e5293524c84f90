/* What the calls of a run have met of the manual's Goto (SCOPE 15.1). */
#ifndef COUNT_MANUAL_H
#define COUNT_MANUAL_H

#include "run.h"

/* A manual Goto that both accepted. */
void count_manual(const run *r, const step *s);

/* Its rows. */
void tell_manual(void);

#endif
