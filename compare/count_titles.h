/* What the calls of a run have met of the office's titles (SCOPE 5.1). */
#ifndef COUNT_TITLES_H
#define COUNT_TITLES_H

#include "run.h"

/* A call on a state. */
void count_titles(const run *r, const step *s);

/* Its rows. */
void tell_titles(void);

#endif
