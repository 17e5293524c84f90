/* What the calls of a run have met, so that a comparison of nothing is noticed. */
#ifndef COUNT_H
#define COUNT_H

#include "run.h"

#include <stdio.h>

/* Where what is lent to a call came from. */
enum {
    FROM_HISTORY,
    VALID_STATE,
    DAMAGED_STATE,
    ANY_STATE,
    DAMAGED_CATALOGUE,
    DAMAGED_TITLES,
    ANY_CATALOGUE,
    FROM_CARD,
    FROM_SHEET,
    FROM_OBJECT,
    SHARES
};

/* A call that both answered alike. */
void count_call(const run *r, const step *s, uint32_t share);

unsigned long calls_counted(void);

/* Prints all counts, and whether everything that can happen has happened, and nothing that cannot; what is wrong is printed
 * too. Things that have not happened are only wrong where `all` is asked. */
int counts_are_right(FILE *out, int all);

#endif
