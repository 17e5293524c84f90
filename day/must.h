/* Calls that no right card can have refused. */
#ifndef MUST_H
#define MUST_H

#include <stdio.h>
#include <stdlib.h>

#include "mcs_desk.h"

/* Where one is refused all the same, the program ends where it is. */
static inline void must(uint32_t number, const char *what)
{
    if (number != MCS_OK) {
        fflush(stdout);
        fprintf(stderr, "%s was refused, %u: %s\n", what, number, mcs_refusal_words(number));
        exit(1);
    }
}

#endif
