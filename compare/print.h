/* A trial in words. */
#ifndef PRINT_H
#define PRINT_H

#include "trial.h"

#include <stdio.h>

/* The catalogue, the last so many steps with both answers, and the difference. */
void print_trial(FILE *out, trial *t, run *r, uint32_t last);

#endif
