/* What may take a trial's place while it is shrunk. */
#ifndef TRIED_H
#define TRIED_H

#include "trial.h"

extern trial tried;

int time_is_left(void);

/* The trial, for a change to be made to it. */
void try_copy(const trial *t);

/* Whether what is tried differs too; then it is the trial from now on. It may have lost steps at its end. */
int holds(trial *t, run *r);

/* Each tries what it can, and returns whether anything held. */
int plainer_arguments(trial *t, run *r);
int smaller_catalogue(trial *t, run *r); /* and fewer titles of the office */

#endif
