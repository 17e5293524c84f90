/* From a trial that ends in a difference to a short one that does. */
#ifndef SHRINK_H
#define SHRINK_H

#include "trial.h"

/* Drops steps until none can be dropped alone, makes arguments plainer and the catalogue smaller; gives up looking for more
 * after `seconds`. Returns how often it played. */
unsigned long shrink_trial(trial *t, run *r, unsigned seconds);

#endif
