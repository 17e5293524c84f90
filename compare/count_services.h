/* What the calls of a run have met of the two services (SCOPE 17.1). */
#ifndef COUNT_SERVICES_H
#define COUNT_SERVICES_H

#include "run.h"

/* A call on a state. */
void count_services(const run *r, const step *s);

/* Its rows. */
void tell_services(void);

/* The second program's number for the same call on another state, which is altered, and to another service; and with other titles
 * too. */
uint32_t number_on(const run *r, const step *s, ref_state *state, uint32_t service);
uint32_t number_with(const run *r, const step *s, const tables *titles, ref_state *state, uint32_t service);

#endif
