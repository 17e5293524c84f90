/* A state as the library's octets and as the second program's struct. */
#ifndef STATE_H
#define STATE_H

#include "mcs.h"
#include "ref.h"

#include <stddef.h>

/* What the octets mean. An octet that says yes or no is taken as it is, also where it is neither 1 nor 0; a number of waiting
 * results that the struct cannot hold becomes the most that it holds, which is as wrong. */
void state_of_octets(const uint8_t octets[MCS_STATE_OCTETS], ref_state *s);
void octets_of_state(const ref_state *s, uint8_t octets[MCS_STATE_OCTETS]);

/* Whether both mean the same; where not, what differs is written to `what`, unless that is null. Octets of the name behind its
 * length and results that do not wait mean nothing. */
int same_meaning(const ref_state *library, const ref_state *second, char *what, size_t room);

/* Whether every octet that says yes or no is 1 or 0. */
int plain_truths(const uint8_t octets[MCS_STATE_OCTETS]);

#endif
