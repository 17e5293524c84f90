/* Every octet of a state after an accepted call, those that mean nothing too. */
#ifndef OCTETS_H
#define OCTETS_H

#include "run.h"

/* What becomes of octets that mean nothing: behind a name, and results that do not wait. */
enum { TAIL_STAYS, TAIL_CLEARED, RESULTS_STAY, RESULTS_CLEARED, RESULTS_MOVED, RESULT_ADDED, RESULTS_DROPPED, DEAD_RULES };

/* The octets that the call has to leave: what means something from the state that the second program has left, what means
 * nothing from the octets before and the call, by the comments at MCS_IN_NAME and MCS_IN_RESULTS. Returns the rules that are
 * seen to hold in octets that are not 0 or that become 0, as bits. */
uint32_t octets_after(const uint8_t before[MCS_STATE_OCTETS], const step *s, const ref_state *second, const answer *said,
                      uint8_t after[MCS_STATE_OCTETS]);

#endif
