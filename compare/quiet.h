/* What the clients' screens show when things go quiet, by rules of their own here (SCOPE 21.11, 21.12): what each client has
 * taken and written since it subscribed is followed from a start on, from the calls and the answers alone, of either program by
 * itself. What each program does is held against them, and what was met is counted by them. */
#ifndef QUIET_H
#define QUIET_H

#include "numbers.h"
#include "run.h"

/* After at most 168 takes nothing more is owed (SCOPE 21.11): 4 times 2 times 13 values and 8 results. */
#define MOST_TAKES 168u

/* It holds of every subscribed slot but 7 and 18 (SCOPE 21.12). */
int is_claimed(uint32_t characteristic);

/* What is owed to all clients together in a state: values, of which the control point has none, and results that wait. */
uint32_t all_owed(const uint8_t state[MCS_STATE_OCTETS]);

/* The present value of a slot, as the library's state has it; its length. */
uint32_t present_value(const run *r, uint32_t service, uint32_t characteristic, uint8_t octets[MCS_OUTPUT_OCTETS]);

/* What a client knows of a slot of a service. */
knowledge *known_of(screens *k, uint32_t client, uint32_t service, uint32_t characteristic);

/* The premise is a fresh start with one catalogue and one text of renamed titles (SCOPE 21.3). Where a state is of another's
 * making, or other tables are lent, nothing is known until the next start; where other titles are lent, nothing is known of
 * the title, as if whoever is subscribed to it had just subscribed. */
void stop_following(run *r);
void forget_titles(run *r);

/* What is wrong with a call on a state, of one program, in words; a null pointer where nothing is. What its clients know is then as
 * it is after the call. */
const char *wrong_screens(run *r, uint32_t program, const step *s);

/* The same, where the last take said that nothing is owed, of what the program's own reads give on a copy of the state. */
const char *unlike_reads(const run *r, uint32_t program);

#endif
