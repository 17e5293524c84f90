/* What the two services have to do with each other, and in which order takes serve, by rules of their own here (SCOPE 17.4 and
 * 19.2): what both programs do is held against them. Each says in words what is wrong, and a null pointer where nothing is. */
#ifndef APART_H
#define APART_H

#include "run.h"

/* The places of a client that are owed, as bits: the slots of service 0, and behind them those of service 1. */
uint32_t owed_places(const uint8_t state[MCS_STATE_OCTETS], uint32_t client);

/* Where a client has no such place after its mark, or no client has one, they are the number of places and of clients. */
uint32_t next_place(const uint8_t state[MCS_STATE_OCTETS], uint32_t client);
uint32_t next_client(const uint8_t state[MCS_STATE_OCTETS]);

/* 219 comes where the service is over 1, behind 200, 224, 205, 201 and 202 and before all others, and never else. */
const char *wrong_service(const step *s, const answer *a);

/* Of an accepted call, with the states before and after it: what is not its own stays, octet by octet. A take is in turn. */
const char *not_apart(const step *s, const answer *a, const uint8_t before[MCS_STATE_OCTETS],
                      const uint8_t after[MCS_STATE_OCTETS]);

/* Of an accepted take: it serves the client and the place whose turn it is, and these are the ones that were served last. */
const char *not_in_turn(const answer *a, const uint8_t before[MCS_STATE_OCTETS], const uint8_t after[MCS_STATE_OCTETS]);

/* Of an accepted call: nothing waits for BOUND takes. The waits are those after the call then. */
const char *too_late(waits *w, const step *s, const answer *a, const uint8_t before[MCS_STATE_OCTETS],
                     const uint8_t after[MCS_STATE_OCTETS]);

#endif
