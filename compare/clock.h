/* The clock by rules of its own here (SCOPE 13): how far a step leads at a playback speed, what becomes of the rest, and who is
 * told of the position. What both programs do is held against them, and what was met is counted by them. */
#ifndef CLOCK_H
#define CLOCK_H

#include "numbers.h"

/* So many parts of a rest are a hundredth of a second. */
#define PARTS_OF_A_HUNDREDTH 65536u

/* e for a playback speed. */
uint32_t e_of(int speed);

/* The parts that a clock step in Playing counts, those of the rest before it among them. */
uint64_t parts_after(const standing *p, uint32_t d);

/* Whether the track of a player is a recording that is still running. */
int is_running(const tables *t, const standing *p);

/* Whether a clock step in Playing stays below D. */
int stays_below(const tables *t, const standing *p, uint32_t d);

/* What an accepted call does with the rest of a player that it is to. */
enum { REST_KEPT, REST_CLEARED, REST_CLOCKED };
uint32_t fate_of_rest(const tables *t, const step *s, const standing *was);

/* The result of a control write. */
uint32_t result_of(const tables *t, const step *s, const standing *was);

/* What is wrong with an accepted call on a state, with the states before and after it, in words; a null pointer where nothing is. */
const char *wrong_clock(const tables *t, const step *s, const uint8_t before[MCS_STATE_OCTETS],
                        const uint8_t after[MCS_STATE_OCTETS]);

#endif
