/* The manual's Goto by rules of its own here (SCOPE 15.1): how many steps there are, at which of them it has to stop, and what
 * it tells; and the same Goto written to the control point. What both programs do is held against them, and what was met is counted by
 * them. */
#ifndef MANUAL_H
#define MANUAL_H

#include "numbers.h"
#include "run.h"

/* What a Goto runs over, by its opcode. */
enum { OVER_SEGMENTS, OVER_TRACKS, OVER_GROUPS, GOTOS, NO_GOTO = GOTOS };
uint32_t runs_over(uint32_t opcode);

/* How much a number in two's complement is without its sign. */
uint32_t amount_of(uint32_t number);

/* The segments, tracks or groups that a player's Goto runs over, of which a track without segments is one. */
uint32_t places_of(const tables *t, const standing *p, uint32_t over);

/* The step that cannot be made, First or Last being step 1; NO_STOP where all can, however many they are. */
#define NO_STOP UINT32_MAX
uint32_t stop_of(const tables *t, const standing *p, uint32_t over, uint32_t number);

/* Whether what both tell of a manual Goto is held against a write. */
int is_written_too(const step *s);

/* Whether a step is a manual Goto that may make more steps than there is time for in a comparison of many calls. */
#define MOST_GOTO_STEPS 5000u
int takes_long(const run *r, const step *s);

/* What is wrong with a manual Goto, with the states before and after it, in words; a null pointer where nothing is, and for every
 * other call. */
const char *wrong_manual(const tables *t, const step *s, const answer *a, const uint8_t before[MCS_STATE_OCTETS],
                         const uint8_t after[MCS_STATE_OCTETS]);

#endif
