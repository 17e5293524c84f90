/* Where the history is played: on a chip, or in a program of the machine. Each has its own file. */
#ifndef PLACE_H
#define PLACE_H

#include "calls.h"

void say(const char *text);

/* Makes the call on the library and returns its number. *deepest becomes the octets of stack that it wrote to, below the caller's own,
 * where the place can tell, and else 0. */
uint32_t made_here(const call *c, uint32_t *deepest);

/* The history, which main plays. */
void play_history(void);

#endif
