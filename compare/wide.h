/* Lengths that need more than 32 bits. */
#ifndef WIDE_H
#define WIDE_H

#include <stdio.h>

/* Makes calls on both programs with each length in turn above 2^32; prints which of them are not refused or accepted as
 * they have to be, and returns how many. */
unsigned long play_wide_lengths(FILE *to);

#endif
