/* Counts of what was met, in rows: printed, or looked at. */
#ifndef TELL_H
#define TELL_H

#include <stdint.h>
#include <stdio.h>

#define NUMBERS 256u /* that a call returns: the greatest is 228; what is beyond is counted as 255 */
uint32_t counted_as(uint32_t number);

/* Prints every row that `all_rows` has, and then whether its counts are right; what is not is printed too. Where all is not
 * asked, a count that is too low is not wrong. */
int rows_are_right(FILE *out, int all, void (*all_rows)(void));

/* A row begins. */
void row(const char *format, ...);

/* A count of the row that has to be at least so much, where all is asked; of 0 for what cannot be. */
void tell(unsigned long count, unsigned long least, const char *format, ...);

/* The counts of a call by its numbers: those that can apply to the kind have to be there, and no others. Where `behind` is not 0,
 * only those that come behind it can apply, and `but` cannot. */
void tell_numbers(uint32_t kind, const unsigned long counts[NUMBERS], uint32_t behind, uint32_t but);

#endif
