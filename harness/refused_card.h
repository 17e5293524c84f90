/* A refused card in words for service staff. */
#ifndef REFUSED_CARD_H
#define REFUSED_CARD_H

#include "mcs_desk.h"

#include <stdio.h>

/* A line that says that `what` is refused, the number, and why. Where the number names a block of the card, it says which octets of
 * the card are that block, and what stands there that may not: with that a card can be mended, and need not be thrown away
 * (SCOPE 3.12). */
void print_refusal(FILE *to, const char *what, uint32_t number, const uint8_t *card, uint32_t block);

/* The same of the catalogue that a card holds, and of the number and the place that a call carried. Where the place is a title's, it
 * says which one, at which octet, and what stands there (SCOPE 20.4). */
void print_refused_catalogue(FILE *to, const char *what, uint32_t number, const struct mcs_catalogue *c,
                             struct mcs_place place);

#endif
