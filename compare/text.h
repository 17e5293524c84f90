/* Octets that are UTF-8 of RFC 3629, and octets that are nearly so. */
#ifndef TEXT_H
#define TEXT_H

#include "random.h"

/* Exactly `length` octets of whole characters, those at the bounds of each length among them. */
void right_text(dice *d, uint8_t *out, uint32_t length);

/* The same with one wrong sequence in it; `length` is not 0. */
void wrong_text(dice *d, uint8_t *out, uint32_t length);

#endif
