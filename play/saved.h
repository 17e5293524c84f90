/* The state in a file. Behind a header that says what it is of stand the state's octets, and a check sum of all that ends it:
 *
 *     8 octets    "MCSSTATE"
 *     4 octets    MCS_STATE_LAYOUT
 *     4 octets    the check sum of the card
 *     649 octets  the state
 *     4 octets    the check sum of all octets before
 *
 * Numbers have their lowest octet first. The check sums are CRC-32, the one of Ethernet and of PNG. */
#ifndef SAVED_H
#define SAVED_H

#include "mcs_desk.h"

/* What came of it, in words, without an end. */
#define SAVED_WORDS 400u
typedef struct {
    int is_done;
    char words[SAVED_WORDS];
} saving;

/* Writes the desk's state: first to another name, which then becomes the file's, so that there is always a whole file. A file that
 * holds anything else than a state on the same card is left as it is. */
saving save_state(const char *path, const struct mcs_desk *desk);

/* Reads a state, which the desk then has. Where it is of another layout or another card, or damaged, or the core refuses it, the desk
 * keeps its own. */
saving restore_state(const char *path, struct mcs_desk *desk);

/* Whether there is a file of this name. */
int is_saved(const char *path);

#endif
