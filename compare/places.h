/* Where the texts of a call are wrong, by rules of their own here (SCOPE 20.4): what both programs carry is held against
 * them, and what was met is counted by them. */
#ifndef PLACES_H
#define PLACES_H

#include "run.h"

/* The offset of the first octet that does not start a whole valid character; the length where there is none. */
uint32_t wrong_octet(const uint8_t *octets, uint32_t length);

/* Whether the character that is begun there lacks octets behind the end, whatever else is wrong with it. */
int is_cut_off(const uint8_t *octets, uint32_t at, uint32_t length);

/* Whether the words of a track's record that stand for themselves are right: its duration, and that its title lies in the text and has
 * at most 128 octets. */
int duration_and_title_fit(const tables *t, uint32_t track);

/* Whether every rule of the catalogue holds, but for titles that are not UTF-8. */
int plain_rules_hold(const tables *t);

/* The lowest track from one on whose title fits and is not UTF-8; the number of tracks where there is none. */
uint32_t next_bad_title(const tables *t, uint32_t from);
uint32_t wrong_octet_of_title(const tables *t, uint32_t track);

/* Whether 200 does not refuse the catalogue. */
int catalogue_is_right(const tables *t);

/* The octet for which a name is bad, 128 where it is longer; MCS_NOWHERE where it is right. */
uint32_t wrong_octet_of_name(const uint8_t *octets, uint32_t length);

/* What the number that a call was refused with carries; MCS_NOWHERE in the place of what it does not carry. */
struct mcs_place place_of(const tables *t, const step *s, uint32_t number);

#endif
