/* The office's titles by rules of their own here (SCOPE 5.1): when they are refused, which title a player shows, and who is
 * told when it changes. What both programs do is held against them, and what was met is counted by them. */
#ifndef TITLES_H
#define TITLES_H

#include "numbers.h"
#include "run.h"

/* All that is wrong with the titles, as bits; where they are not one entry for each track, the entries that there are for tracks are
 * looked at too. */
enum { TOO_FEW_ENTRIES, TOO_MANY_ENTRIES, LONG_PART, PART_OUTSIDE, PART_NOT_UTF8, TITLE_FAULTS };
uint32_t faults_of_titles(const tables *t);

/* Which fault a single entry has; TITLE_FAULTS where it is right. */
uint32_t fault_of_entry(const tables *t, uint32_t track);

/* Where a title stands. */
typedef struct {
    uint32_t text, offset, length;
} part;

/* Of a player that stands in this catalogue with these titles, which are right. */
part part_shown(const tables *t, const standing *p);
const uint8_t *octets_of_part(const tables *t, const part *p);

/* Whether both have the same octets, from whichever text. */
int same_title(const tables *t, const part *one, const part *other);

/* What is wrong with a call on a state, with the states before and after it, in words; a null pointer where nothing is. */
const char *wrong_title(const tables *t, const step *s, const answer *a, const uint8_t before[MCS_STATE_OCTETS],
                        const uint8_t after[MCS_STATE_OCTETS]);

#endif
