/* Damage to states, catalogues, titles and cards, as steps. */
#ifndef DAMAGE_H
#define DAMAGE_H

#include "random.h"
#include "run.h"

/* Each draws one step; some leave a thing as right as it was. */
void damage_state(dice *d, const run *r, step *s);
void damage_truth(dice *d, const run *r, step *s); /* one yes or no is neither 1 nor 0 */
void damage_catalogue(dice *d, const run *r, step *s);
void damage_title(dice *d, const run *r, step *s);   /* one title is not UTF-8 any more, or is about to be another's */
void damage_renames(dice *d, const run *r, step *s); /* the office's titles */
void damage_card(dice *d, const run *r, step *s);

#endif
