/* What is done between calls to state, catalogue, titles, card and cue sheet. */
#ifndef ALTER_H
#define ALTER_H

#include "run.h"

/* State, catalogue and titles as they are, for a later PUT_BACK. */
void remember(run *r);

/* Nobody has waited for what a state of another's making owes, or read its titles, or knows its values. */
void forget_history(run *r);

/* A step that is no call. One that a shortened list has left without sense does nothing. */
void alter(run *r, const step *s);

#endif
