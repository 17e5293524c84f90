/* What the calls of a run have met of the objects, their numbers and named next tracks (SCOPE 14). */
#ifndef COUNT_OBJECTS_H
#define COUNT_OBJECTS_H

#include "run.h"

/* A call on a state; one that writes or reads an object. */
void count_numbers(const run *r, const step *s);
void count_object(const run *r, const step *s);

/* Their rows. */
void tell_objects(void);

#endif
