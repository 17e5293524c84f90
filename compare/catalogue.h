/* Random catalogues and titles. */
#ifndef CATALOGUE_H
#define CATALOGUE_H

#include "random.h"
#include "tables.h"

/* A catalogue that passes 200, and titles that pass 224. */
void random_catalogue(dice *d, tables *t);

/* Other titles for a catalogue, which may be damaged. */
void random_titles(dice *d, tables *t);

/* Words and lengths of any kind. */
void random_tables(dice *d, tables *t);

#endif
