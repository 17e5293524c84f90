/* The catalogues and titles that the calls are timed on. */
#ifndef CATALOGUES_H
#define CATALOGUES_H

#include "tables.h"

typedef struct {
    const char *name; /* as the tables of the report call it */
    tables tables;
} catalogue;

enum letters { ASCII, MIXED };

/* The sample (SCOPE 22.1). */
void make_sample(catalogue *c);

/* So many of each, shared out evenly: groups of equally many tracks, tracks of equally many segments and title octets. */
void make_even(catalogue *c, const char *name, uint32_t groups, uint32_t tracks, uint32_t segments, uint32_t text,
               enum letters letters);

/* All four tables full, with the most tracks in one group and the most segments in one track: every other group has one track,
 * and every other track one segment. */
void make_uneven(catalogue *c, const char *name);

/* All four tables full and shared out evenly, and every track renamed by the office with a title of 128 octets. In all others nothing is
 * renamed. */
void make_renamed(catalogue *c, const char *name, enum letters letters);

/* A text of `len` octets; MIXED has characters of one, two, three and four octets in turn. */
void make_text(uint8_t *text, uint32_t len, enum letters letters);

#endif
