/* The cases of SCOPE 22.2, the bounds of the rules, bad blocks, bad texts, what random calls meet late, those of two services,
 * those of objects and their numbers, those of the office's titles, those of the clock, those of the manual's Goto, and those
 * of the screens when things go quiet, on both programs. */
#ifndef CASES_H
#define CASES_H

#include "run.h"

#include <stdio.h>

/* Each prints what differs between the programs or from the rules, and returns how many did. */
unsigned long play_cases(FILE *out, run *r);
unsigned long play_limits(FILE *out, run *r);
unsigned long play_bad_blocks(FILE *out, run *r);
unsigned long play_bad_texts(FILE *out, run *r);
unsigned long play_edges(FILE *out, run *r);
unsigned long play_two_services(FILE *out, run *r);
unsigned long play_numbers(FILE *out, run *r);
unsigned long play_entries(FILE *out, run *r);
unsigned long play_renames(FILE *out, run *r);
unsigned long play_clock(FILE *out, run *r);
unsigned long play_gotos(FILE *out, run *r);
unsigned long play_quiet(FILE *out, run *r);

#endif
