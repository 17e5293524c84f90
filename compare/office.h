/* The office's day, the player's cases and those of the services, of titles and of the manual's Goto: a script of calls, played on
 * both programs. */
#ifndef OFFICE_H
#define OFFICE_H

#include "run.h"

#include <stdio.h>

/* Reads the script and writes a line for each call from what the library says; what differs between the programs goes to
 * `complaints`. Returns how many calls differed, and one more where the script ends inside a frame. */
unsigned long play_office(FILE *script, FILE *lines, FILE *complaints, run *r);

#endif
