/* A card's file, and the catalogue on it. */
#ifndef LOAD_H
#define LOAD_H

#include "mcs_desk.h"

/* Loads the card of a file into tables that are kept here. 0 where it is accepted; else the status to end with, 1 where the card is
 * refused and 2 where the file cannot be read, and a line on standard error says so for the program that is named. */
int load_card(const char *program, const char *path, struct mcs_catalogue *c);

#endif
