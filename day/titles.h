/* The titles as the typists' papers have them: the office's own, in a text beside the card's, and the card's for every track that
 * the office does not rename (SCOPE 5.1). They are what the desk is lent, and what it shows is held against them. */
#ifndef TITLES_H
#define TITLES_H

#include "mcs_desk.h"

/* Gives a track a title of the office's own, which is added to its text; and cuts what a track was given behind so many octets. */
void give_title(uint32_t track, const char *title);
void cut_title(uint32_t track, uint32_t octets);

/* The office's titles for the tracks of a catalogue, as they are lent. Before any is given nothing is renamed. */
struct mcs_titles office_titles(const struct mcs_catalogue *c);

/* The title that a track has to have, where it stands. */
struct mcs_title title_due(const struct mcs_catalogue *c, uint32_t track);

#endif
