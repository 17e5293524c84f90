/* The picture: both players with their bars, the four devices with what each was told, what is owed, what happens, the folders where
 * the screen is in hand, and the keys. */
#ifndef SCREEN_H
#define SCREEN_H

#include "person.h"

/* The smallest window in which it is drawn. */
enum { LEAST_ROWS = 24, LEAST_COLUMNS = 80 };

/* Draws it as large as the window is. Whether the terminal is still there. */
int draw_screen(const person *user);

#endif
