/* Lines of the output. Each says what is done and at which player; then each device has its own column, so that the eye follows
 * who pressed and who was told. */
#ifndef LINES_H
#define LINES_H

#include <stdint.h>

#include "devices.h"

#define BOLD "\x1B[1m"
#define FAINT "\x1B[2m"
#define RED "\x1B[31m"
#define PLAIN "\x1B[0m"

/* Colours for a terminal; without it the output is plain. */
void use_colours(void);
void paint(const char *colour);

/* A line of the desk's own, and one that begins in the column of a device; at a player, or at none (NO_PLAYER). */
#define NO_PLAYER MCS_SERVICES
void begin_desk_line(const char *what, uint32_t service);
void begin_line(const char *what, uint32_t service, uint32_t who);
void end_line(void);

/* A title, and the names of the devices over their columns. */
void print_heading(const char *title);

/* A device's name and a player's word, in so many places. */
void print_device(uint32_t who, int width);
void print_player(uint32_t service, int width);

#endif
