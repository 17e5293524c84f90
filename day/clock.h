/* The clock on the office's wall, and how far it leads a tape: the desk is told wall time (SCOPE 13.1). It is reckoned here, by
 * whole numbers and for the speeds of the day; what the desk has is held against it. */
#ifndef CLOCK_H
#define CLOCK_H

#include <stdint.h>

/* Where a tape is: its position, in hundredths of a second, and the rest behind it, in 65,536ths of a hundredth. */
typedef struct {
    uint32_t position, rest;
} tape_place;

/* A tape in a player: where it is, where it ends, and whether it is still being recorded; and how the player goes on with it. */
typedef struct {
    tape_place at;
    uint32_t end;
    int running;
    uint8_t media_state;
    int8_t speed, seeking;
} tape;

/* Where it has to be when so many hundredths have passed. Where its track ends by that, and the player goes on playing, it is the
 * next one's tape that is meant. */
tape_place tape_after(const tape *t, uint32_t hundredths, int plays_on);

/* How long a tape that plays takes to the end, at its speed: with a hundredth less it does not get there. */
uint32_t time_to_end(const tape *t);

#endif
