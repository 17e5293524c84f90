/* Arguments of calls: mostly such as are right where the run stands; one in `wrong` is meant not to be. */
#ifndef ARGUMENTS_H
#define ARGUMENTS_H

#include "random.h"
#include "run.h"

/* The player of a service; of a number that is none, service 0's, so that all else can be aimed at something. */
const ref_player *player_of(const run *r, uint32_t service);

/* It has a current track, in the tables as they are lent. */
int has_track(const run *r, const ref_player *p);

/* A client that is connected or not, as the call wants it, or one over 3. */
uint32_t some_client(dice *d, const run *r, uint32_t connected, uint32_t wrong);

/* A service, or a number over 1, also such as would be a service if its upper octets were dropped. */
uint32_t some_service(dice *d, uint32_t wrong);

/* Mostly one whose results in the service are kept, since they say what a control write did. */
uint32_t some_writer(dice *d, const run *r, uint32_t service, uint32_t wrong);

/* One that is none of the eighteen, also such as would be one if its upper octets were dropped. */
uint32_t no_characteristic(dice *d);

/* The room of an output. */
uint32_t some_room(dice *d, uint32_t wrong);

/* The octets of a name for a player, of at most so many octets; returns how many they are. */
uint32_t some_name(dice *d, const ref_player *p, uint32_t wrong, uint8_t *octets, uint32_t most);

/* A signed number in two's complement: small ones, the ends of the range, and such as lead beyond `far`. */
uint32_t some_number(dice *d, uint32_t far);

/* How far a Goto or a move of this opcode leads. */
uint32_t reach(const run *r, const ref_player *p, uint8_t opcode);

/* The steps that are allowed to a manual Goto of that amount: none, one less, as many, one more, many, and as many as lead about the
 * end of what it runs over. */
uint32_t some_allowance(dice *d, uint32_t amount, uint32_t far);

/* The length that a value has now, nearly enough to aim an offset at. */
uint32_t value_length(const run *r, const ref_player *p, uint32_t characteristic);

/* To the end of the track and beside it, by the speed of the player and as if that were 0; nothing; and long times, also such as would
 * be short if the parts that they count, or the hundredths, had 32 bits. */
uint32_t some_time(dice *d, const run *r, const ref_player *p);

uint32_t some_group(dice *d, const run *r, uint32_t wrong);

/* The number of an object for a write of 11, 12 or 14: of a track of the player's group, or of a group with tracks, the current ones
 * too; one in a few is only nearly so. */
uint64_t some_object(dice *d, const run *r, const ref_player *p, uint32_t characteristic);

#endif
