/* The numbers of objects, the named next track and who is told of both, by rules of their own here (SCOPE 14): what both
 * programs do is held against them, and what was met is counted by them. */
#ifndef NUMBERS_H
#define NUMBERS_H

#include "run.h"

/* Where a player stands, out of a state's octets. */
typedef struct {
    uint32_t media, order, mask, group, track, position, next, rest;
    int speed, seeking;
} standing;
standing standing_in(const uint8_t state[MCS_STATE_OCTETS], uint32_t service);

/* Whether a characteristic's value is the number of an object; and the number, NO_OBJECT where the value has no octets. */
#define NO_OBJECT UINT64_MAX
int has_object(uint32_t characteristic);
uint64_t object_of(const tables *t, const standing *p, uint32_t characteristic);

/* Whether it may be written to 11, 12 or 14. */
int may_be_written(const tables *t, const standing *p, uint32_t characteristic, uint64_t number);

/* Whether a player's named next track breaks 201, in a catalogue that is right. */
int is_misnamed(const tables *t, const standing *p);

/* The track that a track move leads to, of Next Track the named one where there is one; NO_TRACK where it cannot be made. */
uint32_t named_or_next(const tables *t, const standing *p, uint8_t opcode, int64_t n);

/* Whether a call that began there and ended here is on another track or group, or was or is on none. */
int ends_elsewhere(const standing *was, const standing *is);

/* The bit of a characteristic's slot in a set of slots; SLOTS where it has none. */
uint32_t bit_of(uint32_t characteristic);

/* Whether the slot of a characteristic is in the set of slots at a part of a client's account with a service. */
int slot_bit(const uint8_t state[MCS_STATE_OCTETS], uint32_t service, uint32_t client, uint32_t part, uint32_t characteristic);

/* Whether a client has read a characteristic of a service at 0 since connecting, and it has not changed since. */
int read_mark(const uint8_t state[MCS_STATE_OCTETS], uint32_t service, uint32_t client, uint32_t characteristic);

/* The result of a control write, the last of those that wait for its writer; of that one's account with a service, its octets. */
uint32_t last_result(const uint8_t *account);

/* What is wrong with a call on a state, with the states before and after it, in words; a null pointer where nothing is. */
const char *wrong_number(const tables *t, const step *s, const answer *a, const uint8_t before[MCS_STATE_OCTETS],
                         const uint8_t after[MCS_STATE_OCTETS]);

#endif
