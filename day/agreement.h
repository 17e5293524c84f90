/* What the devices know of the players that they follow, held against the players when nothing is owed (SCOPE 21.12). What a
 * device knows is in the books, from what it was told and what it wrote; what a player has is read from the desk, and always
 * from a copy of it, since the desk itself would note that the device has read it. */
#ifndef AGREEMENT_H
#define AGREEMENT_H

#include "mcs_desk.h"

/* The present value of a characteristic, as far as ATT_MTU − 3 reaches (SCOPE 21.12): as a notification to the device holds
 * it. Its length; Track Changed has no value, and so a length of 0. */
uint32_t value_now(const struct mcs_desk *desk, uint32_t who, uint32_t service, uint32_t characteristic,
                   uint8_t out[MCS_OUTPUT_OCTETS]);

/* Books which values of a player an accepted call has changed, which found the desk in this state. */
void note_changes(const struct mcs_desk *desk, const uint8_t before[MCS_STATE_OCTETS], uint32_t service);

/* How many values of devices were compared with what their players have, how many with those of other devices, and how often that
 * was wrong. */
typedef struct {
    uint32_t values, pairs, wrong;
} agreement;

/* Compares all that the devices have to know, with what the players have and among the devices. It is shown, and then every device
 * has to know something; or only what is wrong is shown. */
agreement compare_devices(const struct mcs_desk *desk, int shown);

#endif
