/* The players and the devices of the office. A player's number is its service's, a device's its client's. */
#ifndef DEVICES_H
#define DEVICES_H

#include <stdint.h>

#include "service.h"

enum { GENERIC = MCS_GENERIC, NAMED = MCS_NAMED };
enum { LEFT_PEDAL = 0, RIGHT_PEDAL = 1, HEADSET = 2, SCREEN = 3 };

typedef struct {
    const char *word; /* for its lines */
    const char *name; /* that it is started with */
    uint8_t content_control_id;
} player;

extern const player PLAYERS[MCS_SERVICES];

typedef struct {
    const char *name;
    const char *colour;
    uint32_t mtu;
    uint32_t slots[MCS_SERVICES][SLOTS + 1]; /* what it subscribes to of each player; 0 behind the last */
} device;

extern const device DEVICES[MCS_CLIENTS];

/* Whether a device subscribes to a characteristic of a player, and whether to anything of it. */
int wants(uint32_t who, uint32_t service, uint32_t characteristic);
int follows(uint32_t who, uint32_t service);

#endif
