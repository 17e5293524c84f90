/* The four devices: what each is, what it subscribes to, and what each may press. A device's number is its client's. */
#ifndef DEVICES_H
#define DEVICES_H

#include <stddef.h>
#include <stdint.h>

#include "service.h"

enum { PEDAL_A, PEDAL_B, HEADSET, SCREEN };

/* What a key does. The last four ask for a number that is typed. */
typedef enum {
    PRESS,         /* an opcode, with the number that it carries */
    PLAY_OR_PAUSE, /* Pause where the device was last told that the player plays, and else Play */
    CHANGE_SPEED,  /* the playback speed that the device knows, and so much more */
    CHOOSE,        /* the entry of the folder that lies so many below */
    OPEN_ENTRY,    /* go into the chosen group, or to the chosen track, by a write of 11 */
    CLOSE_FOLDER,  /* back to the folder above */
    FIND_GROUP,    /* open the folder of the player's group */
    GO_TO_GROUP,   /* to the chosen group, by a write of 14 */
    NAME_NEXT,     /* the chosen track comes next, by a write of 12 */
    ASK_PRESS,     /* an opcode, with a number that is typed */
    ASK_ORDER,
    ASK_POSITION,
    ASK_SPEED
} deed;

typedef struct {
    int key;
    const char *shown; /* the key, as the person knows it; empty where another one with the same deed is shown */
    const char *words; /* what it does */
    deed does;
    uint8_t opcode;
    int32_t number;
} device_key;

#define MOST_DEVICE_KEYS 17u

typedef struct {
    const char *name;
    int look; /* its colour */
    uint32_t mtu;
    uint32_t slots[SLOTS + 1]; /* what it subscribes to of either service when it comes; 0 behind the last */
    device_key keys[MOST_DEVICE_KEYS];
} device;

extern const device DEVICES[MCS_CLIENTS];

/* What a key is on a device; NULL where it is none of its keys. */
const device_key *key_of(uint32_t who, int key);

/* Its keys one by one; NULL behind the last. */
const device_key *key_at(uint32_t who, size_t place);

#endif
