/* What the person holds and has chosen: all that is neither the desk's nor a device's. */
#ifndef PERSON_H
#define PERSON_H

#include <stddef.h>
#include <stdint.h>

#include "devices.h"

/* What a number that is typed is for. */
typedef enum { ASKS_NOTHING, ASKS_FOR_DEVICE_KEY, ASKS_FOR_SUBSCRIPTION, ASKS_FOR_GROUP } question;

#define MOST_TYPED 11u /* the least number of 32 bits has so many characters */
typedef struct {
    question asks;
    const device_key *key; /* of a device, that asks */
    char typed[MOST_TYPED + 1u];
    size_t count;
} prompt;

typedef struct {
    uint32_t in_hand;             /* the device */
    uint32_t drives[MCS_CLIENTS]; /* the service of each device */
    int is_radio_held;
    int is_clock_by_hand;
    int is_help_shown;
    prompt asked;
} person;

#endif
