#include "devices.h"

const player PLAYERS[MCS_SERVICES] = {
    [GENERIC] = {"generic", "Mantelhona", 1},
    [NAMED] = {"named", "Reading room", 2},
};

const device DEVICES[MCS_CLIENTS] = {
    {"left pedal", "\x1B[36m", 23, {[GENERIC] = {MCS_MEDIA_STATE, MCS_CONTROL_POINT}}},
    {"right pedal",
     "\x1B[35m",
     27,
     {[GENERIC] = {MCS_POSITION, MCS_PLAYBACK_SPEED, MCS_PLAYING_ORDER, MCS_MEDIA_STATE, MCS_CONTROL_POINT}}},
    {"headset",
     "\x1B[33m",
     64,
     {[GENERIC] = {MCS_TRACK_CHANGED, MCS_PLAYBACK_SPEED, MCS_SEEKING_SPEED, MCS_PLAYING_ORDER, MCS_MEDIA_STATE,
                   MCS_CONTROL_POINT},
      [NAMED] = {MCS_TRACK_CHANGED, MCS_NEXT_TRACK_OBJECT, MCS_PLAYING_ORDER, MCS_MEDIA_STATE, MCS_CONTROL_POINT}}},
    {"screen",
     "\x1B[32m",
     40,
     {[NAMED] = {MCS_NAME, MCS_TRACK_CHANGED, MCS_TITLE, MCS_DURATION, MCS_POSITION, MCS_PLAYBACK_SPEED, MCS_TRACK_OBJECT,
                 MCS_NEXT_TRACK_OBJECT, MCS_PARENT_GROUP_OBJECT, MCS_GROUP_OBJECT, MCS_PLAYING_ORDER, MCS_MEDIA_STATE}}},
};

int wants(uint32_t who, uint32_t service, uint32_t characteristic)
{
    const uint32_t *slot = DEVICES[who].slots[service];
    while (*slot != 0 && *slot != characteristic) {
        slot++;
    }
    return *slot == characteristic;
}

int follows(uint32_t who, uint32_t service) { return DEVICES[who].slots[service][0] != 0; }
