#include "devices.h"

#include "canvas.h"
#include "terminal.h"

/* A pedal's way back, in hundredths of a second; and how much a key alters the playback speed, an eighth of the way to twice or half
 * the speed. */
#define BACK (-500)
#define SPEED_STEP 8

#define PEDAL_KEYS                                                                                                             \
    {                                                                                                                          \
        {' ', "space", "play/pause", PLAY_OR_PAUSE, 0, 0}, {'<', "<", "rewind", PRESS, MCS_OPCODE_FAST_REWIND, 0},             \
            {'>', ">", "fast forward", PRESS, MCS_OPCODE_FAST_FORWARD, 0},                                                     \
            {',', ",", "previous segment", PRESS, MCS_OPCODE_PREVIOUS_SEGMENT, 0},                                             \
            {'.', ".", "next segment", PRESS, MCS_OPCODE_NEXT_SEGMENT, 0},                                                     \
            {'b', "b", "back 5 s", PRESS, MCS_OPCODE_MOVE_RELATIVE, BACK},                                                     \
    }

const device DEVICES[MCS_CLIENTS] = {
    [PEDAL_A] = {"Pedal A", LOOK_CYAN, 23, {MCS_POSITION, MCS_MEDIA_STATE, MCS_CONTROL_POINT}, PEDAL_KEYS},
    [PEDAL_B] =
        {"Pedal B", LOOK_MAGENTA, 27, {MCS_POSITION, MCS_PLAYBACK_SPEED, MCS_MEDIA_STATE, MCS_CONTROL_POINT}, PEDAL_KEYS},
    [HEADSET] = {"Headset",
                 LOOK_YELLOW,
                 64,
                 {MCS_TRACK_CHANGED, MCS_TITLE, MCS_DURATION, MCS_POSITION, MCS_PLAYBACK_SPEED, MCS_MEDIA_STATE,
                  MCS_CONTROL_POINT},
                 {{' ', "space", "play", PRESS, MCS_OPCODE_PLAY, 0},
                  {'p', "p", "pause", PRESS, MCS_OPCODE_PAUSE, 0},
                  {'z', "z", "stop", PRESS, MCS_OPCODE_STOP, 0},
                  {',', ",", "previous track", PRESS, MCS_OPCODE_PREVIOUS_TRACK, 0},
                  {'.', ".", "next track", PRESS, MCS_OPCODE_NEXT_TRACK, 0},
                  {'+', "+", "faster", CHANGE_SPEED, 0, SPEED_STEP},
                  {'-', "-", "slower", CHANGE_SPEED, 0, -SPEED_STEP}}},
    [SCREEN] = {"Screen",
                LOOK_GREEN,
                185,
                {MCS_NAME, MCS_TRACK_CHANGED, MCS_TITLE, MCS_DURATION, MCS_POSITION, MCS_PLAYBACK_SPEED, MCS_SEEKING_SPEED,
                 MCS_TRACK_OBJECT, MCS_NEXT_TRACK_OBJECT, MCS_PARENT_GROUP_OBJECT, MCS_GROUP_OBJECT, MCS_PLAYING_ORDER,
                 MCS_MEDIA_STATE, MCS_CONTROL_POINT},
                {{KEY_UP, "\xE2\x86\x91\xE2\x86\x93", "choose", CHOOSE, 0, -1},
                 {KEY_DOWN, "", "", CHOOSE, 0, 1},
                 {KEY_ENTER, "enter", "open", OPEN_ENTRY, 0, 0},
                 {KEY_RIGHT, "", "", OPEN_ENTRY, 0, 0},
                 {KEY_LEFT, "\xE2\x86\x90", "above", CLOSE_FOLDER, 0, 0},
                 {KEY_BACKSPACE, "", "", CLOSE_FOLDER, 0, 0},
                 {'f', "f", "find", FIND_GROUP, 0, 0},
                 {'g', "g", "go to group", GO_TO_GROUP, 0, 0},
                 {'n', "n", "name next", NAME_NEXT, 0, 0},
                 {'S', "S", "segment", ASK_PRESS, MCS_OPCODE_GOTO_SEGMENT, 0},
                 {'T', "T", "track", ASK_PRESS, MCS_OPCODE_GOTO_TRACK, 0},
                 {'G', "G", "group", ASK_PRESS, MCS_OPCODE_GOTO_GROUP, 0},
                 {'p', "p", "position", ASK_POSITION, 0, 0},
                 {'o', "o", "order", ASK_ORDER, 0, 0},
                 {'=', "=", "speed", ASK_SPEED, 0, 0},
                 {' ', "space", "play/pause", PLAY_OR_PAUSE, 0, 0}}},
};

const device_key *key_at(uint32_t who, size_t place)
{
    return place < MOST_DEVICE_KEYS && DEVICES[who].keys[place].shown != NULL ? &DEVICES[who].keys[place] : NULL;
}

const device_key *key_of(uint32_t who, int key)
{
    const device_key *at;
    size_t place;
    for (place = 0; (at = key_at(who, place)) != NULL; place++) {
        if (at->key == key) {
            return at;
        }
    }
    return NULL;
}
