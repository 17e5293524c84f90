#include "calls.h"
#include "ref.h"
#include "words.h"

const char *const CALL_NAME[CALLS] = {
    [START] = "start",
    [SET_NAME] = "set name",
    [ACTIVATE] = "activate",
    [DEACTIVATE] = "deactivate",
    [ADVANCE] = "advance",
    [CONNECT] = "connect",
    [DISCONNECT] = "disconnect",
    [SUBSCRIBE] = "subscribe",
    [UNSUBSCRIBE] = "unsubscribe",
    [READ] = "read",
    [WRITE] = "write",
    [TAKE] = "take",
    [TITLE] = "title",
    [MANUAL_GOTO] = "manual Goto",
    [CARD_LOAD] = "card load",
    [CUE_SHEET] = "cue sheet",
    [CARD_WRITE] = "card write",
    [GROUP_OBJECT_WRITE] = "group object write",
    [SEGMENTS_OBJECT_WRITE] = "segments object write",
    [GROUP_OBJECT_READ] = "group object read",
    [SEGMENTS_OBJECT_READ] = "segments object read",
};

#define MAKE call_library
#define PROGRAM(name) mcs_##name
#include "calls.inc"

#define MAKE call_second
#define PROGRAM(name) ref_##name
#include "calls.inc"
