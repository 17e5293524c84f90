#include "step.h"

/* The formatter takes a list in braces for a block. */
/* clang-format off */
#define WHO(words) {words, offsetof(step, who), 0}
#define WHAT(words, plainest) {words, offsetof(step, what), plainest}
#define NUMBER(words, plainest) {words, offsetof(step, number), plainest}
#define SERVICE {"service", offsetof(step, service), 0}
#define ALLOWED {"allowed", offsetof(step, allowed), 0}
#define ROOM(words, k, plainest) {words, offsetof(step, room) + (k) * sizeof(uint32_t), plainest}
#define PLAYER(words, service, part, plainest)                                                                             \
    {words, offsetof(step, players) + (service) * sizeof(step_player) + offsetof(step_player, part), plainest}
/* clang-format on */

const step_number STEP_NUMBERS[KINDS][MOST_NUMBERS] = {
    [START] = {PLAYER("generic mask", MCS_GENERIC, mask, MCS_ALL_OPCODES), PLAYER("Content Control ID", MCS_GENERIC, ccid, 0),
               PLAYER("named mask", MCS_NAMED, mask, MCS_ALL_OPCODES), PLAYER("Content Control ID", MCS_NAMED, ccid, 0)},
    [SET_NAME] = {SERVICE},
    [ACTIVATE] = {SERVICE, NUMBER("group", 0)},
    [DEACTIVATE] = {SERVICE},
    [ADVANCE] = {SERVICE, NUMBER("hundredths", 0)},
    [CONNECT] = {WHO("client"), NUMBER("ATT_MTU", 23), WHAT("encrypted", 1)},
    [DISCONNECT] = {WHO("client")},
    [SUBSCRIBE] = {WHO("client"), SERVICE, WHAT("characteristic", 0)},
    [UNSUBSCRIBE] = {WHO("client"), SERVICE, WHAT("characteristic", 0)},
    [READ] = {WHO("client"), SERVICE, WHAT("characteristic", 0), NUMBER("offset", 0), ROOM("room", 0, MCS_OUTPUT_OCTETS)},
    [WRITE] = {WHO("client"), SERVICE, WHAT("characteristic", 0)},
    [TAKE] = {ROOM("room", 0, MCS_OUTPUT_OCTETS)},
    [TITLE] = {SERVICE},
    [MANUAL_GOTO] = {SERVICE, WHAT("opcode", MCS_OPCODE_GOTO_TRACK), NUMBER("number", 0), ALLOWED},
    [CARD_LOAD] = {ROOM("room of groups", 0, 0), ROOM("of tracks", 1, 0), ROOM("of segments", 2, 0), ROOM("of text", 3, 0)},
    [CUE_SHEET] = {ROOM("room", 0, 0)},
    [CARD_WRITE] = {ROOM("room", 0, 0)},
    [GROUP_OBJECT_WRITE] = {NUMBER("group", 0), ROOM("room", 0, 0)},
    [SEGMENTS_OBJECT_WRITE] = {NUMBER("track", 0), ROOM("room", 0, 0)},
    [GROUP_OBJECT_READ] = {ROOM("room", 0, 0)},
    [SEGMENTS_OBJECT_READ] = {ROOM("room", 0, 0)},
    [POKE_STATE] = {NUMBER("from", 0)},
    [POKE_TABLE] = {WHO("table"), NUMBER("entry", 0), WHAT("is", 0)},
    [TABLE_LENGTH] = {WHO("table"), NUMBER("has", 0)},
    [NEW_TITLES] = {NUMBER("drawn by", 0)},
    [MAKE_CARD] = {NUMBER("made short by", 0)},
    [POKE_CARD] = {NUMBER("at", 0), WHAT("is", 0)},
    [CARD_LENGTH] = {NUMBER("has", 0)},
    [SWAP_BLOCKS] = {WHO("block"), WHAT("and", 0)},
    [SPOIL_BLOCK] = {WHO("block"), NUMBER("reasons", 0), WHAT("spoiled by", 0)},
    [MEND_BLOCK] = {NUMBER("block", 0)},
    [ADD_TEXT] = {NUMBER("times", 0)},
    [ADD_STARTS] = {NUMBER("lines", 0), WHO("from frame"), WHAT("frames apart", 0)},
    [CUT_SHEET] = {NUMBER("octets at most", 0)},
    [POKE_SHEET] = {NUMBER("at", 0), WHAT("is", 0)},
};

const char *const STEP_NAME[KINDS] = {
    [SET_STATE] = "the state is",
    [POKE_STATE] = "octets of the state:",
    [POKE_TABLE] = "an entry of a table (groups 0, tracks 1, segments 2, text 3, renames 4, office 5):",
    [TABLE_LENGTH] = "entries of a table (groups 0, tracks 1, segments 2, text 3, renames 4, office 5):",
    [NEW_TITLES] = "the office lends other titles (0: none)",
    [SWAP_TABLES] = "the catalogue and what was loaded last change places",
    [MAKE_CARD] = "the card is the catalogue's, one block (0: none)",
    [POKE_CARD] = "an octet of the card:",
    [CARD_LENGTH] = "octets of the card:",
    [SWAP_BLOCKS] = "blocks of the card change places:",
    [SPOIL_BLOCK] = "a block of the card is bad (check 1, number 2, kind 4, count 8, not full 16, padding 32):",
    [WRITTEN_CARD] = "the card is what was written last",
    [MEND_BLOCK] = "sums of the card's octets:",
    [NEW_SHEET] = "the cue sheet or object is empty",
    [ADD_TEXT] = "the cue sheet or object goes on:",
    [ADD_STARTS] = "the cue sheet goes on with lines INDEX 01:",
    [CUT_SHEET] = "the cue sheet or object has",
    [POKE_SHEET] = "an octet of the object:",
    [WRITTEN_OBJECT] = "the object is what was written last",
    [READ_SCREENS] = "what the clients know is held against reads",
    [KEEP] = "state, catalogue and titles are remembered",
    [PUT_BACK] = "state, catalogue and titles are as remembered",
};

uint32_t *number_at(step *s, size_t place) { return (uint32_t *)(void *)((uint8_t *)s + place); }
