/* The twenty-one calls, with everything that is lent to them: what any program that has the same calls is asked to do. */
#ifndef CALLS_H
#define CALLS_H

#include "mcs_desk.h"

enum {
    START,
    SET_NAME,
    ACTIVATE,
    DEACTIVATE,
    ADVANCE,
    CONNECT,
    DISCONNECT,
    SUBSCRIBE,
    UNSUBSCRIBE,
    READ,
    WRITE,
    TAKE,
    TITLE,
    MANUAL_GOTO,
    CARD_LOAD,
    CUE_SHEET,
    CARD_WRITE,
    GROUP_OBJECT_WRITE,
    SEGMENTS_OBJECT_WRITE,
    GROUP_OBJECT_READ,
    SEGMENTS_OBJECT_READ,
    CALLS
};

extern const char *const CALL_NAME[CALLS];

/* The words that say what a take served. */
enum { SERVED_CLIENT, SERVED_SERVICE, SERVED_CHARACTERISTIC, SERVED_LENGTH, SERVED_WORDS };

/* The words that say where a title stands. */
enum { PART_TEXT, PART_OFFSET, PART_LENGTH };

/* The words that say what a manual Goto made, and where it leads. */
enum { MADE_OUTCOME, MADE_STEPS };
enum { PLACE_GROUP, PLACE_TRACK, PLACE_POSITION, PLACE_REST };

typedef struct {
    uint32_t kind;
    uint32_t who; /* client */
    uint32_t service;
    uint32_t what; /* characteristic; of connect whether encrypted; of a manual Goto the opcode */
    uint32_t
        number; /* group, hundredths, ATT_MTU, offset; of an object write the group or the track; of a manual Goto its number,
                       * in two's complement */
    uint32_t allowed; /* steps of a manual Goto */
    struct mcs_catalogue catalogue;
    struct mcs_titles titles;                /* the office's; lent to whoever is lent a state */
    struct mcs_player players[MCS_SERVICES]; /* of a start */
    const uint8_t *octets;                   /* new name or value, card, cue sheet, object */
    size_t length;
    void *state; /* MCS_STATE_OCTETS octets, or the second program's struct */
    uint8_t *out;
    size_t out_len;
    struct mcs_room room; /* of a card load */
    uint32_t *entries;    /* the starts of a cue sheet, the words of an object that is read */
    size_t entries_len;
    uint8_t *written; /* card or object */
    size_t written_len;
    uint32_t *word; /* the length of a read or an object write, the count of a cue sheet, the blocks of a card write */
    size_t *count;  /* of an object that is read */
    uint32_t *served, *part, *made, *place, *counts, *block, *line;
    uint32_t *track, *octet; /* where a text is wrong; of every call that is lent the catalogue */
} call;

/* A card load, a cue sheet and an object read are lent neither a state nor a catalogue, a card write and an object write no
 * state. */
static inline int has_state(uint32_t kind) { return kind < CARD_LOAD; }
static inline int writes_object(uint32_t kind) { return kind == GROUP_OBJECT_WRITE || kind == SEGMENTS_OBJECT_WRITE; }
static inline int reads_object(uint32_t kind) { return kind == GROUP_OBJECT_READ || kind == SEGMENTS_OBJECT_READ; }
static inline int has_catalogue(uint32_t kind) { return has_state(kind) || kind == CARD_WRITE || writes_object(kind); }

/* A title call and a manual Goto only look at the state. */
static inline int may_alter_state(uint32_t kind) { return has_state(kind) && kind != TITLE && kind != MANUAL_GOTO; }

/* Which calls name a client, and which a service: those that are calls to one. A take and a start are calls to neither service,
 * and a link is to both. */
static inline int has_client(uint32_t kind) { return kind >= CONNECT && kind <= WRITE; }
static inline int has_service(uint32_t kind)
{
    return (kind >= SET_NAME && kind <= ADVANCE) || (kind >= SUBSCRIBE && kind <= WRITE) || kind == TITLE ||
           kind == MANUAL_GOTO;
}

/* Each makes the call and returns its number. */
uint32_t call_library(const call *c);
uint32_t call_second(const call *c);

#endif
