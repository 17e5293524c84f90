/* What a trial is made of: calls, and what is done to state, catalogue, titles, card and cue sheet between them. */
#ifndef STEP_H
#define STEP_H

#include "calls.h"

/* Between calls; a step of a lower kind is that call. */
enum {
    SET_STATE = CALLS, /* the state's octets are `octets` */
    POKE_STATE,        /* its octets from `number` on are `octets` */
    POKE_TABLE,        /* entry `number` of table `who` is `what` */
    TABLE_LENGTH,      /* table `who` is lent with `number` entries */
    NEW_TITLES,        /* the office's titles are others: none where `number` is 0; any other decides which */
    SWAP_TABLES,       /* the catalogue and what was loaded last change places */
    MAKE_CARD,         /* the card is one of the catalogue, right where `number` is 0; any other decides which block is short */
    POKE_CARD,         /* octet `number` of the card is `what` */
    CARD_LENGTH,       /* the card is lent with `number` octets */
    SWAP_BLOCKS,       /* the blocks `who` and `what` change places, and are numbered anew */
    SPOIL_BLOCK,       /* block `who` becomes bad for the reasons of `number`; `what` decides in which way */
    WRITTEN_CARD,      /* the card is what was written last */
    MEND_BLOCK,        /* block `number` gets the sums that its octets have */
    NEW_SHEET,         /* the cue sheet, or the object that is read, is empty */
    ADD_TEXT,          /* `octets` come behind it, `number` times */
    ADD_STARTS,        /* `number` lines of starts, from frame `who` on and `what` frames apart, each ending in `octets` */
    CUT_SHEET,         /* it is lent with at most `number` octets */
    POKE_SHEET,        /* octet `number` of it is `what` */
    WRITTEN_OBJECT,    /* it is what was written last */
    READ_SCREENS,      /* what the clients know is held against what is read, where the last take said that nothing is owed */
    KEEP,              /* state, catalogue and titles are remembered */
    PUT_BACK,          /* and are again as they were */
    KINDS
};

/* What a start gives to the player of a service, but for the name. */
typedef struct {
    uint32_t mask, ccid;
    uint32_t length; /* of the name */
} step_player;

typedef struct {
    uint8_t kind;
    uint8_t against; /* which barred page the lent buffers touch */
    uint8_t twice;   /* the library is called a second time from the same, at the other page */
    uint8_t null;    /* a buffer of no octets is lent as a null pointer */
    uint8_t fill;    /* what lent outputs hold before the call; of a call made twice also the stack */
    uint32_t who;    /* client */
    uint32_t service;
    uint32_t what; /* characteristic; of connect whether encrypted; of a manual Goto the opcode */
    /* group, hundredths, ATT_MTU, offset; of an object write the group or the track; of a manual Goto its number, in two's complement */
    uint32_t number;
    uint32_t allowed; /* steps of a manual Goto */
    /* of the output of a read or a take; in entries of a card load's tables; in words of starts and of an object's entries; of a card
     * or an object */
    uint32_t room[4];
    uint32_t length;                   /* of octets, but of a start */
    uint8_t octets[MCS_STATE_OCTETS];  /* name, value or text; of a start both names */
    step_player players[MCS_SERVICES]; /* of a start */
} step;

static inline int is_call(const step *s) { return s->kind < CALLS; }

/* Where the name of a service's player lies in a start's octets, and the room that it has there. */
#define START_NAME_ROOM (MCS_STATE_OCTETS / MCS_SERVICES)
#define START_NAME_AT(service) (START_NAME_ROOM * (service))

/* The numbers that steps of each kind have, in words and by their places in a step, with what is plainest; a list that is not
 * full ends at a null pointer. */
typedef struct {
    const char *words;
    size_t place;
    uint32_t plainest;
} step_number;
#define MOST_NUMBERS 6u
extern const step_number STEP_NUMBERS[KINDS][MOST_NUMBERS];
extern const char *const STEP_NAME[KINDS];

uint32_t *number_at(step *s, size_t place);

#endif
