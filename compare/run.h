/* Both programs side by side: each step is done to both, and all that a call leaves is compared. */
#ifndef RUN_H
#define RUN_H

#include "card.h"
#include "service.h"
#include "sheet.h"
#include "state.h"
#include "step.h"

#define OUT_ROOM 256u
#define UNDO_ROOM 128u

typedef struct {
    uint32_t number;
    uint32_t length;                    /* of a read or an object write; the count of a cue sheet; the blocks of a card write */
    size_t count;                       /* of an object that is read */
    uint32_t served[SERVED_WORDS];      /* of a take */
    uint32_t part[MCS_PART_WORDS];      /* of a title call */
    uint32_t made[MCS_GOTO_MADE_WORDS]; /* of a manual Goto */
    uint32_t place[MCS_GOTO_PLACE_WORDS]; /* of a manual Goto */
    uint32_t counts[4];                   /* of a card load */
    uint32_t block;                       /* of a card load */
    uint32_t line;                        /* of a cue sheet */
    uint32_t track, octet;                /* of a call that is lent the catalogue: where a text is wrong */
    uint8_t out[OUT_ROOM];                /* of a read or a take; behind what was lent it stays as it was filled */
} answer;

/* How many takes were answered since a place of a client was owed, or served last and owed still. */
typedef struct {
    uint32_t takes[REF_CLIENTS][PLACES];
    uint32_t of_served; /* the takes before the last one, of what that one served */
} waits;

/* What a client knows of a value: nothing, what it was last handed out, or what it has itself written since. */
enum { NOT_KNOWN, BY_TAKE, BY_WRITE };

/* A slot of a client, since the call by which it subscribed (SCOPE 21.12). */
typedef struct {
    uint8_t subscribed;
    uint8_t again;   /* it had been subscribed before, in the same connection */
    uint8_t changed; /* some call left another value than it found */
    uint8_t by;      /* how the client knows the octets */
    uint32_t length;
    uint8_t octets[MCS_OUTPUT_OCTETS];
} knowledge;

/* What the clients of one program know, from the calls and its answers alone, and the takes that it has answered without another
 * call between them. */
typedef struct {
    int following;                     /* since a start, with one catalogue */
    uint32_t mtu[MCS_CLIENTS];         /* ATT_MTU; 0 while the client is not connected */
    uint32_t connections[MCS_CLIENTS]; /* how often it has connected */
    knowledge of[MCS_CLIENTS][PLACES];
    int taking;         /* the last call was an accepted take */
    int quiet;          /* and it said that nothing is owed */
    uint32_t takes;     /* how many serving takes came last */
    uint32_t owed_then; /* what was owed before the first of them */
    int known_already;  /* how the client knew what the last take handed out, where it did; else NOT_KNOWN */
} screens;

enum { OF_LIBRARY, OF_SECOND, PROGRAMS };

/* What a step altered in the tables since they were remembered. */
typedef struct {
    uint8_t kind;
    uint32_t who, number, what;
} undo;

typedef struct {
    tables lent;
    card lent_card;
    sheet lent_sheet;                 /* a cue sheet, or an object that is read */
    uint8_t octets[MCS_STATE_OCTETS]; /* the library's state */
    ref_state second;                 /* the second program's */
    uint8_t kept_octets[MCS_STATE_OCTETS];
    ref_state kept_second;
    undo undone[UNDO_ROOM];
    uint32_t undos;
    int stale[2][LENT_TABLES];     /* the guarded copy of a table is not what is lent */
    tables loaded;                 /* by the second program's last card load; its lengths are 0 where it was refused */
    int swapped;                   /* it is lent, and the catalogue is put aside in its place */
    uint32_t entries[STARTS_ROOM]; /* by its last cue sheet or object read */
    card written;                  /* by its last card or object write; its length is 0 where that was refused */
    int library_faulted, second_faulted;
    uint8_t octets_before[MCS_STATE_OCTETS]; /* the library's state before the last call */
    ref_state before;                        /* the second program's */
    waits waited;                            /* for what is owed now, and in the last take for what it served */
    screens shown[PROGRAMS];                 /* what either program's clients know */
    /* the clients that have read a title at 0 in whose place the office has since lent another, without a change, as bits */
    uint32_t exchanged[MCS_SERVICES];
    int unchanged;      /* the last call was accepted, was no start, and left the meaning of the state as it was */
    uint32_t seen_dead; /* the rules for octets that mean nothing that the last call has shown, as bits (octets.h) */
    answer library_said, second_said;
    char difference[256]; /* empty while there is none */
} run;

/* Both begin with this catalogue and these titles, a state of 0 octets, no card and no cue sheet. There is one run at a time. */
void begin_run(run *r, const tables *t);

/* From now on this catalogue and these titles are lent; the states stay. */
void lend_tables(run *r, const tables *t);

/* Whether both did the same; where not, r->difference says what differs. */
int do_step(run *r, const step *s);

/* Whether the last card load of the second program gave the tables that are lent. */
int loaded_what_is_lent(const run *r);

#endif
