/* The desk player core: card reader and writer, cue sheet reader, catalogue check, writer and reader of objects, and two
 * players, the generic service's and the named one's, below one layer of four clients.
 *
 * Every call returns 0, or the refusal number of the table of SCOPE 20.2 (ATT codes as 0x01 to 0x80). A refusal alters
 * nothing (SCOPE 20.1). Of a bad block the number and the block are the whole refusal (SCOPE 3.12), and 200 and 207 carry
 * the place of a bad text (SCOPE 20.4).
 */
#ifndef REF_H
#define REF_H

#include <stddef.h>
#include <stdint.h>

#define REF_NAME_ROOM 128u
#define REF_CLIENTS 4u
/* Service 0 is the generic one, and service 1 that of one named player (SCOPE 17.1). */
#define REF_SERVICES 2u
#define REF_SLOTS 14u
/* A client's round runs through the slots of service 0 and then those of service 1 (SCOPE 19.3), the places 0 to 27: slot s of
 * service v is place 14 v + s. */
#define REF_PLACES (REF_SERVICES * REF_SLOTS)
#define REF_RESULTS 8u

/* The first octet of a state, which tells the layout of those behind it. No UTF-8 text begins with such an octet, so that octets
 * which begin with a name are not taken for a state. */
#define REF_STATE_LAYOUT 4u
#define REF_STATE_MARK (0x80u + REF_STATE_LAYOUT)

/* State: 0 Inactive, 1 Playing, 2 Paused, 3 Seeking (SCOPE 8.1). */
enum { REF_INACTIVE = 0, REF_PLAYING = 1, REF_PAUSED = 2, REF_SEEKING = 3 };

typedef struct {
    uint8_t opcode;
    uint8_t code;
} ref_result;

/* What is the client's, whichever service it calls. */
typedef struct {
    uint8_t connected; /* 0 or 1; any other is refused with 201 */
    uint8_t encrypted; /* likewise */
    uint32_t mtu;      /* 23 while unconnected */
    uint32_t mark;     /* the place served last; the highest after start and connect, so that the round begins at the lowest */
} ref_link;

typedef struct {
    uint8_t name[REF_NAME_ROOM];
    uint32_t name_len;
    uint32_t mask;
    uint8_t ccid;
    uint8_t media;
    uint8_t order;
    int8_t speed;
    int8_t seeking;
    uint32_t group; /* 0 while Inactive, as are the three that follow */
    uint32_t track;
    uint32_t position;
    uint32_t next; /* 12 names a track (SCOPE 14.4): its number plus 1, or 0 where none is named */
    uint32_t
        rest; /* How far playback is past the position, in 65,536ths of a hundredth of a second: 0 to 65,535 (SCOPE 13.3) */
} ref_player;

/* What is a client's in one service. */
typedef struct {
    uint32_t subscribed; /* bit s: slot s of 1, 4, 5, 6, 7, 8, 9, 11, 12, 13, 14, 15, 17, 18 */
    uint32_t owed;       /* likewise */
    uint32_t fresh;      /* bit c: characteristic c was read at 0 since connecting, and no call changed it since */
    uint32_t waiting;    /* results that wait, oldest first */
    ref_result results[REF_RESULTS];
} ref_account;

/* Each service has its own player, name, subscriptions and results (SCOPE 17.2). */
typedef struct {
    ref_player player;
    ref_account accounts[REF_CLIENTS];
} ref_service;

typedef struct {
    uint8_t layout; /* REF_STATE_MARK; any other is refused with 201 */
    uint32_t turn;  /* the client served last; 3 after start, so that the round begins at 0 */
    ref_link links[REF_CLIENTS];
    ref_service services[REF_SERVICES];
} ref_state;

/* The lent catalogue: three tables of words and the text, lengths in words and in octets. */
#define REF_CATALOGUE                                                                                                          \
    const uint32_t *groups, size_t groups_len, const uint32_t *tracks, size_t tracks_len, const uint32_t *segments,            \
        size_t segments_len, const uint8_t *text, size_t text_len

/* Beside the card's text a second one is lent, with an offset and a length for each track, where length 0 says that it is not
 * renamed (SCOPE 5.1, 5.2): two words for each track, and the office's text, lengths in words and in octets. They are lent to
 * every call on a state, behind the catalogue. An office that renames nothing lends two zeros for each track and an empty text. */
#define REF_TITLES const uint32_t *renames, size_t renames_len, const uint8_t *office, size_t office_len

/* Which of the two texts a title is a part of. */
#define REF_CARD_TEXT 0u
#define REF_OFFICE_TEXT 1u

/* If the allowed steps run out, it says so (SCOPE 15.5): what stands for that in the place of a result, which is 1 to 4. */
#define REF_RAN_OUT 0u

/* Where a text is wrong, last in every call that is lent the catalogue. 200 for a bad title carries the lowest such track and the
 * offset (SCOPE 4.14): a 200 for a title that is not UTF-8 writes both. 207 writes the offset alone. Any other refusal, a 200 for
 * another rule among them, and every success leave both as they were. */
#define REF_PLACE uint32_t *bad_track, uint32_t *bad_offset

/* counts: groups, tracks, segments, text octets; they are written where the card is accepted. block is written by 211 and 214
 * to 218 alone: the lowest bad block, by its place on the card from 0. */
uint32_t ref_card_load(const uint8_t *card, size_t card_len, uint32_t *groups, size_t groups_len, uint32_t *tracks,
                       size_t tracks_len, uint32_t *segments, size_t segments_len, uint8_t *text, size_t text_len,
                       uint32_t counts[4], uint32_t *block);

/* The catalogue's card fills the front of the lent octets; blocks is how many it has. */
uint32_t ref_card_write(REF_CATALOGUE, uint8_t *card, size_t card_len, uint32_t *blocks, REF_PLACE);

/* The starts fill the front of the table; line is written by 226 and 227 alone, count where the sheet is accepted. */
uint32_t ref_cue_sheet(const uint8_t *sheet, size_t sheet_len, uint32_t *starts, size_t starts_len, uint32_t *count,
                       uint32_t *line);

/* The Group and Track Segments objects are written as sections 4.4 and 4.2 of the standard lay them out, and read back (SCOPE
 * 7.2, 7.4, 7.6). The octets of the object of a group, and of the segments of a track, over the front of the lent ones; length is
 * how many. */
uint32_t ref_group_object_write(REF_CATALOGUE, uint32_t group, uint8_t *out, size_t out_len, uint32_t *length, REF_PLACE);
uint32_t ref_segments_object_write(REF_CATALOGUE, uint32_t track, uint8_t *out, size_t out_len, uint32_t *length, REF_PLACE);
/* Three words for each entry over the front of the lent ones: its type, 1 of a group and 0 of a track, the low 32 bits of its object
 * number, and the high 16; count is the number of entries. */
uint32_t ref_group_object_read(const uint8_t *octets, size_t octets_len, uint32_t *words, size_t words_len, size_t *count);
/* One word for each entry, its position; its name is passed over. */
uint32_t ref_segments_object_read(const uint8_t *octets, size_t octets_len, uint32_t *positions, size_t positions_len,
                                  size_t *count);

/* Start names both players at once, and service 0's name is checked first (SCOPE 17.6). */
uint32_t ref_start(REF_CATALOGUE, REF_TITLES, const uint8_t *name0, size_t name0_len, uint32_t mask0, uint8_t ccid0,
                   const uint8_t *name1, size_t name1_len, uint32_t mask1, uint8_t ccid1, ref_state *state, REF_PLACE);
uint32_t ref_set_name(REF_CATALOGUE, REF_TITLES, ref_state *state, uint32_t service, const uint8_t *name, size_t name_len,
                      REF_PLACE);
uint32_t ref_activate(REF_CATALOGUE, REF_TITLES, ref_state *state, uint32_t service, uint32_t group, REF_PLACE);
uint32_t ref_deactivate(REF_CATALOGUE, REF_TITLES, ref_state *state, uint32_t service, REF_PLACE);
/* The host tells wall time (SCOPE 13.1): d is in hundredths of a second, whatever the playback speed. */
uint32_t ref_advance(REF_CATALOGUE, REF_TITLES, ref_state *state, uint32_t service, uint32_t d, REF_PLACE);
uint32_t ref_connect(REF_CATALOGUE, REF_TITLES, ref_state *state, uint32_t client, uint32_t mtu, uint8_t encrypted, REF_PLACE);
uint32_t ref_disconnect(REF_CATALOGUE, REF_TITLES, ref_state *state, uint32_t client, REF_PLACE);
uint32_t ref_subscribe(REF_CATALOGUE, REF_TITLES, ref_state *state, uint32_t client, uint32_t service, uint32_t characteristic,
                       REF_PLACE);
uint32_t ref_unsubscribe(REF_CATALOGUE, REF_TITLES, ref_state *state, uint32_t client, uint32_t service,
                         uint32_t characteristic, REF_PLACE);
uint32_t ref_read(REF_CATALOGUE, REF_TITLES, ref_state *state, uint32_t client, uint32_t service, uint32_t characteristic,
                  uint32_t offset, uint8_t *out, size_t out_len, uint32_t *length, REF_PLACE);
uint32_t ref_write(REF_CATALOGUE, REF_TITLES, ref_state *state, uint32_t client, uint32_t service, uint32_t characteristic,
                   const uint8_t *value, size_t value_len, REF_PLACE);
/* served: client, service, characteristic, length; four zeros where nothing is owed. */
uint32_t ref_take(REF_CATALOGUE, REF_TITLES, ref_state *state, uint8_t *out, size_t out_len, uint32_t served[4], REF_PLACE);
/* The title is a part of the office's text or of the card's text, and this call says which (SCOPE 5.6, 5.8). part: which text,
 * the offset in it, and the length, of the title of the service's current track; three zeros while Inactive. A refusal leaves it
 * as it was. */
uint32_t ref_title(REF_CATALOGUE, REF_TITLES, const ref_state *state, uint32_t service, uint32_t part[3], REF_PLACE);
/* A second player of the three Gotos, which really makes First or Last and then each step, up to a given number of steps (SCOPE
 * 15.1). The opcode is any number. made: the result that the control point would give, or REF_RAN_OUT, and the steps made, First
 * or Last counted. place: the group, track, position and rest where the player would then be. A refusal leaves both as they were. */
uint32_t ref_manual_goto(REF_CATALOGUE, REF_TITLES, const ref_state *state, uint32_t service, uint32_t opcode, int32_t number,
                         uint32_t allowed, uint32_t made[2], uint32_t place[4], REF_PLACE);

#endif
