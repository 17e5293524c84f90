/* The Media Control Service core of a desk player: twenty-one calls, proved (crates/mcs), for C and C++ on x86-64,
 * aarch64, Cortex-M4 and Cortex-M0+.
 *
 * Every call takes all octets, numbers, tables and states there are, checks them itself, and ends. It returns 0, or the number of
 * the first refusal that applies, in the order of the list below. A refusal alters nothing: state, tables, card, output, length,
 * served, part, made, place, counts, blocks, starts, words, positions and count hold what they held. The six of the list from
 * MCS_BAD_CHECK to MCS_BAD_PADDING carry a block of the card, MCS_BAD_LINE and MCS_NOT_RISING a line of the cue sheet,
 * MCS_BAD_CATALOGUE for a title that is not UTF-8 a track and an octet, MCS_BAD_NAME an octet: each writes what it carries to the
 * words that are lent for it. Every other refusal, and every call that is accepted, leaves block, line, track and octet as they
 * were.
 *
 * What is the caller's to see to, as for any function of C:
 * - a pointer with a length points to that many octets or words (a length of 0: it is not followed, and may be null);
 *   words are aligned as uint32_t is; state points to MCS_STATE_OCTETS octets, length, block, blocks, line, track, octet and the
 *   count of a cue sheet to 1 word each, made to 2, part to 3, served, place and counts to 4, and the count of an object that is read
 *   to a size_t;
 * - what a call writes (state, output, length, served, part, made, place, track, octet, the tables, counts and block of a card load,
 *   the card and blocks of a card write, starts, count and line of a cue sheet, and words, positions and count of an object that is
 *   read) overlaps nothing else lent to it;
 * - no other thread touches what is lent while the call runs. The library keeps nothing of its own and calls no function
 *   but its own and memcpy, memset, memmove; on a Cortex-M also the Arm runtime's for products and quotients of long numbers.
 */
#ifndef MCS_H
#define MCS_H

#include <stddef.h>
#include <stdint.h>

#ifdef __cplusplus
extern "C" {
#endif

/* MCS_VERSION moves when a function of this file is added or changes its arguments, what they mean or the numbers that it returns: it
 * is 10 since mcs_manual_goto is added. Every other function is as it was in version 9.
 * MCS_STATE_LAYOUT moves when the octets of a state change their number, place or meaning. A state's first octet says it
 * (MCS_STATE_MARK), so a stored state of another layout is refused, and not misread. */
#define MCS_VERSION 10u
#define MCS_STATE_LAYOUT 4u

/* ---- Numbers that a call returns ------------------------------------------------------------------------------------------ */

/* Accepted. */
#define MCS_OK 0u
/* A rule of the catalogue fails, or a table ends inside a record. Where all that is wrong is titles that are not UTF-8, *track is the
 * lowest track with such a title, and *octet the offset, within the title, of the first octet that does not start a whole valid
 * character. Where anything else is wrong, a title over 128 octets or outside the text included, the two words stay as they were. */
#define MCS_BAD_CATALOGUE 200u
/* The office's titles are not one entry for each track; or an entry's length is over 128; or an entry's length is above 0, and its
 * part is not inside the office's text or not UTF-8. It carries nothing: the words for track and octet are about the card's titles
 * and the names alone. */
#define MCS_BAD_RENAMES 224u
/* The lent output of a read or a take is under MCS_OUTPUT_OCTETS octets. */
#define MCS_SMALL_OUTPUT 205u
/* The state breaks a rule for this catalogue, in either service or for any client, a rest over 65,535 among them; or it does not begin
 * with MCS_STATE_MARK, or one of its octets that say yes or no is neither 1 nor 0. */
#define MCS_BAD_STATE 201u
/* The client's number is over 3. */
#define MCS_NO_CLIENT 202u
/* The service's number is over 1. */
#define MCS_NO_SERVICE 219u
/* The client is not connected. */
#define MCS_NOT_CONNECTED 203u
/* Connect, and the client is connected. */
#define MCS_ALREADY_CONNECTED 204u
/* ATT_MTU is not 23 to 517. */
#define MCS_BAD_MTU 206u
/* The characteristic is none of the eighteen (ATT: Invalid Handle). */
#define MCS_NO_CHARACTERISTIC 0x01u
/* Subscribe or unsubscribe to what is no slot. */
#define MCS_NO_SLOT 209u
/* The characteristic may not be read; written (ATT: Read Not Permitted, Write Not Permitted). */
#define MCS_NOT_READABLE 0x02u
#define MCS_NOT_WRITABLE 0x03u
/* Read, write, subscribe or unsubscribe by a client that is connected unencrypted (ATT: Insufficient Encryption). */
#define MCS_NOT_ENCRYPTED 0x0Fu
/* Read at an offset above 0, and the service's value changed since the client's last read of it at 0, or there was no such read
 * since it connected (Media Control Service: Value Changed During Read Long). */
#define MCS_VALUE_CHANGED 0x80u
/* The offset is above the value's length (ATT: Invalid Offset). */
#define MCS_BEYOND_END 0x07u
/* The written value's length is wrong (ATT: Invalid Attribute Value Length). */
#define MCS_BAD_LENGTH 0x0Du
/* The written playing order is not 1 to 8; the written object number is none that may be gone to or named, which no number is while
 * Inactive (ATT: Value Not Allowed). Of a call that writes an object: there is no such group or track, or the track has no
 * segments. */
#define MCS_NOT_ALLOWED 0x13u
/* Eight results of the client wait in this service (ATT: Insufficient Resources). */
#define MCS_TOO_MANY_RESULTS 0x11u
/* The name has over 128 octets, and *octet is 128; or it is not UTF-8, and *octet is the offset, within the name, of the first octet
 * that does not start a whole valid character. Start, which takes two names, tells of the first bad one, and not which it is. */
#define MCS_BAD_NAME 207u
/* The group is absent or has no tracks. */
#define MCS_BAD_GROUP 208u
/* Card load: the card's length is no multiple of 512, or over 65,536. */
#define MCS_BAD_CARD_LENGTH 210u
/* Card load: what is wrong with the lowest bad block, the first of these six that applies to it. Its check octets do not fit its
 * contents. */
#define MCS_BAD_CHECK 211u
/* Its block number is not its place on the card, counted from 0. */
#define MCS_BAD_BLOCK_NUMBER 215u
/* Its kind is not 1 to 4 (groups, tracks, segments, text), or below that of the block before. */
#define MCS_BAD_KIND 216u
/* Its record count is 0, or more than a block of its kind holds. */
#define MCS_BAD_COUNT 217u
/* It is not full, and not the last of its kind: the block behind it has the same kind octet, whatever else is wrong with that
 * one. */
#define MCS_NOT_FULL 214u
/* An octet between its records and its check octets is not 0. */
#define MCS_BAD_PADDING 218u
/* Card load: no block is bad, and a limit, or a lent table's room, is exceeded. */
#define MCS_NO_ROOM 212u
/* Card write: the catalogue's card has more blocks than the lent octets hold. */
#define MCS_NO_CARD_ROOM 213u
/* Object read: the octets are not whole entries, or one of them is none that the standard lays out. */
#define MCS_BAD_ENTRIES 222u
/* Object write: the object has more octets than there is room for. Object read: its entries have more words. */
#define MCS_NO_OBJECT_ROOM 223u
/* Cue sheet: it has over 65,536 octets. */
#define MCS_LONG_SHEET 225u
/* Cue sheet: a line is not understood, and the lines before it are neither 226 nor 227. */
#define MCS_BAD_LINE 226u
/* Cue sheet: the first start is not 0, or a start is not above the one before, and the lines before it are neither 226 nor 227. */
#define MCS_NOT_RISING 227u
/* Cue sheet: it has more starts than there is room for. */
#define MCS_MANY_STARTS 228u

/* ---- Sizes ---------------------------------------------------------------------------------------------------------------- */

#define MCS_CLIENTS 4u          /* clients 0 to 3 */
#define MCS_SERVICES 2u         /* services 0 and 1, with names below */
#define MCS_OUTPUT_OCTETS 128u  /* the least output that a read or a take may be lent */
#define MCS_MOST_OWED 168u      /* the most that can be owed: to each client, of both services, 13 values and 8 results */
#define MCS_BLOCK_OCTETS 512u   /* a block of a card */
#define MCS_CARD_OCTETS 65536u  /* the longest card */
#define MCS_CARD_BLOCKS 89u     /* the most blocks that card write fills, with all four tables full: 45,568 octets */
#define MCS_SHEET_OCTETS 65536u /* the longest cue sheet */

/* The services, over one catalogue and to the same clients. Each has its own player and for each client its own subscriptions,
 * owed values, results and marks of what was read. A call to one alters nothing of the other; only the order of takes is
 * shared. */
#define MCS_GENERIC 0u /* the Generic Media Control Service */
#define MCS_NAMED 1u   /* the Media Control Service of one named player */

/* Words of a group, a track and a segment record, and the most of each, in records; of text, in octets. */
#define MCS_GROUP_WORDS 3u   /* parent, first track, number of tracks */
#define MCS_TRACK_WORDS 6u   /* duration, age stamp, first segment, number of segments, title's offset and length in the text */
#define MCS_SEGMENT_WORDS 1u /* start */
#define MCS_MOST_GROUPS 64u
#define MCS_MOST_TRACKS 256u
#define MCS_MOST_SEGMENTS 1024u
#define MCS_MOST_TEXT 32768u

/* Words of an entry of the office's titles, of which there is one for each track: offset and length of the track's own title in the
 * office's text. Length 0 says that the track is not renamed, and the offset may then be any. */
#define MCS_RENAME_WORDS 2u

/* Words of a part of one of the two texts: which text, offset in it, length. */
#define MCS_PART_WORDS 3u
#define MCS_CARD_TEXT 0u   /* the text of the catalogue */
#define MCS_OFFICE_TEXT 1u /* the text of the office's titles */

/* Words of what a manual Goto tells: what was made of it, and where the player would be. */
#define MCS_GOTO_MADE_WORDS 2u  /* outcome, number of steps */
#define MCS_GOTO_PLACE_WORDS 4u /* group, track, position in hundredths of a second, rest as at MCS_IN_REST */

/* A duration is in hundredths of a second, at most MCS_MOST_DURATION; or MCS_RUNNING, which says that it is not yet known, since
 * the recording is still running. Its positions are then 0 to MCS_MOST_DURATION, the clock never ends the track and stays at the last
 * of them, a negative write of the position is accepted and moves nothing, and a Next Segment with no later start, or a Goto Segment
 * that needs one, has the result MCS_RESULT_NOT_COMPLETED. */
#define MCS_MOST_DURATION 8640000u
#define MCS_RUNNING 0xFFFFFFFFu

/* ---- Objects ----------------------------------------------------------------------------------------------------------------
 * Every track and group is an object, and so are the segments of a track that has some. Their numbers have 48 bits: a value of
 * MCS_OBJECT_OCTETS octets, or of none where there is no such object.
 */
#define MCS_OBJECT_OCTETS 6u
#define MCS_OBJECT_OF_TRACK(track) (0x1000u + (track))
#define MCS_OBJECT_OF_GROUP(group) (0x2000u + (group))
#define MCS_OBJECT_OF_SEGMENTS(track) (0x3000u + (track)) /* of the segments of that track */

/* An entry of a Group object (section 4.4 of the Media Control Service 1.0.1): what it is, an octet, and the number of that object;
 * read back, three words: what it is, the low 32 bits of the number, and its high 16 bits. */
#define MCS_GROUP_ENTRY_OCTETS 7u
#define MCS_GROUP_ENTRY_WORDS 3u
#define MCS_ENTRY_TRACK 0u /* what it is */
#define MCS_ENTRY_GROUP 1u

/* An entry of a Track Segments object (section 4.2): the length of the segment's name, an octet, the name, and the segment's
 * position, four octets; so many octets in all where the name is empty. Read back, one word: the position. */
#define MCS_SEGMENT_ENTRY_OCTETS 5u

/* The most octets of an object of either kind: 63 child groups and 256 tracks; 1,024 segments. */
#define MCS_MOST_GROUP_OBJECT 2233u
#define MCS_MOST_SEGMENTS_OBJECT 5120u

/* ---- Characteristics: the last part of their section's number in the Media Control Service 1.0.1 --------------------------------
 * 8: speed p is 2 to the power p / 64: -64 plays at half the speed of the recording, 0 as it was recorded, 64 at twice that.
 * mcs_advance reckons with it.
 * 10 to 14: object numbers of 6 octets, or none while Inactive; 10 also of a track without segments, and 12 where no track comes
 * next. Group 0 is its own parent.
 * 11, written: the player goes to a track of the current group, at 0; Seeking becomes Playing.
 * 12, written: names a track of the current group, whatever the playing order; it comes next, once: Next Track or the end of a track
 * goes to it. A call that ends on another track or group than it began on drops the name.
 * 14, written: the player goes to a group with tracks: to its first track in the playing order, at 0; Seeking becomes Playing.
 * 18: written are an opcode, and for some a number of 4 octets; notified the requested opcode and its result, 1 to 4.
 */
#define MCS_NAME 1u             /* Media Player Name: text; read, notify */
#define MCS_TRACK_CHANGED 4u    /* Track Changed: empty; notify */
#define MCS_TITLE 5u            /* Track Title: text, the office's where the track is renamed, else the card's; read, notify */
#define MCS_DURATION 6u         /* Track Duration: 4 octets, -1 while it is not yet known and while Inactive; read, notify */
#define MCS_POSITION 7u         /* Track Position: 4 octets; read, write, notify */
#define MCS_PLAYBACK_SPEED 8u   /* Playback Speed: 1 octet, signed; read, write, notify */
#define MCS_SEEKING_SPEED 9u    /* Seeking Speed: 1 octet, signed; read, notify */
#define MCS_SEGMENTS_OBJECT 10u /* Current Track Segments Object ID: 6 octets or none; read */
#define MCS_TRACK_OBJECT 11u    /* Current Track Object ID: 6 octets or none; read, write, notify */
#define MCS_NEXT_TRACK_OBJECT 12u   /* Next Track Object ID: 6 octets or none; read, write, notify */
#define MCS_PARENT_GROUP_OBJECT 13u /* Parent Group Object ID: 6 octets or none; read, notify */
#define MCS_GROUP_OBJECT 14u        /* Current Group Object ID: 6 octets or none; read, write, notify */
#define MCS_PLAYING_ORDER 15u       /* Playing Order: 1 octet; read, write, notify */
#define MCS_ORDERS_SUPPORTED 16u    /* Playing Orders Supported: 2 octets; read */
#define MCS_MEDIA_STATE 17u         /* Media State: 1 octet, MCS_INACTIVE to MCS_SEEKING; read, notify */
#define MCS_CONTROL_POINT 18u       /* Media Control Point: 1 or 5 octets; write; notify: 2 octets */
#define MCS_OPCODES_SUPPORTED 19u   /* Media Control Point Opcodes Supported: 4 octets; read */
#define MCS_CONTENT_CONTROL_ID 22u  /* Content Control ID: 1 octet; read */

/* ---- Opcodes of the control point, with their bit in the mask of mcs_start and in Opcodes Supported -------------------------------
 * MOVE_RELATIVE and the three GOTOs are written with a signed number of 4 octets behind the opcode, the others alone.
 */
#define MCS_OPCODE_PLAY 0x01u             /* bit 0 */
#define MCS_OPCODE_PAUSE 0x02u            /* bit 1 */
#define MCS_OPCODE_FAST_REWIND 0x03u      /* bit 2 */
#define MCS_OPCODE_FAST_FORWARD 0x04u     /* bit 3 */
#define MCS_OPCODE_STOP 0x05u             /* bit 4 */
#define MCS_OPCODE_MOVE_RELATIVE 0x10u    /* bit 5 */
#define MCS_OPCODE_PREVIOUS_SEGMENT 0x20u /* bit 6 */
#define MCS_OPCODE_NEXT_SEGMENT 0x21u     /* bit 7 */
#define MCS_OPCODE_FIRST_SEGMENT 0x22u    /* bit 8 */
#define MCS_OPCODE_LAST_SEGMENT 0x23u     /* bit 9 */
#define MCS_OPCODE_GOTO_SEGMENT 0x24u     /* bit 10 */
#define MCS_OPCODE_PREVIOUS_TRACK 0x30u   /* bit 11 */
#define MCS_OPCODE_NEXT_TRACK 0x31u       /* bit 12 */
#define MCS_OPCODE_FIRST_TRACK 0x32u      /* bit 13 */
#define MCS_OPCODE_LAST_TRACK 0x33u       /* bit 14 */
#define MCS_OPCODE_GOTO_TRACK 0x34u       /* bit 15 */
#define MCS_OPCODE_PREVIOUS_GROUP 0x40u   /* bit 16 */
#define MCS_OPCODE_NEXT_GROUP 0x41u       /* bit 17 */
#define MCS_OPCODE_FIRST_GROUP 0x42u      /* bit 18 */
#define MCS_OPCODE_LAST_GROUP 0x43u       /* bit 19 */
#define MCS_OPCODE_GOTO_GROUP 0x44u       /* bit 20 */
#define MCS_ALL_OPCODES 0x1FFFFFu

/* Results, the second octet of a notification of the control point; the first that applies, in the order 2, 3, 4, 1. */
#define MCS_RESULT_SUCCESS 1u
#define MCS_RESULT_NOT_SUPPORTED 2u /* the opcode is unknown, or not in the mask */
#define MCS_RESULT_INACTIVE 3u      /* there is no current track */
#define MCS_RESULT_NOT_COMPLETED 4u /* the move cannot be made */

/* The outcome of a manual Goto is one of the four; or this, which no control point has: the steps that are allowed ran out. */
#define MCS_RAN_OUT 0u

/* Media State. */
#define MCS_INACTIVE 0u
#define MCS_PLAYING 1u
#define MCS_PAUSED 2u
#define MCS_SEEKING 3u

/* ---- The state: octets at these offsets, numbers little endian -------------------------------------------------------------
 * The caller keeps it, and may store and restore it. Every string of MCS_STATE_OCTETS octets is a state, which a call takes or
 * refuses with MCS_BAD_STATE. An octet that says yes or no is 1 for yes and 0 for no, and a state with any other in its place is
 * refused. So the octets of a state that is taken, apart from those that mean nothing, are the encoding of what they mean, and
 * a call other than mcs_start that changes nothing leaves every octet as it was.
 */
#define MCS_STATE_OCTETS 649u

/* The first octet of a state. A state of layout 1 began with a name, and no UTF-8 text begins with an octet 0x80 to 0xBF. */
#define MCS_STATE_MARK (0x80u + MCS_STATE_LAYOUT)

#define MCS_AT_LAYOUT 0u /* 1 octet, MCS_STATE_MARK: mcs_start writes it, and every other call leaves it */
#define MCS_AT_TURN 1u   /* 4 octets: the client that was served last, 0 to 3 */
#define MCS_AT_LINK(client) (5u + 10u * (client))
#define MCS_AT_SERVICE(service) (45u + 302u * (service))

/* In the 10 octets of a client's link, which is the same to both services. */
#define MCS_IN_CONNECTED 0u /* 1 octet, yes or no: 1 or 0 */
#define MCS_IN_ENCRYPTED 1u /* 1 octet, yes or no: 1 or 0 */
#define MCS_IN_MTU 2u       /* 4 octets; 23 while not connected */
/* 4 octets: the place that was served last, 0 to 27, which is 14 times the service plus the slot; 27 while not connected and
 * after connect. A take looks from the next place on, round the twenty-eight. */
#define MCS_IN_MARK 6u

/* In the 302 octets of a service: its player, and an account for each client. */

/* 128 octets, of which the first MCS_IN_NAME_LENGTH says are the name. Those behind it mean nothing: mcs_start makes them 0,
 * and every other call leaves those that no name covers as they were. */
#define MCS_IN_NAME 0u
#define MCS_IN_NAME_LENGTH 128u /* 1 octet, 0 to 128 */
#define MCS_IN_CCID 129u        /* 1 octet */
#define MCS_IN_MEDIA_STATE 130u /* 1 octet */
#define MCS_IN_ORDER 131u       /* 1 octet, 1 to 8 */
#define MCS_IN_SPEED 132u       /* 1 octet, signed */
#define MCS_IN_SEEKING 133u     /* 1 octet, signed */
#define MCS_IN_MASK 134u        /* 4 octets: bit 0 to 20 for each opcode; the others are kept and count as 0 */
#define MCS_IN_GROUP 138u       /* 4 octets; 0 while Inactive, as are the three that follow */
#define MCS_IN_TRACK 142u       /* 4 octets */
#define MCS_IN_POSITION 146u    /* 4 octets, hundredths of a second */
/* 4 octets: 0 where no next track is named, else the number of the named one, a track of the current group, plus 1. */
#define MCS_IN_NEXT 150u
/* 4 octets, 0 to 65,535, also while Inactive: the rest, how far the clock is beyond the position, in 65,536ths of a
 * hundredth of a second. A step of mcs_advance in Playing within a track leaves it. Whatever else sets the position makes it
 * 0, also where the position comes out as it was: Stop, Move Relative, moves of segment, track and group, writes of 7, 11
 * and 14, start, activate, deactivate, a step while Seeking and the end of a track. What sets none keeps it: Play, Pause,
 * Fast Forward, Fast Rewind, Goto Segment 0, and a command with another result than Success; other writes, and one of 7 that
 * moves nothing, a negative one on a running recording and any while Inactive; a step while Paused, and one that holds a
 * running recording at MCS_MOST_DURATION. No value that a client reads shows it: for it alone nothing is owed and no value
 * counts as changed. */
#define MCS_IN_REST 154u
#define MCS_IN_ACCOUNT(client) (158u + 36u * (client))

/* In the 36 octets of a client's account in a service. Slots are the bits 0 to 13 for the characteristics 1, 4, 5, 6, 7, 8, 9, 11, 12,
 * 13, 14, 15, 17, 18. */
#define MCS_IN_SUBSCRIBED 0u /* 4 octets, a set of slots */
#define MCS_IN_OWED 4u       /* 4 octets, a set of slots */
/* 4 octets: bit c where characteristic c was read at 0 since connecting and has not changed since. */
#define MCS_IN_READ 8u
#define MCS_IN_WAITING 12u /* 8 octets: how many results wait, 0 to 8 */
/* 8 times 2 octets: requested opcode, result; oldest first. Those that do not wait mean nothing: start, connect and
 * disconnect make an account's results 0; a new result is written over the first of them; a take that hands one out moves
 * all eight forward by one and makes the last 0, 0; everything else, unsubscribing too, leaves them where they were. */
#define MCS_IN_RESULTS 20u

/* ---- Calls ------------------------------------------------------------------------------------------------------------------
 * The catalogue is lent to every call but card load, cue sheet and the two that read an object: three tables of words and the
 * text, lengths in words and in octets. A state is lent to every call but these four, card write and the two that write an object;
 * and whoever is lent a state is lent the office's titles.
 */
#define MCS_CATALOGUE                                                                                                          \
    const uint32_t *groups, size_t groups_len, const uint32_t *tracks, size_t tracks_len, const uint32_t *segments,            \
        size_t segments_len, const uint8_t *text, size_t text_len

/* The titles that the office gave to tracks, beside those of the card, which is not written again for them: MCS_RENAME_WORDS words for
 * each track of the catalogue, and the text that they are parts of, of any length; outside the parts it need not be UTF-8. An office
 * that renames nothing lends words that are all 0, and an empty text. A call reads the title before it and the title after it with
 * what it is lent: where other titles are lent than to the call before, nothing is owed and no value counts as changed for that. */
#define MCS_OFFICE_TITLES const uint32_t *renames, size_t renames_len, const uint8_t *office, size_t office_len

/* Lent last to every call that is lent the catalogue: the two words for where a title or a name is wrong. */
#define MCS_PLACE uint32_t *track, uint32_t *octet

/* Card load: fills the front of each table with a card's records, and counts with the number of groups, tracks, segments and
 * text octets. The tables' lengths are their room, in words and in octets; the words behind the records stay as they were, so
 * a catalogue is the first 3 * counts[0], 6 * counts[1] and counts[2] words and counts[3] octets.
 * Refusals: 210, 211, 215, 216, 217, 214, 218, 212. By 211 and 214 to 218 *block is the lowest bad block, by its place on the
 * card, counted from 0. It does not check the catalogue: every other call does. */
uint32_t mcs_card_load(const uint8_t *card, size_t card_len, uint32_t *groups, size_t groups_len, uint32_t *tracks,
                       size_t tracks_len, uint32_t *segments, size_t segments_len, uint8_t *text, size_t text_len,
                       uint32_t counts[4], uint32_t *block);

/* Card write: fills the front of card with the catalogue's card, every block but the last of its kind full, and *blocks with the
 * number of its blocks, at most MCS_CARD_BLOCKS. The octets behind them stay as they were. Loading what was written gives the tables
 * back, and writing what was loaded gives the card back, for every card that is accepted and whose tables pass 200.
 * Refusals: 200, 213. */
uint32_t mcs_card_write(MCS_CATALOGUE, uint8_t *card, size_t card_len, uint32_t *blocks, MCS_PLACE);

/* Cue sheet: fills the front of starts with the segment starts of one track, in hundredths of a second, and *count with their
 * number. A line `INDEX 01 mm:ss:ff`, with ss up to 59 and ff up to 74, gives a start of (60 mm + ss) 100 plus the whole part
 * of 4 ff / 3. Lines that begin with INDEX, one space and two other digits, or with REM, TITLE, PERFORMER, FILE or TRACK, and
 * empty ones are passed over; spaces may stand before any line; a line ends in LF, in CR LF, or where the sheet does. The words
 * behind the starts stay as they were. The starts begin at 0 and rise: they are a track's segment starts where the last of them
 * lies below its duration. Refusals: 225, 226, 227, 228. By 226 and 227 *line is the line, counted from 1; of the two the lower
 * line is told, and 228 comes after both. */
uint32_t mcs_cue_sheet(const uint8_t *sheet, size_t sheet_len, uint32_t *starts, size_t starts_len, uint32_t *count,
                       uint32_t *line);

/* Group object write: fills the front of out with the Group object of a group, and *length with the number of its octets, at most
 * MCS_MOST_GROUP_OBJECT: an entry for each group whose parent it is, by number, those without tracks too, group 0 not being its own
 * child; and behind them one for each of its tracks, by number. A group without either has an object of no octets. The octets of out
 * behind them stay. Refusals: 200, 0x13, 223. */
uint32_t mcs_group_object_write(MCS_CATALOGUE, uint32_t group, uint8_t *out, size_t out_len, uint32_t *length, MCS_PLACE);

/* Segments object write: the same of the Track Segments object of a track, with an entry for each of its segments, in order, whose
 * name is empty; at most MCS_MOST_SEGMENTS_OBJECT octets. Refusals: 200, 0x13, 223. */
uint32_t mcs_segments_object_write(MCS_CATALOGUE, uint32_t of_track, uint8_t *out, size_t out_len, uint32_t *length, MCS_PLACE);

/* Group object read: fills the front of words with the entries of a Group object, MCS_GROUP_ENTRY_WORDS words each, and *count with
 * their number. words_len is in words; those behind the entries stay as they were. What is neither a group nor a track is no entry;
 * the numbers may be any. Reading what was written gives the entries. Refusals: 222, 223. */
uint32_t mcs_group_object_read(const uint8_t *octets, size_t octets_len, uint32_t *words, size_t words_len, size_t *count);

/* Segments object read: fills the front of positions with the position of each entry of a Track Segments object, and *count with
 * their number. What has a name that is not UTF-8, or a negative position, is no entry; right names of any length are passed over,
 * and the positions need not rise. The words behind them stay. Refusals: 222, 223. */
uint32_t mcs_segments_object_read(const uint8_t *octets, size_t octets_len, uint32_t *positions, size_t positions_len,
                                  size_t *count);

/* Start: a state in which each service has this name, opcode mask and Content Control ID, and is Inactive, order 3, speed 0, and
 * no client is connected. What the state's octets held before does not matter. Service 0's name is wholly checked before service
 * 1's. Refusals: 200, 224, 207. */
uint32_t mcs_start(MCS_CATALOGUE, MCS_OFFICE_TITLES, const uint8_t *name0, size_t name0_len, uint32_t mask0, uint8_t ccid0,
                   const uint8_t *name1, size_t name1_len, uint32_t mask1, uint8_t ccid1, uint8_t state[MCS_STATE_OCTETS],
                   MCS_PLACE);

/* Set name. Refusals: 200, 224, 201, 219, 207. */
uint32_t mcs_set_name(MCS_CATALOGUE, MCS_OFFICE_TITLES, uint8_t state[MCS_STATE_OCTETS], uint32_t service, const uint8_t *name,
                      size_t name_len, MCS_PLACE);

/* Activate a group: its first track in the playing order, position 0, Paused. Refusals: 200, 224, 201, 219, 208. */
uint32_t mcs_activate(MCS_CATALOGUE, MCS_OFFICE_TITLES, uint8_t state[MCS_STATE_OCTETS], uint32_t service, uint32_t group,
                      MCS_PLACE);

/* Deactivate: no current track. Refusals: 200, 224, 201, 219. */
uint32_t mcs_deactivate(MCS_CATALOGUE, MCS_OFFICE_TITLES, uint8_t state[MCS_STATE_OCTETS], uint32_t service, MCS_PLACE);

/* Advance: d hundredths of a second of wall time pass for this service. In Playing the core reckons them by the playback speed p that
 * it has then: they are d times e 65,536ths of a hundredth, where e is the whole number nearest to 65,536 times 2 to the power p / 64;
 * a table has it for each speed, and that table is proved. Together with the rest of the steps before (MCS_IN_REST) they move the
 * position on by the whole hundredths in them, of which more than MCS_MOST_DURATION count as that, and what is left over is the rest
 * from then on; so many short steps within a track lead as far as one long one. A host hands in what its own clock says has passed,
 * whatever the speed: it must no longer multiply that by the speed, nor hand in how far its decoder has come. Where the position comes
 * to the end of the track or beyond, the track ends, one track in a call. While Seeking d counts as often as the seeking speed says,
 * and the playback speed plays no part; while Paused or Inactive nothing is altered. Refusals: 200, 224, 201, 219. */
uint32_t mcs_advance(MCS_CATALOGUE, MCS_OFFICE_TITLES, uint8_t state[MCS_STATE_OCTETS], uint32_t service, uint32_t d,
                     MCS_PLACE);

/* Connect, to both services; encrypted is 0 for no. Refusals: 200, 224, 201, 202, 204, 206. */
uint32_t mcs_connect(MCS_CATALOGUE, MCS_OFFICE_TITLES, uint8_t state[MCS_STATE_OCTETS], uint32_t client, uint32_t mtu,
                     uint8_t encrypted, MCS_PLACE);

/* Disconnect, from both services: the client's link and its account in each are start's again.
 * Refusals: 200, 224, 201, 202, 203. */
uint32_t mcs_disconnect(MCS_CATALOGUE, MCS_OFFICE_TITLES, uint8_t state[MCS_STATE_OCTETS], uint32_t client, MCS_PLACE);

/* Subscribe, unsubscribe: a client's Client Characteristic Configuration for notifications.
 * Refusals: 200, 224, 201, 202, 219, 203, 0x01, 209, 0x0F. */
uint32_t mcs_subscribe(MCS_CATALOGUE, MCS_OFFICE_TITLES, uint8_t state[MCS_STATE_OCTETS], uint32_t client, uint32_t service,
                       uint32_t characteristic, MCS_PLACE);
uint32_t mcs_unsubscribe(MCS_CATALOGUE, MCS_OFFICE_TITLES, uint8_t state[MCS_STATE_OCTETS], uint32_t client, uint32_t service,
                         uint32_t characteristic, MCS_PLACE);

/* Read at an offset: the value's octets from there on, at most ATT_MTU - 1, over the front of out; their number in *length. The
 * octets of out behind them stay. Refusals: 200, 224, 205, 201, 202, 219, 203, 0x01, 0x02, 0x0F, 0x80, 0x07. */
uint32_t mcs_read(MCS_CATALOGUE, MCS_OFFICE_TITLES, uint8_t state[MCS_STATE_OCTETS], uint32_t client, uint32_t service,
                  uint32_t characteristic, uint32_t offset, uint8_t *out, size_t out_len, uint32_t *length, MCS_PLACE);

/* Write. A change of 8, 11, 12, 14 or 15 is not owed to the client that wrote that one; what else changes by the write is.
 * Refusals: 200, 224, 201, 202, 219, 203, 0x01, 0x03, 0x0F, 0x0D, 0x13, 0x11. */
uint32_t mcs_write(MCS_CATALOGUE, MCS_OFFICE_TITLES, uint8_t state[MCS_STATE_OCTETS], uint32_t client, uint32_t service,
                   uint32_t characteristic, const uint8_t *value, size_t value_len, MCS_PLACE);

/* Take: the next notification, to be sent now. served is the client, the service, the characteristic and the number of octets
 * over the front of out; characteristic 0, with the other three 0, where nothing is owed to anyone. Each take that serves leaves one
 * thing less owed, so after at most MCS_MOST_OWED of them with no other call between nothing is owed. Then, of every characteristic
 * that has changed since a client subscribed to it, but of 7 and 18, what the client was last sent, or has itself written with success
 * since, is the present value as far as ATT_MTU - 3 octets reach, as long as one catalogue and one text of titles are lent.
 * Refusals: 200, 224, 205, 201. */
uint32_t mcs_take(MCS_CATALOGUE, MCS_OFFICE_TITLES, uint8_t state[MCS_STATE_OCTETS], uint8_t *out, size_t out_len,
                  uint32_t served[4], MCS_PLACE);

/* Title: where the title of the service's current track stands, of which no octet is copied. part is the text, the offset in it and
 * the length. A track that is renamed has a part of the office's text; any other has its title in the card's text, also an empty
 * one, which has an offset too; and while Inactive all three are 0, the empty front of the card's text. The state is not altered.
 * Refusals: 200, 224, 201, 219. */
uint32_t mcs_title(MCS_CATALOGUE, MCS_OFFICE_TITLES, const uint8_t state[MCS_STATE_OCTETS], uint32_t service,
                   uint32_t part[MCS_PART_WORDS], MCS_PLACE);

/* Manual Goto: what a Goto of the service's player would do, by the single steps that the manual teaches it by: First where number is
 * above 0, Last where it is below, then Next or Previous as often as its amount says, less one. Each of them is really made, up to as
 * many as are allowed, and the state is not altered. A named next track plays no part in them.
 * made is the outcome and the number of steps, First or Last counted; place is where the player would be: group, track, position and
 * rest. The outcome is the first of these that applies:
 * - MCS_RESULT_NOT_SUPPORTED, no steps: opcode is none of MCS_OPCODE_GOTO_SEGMENT, MCS_OPCODE_GOTO_TRACK and MCS_OPCODE_GOTO_GROUP, or
 *   is not in the mask;
 * - MCS_RESULT_INACTIVE, no steps;
 * - MCS_RAN_OUT, as many steps as are allowed: one more was still to be made;
 * - MCS_RESULT_NOT_COMPLETED: a step cannot be made. It has to be allowed too, and is counted;
 * - MCS_RESULT_SUCCESS, as many steps as the amount of number, and the place is the one that they lead to. Number 0 needs none, also
 *   where none is allowed, and the place is the one that a Goto 0 leaves.
 * By every outcome but the last the place is the one where the player is now, which has group, track and position 0 while Inactive.
 * Where as many steps as the amount of number are allowed, outcome and place are the result that a write of opcode and number to
 * MCS_CONTROL_POINT has, and what it leaves. The call takes the longer, the more steps it makes, of which there may be 2,147,483,648.
 * Refusals: 200, 224, 201, 219. */
uint32_t mcs_manual_goto(MCS_CATALOGUE, MCS_OFFICE_TITLES, const uint8_t state[MCS_STATE_OCTETS], uint32_t service,
                         uint32_t opcode, int32_t number, uint32_t allowed, uint32_t made[MCS_GOTO_MADE_WORDS],
                         uint32_t place[MCS_GOTO_PLACE_WORDS], MCS_PLACE);

#ifdef __cplusplus
}
#endif

#endif
