/* The door to the desk player core for C and C++: what a host holds is one struct, and each call of mcs.h has a wrapper that
 * takes it. There is nothing to link but the library: everything here is inline, and mcs.h, which is proved, lies below it.
 *
 *     static struct mcs_desk desk;
 *     struct mcs_player players[MCS_SERVICES];
 *     players[MCS_GENERIC] = ...;                  (name, opcodes and Content Control ID of each service's player)
 *     players[MCS_NAMED] = ...;
 *     desk.catalogue = ...;                        (the lent tables, or mcs_catalogue_load from a card)
 *     desk.titles = mcs_no_renames(&desk.catalogue);  (or the titles of an office that renames tracks)
 *     mcs_desk_start(&desk, players);
 *
 * What a host has to know:
 *
 * - After every call that is accepted it takes, until nothing is owed, and sends what each take gives:
 *
 *       struct mcs_served served;
 *       uint8_t value[MCS_OUTPUT_OCTETS];
 *       while (mcs_desk_take(&desk, value, sizeof value, &served) == MCS_OK && served.characteristic != MCS_NOTHING) {
 *           notify(served.client, served.service, served.characteristic, value, served.length);
 *       }
 *
 *   It may take later, or stop in between where the radio has no room: what is owed stays owed, and is never more than
 *   MCS_MOST_OWED things. A value is the one of the moment of the take, so it takes when it can send. When nothing is owed, every
 *   client knows the present values of what has changed since it subscribed, but for the position (mcs_take).
 * - Every call looks at the whole catalogue, so its cost grows with the tables: microseconds for a few tracks, milliseconds on
 *   a small chip for a full catalogue. No call belongs into an interrupt.
 * - A desk is two services of the host's GATT server, MCS_GENERIC and MCS_NAMED, with the same characteristics. The host knows
 *   by the attribute's handle which of them a client reads, writes or subscribes to, and a take says whose handle to notify. Both
 *   play the same catalogue, and a call to one is nothing to the other: where time passes for both, the host advances both.
 * - An advance is told wall time: the hundredths of a second that have passed since the service's last one, at every playback speed
 *   alike. The core reckons the speed itself, and keeps in the state what is left over below a hundredth of the recording. A host that
 *   multiplied its time by the speed, or told how far its decoder came, as until MCS_VERSION 8, has to stop that, or the speed counts
 *   twice. What its own clock counts below a hundredth of wall time is the host's to keep for the next advance. Where the speed is
 *   written in between, a host that wants it to count from that moment on advances first, since a step is reckoned by the speed that
 *   it finds.
 * - ATT_MTU and encryption are given when a client connects, which it does to both services, and stay until it disconnects. A
 *   host connects a client here when both are settled; where one changes later, it disconnects, connects and subscribes the
 *   client again. Or it connects every client with 517, the longest ATT_MTU, and cuts what it is handed by the one that there is.
 *   The project's docs/INTEGRATION.md has both ways, callback by callback.
 * - One thread at a time for a state. Different states have nothing in common.
 * - A number that is not MCS_OK says that nothing was altered. MCS_IS_ATT_ERROR tells which numbers are answers to the client,
 *   to be sent as the error code of an ATT Error Response; all others are faults of the host itself (a wrong catalogue, wrong
 *   titles, a wrong state, client or service number or buffer, a card or a cue sheet that is refused), and must not go on air.
 * - A card that is refused for one bad block need not be thrown away. Where mcs_names_block says so of the number, the host shows
 *   number, words and block to whoever brought the card: the octets from MCS_BLOCK_OCTETS times the block on are to be looked at,
 *   or written again. By MCS_NOT_FULL all blocks from there on are, since the records of the next ones move up. The blocks before it
 *   are right; those behind it may be bad too.
 * - Where a title or a name is not UTF-8, the host can show the place to whoever typed it: after every call desk.place holds the track
 *   and the octet within its title that MCS_BAD_CATALOGUE carries, or the octet within the name that MCS_BAD_NAME carries, and
 *   MCS_NOWHERE for what the call did not carry. Of the two names of a start it is the first bad one, by the order of the
 *   services.
 * - An office may give tracks titles of its own, and need not write the card again for that: desk.titles has an entry for each
 *   track, an offset and a length in the office's text, and length 0 for a track that keeps the card's title. Where the catalogue is
 *   exchanged, the entries are too. MCS_TITLE and mcs_desk_title show the office's titles from the next call on, but that the host
 *   lends others is no change: nobody is owed the title for it, and a read above offset 0 goes on in the new one. A host that wants
 *   the devices to be told exchanges the titles while a service is Inactive; its next track is then a change.
 * - The object numbers of the characteristics 10 to 14 are for an Object Transfer Service, which the host runs: it includes that in
 *   both services, and hands out an object where a client asks for one by its number. MCS_OBJECT_OF_GROUP and its like say whose a
 *   number is; mcs_desk_group_object and mcs_desk_segments_object give the octets of a Group and of a Track Segments object, and a
 *   Track object is the recording itself. Both services share the catalogue, and so the objects, which are the same until the host
 *   lends another one. By these two calls MCS_NOT_ALLOWED says that there is no such object, which is the transfer service's to
 *   answer. mcs_group_entries and mcs_segment_positions are for a device that was handed an object and draws folders of it.
 * - Whoever teaches Goto by single steps can be shown them: mcs_desk_goto makes First or Last and then each step, and says where that
 *   leads and how many steps it took, or at which it had to stop. Nothing is altered by it, and nothing is owed to anyone. Where all
 *   steps are allowed, it says what the control point would. A Goto may have 2,147,483,648 of them, which take seconds, so a host
 *   allows as many as it has time for.
 */
#ifndef MCS_DESK_H
#define MCS_DESK_H

#include "mcs.h"

/* ---- Numbers in words --------------------------------------------------------------------------------------------------------
 * Each list names a macro for every row, in the order in which the numbers are given. The words are plain ASCII.
 */

/* Whether a number that a call returned is the error code of an ATT Error Response. */
#define MCS_IS_ATT_ERROR(number) ((number)-1u < 0x80u)

/* Whether a number that a card load returned came with the block that it is about. */
static inline int mcs_names_block(uint32_t number)
{
    return number == MCS_BAD_CHECK || (number >= MCS_NOT_FULL && number <= MCS_BAD_PADDING);
}

/* ROW(number, words), in the order in which a call looks for them. */
#define MCS_EACH_REFUSAL(ROW)                                                                                                  \
    ROW(MCS_BAD_CATALOGUE, "a rule of the catalogue fails")                                                                    \
    ROW(MCS_BAD_RENAMES, "the office's titles are not one for each track, or one is too long, outside its text or not UTF-8")  \
    ROW(MCS_SMALL_OUTPUT, "the lent output has under 128 octets")                                                              \
    ROW(MCS_BAD_STATE, "the state breaks a rule")                                                                              \
    ROW(MCS_NO_CLIENT, "there is no such client")                                                                              \
    ROW(MCS_NO_SERVICE, "there is no such service")                                                                            \
    ROW(MCS_NOT_CONNECTED, "the client is not connected")                                                                      \
    ROW(MCS_ALREADY_CONNECTED, "the client is connected already")                                                              \
    ROW(MCS_BAD_MTU, "ATT_MTU is not 23 to 517")                                                                               \
    ROW(MCS_NO_CHARACTERISTIC, "there is no such characteristic")                                                              \
    ROW(MCS_NO_SLOT, "the characteristic is not notified")                                                                     \
    ROW(MCS_NOT_READABLE, "the characteristic may not be read")                                                                \
    ROW(MCS_NOT_WRITABLE, "the characteristic may not be written")                                                             \
    ROW(MCS_NOT_ENCRYPTED, "the connection is not encrypted")                                                                  \
    ROW(MCS_VALUE_CHANGED, "the value changed during the long read")                                                           \
    ROW(MCS_BEYOND_END, "the offset is above the value's length")                                                              \
    ROW(MCS_BAD_LENGTH, "the value's length is wrong")                                                                         \
    ROW(MCS_NOT_ALLOWED, "the value is not allowed, or there is no such object")                                               \
    ROW(MCS_TOO_MANY_RESULTS, "eight results wait already")                                                                    \
    ROW(MCS_BAD_NAME, "the name has over 128 octets or is not UTF-8")                                                          \
    ROW(MCS_BAD_GROUP, "the group is absent or has no tracks")                                                                 \
    ROW(MCS_BAD_CARD_LENGTH, "the card's length is no multiple of 512, or over 65,536")                                        \
    ROW(MCS_BAD_CHECK, "the check octets of a block do not fit its contents")                                                  \
    ROW(MCS_BAD_BLOCK_NUMBER, "the number of a block is not its place on the card")                                            \
    ROW(MCS_BAD_KIND, "the kind of a block is not 1 to 4, or below that of the block before")                                  \
    ROW(MCS_BAD_COUNT, "the record count of a block is 0, or more than a block of its kind holds")                             \
    ROW(MCS_NOT_FULL, "a block that is not the last of its kind is not full")                                                  \
    ROW(MCS_BAD_PADDING, "an octet behind the records of a block is not 0")                                                    \
    ROW(MCS_NO_ROOM, "the card holds more than a catalogue, or the lent tables, may")                                          \
    ROW(MCS_NO_CARD_ROOM, "the card has more blocks than there is room for")                                                   \
    ROW(MCS_BAD_ENTRIES, "the octets of an object are not whole entries of its kind")                                          \
    ROW(MCS_NO_OBJECT_ROOM, "there is too little room for an object or its entries")                                           \
    ROW(MCS_LONG_SHEET, "the cue sheet has over 65,536 octets")                                                                \
    ROW(MCS_BAD_LINE, "a line of the cue sheet is not understood")                                                             \
    ROW(MCS_NOT_RISING, "the first start is not 0, or a start is not above the one before")                                    \
    ROW(MCS_MANY_STARTS, "the cue sheet has more starts than there is room for")

/* ROW(number, words). */
#define MCS_EACH_SERVICE(ROW)                                                                                                  \
    ROW(MCS_GENERIC, "Generic Media Control Service")                                                                          \
    ROW(MCS_NAMED, "Media Control Service")

/* ROW(number, properties, words), by rising number. The slots, which are bits in the words of a client's accounts in the state,
 * are the characteristics that notify, in this order. */
#define MCS_MAY_READ 1u
#define MCS_MAY_WRITE 2u
#define MCS_MAY_NOTIFY 4u
#define MCS_EACH_CHARACTERISTIC(ROW)                                                                                           \
    ROW(MCS_NAME, MCS_MAY_READ | MCS_MAY_NOTIFY, "Media Player Name")                                                          \
    ROW(MCS_TRACK_CHANGED, MCS_MAY_NOTIFY, "Track Changed")                                                                    \
    ROW(MCS_TITLE, MCS_MAY_READ | MCS_MAY_NOTIFY, "Track Title")                                                               \
    ROW(MCS_DURATION, MCS_MAY_READ | MCS_MAY_NOTIFY, "Track Duration")                                                         \
    ROW(MCS_POSITION, MCS_MAY_READ | MCS_MAY_WRITE | MCS_MAY_NOTIFY, "Track Position")                                         \
    ROW(MCS_PLAYBACK_SPEED, MCS_MAY_READ | MCS_MAY_WRITE | MCS_MAY_NOTIFY, "Playback Speed")                                   \
    ROW(MCS_SEEKING_SPEED, MCS_MAY_READ | MCS_MAY_NOTIFY, "Seeking Speed")                                                     \
    ROW(MCS_SEGMENTS_OBJECT, MCS_MAY_READ, "Current Track Segments Object ID")                                                 \
    ROW(MCS_TRACK_OBJECT, MCS_MAY_READ | MCS_MAY_WRITE | MCS_MAY_NOTIFY, "Current Track Object ID")                            \
    ROW(MCS_NEXT_TRACK_OBJECT, MCS_MAY_READ | MCS_MAY_WRITE | MCS_MAY_NOTIFY, "Next Track Object ID")                          \
    ROW(MCS_PARENT_GROUP_OBJECT, MCS_MAY_READ | MCS_MAY_NOTIFY, "Parent Group Object ID")                                      \
    ROW(MCS_GROUP_OBJECT, MCS_MAY_READ | MCS_MAY_WRITE | MCS_MAY_NOTIFY, "Current Group Object ID")                            \
    ROW(MCS_PLAYING_ORDER, MCS_MAY_READ | MCS_MAY_WRITE | MCS_MAY_NOTIFY, "Playing Order")                                     \
    ROW(MCS_ORDERS_SUPPORTED, MCS_MAY_READ, "Playing Orders Supported")                                                        \
    ROW(MCS_MEDIA_STATE, MCS_MAY_READ | MCS_MAY_NOTIFY, "Media State")                                                         \
    ROW(MCS_CONTROL_POINT, MCS_MAY_WRITE | MCS_MAY_NOTIFY, "Media Control Point")                                              \
    ROW(MCS_OPCODES_SUPPORTED, MCS_MAY_READ, "Media Control Point Opcodes Supported")                                          \
    ROW(MCS_CONTENT_CONTROL_ID, MCS_MAY_READ, "Content Control ID")

/* ROW(number, octets of its parameter, words), in the order of the bits of the mask, from bit 0. */
#define MCS_EACH_OPCODE(ROW)                                                                                                   \
    ROW(MCS_OPCODE_PLAY, 0u, "Play")                                                                                           \
    ROW(MCS_OPCODE_PAUSE, 0u, "Pause")                                                                                         \
    ROW(MCS_OPCODE_FAST_REWIND, 0u, "Fast Rewind")                                                                             \
    ROW(MCS_OPCODE_FAST_FORWARD, 0u, "Fast Forward")                                                                           \
    ROW(MCS_OPCODE_STOP, 0u, "Stop")                                                                                           \
    ROW(MCS_OPCODE_MOVE_RELATIVE, 4u, "Move Relative")                                                                         \
    ROW(MCS_OPCODE_PREVIOUS_SEGMENT, 0u, "Previous Segment")                                                                   \
    ROW(MCS_OPCODE_NEXT_SEGMENT, 0u, "Next Segment")                                                                           \
    ROW(MCS_OPCODE_FIRST_SEGMENT, 0u, "First Segment")                                                                         \
    ROW(MCS_OPCODE_LAST_SEGMENT, 0u, "Last Segment")                                                                           \
    ROW(MCS_OPCODE_GOTO_SEGMENT, 4u, "Goto Segment")                                                                           \
    ROW(MCS_OPCODE_PREVIOUS_TRACK, 0u, "Previous Track")                                                                       \
    ROW(MCS_OPCODE_NEXT_TRACK, 0u, "Next Track")                                                                               \
    ROW(MCS_OPCODE_FIRST_TRACK, 0u, "First Track")                                                                             \
    ROW(MCS_OPCODE_LAST_TRACK, 0u, "Last Track")                                                                               \
    ROW(MCS_OPCODE_GOTO_TRACK, 4u, "Goto Track")                                                                               \
    ROW(MCS_OPCODE_PREVIOUS_GROUP, 0u, "Previous Group")                                                                       \
    ROW(MCS_OPCODE_NEXT_GROUP, 0u, "Next Group")                                                                               \
    ROW(MCS_OPCODE_FIRST_GROUP, 0u, "First Group")                                                                             \
    ROW(MCS_OPCODE_LAST_GROUP, 0u, "Last Group")                                                                               \
    ROW(MCS_OPCODE_GOTO_GROUP, 4u, "Goto Group")

/* ROW(number, words). */
#define MCS_EACH_RESULT(ROW)                                                                                                   \
    ROW(MCS_RESULT_SUCCESS, "Success")                                                                                         \
    ROW(MCS_RESULT_NOT_SUPPORTED, "Opcode Not Supported")                                                                      \
    ROW(MCS_RESULT_INACTIVE, "Media Player Inactive")                                                                          \
    ROW(MCS_RESULT_NOT_COMPLETED, "Command Cannot Be Completed")

/* The outcomes of a manual Goto. */
#define MCS_EACH_OUTCOME(ROW)                                                                                                  \
    MCS_EACH_RESULT(ROW)                                                                                                       \
    ROW(MCS_RAN_OUT, "the allowed steps ran out")

#define MCS_EACH_MEDIA_STATE(ROW)                                                                                              \
    ROW(MCS_INACTIVE, "Inactive")                                                                                              \
    ROW(MCS_PLAYING, "Playing")                                                                                                \
    ROW(MCS_PAUSED, "Paused")                                                                                                  \
    ROW(MCS_SEEKING, "Seeking")

#define MCS_EACH_PLAYING_ORDER(ROW)                                                                                            \
    ROW(1u, "Single Once")                                                                                                     \
    ROW(2u, "Single Repeat")                                                                                                   \
    ROW(3u, "In Order Once")                                                                                                   \
    ROW(4u, "In Order Repeat")                                                                                                 \
    ROW(5u, "Oldest Once")                                                                                                     \
    ROW(6u, "Oldest Repeat")                                                                                                   \
    ROW(7u, "Newest Once")                                                                                                     \
    ROW(8u, "Newest Repeat")

/* The words of a number; "unknown" for one that has none. */
#define MCS_WORDS_OF(number, words)                                                                                            \
    case number:                                                                                                               \
        return words;
#define MCS_WORDS_OF_THREE(number, middle, words) MCS_WORDS_OF(number, words)
#define MCS_WORDS(function, each, row)                                                                                         \
    static inline const char *function(uint32_t number)                                                                        \
    {                                                                                                                          \
        switch (number) {                                                                                                      \
            each(row) default : return "unknown";                                                                              \
        }                                                                                                                      \
    }
MCS_WORDS(mcs_refusal_words, MCS_EACH_REFUSAL, MCS_WORDS_OF)
MCS_WORDS(mcs_service_words, MCS_EACH_SERVICE, MCS_WORDS_OF)
MCS_WORDS(mcs_characteristic_words, MCS_EACH_CHARACTERISTIC, MCS_WORDS_OF_THREE)
MCS_WORDS(mcs_opcode_words, MCS_EACH_OPCODE, MCS_WORDS_OF_THREE)
MCS_WORDS(mcs_result_words, MCS_EACH_RESULT, MCS_WORDS_OF)
MCS_WORDS(mcs_outcome_words, MCS_EACH_OUTCOME, MCS_WORDS_OF)
MCS_WORDS(mcs_media_state_words, MCS_EACH_MEDIA_STATE, MCS_WORDS_OF)
MCS_WORDS(mcs_playing_order_words, MCS_EACH_PLAYING_ORDER, MCS_WORDS_OF)
#undef MCS_WORDS
#undef MCS_WORDS_OF_THREE
#undef MCS_WORDS_OF

/* ---- What a host holds ----------------------------------------------------------------------------------------------------- */

/* The lent tables of a catalogue: lengths in words, of the text in octets. They may lie in flash. */
struct mcs_catalogue {
    const uint32_t *groups;
    size_t groups_len;
    const uint32_t *tracks;
    size_t tracks_len;
    const uint32_t *segments;
    size_t segments_len;
    const uint8_t *text;
    size_t text_len;
};

/* A catalogue as the calls of mcs.h take it, argument by argument. */
#define MCS_LENT(catalogue)                                                                                                    \
    (catalogue).groups, (catalogue).groups_len, (catalogue).tracks, (catalogue).tracks_len, (catalogue).segments,              \
        (catalogue).segments_len, (catalogue).text, (catalogue).text_len

/* The office's titles: an entry of MCS_RENAME_WORDS words for each track of the catalogue, the length in words, and the office's text,
 * the length in octets. They may lie in flash too. */
struct mcs_titles {
    const uint32_t *renames;
    size_t renames_len;
    const uint8_t *office;
    size_t office_len;
};

/* Titles as the calls of mcs.h take them, argument by argument. */
#define MCS_TITLES(titles) (titles).renames, (titles).renames_len, (titles).office, (titles).office_len

/* The titles of an office that renames nothing, for this catalogue: an entry of zeros for each of its tracks, and an empty text. A
 * catalogue with more tracks than there may be has no such titles; the calls refuse it before they look at these. */
static inline struct mcs_titles mcs_no_renames(const struct mcs_catalogue *catalogue)
{
    static const uint32_t zeros[MCS_RENAME_WORDS * MCS_MOST_TRACKS] = {0};
    const size_t tracks = catalogue->tracks_len / MCS_TRACK_WORDS;
    struct mcs_titles titles;
    titles.renames = zeros;
    titles.renames_len = MCS_RENAME_WORDS * (tracks < MCS_MOST_TRACKS ? tracks : MCS_MOST_TRACKS);
    titles.office = NULL;
    titles.office_len = 0;
    return titles;
}

/* Where a text is wrong: of a bad title its track and the octet within it, of a bad name the octet within it and no track. No track
 * and no octet is MCS_NOWHERE. */
#define MCS_NOWHERE 0xFFFFFFFFu
struct mcs_place {
    uint32_t track, octet;
};

/* A place as the calls of mcs.h take it. It is nowhere before the call, so that afterwards it holds what the call carries. */
#define MCS_CARRIED(place) &mcs_nowhere(place)->track, &(place)->octet
static inline struct mcs_place *mcs_nowhere(struct mcs_place *place)
{
    place->track = MCS_NOWHERE;
    place->octet = MCS_NOWHERE;
    return place;
}

/* The player of a service at start: its name in UTF-8, the opcodes that it supports, by their bits (MCS_ALL_OPCODES, or some of
 * them), and its Content Control ID. */
struct mcs_player {
    const uint8_t *name;
    size_t name_len;
    uint32_t mask;
    uint8_t ccid;
};

/* A player as mcs_start takes it, argument by argument. */
#define MCS_STARTED(player) (player).name, (player).name_len, (player).mask, (player).ccid

/* A desk: the catalogue and the office's titles that its calls are lent, its state, and what its last call carried. The state may be
 * stored and restored by its octets, of which the first says their layout; it is checked by every call. */
struct mcs_desk {
    struct mcs_catalogue catalogue;
    struct mcs_titles titles;
    uint8_t state[MCS_STATE_OCTETS];
    struct mcs_place place;
};

/* What a desk lends to the calls of mcs.h on its state, argument by argument. */
#define MCS_LENT_BY(desk) MCS_LENT((desk)->catalogue), MCS_TITLES((desk)->titles)

/* What a take served: to this client, of this service and this characteristic so many octets. */
struct mcs_served {
    uint32_t client, service, characteristic, length;
};

/* The characteristic of a take by which nothing was owed to anyone. */
#define MCS_NOTHING 0u

/* A title where it stands: so many octets of the text that is told, MCS_CARD_TEXT or MCS_OFFICE_TEXT. */
struct mcs_title {
    const uint8_t *octets;
    size_t length;
    uint32_t text;
};

/* What a manual Goto tells: its outcome, the steps that were made, and where the player would be: the position in hundredths of a
 * second, and the rest, which is how far beyond it the clock is, in 65,536ths of a hundredth. */
struct mcs_goto {
    uint32_t outcome, steps, group, track, position, rest;
};

/* Tables that a card is loaded into, with their room in words, of the text in octets. */
struct mcs_room {
    uint32_t *groups;
    size_t groups_len;
    uint32_t *tracks;
    size_t tracks_len;
    uint32_t *segments;
    size_t segments_len;
    uint8_t *text;
    size_t text_len;
};

/* What a cue sheet gave: the number of its starts where it was accepted, the line where MCS_BAD_LINE or MCS_NOT_RISING
 * refused it. */
struct mcs_cue {
    uint32_t count, line;
};

/* Words that the entries of a Group object are read into, with their room, and the number of entries that were. */
struct mcs_entries {
    uint32_t *words;
    size_t words_len;
    size_t count;
};

/* Of one of them, counted from 0: MCS_ENTRY_GROUP or MCS_ENTRY_TRACK, and the number of that object. */
static inline uint32_t mcs_entry_type(const struct mcs_entries *entries, size_t entry)
{
    return entries->words[MCS_GROUP_ENTRY_WORDS * entry];
}

static inline uint64_t mcs_entry_object(const struct mcs_entries *entries, size_t entry)
{
    const uint32_t *words = entries->words + MCS_GROUP_ENTRY_WORDS * entry;
    uint64_t high = words[2];
    return high << 32 | words[1];
}

/* The same of a Track Segments object, whose words are the positions. */
struct mcs_positions {
    uint32_t *positions;
    size_t positions_len;
    size_t count;
};

/* The object number that a value of MCS_OBJECT_OCTETS octets is; and the value of a number. */
static inline uint64_t mcs_object_at(const uint8_t *value)
{
    uint64_t number = 0;
    for (unsigned k = MCS_OBJECT_OCTETS; k > 0; k--) {
        number = number << 8 | value[k - 1u];
    }
    return number;
}

static inline void mcs_put_object(uint8_t *value, uint64_t number)
{
    for (unsigned k = 0; k < MCS_OBJECT_OCTETS; k++) {
        const uint8_t octet = number & 0xFFu;
        value[k] = octet;
        number >>= 8;
    }
}

/* ---- Calls: what each does, and its refusals, stands in mcs.h ---------------------------------------------------------------- */

/* Card load; where it is accepted, the catalogue is what was loaded, and lies in the room's tables. *block is the bad block where
 * mcs_names_block says so of the number that is returned, and stays as it was by every other. */
static inline uint32_t mcs_catalogue_load(const uint8_t *card, size_t card_len, const struct mcs_room *room,
                                          struct mcs_catalogue *catalogue, uint32_t *block)
{
    uint32_t counts[4] = {0, 0, 0, 0};
    uint32_t number = mcs_card_load(card, card_len, MCS_LENT(*room), counts, block);
    if (number == MCS_OK) {
        catalogue->groups = room->groups;
        catalogue->groups_len = counts[0] * MCS_GROUP_WORDS;
        catalogue->tracks = room->tracks;
        catalogue->tracks_len = counts[1] * MCS_TRACK_WORDS;
        catalogue->segments = room->segments;
        catalogue->segments_len = counts[2] * MCS_SEGMENT_WORDS;
        catalogue->text = room->text;
        catalogue->text_len = counts[3];
    }
    return number;
}

/* Card write; place is what it carries. */
static inline uint32_t mcs_catalogue_write(const struct mcs_catalogue *catalogue, uint8_t *card, size_t card_len,
                                           uint32_t *blocks, struct mcs_place *place)
{
    return mcs_card_write(MCS_LENT(*catalogue), card, card_len, blocks, MCS_CARRIED(place));
}

/* Cue sheet; starts is the table that is filled, and starts_len its room. */
static inline uint32_t mcs_cue_load(const uint8_t *sheet, size_t sheet_len, uint32_t *starts, size_t starts_len,
                                    struct mcs_cue *cue)
{
    return mcs_cue_sheet(sheet, sheet_len, starts, starts_len, &cue->count, &cue->line);
}

/* Start, with the players in the order of their services. The desk's catalogue and titles are there before it. */
static inline uint32_t mcs_desk_start(struct mcs_desk *desk, const struct mcs_player players[MCS_SERVICES])
{
    return mcs_start(MCS_LENT_BY(desk), MCS_STARTED(players[MCS_GENERIC]), MCS_STARTED(players[MCS_NAMED]), desk->state,
                     MCS_CARRIED(&desk->place));
}

static inline uint32_t mcs_desk_set_name(struct mcs_desk *desk, uint32_t service, const uint8_t *name, size_t name_len)
{
    return mcs_set_name(MCS_LENT_BY(desk), desk->state, service, name, name_len, MCS_CARRIED(&desk->place));
}

static inline uint32_t mcs_desk_activate(struct mcs_desk *desk, uint32_t service, uint32_t group)
{
    return mcs_activate(MCS_LENT_BY(desk), desk->state, service, group, MCS_CARRIED(&desk->place));
}

static inline uint32_t mcs_desk_deactivate(struct mcs_desk *desk, uint32_t service)
{
    return mcs_deactivate(MCS_LENT_BY(desk), desk->state, service, MCS_CARRIED(&desk->place));
}

static inline uint32_t mcs_desk_advance(struct mcs_desk *desk, uint32_t service, uint32_t hundredths)
{
    return mcs_advance(MCS_LENT_BY(desk), desk->state, service, hundredths, MCS_CARRIED(&desk->place));
}

static inline uint32_t mcs_desk_connect(struct mcs_desk *desk, uint32_t client, uint32_t mtu, uint8_t encrypted)
{
    return mcs_connect(MCS_LENT_BY(desk), desk->state, client, mtu, encrypted, MCS_CARRIED(&desk->place));
}

static inline uint32_t mcs_desk_disconnect(struct mcs_desk *desk, uint32_t client)
{
    return mcs_disconnect(MCS_LENT_BY(desk), desk->state, client, MCS_CARRIED(&desk->place));
}

static inline uint32_t mcs_desk_subscribe(struct mcs_desk *desk, uint32_t client, uint32_t service, uint32_t characteristic)
{
    return mcs_subscribe(MCS_LENT_BY(desk), desk->state, client, service, characteristic, MCS_CARRIED(&desk->place));
}

static inline uint32_t mcs_desk_unsubscribe(struct mcs_desk *desk, uint32_t client, uint32_t service, uint32_t characteristic)
{
    return mcs_unsubscribe(MCS_LENT_BY(desk), desk->state, client, service, characteristic, MCS_CARRIED(&desk->place));
}

static inline uint32_t mcs_desk_read(struct mcs_desk *desk, uint32_t client, uint32_t service, uint32_t characteristic,
                                     uint32_t offset, uint8_t *out, size_t out_len, uint32_t *length)
{
    return mcs_read(MCS_LENT_BY(desk), desk->state, client, service, characteristic, offset, out, out_len, length,
                    MCS_CARRIED(&desk->place));
}

static inline uint32_t mcs_desk_write(struct mcs_desk *desk, uint32_t client, uint32_t service, uint32_t characteristic,
                                      const uint8_t *value, size_t value_len)
{
    return mcs_write(MCS_LENT_BY(desk), desk->state, client, service, characteristic, value, value_len,
                     MCS_CARRIED(&desk->place));
}

static inline uint32_t mcs_desk_take(struct mcs_desk *desk, uint8_t *out, size_t out_len, struct mcs_served *served)
{
    uint32_t words[4] = {0, 0, 0, 0};
    uint32_t number = mcs_take(MCS_LENT_BY(desk), desk->state, out, out_len, words, MCS_CARRIED(&desk->place));
    if (number == MCS_OK) {
        served->client = words[0];
        served->service = words[1];
        served->characteristic = words[2];
        served->length = words[3];
    }
    return number;
}

/* Where the title of a service's current track stands: a part of the office's text or of the card's, which stays where it is. Refused
 * or while Inactive it is the empty front of the card's text. */
static inline uint32_t mcs_desk_title(struct mcs_desk *desk, uint32_t service, struct mcs_title *title)
{
    uint32_t part[MCS_PART_WORDS] = {MCS_CARD_TEXT, 0, 0};
    uint32_t number = mcs_title(MCS_LENT_BY(desk), desk->state, service, part, MCS_CARRIED(&desk->place));
    title->octets = part[0] == MCS_OFFICE_TEXT ? desk->titles.office : desk->catalogue.text;
    if (part[1] != 0) { /* an empty text may be a null pointer, to which nothing is added */
        title->octets += part[1];
    }
    title->length = part[2];
    title->text = part[0];
    return number;
}

/* What a Goto of a service's player would do, by single steps, of which so many are allowed. Where the call is refused, what is told
 * stays as it was. */
static inline uint32_t mcs_desk_goto(struct mcs_desk *desk, uint32_t service, uint32_t opcode, int32_t number, uint32_t allowed,
                                     struct mcs_goto *told)
{
    uint32_t made[MCS_GOTO_MADE_WORDS] = {0, 0}, place[MCS_GOTO_PLACE_WORDS] = {0, 0, 0, 0};
    uint32_t refusal = mcs_manual_goto(MCS_LENT_BY(desk), desk->state, service, opcode, number, allowed, made, place,
                                       MCS_CARRIED(&desk->place));
    if (refusal == MCS_OK) {
        told->outcome = made[0];
        told->steps = made[1];
        told->group = place[0];
        told->track = place[1];
        told->position = place[2];
        told->rest = place[3];
    }
    return refusal;
}

/* The Group object of a group of the desk's catalogue, and the Track Segments object of one of its tracks. */
static inline uint32_t mcs_desk_group_object(struct mcs_desk *desk, uint32_t group, uint8_t *out, size_t out_len,
                                             uint32_t *length)
{
    return mcs_group_object_write(MCS_LENT(desk->catalogue), group, out, out_len, length, MCS_CARRIED(&desk->place));
}

static inline uint32_t mcs_desk_segments_object(struct mcs_desk *desk, uint32_t track, uint8_t *out, size_t out_len,
                                                uint32_t *length)
{
    return mcs_segments_object_write(MCS_LENT(desk->catalogue), track, out, out_len, length, MCS_CARRIED(&desk->place));
}

/* An object that was handed out, back into its entries: of a Group object, of a Track Segments object. */
static inline uint32_t mcs_group_entries(const uint8_t *octets, size_t octets_len, struct mcs_entries *entries)
{
    return mcs_group_object_read(octets, octets_len, entries->words, entries->words_len, &entries->count);
}

static inline uint32_t mcs_segment_positions(const uint8_t *octets, size_t octets_len, struct mcs_positions *segments)
{
    return mcs_segments_object_read(octets, octets_len, segments->positions, segments->positions_len, &segments->count);
}

#endif
