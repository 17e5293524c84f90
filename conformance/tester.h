/* A stand-in for the test equipment of the Media Control Service's test suite (MCS.TS.p5, here "the suite"), which its section
 * 3.2 parts in two.
 *
 * The Lower Tester is one client of the core: it reads, writes and subscribes, and what the core's takes hand out are the
 * notifications that it receives. The Upper Tester is the desk's own side: it activates groups, lets time pass, renames the player
 * and lends the office's titles, and has a second client, the panel, which is subscribed to nothing, for what only a client can
 * order.
 *
 * After every step all that is owed is taken, as the header asks of a host. What arrived is kept until the next step, and what
 * no expectation has named by then fails the case; notifications of one step may come in any order (3.2). */
#ifndef TESTER_H
#define TESTER_H

#include "service.h"
#include "tables.h"

#include <stdbool.h>

/* Duration and position where there is no current track: all bits set, in 32 bits and signed (the standard, 3.6 and
 * 3.7). */
#define UNAVAILABLE (-1)

/* An Object ID where there is none: the characteristic has no octets (the standard, 3.10 to 3.14). */
#define NO_OBJECT (-1LL)

/* ---- Catalogues, beside the sample (SAMPLE_LINES of harness/tables.h) ---------------------------------------------------- */

extern const catalogue_lines ARCHIVE_LINES; /* many groups, tracks and segments; no two titles or durations alike */
extern const catalogue_lines TWINS_LINES;   /* the same groups and stamps, and neighbours whose titles or durations are alike */
extern const catalogue_lines LONG_TITLES_LINES; /* two groups of one track, each title 128 octets */
extern const catalogue_lines MEETING_LINES;     /* a track that lasts more than an hour at every playback speed */

/* What an office calls their tracks, by number; NULL for one that keeps the card's title (SCOPE 5.1 and 5.5). */
extern const char *const SAMPLE_OFFICE[];      /* renames track 0 alone */
extern const char *const ARCHIVE_OFFICE[];     /* the titles of neighbours are alike in two texts, or in two parts of one */
extern const char *const LONG_TITLES_OFFICE[]; /* of 128 octets too */

/* ---- The tester ---------------------------------------------------------------------------------------------------------- */

/* The suite's two services differ in their UUID alone (3.2), which is the host's. The core has both on one desk, and each case
 * is run on each of them. So that the second run is not the first once more, each has its own name, CCID, client numbers,
 * ATT_MTU and way of seeking.
 *
 * While a case is run on one service, the other stands beside it: its player plays, at a position and a speed that no case asks
 * for, with a rest that the clock has left behind the position and a next track named, and supports Play alone; the Lower Tester is
 * subscribed to all of its slots. After every step its octets in the state have to be what they were before, and nothing of it may
 * have been notified. */
struct service {
    const char *tcid; /* the front of its cases' TCIDs */
    uint32_t number;  /* among the services of the core */
    const char *player_name;
    uint8_t ccid;
    uint32_t lower_client;
    uint32_t upper_client; /* the panel */
    uint32_t third_client; /* connects without encryption, where a case asks for one */
    uint32_t mtu;
    uint8_t seeks_by; /* the opcode by which the Upper Tester brings the player into Seeking */
};

extern const struct service SERVICE[MCS_SERVICES];

#define INBOX_ROOM 32u

struct notification {
    uint32_t characteristic, length;
    uint8_t octets[MCS_OUTPUT_OCTETS];
    bool expected;
};

struct tester {
    const struct service *service;
    uint8_t opcode, initial; /* what the case's row of the suite's table says: target opcode and initial state */
    uint32_t cccds;          /* what its initial condition subscribes to */

    const catalogue_lines *lines; /* the catalogue that is lent */
    const char *const *titles;    /* the office's titles that are; NULL where it renames nothing */
    tables made;
    struct mcs_desk desk;
    uint8_t before[MCS_STATE_OCTETS]; /* the state before a call that the core may refuse */
    uint8_t beside[MCS_STATE_OCTETS]; /* a state in which the other service's octets are what they have to be */
    uint32_t mtu;
    uint8_t seeks_by;

    struct notification inbox[INBOX_ROOM];
    size_t received;
    bool forgets; /* what arrives is not looked at: the Upper Tester puts the player somewhere */

    unsigned expectations, failures;
    const char *file; /* where the case stands */
    int line;
    char first_failure[256];
    bool tell_all; /* every failure on standard error */
};

/* The service that is tested, and one that is not; the playing order of that one's player. */
#define TESTED(t) ((t)->service->number)
#define OTHER(t) ((TESTED(t) + 1u) % MCS_SERVICES)
#define OTHERS_ORDER 8u
#define LOWER(t) ((t)->service->lower_client)
#define UPPER(t) ((t)->service->upper_client)
#define THIRD(t) ((t)->service->third_client)

/* ---- Expectations -------------------------------------------------------------------------------------------------------- */

/* A case on one of the services begins with the tester cleared. It fails at its end where something came that it did not expect,
 * or where it expected nothing at all. */
void begin_case(struct tester *t, const struct service *service, bool tell_all);
void end_case(struct tester *t);

/* The name of a source file without its folders. */
const char *file_name(const char *path);

/* Notes where the case stands. */
struct tester *standing(struct tester *t, const char *file, int line);

/* What has to hold for the case to be made at all, such as that a group could be activated. Whether it does is handed back. */
bool require(struct tester *t, bool holds, const char *format, ...);

/* The same of what the case is about: counted, since a case that expects nothing has tested nothing. */
#define expect(t, ...) ((t)->expectations++, require(t, __VA_ARGS__))

/* ---- The Upper Tester ---------------------------------------------------------------------------------------------------- */

/* The preambles 4.2.1 to 4.2.5 and the initial condition's subscriptions: a core freshly started, the Lower Tester and the panel
 * connected, both encrypted; no track is renamed. Handles are the numbers of the characteristics in the service that is tested,
 * which has the mask; bonding is the host's. */
void preamble(struct tester *t, const catalogue_lines *lines);
void preamble_with(struct tester *t, const catalogue_lines *lines, uint32_t mask, uint32_t mtu);

/* Where the player is, or is put. */
struct setting {
    uint8_t order; /* playing order, 1 to 8 */
    uint32_t group, track, position;
    uint8_t state;
};

/* Puts the player there and confirms group, track, position, order and state. What is notified on the way is received and
 * forgotten. Inactive: it was there, Paused, and was then deactivated. */
void upper_orders(struct tester *t, struct setting setting);

/* The office's titles are lent from now on, or none (NULL); and what the title of a track then is. */
void upper_lends(struct tester *t, const char *const *titles);
const char *title_of(const struct tester *t, uint32_t track);

void upper_activates(struct tester *t, uint32_t group);
void upper_renames(struct tester *t, const char *name);
/* The core has no clock of its own: wall time passes when it is told so, whatever the playback speed (SCOPE 13.1). */
void upper_lets_pass(struct tester *t, uint32_t hundredths);
/* The panel's writes; of the Media Control Point an opcode without a number. */
void upper_writes(struct tester *t, uint32_t characteristic, const uint8_t *octets, size_t length);
void upper_controls(struct tester *t, uint8_t opcode);
void upper_writes_object(struct tester *t, uint32_t characteristic, long long object);
void upper_sets_speed(struct tester *t, int8_t speed);

/* The player plays, at a position that was set: at half speed it is now given half a hundredth, which is confirmed. The position
 * does not show it. Another hundredth by the clock makes it a whole one; but where something sets the position before that, be it
 * to where it was, the half is gone (SCOPE 13.9). */
#define HALF_SPEED (-64) /* the standard, Table 3.2 */
void upper_plays_half(struct tester *t);

/* Group, track, position, order and state, as the octets of the state have them, beside what the Lower Tester reads. */
void upper_confirms(struct tester *t, struct setting setting);

/* What the manual's Goto says where all steps are allowed (SCOPE 15.1). And what it was asked for was since then written to the
 * Media Control Point, with the result that it said, where one is notified, and the place; its count fits the number. */
struct mcs_goto upper_asks_manual(struct tester *t, uint8_t opcode, int64_t number);
void expect_as_manual(struct tester *t, int64_t number, struct mcs_goto said);

/* ---- The Lower Tester ---------------------------------------------------------------------------------------------------- */

/* A set of characteristics, whose Client Characteristic Configuration descriptors (CCCD) are written with 0x0001. */
#define CCCD(characteristic) (1u << (characteristic))
void lower_subscribes(struct tester *t, uint32_t cccds);
/* The same with 0x0000. */
void lower_unsubscribes(struct tester *t, uint32_t cccds);

void lower_drops_bearer(struct tester *t);
void lower_connects(struct tester *t);
/* A third device connects, without encryption. */
void third_connects_unencrypted(struct tester *t);

/* GATT Read Characteristic Value, of one that is a number: its length and the number. Duration, position and speeds are signed;
 * an Object ID has 48 bits, or is NO_OBJECT. */
void expect_reads(struct tester *t, uint32_t characteristic, long long number);

/* The same of an Object ID whose value a later step needs. */
long long lower_reads_object(struct tester *t, uint32_t characteristic);

/* GATT Read Long Characteristic Values from an offset of 0: every part has ATT_MTU - 1 octets, but for the last, which has the
 * rest of the text. */
void expect_reads_text(struct tester *t, uint32_t characteristic, const char *text);
/* The same from another offset on. */
void expect_reads_on(struct tester *t, uint32_t characteristic, uint32_t offset, const char *text);

/* GATT Write Characteristic Value, which is answered: the core takes it. */
void lower_writes(struct tester *t, uint32_t characteristic, const uint8_t *octets, size_t length);
void lower_writes_position(struct tester *t, int64_t position);
void lower_writes_object(struct tester *t, uint32_t characteristic, long long object);

/* GATT Write Without Response: nothing is answered, so the core's number is dropped, and the case goes on by what is notified and
 * read. To the host the number still says that all is well or that the client erred; and if it erred, nothing is altered. */
void lower_commands(struct tester *t, uint32_t characteristic, const uint8_t *octets, size_t length);
/* The same of the Media Control Point; the number is not sent with an opcode that has none. A Goto comes to what the manual's said
 * before. */
void lower_controls(struct tester *t, uint8_t opcode, int64_t number);
void lower_commands_position(struct tester *t, int64_t position);

/* A Write Without Response that the core refuses: nothing comes back, nothing is altered and nothing is notified. */
void expect_command_ignored(struct tester *t, uint32_t characteristic, const uint8_t *octets, size_t length);

/* The core answers this client with this number, and its state stays as it was. */
void expect_read_refused(struct tester *t, uint32_t client, uint32_t characteristic, uint32_t offset, uint32_t number);
void expect_write_refused(struct tester *t, uint32_t client, uint32_t characteristic, const uint8_t *octets, size_t length,
                          uint32_t number);
void expect_subscription_refused(struct tester *t, uint32_t client, uint32_t characteristic, uint32_t number);

/* The core does not take this number from the Lower Tester: by Write it says so (0x13), by Write Without Response nothing does. */
void expect_object_refused(struct tester *t, uint32_t characteristic, long long object);

/* Of what the last step brought: a notification of this characteristic with this value; of a text its first ATT_MTU - 3 octets;
 * of the control point the opcode that was requested, and the result. */
void expect_notified(struct tester *t, uint32_t characteristic, long long number);
void expect_notified_text(struct tester *t, uint32_t characteristic, const char *text);
void expect_result(struct tester *t, uint8_t opcode, uint8_t result);

/* Of what the last step brought: nothing that has not been expected. */
void expect_silence(struct tester *t);

/* The same, not counted: asked before every step and at the end of a case. */
void nothing_else_came(struct tester *t);

/* ---- Objects --------------------------------------------------------------------------------------------------------------
 * Object transfer is the host's. Where the suite has the Lower Tester fetch an object by its number (4.2.7 and 4.2.8), the core
 * writes the object's octets, which the host would send, and reads them back; the tester takes them apart by the layout of the
 * standard, 4.2 and 4.4, too, and both have to come to the same. */

/* A Group object: the numbers of the groups and of the tracks that it lists, in its order. */
#define MOST_ENTRIES (MCS_MOST_GROUP_OBJECT / MCS_GROUP_ENTRY_OCTETS)
struct group_object {
    uint32_t group_count, track_count;
    long long groups[MOST_ENTRIES], tracks[MOST_ENTRIES];
};

/* A Track Segments object: where the segments begin. */
struct segments_object {
    size_t count;
    uint32_t positions[MCS_MOST_SEGMENTS];
};

/* An object without entries where it cannot be fetched. */
void fetch_group(struct tester *t, long long object, struct group_object *fetched);
void fetch_segments(struct tester *t, long long object, struct segments_object *fetched);

/* The object lists these groups, and these tracks behind them. */
void expect_lists(struct tester *t, const struct group_object *object, const uint32_t *groups, uint32_t group_count,
                  const uint32_t *tracks, uint32_t track_count);

/* The position lies in this segment of the object, counted from 1. */
void expect_in_segment(struct tester *t, const struct segments_object *object, uint32_t position, size_t number);

/* Two Object IDs of different steps, or one of a step and one of an object that lists it. */
void expect_same_object(struct tester *t, long long object, long long other);
void expect_other_object(struct tester *t, long long object, long long other);

/* ---- Steps that several sections of the suite share ----------------------------------------------------------------------- */

/* The Object IDs of where a player is read as they should, but for that of the next track, which follows from the order. */
void expect_objects_of(struct tester *t, struct setting setting);

/* An Object ID that has changed is notified, where the case's initial condition subscribes to it. */
void expect_told(struct tester *t, uint32_t characteristic, long long before, long long now);

/* What is expected after the case's opcode where it moves the track or the group, from a setting: result, Media State, Track
 * Title, Track Duration, Track Changed, Track Position and Object IDs as notified and as read, and where the Upper Tester sees the
 * player. Where the player is then is handed back. */
struct setting expect_moved(struct tester *t, struct setting from, uint32_t group, uint32_t track);

/* The same where the move cannot be made: a result that says so, and nothing else. */
void expect_not_completed(struct tester *t, struct setting from);

/* What is expected after the case's opcode where it moves the position alone: result and Track Position, the state as it was. */
void expect_repositioned(struct tester *t, uint32_t from, uint32_t to);

/* Time passes in the case's initial state, from a position; where the position is then is expected and handed back. Played is how
 * far it gets in Playing. With 0 the clock stands. */
uint32_t expect_time_passing(struct tester *t, uint32_t position, uint32_t hundredths, uint32_t played);

#endif
