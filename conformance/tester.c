/* The Lower and the Upper Tester. What is expected is said by the cases; here it is done and compared. */
#include "tester.h"
#include "words.h"

#include <stdarg.h>
#include <stdio.h>
#include <string.h>

const struct service SERVICE[MCS_SERVICES] = {
    {"MCS", MCS_NAMED, "Desk 4", 0x07, 0, 1, 2, 247, MCS_OPCODE_FAST_FORWARD},
    {"GMCS", MCS_GENERIC, "Transcription office, ground floor", 0xC4, 3, 2, 1, 23, MCS_OPCODE_FAST_REWIND},
};

const char *file_name(const char *path)
{
    const char *slash = strrchr(path, '/');
    return slash == NULL ? path : slash + 1;
}

/* ---- Expectations -------------------------------------------------------------------------------------------------------- */

struct tester *standing(struct tester *t, const char *file, int line)
{
    t->file = file_name(file);
    t->line = line;
    return t;
}

static void fail(struct tester *t, const char *format, va_list values)
{
    char report[sizeof t->first_failure];
    int used = snprintf(report, sizeof report, "%s:%d: ", t->file, t->line);
    (void)vsnprintf(report + used, sizeof report - (size_t)used, format, values);
    if (t->tell_all) {
        fprintf(stderr, "%s\n", report);
    }
    if (t->failures++ == 0) {
        memcpy(t->first_failure, report, sizeof report);
    }
}

bool require(struct tester *t, bool holds, const char *format, ...)
{
    if (!holds) {
        va_list values;
        va_start(values, format);
        fail(t, format, values);
        va_end(values);
    }
    return holds;
}

/* For reports: the name of a characteristic, and what a number that a call returned means. */
static const char *called(uint32_t characteristic) { return mcs_characteristic_words(characteristic); }
static const char *meaning(uint32_t number) { return number == MCS_OK ? "accepted" : mcs_refusal_words(number); }

/* ---- Steps --------------------------------------------------------------------------------------------------------------- */

void nothing_else_came(struct tester *t)
{
    for (size_t k = 0; k < t->received; k++) {
        require(t, t->inbox[k].expected, "%s was notified, which was not expected", called(t->inbox[k].characteristic));
    }
    t->received = 0;
}

static uint32_t rest_of(const struct tester *t, uint32_t service)
{
    return word_at(t->desk.state + MCS_AT_SERVICE(service) + MCS_IN_REST);
}

/* The octets of a service in the state, and those of its player, which stand before the clients' accounts. */
#define SERVICE_OCTETS (MCS_AT_SERVICE(1u) - MCS_AT_SERVICE(0u))
#define PLAYER_OCTETS MCS_IN_ACCOUNT(0u)

/* Keeps what the other services are, and says whether so many octets of each still are that. */
static void keep_others(struct tester *t) { memcpy(t->beside, t->desk.state, sizeof t->beside); }
static bool others_stand(const struct tester *t, size_t octets)
{
    for (uint32_t s = 0; s < MCS_SERVICES; s++) {
        if (s != TESTED(t) && memcmp(t->beside + MCS_AT_SERVICE(s), t->desk.state + MCS_AT_SERVICE(s), octets) != 0) {
            return false;
        }
    }
    return true;
}

/* Takes what is owed, as long as there is room: more than that no case expects. All is the Lower Tester's and of the service
 * that is tested, and each has at most ATT_MTU - 3 octets. */
static void take_all(struct tester *t)
{
    while (t->received < INBOX_ROOM) {
        struct notification *next = &t->inbox[t->received];
        struct mcs_served served = {0, 0, MCS_NOTHING, 0};
        uint32_t number = mcs_desk_take(&t->desk, next->octets, sizeof next->octets, &served);
        if (!require(t, number == MCS_OK, "a take: %s", meaning(number)) || served.characteristic == MCS_NOTHING) {
            return;
        }
        require(t, served.client == LOWER(t), "%s was notified to client %u, which is subscribed to nothing",
                called(served.characteristic), (unsigned)served.client);
        require(t, served.service == TESTED(t), "%s was notified of service %u, and tested is %u",
                called(served.characteristic), (unsigned)served.service, (unsigned)TESTED(t));
        require(t, served.length <= t->mtu - 3u, "%s was notified in %u octets at an ATT_MTU of %u",
                called(served.characteristic), (unsigned)served.length, (unsigned)t->mtu);
        next->characteristic = served.characteristic;
        next->length = served.length;
        next->expected = t->forgets;
        t->received++;
    }
}

/* The end of every step. A call to one service never alters the other (SCOPE 17.4). */
static void receive(struct tester *t)
{
    take_all(t);
    require(t, others_stand(t, SERVICE_OCTETS), "the service that is not tested was altered");
}

void begin_case(struct tester *t, const struct service *service, bool tell_all)
{
    memset(t, 0, sizeof *t);
    t->service = service;
    t->seeks_by = service->seeks_by;
    t->tell_all = tell_all;
    standing(t, __FILE__, __LINE__);
}

void end_case(struct tester *t)
{
    if (require(t, t->expectations != 0, "nothing is expected")) {
        nothing_else_came(t);
        receive(t);
        nothing_else_came(t);
    }
}

/* A step: what the one before brought has been expected; the call is accepted; what it brings is taken. */
#define STEP(t, what, call) (nothing_else_came(t), made(t, what, call))
static void made(struct tester *t, const char *what, uint32_t number)
{
    require(t, number == MCS_OK, "%s: %s", what, meaning(number));
    receive(t);
}

/* Connecting and disconnecting act on the client's accounts in all services (SCOPE 17.9), and on no player. */
static uint32_t linked(struct tester *t, uint32_t number)
{
    require(t, others_stand(t, PLAYER_OCTETS), "the player that is not tested was altered by a connection");
    keep_others(t);
    return number;
}

/* ---- The Upper Tester ---------------------------------------------------------------------------------------------------- */

/* Start with this mask for the service that is tested. */
static uint32_t started(struct tester *t, uint32_t mask)
{
    struct mcs_player players[MCS_SERVICES];
    uint32_t number;
    for (size_t s = 0; s < MCS_SERVICES; s++) {
        struct mcs_player *player = &players[SERVICE[s].number];
        player->name = (const uint8_t *)SERVICE[s].player_name;
        player->name_len = strlen(SERVICE[s].player_name);
        player->mask = &SERVICE[s] == t->service ? mask : 1u << opcode_place(MCS_OPCODE_PLAY);
        player->ccid = SERVICE[s].ccid;
    }
    number = mcs_desk_start(&t->desk, players);
    keep_others(t);
    return number;
}

/* The players that are not tested play in the catalogue's last group with tracks, and its first track is named as the next one.
 * At their speed, -96, a hundredth by the clock is less than one of the track: it is the rest behind the position, 23,170 65,536ths
 * (SCOPE 13.2 and 13.3; 2^31 lies between the squares of 46,339 and 46,341). The Lower Tester subscribes when they are where they
 * stay, so that nothing of them is owed. */
#define OTHERS_REST 23170u
static void begin_others(struct tester *t)
{
    static const uint8_t order = OTHERS_ORDER, speed = 0xA0, play = MCS_OPCODE_PLAY, position[4] = {77, 0, 0, 0};
    uint32_t group = t->lines->group_count - 1u;
    uint8_t named[MCS_OBJECT_OCTETS];
    while (t->lines->groups[group].tracks == 0) {
        group--;
    }
    mcs_put_object(named, MCS_OBJECT_OF_TRACK(group_word(&t->made, group, FIRST_TRACK)));
    for (uint32_t s = 0; s < MCS_SERVICES; s++) {
        bool done = true;
        if (s != TESTED(t)) {
            done = mcs_desk_write(&t->desk, UPPER(t), s, MCS_PLAYING_ORDER, &order, 1) == MCS_OK &&
                   mcs_desk_write(&t->desk, UPPER(t), s, MCS_PLAYBACK_SPEED, &speed, 1) == MCS_OK &&
                   mcs_desk_activate(&t->desk, s, group) == MCS_OK &&
                   mcs_desk_write(&t->desk, UPPER(t), s, MCS_NEXT_TRACK_OBJECT, named, sizeof named) == MCS_OK &&
                   mcs_desk_write(&t->desk, UPPER(t), s, MCS_POSITION, position, sizeof position) == MCS_OK &&
                   mcs_desk_write(&t->desk, UPPER(t), s, MCS_CONTROL_POINT, &play, 1) == MCS_OK &&
                   mcs_desk_advance(&t->desk, s, 1) == MCS_OK && rest_of(t, s) == OTHERS_REST;
            for (uint32_t bit = 0; bit < SLOTS; bit++) {
                done = done && mcs_desk_subscribe(&t->desk, LOWER(t), s, slot_at(bit)) == MCS_OK;
            }
        }
        require(t, done, "service %u does not stand beside the one that is tested", (unsigned)s);
    }
    keep_others(t);
}

/* Titles become what is lent: the parts of the office's text follow each other. */
static void lend(struct tester *t, const char *const *titles)
{
    tables *made = &t->made;
    rename_nothing(made);
    for (uint32_t track = 0; titles != NULL && track < t->lines->track_count; track++) {
        if (titles[track] != NULL) {
            uint32_t *entry = made->renames + MCS_RENAME_WORDS * track;
            entry[RENAME_OFFSET] = made->length[OFFICE];
            entry[RENAME_LENGTH] = (uint32_t)strlen(titles[track]);
            memcpy(made->office + entry[RENAME_OFFSET], titles[track], entry[RENAME_LENGTH]);
            made->length[OFFICE] += entry[RENAME_LENGTH];
        }
    }
    t->titles = titles;
    t->desk.titles = lent_titles(made);
}

/* It is no call of the core: what comes is what the takes hand out that follow. */
void upper_lends(struct tester *t, const char *const *titles)
{
    nothing_else_came(t);
    lend(t, titles);
    receive(t);
}

const char *title_of(const struct tester *t, uint32_t track)
{
    return t->titles != NULL && t->titles[track] != NULL ? t->titles[track] : t->lines->tracks[track].title;
}

void preamble_with(struct tester *t, const catalogue_lines *lines, uint32_t mask, uint32_t mtu)
{
    if (t->lines != lines) {
        t->lines = lines;
        tables_of_lines(lines, &t->made);
        t->desk.catalogue = lent(&t->made);
    }
    lend(t, NULL);
    t->mtu = mtu;
    memset(t->desk.state, 0xEE, sizeof t->desk.state); /* what the octets held before a start does not matter */
    STEP(t, "start", started(t, mask));
    lower_connects(t);
    STEP(t, "connecting the panel", linked(t, mcs_desk_connect(&t->desk, UPPER(t), 23, 1)));
    begin_others(t);
    lower_subscribes(t, t->cccds);
}

void preamble(struct tester *t, const catalogue_lines *lines) { preamble_with(t, lines, MCS_ALL_OPCODES, t->service->mtu); }

void upper_activates(struct tester *t, uint32_t group)
{
    STEP(t, "activating a group", mcs_desk_activate(&t->desk, TESTED(t), group));
}

void upper_renames(struct tester *t, const char *name)
{
    STEP(t, "renaming the player", mcs_desk_set_name(&t->desk, TESTED(t), (const uint8_t *)name, strlen(name)));
}

void upper_lets_pass(struct tester *t, uint32_t hundredths)
{
    STEP(t, "letting time pass", mcs_desk_advance(&t->desk, TESTED(t), hundredths));
}

void upper_writes(struct tester *t, uint32_t characteristic, const uint8_t *octets, size_t length)
{
    STEP(t, "the panel's write", mcs_desk_write(&t->desk, UPPER(t), TESTED(t), characteristic, octets, length));
}

void upper_controls(struct tester *t, uint8_t opcode) { upper_writes(t, MCS_CONTROL_POINT, &opcode, 1); }

void upper_writes_object(struct tester *t, uint32_t characteristic, long long object)
{
    uint8_t octets[MCS_OBJECT_OCTETS];
    mcs_put_object(octets, (uint64_t)object);
    upper_writes(t, characteristic, octets, sizeof octets);
}

void upper_sets_speed(struct tester *t, int8_t speed)
{
    const uint8_t octet = (uint8_t)speed;
    upper_writes(t, MCS_PLAYBACK_SPEED, &octet, 1);
}

void upper_plays_half(struct tester *t)
{
    upper_sets_speed(t, HALF_SPEED);
    upper_lets_pass(t, 1);
    require(t, rest_of(t, TESTED(t)) == 32768u, "a rest of %u 65,536ths, not half a hundredth",
            (unsigned)rest_of(t, TESTED(t)));
}

static bool is_at(const struct tester *t, struct setting setting)
{
    const uint8_t *player = t->desk.state + MCS_AT_SERVICE(TESTED(t));
    return player[MCS_IN_ORDER] == setting.order && word_at(player + MCS_IN_GROUP) == setting.group &&
           word_at(player + MCS_IN_TRACK) == setting.track && word_at(player + MCS_IN_POSITION) == setting.position &&
           player[MCS_IN_MEDIA_STATE] == setting.state;
}

void upper_orders(struct tester *t, struct setting setting)
{
    static const uint8_t by_number = 3;
    const bool then_deactivates = setting.state == MCS_INACTIVE;
    uint8_t track[5], position[4];
    uint32_t track_octets =
        control_value(track, MCS_OPCODE_GOTO_TRACK, setting.track - group_word(&t->made, setting.group, FIRST_TRACK) + 1);
    put_word(position, setting.position);
    setting.state = then_deactivates ? MCS_PAUSED : setting.state;

    /* The track is chosen by its number; the order is written afterwards, which moves nothing. */
    t->forgets = true;
    upper_writes(t, MCS_PLAYING_ORDER, &by_number, 1);
    upper_activates(t, setting.group);
    upper_writes(t, MCS_CONTROL_POINT, track, track_octets);
    upper_writes(t, MCS_PLAYING_ORDER, &setting.order, 1);
    upper_writes(t, MCS_POSITION, position, sizeof position);
    if (setting.state == MCS_PLAYING) {
        upper_controls(t, MCS_OPCODE_PLAY);
    } else if (setting.state == MCS_SEEKING) {
        upper_controls(t, t->seeks_by);
    }
    require(t, is_at(t, setting), "the player is not where it was put");
    if (then_deactivates) {
        STEP(t, "deactivating", mcs_desk_deactivate(&t->desk, TESTED(t)));
    }
    t->forgets = false;
}

void upper_confirms(struct tester *t, struct setting setting)
{
    expect(t, is_at(t, setting), "the player is not in group %u, track %u, at %u, in order %u, in state %u",
           (unsigned)setting.group, (unsigned)setting.track, (unsigned)setting.position, (unsigned)setting.order,
           (unsigned)setting.state);
}

/* The state before a call that the core may refuse, or that alters nothing. */
static void keep_state(struct tester *t) { memcpy(t->before, t->desk.state, sizeof t->before); }
static bool unaltered(const struct tester *t) { return memcmp(t->before, t->desk.state, sizeof t->before) == 0; }

static uint32_t amount(int64_t number) { return (uint32_t)(number < 0 ? -number : number); }

struct mcs_goto upper_asks_manual(struct tester *t, uint8_t opcode, int64_t number)
{
    struct mcs_goto said = {0, 0, 0, 0, 0, 0};
    uint32_t answer;
    keep_state(t);
    answer = mcs_desk_goto(&t->desk, TESTED(t), opcode, (int32_t)number, amount(number), &said);
    require(t, answer == MCS_OK, "the manual's Goto: %s", meaning(answer));
    require(t, unaltered(t), "the manual's Goto altered the state");
    return said;
}

/* The steps made, First or Last counted, are |n| where all were made (SCOPE 15.2). With the results 2 and 3 there is none (SCOPE
 * 15.3). Where a step cannot be made, the count includes it (SCOPE 15.4); First and Last can always be made. */
static bool right_count(int64_t number, struct mcs_goto said)
{
    switch (said.outcome) {
    case MCS_RESULT_SUCCESS:
        return said.steps == amount(number);
    case MCS_RESULT_NOT_COMPLETED:
        return said.steps > 1u && said.steps <= amount(number);
    default:
        return said.steps == 0;
    }
}

void expect_as_manual(struct tester *t, int64_t number, struct mcs_goto said)
{
    const uint8_t *player = t->desk.state + MCS_AT_SERVICE(TESTED(t));
    for (size_t k = 0; k < t->received; k++) {
        if (t->inbox[k].characteristic == MCS_CONTROL_POINT) {
            expect(t, t->inbox[k].octets[1] == said.outcome, "the result is %u, and that of the manual's Goto %u",
                   (unsigned)t->inbox[k].octets[1], (unsigned)said.outcome);
        }
    }
    expect(t, right_count(number, said), "the manual's Goto counts %u steps of %lld, with the outcome %u", (unsigned)said.steps,
           (long long)number, (unsigned)said.outcome);
    expect(t,
           word_at(player + MCS_IN_GROUP) == said.group && word_at(player + MCS_IN_TRACK) == said.track &&
               word_at(player + MCS_IN_POSITION) == said.position && rest_of(t, TESTED(t)) == said.rest,
           "the player is not where the manual's Goto says: group %u, track %u, at %u, with a rest of %u", (unsigned)said.group,
           (unsigned)said.track, (unsigned)said.position, (unsigned)said.rest);
}

/* ---- The Lower Tester ---------------------------------------------------------------------------------------------------- */

static void each_cccd(struct tester *t, uint32_t cccds, const char *what,
                      uint32_t (*call)(struct mcs_desk *, uint32_t, uint32_t, uint32_t))
{
    for (uint32_t characteristic = 0; characteristic < CHARACTERISTIC_BOUND; characteristic++) {
        if ((cccds & CCCD(characteristic)) != 0) {
            STEP(t, what, call(&t->desk, LOWER(t), TESTED(t), characteristic));
        }
    }
}

void lower_subscribes(struct tester *t, uint32_t cccds) { each_cccd(t, cccds, "subscribing", mcs_desk_subscribe); }
void lower_unsubscribes(struct tester *t, uint32_t cccds) { each_cccd(t, cccds, "unsubscribing", mcs_desk_unsubscribe); }

void lower_drops_bearer(struct tester *t) { STEP(t, "disconnecting", linked(t, mcs_desk_disconnect(&t->desk, LOWER(t)))); }
void lower_connects(struct tester *t) { STEP(t, "connecting", linked(t, mcs_desk_connect(&t->desk, LOWER(t), t->mtu, 1))); }

void third_connects_unencrypted(struct tester *t)
{
    STEP(t, "connecting unencrypted", linked(t, mcs_desk_connect(&t->desk, THIRD(t), 23, 0)));
}

/* A number as these octets of a characteristic say it, and how many there should be (SCOPE 16.1). Durations, positions and
 * speeds are signed (the standard, 3.6 to 3.9). */
static long long number_of(uint32_t characteristic, const uint8_t *octets, uint32_t length, uint32_t *width)
{
    switch (characteristic) {
    case MCS_SEGMENTS_OBJECT:
    case MCS_TRACK_OBJECT:
    case MCS_NEXT_TRACK_OBJECT:
    case MCS_PARENT_GROUP_OBJECT:
    case MCS_GROUP_OBJECT:
        *width = length == 0 ? 0 : MCS_OBJECT_OCTETS;
        return length == 0 ? NO_OBJECT : (long long)mcs_object_at(octets);
    case MCS_DURATION:
    case MCS_POSITION:
        *width = 4;
        return signed_word(octets);
    case MCS_OPCODES_SUPPORTED:
        *width = 4;
        return word_at(octets);
    case MCS_ORDERS_SUPPORTED:
        *width = 2;
        return octets[0] | octets[1] << 8;
    case MCS_PLAYBACK_SPEED:
    case MCS_SEEKING_SPEED:
        *width = 1;
        return signed_octet(octets[0]);
    default:
        *width = 1;
        return octets[0];
    }
}

/* Whether these octets are the number; `how` is what was done to get them. */
static void expect_number(struct tester *t, const char *how, uint32_t characteristic, const uint8_t *octets, uint32_t length,
                          long long number)
{
    uint32_t width;
    long long is = number_of(characteristic, octets, length, &width);
    expect(t, length == width && is == number, "%s %s %lld in %u octets, expected %lld in %u", called(characteristic), how, is,
           (unsigned)length, number, (unsigned)width);
}

/* A read at 0; whether it was accepted. */
static bool lower_reads(struct tester *t, uint32_t characteristic, uint8_t octets[MCS_OUTPUT_OCTETS], uint32_t *length)
{
    uint32_t answer = mcs_desk_read(&t->desk, LOWER(t), TESTED(t), characteristic, 0, octets, MCS_OUTPUT_OCTETS, length);
    return require(t, answer == MCS_OK, "reading %s: %s", called(characteristic), meaning(answer));
}

void expect_reads(struct tester *t, uint32_t characteristic, long long number)
{
    uint8_t octets[MCS_OUTPUT_OCTETS] = {0};
    uint32_t length = 0;
    if (lower_reads(t, characteristic, octets, &length)) {
        expect_number(t, "reads", characteristic, octets, length, number);
    }
}

long long lower_reads_object(struct tester *t, uint32_t characteristic)
{
    uint8_t octets[MCS_OUTPUT_OCTETS] = {0};
    uint32_t length = 0;
    const bool read = lower_reads(t, characteristic, octets, &length);
    require(t, length == 0 || length == MCS_OBJECT_OCTETS, "%s reads %u octets", called(characteristic), (unsigned)length);
    return read && length == MCS_OBJECT_OCTETS ? (long long)mcs_object_at(octets) : NO_OBJECT;
}

void expect_reads_on(struct tester *t, uint32_t characteristic, uint32_t offset, const char *text)
{
    const uint32_t whole = (uint32_t)strlen(text), most = t->mtu - 1u;
    uint32_t part;

    /* A client asks for parts until one is shorter than an answer may be. */
    do {
        uint8_t octets[MCS_OUTPUT_OCTETS];
        const uint32_t rest = whole - offset;
        uint32_t answer;
        part = 0;
        answer = mcs_desk_read(&t->desk, LOWER(t), TESTED(t), characteristic, offset, octets, sizeof octets, &part);
        if (!require(t, answer == MCS_OK, "reading %s at %u: %s", called(characteristic), (unsigned)offset, meaning(answer)) ||
            !expect(t, part == (rest < most ? rest : most) && memcmp(octets, text + offset, part) == 0,
                    "%s at %u reads %u octets, at an ATT_MTU of %u not those of \"%s\"", called(characteristic),
                    (unsigned)offset, (unsigned)part, (unsigned)t->mtu, text)) {
            return;
        }
        offset += part;
    } while (part == most);
}

void expect_reads_text(struct tester *t, uint32_t characteristic, const char *text)
{
    expect_reads_on(t, characteristic, 0, text);
}

void lower_writes(struct tester *t, uint32_t characteristic, const uint8_t *octets, size_t length)
{
    STEP(t, "a write", mcs_desk_write(&t->desk, LOWER(t), TESTED(t), characteristic, octets, length));
}

void lower_writes_position(struct tester *t, int64_t position)
{
    uint8_t octets[4];
    put_word(octets, (uint32_t)position);
    lower_writes(t, MCS_POSITION, octets, sizeof octets);
}

void lower_writes_object(struct tester *t, uint32_t characteristic, long long object)
{
    uint8_t octets[MCS_OBJECT_OCTETS];
    mcs_put_object(octets, (uint64_t)object);
    lower_writes(t, characteristic, octets, sizeof octets);
}

void lower_commands(struct tester *t, uint32_t characteristic, const uint8_t *octets, size_t length)
{
    uint32_t number;
    nothing_else_came(t);
    keep_state(t);
    number = mcs_desk_write(&t->desk, LOWER(t), TESTED(t), characteristic, octets, length);
    require(t, number == MCS_OK || MCS_IS_ATT_ERROR(number), "a command, a fault of the host: %s", meaning(number));
    require(t, number == MCS_OK || unaltered(t), "a command was refused and altered the state");
    receive(t);
}

void lower_controls(struct tester *t, uint8_t opcode, int64_t number)
{
    const bool is_goto = carries_number(opcode) && opcode != MCS_OPCODE_MOVE_RELATIVE;
    struct mcs_goto said = {0, 0, 0, 0, 0, 0};
    uint8_t octets[5];
    uint32_t length = control_value(octets, opcode, number);
    if (is_goto) {
        said = upper_asks_manual(t, opcode, number);
    }
    lower_commands(t, MCS_CONTROL_POINT, octets, length);
    if (is_goto) {
        expect_as_manual(t, number, said);
    }
}

void lower_commands_position(struct tester *t, int64_t position)
{
    uint8_t octets[4];
    put_word(octets, (uint32_t)position);
    lower_commands(t, MCS_POSITION, octets, sizeof octets);
}

void expect_command_ignored(struct tester *t, uint32_t characteristic, const uint8_t *octets, size_t length)
{
    lower_commands(t, characteristic, octets, length);
    expect_silence(t);
    expect(t, unaltered(t), "a write without response of %s was not ignored", called(characteristic));
}

#define REFUSED(t, what, characteristic, number, call) (keep_state(t), expect_refused(t, what, characteristic, number, call))
static void expect_refused(struct tester *t, const char *what, uint32_t characteristic, uint32_t number, uint32_t is)
{
    expect(t, is == number, "%s of %s was answered with 0x%02X (%s), expected 0x%02X (%s)", what, called(characteristic),
           (unsigned)is, meaning(is), (unsigned)number, meaning(number));
    expect(t, unaltered(t), "%s of %s altered the state", what, called(characteristic));
}

void expect_read_refused(struct tester *t, uint32_t client, uint32_t characteristic, uint32_t offset, uint32_t number)
{
    uint8_t octets[MCS_OUTPUT_OCTETS];
    uint32_t length;
    REFUSED(t, "a read", characteristic, number,
            mcs_desk_read(&t->desk, client, TESTED(t), characteristic, offset, octets, sizeof octets, &length));
}

void expect_write_refused(struct tester *t, uint32_t client, uint32_t characteristic, const uint8_t *octets, size_t length,
                          uint32_t number)
{
    REFUSED(t, "a write", characteristic, number, mcs_desk_write(&t->desk, client, TESTED(t), characteristic, octets, length));
}

void expect_subscription_refused(struct tester *t, uint32_t client, uint32_t characteristic, uint32_t number)
{
    REFUSED(t, "a subscription", characteristic, number, mcs_desk_subscribe(&t->desk, client, TESTED(t), characteristic));
}

void expect_object_refused(struct tester *t, uint32_t characteristic, long long object)
{
    uint8_t octets[MCS_OBJECT_OCTETS];
    mcs_put_object(octets, (uint64_t)object);
    expect_write_refused(t, LOWER(t), characteristic, octets, sizeof octets, MCS_NOT_ALLOWED);
    expect_command_ignored(t, characteristic, octets, sizeof octets);
}

/* The first of this characteristic that no expectation has met yet. */
static const struct notification *arrived(struct tester *t, uint32_t characteristic)
{
    for (size_t k = 0; k < t->received; k++) {
        struct notification *n = &t->inbox[k];
        if (n->characteristic == characteristic && !n->expected) {
            n->expected = true;
            return n;
        }
    }
    expect(t, false, "%s was not notified", called(characteristic));
    return NULL;
}

void expect_notified(struct tester *t, uint32_t characteristic, long long number)
{
    const struct notification *n = arrived(t, characteristic);
    if (n != NULL) {
        expect_number(t, "was notified as", characteristic, n->octets, n->length, number);
    }
}

void expect_notified_text(struct tester *t, uint32_t characteristic, const char *text)
{
    const struct notification *n = arrived(t, characteristic);
    size_t length = strlen(text) < t->mtu - 3u ? strlen(text) : t->mtu - 3u;
    if (n != NULL) {
        expect(t, n->length == length && memcmp(n->octets, text, length) == 0, "%s was notified in %u octets, not as \"%.*s\"",
               called(characteristic), (unsigned)n->length, (int)length, text);
    }
}

void expect_result(struct tester *t, uint8_t opcode, uint8_t result)
{
    const struct notification *n = arrived(t, MCS_CONTROL_POINT);
    if (n != NULL) {
        expect(t, n->length == 2 && n->octets[0] == opcode && n->octets[1] == result,
               "the result is %u octets, opcode 0x%02X, code %u; expected 0x%02X, %u", (unsigned)n->length,
               (unsigned)n->octets[0], (unsigned)n->octets[1], (unsigned)opcode, (unsigned)result);
    }
}

void expect_silence(struct tester *t)
{
    size_t unexpected = 0;
    for (size_t k = 0; k < t->received; k++) {
        unexpected += t->inbox[k].expected ? 0u : 1u;
    }
    expect(t, unexpected == 0, "%zu notifications, where none was expected", unexpected);
}

/* ---- Steps that several sections of the suite share ----------------------------------------------------------------------- */

void expect_objects_of(struct tester *t, struct setting setting)
{
    const bool segments = t->lines->tracks[setting.track].segments != 0;
    expect_reads(t, MCS_SEGMENTS_OBJECT, segments ? MCS_OBJECT_OF_SEGMENTS(setting.track) : NO_OBJECT);
    expect_reads(t, MCS_TRACK_OBJECT, MCS_OBJECT_OF_TRACK(setting.track));
    expect_reads(t, MCS_PARENT_GROUP_OBJECT, MCS_OBJECT_OF_GROUP(t->lines->groups[setting.group].parent));
    expect_reads(t, MCS_GROUP_OBJECT, MCS_OBJECT_OF_GROUP(setting.group));
}

void expect_told(struct tester *t, uint32_t characteristic, long long before, long long now)
{
    if (now != before && (t->cccds & CCCD(characteristic)) != 0) {
        expect_notified(t, characteristic, now);
    }
}

struct setting expect_moved(struct tester *t, struct setting from, uint32_t group, uint32_t track)
{
    const track_line *left = &t->lines->tracks[from.track], *reached = &t->lines->tracks[track];
    const char *title = title_of(t, track);
    /* Track and group moves turn Seeking into Playing (SCOPE 11.7 and 12.3). The position becomes 0 (the standard, 3.18.1.12
     * to 21). */
    const struct setting to = {from.order, group, track, 0, from.state == MCS_SEEKING ? MCS_PLAYING : from.state};

    expect_result(t, t->opcode, MCS_RESULT_SUCCESS);

    /* The suite leaves it to the server whether Media State is sent, and otherwise has everything sent. Here a slot is owed when
     * its value changes (SCOPE 18.1), and 4 and 7 whenever the track number does (SCOPE 18.2). */
    if (to.state != from.state) {
        expect_notified(t, MCS_MEDIA_STATE, to.state);
    }
    if (strcmp(title_of(t, from.track), title) != 0) {
        expect_notified_text(t, MCS_TITLE, title);
    }
    if (left->duration != reached->duration) {
        expect_notified(t, MCS_DURATION, reached->duration);
    }
    if (track != from.track) {
        expect_notified_text(t, MCS_TRACK_CHANGED, "");
    }
    if (track != from.track || from.position != 0) {
        expect_notified(t, MCS_POSITION, 0);
    }
    expect_told(t, MCS_TRACK_OBJECT, MCS_OBJECT_OF_TRACK(from.track), MCS_OBJECT_OF_TRACK(track));
    expect_told(t, MCS_GROUP_OBJECT, MCS_OBJECT_OF_GROUP(from.group), MCS_OBJECT_OF_GROUP(group));
    expect_silence(t);

    expect_reads(t, MCS_MEDIA_STATE, to.state);
    expect_reads_text(t, MCS_TITLE, title);
    expect_reads(t, MCS_DURATION, reached->duration);
    expect_reads(t, MCS_POSITION, 0);
    expect_objects_of(t, to);
    upper_confirms(t, to);
    return to;
}

void expect_not_completed(struct tester *t, struct setting from)
{
    expect_result(t, t->opcode, MCS_RESULT_NOT_COMPLETED);
    expect_silence(t);
    expect_reads(t, MCS_MEDIA_STATE, from.state);
    expect_reads(t, MCS_POSITION, from.position);
    upper_confirms(t, from);
}

void expect_repositioned(struct tester *t, uint32_t from, uint32_t to)
{
    expect_result(t, t->opcode, MCS_RESULT_SUCCESS);
    if (to != from) {
        expect_notified(t, MCS_POSITION, to);
    }
    expect_silence(t);
    expect_reads(t, MCS_POSITION, to);
    /* Segment moves and Move Relative keep the state (SCOPE 9.10 and 10.9). */
    expect_reads(t, MCS_MEDIA_STATE, t->initial);
}

uint32_t expect_time_passing(struct tester *t, uint32_t position, uint32_t hundredths, uint32_t played)
{
    const int64_t end = t->lines->tracks[word_at(t->desk.state + MCS_AT_SERVICE(TESTED(t)) + MCS_IN_TRACK)].duration;
    int64_t to = position;
    if (hundredths == 0) {
        return position;
    }
    if (t->initial == MCS_PLAYING) {
        to += played;
    } else if (t->initial == MCS_SEEKING) {
        /* Fast Forward enters Seeking at 4, and Fast Rewind at -4 (SCOPE 9.6). The time that passes is taken times that, at any
         * playback speed, and the position is held to the track's ends (SCOPE 13.7). */
        to += (t->seeks_by == MCS_OPCODE_FAST_FORWARD ? 4 : -4) * (int64_t)hundredths;
        to = to < 0 ? 0 : to > end ? end : to;
    }
    upper_lets_pass(t, hundredths);
    /* Told while Seeking, and not while Playing (SCOPE 18.3; the standard, 3.7.1) */
    if (t->initial == MCS_SEEKING && to != position) {
        expect_notified(t, MCS_POSITION, to);
    }
    expect_silence(t);
    expect_reads(t, MCS_POSITION, to);
    return (uint32_t)to;
}
