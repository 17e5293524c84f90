#include "host.h"

#include <string.h>

#include "../day/must.h"
#include "journal.h"
#include "terminal.h"
#include "words.h"
#include "wording.h"

struct mcs_desk desk;

static known_value knows[MCS_CLIENTS][MCS_SERVICES][CHARACTERISTIC_BOUND];
static last_press presses[MCS_CLIENTS][MCS_SERVICES];

/* A call that cannot be refused. Where it is all the same, the terminal is closed before the program says so and ends. */
static void sure(uint32_t number, const char *what)
{
    if (number != MCS_OK) {
        close_terminal();
        must(number, what);
    }
}

/* ---- What the desk's state says */

static const uint8_t *account(uint32_t who, uint32_t service) { return player_octets(service) + MCS_IN_ACCOUNT(who); }

const uint8_t *player_octets(uint32_t service) { return desk.state + MCS_AT_SERVICE(service); }
uint32_t player_word(uint32_t service, uint32_t at) { return word_at(player_octets(service) + at); }
int is_connected(uint32_t who) { return desk.state[MCS_AT_LINK(who) + MCS_IN_CONNECTED] != 0; }
uint32_t subscribed_slots(uint32_t who, uint32_t service) { return word_at(account(who, service) + MCS_IN_SUBSCRIBED); }
uint32_t owed_slots(uint32_t who, uint32_t service) { return word_at(account(who, service) + MCS_IN_OWED); }
uint32_t waiting_results(uint32_t who, uint32_t service) { return word_at(account(who, service) + MCS_IN_WAITING); }

int is_anything_owed(void)
{
    uint32_t who, service, owed = 0;
    for (who = 0; who < MCS_CLIENTS; who++) {
        for (service = 0; service < MCS_SERVICES; service++) {
            owed |= owed_slots(who, service);
        }
    }
    return owed != 0;
}

int does_anything_move(void)
{
    uint32_t service;
    int moves = 0;
    for (service = 0; service < MCS_SERVICES; service++) {
        const uint8_t state = player_octets(service)[MCS_IN_MEDIA_STATE];
        moves = moves || state == MCS_PLAYING || state == MCS_SEEKING;
    }
    return moves;
}

static uint32_t slot_of(uint32_t characteristic)
{
    uint32_t bit = 0;
    while (bit < SLOTS && slot_at(bit) != characteristic) {
        bit++;
    }
    return bit;
}

static int is_subscribed(uint32_t who, uint32_t service, uint32_t characteristic)
{
    const uint32_t bit = slot_of(characteristic);
    return bit < SLOTS && (subscribed_slots(who, service) >> bit & 1u) != 0;
}

/* ---- What a device knows */

const known_value *known(uint32_t who, uint32_t service, uint32_t characteristic)
{
    return &knows[who][service][characteristic];
}

last_press press_of(uint32_t who, uint32_t service) { return presses[who][service]; }

static void learn(uint32_t who, uint32_t service, uint32_t characteristic, const uint8_t *octets, uint32_t length)
{
    known_value *value = &knows[who][service][characteristic];
    value->is_known = 1;
    value->length = length;
    memcpy(value->octets, octets, length);
}

static void forget(uint32_t who)
{
    memset(knows[who], 0, sizeof knows[who]);
    memset(presses[who], 0, sizeof presses[who]);
}

/* ---- Calls */

/* A call by a device was made, or was refused, of which the person is told. Whether it was made. */
static int was_made(uint32_t number, uint32_t who, uint32_t service, const char *what)
{
    if (number != MCS_OK) {
        note(REFUSAL, who, service, "%s refused, %s: %s", what, refusal_number(number).text, mcs_refusal_words(number));
        say(1, "%s refused, %s: %s", what, refusal_number(number).text, mcs_refusal_words(number));
    }
    return number == MCS_OK;
}

/* A whole value, part by part: a read hands out ATT_MTU - 1 octets at most. The number of the first refusal. */
static uint32_t read_value(uint32_t who, uint32_t service, uint32_t characteristic, uint8_t value[MCS_OUTPUT_OCTETS],
                           uint32_t *length)
{
    const uint32_t most = word_at(desk.state + MCS_AT_LINK(who) + MCS_IN_MTU) - 1u;
    uint8_t part[MCS_OUTPUT_OCTETS];
    uint32_t number, got = 0;
    *length = 0;
    do {
        number = mcs_desk_read(&desk, who, service, characteristic, *length, part, sizeof part, &got);
        if (number == MCS_OK) {
            memcpy(value + *length, part, got);
            *length += got;
        }
    } while (number == MCS_OK && got == most && *length < MCS_OUTPUT_OCTETS);
    return number;
}

/* A device reads what it has subscribed to, as far as that may be read. Whether none of it was refused. */
static int read_all(uint32_t who, uint32_t service)
{
    uint32_t bit, length;
    uint8_t value[MCS_OUTPUT_OCTETS];
    for (bit = 0; bit < SLOTS; bit++) {
        const uint32_t characteristic = slot_at(bit);
        if ((properties_of(characteristic) & MCS_MAY_READ) == 0 || !is_subscribed(who, service, characteristic)) {
            continue;
        }
        if (!was_made(read_value(who, service, characteristic, value, &length), who, service, "read")) {
            return 0;
        }
        learn(who, service, characteristic, value, length);
    }
    return 1;
}

void read_again(uint32_t who, uint32_t service)
{
    if (!is_connected(who)) {
        was_made(MCS_NOT_CONNECTED, who, service, "read");
    } else if (read_all(who, service)) {
        note(DEED, who, service, "reads what it shows");
    }
}

uint64_t read_object(uint32_t who, uint32_t service, uint32_t characteristic)
{
    uint8_t value[MCS_OUTPUT_OCTETS];
    uint32_t length = 0;
    if (!was_made(read_value(who, service, characteristic, value, &length), who, service, "read") ||
        length != MCS_OBJECT_OCTETS) {
        return 0;
    }
    learn(who, service, characteristic, value, length);
    return mcs_object_at(value);
}

static void subscribe_usual(uint32_t who, uint32_t service)
{
    const uint32_t *slot;
    for (slot = DEVICES[who].slots; *slot != 0; slot++) {
        sure(mcs_desk_subscribe(&desk, who, service, *slot), "subscribe");
    }
}

static void come(uint32_t who)
{
    uint32_t service;
    sure(mcs_desk_connect(&desk, who, DEVICES[who].mtu, 1), "connect");
    for (service = 0; service < MCS_SERVICES; service++) {
        subscribe_usual(who, service);
        read_all(who, service);
    }
    note(DEED, who, NO_SERVICE, "comes, ATT_MTU %u, subscribes and reads", (unsigned)DEVICES[who].mtu);
}

void come_or_go(uint32_t who)
{
    forget(who);
    if (is_connected(who)) {
        sure(mcs_desk_disconnect(&desk, who), "disconnect");
        note(DEED, who, NO_SERVICE, "goes");
    } else {
        come(who);
    }
}

void subscribe_or_not(uint32_t who, uint32_t service, uint32_t characteristic)
{
    const int was = is_subscribed(who, service, characteristic);
    const char *what = was ? "unsubscribe" : "subscribe";
    const uint32_t number = was ? mcs_desk_unsubscribe(&desk, who, service, characteristic)
                                : mcs_desk_subscribe(&desk, who, service, characteristic);
    if (was_made(number, who, service, what)) {
        note(DEED, who, service, "%ss %s", what, mcs_characteristic_words(characteristic));
    }
}

void subscribe_all_or_none(uint32_t who, uint32_t service)
{
    uint32_t bit;
    if (!is_connected(who)) {
        was_made(MCS_NOT_CONNECTED, who, service, "subscribe");
    } else if (subscribed_slots(who, service) == 0) {
        subscribe_usual(who, service);
        note(DEED, who, service, "subscribes to all that it uses");
    } else {
        for (bit = 0; bit < SLOTS; bit++) {
            sure(mcs_desk_unsubscribe(&desk, who, service, slot_at(bit)), "unsubscribe");
        }
        note(DEED, who, service, "unsubscribes from all");
    }
}

void press(uint32_t who, uint32_t service, uint8_t opcode, int32_t number)
{
    uint8_t value[5];
    const uint32_t length = control_value(value, opcode, number);
    const wording words = opcode_in_words(opcode);
    last_press *made = &presses[who][service];
    const uint32_t refusal = mcs_desk_write(&desk, who, service, MCS_CONTROL_POINT, value, length);
    made->opcode = opcode;
    made->number = refusal;
    if (!was_made(refusal, who, service, words.text)) {
        made->became = PRESS_REFUSED;
    } else {
        made->became = is_subscribed(who, service, MCS_CONTROL_POINT) ? PRESS_WAITS : PRESS_UNTOLD;
        if (carries_number(opcode)) {
            note(DEED, who, service, "presses %s %d", words.text, (int)number);
        } else {
            note(DEED, who, service, "presses %s", words.text);
        }
    }
}

/* A write of another characteristic than the control point; a device knows what it has written, but a position may become another
 * one than is written. */
static void write_known(uint32_t who, uint32_t service, uint32_t characteristic, const uint8_t *value, uint32_t length,
                        const char *what)
{
    if (was_made(mcs_desk_write(&desk, who, service, characteristic, value, length), who, service, what)) {
        note(DEED, who, service, "writes %s", what);
        if (characteristic != MCS_POSITION) {
            learn(who, service, characteristic, value, length);
        }
    }
}

void write_octet(uint32_t who, uint32_t service, uint32_t characteristic, int32_t number, const char *what)
{
    const uint8_t octet = (uint8_t)((uint32_t)number & 0xFFu);
    char words[64];
    snprintf(words, sizeof words, "%s %d", what, (int)number);
    write_known(who, service, characteristic, &octet, 1, words);
}

void write_position(uint32_t who, uint32_t service, int32_t position)
{
    uint8_t value[4];
    char words[64];
    put_word(value, (uint32_t)position);
    snprintf(words, sizeof words, "Position %d", (int)position);
    write_known(who, service, MCS_POSITION, value, sizeof value, words);
}

void write_object(uint32_t who, uint32_t service, uint32_t characteristic, uint64_t object)
{
    const int is_group = characteristic == MCS_GROUP_OBJECT;
    const uint64_t number = object - (is_group ? MCS_OBJECT_OF_GROUP(0) : MCS_OBJECT_OF_TRACK(0));
    uint8_t value[MCS_OBJECT_OCTETS];
    char words[64];
    mcs_put_object(value, object);
    snprintf(words, sizeof words, "%s %u",
             is_group                             ? "Group"
             : characteristic == MCS_TRACK_OBJECT ? "Track"
                                                  : "Next track",
             (unsigned)number);
    write_known(who, service, characteristic, value, sizeof value, words);
}

void activate(uint32_t service, uint32_t group)
{
    char words[64];
    snprintf(words, sizeof words, "open group %u", (unsigned)group);
    if (was_made(mcs_desk_activate(&desk, service, group), THE_DESK, service, words)) {
        note(DEED, THE_DESK, service, "opens group %u", (unsigned)group);
    }
}

void deactivate(uint32_t service)
{
    sure(mcs_desk_deactivate(&desk, service), "deactivate");
    note(DEED, THE_DESK, service, "closes");
}

void pass_time(uint32_t hundredths)
{
    uint32_t service;
    for (service = 0; service < MCS_SERVICES; service++) {
        sure(mcs_desk_advance(&desk, service, hundredths), "advance");
    }
}

int take_one(void)
{
    uint8_t value[MCS_OUTPUT_OCTETS];
    struct mcs_served served = {0, 0, MCS_NOTHING, 0};
    wording words;
    sure(mcs_desk_take(&desk, value, sizeof value, &served), "take");
    if (served.characteristic == MCS_NOTHING) {
        return 0;
    }
    words = value_in_words(served.characteristic, value, served.length);
    if (served.characteristic == MCS_CONTROL_POINT) {
        const last_press told = {PRESS_TOLD, value[0], value[1]};
        presses[served.client][served.service] = told;
    } else {
        learn(served.client, served.service, served.characteristic, value, served.length);
    }
    note(TAKE_OUT, served.client, served.service, "%s%s%s", mcs_characteristic_words(served.characteristic),
         words.text[0] == '\0' ? "" : ": ", words.text);
    return 1;
}

/* ---- The beginning */

uint32_t start_desk(const struct mcs_catalogue *c, struct mcs_place *place)
{
    static const char *const NAMES[MCS_SERVICES] = {"Mantelhona", "Reading room"};
    struct mcs_player players[MCS_SERVICES];
    uint32_t service, number;
    for (service = 0; service < MCS_SERVICES; service++) {
        players[service].name = (const uint8_t *)NAMES[service];
        players[service].name_len = strlen(NAMES[service]);
        players[service].mask = MCS_ALL_OPCODES;
        players[service].ccid = (uint8_t)(service + 1u);
    }
    desk.catalogue = *c;
    desk.titles = mcs_no_renames(c);
    number = mcs_desk_start(&desk, players);
    *place = desk.place;
    return number;
}

void open_desk(void)
{
    uint32_t group, service, who;
    for (service = 0; service < MCS_SERVICES; service++) {
        group = 0; /* a group that is absent or has no tracks is refused */
        while (group < MCS_MOST_GROUPS && mcs_desk_activate(&desk, service, group) != MCS_OK) {
            group++;
        }
    }
    for (who = 0; who < MCS_CLIENTS; who++) {
        come_or_go(who);
    }
}

void begin_anew(void)
{
    uint32_t who, service;
    for (who = 0; who < MCS_CLIENTS; who++) {
        forget(who);
        for (service = 0; is_connected(who) && service < MCS_SERVICES; service++) {
            read_all(who, service);
        }
    }
}
