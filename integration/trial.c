/* The bridge of gatt.c, tried over the host of radio.c by devices that send and hear PDUs. What is expected is worked out by hand, from
 * docs/SCOPE.md, from Table 3.1 of the standard, and from the assigned numbers.
 *
 *   integration            tries all: a line for each thing that is not as expected, then 'N trials, M expectations, L not met'. Exit 1
 *                          where L is not 0.
 *   integration trace      the same, with every PDU: who, whether it is heard (<) or said (>), its name and its octets.
 *   integration table      the characteristics, as docs/INTEGRATION.md has them. */
#include "radio.h"

#include <stdio.h>
#include <string.h>

static struct gatt gatt;
static struct radio radio;
static bool traced;
static unsigned trials, expectations, failures;

/* ---- The desk: one group with two tracks ------------------------------------------------------------------------------------- */

#define LONG_TITLE "The ferryman of the old crossing, second interview" /* 50 octets */
#define SHORT_TITLE "Bakery"

static const uint32_t groups[] = {0, 0, 2};
static const uint32_t tracks[] = {6000, 30, 0, 2, 0, 50, 300, 10, 2, 0, 50, 6};
static const uint32_t segments[] = {0, 1500};
static const char text[] = LONG_TITLE SHORT_TITLE;
static const char long_name[] = "Desk player of the typing office, by the window";  /* 47 octets */
static const char other_name[] = "Desk player of the archive, in the cellar, left"; /* 47 octets */

/* Another card: its only track is the short one. */
static const uint32_t other_groups[] = {0, 0, 1};
static const uint32_t other_tracks[] = {300, 10, 0, 0, 50, 6};

static const struct mcs_catalogue card = {groups, 3, tracks, 12, segments, 2, (const uint8_t *)text, 56};
static const struct mcs_catalogue other_card = {other_groups, 3, other_tracks, 6, NULL, 0, (const uint8_t *)text, 56};
static const struct mcs_player players[MCS_SERVICES] = {{(const uint8_t *)long_name, 47, MCS_ALL_OPCODES, 5},
                                                        {(const uint8_t *)"Desk 4", 6, MCS_ALL_OPCODES, 6}};

/* ---- What both services have, worked out by hand: number, UUID, properties --------------------------------------------------- */

#define ROWS 18u
#define ATTRIBUTES_OF_A_SERVICE 51u /* its declaration; declaration and value of each of 18; 14 CCCDs */
static const uint32_t rows[ROWS][3] = {
    {1, 0x2B93, 0x12},  {4, 0x2B96, 0x10},  {5, 0x2B97, 0x12},  {6, 0x2B98, 0x12},  {7, 0x2B99, 0x1E},  {8, 0x2B9A, 0x1E},
    {9, 0x2B9B, 0x12},  {10, 0x2B9C, 0x02}, {11, 0x2B9D, 0x1E}, {12, 0x2B9E, 0x1E}, {13, 0x2B9F, 0x12}, {14, 0x2BA0, 0x1E},
    {15, 0x2BA1, 0x1E}, {16, 0x2BA2, 0x02}, {17, 0x2BA3, 0x12}, {18, 0x2BA4, 0x1C}, {19, 0x2BA5, 0x02}, {22, 0x2BBA, 0x02}};

/* Handles, counted along the table. */
static uint32_t value_of(uint32_t service, uint32_t characteristic)
{
    uint32_t handle = 1u + ATTRIBUTES_OF_A_SERVICE * service + 2u;
    for (uint32_t row = 0; rows[row][0] != characteristic; row++) {
        handle += (rows[row][2] & 0x10u) != 0 ? 3u : 2u;
    }
    return handle;
}

static uint32_t cccd_of(uint32_t service, uint32_t characteristic) { return value_of(service, characteristic) + 1u; }

/* ---- Devices ------------------------------------------------------------------------------------------------------------------ */

static void check(bool met, const char *what, int line)
{
    expectations++;
    if (!met) {
        failures++;
        printf("trial.c:%d: %s\n", line, what);
    }
}

#define CHECK(what) check(what, #what, __LINE__)
#define LOW(number) (uint8_t)((number)&0xFFu)
#define HIGH(number) (uint8_t)((number) >> 8 & 0xFFu)

/* A device sends a PDU. */
#define SAYS(device, ...) radio_receives(&radio, device, (const uint8_t[]){__VA_ARGS__}, sizeof((const uint8_t[]){__VA_ARGS__}))
#define READS(device, handle) SAYS(device, ATT_READ, LOW(handle), HIGH(handle))
#define READS_ON(device, handle, offset) SAYS(device, ATT_READ_BLOB, LOW(handle), HIGH(handle), LOW(offset), HIGH(offset))
#define WRITES(device, handle, ...) SAYS(device, ATT_WRITE, LOW(handle), HIGH(handle), __VA_ARGS__)
#define COMMANDS(device, handle, ...) SAYS(device, ATT_WRITE_COMMAND, LOW(handle), HIGH(handle), __VA_ARGS__)
#define EXCHANGES(device, mtu) SAYS(device, ATT_MTU_REQUEST, LOW(mtu), HIGH(mtu))

/* The next PDU that the device heard is this one: so many octets in front, and a text behind them. */
static void hears(uint32_t device, const uint8_t *front, uint32_t length, const char *behind, uint32_t behind_length, int line)
{
    struct radio_device *to = &radio.devices[device];
    const struct radio_pdu *pdu = &to->heard[to->looked_at];
    const bool heard = to->looked_at < to->heard_count;
    check(heard, "the device hears something", line);
    if (heard) {
        to->looked_at++;
        check(pdu->length == length + behind_length && memcmp(pdu->octets, front, length) == 0 &&
                  memcmp(pdu->octets + length, behind, behind_length) == 0,
              "the device hears what is expected", line);
    }
}

#define HEARS_TEXT(device, behind, behind_length, ...)                                                                         \
    hears(device, (const uint8_t[]){__VA_ARGS__}, sizeof((const uint8_t[]){__VA_ARGS__}), behind, behind_length, __LINE__)
#define HEARS(device, ...) HEARS_TEXT(device, "", 0, __VA_ARGS__)
#define HEARS_ERROR(device, request, handle, code) HEARS(device, ATT_ERROR, request, LOW(handle), HIGH(handle), code)
#define NOTIFIED(device, handle, ...) HEARS(device, ATT_NOTIFICATION, LOW(handle), HIGH(handle), __VA_ARGS__)
#define NOTIFIED_TEXT(device, handle, behind, behind_length)                                                                   \
    HEARS_TEXT(device, behind, behind_length, ATT_NOTIFICATION, LOW(handle), HIGH(handle))

/* It heard nothing but what was looked at. */
#define SILENT(device) CHECK(radio.devices[device].looked_at == radio.devices[device].heard_count)

/* A device connects, exchanges an ATT_MTU above 23, and is encrypted. */
static void arrives(uint32_t device, uint32_t mtu)
{
    CHECK(radio_connects(&radio, device));
    if (mtu > 23) {
        EXCHANGES(device, mtu);
        HEARS(device, ATT_MTU_RESPONSE, 247, 0);
    }
    radio_encrypts(&radio, device, true);
}

static void subscribes(uint32_t device, uint32_t service, uint32_t characteristic)
{
    WRITES(device, cccd_of(service, characteristic), 1, 0);
    HEARS(device, ATT_WRITE_RESPONSE);
}

/* A write that is accepted. */
#define PRESSES(device, handle, ...)                                                                                           \
    do {                                                                                                                       \
        WRITES(device, handle, __VA_ARGS__);                                                                                   \
        HEARS(device, ATT_WRITE_RESPONSE);                                                                                     \
    } while (0)

/* The player's own buttons. */
static void presses_button(uint32_t number, const char *what, uint32_t service)
{
    if (radio.traced) {
        printf("    the %s player %s\n", service == MCS_GENERIC ? "generic" : "named", what);
    }
    CHECK(number == MCS_OK);
    radio_tells(&radio);
}

static void activates(uint32_t service) { presses_button(mcs_desk_activate(&gatt.desk, service, 0), "gets a group", service); }

static void deactivates(uint32_t service) { presses_button(mcs_desk_deactivate(&gatt.desk, service), "has no track", service); }

static void renames(uint32_t service, const char *name)
{
    presses_button(mcs_desk_set_name(&gatt.desk, service, (const uint8_t *)name, strlen(name)), "has another name", service);
}

static void lend(const struct mcs_catalogue *catalogue)
{
    gatt.desk.catalogue = *catalogue;
    gatt.desk.titles = mcs_no_renames(catalogue);
}

static void begin(const char *what)
{
    trials++;
    if (traced) {
        printf("%s\n", what);
    }
    memset(&gatt, 0xA5, sizeof gatt); /* what was there before does not matter */
    lend(&card);
    CHECK(mcs_desk_start(&gatt.desk, players) == MCS_OK);
    radio_open(&radio, &gatt, traced);
}

/* What is long and all alike is not printed. */
static void begin_unseen(const char *what)
{
    begin(what);
    radio.traced = false;
    if (traced) {
        printf("    ..\n");
    }
}

static void end(void)
{
    CHECK(radio.missed == 0);
    CHECK(radio.too_long == 0);
    CHECK(radio.strays == 0);
    CHECK(radio.faults == 0);
    for (uint32_t device = 0; device < RADIO_DEVICES; device++) {
        SILENT(device);
    }
}

/* ---- Trials ------------------------------------------------------------------------------------------------------------------- */

static const uint32_t service_uuids[MCS_SERVICES] = {0x1849, 0x1848};

static void the_table(void)
{
    begin_unseen("the table has both services, and a device reads their declarations");
    CHECK(radio.attributes == MCS_SERVICES * ATTRIBUTES_OF_A_SERVICE);
    CHECK(radio_connects(&radio, 0));
    for (uint32_t service = 0; service < MCS_SERVICES; service++) {
        const uint32_t first = 1u + ATTRIBUTES_OF_A_SERVICE * service;
        CHECK(radio.table[first].type == 0x2800);
        READS(0, first);
        HEARS(0, ATT_READ_RESPONSE, LOW(service_uuids[service]), HIGH(service_uuids[service]));
        for (uint32_t row = 0; row < ROWS; row++) {
            const uint32_t value = value_of(service, rows[row][0]);
            CHECK(radio.table[value - 1u].type == 0x2803);
            CHECK(radio.table[value].type == rows[row][1]);
            CHECK((radio.table[value + 1u].type == 0x2902) == ((rows[row][2] & 0x10u) != 0));
            READS(0, value - 1u);
            HEARS(0, ATT_READ_RESPONSE, LOW(rows[row][2]), LOW(value), HIGH(value), LOW(rows[row][1]), HIGH(rows[row][1]));
        }
    }
    end();
}

static void two_pedals(void)
{
    const uint32_t generic = value_of(MCS_GENERIC, MCS_CONTROL_POINT), named = value_of(MCS_NAMED, MCS_CONTROL_POINT);
    begin("two pedals press, and each is told its own result, on its own connection");
    arrives(0, 23);
    arrives(1, 23);
    subscribes(0, MCS_GENERIC, MCS_CONTROL_POINT);
    subscribes(1, MCS_GENERIC, MCS_CONTROL_POINT);
    activates(MCS_GENERIC);
    PRESSES(0, generic, MCS_OPCODE_PLAY);
    NOTIFIED(0, generic, MCS_OPCODE_PLAY, 1);
    PRESSES(1, generic, MCS_OPCODE_NEXT_TRACK);
    NOTIFIED(1, generic, MCS_OPCODE_NEXT_TRACK, 1);
    /* there is no track behind the second */
    PRESSES(1, generic, MCS_OPCODE_NEXT_TRACK);
    NOTIFIED(1, generic, MCS_OPCODE_NEXT_TRACK, 4);
    /* both press before anything is on air */
    radio.held = true;
    PRESSES(1, generic, MCS_OPCODE_PAUSE);
    PRESSES(0, generic, MCS_OPCODE_STOP);
    SILENT(0);
    SILENT(1);
    radio.held = false;
    radio_tells(&radio);
    NOTIFIED(0, generic, MCS_OPCODE_STOP, 1);
    NOTIFIED(1, generic, MCS_OPCODE_PAUSE, 1);
    /* at the named player, which is Inactive */
    subscribes(1, MCS_NAMED, MCS_CONTROL_POINT);
    PRESSES(1, named, MCS_OPCODE_PLAY);
    NOTIFIED(1, named, MCS_OPCODE_PLAY, 3);
    end();
}

static void a_fifth(void)
{
    begin("a fifth connection is refused, until one of the four ends");
    for (uint32_t device = 0; device < 4; device++) {
        arrives(device, 247);
        subscribes(device, MCS_GENERIC, MCS_MEDIA_STATE);
    }
    CHECK(!radio_connects(&radio, 4));
    activates(MCS_GENERIC);
    for (uint32_t device = 0; device < 4; device++) {
        NOTIFIED(device, value_of(MCS_GENERIC, MCS_MEDIA_STATE), MCS_PAUSED);
    }
    radio_disconnects(&radio, 2);
    arrives(4, 23);
    READS(4, value_of(MCS_GENERIC, MCS_MEDIA_STATE));
    HEARS(4, ATT_READ_RESPONSE, MCS_PAUSED);
    /* it has neither the ATT_MTU nor the subscriptions of the one before it */
    READS(4, value_of(MCS_GENERIC, MCS_NAME));
    HEARS_TEXT(4, long_name, 22, ATT_READ_RESPONSE);
    READS(4, cccd_of(MCS_GENERIC, MCS_MEDIA_STATE));
    HEARS(4, ATT_READ_RESPONSE, 0, 0);
    end();
}

static void unencrypted(void)
{
    const uint32_t name = value_of(MCS_NAMED, MCS_NAME), order = value_of(MCS_NAMED, MCS_PLAYING_ORDER);
    begin("before encryption every value is refused; then it is given");
    CHECK(radio_connects(&radio, 0));
    READS(0, name);
    HEARS_ERROR(0, ATT_READ, name, 0x0F);
    WRITES(0, order, 4);
    HEARS_ERROR(0, ATT_WRITE, order, 0x0F);
    WRITES(0, name + 1, 1, 0);
    HEARS_ERROR(0, ATT_WRITE, name + 1, 0x0F);
    WRITES(0, name + 1, 2, 0); /* what is wrong besides is not told before */
    HEARS_ERROR(0, ATT_WRITE, name + 1, 0x0F);
    READS(0, name + 1);
    HEARS(0, ATT_READ_RESPONSE, 0, 0);
    radio_encrypts(&radio, 0, true);
    READS(0, name);
    HEARS_TEXT(0, "Desk 4", 6, ATT_READ_RESPONSE);
    READS(0, order);
    HEARS(0, ATT_READ_RESPONSE, 3);
    /* what is not among a characteristic's properties */
    READS(0, value_of(MCS_NAMED, MCS_TRACK_CHANGED));
    HEARS_ERROR(0, ATT_READ, value_of(MCS_NAMED, MCS_TRACK_CHANGED), 0x02);
    WRITES(0, value_of(MCS_NAMED, MCS_DURATION), 0, 0, 0, 0);
    HEARS_ERROR(0, ATT_WRITE, value_of(MCS_NAMED, MCS_DURATION), 0x03);
    end();
}

static void encryption_again(void)
{
    const uint32_t state = value_of(MCS_GENERIC, MCS_MEDIA_STATE);
    begin("encryption that is renewed drops nothing; when it ends, nothing more is told");
    arrives(0, 23);
    subscribes(0, MCS_GENERIC, MCS_MEDIA_STATE);
    radio_encrypts(&radio, 0, true);
    activates(MCS_GENERIC);
    NOTIFIED(0, state, MCS_PAUSED);
    radio_encrypts(&radio, 0, false);
    deactivates(MCS_GENERIC);
    READS(0, state);
    HEARS_ERROR(0, ATT_READ, state, 0x0F);
    end();
}

static void long_reads(void)
{
    const uint32_t name = value_of(MCS_GENERIC, MCS_NAME);
    begin("a long name is read by parts, and from the start again where it changes in between");
    arrives(0, 23);
    READS(0, name);
    HEARS_TEXT(0, long_name, 22, ATT_READ_RESPONSE);
    READS_ON(0, name, 22);
    HEARS_TEXT(0, long_name + 22, 22, ATT_READ_BLOB_RESPONSE);
    READS_ON(0, name, 44);
    HEARS_TEXT(0, long_name + 44, 3, ATT_READ_BLOB_RESPONSE);
    READS_ON(0, name, 47);
    HEARS(0, ATT_READ_BLOB_RESPONSE);
    READS_ON(0, name, 48);
    HEARS_ERROR(0, ATT_READ_BLOB, name, 0x07);
    renames(MCS_GENERIC, other_name);
    READS_ON(0, name, 22);
    HEARS_ERROR(0, ATT_READ_BLOB, name, 0x80);
    READS(0, name);
    HEARS_TEXT(0, other_name, 22, ATT_READ_RESPONSE);
    READS_ON(0, name, 22);
    HEARS_TEXT(0, other_name + 22, 22, ATT_READ_BLOB_RESPONSE);
    /* with a longer ATT_MTU it is one part, and the mark of the read at 0 is still there */
    EXCHANGES(0, 64);
    HEARS(0, ATT_MTU_RESPONSE, 247, 0);
    READS_ON(0, name, 22);
    HEARS_TEXT(0, other_name + 22, 25, ATT_READ_BLOB_RESPONSE);
    READS(0, name);
    HEARS_TEXT(0, other_name, 47, ATT_READ_RESPONSE);
    end();
}

static void cut_titles(void)
{
    const uint32_t title = value_of(MCS_GENERIC, MCS_TITLE);
    begin("a title's notification is cut by each connection's own ATT_MTU");
    arrives(0, 23);
    arrives(1, 247);
    arrives(2, 52);
    for (uint32_t device = 0; device < 3; device++) {
        subscribes(device, MCS_GENERIC, MCS_TITLE);
    }
    activates(MCS_GENERIC);
    NOTIFIED_TEXT(0, title, LONG_TITLE, 20);
    NOTIFIED_TEXT(1, title, LONG_TITLE, 50);
    NOTIFIED_TEXT(2, title, LONG_TITLE, 49);
    READS(2, title);
    HEARS_TEXT(2, LONG_TITLE, 50, ATT_READ_RESPONSE);
    gatt_mtu(&gatt, RADIO_CONNECTION(2), 23);
    READS(2, title);
    HEARS_TEXT(2, LONG_TITLE, 22, ATT_READ_RESPONSE);
    /* an ATT_MTU below the least changes nothing, also where the server does not see to that */
    EXCHANGES(0, 22);
    HEARS(0, ATT_MTU_RESPONSE, 247, 0);
    gatt_mtu(&gatt, RADIO_CONNECTION(0), 22);
    READS(0, title);
    HEARS_TEXT(0, LONG_TITLE, 22, ATT_READ_RESPONSE);
    end();
}

static void late_exchange(void)
{
    const uint32_t title = value_of(MCS_GENERIC, MCS_TITLE), point = value_of(MCS_GENERIC, MCS_CONTROL_POINT);
    begin("a late exchange of ATT_MTU loses neither results nor values");
    arrives(0, 23);
    subscribes(0, MCS_GENERIC, MCS_CONTROL_POINT);
    activates(MCS_GENERIC);
    subscribes(0, MCS_GENERIC, MCS_TITLE);
    radio.held = true;
    radio.room = 1;
    PRESSES(0, point, MCS_OPCODE_PLAY);
    PRESSES(0, point, MCS_OPCODE_NEXT_TRACK);
    EXCHANGES(0, 64);
    HEARS(0, ATT_MTU_RESPONSE, 247, 0);
    SILENT(0);
    radio_sends(&radio, 0);
    NOTIFIED(0, point, MCS_OPCODE_PLAY, 1);
    SILENT(0);
    radio_sends(&radio, 0);
    NOTIFIED_TEXT(0, title, SHORT_TITLE, 6);
    radio_sends(&radio, 0);
    NOTIFIED(0, point, MCS_OPCODE_NEXT_TRACK, 1);
    radio.held = false;
    PRESSES(0, point, MCS_OPCODE_PREVIOUS_TRACK);
    NOTIFIED_TEXT(0, title, LONG_TITLE, 50);
    NOTIFIED(0, point, MCS_OPCODE_PREVIOUS_TRACK, 1);
    end();
}

static void little_room(void)
{
    const uint32_t state = value_of(MCS_GENERIC, MCS_MEDIA_STATE), point = value_of(MCS_GENERIC, MCS_CONTROL_POINT);
    begin("with room for one notification all results come, and each value is that of its moment");
    arrives(0, 23);
    activates(MCS_GENERIC);
    subscribes(0, MCS_GENERIC, MCS_MEDIA_STATE);
    subscribes(0, MCS_GENERIC, MCS_CONTROL_POINT);
    radio.held = true;
    radio.room = 1;
    PRESSES(0, point, MCS_OPCODE_PLAY);
    PRESSES(0, point, MCS_OPCODE_FAST_FORWARD);
    PRESSES(0, point, MCS_OPCODE_PAUSE);
    radio_sends(&radio, 0);
    NOTIFIED(0, state, MCS_PLAYING);
    SILENT(0);
    radio_sends(&radio, 0);
    NOTIFIED(0, point, MCS_OPCODE_PLAY, 1);
    radio_sends(&radio, 0);
    NOTIFIED(0, state, MCS_PAUSED); /* Seeking is past */
    radio_sends(&radio, 0);
    NOTIFIED(0, point, MCS_OPCODE_FAST_FORWARD, 1);
    radio_sends(&radio, 0);
    NOTIFIED(0, point, MCS_OPCODE_PAUSE, 1);
    radio_sends(&radio, 0);
    end();
}

static void a_stuck_link(void)
{
    const uint32_t point = value_of(MCS_GENERIC, MCS_CONTROL_POINT);
    begin("a connection that is stuck holds the others up, and nothing is lost; when it ends, they go on");
    arrives(0, 23);
    arrives(1, 23);
    activates(MCS_GENERIC);
    subscribes(0, MCS_GENERIC, MCS_CONTROL_POINT);
    subscribes(1, MCS_GENERIC, MCS_CONTROL_POINT);
    radio.held = true;
    radio.room = 1;
    PRESSES(1, point, MCS_OPCODE_PLAY);
    PRESSES(1, point, MCS_OPCODE_PAUSE); /* no room, and client 1's turn comes behind client 0's */
    PRESSES(0, point, MCS_OPCODE_STOP);
    PRESSES(0, point, MCS_OPCODE_PLAY); /* behind client 1's */
    radio_sends(&radio, 0);
    NOTIFIED(0, point, MCS_OPCODE_STOP, 1);
    radio_sends(&radio, 0);
    SILENT(0);
    radio_disconnects(&radio, 1);
    radio_sends(&radio, 0);
    NOTIFIED(0, point, MCS_OPCODE_PLAY, 1);
    end();
}

static void faults(void)
{
    const uint32_t order = value_of(MCS_GENERIC, MCS_PLAYING_ORDER);
    uint8_t *octet = gatt.desk.state + MCS_AT_SERVICE(MCS_NAMED) + MCS_IN_ORDER;
    uint8_t value[MCS_OUTPUT_OCTETS];
    uint32_t length = 0;
    begin("what is the host's own fault does not go on air");
    arrives(0, 23);
    radio.held = true;
    *octet = 9;
    READS(0, order);
    HEARS_ERROR(0, ATT_READ, order, 0x0E);
    CHECK(radio.fault == MCS_BAD_STATE);
    WRITES(0, order, 4);
    HEARS_ERROR(0, ATT_WRITE, order, 0x0E);
    WRITES(0, cccd_of(MCS_GENERIC, MCS_PLAYING_ORDER), 1, 0);
    HEARS_ERROR(0, ATT_WRITE, cccd_of(MCS_GENERIC, MCS_PLAYING_ORDER), 0x0E);
    COMMANDS(0, order, 4);
    radio_waits(&radio, 1);
    CHECK(radio.faults == 11); /* four requests, a take behind each; the time of both services, and a take */
    *octet = 3;
    radio.fault = 0;
    CHECK(gatt_read(&gatt, 0x0999, (uint16_t)order, 0, value, &length) == 0x0E);
    CHECK(radio.fault == MCS_NO_CLIENT);
    CHECK(gatt_write(&gatt, 0x0999, (uint16_t)order, (const uint8_t *)"\4", 1) == 0x0E);
    CHECK(gatt_read(&gatt, 0x0999, (uint16_t)(order + 1), 0, value, &length) == 0x0E);
    CHECK(gatt_write(&gatt, 0x0999, (uint16_t)(order + 1), (const uint8_t *)"\1", 2) == 0x0E);
    READS(0, order);
    HEARS(0, ATT_READ_RESPONSE, 3);
    radio.faults = 0;
    end();
}

static void descriptors(void)
{
    const uint32_t cccd = cccd_of(MCS_GENERIC, MCS_MEDIA_STATE), state = value_of(MCS_GENERIC, MCS_MEDIA_STATE);
    begin("a CCCD is 0x0000 or 0x0001, and reads as it was written");
    arrives(0, 23);
    READS(0, cccd);
    HEARS(0, ATT_READ_RESPONSE, 0, 0);
    subscribes(0, MCS_GENERIC, MCS_MEDIA_STATE);
    READS(0, cccd);
    HEARS(0, ATT_READ_RESPONSE, 1, 0);
    READS_ON(0, cccd, 1);
    HEARS(0, ATT_READ_BLOB_RESPONSE, 0);
    READS_ON(0, cccd, 2);
    HEARS(0, ATT_READ_BLOB_RESPONSE);
    READS_ON(0, cccd, 3);
    HEARS_ERROR(0, ATT_READ_BLOB, cccd, 0x07);
    READS(0, cccd_of(MCS_NAMED, MCS_MEDIA_STATE));
    HEARS(0, ATT_READ_RESPONSE, 0, 0);
    READS(0, cccd_of(MCS_GENERIC, MCS_CONTROL_POINT));
    HEARS(0, ATT_READ_RESPONSE, 0, 0);
    WRITES(0, cccd, 2, 0);
    HEARS_ERROR(0, ATT_WRITE, cccd, 0xFD);
    WRITES(0, cccd, 1, 1);
    HEARS_ERROR(0, ATT_WRITE, cccd, 0xFD);
    WRITES(0, cccd, 1);
    HEARS_ERROR(0, ATT_WRITE, cccd, 0x0D);
    WRITES(0, cccd, 0, 0, 0);
    HEARS_ERROR(0, ATT_WRITE, cccd, 0x0D);
    COMMANDS(0, cccd, 0, 0);
    activates(MCS_GENERIC);
    NOTIFIED(0, state, MCS_PAUSED);
    WRITES(0, cccd, 0, 0);
    HEARS(0, ATT_WRITE_RESPONSE);
    READS(0, cccd);
    HEARS(0, ATT_READ_RESPONSE, 0, 0);
    deactivates(MCS_GENERIC);
    end();
}

static void every_descriptor(void)
{
    begin_unseen("each CCCD of both services is its own");
    arrives(0, 23);
    for (uint32_t service = 0; service < MCS_SERVICES; service++) {
        for (uint32_t row = 0; row < ROWS; row++) {
            if ((rows[row][2] & 0x10u) != 0) {
                subscribes(0, service, rows[row][0]);
                for (uint32_t k = 0; k < MCS_SERVICES * ROWS; k++) {
                    const uint32_t cccd = cccd_of(k / ROWS, rows[k % ROWS][0]);
                    if ((rows[k % ROWS][2] & 0x10u) != 0) {
                        READS(0, cccd);
                        HEARS(0, ATT_READ_RESPONSE, k == service * ROWS + row, 0);
                        radio.devices[0].looked_at = radio.devices[0].heard_count = 0;
                    }
                }
                WRITES(0, cccd_of(service, rows[row][0]), 0, 0);
                HEARS(0, ATT_WRITE_RESPONSE);
            }
        }
    }
    end();
}

static void bonded(void)
{
    const uint32_t state = value_of(MCS_GENERIC, MCS_MEDIA_STATE);
    begin("a bonded device is told again without writing its CCCDs again");
    for (uint32_t device = 0; device < 2; device++) {
        radio.devices[device].bonded = device == 0;
        arrives(device, 23);
        subscribes(device, MCS_GENERIC, MCS_MEDIA_STATE);
        radio_disconnects(&radio, device);
        CHECK(radio_connects(&radio, device));
        READS(device, state + 1);
        HEARS(device, ATT_READ_RESPONSE, 0, 0);
        radio_encrypts(&radio, device, true);
        READS(device, state + 1);
        HEARS(device, ATT_READ_RESPONSE, device == 0, 0);
    }
    activates(MCS_GENERIC);
    NOTIFIED(0, state, MCS_PAUSED);
    end();
}

static void commands(void)
{
    const uint32_t point = value_of(MCS_GENERIC, MCS_CONTROL_POINT), order = value_of(MCS_GENERIC, MCS_PLAYING_ORDER);
    begin("a Write Command is not answered; its result is told all the same");
    arrives(0, 23);
    subscribes(0, MCS_GENERIC, MCS_CONTROL_POINT);
    activates(MCS_GENERIC);
    COMMANDS(0, point, MCS_OPCODE_PLAY);
    NOTIFIED(0, point, MCS_OPCODE_PLAY, 1);
    COMMANDS(0, order, 9);
    COMMANDS(0, order, 4, 4);
    READS(0, order);
    HEARS(0, ATT_READ_RESPONSE, 3);
    COMMANDS(0, order, 4);
    READS(0, order);
    HEARS(0, ATT_READ_RESPONSE, 4);
    /* by a Write Request both are answered */
    WRITES(0, order, 9);
    HEARS_ERROR(0, ATT_WRITE, order, 0x13);
    WRITES(0, order, 4, 4);
    HEARS_ERROR(0, ATT_WRITE, order, 0x0D);
    /* nothing here is long enough to be written by parts */
    SAYS(0, ATT_PREPARE_WRITE, LOW(order), HIGH(order), 0, 0, 4);
    HEARS_ERROR(0, ATT_PREPARE_WRITE, order, 0x06);
    end();
}

static void strangers(void)
{
    static struct gatt before;
    uint8_t value[MCS_OUTPUT_OCTETS];
    uint32_t length = 0;
    begin("handles that are none of the services' values are not the bridge's");
    arrives(0, 23);
    READS(0, 0u);
    HEARS_ERROR(0, ATT_READ, 0u, 0x01);
    READS(0, 103u);
    HEARS_ERROR(0, ATT_READ, 103u, 0x01);
    WRITES(0, 103u, 1, 0);
    HEARS_ERROR(0, ATT_WRITE, 103u, 0x01);
    SAYS(0, ATT_READ, 1);
    HEARS_ERROR(0, ATT_READ, 0u, 0x04);
    CHECK(gatt_read(&gatt, RADIO_CONNECTION(0), 1, 0, value, &length) == 0x01);
    CHECK(gatt_write(&gatt, RADIO_CONNECTION(0), 2, value, 0) == 0x01);
    CHECK(gatt_read(&gatt, RADIO_CONNECTION(0), 0, 0, value, &length) == 0x01);
    CHECK(length == 0);
    /* a connection that has no client alters nothing */
    memcpy(&before, &gatt, sizeof before);
    gatt_disconnected(&gatt, 0x0999);
    gatt_mtu(&gatt, 0x0999, 64);
    gatt_encryption(&gatt, 0x0999, true);
    CHECK(memcmp(&gatt, &before, sizeof gatt) == 0);
    READS(0, value_of(MCS_NAMED, MCS_CONTENT_CONTROL_ID));
    HEARS(0, ATT_READ_RESPONSE, 6);
    end();
}

static void both_players(void)
{
    uint32_t points[MCS_SERVICES], positions[MCS_SERVICES];
    begin("both players play, each by itself, and time passes for both");
    arrives(0, 23);
    for (uint32_t service = 0; service < MCS_SERVICES; service++) {
        points[service] = value_of(service, MCS_CONTROL_POINT);
        positions[service] = value_of(service, MCS_POSITION);
        activates(service);
        PRESSES(0, points[service], MCS_OPCODE_PLAY);
    }
    radio_waits(&radio, 100);
    READS(0, positions[MCS_GENERIC]);
    HEARS(0, ATT_READ_RESPONSE, 100, 0, 0, 0);
    READS(0, positions[MCS_NAMED]);
    HEARS(0, ATT_READ_RESPONSE, 100, 0, 0, 0);
    /* one at twice the speed: the host tells the same time */
    PRESSES(0, value_of(MCS_NAMED, MCS_PLAYBACK_SPEED), 64);
    radio_waits(&radio, 50);
    READS(0, positions[MCS_GENERIC]);
    HEARS(0, ATT_READ_RESPONSE, 150, 0, 0, 0);
    READS(0, positions[MCS_NAMED]);
    HEARS(0, ATT_READ_RESPONSE, 200, 0, 0, 0);
    PRESSES(0, points[MCS_GENERIC], MCS_OPCODE_PAUSE);
    radio_waits(&radio, 10);
    READS(0, positions[MCS_GENERIC]);
    HEARS(0, ATT_READ_RESPONSE, 150, 0, 0, 0);
    READS(0, positions[MCS_NAMED]);
    HEARS(0, ATT_READ_RESPONSE, 220, 0, 0, 0);
    READS(0, value_of(MCS_GENERIC, MCS_PLAYBACK_SPEED));
    HEARS(0, ATT_READ_RESPONSE, 0);
    end();
}

static void a_restart(void)
{
    const uint32_t point = value_of(MCS_GENERIC, MCS_CONTROL_POINT), position = value_of(MCS_GENERIC, MCS_POSITION);
    uint8_t stored[MCS_STATE_OCTETS], damaged[MCS_STATE_OCTETS];
    begin("a state is stored while a device is connected, and restored with nobody connected");
    arrives(0, 23);
    subscribes(0, MCS_GENERIC, MCS_MEDIA_STATE);
    activates(MCS_GENERIC);
    NOTIFIED(0, value_of(MCS_GENERIC, MCS_MEDIA_STATE), MCS_PAUSED);
    subscribes(0, MCS_GENERIC, MCS_CONTROL_POINT);
    PRESSES(0, value_of(MCS_GENERIC, MCS_PLAYBACK_SPEED), 0xC0); /* half the speed */
    radio.room = 0;
    PRESSES(0, point, MCS_OPCODE_PLAY);
    radio_waits(&radio, 101); /* 50 hundredths and a half */
    memcpy(stored, gatt.desk.state, sizeof stored);
    end();

    /* the device's connection, its subscriptions and what it was owed are not there any more; the player is as it was */
    begin("... which has the player as it was");
    CHECK(gatt_restore(&gatt, stored));
    radio_open(&radio, &gatt, traced);
    radio_tells(&radio);
    for (uint32_t client = 0; client < MCS_CLIENTS; client++) {
        CHECK(gatt.desk.state[MCS_AT_LINK(client) + MCS_IN_CONNECTED] == 0);
    }
    arrives(0, 23);
    READS(0, point + 1);
    HEARS(0, ATT_READ_RESPONSE, 0, 0);
    READS(0, position);
    HEARS(0, ATT_READ_RESPONSE, 50, 0, 0, 0);
    radio_waits(&radio, 1); /* the other half */
    READS(0, position);
    HEARS(0, ATT_READ_RESPONSE, 51, 0, 0, 0);
    end();

    begin("... while a damaged one, one of another layout and one of another card are refused, and the desk starts anew");
    memcpy(damaged, stored, sizeof damaged);
    damaged[MCS_AT_SERVICE(MCS_GENERIC) + MCS_IN_ORDER] = 9;
    CHECK(!gatt_restore(&gatt, damaged));
    memcpy(damaged, stored, sizeof damaged);
    damaged[MCS_AT_LAYOUT]--;
    CHECK(!gatt_restore(&gatt, damaged));
    lend(&other_card); /* its track is shorter, and it has no second */
    memcpy(damaged, stored, sizeof damaged);
    damaged[MCS_AT_SERVICE(MCS_GENERIC) + MCS_IN_TRACK] = 1;
    CHECK(!gatt_restore(&gatt, damaged));
    /* what happens to fit is not seen: which card a state is of, the host has to note beside it */
    CHECK(gatt_restore(&gatt, stored));
    CHECK(!gatt_restore(&gatt, damaged));
    CHECK(mcs_desk_start(&gatt.desk, players) == MCS_OK);
    arrives(0, 23);
    READS(0, value_of(MCS_GENERIC, MCS_MEDIA_STATE));
    HEARS(0, ATT_READ_RESPONSE, MCS_INACTIVE);
    end();
}

static void another_card(void)
{
    const uint32_t title = value_of(MCS_GENERIC, MCS_TITLE), duration = value_of(MCS_GENERIC, MCS_DURATION);
    begin("the card is exchanged while both players are Inactive, and nobody need disconnect");
    arrives(0, 247);
    subscribes(0, MCS_GENERIC, MCS_TITLE);
    subscribes(0, MCS_GENERIC, MCS_DURATION);
    activates(MCS_GENERIC);
    NOTIFIED_TEXT(0, title, LONG_TITLE, 50);
    NOTIFIED(0, duration, 0x70, 0x17, 0, 0); /* 6000 */
    PRESSES(0, value_of(MCS_GENERIC, MCS_CONTROL_POINT), MCS_OPCODE_NEXT_TRACK);
    NOTIFIED_TEXT(0, title, SHORT_TITLE, 6);
    NOTIFIED(0, duration, 0x2C, 0x01, 0, 0); /* 300 */
    deactivates(MCS_GENERIC);
    deactivates(MCS_NAMED);
    NOTIFIED_TEXT(0, title, "", 0);
    NOTIFIED(0, duration, 0xFF, 0xFF, 0xFF, 0xFF);
    lend(&other_card);
    activates(MCS_GENERIC);
    NOTIFIED_TEXT(0, title, SHORT_TITLE, 6);
    NOTIFIED(0, duration, 0x2C, 0x01, 0, 0);
    end();
}

static void a_panel(void)
{
    static const uint8_t play = MCS_OPCODE_PLAY;
    const uint16_t panel = 0x0F00; /* a number that no connection of the radio has */
    const uint32_t state = value_of(MCS_GENERIC, MCS_MEDIA_STATE), point = value_of(MCS_GENERIC, MCS_CONTROL_POINT);
    begin("a Play button on the desk itself is a client without a radio");
    CHECK(gatt_connected(&gatt, panel));
    gatt_encryption(&gatt, panel, true);
    arrives(0, 23);
    activates(MCS_GENERIC);
    subscribes(0, MCS_GENERIC, MCS_MEDIA_STATE);
    CHECK(gatt_write(&gatt, panel, (uint16_t)point, &play, 1) == 0);
    radio_tells(&radio);
    NOTIFIED(0, state, MCS_PLAYING);
    end();
}

/* Everything that can be owed is: to each of four devices 13 values and 8 results of each service. */
static void everything_owed(void)
{
    uint32_t told = 0;
    begin_unseen("everything is owed to everybody, 168 things, and is told when the radio has room");
    for (uint32_t device = 0; device < 4; device++) {
        arrives(device, 247);
        for (uint32_t k = 0; k < MCS_SERVICES * ROWS; k++) {
            if ((rows[k % ROWS][2] & 0x10u) != 0) {
                subscribes(device, k / ROWS, rows[k % ROWS][0]);
            }
        }
    }
    radio.room = 0;
    for (uint32_t service = 0; service < MCS_SERVICES; service++) {
        renames(service, other_name);
        activates(service);
        for (uint32_t device = 0; device < 4; device++) { /* of 8 and 15 the writer is not told, so another writes them too */
            PRESSES(device, value_of(service, MCS_PLAYBACK_SPEED), LOW(device + 1u));
            PRESSES(device, value_of(service, MCS_PLAYING_ORDER), LOW(device + 4u));
            for (uint32_t k = 0; k < 8; k++) {
                PRESSES(device, value_of(service, MCS_CONTROL_POINT), MCS_OPCODE_FAST_FORWARD);
            }
            WRITES(device, value_of(service, MCS_CONTROL_POINT), MCS_OPCODE_FAST_FORWARD);
            HEARS_ERROR(device, ATT_WRITE, value_of(service, MCS_CONTROL_POINT), 0x11);
        }
    }
    radio.room = RADIO_QUEUE;
    radio_tells(&radio);
    for (uint32_t device = 0; device < 4; device++) {
        uint32_t names = 0, results = 0;
        CHECK(radio.devices[device].heard_count - radio.devices[device].looked_at == 42);
        while (radio.devices[device].looked_at < radio.devices[device].heard_count) {
            const struct radio_pdu *pdu = &radio.devices[device].heard[radio.devices[device].looked_at++];
            const uint32_t handle = pdu->octets[1];
            told++;
            names +=
                handle == value_of(MCS_GENERIC, MCS_NAME) && pdu->length == 50 && memcmp(pdu->octets + 3, other_name, 47) == 0;
            results += handle == value_of(MCS_NAMED, MCS_CONTROL_POINT) && pdu->length == 5 &&
                       pdu->octets[3] == MCS_OPCODE_FAST_FORWARD && pdu->octets[4] == MCS_RESULT_SUCCESS;
        }
        CHECK(names == 1);
        CHECK(results == 8);
    }
    CHECK(told == MCS_MOST_OWED);
    end();
}

/* ---- The table of the paper ---------------------------------------------------------------------------------------------------- */

#define C_NAME(number, properties, words) #number,
static const char *const c_names[ROWS] = {MCS_EACH_CHARACTERISTIC(C_NAME)};
#define NUMBER(number, properties, words) number,
static const uint32_t numbers[ROWS] = {MCS_EACH_CHARACTERISTIC(NUMBER)};

static void print_table(void)
{
    static const char *const words[] = {"read", "write without response", "write", "notify"};
    begin("");
    for (uint32_t row = 0, handle = 2; row < ROWS; row++) {
        const struct radio_attribute *declared = &radio.table[handle];
        const char *between = "";
        printf("| %u | `%s` | %s | 0x%04X | 0x%02X: ", (unsigned)numbers[row], c_names[row],
               mcs_characteristic_words(numbers[row]), (unsigned)declared->uuid, (unsigned)declared->properties);
        for (uint32_t bit = 0; bit < 4; bit++) {
            if ((declared->properties >> (bit + 1u) & 1u) != 0) {
                printf("%s%s", between, words[bit]);
                between = ", ";
            }
        }
        printf(" |\n");
        handle += (declared->properties & GATT_NOTIFY) != 0 ? 3u : 2u;
    }
}

int main(int argc, char **argv)
{
    if (argc > 1 && strcmp(argv[1], "table") == 0) {
        print_table();
        return 0;
    }
    traced = argc > 1 && strcmp(argv[1], "trace") == 0;
    the_table();
    two_pedals();
    a_fifth();
    unencrypted();
    encryption_again();
    long_reads();
    cut_titles();
    late_exchange();
    little_room();
    a_stuck_link();
    faults();
    descriptors();
    every_descriptor();
    bonded();
    commands();
    strangers();
    both_players();
    a_restart();
    another_card();
    a_panel();
    everything_owed();
    printf("%u trials, %u expectations, %u not met\n", trials, expectations, failures);
    return failures == 0 ? 0 : 1;
}
