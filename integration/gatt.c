/* The bridge of gatt.h. */
#include "gatt.h"

#include <string.h>

/* The core is told the longest ATT_MTU that there is, so that it hands out whole values, which have at most MCS_OUTPUT_OCTETS octets;
 * they are cut here, by the ATT_MTU that the connection has at that moment. So an exchange of it needs no call, and loses nothing. */
#define WHOLE_VALUES 517u

#define CCCD_OCTETS 2u

/* Assigned numbers of the Bluetooth SIG. */
#define UUID_MCS_GENERIC 0x1849u
#define UUID_MCS_NAMED 0x1848u
#define UUID_MCS_NAME 0x2B93u
#define UUID_MCS_TRACK_CHANGED 0x2B96u
#define UUID_MCS_TITLE 0x2B97u
#define UUID_MCS_DURATION 0x2B98u
#define UUID_MCS_POSITION 0x2B99u
#define UUID_MCS_PLAYBACK_SPEED 0x2B9Au
#define UUID_MCS_SEEKING_SPEED 0x2B9Bu
#define UUID_MCS_SEGMENTS_OBJECT 0x2B9Cu
#define UUID_MCS_TRACK_OBJECT 0x2B9Du
#define UUID_MCS_NEXT_TRACK_OBJECT 0x2B9Eu
#define UUID_MCS_PARENT_GROUP_OBJECT 0x2B9Fu
#define UUID_MCS_GROUP_OBJECT 0x2BA0u
#define UUID_MCS_PLAYING_ORDER 0x2BA1u
#define UUID_MCS_ORDERS_SUPPORTED 0x2BA2u
#define UUID_MCS_MEDIA_STATE 0x2BA3u
#define UUID_MCS_CONTROL_POINT 0x2BA4u
#define UUID_MCS_OPCODES_SUPPORTED 0x2BA5u
#define UUID_MCS_CONTENT_CONTROL_ID 0x2BBAu

/* The services, and the characteristics that each of them has. */
#define SERVICE(number, words) UUID_##number,
static const uint16_t services[MCS_SERVICES] = {MCS_EACH_SERVICE(SERVICE)};

#define CHARACTERISTIC(number, properties, words) {UUID_##number, number, properties},
static const struct characteristic {
    uint16_t uuid;
    uint8_t number, may;
} characteristics[GATT_CHARACTERISTICS] = {MCS_EACH_CHARACTERISTIC(CHARACTERISTIC)};

/* An attribute of the two services: the value of a characteristic, by its row in the table above, or its CCCD. */
struct attribute {
    uint32_t service, row;
    bool cccd;
};

static uint32_t at_most(uint32_t number, uint32_t most) { return number < most ? number : most; }

static void note_fault(const struct gatt *gatt, uint32_t number)
{
    if (number != MCS_OK) {
        gatt->host->fault(gatt->host->radio, number);
    }
}

/* What goes on air for a number that a call returned. */
static uint8_t on_air(const struct gatt *gatt, uint32_t number)
{
    if (number == MCS_OK || MCS_IS_ATT_ERROR(number)) {
        return number & 0xFFu;
    }
    note_fault(gatt, number);
    return GATT_UNLIKELY_ERROR;
}

/* The client of a connection; MCS_CLIENTS, which is none, where it has none. */
static uint32_t client_of(const struct gatt *gatt, uint16_t connection)
{
    uint32_t client = 0;
    while (client < MCS_CLIENTS && !(gatt->links[client].used && gatt->links[client].connection == connection)) {
        client++;
    }
    return client;
}

/* Whether the attribute with this handle is one of ours, and which. */
static bool find(const struct gatt *gatt, uint16_t handle, struct attribute *at)
{
    for (at->service = 0; at->service < MCS_SERVICES; at->service++) {
        for (at->row = 0; at->row < GATT_CHARACTERISTICS; at->row++) {
            const struct gatt_handles *handles = &gatt->handles[at->service][at->row];
            at->cccd = handle == handles->cccd;
            if (handle != 0 && (at->cccd || handle == handles->value)) {
                return true;
            }
        }
    }
    return false;
}

void gatt_register(struct gatt *gatt, const struct gatt_host *host)
{
    gatt->host = host;
    memset(gatt->links, 0, sizeof gatt->links);
    for (uint32_t service = 0; service < MCS_SERVICES; service++) {
        host->add_service(host->radio, services[service]);
        for (uint32_t row = 0; row < GATT_CHARACTERISTICS; row++) {
            const uint32_t may = characteristics[row].may;
            const uint8_t properties = (((may & MCS_MAY_READ) != 0 ? GATT_READ : 0u) |
                                        ((may & MCS_MAY_WRITE) != 0 ? GATT_WRITE | GATT_WRITE_WITHOUT_RESPONSE : 0u) |
                                        ((may & MCS_MAY_NOTIFY) != 0 ? GATT_NOTIFY : 0u)) &
                                       0xFFu;
            gatt->handles[service][row] = host->add_characteristic(host->radio, characteristics[row].uuid, properties);
        }
    }
}

/* The title is asked for since that alters nothing and looks at all of the state. */
bool gatt_restore(struct gatt *gatt, const uint8_t state[MCS_STATE_OCTETS])
{
    struct mcs_title title;
    memcpy(gatt->desk.state, state, MCS_STATE_OCTETS);
    if (mcs_desk_title(&gatt->desk, MCS_GENERIC, &title) != MCS_OK) {
        return false;
    }
    for (uint32_t client = 0; client < MCS_CLIENTS; client++) {
        (void)mcs_desk_disconnect(&gatt->desk, client); /* or it was not connected */
    }
    return true;
}

bool gatt_connected(struct gatt *gatt, uint16_t connection)
{
    uint32_t client = 0;
    while (client < MCS_CLIENTS && gatt->links[client].used) {
        client++;
    }
    if (client == MCS_CLIENTS) {
        return false;
    }
    gatt->links[client].used = true;
    gatt->links[client].encrypted = false;
    gatt->links[client].connection = connection;
    gatt->links[client].mtu = GATT_LEAST_MTU;
    note_fault(gatt, mcs_desk_connect(&gatt->desk, client, WHOLE_VALUES, 0));
    return true;
}

void gatt_disconnected(struct gatt *gatt, uint16_t connection)
{
    const uint32_t client = client_of(gatt, connection);
    if (client < MCS_CLIENTS) {
        gatt->links[client].used = false;
        note_fault(gatt, mcs_desk_disconnect(&gatt->desk, client));
    }
}

void gatt_mtu(struct gatt *gatt, uint16_t connection, uint32_t mtu)
{
    const uint32_t client = client_of(gatt, connection);
    if (client < MCS_CLIENTS && mtu >= GATT_LEAST_MTU) {
        gatt->links[client].mtu = mtu;
    }
}

/* The core is told of encryption when a client connects, so the client connects to it anew. An unencrypted client has no
 * subscriptions, and so nothing is lost when encryption begins; when it ends, nothing that was owed may be sent. */
void gatt_encryption(struct gatt *gatt, uint16_t connection, bool encrypted)
{
    const uint32_t client = client_of(gatt, connection);
    if (client < MCS_CLIENTS && gatt->links[client].encrypted != encrypted) {
        gatt->links[client].encrypted = encrypted;
        note_fault(gatt, mcs_desk_disconnect(&gatt->desk, client));
        note_fault(gatt, mcs_desk_connect(&gatt->desk, client, WHOLE_VALUES, encrypted));
    }
}

/* The value of a CCCD is the client's subscription, as the state has it: the bit of the slot. */
static uint8_t read_cccd(const struct gatt *gatt, uint32_t client, const struct attribute *at, uint32_t offset, uint8_t *value,
                         uint32_t *length)
{
    const uint8_t *word = gatt->desk.state + MCS_AT_SERVICE(at->service) + MCS_IN_ACCOUNT(client) + MCS_IN_SUBSCRIBED;
    uint8_t cccd[CCCD_OCTETS] = {0, 0};
    uint32_t slot = 0;
    if (offset > CCCD_OCTETS) {
        return MCS_BEYOND_END;
    }
    for (uint32_t row = 0; row < at->row; row++) {
        slot += (characteristics[row].may & MCS_MAY_NOTIFY) != 0 ? 1u : 0u;
    }
    cccd[0] = word[slot / 8u] >> slot % 8u & 1u;
    *length = CCCD_OCTETS - offset;
    memcpy(value, cccd + offset, *length);
    return MCS_OK;
}

/* Whose request it is, and for which attribute; or the code that answers it. */
static uint8_t meant(const struct gatt *gatt, uint16_t connection, uint16_t handle, uint32_t *client, struct attribute *at)
{
    *client = client_of(gatt, connection);
    if (!find(gatt, handle, at)) {
        return MCS_NO_CHARACTERISTIC;
    }
    return on_air(gatt, *client < MCS_CLIENTS ? MCS_OK : MCS_NO_CLIENT);
}

uint8_t gatt_read(struct gatt *gatt, uint16_t connection, uint16_t handle, uint32_t offset, uint8_t value[MCS_OUTPUT_OCTETS],
                  uint32_t *length)
{
    struct attribute at;
    uint32_t client, number;
    const uint8_t code = meant(gatt, connection, handle, &client, &at);
    if (code != MCS_OK) {
        return code;
    }
    if (at.cccd) {
        return read_cccd(gatt, client, &at, offset, value, length);
    }
    number = mcs_desk_read(&gatt->desk, client, at.service, characteristics[at.row].number, offset, value, MCS_OUTPUT_OCTETS,
                           length);
    if (number == MCS_OK) {
        *length = at_most(*length, gatt->links[client].mtu - 1u);
    }
    return on_air(gatt, number);
}

static uint8_t write_cccd(struct gatt *gatt, uint32_t client, const struct attribute *at, const uint8_t *value, uint32_t length)
{
    const uint32_t characteristic = characteristics[at->row].number;
    if (!gatt->links[client].encrypted) {
        return MCS_NOT_ENCRYPTED;
    }
    if (length != CCCD_OCTETS) {
        return MCS_BAD_LENGTH;
    }
    if (value[0] > 1 || value[1] != 0) { /* 0x0002 would be indications, which no characteristic here has */
        return GATT_CCCD_IMPROPERLY_CONFIGURED;
    }
    return on_air(gatt, value[0] == 1 ? mcs_desk_subscribe(&gatt->desk, client, at->service, characteristic)
                                      : mcs_desk_unsubscribe(&gatt->desk, client, at->service, characteristic));
}

uint8_t gatt_write(struct gatt *gatt, uint16_t connection, uint16_t handle, const uint8_t *value, uint32_t length)
{
    struct attribute at;
    uint32_t client;
    const uint8_t code = meant(gatt, connection, handle, &client, &at);
    if (code != MCS_OK) {
        return code;
    }
    if (at.cccd) {
        return write_cccd(gatt, client, &at, value, length);
    }
    return on_air(gatt, mcs_desk_write(&gatt->desk, client, at.service, characteristics[at.row].number, value, length));
}

void gatt_time(struct gatt *gatt, uint32_t hundredths)
{
    for (uint32_t service = 0; service < MCS_SERVICES; service++) {
        note_fault(gatt, mcs_desk_advance(&gatt->desk, service, hundredths));
    }
}

/* A take is made on a copy of the desk, and the copy becomes the desk when the radio has what was taken. Where it has no room, the
 * copy is left: what was taken is still owed, and nothing is lost. */
void gatt_tell(struct gatt *gatt)
{
    uint8_t value[MCS_OUTPUT_OCTETS];
    struct mcs_served served;
    uint32_t number, row;
    for (;;) {
        gatt->taken = gatt->desk;
        number = mcs_desk_take(&gatt->taken, value, sizeof value, &served);
        if (number != MCS_OK || served.characteristic == MCS_NOTHING) {
            note_fault(gatt, number);
            return;
        }
        for (row = 0; characteristics[row].number != served.characteristic; row++) {
        }
        if (!gatt->host->notify(gatt->host->radio, gatt->links[served.client].connection,
                                gatt->handles[served.service][row].value, value,
                                at_most(served.length, gatt->links[served.client].mtu - 3u))) {
            return;
        }
        gatt->desk = gatt->taken;
    }
}
