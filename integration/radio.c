/* The host of radio.h. */
#include "radio.h"

#include "words.h"

#include <stdio.h>
#include <string.h>

/* The PDUs that are said and heard here: the first octet, the least length, and the name. */
static const struct kind {
    uint8_t first, least;
    const char *words;
} kinds[] = {{ATT_ERROR, 5, "Error Response"},
             {ATT_MTU_REQUEST, 3, "Exchange MTU Request"},
             {ATT_MTU_RESPONSE, 3, "Exchange MTU Response"},
             {ATT_READ, 3, "Read Request"},
             {ATT_READ_RESPONSE, 1, "Read Response"},
             {ATT_READ_BLOB, 5, "Read Blob Request"},
             {ATT_READ_BLOB_RESPONSE, 1, "Read Blob Response"},
             {ATT_WRITE, 3, "Write Request"},
             {ATT_WRITE_RESPONSE, 1, "Write Response"},
             {ATT_PREPARE_WRITE, 5, "Prepare Write Request"},
             {ATT_NOTIFICATION, 3, "Notification"},
             {ATT_WRITE_COMMAND, 3, "Write Command"}};

static const struct kind *kind_of(uint8_t first)
{
    static const struct kind unknown = {0, 1, "unknown"};
    for (size_t k = 0; k < sizeof kinds / sizeof kinds[0]; k++) {
        if (kinds[k].first == first) {
            return &kinds[k];
        }
    }
    return &unknown;
}

/* Which attribute a PDU is about, where it is one of the two services'. */
static void trace_attribute(const struct radio *radio, const uint8_t *pdu, uint32_t length)
{
#define WORDS(number, properties, words) words,
    static const char *const characteristics[] = {MCS_EACH_CHARACTERISTIC(WORDS)};
    const uint32_t at = pdu[0] == ATT_ERROR ? 2 : 1;
    const uint32_t handle = kind_of(pdu[0])->least < 3 || length < at + 2u ? 0 : half_word_at(pdu + at);
    for (uint32_t k = 0; handle != 0 && k < MCS_SERVICES * GATT_CHARACTERISTICS; k++) {
        const struct gatt_handles *handles = &radio->gatt->handles[k / GATT_CHARACTERISTICS][k % GATT_CHARACTERISTICS];
        if (handle == handles->value || handle == handles->cccd) {
            printf("  (%s %s%s)", k < GATT_CHARACTERISTICS ? "generic" : "named", characteristics[k % GATT_CHARACTERISTICS],
                   handle == handles->cccd ? ", CCCD" : "");
        }
    }
}

static void trace(const struct radio *radio, uint32_t device, char way, const uint8_t *pdu, uint32_t length)
{
    if (radio->traced) {
        printf("    %u %c %-21s", (unsigned)device, way, kind_of(pdu[0])->words);
        for (uint32_t k = 0; k < length; k++) {
            printf(" %02X", (unsigned)pdu[k]);
        }
        if (pdu[0] != ATT_MTU_REQUEST && pdu[0] != ATT_MTU_RESPONSE) {
            trace_attribute(radio, pdu, length);
        }
        printf("\n");
    }
}

/* A PDU goes on air, and the device hears it. */
static void on_air(struct radio *radio, uint32_t device, const struct radio_pdu *pdu)
{
    struct radio_device *to = &radio->devices[device];
    trace(radio, device, '<', pdu->octets, pdu->length);
    radio->too_long += pdu->length > to->mtu ? 1u : 0u;
    if (to->heard_count < RADIO_HEARD) {
        to->heard[to->heard_count++] = *pdu;
    } else {
        radio->missed++;
    }
}

/* ---- What the bridge asks for ------------------------------------------------------------------------------------------------ */

static uint16_t add(struct radio *radio, uint16_t type, uint16_t uuid, uint8_t properties)
{
    radio->attributes++;
    radio->table[radio->attributes].type = type;
    radio->table[radio->attributes].uuid = uuid;
    radio->table[radio->attributes].properties = properties;
    return radio->attributes;
}

static void add_service(void *context, uint16_t uuid) { (void)add(context, RADIO_PRIMARY_SERVICE, uuid, 0); }

static struct gatt_handles add_characteristic(void *context, uint16_t uuid, uint8_t properties)
{
    struct gatt_handles handles = {0, 0};
    (void)add(context, RADIO_CHARACTERISTIC, uuid, properties);
    handles.value = add(context, uuid, 0, 0);
    if ((properties & GATT_NOTIFY) != 0) {
        handles.cccd = add(context, RADIO_CCCD, 0, 0);
    }
    return handles;
}

static bool notify(void *context, uint16_t connection, uint16_t handle, const uint8_t *octets, uint32_t length)
{
    struct radio *radio = context;
    const uint32_t device = (uint32_t)connection - RADIO_CONNECTION(0);
    struct radio_device *to;
    struct radio_pdu *pdu;
    if (device >= RADIO_DEVICES || !radio->devices[device].connected || !radio->devices[device].encrypted) {
        radio->strays++;
        return true;
    }
    to = &radio->devices[device];
    if (to->waiting == radio->room) {
        return false;
    }
    pdu = &to->queue[to->waiting++];
    pdu->octets[0] = ATT_NOTIFICATION;
    put_half_word(pdu->octets + 1, handle);
    if (length > 0) {
        memcpy(pdu->octets + 3, octets, length);
    }
    pdu->length = 3u + length;
    return true;
}

static void fault(void *context, uint32_t number)
{
    struct radio *radio = context;
    radio->faults++;
    radio->fault = number;
    if (radio->traced) {
        printf("    not on air: %u, %s\n", (unsigned)number, mcs_refusal_words(number));
    }
}

void radio_open(struct radio *radio, struct gatt *gatt, bool traced)
{
    memset(radio, 0, sizeof *radio);
    radio->gatt = gatt;
    radio->room = RADIO_QUEUE;
    radio->traced = traced;
    radio->host.radio = radio;
    radio->host.add_service = add_service;
    radio->host.add_characteristic = add_characteristic;
    radio->host.notify = notify;
    radio->host.fault = fault;
    gatt_register(gatt, &radio->host);
}

/* ---- Events ------------------------------------------------------------------------------------------------------------------ */

static void send_oldest(struct radio *radio, uint32_t device)
{
    struct radio_device *to = &radio->devices[device];
    if (to->waiting > 0) {
        on_air(radio, device, &to->queue[0]);
        to->waiting--;
        memmove(&to->queue[0], &to->queue[1], to->waiting * sizeof to->queue[0]);
    }
}

/* More rounds than there can be things owed are not made, so that a bridge that is wrong comes to an end too. */
void radio_tells(struct radio *radio)
{
    bool sent = true;
    gatt_tell(radio->gatt);
    for (uint32_t round = 0; sent && !radio->held && round < MCS_MOST_OWED; round++) {
        sent = false;
        for (uint32_t device = 0; device < RADIO_DEVICES; device++) {
            sent = sent || radio->devices[device].waiting > 0;
            send_oldest(radio, device);
        }
        gatt_tell(radio->gatt);
    }
}

void radio_sends(struct radio *radio, uint32_t device)
{
    send_oldest(radio, device);
    radio_tells(radio);
}

bool radio_connects(struct radio *radio, uint32_t device)
{
    struct radio_device *to = &radio->devices[device];
    to->connected = gatt_connected(radio->gatt, RADIO_CONNECTION(device));
    to->mtu = GATT_LEAST_MTU;
    to->waiting = to->heard_count = to->looked_at = 0;
    to->encrypted = false;
    if (radio->traced) {
        printf("    %u %s\n", (unsigned)device, to->connected ? "connects" : "is refused");
    }
    return to->connected;
}

void radio_disconnects(struct radio *radio, uint32_t device)
{
    radio->devices[device].connected = false;
    radio->devices[device].waiting = 0;
    if (radio->traced) {
        printf("    %u disconnects\n", (unsigned)device);
    }
    gatt_disconnected(radio->gatt, RADIO_CONNECTION(device));
    radio_tells(radio);
}

void radio_encrypts(struct radio *radio, uint32_t device, bool encrypted)
{
    static const uint8_t on[2] = {1, 0};
    struct radio_device *to = &radio->devices[device];
    to->encrypted = encrypted;
    if (radio->traced) {
        printf("    %u is %s\n", (unsigned)device, encrypted ? "encrypted" : "no longer encrypted");
    }
    gatt_encryption(radio->gatt, RADIO_CONNECTION(device), encrypted);
    for (uint16_t handle = 1; encrypted && handle <= radio->attributes; handle++) {
        if (to->bonded && to->kept[handle]) {
            (void)gatt_write(radio->gatt, RADIO_CONNECTION(device), handle, on, 2);
        }
    }
    radio_tells(radio);
}

void radio_waits(struct radio *radio, uint32_t hundredths)
{
    if (radio->traced) {
        printf("    %u hundredths of a second pass\n", (unsigned)hundredths);
    }
    gatt_time(radio->gatt, hundredths);
    radio_tells(radio);
}

/* The declarations are the server's own, and anybody may read them. */
static uint8_t read_attribute(struct radio *radio, uint32_t device, uint16_t handle, uint32_t offset, uint8_t *value,
                              uint32_t *length)
{
    uint8_t whole[5];
    uint32_t octets = 2;
    const struct radio_attribute *at = &radio->table[handle < RADIO_ATTRIBUTES ? handle : 0];
    if (handle == 0 || handle > radio->attributes) {
        return ATT_INVALID_HANDLE;
    }
    if (at->type == RADIO_PRIMARY_SERVICE) {
        put_half_word(whole, at->uuid);
    } else if (at->type == RADIO_CHARACTERISTIC) {
        whole[0] = at->properties;
        put_half_word(whole + 1, handle + 1u);
        put_half_word(whole + 3, at->uuid);
        octets = 5;
    } else {
        return gatt_read(radio->gatt, RADIO_CONNECTION(device), handle, offset, value, length);
    }
    if (offset > octets) {
        return MCS_BEYOND_END;
    }
    *length = octets - offset;
    memcpy(value, whole + offset, *length);
    return 0;
}

static uint8_t write_attribute(struct radio *radio, uint32_t device, uint16_t handle, const uint8_t *value, uint32_t length)
{
    const uint8_t code = gatt_write(radio->gatt, RADIO_CONNECTION(device), handle, value, length);
    if (code == 0 && radio->table[handle].type == RADIO_CCCD) {
        radio->devices[device].kept[handle] = value[0] == 1;
    }
    return code;
}

void radio_receives(struct radio *radio, uint32_t device, const uint8_t *pdu, uint32_t length)
{
    struct radio_device *from = &radio->devices[device];
    const uint16_t handle = (uint16_t)(length >= 3 ? half_word_at(pdu + 1) : 0);
    struct radio_pdu answer;
    uint8_t value[MCS_OUTPUT_OCTETS], code = 0;
    uint32_t octets = 0, mtu = 0;
    memset(&answer, 0, sizeof answer);
    trace(radio, device, '>', pdu, length);
    answer.length = 1;
    switch (length < kind_of(pdu[0])->least ? 0 : pdu[0]) {
    case 0:
        code = ATT_INVALID_PDU;
        break;
    case ATT_MTU_REQUEST:
        mtu = handle < RADIO_MTU ? handle : RADIO_MTU;
        answer.octets[0] = ATT_MTU_RESPONSE;
        put_half_word(answer.octets + 1, RADIO_MTU);
        answer.length = 3;
        break;
    case ATT_READ:
    case ATT_READ_BLOB:
        answer.octets[0] = pdu[0] == ATT_READ ? ATT_READ_RESPONSE : ATT_READ_BLOB_RESPONSE;
        code = read_attribute(radio, device, handle, pdu[0] == ATT_READ ? 0 : half_word_at(pdu + 3), value, &octets);
        memcpy(answer.octets + 1, value, octets);
        answer.length += octets;
        break;
    case ATT_WRITE:
        answer.octets[0] = ATT_WRITE_RESPONSE;
        code = write_attribute(radio, device, handle, pdu + 3, length - 3u);
        break;
    case ATT_WRITE_COMMAND: /* nothing is answered, whatever becomes of it; and it writes no descriptor */
        if (handle <= radio->attributes && radio->table[handle].type != RADIO_CCCD) {
            (void)write_attribute(radio, device, handle, pdu + 3, length - 3u);
        }
        answer.length = 0;
        break;
    default: /* prepared writes among them: no value here is longer than a Write Request has room for */
        code = ATT_NOT_SUPPORTED;
        break;
    }
    if (code != 0) {
        answer.octets[0] = ATT_ERROR;
        answer.octets[1] = pdu[0];
        put_half_word(answer.octets + 2, handle);
        answer.octets[4] = code;
        answer.length = 5;
    }
    if (answer.length > 0) {
        on_air(radio, device, &answer);
    }
    if (mtu >= GATT_LEAST_MTU) { /* it holds behind the answer */
        from->mtu = mtu;
        gatt_mtu(radio->gatt, RADIO_CONNECTION(device), mtu);
    }
    radio_tells(radio);
}
