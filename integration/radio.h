/* A small host that stands in for the radio: the server's side of the Attribute Protocol, with an attribute table, connections, bonds,
 * and for each connection a queue of notifications that has little room. It is what gatt.h asks for, and no more: there is no discovery,
 * since whoever tests knows the table. What devices hear is kept as the octets of the PDUs, and may be printed. */
#ifndef RADIO_H
#define RADIO_H

#include "gatt.h"

#define RADIO_ATTRIBUTES 128u /* handles from 1 on */
#define RADIO_DEVICES 6u      /* each with one connection at most, whose number is RADIO_CONNECTION of the device */
#define RADIO_CONNECTION(device) (uint16_t)(0x40u + (device))
#define RADIO_MTU 247u   /* the most that the server offers */
#define RADIO_QUEUE 8u   /* the most notifications that wait for a connection */
#define RADIO_HEARD 256u /* PDUs that a device remembers */

/* Types of attributes. */
#define RADIO_PRIMARY_SERVICE 0x2800u
#define RADIO_CHARACTERISTIC 0x2803u
#define RADIO_CCCD 0x2902u

/* PDUs of the Attribute Protocol, by their first octet. */
#define ATT_ERROR 0x01u
#define ATT_MTU_REQUEST 0x02u
#define ATT_MTU_RESPONSE 0x03u
#define ATT_READ 0x0Au
#define ATT_READ_RESPONSE 0x0Bu
#define ATT_READ_BLOB 0x0Cu
#define ATT_READ_BLOB_RESPONSE 0x0Du
#define ATT_WRITE 0x12u
#define ATT_WRITE_RESPONSE 0x13u
#define ATT_PREPARE_WRITE 0x16u
#define ATT_NOTIFICATION 0x1Bu
#define ATT_WRITE_COMMAND 0x52u

/* Error codes that this server gives itself. */
#define ATT_INVALID_HANDLE 0x01u
#define ATT_INVALID_PDU 0x04u
#define ATT_NOT_SUPPORTED 0x06u

struct radio_attribute {
    uint16_t type, uuid; /* of a service or a characteristic the UUID that it declares; of a value its type alone */
    uint8_t properties;
};

struct radio_pdu {
    uint8_t octets[RADIO_MTU];
    uint32_t length;
};

struct radio_device {
    bool connected, encrypted, bonded;
    uint32_t mtu;
    struct radio_pdu queue[RADIO_QUEUE]; /* notifications that are not on air yet, the oldest first */
    uint32_t waiting;
    struct radio_pdu heard[RADIO_HEARD]; /* what was on air */
    uint32_t heard_count, looked_at;
    bool kept[RADIO_ATTRIBUTES]; /* of a bonded device: the CCCDs that were 0x0001, over connections */
};

struct radio {
    struct gatt *gatt;
    struct gatt_host host;
    struct radio_attribute table[RADIO_ATTRIBUTES];
    uint16_t attributes;
    struct radio_device devices[RADIO_DEVICES];
    uint32_t room;     /* of each queue, up to RADIO_QUEUE */
    bool held;         /* the air is held: what waits is sent by radio_sends alone */
    bool traced;       /* what is said and heard is printed */
    uint32_t faults;   /* how many were noted */
    uint32_t fault;    /* the last of them */
    uint32_t too_long; /* PDUs over ATT_MTU */
    uint32_t strays;   /* notifications to nobody, or while unencrypted */
    uint32_t missed;   /* PDUs that a device does not remember */
};

/* A radio with the services of a desk that is started or restored. */
void radio_open(struct radio *radio, struct gatt *gatt, bool traced);

/* A device connects, and is refused where the bridge has no place for it. What it heard before is forgotten. */
bool radio_connects(struct radio *radio, uint32_t device);
void radio_disconnects(struct radio *radio, uint32_t device);

/* Encryption begins or ends. Of a bonded device the kept CCCDs are then set again. */
void radio_encrypts(struct radio *radio, uint32_t device, bool encrypted);

/* A device sends a PDU, which is answered and followed by what is owed. */
void radio_receives(struct radio *radio, uint32_t device, const uint8_t *pdu, uint32_t length);

/* So many hundredths of a second pass. */
void radio_waits(struct radio *radio, uint32_t hundredths);

/* The player's own call has been made: what is owed is told. */
void radio_tells(struct radio *radio);

/* While the air is held: one notification to the device goes on air, and what is owed may take its place. */
void radio_sends(struct radio *radio, uint32_t device);

#endif
