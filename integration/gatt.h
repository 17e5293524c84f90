/* A bridge between a GATT server and the desk player core: the callbacks of a server for Bluetooth Low Energy on one side, the calls
 * of mcs_desk.h on the other. docs/INTEGRATION.md tells why each is as it is. The server is a few function pointers, so that this file
 * and gatt.c can be copied beside any of them; radio.c is a small one that stands in for the radio in the tests.
 *
 *     static struct gatt gatt;
 *     gatt.desk.catalogue = ...;                              (as mcs_desk.h says)
 *     gatt.desk.titles = mcs_no_renames(&gatt.desk.catalogue);
 *     if (!(there_is_a_stored_state && gatt_restore(&gatt, stored)))
 *         mcs_desk_start(&gatt.desk, players);
 *     gatt_register(&gatt, &host);
 *
 * From then on, for every event: first the time that has passed (gatt_time), then the event's own function, then its answer on air,
 * then gatt_tell. Buttons of the player itself are calls of mcs_desk.h on gatt.desk, with gatt_tell behind them. All of it is one
 * thread's, and none of it an interrupt's. */
#ifndef GATT_H
#define GATT_H

#include "mcs_desk.h"

#include <stdbool.h>

/* Properties of a characteristic, as its declaration has them. */
#define GATT_READ 0x02u
#define GATT_WRITE_WITHOUT_RESPONSE 0x04u
#define GATT_WRITE 0x08u
#define GATT_NOTIFY 0x10u

/* Error codes that are the server's own; those of the core are in mcs.h. */
#define GATT_UNLIKELY_ERROR 0x0Eu             /* something is wrong in the server itself */
#define GATT_CCCD_IMPROPERLY_CONFIGURED 0xFDu /* what was written to the descriptor is nothing that the characteristic has */

/* The least ATT_MTU, which every connection begins with. */
#define GATT_LEAST_MTU 23u

/* Where a characteristic's value stands in the server's attribute table, and its Client Characteristic Configuration descriptor
 * (CCCD), which is 0 where there is none. */
struct gatt_handles {
    uint16_t value, cccd;
};

/* What the bridge needs of the server. `radio` is handed to each function. */
struct gatt_host {
    void *radio;
    /* Puts a primary service behind all that the attribute table has. */
    void (*add_service)(void *radio, uint16_t uuid);
    /* Puts a characteristic behind that: declaration, value and, where it notifies, a CCCD. The value is read and written, and the
     * CCCD written, over an encrypted connection alone. */
    struct gatt_handles (*add_characteristic)(void *radio, uint16_t uuid, uint8_t properties);
    /* Sends a notification, or says that there is no room for one now. It calls nothing of the bridge. */
    bool (*notify)(void *radio, uint16_t connection, uint16_t handle, const uint8_t *octets, uint32_t length);
    /* Notes a number that must not go on air, by which the firmware itself is at fault: mcs_refusal_words has words for it. */
    void (*fault)(void *radio, uint32_t number);
};

#define GATT_COUNT(number, properties, words) +1
enum { GATT_CHARACTERISTICS = 0 MCS_EACH_CHARACTERISTIC(GATT_COUNT) };

/* The connection of a client of the core. */
struct gatt_link {
    bool used, encrypted;
    uint16_t connection;
    uint32_t mtu;
};

struct gatt {
    struct mcs_desk desk;
    struct mcs_desk taken; /* the desk as a take leaves it, until what was taken is sent */
    struct gatt_link links[MCS_CLIENTS];
    struct gatt_handles handles[MCS_SERVICES][GATT_CHARACTERISTICS];
    const struct gatt_host *host;
};

/* Puts both services into the attribute table. Nobody is connected yet. */
void gatt_register(struct gatt *gatt, const struct gatt_host *host);

/* Takes a stored state over, with nobody connected. False where it is damaged, or of another layout or catalogue: then a start has to
 * make a new one. Catalogue and titles are there before. */
bool gatt_restore(struct gatt *gatt, const uint8_t state[MCS_STATE_OCTETS]);

/* A connection is made: false where four are there already, and the server ends it. It is unencrypted, with the least ATT_MTU. */
bool gatt_connected(struct gatt *gatt, uint16_t connection);
void gatt_disconnected(struct gatt *gatt, uint16_t connection);

/* ATT_MTU is exchanged; encryption begins or ends. When it begins, the server writes every CCCD that it keeps for a bonded device, by
 * gatt_write. */
void gatt_mtu(struct gatt *gatt, uint16_t connection, uint32_t mtu);
void gatt_encryption(struct gatt *gatt, uint16_t connection, bool encrypted);

/* A value or a CCCD is read, from an offset on, or written. Both return 0, or the code for an Error Response. A Write Command is the
 * same call as a Write Request, and what it returns is dropped. */
uint8_t gatt_read(struct gatt *gatt, uint16_t connection, uint16_t handle, uint32_t offset, uint8_t value[MCS_OUTPUT_OCTETS],
                  uint32_t *length);
uint8_t gatt_write(struct gatt *gatt, uint16_t connection, uint16_t handle, const uint8_t *value, uint32_t length);

/* So many hundredths of a second of wall time have passed, for both services. */
void gatt_time(struct gatt *gatt, uint32_t hundredths);

/* Sends what is owed, as far as the radio has room: after every event, and whenever there is room again. */
void gatt_tell(struct gatt *gatt);

#endif
