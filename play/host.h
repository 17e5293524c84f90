/* The host: the desk and what passes between it and the devices. Each call is made here, and what comes of it is noted; what a device
 * was told is kept as the device's own memory, and never looked up in the desk. */
#ifndef HOST_H
#define HOST_H

#include "devices.h"
#include "mcs_desk.h"

extern struct mcs_desk desk;

/* Starts the desk on a catalogue. 0, or the number of the refusal, and the place that it carries. */
uint32_t start_desk(const struct mcs_catalogue *c, struct mcs_place *place);

/* Both players open the first group that has tracks, if one has; then all devices come. */
void open_desk(void);

/* ---- What a device knows */

/* The last value of a characteristic that a device was told, read, or wrote itself with success. */
typedef struct {
    int is_known;
    uint32_t length;
    uint8_t octets[MCS_OUTPUT_OCTETS];
} known_value;

const known_value *known(uint32_t who, uint32_t service, uint32_t characteristic);

/* What became of the last press of a device at a service, as far as it was told. */
typedef enum { NOT_PRESSED, PRESS_WAITS, PRESS_TOLD, PRESS_REFUSED, PRESS_UNTOLD } fate;
typedef struct {
    fate became;
    uint8_t opcode;
    uint32_t number; /* of the result or of the refusal */
} last_press;

last_press press_of(uint32_t who, uint32_t service);

/* All devices read what they show again, and no longer know what they pressed: the desk has another state. */
void begin_anew(void);

/* ---- What a device does */

void come_or_go(uint32_t who);
void subscribe_or_not(uint32_t who, uint32_t service, uint32_t characteristic);
void subscribe_all_or_none(uint32_t who, uint32_t service);
void read_again(uint32_t who, uint32_t service);
void press(uint32_t who, uint32_t service, uint8_t opcode, int32_t number);

/* Writes a value; `what` says in a word what it is, for a refusal. */
void write_octet(uint32_t who, uint32_t service, uint32_t characteristic, int32_t number, const char *what);
void write_position(uint32_t who, uint32_t service, int32_t position);
void write_object(uint32_t who, uint32_t service, uint32_t characteristic, uint64_t object);

/* The object that a device reads; 0, which no object has, where there is none or it is refused. */
uint64_t read_object(uint32_t who, uint32_t service, uint32_t characteristic);

/* ---- What the desk does */

void activate(uint32_t service, uint32_t group);
void deactivate(uint32_t service);
void pass_time(uint32_t hundredths);

/* One take. Whether anything was owed. */
int take_one(void);

/* ---- What the desk's state says */

const uint8_t *player_octets(uint32_t service);
uint32_t player_word(uint32_t service, uint32_t at);
int is_connected(uint32_t who);
uint32_t subscribed_slots(uint32_t who, uint32_t service);
uint32_t owed_slots(uint32_t who, uint32_t service);
uint32_t waiting_results(uint32_t who, uint32_t service);
int is_anything_owed(void);
int does_anything_move(void); /* a player plays or seeks */

#endif
