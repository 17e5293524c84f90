/* The characteristics and opcodes of include/mcs_desk.h as tables; both services have the same. */
#ifndef SERVICE_H
#define SERVICE_H

#include "mcs_desk.h"

/* How many characteristics may be read, and how many notify: the slots. */
#define COUNT_READABLE(number, properties, words) +(((properties)&MCS_MAY_READ) != 0)
#define COUNT_NOTIFYING(number, properties, words) +(((properties)&MCS_MAY_NOTIFY) != 0)
#define COUNT_ONE(number, middle, words) +1
enum {
    CHARACTERISTICS = 0 MCS_EACH_CHARACTERISTIC(COUNT_ONE),
    READABLES = 0 MCS_EACH_CHARACTERISTIC(COUNT_READABLE),
    SLOTS = 0 MCS_EACH_CHARACTERISTIC(COUNT_NOTIFYING),
    PLACES = SLOTS * (int)MCS_SERVICES, /* of a client's round: the slots of service 0, and behind them those of service 1 */
    BOUND = PLACES * (int)MCS_CLIENTS,  /* of demand 3: what is owed is handed out by so many answered takes */
    OPCODES = 0 MCS_EACH_OPCODE(COUNT_ONE)
};

/* Characteristics are numbered below this. */
#define CHARACTERISTIC_BOUND 23u

/* By place, in the order of the numbers: a characteristic, one that may be read, and that of a slot's bit. */
uint32_t characteristic_at(uint32_t place);
uint32_t readable_at(uint32_t place);
uint32_t slot_at(uint32_t bit);

/* The properties of a characteristic; 0 for a number that is none. */
uint32_t properties_of(uint32_t characteristic);

/* The opcodes in the order of their bits in the mask. */
extern const uint8_t OPCODE[OPCODES];

/* The place of an opcode there; OPCODES for one that is unknown. */
uint32_t opcode_place(uint8_t opcode);

/* Whether an opcode is written with a number of four octets. */
int carries_number(uint8_t opcode);

/* The value that is written to the control point, its length. The number of an opcode that carries none is dropped. */
uint32_t control_value(uint8_t value[5], uint8_t opcode, int64_t number);

#endif
