#include "service.h"
#include "words.h"

#define NUMBER_AND_MIDDLE(number, middle, words) {number, middle},
#define NUMBER_ALONE(number, middle, words) number,

static const struct {
    uint32_t number, properties;
} CHARACTERISTIC[CHARACTERISTICS] = {MCS_EACH_CHARACTERISTIC(NUMBER_AND_MIDDLE)};

static const struct {
    uint32_t number, parameter;
} PARAMETER[OPCODES] = {MCS_EACH_OPCODE(NUMBER_AND_MIDDLE)};

const uint8_t OPCODE[OPCODES] = {MCS_EACH_OPCODE(NUMBER_ALONE)};

/* The characteristic of that place among those with a property. */
static uint32_t with_property(uint32_t property, uint32_t place)
{
    uint32_t k = 0;
    for (;; k++) {
        if ((CHARACTERISTIC[k].properties & property) != 0 && place-- == 0) {
            return CHARACTERISTIC[k].number;
        }
    }
}

uint32_t characteristic_at(uint32_t place) { return CHARACTERISTIC[place].number; }
uint32_t readable_at(uint32_t place) { return with_property(MCS_MAY_READ, place); }
uint32_t slot_at(uint32_t bit) { return with_property(MCS_MAY_NOTIFY, bit); }

uint32_t properties_of(uint32_t characteristic)
{
    for (uint32_t k = 0; k < CHARACTERISTICS; k++) {
        if (CHARACTERISTIC[k].number == characteristic) {
            return CHARACTERISTIC[k].properties;
        }
    }
    return 0;
}

uint32_t opcode_place(uint8_t opcode)
{
    uint32_t k = 0;
    while (k < OPCODES && OPCODE[k] != opcode) {
        k++;
    }
    return k;
}

int carries_number(uint8_t opcode)
{
    uint32_t place = opcode_place(opcode);
    return place < OPCODES && PARAMETER[place].parameter != 0;
}

uint32_t control_value(uint8_t value[5], uint8_t opcode, int64_t number)
{
    value[0] = opcode;
    if (!carries_number(opcode)) {
        return 1;
    }
    put_word(value + 1, (uint32_t)number);
    return 5;
}
