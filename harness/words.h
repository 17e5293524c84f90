/* Numbers as octets, the lowest first. */
#ifndef WORDS_H
#define WORDS_H

#include <stdint.h>

static inline uint32_t word_at(const uint8_t *octets)
{
    return (uint32_t)octets[0] | (uint32_t)octets[1] << 8 | (uint32_t)octets[2] << 16 | (uint32_t)octets[3] << 24;
}

static inline void put_word(uint8_t *octets, uint32_t word)
{
    for (uint32_t k = 0; k < 4u; k++) {
        octets[k] = (uint8_t)(word >> (8u * k) & 0xFFu);
    }
}

/* A number of two octets. */
static inline uint32_t half_word_at(const uint8_t *octets) { return (uint32_t)octets[0] | (uint32_t)octets[1] << 8; }

static inline void put_half_word(uint8_t *octets, uint32_t number)
{
    octets[0] = (uint8_t)(number & 0xFFu);
    octets[1] = (uint8_t)(number >> 8 & 0xFFu);
}

/* Two's complement. */
static inline int32_t signed_of(uint32_t word)
{
    return (int32_t)(word < 0x80000000u ? (int64_t)word : (int64_t)word - 0x100000000);
}

static inline int64_t signed_word(const uint8_t *octets) { return signed_of(word_at(octets)); }

static inline int8_t signed_octet(uint8_t octet) { return (int8_t)(octet < 128 ? octet : octet - 256); }

#endif
