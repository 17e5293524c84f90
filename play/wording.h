/* Values in words, as texts: what day/values.c prints, kept for the picture. What is not the program's own, such as a title, comes
 * out with everything that would move the cursor, or hide, made visible. */
#ifndef WORDING_H
#define WORDING_H

#include <stddef.h>
#include <stdint.h>

/* Room for any value: a title of 128 octets, of which each may be eight characters, and what stands around it. */
#define WORDING_ROOM 1100u
typedef struct {
    char text[WORDING_ROOM];
} wording;

wording value_in_words(uint32_t characteristic, const uint8_t *octets, size_t count);
wording opcode_in_words(uint8_t opcode);
wording time_in_words(uint32_t hundredths);
wording plain_text(const uint8_t *octets, size_t count);

/* A refusal's number as people write it: an ATT error code by two hexadecimal digits, every other number by its decimal ones. */
wording refusal_number(uint32_t number);

/* An object's number, with what it is the number of. */
wording object_in_words(uint64_t object);

/* The result of a press in one or two words, for where there is little room. */
const char *short_result(uint32_t result);

/* A service in a word. */
const char *service_word(uint32_t service);

#endif
