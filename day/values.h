/* Values as a person reads them. */
#ifndef VALUES_H
#define VALUES_H

#include <stddef.h>
#include <stdint.h>
#include <stdio.h>

void print_opcode(FILE *to, uint8_t opcode);

/* UTF-8, with what would move the cursor or hide made visible: <U+000A>, and <E2> for an octet of a character cut in two. */
void print_text(FILE *to, const uint8_t *text, size_t len);

/* Hundredths of a second as minutes and seconds; and where a tape is, its position and the rest behind it, if there is one. Each
 * hands back how many characters it has printed. */
int print_time(FILE *to, uint32_t hundredths);
int print_position(FILE *to, uint32_t position, uint32_t rest);

/* The value of a characteristic, as it was handed out. */
void print_value(FILE *to, uint32_t characteristic, const uint8_t *octets, size_t len);

#endif
