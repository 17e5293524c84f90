/* Random numbers that a seed gives alike on every machine. */
#ifndef RANDOM_H
#define RANDOM_H

#include <stddef.h>
#include <stdint.h>

typedef struct {
    uint64_t at;
} dice;

/* Each trial has dice of its own, so that it can be played without those before it. */
dice dice_of(uint64_t seed, uint64_t trial);

uint32_t any_word(dice *d);
uint32_t below(dice *d, uint32_t n);                      /* 0 to n - 1; 0 where n is 0 */
uint32_t between(dice *d, uint32_t least, uint32_t most); /* both included */
int one_in(dice *d, uint32_t n);
uint32_t pick(dice *d, const uint32_t *from, size_t count);

/* One of the numbers listed. */
#define ONE_OF(d, ...) pick((d), (const uint32_t[]){__VA_ARGS__}, sizeof((const uint32_t[]){__VA_ARGS__}) / sizeof(uint32_t))

#endif
