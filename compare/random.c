/* Random numbers: splitmix64, which needs nothing but 64-bit arithmetic. */
#include "random.h"

static uint64_t next(dice *d)
{
    uint64_t z = d->at += 0x9E3779B97F4A7C15u;
    z = (z ^ (z >> 30)) * 0xBF58476D1CE4E5B9u;
    z = (z ^ (z >> 27)) * 0x94D049BB133111EBu;
    return z ^ (z >> 31);
}

dice dice_of(uint64_t seed, uint64_t trial)
{
    dice d = {seed};
    d.at = next(&d) ^ (trial * 0xD1342543DE82EF95u);
    d.at = next(&d);
    return d;
}

uint32_t any_word(dice *d) { return (uint32_t)(next(d) >> 32); }

uint32_t below(dice *d, uint32_t n) { return (uint32_t)((uint64_t)any_word(d) * n >> 32); }

uint32_t between(dice *d, uint32_t least, uint32_t most) { return least + below(d, most - least + 1u); }

int one_in(dice *d, uint32_t n) { return below(d, n) == 0; }

uint32_t pick(dice *d, const uint32_t *from, size_t count) { return from[below(d, (uint32_t)count)]; }
