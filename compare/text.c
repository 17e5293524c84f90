#include "text.h"

#include <string.h>

/* A character of exactly that many octets, 1 to 4: at a bound of its range, or anywhere in it. */
static uint32_t character(dice *d, uint32_t octets)
{
    uint32_t c;
    switch (octets) {
    case 1:
        return one_in(d, 8) ? ONE_OF(d, 0x00, 0x7F) : between(d, ' ', '~');
    case 2:
        return one_in(d, 3) ? ONE_OF(d, 0x80, 0x7FF) : between(d, 0x80, 0x7FF);
    case 3:
        c = one_in(d, 3) ? ONE_OF(d, 0x800, 0xD7FF, 0xE000, 0xFFFF) : between(d, 0x800, 0xFFFF);
        return c >= 0xD800 && c <= 0xDFFF ? 0x20AC : c;
    default:
        return one_in(d, 3) ? ONE_OF(d, 0x10000, 0x10FFFF, 0xFFFFF, 0x100000) : between(d, 0x10000, 0x10FFFF);
    }
}

static void put_character(uint8_t *out, uint32_t c, uint32_t octets)
{
    static const uint8_t LEAD[5] = {0, 0x00, 0xC0, 0xE0, 0xF0};
    for (uint32_t k = octets - 1; k > 0; k--) {
        out[k] = (uint8_t)(0x80u | (c & 0x3Fu));
        c >>= 6;
    }
    out[0] = (uint8_t)(LEAD[octets] | c);
}

void right_text(dice *d, uint8_t *out, uint32_t length)
{
    int plain = one_in(d, 3);
    for (uint32_t at = 0; at < length;) {
        uint32_t octets = plain ? 1u : between(d, 1, 4);
        if (octets > length - at) {
            octets = 1;
        }
        put_character(out + at, character(d, octets), octets);
        at += octets;
    }
}

void wrong_text(dice *d, uint8_t *out, uint32_t length)
{
    /* Lone and missing continuations, overlong forms, surrogates, beyond 10FFFF, octets that never occur. */
    static const struct {
        uint8_t length, octets[4];
    } WRONG[] = {
        {1, {0x80}},
        {1, {0xBF}},
        {2, {0xC0, 0x80}},
        {2, {0xC1, 0xBF}},
        {1, {0xC2}},
        {1, {0xDF}},
        {2, {0xC3, 0x41}},
        {2, {0xC3, 0xC3}},
        {3, {0xE0, 0x9F, 0xBF}},
        {3, {0xED, 0xA0, 0x80}},
        {3, {0xED, 0xBF, 0xBF}},
        {2, {0xE2, 0x82}},
        {3, {0xE2, 0x82, 0x20}},
        {4, {0xF0, 0x8F, 0xBF, 0xBF}},
        {4, {0xF4, 0x90, 0x80, 0x80}},
        {4, {0xF5, 0x80, 0x80, 0x80}},
        {3, {0xF0, 0x9F, 0x8E}},
        {4, {0xF8, 0x88, 0x80, 0x80}},
        {1, {0xFE}},
        {1, {0xFF}},
    };
    uint32_t which = below(d, sizeof WRONG / sizeof WRONG[0]), at;
    right_text(d, out, length);
    at = one_in(d, 3) && length >= WRONG[which].length ? length - WRONG[which].length : one_in(d, 6) ? 0 : below(d, length);
    for (uint32_t k = 0; k < WRONG[which].length && at + k < length; k++) {
        out[at + k] = WRONG[which].octets[k];
    }
}
