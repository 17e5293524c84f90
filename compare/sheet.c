#include "sheet.h"

#include <string.h>

void add_text(sheet *c, const uint8_t *octets, uint32_t length, uint32_t times)
{
    if ((uint64_t)length * times > SHEET_ROOM - c->length) {
        return;
    }
    for (; times > 0 && length > 0; times--) {
        memcpy(c->octets + c->length, octets, length);
        c->length += length;
    }
}

static void put_two(uint8_t *to, uint32_t number)
{
    to[0] = (uint8_t)('0' + number / 10u % 10u);
    to[1] = (uint8_t)('0' + number % 10u);
}

void index_line(uint8_t line[17], uint32_t frame)
{
    memcpy(line, "INDEX 01 00:00:00", 17);
    put_two(line + 9, frame / MINUTE);
    put_two(line + 12, frame / SECOND % 60u);
    put_two(line + 15, frame % SECOND);
}

void add_starts(sheet *c, uint32_t from, uint32_t apart, uint32_t count, const uint8_t *end, uint32_t end_length)
{
    uint8_t line[17];
    if ((uint64_t)count * (sizeof line + end_length) > SHEET_ROOM - c->length) {
        return;
    }
    for (uint32_t k = 0; k < count; k++) {
        index_line(line, (from + apart * k) % FRAMES);
        add_text(c, line, sizeof line, 1);
        add_text(c, end, end_length, 1);
    }
}

void blank_line(sheet *c, uint32_t line)
{
    for (uint32_t k = 0, at = 1; k < c->length && at <= line; k++) {
        if (c->octets[k] == '\n') {
            at++;
        } else if (at == line) {
            c->octets[k] = ' ';
        }
    }
}
