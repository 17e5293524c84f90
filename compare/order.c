#include "order.h"

/* Orders 3 and 4 are by number, 5 and 6 by rising stamp, 7 and 8 by falling stamp; of equal stamps the lower number comes first
 * (SCOPE 11.1, 11.2). */
static int comes_before(const tables *t, uint32_t order, uint32_t a, uint32_t b)
{
    uint32_t x = track_word(t, a, STAMP), y = track_word(t, b, STAMP);
    return order < 5 || x == y ? a < b : order < 7 ? x < y : x > y;
}

uint32_t list_in_order(const tables *t, uint32_t group, uint32_t order, uint32_t list[MCS_MOST_TRACKS])
{
    uint32_t first = group_word(t, group, FIRST_TRACK), count = group_word(t, group, TRACK_COUNT);
    for (uint32_t k = 0; k < count; k++) {
        uint32_t at = k;
        for (; at > 0 && comes_before(t, order, first + k, list[at - 1u]); at--) {
            list[at] = list[at - 1u];
        }
        list[at] = first + k;
    }
    return count;
}

/* Next and Previous Track: the neighbour; past an end the other end in a repeat order, else result 4. Goto Track is First or Last
 * and then steps (SCOPE 11.5, 11.6). */
int64_t place_after(uint8_t opcode, int64_t n, int64_t place, int64_t length, int repeats)
{
    int64_t to = opcode == MCS_OPCODE_PREVIOUS_TRACK ? place - 1
                 : opcode == MCS_OPCODE_NEXT_TRACK   ? place + 1
                 : opcode == MCS_OPCODE_FIRST_TRACK  ? 0
                 : opcode == MCS_OPCODE_LAST_TRACK   ? length - 1
                 : n == 0                            ? place
                 : n > 0                             ? n - 1
                                                     : length + n;
    if (to < 0 || to >= length) {
        return repeats ? (to % length + length) % length : -1;
    }
    return to;
}

/* Orders 1 and 2 have the current track alone (SCOPE 11.1); odd orders play once, even ones repeat (SCOPE 11.3). */
uint32_t track_after(const tables *t, uint32_t group, uint32_t track, uint32_t order, uint8_t opcode, int64_t n)
{
    uint32_t list[MCS_MOST_TRACKS] = {track}, length = order < 3 ? 1 : list_in_order(t, group, order, list), place = 0;
    int64_t to;
    while (place < length && list[place] != track) {
        place++;
    }
    to = place_after(opcode, n, place, length, order % 2u == 0);
    return to < 0 ? NO_TRACK : list[to];
}

/* Group moves run over the groups of the same parent that have tracks, group 0 left out; for group 0 over itself alone (SCOPE
 * 12.1). */
uint32_t groups_beside(const tables *t, uint32_t group, uint32_t list[MCS_MOST_GROUPS])
{
    uint32_t length = 0;
    for (uint32_t g = 0; g < group_count(t); g++) {
        int beside = g > 0 && group > 0 && group_word(t, g, PARENT) == group_word(t, group, PARENT);
        if (g == group || (beside && group_word(t, g, TRACK_COUNT) > 0)) {
            list[length++] = g;
        }
    }
    return length;
}

/* Group moves do not repeat; Goto is First or Last and then steps, and 0 keeps the group (SCOPE 12.2). Their opcodes follow each
 * other as those of track moves do. */
uint32_t group_after(const tables *t, uint32_t group, uint8_t opcode, int64_t n)
{
    uint32_t list[MCS_MOST_GROUPS], length = groups_beside(t, group, list), place = 0;
    int64_t to;
    while (place < length && list[place] != group) {
        place++;
    }
    to = place_after((uint8_t)(opcode - MCS_OPCODE_PREVIOUS_GROUP + MCS_OPCODE_PREVIOUS_TRACK), n, place, length, 0);
    return to < 0 ? NO_GROUP : list[to];
}
