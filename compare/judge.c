#include "judge.h"
#include "words.h"

#include <string.h>

const uint32_t REASON_NUMBER[REASONS] = {MCS_BAD_CHECK, MCS_BAD_BLOCK_NUMBER, MCS_BAD_KIND,
                                         MCS_BAD_COUNT, MCS_NOT_FULL,         MCS_BAD_PADDING};

static int is_kind(uint32_t kind) { return kind >= 1 && kind <= TABLES; }

/* The records follow, and then zeros up to octet 509 (SCOPE 3.2). */
static uint32_t padding_is_wrong(const uint8_t *at, uint32_t table, uint32_t count)
{
    for (uint32_t k = records_end(table, count); k < SUM_AT; k++) {
        if (at[k] != 0) {
            return 1;
        }
    }
    return 0;
}

uint32_t kind_before(const card *c, uint32_t block)
{
    return block == 0 ? 0 : c->octets[MCS_BLOCK_OCTETS * (block - 1u) + KIND_AT];
}

int is_short(const card *c, uint32_t block)
{
    const uint8_t *at = c->octets + MCS_BLOCK_OCTETS * block;
    return is_kind(at[KIND_AT]) && half_word_at(at + COUNT_AT) < block_room(at[KIND_AT] - 1u);
}

int is_last_of_kind(const card *c, uint32_t block)
{
    const uint8_t *at = c->octets + MCS_BLOCK_OCTETS * block;
    return block + 1u >= c->length / MCS_BLOCK_OCTETS || at[MCS_BLOCK_OCTETS + KIND_AT] != at[KIND_AT];
}

uint32_t reasons_against(const card *c, uint32_t block)
{
    const uint8_t *at = c->octets + MCS_BLOCK_OCTETS * block;
    uint32_t kind = at[KIND_AT], count = half_word_at(at + COUNT_AT);
    uint32_t most = block_room(is_kind(kind) ? kind - 1u : (uint32_t)TEXT), reasons;
    uint8_t check[2];
    check_octets(at, check);
    reasons = (uint32_t)(memcmp(check, at + SUM_AT, 2) != 0) << WRONG_CHECK;
    reasons |= (uint32_t)(half_word_at(at + NUMBER_AT) != block) << WRONG_NUMBER;
    reasons |= (uint32_t)(!is_kind(kind) || kind < kind_before(c, block)) << WRONG_KIND;
    reasons |= (uint32_t)(count == 0 || count > most) << WRONG_COUNT;
    reasons |= (uint32_t)(is_short(c, block) && !is_last_of_kind(c, block)) << NOT_FULL;
    reasons |= (is_kind(kind) ? padding_is_wrong(at, kind - 1u, count) : 0) << WRONG_PADDING;
    return reasons;
}

uint32_t first_reason(uint32_t reasons)
{
    uint32_t reason = 0;
    while ((reasons >> reason & 1u) == 0) {
        reason++;
    }
    return reason;
}

uint32_t next_bad_block(const card *c, uint32_t from)
{
    uint32_t blocks = c->length / MCS_BLOCK_OCTETS;
    while (from < blocks && reasons_against(c, from) == 0) {
        from++;
    }
    return from;
}

void records_before(const card *c, uint32_t block, uint32_t records[TABLES])
{
    memset(records, 0, TABLES * sizeof records[0]);
    for (uint32_t k = 0; k < block; k++) {
        const uint8_t *at = c->octets + MCS_BLOCK_OCTETS * k;
        records[at[KIND_AT] - 1u] += half_word_at(at + COUNT_AT);
    }
}
