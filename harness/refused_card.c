#include "refused_card.h"
#include "card.h"
#include "words.h"

/* What stands in a bad block that may not: the octets are shown that the number is about, and nothing is judged anew. */
static void print_block(FILE *to, uint32_t number, const uint8_t *card, uint32_t place)
{
    static const char *const RECORDS[TABLES] = {"groups", "tracks", "segments", "text octets"};
    const uint8_t *block = card + MCS_BLOCK_OCTETS * place;
    uint32_t kind = block[KIND_AT], table = (kind - 1u) % TABLES, count = half_word_at(block + COUNT_AT), at;
    uint8_t check[2];
    switch (number) {
    case MCS_BAD_CHECK:
        check_octets(block, check);
        fprintf(to, "its check octets are 0x%02X 0x%02X, and its contents ask for 0x%02X 0x%02X", block[SUM_AT],
                block[SUM_OF_SUMS_AT], check[0], check[1]);
        break;
    case MCS_BAD_BLOCK_NUMBER:
        fprintf(to, "its block number is %u, and not %u", (unsigned)half_word_at(block + NUMBER_AT), (unsigned)place);
        break;
    case MCS_BAD_KIND:
        fprintf(to, "its kind is %u", (unsigned)kind);
        if (place > 0) {
            fprintf(to, " behind a block of kind %u", (unsigned)card[MCS_BLOCK_OCTETS * (place - 1u) + KIND_AT]);
        }
        fprintf(to, ", and kinds are 1 to 4 and never fall");
        break;
    case MCS_BAD_COUNT:
        fprintf(to, "its record count is %u, and a block of %s has 1 to %u", (unsigned)count, RECORDS[table],
                (unsigned)block_room(table));
        break;
    case MCS_NOT_FULL:
        fprintf(to, "its record count is %u, and a block of %s that is not the last of its kind has %u", (unsigned)count,
                RECORDS[table], (unsigned)block_room(table));
        break;
    default:
        at = records_end(table, count);
        while (at < SUM_AT - 1u && block[at] == 0) {
            at++;
        }
        fprintf(to, "octet %u of the card, behind its records, is 0x%02X and not 0", (unsigned)(MCS_BLOCK_OCTETS * place + at),
                block[at]);
        break;
    }
}

void print_refusal(FILE *to, const char *what, uint32_t number, const uint8_t *card, uint32_t block)
{
    fprintf(to, "%s is refused, %u: ", what, (unsigned)number);
    if (mcs_names_block(number)) {
        fprintf(to, "block %u, octets %u to %u: ", (unsigned)block, (unsigned)(MCS_BLOCK_OCTETS * block),
                (unsigned)(MCS_BLOCK_OCTETS * block + MCS_BLOCK_OCTETS - 1u));
        print_block(to, number, card, block);
    } else {
        fprintf(to, "%s", mcs_refusal_words(number));
    }
    fprintf(to, ".\n");
}

void print_refused_catalogue(FILE *to, const char *what, uint32_t number, const struct mcs_catalogue *c, struct mcs_place place)
{
    fprintf(to, "%s is refused, %u: ", what, (unsigned)number);
    if (place.track == MCS_NOWHERE) {
        fprintf(to, "%s", mcs_refusal_words(number));
    } else {
        const uint8_t *title = c->text + c->tracks[MCS_TRACK_WORDS * place.track + TITLE_OFFSET];
        fprintf(to, "the title of track %u is not UTF-8: octet %u of it is 0x%02X", (unsigned)place.track,
                (unsigned)place.octet, title[place.octet]);
    }
    fprintf(to, ".\n");
}
