#include "load.h"

#include <stdio.h>

#include "file.h"
#include "refused_card.h"
#include "tables.h"

int load_card(const char *program, const char *path, struct mcs_catalogue *c)
{
    /* One octet more than the longest card, so that a longer file is refused for its length. */
    static uint8_t card[MCS_CARD_OCTETS + 1u];
    static tables loaded;
    struct mcs_room room = whole_room(&loaded);
    uint32_t number, block = 0;
    size_t len;

    if (!read_file(path, card, sizeof card, &len)) {
        fprintf(stderr, "%s: cannot read %s\n", program, path);
        return 2;
    }
    number = mcs_catalogue_load(card, len, &room, c, &block);
    if (number != MCS_OK) {
        fprintf(stderr, "%s: ", program);
        print_refusal(stderr, path, number, card, block);
        return 1;
    }
    return 0;
}
