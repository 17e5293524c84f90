/* A card, loaded and checked, or loaded and written again.
 *
 *     card check FILE
 *     card copy FROM TO
 *
 * Check loads the card file FILE, says what it holds, and whether its catalogue is right. Copy loads and checks the card file
 * FROM, and writes the catalogue's card to the file TO. That is always the card as it was (SCOPE 3.18); copy compares the two all
 * the same. Of a card that is refused for a block, both say which block it is, and what is wrong with it; of one that is refused
 * for a title, which title, and which octet of it (SCOPE 20.4). Exit status 0, or 1 where the card or its catalogue is refused or
 * its copy would differ, or 2 where a file cannot be read or written or the program is called otherwise.
 */
#include <stdio.h>
#include <string.h>

#include "file.h"
#include "refused_card.h"
#include "tables.h"

/* One octet more than the longest card, so that a longer file is refused for its length. */
static uint8_t from[MCS_CARD_OCTETS + 1u], to[MCS_CARD_BLOCKS * MCS_BLOCK_OCTETS];
static size_t from_len;
static tables loaded;
static struct mcs_catalogue catalogue;

static int write_file(const char *path, const uint8_t *octets, size_t len)
{
    FILE *file = fopen(path, "wb");
    int whole;
    if (file == NULL) {
        return 0;
    }
    whole = fwrite(octets, 1, len, file) == len;
    return fclose(file) == 0 && whole;
}

/* The card of a file into the catalogue; the exit status. */
static int load(const char *path)
{
    struct mcs_room room = whole_room(&loaded);
    uint32_t number, block = 0;

    if (!read_file(path, from, sizeof from, &from_len)) {
        fprintf(stderr, "card: cannot read %s\n", path);
        return 2;
    }
    number = mcs_catalogue_load(from, from_len, &room, &catalogue, &block);
    if (number != MCS_OK) {
        print_refusal(stdout, "The card", number, from, block);
        return 1;
    }
    printf("Loaded: %zu groups, %zu tracks, %zu segments, %zu octets of text.\n", catalogue.groups_len / MCS_GROUP_WORDS,
           catalogue.tracks_len / MCS_TRACK_WORDS, catalogue.segments_len, catalogue.text_len);
    return 0;
}

static int refuse_catalogue(uint32_t number, struct mcs_place place)
{
    print_refused_catalogue(stdout, "Its catalogue", number, &catalogue, place);
    return 1;
}

static int check(const char *path)
{
    int status = load(path);
    uint32_t number, blocks;
    struct mcs_place place;

    if (status != 0) {
        return status;
    }
    /* A card write looks at the catalogue first, and without room it writes nothing. */
    number = mcs_catalogue_write(&catalogue, NULL, 0, &blocks, &place);
    if (number == MCS_BAD_CATALOGUE) {
        return refuse_catalogue(number, place);
    }
    printf("Its catalogue is right.\n");
    return 0;
}

static int copy(const char *from_path, const char *to_path)
{
    int status = load(from_path);
    uint32_t number, blocks = 0;
    struct mcs_place place;

    if (status != 0) {
        return status;
    }
    number = mcs_catalogue_write(&catalogue, to, sizeof to, &blocks, &place);
    if (number != MCS_OK) {
        return refuse_catalogue(number, place);
    }
    if (MCS_BLOCK_OCTETS * blocks != from_len || memcmp(from, to, from_len) != 0) {
        printf("The copy would differ from the card, and is not written.\n");
        return 1;
    }
    if (!write_file(to_path, to, from_len)) {
        fprintf(stderr, "card: cannot write %s\n", to_path);
        return 2;
    }
    printf("The card was written as it was: %u blocks.\n", blocks);
    return 0;
}

int main(int count, char **words)
{
    if (count == 3 && strcmp(words[1], "check") == 0) {
        return check(words[2]);
    }
    if (count == 4 && strcmp(words[1], "copy") == 0) {
        return copy(words[2], words[3]);
    }
    fprintf(stderr, "card check FILE loads a card and says what it holds and whether it is right.\n"
                    "card copy FROM TO loads a card, checks it and writes it again as it was.\n");
    return 2;
}
