#define _POSIX_C_SOURCE 200809L

#include "saved.h"

#include <errno.h>
#include <stdio.h>
#include <stdlib.h>
#include <string.h>
#include <unistd.h>

#include "file.h"
#include "words.h"

enum { LAYOUT_AT = 8, CARD_AT = 12, STATE_AT = 16, SUM_AT = STATE_AT + (int)MCS_STATE_OCTETS, SAVED_OCTETS = SUM_AT + 4 };
static const char MAGIC[] = "MCSSTATE";

#define MOST_PATH 4096u

static uint32_t check_sum(const uint8_t *octets, size_t count)
{
    uint32_t sum = 0xFFFFFFFFu, bit;
    size_t k;
    for (k = 0; k < count; k++) {
        sum ^= octets[k];
        for (bit = 0; bit < 8u; bit++) {
            sum = sum >> 1 ^ ((sum & 1u) != 0 ? 0xEDB88320u : 0u);
        }
    }
    return ~sum;
}

/* Of the card: a catalogue that was loaded is written as the octets of the card that it came from. */
static uint32_t card_sum(const struct mcs_desk *desk)
{
    static uint8_t card[MCS_CARD_BLOCKS * MCS_BLOCK_OCTETS];
    struct mcs_place place;
    uint32_t blocks = 0;
    return mcs_catalogue_write(&desk->catalogue, card, sizeof card, &blocks, &place) == MCS_OK
               ? check_sum(card, (size_t)blocks * MCS_BLOCK_OCTETS)
               : 0;
}

static saving is(int done, const char *path, const char *words)
{
    saving s;
    s.is_done = done;
    snprintf(s.words, sizeof s.words, "%.200s %.190s", path, words);
    return s;
}

int is_saved(const char *path) { return access(path, F_OK) == 0; }

/* What is wrong with the octets of a file as a state on this card; NULL where nothing is. */
static const char *what_is_wrong(const uint8_t *octets, size_t count, const struct mcs_desk *desk)
{
    if (count < STATE_AT || memcmp(octets, MAGIC, LAYOUT_AT) != 0) {
        return "holds no state of a desk";
    }
    if (word_at(octets + LAYOUT_AT) != MCS_STATE_LAYOUT) {
        return "holds a state of another layout";
    }
    if (count != SAVED_OCTETS || word_at(octets + SUM_AT) != check_sum(octets, SUM_AT)) {
        return "is damaged";
    }
    if (word_at(octets + CARD_AT) != card_sum(desk)) {
        return "holds a state on another card";
    }
    return NULL;
}

saving restore_state(const char *path, struct mcs_desk *desk)
{
    uint8_t octets[SAVED_OCTETS + 1];
    struct mcs_desk tried = *desk;
    struct mcs_title title;
    const char *wrong;
    size_t count;
    uint32_t number;
    if (!read_file(path, octets, sizeof octets, &count)) {
        return is(0, path, is_saved(path) ? "cannot be read" : "is not there");
    }
    wrong = what_is_wrong(octets, count, desk);
    if (wrong != NULL) {
        return is(0, path, wrong);
    }
    memcpy(tried.state, octets + STATE_AT, MCS_STATE_OCTETS);
    number = mcs_desk_title(&tried, MCS_GENERIC, &title); /* which looks at the whole state, and alters nothing */
    if (number != MCS_OK) {
        char words[128];
        snprintf(words, sizeof words, "is refused, %u: %s", (unsigned)number, mcs_refusal_words(number));
        return is(0, path, words);
    }
    memcpy(desk->state, tried.state, MCS_STATE_OCTETS);
    return is(1, path, "is restored");
}

/* Writes the octets to a file that is open, and closes it. Whether they are all there to stay. */
static int write_octets(int file, const uint8_t *octets, size_t count)
{
    size_t done = 0;
    int right = 1;
    while (right && done < count) {
        const ssize_t written = write(file, octets + done, count - done);
        if (written > 0) {
            done += (size_t)written;
        } else {
            right = written < 0 && errno == EINTR;
        }
    }
    right = right && fsync(file) == 0;
    return close(file) == 0 && right;
}

saving save_state(const char *path, const struct mcs_desk *desk)
{
    uint8_t octets[SAVED_OCTETS + 1];
    char beside[MOST_PATH];
    const char *wrong;
    size_t count;
    int file;
    if (is_saved(path)) {
        if (!read_file(path, octets, sizeof octets, &count)) {
            return is(0, path, "cannot be read, and is left as it is");
        }
        wrong = what_is_wrong(octets, count, desk);
        if (wrong != NULL) {
            char words[128];
            snprintf(words, sizeof words, "%s, and is left as it is", wrong);
            return is(0, path, words);
        }
    }
    if (snprintf(beside, sizeof beside, "%s.XXXXXX", path) >= (int)sizeof beside) {
        return is(0, path, "has too long a name");
    }
    memcpy(octets, MAGIC, LAYOUT_AT);
    put_word(octets + LAYOUT_AT, MCS_STATE_LAYOUT);
    put_word(octets + CARD_AT, card_sum(desk));
    memcpy(octets + STATE_AT, desk->state, MCS_STATE_OCTETS);
    put_word(octets + SUM_AT, check_sum(octets, SUM_AT));
    file = mkstemp(beside);
    if (file < 0) {
        return is(0, path, strerror(errno));
    }
    if (!write_octets(file, octets, SAVED_OCTETS) || rename(beside, path) != 0) {
        const int why = errno;
        unlink(beside);
        return is(0, path, strerror(why));
    }
    return is(1, path, "is saved");
}
