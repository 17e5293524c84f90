#include "titles.h"

#include <string.h>

#include "tables.h"

/* The office's text, with room for more than is given in a day, and for each track an entry: its part of the text. */
static uint8_t text[OFFICE_ROOM];
static uint32_t text_len;
static uint32_t renames[RENAMES_ROOM];

static uint32_t *entry_of(uint32_t track) { return renames + (size_t)MCS_RENAME_WORDS * track; }

void give_title(uint32_t track, const char *title)
{
    uint32_t length = (uint32_t)strlen(title);
    memcpy(text + text_len, title, length);
    entry_of(track)[RENAME_OFFSET] = text_len;
    entry_of(track)[RENAME_LENGTH] = length;
    text_len += length;
}

void cut_title(uint32_t track, uint32_t octets) { entry_of(track)[RENAME_LENGTH] = octets; }

struct mcs_titles office_titles(const struct mcs_catalogue *c)
{
    struct mcs_titles titles = {renames, c->tracks_len / MCS_TRACK_WORDS * MCS_RENAME_WORDS, text, text_len};
    return titles;
}

struct mcs_title title_due(const struct mcs_catalogue *c, uint32_t track)
{
    const uint32_t *record = c->tracks + (size_t)MCS_TRACK_WORDS * track, *entry = entry_of(track);
    struct mcs_title own = {text + entry[RENAME_OFFSET], entry[RENAME_LENGTH], MCS_OFFICE_TEXT};
    struct mcs_title cards = {c->text + record[TITLE_OFFSET], record[TITLE_LENGTH], MCS_CARD_TEXT};
    return own.length != 0 ? own : cards;
}
