#include "lend.h"
#include "guard.h"

#include <string.h>

/* Where a call has the pointer and the length of a buffer, the octets of an entry, and the most entries, which are always lent
 * where there is no length. */
#define NO_LENGTH ((size_t)-1)
/* The formatter takes a list in braces for a block. */
/* clang-format off */
#define TABLE(name, entry, most, words) {offsetof(call, name), offsetof(call, name##_len), entry, most, words}
/* clang-format on */
#define TABLES_OF(part, words)                                                                                                 \
    TABLE(part.groups, 4, GROUPS_ROOM, words), TABLE(part.tracks, 4, TRACKS_ROOM, words),                                      \
        TABLE(part.segments, 4, SEGMENTS_ROOM, words), TABLE(part.text, 1, TEXT_ROOM, words)
static const struct {
    size_t pointer, length, entry, most;
    const char *words;
} BUFFER[BUFFERS] = {
    TABLES_OF(catalogue, "the catalogue"),
    TABLE(titles.renames, 4, RENAMES_ROOM, "the entries of the office's titles"),
    TABLE(titles.office, 1, OFFICE_ROOM, "the office's text"),
    {offsetof(call, state), NO_LENGTH, 1, MCS_STATE_OCTETS, "the state"},
    {offsetof(call, octets), offsetof(call, length), 1, SHEET_ROOM, "the name, value, card, cue sheet or object"},
    TABLE(players[MCS_GENERIC].name, 1, START_NAME_ROOM, "the generic player's name"),
    TABLE(players[MCS_NAMED].name, 1, START_NAME_ROOM, "the named player's name"),
    {offsetof(call, out), offsetof(call, out_len), 1, OUT_ROOM, "the output"},
    {offsetof(call, word), NO_LENGTH, 4, 1,
     "the length of a read or an object, count of a cue sheet or blocks of a card write"},
    {offsetof(call, count), NO_LENGTH, sizeof(size_t), 1, "the count of an object's entries"},
    {offsetof(call, served), NO_LENGTH, 4, SERVED_WORDS, "what a take served"},
    {offsetof(call, part), NO_LENGTH, 4, MCS_PART_WORDS, "where a title stands"},
    {offsetof(call, made), NO_LENGTH, 4, MCS_GOTO_MADE_WORDS, "what a manual Goto made"},
    {offsetof(call, place), NO_LENGTH, 4, MCS_GOTO_PLACE_WORDS, "where a manual Goto leads"},
    {offsetof(call, counts), NO_LENGTH, 4, 4, "the counts of a card load"},
    {offsetof(call, block), NO_LENGTH, 4, 1, "the block of a card load"},
    {offsetof(call, line), NO_LENGTH, 4, 1, "the line of a cue sheet"},
    {offsetof(call, track), NO_LENGTH, 4, 1, "the track with a bad title"},
    {offsetof(call, octet), NO_LENGTH, 4, 1, "the wrong octet of a title or a name"},
    TABLES_OF(room, "a loaded table"),
    TABLE(entries, 4, STARTS_ROOM, "the starts or entries"),
    TABLE(written, 1, CARD_ROOM, "the written card or object"),
};

void *lent_at(const call *c, uint32_t buffer)
{
    void *at;
    memcpy(&at, (const uint8_t *)c + BUFFER[buffer].pointer, sizeof at);
    return at;
}

void lend_at(call *c, uint32_t buffer, void *at) { memcpy((uint8_t *)c + BUFFER[buffer].pointer, &at, sizeof at); }

void lend_entries(call *c, uint32_t buffer, size_t entries)
{
    memcpy((uint8_t *)c + BUFFER[buffer].length, &entries, sizeof entries);
}

size_t lent_entries(const call *c, uint32_t buffer)
{
    size_t entries;
    if (BUFFER[buffer].length == NO_LENGTH) {
        return lent_at(c, buffer) == NULL ? 0 : BUFFER[buffer].most;
    }
    memcpy(&entries, (const uint8_t *)c + BUFFER[buffer].length, sizeof entries);
    return entries;
}

size_t lent_octets(const call *c, uint32_t buffer) { return lent_entries(c, buffer) * BUFFER[buffer].entry; }

/* Every buffer has pages of its own for either page that it touches, so that what is behind one is never another, and a
 * catalogue is laid down once and not at each call. */
static region guarded[2][BUFFERS];

void prepare_lending(void)
{
    for (uint32_t k = 0; k < 2u * BUFFERS; k++) {
        guarded[k % 2u][k / 2u] = make_region(BUFFER[k / 2u].most * BUFFER[k / 2u].entry);
    }
}

void table_changed(run *r, uint32_t table) { r->stale[AGAINST_END][table] = r->stale[AGAINST_START][table] = 1; }

int has_output(uint32_t kind) { return kind == READ || kind == TAKE; }

/* With a card or an object. */
static int fills_room(uint32_t kind) { return kind == CARD_WRITE || writes_object(kind); }

uint8_t filled(uint8_t fill, uint32_t at) { return (uint8_t)(fill + 37u * at); }

struct mcs_place filled_place(uint8_t fill)
{
    struct mcs_place place = {0xA5000000u + fill, 0x5A000000u + fill};
    return place;
}

uint32_t filled_told(uint8_t fill, uint32_t word) { return 0xC3000000u + 256u * word + fill; }

uint32_t filled_word(uint8_t fill, uint32_t at) { return (fill + at) * 0x9E3779B1u; }

static void fill_told(const step *s, uint32_t *words, uint32_t count)
{
    for (uint32_t k = 0; k < count; k++) {
        words[k] = filled_told(s->fill, k);
    }
}

static void fill_answer(const step *s, answer *a)
{
    a->number = 0;
    a->length = 0x01010101u * s->fill;
    a->count = ~(size_t)a->length;
    for (uint32_t k = 0; k < SERVED_WORDS; k++) {
        a->served[k] = a->length + 1u;
    }
    fill_told(s, a->part, MCS_PART_WORDS);
    fill_told(s, a->made, MCS_GOTO_MADE_WORDS);
    fill_told(s, a->place, MCS_GOTO_PLACE_WORDS);
    a->counts[0] = a->counts[1] = a->counts[2] = a->counts[3] = a->length + 2u;
    a->line = a->length + 3u;
    a->block = a->length + 4u;
    a->track = filled_place(s->fill).track;
    a->octet = filled_place(s->fill).octet;
    for (uint32_t k = 0; has_output(s->kind) && k < OUT_ROOM; k++) {
        a->out[k] = filled(s->fill, k);
    }
}

static void lend_card(run *r, const step *s, call *c)
{
    c->octets = r->lent_card.octets;
    c->length = r->lent_card.length;
    c->counts = r->second_said.counts;
    c->block = &r->second_said.block;
    c->room = whole_room(&r->loaded);
    for (uint32_t table = 0; table < TABLES; table++) {
        lend_entries(c, ROOM + table, s->room[table]);
        for (uint32_t k = 0; k < s->room[table]; k++) {
            set_table_entry(&r->loaded, table, k, filled_word(s->fill, k));
        }
    }
}

/* A cue sheet, or an object that is read. */
static void lend_sheet(run *r, const step *s, call *c)
{
    c->octets = r->lent_sheet.octets;
    c->length = r->lent_sheet.length;
    c->line = s->kind == CUE_SHEET ? &r->second_said.line : NULL;
    c->count = s->kind == CUE_SHEET ? NULL : &r->second_said.count;
    c->entries = r->entries;
    c->entries_len = s->room[0];
    for (uint32_t k = 0; k < s->room[0]; k++) {
        r->entries[k] = filled_word(s->fill, k);
    }
}

/* For a card or an object. */
static void lend_room(run *r, const step *s, call *c)
{
    c->written = r->written.octets;
    c->written_len = s->room[0];
    for (uint32_t k = 0; k < s->room[0]; k++) {
        r->written.octets[k] = filled(s->fill, k);
    }
}

void lend_texts(const step *s, call *c)
{
    if (s->kind != START) {
        c->octets = s->octets;
        c->length = s->length;
        return;
    }
    for (uint32_t k = 0; k < MCS_SERVICES; k++) {
        struct mcs_player player = {s->octets + START_NAME_AT(k), s->players[k].length, s->players[k].mask,
                                    (uint8_t)s->players[k].ccid};
        c->players[k] = player;
    }
}

void lend_plainly(run *r, const step *s, call *c)
{
    answer *a = &r->second_said;
    memset(c, 0, sizeof *c);
    c->kind = s->kind;
    c->who = s->who;
    c->service = s->service;
    c->what = s->what;
    c->number = s->number;
    c->allowed = s->allowed;
    lend_texts(s, c);
    fill_answer(s, a);
    if (has_catalogue(s->kind)) {
        c->catalogue = lent(&r->lent);
        c->track = &a->track;
        c->octet = &a->octet;
    }
    if (has_state(s->kind)) {
        c->titles = lent_titles(&r->lent);
        c->state = r->octets;
    }
    if (has_output(s->kind)) {
        c->out = a->out;
        c->out_len = s->room[0];
    }
    c->word = s->kind == READ || s->kind == CUE_SHEET || fills_room(s->kind) ? &a->length : NULL;
    c->served = s->kind == TAKE ? a->served : NULL;
    c->part = s->kind == TITLE ? a->part : NULL;
    c->made = s->kind == MANUAL_GOTO ? a->made : NULL;
    c->place = s->kind == MANUAL_GOTO ? a->place : NULL;
    if (s->kind == CARD_LOAD) {
        lend_card(r, s, c);
    } else if (s->kind == CUE_SHEET || reads_object(s->kind)) {
        lend_sheet(r, s, c);
    } else if (fills_room(s->kind)) {
        lend_room(r, s, c);
    }
}

void lend_guarded(run *r, const step *s, const call *plain, uint32_t against, call *c)
{
    *c = *plain;
    for (uint32_t k = 0; k < BUFFERS; k++) {
        size_t octets = lent_octets(plain, k);
        void *to = place_in(&guarded[against][k], against, octets);
        if (octets > 0 && (k >= LENT_TABLES || r->stale[against][k])) {
            memcpy(to, lent_at(plain, k), octets);
        }
        if (octets > 0 && k < LENT_TABLES) {
            r->stale[against][k] = 0;
        }
        if (lent_at(plain, k) != NULL) {
            lend_at(c, k, octets == 0 && s->null ? NULL : to);
        }
    }
}

const char *differing(const call *one, const call *other, int states)
{
    for (uint32_t k = 0; k < BUFFERS; k++) {
        size_t octets = lent_octets(one, k);
        if ((k != THE_STATE || states) && octets > 0 && memcmp(lent_at(one, k), lent_at(other, k), octets) != 0) {
            return BUFFER[k].words;
        }
    }
    return NULL;
}
