#include "titles.h"
#include "lend.h"
#include "places.h"
#include "words.h"

#include <string.h>

#define LONGEST_TITLE 128u

/* ---- 224, after 200: not one entry for each track, a length over 128, a part of length above 0 that is outside the text or not
 * UTF-8 (SCOPE 5.3) */

uint32_t fault_of_entry(const tables *t, uint32_t track)
{
    uint32_t offset = rename_word(t, track, RENAME_OFFSET), length = rename_word(t, track, RENAME_LENGTH);
    if (length > LONGEST_TITLE) {
        return LONG_PART;
    }
    if (length > 0 && (uint64_t)offset + length > t->length[OFFICE]) {
        return PART_OUTSIDE;
    }
    return length > 0 && wrong_octet(t->office + offset, length) < length ? PART_NOT_UTF8 : TITLE_FAULTS;
}

uint32_t faults_of_titles(const tables *t)
{
    uint32_t words = t->length[RENAMES], tracks = track_count(t), whole = words / MCS_RENAME_WORDS, faults = 0;
    faults |= words < MCS_RENAME_WORDS * tracks ? 1u << TOO_FEW_ENTRIES : 0;
    faults |= words > MCS_RENAME_WORDS * tracks ? 1u << TOO_MANY_ENTRIES : 0;
    for (uint32_t track = 0; track < tracks && track < whole; track++) {
        uint32_t fault = fault_of_entry(t, track);
        faults |= fault < TITLE_FAULTS ? 1u << fault : 0;
    }
    return faults;
}

static const char *wrong_refusal(const tables *t, uint32_t number)
{
    int wrong = faults_of_titles(t) != 0;
    switch (number) {
    case MCS_BAD_CATALOGUE:
        return NULL;
    case MCS_BAD_RENAMES:
        if (!wrong) {
            return "both say 224 of titles that are right";
        }
        return catalogue_is_right(t) ? NULL : "both say 224 where 200 comes before it";
    default:
        return wrong ? "both do not say 224 in its turn of titles that are wrong" : NULL;
    }
}

/* ---- The title is a part of the office's text or of the card's text (SCOPE 5.6) */

/* Refused or Inactive, the part is the empty front of the card's text (SCOPE 5.7); length 0 says that the track is not renamed
 * (SCOPE 5.2). */
part part_shown(const tables *t, const standing *p)
{
    part shown = {MCS_CARD_TEXT, 0, 0};
    if (p->media == MCS_INACTIVE) {
        return shown;
    }
    if (rename_word(t, p->track, RENAME_LENGTH) > 0) {
        shown.text = MCS_OFFICE_TEXT;
        shown.offset = rename_word(t, p->track, RENAME_OFFSET);
        shown.length = rename_word(t, p->track, RENAME_LENGTH);
    } else {
        shown.offset = track_word(t, p->track, TITLE_OFFSET);
        shown.length = track_word(t, p->track, TITLE_LENGTH);
    }
    return shown;
}

const uint8_t *octets_of_part(const tables *t, const part *p)
{
    return (p->text == MCS_OFFICE_TEXT ? t->office : t->text) + p->offset;
}

int same_title(const tables *t, const part *one, const part *other)
{
    return one->length == other->length && memcmp(octets_of_part(t, one), octets_of_part(t, other), one->length) == 0;
}

static part shown_in(const tables *t, const uint8_t *state, uint32_t service)
{
    standing p = standing_in(state, service);
    return part_shown(t, &p);
}

/* A refusal leaves the three words as they were; the call alters nothing. */
static const char *wrong_part(const tables *t, const step *s, const answer *a, const uint8_t *before, const uint8_t *after)
{
    part shown;
    if (a->number != 0) {
        for (uint32_t k = 0; k < MCS_PART_WORDS; k++) {
            if (a->part[k] != filled_told(s->fill, k)) {
                return "both write a part of a title call that they refuse";
            }
        }
        return NULL;
    }
    if (memcmp(before, after, MCS_STATE_OCTETS) != 0) {
        return "both alter the state by a title call";
    }
    shown = shown_in(t, before, s->service);
    return a->part[PART_TEXT] == shown.text && a->part[PART_OFFSET] == shown.offset && a->part[PART_LENGTH] == shown.length
               ? NULL
               : "both say that the title of the current track stands elsewhere than it does";
}

/* ---- 5 is the title of the current track (SCOPE 16.3), in reads, takes and marks */

/* The octets of a title from an offset on, at most so many. */
static const char *wrong_value(const tables *t, const part *shown, uint32_t offset, uint32_t most, const uint8_t *octets,
                               uint32_t length)
{
    uint32_t left = offset > shown->length ? 0 : shown->length - offset;
    if (offset > shown->length || length != (left < most ? left : most)) {
        return "both hand out another length of the title than is shown";
    }
    return memcmp(octets, octets_of_part(t, shown) + offset, length) == 0 ? NULL : "both hand out another title than is shown";
}

static uint32_t mtu_of(const uint8_t *state, uint32_t client) { return word_at(state + MCS_AT_LINK(client) + MCS_IN_MTU); }

/* Equal titles are no change, and the title may be owed to everyone, since nobody writes it. */
static const char *wrong_owed(const tables *t, const step *s, const uint8_t *before, const uint8_t *after)
{
    part was = shown_in(t, before, s->service), is = shown_in(t, after, s->service);
    int changed = !same_title(t, &was, &is);
    for (uint32_t client = 0; client < MCS_CLIENTS; client++) {
        int owed = slot_bit(before, s->service, client, MCS_IN_OWED, MCS_TITLE);
        int falls_due = changed && slot_bit(before, s->service, client, MCS_IN_SUBSCRIBED, MCS_TITLE);
        if (read_mark(after, s->service, client, MCS_TITLE) != (!changed && read_mark(before, s->service, client, MCS_TITLE))) {
            return "both leave another mark of a change at the title than they have to";
        }
        if (slot_bit(after, s->service, client, MCS_IN_OWED, MCS_TITLE) != (owed || falls_due)) {
            return "both owe the title where they do not have to, or do not where they have to";
        }
    }
    return NULL;
}

/* ---- All of it */

const char *wrong_title(const tables *t, const step *s, const answer *a, const uint8_t before[MCS_STATE_OCTETS],
                        const uint8_t after[MCS_STATE_OCTETS])
{
    const char *wrong = wrong_refusal(t, a->number);
    const uint32_t *served = a->served;
    part shown;
    if (wrong == NULL && s->kind == TITLE) {
        return wrong_part(t, s, a, before, after);
    }
    if (wrong != NULL || a->number != 0) {
        return wrong;
    }
    if (s->kind == READ && s->what == MCS_TITLE) {
        shown = shown_in(t, before, s->service);
        return wrong_value(t, &shown, s->number, mtu_of(before, s->who) - 1u, a->out, a->length);
    }
    if (s->kind == TAKE && served[SERVED_CHARACTERISTIC] == MCS_TITLE) {
        shown = shown_in(t, before, served[SERVED_SERVICE]);
        return wrong_value(t, &shown, 0, mtu_of(before, served[SERVED_CLIENT]) - 3u, a->out, served[SERVED_LENGTH]);
    }
    return (s->kind >= SET_NAME && s->kind <= ADVANCE) || s->kind == WRITE ? wrong_owed(t, s, before, after) : NULL;
}
