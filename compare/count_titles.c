#include "count_titles.h"
#include "count_services.h"
#include "places.h"
#include "tell.h"
#include "titles.h"

#include <string.h>

/* Why titles are refused, where it is for one thing alone. */
enum {
    NO_ENTRIES,
    FEWER_ENTRIES,
    FEWER_BY_A_WORD,
    MORE_BY_A_WORD,
    MORE_ENTRIES,
    OF_129_OCTETS,
    LONGER,
    BEYOND_BY_ONE,
    BEYOND,
    IN_TEXT_BY_32_BITS, /* of its offset and length together, and not by all bits */
    BAD_AT_ONCE,
    BAD_FURTHER_ON,
    CUT_CHARACTER,
    REASONS_FOR_224
};

/* Where a title stands, and how it is renamed. */
enum { NOT_RENAMED, NOT_RENAMED_EMPTY, RENAMED, RENAMED_EMPTY, WHILE_INACTIVE, STANDS };

/* Tracks that follow each other and show the same octets. */
enum { BOTH_ON_CARD, ONE_PART, TWO_PARTS, CARD_TO_OFFICE, OFFICE_TO_CARD, EQUALS };

/* What follows where the office lends other titles. */
enum { READ_ON_IN_ANOTHER, SUBSCRIBED_AND_NOT_OWED, EXCHANGES };

static unsigned long by_reason[REASONS_FOR_224], told_before[CALLS], without[CALLS][NUMBERS];
static unsigned long by_title_call[MCS_SERVICES][STANDS], by_read[MCS_SERVICES][STANDS], by_take[MCS_SERVICES][STANDS];
static unsigned long by_equal[MCS_SERVICES][EQUALS], by_exchange[MCS_SERVICES][EXCHANGES];
static unsigned long to_text_end, of_shared_part, of_longest, cut_by_mtu;

/* ---- 224 */

static void count_bad_entry(const tables *t, uint32_t track)
{
    uint32_t offset = rename_word(t, track, RENAME_OFFSET), length = rename_word(t, track, RENAME_LENGTH), wrong;
    switch (fault_of_entry(t, track)) {
    case LONG_PART:
        by_reason[length == 129 ? OF_129_OCTETS : LONGER]++;
        break;
    case PART_OUTSIDE:
        by_reason[offset + length <= t->length[OFFICE]                  ? IN_TEXT_BY_32_BITS
                  : (uint64_t)offset + length == t->length[OFFICE] + 1u ? BEYOND_BY_ONE
                                                                        : BEYOND]++;
        break;
    default:
        wrong = wrong_octet(t->office + offset, length);
        by_reason[is_cut_off(t->office + offset, wrong, length) ? CUT_CHARACTER : wrong == 0 ? BAD_AT_ONCE : BAD_FURTHER_ON]++;
        break;
    }
}

/* Titles with one fault; of the entries one alone is wrong then, or some in the same way. */
static void count_reason(const tables *t)
{
    uint32_t faults = faults_of_titles(t), words = t->length[RENAMES], should = MCS_RENAME_WORDS * track_count(t), track = 0;
    if (faults == 1u << TOO_FEW_ENTRIES) {
        by_reason[words == 0 ? NO_ENTRIES : words + 1u == should ? FEWER_BY_A_WORD : FEWER_ENTRIES]++;
    } else if (faults == 1u << TOO_MANY_ENTRIES) {
        by_reason[words == should + 1u ? MORE_BY_A_WORD : MORE_ENTRIES]++;
    } else if ((faults & (faults - 1u)) == 0) {
        while (fault_of_entry(t, track) == TITLE_FAULTS) {
            track++;
        }
        count_bad_entry(t, track);
    }
}

/* The number of the same call with titles that rename nothing, so that 224 is seen to come before that. */
static void count_without(const run *r, const step *s)
{
    static tables nothing;
    static ref_state copy;
    copy = r->second;
    nothing.length[TRACKS] = r->lent.length[TRACKS];
    rename_nothing(&nothing);
    without[s->kind][counted_as(number_with(r, s, &nothing, &copy, s->service))]++;
}

/* ---- Titles that are shown */

static uint32_t stands_as(const tables *t, const standing *p)
{
    part shown = part_shown(t, p);
    if (p->media == MCS_INACTIVE) {
        return WHILE_INACTIVE;
    }
    if (shown.text == MCS_OFFICE_TEXT) {
        return track_word(t, p->track, TITLE_LENGTH) == 0 ? RENAMED_EMPTY : RENAMED;
    }
    return shown.length == 0 ? NOT_RENAMED_EMPTY : NOT_RENAMED;
}

/* Whether another track is renamed with the same part. */
static int is_shared(const tables *t, uint32_t track)
{
    for (uint32_t k = 0; k < track_count(t); k++) {
        if (k != track && memcmp(t->renames + MCS_RENAME_WORDS * k, t->renames + MCS_RENAME_WORDS * track,
                                 sizeof(uint32_t) * MCS_RENAME_WORDS) == 0) {
            return 1;
        }
    }
    return 0;
}

static void count_shown(const tables *t, const standing *p)
{
    part shown = part_shown(t, p);
    if (shown.text == MCS_OFFICE_TEXT) {
        to_text_end += shown.offset + shown.length == t->length[OFFICE];
        of_shared_part += is_shared(t, p->track) != 0;
        of_longest += shown.length == 128;
    }
}

/* Another track than before, whose title has the same octets, and some. */
static void count_equal(const tables *t, uint32_t service, const standing *was, const standing *is)
{
    part before, after;
    if (was->media == MCS_INACTIVE || is->media == MCS_INACTIVE || was->track == is->track) {
        return;
    }
    before = part_shown(t, was);
    after = part_shown(t, is);
    if (before.length == 0 || !same_title(t, &before, &after)) {
        return;
    }
    by_equal[service][before.text != after.text       ? (after.text == MCS_OFFICE_TEXT ? CARD_TO_OFFICE : OFFICE_TO_CARD)
                      : before.text == MCS_CARD_TEXT  ? BOTH_ON_CARD
                      : before.offset == after.offset ? ONE_PART
                                                      : TWO_PARTS]++;
}

/* A read that goes on above 0 in another title than the one that was read at 0, since the office lends another and nothing changed. */
static void count_exchange(const run *r, const step *s)
{
    if ((r->exchanged[s->service] >> s->who & 1u) != 0) {
        by_exchange[s->service][READ_ON_IN_ANOTHER]++;
        by_exchange[s->service][SUBSCRIBED_AND_NOT_OWED] +=
            slot_bit(r->octets, s->service, s->who, MCS_IN_SUBSCRIBED, MCS_TITLE) &&
            !slot_bit(r->octets, s->service, s->who, MCS_IN_OWED, MCS_TITLE);
    }
}

static void count_accepted(const run *r, const step *s)
{
    const answer *a = &r->second_said;
    uint32_t service = s->kind == TAKE ? a->served[SERVED_SERVICE] : s->service;
    standing was = standing_in(r->octets_before, service), is = standing_in(r->octets, service);
    if (s->kind == TITLE) {
        by_title_call[service][stands_as(&r->lent, &was)]++;
        count_shown(&r->lent, &was);
    } else if (s->kind == READ && s->what == MCS_TITLE) {
        by_read[service][stands_as(&r->lent, &was)]++;
        if (s->number > 0) {
            count_exchange(r, s);
        }
    } else if (s->kind == TAKE && a->served[SERVED_CHARACTERISTIC] == MCS_TITLE) {
        by_take[service][stands_as(&r->lent, &was)]++;
        cut_by_mtu +=
            part_shown(&r->lent, &was).text == MCS_OFFICE_TEXT && a->served[SERVED_LENGTH] < part_shown(&r->lent, &was).length;
    } else if (has_service(s->kind)) {
        count_equal(&r->lent, service, &was, &is);
    }
}

void count_titles(const run *r, const step *s)
{
    uint32_t number = r->second_said.number;
    if (number == MCS_BAD_CATALOGUE) {
        told_before[s->kind] += faults_of_titles(&r->lent) != 0;
    } else if (number == MCS_BAD_RENAMES) {
        count_reason(&r->lent);
        count_without(r, s);
    } else if (number == 0 && s->kind != START) {
        count_accepted(r, s);
    }
}

/* ---- Rows */

static void tell_refused(void)
{
    static const char *const REASON[REASONS_FOR_224] = {"no entries",
                                                        "fewer",
                                                        "fewer by a word",
                                                        "more by a word",
                                                        "more",
                                                        "129 octets",
                                                        "longer",
                                                        "one octet outside",
                                                        "further outside",
                                                        "inside by the low 32 bits",
                                                        "bad at its first octet",
                                                        "bad further on",
                                                        "ends inside a character"};
    row("224 for one thing alone");
    for (uint32_t k = 0; k < REASONS_FOR_224; k++) {
        tell(by_reason[k], 1, "%s", REASON[k]);
    }
    row("200 where 224 applies too");
    for (uint32_t kind = 0; kind < CARD_LOAD; kind++) {
        tell(told_before[kind], 1, "%s", CALL_NAME[kind]);
    }
    for (uint32_t kind = 0; kind < CARD_LOAD; kind++) {
        row("%s refused for 224, by its number without it", CALL_NAME[kind]);
        tell_numbers(kind, without[kind], MCS_BAD_RENAMES, 0);
    }
}

static void tell_stands(const char *what, unsigned long counts[MCS_SERVICES][STANDS])
{
    static const char *const STAND[STANDS] = {"the card's", "the card's, empty", "the office's",
                                              "the office's for an empty one", "none while Inactive"};
    for (uint32_t service = 0; service < MCS_SERVICES; service++) {
        row("%s in service %u", what, (unsigned)service);
        for (uint32_t k = 0; k < STANDS; k++) {
            tell(counts[service][k], 1, "%s", STAND[k]);
        }
    }
}

void tell_titles(void)
{
    static const char *const EQUAL[EQUALS] = {"both the card's", "both one part of the office's", "two parts of the office's",
                                              "from the card's to the office's", "from the office's to the card's"};
    static const char *const EXCHANGE[EXCHANGES] = {"read on from a title that was read at 0",
                                                    "subscribed, and not owed for it"};
    tell_refused();
    tell_stands("title calls", by_title_call);
    tell_stands("titles read", by_read);
    tell_stands("titles taken", by_take);
    row("titles of the office");
    tell(to_text_end, 1, "up to the text's end");
    tell(of_shared_part, 1, "that two tracks share");
    tell(of_longest, 1, "of 128 octets");
    tell(cut_by_mtu, 1, "taken, and cut by ATT_MTU");
    for (uint32_t service = 0; service < MCS_SERVICES; service++) {
        row("another track with an equal title in service %u", (unsigned)service);
        for (uint32_t k = 0; k < EQUALS; k++) {
            tell(by_equal[service][k], 1, "%s", EQUAL[k]);
        }
        row("other titles lent in service %u", (unsigned)service);
        for (uint32_t k = 0; k < EXCHANGES; k++) {
            tell(by_exchange[service][k], 1, "%s", EXCHANGE[k]);
        }
    }
}
