#include "run.h"
#include "alter.h"
#include "apart.h"
#include "clock.h"
#include "entries.h"
#include "guard.h"
#include "lend.h"
#include "manual.h"
#include "numbers.h"
#include "octets.h"
#include "places.h"
#include "quiet.h"
#include "titles.h"

#include <stdio.h>
#include <string.h>

void lend_tables(run *r, const tables *t)
{
    r->lent = *t;
    stop_following(r);
    for (uint32_t table = 0; table < LENT_TABLES; table++) {
        table_changed(r, table);
    }
}

void begin_run(run *r, const tables *t)
{
    lend_tables(r, t);
    /* A card that is made longer, or taken from what was written, and what was loaded have nothing of a run before this one. */
    memset(&r->lent_card, 0, sizeof r->lent_card);
    memset(&r->written, 0, sizeof r->written);
    memset(&r->loaded, 0, sizeof r->loaded);
    r->swapped = 0;
    r->lent_sheet.length = 0;
    memset(r->octets, 0, sizeof r->octets);
    state_of_octets(r->octets, &r->second);
    forget_history(r);
    remember(r);
    r->difference[0] = 0;
}

int loaded_what_is_lent(const run *r)
{
    for (uint32_t table = 0; table < TABLES; table++) {
        size_t octets = (size_t)r->lent.length[table] * entry_octets(table);
        if (octets > 0 && memcmp(table_octets(&r->loaded, table), table_octets(&r->lent, table), octets) != 0) {
            return 0;
        }
    }
    return 1;
}

static int differs(run *r, const char *what)
{
    snprintf(r->difference, sizeof r->difference, "%s", what);
    return 0;
}

static int differs_in(run *r, const char *when, const char *buffer)
{
    snprintf(r->difference, sizeof r->difference, "%s: %s", when, buffer);
    return 0;
}

/* A refusal returns its number and alters nothing (SCOPE 20.1). */
static int states_stay(run *r)
{
    if (memcmp(r->octets, r->octets_before, MCS_STATE_OCTETS) != 0) {
        return differs(r, "a refusal of the library altered the state");
    }
    if (memcmp(&r->second, &r->before, sizeof r->before) != 0) {
        return differs(r, "a refusal of the second program altered the state");
    }
    return 1;
}

/* A state of another layout, a yes or no that is neither 1 nor 0, a next track that may not be named and a rest of a whole hundredth
 * are refused with 201, before which 200, 224 and 205 come. A start looks at no state. */
static int wrong_octets_are_refused(run *r, const step *s)
{
    const uint8_t *octets = r->octets_before;
    uint32_t number = r->library_said.number;
    uint32_t should = has_output(s->kind) && s->room[0] < MCS_OUTPUT_OCTETS ? MCS_SMALL_OUTPUT : MCS_BAD_STATE;
    if (s->kind == START || number == MCS_BAD_CATALOGUE || number == MCS_BAD_RENAMES || number == should) {
        return 1;
    }
    if (octets[MCS_AT_LAYOUT] != MCS_STATE_MARK) {
        return differs(r, "a state that does not begin with its mark is not refused with 201 in its turn");
    }
    for (uint32_t k = 0; k < MCS_SERVICES; k++) {
        standing p = standing_in(octets, k);
        if (is_misnamed(&r->lent, &p)) {
            return differs(r, "a next track that may not be named is not refused with 201 in its turn");
        }
        if (p.rest >= PARTS_OF_A_HUNDREDTH) {
            return differs(r, "a rest over 65,535 is not refused with 201 in its turn");
        }
    }
    return plain_truths(octets) || differs(r, "a yes or no that is neither 1 nor 0 is not refused with 201 in its turn");
}

/* What both did to the services, in which order they served, and what they did with the numbers of objects, with titles, with the
 * clock and with the steps of a manual Goto is what it has to be. */
static int services_are_right(run *r, const step *s)
{
    const answer *a = &r->library_said;
    const uint8_t *octets = r->octets_before;
    const char *wrong = wrong_service(s, a);
    if (wrong == NULL && a->number == 0) {
        wrong = s->kind == TAKE ? not_in_turn(a, octets, r->octets) : NULL;
        wrong = wrong == NULL ? not_apart(s, a, octets, r->octets) : wrong;
        wrong = wrong == NULL ? too_late(&r->waited, s, a, octets, r->octets) : wrong;
    }
    wrong = wrong == NULL ? wrong_number(&r->lent, s, a, octets, r->octets) : wrong;
    wrong = wrong == NULL ? wrong_title(&r->lent, s, a, octets, r->octets) : wrong;
    wrong = wrong == NULL && a->number == 0 ? wrong_clock(&r->lent, s, octets, r->octets) : wrong;
    wrong = wrong == NULL ? wrong_manual(&r->lent, s, a, octets, r->octets) : wrong;
    return wrong == NULL || differs(r, wrong);
}

/* What either program has its clients know, from its own answers, is what they have to know. */
static int screens_are_right(run *r, const step *s)
{
    static const char *const PROGRAM[PROGRAMS] = {"the library", "the second program"};
    for (uint32_t program = 0; program < PROGRAMS; program++) {
        const char *wrong = is_call(s) ? wrong_screens(r, program, s) : unlike_reads(r, program);
        if (wrong != NULL) {
            return differs_in(r, PROGRAM[program], wrong);
        }
    }
    return 1;
}

/* After an accepted call every octet is what it has to be; and where nothing of what they mean has changed, what it was. */
static int same_states(run *r, const step *s)
{
    static uint8_t should[MCS_STATE_OCTETS];
    r->seen_dead = octets_after(r->octets_before, s, &r->second, &r->second_said, should);
    for (uint32_t k = 0; k < MCS_STATE_OCTETS; k++) {
        static ref_state meant;
        if (r->octets[k] == should[k]) {
            continue;
        }
        state_of_octets(r->octets, &meant);
        if (same_meaning(&meant, &r->second, r->difference, sizeof r->difference)) {
            snprintf(r->difference, sizeof r->difference, "octet %u of the state, which means nothing: library %u, not %u",
                     (unsigned)k, r->octets[k], should[k]);
        }
        return 0;
    }
    r->unchanged = s->kind != START && same_meaning(&r->before, &r->second, NULL, 0);
    if (r->unchanged && memcmp(r->octets, r->octets_before, MCS_STATE_OCTETS) != 0) {
        return differs(r, "a call of the library that changes nothing altered octets of the state");
    }
    return 1;
}

/* What the library left, in its answer where the second program's is in its own, and as its state. */
static void collect(run *r, const call *plain, const call *made)
{
    for (uint32_t k = OUTPUT; k <= BAD_OCTET; k++) {
        if (lent_octets(plain, k) > 0) {
            ptrdiff_t at = (uint8_t *)lent_at(plain, k) - (uint8_t *)&r->second_said;
            memcpy((uint8_t *)&r->library_said + at, lent_at(made, k), lent_octets(plain, k));
        }
    }
    if (has_state(plain->kind)) {
        memcpy(r->octets, made->state, MCS_STATE_OCTETS);
    }
}

/* Made twice, from the same at either page and over two stacks that have no bit in common, the library leaves the same. */
static int same_twice(run *r, const call made[2], const uint32_t number[2])
{
    const char *buffer = differing(&made[1], &made[0], 1);
    if (number[0] != number[1]) {
        return differs(r, "over another stack the library returned another number");
    }
    return buffer == NULL || differs_in(r, "over another stack the library left something else", buffer);
}

/* A block, a line and a place are written by the refusals that carry them, and by nothing else; and the place is the one that is to be
 * seen in the name or the titles. */
static int carried_alone(run *r, const step *s, uint32_t block, uint32_t line)
{
    const answer *a = &r->library_said;
    struct mcs_place place = place_of(&r->lent, s, a->number), untouched = filled_place(s->fill);
    if (a->block != block && !mcs_names_block(a->number)) {
        return differs(r, "both wrote the block of a card load that carries none");
    }
    if (a->line != line && a->number != MCS_BAD_LINE && a->number != MCS_NOT_RISING) {
        return differs(r, "both wrote the line of a cue sheet that carries none");
    }
    if (a->number == MCS_BAD_NAME && place.octet == MCS_NOWHERE) {
        return differs(r, "both refuse a name that is right");
    }
    if (a->track != (place.track == MCS_NOWHERE ? untouched.track : place.track)) {
        return differs(r, "both say something else of the lowest track with a bad title than is to be seen in the catalogue");
    }
    if (a->octet != (place.octet == MCS_NOWHERE ? untouched.octet : place.octet)) {
        return differs(r, "both say something else of the wrong octet than is to be seen in the title or the name");
    }
    return 1;
}

/* Who reads the title at 0, and whose title changes, no longer has one in whose place another is lent. */
static void drop_exchanged(run *r, const step *s)
{
    for (uint32_t k = 0; k < MCS_SERVICES * MCS_CLIENTS; k++) {
        uint32_t service = k / MCS_CLIENTS, client = k % MCS_CLIENTS;
        int read_now = s->kind == READ && s->what == MCS_TITLE && s->number == 0 && s->service == service && s->who == client;
        if (read_now || !read_mark(r->octets, service, client, MCS_TITLE)) {
            r->exchanged[service] &= ~(1u << client);
        }
    }
}

static int do_call(run *r, const step *s)
{
    static call plain, second, made[2];
    uint32_t number[2], makings = s->twice ? 2 : 1, block, line;
    const char *buffer, *wrong;
    lend_plainly(r, s, &plain);
    block = r->second_said.block;
    line = r->second_said.line;
    for (uint32_t k = 0; k < makings; k++) {
        lend_guarded(r, s, &plain, s->against ^ k, &made[k]);
    }
    second = plain;
    second.state = &r->second;
    r->library_said = r->second_said;
    memcpy(r->octets_before, r->octets, MCS_STATE_OCTETS);
    memcpy(&r->before, &r->second, sizeof r->second);
    r->unchanged = r->library_faulted = 0;
    r->seen_dead = 0;

    for (uint32_t k = 0; k < makings; k++) {
        /* All zeros and all ones, or what lent outputs are filled with. */
        uint8_t paint = s->fill % 2u == 0 ? 0 : s->fill;
        if (s->twice) {
            paint_stack(k == 0 ? paint : (uint8_t)~paint);
        }
        r->library_faulted |= !unharmed(call_library, &made[k], &number[k]);
    }
    r->second_faulted = !unharmed(call_second, &second, &r->second_said.number);
    if (r->library_faulted || r->second_faulted) {
        return differs(r, r->library_faulted ? "the library faulted: it touched what it was not lent, or was stopped"
                                             : "the second program faulted");
    }
    r->library_said.number = number[0];
    collect(r, &plain, &made[0]);
    if (plain.written != NULL) {
        r->written.length = number[0] == 0 ? (s->kind == CARD_WRITE ? MCS_BLOCK_OCTETS : 1u) * r->second_said.length : 0;
    }
    for (uint32_t k = 0; s->kind == CARD_LOAD && k < TABLES; k++) {
        r->loaded.length[k] = number[0] == 0 ? record_entries(k) * r->second_said.counts[k] : 0;
    }
    if (s->kind == CARD_LOAD) {
        rename_nothing(&r->loaded);
    }

    if (r->library_said.number != r->second_said.number) {
        return differs(r, "the numbers differ");
    }
    buffer = differing(&made[0], &plain, 0);
    if (buffer != NULL) {
        return differs_in(r, "the programs differ in", buffer);
    }
    if (!carried_alone(r, s, block, line)) {
        return 0;
    }
    if (s->twice && !same_twice(r, made, number)) {
        return 0;
    }
    if (!has_state(s->kind)) {
        wrong = wrong_object(r, s);
        return wrong == NULL || differs(r, wrong);
    }
    if (r->library_said.number == 0) {
        drop_exchanged(r, s);
    }
    return wrong_octets_are_refused(r, s) && (r->library_said.number != 0 ? states_stay(r) : same_states(r, s)) &&
           services_are_right(r, s) && screens_are_right(r, s);
}

int do_step(run *r, const step *s)
{
    if (is_call(s)) {
        return do_call(r, s);
    }
    if (s->kind == READ_SCREENS) {
        return screens_are_right(r, s);
    }
    alter(r, s);
    return 1;
}
