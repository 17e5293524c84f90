/* States of every kind: reached, made right, damaged, any octets. And the same over catalogues and titles that are damaged. */
#include "damage.h"
#include "play.h"
#include "random_state.h"

#include <string.h>

void set_valid_state(play *p)
{
    static ref_state drawn;
    step *s = new_step(p);
    if (!p->going) {
        return;
    }
    blank_step(&p->d, SET_STATE, s);
    random_state(&p->d, &p->r->lent, &drawn);
    octets_of_state(&drawn, s->octets);
    s->length = MCS_STATE_OCTETS;
    take_step(p);
}

/* What start leaves, with a few octets of any kind. */
static void nearly_start(play *p, uint8_t *octets)
{
    memset(octets, 0, MCS_STATE_OCTETS);
    octets[MCS_AT_LAYOUT] = MCS_STATE_MARK;
    octets[MCS_AT_TURN] = 3;
    for (uint32_t k = 0; k < REF_CLIENTS; k++) {
        octets[MCS_AT_LINK(k) + MCS_IN_MTU] = 23;
        octets[MCS_AT_LINK(k) + MCS_IN_MARK] = PLACES - 1;
    }
    for (uint32_t k = 0; k < REF_SERVICES; k++) {
        octets[MCS_AT_SERVICE(k) + MCS_IN_ORDER] = 3;
    }
    for (uint32_t k = below(&p->d, 4); k > 0; k--) {
        uint32_t at = below(&p->d, MCS_STATE_OCTETS);
        octets[at] = (uint8_t)any_word(&p->d);
    }
}

void set_any_state(play *p)
{
    step *s = new_step(p);
    if (!p->going) {
        return;
    }
    blank_step(&p->d, SET_STATE, s);
    s->length = MCS_STATE_OCTETS;
    if (one_in(&p->d, 2)) {
        nearly_start(p, s->octets);
    } else {
        for (uint32_t k = 0; k < MCS_STATE_OCTETS; k++) {
            s->octets[k] = (uint8_t)any_word(&p->d);
        }
    }
    take_step(p);
}

static void calls_on_valid_state(play *p, const mood *m)
{
    p->share = VALID_STATE;
    set_valid_state(p);
    for (uint32_t k = few_times(p); k > 0; k--) {
        call_in(p, m);
        expect_standing(p);
    }
}

void play_states(play *p)
{
    mood even = even_mood(MANY), usual = random_mood(&p->d, FEW);
    start_and_open(p);
    for (uint32_t round = 0; round < 250 && goes_on(p); round++) {
        if (one_in(&p->d, 3)) {
            p->share = FROM_HISTORY;
            call_in(p, &usual);
            continue;
        }
        if (one_in(&p->d, 2)) {
            calls_on_valid_state(p, &even);
        }
        bare_step(p, KEEP, 0);
        if (one_in(&p->d, 6)) {
            p->share = ANY_STATE;
            set_any_state(p);
        } else if (one_in(&p->d, 5)) {
            p->share = DAMAGED_STATE;
            damage(p, 1, damage_truth);
        } else {
            p->share = DAMAGED_STATE;
            damage(p, few_times(p), damage_state);
        }
        if (one_in(&p->d, 12)) {
            damage(p, 1, damage_renames);
        }
        call_in(p, &even);
        if (one_in(&p->d, 3)) {
            call_in(p, &even);
        }
        bare_step(p, PUT_BACK, 0);
    }
    go_quiet(p);
}

void play_catalogues(play *p)
{
    mood even = even_mood(MANY);
    start_and_open(p);
    for (uint32_t round = 0; round < 150 && goes_on(p); round++) {
        if (one_in(&p->d, 4)) {
            calls_on_valid_state(p, &even);
        }
        p->share = DAMAGED_CATALOGUE;
        bare_step(p, KEEP, 0);
        damage_titles_or_more(p);
        if (one_in(&p->d, 6)) {
            damage(p, 1, damage_state);
        }
        call_in(p, &even);
        bare_step(p, PUT_BACK, 0);
    }
    go_quiet(p);
}

/* 224 comes behind 200 and before all others, so that much else may be wrong too. */
void play_titles(play *p)
{
    mood even = even_mood(MANY);
    start_and_open(p);
    for (uint32_t round = 0; round < 200 && goes_on(p); round++) {
        if (one_in(&p->d, 4)) {
            calls_on_valid_state(p, &even);
        }
        if (one_in(&p->d, 8)) {
            bare_step(p, NEW_TITLES, any_word(&p->d));
        }
        p->share = DAMAGED_TITLES;
        bare_step(p, KEEP, 0);
        damage(p, few_times(p), damage_renames);
        if (one_in(&p->d, 6)) {
            damage_titles_or_more(p);
        }
        if (one_in(&p->d, 4)) {
            damage(p, 1, one_in(&p->d, 2) ? damage_truth : damage_state);
        }
        call_in(p, &even);
        bare_step(p, PUT_BACK, 0);
    }
    go_quiet(p);
}

void play_any_tables(play *p)
{
    mood even = even_mood(MANY);
    p->share = ANY_CATALOGUE;
    for (uint32_t k = 0; k < 4; k++) {
        set_any_state(p);
        call_in(p, &even);
    }
}
