/* Plainer arguments for the steps of a trial. A change may make an earlier step differ, and then step k is gone. */
#include "tried.h"

#include <string.h>

static int with_number(trial *t, run *r, uint32_t k, size_t place, uint32_t to)
{
    if (k >= t->count || *number_at(&t->steps[k], place) == to || !time_is_left()) {
        return 0;
    }
    try_copy(t);
    *number_at(&tried.steps[k], place) = to;
    return holds(t, r);
}

/* The plainest, or less by ever smaller amounts. */
static int plainer_number(trial *t, run *r, uint32_t k, size_t place, uint32_t plainest)
{
    const uint32_t *now = number_at(&t->steps[k], place);
    int changed = with_number(t, r, k, place, plainest);
    for (uint32_t by = *now / 2u; plainest == 0 && by > 0;) {
        if (by <= *now && with_number(t, r, k, place, *now - by)) {
            changed = 1;
        } else {
            by /= 2u;
        }
    }
    return changed;
}

static int with_octet(trial *t, run *r, uint32_t k, uint32_t at, uint8_t to)
{
    if (k >= t->count || t->steps[k].octets[at] == to || !time_is_left()) {
        return 0;
    }
    try_copy(t);
    tried.steps[k].octets[at] = to;
    return holds(t, r);
}

static int plain_lending(trial *t, run *r, uint32_t k)
{
    static const size_t LENDING[4] = {offsetof(step, twice), offsetof(step, null), offsetof(step, fill),
                                      offsetof(step, against)};
    int changed = 0;
    for (uint32_t field = 0; field < 4 && k < t->count; field++) {
        if (((const uint8_t *)&t->steps[k])[LENDING[field]] != 0) {
            try_copy(t);
            ((uint8_t *)&tried.steps[k])[LENDING[field]] = 0;
            changed |= holds(t, r);
        }
    }
    return changed;
}

/* A client as start leaves it; a client's account in a service, and a service's player. */
static void plain_client(uint8_t *state, uint32_t who)
{
    uint8_t *link = state + MCS_AT_LINK(who);
    memset(link, 0, MCS_AT_LINK(1) - MCS_AT_LINK(0));
    link[MCS_IN_MTU] = 23;
    link[MCS_IN_MARK] = PLACES - 1;
    for (uint32_t k = 0; k < MCS_SERVICES; k++) {
        memset(state + MCS_AT_SERVICE(k) + MCS_IN_ACCOUNT(who), 0, MCS_IN_ACCOUNT(1) - MCS_IN_ACCOUNT(0));
    }
}

static void plain_account(uint8_t *state, uint32_t which)
{
    uint32_t at = MCS_AT_SERVICE(which / MCS_CLIENTS) + MCS_IN_ACCOUNT(which % MCS_CLIENTS);
    memset(state + at, 0, MCS_IN_ACCOUNT(1) - MCS_IN_ACCOUNT(0));
}

static void plain_player(uint8_t *state, uint32_t service)
{
    memset(state + MCS_AT_SERVICE(service), 0, MCS_IN_ACCOUNT(0));
    state[MCS_AT_SERVICE(service) + MCS_IN_ORDER] = 3;
}

/* Parts as start leaves them, and octets of 0. */
static int plain_state(trial *t, run *r, uint32_t k)
{
    static const struct {
        void (*part)(uint8_t *state, uint32_t which);
        uint32_t count;
    } PLAIN[3] = {{plain_client, MCS_CLIENTS}, {plain_account, MCS_CLIENTS * MCS_SERVICES}, {plain_player, MCS_SERVICES}};
    int changed = 0;
    for (uint32_t part = 0; part < 3; part++) {
        for (uint32_t which = 0; which < PLAIN[part].count && k < t->count; which++) {
            try_copy(t);
            PLAIN[part].part(tried.steps[k].octets, which);
            if (memcmp(tried.steps[k].octets, t->steps[k].octets, MCS_STATE_OCTETS) != 0) {
                changed |= holds(t, r);
            }
        }
    }
    for (uint32_t at = MCS_STATE_OCTETS; at > 0; at--) {
        changed |= with_octet(t, r, k, at - 1u, 0);
    }
    return changed;
}

/* Fewer octets from a place on, their number being at another, and plain ones: all of them, or else one after the other. */
static int plain_octets(trial *t, run *r, uint32_t k, uint32_t from, size_t length)
{
    uint8_t plain = t->steps[k].kind == WRITE ? 0 : 'a';
    int changed = plainer_number(t, r, k, length, 0);
    if (k < t->count && t->steps[k].kind != WRITE) {
        uint32_t octets = *number_at(&t->steps[k], length);
        try_copy(t);
        memset(tried.steps[k].octets + from, plain, octets);
        changed |= memcmp(tried.steps[k].octets + from, t->steps[k].octets + from, octets) != 0 && holds(t, r);
    }
    for (uint32_t at = 0; k < t->count && at < *number_at(&t->steps[k], length); at++) {
        changed |= with_octet(t, r, k, from + at, plain);
    }
    return changed;
}

static int plain_names(trial *t, run *r, uint32_t k)
{
    int changed = 0;
    for (uint32_t service = 0; service < MCS_SERVICES && k < t->count; service++) {
        size_t length = offsetof(step, players) + service * sizeof(step_player) + offsetof(step_player, length);
        changed |= plain_octets(t, r, k, START_NAME_AT(service), length);
    }
    return changed;
}

/* Any octet may go, and one that has to stay may be a 0. */
static int fewer_octets(trial *t, run *r, uint32_t k)
{
    int changed = 0;
    for (uint32_t at = t->steps[k].length; at-- > 0 && k < t->count && time_is_left();) {
        try_copy(t);
        memmove(tried.steps[k].octets + at, tried.steps[k].octets + at + 1, t->steps[k].length - at - 1u);
        tried.steps[k].length--;
        changed |= holds(t, r);
    }
    for (uint32_t at = 0; k < t->count && at < t->steps[k].length; at++) {
        changed |= with_octet(t, r, k, at, '0');
    }
    return changed;
}

static int plainer_octets(trial *t, run *r, uint32_t k)
{
    switch (t->steps[k].kind) {
    case START:
        return plain_names(t, r, k);
    case SET_NAME:
    case WRITE:
        return plain_octets(t, r, k, 0, offsetof(step, length));
    case SET_STATE:
        return plain_state(t, r, k);
    case POKE_STATE:
        return plainer_number(t, r, k, offsetof(step, length), 0);
    case ADD_TEXT:
        return fewer_octets(t, r, k);
    default:
        return 0;
    }
}

int plainer_arguments(trial *t, run *r)
{
    int changed = 0;
    for (uint32_t k = t->count; k-- > 0 && time_is_left();) {
        changed |= plain_lending(t, r, k);
        for (uint32_t n = 0; k < t->count && n < MOST_NUMBERS && STEP_NUMBERS[t->steps[k].kind][n].words != NULL; n++) {
            const step_number *number = &STEP_NUMBERS[t->steps[k].kind][n];
            changed |= plainer_number(t, r, k, number->place, number->plainest);
        }
        if (k < t->count) {
            changed |= plainer_octets(t, r, k);
        }
    }
    return changed;
}
