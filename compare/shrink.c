#include "shrink.h"
#include "tried.h"

#include <string.h>
#include <time.h>

trial tried;
static unsigned long plays;
static clock_t deadline;

int time_is_left(void) { return clock() < deadline; }

static void copy_trial(trial *to, const trial *from)
{
    to->catalogue = from->catalogue;
    to->count = from->count;
    memcpy(to->steps, from->steps, from->count * sizeof from->steps[0]);
}

void try_copy(const trial *t) { copy_trial(&tried, t); }

int holds(trial *t, run *r)
{
    plays++;
    if (replay_trial(&tried, r)) {
        return 0;
    }
    copy_trial(t, &tried);
    return 1;
}

/* ---- Fewer steps */

static int without(trial *t, run *r, uint32_t from, uint32_t count)
{
    try_copy(t);
    memmove(tried.steps + from, tried.steps + from + count, (t->count - from - count) * sizeof t->steps[0]);
    tried.count = t->count - count;
    return holds(t, r);
}

static int drop_steps(trial *t, run *r)
{
    int dropped = 0;
    for (uint32_t size = t->count / 2u > 0 ? t->count / 2u : 1u; size > 0; size /= 2u) {
        uint32_t end = t->count;
        /* From behind: what comes late needs more of what comes early than the other way round. */
        while (end >= size && time_is_left()) {
            uint32_t from = end - size;
            if (without(t, r, from, size)) {
                dropped = 1;
                end = from < t->count ? from : t->count;
            } else {
                end -= size;
            }
        }
    }
    return dropped;
}

/* ---- Fewer clients, fewer services */

/* What one client or service did is done by another, in all calls that have one. */
static int one_for_another(trial *t, run *r, int (*has)(uint32_t kind), size_t place, uint32_t from, uint32_t to)
{
    int changed = 0;
    try_copy(t);
    for (uint32_t k = 0; k < tried.count; k++) {
        uint32_t *which = number_at(&tried.steps[k], place);
        if (is_call(&tried.steps[k]) && has(tried.steps[k].kind) && *which == from) {
            *which = to;
            changed = 1;
        }
    }
    return changed && time_is_left() && holds(t, r);
}

static int fewer(trial *t, run *r, int (*has)(uint32_t kind), size_t place, uint32_t count)
{
    int changed = 0;
    for (uint32_t from = count - 1u; from > 0; from--) {
        for (uint32_t to = 0; to < from; to++) {
            changed |= one_for_another(t, r, has, place, from, to);
        }
    }
    return changed;
}

unsigned long shrink_trial(trial *t, run *r, unsigned seconds)
{
    int changed = 1;
    plays = 0;
    deadline = clock() + (clock_t)seconds * CLOCKS_PER_SEC;
    while (changed && time_is_left()) {
        changed = drop_steps(t, r);
        changed |= smaller_catalogue(t, r);
        changed |= fewer(t, r, has_client, offsetof(step, who), MCS_CLIENTS);
        changed |= fewer(t, r, has_service, offsetof(step, service), MCS_SERVICES);
        changed |= plainer_arguments(t, r);
    }
    return plays;
}
