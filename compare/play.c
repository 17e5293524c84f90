#include "play.h"
#include "count_quiet.h"
#include "damage.h"

#include <string.h>

/* More than a start and all that opens a desk. */
#define ROUND 192u

int goes_on(const play *p) { return p->going && p->t->count + ROUND + 2u * STEPS_TO_GO_QUIET <= MOST_STEPS; }

step *new_step(play *p) { return &p->t->steps[p->t->count]; }

void take_step(play *p)
{
    const step *s = &p->t->steps[p->t->count++];
    if (!do_step(p->r, s)) {
        p->going = 0;
        p->differed = 1;
    } else if (is_call(s)) {
        count_call(p->r, s, p->share);
    } else if (s->kind == READ_SCREENS) {
        count_screens(p->r);
    }
}

void bare_step(play *p, uint32_t kind, uint32_t number)
{
    if (p->going) {
        blank_step(&p->d, kind, new_step(p));
        new_step(p)->number = number;
        take_step(p);
    }
}

void call_in(play *p, const mood *m)
{
    if (p->going) {
        draw_call(&p->d, p->r, m, new_step(p));
        take_step(p);
    }
}

void add_piece(play *p, const void *octets, uint32_t length, uint32_t times)
{
    step *s = new_step(p);
    if (p->going) {
        blank_step(&p->d, ADD_TEXT, s);
        memcpy(s->octets, octets, length);
        s->length = length;
        s->number = times;
        take_step(p);
    }
}

void damage(play *p, uint32_t times, void (*draw)(dice *, const run *, step *))
{
    for (; times > 0 && p->going; times--) {
        draw(&p->d, p->r, new_step(p));
        take_step(p);
    }
}

void damage_titles_or_more(play *p)
{
    int titles = one_in(&p->d, 2);
    if (titles) {
        damage(p, few_times(p), damage_title);
    }
    if (!titles || one_in(&p->d, 4)) {
        damage(p, few_times(p), damage_catalogue);
    }
}

uint32_t few_times(play *p) { return one_in(&p->d, 2) ? 1u : between(&p->d, 1, 3); }

void cannot_be(play *p, const char *why)
{
    if (p->going) {
        snprintf(p->r->difference, sizeof p->r->difference, "%s", why);
        p->going = 0;
        p->differed = p->unshrinkable = 1;
    }
}

/* Once only takes with enough room are called, nothing is owed in the end (SCOPE 21.11); also where the state is of another's
 * making. */
void go_quiet(play *p)
{
    uint32_t said_nothing = 0;
    p->share = FROM_HISTORY;
    for (uint32_t k = 1; k < STEPS_TO_GO_QUIET && said_nothing < 2 && p->going; k++) {
        draw_this_call(&p->d, p->r, TAKE, NONE, new_step(p));
        take_step(p);
        expect_standing(p);
        said_nothing += p->r->second_said.served[SERVED_CHARACTERISTIC] == MCS_NOTHING;
    }
    bare_step(p, READ_SCREENS, 0);
}

void expect_standing(play *p)
{
    uint32_t number = p->r->second_said.number;
    if (number == MCS_BAD_CATALOGUE || number == MCS_BAD_RENAMES || number == MCS_BAD_STATE) {
        cannot_be(p, "both refuse a catalogue, titles or a state that were made right");
    }
}
