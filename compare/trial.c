#include "catalogue.h"
#include "guard.h"
#include "manual.h"
#include "play.h"

#include <string.h>

int replay_trial(trial *t, run *r)
{
    wind_the_watch();
    begin_run(r, &t->catalogue);
    for (uint32_t k = 0; k < t->count; k++) {
        if (takes_long(r, &t->steps[k])) {
            return 1; /* none that was drawn does, but with a step or an argument less one may */
        }
        if (!do_step(r, &t->steps[k])) {
            t->count = k + 1u;
            return 0;
        }
    }
    return 1;
}

int play_trial(uint64_t seed, uint64_t number, trial *t, run *r, int *unshrinkable)
{
    /* Trials are of very different lengths; these weights give the shares of calls that the counts print. */
    enum { ANY_TABLES = 4, SHEETS = 6, KINDS = 8 };
    static const uint32_t WEIGHT[KINDS] = {12, 17, 15, 12, 30, 50, 11, 16};
    static void (*const PLAYS[KINDS])(play *) = {play_history,    play_states, play_catalogues, play_titles,
                                                 play_any_tables, play_cards,  play_sheets,     play_objects};
    play p;
    uint32_t at = 0, kind = 0;
    p.d = dice_of(seed, number);
    p.t = t;
    p.r = r;
    p.share = FROM_HISTORY;
    p.going = 1;
    p.differed = p.unshrinkable = 0;
    for (uint32_t k = 0; k < KINDS; k++) {
        at += WEIGHT[k];
    }
    at = below(&p.d, at);
    while (at >= WEIGHT[kind]) {
        at -= WEIGHT[kind++];
    }
    t->count = 0;
    if (kind == ANY_TABLES) {
        random_tables(&p.d, &t->catalogue);
    } else if (kind == SHEETS) {
        memset(&t->catalogue, 0, sizeof t->catalogue); /* a cue sheet has none */
    } else {
        random_catalogue(&p.d, &t->catalogue);
    }
    wind_the_watch();
    begin_run(r, &t->catalogue);
    PLAYS[kind](&p);
    *unshrinkable = p.unshrinkable;
    return !p.differed;
}
