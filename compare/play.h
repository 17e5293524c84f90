/* A trial while it is drawn: each step is drawn from where the run stands, and done. */
#ifndef PLAY_H
#define PLAY_H

#include "count.h"
#include "draw.h"
#include "trial.h"

/* One argument in so many is wrong: few in a history, so that it gets somewhere, many where each call stands alone. */
#define FEW 40u
#define MANY 8u
#define NONE UINT32_MAX

typedef struct {
    dice d;
    trial *t;
    run *r;
    uint32_t share;
    int going;    /* no difference yet */
    int differed; /* at the last step */
    int unshrinkable;
} play;

/* Whether a round of a few dozen steps may begin, with things going quiet in it and behind it. */
int goes_on(const play *p);

/* Where the next step is to be drawn; take_step then does it. Nothing may be drawn unless the play is going. */
step *new_step(play *p);
void take_step(play *p);

/* Each does nothing where the play is not going. */
void bare_step(play *p, uint32_t kind, uint32_t number);
void call_in(play *p, const mood *m);
void add_piece(play *p, const void *octets, uint32_t length, uint32_t times); /* to a cue sheet or an object */
void damage(play *p, uint32_t times, void (*draw)(dice *, const run *, step *));
void damage_titles_or_more(play *p); /* the catalogue: its titles, something else, or both */

/* Once or a little more often. */
uint32_t few_times(play *p);

/* Both programs said what cannot be right. */
void cannot_be(play *p, const char *why);

/* The plays. */
void play_history(play *p);
void play_states(play *p);
void play_catalogues(play *p);
void play_titles(play *p);
void play_any_tables(play *p);
void play_cards(play *p);
void play_sheets(play *p);
void play_objects(play *p);

/* What they share: a start that is accepted, with clients that connect and subscribe; a state of its own. */
void start_and_open(play *p);
void open_desk(play *p);
void set_valid_state(play *p);
void set_any_state(play *p);

/* How each of them ends, and some pause: takes until nothing is owed, and a look at what every client then knows. */
void go_quiet(play *p);

/* Catalogue, titles and state were made right, so the last call cannot have refused them. */
void expect_standing(play *p);

#endif
