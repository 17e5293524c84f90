/* A trial: a catalogue with the office's titles, and the steps that were drawn for it one after the other. */
#ifndef TRIAL_H
#define TRIAL_H

#include "run.h"

#define MOST_STEPS 8000u

/* As many takes as there can be something to hand out, two that say that nothing is owed, and a look at the screens. */
#define STEPS_TO_GO_QUIET (MCS_MOST_OWED + 3u)

typedef struct {
    tables catalogue;
    uint32_t count;
    step steps[MOST_STEPS];
} trial;

/* Draws trial `number` of a seed and plays it. Returns 0 at a difference, which is then the last step's; `t` holds the
 * steps up to it. A number that both programs give but that cannot be right is a difference too, `unshrinkable`. */
int play_trial(uint64_t seed, uint64_t number, trial *t, run *r, int *unshrinkable);

/* Plays the steps of a trial from the beginning, up to the first difference; the steps behind it are dropped. */
int replay_trial(trial *t, run *r);

#endif
