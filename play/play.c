/* The desk in a terminal, driven by a person: four devices, two players, and time that passes as on the wall.
 *
 *     play CARD [--state FILE] [--clock manual] [--radio held]
 *
 * FILE is where the state is saved and restored; where it is named and there, it is restored at once. Without it, it is
 * mantelhona.state in the folder that the program is called from, and restored by a key alone. With --clock manual no time passes but
 * a second at a time, by a key; with --radio held nothing goes out to the devices but what a key takes. Keys change both later.
 *
 * Exit status 0; 1 where the card is refused; 2 where its file cannot be read, where the program is called otherwise, or not in a
 * terminal; and 128 and the number of the signal where one ended it.
 */
#define _POSIX_C_SOURCE 200809L

#include <stdio.h>
#include <string.h>
#include <time.h>

#include "../day/load.h"
#include "commands.h"
#include "folders.h"
#include "host.h"
#include "journal.h"
#include "refused_card.h"
#include "saved.h"
#include "screen.h"
#include "terminal.h"

#define USUAL_STATE "mantelhona.state"

/* Between two takes, so that a person sees them one by one; and between two pictures of a player that plays. */
#define TAKE_NANOSECONDS 300000000
#define PICTURE_NANOSECONDS 50000000

#define HUNDREDTH 10000000 /* in nanoseconds */
#define MILLISECOND 1000000

struct called {
    const char *card, *state;
    int is_state_named, is_clock_by_hand, is_radio_held;
};

static int misused(void)
{
    fprintf(stderr, "play CARD [--state FILE] [--clock manual] [--radio held] is the desk in a terminal, driven by keys.\n");
    return 2;
}

/* Whether the words are understood. */
static int understood(int count, char **words, struct called *c)
{
    int at = 2;
    memset(c, 0, sizeof *c);
    c->state = USUAL_STATE;
    if (count < 2 || words[1][0] == '-') {
        return 0;
    }
    c->card = words[1];
    for (; at + 1 < count; at += 2) {
        if (strcmp(words[at], "--state") == 0 && words[at + 1][0] != '\0') {
            c->state = words[at + 1];
            c->is_state_named = 1;
        } else if (strcmp(words[at], "--clock") == 0 && strcmp(words[at + 1], "manual") == 0) {
            c->is_clock_by_hand = 1;
        } else if (strcmp(words[at], "--radio") == 0 && strcmp(words[at + 1], "held") == 0) {
            c->is_radio_held = 1;
        } else {
            return 0;
        }
    }
    return at == count;
}

/* ---- The state's file */

static int save(const struct called *c)
{
    const saving done = save_state(c->state, &desk);
    say(!done.is_done, "%s", done.words);
    return done.is_done;
}

static void restore(const struct called *c)
{
    const saving done = restore_state(c->state, &desk);
    if (done.is_done) {
        begin_anew();
        note(DEED, THE_DESK, NO_SERVICE, "goes on with a state that was saved");
    }
    say(!done.is_done, "%s", done.words);
}

/* ---- Time */

static int64_t now(void)
{
    struct timespec time;
    clock_gettime(CLOCK_MONOTONIC, &time);
    return (int64_t)time.tv_sec * 1000000000 + time.tv_nsec;
}

/* The wall's clock: when it was last told to the desk. What is below a hundredth is kept for the next time. */
static int64_t told_at;

static void tell_time(const person *user)
{
    const int64_t hundredths = (now() - told_at) / HUNDREDTH;
    if (user->is_clock_by_hand) {
        told_at = now();
    } else if (hundredths > 0) {
        told_at += hundredths * HUNDREDTH;
        pass_time(hundredths < UINT32_MAX ? (uint32_t)hundredths : UINT32_MAX);
    }
}

static int64_t taken_at;

static int is_take_due(const person *user)
{
    return !user->is_radio_held && is_anything_owed() && now() - taken_at >= TAKE_NANOSECONDS;
}

/* How long nothing needs to be done, unless a key is pressed; negative where that is for ever. */
static int time_to_wait(const person *user)
{
    int64_t wait = -1;
    if (!user->is_clock_by_hand && does_anything_move()) {
        wait = PICTURE_NANOSECONDS;
    }
    if (!user->is_radio_held && is_anything_owed()) {
        const int64_t left = taken_at + TAKE_NANOSECONDS - now();
        if (wait < 0 || left < wait) {
            wait = left > 0 ? left : 0;
        }
    }
    return wait < 0 ? -1 : (int)((wait + MILLISECOND - 1) / MILLISECOND);
}

/* ---- All of it */

static void run(const struct called *c)
{
    person user;
    memset(&user, 0, sizeof user);
    user.is_clock_by_hand = c->is_clock_by_hand;
    user.is_radio_held = c->is_radio_held;
    told_at = now();
    while (draw_screen(&user)) {
        wish wished = GO_ON;
        int key = 0;
        const waited was = wait_terminal(time_to_wait(&user), &key);
        if (was == WAS_ENDED) {
            return;
        }
        tell_time(&user);
        if (was == WAS_KEY) {
            wished = obey(&user, key);
        }
        if (wished == RESTORE) {
            restore(c);
        }
        if (wished == END || ((wished == SAVE || wished == SAVE_AND_END) && save(c) && wished == SAVE_AND_END)) {
            return;
        }
        if (is_take_due(&user)) {
            take_one();
            taken_at = now();
        }
    }
}

int main(int count, char **words)
{
    struct called c;
    struct mcs_catalogue catalogue;
    struct mcs_place place;
    uint32_t number;
    int status;
    if (!understood(count, words, &c)) {
        return misused();
    }
    status = load_card("play", c.card, &catalogue);
    if (status != 0) {
        return status;
    }
    number = start_desk(&catalogue, &place);
    if (number != MCS_OK) {
        fprintf(stderr, "play: ");
        print_refused_catalogue(stderr, c.card, number, &catalogue, place);
        return 1;
    }
    if (!is_terminal() || !open_terminal()) {
        fprintf(stderr, "play: standard input and standard output have to be a terminal\n");
        return 2;
    }
    open_desk();
    open_folders();
    say(0, "? is help");
    if (c.is_state_named && is_saved(c.state)) {
        restore(&c);
    } else if (is_saved(c.state)) {
        say(0, "%s is there: l restores it", c.state);
    }
    run(&c);
    close_terminal();
    return ending_signal() == 0 ? 0 : 128 + ending_signal();
}
