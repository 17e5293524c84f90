/* A Goto by single steps, beside the manual's Goto and the player's own. Trainers teach Goto by single steps and ask whether
 * the player agrees (SCOPE 15.1).
 *
 * goto CARD KIND NUMBER [order ORDER] [from GROUP TRACK POSITION] [allowed STEPS]
 *
 * KIND is segment, track or group, and NUMBER the number behind it, -2147483648 to 2147483647. ORDER is the playing order, 1
 * to 8, or else 3. The player begins at the place that is named, its position in hundredths of a second, or else at the start
 * of the first track of the first group that has some. STEPS are allowed, or else as many as the Goto has.
 *
 * Each step is shown as it is made: its opcode is written to the control point of a copy of the desk. Behind them stand what
 * the manual's Goto says, and what the player's own Goto does to another copy. Exit status 0; 1 where they do not agree, or
 * the card is refused; 2 where its file cannot be read, or the program is called otherwise.
 */
#include <errno.h>
#include <stdio.h>
#include <stdlib.h>
#include <string.h>

#include "../day/load.h"
#include "../day/must.h"
#include "../day/steps.h"
#include "../day/titles.h"
#include "../day/values.h"
#include "refused_card.h"
#include "words.h"

#define SERVICE MCS_GENERIC
#define TRAINER 0u /* the client */

/* So many steps are shown. */
#define MOST_SHOWN 20u

/* So many are made one by one. No card has as many segments, tracks or groups, so that what comes behind them stays or goes round. */
#define MOST_MADE 10000

struct asked {
    taught_goto taught;
    uint8_t order;
    int has_place;
    uint32_t group, track, position;
    uint32_t allowed;
};

static struct mcs_desk desk;

/* ---- What is asked */

/* Whether a word is a whole number within these bounds. */
static int is_number(const char *word, int64_t least, int64_t most, int64_t *number)
{
    char *end;
    errno = 0;
    *number = strtoll(word, &end, 10);
    return end != word && *end == '\0' && errno == 0 && *number >= least && *number <= most;
}

static int is_kind(const char *word, uint8_t *opcode)
{
    static const struct {
        const char *word;
        uint8_t opcode;
    } KINDS[] = {{"segment", MCS_OPCODE_GOTO_SEGMENT}, {"track", MCS_OPCODE_GOTO_TRACK}, {"group", MCS_OPCODE_GOTO_GROUP}};
    size_t k;
    for (k = 0; k < sizeof KINDS / sizeof KINDS[0]; k++) {
        if (strcmp(word, KINDS[k].word) == 0) {
            *opcode = KINDS[k].opcode;
            return 1;
        }
    }
    return 0;
}

/* How many words an option is, with its numbers; 0 where there is none. */
static int option(int count, char **words, struct asked *asked)
{
    int64_t first, second, third;
    if (count >= 2 && strcmp(words[0], "order") == 0 && is_number(words[1], 1, 8, &first)) {
        asked->order = (uint8_t)first;
        return 2;
    }
    if (count >= 2 && strcmp(words[0], "allowed") == 0 && is_number(words[1], 0, UINT32_MAX, &first)) {
        asked->allowed = (uint32_t)first;
        return 2;
    }
    if (count >= 4 && strcmp(words[0], "from") == 0 && is_number(words[1], 0, MCS_MOST_GROUPS, &first) &&
        is_number(words[2], 0, MCS_MOST_TRACKS, &second) && is_number(words[3], 0, MCS_MOST_DURATION, &third)) {
        asked->has_place = 1;
        asked->group = (uint32_t)first;
        asked->track = (uint32_t)second;
        asked->position = (uint32_t)third;
        return 4;
    }
    return 0;
}

/* Whether the words behind the card are understood. */
static int understood(int count, char **words, struct asked *asked)
{
    int64_t number;
    int at = 2, had = 1;
    if (count < 2 || !is_kind(words[0], &asked->taught.opcode) || !is_number(words[1], INT32_MIN, INT32_MAX, &number)) {
        return 0;
    }
    asked->taught.client = TRAINER;
    asked->taught.service = SERVICE;
    asked->taught.number = (int32_t)number;
    asked->order = 3;
    asked->has_place = 0;
    asked->allowed = steps_of(asked->taught.number);
    while (at < count && had > 0) {
        had = option(count - at, words + at, asked);
        at += had;
    }
    return had > 0;
}

static int misused(void)
{
    fprintf(stderr,
            "goto CARD segment|track|group NUMBER [order ORDER] [from GROUP TRACK POSITION] [allowed STEPS] makes a Goto "
            "step by step.\n");
    return 2;
}

/* ---- Where the player begins */

/* Activates the first group that has tracks. Whether there is one. */
static int begin_anywhere(void)
{
    uint32_t group = 0;
    while (group < MCS_MOST_GROUPS && mcs_desk_activate(&desk, SERVICE, group) != MCS_OK) {
        group++;
    }
    return group < MCS_MOST_GROUPS;
}

/* Whether the card has the place that is named. Where it is behind the track's end, the write leads to the end. */
static int begin_at(const struct asked *asked)
{
    uint8_t track[MCS_OBJECT_OCTETS], position[4];
    mcs_put_object(track, MCS_OBJECT_OF_TRACK(asked->track));
    put_word(position, asked->position);
    return mcs_desk_activate(&desk, SERVICE, asked->group) == MCS_OK &&
           mcs_desk_write(&desk, TRAINER, SERVICE, MCS_TRACK_OBJECT, track, sizeof track) == MCS_OK &&
           mcs_desk_write(&desk, TRAINER, SERVICE, MCS_POSITION, position, sizeof position) == MCS_OK &&
           stand_of(&desk, SERVICE).position == asked->position;
}

/* ---- What is shown */

/* Of segments 0 moves nothing (SCOPE 10.7); of tracks 0 keeps the track, and the position becomes 0 (SCOPE 11.6, 11.7); of groups
 * 0 keeps the group, and leads to its first track, at position 0 (SCOPE 12.2, 12.3). */
static const char *what_0_does(uint8_t opcode)
{
    switch (opcode) {
    case MCS_OPCODE_GOTO_SEGMENT:
        return "nothing moves";
    case MCS_OPCODE_GOTO_TRACK:
        return "the track is kept, and begins again";
    default:
        return "the group is kept, and begins again with its first track";
    }
}

static void introduce(const struct asked *asked)
{
    const uint32_t steps = steps_of(asked->taught.number);
    const struct mcs_goto from = stand_of(&desk, SERVICE);

    printf("%s %d is ", mcs_opcode_words(asked->taught.opcode), asked->taught.number);
    if (steps == 0) {
        printf("no step: %s", what_0_does(asked->taught.opcode));
    } else {
        printf("%s", mcs_opcode_words(step_opcode(&asked->taught, 1)));
    }
    if (steps > 1u) {
        printf(", and then %s", mcs_opcode_words(step_opcode(&asked->taught, 2)));
    }
    if (steps > 2u) {
        printf(" %u times", steps - 1u);
    }
    printf(".\nThe player is in ");
    print_stand(&desk.catalogue, &from);
    printf("; its playing order is %s. Allowed steps: %u.\n", mcs_playing_order_words(asked->order), asked->allowed);
}

/* A table: the step, its opcode, the place before it and the place behind it, and the title there, which comes last, since it may be
 * long. */
#define OPCODE_WIDTH 18
#define FROM_WIDTH 10
#define TO_WIDTH 8
#define TIME_WIDTH 12

static void print_head(void)
{
    printf("\n%6s  %-*s%*s  track  %-*s%*s  track  %-*stitle\n", "step", OPCODE_WIDTH, "opcode", FROM_WIDTH, "from group",
           TIME_WIDTH, "at", TO_WIDTH, "to group", TIME_WIDTH, "at");
}

static void print_columns(int group_width, const struct mcs_goto *at)
{
    printf("%*u%7u  ", group_width, at->group, at->track);
    printf("%*s", TIME_WIDTH - print_position(stdout, at->position, at->rest), "");
}

static void show_step(const single_step *step)
{
    if (step->number > MOST_SHOWN) {
        return;
    }
    printf("%6u  %-*s", step->number, OPCODE_WIDTH, mcs_opcode_words(step_opcode(step->of, step->number)));
    print_columns(FROM_WIDTH, &step->from);
    if (step->outcome == MCS_RESULT_SUCCESS) {
        struct mcs_title title = title_due(&desk.catalogue, step->to.track);
        print_columns(TO_WIDTH, &step->to);
        print_value(stdout, MCS_TITLE, title.octets, title.length);
    } else {
        printf("%s", why_not_made(step->outcome));
    }
    putchar('\n');
}

/* A line on one of the ways. */
#define WAY_WIDTH 20
static void print_way(const char *way, const struct mcs_goto *told)
{
    printf("%-*s", WAY_WIDTH, way);
    print_told(&desk.catalogue, told);
    printf(".\n");
}

/* ---- Three ways */

/* Step by step, as far as steps are made one by one. Whether the manual's Goto says the same. */
static int walk(const struct asked *asked, const struct mcs_goto *manual)
{
    taught_goto front = asked->taught;
    struct mcs_goto walked, manuals_front;
    int agree;

    front.number = front.number > MOST_MADE ? MOST_MADE : front.number < -MOST_MADE ? -MOST_MADE : front.number;
    print_head();
    walked = by_single_steps(&desk, &front, asked->allowed, show_step);
    if (manual->steps > MOST_SHOWN) {
        printf("%6s  %u more steps are not shown here.\n", "..", manual->steps - MOST_SHOWN);
    }
    putchar('\n');
    if (front.number == asked->taught.number || walked.outcome != MCS_RESULT_SUCCESS) {
        print_way("Step by step:", &walked);
        return same_steps(&walked, manual);
    }
    manuals_front = by_the_manual(&desk, &front, asked->allowed);
    agree = same_steps(&walked, &manuals_front);
    printf("%-*sthe first %u steps lead to ", WAY_WIDTH, "Step by step:", walked.steps);
    print_stand(&desk.catalogue, &walked);
    printf("; the manual's Goto %d %s.\n", front.number, agree ? "says so too" : "SAYS OTHERWISE");
    return agree;
}

/* By the player's own Goto, which counts no steps. Whether the manual's Goto says the same, where all steps are allowed. */
static int compare_player(const struct asked *asked, struct mcs_goto manual)
{
    const struct mcs_goto player = by_the_player(&desk, &asked->taught);
    if (manual.outcome == MCS_RAN_OUT) {
        manual = by_the_manual(&desk, &asked->taught, steps_of(asked->taught.number));
        print_way("With all allowed:", &manual);
    }
    printf("%-*s%s; the player is in ", WAY_WIDTH, "The player's Goto:", mcs_result_words(player.outcome));
    print_stand(&desk.catalogue, &player);
    printf(".\n");
    return same_end(&manual, &player);
}

/* Whether all agree, and the desk is as it was. */
static int teach(const struct asked *asked)
{
    uint8_t before[MCS_STATE_OCTETS];
    struct mcs_goto manual;
    int agree = 1;

    memcpy(before, desk.state, sizeof before);
    introduce(asked);
    manual = by_the_manual(&desk, &asked->taught, asked->allowed);
    if (asked->taught.number != 0) { /* what Goto 0 does, no step does */
        agree = walk(asked, &manual);
    }
    print_way("The manual's Goto:", &manual);
    agree = compare_player(asked, manual) && agree;
    agree = memcmp(before, desk.state, sizeof before) == 0 && agree;
    printf(agree ? "They agree.\n" : "THEY DO NOT AGREE.\n");
    return agree;
}

int main(int count, char **words)
{
    static const struct mcs_player players[MCS_SERVICES] = {{NULL, 0, MCS_ALL_OPCODES, 1}, {NULL, 0, MCS_ALL_OPCODES, 2}};
    struct asked asked;
    uint32_t number;
    int status;

    if (count < 2 || !understood(count - 2, words + 2, &asked)) {
        return misused();
    }
    status = load_card("goto", words[1], &desk.catalogue);
    if (status != 0) {
        return status;
    }
    desk.titles = office_titles(&desk.catalogue);
    number = mcs_desk_start(&desk, players);
    if (number != MCS_OK) {
        fprintf(stderr, "goto: ");
        print_refused_catalogue(stderr, words[1], number, &desk.catalogue, desk.place);
        return 1;
    }
    must(mcs_desk_connect(&desk, TRAINER, 23, 1), "connect");
    must(mcs_desk_write(&desk, TRAINER, SERVICE, MCS_PLAYING_ORDER, &asked.order, 1), "the playing order");
    if (asked.has_place && !begin_at(&asked)) {
        fprintf(stderr, "goto: the card has no group %u with a track %u in it that goes up to %u\n", asked.group, asked.track,
                asked.position);
        return misused();
    }
    if (!asked.has_place && !begin_anywhere()) {
        printf("No group of the card has tracks: there is nothing to play.\n");
        return 0;
    }
    return teach(&asked) ? 0 : 1;
}
