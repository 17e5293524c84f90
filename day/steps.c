#include "steps.h"

#include <stdio.h>

#include "must.h"
#include "service.h"
#include "titles.h"
#include "values.h"
#include "words.h"

uint32_t steps_of(int32_t number) { return number < 0 ? 0u - (uint32_t)number : (uint32_t)number; }

/* 0x20–0x24 Previous, Next, First, Last, Goto Segment (6–10), 0x30–0x34 the same of Track (11–15), 0x40–0x44 of Group (SCOPE
 * 9.1). */
uint8_t step_opcode(const taught_goto *taught, uint32_t step)
{
    uint8_t first = taught->number > 0 ? MCS_OPCODE_FIRST_SEGMENT : MCS_OPCODE_LAST_SEGMENT;
    uint8_t other = taught->number > 0 ? MCS_OPCODE_NEXT_SEGMENT : MCS_OPCODE_PREVIOUS_SEGMENT;
    return (uint8_t)(taught->opcode - MCS_OPCODE_GOTO_SEGMENT + (step == 1u ? first : other));
}

uint32_t result_of(struct mcs_desk *copy, uint32_t client, uint32_t service, const uint8_t *value, size_t len)
{
    must(mcs_desk_unsubscribe(copy, client, service, MCS_CONTROL_POINT), "unsubscribe");
    must(mcs_desk_subscribe(copy, client, service, MCS_CONTROL_POINT), "subscribe");
    must(mcs_desk_write(copy, client, service, MCS_CONTROL_POINT, value, len), "press");
    return copy->state[MCS_AT_SERVICE(service) + MCS_IN_ACCOUNT(client) + MCS_IN_RESULTS + 1u];
}

struct mcs_goto stand_of(const struct mcs_desk *desk, uint32_t service)
{
    const uint8_t *player = desk->state + MCS_AT_SERVICE(service);
    struct mcs_goto stand = {0, 0, 0, 0, 0, 0};
    stand.group = word_at(player + MCS_IN_GROUP);
    stand.track = word_at(player + MCS_IN_TRACK);
    stand.position = word_at(player + MCS_IN_POSITION);
    stand.rest = word_at(player + MCS_IN_REST);
    return stand;
}

/* What is told where a player is. */
static struct mcs_goto told_of(const struct mcs_desk *desk, uint32_t service, uint32_t outcome, uint32_t steps)
{
    struct mcs_goto told = stand_of(desk, service);
    told.outcome = outcome;
    told.steps = steps;
    return told;
}

struct mcs_goto by_single_steps(const struct mcs_desk *desk, const taught_goto *taught, uint32_t allowed,
                                void (*show)(const single_step *step))
{
    struct mcs_desk copy = *desk;
    const uint32_t service = taught->service, steps = steps_of(taught->number);
    uint32_t k;

    put_word(copy.state + MCS_AT_SERVICE(service) + MCS_IN_NEXT, 0); /* no next track is named */
    for (k = 1; k <= steps; k++) {
        const uint8_t opcode = step_opcode(taught, k);
        single_step step;
        step.of = taught;
        step.number = k;
        step.from = stand_of(&copy, service);
        step.outcome = k <= allowed ? result_of(&copy, taught->client, service, &opcode, 1) : MCS_RAN_OUT;
        step.to = stand_of(&copy, service);
        show(&step);
        if (step.outcome != MCS_RESULT_SUCCESS) { /* nothing moves */
            return told_of(desk, service, step.outcome, k <= allowed ? k : allowed);
        }
    }
    return told_of(&copy, service, MCS_RESULT_SUCCESS, steps);
}

struct mcs_goto by_the_manual(struct mcs_desk *desk, const taught_goto *taught, uint32_t allowed)
{
    struct mcs_goto told = {0, 0, 0, 0, 0, 0};
    must(mcs_desk_goto(desk, taught->service, taught->opcode, taught->number, allowed, &told), "the manual's Goto");
    return told;
}

struct mcs_goto by_the_player(const struct mcs_desk *desk, const taught_goto *taught)
{
    struct mcs_desk copy = *desk;
    uint8_t value[5];
    const uint32_t len = control_value(value, taught->opcode, taught->number);
    const uint32_t result = result_of(&copy, taught->client, taught->service, value, len);
    return told_of(&copy, taught->service, result, 0);
}

int same_end(const struct mcs_goto *one, const struct mcs_goto *other)
{
    return one->outcome == other->outcome && one->group == other->group && one->track == other->track &&
           one->position == other->position && one->rest == other->rest;
}

int same_steps(const struct mcs_goto *one, const struct mcs_goto *other)
{
    return one->steps == other->steps && same_end(one, other);
}

const char *why_not_made(uint32_t outcome) { return outcome == MCS_RAN_OUT ? "is not allowed any more" : "cannot be made"; }

void print_stand(const struct mcs_catalogue *c, const struct mcs_goto *at)
{
    printf("group %u, track %u", at->group, at->track);
    if (at->track < c->tracks_len / MCS_TRACK_WORDS) { /* as every track is, unless what is told is wrong */
        struct mcs_title title = title_due(c, at->track);
        putchar(' ');
        print_value(stdout, MCS_TITLE, title.octets, title.length);
    }
    printf(", at ");
    print_position(stdout, at->position, at->rest);
}

void print_told(const struct mcs_catalogue *c, const struct mcs_goto *told)
{
    printf("%s, %u step%s; the player would %s in ", mcs_outcome_words(told->outcome), told->steps,
           told->steps == 1u ? "" : "s", told->outcome == MCS_RESULT_SUCCESS ? "be" : "stay");
    print_stand(c, told);
}
