/* A Goto as trainers teach it (SCOPE 15.1): First or Last, and then each Next or Previous. Each of these steps is written by
 * itself to the control point of a copy of the desk, so that the desk stays as it is. */
#ifndef STEPS_H
#define STEPS_H

#include "mcs_desk.h"

/* A Goto of a service's player by a client, which is connected and encrypted. */
typedef struct {
    uint32_t client, service;
    uint8_t opcode; /* one of the three */
    int32_t number;
} taught_goto;

/* How many steps it is, First or Last counted: |n|, which 32 bits hold for the least number too. */
uint32_t steps_of(int32_t number);

/* The opcode of one of its steps, which are counted from 1. */
uint8_t step_opcode(const taught_goto *taught, uint32_t step);

/* A step: its result, or MCS_RAN_OUT where it is not allowed any more, and so not written; and the places before and behind it. */
typedef struct {
    const taught_goto *of;
    uint32_t number, outcome;
    struct mcs_goto from, to;
} single_step;

/* What is told of it where it is made by single steps, up to so many, each of which is shown. A named next track is not used:
 * Goto's steps use no named track (SCOPE 11.8). Of number 0 there is no step, and nothing moves. */
struct mcs_goto by_single_steps(const struct mcs_desk *desk, const taught_goto *taught, uint32_t allowed,
                                void (*show)(const single_step *step));

/* What the manual's Goto tells of it. */
struct mcs_goto by_the_manual(struct mcs_desk *desk, const taught_goto *taught, uint32_t allowed);

/* The same of the player's own Goto, on a copy of the desk: its result and its place. It counts no steps, and 0 stands for them. */
struct mcs_goto by_the_player(const struct mcs_desk *desk, const taught_goto *taught);

/* Whether two have the same outcome and place; and the same steps as well. */
int same_end(const struct mcs_goto *one, const struct mcs_goto *other);
int same_steps(const struct mcs_goto *one, const struct mcs_goto *other);

/* Writes to the control point of a copy of a desk, in which no other result of the client waits then. The result. */
uint32_t result_of(struct mcs_desk *copy, uint32_t client, uint32_t service, const uint8_t *value, size_t len);

/* Where a player is. There is no Goto: its outcome and its steps are 0. */
struct mcs_goto stand_of(const struct mcs_desk *desk, uint32_t service);

/* In words: behind a step's opcode, why it was not made; a place; and what is told of a Goto. None of them ends a sentence. */
const char *why_not_made(uint32_t outcome);
void print_stand(const struct mcs_catalogue *c, const struct mcs_goto *at);
void print_told(const struct mcs_catalogue *c, const struct mcs_goto *told);

#endif
