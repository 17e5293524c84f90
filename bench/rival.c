/* This file, second/ref.c and harness/state.c are compiled once by gcc and once by clang; the second time with other names for their
 * functions, and with RIVAL for these two. */
#include "rival.h"
#include "state.h"
#include "words.h"

#ifndef RIVAL
#define RIVAL(name) gcc_##name
#endif

#define MAKE RIVAL(call)
#define PROGRAM(name) ref_##name
#include "calls.inc"

uint32_t RIVAL(lent_call)(const call *c)
{
    ref_state state;
    call on_struct = *c;
    uint32_t number;
    on_struct.state = &state;
    if (has_state(c->kind) && c->kind != START) {
        state_of_octets(c->state, &state);
    }
    number = RIVAL(call)(&on_struct);
    if (number == 0 && may_alter_state(c->kind)) {
        octets_of_state(&state, c->state);
    }
    return number;
}
