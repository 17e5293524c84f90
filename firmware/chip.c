/* The history on a bare chip: what runs first, how it says something (semihosting, which the emulator answers), and how deep a call
 * goes: the free stack is painted before it, and afterwards the lowest word that is no longer as it was painted is looked for. */
#include "place.h"

/* By the linker script. */
extern uint32_t data_from[], data_start[], data_end[], bss_start[], bss_end[], stack_end[], stack_top[];

#define PAINT 0xA5C3E1F7u

enum { SAY_TEXT = 0x04, STOP = 0x18, STOPPED_AS_IT_SHOULD = 0x20026 };

static void ask_emulator(uint32_t what, uint32_t with)
{
    register uint32_t r0 __asm__("r0") = what;
    register uint32_t r1 __asm__("r1") = with;
    __asm__ volatile("bkpt 0xab" : "+r"(r0) : "r"(r1) : "memory");
}

void say(const char *text) { ask_emulator(SAY_TEXT, (uint32_t)text); }

/* The stack pointer stays where it is in this function: so what lies below it is the call's. */
__attribute__((noinline)) uint32_t made_here(const call *c, uint32_t *deepest)
{
    volatile uint32_t *word, *mine;
    uint32_t number;
    __asm__ volatile("mov %0, sp" : "=r"(mine));
    for (word = stack_end; word < mine; word++) {
        *word = PAINT;
    }
    number = call_library(c);
    for (word = stack_end; word < mine && *word == PAINT; word++) {
    }
    *deepest = (uint32_t)mine - (uint32_t)word;
    return number;
}

static void stop(void)
{
    ask_emulator(STOP, STOPPED_AS_IT_SHOULD);
    for (;;) {
    }
}

static void on_fault(void)
{
    say("a fault\n");
    stop();
}

void reset(void);
void reset(void)
{
    uint32_t *from = data_from, *to;
    for (to = data_start; to < data_end; to++) {
        *to = *from++;
    }
    for (to = bss_start; to < bss_end; to++) {
        *to = 0;
    }
    play_history();
    stop();
}

/* The processor begins with the first two; the others are faults. */
typedef void (*vector)(void);
static const struct {
    uint32_t *stack;
    vector first, faults[14];
} VECTORS __attribute__((section(".vectors"), used)) = {stack_top, reset, {on_fault, on_fault, on_fault, on_fault, on_fault}};
