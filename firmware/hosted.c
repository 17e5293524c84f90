/* The history in a program of the machine. */
#include "place.h"

#include <stdio.h>

void say(const char *text) { fputs(text, stdout); }

uint32_t made_here(const call *c, uint32_t *deepest)
{
    *deepest = 0;
    return call_library(c);
}

int main(void)
{
    play_history();
    return 0;
}
