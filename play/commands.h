/* What the person's keys do: those of all devices, and those of the device in hand. */
#ifndef COMMANDS_H
#define COMMANDS_H

#include "person.h"

/* Keys that are the same whichever device is in hand, in the order in which they are shown; NULL behind the last. */
typedef struct {
    int key;
    const char *shown, *words;
} command;

const command *command_at(size_t place);

/* What is asked for where a number is typed. */
const char *prompt_words(const person *user);

/* Does what a key says. What it may have the program do besides: save the state, restore it, or end. */
typedef enum { GO_ON, SAVE, RESTORE, SAVE_AND_END, END } wish;
wish obey(person *user, int key);

#endif
