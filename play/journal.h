/* What has happened, line by line, and what is said to the person now. */
#ifndef JOURNAL_H
#define JOURNAL_H

#include <stdint.h>

typedef enum { DEED, TAKE_OUT, REFUSAL } happening;

/* Whose line it is: a device's, or the desk's own; and of which service, or of none. */
#define THE_DESK 4u
#define NO_SERVICE 2u

typedef struct {
    happening kind;
    uint32_t who, service;
    uint32_t take; /* takes are counted from 1 */
    char text[240];
} line;

void note(happening kind, uint32_t who, uint32_t service, const char *format, ...) __attribute__((format(printf, 4, 5)));

/* The newest line is 0; NULL where there is none so far back. */
const line *noted(uint32_t back);

/* What stands in the line of messages until something else is said; and the message, empty where there is none. */
void say(int is_refusal, const char *format, ...) __attribute__((format(printf, 2, 3)));
const char *said(int *is_refusal);

#endif
