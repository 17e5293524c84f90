#include "journal.h"

#include <stdarg.h>
#include <stddef.h>
#include <stdio.h>

#define MOST_LINES 256u

static line lines[MOST_LINES];
static uint32_t count; /* of all that were noted; the oldest ones are written over */
static uint32_t takes;

static char message[240];
static int message_is_refusal;

void note(happening kind, uint32_t who, uint32_t service, const char *format, ...)
{
    line *to = &lines[count % MOST_LINES];
    va_list values;
    to->kind = kind;
    to->who = who;
    to->service = service;
    takes += kind == TAKE_OUT ? 1u : 0u;
    to->take = takes;
    va_start(values, format);
    vsnprintf(to->text, sizeof to->text, format, values);
    va_end(values);
    count++;
}

const line *noted(uint32_t back) { return back < count && back < MOST_LINES ? &lines[(count - 1u - back) % MOST_LINES] : NULL; }

void say(int is_refusal, const char *format, ...)
{
    va_list values;
    va_start(values, format);
    vsnprintf(message, sizeof message, format, values);
    va_end(values);
    message_is_refusal = is_refusal;
}

const char *said(int *is_refusal)
{
    *is_refusal = message_is_refusal;
    return message;
}
