/* Lent buffers that lie against pages that may not be touched, the fault of a program that touches one, and the stack. */
#ifndef GUARD_H
#define GUARD_H

#include "calls.h"

typedef struct {
    uint8_t *from;
    size_t octets; /* whole pages; the page before them and the page behind them are barred */
} region;

/* Which barred page a buffer touches. */
enum { AGAINST_END, AGAINST_START };

/* A region of at least that many octets. */
region make_region(size_t octets);

/* Where a buffer of that many octets lies in it. One of no octets lies at the barred page. */
void *place_in(const region *r, uint32_t against, size_t octets);

/* From now on a fault inside `unharmed` comes back from it, and any other one, or a trial of over `seconds`, ends the
 * program with `what_runs`. */
void watch_for_faults(const char *what_runs, unsigned seconds);

/* A new trial has begun. */
void wind_the_watch(void);

/* Whether the call ended without a fault; then its number. */
int unharmed(uint32_t (*make)(const call *), const call *c, uint32_t *number);

/* Fills the stack below the caller with an octet, far deeper than a call reaches. What a call then leaves may not depend on
 * which octet it was. */
void paint_stack(uint8_t octet);

#endif
