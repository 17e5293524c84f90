#define _DEFAULT_SOURCE
#include "guard.h"

#include <setjmp.h>
#include <signal.h>
#include <stdio.h>
#include <stdlib.h>
#include <string.h>
#include <sys/mman.h>
#include <unistd.h>

region make_region(size_t octets)
{
    size_t page = (size_t)sysconf(_SC_PAGESIZE);
    region r;
    uint8_t *all;
    r.octets = (octets + page - 1) / page * page;
    all = mmap(NULL, r.octets + 2 * page, PROT_NONE, MAP_PRIVATE | MAP_ANONYMOUS, -1, 0);
    if (all == MAP_FAILED || mprotect(all + page, r.octets, PROT_READ | PROT_WRITE) != 0) {
        perror("compare: no guarded memory");
        exit(2);
    }
    r.from = all + page;
    return r;
}

void *place_in(const region *r, uint32_t against, size_t octets)
{
    return against == AGAINST_START && octets > 0 ? r->from : r->from + r->octets - octets;
}

static sigjmp_buf way_back;
static volatile sig_atomic_t inside;
static const char *running;
static unsigned patience;

static void say(const char *text)
{
    ssize_t written = write(STDERR_FILENO, text, strlen(text));
    (void)written;
}

static void on_fault(int signal)
{
    if (inside && signal != SIGALRM) {
        inside = 0;
        siglongjmp(way_back, 1);
    }
    say(signal == SIGALRM ? "compare: a call does not end: " : "compare: a fault outside the calls: ");
    say(running);
    say("\n");
    _exit(1);
}

void watch_for_faults(const char *what_runs, unsigned seconds)
{
    struct sigaction action;
    running = what_runs;
    patience = seconds;
    memset(&action, 0, sizeof action);
    action.sa_handler = on_fault;
    /* Not held back, since the handler of a fault is left by a jump. */
    action.sa_flags = SA_NODEFER;
    sigemptyset(&action.sa_mask);
    sigaction(SIGSEGV, &action, NULL);
    sigaction(SIGBUS, &action, NULL);
    sigaction(SIGFPE, &action, NULL);
    sigaction(SIGILL, &action, NULL);
    sigaction(SIGALRM, &action, NULL);
}

void wind_the_watch(void) { alarm(patience); }

int unharmed(uint32_t (*make)(const call *), const call *c, uint32_t *number)
{
    if (sigsetjmp(way_back, 0) != 0) {
        return 0;
    }
    inside = 1;
    *number = make(c);
    inside = 0;
    return 1;
}

/* In words, and as a volatile array, so that it is quick and yet done. */
#define PAINTED_WORDS 2048u

void paint_stack(uint8_t octet)
{
    volatile uint64_t below[PAINTED_WORDS];
    for (uint32_t k = 0; k < PAINTED_WORDS; k++) {
        below[k] = 0x0101010101010101u * octet;
    }
    (void)below[0];
}
