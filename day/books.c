#include "books.h"

#include <stdio.h>
#include <string.h>

#include "devices.h"
#include "lines.h"

#define MOST_OPEN 64u

/* A device at a player. */
typedef struct {
    open_press open[MOST_OPEN]; /* oldest first */
    uint32_t open_count;
    uint32_t pressed, refused, unasked, results, dropped, missing, told;
    uint32_t wrong; /* results that were not those of the device's oldest press */
    int subscribed[CHARACTERISTIC_BOUND];
    known_value known[CHARACTERISTIC_BOUND];
} page;

static page pages[MCS_CLIENTS][MCS_SERVICES];

/* What is counted of all together, and how often it was wrong. */
typedef struct {
    uint32_t all, wrong;
} tally;
static tally calls, takes, runs, agreements, pairs, places, titles, folders, nexts, gotos;

static int count(tally *t, int right)
{
    t->all += 1u;
    t->wrong += right ? 0u : 1u;
    return right;
}

/* ---- Presses and results */

uint32_t book_press(uint32_t who, uint32_t service, uint8_t opcode, int accepted)
{
    page *p = &pages[who][service];
    p->pressed += 1u;
    if (!accepted) {
        p->refused += 1u;
    } else if (!wants(who, service, MCS_CONTROL_POINT)) {
        p->unasked += 1u;
    } else if (p->open_count == MOST_OPEN) {
        p->missing += 1u; /* the desk took more presses than it keeps results */
    } else {
        p->open[p->open_count].number = p->pressed;
        p->open[p->open_count].opcode = opcode;
        p->open_count += 1u;
    }
    return p->pressed;
}

open_press oldest_press(uint32_t who, uint32_t service)
{
    static const open_press NONE = {0, 0};
    return pages[who][service].open_count > 0 ? pages[who][service].open[0] : NONE;
}

int book_result(uint32_t who, uint32_t service, uint8_t opcode)
{
    page *p = &pages[who][service];
    uint32_t k;
    p->results += 1u;
    if (p->open_count == 0 || p->open[0].opcode != opcode) {
        p->wrong += 1u;
        return 0;
    }
    p->open_count -= 1u;
    for (k = 0; k < p->open_count; k++) {
        p->open[k] = p->open[k + 1u];
    }
    return 1;
}

/* ---- What is known */

static const known_value NOTHING_KNOWN;

void book_subscribed(uint32_t who, uint32_t service, uint32_t characteristic)
{
    pages[who][service].subscribed[characteristic] = 1;
    pages[who][service].known[characteristic] = NOTHING_KNOWN;
}

void book_changed(uint32_t service, uint32_t characteristic)
{
    uint32_t who;
    for (who = 0; who < MCS_CLIENTS; who++) {
        pages[who][service].known[characteristic].changed = pages[who][service].subscribed[characteristic];
    }
}

void book_value(uint32_t who, uint32_t service, uint32_t characteristic, known_by by, const uint8_t *octets, uint32_t length)
{
    known_value *known = &pages[who][service].known[characteristic];
    if (pages[who][service].subscribed[characteristic]) {
        known->by = by;
        known->length = length;
        memcpy(known->octets, octets, length);
    }
}

uint32_t a_subscriber(uint32_t service, uint32_t characteristic)
{
    uint32_t who = 0;
    while (who < MCS_CLIENTS && !pages[who][service].subscribed[characteristic]) {
        who++;
    }
    return who;
}

const known_value *value_known(uint32_t who, uint32_t service, uint32_t characteristic)
{
    return &pages[who][service].known[characteristic];
}

void book_lent(void)
{
    uint32_t who, service;
    for (who = 0; who < MCS_CLIENTS; who++) {
        for (service = 0; service < MCS_SERVICES; service++) {
            pages[who][service].known[MCS_TITLE] = NOTHING_KNOWN;
        }
    }
}

int book_quiet(int right) { return count(&runs, right); }
int book_agreement(int right) { return count(&agreements, right); }
int book_alike(int right) { return count(&pairs, right); }
int book_title(int right) { return count(&titles, right); }
int book_folder(int right) { return count(&folders, right); }
int book_next(int right) { return count(&nexts, right); }
int book_goto(int right) { return count(&gotos, right); }

/* ---- Where the tapes are */

static tape_place tapes[MCS_SERVICES];

void book_tape(uint32_t service, tape_place place) { tapes[service] = place; }
tape_place tape_booked(uint32_t service) { return tapes[service]; }
int book_place(int right) { return count(&places, right); }

/* ---- Coming and going, and the round of the takes */

/* The device that was served last, and of each the place: after start the round begins with device 0, and when a device comes,
 * with the lowest slot of the generic player. */
static uint32_t turn = MCS_CLIENTS - 1u;
static uint32_t mark[MCS_CLIENTS];

void book_join(uint32_t who) { mark[who] = PLACES - 1u; }

void book_leave(uint32_t who, const uint32_t held[MCS_SERVICES])
{
    uint32_t service;
    for (service = 0; service < MCS_SERVICES; service++) {
        page *p = &pages[who][service];
        /* What the desk held is dropped, as it should be. A result that it did not hold got lost before. */
        p->dropped += held[service];
        p->missing += p->open_count > held[service] ? p->open_count - held[service] : 0;
        p->open_count = 0;
        memset(p->subscribed, 0, sizeof p->subscribed);
        memset(p->known, 0, sizeof p->known);
    }
}

/* The first bit of a set behind a place, round so many; the place itself where there is none. */
static uint32_t next_after(uint32_t set, uint32_t place, uint32_t round)
{
    uint32_t next = (place + 1u) % round;
    while (next != place && (set >> next & 1u) == 0) {
        next = (next + 1u) % round;
    }
    return next;
}

int book_take(const uint32_t owed[MCS_CLIENTS], uint32_t who, uint32_t place, int left_alone)
{
    uint32_t k, waiting = 0;
    int right;
    for (k = 0; k < MCS_CLIENTS; k++) {
        waiting |= owed[k] != 0 ? 1u << k : 0;
    }
    right = (owed[who] >> place & 1u) != 0 && who == next_after(waiting, turn, MCS_CLIENTS) &&
            place == next_after(owed[who], mark[who], PLACES);
    turn = who;
    mark[who] = place;
    pages[who][place / SLOTS].told += 1u;
    return count(&takes, right && left_alone);
}

int book_call(int right) { return count(&calls, right); }

/* ---- At the end of the day */

/* A line on what was counted of all together. How often it was wrong. */
static uint32_t print_tally(const char *what, const tally *t, const char *right)
{
    printf("%u %s: ", t->all, what);
    if (t->wrong > 0) {
        printf("%u WENT WRONG\n", t->wrong);
    } else {
        printf("%s\n", right);
    }
    return t->wrong;
}

static uint32_t print_page(uint32_t who, uint32_t service)
{
    const page *p = &pages[who][service];
    /* Nothing is owed by now: a press without its result is as wrong as a result without its press. */
    uint32_t missing = p->missing + p->open_count;
    print_device(who, 14);
    print_player(service, 9);
    printf("%9u%9u%11u%9u%9u%9u%13u", p->pressed, p->refused, p->unasked, p->results, p->dropped, missing, p->told);
    if (p->wrong + missing > 0) {
        paint(RED);
        printf("  WRONG");
    } else if (p->results > 0) {
        printf("  own presses, in order");
    }
    end_line();
    return p->wrong + missing;
}

int print_books(void)
{
    uint32_t who, service, pressed = 0, results = 0, dropped = 0, wrong = 0, others;
    putchar('\n');
    paint(BOLD);
    printf("%-14s%-9s%9s%9s%11s%9s%9s%9s%13s", "The books", "player", "pressed", "refused", "not asked", "results", "dropped",
           "missing", "told in all");
    end_line();
    for (who = 0; who < MCS_CLIENTS; who++) {
        for (service = 0; service < MCS_SERVICES; service++) {
            const page *p = &pages[who][service];
            if (follows(who, service) || p->pressed + p->results + p->told > 0) {
                wrong += print_page(who, service);
            }
            pressed += p->pressed;
            results += p->results;
            dropped += p->dropped;
        }
    }
    putchar('\n');
    others = print_tally("calls to one player", &calls,
                         "the other, and what it owed, was the same after each, and the title was owed where it changed");
    others += print_tally("takes", &takes, "each to the device and of the slot whose turn it was, through both players");
    others += print_tally("runs of takes", &runs,
                          "after each nothing was owed, and it had as many takes as there were things owed before it");
    others += print_tally("values compared when nothing was owed", &agreements,
                          "what the device was last told, or itself wrote, was what its player had");
    others += print_tally("values of a player that two devices show, compared then", &pairs, "both showed the same");
    others += print_tally("places of a tape", &places,
                          "each where the clock on the wall, the speed and what was pressed have it, with nothing lost");
    others += print_tally("titles told, read or asked for", &titles,
                          "each the office's where it lent one for the track, else the card's; what was cut was refused");
    others += print_tally("folders drawn", &folders, "each with the folders and tracks that the catalogue has in it");
    others +=
        print_tally("times Next Track", &nexts, "each led to the track that the next one's object number said, or nowhere");
    others += print_tally("Gotos taught by single steps", &gotos,
                          "each with as many steps as the manual's Goto counts, and the player's own led where both say");
    printf("%u presses, %u results: ", pressed, results);
    if (wrong > 0) {
        printf("%u WENT WRONG\n", wrong);
    } else {
        printf("each went to the device that pressed, from the player where it pressed, in the order of its presses; "
               "%u dropped with a connection\n",
               dropped);
    }
    return wrong + others == 0;
}
