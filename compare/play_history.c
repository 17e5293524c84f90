/* Long histories of calls from a start. */
#include "play.h"
#include "service.h"

static void start(play *p)
{
    if (p->going) {
        draw_this_call(&p->d, p->r, START, NONE, new_step(p));
        take_step(p);
    }
}

static void call_of(play *p, uint32_t kind, uint32_t client, uint32_t service, uint32_t characteristic)
{
    step *s = new_step(p);
    if (p->going) {
        draw_this_call(&p->d, p->r, kind, NONE, s);
        s->who = client;
        s->service = service;
        s->what = kind == SUBSCRIBE ? characteristic : s->what;
        take_step(p);
    }
}

/* Clients come and subscribe, many to all there is in either service, and groups are put on. */
void open_desk(play *p)
{
    for (uint32_t client = 0; client < REF_CLIENTS; client++) {
        uint32_t left_out = one_in(&p->d, 2) ? NONE : ONE_OF(&p->d, 1, 2, 3);
        if (one_in(&p->d, 4)) {
            continue;
        }
        call_of(p, CONNECT, client, 0, 0);
        for (uint32_t place = 0; place < PLACES; place++) {
            if (!one_in(&p->d, left_out)) {
                call_of(p, SUBSCRIBE, client, place / SLOTS, slot_at(place % SLOTS));
            }
        }
    }
    for (uint32_t service = 0; service < MCS_SERVICES; service++) {
        if (!one_in(&p->d, 8)) {
            call_of(p, ACTIVATE, 0, service, 0);
        }
    }
}

void start_and_open(play *p)
{
    p->share = FROM_HISTORY;
    start(p);
    if (!one_in(&p->d, 8)) {
        open_desk(p);
    }
}

/* The next piece of a title that a client reads. */
static void read_title(play *p, uint32_t client, uint32_t service, uint32_t offset)
{
    step *s = new_step(p);
    if (p->going) {
        draw_this_call(&p->d, p->r, READ, NONE, s);
        s->who = client;
        s->service = service;
        s->what = MCS_TITLE;
        s->number = offset;
        take_step(p);
    }
}

/* The office lends other titles, also while a client reads one in pieces, which it may then go on with in the new one. */
static void exchange_titles(play *p)
{
    uint32_t client = below(&p->d, MCS_CLIENTS), service = below(&p->d, MCS_SERVICES);
    int reading = one_in(&p->d, 2);
    if (reading) {
        read_title(p, client, service, 0);
    }
    bare_step(p, NEW_TITLES, one_in(&p->d, 4) ? 0 : any_word(&p->d));
    if (reading) {
        read_title(p, client, service, between(&p->d, 1, 4));
    }
}

void play_history(play *p)
{
    uint32_t calls = one_in(&p->d, 8) ? between(&p->d, 2000, 5000) : between(&p->d, 100, 1200), left = 0;
    mood m = random_mood(&p->d, FEW);
    int one_text = one_in(&p->d, 2); /* of the office, in the whole history */
    start_and_open(p);
    for (uint32_t k = 0; k < calls && goes_on(p); k++) {
        if (left == 0) {
            m = random_mood(&p->d, FEW);
            left = between(&p->d, 10, 120);
            if (one_in(&p->d, 8)) {
                go_quiet(p);
            }
        }
        left--;
        if (!one_text && one_in(&p->d, 40)) {
            exchange_titles(p);
        }
        call_in(p, &m);
        expect_standing(p);
        /* After another start nobody is there. */
        if (p->t->steps[p->t->count - 1u].kind == START && p->r->second_said.number == 0) {
            open_desk(p);
        }
    }
    go_quiet(p);
}
