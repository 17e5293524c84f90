#include "quiet.h"
#include "titles.h"
#include "words.h"

#include <stdio.h>
#include <string.h>

int is_claimed(uint32_t characteristic) { return characteristic != MCS_POSITION && characteristic != MCS_CONTROL_POINT; }

void stop_following(run *r)
{
    for (uint32_t program = 0; program < PROGRAMS; program++) {
        screens *k = &r->shown[program];
        k->following = k->taking = k->quiet = 0;
    }
}

/* ---- The state of either program */

/* One of the two is a null pointer. */
typedef struct {
    const uint8_t *octets;
    const ref_state *second;
} state_seen;

static state_seen state_before(const run *r, uint32_t program)
{
    return program == OF_LIBRARY ? (state_seen){r->octets_before, NULL} : (state_seen){NULL, &r->before};
}

static state_seen state_after(const run *r, uint32_t program)
{
    return program == OF_LIBRARY ? (state_seen){r->octets, NULL} : (state_seen){NULL, &r->second};
}

static int same_state(const state_seen *one, const state_seen *other)
{
    return one->octets != NULL ? memcmp(one->octets, other->octets, MCS_STATE_OCTETS) == 0
                               : memcmp(one->second, other->second, sizeof *one->second) == 0;
}

/* Whether no octet of a service's player differs. */
static int same_player(const state_seen *one, const state_seen *other, uint32_t service)
{
    uint32_t at = MCS_AT_SERVICE(service);
    return one->octets != NULL ? memcmp(one->octets + at, other->octets + at, MCS_IN_ACCOUNT(0)) == 0
                               : memcmp(&one->second->services[service].player, &other->second->services[service].player,
                                        sizeof(ref_player)) == 0;
}

static uint32_t owed_in(const state_seen *x, uint32_t service, uint32_t client)
{
    return x->octets != NULL ? word_at(x->octets + MCS_AT_SERVICE(service) + MCS_IN_ACCOUNT(client) + MCS_IN_OWED)
                             : x->second->services[service].accounts[client].owed;
}

static uint32_t waiting_in(const state_seen *x, uint32_t service, uint32_t client)
{
    return x->octets != NULL ? word_at(x->octets + MCS_AT_SERVICE(service) + MCS_IN_ACCOUNT(client) + MCS_IN_WAITING)
                             : x->second->services[service].accounts[client].waiting;
}

/* ---- Values, of which each depends on nothing but these and what is lent */

typedef struct {
    standing p;
    const uint8_t *name;
    uint32_t name_length;
} look;

static look look_at(const state_seen *x, uint32_t service)
{
    look l;
    if (x->octets != NULL) {
        const uint8_t *player = x->octets + MCS_AT_SERVICE(service);
        l.p = standing_in(x->octets, service);
        l.name = player + MCS_IN_NAME;
        l.name_length = player[MCS_IN_NAME_LENGTH];
    } else {
        const ref_player *p = &x->second->services[service].player;
        l.p = (standing){.media = p->media,
                         .order = p->order,
                         .mask = p->mask,
                         .group = p->group,
                         .track = p->track,
                         .position = p->position,
                         .next = p->next,
                         .rest = p->rest,
                         .speed = p->speed,
                         .seeking = p->seeking};
        l.name = p->name;
        l.name_length = p->name_len;
    }
    return l;
}

/* The values: 1 and 5 are text, 4 is empty; 6, 7 and 19 have four octets, 11 to 14 six or none, the others one (SCOPE 16.1).
 * While Inactive duration and position read −1, and so does a duration that is not yet known (SCOPE 16.4). */
static uint32_t value_of(const tables *t, const look *l, uint32_t characteristic, uint8_t octets[MCS_OUTPUT_OCTETS])
{
    const standing *p = &l->p;
    uint64_t object;
    part title;
    switch (characteristic) {
    case MCS_NAME:
        memcpy(octets, l->name, l->name_length);
        return l->name_length;
    case MCS_TRACK_CHANGED:
        return 0;
    case MCS_TITLE:
        title = part_shown(t, p);
        memcpy(octets, octets_of_part(t, &title), title.length);
        return title.length;
    case MCS_DURATION:
        put_word(octets, p->media == MCS_INACTIVE ? 0xFFFFFFFFu : track_word(t, p->track, DURATION));
        return 4;
    case MCS_POSITION:
        put_word(octets, p->media == MCS_INACTIVE ? 0xFFFFFFFFu : p->position);
        return 4;
    case MCS_PLAYBACK_SPEED:
        octets[0] = (uint8_t)p->speed;
        return 1;
    case MCS_SEEKING_SPEED:
        octets[0] = (uint8_t)p->seeking;
        return 1;
    case MCS_PLAYING_ORDER:
        octets[0] = (uint8_t)p->order;
        return 1;
    case MCS_MEDIA_STATE:
        octets[0] = (uint8_t)p->media;
        return 1;
    default:
        object = object_of(t, p, characteristic);
        mcs_put_object(octets, object);
        return object == NO_OBJECT ? 0 : MCS_OBJECT_OCTETS;
    }
}

uint32_t present_value(const run *r, uint32_t service, uint32_t characteristic, uint8_t octets[MCS_OUTPUT_OCTETS])
{
    state_seen now = state_after(r, OF_LIBRARY);
    look l = look_at(&now, service);
    return value_of(&r->lent, &l, characteristic, octets);
}

/* 4 and 7 are owed whenever the track number changes, to or from none too (SCOPE 18.2). */
static uint64_t track_number(const standing *p) { return p->media == MCS_INACTIVE ? NO_OBJECT : p->track; }

/* All that the numbers of objects depend on, of which the next track's takes long to find. */
static int same_objects(const standing *was, const standing *is)
{
    return !ends_elsewhere(was, is) && was->order == is->order && was->next == is->next;
}

static int has_changed(const tables *t, const look *was, const look *is, uint32_t characteristic)
{
    uint8_t before[MCS_OUTPUT_OCTETS], after[MCS_OUTPUT_OCTETS];
    uint32_t length;
    if (characteristic == MCS_TRACK_CHANGED) {
        return track_number(&was->p) != track_number(&is->p);
    }
    if (has_object(characteristic) && same_objects(&was->p, &is->p)) {
        return 0;
    }
    length = value_of(t, was, characteristic, before);
    return value_of(t, is, characteristic, after) != length || memcmp(before, after, length) != 0;
}

static int is_somewhere(const tables *t, const look *l)
{
    return l->name_length <= MCS_OUTPUT_OCTETS &&
           (l->p.media == MCS_INACTIVE || (l->p.group < group_count(t) && l->p.track < track_count(t)));
}

/* ---- Once only takes with enough room are called, after at most 168 takes nothing more is owed (SCOPE 21.11). */

static uint32_t owed_to_all(const state_seen *x)
{
    uint32_t all = 0;
    for (uint32_t k = 0; k < MCS_SERVICES * MCS_CLIENTS; k++) {
        uint32_t service = k / MCS_CLIENTS, client = k % MCS_CLIENTS, owed = owed_in(x, service, client);
        for (uint32_t bit = 0; bit < SLOTS; bit++) {
            all += slot_at(bit) != MCS_CONTROL_POINT ? owed >> bit & 1u : 0;
        }
        all += waiting_in(x, service, client);
    }
    return all;
}

uint32_t all_owed(const uint8_t state[MCS_STATE_OCTETS])
{
    state_seen now = {state, NULL};
    return owed_to_all(&now);
}

/* Each take that serves leaves one thing less owed; one that serves nothing comes when all are handed out, and changes nothing. */
static const char *wrong_take(screens *k, const answer *a, const state_seen *before, const state_seen *after)
{
    uint32_t owed = owed_to_all(before);
    if (!k->taking) {
        k->takes = 0;
        k->owed_then = owed;
    }
    if (a->served[SERVED_CHARACTERISTIC] == MCS_NOTHING) {
        if (k->takes != k->owed_then || owed != 0) {
            return "takes end before, or behind, as many as were owed when they began";
        }
        return same_state(before, after) ? NULL : "a take alters something where nothing is owed";
    }
    k->takes++;
    if (k->takes > MOST_TAKES) {
        return "more is handed out by takes alone than can be owed";
    }
    return owed_to_all(after) == k->owed_then - k->takes ? NULL : "a take leaves more or less owed than one thing fewer";
}

/* ---- A client knows what it last took, or itself wrote with success since (SCOPE 21.12) */

knowledge *known_of(screens *k, uint32_t client, uint32_t service, uint32_t characteristic)
{
    return &k->of[client][service * (uint32_t)SLOTS + bit_of(characteristic)];
}

static void learn(knowledge *n, uint32_t by, const uint8_t *octets, uint32_t length)
{
    n->by = (uint8_t)by;
    n->length = length;
    memcpy(n->octets, octets, length < sizeof n->octets ? length : sizeof n->octets);
}

/* What changed since subscribing counts (SCOPE 21.12): from the call on before which the client was not subscribed. */
static void subscribe(knowledge *n)
{
    if (!n->subscribed) {
        n->subscribed = 1;
        n->changed = n->by = 0;
    }
}

static void unsubscribe(knowledge *n)
{
    n->again |= n->subscribed;
    n->subscribed = 0;
}

void forget_titles(run *r)
{
    for (uint32_t k = 0; k < PROGRAMS * MCS_CLIENTS * MCS_SERVICES; k++) {
        knowledge *n = known_of(&r->shown[k % PROGRAMS], k / PROGRAMS % MCS_CLIENTS, k / PROGRAMS / MCS_CLIENTS, MCS_TITLE);
        n->changed = n->by = 0;
    }
}

/* What a take hands out; a result is no value. */
static const char *learn_by_take(screens *k, const answer *a)
{
    uint32_t client = a->served[SERVED_CLIENT], service = a->served[SERVED_SERVICE], what = a->served[SERVED_CHARACTERISTIC];
    uint32_t length = a->served[SERVED_LENGTH];
    knowledge *n;
    k->known_already = NOT_KNOWN;
    if (what == MCS_NOTHING) {
        return NULL;
    }
    if (client >= MCS_CLIENTS || service >= MCS_SERVICES || bit_of(what) == SLOTS || length > MCS_OUTPUT_OCTETS) {
        return "a take serves what there is not";
    }
    n = known_of(k, client, service, what);
    if (!n->subscribed) {
        return "a take serves a client that is not subscribed";
    }
    if (is_claimed(what)) {
        k->known_already =
            n->by != NOT_KNOWN && n->length == length && memcmp(n->octets, a->out, length) == 0 ? n->by : NOT_KNOWN;
        learn(n, BY_TAKE, a->out, length);
    }
    return NULL;
}

/* What an accepted call of a client, or a take, tells or makes forget. */
static const char *follow_client(screens *k, const step *s, const answer *a)
{
    switch (s->kind) {
    case CONNECT:
    case DISCONNECT:
        memset(k->of[s->who], 0, sizeof k->of[s->who]);
        k->mtu[s->who] = s->kind == CONNECT ? s->number : 0;
        k->connections[s->who] += s->kind == CONNECT;
        return NULL;
    case SUBSCRIBE:
        subscribe(known_of(k, s->who, s->service, s->what));
        return NULL;
    case UNSUBSCRIBE:
        unsubscribe(known_of(k, s->who, s->service, s->what));
        return NULL;
    case WRITE:
        if (is_claimed(s->what) && known_of(k, s->who, s->service, s->what)->subscribed) {
            learn(known_of(k, s->who, s->service, s->what), BY_WRITE, s->octets, s->length);
        }
        return NULL;
    case TAKE:
        return learn_by_take(k, a);
    default:
        return NULL;
    }
}

/* ---- What is known is the present value as far as ATT_MTU − 3 reaches (SCOPE 21.12) */

static const char *wrong_knowledge(const knowledge *n, const uint8_t *value, uint32_t length, uint32_t mtu)
{
    uint32_t reach = mtu - 3u;
    if (n->by == NOT_KNOWN) {
        return "the value has changed, and the client has neither taken nor written it";
    }
    if (n->length == (length < reach ? length : reach) && memcmp(n->octets, value, n->length) == 0) {
        return NULL;
    }
    return n->by == BY_TAKE ? "what the client last took is not the present value"
                            : "what the client last wrote is not the present value";
}

static const char *said_of(uint32_t client, uint32_t place, const char *wrong)
{
    static char text[160];
    snprintf(text, sizeof text, "client %u, service %u, characteristic %u: %s", (unsigned)client, (unsigned)(place / SLOTS),
             (unsigned)slot_at(place % SLOTS), wrong);
    return text;
}

/* Of those of a set of clients that are subscribed to a slot which changed since. */
static const char *wrong_slot(const screens *k, uint32_t place, uint32_t clients, const uint8_t *value, uint32_t length)
{
    for (uint32_t client = 0; client < MCS_CLIENTS; client++) {
        const knowledge *n = &k->of[client][place];
        const char *wrong = NULL;
        if ((clients >> client & 1u) != 0 && n->subscribed && n->changed) {
            wrong = wrong_knowledge(n, value, length, k->mtu[client]);
        }
        if (wrong != NULL) {
            return said_of(client, place, wrong);
        }
    }
    return NULL;
}

/* Whether anyone of a set of clients is to know a slot. */
static int is_asked(const screens *k, uint32_t place, uint32_t clients)
{
    for (uint32_t client = 0; client < MCS_CLIENTS; client++) {
        if ((clients >> client & 1u) != 0 && k->of[client][place].subscribed && k->of[client][place].changed) {
            return is_claimed(slot_at(place % SLOTS));
        }
    }
    return 0;
}

#define ALL_CLIENTS ((1u << MCS_CLIENTS) - 1u)

/* The clients to whom a slot is not owed. */
static uint32_t not_owed(const state_seen *x, uint32_t place)
{
    uint32_t clients = 0;
    for (uint32_t client = 0; client < MCS_CLIENTS; client++) {
        clients |= (owed_in(x, place / SLOTS, client) >> place % SLOTS & 1u) == 0 ? 1u << client : 0;
    }
    return clients;
}

/* ---- All of it */

/* The slots of a service that the call has changed, as bits. */
static uint32_t changed_slots(const tables *t, const state_seen *before, const state_seen *after, uint32_t service)
{
    look was = look_at(before, service), is = look_at(after, service);
    uint32_t slots = 0;
    for (uint32_t bit = 0; bit < SLOTS; bit++) {
        uint32_t characteristic = slot_at(bit);
        slots |= is_claimed(characteristic) && has_changed(t, &was, &is, characteristic) ? 1u << bit : 0;
    }
    return slots;
}

static void note_changes(screens *k, uint32_t service, uint32_t slots)
{
    for (uint32_t n = 0; n < MCS_CLIENTS * SLOTS; n++) {
        uint32_t bit = n % SLOTS;
        if ((slots >> bit & 1u) != 0 && k->of[n / SLOTS][service * (uint32_t)SLOTS + bit].subscribed) {
            k->of[n / SLOTS][service * (uint32_t)SLOTS + bit].changed = 1;
        }
    }
}

/* A slot that is not owed is known at any time, so that it is looked at where it has changed, and where it is taken or written.
 * When nothing is owed to anyone, all are. */
static uint32_t slots_to_ask(const screens *k, const step *s, const answer *a, uint32_t service, uint32_t changed)
{
    if (k->quiet) {
        return (1u << SLOTS) - 1u;
    }
    if (s->kind == WRITE && s->service == service) {
        changed |= 1u << bit_of(s->what);
    }
    if (s->kind == TAKE && a->served[SERVED_SERVICE] == service) {
        changed |= 1u << bit_of(a->served[SERVED_CHARACTERISTIC]);
    }
    return changed;
}

static const char *wrong_service_screens(screens *k, const tables *t, const step *s, const answer *a, const state_seen *before,
                                         const state_seen *after, uint32_t service)
{
    int same = same_player(before, after, service);
    look l = look_at(after, service);
    uint32_t changed = 0, slots;
    const char *wrong = NULL;
    if (!is_somewhere(t, &l)) {
        return "a player is left where there is no group or track";
    }
    if (!same) {
        changed = changed_slots(t, before, after, service);
        note_changes(k, service, changed);
    }
    slots = slots_to_ask(k, s, a, service, changed);
    for (uint32_t bit = 0; bit < SLOTS && slots != 0 && wrong == NULL; bit++) {
        uint32_t place = service * (uint32_t)SLOTS + bit, clients = k->quiet ? ALL_CLIENTS : not_owed(after, place);
        if ((slots >> bit & 1u) != 0 && is_asked(k, place, clients)) {
            uint8_t value[MCS_OUTPUT_OCTETS];
            uint32_t length = value_of(t, &l, slot_at(bit), value);
            wrong = wrong_slot(k, place, clients, value, length);
        }
    }
    return wrong;
}

const char *wrong_screens(run *r, uint32_t program, const step *s)
{
    screens *k = &r->shown[program];
    const answer *a = program == OF_LIBRARY ? &r->library_said : &r->second_said;
    state_seen before = state_before(r, program), after = state_after(r, program);
    int takes = a->number == MCS_OK && s->kind == TAKE;
    const char *wrong = takes ? wrong_take(k, a, &before, &after) : NULL;
    k->taking = takes;
    k->quiet = takes && a->served[SERVED_CHARACTERISTIC] == MCS_NOTHING;
    if (a->number == MCS_OK && s->kind == START) {
        memset(k, 0, sizeof *k);
        k->following = 1;
        return NULL;
    }
    if (wrong != NULL || a->number != MCS_OK || !k->following) {
        return wrong;
    }
    wrong = follow_client(k, s, a);
    for (uint32_t service = 0; service < MCS_SERVICES && wrong == NULL; service++) {
        wrong = wrong_service_screens(k, &r->lent, s, a, &before, &after, service);
    }
    return wrong;
}

/* ---- By the program's own reads, on a copy of the state, of a client that is connected with the longest ATT_MTU there */

enum { READER = 0, LONGEST_MTU = 517 };

static uint32_t ask(uint32_t program, call *c, uint32_t kind)
{
    c->kind = kind;
    return program == OF_LIBRARY ? call_library(c) : call_second(c);
}

/* Whether the reader has come, in the place of whoever was there. */
static int admit_reader(const screens *k, uint32_t program, call *c)
{
    c->who = READER;
    if (k->mtu[READER] != 0 && ask(program, c, DISCONNECT) != MCS_OK) {
        return 0;
    }
    c->number = LONGEST_MTU;
    c->what = 1;
    return ask(program, c, CONNECT) == MCS_OK;
}

/* Of Track Changed, which cannot be read, it is known that it is empty. */
static const char *unlike_read(const screens *k, uint32_t program, call *c, uint32_t place)
{
    uint32_t none = 0, *length = c->word;
    c->service = place / SLOTS;
    c->what = slot_at(place % SLOTS);
    c->number = 0;
    if (c->what == MCS_TRACK_CHANGED) {
        length = &none;
    } else if (ask(program, c, READ) != MCS_OK) {
        return said_of(READER, place, "the value cannot be read");
    }
    return wrong_slot(k, place, ALL_CLIENTS, c->out, *length);
}

const char *unlike_reads(const run *r, uint32_t program)
{
    static uint8_t octets[MCS_STATE_OCTETS], value[MCS_OUTPUT_OCTETS];
    static ref_state second;
    const screens *k = &r->shown[program];
    uint32_t length, track, octet;
    call c = {.catalogue = lent(&r->lent),
              .titles = lent_titles(&r->lent),
              .out = value,
              .out_len = sizeof value,
              .word = &length,
              .track = &track,
              .octet = &octet,
              .state = program == OF_LIBRARY ? (void *)octets : (void *)&second};
    const char *wrong = NULL;
    if (!k->following || !k->quiet) {
        return NULL;
    }
    memcpy(octets, r->octets, sizeof octets);
    second = r->second;
    if (!admit_reader(k, program, &c)) {
        return "a client cannot leave, or cannot come";
    }
    for (uint32_t place = 0; place < PLACES && wrong == NULL; place++) {
        wrong = is_asked(k, place, ALL_CLIENTS) ? unlike_read(k, program, &c, place) : NULL;
    }
    return wrong;
}
