#include "state.h"
#include "words.h"

#include <stdio.h>
#include <string.h>

static void account_of_octets(const uint8_t *from, ref_account *a)
{
    a->subscribed = word_at(from + MCS_IN_SUBSCRIBED);
    a->owed = word_at(from + MCS_IN_OWED);
    a->fresh = word_at(from + MCS_IN_READ);
    a->waiting = word_at(from + MCS_IN_WAITING + 4) != 0 ? UINT32_MAX : word_at(from + MCS_IN_WAITING);
    for (uint32_t k = 0; k < REF_RESULTS; k++) {
        a->results[k].opcode = from[MCS_IN_RESULTS + 2 * k];
        a->results[k].code = from[MCS_IN_RESULTS + 2 * k + 1];
    }
}

static void service_of_octets(const uint8_t *from, ref_service *s)
{
    ref_player *p = &s->player;
    memcpy(p->name, from + MCS_IN_NAME, sizeof p->name);
    p->name_len = from[MCS_IN_NAME_LENGTH];
    p->ccid = from[MCS_IN_CCID];
    p->media = from[MCS_IN_MEDIA_STATE];
    p->order = from[MCS_IN_ORDER];
    p->speed = signed_octet(from[MCS_IN_SPEED]);
    p->seeking = signed_octet(from[MCS_IN_SEEKING]);
    p->mask = word_at(from + MCS_IN_MASK);
    p->group = word_at(from + MCS_IN_GROUP);
    p->track = word_at(from + MCS_IN_TRACK);
    p->position = word_at(from + MCS_IN_POSITION);
    p->next = word_at(from + MCS_IN_NEXT);
    p->rest = word_at(from + MCS_IN_REST);
    for (uint32_t k = 0; k < REF_CLIENTS; k++) {
        account_of_octets(from + MCS_IN_ACCOUNT(k), &s->accounts[k]);
    }
}

void state_of_octets(const uint8_t octets[MCS_STATE_OCTETS], ref_state *s)
{
    memset(s, 0, sizeof *s);
    s->layout = octets[MCS_AT_LAYOUT];
    s->turn = word_at(octets + MCS_AT_TURN);
    for (uint32_t k = 0; k < REF_CLIENTS; k++) {
        const uint8_t *from = octets + MCS_AT_LINK(k);
        ref_link *l = &s->links[k];
        l->connected = from[MCS_IN_CONNECTED];
        l->encrypted = from[MCS_IN_ENCRYPTED];
        l->mtu = word_at(from + MCS_IN_MTU);
        l->mark = word_at(from + MCS_IN_MARK);
    }
    for (uint32_t k = 0; k < REF_SERVICES; k++) {
        service_of_octets(octets + MCS_AT_SERVICE(k), &s->services[k]);
    }
}

static void octets_of_account(const ref_account *a, uint8_t *to)
{
    put_word(to + MCS_IN_SUBSCRIBED, a->subscribed);
    put_word(to + MCS_IN_OWED, a->owed);
    put_word(to + MCS_IN_READ, a->fresh);
    put_word(to + MCS_IN_WAITING, a->waiting);
    put_word(to + MCS_IN_WAITING + 4, 0);
    for (uint32_t k = 0; k < REF_RESULTS; k++) {
        to[MCS_IN_RESULTS + 2 * k] = a->results[k].opcode;
        to[MCS_IN_RESULTS + 2 * k + 1] = a->results[k].code;
    }
}

static void octets_of_service(const ref_service *s, uint8_t *to)
{
    const ref_player *p = &s->player;
    memcpy(to + MCS_IN_NAME, p->name, sizeof p->name);
    to[MCS_IN_NAME_LENGTH] = (uint8_t)p->name_len;
    to[MCS_IN_CCID] = p->ccid;
    to[MCS_IN_MEDIA_STATE] = p->media;
    to[MCS_IN_ORDER] = p->order;
    to[MCS_IN_SPEED] = (uint8_t)p->speed;
    to[MCS_IN_SEEKING] = (uint8_t)p->seeking;
    put_word(to + MCS_IN_MASK, p->mask);
    put_word(to + MCS_IN_GROUP, p->group);
    put_word(to + MCS_IN_TRACK, p->track);
    put_word(to + MCS_IN_POSITION, p->position);
    put_word(to + MCS_IN_NEXT, p->next);
    put_word(to + MCS_IN_REST, p->rest);
    for (uint32_t k = 0; k < REF_CLIENTS; k++) {
        octets_of_account(&s->accounts[k], to + MCS_IN_ACCOUNT(k));
    }
}

void octets_of_state(const ref_state *s, uint8_t octets[MCS_STATE_OCTETS])
{
    octets[MCS_AT_LAYOUT] = s->layout;
    put_word(octets + MCS_AT_TURN, s->turn);
    for (uint32_t k = 0; k < REF_CLIENTS; k++) {
        uint8_t *to = octets + MCS_AT_LINK(k);
        const ref_link *l = &s->links[k];
        to[MCS_IN_CONNECTED] = l->connected;
        to[MCS_IN_ENCRYPTED] = l->encrypted;
        put_word(to + MCS_IN_MTU, l->mtu);
        put_word(to + MCS_IN_MARK, l->mark);
    }
    for (uint32_t k = 0; k < REF_SERVICES; k++) {
        octets_of_service(&s->services[k], octets + MCS_AT_SERVICE(k));
    }
}

int plain_truths(const uint8_t octets[MCS_STATE_OCTETS])
{
    for (uint32_t k = 0; k < REF_CLIENTS; k++) {
        if (octets[MCS_AT_LINK(k) + MCS_IN_CONNECTED] > 1 || octets[MCS_AT_LINK(k) + MCS_IN_ENCRYPTED] > 1) {
            return 0;
        }
    }
    return 1;
}

static int says(const char *part, int64_t library, int64_t second, char *what, size_t room)
{
    if (library != second && what != NULL) {
        snprintf(what, room, "state: %s: library %lld, second %lld", part, (long long)library, (long long)second);
    }
    return library == second;
}

/* Where they differ, whose it is stands before what differs. */
static int of(const char *whose, uint32_t which, int same, char *what, size_t room)
{
    char part[160];
    if (!same && what != NULL) {
        snprintf(part, sizeof part, "%s", what);
        snprintf(what, room, "%s %u: %s", whose, (unsigned)which, part);
    }
    return same;
}

#define SAME(part) says(#part, library->part, second->part, what, room)

static int same_link(const ref_link *library, const ref_link *second, char *what, size_t room)
{
    return SAME(connected) && SAME(encrypted) && SAME(mtu) && SAME(mark);
}

static int same_account(const ref_account *library, const ref_account *second, char *what, size_t room)
{
    uint32_t live = library->waiting < REF_RESULTS ? library->waiting : REF_RESULTS;
    int same = SAME(subscribed) && SAME(owed) && SAME(fresh) && SAME(waiting);
    for (uint32_t k = 0; same && k < live; k++) {
        same = says("opcode of a result", library->results[k].opcode, second->results[k].opcode, what, room) &&
               says("code of a result", library->results[k].code, second->results[k].code, what, room);
    }
    return same;
}

static int same_player(const ref_player *library, const ref_player *second, char *what, size_t room)
{
    int same = SAME(name_len) && SAME(mask) && SAME(ccid) && SAME(media) && SAME(order) && SAME(speed) && SAME(seeking) &&
               SAME(group) && SAME(track) && SAME(position) && SAME(next) && SAME(rest);
    if (same && library->name_len <= REF_NAME_ROOM && memcmp(library->name, second->name, library->name_len) != 0) {
        if (what != NULL) {
            snprintf(what, room, "state: the octets of the name differ");
        }
        return 0;
    }
    return same;
}

static int same_service(const ref_service *library, const ref_service *second, char *what, size_t room)
{
    int same = same_player(&library->player, &second->player, what, room);
    for (uint32_t k = 0; same && k < REF_CLIENTS; k++) {
        same = of("client", k, same_account(&library->accounts[k], &second->accounts[k], what, room), what, room);
    }
    return same;
}

int same_meaning(const ref_state *library, const ref_state *second, char *what, size_t room)
{
    int same = SAME(layout) && SAME(turn);
    for (uint32_t k = 0; same && k < REF_CLIENTS; k++) {
        same = of("client", k, same_link(&library->links[k], &second->links[k], what, room), what, room);
    }
    for (uint32_t k = 0; same && k < REF_SERVICES; k++) {
        same = of("service", k, same_service(&library->services[k], &second->services[k], what, room), what, room);
    }
    return same;
}
