#include "octets.h"
#include "words.h"

#include <string.h>

#define RESULTS_OCTETS (2u * REF_RESULTS)

static int any_set(const uint8_t *octets, uint32_t count)
{
    for (uint32_t k = 0; k < count; k++) {
        if (octets[k] != 0) {
            return 1;
        }
    }
    return 0;
}

/* The octets behind the name of a service, in its octets before and after. */
static uint32_t tail_after(const uint8_t *before, const step *s, const ref_player *now, uint8_t *after)
{
    uint32_t tail = REF_NAME_ROOM - now->name_len, at = MCS_IN_NAME + now->name_len;
    int any = any_set(before + at, tail);
    memcpy(after + at, before + at, tail);
    if (s->kind == START) {
        memset(after + at, 0, tail);
    }
    return any ? 1u << (s->kind == START ? TAIL_CLEARED : TAIL_STAYS) : 0;
}

/* Which rule the results of a client in a service follow. */
static uint32_t rule_for(uint32_t client, uint32_t service, uint32_t waited, const step *s, const ref_account *now,
                         const answer *said)
{
    if (s->kind == START || ((s->kind == CONNECT || s->kind == DISCONNECT) && s->who == client)) {
        return RESULTS_CLEARED;
    }
    if (s->kind == TAKE && said->served[SERVED_CLIENT] == client && said->served[SERVED_SERVICE] == service &&
        said->served[SERVED_CHARACTERISTIC] == MCS_CONTROL_POINT) {
        return RESULTS_MOVED;
    }
    return now->waiting > waited ? RESULT_ADDED : now->waiting < waited ? RESULTS_DROPPED : RESULTS_STAY;
}

/* The results of an account that do not wait, in its octets before and after. */
static uint32_t results_after(const uint8_t *before, uint32_t rule, const ref_account *now, uint8_t *after)
{
    const uint8_t *was = before + MCS_IN_RESULTS;
    uint8_t dead[RESULTS_OCTETS];
    uint32_t live = 2u * now->waiting;
    memset(dead, 0, sizeof dead);
    if (rule == RESULTS_MOVED) {
        memcpy(dead, was + 2, RESULTS_OCTETS - 2u);
    } else if (rule != RESULTS_CLEARED) {
        memcpy(dead, was, RESULTS_OCTETS);
    }
    memcpy(after + MCS_IN_RESULTS + live, dead + live, RESULTS_OCTETS - live);
    /* A result that is added is seen where it is written over another, the rest where octets behind are not 0. */
    live -= rule == RESULT_ADDED ? 2u : 0u;
    return any_set((rule == RESULTS_MOVED ? dead : was) + live, RESULTS_OCTETS - live) ? 1u << rule : 0;
}

uint32_t octets_after(const uint8_t before[MCS_STATE_OCTETS], const step *s, const ref_state *second, const answer *said,
                      uint8_t after[MCS_STATE_OCTETS])
{
    uint32_t seen = 0;
    octets_of_state(second, after);
    for (uint32_t k = 0; k < REF_SERVICES * REF_CLIENTS; k++) {
        uint32_t service = k / REF_CLIENTS, client = k % REF_CLIENTS, at = MCS_AT_SERVICE(service);
        uint32_t account = at + MCS_IN_ACCOUNT(client), waited = word_at(before + account + MCS_IN_WAITING);
        const ref_account *now = &second->services[service].accounts[client];
        if (client == 0) {
            seen |= tail_after(before + at, s, &second->services[service].player, after + at);
        }
        seen |= results_after(before + account, rule_for(client, service, waited, s, now, said), now, after + account);
    }
    return seen;
}
