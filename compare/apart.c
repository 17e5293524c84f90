#include "apart.h"
#include "words.h"

#include <string.h>

const char *wrong_service(const step *s, const answer *a)
{
    int none = has_service(s->kind) && s->service >= MCS_SERVICES;
    switch (a->number) {
    case MCS_NO_SERVICE:
        if (!none) {
            return "both say 219 of a call that names no service, or one that there is";
        }
        return has_client(s->kind) && s->who >= MCS_CLIENTS ? "both say 219 where 202 comes before it" : NULL;
    case MCS_BAD_CATALOGUE:
    case MCS_BAD_RENAMES:
    case MCS_SMALL_OUTPUT:
    case MCS_BAD_STATE:
    case MCS_NO_CLIENT:
        return NULL;
    default:
        return none ? "both do not say 219 in its turn of a service that there is not" : NULL;
    }
}

/* ---- A call to one service never alters replies, state or owed values of the other (SCOPE 17.4); connect and disconnect act on
 * both (SCOPE 17.9). */

static int stays(const uint8_t *before, const uint8_t *after, uint32_t from, uint32_t octets)
{
    return memcmp(before + from, after + from, octets) == 0;
}

#define LINK_OCTETS (MCS_AT_LINK(1) - MCS_AT_LINK(0))
#define SERVICE_OCTETS (MCS_AT_SERVICE(1) - MCS_AT_SERVICE(0))
#define PLAYER_OCTETS MCS_IN_ACCOUNT(0)
#define ACCOUNT_OCTETS (MCS_IN_ACCOUNT(1) - MCS_IN_ACCOUNT(0))

/* Whether no link has changed but that of one client. */
static int other_links_stay(const uint8_t *before, const uint8_t *after, uint32_t client)
{
    for (uint32_t k = 0; k < MCS_CLIENTS; k++) {
        if (k != client && !stays(before, after, MCS_AT_LINK(k), LINK_OCTETS)) {
            return 0;
        }
    }
    return 1;
}

/* Whether no service has changed but one. */
static int other_services_stay(const uint8_t *before, const uint8_t *after, uint32_t service)
{
    for (uint32_t k = 0; k < MCS_SERVICES; k++) {
        if (k != service && !stays(before, after, MCS_AT_SERVICE(k), SERVICE_OCTETS)) {
            return 0;
        }
    }
    return 1;
}

/* Whether in both services nothing has changed but the account of one client. */
static int other_accounts_stay(const uint8_t *before, const uint8_t *after, uint32_t client)
{
    for (uint32_t k = 0; k < MCS_SERVICES * MCS_CLIENTS; k++) {
        uint32_t service = MCS_AT_SERVICE(k / MCS_CLIENTS), who = k % MCS_CLIENTS;
        if (!stays(before, after, service, PLAYER_OCTETS) ||
            (who != client && !stays(before, after, service + MCS_IN_ACCOUNT(who), ACCOUNT_OCTETS))) {
            return 0;
        }
    }
    return 1;
}

const char *not_apart(const step *s, const answer *a, const uint8_t before[MCS_STATE_OCTETS],
                      const uint8_t after[MCS_STATE_OCTETS])
{
    uint32_t served = a->served[SERVED_CHARACTERISTIC] == MCS_NOTHING ? MCS_SERVICES : a->served[SERVED_SERVICE];
    if (after[MCS_AT_LAYOUT] != MCS_STATE_MARK) {
        return "both leave a state that does not begin with its mark";
    }
    if (has_service(s->kind)) {
        if (!stays(before, after, 0, MCS_AT_SERVICE(0))) {
            return "both alter a link or the turn by a call to a service";
        }
        return other_services_stay(before, after, s->service) ? NULL : "both alter one service by a call to the other";
    }
    if (s->kind == TAKE) {
        if (!other_links_stay(before, after, a->served[SERVED_CLIENT]) ||
            !stays(before, after, MCS_AT_LINK(a->served[SERVED_CLIENT]), MCS_IN_MARK)) {
            return "both alter more of the links by a take than one mark";
        }
        return other_services_stay(before, after, served) ? NULL : "both alter a service by a take that does not name it";
    }
    if (s->kind == CONNECT || s->kind == DISCONNECT) {
        return stays(before, after, 0, MCS_AT_LINK(0)) && other_links_stay(before, after, s->who) &&
                       other_accounts_stay(before, after, s->who)
                   ? NULL
                   : "both alter more by a connect or a disconnect than one client's link and accounts";
    }
    return NULL;
}

/* ---- Only the order of takes is shared: a client's round runs through the slots of service 0 and then those of service 1 (SCOPE
 * 17.4, 19.3) */

uint32_t owed_places(const uint8_t state[MCS_STATE_OCTETS], uint32_t client)
{
    uint32_t places = 0;
    for (uint32_t k = 0; k < MCS_SERVICES; k++) {
        places |= word_at(state + MCS_AT_SERVICE(k) + MCS_IN_ACCOUNT(client) + MCS_IN_OWED) << (uint32_t)SLOTS * k;
    }
    return places;
}

uint32_t next_place(const uint8_t state[MCS_STATE_OCTETS], uint32_t client)
{
    uint32_t mark = word_at(state + MCS_AT_LINK(client) + MCS_IN_MARK), places = owed_places(state, client);
    for (uint32_t k = 1; k <= PLACES; k++) {
        uint32_t place = (mark + k) % PLACES;
        if ((places >> place & 1u) != 0) {
            return place;
        }
    }
    return PLACES;
}

uint32_t next_client(const uint8_t state[MCS_STATE_OCTETS])
{
    uint32_t turn = word_at(state + MCS_AT_TURN);
    for (uint32_t k = 1; k <= MCS_CLIENTS; k++) {
        uint32_t client = (turn + k) % MCS_CLIENTS;
        if (owed_places(state, client) != 0) {
            return client;
        }
    }
    return MCS_CLIENTS;
}

const char *not_in_turn(const answer *a, const uint8_t before[MCS_STATE_OCTETS], const uint8_t after[MCS_STATE_OCTETS])
{
    static const uint32_t NOTHING[SERVED_WORDS];
    uint32_t client = next_client(before), place;
    if (client == MCS_CLIENTS) {
        return memcmp(a->served, NOTHING, sizeof NOTHING) == 0 ? NULL : "both serve where nothing is owed";
    }
    place = next_place(before, client);
    if (a->served[SERVED_CLIENT] != client || a->served[SERVED_SERVICE] != place / SLOTS ||
        a->served[SERVED_CHARACTERISTIC] != slot_at(place % SLOTS)) {
        return "both serve another client or another place than the one whose turn it is";
    }
    return word_at(after + MCS_AT_TURN) == client && word_at(after + MCS_AT_LINK(client) + MCS_IN_MARK) == place
               ? NULL
               : "both leave another turn or another mark than what was served";
}

/* ---- A client has 28 places, and the bound is 112 (SCOPE 19.3, 21.4) */

const char *too_late(waits *w, const step *s, const answer *a, const uint8_t before[MCS_STATE_OCTETS],
                     const uint8_t after[MCS_STATE_OCTETS])
{
    const char *wrong = NULL;
    for (uint32_t client = 0; client < MCS_CLIENTS; client++) {
        uint32_t still_owed = s->kind == START ? 0 : owed_places(before, client) & owed_places(after, client);
        for (uint32_t place = 0; place < PLACES; place++) {
            uint32_t *takes = &w->takes[client][place];
            int served = s->kind == TAKE && a->served[SERVED_CLIENT] == client && a->served[SERVED_SERVICE] == place / SLOTS &&
                         a->served[SERVED_CHARACTERISTIC] == slot_at(place % SLOTS);
            w->of_served = served ? *takes : w->of_served;
            *takes = served || (still_owed >> place & 1u) == 0 ? 0 : *takes + (s->kind == TAKE);
            if (*takes >= BOUND) {
                wrong = "what is owed is not handed out by as many takes as demand 3 allows";
            }
        }
    }
    return wrong;
}
