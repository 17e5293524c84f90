#include "count_quiet.h"
#include "quiet.h"
#include "tell.h"

/* What is known of a slot that has changed since its client subscribed. */
enum { TAKEN, WRITTEN_BY_ITSELF, CLAIMS };

/* Of what is behind a claim, or keeps it away. */
enum {
    SUBSCRIBED_AGAIN,   /* and changed since */
    OF_COME_AGAIN,      /* a slot of a client that had left and come again */
    CUT,                /* the value is longer than ATT_MTU - 3 reaches */
    WHOLE_BUT_LONG,     /* it has more than the 20 octets of the least ATT_MTU, and is whole */
    CHANGED_IN_BOTH,    /* the same slot of the same client in the other service too */
    AGAIN_NOT_CHANGED,  /* subscribed again, and no claim yet */
    NOT_CHANGED,        /* subscribed, and no claim yet */
    NO_CLAIM_BUT_KNOWN, /* the same, of one that the client has itself written */
    CIRCUMSTANCES
};

static unsigned long followed, not_followed, most_takes, by_claim[CLAIMS][CHARACTERISTIC_BOUND], by_circumstance[CIRCUMSTANCES];
static unsigned long said_nothing[2], taken_again, taken_as_written[CHARACTERISTIC_BOUND];

void count_quiet(const run *r, const step *s)
{
    const screens *k = &r->shown[OF_SECOND];
    uint32_t served = r->second_said.served[SERVED_CHARACTERISTIC];
    if (s->kind != TAKE || r->second_said.number != MCS_OK) {
        return;
    }
    most_takes = k->takes > most_takes ? k->takes : most_takes;
    if (k->quiet) {
        said_nothing[k->following]++;
    } else if (k->following) {
        taken_again += k->known_already == BY_TAKE && served != MCS_TRACK_CHANGED;
        taken_as_written[served] += k->known_already == BY_WRITE;
    }
}

static void count_claim(const run *r, uint32_t client, uint32_t place)
{
    const screens *k = &r->shown[OF_SECOND];
    const knowledge *n = &k->of[client][place];
    uint8_t value[MCS_OUTPUT_OCTETS];
    uint32_t characteristic = slot_at(place % SLOTS), length = present_value(r, place / SLOTS, characteristic, value);
    by_claim[n->by == BY_WRITE ? WRITTEN_BY_ITSELF : TAKEN][characteristic]++;
    by_circumstance[SUBSCRIBED_AGAIN] += n->again;
    by_circumstance[OF_COME_AGAIN] += k->connections[client] > 1;
    by_circumstance[CUT] += length > n->length;
    by_circumstance[WHOLE_BUT_LONG] += length == n->length && length > 20;
    by_circumstance[CHANGED_IN_BOTH] += k->of[client][(place + SLOTS) % PLACES].changed;
}

void count_screens(const run *r)
{
    const screens *k = &r->shown[OF_SECOND];
    followed += k->following != 0;
    not_followed += !k->following;
    for (uint32_t at = 0; k->following && at < MCS_CLIENTS * PLACES; at++) {
        uint32_t client = at / PLACES, place = at % PLACES;
        const knowledge *n = &k->of[client][place];
        if (!n->subscribed || !is_claimed(slot_at(place % SLOTS))) {
            continue;
        }
        if (n->changed) {
            count_claim(r, client, place);
        } else {
            by_circumstance[n->again ? AGAIN_NOT_CHANGED : NOT_CHANGED]++;
            by_circumstance[NO_CLAIM_BUT_KNOWN] += n->by == BY_WRITE;
        }
    }
}

/* ---- Rows */

/* What its writer is spared. */
static int is_spared(uint32_t characteristic)
{
    return is_claimed(characteristic) && (properties_of(characteristic) & MCS_MAY_WRITE) != 0;
}

static int is_claimed_slot(uint32_t characteristic)
{
    return is_claimed(characteristic) && (properties_of(characteristic) & MCS_MAY_NOTIFY) != 0;
}

void tell_quiet(void)
{
    static const char *const CIRCUMSTANCE[CIRCUMSTANCES] = {"subscribed again",
                                                            "of a client that came again",
                                                            "cut",
                                                            "long and not cut",
                                                            "changed in both services",
                                                            "no claim: subscribed again and not changed",
                                                            "no claim: not changed",
                                                            "no claim: not changed, but written by the client"};
    static const char *const KNOWN[CLAIMS] = {"a take", "its own write"};
    row("times that takes went on until nothing was owed");
    tell(followed, 1, "from a start on");
    tell(not_followed, 1, "from a state of another's making");
    row("the most takes in a row that served");
    tell(most_takes, MOST_TAKES / 3u, "so many");
    row("takes that said that nothing is owed");
    tell(said_nothing[1], 1, "from a start on");
    tell(said_nothing[0], 1, "from a state of another's making");
    for (uint32_t claim = 0; claim < CLAIMS; claim++) {
        row("slots changed since subscribing, known then by %s, by characteristic", KNOWN[claim]);
        for (uint32_t k = 1; k < CHARACTERISTIC_BOUND; k++) {
            tell(by_claim[claim][k], (unsigned long)(claim == TAKEN ? is_claimed_slot(k) : is_spared(k)), "%u", (unsigned)k);
        }
    }
    row("slots then");
    for (uint32_t k = 0; k < CIRCUMSTANCES; k++) {
        tell(by_circumstance[k], 1, "%s", CIRCUMSTANCE[k]);
    }
    row("takes of what the client knew already by a take, as it changed back, or behind what was handed out");
    tell(taken_again, 1, "but of 4, which is empty");
    row("takes of what the client knew already by its own write, by characteristic");
    for (uint32_t k = 1; k < CHARACTERISTIC_BOUND; k++) {
        tell(taken_as_written[k], (unsigned long)is_spared(k), "%u", (unsigned)k);
    }
}
