#include "count_services.h"
#include "apart.h"
#include "lend.h"
#include "places.h"
#include "tell.h"

enum { OTHER_THERE, OTHER_ABSENT, OTHERS }; /* the client that a number over 3 would be without its upper bits, by its link */
enum { GENERIC_BAD, NAMED_BAD, BOTH_BAD_EARLIER, BOTH_BAD_ALIKE, BOTH_BAD_LATER, BAD_NAMES };
enum { OWED_HERE_ALONE, ROUND_STAYS, ROUND_GOES_OVER, ROUND_THE_END, SAME_PLACE, TAKE_CASES };
enum { BOTH_WAIT, FULL_HERE_ALONE, FULL_THERE_ALONE, FULL_IN_BOTH, WAITING_CASES };

static unsigned long by_number_to[REF_SERVICES][CALLS][NUMBERS], told_before[CALLS][NUMBERS], behind[CALLS][NUMBERS];
static unsigned long of_no_client[CALLS][OTHERS], by_bad_names[BAD_NAMES], by_both_media[4][4];
static unsigned long from_mark[PLACES], to_place[PLACES], by_take[REF_SERVICES][TAKE_CASES];
static unsigned long by_waiting[REF_SERVICES][WAITING_CASES], of_another_layout[CALLS], wrong_alone[REF_SERVICES][CALLS];
static unsigned long waited_round, waited_longest;

uint32_t number_with(const run *r, const step *s, const tables *titles, ref_state *state, uint32_t service)
{
    static uint8_t out[OUT_ROOM];
    uint32_t word, served[SERVED_WORDS], part[MCS_PART_WORDS], made[MCS_GOTO_MADE_WORDS], place[MCS_GOTO_PLACE_WORDS], track,
        octet;
    /* A manual Goto is allowed no step: its number does not depend on that, and there may be many. */
    call c = {.kind = s->kind,
              .who = s->who,
              .service = service,
              .what = s->what,
              .number = s->number,
              .allowed = 0,
              .catalogue = lent(&r->lent),
              .titles = lent_titles(titles),
              .state = state,
              .out = out,
              .out_len = s->room[0],
              .word = &word,
              .served = served,
              .part = part,
              .made = made,
              .place = place,
              .track = &track,
              .octet = &octet};
    lend_texts(s, &c);
    return call_second(&c);
}

uint32_t number_on(const run *r, const step *s, ref_state *state, uint32_t service)
{
    return number_with(r, s, &r->lent, state, service);
}

/* A service that there is not: what is told before 219, and the number of the same call to one that there is, so that 219 is seen
 * to come before that. */
static void count_no_service(const run *r, const step *s)
{
    static ref_state copy;
    uint32_t number = r->second_said.number;
    if (number != MCS_NO_SERVICE) {
        told_before[s->kind][counted_as(number)]++;
        if (number == MCS_NO_CLIENT) {
            of_no_client[s->kind][r->second.links[s->who % REF_CLIENTS].connected ? OTHER_THERE : OTHER_ABSENT]++;
        }
        return;
    }
    copy = r->second;
    behind[s->kind][counted_as(number_on(r, s, &copy, s->service % REF_SERVICES))]++;
}

/* A state that would be right with another service in the place of one of the two. */
static void count_wrong_alone(const run *r, const step *s)
{
    static const ref_service PLAIN = {.player = {.order = 3}};
    static ref_state mended;
    for (uint32_t k = 0; k < REF_SERVICES; k++) {
        mended = r->second;
        mended.services[k] = PLAIN;
        wrong_alone[k][s->kind] += number_on(r, s, &mended, s->service) != MCS_BAD_STATE;
    }
}

/* Start names both players at once, and service 0's name is checked first (SCOPE 17.6). */
static void count_bad_names(const step *s)
{
    uint32_t generic = wrong_octet_of_name(s->octets + START_NAME_AT(MCS_GENERIC), s->players[MCS_GENERIC].length);
    uint32_t named = wrong_octet_of_name(s->octets + START_NAME_AT(MCS_NAMED), s->players[MCS_NAMED].length);
    if (generic == MCS_NOWHERE || named == MCS_NOWHERE) {
        by_bad_names[generic == MCS_NOWHERE ? NAMED_BAD : GENERIC_BAD]++;
        return;
    }
    by_bad_names[generic < named ? BOTH_BAD_EARLIER : generic == named ? BOTH_BAD_ALIKE : BOTH_BAD_LATER]++;
}

static void count_take(const run *r)
{
    const uint32_t *served = r->second_said.served;
    uint32_t service = served[SERVED_SERVICE], client = served[SERVED_CLIENT];
    uint32_t mark = r->before.links[client].mark, place = r->second.links[client].mark;
    int other_owes = r->before.services[(service + 1u) % REF_SERVICES].accounts[client].owed != 0;
    if (served[SERVED_CHARACTERISTIC] == MCS_NOTHING) {
        return;
    }
    from_mark[mark]++;
    to_place[place]++;
    by_take[service][OWED_HERE_ALONE] += !other_owes;
    /* What service 0 owes waits behind the mark while the round is in service 1. */
    by_take[service][ROUND_STAYS] += other_owes && mark / SLOTS == service && place > mark;
    by_take[service][ROUND_GOES_OVER] += other_owes && mark / SLOTS != service;
    by_take[service][ROUND_THE_END] += place < mark;
    by_take[service][SAME_PLACE] += place == mark;
    waited_round += r->waited.of_served >= PLACES;
    waited_longest = r->waited.of_served > waited_longest ? r->waited.of_served : waited_longest;
}

/* Results of a client that writes to the control point wait in both services, as many as there is room for in either. */
static void count_waiting(const run *r, const step *s)
{
    const ref_service *to = &r->before.services[s->service], *other = &r->before.services[(s->service + 1u) % REF_SERVICES];
    uint32_t here = to->accounts[s->who].waiting, there = other->accounts[s->who].waiting;
    int full = r->second_said.number == MCS_TOO_MANY_RESULTS;
    unsigned long *counts = by_waiting[s->service];
    counts[BOTH_WAIT] += here > 0 && there > 0;
    counts[FULL_HERE_ALONE] += full && there < REF_RESULTS;
    counts[FULL_IN_BOTH] += full && there == REF_RESULTS;
    counts[FULL_THERE_ALONE] += r->second_said.number == 0 && there == REF_RESULTS;
}

void count_services(const run *r, const step *s)
{
    uint32_t number = r->second_said.number;
    if (number == MCS_BAD_STATE) {
        of_another_layout[s->kind] += r->octets[MCS_AT_LAYOUT] != MCS_STATE_MARK;
        count_wrong_alone(r, s);
    }
    if (s->kind == START && number == MCS_BAD_NAME) {
        count_bad_names(s);
    }
    if (number == 0) {
        by_both_media[r->second.services[MCS_GENERIC].player.media & 3u][r->second.services[MCS_NAMED].player.media & 3u]++;
    }
    if (s->kind == TAKE && number == 0) {
        count_take(r);
    }
    if (!has_service(s->kind)) {
        return;
    }
    if (s->service >= REF_SERVICES) {
        count_no_service(r, s);
        return;
    }
    by_number_to[s->service][s->kind][counted_as(number)]++;
    if (s->kind == WRITE && s->what == MCS_CONTROL_POINT && (number == 0 || number == MCS_TOO_MANY_RESULTS)) {
        count_waiting(r, s);
    }
}

/* ---- Rows */

static void tell_refusals(void)
{
    for (uint32_t k = 0; k < REF_SERVICES * CALLS; k++) {
        uint32_t service = k % REF_SERVICES, kind = k / REF_SERVICES;
        if (has_service(kind)) {
            row("%s to service %u", CALL_NAME[kind], (unsigned)service);
            tell_numbers(kind, by_number_to[service][kind], 0, MCS_NO_SERVICE);
        }
    }
    for (uint32_t kind = 0; kind < CALLS; kind++) {
        if (has_service(kind)) {
            row("%s to a service that there is not, told before 219", CALL_NAME[kind]);
            tell(told_before[kind][MCS_BAD_CATALOGUE], 1, "200");
            tell(told_before[kind][MCS_BAD_RENAMES], 1, "224");
            tell(told_before[kind][MCS_SMALL_OUTPUT], (unsigned long)has_output(kind), "205");
            tell(told_before[kind][MCS_BAD_STATE], 1, "201");
            tell(of_no_client[kind][OTHER_THERE], (unsigned long)has_client(kind), "202 over a client that is connected");
            tell(of_no_client[kind][OTHER_ABSENT], (unsigned long)has_client(kind), "over one that is not");
            row("%s refused for 219, by its number without it", CALL_NAME[kind]);
            tell_numbers(kind, behind[kind], MCS_NO_SERVICE, 0);
        }
    }
}

static void tell_states(void)
{
    row("201 for the layout");
    for (uint32_t kind = SET_NAME; has_state(kind); kind++) {
        tell(of_another_layout[kind], 1, "%s", CALL_NAME[kind]);
    }
    for (uint32_t service = 0; service < REF_SERVICES; service++) {
        row("201 for service %u alone", (unsigned)service);
        for (uint32_t kind = SET_NAME; has_state(kind); kind++) {
            tell(wrong_alone[service][kind], 1, "%s", CALL_NAME[kind]);
        }
    }
    row("both players after accepted calls");
    for (uint32_t k = 0; k < 16; k++) {
        tell(by_both_media[k / 4u][k % 4u], 1, "%s and %s", mcs_media_state_words(k / 4u), mcs_media_state_words(k % 4u));
    }
}

void tell_services(void)
{
    static const char *const NAMES_CASE[BAD_NAMES] = {"the generic one", "the named one", "both, the generic one earlier",
                                                      "both at the same octet", "both, the generic one later"};
    static const char *const TAKE_CASE[TAKE_CASES] = {"owed by it alone", "while the other waits",
                                                      "from the other, which owes still", "round the end",
                                                      "the same place again"};
    static const char *const WAITING_CASE[WAITING_CASES] = {"results wait in both", "0x11, and room in the other",
                                                            "taken, and no room in the other", "0x11, and none in the other"};
    tell_refusals();
    tell_states();
    row("start refused for names");
    for (uint32_t k = 0; k < BAD_NAMES; k++) {
        tell(by_bad_names[k], 1, "%s", NAMES_CASE[k]);
    }
    for (uint32_t service = 0; service < REF_SERVICES; service++) {
        row("takes of service %u", (unsigned)service);
        for (uint32_t k = 0; k < TAKE_CASES; k++) {
            tell(by_take[service][k], 1, "%s", TAKE_CASE[k]);
        }
    }
    row("takes by the mark before");
    for (uint32_t place = 0; place < PLACES; place++) {
        tell(from_mark[place], 1, "%u", (unsigned)place);
    }
    row("takes by the place served");
    for (uint32_t place = 0; place < PLACES; place++) {
        tell(to_place[place], 1, "%u", (unsigned)place);
    }
    row("takes of what waited");
    tell(waited_round, 1, "for %u takes or more", (unsigned)PLACES);
    tell(waited_longest, PLACES, "the longest for so many");
    for (uint32_t service = 0; service < REF_SERVICES; service++) {
        row("control writes to service %u", (unsigned)service);
        for (uint32_t k = 0; k < WAITING_CASES; k++) {
            tell(by_waiting[service][k], 1, "%s", WAITING_CASE[k]);
        }
    }
}
