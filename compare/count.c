#include "count.h"
#include "count_clock.h"
#include "count_manual.h"
#include "count_objects.h"
#include "count_quiet.h"
#include "count_services.h"
#include "count_titles.h"
#include "judge.h"
#include "octets.h"
#include "places.h"
#include "tell.h"
#include "words.h"

#include <string.h>

#define MOVES 5u
#define LEAST_TRUTHS 500u
enum { CONNECTED, ENCRYPTED, ENCRYPTED_UNCONNECTED, TRUTHS };
enum { IN_FIRST, AT_ITS_START, WITHIN_MARGIN, LAST_WITHIN, AT_MARGIN, BEYOND_MARGIN, PREVIOUS_FROM };
enum { FIRST_BLOCK, MIDDLE_BLOCK, LAST_BLOCK, BLOCK_PLACES };
enum { BEHIND_LIMIT, BEHIND_ROOM, OVERFULL };
enum { IS_GOOD = REASONS, IS_NONE, BLOCKS_BEHIND }; /* beside the reason of a bad one */
enum { FIRST_OF_KIND, WITHIN_KIND, SHORT_BY_ONE, SHORT_BLOCKS };
enum { GIVEN_BACK, MORE_OF_A_KIND, NO_CATALOGUE, WRITTEN_AGAIN };
enum { NO_BLOCKS, EXACT_ROOM, ROOM_BEHIND, ONE_OCTET_SHORT, WRITE_BOUNDS };
enum { REACHES_END, STAYS_AT_END, SEEKS_AT_END, NEGATIVE_WRITE, RUNNING_CASES };
enum { NO_STARTS, NO_ROOM_LEFT, LONGEST, ONE_TOO_LONG, BOUNDS };
enum { AT_FIRST, AMONG, AT_127, CUT_OFF, OF_LAST_TRACK, OF_TWO, OF_TWO_ALIKE, OF_TWO_OVERLAPPING, TITLE_CASES };
enum { NO_BAD_TITLE, WRONG_TRACK_BEFORE, WRONG_TRACK_BEHIND, WRONG_ELSEWHERE, BARE_CASES };
enum { SET_NAMES_NAME = MCS_SERVICES, NAMED_BY }; /* beside the names of a start, by service */
enum { NAME_AT_FIRST, NAME_AMONG, NAME_AT_127, NAME_CUT_OFF, LONG_RIGHT, LONG_WRONG_BEFORE, ONE_OCTET_LONG, NAME_CASES };

static unsigned long calls, by_share[SHARES], by_number[CALLS][NUMBERS], by_twice[CALLS][2], unchanged[CALLS],
    by_dead[DEAD_RULES][CALLS];
static unsigned long by_media[REF_SERVICES][4], by_order[REF_SERVICES][9], by_rung[REF_SERVICES][256];
static unsigned long by_result[REF_SERVICES][OPCODES + 1][5], by_move[9][MOVES][5];
static unsigned long taken[REF_SERVICES][CHARACTERISTIC_BOUND], read_whole[REF_SERVICES][CHARACTERISTIC_BOUND],
    read_on[REF_SERVICES][CHARACTERISTIC_BOUND], written[REF_SERVICES][CHARACTERISTIC_BOUND];
static unsigned long by_truth[TRUTHS][REF_CLIENTS], by_truth_value[NUMBERS], by_mended[CALLS][NUMBERS];
static unsigned long by_next[3][4], by_bound[BOUNDS], by_previous[PREVIOUS_FROM], by_running[RUNNING_CASES],
    by_room[WRITE_BOUNDS];
static unsigned long by_reason[REASONS][BLOCK_PLACES], by_pair[REASONS][REASONS], by_two[REASONS][REASONS],
    by_overfull[REASONS][OVERFULL], by_length[REASONS];
static unsigned long by_short[TABLES][SHORT_BLOCKS], refused_before[BLOCKS_BEHIND], right_before[BLOCKS_BEHIND],
    by_again[WRITTEN_AGAIN];
static unsigned long carrying[CALLS], bare[CALLS], by_title[TITLE_CASES], by_bare[BARE_CASES], by_name[NAMED_BY][NAME_CASES];

/* ---- Accepted calls */

/* Where a Previous Segment began: in the first segment, or so far past the start of its own (SCOPE 10.3). */
static void count_previous(const run *r, uint32_t service)
{
    const uint32_t *record = r->lent.tracks + MCS_TRACK_WORDS * r->second.services[service].player.track;
    const uint32_t *starts = r->lent.segments + record[FIRST_SEGMENT];
    uint32_t own = 0, past, position_before = r->before.services[service].player.position;
    while (own + 1u < record[SEGMENT_COUNT] && starts[own + 1u] <= position_before) {
        own++;
    }
    past = own == 0 ? 0 : position_before - starts[own];
    by_previous[own == 0      ? IN_FIRST
                : past == 0   ? AT_ITS_START
                : past < 299u ? WITHIN_MARGIN
                : past < 300u ? LAST_WITHIN
                : past == 300 ? AT_MARGIN
                              : BEYOND_MARGIN]++;
}

/* What only a running recording does (SCOPE 4.8). */
static void count_running(const run *r, const step *s)
{
    const ref_player *now = &r->second.services[s->service].player;
    int at_end = now->position == MCS_MOST_DURATION;
    int was_at_end = r->before.services[s->service].player.position == MCS_MOST_DURATION;
    if (now->media == REF_INACTIVE || track_word(&r->lent, now->track, DURATION) != MCS_RUNNING) {
        return;
    }
    if (s->kind == ADVANCE && now->media == REF_PLAYING && at_end) {
        by_running[was_at_end ? STAYS_AT_END : REACHES_END]++;
    }
    by_running[SEEKS_AT_END] += s->kind == ADVANCE && now->media == REF_SEEKING && at_end;
    by_running[NEGATIVE_WRITE] += s->kind == WRITE && s->what == MCS_POSITION && s->octets[3] > 0x7F;
}

/* The code is seen where the writer is subscribed to the results: it is the last of those that wait. */
static void count_result(const run *r, const step *s)
{
    const ref_service *to = &r->second.services[s->service];
    const ref_account *a = &to->accounts[s->who];
    if ((a->subscribed >> (REF_SLOTS - 1u)) != 0 && a->waiting > 0) {
        uint32_t result = a->results[a->waiting - 1u].code % 5u;
        by_result[s->service][opcode_place(s->octets[0])][result]++;
        if (s->octets[0] == MCS_OPCODE_PREVIOUS_SEGMENT && result == MCS_RESULT_SUCCESS) {
            count_previous(r, s->service);
        }
        if (s->octets[0] >= MCS_OPCODE_PREVIOUS_TRACK && s->octets[0] <= MCS_OPCODE_GOTO_TRACK) {
            by_move[to->player.order % 9u][s->octets[0] - MCS_OPCODE_PREVIOUS_TRACK][result]++;
        }
    }
}

static void count_accepted(const run *r, const step *s)
{
    if (s->kind == READ) {
        (s->number == 0 ? read_whole : read_on)[s->service][s->what % CHARACTERISTIC_BOUND]++;
    }
    if (s->kind == TAKE) {
        const uint32_t *served = r->second_said.served;
        taken[served[SERVED_SERVICE]][served[SERVED_CHARACTERISTIC] % CHARACTERISTIC_BOUND]++;
    }
    if (s->kind == WRITE) {
        written[s->service][s->what % CHARACTERISTIC_BOUND]++;
    }
    if (s->kind == WRITE && s->what == MCS_CONTROL_POINT) {
        count_result(r, s);
    }
    if (has_service(s->kind)) {
        count_running(r, s);
    }
    for (uint32_t k = 0; has_state(s->kind) && k < REF_SERVICES; k++) {
        const ref_player *p = &r->second.services[k].player;
        by_media[k][p->media & 3u]++;
        by_order[k][p->order % 9u]++;
        by_rung[k][(uint8_t)p->seeking]++;
    }
    for (uint32_t rule = 0; rule < DEAD_RULES; rule++) {
        by_dead[rule][s->kind] += r->seen_dead >> rule & 1u;
    }
}

/* ---- Cue sheets: what would have come next, so that the order of the refusals is seen to matter; and those at a bound */

static const uint8_t NEXT[4] = {0, MCS_BAD_LINE, MCS_NOT_RISING, MCS_MANY_STARTS};

/* The number of the sheet without what it was refused for: cut to the limit, or with an empty line in that one's place. */
static uint32_t next_number(const run *r, const step *s)
{
    static sheet rest;
    static uint32_t starts[STARTS_ROOM];
    uint32_t count, line;
    rest.length = r->lent_sheet.length;
    memcpy(rest.octets, r->lent_sheet.octets, rest.length);
    if (r->second_said.number == MCS_LONG_SHEET) {
        rest.length = MCS_SHEET_OCTETS;
    } else {
        blank_line(&rest, r->second_said.line);
    }
    return ref_cue_sheet(rest.octets, rest.length, starts, s->room[0], &count, &line);
}

static void count_sheet(const run *r, const step *s)
{
    const answer *a = &r->second_said;
    uint32_t octets = r->lent_sheet.length;
    by_bound[NO_STARTS] += a->number == 0 && a->length == 0;
    by_bound[NO_ROOM_LEFT] += a->number == 0 && a->length > 0 && a->length == s->room[0];
    by_bound[LONGEST] += a->number == 0 && octets == MCS_SHEET_OCTETS;
    by_bound[ONE_TOO_LONG] += a->number == MCS_LONG_SHEET && octets == MCS_SHEET_OCTETS + 1u;
    if (a->number >= MCS_LONG_SHEET && a->number <= MCS_NOT_RISING) {
        uint32_t next = next_number(r, s);
        for (uint32_t k = 0; k < 4; k++) {
            by_next[a->number - MCS_LONG_SHEET][k] += next == NEXT[k];
        }
    }
}

/* ---- Bad blocks (SCOPE 3.12): each reason alone and each two in one block, two bad blocks, bad blocks where 210 or 212
 * applies too, and short blocks by the block behind, since that one decides whether they are bad */

/* What is wrong with the block that is named, where it is one reason alone or two. */
static void count_reasons(uint32_t reasons, uint32_t block, uint32_t blocks)
{
    uint32_t first = first_reason(reasons), others = reasons & ~(1u << first), second;
    if (others == 0) {
        by_reason[first][block == 0 ? FIRST_BLOCK : block + 1u < blocks ? MIDDLE_BLOCK : LAST_BLOCK]++;
        return;
    }
    second = first_reason(others);
    by_pair[first][second] += others == 1u << second;
}

/* Whether the blocks before this one hold more than a limit, or than the room, already. */
static void count_overfull(const run *r, const step *s, uint32_t reason, uint32_t block)
{
    static const uint32_t MOST[TABLES] = {MCS_MOST_GROUPS, MCS_MOST_TRACKS, MCS_MOST_SEGMENTS, MCS_MOST_TEXT};
    uint32_t records[TABLES], over_limit = 0, over_room = 0;
    records_before(&r->lent_card, block, records);
    for (uint32_t table = 0; table < TABLES; table++) {
        over_limit |= records[table] > MOST[table];
        over_room |= records[table] > s->room[table] / record_entries(table);
    }
    by_overfull[reason][BEHIND_LIMIT] += over_limit;
    by_overfull[reason][BEHIND_ROOM] += over_room && !over_limit;
}

/* What is behind a block. */
static uint32_t block_behind(const card *c, uint32_t block)
{
    uint32_t reasons;
    if (block + 1u == c->length / MCS_BLOCK_OCTETS) {
        return IS_NONE;
    }
    reasons = reasons_against(c, block + 1u);
    return reasons == 0 ? IS_GOOD : first_reason(reasons);
}

static void count_not_full(const card *c, uint32_t block)
{
    const uint8_t *at = c->octets + MCS_BLOCK_OCTETS * block;
    uint32_t table = at[KIND_AT] - 1u;
    by_short[table][kind_before(c, block) == at[KIND_AT] ? WITHIN_KIND : FIRST_OF_KIND]++;
    by_short[table][SHORT_BY_ONE] += half_word_at(at + COUNT_AT) + 1u == block_room(table);
    refused_before[block_behind(c, block)]++;
}

static void count_blocks(const run *r, const step *s)
{
    const card *c = &r->lent_card;
    uint32_t blocks = c->length / MCS_BLOCK_OCTETS, lowest = next_bad_block(c, 0), next, reason;
    int right_length = c->length % MCS_BLOCK_OCTETS == 0 && blocks <= MOST_BLOCKS;
    for (uint32_t block = 0; right_length && block < lowest; block++) {
        if (is_short(c, block)) {
            right_before[block_behind(c, block)]++;
        }
    }
    if (lowest == blocks) {
        return;
    }
    reason = first_reason(reasons_against(c, lowest));
    if (!right_length) {
        by_length[reason]++;
        return;
    }
    count_reasons(reasons_against(c, lowest), lowest, blocks);
    count_overfull(r, s, reason, lowest);
    if (reason == NOT_FULL) {
        count_not_full(c, lowest);
    }
    next = next_bad_block(c, lowest + 1u);
    if (next < blocks) {
        by_two[reason][first_reason(reasons_against(c, next))]++;
    }
}

/* ---- Card writes at a bound of the room, and of what was loaded */

/* Whether a block of a right card has another of its kind behind it. */
static int has_more_of_a_kind(const card *c)
{
    for (uint32_t block = 0; block < c->length / MCS_BLOCK_OCTETS; block++) {
        if (!is_last_of_kind(c, block)) {
            return 1;
        }
    }
    return 0;
}

static void count_again(const run *r)
{
    if (r->second_said.number == 0 && same_card(&r->written, &r->lent_card)) {
        by_again[GIVEN_BACK]++;
        by_again[MORE_OF_A_KIND] += has_more_of_a_kind(&r->lent_card) != 0;
    }
    by_again[NO_CATALOGUE] += r->second_said.number == MCS_BAD_CATALOGUE;
}

static void count_written(const run *r, const step *s)
{
    uint32_t room = s->room[0], octets = r->written.length;
    if (r->swapped) {
        count_again(r);
    }
    if (r->second_said.number == 0) {
        by_room[NO_BLOCKS] += octets == 0;
        by_room[EXACT_ROOM] += octets > 0 && room == octets;
        by_room[ROOM_BEHIND] += octets > 0 && room > octets;
    }
    by_room[ONE_OCTET_SHORT] += r->second_said.number == MCS_NO_CARD_ROOM && room % MCS_BLOCK_OCTETS == MCS_BLOCK_OCTETS - 1u;
}

/* ---- A yes or no that is neither 1 nor 0: which octet, with what value, and the number of the same call without it, so that
 * 201 is seen to come before that number */

/* A state that only these octets make wrong; counted where it is one octet. */
static void count_alone(const ref_state *s)
{
    uint32_t kind = 0, client = 0, found = 0;
    uint8_t value = 0;
    for (uint32_t k = 0; k < 2u * REF_CLIENTS; k++) {
        const ref_link *l = &s->links[k / 2u];
        uint8_t truth = k % 2u == 0 ? l->connected : l->encrypted;
        if (truth > 1) {
            kind = k % 2u == 0 ? CONNECTED : l->connected != 0 ? ENCRYPTED : ENCRYPTED_UNCONNECTED;
            client = k / 2u;
            value = truth;
            found++;
        }
    }
    if (found == 1) {
        by_truth[kind][client]++;
        by_truth_value[value]++;
    }
}

/* The second program's number for the call with a yes in each one's place, or a no where nobody is connected. */
static uint32_t mended_number(const run *r, const step *s)
{
    static ref_state mended;
    mended = r->second;
    for (uint32_t k = 0; k < REF_CLIENTS; k++) {
        ref_link *l = &mended.links[k];
        l->connected = l->connected != 0;
        l->encrypted = l->encrypted > 1 ? l->connected : l->encrypted;
    }
    return number_on(r, s, &mended, s->service);
}

static void count_truths(const run *r, const step *s)
{
    uint32_t number = r->second_said.number;
    if (number == MCS_BAD_STATE) {
        number = mended_number(r, s);
        if (number != MCS_BAD_STATE) {
            count_alone(&r->second);
        }
    }
    by_mended[s->kind][counted_as(number)]++;
}

/* ---- Texts that are not UTF-8 (SCOPE 20.4): bad titles by where they are wrong and beside what, and bad names */

static void count_title(const tables *t, struct mcs_place place)
{
    uint32_t at = track_word(t, place.track, TITLE_OFFSET), length = track_word(t, place.track, TITLE_LENGTH);
    uint32_t next = next_bad_title(t, place.track + 1u);
    by_title[AT_FIRST] += place.octet == 0;
    by_title[AMONG] += place.octet > 0 && place.octet + 1u < length;
    by_title[AT_127] += place.octet == 127;
    by_title[CUT_OFF] += is_cut_off(t->text + at, place.octet, length) != 0;
    by_title[OF_LAST_TRACK] += place.track + 1u == track_count(t);
    if (next < track_count(t)) {
        uint32_t other = track_word(t, next, TITLE_OFFSET), other_length = track_word(t, next, TITLE_LENGTH);
        int alike = other == at && other_length == length;
        by_title[OF_TWO]++;
        by_title[OF_TWO_ALIKE] += alike != 0;
        by_title[OF_TWO_OVERLAPPING] += !alike && other < at + length && at < other + other_length;
    }
}

/* A 200 that carries nothing: with a bad title beside what is wrong, it is seen to come before that. */
static void count_bare(const tables *t)
{
    uint32_t title = next_bad_title(t, 0), wrong_before = 0, wrong_behind = 0;
    if (title == track_count(t)) {
        by_bare[NO_BAD_TITLE]++;
        return;
    }
    for (uint32_t k = 0; k < track_count(t); k++) {
        wrong_before |= k < title && !duration_and_title_fit(t, k);
        wrong_behind |= k > title && !duration_and_title_fit(t, k);
    }
    by_bare[WRONG_TRACK_BEFORE] += wrong_before;
    by_bare[WRONG_TRACK_BEHIND] += wrong_behind && !wrong_before;
    by_bare[WRONG_ELSEWHERE] += !wrong_behind && !wrong_before;
}

static void count_name(unsigned long counts[NAME_CASES], const uint8_t *octets, uint32_t length, uint32_t octet)
{
    if (length > 128) {
        uint32_t wrong = wrong_octet(octets, length);
        counts[LONG_RIGHT] += wrong == length;
        counts[LONG_WRONG_BEFORE] += wrong < 128;
        counts[ONE_OCTET_LONG] += length == 129;
        return;
    }
    counts[NAME_AT_FIRST] += octet == 0;
    counts[NAME_AMONG] += octet > 0 && octet + 1u < length;
    counts[NAME_AT_127] += octet == 127;
    counts[NAME_CUT_OFF] += is_cut_off(octets, octet, length) != 0;
}

/* The name that is told of, which of a start is the first bad one. */
static void count_bad_name(const step *s, uint32_t octet)
{
    uint32_t service = 0;
    if (s->kind != START) {
        count_name(by_name[SET_NAMES_NAME], s->octets, s->length, octet);
        return;
    }
    while (wrong_octet_of_name(s->octets + START_NAME_AT(service), s->players[service].length) == MCS_NOWHERE) {
        service++;
    }
    count_name(by_name[service], s->octets + START_NAME_AT(service), s->players[service].length, octet);
}

static void count_place(const run *r, const step *s)
{
    struct mcs_place place = place_of(&r->lent, s, r->second_said.number);
    if (place.track != MCS_NOWHERE) {
        carrying[s->kind]++;
        count_title(&r->lent, place);
    } else if (r->second_said.number == MCS_BAD_CATALOGUE) {
        bare[s->kind]++;
        count_bare(&r->lent);
    } else if (r->second_said.number == MCS_BAD_NAME) {
        count_bad_name(s, place.octet);
    }
}

void count_call(const run *r, const step *s, uint32_t share)
{
    uint32_t number = r->second_said.number;
    calls++;
    by_share[share]++;
    by_number[s->kind][counted_as(number)]++;
    by_twice[s->kind][number == 0] += s->twice;
    unchanged[s->kind] += r->unchanged != 0;
    if (number == 0) {
        count_accepted(r, s);
    }
    if (s->kind == CUE_SHEET) {
        count_sheet(r, s);
    }
    if (s->kind == CARD_LOAD) {
        count_blocks(r, s);
    }
    if (s->kind == CARD_WRITE) {
        count_written(r, s);
    }
    count_place(r, s);
    if (has_state(s->kind)) {
        count_services(r, s);
        count_numbers(r, s);
        count_titles(r, s);
        count_clock(r, s);
        count_quiet(r, s);
    }
    if (s->kind == MANUAL_GOTO && number == 0) {
        count_manual(r, s);
    }
    if (writes_object(s->kind) || reads_object(s->kind)) {
        count_object(r, s);
    }
    if (has_state(s->kind) && s->kind != START && !plain_truths(r->octets)) {
        count_truths(r, s);
    }
}

unsigned long calls_counted(void) { return calls; }

/* ---- All counts */

/* An unknown opcode gives 2 alone. Only a neighbour and a Goto, of tracks and of groups, can be missing, and of segments a later
 * one, where a recording is still running (SCOPE 10.4). */
static int result_can_be(uint32_t place, uint32_t result)
{
    uint8_t opcode = place < OPCODES ? OPCODE[place] : 0;
    if (opcode == 0 || result == 0) {
        return result == MCS_RESULT_NOT_SUPPORTED;
    }
    return result != MCS_RESULT_NOT_COMPLETED || opcode == MCS_OPCODE_NEXT_SEGMENT || opcode == MCS_OPCODE_GOTO_SEGMENT ||
           (opcode >= MCS_OPCODE_PREVIOUS_TRACK && (opcode & 15) != 2 && (opcode & 15) != 3);
}

static void tell_player(void)
{
    static const char *const MOVE[MOVES] = {"Previous", "Next", "First", "Last", "Goto"};
    static const int RUNG[8] = {-32, -16, -8, -4, 4, 8, 16, 32};
    for (uint32_t k = 0; k < REF_SERVICES * (OPCODES + 1u); k++) {
        uint32_t service = k % REF_SERVICES, place = k / REF_SERVICES;
        row("results of opcode %s in service %u", place < OPCODES ? mcs_opcode_words(OPCODE[place]) : "unknown",
            (unsigned)service);
        for (uint32_t result = 0; result <= 4; result++) {
            tell(by_result[service][place][result], (unsigned long)result_can_be(place, result), "%u", (unsigned)result);
        }
    }
    /* Past an end comes the other end in a repeat order, else result 4 (SCOPE 11.5); in order 1 there is no neighbour, and the
     * next track is one that is named (SCOPE 14.5). */
    for (uint32_t order = 1; order <= 8; order++) {
        row("track moves in order %u", (unsigned)order);
        for (uint32_t move = 0; move < MOVES; move++) {
            tell(by_move[order][move][1], order != 1 || move > 0, "%s", MOVE[move]);
            tell(by_move[order][move][4], order % 2u == 1 && move != 2 && move != 3, "%s not made", MOVE[move]);
        }
    }
    row("Previous Segment");
    for (uint32_t k = 0; k < PREVIOUS_FROM; k++) {
        static const char *const FROM[PREVIOUS_FROM] = {
            "in the first segment", "at a start", "1 to 298 past", "299 past", "300 past", "further past"};
        tell(by_previous[k], 1, "%s", FROM[k]);
    }
    row("running recordings");
    for (uint32_t k = 0; k < RUNNING_CASES; k++) {
        static const char *const WHAT[RUNNING_CASES] = {"advance to the end", "advance at the end", "Seeking at the end",
                                                        "negative position write"};
        tell(by_running[k], 1, "%s", WHAT[k]);
    }
    for (uint32_t service = 0; service < REF_SERVICES; service++) {
        row("service %u after accepted calls", (unsigned)service);
        for (uint32_t k = 0; k < 4; k++) {
            tell(by_media[service][k], 1, "%s", mcs_media_state_words(k));
        }
        for (uint32_t k = 1; k <= 8; k++) {
            tell(by_order[service][k], 1, "order %u", (unsigned)k);
        }
        for (uint32_t k = 0; k < 8; k++) {
            tell(by_rung[service][(uint8_t)RUNG[k]], 1, "seeking speed %d", RUNG[k]);
        }
    }
}

static void tell_characteristics(const char *name, unsigned long counts[REF_SERVICES][CHARACTERISTIC_BOUND], uint32_t property)
{
    for (uint32_t service = 0; service < REF_SERVICES; service++) {
        row("%s in service %u, by characteristic", name, (unsigned)service);
        for (uint32_t k = 1; k < CHARACTERISTIC_BOUND; k++) {
            tell(counts[service][k], (properties_of(k) & property) != 0, "%u", (unsigned)k);
        }
    }
}

static void tell_truths(void)
{
    static const char *const NAME[TRUTHS] = {"connected", "encrypted, connected", "encrypted, not connected"};
    unsigned long rarest = by_truth_value[2];
    for (uint32_t kind = SET_NAME; has_state(kind); kind++) {
        row("%s with a yes or no that is neither, by its number without it", CALL_NAME[kind]);
        tell_numbers(kind, by_mended[kind], 0, 0);
    }
    for (uint32_t kind = 0; kind < TRUTHS; kind++) {
        row("refused for a yes or no alone, %s, by client", NAME[kind]);
        for (uint32_t k = 0; k < REF_CLIENTS; k++) {
            tell(by_truth[kind][k], LEAST_TRUTHS, "%u", (unsigned)k);
        }
    }
    for (uint32_t value = 2; value < NUMBERS; value++) {
        rarest = by_truth_value[value] < rarest ? by_truth_value[value] : rarest;
    }
    row("refused for a yes or no alone");
    tell(rarest, 1, "with the rarest octet of 2 to 255");
}

/* Octets that mean nothing, where they are seen to be as they have to be: by the calls that can show it. */
static void tell_dead(void)
{
    enum { BUT_START = (1u << CARD_LOAD) - 2u, CLEARING = 1u << START | 1u << CONNECT | 1u << DISCONNECT };
    static const struct {
        const char *words;
        uint32_t kinds;
    } RULE[DEAD_RULES] = {
        [TAIL_STAYS] = {"octets behind a name stay", BUT_START},
        [TAIL_CLEARED] = {"octets behind a name become 0", 1u << START},
        [RESULTS_STAY] = {"results that do not wait stay", BUT_START},
        [RESULTS_CLEARED] = {"results become 0", CLEARING},
        [RESULTS_MOVED] = {"results that do not wait move forward", 1u << TAKE},
        [RESULT_ADDED] = {"a result is written over another", 1u << WRITE},
        [RESULTS_DROPPED] = {"results are dropped and stay", 1u << UNSUBSCRIBE},
    };
    for (uint32_t rule = 0; rule < DEAD_RULES; rule++) {
        row("%s", RULE[rule].words);
        for (uint32_t kind = 0; kind < CALLS; kind++) {
            tell(by_dead[rule][kind], RULE[rule].kinds >> kind & 1u, "%s", CALL_NAME[kind]);
        }
    }
}

/* What is refused for 214 has a block behind it, and this one has the same kind, which is therefore right. */
static void tell_short(void)
{
    static const char *const KIND[TABLES] = {"groups", "tracks", "segments", "text"};
    static const char *const WHAT[SHORT_BLOCKS] = {"the first of the kind", "one within", "short by one record"};
    for (uint32_t table = 0; table < TABLES; table++) {
        row("blocks of %s refused for 214", KIND[table]);
        for (uint32_t k = 0; k < SHORT_BLOCKS; k++) {
            tell(by_short[table][k], 1, "%s", WHAT[k]);
        }
    }
    for (uint32_t refused = 0; refused < 2; refused++) {
        const unsigned long *counts = refused ? refused_before : right_before;
        row("short blocks that are %s, by the block behind", refused ? "refused for 214" : "right");
        for (uint32_t k = 0; k < REASONS; k++) {
            tell(counts[k], !refused || k != WRONG_KIND, "%u", (unsigned)REASON_NUMBER[k]);
        }
        tell(counts[IS_GOOD], 1, "good");
        tell(counts[IS_NONE], !refused, "none");
    }
}

static void tell_cards(void)
{
    static const char *const PLACE[BLOCK_PLACES] = {"the first", "one in the middle", "the last"};
    static const char *const WHAT[WRITE_BOUNDS] = {"no blocks", "exact room", "room behind", "an octet short of a block"};
    static const char *const AGAIN[WRITTEN_AGAIN] = {"the card given back", "with two blocks of a kind", "200"};
    for (uint32_t k = 0; k < REASONS; k++) {
        row("card loads refused for %u alone, by the block", (unsigned)REASON_NUMBER[k]);
        for (uint32_t place = 0; place < BLOCK_PLACES; place++) {
            tell(by_reason[k][place], k != NOT_FULL || place != LAST_BLOCK, "%s", PLACE[place]);
        }
    }
    row("two reasons in the block that is named");
    for (uint32_t k = 0; k < REASONS; k++) {
        for (uint32_t other = k + 1u; other < REASONS; other++) {
            tell(by_pair[k][other], 1, "%u and %u", (unsigned)REASON_NUMBER[k], (unsigned)REASON_NUMBER[other]);
        }
    }
    for (uint32_t k = 0; k < REASONS; k++) {
        row("card loads refused for %u, by the next bad block's reason", (unsigned)REASON_NUMBER[k]);
        for (uint32_t other = 0; other < REASONS; other++) {
            tell(by_two[k][other], 1, "%u", (unsigned)REASON_NUMBER[other]);
        }
    }
    for (uint32_t k = 0; k < REASONS; k++) {
        row("bad blocks with %u", (unsigned)REASON_NUMBER[k]);
        tell(by_overfull[k][BEHIND_LIMIT], 1, "behind more than a limit");
        tell(by_overfull[k][BEHIND_ROOM], 1, "behind more than the room");
        tell(by_length[k], 1, "on a card of a wrong length");
    }
    tell_short();
    row("card writes");
    for (uint32_t k = 0; k < WRITE_BOUNDS; k++) {
        tell(by_room[k], 1, "%s", WHAT[k]);
    }
    row("card writes of what was loaded");
    for (uint32_t k = 0; k < WRITTEN_AGAIN; k++) {
        tell(by_again[k], 1, "%s", AGAIN[k]);
    }
}

static void tell_places(void)
{
    static const char *const TITLE_CASE[TITLE_CASES] = {
        "at the first octet", "further on",      "at octet 127",         "in a character that is cut off",
        "in the last track",  "with one behind", "with the same behind", "with one behind that overlaps it"};
    static const char *const BARE_CASE[BARE_CASES] = {"no title bad", "a wrong track before a bad title",
                                                      "a wrong track behind a bad title", "a bad title and no wrong track"};
    static const char *const NAME_CASE[NAME_CASES] = {
        "wrong at the first octet",        "further on",   "at octet 127", "in a character that is cut off", "long and right",
        "long and wrong before octet 128", "of 129 octets"};
    row("200 for a bad title");
    for (uint32_t kind = 0; kind < CALLS; kind++) {
        tell(carrying[kind], (unsigned long)has_catalogue(kind), "%s", CALL_NAME[kind]);
    }
    row("200 that carries nothing");
    for (uint32_t kind = 0; kind < CALLS; kind++) {
        tell(bare[kind], (unsigned long)has_catalogue(kind), "%s", CALL_NAME[kind]);
    }
    row("the lowest bad title");
    for (uint32_t k = 0; k < TITLE_CASES; k++) {
        tell(by_title[k], 1, "%s", TITLE_CASE[k]);
    }
    row("200 that carries nothing, by what else is bad");
    for (uint32_t k = 0; k < BARE_CASES; k++) {
        tell(by_bare[k], 1, "%s", BARE_CASE[k]);
    }
    for (uint32_t by = 0; by < NAMED_BY; by++) {
        row(by == SET_NAMES_NAME ? "set name refused for a name" : "start refused for the name of service %u", (unsigned)by);
        for (uint32_t k = 0; k < NAME_CASES; k++) {
            tell(by_name[by][k], 1, "%s", NAME_CASE[k]);
        }
    }
}

static void tell_sheets(void)
{
    static const char *const NAME[BOUNDS] = {"accepted without starts", "accepted with no room left",
                                             "accepted with 65,536 octets", "refused with 65,537 octets"};
    for (uint32_t k = 0; k < 12; k++) {
        if (k % 4u == 0) {
            row("cue sheets with %u, by what would have come next", (unsigned)(MCS_LONG_SHEET + k / 4u));
        }
        tell(by_next[k / 4u][k % 4u], 1, "%u", (unsigned)NEXT[k % 4u]);
    }
    row("cue sheets");
    for (uint32_t k = 0; k < BOUNDS; k++) {
        tell(by_bound[k], 1, "%s", NAME[k]);
    }
}

static void tell_all(void)
{
    static const char *const SHARE_NAME[SHARES] = {
        "histories",          "valid states",   "damaged states",           "any octets as a state",
        "damaged catalogues", "damaged titles", "any words as a catalogue", "cards",
        "cue sheets",         "objects"};
    row("calls by where what they are lent came from");
    for (uint32_t k = 0; k < SHARES; k++) {
        tell(by_share[k], 1, "%s", SHARE_NAME[k]);
    }
    for (uint32_t kind = 0; kind < CALLS; kind++) {
        row("%s", CALL_NAME[kind]);
        tell_numbers(kind, by_number[kind], 0, 0);
    }
    row("made twice, over two stacks");
    for (uint32_t kind = 0; kind < CALLS; kind++) {
        tell(by_twice[kind][1], 1, "%s accepted", CALL_NAME[kind]);
        tell(by_twice[kind][0], 1, "refused");
    }
    /* A connect and a disconnect change the record's first octet; every other call can change nothing. */
    row("accepted and changed nothing");
    for (uint32_t kind = SET_NAME; has_state(kind); kind++) {
        tell(unchanged[kind], kind != CONNECT && kind != DISCONNECT, "%s", CALL_NAME[kind]);
    }
    tell_dead();
    tell_player();
    tell_characteristics("takes", taken, MCS_MAY_NOTIFY);
    row("takes");
    tell(taken[MCS_GENERIC][MCS_NOTHING], 1, "nothing owed");
    tell_characteristics("reads at 0", read_whole, MCS_MAY_READ);
    tell_characteristics("reads above 0", read_on, MCS_MAY_READ);
    tell_characteristics("writes", written, MCS_MAY_WRITE);
    tell_services();
    tell_objects();
    tell_titles();
    tell_clock();
    tell_manual();
    tell_quiet();
    tell_truths();
    tell_places();
    tell_cards();
    tell_sheets();
}

int counts_are_right(FILE *out, int all) { return rows_are_right(out, all, tell_all); }
