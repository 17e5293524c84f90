/* Bad blocks: each reason alone and with another in every block, two bad blocks, bad blocks where 210 or 212 applies too, the
 * octets at the bounds of each rule, and short blocks by what is behind them. A comment that names a rule, such as SCOPE 18.2,
 * says it in a few words; docs/SCOPE.md has the rule. */
#include "blocks.h"
#include "cases.h"
#include "expect.h"

#include <string.h>

/* Blocks 0 and 1 hold groups, 2 to 4 tracks, 5 and 6 segments, 7 and 8 text. Those of a kind are full but for the last, which has
 * one record; no octet of a record is 0. */
enum { BLOCKS = 9, FIRST_THAT_CAN_FALL = 3 };

static void made(uint32_t groups)
{
    static tables t;
    step s = blank(MAKE_CARD);
    memset(&t, 0x11, sizeof t);
    t.length[GROUPS] = MCS_GROUP_WORDS * groups;
    t.length[TRACKS] = MCS_TRACK_WORDS * (2u * block_room(TRACKS) + 1u);
    t.length[SEGMENTS] = block_room(SEGMENTS) + 1u;
    t.length[TEXT] = block_room(TEXT) + 1u;
    rename_nothing(&t);
    begin_run(both, &t);
    do_step(both, &s);
}

static void spoil(uint32_t block, uint32_t reasons, uint32_t how)
{
    step s = blank(SPOIL_BLOCK);
    s.who = block;
    s.number = reasons;
    s.what = how;
    do_step(both, &s);
}

/* Gives this number, and where it names a block, that one. */
static void loads(uint32_t room_of_groups, uint32_t number, uint32_t block)
{
    step s = blank(CARD_LOAD);
    for (uint32_t table = 0; table < TABLES; table++) {
        s.room[table] = table == GROUPS ? room_of_groups : table_room(table);
    }
    makes(s, number);
    if (mcs_names_block(number)) {
        expect("the block", both->library_said.block, block);
    }
}

/* Whether a block of that card can be bad for these reasons and no other. The last is the last of its kind; and a wrong kind of the
 * first ones is none that there is, so that they are not short beside it and have no padding. */
static int can_be(uint32_t block, uint32_t reasons)
{
    int wrong_kind = (reasons >> WRONG_KIND & 1u) != 0, not_full = (reasons >> NOT_FULL & 1u) != 0;
    int wrong_padding = (reasons >> WRONG_PADDING & 1u) != 0;
    return !(not_full && block + 1u == BLOCKS) && !(wrong_kind && (not_full || wrong_padding) && block < FIRST_THAT_CAN_FALL);
}

/* The reasons, in their order within a block: 211 check, 215 block number, 216 kind, 217 count, 214 not full, 218 padding (SCOPE
 * 3.12). */
static void reason_cases(uint32_t how)
{
    now_trying("a bad block");
    for (uint32_t k = 0; k < BLOCKS * REASONS * REASONS; k++) {
        uint32_t block = k / (REASONS * REASONS), one = k / REASONS % REASONS, other = k % REASONS;
        uint32_t reasons = 1u << one | 1u << other, first = one < other ? one : other;
        if (!can_be(block, reasons)) {
            continue;
        }
        made(block_room(GROUPS) + 1u);
        spoil(block, reasons, how);
        expect("what is wrong", reasons_against(&both->lent_card, block), reasons);
        loads(table_room(GROUPS), REASON_NUMBER[first], block);
    }
}

/* The lowest bad block is named (SCOPE 3.12). */
static void two_cases(void)
{
    now_trying("two bad blocks");
    for (uint32_t k = 0; k < BLOCKS * BLOCKS * REASONS * REASONS; k++) {
        uint32_t lower = k % BLOCKS, higher = k / BLOCKS % BLOCKS, one = k / (BLOCKS * BLOCKS) % REASONS;
        uint32_t other = k / (BLOCKS * BLOCKS * REASONS);
        if (lower < higher && can_be(higher, 1u << other)) {
            made(block_room(GROUPS) + 1u);
            spoil(higher, 1u << other, k);
            spoil(lower, 1u << one, k + 1u);
            loads(table_room(GROUPS), REASON_NUMBER[one], lower);
        }
    }
}

/* The six stand where 211 stood in the table: behind 210, before 212. */
static void place_in_table_cases(void)
{
    for (uint32_t k = 0; k < BLOCKS * REASONS; k++) {
        uint32_t block = k / REASONS, reason = k % REASONS;
        step longer = blank(CARD_LENGTH);
        if (!can_be(block, 1u << reason)) {
            continue;
        }
        now_trying("65 groups, and a bad block");
        made(MCS_MOST_GROUPS + 1u);
        loads(table_room(GROUPS), MCS_NO_ROOM, 0);
        spoil(block, 1u << reason, k);
        loads(table_room(GROUPS), REASON_NUMBER[reason], block);
        now_trying("no room for groups, and a bad block");
        made(block_room(GROUPS) + 1u);
        loads(0, MCS_NO_ROOM, 0);
        spoil(block, 1u << reason, k);
        loads(0, REASON_NUMBER[reason], block);
        now_trying("a length that is wrong, and a bad block");
        longer.number = both->lent_card.length + 1u;
        do_step(both, &longer);
        loads(table_room(GROUPS), MCS_BAD_CARD_LENGTH, 0);
    }
}

static void bound_cases(void)
{
    static const struct {
        const char *what;
        uint32_t block, at, to, mended, number;
    } CASES[] = {
        {"a sum of 0", 0, 510, 0, 0, MCS_BAD_CHECK},
        {"a sum of sums of 0", 8, 511, 0, 0, MCS_BAD_CHECK},
        {"another octet of text", 8, 5, 'x', 0, MCS_BAD_CHECK},
        {"another octet of text, mended", 8, 5, 'x', 1, 0},
        {"block number 0 in block 1", 1, 0, 0, 1, MCS_BAD_BLOCK_NUMBER},
        {"block number 2 in block 1", 1, 0, 2, 1, MCS_BAD_BLOCK_NUMBER},
        {"block number 257 in block 1", 1, 1, 1, 1, MCS_BAD_BLOCK_NUMBER},
        {"block number 2 in block 1, not mended", 1, 0, 2, 0, MCS_BAD_CHECK},
        {"kind 0", 0, 2, 0, 1, MCS_BAD_KIND},
        {"kind 5", 8, 2, 5, 1, MCS_BAD_KIND},
        {"kind 255", 4, 2, 255, 1, MCS_BAD_KIND},
        {"kind 1 behind kind 2", 3, 2, 1, 1, MCS_BAD_KIND},
        {"kind 3 behind kind 4", 8, 2, 3, 1, MCS_BAD_KIND},
        {"a block of one group as one track, before tracks", 1, 2, 2, 1, MCS_NOT_FULL},
        {"a block of one group as one segment, before tracks", 1, 2, 3, 1, MCS_BAD_PADDING},
        {"a block of one track as one segment, before segments", 4, 2, 3, 1, MCS_NOT_FULL},
        {"a block of one segment as an octet of text, before text", 6, 2, 4, 1, MCS_NOT_FULL},
        {"0 groups", 1, 3, 0, 1, MCS_BAD_COUNT},
        {"0 of 42 groups", 0, 3, 0, 1, MCS_BAD_COUNT},
        {"43 groups", 0, 3, 43, 1, MCS_BAD_COUNT},
        {"22 tracks", 2, 3, 22, 1, MCS_BAD_COUNT},
        {"257 tracks", 4, 4, 1, 1, MCS_BAD_COUNT},
        {"127 segments", 5, 3, 127, 1, MCS_BAD_COUNT},
        {"506 octets of text", 7, 3, 506 & 255, 1, MCS_BAD_COUNT},
        {"41 of 42 groups, and an octet behind them", 0, 3, 41, 1, MCS_NOT_FULL},
        {"20 of 21 tracks, and an octet behind them", 3, 3, 20, 1, MCS_NOT_FULL},
        {"125 of 126 segments, and an octet behind them", 5, 3, 125, 1, MCS_NOT_FULL},
        {"504 of 505 octets of text, and one behind them", 7, 3, 504 & 255, 1, MCS_NOT_FULL},
        {"2 groups, of which the second is 0", 1, 3, 2, 1, 0},
        {"the first octet behind a group", 1, 17, 1, 1, MCS_BAD_PADDING},
        {"the last octet of a group", 1, 16, 1, 1, 0},
        {"the first octet behind an octet of text", 8, 6, 1, 1, MCS_BAD_PADDING},
        {"the last octet behind 42 groups", 0, 509, 1, 1, MCS_BAD_PADDING},
        {"the last octet behind 21 tracks", 2, 509, 1, 1, MCS_BAD_PADDING},
        {"the last octet behind 126 segments", 5, 509, 255, 1, MCS_BAD_PADDING},
        {"the last octet behind a segment", 6, 509, 128, 1, MCS_BAD_PADDING},
        {"the last of 505 octets of text", 7, 509, 1, 1, 0},
    };
    for (uint32_t k = 0; k < sizeof CASES / sizeof CASES[0]; k++) {
        step poke_octet = blank(POKE_CARD), mend = blank(MEND_BLOCK);
        now_trying(CASES[k].what);
        made(block_room(GROUPS) + 1u);
        poke_octet.number = MCS_BLOCK_OCTETS * CASES[k].block + CASES[k].at;
        poke_octet.what = CASES[k].to;
        expect("whether the octet is as it was", both->lent_card.octets[poke_octet.number] == CASES[k].to, 0);
        do_step(both, &poke_octet);
        mend.number = CASES[k].block;
        if (CASES[k].mended) {
            do_step(both, &mend);
        }
        loads(table_room(GROUPS), CASES[k].number, CASES[k].block);
    }
}

/* ---- Short blocks */

typedef struct {
    uint32_t table, count;
} block_of;

/* The blocks that are listed, and how many they are. */
#define BLOCKS_OF(...) (const block_of[]){__VA_ARGS__}, sizeof((const block_of[]){__VA_ARGS__}) / sizeof(block_of)

/* A card of these blocks; no octet of a record is 0. */
static void made_of(const block_of *blocks, size_t count)
{
    static tables t;
    memset(&t, 0x11, sizeof t);
    memset(t.length, 0, sizeof t.length);
    begin_run(both, &t);
    for (size_t k = 0; k < count; k++) {
        add_block(&t, blocks[k].table, 0, blocks[k].count, &both->lent_card);
    }
}

static void gives(uint32_t number, uint32_t block, const block_of *blocks, size_t count)
{
    made_of(blocks, count);
    loads(table_room(GROUPS), number, block);
}

/* A card is refused where a block that is not the last of its kind is not full (SCOPE 3.8): of each kind with one record, and
 * short by one. */
static void short_cases(void)
{
    for (uint32_t k = 0; k < TABLES * 2u; k++) {
        uint32_t table = k / 2u, most = block_room(table), few = k % 2u == 0 ? 1 : most - 1u;
        uint32_t accepted =
            table == GROUPS && most + few > MCS_MOST_GROUPS ? MCS_NO_ROOM : 0; /* 42 groups and 41 are too many */
        block_of one = {table, 1}, full = {table, most}, short_one = {table, few};
        now_trying("a short block that is not the last of its kind");
        gives(MCS_NOT_FULL, 0, BLOCKS_OF(short_one, one));
        gives(MCS_NOT_FULL, 0, BLOCKS_OF(short_one, full));
        gives(MCS_NOT_FULL, 0, BLOCKS_OF(short_one, full, one));
        gives(MCS_NOT_FULL, 0, BLOCKS_OF(short_one, short_one, one));
        gives(MCS_NOT_FULL, 1, BLOCKS_OF(full, short_one, one));
        gives(MCS_NOT_FULL, 1, BLOCKS_OF(full, short_one, full));
        now_trying("a short block that is the last of its kind");
        gives(0, 0, BLOCKS_OF(short_one));
        gives(accepted, 0, BLOCKS_OF(full, short_one));
        for (uint32_t behind = table + 1u; behind < TABLES; behind++) {
            block_of next = {behind, 1};
            gives(0, 0, BLOCKS_OF(short_one, next));
            gives(accepted, 0, BLOCKS_OF(full, short_one, next));
            gives(MCS_NOT_FULL, 1, BLOCKS_OF(short_one, next, next));
        }
    }
}

/* Whether a block is the last of its kind is judged by the kind octet of the block behind it, even if that one is bad (SCOPE
 * 3.8): every octet there, behind tracks that are short by one and behind full ones, in a block that is right as tracks, as
 * segments and as text. Its sums are mended, or those that it has as text. */
static void octet_behind_cases(void)
{
    now_trying("a kind octet behind a block of tracks");
    for (uint32_t k = 0; k < 256u * 4u; k++) {
        uint32_t octet = k % 256u, full = k / 256u % 2u, mended = k / 512u;
        int wrong_sums = !mended && octet != TEXT + 1u, right_kind = octet >= TRACKS + 1u && octet <= TEXT + 1u;
        made_of(BLOCKS_OF({TRACKS, block_room(TRACKS) - 1u + full}, {TEXT, 1}));
        both->lent_card.octets[MCS_BLOCK_OCTETS + KIND_AT] = (uint8_t)octet;
        if (mended) {
            mend_block(&both->lent_card, 1);
        }
        if (octet == TRACKS + 1u && !full) {
            loads(table_room(GROUPS), MCS_NOT_FULL, 0);
        } else {
            loads(table_room(GROUPS), wrong_sums ? MCS_BAD_CHECK : right_kind ? 0 : MCS_BAD_KIND, 1);
        }
    }
}

/* The block behind, of the same kind or of the next, is bad for each reason. A wrong kind is another than the short block has. */
static void bad_behind_cases(void)
{
    for (uint32_t k = 0; k < TABLES * 2u * REASONS * 4u; k++) {
        uint32_t table = k % TABLES, same = k / TABLES % 2u, reason = k / (TABLES * 2u) % REASONS;
        uint32_t behind = same ? table : table + 1u;
        if (behind == TABLES) {
            continue;
        }
        now_trying(same ? "a short block before a bad one of its kind" : "a short block before a bad one of the next kind");
        made_of(BLOCKS_OF({table, block_room(table) - 1u}, {behind, block_room(behind)}, {behind, 1}));
        spoil(1, 1u << reason, k);
        if (same && reason != WRONG_KIND) {
            loads(table_room(GROUPS), MCS_NOT_FULL, 0);
        } else {
            loads(table_room(GROUPS), REASON_NUMBER[reason], 1);
        }
    }
}

/* The longest card, of more text than a catalogue has: a bad block at its ends and in its middle. */
static void longest_cases(void)
{
    static const uint32_t PLACE[4] = {0, MOST_BLOCKS / 2u, MOST_BLOCKS - 2u, MOST_BLOCKS - 1u};
    block_of blocks[MOST_BLOCKS];
    now_trying("128 blocks of text");
    for (uint32_t k = 0; k < MOST_BLOCKS; k++) {
        blocks[k] = (block_of){TEXT, block_room(TEXT)};
    }
    for (uint32_t k = 0; k < 4u * REASONS; k++) {
        uint32_t place = PLACE[k / REASONS], reason = k % REASONS;
        made_of(blocks, MOST_BLOCKS);
        loads(table_room(GROUPS), MCS_NO_ROOM, 0);
        spoil(place, 1u << reason, k);
        loads(table_room(GROUPS), reason == NOT_FULL && place == MOST_BLOCKS - 1u ? MCS_NO_ROOM : REASON_NUMBER[reason], place);
    }
}

static void all_bad_blocks(void)
{
    for (uint32_t how = 0; how < 8; how++) {
        reason_cases(how);
    }
    two_cases();
    place_in_table_cases();
    bound_cases();
    short_cases();
    octet_behind_cases();
    bad_behind_cases();
    longest_cases();
}

unsigned long play_bad_blocks(FILE *out, run *r) { return expect_on(r, out, all_bad_blocks); }
