/* The rows of the report: a call on a catalogue and a state, the same for all programs. */
#ifndef ROWS_H
#define ROWS_H

#include "calls.h"
#include "card.h"
#include "catalogues.h"
#include "ref.h"
#include "sheets.h"

/* A state, as each program holds it. */
typedef struct {
    uint8_t octets[MCS_STATE_OCTETS];
    ref_state state;
} desk;

/* What a call hands back beside its number and the state. */
typedef struct {
    uint8_t out[MCS_OUTPUT_OCTETS];
    uint32_t word, served[SERVED_WORDS], part[MCS_PART_WORDS], made[MCS_GOTO_MADE_WORDS], place[MCS_GOTO_PLACE_WORDS];
    uint32_t counts[4], block, line, track, octet;
    size_t count;
    tables loaded;
    uint32_t entries[MOST_STARTS];
    uint8_t written[MCS_CARD_OCTETS];
} answers;

/* The call with a state and answers that are lent to it. They are filled, always alike, so that what a call leaves alone can be
 * compared as well. */
call lend(call made, void *state, answers *a);

typedef struct {
    const char *name;
    const catalogue *lent;
    call made; /* without a state */
    desk before;
    uint32_t number; /* what all must return */
} row;

#define MOST_ROWS 384u

typedef struct {
    row rows[MOST_ROWS];
    size_t count;
} table;

/* Every call on a catalogue, and refusals of one. */
void add_calls(table *t, const catalogue *c);

/* An advance within a track at speed 32, and one while Paused, beside that at speed 0 among all calls: what the table of speeds
 * costs. */
void add_speeds(table *t, const catalogue *c);

/* Manual Gotos with as many steps allowed as they have: of segments and of tracks, few steps and many; and of groups, which never
 * repeat, on a catalogue that has more of them than the few. */
void add_gotos(table *t, const catalogue *c);
void add_group_gotos(table *t, const catalogue *c);

/* Some calls on a catalogue whose tracks the office has renamed. */
void add_renamed(table *t, const catalogue *c);

/* No call is the text check alone: a name is set where there is no catalogue to check, and the name that stands is empty. */
void add_text_checks(table *t);

/* A call that is hardly more than the catalogue check: Deactivate while Inactive. */
void add_check(table *t, const catalogue *c);

/* A sheet of every kind. */
void add_cue_sheets(table *t);

void add_card_load(table *t, const catalogue *c);

/* Whether all programs give the same to a row: number, state and answers. */
int row_agrees(const row *r);

#endif
