/* What is lent to each program: to the second program in plain memory, to the library copies in guarded memory. */
#ifndef LEND_H
#define LEND_H

#include "run.h"

/* What calls are lent, inputs and outputs. The tables of a catalogue and of the office come first, by their numbers. */
enum {
    THE_STATE = LENT_TABLES,
    OCTETS,
    NAMES, /* of a start, by service */
    OUTPUT = NAMES + (int)MCS_SERVICES,
    WORD,
    COUNT,
    SERVED,
    TITLE_PART,
    GOTO_MADE,
    GOTO_PLACE,
    COUNTS,
    BLOCK,
    LINE,
    BAD_TRACK,
    BAD_OCTET,
    ROOM,
    ENTRIES = ROOM + TABLES,
    WRITTEN,
    BUFFERS
};

/* Where a buffer of a call lies, its entries, which are words or octets, and its octets. One of a fixed size has none where the
 * call is not lent it. */
void *lent_at(const call *c, uint32_t buffer);
size_t lent_entries(const call *c, uint32_t buffer);
size_t lent_octets(const call *c, uint32_t buffer);
void lend_at(call *c, uint32_t buffer, void *at);
void lend_entries(call *c, uint32_t buffer, size_t entries); /* of one that is not of a fixed size */

/* Once, before the first run. */
void prepare_lending(void);

/* The guarded copies of a table are no longer what is lent. */
void table_changed(run *r, uint32_t table);

/* The names of a start, or the one text that any other call is lent. */
void lend_texts(const step *s, call *c);

/* The call of a step in plain memory, its outputs holding what `fill` says. Its state is the library's. */
void lend_plainly(run *r, const step *s, call *c);

/* The same call in guarded memory, against that page. There is one at a time for each page. */
void lend_guarded(run *r, const step *s, const call *plain, uint32_t against, call *c);

/* What differs in the lent buffers of two calls of one step, in words; a null pointer where nothing does. The states are
 * compared where it is asked for. */
const char *differing(const call *one, const call *other, int states);

/* Whether a call is lent an output, and what an output of octets, and one of words, holds before the call. */
int has_output(uint32_t kind);
uint8_t filled(uint8_t fill, uint32_t at);
uint32_t filled_word(uint8_t fill, uint32_t at);

/* What the two words for a place hold before the call: no track and no octet that can be carried, so that it is seen whether they are
 * written. */
struct mcs_place filled_place(uint8_t fill);

/* The same of the words of a part, of which none is any text, offset or length of a title, and of those of a manual Goto, of which
 * none is any outcome, number of steps that are made here, group, track, position or rest. */
uint32_t filled_told(uint8_t fill, uint32_t word);

#endif
