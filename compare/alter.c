#include "alter.h"
#include "blocks.h"
#include "catalogue.h"
#include "lend.h"
#include "places.h"
#include "quiet.h"
#include "titles.h"

#include <string.h>

void remember(run *r)
{
    memcpy(r->kept_octets, r->octets, sizeof r->octets);
    memcpy(&r->kept_second, &r->second, sizeof r->second);
    r->undos = 0;
}

void forget_history(run *r)
{
    memset(&r->waited, 0, sizeof r->waited);
    stop_following(r);
    memset(r->exchanged, 0, sizeof r->exchanged);
}

static void put_back(run *r)
{
    forget_history(r);
    memcpy(r->octets, r->kept_octets, sizeof r->octets);
    memcpy(&r->second, &r->kept_second, sizeof r->second);
    while (r->undos > 0) {
        const undo *u = &r->undone[--r->undos];
        if (u->kind == POKE_TABLE) {
            set_table_entry(&r->lent, u->who, u->number, u->what);
        } else {
            r->lent.length[u->who] = u->what;
        }
        table_changed(r, u->who);
    }
}

static void note_undo(run *r, const step *s, uint32_t what)
{
    undo *u = &r->undone[r->undos++];
    u->kind = s->kind;
    u->who = s->who;
    u->number = s->number;
    u->what = what;
    table_changed(r, s->who);
    stop_following(r);
}

static void alter_state(run *r, const step *s)
{
    uint32_t at = s->kind == SET_STATE ? 0 : s->number;
    if (at <= MCS_STATE_OCTETS && s->length <= MCS_STATE_OCTETS - at) {
        memcpy(r->octets + at, s->octets, s->length);
        state_of_octets(r->octets, &r->second);
        forget_history(r);
    }
}

static void alter_tables(run *r, const step *s)
{
    if (r->undos == UNDO_ROOM) {
        return;
    }
    if (s->kind == POKE_TABLE && s->number < table_room(s->who)) {
        note_undo(r, s, table_entry(&r->lent, s->who, s->number));
        set_table_entry(&r->lent, s->who, s->number, s->what);
    }
    if (s->kind == TABLE_LENGTH && s->number <= table_room(s->who)) {
        note_undo(r, s, r->lent.length[s->who]);
        r->lent.length[s->who] = s->number;
    }
}

/* The octets of the title that a service shows, and how many they are; none where state, catalogue or titles are refused. */
static uint32_t title_shown(const run *r, uint32_t service, uint8_t octets[MCS_OUTPUT_OCTETS])
{
    standing p = standing_in(r->octets, service);
    part shown;
    if (!catalogue_is_right(&r->lent) || faults_of_titles(&r->lent) != 0 || p.track >= track_count(&r->lent)) {
        return 0;
    }
    shown = part_shown(&r->lent, &p);
    memcpy(octets, octets_of_part(&r->lent, &shown), shown.length);
    return shown.length;
}

/* Whoever has read a title at 0 has now another in its place. */
static void new_titles(run *r, uint32_t how)
{
    uint8_t was[MCS_SERVICES][MCS_OUTPUT_OCTETS], is[MCS_OUTPUT_OCTETS];
    uint32_t length[MCS_SERVICES];
    dice d = dice_of(how, 0);
    for (uint32_t k = 0; k < MCS_SERVICES; k++) {
        length[k] = title_shown(r, k, was[k]);
    }
    if (how == 0) {
        rename_nothing(&r->lent);
    } else {
        random_titles(&d, &r->lent);
    }
    table_changed(r, RENAMES);
    table_changed(r, OFFICE);
    forget_titles(r);
    for (uint32_t k = 0; k < MCS_SERVICES; k++) {
        int same = title_shown(r, k, is) == length[k] && memcmp(was[k], is, length[k]) == 0;
        for (uint32_t client = 0; !same && client < MCS_CLIENTS; client++) {
            r->exchanged[k] |= read_mark(r->octets, k, client, MCS_TITLE) ? 1u << client : 0;
        }
    }
}

static void swap_tables(run *r)
{
    static tables put_aside;
    put_aside = r->lent;
    lend_tables(r, &r->loaded);
    r->loaded = put_aside;
    r->swapped = !r->swapped;
}

static void alter_card(run *r, const step *s)
{
    card *c = &r->lent_card;
    if (s->kind == MAKE_CARD) {
        fill_card(&r->lent, s->number, c);
    }
    if (s->kind == POKE_CARD && s->number < CARD_ROOM) {
        c->octets[s->number] = (uint8_t)s->what;
    }
    if (s->kind == CARD_LENGTH && s->number <= CARD_ROOM) {
        c->length = s->number;
    }
    if (s->kind == SWAP_BLOCKS && s->who < MOST_BLOCKS && s->what < MOST_BLOCKS) {
        swap_blocks(c, s->who, s->what);
    }
    if (s->kind == SPOIL_BLOCK && s->who < MOST_BLOCKS) {
        spoil_block(c, s->who, s->number, s->what);
    }
    if (s->kind == WRITTEN_CARD) {
        *c = r->written;
    }
    if (s->kind == MEND_BLOCK && s->number < MOST_BLOCKS) {
        mend_block(c, s->number);
    }
}

static void alter_sheet(run *r, const step *s)
{
    sheet *c = &r->lent_sheet;
    if (s->kind == NEW_SHEET) {
        c->length = 0;
    }
    if (s->kind == ADD_TEXT) {
        add_text(c, s->octets, s->length, s->number);
    }
    if (s->kind == ADD_STARTS) {
        add_starts(c, s->who, s->what, s->number, s->octets, s->length);
    }
    if (s->kind == CUT_SHEET && s->number < c->length) {
        c->length = s->number;
    }
    if (s->kind == POKE_SHEET && s->number < c->length) {
        c->octets[s->number] = (uint8_t)s->what;
    }
    if (s->kind == WRITTEN_OBJECT) {
        c->length = 0;
        add_text(c, r->written.octets, r->written.length, 1);
    }
}

void alter(run *r, const step *s)
{
    switch (s->kind) {
    case SET_STATE:
    case POKE_STATE:
        alter_state(r, s);
        break;
    case POKE_TABLE:
    case TABLE_LENGTH:
        alter_tables(r, s);
        break;
    case NEW_TITLES:
        new_titles(r, s->number);
        break;
    case SWAP_TABLES:
        swap_tables(r);
        break;
    case NEW_SHEET:
    case ADD_TEXT:
    case ADD_STARTS:
    case CUT_SHEET:
    case POKE_SHEET:
    case WRITTEN_OBJECT:
        alter_sheet(r, s);
        break;
    case KEEP:
        remember(r);
        break;
    case PUT_BACK:
        put_back(r);
        break;
    default:
        alter_card(r, s);
        break;
    }
}
