#include "print.h"
#include "lend.h"

static void print_octets(FILE *out, const uint8_t *octets, uint32_t length)
{
    fprintf(out, " (%u)", (unsigned)length);
    for (uint32_t k = 0; k < length; k++) {
        fprintf(out, " %02x", octets[k]);
    }
}

/* As a string of C. */
static void print_text(FILE *out, const uint8_t *octets, uint32_t length)
{
    fprintf(out, " \"");
    for (uint32_t k = 0; k < length; k++) {
        uint8_t octet = octets[k];
        if (octet == '\n' || octet == '\r' || octet == '\t') {
            fprintf(out, "\\%c", octet == '\n' ? 'n' : octet == '\r' ? 'r' : 't');
        } else if (octet < ' ' || octet > '~') {
            fprintf(out, "\\%03o", (unsigned)octet);
        } else {
            fprintf(out, octet == '"' || octet == '\\' ? "\\%c" : "%c", octet);
        }
    }
    fprintf(out, "\"");
}

/* What the parts mean; behind a stroke what means nothing. */
static void print_service(FILE *out, const ref_service *s)
{
    const ref_player *p = &s->player;
    uint32_t end = REF_NAME_ROOM;
    fprintf(
        out,
        " mask 0x%08x ccid %u media %u order %u speed %d seeking %d group %u track %u position %u next %u rest %u name (%u)",
        (unsigned)p->mask, p->ccid, p->media, p->order, p->speed, p->seeking, (unsigned)p->group, (unsigned)p->track,
        (unsigned)p->position, (unsigned)p->next, (unsigned)p->rest, (unsigned)p->name_len);
    for (; end > p->name_len && p->name[end - 1u] == 0; end--) {
    }
    for (uint32_t k = 0; k < end; k++) {
        fprintf(out, k == p->name_len ? " | %02x" : " %02x", p->name[k]);
    }
    for (uint32_t k = 0; k < REF_CLIENTS; k++) {
        const ref_account *a = &s->accounts[k];
        fprintf(out, "\n       client %u: subscribed 0x%04x owed 0x%04x read 0x%06x results (%u)", (unsigned)k,
                (unsigned)a->subscribed, (unsigned)a->owed, (unsigned)a->fresh, (unsigned)a->waiting);
        for (uint32_t j = 0; j < REF_RESULTS; j++) {
            fprintf(out, j == a->waiting ? " | %02x %u" : " %02x %u", a->results[j].opcode, a->results[j].code);
        }
    }
}

static void print_state(FILE *out, const uint8_t octets[MCS_STATE_OCTETS])
{
    static ref_state s;
    state_of_octets(octets, &s);
    fprintf(out, " begun with 0x%02x, turn %u", s.layout, (unsigned)s.turn);
    for (uint32_t k = 0; k < REF_CLIENTS; k++) {
        const ref_link *l = &s.links[k];
        fprintf(out, "\n     client %u: connected %u encrypted %u mtu %u mark %u", (unsigned)k, l->connected, l->encrypted,
                (unsigned)l->mtu, (unsigned)l->mark);
    }
    for (uint32_t k = 0; k < REF_SERVICES; k++) {
        fprintf(out, "\n     service %u:", (unsigned)k);
        print_service(out, &s.services[k]);
    }
}

static void print_step(FILE *out, step *s)
{
    fprintf(out, "%s", is_call(s) ? CALL_NAME[s->kind] : STEP_NAME[s->kind]);
    for (const step_number *n = STEP_NUMBERS[s->kind]; n < STEP_NUMBERS[s->kind] + MOST_NUMBERS && n->words != NULL; n++) {
        uint32_t number = *number_at(s, n->place);
        fprintf(out, number > 0xFFFFu ? " %s 0x%x" : " %s %u", n->words, (unsigned)number);
    }
    if (s->kind == SET_STATE) {
        print_state(out, s->octets);
    } else if (s->kind == ADD_TEXT || s->kind == ADD_STARTS) {
        print_text(out, s->octets, s->length);
    } else if (s->kind == START) {
        for (uint32_t k = 0; k < MCS_SERVICES; k++) {
            fprintf(out, k == 0 ? " names" : " and");
            print_octets(out, s->octets + START_NAME_AT(k), s->players[k].length);
        }
    } else if (s->kind == SET_NAME || s->kind == WRITE || s->kind == POKE_STATE) {
        fprintf(out, " octets");
        print_octets(out, s->octets, s->length);
    }
    if (is_call(s) && (s->against != 0 || s->null != 0 || s->fill != 0 || s->twice != 0)) {
        fprintf(out, " [buffers %s the barred page%s, filled with %02x%s]", s->against == 0 ? "end at" : "begin at",
                s->null ? ", empty ones null" : "", s->fill, s->twice ? "; made twice" : "");
    }
    fprintf(out, "\n");
}

static void print_answer(FILE *out, const char *program, const step *s, const answer *a, int faulted)
{
    fprintf(out, "     %-8s ", program);
    fprintf(out, faulted ? "fault" : a->number >= 200 || a->number == 0 ? "%u" : "0x%02X", (unsigned)a->number);
    if (a->track != filled_place(s->fill).track) {
        fprintf(out, ", track %u", (unsigned)a->track);
    }
    if (a->octet != filled_place(s->fill).octet) {
        fprintf(out, ", octet %u", (unsigned)a->octet);
    }
    if (s->kind == CUE_SHEET) {
        fprintf(out, ", count %u, line %u", (unsigned)a->length, (unsigned)a->line);
    } else if (s->kind == CARD_WRITE && a->number == 0) {
        fprintf(out, ", blocks %u", (unsigned)a->length);
    } else if (writes_object(s->kind) && a->number == 0) {
        fprintf(out, ", octets %u", (unsigned)a->length);
    } else if (reads_object(s->kind) && a->number == 0) {
        fprintf(out, ", entries %zu", a->count);
    } else if (s->kind == READ && a->number == 0) {
        print_octets(out, a->out, a->length < OUT_ROOM ? a->length : OUT_ROOM);
    } else if (s->kind == TAKE && a->number == 0) {
        fprintf(out, ", client %u, service %u, characteristic %u,", (unsigned)a->served[SERVED_CLIENT],
                (unsigned)a->served[SERVED_SERVICE], (unsigned)a->served[SERVED_CHARACTERISTIC]);
        print_octets(out, a->out, a->served[SERVED_LENGTH] < OUT_ROOM ? a->served[SERVED_LENGTH] : OUT_ROOM);
    } else if (s->kind == TITLE && a->number == 0) {
        fprintf(out, ", %s, at %u of %u octets",
                a->part[PART_TEXT] == MCS_OFFICE_TEXT ? "the office's text" : "the card's text", (unsigned)a->part[PART_OFFSET],
                (unsigned)a->part[PART_LENGTH]);
    } else if (s->kind == MANUAL_GOTO && a->number == 0) {
        fprintf(out, ", %s, steps %u, group %u, track %u, position %u, rest %u", mcs_outcome_words(a->made[MADE_OUTCOME]),
                (unsigned)a->made[MADE_STEPS], (unsigned)a->place[PLACE_GROUP], (unsigned)a->place[PLACE_TRACK],
                (unsigned)a->place[PLACE_POSITION], (unsigned)a->place[PLACE_REST]);
    } else if (s->kind == CARD_LOAD && a->number != 0) {
        fprintf(out, ", block %u", (unsigned)a->block);
    } else if (s->kind == CARD_LOAD) {
        fprintf(out, ", counts %u %u %u %u, block %u", (unsigned)a->counts[0], (unsigned)a->counts[1], (unsigned)a->counts[2],
                (unsigned)a->counts[3], (unsigned)a->block);
    }
    fprintf(out, "\n");
}

/* Which tracks are renamed, and with what. */
static void print_titles(FILE *out, const tables *c)
{
    fprintf(out, "  titles of the office: %u words and %u octets of text\n", (unsigned)c->length[RENAMES],
            (unsigned)c->length[OFFICE]);
    for (uint32_t k = 0; k < c->length[RENAMES] / MCS_RENAME_WORDS; k++) {
        if (rename_word(c, k, RENAME_LENGTH) > 0) {
            fprintf(out, "  track %u: renamed, at %u of %u octets\n", (unsigned)k, (unsigned)rename_word(c, k, RENAME_OFFSET),
                    (unsigned)rename_word(c, k, RENAME_LENGTH));
        }
    }
    if (c->length[OFFICE] > 0 && c->length[OFFICE] <= 256) {
        fprintf(out, "  office:");
        print_octets(out, c->office, c->length[OFFICE]);
        fprintf(out, "\n");
    }
}

static void print_catalogue(FILE *out, const tables *c)
{
    fprintf(out, "catalogue of %u and %u and %u words and %u octets of text\n", (unsigned)c->length[GROUPS],
            (unsigned)c->length[TRACKS], (unsigned)c->length[SEGMENTS], (unsigned)c->length[TEXT]);
    for (uint32_t g = 0; g < group_count(c); g++) {
        fprintf(out, "  group %u: parent %u, tracks from %u, %u of them\n", (unsigned)g, (unsigned)group_word(c, g, PARENT),
                (unsigned)group_word(c, g, FIRST_TRACK), (unsigned)group_word(c, g, TRACK_COUNT));
    }
    for (uint32_t k = 0; k < track_count(c); k++) {
        fprintf(out, "  track %u: duration %u, stamp %u, segments from %u, %u of them, title at %u of %u octets\n", (unsigned)k,
                (unsigned)track_word(c, k, DURATION), (unsigned)track_word(c, k, STAMP),
                (unsigned)track_word(c, k, FIRST_SEGMENT), (unsigned)track_word(c, k, SEGMENT_COUNT),
                (unsigned)track_word(c, k, TITLE_OFFSET), (unsigned)track_word(c, k, TITLE_LENGTH));
    }
    for (uint32_t k = 0; k < c->length[SEGMENTS]; k++) {
        fprintf(out, k == 0 ? "  starts: %u" : ", %u", (unsigned)c->segments[k]);
    }
    fprintf(out, c->length[SEGMENTS] > 0 ? "\n" : "");
    if (c->length[TEXT] > 0 && c->length[TEXT] <= 256) {
        fprintf(out, "  text:");
        print_octets(out, c->text, c->length[TEXT]);
        fprintf(out, "\n");
    }
    print_titles(out, c);
}

void print_trial(FILE *out, trial *t, run *r, uint32_t last)
{
    print_catalogue(out, &t->catalogue);
    begin_run(r, &t->catalogue);
    for (uint32_t k = 0; k < t->count; k++) {
        step *s = &t->steps[k];
        int same = do_step(r, s);
        if (t->count - k > last) {
            continue;
        }
        fprintf(out, "%u. ", (unsigned)k + 1u);
        print_step(out, s);
        if (s->kind == NEW_TITLES) {
            print_titles(out, &r->lent);
        }
        if (is_call(s)) {
            print_answer(out, "library:", s, &r->library_said, r->library_faulted);
            print_answer(out, "second:", s, &r->second_said, r->second_faulted);
        }
        if (!same) {
            fprintf(out, "   difference: %s\n", r->difference);
            return;
        }
    }
}
