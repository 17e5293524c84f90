/* The office's day, the player's cases, those of the two services, those of the office's titles and those of the manual's Goto: a
 * framed script of calls.
 *
 * A frame: catalogue, call, client, service, octet, number (four octets, little endian), room, text length (two octets),
 * text. The calls are 0 a note, 1 to 12 those of SCOPE 17.5 from start to take, 13 damage to the state, 14 other titles for
 * all later calls, 15 the title call, 16 the manual's Goto. A start has the generic player's mask as its number and that
 * one's Content Control ID as its octet; its text is the length of that one's name in an octet, the name, and of the named
 * player mask (four octets), Content Control ID (an octet) and name. Other titles have 1 as their octet where nothing is
 * renamed, as the script begins; or 0, and then their number is that of the words of the entries, and their text these
 * words, little endian, and the office's text behind them. A manual's Goto has its own number as the frame's; its text is
 * two words, little endian, the steps that are allowed and the opcode, and what is missing of them is 0. */
#include "office.h"
#include "lend.h"
#include "service.h"
#include "words.h"

#include <string.h>

enum { NOTE = 0, FIRST_CALL = 1, DAMAGE = 13, OTHER_TITLES = 14, TITLE_CALL = 15, GOTO_CALL = 16 };
enum {
    SAMPLE,
    LONG_TITLES,
    OWN_PARENT,
    CUT_GROUPS,
    CLOSE_SEGMENTS,
    RUNNING,
    BAD_TITLES,
    BAD_AND_WRONG,
    FOLDERS,
    MANY,
    CATALOGUES
};

#define GESPRAECH u8"Gespräch über die Überfahrt, aufgenommen im Hafen, erste Spur"

static tables catalogue[CATALOGUES];

/* Group 0 has track 0 and group 1, which has two tracks, group 2 without tracks, and group 3 with the last track. */
static void make_folders(tables *t)
{
    static const uint32_t GROUPS_OF[4][MCS_GROUP_WORDS] = {{0, 0, 1}, {0, 1, 2}, {1, 3, 0}, {1, 3, 1}};
    memcpy(t->groups, GROUPS_OF, sizeof GROUPS_OF);
}

/* As many groups and tracks as there may be, with all tracks in the last group. */
static void make_many(tables *t)
{
    memset(t, 0, sizeof *t);
    t->length[GROUPS] = MCS_GROUP_WORDS * MCS_MOST_GROUPS;
    t->length[TRACKS] = MCS_TRACK_WORDS * MCS_MOST_TRACKS;
    t->groups[MCS_GROUP_WORDS * (MCS_MOST_GROUPS - 1u) + TRACK_COUNT] = MCS_MOST_TRACKS;
    rename_nothing(t);
}

static void make_catalogues(void)
{
    static const char LONG_TEXT[] = GESPRAECH GESPRAECH;
    static const uint32_t CLOSE_STARTS[4] = {0, 200, 450, 5800};
    static const uint32_t RUNNING_STARTS[3] = {0, 1500, 8639999};
    /* A right title, a bad one, none, and another bad one. */
    static const char BAD_TEXT[] = "Pr\303\251lude"
                                   "Inter\303ezzo"
                                   "Cod\377";
    static const struct {
        uint32_t at, length;
    } BAD_TITLE[4] = {{0, 8}, {8, 10}, {18, 0}, {18, 4}};
    tables *titled = &catalogue[LONG_TITLES], *close = &catalogue[CLOSE_SEGMENTS], *running = &catalogue[RUNNING];
    tables *bad = &catalogue[BAD_TITLES], *wrong = &catalogue[BAD_AND_WRONG];
    for (uint32_t k = 0; k < CATALOGUES; k++) {
        sample_catalogue(&catalogue[k]);
    }
    /* Two equal titles of 64 octets, no title, and one of the 128 octets of both. */
    memcpy(titled->text, LONG_TEXT, sizeof LONG_TEXT - 1);
    titled->length[TEXT] = sizeof LONG_TEXT - 1;
    for (uint32_t k = 0; k < 4; k++) {
        titled->tracks[MCS_TRACK_WORDS * k + TITLE_OFFSET] = k == 1 ? 64 : 0;
        titled->tracks[MCS_TRACK_WORDS * k + TITLE_LENGTH] = k < 2 ? 64 : k == 2 ? 0 : 128;
    }
    catalogue[OWN_PARENT].groups[MCS_GROUP_WORDS * 3 + PARENT] = 3;
    catalogue[CUT_GROUPS].length[GROUPS] -= 1;
    /* Four segments in track 0, of which the first two and the last are shorter than the margin of Previous Segment. */
    memcpy(close->segments, CLOSE_STARTS, sizeof CLOSE_STARTS);
    close->length[SEGMENTS] = close->tracks[SEGMENT_COUNT] = 4;
    for (uint32_t k = 1; k < 4; k++) {
        close->tracks[MCS_TRACK_WORDS * k + FIRST_SEGMENT] = 4;
    }
    /* All tracks but the first are still running, and the first of those has segments. */
    memcpy(running->segments + 3, RUNNING_STARTS, sizeof RUNNING_STARTS);
    running->length[SEGMENTS] = 6;
    for (uint32_t k = 1; k < 4; k++) {
        uint32_t *record = running->tracks + MCS_TRACK_WORDS * k;
        record[DURATION] = MCS_RUNNING;
        record[FIRST_SEGMENT] = k == 1 ? 3 : 6;
        record[SEGMENT_COUNT] = k == 1 ? 3 : 0;
    }
    memcpy(bad->text, BAD_TEXT, sizeof BAD_TEXT - 1);
    bad->length[TEXT] = sizeof BAD_TEXT - 1;
    for (uint32_t k = 0; k < 4; k++) {
        bad->tracks[MCS_TRACK_WORDS * k + TITLE_OFFSET] = BAD_TITLE[k].at;
        bad->tracks[MCS_TRACK_WORDS * k + TITLE_LENGTH] = BAD_TITLE[k].length;
    }
    make_folders(&catalogue[FOLDERS]);
    make_many(&catalogue[MANY]);
    *wrong = *bad;
    wrong->groups[MCS_GROUP_WORDS * 3 + PARENT] = 3;
}

/* ---- A line */

/* Where a rest is not 0, it follows the position, with a + before it. */
static void write_stand(FILE *out, uint32_t group, uint32_t track, uint32_t position, uint32_t rest)
{
    fprintf(out, " %u %u %u", (unsigned)group, (unsigned)track, (unsigned)position);
    if (rest != 0) {
        fprintf(out, "+%u", (unsigned)rest);
    }
}

static void write_slots(FILE *out, uint32_t word)
{
    for (uint32_t k = 0; k < REF_SLOTS; k++) {
        if ((word >> k & 1u) != 0) {
            fprintf(out, " %u", (unsigned)slot_at(k));
        }
    }
    fprintf(out, word >> REF_SLOTS != 0 ? " +" : "");
}

static void write_service(FILE *out, const ref_service *s, const ref_link *links)
{
    const ref_player *p = &s->player;
    if (p->media <= MCS_SEEKING) {
        fprintf(out, " | %s", mcs_media_state_words(p->media));
    } else {
        fprintf(out, " | %u", (unsigned)p->media);
    }
    fprintf(out, " %u %d %d |", (unsigned)p->order, p->speed, p->seeking);
    write_stand(out, p->group, p->track, p->position, p->rest);
    fprintf(out, p->next == 0 ? " -" : " %u", (unsigned)p->next - 1u);
    for (uint32_t k = 0; k < REF_CLIENTS; k++) {
        const ref_account *a = &s->accounts[k];
        if (!links[k].connected) {
            fprintf(out, " | -");
            continue;
        }
        fprintf(out, " | %u:", (unsigned)links[k].mtu);
        write_slots(out, a->subscribed);
        fprintf(out, ";");
        write_slots(out, a->owed);
        fprintf(out, "; %u", (unsigned)a->waiting);
    }
}

/* Where a title stands, and its octets there. */
static void write_part(FILE *out, const tables *t, const uint32_t part[MCS_PART_WORDS])
{
    uint32_t table = part[PART_TEXT] == MCS_OFFICE_TEXT ? OFFICE : TEXT;
    fprintf(out, "title %s %u %u", table == OFFICE ? "office" : "card", (unsigned)part[PART_OFFSET],
            (unsigned)part[PART_LENGTH]);
    for (uint32_t k = 0; k < part[PART_LENGTH] && (uint64_t)part[PART_OFFSET] + k < t->length[table]; k++) {
        fprintf(out, " %02x", (unsigned)table_entry(t, table, part[PART_OFFSET] + k));
    }
}

/* What a manual Goto tells. */
static void write_goto(FILE *out, const answer *a)
{
    fprintf(out, "goto %u %u at", (unsigned)a->made[MADE_OUTCOME], (unsigned)a->made[MADE_STEPS]);
    write_stand(out, a->place[PLACE_GROUP], a->place[PLACE_TRACK], a->place[PLACE_POSITION], a->place[PLACE_REST]);
}

/* A word that the call wrote: what it carries. */
static void write_carried(FILE *out, uint32_t word, uint32_t before)
{
    if (word != before) {
        fprintf(out, " %u", (unsigned)word);
    }
}

/* The library's answer, and a ! where lent octets behind it did not stay. */
static void write_line(FILE *out, const step *s, const run *r)
{
    const answer *a = &r->library_said;
    uint32_t length = 0;
    int touched = 0;
    ref_state meant;
    if (!is_call(s)) {
        fprintf(out, "damaged");
    } else if (a->number != 0) {
        fprintf(out, a->number >= 200 ? "refused %u" : "refused 0x%02X", (unsigned)a->number);
        write_carried(out, a->track, filled_place(s->fill).track);
        write_carried(out, a->octet, filled_place(s->fill).octet);
    } else if (s->kind == READ) {
        fprintf(out, "read");
        length = a->length;
    } else if (s->kind == TAKE && a->served[SERVED_CHARACTERISTIC] == MCS_NOTHING) {
        fprintf(out, "nothing");
    } else if (s->kind == TAKE) {
        fprintf(out, "take %u %u %u", (unsigned)a->served[SERVED_CLIENT], (unsigned)a->served[SERVED_SERVICE],
                (unsigned)a->served[SERVED_CHARACTERISTIC]);
        length = a->served[SERVED_LENGTH];
    } else if (s->kind == TITLE) {
        write_part(out, &r->lent, a->part);
    } else if (s->kind == MANUAL_GOTO) {
        write_goto(out, a);
    } else {
        fprintf(out, "done");
    }
    for (uint32_t k = 0; k < length && k < OUT_ROOM; k++) {
        fprintf(out, " %02x", a->out[k]);
    }
    for (uint32_t k = length; has_output(s->kind) && k < s->room[0]; k++) {
        touched |= a->out[k] != filled(s->fill, k);
    }
    state_of_octets(r->octets, &meant);
    for (uint32_t k = 0; k < REF_SERVICES; k++) {
        write_service(out, &meant.services[k], meant.links);
    }
    fprintf(out, touched ? " !\n" : "\n");
}

/* ---- A frame */

/* Damage sets one part of the state to the frame's number: of the service's player, of what is neither service's, of the client's
 * link or of its account in the service. The last part is the code of a result, which the number's second octet chooses. */
static void damage_step(step *s)
{
    enum { OF_PLAYER, OF_ALL, OF_LINK, OF_ACCOUNT };
    static const struct {
        uint8_t of, in, octets;
    } PART[] = {{OF_PLAYER, MCS_IN_REST, 4},     {OF_PLAYER, MCS_IN_MEDIA_STATE, 1}, {OF_PLAYER, MCS_IN_ORDER, 1},
                {OF_PLAYER, MCS_IN_SEEKING, 1},  {OF_PLAYER, MCS_IN_GROUP, 4},       {OF_PLAYER, MCS_IN_TRACK, 4},
                {OF_PLAYER, MCS_IN_POSITION, 4}, {OF_PLAYER, MCS_IN_NEXT, 4},        {OF_PLAYER, MCS_IN_NAME_LENGTH, 1},
                {OF_PLAYER, MCS_IN_NAME, 1},     {OF_ALL, MCS_AT_TURN, 4},           {OF_LINK, MCS_IN_CONNECTED, 1},
                {OF_LINK, MCS_IN_ENCRYPTED, 1},  {OF_LINK, MCS_IN_MTU, 4},           {OF_ACCOUNT, MCS_IN_SUBSCRIBED, 4},
                {OF_ACCOUNT, MCS_IN_OWED, 4},    {OF_ACCOUNT, MCS_IN_READ, 4},       {OF_LINK, MCS_IN_MARK, 4},
                {OF_ACCOUNT, MCS_IN_WAITING, 8}, {OF_ACCOUNT, MCS_IN_RESULTS + 1, 1}};
    enum { PARTS = sizeof PART / sizeof PART[0], CODE = PARTS - 1 };
    uint32_t client = s->who % MCS_CLIENTS, service = MCS_AT_SERVICE(s->service % MCS_SERVICES), part = s->what % PARTS;
    const uint32_t AT[] = {service, 0, MCS_AT_LINK(client), service + MCS_IN_ACCOUNT(client)};
    put_word(s->octets, s->number);
    put_word(s->octets + 4, 0);
    s->kind = POKE_STATE;
    s->length = PART[part].octets;
    s->number = AT[PART[part].of] + PART[part].in + (part == CODE ? 2u * (s->number >> 8 & 7u) : 0);
}

/* The players of a start, out of the frame's text; 0 where that ends too early, or a name is longer than a start has room for. */
static int start_step(step *s)
{
    static uint8_t text[MCS_STATE_OCTETS];
    uint32_t generic = s->octets[0], behind = 1u + generic, head = behind + 5u;
    if (s->length < 1u || s->length < head || s->length - head > START_NAME_ROOM) {
        return 0;
    }
    memcpy(text, s->octets, s->length);
    memset(s->octets, 0, sizeof s->octets);
    memcpy(s->octets + START_NAME_AT(MCS_GENERIC), text + 1, generic);
    memcpy(s->octets + START_NAME_AT(MCS_NAMED), text + head, s->length - head);
    s->players[MCS_GENERIC] = (step_player){s->number, s->what, generic};
    s->players[MCS_NAMED] = (step_player){word_at(text + behind), text[behind + 4u], s->length - head};
    s->length = 0;
    return 1;
}

/* The steps and the opcode of a manual Goto, out of the frame's text; behind that the step's octets are 0. */
static void goto_step(step *s)
{
    s->kind = MANUAL_GOTO;
    s->allowed = word_at(s->octets);
    s->what = word_at(s->octets + 4);
}

/* The titles that the frames of the script lend, and the longest text that such a frame may have: 64 words and 1,024 octets. */
enum { MOST_WORDS = 64, MOST_OFFICE = 1024, MOST_OF_TITLES = 4 * MOST_WORDS + MOST_OFFICE };

typedef struct {
    int none; /* nothing is renamed */
    uint32_t words, octets;
    uint8_t text[MOST_OF_TITLES];
} script_titles;

/* Whether a frame of other titles is one; then they are these from now on, and its line is written. */
static int take_titles(FILE *script, FILE *lines, const step *s, script_titles *titles)
{
    uint32_t entries = 4u * s->number;
    if (s->what > 1 || s->number > MOST_WORDS || s->length < entries || s->length - entries > MOST_OFFICE ||
        fread(titles->text, 1, s->length, script) != s->length) {
        return 0;
    }
    titles->none = s->what == 1;
    titles->words = s->number;
    titles->octets = s->length - entries;
    if (titles->none) {
        fprintf(lines, "titles none\n");
    } else {
        fprintf(lines, "titles %u %u\n", (unsigned)titles->words, (unsigned)titles->octets);
    }
    return 1;
}

/* The catalogue of a frame with the titles of the script. */
static void lend_script(run *r, const tables *of_frame, const script_titles *titles)
{
    static tables t;
    t = *of_frame;
    if (!titles->none) {
        for (uint32_t k = 0; k < titles->words; k++) {
            t.renames[k] = word_at(titles->text + 4u * k);
        }
        memcpy(t.office, titles->text + 4u * titles->words, titles->octets);
        t.length[RENAMES] = titles->words;
        t.length[OFFICE] = titles->octets;
    }
    lend_tables(r, &t);
}

/* Whether the frame's text could be read, and it is a frame. */
static int take_text(FILE *script, const uint8_t head[12], step *s)
{
    return s->length <= sizeof s->octets && fread(s->octets, 1, s->length, script) == s->length && head[0] < CATALOGUES &&
           head[1] <= GOTO_CALL && (head[1] != FIRST_CALL + START || start_step(s));
}

unsigned long play_office(FILE *script, FILE *lines, FILE *complaints, run *r)
{
    static step s;
    static script_titles titles;
    unsigned long differences = 0, frames = 0;
    uint8_t head[12];
    size_t octets;
    titles.none = 1;
    make_catalogues();
    begin_run(r, &catalogue[SAMPLE]);
    while ((octets = fread(head, 1, sizeof head, script)) == sizeof head) {
        memset(&s, 0, sizeof s);
        s.who = head[2];
        s.service = head[3];
        s.what = head[4];
        s.number = word_at(head + 5);
        s.room[0] = head[9];
        s.length = half_word_at(head + 10);
        s.fill = 0xA5;
        s.twice = 1;
        frames++;
        if (head[1] == OTHER_TITLES ? !take_titles(script, lines, &s, &titles) : !take_text(script, head, &s)) {
            fprintf(complaints, "compare: frame %lu of the script is none\n", frames);
            return differences + 1;
        }
        if (head[1] == NOTE) {
            fprintf(lines, "# %.*s\n", (int)s.length, (const char *)s.octets);
        }
        if (head[1] == NOTE || head[1] == OTHER_TITLES) {
            continue;
        }
        if (head[1] == DAMAGE) {
            damage_step(&s);
        } else if (head[1] == GOTO_CALL) {
            goto_step(&s);
        } else {
            s.kind = (uint8_t)(head[1] == TITLE_CALL ? TITLE : head[1] - FIRST_CALL + START);
        }
        lend_script(r, &catalogue[head[0]], &titles);
        if (!do_step(r, &s)) {
            fprintf(complaints, "compare: frame %lu of the script: %s\n", frames, r->difference);
            differences++;
        }
        write_line(lines, &s, r);
    }
    if (octets != 0) {
        fprintf(complaints, "compare: the script ends inside a frame\n");
        differences++;
    }
    return differences;
}
