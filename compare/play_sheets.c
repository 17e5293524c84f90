/* Cue sheets: made right line by line, damaged, of any octets, and of a length about the limit. */
#include "play.h"

#include <string.h>

#define MOST_LINES 14u

/* A sheet while it is made. */
typedef struct {
    uint32_t ends;   /* what its lines end in: 0 LF, 1 CR LF, 2 now this and now that */
    uint32_t wrong;  /* one line in so many is damaged */
    uint32_t starts; /* lines of starts so far, and the last one's frame */
    uint32_t frame;
} making;

/* ---- Pieces */

static uint32_t line_end(play *p, const making *m, uint8_t *to)
{
    int with_cr = m->ends == 1 || (m->ends == 2 && one_in(&p->d, 2));
    memcpy(to, with_cr ? "\r\n" : "\n", with_cr ? 2 : 1);
    return with_cr ? 2 : 1;
}

static uint32_t spaces(play *p, uint8_t *to)
{
    uint32_t count = one_in(&p->d, 2) ? 0 : below(&p->d, 5);
    memset(to, ' ', count);
    return count;
}

static uint32_t some_octet(dice *d)
{
    return one_in(d, 8) ? any_word(d) & 255u
                        : ONE_OF(d, ' ', '\t', '\r', '\n', 'I', 'N', 'R', 'E', 'M', 'x', 'i', '"', ':', '/', ';', '0', '1', '2',
                                 '5', '6', '7', '9', 0, 0x80, 0xA0, 0xFF);
}

/* A word that is passed over, or another index, and anything but a line's end behind it. */
static uint32_t passed_over(play *p, uint8_t *to)
{
    static const char *const WORDS[] = {"REM",      "TITLE",    "PERFORMER", "FILE",     "TRACK",   "INDEX 00",
                                        "INDEX 02", "INDEX 10", "INDEX 11",  "INDEX 21", "INDEX 99"};
    const char *word = WORDS[below(&p->d, sizeof WORDS / sizeof WORDS[0])];
    uint32_t length = (uint32_t)strlen(word), more = one_in(&p->d, 3) ? 0 : below(&p->d, 20);
    memcpy(to, word, length);
    if (one_in(&p->d, 2)) {
        to[length++] = ' ';
    }
    for (; more > 0; more--) {
        uint8_t octet = (uint8_t)some_octet(&p->d);
        to[length++] = octet == '\n' || (octet == '\r' && more == 1) ? 'x' : octet;
    }
    return length;
}

/* A frame beyond the last becomes the last, and a sheet that ends with that is not expected to rise. */
static uint32_t held(uint32_t frame) { return frame < FRAMES ? frame : FRAMES - 1u; }

/* The next start: a little later, a lot, or near the last frame of all; where the line is to be wrong, at times no later. */
static uint32_t next_frame(play *p, const making *m, int wrong)
{
    uint32_t frame = m->frame;
    if (wrong && one_in(&p->d, 3)) {
        return ONE_OF(&p->d, frame, frame, frame == 0 ? 1u : frame - 1u, frame / 2u, m->starts == 0 ? 1u : 0u);
    }
    if (m->starts == 0) {
        return 0;
    }
    frame += ONE_OF(&p->d, 1, 1, 2, 3, 74, 75, 76, MINUTE - 1u, MINUTE, between(&p->d, 1, 9 * MINUTE));
    if (one_in(&p->d, 16) && m->frame < FRAMES - 200u) {
        frame = FRAMES - between(&p->d, 1, 160);
    }
    return held(frame);
}

static uint32_t start_line(play *p, making *m, int wrong, uint8_t *to)
{
    m->frame = next_frame(p, m, wrong);
    m->starts++;
    index_line(to, m->frame);
    if (wrong && one_in(&p->d, 4)) {
        /* ss or ff out of its range. */
        uint32_t at = one_in(&p->d, 2) ? 12 : 15, number = at == 12 ? ONE_OF(&p->d, 60, 61, 99) : ONE_OF(&p->d, 75, 76, 99);
        to[at] = (uint8_t)('0' + number / 10u);
        to[at + 1] = (uint8_t)('0' + number % 10u);
    }
    return 17;
}

/* ---- Lines */

static uint32_t insert(uint8_t *text, uint32_t length, uint32_t at, uint32_t octet)
{
    memmove(text + at + 1, text + at, length - at);
    text[at] = (uint8_t)octet;
    return length + 1u;
}

/* Damage to the octets of a line, its end among them; its length then. */
static uint32_t damage_text(dice *d, uint8_t *text, uint32_t length)
{
    uint32_t at = below(d, length);
    switch (below(d, 8)) {
    case 0:
        memmove(text + at, text + at + 1, length - at - 1u);
        return length - 1u;
    case 1:
        text[at] = (uint8_t)some_octet(d);
        return length;
    case 2:
        return insert(text, length, at, some_octet(d));
    case 3:
        return insert(text, length, at, ONE_OF(d, ' ', '\t', '\r', '0'));
    case 4:
        text[at] = (uint8_t)(text[at] == ' ' ? '\t' : text[at] >= 'A' && text[at] <= 'Z' ? text[at] + 32u : text[at] + 1u);
        return length;
    case 5:
        /* Behind the line's last octet, before LF or CR LF. */
        at = length >= 2 && text[length - 2u] == '\r' ? length - 2u : length - 1u;
        return insert(text, length, at, ONE_OF(d, ' ', '\t', '\r', '0', 0));
    case 6:
        /* LF becomes CR, or LF CR. */
        text[length - 1u] = '\r';
        return one_in(d, 2) ? length : insert(text, length, length - 1u, '\n');
    default:
        return at; /* cut, so that it goes on in the next line */
    }
}

static void add_line(play *p, making *m, int last)
{
    uint8_t text[64];
    int wrong = one_in(&p->d, m->wrong);
    uint32_t length = spaces(p, text), kind = below(&p->d, 8);
    if (kind < 4) {
        length += start_line(p, m, wrong, text + length);
    } else if (kind < 7) {
        length += passed_over(p, text + length);
    }
    if (!last || one_in(&p->d, 2)) {
        length += line_end(p, m, text + length);
    }
    if (wrong && length > 0 && !one_in(&p->d, 3)) {
        length = damage_text(&p->d, text, length);
    }
    add_piece(p, text, length, 1);
}

/* ---- Sheets */

/* Up to a length about the limit, in lines that are passed over or are starts; the last is at times a start. */
static void lengthen(play *p, making *m)
{
    uint32_t length = p->r->lent_sheet.length, kind = below(&p->d, 6), last = ONE_OF(&p->d, 0, 17, 18), fill, end_length;
    uint32_t to = MCS_SHEET_OCTETS + ONE_OF(&p->d, 0, 0, 0, 1, 1, 2, 100, 0u - 1u, 0u - 2u, 0u - 30000u);
    uint8_t text[24];
    step *s;
    add_piece(p, "\n", 1, 1);
    if (!p->going) {
        return;
    }
    fill = to - last - length - 1u;
    if (kind < 2) {
        /* As many starts as fit, or fewer. */
        end_length = line_end(p, m, text);
        s = new_step(p);
        blank_step(&p->d, ADD_STARTS, s);
        memcpy(s->octets, text, end_length);
        s->length = end_length;
        s->what = ONE_OF(&p->d, 1, 1, 2, 3, 75);
        s->number = (one_in(&p->d, 2) ? fill : below(&p->d, fill)) / (17u + end_length);
        s->who = m->starts == 0 ? 0 : m->frame + 1u;
        m->starts += s->number;
        m->frame = s->number == 0 ? m->frame : held(s->who + s->what * (s->number - 1u));
        fill -= s->number * (17u + end_length);
        take_step(p);
    } else if (kind == 2) {
        add_piece(p, "REM of an hour\r\n", 16, fill / 16u);
        fill %= 16u;
    } else if (kind == 3 && fill > 4) {
        add_piece(p, "REM", 3, 1);
        add_piece(p, "x", 1, fill - 4u);
        fill = 1;
    } else if (kind == 4 && last > 0) {
        add_piece(p, " ", 1, fill);
        fill = 0;
    }
    add_piece(p, "\n", 1, fill);
    if (last > 0) {
        m->frame = next_frame(p, m, 0);
        m->starts++;
        index_line(text, m->frame);
        text[17] = '\n';
        add_piece(p, text, last, 1);
    }
}

static void any_text(play *p)
{
    uint8_t text[64];
    uint32_t length = below(&p->d, sizeof text);
    for (uint32_t k = 0; k < length; k++) {
        text[k] = (uint8_t)some_octet(&p->d);
    }
    add_piece(p, text, length, 1);
}

static uint32_t some_starts_room(dice *d, uint32_t starts)
{
    uint32_t room = starts;
    if (one_in(d, 2)) {
        room = ONE_OF(d, starts + 1u, starts + 5u, starts - 1u, starts - 2u, starts / 2u, 0, STARTS_ROOM);
    }
    return room <= STARTS_ROOM ? room : 0;
}

static void read_sheet(play *p, const making *m)
{
    step *s = new_step(p);
    uint32_t count;
    int right;
    if (!p->going) {
        return;
    }
    blank_step(&p->d, CUE_SHEET, s);
    s->room[0] = some_starts_room(&p->d, m->starts);
    right = m->wrong == NONE && m->frame < FRAMES - 1u && p->r->lent_sheet.length <= MCS_SHEET_OCTETS;
    take_step(p);
    count = p->r->second_said.length;
    if (!right || !p->going) {
        return;
    }
    /* A frame is four thirds of a hundredth of a second. */
    if (s->room[0] < m->starts ? p->r->second_said.number != MCS_MANY_STARTS
                               : p->r->second_said.number != 0 || count != m->starts ||
                                     (count > 0 && p->r->entries[count - 1u] != 4u * m->frame / 3u)) {
        cannot_be(p, "both read something else from a cue sheet that was made right");
    }
}

void play_sheets(play *p)
{
    p->share = FROM_SHEET;
    for (uint32_t round = 0; round < 100 && goes_on(p); round++) {
        making m = {below(&p->d, 3), one_in(&p->d, 3) ? NONE : ONE_OF(&p->d, 3, 10), 0, 0};
        int any = one_in(&p->d, 12), is_long = !any && one_in(&p->d, 12);
        bare_step(p, NEW_SHEET, 0);
        if (any) {
            m.wrong = 1;
            any_text(p);
        }
        for (uint32_t lines = any ? 0 : below(&p->d, MOST_LINES); lines > 0; lines--) {
            add_line(p, &m, lines == 1 && !is_long);
        }
        if (is_long) {
            lengthen(p, &m);
        }
        if (m.wrong != NONE && one_in(&p->d, 8)) {
            bare_step(p, CUT_SHEET, below(&p->d, p->r->lent_sheet.length));
        }
        read_sheet(p, &m);
    }
}
