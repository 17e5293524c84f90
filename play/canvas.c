#include "canvas.h"

#include <stdarg.h>
#include <stdint.h>
#include <stdio.h>
#include <stdlib.h>
#include <string.h>

#include "terminal.h"

/* Larger windows are drawn in their front. */
#define MOST_ROWS 200
#define MOST_COLUMNS 400

/* A character with the marks that are set on it. */
#define CELL_OCTETS 16

#define ELLIPSIS "\xE2\x80\xA6"

typedef struct {
    char octets[CELL_OCTETS]; /* none behind a character that is two cells wide */
    int look;
} cell;

static cell picture[MOST_ROWS][MOST_COLUMNS], drawn[MOST_ROWS][MOST_COLUMNS];
static int rows, columns;
static int is_drawn; /* whether the terminal shows what was drawn last */

int picture_rows(void) { return rows; }
int picture_columns(void) { return columns; }

/* ---- Characters */

typedef struct {
    uint32_t first, last;
} range;

static int is_in(uint32_t code, const range *ranges, size_t count)
{
    size_t k;
    for (k = 0; k < count; k++) {
        if (code >= ranges[k].first && code <= ranges[k].last) {
            return 1;
        }
    }
    return 0;
}

/* The common blocks of marks that are set on the character before them, and of characters that are two cells wide. Behind each
 * character beyond ASCII the cursor is set anew, so that one that a terminal sees otherwise moves nothing else. */
static const range MARKS[] = {{0x300, 0x36F},   {0x483, 0x489},   {0x591, 0x5BD},   {0x610, 0x61A},   {0x64B, 0x65F},
                              {0x900, 0x903},   {0x93A, 0x94F},   {0xE31, 0xE31},   {0xE34, 0xE3A},   {0xE47, 0xE4E},
                              {0x1AB0, 0x1AFF}, {0x1DC0, 0x1DFF}, {0x20D0, 0x20FF}, {0xFE00, 0xFE0F}, {0xFE20, 0xFE2F}};
static const range WIDE[] = {{0x1100, 0x115F},   {0x2E80, 0x303E},   {0x3041, 0x4DBF},   {0x4E00, 0xA4CF},  {0xA960, 0xA97F},
                             {0xAC00, 0xD7A3},   {0xF900, 0xFAFF},   {0xFE30, 0xFE6F},   {0xFF01, 0xFF60},  {0xFFE0, 0xFFE6},
                             {0x1F300, 0x1F64F}, {0x1F680, 0x1F6FF}, {0x1F900, 0x1F9FF}, {0x20000, 0x3FFFD}};

static int width_of(uint32_t code)
{
    if (is_in(code, MARKS, sizeof MARKS / sizeof MARKS[0])) {
        return 0;
    }
    return is_in(code, WIDE, sizeof WIDE / sizeof WIDE[0]) ? 2 : 1;
}

/* The next character of a text, how many octets it has and how wide it is. What is no character, or would not be seen but obeyed,
 * is a question mark in its place. */
typedef struct {
    const char *octets;
    size_t count;
    size_t taken; /* of the text */
    int width;
} character;

static character next_character(const char *text)
{
    const unsigned char *octets = (const unsigned char *)text;
    const size_t count = octets[0] < 0x80u ? 1u : octets[0] >= 0xF0u ? 4u : octets[0] >= 0xE0u ? 3u : 2u;
    uint32_t code = count == 1u ? octets[0] : octets[0] & (0x7Fu >> count);
    const character unseen = {"?", 1, 1, 1};
    size_t k;
    if (octets[0] > 0xF4u || (octets[0] >= 0x80u && octets[0] < 0xC2u)) { /* no character begins so */
        return unseen;
    }
    for (k = 1; k < count; k++) {
        if ((octets[k] & 0xC0u) != 0x80u) {
            return unseen;
        }
        code = code << 6 | (octets[k] & 0x3Fu);
    }
    if (code < 0x20u || (code >= 0x7Fu && code < 0xA0u)) {
        return (character){"?", 1, count, 1};
    }
    return (character){text, count, count, width_of(code)};
}

int text_width(const char *text)
{
    int width = 0;
    while (*text != '\0') {
        const character next = next_character(text);
        width += next.width;
        text += next.taken;
    }
    return width;
}

/* ---- Putting it together */

void begin_picture(int its_rows, int its_columns)
{
    int row;
    if (its_rows > MOST_ROWS) {
        its_rows = MOST_ROWS;
    }
    if (its_columns > MOST_COLUMNS) {
        its_columns = MOST_COLUMNS;
    }
    if (its_rows != rows || its_columns != columns) {
        is_drawn = 0;
        rows = its_rows;
        columns = its_columns;
    }
    for (row = 0; row < rows; row++) {
        put_row(row, LOOK_PLAIN);
    }
}

static void set_cell(int row, int column, int look, const char *octets, size_t count)
{
    cell *at = &picture[row][column];
    memset(at, 0, sizeof *at);
    memcpy(at->octets, octets, count);
    at->look = look;
}

void put_row(int row, int look)
{
    int column;
    for (column = 0; row < rows && column < columns; column++) {
        set_cell(row, column, look, " ", 1);
    }
}

/* A mark on the character in a cell; one for which there is no room is left out. */
static void add_mark(int row, int column, const character *mark)
{
    char *octets = picture[row][column].octets;
    const size_t had = strlen(octets);
    if (had + mark->count < CELL_OCTETS) {
        memcpy(octets + had, mark->octets, mark->count);
    }
}

int put_text(int row, int column, int width, int look, const char *text)
{
    int end = column + width < columns ? column + width : columns;
    const int is_cut = column + text_width(text) > end;
    const int begin = column;
    if (row < 0 || row >= rows || column < 0 || column >= end) {
        return column;
    }
    end -= is_cut ? 1 : 0; /* for the ellipsis */
    while (*text != '\0') {
        const character next = next_character(text);
        if (next.width == 0 && column > begin) {
            add_mark(row, column - 1, &next);
        } else if (column + next.width > end) {
            break;
        } else if (next.width > 0) {
            set_cell(row, column, look, next.octets, next.count);
            if (next.width == 2) {
                set_cell(row, column + 1, look, "", 0);
            }
            column += next.width;
        }
        text += next.taken;
    }
    if (is_cut) {
        set_cell(row, column, look, ELLIPSIS, sizeof ELLIPSIS - 1u);
        column++;
    }
    return column;
}

int put_words(int row, int column, int width, int look, const char *format, ...)
{
    char text[4u * MOST_COLUMNS];
    va_list values;
    va_start(values, format);
    vsnprintf(text, sizeof text, format, values);
    va_end(values);
    return put_text(row, column, width, look, text);
}

/* ---- Drawing it */

/* What is sent at once. A picture's worst is every cell with its own look and place. */
#define SENT_OCTETS ((size_t)MOST_ROWS * MOST_COLUMNS * 64u)
static char *sent;
static size_t sent_count;

static void send(const char *format, ...)
{
    va_list values;
    va_start(values, format);
    sent_count += (size_t)vsnprintf(sent + sent_count, SENT_OCTETS - sent_count, format, values);
    va_end(values);
}

static void send_look(int look)
{
    send("\x1B[0");
    if ((look & LOOK_COLOUR) != 0 && getenv("NO_COLOR") == NULL) {
        send(";3%d", look & LOOK_COLOUR);
    }
    send("%s%s%sm", (look & LOOK_BOLD) != 0 ? ";1" : "", (look & LOOK_FAINT) != 0 ? ";2" : "",
         (look & LOOK_REVERSED) != 0 ? ";7" : "");
}

/* What stands for a character where there is no UTF-8. */
static const char *plain_form(const char *octets)
{
    static const struct {
        const char *character, *form;
    } FORMS[] = {{"\xE2\x94\x81", "="}, {"\xE2\x94\x80", "-"}, {"\xE2\x94\xBF", "|"}, {"\xE2\x94\xBC", "|"},
                 {"\xE2\x97\x8F", "O"}, {"\xE2\x96\xB8", ">"}, {"\xC2\xB7", "."},     {"\xE2\x86\x92", ">"},
                 {"\xE2\x80\xA6", "~"}, {"\xE2\x94\x82", "|"}, {"\xE2\x86\x90", "<"}, {"\xE2\x86\x91", "^"},
                 {"\xE2\x86\x93", "v"}, {"\xE2\x80\x93", "-"}};
    size_t k;
    for (k = 0; k < sizeof FORMS / sizeof FORMS[0]; k++) {
        if (strcmp(FORMS[k].character, octets) == 0) {
            return FORMS[k].form;
        }
    }
    return "?";
}

static void send_row(int row, int has_utf8)
{
    int column, look = -1, is_placed = 0;
    for (column = 0; column < columns; column++) {
        const cell *at = &picture[row][column];
        const int is_plain = (unsigned char)at->octets[0] < 0x80u;
        if (at->octets[0] == '\0') {
            continue;
        }
        if (!is_placed) {
            send("\x1B[%d;%dH", row + 1, column + 1);
        }
        if (at->look != look) {
            look = at->look;
            send_look(look);
        }
        send("%s", is_plain || has_utf8 ? at->octets : plain_form(at->octets));
        is_placed = is_plain;
    }
}

int show_picture(int has_utf8)
{
    int row, is_there = 1;
    if (sent == NULL && (sent = malloc(SENT_OCTETS)) == NULL) {
        return 0;
    }
    sent_count = 0;
    if (!is_drawn) {
        send("\x1B[0m\x1B[2J");
    }
    for (row = 0; row < rows; row++) {
        if (!is_drawn || memcmp(picture[row], drawn[row], sizeof(cell) * (size_t)columns) != 0) {
            send_row(row, has_utf8);
            memcpy(drawn[row], picture[row], sizeof(cell) * (size_t)columns);
        }
    }
    if (sent_count > 0) {
        is_there = write_terminal(sent, sent_count);
    }
    is_drawn = 1;
    return is_there;
}
