/* The picture as rows of cells, put together first and then drawn, so that the terminal is sent only what has changed. A text takes as
 * many cells as its characters are wide, is cut between characters, and cannot send the terminal anything but characters. */
#ifndef CANVAS_H
#define CANVAS_H

/* How a cell looks: a colour, and any of the others. */
enum { LOOK_PLAIN = 0, LOOK_RED = 1, LOOK_GREEN = 2, LOOK_YELLOW = 3, LOOK_MAGENTA = 5, LOOK_CYAN = 6, LOOK_COLOUR = 7 };
enum { LOOK_BOLD = 8, LOOK_FAINT = 16, LOOK_REVERSED = 32 };

/* An empty picture of this size. Where it is another one than before, the whole terminal is drawn again. */
void begin_picture(int rows, int columns);
int picture_rows(void);
int picture_columns(void);

/* Puts a text into a row, in so many cells from a column on; where it has more, it is cut, and an ellipsis says so. What does not lie
 * in the picture is left out. The column behind the text. */
int put_text(int row, int column, int width, int look, const char *text);

/* The same, formatted; and a whole row in one look, without a text. */
int put_words(int row, int column, int width, int look, const char *format, ...) __attribute__((format(printf, 5, 6)));
void put_row(int row, int look);

/* How many cells a text takes. */
int text_width(const char *text);

/* Draws it. Whether the terminal is still there. Where it shows no UTF-8, characters beyond ASCII are drawn as ones that are like
 * them, or as a question mark. */
int show_picture(int has_utf8);

#endif
