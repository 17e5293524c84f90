/* The terminal: keys as they are pressed, the size of its window, and octets to it. While it is open, keys are not echoed and not
 * gathered into lines, and what is drawn stands on a second page, so that the first one is there again when it is closed. */
#ifndef TERMINAL_H
#define TERMINAL_H

#include <stddef.h>

/* Keys that are no characters; every other key is its character. */
enum { KEY_UP = 256, KEY_DOWN, KEY_LEFT, KEY_RIGHT, KEY_UNKNOWN };
enum { KEY_TAB = 9, KEY_ENTER = 13, KEY_ESCAPE = 27, KEY_BACKSPACE = 127 };

/* Whether both standard input and standard output are a terminal. */
int is_terminal(void);

/* Opens it. Whether it could be. Closing it twice does no harm, and a program that ends by exit() closes it. */
int open_terminal(void);
void close_terminal(void);

/* The size of the window as it is now. */
void terminal_size(int *rows, int *columns);

/* Whether octets could be written to it, all of them. */
int write_terminal(const char *octets, size_t count);

/* Waits for a key, for another size of the window, for a signal that ends the program, or until the time is over; a negative time
 * never is. Where the terminal is gone, it has ended too. */
typedef enum { WAS_TIME, WAS_KEY, WAS_RESIZED, WAS_ENDED } waited;
waited wait_terminal(int milliseconds, int *key);

/* The signal that ended it; 0 where none did. */
int ending_signal(void);

#endif
