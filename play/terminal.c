#define _POSIX_C_SOURCE 200809L

#include "terminal.h"

#include <errno.h>
#include <fcntl.h>
#include <poll.h>
#include <signal.h>
#include <stdlib.h>
#include <string.h>
#include <sys/ioctl.h>
#include <termios.h>
#include <unistd.h>

/* A second page, no cursor, and no new line where the last column is written; and all that taken back. */
#define OPENING "\x1B[?1049h\x1B[?25l\x1B[?7l"
#define CLOSING "\x1B[0m\x1B[?7h\x1B[?25h\x1B[?1049l"

/* How long the rest of a key's sequence may take behind its escape. A person's own Escape comes alone. */
#define SEQUENCE_MILLISECONDS 50

#define MOST_KEYS 64

static struct termios usual;
static int is_open;

/* Signals are passed on through a pipe, so that waiting for a key sees them as well. */
static int signals[2];
static volatile sig_atomic_t ended_by;

/* Octets of keys that were read and are still to be understood. */
static unsigned char keys[MOST_KEYS];
static size_t keys_count;

int is_terminal(void) { return isatty(STDIN_FILENO) && isatty(STDOUT_FILENO); }

int ending_signal(void) { return ended_by; }

/* ---- Signals */

static void on_signal(int number)
{
    const int before = errno;
    const char mark = number == SIGWINCH ? 'w' : 'e';
    if (number != SIGWINCH) {
        ended_by = number;
    }
    if (write(signals[1], &mark, 1) < 0) {
        /* The pipe is full, so waiting ends anyway. */
    }
    errno = before;
}

static int open_signals(void)
{
    static const int NUMBERS[] = {SIGWINCH, SIGINT, SIGTERM, SIGHUP, SIGQUIT};
    struct sigaction action;
    size_t k;
    int end;
    if (pipe(signals) != 0) {
        return 0;
    }
    for (end = 0; end < 2; end++) {
        if (fcntl(signals[end], F_SETFL, O_NONBLOCK) < 0) {
            return 0;
        }
    }
    memset(&action, 0, sizeof action);
    action.sa_handler = on_signal;
    for (k = 0; k < sizeof NUMBERS / sizeof NUMBERS[0]; k++) {
        if (sigaction(NUMBERS[k], &action, NULL) != 0) {
            return 0;
        }
    }
    action.sa_handler = SIG_IGN; /* a terminal that is gone is seen by what write answers */
    return sigaction(SIGPIPE, &action, NULL) == 0;
}

/* ---- Open and closed */

int open_terminal(void)
{
    struct termios raw;
    if (tcgetattr(STDIN_FILENO, &usual) != 0 || !open_signals()) {
        return 0;
    }
    raw = usual;
    raw.c_iflag &= ~(tcflag_t)(BRKINT | ICRNL | INLCR | IGNCR | INPCK | ISTRIP | IXON);
    raw.c_lflag &= ~(tcflag_t)(ECHO | ECHONL | ICANON | IEXTEN | ISIG);
    raw.c_oflag &= ~(tcflag_t)OPOST;
    raw.c_cc[VMIN] = 1;
    raw.c_cc[VTIME] = 0;
    if (tcsetattr(STDIN_FILENO, TCSAFLUSH, &raw) != 0) {
        return 0;
    }
    is_open = 1;
    atexit(close_terminal);
    return write_terminal(OPENING, sizeof OPENING - 1u);
}

void close_terminal(void)
{
    if (is_open) {
        is_open = 0;
        write_terminal(CLOSING, sizeof CLOSING - 1u);
        tcsetattr(STDIN_FILENO, TCSAFLUSH, &usual);
    }
}

void terminal_size(int *rows, int *columns)
{
    struct winsize size;
    if (ioctl(STDOUT_FILENO, TIOCGWINSZ, &size) == 0 && size.ws_row > 0 && size.ws_col > 0) {
        *rows = size.ws_row;
        *columns = size.ws_col;
    } else {
        *rows = 24;
        *columns = 80;
    }
}

int write_terminal(const char *octets, size_t count)
{
    while (count > 0) {
        const ssize_t written = write(STDOUT_FILENO, octets, count);
        if (written >= 0) {
            octets += written;
            count -= (size_t)written;
        } else if (errno != EINTR) {
            return 0;
        }
    }
    return 1;
}

/* ---- Keys */

static void drop_keys(size_t count)
{
    keys_count -= count;
    memmove(keys, keys + count, keys_count);
}

/* Whether something more can be read of standard input by then. */
static int more_comes(int milliseconds)
{
    struct pollfd input = {STDIN_FILENO, POLLIN, 0};
    return poll(&input, 1, milliseconds) > 0 && (input.revents & POLLIN) != 0;
}

/* Whether there was something to read. */
static int read_keys(void)
{
    const ssize_t count = read(STDIN_FILENO, keys + keys_count, MOST_KEYS - keys_count);
    if (count > 0) {
        keys_count += (size_t)count;
    }
    return count > 0 || (count < 0 && (errno == EINTR || errno == EAGAIN));
}

/* The key of a sequence that begins with an escape: "ESC [" or "ESC O", parameters, and a last octet that says which. */
static int sequence_key(void)
{
    size_t at = 2;
    int last;
    if (keys_count < 2u && more_comes(SEQUENCE_MILLISECONDS)) {
        read_keys();
    }
    if (keys_count < 2u || (keys[1] != '[' && keys[1] != 'O')) {
        drop_keys(1);
        return KEY_ESCAPE;
    }
    while (at < MOST_KEYS && (at >= keys_count || (keys[at] >= 0x20u && keys[at] < 0x40u))) {
        if (at < keys_count) {
            at++;
        } else if (!more_comes(SEQUENCE_MILLISECONDS) || !read_keys()) {
            break;
        }
    }
    last = at < keys_count ? keys[at] : 0;
    drop_keys(last >= 0x40 ? at + 1u : at); /* another octet ends the sequence, and is a key of its own */
    switch (last) {
    case 'A':
        return KEY_UP;
    case 'B':
        return KEY_DOWN;
    case 'C':
        return KEY_RIGHT;
    case 'D':
        return KEY_LEFT;
    default:
        return KEY_UNKNOWN;
    }
}

static int next_key(void)
{
    int key = keys[0];
    if (key == KEY_ESCAPE) {
        return sequence_key();
    }
    drop_keys(1);
    if (key == '\n') {
        key = KEY_ENTER;
    } else if (key == 8) { /* what some terminals send for Backspace */
        key = KEY_BACKSPACE;
    } else if (key >= 0x80) {
        key = KEY_UNKNOWN;
    }
    return key;
}

waited wait_terminal(int milliseconds, int *key)
{
    struct pollfd both[2] = {{STDIN_FILENO, POLLIN, 0}, {signals[0], POLLIN, 0}};
    char mark;
    if (keys_count > 0) {
        *key = next_key();
        return WAS_KEY;
    }
    if (poll(both, 2, milliseconds) < 0 && errno != EINTR) {
        return WAS_ENDED;
    }
    if (ended_by != 0) {
        return WAS_ENDED;
    }
    if (read(signals[0], &mark, 1) == 1) {
        return WAS_RESIZED;
    }
    if ((both[0].revents & (POLLIN | POLLHUP | POLLERR | POLLNVAL)) == 0) {
        return WAS_TIME;
    }
    if (!read_keys()) {
        return WAS_ENDED;
    }
    if (keys_count == 0) {
        return WAS_TIME;
    }
    *key = next_key();
    return WAS_KEY;
}
