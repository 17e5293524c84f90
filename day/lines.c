#include "lines.h"

#include <stdio.h>

#define WHAT_WIDTH 9
#define PLAYER_WIDTH 9
#define COLUMN_WIDTH 24

static int colours;

void use_colours(void) { colours = 1; }

void paint(const char *colour)
{
    if (colours) {
        printf("%s", colour);
    }
}

void begin_desk_line(const char *what, uint32_t service)
{
    paint(FAINT);
    printf("  %-*s", WHAT_WIDTH, what);
    print_player(service, PLAYER_WIDTH);
    paint(PLAIN);
}

void begin_line(const char *what, uint32_t service, uint32_t who)
{
    begin_desk_line(what, service);
    printf("%*s", (int)who * COLUMN_WIDTH, "");
    paint(DEVICES[who].colour);
}

void end_line(void)
{
    paint(PLAIN);
    putchar('\n');
}

void print_device(uint32_t who, int width)
{
    paint(DEVICES[who].colour);
    printf("%-*s", width, DEVICES[who].name);
    paint(PLAIN);
}

void print_player(uint32_t service, int width) { printf("%-*s", width, service == NO_PLAYER ? "" : PLAYERS[service].word); }

void print_heading(const char *title)
{
    uint32_t who;
    putchar('\n');
    paint(BOLD);
    printf("%s", title);
    end_line();
    begin_desk_line("", NO_PLAYER);
    for (who = 0; who < MCS_CLIENTS; who++) {
        print_device(who, who + 1u < MCS_CLIENTS ? COLUMN_WIDTH : 0);
    }
    putchar('\n');
}
