/* The books: what each device pressed and was told at each player, and where each player's tape has to be, kept apart from the
 * desk, and held against what the desk hands out. */
#ifndef BOOKS_H
#define BOOKS_H

#include <stdint.h>

#include "clock.h"
#include "service.h"

/* A press whose result is still to come. Presses are counted for each device and player from 1; no press has the number 0. */
typedef struct {
    uint32_t number;
    uint8_t opcode;
} open_press;

/* A press, accepted or refused. Its number. */
uint32_t book_press(uint32_t who, uint32_t service, uint8_t opcode, int accepted);

/* The oldest press of a device at a player whose result is still to come. */
open_press oldest_press(uint32_t who, uint32_t service);

/* A result of a player is handed to a device. Whether it is that of its oldest press there, which it then answers. */
int book_result(uint32_t who, uint32_t service, uint8_t opcode);

/* What a device knows of a slot of a player since it subscribed. It is what the client last took, or itself wrote with success
 * since; of the two the later counts (SCOPE 21.12). What it reads beside that does not count. */
typedef enum { BY_NOTHING, BY_NOTIFICATION, BY_OWN_WRITE } known_by;
typedef struct {
    int changed; /* a call has changed the value since */
    known_by by;
    uint32_t length;
    uint8_t octets[MCS_OUTPUT_OCTETS];
} known_value;

/* A device subscribes, and knows nothing yet; a call has changed a value of a player, which every device that is subscribed to it
 * has to know from now on; and a device is told a value, or writes it with success. */
void book_subscribed(uint32_t who, uint32_t service, uint32_t characteristic);
void book_changed(uint32_t service, uint32_t characteristic);
void book_value(uint32_t who, uint32_t service, uint32_t characteristic, known_by by, const uint8_t *octets, uint32_t length);

/* A device that is subscribed to a slot, or MCS_CLIENTS where none is. */
uint32_t a_subscriber(uint32_t service, uint32_t characteristic);

/* Of what a device is not subscribed to it knows nothing, and nothing has changed. */
const known_value *value_known(uint32_t who, uint32_t service, uint32_t characteristic);

/* Other titles are lent, of which no device is told. SCOPE 21.3 speaks of one set of titles: what the devices knew of a title is
 * of those that were lent before, and they have to know it again when a call next changes it. */
void book_lent(void);

/* A device comes; and it goes, and of each player the desk held so many results for it. */
void book_join(uint32_t who);
void book_leave(uint32_t who, const uint32_t held[MCS_SERVICES]);

/* A take. Before it these places were owed to each device: bit SLOTS * service + slot. Whether it served the one whose turn it
 * was, and left alone the player that it was not of. */
int book_take(const uint32_t owed[MCS_CLIENTS], uint32_t who, uint32_t place, int left_alone);

/* Where the tape of a player has to be from now on, until this is booked again: what is not booked does not move it, and keeps the
 * rest behind its position. And a place that the player has it at, and whether it is that one, which is handed back. */
void book_tape(uint32_t service, tape_place place);
tape_place tape_booked(uint32_t service);
int book_place(int right);

/* A folder that a device draws, and whether it is the catalogue's. A press of Next Track, and whether it led to the track whose
 * object number the player had as that of the next one, once where it was named, or stayed where it had none. A Goto that is taught
 * by single steps, and whether these and the manual's Goto came to the same, moved nothing, and with all steps allowed came to what
 * the player's own Goto did. Each hands back what it was told. */
int book_folder(int right);
int book_next(int right);
int book_goto(int right);

/* A call to one player, and whether it left the other alone and made the title owed where it changed it, and nowhere else. A title
 * that a device is told or reads, or that the desk is asked for, and whether it is that of the track, the office's or the card's;
 * or a call with a wrong one, and whether it was refused. Each hands back what it was told. */
int book_call(int right);
int book_title(int right);

/* A run of takes alone, and whether nothing was owed after as many as there were things owed, MCS_MOST_OWED or fewer. A value that
 * a device has to know when nothing is owed, and whether it knows the one that its player has; and one that two devices have to
 * know, and whether they know the same. Each hands back what it was told. */
int book_quiet(int right);
int book_agreement(int right);
int book_alike(int right);

/* Prints the books. Whether every result went to the device that pressed, at its player, in the order of its presses, and none is
 * missing; every take was in turn, and every run of them ended in time; every call left the other player alone, and made the title
 * owed rightly; every device agreed with its players, and with the other devices; every tape was where it had to be; every title
 * was that of its track; every folder was the catalogue's; and every Next Track and every Goto that was taught led where it
 * should. */
int print_books(void);

#endif
