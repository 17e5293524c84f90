/* The office: the desk with its two players, its devices, and what passes between them, shown as it happens. */
#ifndef OFFICE_H
#define OFFICE_H

#include "devices.h"

/* Starts the desk on a catalogue. 0, or the number of the refusal, and the place that it carries. */
uint32_t open_office(const struct mcs_catalogue *c, struct mcs_place *place);

/* Who is in the office, and how to read what follows. */
void introduce(void);

/* What the desk does, each at one player. Time passes by the clock on the wall, in one step or hundredth by hundredth. */
void open_group(uint32_t service, uint32_t group);
void close_group(uint32_t service);
void let_pass(uint32_t service, uint32_t hundredths);
void let_pass_singly(uint32_t service, uint32_t hundredths);
void rename_player(uint32_t service, const char *name);
uint32_t track_end(uint32_t service); /* 0 where there is no track */
uint32_t time_left(uint32_t service); /* by the clock, until a tape that plays is at that end */

/* Where a player stands, when it is not it that was called; and where its title does, and in which text. */
void show_player(uint32_t service);
void show_title(uint32_t service);

/* The office lends a title of its own for a track from now on, and no device is told. Or it lends that title cut behind so many
 * octets, inside a character: what is asked of a player is then refused, until it lends a right one. */
void lend_title(uint32_t track, const char *title);
void lend_cut_title(uint32_t service, uint32_t track, uint32_t octets);

/* The catalogue that the desk is lent; and the octets of a group's object, which the desk sends to a device that asks for it by its
 * number: how many there are. */
const struct mcs_catalogue *the_catalogue(void);
uint32_t hand_out(uint64_t folder, uint8_t octets[MCS_MOST_GROUP_OBJECT]);

/* What the devices do. They come to both players and leave both; everything else is at one. */
void join(uint32_t who);
void leave(uint32_t who);
void press(uint32_t who, uint32_t service, uint8_t opcode);
void press_with(uint32_t who, uint32_t service, uint8_t opcode, int32_t number);
void set_order(uint32_t who, uint32_t service, uint8_t order);
void set_speed(uint32_t who, uint32_t service, int8_t speed);
void set_position(uint32_t who, uint32_t service, int32_t position);
void set_object(uint32_t who, uint32_t service, uint32_t characteristic, uint64_t object);

/* A device's Goto is taught by single steps, of which so many are allowed; then it is pressed. */
void teach_goto(uint32_t who, uint32_t service, uint8_t opcode, int32_t number, uint32_t allowed);

/* Part of a value from an offset on. How many octets came; NOT_READ where it was refused. */
#define NOT_READ 0xFFFFFFFFu
uint32_t read_part(uint32_t who, uint32_t service, uint32_t characteristic, uint32_t offset);

/* An object's number, or NO_OBJECT. */
#define NO_OBJECT 0u /* which no object here has */
uint64_t read_object(uint32_t who, uint32_t service, uint32_t characteristic);

/* Part after part, until one comes empty. */
void read_long(uint32_t who, uint32_t service, uint32_t characteristic);

/* Takes until nothing is owed. Then what each device knows is held against its players. */
void tell_all(void);

/* Takes until nothing is owed, and how many things were owed and how many takes it took; and then what each device knows of
 * the players that it follows, by its last notification or by a write of its own, what they have, and whether all agree. */
void go_quiet(void);
void show_agreement(void);

#endif
