/* Calls on both programs with what the rules of docs/SCOPE.md say of them. */
#ifndef EXPECT_H
#define EXPECT_H

#include "run.h"

#include <stdio.h>

/* The run of the cases, and where complaints go. Returns how many expectations were not met; 1 where there was none. */
extern run *both;
unsigned long expect_on(run *r, FILE *out, void (*cases)(void));

/* The case that is tried now. */
void now_trying(const char *what);
void expect(const char *what, int64_t is, int64_t should);

/* The service that steps are made for from now on; at first the generic one. The cases are played on each in turn, but for those
 * that are about neither. */
extern uint32_t tried_service;
void in_each_service(void (*cases)(void));

/* Where a part of its player, and of a client's account in it, lies in the state. */
uint32_t player_at(uint32_t part);
uint32_t account_at(uint32_t client, uint32_t part);

/* A step of that kind, to the service that is tried, with no other arguments, and room for an output. */
step blank(uint32_t kind);
step with_octets(step s, const void *octets, uint32_t length);

/* A start with this name for the player of the service that is tried. */
step with_name(step s, const void *octets, uint32_t length);

/* Makes the call on both, which have to agree and to return this number. The library's is made twice, at either page. */
void makes(step s, uint32_t number);

/* The track and the octet that it carried; MCS_NOWHERE for what it left alone. */
void carries(uint32_t track, uint32_t octet);

/* ---- Steps with their arguments; those without a number are accepted */

void start_desk(uint32_t mask); /* that of the service that is tried; the player beside it has all opcodes */
void activate(uint32_t group, uint32_t number);
void connect_with(uint32_t client, uint32_t mtu); /* encrypted */
void connect_client(uint32_t client);             /* the same, with ATT_MTU 23, and subscribed to the control point */
void set_name(const char *name);
void subscribe_to(uint32_t client, uint32_t characteristic);
void write_by(uint32_t client, uint32_t characteristic, const void *octets, uint32_t length);
void write_value(uint32_t characteristic, const void *octets, uint32_t length); /* by client 0 */
void write_position(int64_t n);
void advance_by(uint32_t hundredths);
void read_name(uint32_t offset, uint32_t number);
void takes(uint32_t client, uint32_t characteristic, const void *octets, uint32_t length);

/* The next take serves nothing. */
void takes_nothing(void);

/* A control write by client 0, whose result is then taken. */
void commands(uint8_t opcode, int64_t n, uint8_t result);

/* Octets of the state; a number of four or fewer octets there. */
void poke(uint32_t at, const void *octets, uint32_t length);
void poke_number(uint32_t at, uint32_t number, uint32_t octets);

/* ---- Where the player of the service that is tried stands, by the library's state */

ref_player meant(void);
void stands_at(uint32_t group, uint32_t track, uint32_t position);

/* A desk over a catalogue, as start leaves it. */
void begin_desk(const char *what, const catalogue_lines *lines);

/* A desk on the sample: group 1 in that order, on that track at that position, with client 0. */
void stand(const char *what, uint8_t order, uint32_t track, uint32_t position);

/* Client 0 and 1 are connected encrypted, 2 unencrypted, 3 not at all. */
void four_clients(const char *what);

/* A call that is accepted where the state stands, two with 205, and four with a row behind 201: all refused with the number,
 * or each as it has to be where it is 0. */
void calls_give(uint32_t number);

/* Every call that has what is asked for, with arguments that a later row refuses where there is one: all refused with the number, and
 * carrying this place. */
void all_calls_give(int (*has)(uint32_t kind), uint32_t number, uint32_t track, uint32_t octet);

#endif
