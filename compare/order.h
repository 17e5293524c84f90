/* The playing order of a group's tracks, the moves along it and those from group to group, by rules of their own here. A
 * comment that names a rule, such as SCOPE 18.2, says it in a few words; docs/SCOPE.md has the rule. */
#ifndef ORDER_H
#define ORDER_H

#include "tables.h"

#define NO_TRACK 0xFFFFFFFFu
#define NO_GROUP 0xFFFFFFFFu

/* The tracks of a group in an order, of which 1 and 2 are here as where a group is activated; how many they are. */
uint32_t list_in_order(const tables *t, uint32_t group, uint32_t order, uint32_t list[MCS_MOST_TRACKS]);

/* The place in a list of so many that a track move leads to from a place, or -1 where it cannot be made. */
int64_t place_after(uint8_t opcode, int64_t n, int64_t place, int64_t length, int repeats);

/* The track that a track move leads to from a track of a group, or NO_TRACK where it cannot be made. */
uint32_t track_after(const tables *t, uint32_t group, uint32_t track, uint32_t order, uint8_t opcode, int64_t n);

/* The groups that the moves from a group with tracks run over, by number; how many they are. */
uint32_t groups_beside(const tables *t, uint32_t group, uint32_t list[MCS_MOST_GROUPS]);

/* The group that a group move leads to from a group with tracks, or NO_GROUP where it cannot be made. */
uint32_t group_after(const tables *t, uint32_t group, uint8_t opcode, int64_t n);

#endif
