/* The Group and Track Segments objects, by rules of their own here (SCOPE 7, and sections 4.2 and 4.4 of the standard): what
 * both programs write and read is held against them, and what was met is counted by them. */
#ifndef ENTRIES_H
#define ENTRIES_H

#include "run.h"

/* The octets of the object that a write of this kind is about, how many they are; ABSENT where there is none. */
#define ABSENT 0xFFFFFFFFu
uint32_t octets_of_object(const tables *t, uint32_t kind, uint32_t number, uint8_t octets[MCS_MOST_SEGMENTS_OBJECT]);

/* The words of the entries that a read of this kind gives, how many entries there are, and how many words an entry has. */
typedef struct {
    uint32_t fault; /* what the first octets are that are no entry; NO_FAULT where all are */
    uint32_t count; /* entries before them */
    uint32_t words[SHEET_ROOM];
} entries_read;
enum { NO_FAULT, CUT_ENTRY, OTHER_TYPE, BAD_SEGMENT_NAME, NEGATIVE_POSITION, ENTRY_FAULTS };
uint32_t entry_words(uint32_t kind);
void entries_of_octets(uint32_t kind, const sheet *object, entries_read *e);

/* What is wrong with an object that both have written or read, in words; a null pointer where nothing is. */
const char *wrong_object(const run *r, const step *s);

#endif
