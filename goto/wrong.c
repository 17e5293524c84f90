/* The manual's Goto with one word that is wrong, for a test of the program goto, which has to see it of each word. For that the
 * program is compiled with -Dmcs_manual_goto=wrong_manual_goto. WRONG_WORD in the environment names the word, 0 and 1 of what was
 * made and 2 to 5 of the place: it is one more than the library has it. */
#undef mcs_manual_goto
#include <stdlib.h>

#include "mcs.h"

uint32_t wrong_manual_goto(MCS_CATALOGUE, MCS_OFFICE_TITLES, const uint8_t state[MCS_STATE_OCTETS], uint32_t service,
                           uint32_t opcode, int32_t number, uint32_t allowed, uint32_t made[MCS_GOTO_MADE_WORDS],
                           uint32_t place[MCS_GOTO_PLACE_WORDS], MCS_PLACE)
{
    const char *named = getenv("WRONG_WORD");
    unsigned long word = named == NULL ? 0 : strtoul(named, NULL, 10);
    uint32_t refusal =
        mcs_manual_goto(groups, groups_len, tracks, tracks_len, segments, segments_len, text, text_len, renames, renames_len,
                        office, office_len, state, service, opcode, number, allowed, made, place, track, octet);
    if (word < MCS_GOTO_MADE_WORDS) {
        made[word] += 1u;
    } else {
        place[word - MCS_GOTO_MADE_WORDS] += 1u;
    }
    return refusal;
}
