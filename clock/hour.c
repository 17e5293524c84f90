/* An hour of wall time at every playback speed, and the longest step of all.
 *
 * hour
 *
 * On a recording that is still running a player is started for each of the 256 speeds, is given the speed by a client, and plays
 * for an hour in steps of a quarter of a second. After each minute a line says "hour", the speed, the position and the rest, as
 * the state has them. Then, on that recording and on a track of known duration, a player at each speed plays for a hundredth of a
 * second, so that there is a rest, and for 2^32 - 1 of them in one step; a line says "running" or "known", the speed, the
 * position, the rest and the media state. clock/hour.py works out what each line has to be. Exit status 0, or 1 where a call is
 * refused.
 */
#include <stdio.h>
#include <stdlib.h>

#include "mcs_desk.h"
#include "words.h"

#define LEAST_SPEED (-128)
#define MOST_SPEED 127
#define MINUTES 60u
#define MINUTE 6000u /* hundredths of a second */
#define STEP 25u
#define LONGEST_STEP 0xFFFFFFFFu
#define CLIENT 0u

/* One group with one track, without segments and without a title. */
static const uint32_t groups[MCS_GROUP_WORDS] = {0, 0, 1};
static const uint32_t running[MCS_TRACK_WORDS] = {MCS_RUNNING, 0, 0, 0, 0, 0};
static const uint32_t known[MCS_TRACK_WORDS] = {MCS_MOST_DURATION, 0, 0, 0, 0, 0};

static struct mcs_desk desk;

static void accepted(const char *what, uint32_t number)
{
    if (number != MCS_OK) {
        fprintf(stderr, "hour: %s is refused, %u: %s\n", what, (unsigned)number, mcs_refusal_words(number));
        exit(1);
    }
}

static void written(uint32_t characteristic, uint8_t octet)
{
    accepted("a write", mcs_desk_write(&desk, CLIENT, MCS_GENERIC, characteristic, &octet, 1));
}

/* From a start the generic player plays this track from 0, at this speed. */
static void play(const uint32_t *track, int speed)
{
    static const struct mcs_player players[MCS_SERVICES] = {{NULL, 0, MCS_ALL_OPCODES, 1}, {NULL, 0, MCS_ALL_OPCODES, 2}};
    const struct mcs_catalogue catalogue = {groups, MCS_GROUP_WORDS, track, MCS_TRACK_WORDS, NULL, 0, NULL, 0};
    desk.catalogue = catalogue;
    desk.titles = mcs_no_renames(&desk.catalogue);
    accepted("the start", mcs_desk_start(&desk, players));
    accepted("the group", mcs_desk_activate(&desk, MCS_GENERIC, 0));
    accepted("the client", mcs_desk_connect(&desk, CLIENT, 23, 1));
    written(MCS_PLAYBACK_SPEED, (uint8_t)speed);
    written(MCS_CONTROL_POINT, MCS_OPCODE_PLAY);
}

static void advance(uint32_t hundredths) { accepted("an advance", mcs_desk_advance(&desk, MCS_GENERIC, hundredths)); }

/* Speed, position and rest, out of the octets of the state. */
static void print_player(const char *word)
{
    const uint8_t *player = desk.state + MCS_AT_SERVICE(MCS_GENERIC);
    printf("%s %d %u %u", word, signed_octet(player[MCS_IN_SPEED]), (unsigned)word_at(player + MCS_IN_POSITION),
           (unsigned)word_at(player + MCS_IN_REST));
}

static void print_hour(int speed)
{
    play(running, speed);
    for (uint32_t minute = 0; minute < MINUTES; minute++) {
        for (uint32_t passed = 0; passed < MINUTE; passed += STEP) {
            advance(STEP);
        }
        print_player("hour");
        printf("\n");
    }
}

static void print_longest_step(const char *word, const uint32_t *track, int speed)
{
    play(track, speed);
    advance(1);
    advance(LONGEST_STEP);
    print_player(word);
    printf(" %u\n", (unsigned)desk.state[MCS_AT_SERVICE(MCS_GENERIC) + MCS_IN_MEDIA_STATE]);
}

int main(void)
{
    for (int speed = LEAST_SPEED; speed <= MOST_SPEED; speed++) {
        print_hour(speed);
    }
    for (int speed = LEAST_SPEED; speed <= MOST_SPEED; speed++) {
        print_longest_step("running", running, speed);
        print_longest_step("known", known, speed);
    }
    return 0;
}
