/* The smallest use of the library: one group, one track, one pedal that presses Play on the generic player and is told so,
 * while the named player, over the same track, stays as it is; the group as the object that a screen draws; a title of the
 * office's own; slow playback; and what a Goto would do, by single steps. It includes mcs_desk.h and nothing else, and is C as
 * well as C++; its exit status is 0, or the number of the first step that did not give what docs/SCOPE.md says. */
#include "mcs_desk.h"

/* One group, with one track of ten seconds without segments, whose title is the whole text. */
static const uint32_t groups[] = {0, 0, 1};
static const uint32_t tracks[] = {1000, 7, 0, 0, 0, 9};
static const uint8_t text[] = {'I', 'n', 't', 'e', 'r', 'v', 'i', 'e', 'w'};
static const uint8_t generic_name[] = {'D', 'e', 's', 'k'};
static const uint8_t named_name[] = {'D', 'e', 's', 'k', ' ', '4'};
static const uint8_t bad_name[] = {'D', 'e', 's', 'k', 0xC3};

/* What the office calls the track: the last six octets of its text. */
static const uint32_t renames[] = {2, 6};
static const uint8_t office[] = {'1', '.', 'B', 'a', 'k', 'e', 'r', 'y'};

/* The two players, in the order of their services: MCS_GENERIC, MCS_NAMED. Each has a Content Control ID of its own. */
static const struct mcs_player players[MCS_SERVICES] = {{generic_name, sizeof generic_name, MCS_ALL_OPCODES, 5},
                                                        {named_name, sizeof named_name, MCS_ALL_OPCODES, 6}};

static struct mcs_desk desk = {{groups, 3, tracks, 6, NULL, 0, text, sizeof text}, {NULL, 0, NULL, 0}, {0}, {0, 0}};

int main(void)
{
    const uint32_t pedal = 2;
    const uint8_t play = MCS_OPCODE_PLAY, half = 0xC0; /* -64, and 2 to the power -64 / 64 is a half */
    uint8_t out[MCS_OUTPUT_OCTETS];
    uint32_t words[MCS_GROUP_ENTRY_WORDS];
    struct mcs_entries entries = {words, MCS_GROUP_ENTRY_WORDS, 0};
    const struct mcs_titles renamed = {renames, MCS_RENAME_WORDS, office, sizeof office};
    struct mcs_served served;
    struct mcs_title title;
    struct mcs_goto shown;
    uint32_t length, number;

    /* At first the office renames nothing. */
    desk.titles = mcs_no_renames(&desk.catalogue);
    if (mcs_desk_start(&desk, players) != MCS_OK)
        return 1;
    if (mcs_desk_activate(&desk, MCS_GENERIC, 0) != MCS_OK)
        return 2;
    if (mcs_desk_connect(&desk, pedal, 64, 1) != MCS_OK)
        return 3;
    if (mcs_desk_subscribe(&desk, pedal, MCS_GENERIC, MCS_CONTROL_POINT) != MCS_OK)
        return 4;
    if (mcs_desk_write(&desk, pedal, MCS_GENERIC, MCS_CONTROL_POINT, &play, 1) != MCS_OK)
        return 5;

    /* The pedal is owed the result of its own write: Play, Success. */
    if (mcs_desk_take(&desk, out, sizeof out, &served) != MCS_OK)
        return 6;
    if (served.client != pedal || served.service != MCS_GENERIC || served.characteristic != MCS_CONTROL_POINT ||
        served.length != 2 || out[0] != play || out[1] != MCS_RESULT_SUCCESS)
        return 7;

    /* Nothing else is owed. */
    if (mcs_desk_take(&desk, out, sizeof out, &served) != MCS_OK || served.characteristic != MCS_NOTHING)
        return 8;

    /* After 2.5 seconds the position is 250 hundredths. */
    if (mcs_desk_advance(&desk, MCS_GENERIC, 250) != MCS_OK)
        return 9;
    if (mcs_desk_read(&desk, pedal, MCS_GENERIC, MCS_POSITION, 0, out, sizeof out, &length) != MCS_OK)
        return 10;
    if (length != 4 || out[0] != 250 || out[1] != 0 || out[2] != 0 || out[3] != 0)
        return 11;

    /* A refusal: a client that is not connected may not write, and nothing is altered. It is the host that is at fault, so the
     * number is no ATT error. */
    number = mcs_desk_write(&desk, 0, MCS_GENERIC, MCS_CONTROL_POINT, &play, 1);
    if (number != MCS_NOT_CONNECTED || MCS_IS_ATT_ERROR(number))
        return 12;
    /* One that the client is to be told: the value of the playing order has one octet. */
    number = mcs_desk_write(&desk, pedal, MCS_GENERIC, MCS_PLAYING_ORDER, out, 2);
    if (number != MCS_BAD_LENGTH || !MCS_IS_ATT_ERROR(number))
        return 13;
    /* One that whoever typed the name is to be told: at octet 4 it is not UTF-8. It is no title that is wrong, so there is no track. */
    number = mcs_desk_set_name(&desk, MCS_NAMED, bad_name, sizeof bad_name);
    if (number != MCS_BAD_NAME || desk.place.octet != 4 || desk.place.track != MCS_NOWHERE)
        return 14;

    /* All that was the generic player's: the named one is Inactive still. */
    if (mcs_desk_read(&desk, pedal, MCS_NAMED, MCS_MEDIA_STATE, 0, out, sizeof out, &length) != MCS_OK)
        return 15;
    if (length != 1 || out[0] != MCS_INACTIVE)
        return 16;

    /* What a screen needs to draw the folder that plays: the number of its object, and the object, which the host's Object Transfer
     * Service hands out by that number. It has one entry, the track; and the track has no segments, and so no object for them. */
    if (mcs_desk_read(&desk, pedal, MCS_GENERIC, MCS_GROUP_OBJECT, 0, out, sizeof out, &length) != MCS_OK)
        return 17;
    if (length != MCS_OBJECT_OCTETS || mcs_object_at(out) != MCS_OBJECT_OF_GROUP(0))
        return 18;
    if (mcs_desk_group_object(&desk, 0, out, sizeof out, &length) != MCS_OK)
        return 19;
    if (mcs_group_entries(out, length, &entries) != MCS_OK || entries.count != 1 ||
        mcs_entry_type(&entries, 0) != MCS_ENTRY_TRACK || mcs_entry_object(&entries, 0) != MCS_OBJECT_OF_TRACK(0))
        return 20;
    if (mcs_desk_segments_object(&desk, 0, out, sizeof out, &length) != MCS_NOT_ALLOWED)
        return 21;

    /* The title of the track is the card's, and stands where the card's text is. */
    if (mcs_desk_title(&desk, MCS_GENERIC, &title) != MCS_OK || title.text != MCS_CARD_TEXT || title.octets != text ||
        title.length != sizeof text)
        return 22;
    if (mcs_desk_subscribe(&desk, pedal, MCS_GENERIC, MCS_TITLE) != MCS_OK)
        return 23;
    /* Then the office renames it; the card stays as it is. The pedal reads the new title. It is owed nothing for it, though it is
     * subscribed, since no call has changed anything. The named player is Inactive, and has an empty title. */
    desk.titles = renamed;
    if (mcs_desk_title(&desk, MCS_GENERIC, &title) != MCS_OK || title.text != MCS_OFFICE_TEXT || title.octets != office + 2 ||
        title.length != 6)
        return 24;
    if (mcs_desk_take(&desk, out, sizeof out, &served) != MCS_OK || served.characteristic != MCS_NOTHING)
        return 25;
    if (mcs_desk_read(&desk, pedal, MCS_GENERIC, MCS_TITLE, 0, out, sizeof out, &length) != MCS_OK || length != 6 ||
        out[0] != 'B' || out[5] != 'y')
        return 26;
    if (mcs_desk_title(&desk, MCS_NAMED, &title) != MCS_OK || title.text != MCS_CARD_TEXT || title.length != 0)
        return 27;

    /* At half the speed the host still tells what its clock says. After 1.01 seconds the position, which was 250, is 300 hundredths,
     * and the library keeps half a hundredth: with one more hundredth of a second the position is 301. */
    if (mcs_desk_write(&desk, pedal, MCS_GENERIC, MCS_PLAYBACK_SPEED, &half, 1) != MCS_OK)
        return 28;
    if (mcs_desk_advance(&desk, MCS_GENERIC, 101) != MCS_OK ||
        mcs_desk_read(&desk, pedal, MCS_GENERIC, MCS_POSITION, 0, out, sizeof out, &length) != MCS_OK)
        return 29;
    if (length != 4 || out[0] != 300 - 256 || out[1] != 1 || out[2] != 0 || out[3] != 0)
        return 30;
    if (mcs_desk_advance(&desk, MCS_GENERIC, 1) != MCS_OK ||
        mcs_desk_read(&desk, pedal, MCS_GENERIC, MCS_POSITION, 0, out, sizeof out, &length) != MCS_OK)
        return 31;
    if (length != 4 || out[0] != 301 - 256 || out[1] != 1)
        return 32;

    /* Whoever teaches Goto asks what Goto Track 2 would do: First leads to the only track, and Next cannot be made. That is the second
     * step, and nothing moves. With one step allowed, it does not come so far. */
    if (mcs_desk_goto(&desk, MCS_GENERIC, MCS_OPCODE_GOTO_TRACK, 2, 10, &shown) != MCS_OK)
        return 33;
    if (shown.outcome != MCS_RESULT_NOT_COMPLETED || shown.steps != 2 || shown.track != 0 || shown.position != 301)
        return 34;
    if (mcs_desk_goto(&desk, MCS_GENERIC, MCS_OPCODE_GOTO_TRACK, 2, 1, &shown) != MCS_OK || shown.outcome != MCS_RAN_OUT ||
        shown.steps != 1 || shown.position != 301)
        return 35;
    /* Goto Track 1 would begin the track anew; the player itself stays where it is. */
    if (mcs_desk_goto(&desk, MCS_GENERIC, MCS_OPCODE_GOTO_TRACK, 1, 1, &shown) != MCS_OK ||
        shown.outcome != MCS_RESULT_SUCCESS || shown.steps != 1 || shown.track != 0 || shown.position != 0 || shown.rest != 0)
        return 36;
    if (mcs_desk_read(&desk, pedal, MCS_GENERIC, MCS_POSITION, 0, out, sizeof out, &length) != MCS_OK || length != 4 ||
        out[0] != 301 - 256 || out[1] != 1)
        return 37;
    return 0;
}
