/* An office's day on a card: four devices on one desk with two players, the generic one and a named one, over the same tables.
 * The pedals are at the generic player, the screen at the named one, and the headset at both. A person sees each result go to
 * the device that asked, a press at one player leave the other alone, the screen draw the folders and name a track in them, a tape
 * that goes slower than it was recorded, the titles that the typists' office gives to tracks beside the card's, what Goto does step
 * by step, and that all four devices agree when things go quiet.
 *
 *     day [CARD]      the card's file; without one, the sample card
 *
 * Exit status 0, or 1 where the card is refused, or where the books say that something went wrong (books.h), or 2 where the file
 * cannot be read.
 */
#define _POSIX_C_SOURCE 200809L /* isatty */

#include <stdio.h>
#include <stdlib.h>
#include <unistd.h>

#include "books.h"
#include "folders.h"
#include "lines.h"
#include "load.h"
#include "office.h"
#include "refused_card.h"
#include "tables.h"

#define SAMPLE_CARD "crates/orders/stdin"

#define NO_OPCODE 0x7Fu /* one that the standard does not have */

static void morning(uint32_t first, uint32_t last)
{
    print_heading("Eight o'clock: left pedal, headset and screen are switched on, and the desk opens a group at each player");
    join(LEFT_PEDAL);
    join(HEADSET);
    join(SCREEN);
    open_group(GENERIC, first);
    open_group(NAMED, last);
    tell_all();
    read_long(SCREEN, NAMED, MCS_TITLE);

    print_heading("The screen asks for the folder above its player's group by the object's number, and draws it");
    draw_folder(SCREEN, NAMED, read_object(SCREEN, NAMED, MCS_PARENT_GROUP_OBJECT));

    print_heading("The typist at the left pedal begins; the screen is at the other player, and hears nothing of it");
    press(LEFT_PEDAL, GENERIC, MCS_OPCODE_PLAY);
    tell_all();
    let_pass(GENERIC, track_end(GENERIC) / 3u);
    tell_all();
    press(LEFT_PEDAL, GENERIC, MCS_OPCODE_PREVIOUS_SEGMENT);
    tell_all();

    print_heading("The tape runs on, and a second press within three seconds leads to the segment before");
    let_pass(GENERIC, 100);
    press(LEFT_PEDAL, GENERIC, MCS_OPCODE_PREVIOUS_SEGMENT);
    tell_all();

    print_heading("On with it");
    press(LEFT_PEDAL, GENERIC, MCS_OPCODE_FAST_FORWARD);
    press(LEFT_PEDAL, GENERIC, MCS_OPCODE_FAST_FORWARD);
    tell_all();
    let_pass(GENERIC, track_end(GENERIC) / 16u);
    press(LEFT_PEDAL, GENERIC, MCS_OPCODE_PAUSE);
    tell_all();
}

static void both_players(void)
{
    print_heading("Nine o'clock: at the screen someone reads along; the typist's player stays where it is");
    show_player(GENERIC);
    press(SCREEN, NAMED, MCS_OPCODE_FIRST_GROUP);
    press(SCREEN, NAMED, MCS_OPCODE_PLAY);
    let_pass(NAMED, track_end(NAMED) / 4u);
    show_player(GENERIC);
    tell_all();

    print_heading("The headset asks both players; its round goes on where it stopped, through generic and named");
    press(HEADSET, NAMED, MCS_OPCODE_PAUSE);
    press(HEADSET, GENERIC, MCS_OPCODE_PLAY);
    press(HEADSET, NAMED, MCS_OPCODE_FIRST_SEGMENT);
    press(HEADSET, GENERIC, MCS_OPCODE_PAUSE);
    tell_all();

    print_heading("The reading room's player is given another name, of which the screen shows what a notification holds");
    rename_player(NAMED, "Reading room on the second floor, window side");
    tell_all();
    read_long(SCREEN, NAMED, MCS_NAME);
}

static void folders(uint32_t first, uint32_t last, uint32_t empty)
{
    uint64_t folder;

    print_heading("Half past nine: on the screen someone touches one folder and another; a folder without tracks is refused");
    set_object(SCREEN, NAMED, MCS_GROUP_OBJECT, MCS_OBJECT_OF_GROUP(last));
    tell_all();
    set_object(SCREEN, NAMED, MCS_GROUP_OBJECT, MCS_OBJECT_OF_GROUP(empty));
    set_object(SCREEN, NAMED, MCS_GROUP_OBJECT, MCS_OBJECT_OF_GROUP(first));
    tell_all();

    print_heading("Then the next track is picked there, by its object's number: the headset is told, and goes to it");
    folder = read_object(SCREEN, NAMED, MCS_GROUP_OBJECT);
    set_object(SCREEN, NAMED, MCS_NEXT_TRACK_OBJECT, tracks_in(folder).last);
    tell_all();
    draw_folder(SCREEN, NAMED, folder);
    press(HEADSET, NAMED, MCS_OPCODE_NEXT_TRACK);
    tell_all();
    draw_folder(SCREEN, NAMED, folder);

    print_heading(
        "A track is touched; and for the typist the screen names one too: the pedal goes there once, then by the order");
    set_object(SCREEN, NAMED, MCS_TRACK_OBJECT, tracks_in(folder).first);
    press(LEFT_PEDAL, GENERIC, MCS_OPCODE_FIRST_TRACK);
    folder = read_object(SCREEN, GENERIC, MCS_GROUP_OBJECT);
    set_object(SCREEN, GENERIC, MCS_NEXT_TRACK_OBJECT, tracks_in(folder).last);
    press(LEFT_PEDAL, GENERIC, MCS_OPCODE_NEXT_TRACK);
    press(LEFT_PEDAL, GENERIC, MCS_OPCODE_FIRST_TRACK);
    press(LEFT_PEDAL, GENERIC, MCS_OPCODE_NEXT_TRACK);
    tell_all();
}

/* Results of two pedals wait at once: the case in which they once went to the neighbour. */
static void second_pedal(void)
{
    print_heading("Ten o'clock: a second pedal joins, and both press before the desk comes to tell anyone");
    join(RIGHT_PEDAL);
    press(LEFT_PEDAL, GENERIC, MCS_OPCODE_PLAY);
    press(RIGHT_PEDAL, GENERIC, MCS_OPCODE_NEXT_SEGMENT);
    press(LEFT_PEDAL, GENERIC, MCS_OPCODE_PREVIOUS_SEGMENT);
    press_with(RIGHT_PEDAL, GENERIC, MCS_OPCODE_MOVE_RELATIVE, 250);
    press(LEFT_PEDAL, GENERIC, MCS_OPCODE_PAUSE);
    press_with(RIGHT_PEDAL, GENERIC, MCS_OPCODE_GOTO_SEGMENT, 2);
    tell_all();

    print_heading("Left asks for the next track, right for the one before");
    press(LEFT_PEDAL, GENERIC, MCS_OPCODE_NEXT_TRACK);
    press(RIGHT_PEDAL, GENERIC, MCS_OPCODE_PREVIOUS_TRACK);
    press(LEFT_PEDAL, GENERIC, MCS_OPCODE_PLAY);
    press(RIGHT_PEDAL, GENERIC, MCS_OPCODE_FIRST_SEGMENT);
    tell_all();
}

#define HALF_SPEED (-64) /* 2 to the power -64/64 */

static void hard_passage(void)
{
    uint32_t while_typing;

    print_heading(
        "Half past ten: a hard passage. The typist has the tape go at half speed, and it goes half as far by the clock");
    press(LEFT_PEDAL, GENERIC, MCS_OPCODE_FIRST_TRACK);
    while_typing = track_end(GENERIC) / 6u;
    let_pass(GENERIC, while_typing);
    set_speed(LEFT_PEDAL, GENERIC, HALF_SPEED);
    tell_all();
    let_pass(GENERIC, while_typing);
    let_pass(GENERIC, 5);

    print_heading(
        "The pedal is lifted in the middle of a hundredth: its half waits as the rest, and makes a whole one afterwards");
    press(LEFT_PEDAL, GENERIC, MCS_OPCODE_PAUSE);
    let_pass(GENERIC, 100);
    press(LEFT_PEDAL, GENERIC, MCS_OPCODE_PLAY);
    let_pass(GENERIC, 5);
    let_pass(GENERIC, 1);
    tell_all();

    print_heading(
        "A little back: the tape winds as fast as ever, whatever the speed, and a place that is wound to has no rest");
    press(LEFT_PEDAL, GENERIC, MCS_OPCODE_FAST_REWIND);
    let_pass(GENERIC, 25);
    press(LEFT_PEDAL, GENERIC, MCS_OPCODE_PLAY);
    let_pass(GENERIC, 1);
    tell_all();

    print_heading("The speed is written back: the tape goes on as it was recorded, from where it was, and nothing is lost");
    set_speed(LEFT_PEDAL, GENERIC, 0);
    let_pass(GENERIC, while_typing);
    press_with(LEFT_PEDAL, GENERIC, MCS_OPCODE_GOTO_SEGMENT, 0);
    set_speed(LEFT_PEDAL, GENERIC, HALF_SPEED);
    let_pass(GENERIC, 1);
    set_speed(LEFT_PEDAL, GENERIC, 0);
    tell_all();
}

static void headset_and_screen(void)
{
    uint32_t part;

    print_heading("The headset sets order and speed: the others at that player are told, it is not");
    set_order(HEADSET, GENERIC, 6);
    set_speed(HEADSET, GENERIC, -32);
    set_order(HEADSET, NAMED, 4);
    tell_all();
    press_with(RIGHT_PEDAL, GENERIC, MCS_OPCODE_GOTO_TRACK, -1);
    press(HEADSET, GENERIC, MCS_OPCODE_NEXT_TRACK);
    tell_all();
    set_order(HEADSET, GENERIC, 3);
    press_with(LEFT_PEDAL, GENERIC, MCS_OPCODE_GOTO_TRACK, 1000);
    tell_all();

    print_heading(
        "At that speed the decoder reports hundredth by hundredth, and then ten seconds at once: the tape gets as far");
    press(RIGHT_PEDAL, GENERIC, MCS_OPCODE_FIRST_TRACK);
    let_pass_singly(GENERIC, 1000);
    press(RIGHT_PEDAL, GENERIC, MCS_OPCODE_FIRST_SEGMENT);
    let_pass(GENERIC, 1000);
    tell_all();

    print_heading("The screen reads a title in parts: a track more at the generic player is nothing to it, one at its own is");
    press(RIGHT_PEDAL, GENERIC, MCS_OPCODE_FIRST_TRACK);
    press(HEADSET, NAMED, MCS_OPCODE_FIRST_TRACK);
    tell_all();
    part = read_part(SCREEN, NAMED, MCS_TITLE, 0);
    press(LEFT_PEDAL, GENERIC, MCS_OPCODE_NEXT_TRACK);
    read_part(SCREEN, NAMED, MCS_TITLE, part);
    press(HEADSET, NAMED, MCS_OPCODE_NEXT_TRACK);
    read_part(SCREEN, NAMED, MCS_TITLE, part);
    read_long(SCREEN, NAMED, MCS_TITLE);
    tell_all();

    print_heading("The screen writes the position, counted from the end; the pedals go through the groups of the other player");
    set_position(SCREEN, NAMED, -100);
    tell_all();
    press(RIGHT_PEDAL, GENERIC, MCS_OPCODE_NEXT_GROUP);
    press(LEFT_PEDAL, GENERIC, MCS_OPCODE_FIRST_GROUP);
    press(HEADSET, GENERIC, MCS_OPCODE_LAST_GROUP);
    show_player(NAMED);
    tell_all();
}

/* Titles by speaker and day, as typists write them. */
#define RIGHT_TITLE "Zo\xC3\xAB Brandt, 3 May, first tape"
#define INSIDE_A_CHARACTER 3u /* octets of it: "Zo", and the first of the two of the next character */

static void own_titles(uint32_t group)
{
    listed_tracks listed = tracks_in(MCS_OBJECT_OF_GROUP(group));
    uint32_t first = (uint32_t)(listed.first - MCS_OBJECT_OF_TRACK(0)), last = (uint32_t)(listed.last - MCS_OBJECT_OF_TRACK(0));

    print_heading(
        "Eleven o'clock: the office lends its own titles for a folder's first and last track; others keep the card's");
    lend_title(last, "Zo\xC3\xAB Brandt, 4 May: the ferry");
    lend_title(first, "Zo\xC3\xAB Brandt, 3 May: how the bridge over the harbour was built");
    show_title(NAMED);
    press(HEADSET, NAMED, MCS_OPCODE_FIRST_TRACK);
    tell_all();
    show_title(NAMED);
    read_part(HEADSET, NAMED, MCS_TITLE, 0);

    print_heading("Other titles are lent between two calls: nothing is owed for that, and whoever reads is shown the new one");
    lend_title(first, RIGHT_TITLE);
    let_pass(NAMED, 100);
    tell_all();
    read_part(SCREEN, NAMED, MCS_TITLE, 0);

    print_heading("A title is cut inside a character: calls are refused and alter nothing, until the office lends a right one");
    lend_cut_title(NAMED, first, INSIDE_A_CHARACTER);
    lend_title(first, RIGHT_TITLE);
    show_title(NAMED);
    let_pass(NAMED, 100);
}

static void training(uint32_t group)
{
    print_heading(
        "Half past eleven: a trainer teaches Goto by single steps; the player agrees, and uses no track that is named");
    set_object(SCREEN, NAMED, MCS_NEXT_TRACK_OBJECT, tracks_in(MCS_OBJECT_OF_GROUP(group)).last);
    teach_goto(HEADSET, NAMED, MCS_OPCODE_GOTO_SEGMENT, -2, 2);
    teach_goto(HEADSET, NAMED, MCS_OPCODE_GOTO_TRACK, 5, 5);
    tell_all();

    print_heading(
        "Where a step cannot be made, as at the end of an order that does not repeat, or is not allowed, nothing moves");
    set_order(HEADSET, NAMED, 3);
    teach_goto(HEADSET, NAMED, MCS_OPCODE_GOTO_TRACK, 5, 5);
    teach_goto(HEADSET, NAMED, MCS_OPCODE_GOTO_GROUP, 3, 3);
    teach_goto(HEADSET, NAMED, MCS_OPCODE_GOTO_TRACK, -3, 2);
    set_order(HEADSET, NAMED, 4);
    tell_all();
}

static void noon(void)
{
    static const uint8_t MANY[8] = {
        MCS_OPCODE_PLAY,        MCS_OPCODE_NEXT_SEGMENT,  MCS_OPCODE_PAUSE, MCS_OPCODE_PREVIOUS_SEGMENT,
        MCS_OPCODE_FAST_REWIND, MCS_OPCODE_FIRST_SEGMENT, MCS_OPCODE_STOP,  MCS_OPCODE_LAST_SEGMENT,
    };
    uint32_t k;

    print_heading(
        "Noon: the headset presses nine times with no one told; the ninth finds eight results waiting, at that player");
    for (k = 0; k < 8u; k++) {
        press(HEADSET, GENERIC, MANY[k]);
    }
    press(HEADSET, GENERIC, MCS_OPCODE_PLAY);
    press(HEADSET, NAMED, MCS_OPCODE_PLAY);
    press(RIGHT_PEDAL, GENERIC, MCS_OPCODE_NEXT_TRACK);
    press_with(RIGHT_PEDAL, GENERIC, MCS_OPCODE_GOTO_TRACK, 0);
    tell_all();
}

static void afternoon(void)
{
    uint32_t left;

    print_heading("Left pedal and headset go off with results waiting, and come back: they are told of new presses alone");
    press(LEFT_PEDAL, GENERIC, MCS_OPCODE_PLAY);
    press(RIGHT_PEDAL, GENERIC, MCS_OPCODE_PAUSE);
    press(LEFT_PEDAL, GENERIC, MCS_OPCODE_NEXT_SEGMENT);
    press(HEADSET, GENERIC, MCS_OPCODE_STOP);
    press(HEADSET, NAMED, MCS_OPCODE_PAUSE);
    press(HEADSET, NAMED, MCS_OPCODE_PLAY);
    leave(LEFT_PEDAL);
    leave(HEADSET);
    join(LEFT_PEDAL);
    join(HEADSET);
    press(LEFT_PEDAL, GENERIC, MCS_OPCODE_FAST_FORWARD);
    press(HEADSET, NAMED, MCS_OPCODE_FAST_REWIND);
    tell_all();

    print_heading("An opcode that there is not, and a press by the screen, which has not asked for results");
    press(RIGHT_PEDAL, GENERIC, NO_OPCODE);
    press(SCREEN, NAMED, MCS_OPCODE_STOP);
    tell_all();

    print_heading(
        "The tape runs to the end of its track: the slow one takes longer by the clock; then the one at the other player");
    press(RIGHT_PEDAL, GENERIC, MCS_OPCODE_PLAY);
    press(SCREEN, NAMED, MCS_OPCODE_PLAY);
    tell_all();
    left = time_left(GENERIC);
    let_pass(GENERIC, left > 0 ? left - 1u : 0);
    let_pass(GENERIC, 1);
    tell_all();
    let_pass(NAMED, track_end(NAMED));
    tell_all();
}

static void evening(uint32_t first, uint32_t last)
{
    print_heading(
        "Five o'clock: the desk closes a group at each player, a device presses once more at each, and it opens others");
    close_group(GENERIC);
    close_group(NAMED);
    press(RIGHT_PEDAL, GENERIC, MCS_OPCODE_PLAY);
    press(LEFT_PEDAL, GENERIC, MCS_OPCODE_NEXT_TRACK);
    press(HEADSET, NAMED, MCS_OPCODE_PLAY);
    open_group(GENERIC, first);
    open_group(NAMED, last);
    tell_all();
}

/* Whatever was pressed and written, after takes alone every device shows what its players have. */
static void going_home(uint32_t first)
{
    listed_tracks listed = tracks_in(MCS_OBJECT_OF_GROUP(first));

    print_heading(
        "Half past five: everybody hurries, and no one is told. One writes an order back; tracks are named and gone to");
    set_speed(RIGHT_PEDAL, GENERIC, 16);
    set_order(RIGHT_PEDAL, GENERIC, 8);
    set_order(HEADSET, GENERIC, 3);
    set_object(LEFT_PEDAL, GENERIC, MCS_NEXT_TRACK_OBJECT, listed.last);
    press(LEFT_PEDAL, GENERIC, MCS_OPCODE_NEXT_TRACK);
    press(RIGHT_PEDAL, GENERIC, MCS_OPCODE_FAST_FORWARD);
    rename_player(NAMED, "Reading room, which closes at six and opens at eight");
    set_object(SCREEN, NAMED, MCS_GROUP_OBJECT, MCS_OBJECT_OF_GROUP(first));
    set_object(SCREEN, NAMED, MCS_NEXT_TRACK_OBJECT, listed.last);
    press(HEADSET, NAMED, MCS_OPCODE_NEXT_TRACK);
    set_object(HEADSET, NAMED, MCS_NEXT_TRACK_OBJECT, listed.first);
    set_order(HEADSET, NAMED, 6);
    set_speed(SCREEN, NAMED, 32);
    press(SCREEN, NAMED, MCS_OPCODE_PLAY);
    let_pass(NAMED, 100);

    print_heading(
        "Six o'clock: things go quiet, and the desk only tells, with each take one thing that is owed, until none is");
    go_quiet();

    print_heading(
        "What has changed since a device subscribed: as it was last told or itself wrote it, and as its player has it");
    show_agreement();
    leave(LEFT_PEDAL);
    leave(RIGHT_PEDAL);
    leave(HEADSET);
    leave(SCREEN);
}

/* The first and the last group with tracks, and the last one without, or the number behind all where each has some. Whether there
 * is one with tracks. */
static int groups_with_tracks(const struct mcs_catalogue *c, uint32_t groups, uint32_t *first, uint32_t *last, uint32_t *empty)
{
    uint32_t g;
    int found = 0;
    *empty = groups;
    for (g = 0; g < groups; g++) {
        if (c->groups[MCS_GROUP_WORDS * g + TRACK_COUNT] != 0) {
            *first = found ? *first : g;
            *last = g;
            found = 1;
        } else {
            *empty = g;
        }
    }
    return found;
}

int main(int count, char **words)
{
    const char *path = count > 1 ? words[1] : SAMPLE_CARD;
    struct mcs_catalogue c;
    struct mcs_place place;
    uint32_t number, groups, first = 0, last = 0, empty;
    int status;

    if (isatty(STDOUT_FILENO) && getenv("NO_COLOR") == NULL) {
        use_colours();
    }
    status = load_card("day", path, &c);
    if (status != 0) {
        return status;
    }
    number = open_office(&c, &place);
    if (number != MCS_OK) {
        fprintf(stderr, "day: ");
        print_refused_catalogue(stderr, path, number, &c, place);
        return 1;
    }
    groups = (uint32_t)c.groups_len / MCS_GROUP_WORDS;
    printf("Card: %u groups, %u tracks, %u segments, %u octets of text\n", groups, (uint32_t)c.tracks_len / MCS_TRACK_WORDS,
           (uint32_t)c.segments_len, (uint32_t)c.text_len);
    if (!groups_with_tracks(&c, groups, &first, &last, &empty)) {
        printf("No group of the card has tracks: there is nothing to play.\n");
        return 0;
    }
    introduce();
    morning(first, last);
    both_players();
    folders(first, last, empty);
    second_pedal();
    hard_passage();
    headset_and_screen();
    own_titles(first);
    training(first);
    noon();
    afternoon();
    evening(first, last);
    going_home(first);
    return print_books() ? 0 : 1;
}
