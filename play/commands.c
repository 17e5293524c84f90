#include "commands.h"

#include <errno.h>
#include <stdio.h>
#include <stdlib.h>
#include <string.h>

#include "folders.h"
#include "host.h"
#include "journal.h"
#include "terminal.h"
#include "words.h"

#define CONTROL_C 3
#define SECOND 100u

static const command COMMANDS[] = {
    {'1', "1-4", "device"}, {'v', "v", "player"}, {'c', "c", "come/go"}, {'s', "s", "subscribe"}, {'r', "r", "read"},
    {'a', "a", "open"},     {'x', "x", "close"},  {'h', "h", "radio"},   {'k', "k", "take"},      {'t', "t", "1 s"},
    {'m', "m", "clock"},    {'w', "w", "save"},   {'l', "l", "restore"}, {'?', "?", "help"},      {'q', "q", "quit"},
};

const command *command_at(size_t place) { return place < sizeof COMMANDS / sizeof COMMANDS[0] ? &COMMANDS[place] : NULL; }

/* ---- Numbers that are typed */

static void ask(person *user, question asks, const device_key *key)
{
    memset(&user->asked, 0, sizeof user->asked);
    user->asked.asks = asks;
    user->asked.key = key;
}

const char *prompt_words(const person *user)
{
    static char words[128];
    switch (user->asked.asks) {
    case ASKS_FOR_SUBSCRIPTION:
        return "Subscribe or unsubscribe 1, 4 to 9, 11 to 15, 17 or 18 (none: all)";
    case ASKS_FOR_GROUP:
        return "Open group";
    default:
        break;
    }
    switch (user->asked.key->does) {
    case ASK_ORDER:
        return "Playing order, 1 to 8";
    case ASK_POSITION:
        return "Position in hundredths of a second, below 0 from the end";
    case ASK_SPEED:
        return "Playback speed, -128 to 127";
    default:
        snprintf(words, sizeof words, "%s", mcs_opcode_words(user->asked.key->opcode));
        return words;
    }
}

/* Whether what was typed is a number from one to another. Where it is not, the person is told. */
static int is_number(const char *typed, int64_t least, int64_t most, int32_t *number)
{
    char *end;
    int64_t value;
    errno = 0;
    value = strtoll(typed, &end, 10);
    if (end == typed || *end != '\0' || errno != 0 || value < least || value > most) {
        say(1, "\"%s\" is no number from %lld to %lld", typed, (long long)least, (long long)most);
        return 0;
    }
    *number = (int32_t)value;
    return 1;
}

static void answer_device(uint32_t who, uint32_t service, const device_key *key, const char *typed)
{
    int32_t number;
    switch (key->does) {
    case ASK_ORDER:
        if (is_number(typed, 0, 255, &number)) {
            write_octet(who, service, MCS_PLAYING_ORDER, number, "Order");
        }
        break;
    case ASK_SPEED:
        if (is_number(typed, -128, 127, &number)) {
            write_octet(who, service, MCS_PLAYBACK_SPEED, number, "Speed");
        }
        break;
    case ASK_POSITION:
        if (is_number(typed, INT32_MIN, INT32_MAX, &number)) {
            write_position(who, service, number);
        }
        break;
    default:
        if (is_number(typed, INT32_MIN, INT32_MAX, &number)) {
            press(who, service, key->opcode, number);
        }
        break;
    }
}

static void answer(person *user)
{
    const prompt asked = user->asked;
    const uint32_t service = user->drives[user->in_hand];
    int32_t number;
    ask(user, ASKS_NOTHING, NULL);
    switch (asked.asks) {
    case ASKS_FOR_SUBSCRIPTION:
        if (asked.count == 0) {
            subscribe_all_or_none(user->in_hand, service);
        } else if (is_number(asked.typed, 0, 255, &number)) {
            subscribe_or_not(user->in_hand, service, (uint32_t)number);
        }
        break;
    case ASKS_FOR_GROUP:
        if (is_number(asked.typed, 0, INT32_MAX, &number)) {
            activate(service, (uint32_t)number);
        }
        break;
    default:
        answer_device(user->in_hand, service, asked.key, asked.typed);
        break;
    }
}

static void type(person *user, int key)
{
    prompt *p = &user->asked;
    if (key == KEY_ENTER) {
        answer(user);
    } else if (key == KEY_ESCAPE || key == CONTROL_C) {
        ask(user, ASKS_NOTHING, NULL);
    } else if (key == KEY_BACKSPACE && p->count > 0) {
        p->count--;
        p->typed[p->count] = '\0';
    } else if (p->count < MOST_TYPED && ((key >= '0' && key <= '9') || (key == '-' && p->count == 0))) {
        p->typed[p->count] = (char)key;
        p->count++;
    }
}

/* ---- The keys of a device */

static void play_or_pause(uint32_t who, uint32_t service)
{
    const known_value *state = known(who, service, MCS_MEDIA_STATE);
    press(who, service, state->is_known && state->octets[0] == MCS_PLAYING ? MCS_OPCODE_PAUSE : MCS_OPCODE_PLAY, 0);
}

static void change_speed(uint32_t who, uint32_t service, int32_t by)
{
    const known_value *speed = known(who, service, MCS_PLAYBACK_SPEED);
    const int32_t to = (speed->is_known ? signed_octet(speed->octets[0]) : 0) + by;
    write_octet(who, service, MCS_PLAYBACK_SPEED, to < -128 ? -128 : to > 127 ? 127 : to, "Speed");
}

static void open_entry(uint32_t who, uint32_t service)
{
    const folder_entry entry = entry_at(chosen_place());
    if (!enter_folder() && entry.object != 0) {
        write_object(who, service, MCS_TRACK_OBJECT, entry.object);
    }
}

static void find_group(uint32_t who, uint32_t service)
{
    const uint64_t group = read_object(who, service, MCS_GROUP_OBJECT);
    int is_refusal;
    if (group != 0 && !find_folder(group)) {
        say(1, "No folder leads to the player's group");
    } else if (group == 0 && *said(&is_refusal) == '\0') {
        say(0, "The player has no group");
    }
}

/* To the chosen group; where a track is chosen, to that of the folder. */
static void go_to_group(uint32_t who, uint32_t service)
{
    const folder_entry entry = entry_at(chosen_place());
    write_object(who, service, MCS_GROUP_OBJECT, entry.is_group ? entry.object : open_folder());
}

static void name_next(uint32_t who, uint32_t service)
{
    const folder_entry entry = entry_at(chosen_place());
    if (entry.object == 0 || entry.is_group) {
        say(1, "A group cannot come next: choose a track");
    } else {
        write_object(who, service, MCS_NEXT_TRACK_OBJECT, entry.object);
    }
}

static void obey_device(person *user, const device_key *key)
{
    const uint32_t who = user->in_hand, service = user->drives[who];
    switch (key->does) {
    case PRESS:
        press(who, service, key->opcode, key->number);
        break;
    case PLAY_OR_PAUSE:
        play_or_pause(who, service);
        break;
    case CHANGE_SPEED:
        change_speed(who, service, key->number);
        break;
    case CHOOSE:
        choose_entry(key->number);
        break;
    case OPEN_ENTRY:
        open_entry(who, service);
        break;
    case CLOSE_FOLDER:
        leave_folder();
        break;
    case FIND_GROUP:
        find_group(who, service);
        break;
    case GO_TO_GROUP:
        go_to_group(who, service);
        break;
    case NAME_NEXT:
        name_next(who, service);
        break;
    default:
        ask(user, ASKS_FOR_DEVICE_KEY, key);
        break;
    }
}

/* ---- All keys */

static void let_a_second_pass(const person *user)
{
    if (user->is_clock_by_hand) {
        pass_time(SECOND);
        note(DEED, THE_DESK, NO_SERVICE, "a second passes");
    } else {
        say(0, "The clock runs by itself; m has it go by hand");
    }
}

static wish obey_common(person *user, int key)
{
    uint32_t *drives = &user->drives[user->in_hand];
    const device_key *own = key_of(user->in_hand, key);
    if (key >= '1' && key < '1' + (int)MCS_CLIENTS) {
        user->in_hand = (uint32_t)(key - '1');
        return GO_ON;
    }
    if (own != NULL) {
        obey_device(user, own);
        return GO_ON;
    }
    switch (key) {
    case KEY_TAB:
        user->in_hand = (user->in_hand + 1u) % MCS_CLIENTS;
        break;
    case 'v':
        *drives = (*drives + 1u) % MCS_SERVICES;
        break;
    case 'c':
        come_or_go(user->in_hand);
        break;
    case 's':
        ask(user, ASKS_FOR_SUBSCRIPTION, NULL);
        break;
    case 'r':
        read_again(user->in_hand, *drives);
        break;
    case 'a':
        ask(user, ASKS_FOR_GROUP, NULL);
        break;
    case 'x':
        deactivate(*drives);
        break;
    case 'h':
        user->is_radio_held = !user->is_radio_held;
        break;
    case 'k':
        if (!take_one()) {
            say(0, "Nothing is owed");
        }
        break;
    case 't':
        let_a_second_pass(user);
        break;
    case 'm':
        user->is_clock_by_hand = !user->is_clock_by_hand;
        break;
    case '?':
        user->is_help_shown = 1;
        break;
    case 'w':
        return SAVE;
    case 'l':
        return RESTORE;
    case 'Q':
        return SAVE_AND_END;
    case 'q':
    case CONTROL_C:
        return END;
    default:
        break;
    }
    return GO_ON;
}

wish obey(person *user, int key)
{
    if (user->asked.asks != ASKS_NOTHING) {
        type(user, key);
        return GO_ON;
    }
    if (user->is_help_shown) {
        user->is_help_shown = 0;
        return key == CONTROL_C ? END : GO_ON;
    }
    say(0, "%s", "");
    return obey_common(user, key);
}
