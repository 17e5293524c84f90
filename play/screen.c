#include "screen.h"

#include <stdio.h>
#include <stdlib.h>
#include <string.h>
#include <strings.h>

#include "bar.h"
#include "canvas.h"
#include "commands.h"
#include "folders.h"
#include "host.h"
#include "journal.h"
#include "tables.h"
#include "terminal.h"
#include "words.h"
#include "wording.h"

#define IN_HAND "\xE2\x96\xB8"
#define IS_SUBSCRIBED "\xC2\xB7"
#define IS_OWED "\xE2\x97\x8F"
#define GOES_OUT "\xE2\x86\x92"
#define RULE "\xE2\x94\x80"
#define NOT_KNOWN "\xE2\x80\x93"

#define FROM_HERE_ON picture_columns() /* a width that the window's edge cuts */

/* Larger windows show more. */
static int is_wide(void) { return picture_columns() >= 110; }
static int has_legend(void) { return picture_rows() >= 26; }
static int has_segment_rows(void) { return picture_rows() >= 28; }
static int has_rules(void) { return picture_rows() >= 32; }
static int has_owed_words(void) { return picture_rows() >= 36; }

/* A line between two parts of the picture, where there is room for it. The row behind it. */
static int put_rule(int row)
{
    int column;
    for (column = 0; has_rules() && column < picture_columns(); column++) {
        put_text(row, column, 1, LOOK_FAINT, RULE);
    }
    return row + has_rules();
}

static void put_at_right(int row, int look, const char *text)
{
    put_text(row, picture_columns() - text_width(text), FROM_HERE_ON, look, text);
}

/* ---- The head */

static wording name_of(uint32_t service)
{
    const uint8_t *player = player_octets(service);
    return plain_text(player + MCS_IN_NAME, player[MCS_IN_NAME_LENGTH]);
}

static void put_head(int row, const person *user)
{
    char right[64];
    const int look = LOOK_REVERSED | LOOK_BOLD;
    snprintf(right, sizeof right, " %s, radio %s ", user->is_clock_by_hand ? "clock by hand" : "clock runs",
             user->is_radio_held ? "held" : "free");
    put_row(row, look);
    put_words(row, 0, picture_columns() - text_width(right), look, " Desk: generic \"%s\", named \"%s\"",
              name_of(MCS_GENERIC).text, name_of(MCS_NAMED).text);
    put_at_right(row, look, right);
}

/* ---- A player: two rows, and a third one with the segments' starts */

static bar bar_of(uint32_t service)
{
    const uint8_t *player = player_octets(service);
    bar b = {player[MCS_IN_MEDIA_STATE] != MCS_INACTIVE, player_word(service, MCS_IN_POSITION), 0, {NULL, 0}};
    if (b.has_track) {
        const uint32_t track = player_word(service, MCS_IN_TRACK);
        b.duration = desk.catalogue.tracks[MCS_TRACK_WORDS * track + DURATION];
        b.segments = segments_of(service, track);
    }
    return b;
}

static void put_state(int row, uint32_t service)
{
    const uint8_t *player = player_octets(service);
    const uint8_t state = player[MCS_IN_MEDIA_STATE];
    char words[32];
    int column = put_text(row, 9, 12,
                          LOOK_BOLD | (state == MCS_PLAYING   ? LOOK_GREEN
                                       : state == MCS_SEEKING ? LOOK_YELLOW
                                                              : 0),
                          mcs_media_state_words(state));
    if (state == MCS_SEEKING) {
        put_words(row, column + 1, 4, LOOK_YELLOW, "%d", signed_octet(player[MCS_IN_SEEKING]));
    }
    if (state != MCS_INACTIVE) {
        struct mcs_title title;
        column = put_words(row, 21, 20, LOOK_PLAIN, "group %u track %u", (unsigned)player_word(service, MCS_IN_GROUP),
                           (unsigned)player_word(service, MCS_IN_TRACK));
        if (mcs_desk_title(&desk, service, &title) == MCS_OK) {
            const wording text = plain_text(title.octets, title.length);
            put_words(row, column + 1, picture_columns() - 27 - column - 1, LOOK_BOLD, "\"%s\"", text.text);
        }
    }
    snprintf(words, sizeof words, "speed %d", signed_octet(player[MCS_IN_SPEED]));
    put_at_right(row, LOOK_PLAIN, words);
    put_text(row, picture_columns() - 26, 15, LOOK_PLAIN, mcs_playing_order_words(player[MCS_IN_ORDER]));
}

static void put_times(int row, const bar *b)
{
    const int columns = picture_columns(), behind = columns - 18;
    const wording position = time_in_words(b->position), duration = time_in_words(b->duration);
    char segment[32];
    put_bar(row, 12, columns - 31, b);
    if (!b->has_track) {
        put_text(row, behind, 10, LOOK_FAINT, "no track");
        return;
    }
    put_text(row, 11 - text_width(position.text), 10, LOOK_BOLD, position.text);
    put_text(row, behind, 10, LOOK_PLAIN, b->duration == MCS_RUNNING ? "recording" : duration.text);
    if (b->segments.count > 0) {
        const unsigned at = (unsigned)current_segment(b);
        if (snprintf(segment, sizeof segment, "%u/%u", at, (unsigned)b->segments.count) > 7) {
            snprintf(segment, sizeof segment, "%u", at);
        }
        put_at_right(row, LOOK_PLAIN, segment);
    }
}

static void put_segments(int row, const bar *b)
{
    const int end = picture_columns();
    int column = 12;
    size_t k;
    if (b->has_track) {
        put_text(row, 1, 10, LOOK_FAINT, b->segments.count > 0 ? "segments" : "");
    }
    for (k = 0; k < b->segments.count && column + 14 < end; k++) {
        const int look = k + 1u == current_segment(b) ? LOOK_BOLD : LOOK_FAINT;
        column = 2 + put_words(row, column, end - column, look, "%u %s", (unsigned)(k + 1u),
                               time_in_words(b->segments.starts[k]).text);
    }
    if (k < b->segments.count) {
        put_text(row, column, end - column, LOOK_FAINT, "\xE2\x80\xA6");
    }
}

static int put_player(int row, uint32_t service, const person *user)
{
    static const char *const WORDS[MCS_SERVICES] = {"Generic", "Named"};
    const int is_driven = user->drives[user->in_hand] == service;
    const bar b = bar_of(service);
    if (is_driven) {
        put_text(row, 0, 1, DEVICES[user->in_hand].look | LOOK_BOLD, IN_HAND);
    }
    put_text(row, 1, 8, LOOK_BOLD, WORDS[service]);
    put_state(row, service);
    put_times(row + 1, &b);
    if (!has_segment_rows()) {
        return row + 2;
    }
    put_segments(row + 2, &b);
    return row + 3;
}

/* ---- The devices, a row each with what it was told of the service that it drives */

/* A value that a device knows, in words. */
static wording known_words(uint32_t who, uint32_t service, uint32_t characteristic)
{
    const known_value *value = known(who, service, characteristic);
    wording words;
    if (!value->is_known) {
        snprintf(words.text, sizeof words.text, NOT_KNOWN);
        return words;
    }
    if (characteristic == MCS_TITLE) {
        return plain_text(value->octets, value->length);
    }
    if (characteristic == MCS_DURATION && word_at(value->octets) == MCS_RUNNING) {
        snprintf(words.text, sizeof words.text, "not known");
        return words;
    }
    return value_in_words(characteristic, value->octets, value->length);
}

static void put_press(int row, int column, uint32_t who, uint32_t service)
{
    const last_press last = press_of(who, service);
    const char *opcode;
    wording words;
    if (last.became == NOT_PRESSED) {
        put_text(row, column, FROM_HERE_ON, LOOK_FAINT, NOT_KNOWN);
        return;
    }
    words = opcode_in_words(last.opcode);
    opcode = words.text;
    switch (last.became) {
    case PRESS_WAITS:
        put_words(row, column, FROM_HERE_ON, LOOK_FAINT, "%s: waits", opcode);
        break;
    case PRESS_TOLD:
        put_words(row, column, FROM_HERE_ON, LOOK_PLAIN, "%s: %s", opcode,
                  is_wide() ? mcs_result_words(last.number) : short_result(last.number));
        break;
    case PRESS_REFUSED:
        put_words(row, column, FROM_HERE_ON, LOOK_RED, "%s: refused, %s", opcode, refusal_number(last.number).text);
        break;
    default:
        put_words(row, column, FROM_HERE_ON, LOOK_FAINT, "%s: not told", opcode);
        break;
    }
}

/* The columns of the table: what is written over each, where it begins and how wide it is. */
typedef struct {
    const char *words;
    uint32_t characteristic;
    int column, width;
} told_column;

enum { TOLD_COLUMNS = 6, NAME_AT = 3, DRIVES_AT = 12, WIDEST_PRESS = 45 };
static int put_columns(told_column columns[TOLD_COLUMNS], int *press_at)
{
    static const told_column ALL[] = {{"state", MCS_MEDIA_STATE, 20, 8},
                                      {"position", MCS_POSITION, 29, 10},
                                      {"of", MCS_DURATION, 40, 10},
                                      {"speed", MCS_PLAYBACK_SPEED, 51, 5},
                                      {"order", MCS_PLAYING_ORDER, 57, 15}};
    const int all = picture_columns(), count = !is_wide() ? 2 : all < 140 ? 4 : 5;
    const int title_at = ALL[count - 1].column + ALL[count - 1].width + 1;
    const int title_width = is_wide() ? all - title_at - 1 - WIDEST_PRESS : 12 + (all - LEAST_COLUMNS) / 2;
    memcpy(columns, ALL, sizeof ALL[0] * (size_t)count);
    columns[count] = (told_column){"title", MCS_TITLE, title_at, title_width};
    *press_at = title_at + title_width + 1;
    return count + 1;
}

static int put_devices(int row, const person *user)
{
    told_column columns[TOLD_COLUMNS];
    int press_at, k;
    const int count = put_columns(columns, &press_at);
    uint32_t who;
    put_text(row, NAME_AT, 8, LOOK_FAINT, "device");
    put_text(row, DRIVES_AT, 8, LOOK_FAINT, "drives");
    for (k = 0; k < count; k++) {
        put_text(row, columns[k].column, columns[k].width, LOOK_FAINT, columns[k].words);
    }
    put_text(row, press_at, FROM_HERE_ON, LOOK_FAINT, "last press");
    for (who = 0; who < MCS_CLIENTS; who++) {
        const uint32_t service = user->drives[who];
        row++;
        put_words(row, 0, 2, DEVICES[who].look | LOOK_BOLD, "%s%u", who == user->in_hand ? IN_HAND : " ", (unsigned)(who + 1u));
        put_text(row, NAME_AT, 8, DEVICES[who].look | (who == user->in_hand ? LOOK_BOLD | LOOK_REVERSED : 0),
                 DEVICES[who].name);
        put_text(row, DRIVES_AT, 8, LOOK_PLAIN, service_word(service));
        if (!is_connected(who)) {
            put_text(row, columns[0].column, FROM_HERE_ON, LOOK_FAINT, "not connected");
            continue;
        }
        for (k = 0; k < count; k++) {
            put_text(row, columns[k].column, columns[k].width, LOOK_PLAIN,
                     known_words(who, service, columns[k].characteristic).text);
        }
        put_press(row, press_at, who, service);
    }
    return row + 1;
}

/* ---- What is owed: a row for each device, a column for each slot with a mark of either service */

static const char *slot_word(uint32_t bit, int is_long)
{
    static const char *const SHORT[SLOTS] = {"Name", "Chgd", "Titl", "Dur", "Pos", "Spd",  "Seek",
                                             "Trck", "Next", "Prnt", "Grp", "Ord", "Stat", "Res"};
    static const char *const LONG[SLOTS] = {"Name",  "Change", "Title",  "Durat.", "Posit.", "Speed", "Seek",
                                            "Track", "Next",   "Parent", "Group",  "Order",  "State", "Result"};
    return is_long ? LONG[bit] : SHORT[bit];
}

static void put_mark(int row, int column, uint32_t who, uint32_t service, uint32_t bit)
{
    const uint32_t is_bit = 1u << bit;
    if ((owed_slots(who, service) & is_bit) == 0) {
        put_text(row, column, 1, LOOK_FAINT, (subscribed_slots(who, service) & is_bit) != 0 ? IS_SUBSCRIBED : " ");
    } else if (slot_at(bit) == MCS_CONTROL_POINT) {
        put_words(row, column, 1, DEVICES[who].look | LOOK_BOLD, "%u", (unsigned)waiting_results(who, service));
    } else {
        put_text(row, column, 1, DEVICES[who].look | LOOK_BOLD, IS_OWED);
    }
}

static int put_owed(int row)
{
    const int label = 10, room = (picture_columns() - label) / SLOTS, width = room > 8 ? 8 : room;
    uint32_t who, bit, service;
    put_text(row, NAME_AT, 7, LOOK_FAINT, "owed");
    for (bit = 0; bit < SLOTS; bit++) {
        put_text(row, label + (int)bit * width, width, LOOK_FAINT, slot_word(bit, width >= 7));
    }
    for (who = 0; who < MCS_CLIENTS; who++) {
        row++;
        put_words(row, 1, label - 1, DEVICES[who].look, "%u %s", (unsigned)(who + 1u), DEVICES[who].name);
        for (bit = 0; bit < SLOTS; bit++) {
            for (service = 0; service < MCS_SERVICES; service++) {
                put_mark(row, label + (int)bit * width + (int)service, who, service, bit);
            }
        }
    }
    return row + 1;
}

/* What is owed to a device by a service, by the slots' whole names. */
static int put_owed_names(int row, int column, uint32_t who, uint32_t service)
{
    const uint32_t owed = owed_slots(who, service);
    const char *between = " ";
    uint32_t bit;
    column = put_words(row, column, FROM_HERE_ON, LOOK_FAINT, "%s:", service_word(service));
    if (owed == 0) {
        return put_text(row, column, FROM_HERE_ON, LOOK_FAINT, " nothing");
    }
    for (bit = 0; bit < SLOTS; bit++) {
        const char *words = mcs_characteristic_words(slot_at(bit));
        if ((owed >> bit & 1u) == 0) {
            continue;
        }
        if (slot_at(bit) == MCS_CONTROL_POINT) {
            const unsigned results = (unsigned)waiting_results(who, service);
            column =
                put_words(row, column, FROM_HERE_ON, LOOK_PLAIN, "%s%u result%s", between, results, results == 1u ? "" : "s");
        } else {
            column = put_words(row, column, FROM_HERE_ON, LOOK_PLAIN, "%s%s", between, words);
        }
        between = ", ";
    }
    return column;
}

static int put_owed_words(int row)
{
    uint32_t who;
    for (who = 0; who < MCS_CLIENTS; who++) {
        put_text(row, 1, 9, DEVICES[who].look, DEVICES[who].name);
        put_owed_names(row, 2 + put_owed_names(row, 10, who, MCS_GENERIC), who, MCS_NAMED);
        row++;
    }
    return row;
}

/* ---- What happens, the newest at the bottom */

/* Of which service a line is, and of a take its number; where there is little room, the service's first letter alone. */
static int put_service(int row, int column, const line *l, int is_narrow)
{
    if (l->service == NO_SERVICE) {
        return column;
    }
    if (is_narrow) {
        return 1 + put_words(row, column, 1, LOOK_FAINT, "%.1s", service_word(l->service));
    }
    if (l->kind == TAKE_OUT) {
        column = 1 + put_words(row, column, 10, LOOK_FAINT, "%u", (unsigned)l->take);
    }
    return 1 + put_words(row, column, 7, LOOK_FAINT, "%s", service_word(l->service));
}

static void put_journal(int row, int end, int columns)
{
    static const struct {
        const char *mark;
        int look;
    } KINDS[] = {[DEED] = {" ", LOOK_PLAIN}, [TAKE_OUT] = {GOES_OUT, LOOK_BOLD}, [REFUSAL] = {"!", LOOK_RED}};
    const line *l;
    uint32_t back;
    for (back = 0; end > row && (l = noted(back)) != NULL; back++) {
        int column;
        end--;
        put_text(end, 0, 1, KINDS[l->kind].look, KINDS[l->kind].mark);
        put_text(end, 2, 8, l->who == THE_DESK ? LOOK_PLAIN : DEVICES[l->who].look,
                 l->who == THE_DESK ? "Desk" : DEVICES[l->who].name);
        column = put_service(end, 10, l, columns < 60);
        put_text(end, column, columns - column, KINDS[l->kind].look, l->text);
    }
}

/* ---- The folders */

/* Whether an object is the one that the screen knows as that of a characteristic. */
static int is_known_object(const person *user, uint32_t characteristic, uint64_t object)
{
    const known_value *value = known(SCREEN, user->drives[SCREEN], characteristic);
    return value->is_known && value->length == MCS_OBJECT_OCTETS && mcs_object_at(value->octets) == object;
}

static void put_entry(int row, int column, size_t place, const person *user)
{
    const folder_entry entry = entry_at(place);
    const wording object = object_in_words(entry.object);
    const int is_chosen = place == chosen_place(), look = is_chosen ? LOOK_REVERSED : LOOK_PLAIN;
    const int is_current = is_known_object(user, entry.is_group ? MCS_GROUP_OBJECT : MCS_TRACK_OBJECT, entry.object);
    const int is_next = !entry.is_group && is_known_object(user, MCS_NEXT_TRACK_OBJECT, entry.object);
    const char *mark = is_current ? is_next ? ", now and next" : ", now" : is_next ? ", next" : "";
    put_text(row, column, 1, DEVICES[SCREEN].look, is_chosen ? IN_HAND : " ");
    column = put_words(row, column + 1, FROM_HERE_ON, look, "%s%s", object.text, mark);
    if (!entry.is_group) {
        const track_facts *facts = facts_of(entry.object);
        put_words(row, column, FROM_HERE_ON, look, " \"%s\" %s", plain_text(facts->title, facts->title_length).text,
                  facts->duration == MCS_RUNNING ? "recording" : time_in_words(facts->duration).text);
    }
}

static void put_folder(int row, int end, int column, const person *user)
{
    const int look = DEVICES[SCREEN].look;
    const size_t room = (size_t)(end - row - 1);
    size_t place = chosen_place() >= room ? chosen_place() - room + 1u : 0;
    uint32_t depth;
    int at = put_text(row, column, FROM_HERE_ON, look | LOOK_BOLD, "Folder");
    /* The last folders of a way that has no room. */
    for (depth = folder_depth() > 1u ? folder_depth() - 1u : 0; depth <= folder_depth(); depth++) {
        at = put_words(row, at, FROM_HERE_ON, look, "%s %s", depth == 0 ? "" : " /", object_in_words(folder_above(depth)).text);
    }
    if (entry_count() == 0) {
        put_text(row + 1, column + 1, FROM_HERE_ON, LOOK_FAINT, "empty");
    }
    for (row++; row < end && place < entry_count(); row++, place++) {
        put_entry(row, column, place, user);
    }
}

/* ---- The message, or what is asked for and what is typed; and the keys */

static void put_message(int row, const person *user)
{
    int is_refusal;
    const char *message = said(&is_refusal);
    if (user->asked.asks != ASKS_NOTHING) {
        const int column = put_words(row, 0, FROM_HERE_ON, LOOK_BOLD, "%s: %s", prompt_words(user), user->asked.typed);
        put_text(row, column, 1, LOOK_REVERSED, " ");
    } else {
        put_text(row, 0, FROM_HERE_ON, is_refusal ? LOOK_RED | LOOK_BOLD : LOOK_BOLD, message);
    }
}

/* A key and what it does, in a row as long as there is room and then in the next one. */
static void put_key(int *row, int *column, const char *key, const char *words)
{
    const int width = text_width(key) + 1 + text_width(words);
    if (*column + width > picture_columns()) {
        (*row)++;
        *column = 1;
    }
    put_text(*row, *column, FROM_HERE_ON, LOOK_BOLD, key);
    put_text(*row, *column + text_width(key) + 1, FROM_HERE_ON, LOOK_PLAIN, words);
    *column += width + 2;
}

static void put_keys(int row, const person *user)
{
    const device_key *key;
    const command *common;
    size_t place;
    int at = row, column;
    column = 2 + put_words(row, 1, FROM_HERE_ON, DEVICES[user->in_hand].look | LOOK_BOLD, "%s", DEVICES[user->in_hand].name);
    for (place = 0; (key = key_at(user->in_hand, place)) != NULL; place++) {
        if (key->shown[0] != '\0') {
            put_key(&at, &column, key->shown, key->words);
        }
    }
    at = row + 2;
    column = 1;
    for (place = 0; (common = command_at(place)) != NULL; place++) {
        put_key(&at, &column, common->shown, common->words);
    }
}

/* ---- Help, over all but the keys */

static void put_help(void)
{
    static const char *const HELP[] = {
        "The desk has two players, the generic and the named one, over the same card.",
        "Four devices drive them. Choose the one in your hand with 1 to 4, and the",
        "player that it drives with v. Its own keys stand below, with those of all.",
        "",
        "The bar is the position; a cross in it is the start of a segment.",
        "A device's row says what the device was told of the player that it drives,",
        "and what became of its last press. It is told what it has subscribed to.",
        "",
        "In what is owed there are two marks for each value: first of the generic",
        "player, then of the named one. " IS_SUBSCRIBED " is subscribed to, " IS_OWED " is owed, and a number",
        "says how many results wait. A value that changes twice is owed once.",
        "One take goes out every 300 milliseconds, with " GOES_OUT " before it. h holds the",
        "radio, so that more is owed; k takes one thing, also while it is held.",
        "",
        "A typed number ends with enter; escape takes the question back.",
        "Positions are hundredths of a second. Speed p is 2 to the power p/64.",
        "w saves the state of the desk, l restores it, Q saves and ends.",
        "Any key goes back.",
    };
    size_t k;
    for (k = 0; k < sizeof HELP / sizeof HELP[0]; k++) {
        put_text(1 + (int)k, 1, FROM_HERE_ON, LOOK_PLAIN, HELP[k]);
    }
}

/* ---- All of it */

static void put_all(const person *user)
{
    const int rows = picture_rows(), columns = picture_columns(), keys_at = rows - 4, message_at = keys_at - 1 - has_rules();
    const int has_folder = user->in_hand == SCREEN || is_wide(), folder_at = columns - (is_wide() ? columns / 3 : 36);
    const int journal_columns = has_folder ? folder_at - 1 : columns;
    int row = 1;
    put_head(0, user);
    if (user->is_help_shown) {
        put_help();
        put_keys(keys_at, user);
        return;
    }
    row = put_player(row, MCS_GENERIC, user);
    row = put_player(row, MCS_NAMED, user);
    row = put_devices(put_rule(row), user);
    row = put_owed(put_rule(row));
    if (has_owed_words()) {
        row = put_owed_words(row);
    }
    row = put_rule(row);
    if (has_legend()) {
        put_text(row, 0, journal_columns, LOOK_FAINT,
                 GOES_OUT " goes out  " IS_SUBSCRIBED " subscribed  " IS_OWED " owed: generic, then named");
    }
    put_journal(row + has_legend(), message_at, journal_columns);
    if (has_folder) {
        put_folder(row, message_at, folder_at, user);
    }
    put_message(message_at, user);
    put_rule(message_at + 1);
    put_keys(keys_at, user);
}

/* Whether the locale's name says so. */
static int has_utf8(void)
{
    static const char *const NAMES[] = {"LC_ALL", "LC_CTYPE", "LANG"};
    size_t k;
    for (k = 0; k < sizeof NAMES / sizeof NAMES[0]; k++) {
        const char *locale = getenv(NAMES[k]), *dot;
        if (locale != NULL && *locale != '\0') {
            dot = strchr(locale, '.');
            return dot != NULL && (strcasecmp(dot, ".UTF-8") == 0 || strcasecmp(dot, ".utf8") == 0);
        }
    }
    return 0;
}

int draw_screen(const person *user)
{
    int rows, columns;
    terminal_size(&rows, &columns);
    begin_picture(rows, columns);
    if (rows < LEAST_ROWS || columns < LEAST_COLUMNS) {
        put_words(0, 0, FROM_HERE_ON, LOOK_PLAIN, "The window has %d columns and %d rows;", columns, rows);
        put_words(1, 0, FROM_HERE_ON, LOOK_PLAIN, "the desk needs %d and %d. q ends.", LEAST_COLUMNS, LEAST_ROWS);
    } else {
        put_all(user);
    }
    return show_picture(has_utf8());
}
