#include "office.h"

#include <stdio.h>
#include <string.h>

#include "agreement.h"
#include "books.h"
#include "lines.h"
#include "must.h"
#include "steps.h"
#include "tables.h"
#include "titles.h"
#include "values.h"
#include "words.h"

static struct mcs_desk desk;

/* ---- What the state says, at the offsets that mcs.h gives */

static const uint8_t *player_at(uint32_t service) { return desk.state + MCS_AT_SERVICE(service); }
static const uint8_t *account_at(uint32_t who, uint32_t service) { return player_at(service) + MCS_IN_ACCOUNT(who); }

static int is_active(uint32_t service) { return player_at(service)[MCS_IN_MEDIA_STATE] != MCS_INACTIVE; }
static uint32_t current_track(uint32_t service) { return word_at(player_at(service) + MCS_IN_TRACK); }
static uint32_t named_track(uint32_t service) { return word_at(player_at(service) + MCS_IN_NEXT); } /* plus 1; 0: none */
static const uint32_t *track_record(uint32_t service)
{
    return desk.catalogue.tracks + (size_t)MCS_TRACK_WORDS * current_track(service);
}

static int is_running(uint32_t service) { return is_active(service) && track_record(service)[DURATION] == MCS_RUNNING; }

uint32_t track_end(uint32_t service) { return is_active(service) ? end_of_track(track_record(service)[DURATION]) : 0; }

static uint32_t waiting_of(uint32_t who, uint32_t service) { return word_at(account_at(who, service) + MCS_IN_WAITING); }
static uint32_t owed_to(uint32_t who, uint32_t service) { return word_at(account_at(who, service) + MCS_IN_OWED); }

/* The bit of a slot. */
static uint32_t slot_of(uint32_t characteristic)
{
    uint32_t slot = 0;
    while (slot_at(slot) != characteristic) {
        slot++;
    }
    return slot;
}

static uint32_t values_owed(uint32_t who, uint32_t service)
{
    uint32_t owed = owed_to(who, service), count = 0, slot;
    for (slot = 0; slot < SLOTS; slot++) {
        count += slot_at(slot) != MCS_CONTROL_POINT ? owed >> slot & 1u : 0;
    }
    return count;
}

/* Of both players and to all devices: SCOPE 21.11 counts values and waiting results, 168 at most. */
static uint32_t things_owed(void)
{
    uint32_t who, service, count = 0;
    for (who = 0; who < MCS_CLIENTS; who++) {
        for (service = 0; service < MCS_SERVICES; service++) {
            count += values_owed(who, service) + waiting_of(who, service);
        }
    }
    return count;
}

/* So many of a thing, behind a mark. */
static void print_count(const char *mark, uint32_t count, const char *thing)
{
    if (count > 0) {
        printf("%s %u %s%s", mark, count, thing, count == 1u ? "" : "s");
    }
}

/* How much of a player waits for each device. Whether anything does. */
static int show_owed_of(uint32_t service)
{
    uint32_t who, devices = 0;
    for (who = 0; who < MCS_CLIENTS; who++) {
        uint32_t values = values_owed(who, service), results = waiting_of(who, service);
        if (values + results > 0) {
            if (devices == 0) {
                begin_desk_line("owes", service);
            }
            printf("%s", devices > 0 ? "; " : "");
            print_device(who, 0);
            print_count("", values, "value");
            print_count(values > 0 ? "," : "", results, "result");
            devices += 1u;
        }
    }
    if (devices > 0) {
        end_line();
    }
    return devices > 0;
}

static void show_owed(void)
{
    uint32_t service;
    int any = 0;
    for (service = 0; service < MCS_SERVICES; service++) {
        any = show_owed_of(service) || any;
    }
    if (!any) {
        begin_desk_line("owes", NO_PLAYER);
        printf("nothing");
        end_line();
    }
}

static void print_reply(uint32_t number)
{
    if (number == MCS_OK) {
        paint(FAINT);
        printf("  accepted");
    } else {
        /* The numbers of ATT are written in hexadecimal, those of the desk in decimal. */
        paint(RED);
        printf(MCS_IS_ATT_ERROR(number) ? "  refused 0x%02X, %s" : "  refused %u, %s", number, mcs_refusal_words(number));
    }
}

/* Behind what a line shows. */
#define NOT_ITS_TITLE "not the title of the player's track"
static void print_if_wrong(int right, const char *wrong)
{
    if (!right) {
        paint(RED);
        printf("  WRONG: %s", wrong);
    }
}

/* ---- Calls */

static uint8_t before[MCS_STATE_OCTETS];
static void keep_state(void) { memcpy(before, desk.state, sizeof before); }

/* Whether every player but one, with what it owes, is octet for octet what it was before. */
static int others_left_alone(uint32_t service)
{
    uint32_t other;
    int same = 1;
    for (other = 0; other < MCS_SERVICES; other++) {
        size_t at = MCS_AT_SERVICE(other), octets = MCS_AT_SERVICE(other + 1u) - at;
        same = same && (other == service || memcmp(before + at, desk.state + at, octets) == 0);
    }
    return same;
}

/* The title that a player has to have in a state; while Inactive it is the empty front of the card's text. */
static struct mcs_title title_in(const uint8_t *state, uint32_t service)
{
    const uint8_t *player = state + MCS_AT_SERVICE(service);
    struct mcs_title none = {desk.catalogue.text, 0, MCS_CARD_TEXT};
    return player[MCS_IN_MEDIA_STATE] == MCS_INACTIVE ? none : title_due(&desk.catalogue, word_at(player + MCS_IN_TRACK));
}

/* Books octets that are handed out, and whether they are a player's title from an offset on, as many as an answer holds. */
static int right_title(uint32_t service, uint32_t offset, const uint8_t *octets, uint32_t length, uint32_t most)
{
    struct mcs_title due = title_in(desk.state, service);
    size_t rest = due.length - offset;
    return book_title(offset <= due.length && length == (rest < most ? rest : most) &&
                      memcmp(octets, due.octets + offset, length) == 0);
}

/* Whether a device that subscribed to a player's title is owed it where it was before the call, or the call changed the title, and
 * nowhere else. Both titles are read with what the call was lent: that it was lent others than the call before is no change. */
static int title_owed_rightly(uint32_t service)
{
    struct mcs_title was = title_in(before, service), is = title_in(desk.state, service);
    int changed = was.length != is.length || memcmp(was.octets, is.octets, is.length) != 0, right = 1;
    uint32_t who, bit = 1u << slot_of(MCS_TITLE);
    for (who = 0; who < MCS_CLIENTS; who++) {
        const uint8_t *account = account_at(who, service), *earlier = before + (account - desk.state);
        int owed = (word_at(account + MCS_IN_OWED) & bit) != 0, owed_before = (word_at(earlier + MCS_IN_OWED) & bit) != 0;
        int subscribed = (word_at(account + MCS_IN_SUBSCRIBED) & bit) != 0;
        right = right && owed == (subscribed && (owed_before || changed));
    }
    return right;
}

/* A call to one player. */
#define AT_PLAYER(service, call) (keep_state(), called(service, call))
static uint32_t called(uint32_t service, uint32_t number)
{
    int left_alone = others_left_alone(service), owed_rightly = title_owed_rightly(service);
    if (number == MCS_OK) {
        note_changes(&desk, before, service);
    }
    if (!book_call(left_alone && owed_rightly)) {
        begin_desk_line("WRONG", service);
        printf("%s", left_alone ? "the title is owed otherwise than the call changed it" : "the other player was altered");
        end_line();
    }
    return number;
}

/* ---- The tapes, by the clock of the office */

/* As the player has it; but where it is, as the books do. */
static tape tape_in(uint32_t service)
{
    tape t;
    t.at = tape_booked(service);
    t.end = track_end(service);
    t.running = is_running(service);
    t.media_state = player_at(service)[MCS_IN_MEDIA_STATE];
    t.speed = signed_octet(player_at(service)[MCS_IN_SPEED]);
    t.seeking = signed_octet(player_at(service)[MCS_IN_SEEKING]);
    return t;
}

static tape_place place_now(uint32_t service)
{
    tape_place now = {word_at(player_at(service) + MCS_IN_POSITION), word_at(player_at(service) + MCS_IN_REST)};
    return now;
}

static void print_place(tape_place place) { print_position(stdout, place.position, place.rest); }

/* Something else than the clock has set the position, to where the player has it. The rest becomes 0 whenever anything but a
 * clock step in Playing within a track sets the position (SCOPE 13.9). */
static void book_position_set(uint32_t service)
{
    tape_place set = {place_now(service).position, 0};
    book_tape(service, set);
}

static void compare_place(uint32_t service)
{
    tape_place now = place_now(service), due = tape_booked(service);
    if (!book_place(now.position == due.position && now.rest == due.rest)) {
        begin_desk_line("WRONG", service);
        printf("the tape is at ");
        print_place(now);
        printf(", and has to be at ");
        print_place(due);
        end_line();
    }
}

/* A step of the clock. */
static void pass(uint32_t service, uint32_t hundredths)
{
    tape t = tape_in(service);
    must(AT_PLAYER(service, mcs_desk_advance(&desk, service, hundredths)), "advance");
    book_tape(service, tape_after(&t, hundredths, player_at(service)[MCS_IN_MEDIA_STATE] == MCS_PLAYING));
}

/* ---- Where a player stands */

/* Asks for the title where it stands: it has to be the very octets of the text that it comes from. */
static struct mcs_title ask_title(uint32_t service)
{
    struct mcs_title title, due = title_in(desk.state, service);
    must(mcs_desk_title(&desk, service, &title), "title");
    if (!book_title(title.octets == due.octets && title.length == due.length && title.text == due.text)) {
        begin_desk_line("WRONG", service);
        printf("the title is not that of the track, or stands elsewhere");
        end_line();
    }
    return title;
}

/* The title comes last, since it may be long. */
void show_player(uint32_t service)
{
    const uint8_t *player = player_at(service);
    struct mcs_title title = ask_title(service);
    compare_place(service);
    begin_desk_line("player", service);
    paint(BOLD);
    printf("%-8s  ", mcs_media_state_words(player[MCS_IN_MEDIA_STATE]));
    if (is_active(service)) {
        printf("group %u  track %u  ", word_at(player + MCS_IN_GROUP), current_track(service));
        print_place(place_now(service));
        if (is_running(service)) {
            printf(", still recording  ");
        } else {
            printf(" of ");
            print_time(stdout, track_end(service));
            printf("  ");
        }
    }
    printf("%s  speed ", mcs_playing_order_words(player[MCS_IN_ORDER]));
    print_value(stdout, MCS_PLAYBACK_SPEED, player + MCS_IN_SPEED, 1);
    if (player[MCS_IN_SEEKING] != 0) {
        printf("  seeking ");
        print_value(stdout, MCS_SEEKING_SPEED, player + MCS_IN_SEEKING, 1);
    }
    if (named_track(service) != 0) {
        printf("  track %u named as the next", named_track(service) - 1u);
    }
    if (is_active(service)) {
        printf("  ");
        print_value(stdout, MCS_TITLE, title.octets, title.length);
        printf("%s", title.text == MCS_OFFICE_TEXT ? ", the office's" : "");
    }
    end_line();
}

/* ---- The desk */

uint32_t open_office(const struct mcs_catalogue *c, struct mcs_place *place)
{
    struct mcs_player players[MCS_SERVICES];
    uint32_t service, number;
    for (service = 0; service < MCS_SERVICES; service++) {
        players[service].name = (const uint8_t *)PLAYERS[service].name;
        players[service].name_len = strlen(PLAYERS[service].name);
        players[service].mask = MCS_ALL_OPCODES;
        players[service].ccid = PLAYERS[service].content_control_id;
    }
    desk.catalogue = *c;
    desk.titles = office_titles(c);
    number = mcs_desk_start(&desk, players);
    *place = desk.place;
    return number;
}

void introduce(void)
{
    const uint32_t *slot;
    uint32_t who, service;
    printf("\n%-14s%-32sis called\n", "Player", "service");
    for (service = 0; service < MCS_SERVICES; service++) {
        print_player(service, 14);
        printf("%u %-30s\"%s\"\n", service, mcs_service_words(service), PLAYERS[service].name);
    }
    printf("\n%-14s%-9s%-9sis told of\n", "Device", "ATT_MTU", "player");
    for (who = 0; who < MCS_CLIENTS; who++) {
        for (service = 0; service < MCS_SERVICES; service++) {
            if (follows(who, service)) {
                print_device(who, 14);
                printf("%-9u", DEVICES[who].mtu);
                print_player(service, 9);
                for (slot = DEVICES[who].slots[service]; *slot != 0; slot++) {
                    printf("%s%s", slot == DEVICES[who].slots[service] ? "" : ", ", mcs_characteristic_words(*slot));
                }
                putchar('\n');
            }
        }
    }
    printf(
        "\nFirst what is done and at which player, then a column for each device.\n"
        "press, write, read: what the device does. take: what the desk hands to it.\n"
        "'#3 Play: Success' is the result of that device's own third press at that player.\n"
        "draw: what the device shows of the objects that it asked for; tracks are numbered from 0x1000 on, groups from 0x2000.\n"
        "lend: a title of the office's own for a track, beside the card's, of which no device is told.\n"
        "teach: a Goto by single steps, each made on a copy of the desk. manual: what the manual's Goto says of it.\n"
        "time: what passes by the clock on the wall; at speed p a tape goes 2 to the power p/64 as far, at -64 half as far.\n"
        "'0:15.02+32768' is where a tape is: its position, and the rest behind it in 65,536ths of a hundredth of a second.\n"
        "The takes go round the devices, and within a device on from its last, through generic and then named.\n"
        "agrees: what a device was last told, or itself wrote, and what its player has, as far as its ATT_MTU reaches.\n");
}

void open_group(uint32_t service, uint32_t group)
{
    must(AT_PLAYER(service, mcs_desk_activate(&desk, service, group)), "activate");
    book_position_set(service);
    begin_desk_line("open", service);
    printf("group %u", group);
    end_line();
    show_player(service);
}

void close_group(uint32_t service)
{
    must(AT_PLAYER(service, mcs_desk_deactivate(&desk, service)), "deactivate");
    book_position_set(service);
    begin_desk_line("close", service);
    printf("the group");
    end_line();
    show_player(service);
}

static void show_time(uint32_t service, uint32_t hundredths, const char *how)
{
    begin_desk_line("time", service);
    print_time(stdout, hundredths);
    printf(" pass%s", how);
    end_line();
    show_player(service);
}

void let_pass(uint32_t service, uint32_t hundredths)
{
    pass(service, hundredths);
    show_time(service, hundredths, "");
}

void let_pass_singly(uint32_t service, uint32_t hundredths)
{
    uint32_t k;
    for (k = 0; k < hundredths; k++) {
        pass(service, 1);
        compare_place(service);
    }
    show_time(service, hundredths, ", hundredth by hundredth");
}

uint32_t time_left(uint32_t service)
{
    tape t = tape_in(service);
    return time_to_end(&t);
}

void rename_player(uint32_t service, const char *name)
{
    must(AT_PLAYER(service, mcs_desk_set_name(&desk, service, (const uint8_t *)name, strlen(name))), "set name");
    begin_desk_line("name", service);
    printf("\"%s\"", name);
    end_line();
}

/* ---- The typists' own titles */

/* Lends the titles as the office has them now, and shows that of a track. */
static void lend_titles(uint32_t track)
{
    struct mcs_title title = title_due(&desk.catalogue, track);
    desk.titles = office_titles(&desk.catalogue);
    book_lent();
    begin_desk_line("lend", NO_PLAYER);
    printf("track %u: ", track);
    print_value(stdout, MCS_TITLE, title.octets, title.length);
    end_line();
}

void lend_title(uint32_t track, const char *title)
{
    give_title(track, title);
    lend_titles(track);
}

void show_title(uint32_t service)
{
    struct mcs_title title = ask_title(service);
    int own = title.text == MCS_OFFICE_TEXT;
    begin_desk_line("title", service);
    printf("%u octets of the %s text, from %u on: ", (uint32_t)title.length, own ? "office's" : "card's",
           (uint32_t)(title.octets - (own ? desk.titles.office : desk.catalogue.text)));
    print_value(stdout, MCS_TITLE, title.octets, title.length);
    end_line();
}

/* A call with wrong titles, and whether what it handed back is right. */
static void show_refused(const char *what, uint32_t service, uint32_t number, int right)
{
    int unaltered = memcmp(before, desk.state, sizeof before) == 0;
    begin_desk_line(what, service);
    print_reply(number);
    print_if_wrong(book_title(number == MCS_BAD_RENAMES && unaltered && right), "it has to be refused and to alter nothing");
    end_line();
}

void lend_cut_title(uint32_t service, uint32_t track, uint32_t octets)
{
    struct mcs_title title;
    uint32_t number;
    cut_title(track, octets);
    lend_titles(track);
    keep_state();
    number = mcs_desk_title(&desk, service, &title);
    show_refused("title", service, number,
                 title.octets == desk.catalogue.text && title.length == 0 && title.text == MCS_CARD_TEXT);
    show_refused("time", service, AT_PLAYER(service, mcs_desk_advance(&desk, service, 100)), 1);
}

const struct mcs_catalogue *the_catalogue(void) { return &desk.catalogue; }

uint32_t hand_out(uint64_t folder, uint8_t octets[MCS_MOST_GROUP_OBJECT])
{
    uint32_t length = 0;
    must(mcs_desk_group_object(&desk, (uint32_t)(folder - MCS_OBJECT_OF_GROUP(0)), octets, MCS_MOST_GROUP_OBJECT, &length),
         "a group's object");
    return length;
}

/* ---- Object numbers */

static uint64_t object_in(const uint8_t *octets, uint32_t length)
{
    return length == MCS_OBJECT_OCTETS ? mcs_object_at(octets) : NO_OBJECT;
}

static uint64_t object_now(uint32_t who, uint32_t service, uint32_t characteristic)
{
    uint8_t now[MCS_OUTPUT_OCTETS];
    return object_in(now, value_now(&desk, who, service, characteristic, now));
}

/* ---- The devices */

static void subscribe(uint32_t who, uint32_t service, uint32_t characteristic)
{
    must(AT_PLAYER(service, mcs_desk_subscribe(&desk, who, service, characteristic)), "subscribe");
    book_subscribed(who, service, characteristic);
}

void join(uint32_t who)
{
    const uint32_t *slot;
    uint32_t service, followed = 0;
    must(mcs_desk_connect(&desk, who, DEVICES[who].mtu, 1), "connect");
    book_join(who);
    for (service = 0; service < MCS_SERVICES; service++) {
        for (slot = DEVICES[who].slots[service]; *slot != 0; slot++) {
            subscribe(who, service, *slot);
        }
    }
    begin_line("join", NO_PLAYER, who);
    printf("connected, follows");
    for (service = 0; service < MCS_SERVICES; service++) {
        if (follows(who, service)) {
            printf("%s", followed > 0 ? " and " : " ");
            print_player(service, 0);
            followed += 1u;
        }
    }
    end_line();
}

void leave(uint32_t who)
{
    uint32_t service, held[MCS_SERVICES];
    for (service = 0; service < MCS_SERVICES; service++) {
        held[service] = waiting_of(who, service);
    }
    must(mcs_desk_disconnect(&desk, who), "disconnect");
    book_leave(who, held);
    begin_line("leave", NO_PLAYER, who);
    printf("disconnected");
    for (service = 0; service < MCS_SERVICES; service++) {
        if (held[service] > 0) {
            print_count(",", held[service], "result");
            printf(" of ");
            print_player(service, 0);
            printf(" dropped");
        }
    }
    end_line();
}

/* Whether a Next Track has led where the object numbers before it said, and used up a name. */
static void compare_next(uint32_t who, uint32_t service, uint64_t left, uint64_t next)
{
    int there = object_now(who, service, MCS_TRACK_OBJECT) == (next == NO_OBJECT ? left : next);
    if (!book_next(there && named_track(service) == 0)) {
        begin_desk_line("WRONG", service);
        printf("the next track was 0x%04llX, once", (unsigned long long)next);
        end_line();
    }
}

/* Whether the result of a press that was accepted is Success, also where the device has not asked for results: it is asked of a copy
 * of the desk as it was before. */
static int succeeds(uint32_t who, uint32_t service, const uint8_t *value, size_t len)
{
    struct mcs_desk asked = desk;
    memcpy(asked.state, before, sizeof before);
    return result_of(&asked, who, service, value, len) == MCS_RESULT_SUCCESS;
}

/* Whether a press that was accepted sets the position, be it to where it was. */
static int press_sets_position(uint32_t who, uint32_t service, const uint8_t *value, size_t len)
{
    switch (value[0]) {
    case MCS_OPCODE_PLAY:
    case MCS_OPCODE_PAUSE:
    case MCS_OPCODE_FAST_REWIND:
    case MCS_OPCODE_FAST_FORWARD:
        return 0;
    case MCS_OPCODE_GOTO_SEGMENT: /* Goto Segment 0 moves nothing (SCOPE 10.7) */
        return signed_word(value + 1) != 0 && succeeds(who, service, value, len);
    default:
        return succeeds(who, service, value, len);
    }
}

/* The same of any other write. While Inactive a position write is accepted and alters nothing; of a running recording a negative
 * one is accepted and moves nothing (SCOPE 9.9). */
static int write_sets_position(uint32_t service, uint32_t characteristic, const uint8_t *value)
{
    switch (characteristic) {
    case MCS_POSITION:
        return is_active(service) && !(is_running(service) && signed_word(value) < 0);
    case MCS_TRACK_OBJECT:
    case MCS_GROUP_OBJECT:
        return 1;
    default:
        return 0;
    }
}

static void write_control(uint32_t who, uint32_t service, const uint8_t *value, size_t len)
{
    uint64_t left = object_now(who, service, MCS_TRACK_OBJECT), next = object_now(who, service, MCS_NEXT_TRACK_OBJECT);
    uint32_t number = AT_PLAYER(service, mcs_desk_write(&desk, who, service, MCS_CONTROL_POINT, value, len));
    if (number == MCS_OK && press_sets_position(who, service, value, len)) {
        book_position_set(service);
    }
    begin_line("press", service, who);
    printf("#%u ", book_press(who, service, value[0], number == MCS_OK));
    print_opcode(stdout, value[0]);
    if (len == 5u) {
        printf(" %lld", (long long)signed_word(value + 1));
    }
    print_reply(number);
    end_line();
    show_player(service);
    if (number == MCS_OK && value[0] == MCS_OPCODE_NEXT_TRACK) {
        compare_next(who, service, left, next);
    }
}

void press(uint32_t who, uint32_t service, uint8_t opcode) { write_control(who, service, &opcode, 1); }

void press_with(uint32_t who, uint32_t service, uint8_t opcode, int32_t number)
{
    uint8_t value[5];
    write_control(who, service, value, control_value(value, opcode, number));
}

/* Any other write. */
static void write_value(uint32_t who, uint32_t service, uint32_t characteristic, const uint8_t *value, uint32_t len)
{
    uint32_t number = AT_PLAYER(service, mcs_desk_write(&desk, who, service, characteristic, value, len));
    if (number == MCS_OK && write_sets_position(service, characteristic, value)) {
        book_position_set(service);
    }
    if (number == MCS_OK) {
        book_value(who, service, characteristic, BY_OWN_WRITE, value, len);
    }
    begin_line("write", service, who);
    printf("%s ", mcs_characteristic_words(characteristic));
    if (characteristic == MCS_POSITION && signed_word(value) < 0) {
        printf("%lld from the end", (long long)signed_word(value));
    } else {
        print_value(stdout, characteristic, value, len);
    }
    print_reply(number);
    end_line();
    show_player(service);
}

void set_order(uint32_t who, uint32_t service, uint8_t order) { write_value(who, service, MCS_PLAYING_ORDER, &order, 1); }

void set_speed(uint32_t who, uint32_t service, int8_t speed)
{
    uint8_t octet = (uint8_t)speed;
    write_value(who, service, MCS_PLAYBACK_SPEED, &octet, 1);
}

void set_position(uint32_t who, uint32_t service, int32_t position)
{
    uint8_t value[4];
    put_word(value, (uint32_t)position);
    write_value(who, service, MCS_POSITION, value, sizeof value);
}

void set_object(uint32_t who, uint32_t service, uint32_t characteristic, uint64_t object)
{
    uint8_t value[MCS_OBJECT_OCTETS];
    mcs_put_object(value, object);
    write_value(who, service, characteristic, value, sizeof value);
}

static uint32_t read_at(uint32_t who, uint32_t service, uint32_t characteristic, uint32_t offset,
                        uint8_t out[MCS_OUTPUT_OCTETS])
{
    uint32_t length = 0;
    uint32_t number =
        AT_PLAYER(service, mcs_desk_read(&desk, who, service, characteristic, offset, out, MCS_OUTPUT_OCTETS, &length));
    begin_line("read", service, who);
    printf("%s at %u", mcs_characteristic_words(characteristic), offset);
    if (number == MCS_OK) {
        printf(": ");
        print_value(stdout, characteristic, out, length);
        if (characteristic == MCS_TITLE) {
            print_if_wrong(right_title(service, offset, out, length, DEVICES[who].mtu - 1u), NOT_ITS_TITLE);
        }
    } else {
        print_reply(number);
    }
    end_line();
    return number == MCS_OK ? length : NOT_READ;
}

uint32_t read_part(uint32_t who, uint32_t service, uint32_t characteristic, uint32_t offset)
{
    uint8_t out[MCS_OUTPUT_OCTETS];
    return read_at(who, service, characteristic, offset, out);
}

uint64_t read_object(uint32_t who, uint32_t service, uint32_t characteristic)
{
    uint8_t out[MCS_OUTPUT_OCTETS];
    return object_in(out, read_at(who, service, characteristic, 0, out));
}

void read_long(uint32_t who, uint32_t service, uint32_t characteristic)
{
    uint32_t offset = 0, length;
    do {
        length = read_part(who, service, characteristic, offset);
        offset += length;
    } while (length != 0 && length != NOT_READ);
}

/* ---- Goto by single steps */

static void show_step(const single_step *step)
{
    char label[16];
    snprintf(label, sizeof label, "step %u", step->number);
    begin_desk_line(label, step->of->service);
    print_opcode(stdout, step_opcode(step->of, step->number));
    if (step->outcome == MCS_RESULT_SUCCESS) {
        printf(": ");
        print_stand(&desk.catalogue, &step->to);
    } else {
        printf(" %s", why_not_made(step->outcome));
    }
    end_line();
}

/* Asks the manual's Goto, and shows what it says. */
static struct mcs_goto ask_manual(const taught_goto *taught, uint32_t allowed)
{
    struct mcs_goto told = by_the_manual(&desk, taught, allowed);
    begin_desk_line("manual", taught->service);
    printf("%u allowed: ", allowed);
    print_told(&desk.catalogue, &told);
    end_line();
    return told;
}

void teach_goto(uint32_t who, uint32_t service, uint8_t opcode, int32_t number, uint32_t allowed)
{
    const taught_goto taught = {who, service, opcode, number};
    struct mcs_goto walked, manual, whole, player, pressed;
    int right;

    begin_desk_line("teach", service);
    print_opcode(stdout, opcode);
    printf(" %d by single steps", number);
    end_line();
    keep_state();
    walked = by_single_steps(&desk, &taught, allowed, show_step);
    manual = ask_manual(&taught, allowed);
    whole = manual.outcome == MCS_RAN_OUT ? ask_manual(&taught, steps_of(number)) : manual;
    right = memcmp(before, desk.state, sizeof before) == 0 && same_steps(&walked, &manual);
    player = by_the_player(&desk, &taught);
    press_with(who, service, opcode, number);
    pressed = stand_of(&desk, service);
    pressed.outcome = player.outcome;
    if (!book_goto(right && same_end(&whole, &player) && same_end(&player, &pressed))) {
        begin_desk_line("WRONG", service);
        printf("the single steps, the manual's Goto and the player do not agree, or what was shown moved the player");
        end_line();
    }
}

/* ---- Takes */

/* A result of a player is handed to a device: it must be that of its oldest press there. */
static void show_result(const struct mcs_served *served, const uint8_t *value)
{
    open_press asked = oldest_press(served->client, served->service);
    if (book_result(served->client, served->service, value[0])) {
        paint(BOLD);
        printf("#%u ", asked.number);
        print_value(stdout, MCS_CONTROL_POINT, value, served->length);
        return;
    }
    paint(RED);
    print_value(stdout, MCS_CONTROL_POINT, value, served->length);
    printf("  WRONG: at this player this device waits for ");
    if (asked.number == 0) {
        printf("none");
    } else {
        printf("#%u ", asked.number);
        print_opcode(stdout, asked.opcode);
    }
}

static void show_take(uint32_t take, const struct mcs_served *served, const uint8_t *value, int right)
{
    char label[16];
    snprintf(label, sizeof label, "take %u", take);
    begin_line(label, served->service, served->client);
    if (served->characteristic == MCS_CONTROL_POINT) {
        show_result(served, value);
    } else {
        printf("%s%s", mcs_characteristic_words(served->characteristic),
               served->characteristic == MCS_TRACK_CHANGED ? "" : " ");
        print_value(stdout, served->characteristic, value, served->length);
        book_value(served->client, served->service, served->characteristic, BY_NOTIFICATION, value, served->length);
    }
    if (served->characteristic == MCS_TITLE) {
        print_if_wrong(right_title(served->service, 0, value, served->length, DEVICES[served->client].mtu - 3u), NOT_ITS_TITLE);
    }
    print_if_wrong(right, "out of turn, or the other player was altered");
    end_line();
}

/* What is owed to each device, as places of its round. */
static void places_owed(uint32_t owed[MCS_CLIENTS])
{
    uint32_t who, service;
    for (who = 0; who < MCS_CLIENTS; who++) {
        owed[who] = 0;
        for (service = 0; service < MCS_SERVICES; service++) {
            owed[who] |= owed_to(who, service) << SLOTS * service;
        }
    }
}

/* Makes takes and no other call, until nothing is owed, or more is served than can be owed. How many served something. */
static uint32_t take_all(void)
{
    uint8_t out[MCS_OUTPUT_OCTETS];
    struct mcs_served served;
    uint32_t take = 0, things = things_owed(), owed[MCS_CLIENTS];
    show_owed();
    for (;;) {
        uint32_t place;
        keep_state();
        places_owed(owed);
        must(mcs_desk_take(&desk, out, sizeof out, &served), "take");
        if (served.characteristic == MCS_NOTHING || take == MCS_MOST_OWED) {
            break;
        }
        take += 1u;
        place = SLOTS * served.service + slot_of(served.characteristic);
        show_take(take, &served, out, book_take(owed, served.client, place, others_left_alone(served.service)));
    }
    if (!book_quiet(served.characteristic == MCS_NOTHING && take == things && things_owed() == 0)) {
        begin_desk_line("WRONG", NO_PLAYER);
        printf("%u things were owed, %u takes were made, and %u are owed still", things, take, things_owed());
        end_line();
    }
    return take;
}

void tell_all(void)
{
    take_all();
    compare_devices(&desk, 0);
}

/* ---- At the end of the day */

void go_quiet(void)
{
    uint32_t things = things_owed(), takes = take_all();
    begin_desk_line("quiet", NO_PLAYER);
    printf("%u things were owed, and at most %u can be; after %u takes %s is owed", things, MCS_MOST_OWED, takes,
           things_owed() == 0 ? "nothing" : "SOMETHING");
    end_line();
}

void show_agreement(void)
{
    agreement all = compare_devices(&desk, 1);
    begin_desk_line(all.wrong == 0 ? "agree" : "WRONG", NO_PLAYER);
    paint(all.wrong == 0 ? BOLD : RED);
    if (all.wrong == 0) {
        printf("All four devices agree with the players that they follow, in %u values, and with each other wherever two show "
               "the same, %u times",
               all.values, all.pairs);
    } else {
        printf("THE DEVICES DO NOT AGREE: of %u comparisons %u went wrong", all.values + all.pairs, all.wrong);
    }
    end_line();
}
