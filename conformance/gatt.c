/* 4.3 Generic GATT Integrated Tests: the rows of Table 4.2 for the eighteen characteristics of the core.
 *
 * The table is the input of a procedure of GATT.TS, 6.3, on declarations, handles, UUIDs and descriptors, which are attributes
 * of the host's GATT server. What has to stand in them is shown here by what the core takes and refuses: reads, writes by both
 * sub-procedures, subscriptions; and the value's length by what it hands out. Every characteristic asks for encryption (the
 * standard, Table 3.1). Each case names its section of the standard and its row's properties and length. */
#include "cases.h"

/* Properties as in Table 4.2; WRITE is both Write and Write Without Response, which stand together in every row. */
enum { READ = 0x02, WRITE = 0x0C, NOTIFY = 0x10 };

/* What is written first, and then: positions, speeds and orders of 1 and 2; to the Media Control Point Play and Pause, which lead
 * to the states 1 and 2; the Object IDs of the tracks 1 and 2 and of the groups 3 and 1 of the sample. */
static long long written(uint32_t characteristic, uint32_t time)
{
    switch (characteristic) {
    case MCS_TRACK_OBJECT:
    case MCS_NEXT_TRACK_OBJECT:
        return MCS_OBJECT_OF_TRACK(time);
    case MCS_GROUP_OBJECT:
        return MCS_OBJECT_OF_GROUP(time == 1 ? 3u : 1u);
    default:
        return time;
    }
}

/* A client that is not encrypted is refused what is offered; what is not offered is refused to everyone. The Lower Tester is
 * subscribed afterwards, where that is offered. */
static void properties(struct tester *t, uint32_t characteristic, int offered)
{
    const uint32_t seen_in = characteristic == MCS_CONTROL_POINT ? MCS_MEDIA_STATE : characteristic;
    const bool is_object = characteristic >= MCS_SEGMENTS_OBJECT && characteristic <= MCS_GROUP_OBJECT;
    const size_t length = is_object ? MCS_OBJECT_OCTETS : characteristic == MCS_POSITION ? 4 : 1;
    uint8_t one[MCS_OBJECT_OCTETS + 1] = {0}, two[MCS_OBJECT_OCTETS + 1] = {0};

    mcs_put_object(one, (uint64_t)written(characteristic, 1));
    mcs_put_object(two, (uint64_t)written(characteristic, 2));
    third_connects_unencrypted(t);
    if ((offered & READ) != 0) {
        expect_read_refused(t, THIRD(t), characteristic, 0, MCS_NOT_ENCRYPTED); /* the cases read it themselves */
    } else {
        expect_read_refused(t, LOWER(t), characteristic, 0, MCS_NOT_READABLE);
    }
    if ((offered & WRITE) != 0) {
        lower_writes(t, characteristic, one, length);
        expect_reads(t, seen_in, written(characteristic, 1));
        lower_commands(t, characteristic, two, length);
        expect_reads(t, seen_in, written(characteristic, 2));
        expect_write_refused(t, THIRD(t), characteristic, one, length, MCS_NOT_ENCRYPTED);
    } else {
        expect_write_refused(t, LOWER(t), characteristic, one, length, MCS_NOT_WRITABLE);
    }
    if ((offered & NOTIFY) != 0) {
        lower_subscribes(t, CCCD(characteristic));
        expect_subscription_refused(t, THIRD(t), characteristic, MCS_NOT_ENCRYPTED);
    } else {
        expect_subscription_refused(t, LOWER(t), characteristic, MCS_NO_SLOT);
    }
    /* What a Write is refused with, a Write Without Response does not bring back: of a length that is no value's, or of what
     * may not be written. The client is subscribed by now, and hears of nothing, not of a result either. */
    for (size_t wrong = 0; wrong <= sizeof one; wrong++) {
        if ((offered & WRITE) == 0) {
            expect_command_ignored(t, characteristic, one, wrong);
        } else if (wrong != length) {
            expect_write_refused(t, LOWER(t), characteristic, one, wrong, MCS_BAD_LENGTH);
            expect_command_ignored(t, characteristic, one, wrong);
        }
    }
}

/* Group 1 of the sample, Paused at the start of its track 0, which lasts 6000. */
static void active(struct tester *t)
{
    struct setting setting = {3, 1, 0, 0, MCS_PAUSED};
    preamble(t, &SAMPLE_LINES);
    upper_orders(t, setting);
}

/* 3.1: Read, and Notify, which the generic service must offer; length left out */
static void media_player_name(struct tester *t)
{
    active(t);
    properties(t, MCS_NAME, READ | NOTIFY);
    expect_reads_text(t, MCS_NAME, t->service->player_name);
    upper_renames(t, "Desk 9");
    expect_notified_text(t, MCS_NAME, "Desk 9");
    upper_renames(t, "Desk 9");
    expect_silence(t);
    lower_unsubscribes(t, CCCD(MCS_NAME));
    upper_renames(t, "Desk 10");
    expect_silence(t);
}

/* 3.4: Notify; length 0 */
static void track_changed(struct tester *t)
{
    active(t);
    properties(t, MCS_TRACK_CHANGED, NOTIFY);
    upper_activates(t, 3);
    expect_notified_text(t, MCS_TRACK_CHANGED, "");
    lower_unsubscribes(t, CCCD(MCS_TRACK_CHANGED));
    upper_activates(t, 1);
    expect_silence(t);
}

/* 3.5: Read, Notify; length left out. With the card's titles, and with those of an office that renames track 0 (SCOPE 5.1) */
static void track_title(struct tester *t)
{
    static const char *const *const offices[] = {NULL, SAMPLE_OFFICE};

    for (size_t k = 0; k < sizeof offices / sizeof offices[0]; k++) {
        preamble(t, &SAMPLE_LINES);
        upper_lends(t, offices[k]);
        expect_reads_text(t, MCS_TITLE, "");
        active(t);
        upper_lends(t, offices[k]);
        properties(t, MCS_TITLE, READ | NOTIFY);
        expect_reads_text(t, MCS_TITLE, title_of(t, 0));
        upper_activates(t, 3);
        expect_notified_text(t, MCS_TITLE, title_of(t, 3));
        upper_activates(t, 1);
        expect_notified_text(t, MCS_TITLE, title_of(t, 0));
        lower_unsubscribes(t, CCCD(MCS_TITLE));
        upper_activates(t, 3);
        expect_silence(t);
    }
}

/* 3.6: Read, Notify; length 4 */
static void track_duration(struct tester *t)
{
    preamble(t, &SAMPLE_LINES);
    expect_reads(t, MCS_DURATION, UNAVAILABLE);
    active(t);
    properties(t, MCS_DURATION, READ | NOTIFY);
    expect_reads(t, MCS_DURATION, 6000);
    upper_activates(t, 3);
    expect_notified(t, MCS_DURATION, 900);
    lower_unsubscribes(t, CCCD(MCS_DURATION));
    upper_activates(t, 1);
    expect_silence(t);
}

/* 3.7: Read, Write, Write Without Response, Notify; length 4 */
static void track_position(struct tester *t)
{
    static const uint8_t position_700[4] = {0xBC, 0x02, 0, 0}, position_800[4] = {0x20, 0x03, 0, 0};

    preamble(t, &SAMPLE_LINES);
    expect_reads(t, MCS_POSITION, UNAVAILABLE);
    active(t);
    properties(t, MCS_POSITION, READ | WRITE | NOTIFY);
    upper_writes(t, MCS_POSITION, position_700, 4);
    expect_notified(t, MCS_POSITION, 700);
    lower_unsubscribes(t, CCCD(MCS_POSITION));
    upper_writes(t, MCS_POSITION, position_800, 4);
    expect_silence(t);
}

/* A speed p that is written is that of the current track from then on, 2 to the power p / 64 (the standard, 3.8 and 3.8.1). A
 * hundredth by the clock is e 65,536ths of one of the track, with the e that SCOPE 13.2 gives for p, and nothing of them is lost
 * (SCOPE 13.3). So after an hour the position is the whole part of 360,000 e / 65,536, in however many steps the hour passed. */
static const struct {
    int8_t speed;
    uint32_t after_an_hour;
} pace[] = {
    {-128, 90000},  /* e is 16,384, a quarter of 65,536 */
    {-64, 180000},  /* 32,768, the half */
    {-37, 241138},  /* 43,898 */
    {-32, 254558},  /* 46,341 */
    {-1, 356121},   /* 64,830 */
    {0, 360000},    /* 65,536 */
    {1, 363922},    /* 66,250 */
    {64, 720000},   /* 131,072, twice that */
    {127, 1424487}, /* 259,320 */
};

/* In steps of a quarter of a second: at 0 and 64 each is whole hundredths of the track, at the other speeds none is. While it plays
 * at a constant speed, the position is not sent (SCOPE 18.3; the standard, 3.7.1). */
static void an_hour_passes(struct tester *t, int8_t speed, uint32_t after_an_hour)
{
    const struct setting playing = {3, 0, 0, 0, MCS_PLAYING};
    preamble(t, &MEETING_LINES);
    upper_orders(t, playing);
    lower_subscribes(t, CCCD(MCS_POSITION));
    upper_sets_speed(t, speed);
    for (uint32_t step = 0; step < 4 * 3600; step++) {
        upper_lets_pass(t, 25);
    }
    expect_silence(t);
    expect_reads(t, MCS_POSITION, after_an_hour);
}

/* A write of the speed sets no position: half a hundredth that was played before is not lost (SCOPE 13.10). One by the clock at
 * twice the speed is two, and then one at half speed makes the half a whole one. */
static void speed_changes_while_playing(struct tester *t)
{
    const struct setting playing = {3, 1, 0, 700, MCS_PLAYING};
    preamble(t, &SAMPLE_LINES);
    upper_orders(t, playing);
    upper_plays_half(t);
    expect_reads(t, MCS_POSITION, 700);
    upper_sets_speed(t, 64);
    expect_reads(t, MCS_POSITION, 700);
    upper_lets_pass(t, 1);
    expect_reads(t, MCS_POSITION, 702);
    upper_sets_speed(t, HALF_SPEED);
    upper_lets_pass(t, 1);
    expect_reads(t, MCS_POSITION, 703);
}

/* 3.8: Read, Write, Write Without Response, Notify; length left out */
static void playback_speed(struct tester *t)
{
    static const uint8_t twice[1] = {0x40}; /* the standard, Table 3.2 */

    active(t);
    expect_reads(t, MCS_PLAYBACK_SPEED, 0);
    properties(t, MCS_PLAYBACK_SPEED, READ | WRITE | NOTIFY);
    upper_sets_speed(t, HALF_SPEED);
    expect_notified(t, MCS_PLAYBACK_SPEED, -64);
    /* The project's choice, against the standard, 3.8.1: it is not owed to the client that wrote it (SCOPE 18.4). No case of the
     * suite asks for it. */
    lower_writes(t, MCS_PLAYBACK_SPEED, twice, 1);
    expect_silence(t);
    expect_reads(t, MCS_PLAYBACK_SPEED, 64);
    lower_unsubscribes(t, CCCD(MCS_PLAYBACK_SPEED));
    upper_sets_speed(t, HALF_SPEED);
    expect_silence(t);
    speed_changes_while_playing(t);
    for (size_t k = 0; k < sizeof pace / sizeof pace[0]; k++) {
        an_hour_passes(t, pace[k].speed, pace[k].after_an_hour);
    }
}

/* 3.9: Read, Notify; length 1. The rungs of SCOPE 8.5: -4, 4, 8 and on. */
static void seeking_speed(struct tester *t)
{
    active(t);
    properties(t, MCS_SEEKING_SPEED, READ | NOTIFY);
    expect_reads(t, MCS_SEEKING_SPEED, 0);
    upper_controls(t, MCS_OPCODE_FAST_REWIND);
    expect_notified(t, MCS_SEEKING_SPEED, -4);
    expect_reads(t, MCS_SEEKING_SPEED, -4);
    lower_unsubscribes(t, CCCD(MCS_SEEKING_SPEED));
    upper_controls(t, MCS_OPCODE_FAST_FORWARD);
    expect_silence(t);
    expect_reads(t, MCS_SEEKING_SPEED, 4);
}

/* 3.10: Read; length left out */
static void track_segments_object(struct tester *t)
{
    preamble(t, &SAMPLE_LINES);
    expect_reads(t, MCS_SEGMENTS_OBJECT, NO_OBJECT);
    active(t);
    properties(t, MCS_SEGMENTS_OBJECT, READ);
    expect_reads(t, MCS_SEGMENTS_OBJECT, MCS_OBJECT_OF_SEGMENTS(0));
    /* The project's choice, against the standard, 3.10: none where the track has no segments (SCOPE 16.5). No case of the suite
     * asks for it. */
    upper_activates(t, 3);
    expect_reads(t, MCS_SEGMENTS_OBJECT, NO_OBJECT);
}

/* Numbers that are refused with 0x13 (SCOPE 14.8). The sample's group 1 has the tracks 0 to 2; its groups 0 and 2 have none, and
 * there is no group 4. */
#define NOT_ALLOWED 4u
static const long long no_such_track[NOT_ALLOWED] = {MCS_OBJECT_OF_TRACK(3), MCS_OBJECT_OF_TRACK(4), MCS_OBJECT_OF_GROUP(1), 0};
static const long long no_such_group[NOT_ALLOWED] = {MCS_OBJECT_OF_GROUP(0), MCS_OBJECT_OF_GROUP(2), MCS_OBJECT_OF_GROUP(4), 0};

/* 3.11, 3.12 and 3.14: Read, Write, Write Without Response, Notify; length left out. What it reads before anything is written, two
 * numbers that may be written, and some that may not. */
static void writable_object(struct tester *t, uint32_t characteristic, long long before, long long one, long long other,
                            const long long not_allowed[NOT_ALLOWED])
{
    preamble(t, &SAMPLE_LINES);
    expect_reads(t, characteristic, NO_OBJECT);
    expect_object_refused(t, characteristic, one);
    active(t);
    expect_reads(t, characteristic, before);
    properties(t, characteristic, READ | WRITE | NOTIFY);
    upper_writes_object(t, characteristic, one);
    expect_notified(t, characteristic, one);
    /* Not to the client that wrote it (SCOPE 18.4; the standard, 3.11.1, 3.12.1 and 3.14.1) */
    lower_writes_object(t, characteristic, other);
    expect_silence(t);
    expect_reads(t, characteristic, other);
    for (size_t k = 0; k < NOT_ALLOWED; k++) {
        expect_object_refused(t, characteristic, not_allowed[k]);
    }
    /* All 48 bits count; the sample has fewer tracks and groups than four bits do. */
    for (uint32_t bit = 4; bit < 48; bit++) {
        expect_object_refused(t, characteristic, one ^ 1LL << bit);
    }
    lower_unsubscribes(t, CCCD(characteristic));
    upper_writes_object(t, characteristic, one);
    expect_silence(t);
    expect_reads(t, characteristic, one);
}

/* What is written leads there, to position 0 (the standard, 3.11.1 and 3.14.1); the state stays, but Seeking becomes Playing (SCOPE
 * 14.2 and 14.3). On the archive, in order 5, by rising stamp. */
static void object_leads_to(struct tester *t, uint32_t characteristic, long long object, uint32_t group, uint32_t track)
{
    static const uint8_t states[] = {MCS_PLAYING, MCS_PAUSED, MCS_SEEKING};

    for (size_t s = 0; s < sizeof states; s++) {
        const struct setting from = {5, 1, 0, 700, states[s]};
        const struct setting to = {5, group, track, 0, states[s] == MCS_SEEKING ? MCS_PLAYING : states[s]};
        preamble(t, &ARCHIVE_LINES);
        upper_orders(t, from);
        lower_writes_object(t, characteristic, object);
        expect_reads(t, MCS_SEEKING_SPEED, 0);
        expect_objects_of(t, to);
        upper_confirms(t, to);
    }
}

static void track_object(struct tester *t)
{
    writable_object(t, MCS_TRACK_OBJECT, MCS_OBJECT_OF_TRACK(0), MCS_OBJECT_OF_TRACK(1), MCS_OBJECT_OF_TRACK(0), no_such_track);
    object_leads_to(t, MCS_TRACK_OBJECT, MCS_OBJECT_OF_TRACK(2), 1, 2);
}

/* Before one is named: order 3, so track 1 behind track 0. The current track may be named too. */
static void next_track_object(struct tester *t)
{
    writable_object(t, MCS_NEXT_TRACK_OBJECT, MCS_OBJECT_OF_TRACK(1), MCS_OBJECT_OF_TRACK(1), MCS_OBJECT_OF_TRACK(0),
                    no_such_track);
}

static void group_object(struct tester *t)
{
    writable_object(t, MCS_GROUP_OBJECT, MCS_OBJECT_OF_GROUP(1), MCS_OBJECT_OF_GROUP(3), MCS_OBJECT_OF_GROUP(1), no_such_group);
    object_leads_to(t, MCS_GROUP_OBJECT, MCS_OBJECT_OF_GROUP(6), 6, 12);
}

/* 3.13: Read, Notify; length left out. Of the archive's groups 1 and 3 have the parent 0, 5 and 7 the parent 3. */
static void parent_group_object(struct tester *t)
{
    struct setting setting = {3, 5, 9, 0, MCS_PAUSED};

    preamble(t, &ARCHIVE_LINES);
    expect_reads(t, MCS_PARENT_GROUP_OBJECT, NO_OBJECT);
    upper_orders(t, setting);
    properties(t, MCS_PARENT_GROUP_OBJECT, READ | NOTIFY);
    expect_reads(t, MCS_PARENT_GROUP_OBJECT, MCS_OBJECT_OF_GROUP(3));
    upper_activates(t, 1);
    expect_notified(t, MCS_PARENT_GROUP_OBJECT, MCS_OBJECT_OF_GROUP(0));
    upper_activates(t, 3);
    expect_silence(t);
    /* The client that changes it by writing another one is told. */
    lower_writes_object(t, MCS_GROUP_OBJECT, MCS_OBJECT_OF_GROUP(7));
    expect_notified(t, MCS_PARENT_GROUP_OBJECT, MCS_OBJECT_OF_GROUP(3));
    lower_unsubscribes(t, CCCD(MCS_PARENT_GROUP_OBJECT));
    upper_activates(t, 1);
    expect_silence(t);
}

/* 3.15: Read, Write, Write Without Response, Notify; length 1 */
static void playing_order(struct tester *t)
{
    static const uint8_t oldest_once[1] = {5}, newest_repeat[1] = {8};

    active(t);
    expect_reads(t, MCS_PLAYING_ORDER, 3);
    properties(t, MCS_PLAYING_ORDER, READ | WRITE | NOTIFY);
    upper_writes(t, MCS_PLAYING_ORDER, oldest_once, 1);
    expect_notified(t, MCS_PLAYING_ORDER, 5);
    /* The project's choice, against the standard, 3.15.1, as for the Playback Speed (SCOPE 18.4) */
    lower_writes(t, MCS_PLAYING_ORDER, newest_repeat, 1);
    expect_silence(t);
    expect_reads(t, MCS_PLAYING_ORDER, 8);
    lower_unsubscribes(t, CCCD(MCS_PLAYING_ORDER));
    upper_writes(t, MCS_PLAYING_ORDER, oldest_once, 1);
    expect_silence(t);
}

/* 3.16: Read; length 2 */
static void playing_orders_supported(struct tester *t)
{
    active(t);
    properties(t, MCS_ORDERS_SUPPORTED, READ);
    expect_reads(t, MCS_ORDERS_SUPPORTED, 0x00FF);
}

/* 3.17: Read, Notify; length 1 */
static void media_state(struct tester *t)
{
    preamble(t, &SAMPLE_LINES);
    expect_reads(t, MCS_MEDIA_STATE, MCS_INACTIVE);
    active(t);
    properties(t, MCS_MEDIA_STATE, READ | NOTIFY);
    expect_reads(t, MCS_MEDIA_STATE, MCS_PAUSED);
    upper_controls(t, MCS_OPCODE_PLAY);
    expect_notified(t, MCS_MEDIA_STATE, MCS_PLAYING);
    lower_unsubscribes(t, CCCD(MCS_MEDIA_STATE));
    upper_controls(t, MCS_OPCODE_PAUSE);
    expect_silence(t);
}

/* 3.18: Write, Write Without Response, Notify; length left out */
static void media_control_point(struct tester *t)
{
    static const uint8_t play[1] = {MCS_OPCODE_PLAY};

    active(t);
    properties(t, MCS_CONTROL_POINT, WRITE | NOTIFY);
    /* A result comes by either sub-procedure. */
    lower_writes(t, MCS_CONTROL_POINT, play, 1);
    expect_result(t, MCS_OPCODE_PLAY, MCS_RESULT_SUCCESS);
    lower_controls(t, MCS_OPCODE_PAUSE, 0);
    expect_result(t, MCS_OPCODE_PAUSE, MCS_RESULT_SUCCESS);
    /* The result of another client's write is that client's. */
    upper_controls(t, MCS_OPCODE_PLAY);
    expect_silence(t);
    lower_unsubscribes(t, CCCD(MCS_CONTROL_POINT));
    lower_controls(t, MCS_OPCODE_PAUSE, 0);
    expect_silence(t);
    expect_reads(t, MCS_MEDIA_STATE, MCS_PAUSED);
}

/* 3.19: Read; length 4. Notify is optional and not offered: the supported opcodes never change. */
static void opcodes_supported(struct tester *t)
{
    active(t);
    properties(t, MCS_OPCODES_SUPPORTED, READ);
    expect_reads(t, MCS_OPCODES_SUPPORTED, MCS_ALL_OPCODES);
}

/* 3.22: Read; length 1 */
static void content_control_id(struct tester *t)
{
    active(t);
    properties(t, MCS_CONTENT_CONTROL_ID, READ);
    expect_reads(t, MCS_CONTENT_CONTROL_ID, t->service->ccid);
}

/* Table 4.2 */
const struct tested_case gatt_cases[] = {
    CASE("/SR/SGGIT/CHA/BV-01-C", IN_PART, media_player_name, 0, 0, 0),
    CASE("/SR/SGGIT/CHA/BV-04-C", IN_PART, track_changed, 0, 0, 0),
    CASE("/SR/SGGIT/CHA/BV-05-C", IN_PART, track_title, 0, 0, 0),
    CASE("/SR/SGGIT/CHA/BV-06-C", IN_PART, track_duration, 0, 0, 0),
    CASE("/SR/SGGIT/CHA/BV-07-C", IN_PART, track_position, 0, 0, 0),
    CASE("/SR/SGGIT/CHA/BV-08-C", IN_PART, playback_speed, 0, 0, 0),
    CASE("/SR/SGGIT/CHA/BV-09-C", IN_PART, seeking_speed, 0, 0, 0),
    CASE("/SR/SGGIT/CHA/BV-10-C", IN_PART, track_segments_object, 0, 0, 0),
    CASE("/SR/SGGIT/CHA/BV-11-C", IN_PART, track_object, 0, 0, 0),
    CASE("/SR/SGGIT/CHA/BV-12-C", IN_PART, next_track_object, 0, 0, 0),
    CASE("/SR/SGGIT/CHA/BV-13-C", IN_PART, parent_group_object, 0, 0, 0),
    CASE("/SR/SGGIT/CHA/BV-14-C", IN_PART, group_object, 0, 0, 0),
    CASE("/SR/SGGIT/CHA/BV-15-C", IN_PART, playing_order, 0, 0, 0),
    CASE("/SR/SGGIT/CHA/BV-16-C", IN_PART, playing_orders_supported, 0, 0, 0),
    CASE("/SR/SGGIT/CHA/BV-17-C", IN_PART, media_state, 0, 0, 0),
    CASE("/SR/SGGIT/CHA/BV-18-C", IN_PART, media_control_point, 0, 0, 0),
    CASE("/SR/SGGIT/CHA/BV-19-C", IN_PART, opcodes_supported, 0, 0, 0),
    CASE("/SR/SGGIT/CHA/BV-22-C", IN_PART, content_control_id, 0, 0, 0),
    END_OF_CASES,
};
