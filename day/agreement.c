#include "agreement.h"

#include <stdio.h>
#include <string.h>

#include "books.h"
#include "lines.h"
#include "must.h"
#include "values.h"

/* Whether SCOPE 21.12 speaks of a slot, as it does of all but 7 and 18. While a tape plays its position runs on, and nobody is
 * told; and results are told one by one. */
static int is_compared(uint32_t characteristic)
{
    return characteristic != MCS_POSITION && characteristic != MCS_CONTROL_POINT;
}

/* ---- What a player has */

/* A whole value, part by part, as a device reads a long one. Its length. */
static uint32_t whole_value(const struct mcs_desk *desk, uint32_t who, uint32_t service, uint32_t characteristic,
                            uint8_t out[MCS_OUTPUT_OCTETS])
{
    struct mcs_desk asked = *desk;
    uint8_t part[MCS_OUTPUT_OCTETS];
    uint32_t at = 0, length;
    do {
        must(mcs_desk_read(&asked, who, service, characteristic, at, part, sizeof part, &length), "read");
        memcpy(out + at, part, length);
        at += length;
    } while (length == DEVICES[who].mtu - 1u);
    return at;
}

/* As many octets of a value as a notification holds. */
static uint32_t notified_of(uint32_t who, uint32_t length)
{
    uint32_t most = DEVICES[who].mtu - 3u;
    return length < most ? length : most;
}

uint32_t value_now(const struct mcs_desk *desk, uint32_t who, uint32_t service, uint32_t characteristic,
                   uint8_t out[MCS_OUTPUT_OCTETS])
{
    return characteristic == MCS_TRACK_CHANGED ? 0 : notified_of(who, whole_value(desk, who, service, characteristic, out));
}

/* Whether the value is another one than in the state before; of Track Changed, which has none, whether the track is, to or
 * from none too (SCOPE 18.2). */
static int has_changed(const struct mcs_desk *desk, const uint8_t before[MCS_STATE_OCTETS], uint32_t who, uint32_t service,
                       uint32_t characteristic)
{
    uint32_t asked_for = characteristic == MCS_TRACK_CHANGED ? MCS_TRACK_OBJECT : characteristic, length;
    uint8_t was[MCS_OUTPUT_OCTETS], is[MCS_OUTPUT_OCTETS];
    struct mcs_desk earlier = *desk;
    memcpy(earlier.state, before, sizeof earlier.state);
    length = whole_value(desk, who, service, asked_for, is);
    return whole_value(&earlier, who, service, asked_for, was) != length || memcmp(was, is, length) != 0;
}

void note_changes(const struct mcs_desk *desk, const uint8_t before[MCS_STATE_OCTETS], uint32_t service)
{
    uint32_t slot;
    for (slot = 0; slot < SLOTS; slot++) {
        /* A value is the same for every device that may read it. */
        uint32_t characteristic = slot_at(slot), who = a_subscriber(service, characteristic);
        if (is_compared(characteristic) && who < MCS_CLIENTS && has_changed(desk, before, who, service, characteristic)) {
            book_changed(service, characteristic);
        }
    }
}

/* ---- What the devices know */

static void show_known(uint32_t who, uint32_t service, uint32_t characteristic, const known_value *known, const uint8_t *now,
                       uint32_t length, int right)
{
    static const char *const HOW[] = {[BY_NOTHING] = "not told", [BY_NOTIFICATION] = "told", [BY_OWN_WRITE] = "wrote"};
    begin_line(right ? "agrees" : "WRONG", service, who);
    printf("%s: %s", mcs_characteristic_words(characteristic), HOW[known->by]);
    if (characteristic != MCS_TRACK_CHANGED) {
        if (known->by != BY_NOTHING) {
            putchar(' ');
            print_value(stdout, characteristic, known->octets, known->length);
        }
        printf("; has ");
        print_value(stdout, characteristic, now, length);
    }
    end_line();
}

/* A device beside its player. */
static void compare_with_player(const struct mcs_desk *desk, uint32_t who, uint32_t service, int shown, agreement *all)
{
    uint32_t slot;
    for (slot = 0; slot < SLOTS; slot++) {
        uint32_t characteristic = slot_at(slot);
        const known_value *known = value_known(who, service, characteristic);
        if (known->changed) {
            uint8_t now[MCS_OUTPUT_OCTETS];
            uint32_t length = value_now(desk, who, service, characteristic, now);
            int right =
                book_agreement(known->by != BY_NOTHING && known->length == length && memcmp(known->octets, now, length) == 0);
            all->values += 1u;
            all->wrong += right ? 0 : 1u;
            if (shown || !right) {
                show_known(who, service, characteristic, known, now, length, right);
            }
        }
    }
}

/* Whether two devices know the same, as far as a notification to either reaches. */
static int know_alike(uint32_t who, const known_value *known, uint32_t other, const known_value *others)
{
    uint32_t length = notified_of(other, notified_of(who, known->length));
    return length == notified_of(other, notified_of(who, others->length)) && memcmp(known->octets, others->octets, length) == 0;
}

/* A device beside those that come after it. */
static void compare_with_devices(uint32_t who, uint32_t service, agreement *all)
{
    uint32_t slot, other;
    for (slot = 0; slot < SLOTS; slot++) {
        const known_value *known = value_known(who, service, slot_at(slot));
        for (other = who + 1u; known->changed && other < MCS_CLIENTS; other++) {
            const known_value *others = value_known(other, service, slot_at(slot));
            if (others->changed) {
                int right = book_alike(know_alike(who, known, other, others));
                all->pairs += 1u;
                all->wrong += right ? 0 : 1u;
                if (!right) {
                    begin_line("WRONG", service, other);
                    printf("%s: not what the %s knows", mcs_characteristic_words(slot_at(slot)), DEVICES[who].name);
                    end_line();
                }
            }
        }
    }
}

agreement compare_devices(const struct mcs_desk *desk, int shown)
{
    agreement all = {0, 0, 0};
    uint32_t who, service;
    for (who = 0; who < MCS_CLIENTS; who++) {
        uint32_t values = all.values;
        for (service = 0; service < MCS_SERVICES; service++) {
            compare_with_player(desk, who, service, shown, &all);
            compare_with_devices(who, service, &all);
        }
        if (shown && all.values == values) {
            book_agreement(0);
            all.wrong += 1u;
            begin_line("WRONG", NO_PLAYER, who);
            printf("nothing that it follows has changed");
            end_line();
        }
    }
    return all;
}
