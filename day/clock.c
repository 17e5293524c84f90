#include "clock.h"

#include <assert.h>

#include "mcs.h"

#define REST_BOUND 65536u /* so many of them are a whole hundredth */

/* How far a hundredth by the clock leads a tape at a speed p, in 65,536ths: the whole number e with (2e−1)^64 ≤ 2^(1088+p) <
 * (2e+1)^64 (SCOPE 13.2). The speeds of the day are multiples of 32, so that the 32nd root of all three sides is exact, and e is
 * found by squares: (2e−1)^2 ≤ 2^(34+p/32) < (2e+1)^2. At -64 it is 32,768: 2^32 lies between the squares of 65,535 and 65,537.
 * At -32 it is 46,341: 2^33, which is 8,589,934,592, lies between those of 92,681 and 92,683, 8,589,767,761 and 8,590,138,489. */
static uint64_t parts_at(int8_t speed)
{
    uint64_t e = 1, power;
    assert(speed % 32 == 0);
    power = (uint64_t)1 << (34 + speed / 32);
    while ((2u * e + 1u) * (2u * e + 1u) <= power) {
        e++;
    }
    return e;
}

/* A clock step of d in Playing adds d times e to the rest, advances by the whole 65,536ths (more than 8,640,000 counts as
 * that) and keeps the rest (SCOPE 13.3). */
static tape_place played(const tape *t, uint32_t hundredths, int plays_on)
{
    uint64_t parts = t->at.rest + hundredths * parts_at(t->speed), whole = parts / REST_BOUND;
    tape_place to = t->at;
    whole = whole > MCS_MOST_DURATION ? MCS_MOST_DURATION : whole;
    if (t->at.position + whole < t->end) {
        to.position += (uint32_t)whole;
        to.rest = (uint32_t)(parts % REST_BOUND);
    } else if (t->running) {
        to.position = t->end; /* it is held there, and the rest is what it was */
    } else {
        to.position = plays_on ? 0 : t->end;
        to.rest = 0;
    }
    return to;
}

/* Seeking adds d times the seeking speed, held to 0 and D (SCOPE 13.7). The playback speed is nothing to it, and no rest is left. */
static tape_place sought(const tape *t, uint32_t hundredths)
{
    int64_t there = t->at.position + (int64_t)t->seeking * hundredths;
    tape_place to = {there < 0 ? 0 : there > t->end ? t->end : (uint32_t)there, 0};
    return to;
}

tape_place tape_after(const tape *t, uint32_t hundredths, int plays_on)
{
    switch (t->media_state) {
    case MCS_PLAYING:
        return played(t, hundredths, plays_on);
    case MCS_SEEKING:
        return sought(t, hundredths);
    default:
        return t->at;
    }
}

uint32_t time_to_end(const tape *t)
{
    uint64_t left = (uint64_t)(t->end - t->at.position) * REST_BOUND, e = parts_at(t->speed);
    return left > t->at.rest ? (uint32_t)((left - t->at.rest + e - 1u) / e) : 0;
}
