"""The clock's cases: playback by its speed (SCOPE 13.2), which vectors/script.py puts behind those of the office's titles.

Each call has its answer, the state of the player that it leaves and what falls due by it to whom beside it, worked out by hand from the rules that
docs/SCOPE.md has. vectors/calls.py says how they are written: the rest stands behind the position. The cases of one client are the left pedal's, as in
vectors/player.py, to the generic service and to the named player in turn; those of several clients are to the generic service, as in vectors/office.py, or to
the service that a call names.

At speeds -128, -64, 0 and 64 a step of 1 is a quarter, a half, 1 and 2 hundredths, so a hand can count in quarters: 16384, 32768 and 49152 are one, two
and three of them. At other speeds the numbers are made from E with whole numbers.

A comment that names a rule, such as SCOPE 18.2, says it in a few words; docs/SCOPE.md has the rule.
"""
import calls
from calls import (
    ALL, BAD_TITLES, CUT, ENCRYPTED, FIRST_GROUP, FIRST_SEGMENT, FIRST_TRACK, FORWARD, GENERIC, GOTO_GROUP, GOTO_SEGMENT, GOTO_TRACK, HEADSET,
    LAST_GROUP, LAST_SEGMENT, LAST_TRACK, LEFT, LONGEST, NAMED, NEXT_GROUP, NEXT_SEGMENT, NEXT_TRACK, OPEN, PAUSE, PLAY, PREVIOUS_GROUP,
    PREVIOUS_SEGMENT, PREVIOUS_TRACK, RELATIVE, REST, REWIND, RIGHT, RUNNING, SAMPLE, SCREEN, SERVICES, STOP, TURN,
    activate, advance, connect, deactivate, disconnect, group_object, octets, read, seen, segments_object, start, subscribe, take, title, titles,
    track_object, unsubscribe, word, write,
)
from objects import go_to_group, go_to_track, name, several
from office import EVERY, UEBERFAHRT, each_call, office, the_others_refuse_the_state
from player import (
    FURTHEST, LEAST, MASK_BITS, MOST, UNKNOWN, attend, case, check, control, damage, order, position, set_name, speed, stand, stand_in_3,
    stand_in_running, value,
)
from services import desks, each_call_to, seen_in_both, take_generic, take_named
from titles import FAEHRE


def entry(p):
    """The whole number e with (2e−1)^64 ≤ 2^(1088+p) < (2e+1)^64 (SCOPE 13.2), found by halving: the greatest one that keeps the first."""
    e, beyond = 1, 1 << 19
    while beyond - e > 1:
        between = (e + beyond) // 2
        e, beyond = (between, beyond) if (2 * between - 1) ** 64 <= 2 ** (1088 + p) else (e, between)
    assert (2 * e - 1) ** 64 <= 2 ** (1088 + p) < (2 * e + 1) ** 64, p
    return e


# A table of 256 entries gives e for each p from −128 to 127 (SCOPE 13.2).
E = {p: entry(p) for p in range(-128, 128)}
# A quarter, a half, 1 and 2.
assert (E[-128], E[-64], E[0], E[64]) == (16384, 32768, 65536, 131072)
# The numbers that are written out here, and in vectors/player.py.
assert (E[-32], E[32], E[-1]) == (46341, 92682, 64830)

# The ends of the table, and speeds about those that a hand can count at.
SPEEDS = (-128, -127, -96, -65, -64, -63, -33, -32, -31, -2, -1, 0, 1, 2, 31, 32, 33, 63, 64, 65, 96, 126, 127)


def stepped(p, d, place, rest=0):
    """Position and rest behind a step that stays below D (SCOPE 13.3)."""
    whole, rest = divmod(rest + d * E[p], 65536)
    return place + whole, rest


def shown(place, rest):
    """A position and its rest, as they are written."""
    return '%d+%d' % (place, rest) if rest else '%d' % place


def longest_below(p, end):
    """The greatest d that does not lead from 0 to an end."""
    return (end * 65536 - 1) // E[p]


def at_speed(p, playing_order, where, catalogue=SAMPLE):
    """The player, Paused at speed 0 in an order and at a place, is given a speed and plays."""
    speed(p, 'done', 'Paused %d %d 0 | %s' % (playing_order, p, where), catalogue)
    control(PLAY, 'result 1', 'Playing %d %d 0 | %s' % (playing_order, p, where), catalogue=catalogue)


def half_past(track, place):
    """A fresh player of order 3 that plays a track of group 1 at half speed, half a hundredth past a place."""
    stand(3, track, place)
    at_speed(-64, 3, '1 %d %d' % (track, place))
    advance(1, 'done', 'Playing 3 -64 0 | 1 %d %d+32768' % (track, place))


# Nothing is renamed in these cases.
titles()


# ---- A clock step of d in Playing adds d times e to the rest, advances by the whole 65,536ths and keeps the rest, 0 to 65,535 (SCOPE 13.3).

case('half speed')
stand(3, 0, 0)
at_speed(-64, 3, '1 0 0')
for d, where in ((1, '0+32768'), (1, '1'), (3, '2+32768'), (0, '2+32768'), (100, '52+32768'), (1, '53'), (2, '54'), (11801, '5954+32768'),
                 (90, '5999+32768')):
    advance(d, 'done', 'Playing 3 -64 0 | 1 0 ' + where)
advance(1, 'done', 'Playing 3 -64 0 | 1 1 0')

case('double speed')
stand(3, 0, 0)
at_speed(64, 3, '1 0 0')
for d, where in ((1, '2'), (1, '4'), (0, '4'), (100, '204'), (2897, '5998')):
    advance(d, 'done', 'Playing 3 64 0 | 1 0 ' + where)
advance(1, 'done', 'Playing 3 64 0 | 1 1 0')

case('a quarter of the speed')
stand(3, 0, 0)
at_speed(-128, 3, '1 0 0')
for d, where in ((1, '0+16384'), (1, '0+32768'), (1, '0+49152'), (1, '1'), (7, '2+49152'), (2, '3+16384'), (0, '3+16384'), (1000, '253+16384'),
                 (3, '254'), (22983, '5999+49152')):
    advance(d, 'done', 'Playing 3 -128 0 | 1 0 ' + where)
advance(1, 'done', 'Playing 3 -128 0 | 1 1 0')

# At -32 the inequality is (2e−1)^2 ≤ 2^33 < (2e+1)^2, of which the 32nd power is meant. 2^33 is 8589934592, and 92681 and 92683 have the squares
# 8589767761 and 8590138489, so e is 46341. Eight times that is 370728, and 5 times 65536 is 327680.
case('a rest that runs over several steps')
stand(3, 0, 0)
at_speed(-32, 3, '1 0 0')
for where in ('0+46341', '1+27146', '2+7951', '2+54292', '3+35097', '4+15902', '4+62243', '5+43048'):
    advance(1, 'done', 'Playing 3 -32 0 | 1 0 ' + where)
# One step of 8 leads as far as eight of 1, and so do steps of 5, 0 and 3.
position(0, 'done', 'Playing 3 -32 0 | 1 0 0')
advance(8, 'done', 'Playing 3 -32 0 | 1 0 5+43048')
position(0, 'done', 'Playing 3 -32 0 | 1 0 0')
for d, where in ((5, '3+35097'), (0, '3+35097'), (3, '5+43048')):
    advance(d, 'done', 'Playing 3 -32 0 | 1 0 ' + where)

# At 32 it is (2e−1)^2 ≤ 2^35 < (2e+1)^2: 34359738368 lies between the squares of 185363 and 185365, 34359441769 and 34360183225, so e is 92682.
case('a rest that runs over several steps above speed 0')
stand(3, 0, 100)
at_speed(32, 3, '1 0 100')
for where in ('101+27146', '102+54292', '104+15902', '105+43048', '107+4658'):
    advance(1, 'done', 'Playing 3 32 0 | 1 0 ' + where)
position(100, 'done', 'Playing 3 32 0 | 1 0 100')
advance(5, 'done', 'Playing 3 32 0 | 1 0 107+4658')

# A table of 256 entries gives e for each p from −128 to 127 (SCOPE 13.2): from 0 a step of 1 shows the entry as it is.
case('a step of 1 at every speed')
stand(3, 0, 0)
control(PLAY, 'result 1', 'Playing 3 0 0 | 1 0 0')
for p in E:
    speed(p, 'done', 'Playing 3 %d 0 | 1 0 0' % p)
    advance(1, 'done', 'Playing 3 %d 0 | 1 0 %s' % (p, shown(*stepped(p, 1, 0))))
    position(0, 'done', 'Playing 3 %d 0 | 1 0 0' % p)

# The speed in force is that at the step, and the rest runs on through all of them.
case('one rest through every speed')
stand(3, 0, 0)
control(PLAY, 'result 1', 'Playing 3 0 0 | 1 0 0')
at = 0, 0
for p in reversed(E):
    speed(p, 'done', 'Playing 3 %d 0 | 1 0 %s' % (p, shown(*at)))
    at = stepped(p, 7, *at)
    advance(7, 'done', 'Playing 3 %d 0 | 1 0 %s' % (p, shown(*at)))

# A step of d at speed 0 is d and leaves the rest that is there.
case('speed 0')
half_past(0, 1000)
speed(0, 'done', 'Playing 3 0 0 | 1 0 1000+32768')
for d, where in ((1, '1001+32768'), (0, '1001+32768'), (100, '1101+32768'), (4897, '5998+32768'), (1, '5999+32768')):
    advance(d, 'done', 'Playing 3 0 0 | 1 0 ' + where)
advance(1, 'done', 'Playing 3 0 0 | 1 1 0')
# The greatest rest and the least one.
for rest in (65535, 1):
    damage(REST, rest, 'Playing 3 0 0 | 1 1 0+%d' % rest)
    advance(299, 'done', 'Playing 3 0 0 | 1 1 299+%d' % rest)
    position(0, 'done', 'Playing 3 0 0 | 1 1 0')

# From the greatest rest on: 65535 and 16384 are 81919, and 65535 and 259320 are 324855, which is 4 times 65536 and 62711.
case('steps from a rest of 65535')
stand(3, 0, 0)
control(PLAY, 'result 1', 'Playing 3 0 0 | 1 0 0')
for p, d, where in ((-128, 1, '1+16383'), (-128, 0, '0+65535'), (-64, 1, '1+32767'), (-64, 2, '1+65535'), (64, 1, '2+65535'), (127, 1, '4+62711')):
    speed(p, 'done', 'Playing 3 %d 0 | 1 0 0' % p)
    damage(REST, 65535, 'Playing 3 %d 0 | 1 0 0+65535' % p)
    advance(d, 'done', 'Playing 3 %d 0 | 1 0 %s' % (p, where))
    position(0, 'done', 'Playing 3 %d 0 | 1 0 0' % p)


# ---- The speed is written in mid track: the rest stays, and the next step goes by the new speed.

case('the speed changes in mid track')
half_past(0, 1000)
speed(64, 'done', 'Playing 3 64 0 | 1 0 1000+32768')
advance(1, 'done', 'Playing 3 64 0 | 1 0 1002+32768')
speed(-128, 'done', 'Playing 3 -128 0 | 1 0 1002+32768')
advance(1, 'done', 'Playing 3 -128 0 | 1 0 1002+49152')
# Three quarters and a half.
speed(-64, 'done', 'Playing 3 -64 0 | 1 0 1002+49152')
advance(1, 'done', 'Playing 3 -64 0 | 1 0 1003+16384')
speed(0, 'done', 'Playing 3 0 0 | 1 0 1003+16384')
advance(10, 'done', 'Playing 3 0 0 | 1 0 1013+16384')
# Twice, and the speed that it has.
speed(64, 'done', 'Playing 3 64 0 | 1 0 1013+16384')
speed(-64, 'done', 'Playing 3 -64 0 | 1 0 1013+16384')
speed(-64, 'done', 'Playing 3 -64 0 | 1 0 1013+16384')
advance(1, 'done', 'Playing 3 -64 0 | 1 0 1013+49152')
speed(-128, 'done', 'Playing 3 -128 0 | 1 0 1013+49152')
advance(1, 'done', 'Playing 3 -128 0 | 1 0 1014')

case('the speed changes while Paused and while Seeking')
half_past(0, 1000)
control(PAUSE, 'result 1', 'Paused 3 -64 0 | 1 0 1000+32768')
speed(64, 'done', 'Paused 3 64 0 | 1 0 1000+32768')
control(PLAY, 'result 1', 'Playing 3 64 0 | 1 0 1000+32768')
advance(3, 'done', 'Playing 3 64 0 | 1 0 1006+32768')
control(FORWARD, 'result 1', 'Seeking 3 64 4 | 1 0 1006+32768')
speed(-128, 'done', 'Seeking 3 -128 4 | 1 0 1006+32768')
control(PLAY, 'result 1', 'Playing 3 -128 0 | 1 0 1006+32768')
advance(1, 'done', 'Playing 3 -128 0 | 1 0 1006+49152')


# ---- Play, Pause, Fast Forward and Rewind set no position, and keep the rest.

case('the rest through Pause and Play')
half_past(0, 1000)
control(PLAY, 'result 1', 'Playing 3 -64 0 | 1 0 1000+32768')
control(PAUSE, 'result 1', 'Paused 3 -64 0 | 1 0 1000+32768')
control(PAUSE, 'result 1', 'Paused 3 -64 0 | 1 0 1000+32768')
# Paused and Inactive, an advance changes nothing (SCOPE 13.8).
for d in (0, 1, 2, 65536, LONGEST):
    advance(d, 'done', 'Paused 3 -64 0 | 1 0 1000+32768')
control(PLAY, 'result 1', 'Playing 3 -64 0 | 1 0 1000+32768')
advance(0, 'done', 'Playing 3 -64 0 | 1 0 1000+32768')
advance(1, 'done', 'Playing 3 -64 0 | 1 0 1001')

case('the rest through Fast Forward and Rewind without a step')
half_past(0, 1000)
for rung in (4, 8, 16, 32, 32):
    control(FORWARD, 'result 1', 'Seeking 3 -64 %d | 1 0 1000+32768' % rung)
for rung in (16, 8, 4, -4, -8, -16, -32, -32):
    control(REWIND, 'result 1', 'Seeking 3 -64 %d | 1 0 1000+32768' % rung)
control(PLAY, 'result 1', 'Playing 3 -64 0 | 1 0 1000+32768')
control(REWIND, 'result 1', 'Seeking 3 -64 -4 | 1 0 1000+32768')
control(PAUSE, 'result 1', 'Paused 3 -64 0 | 1 0 1000+32768')
control(FORWARD, 'result 1', 'Seeking 3 -64 4 | 1 0 1000+32768')
control(PLAY, 'result 1', 'Playing 3 -64 0 | 1 0 1000+32768')
advance(1, 'done', 'Playing 3 -64 0 | 1 0 1001')


# ---- The rest becomes 0 whenever anything but a clock step in Playing within a track sets the position (SCOPE 13.9): also where it comes out the same.

# The pedal that is pressed before a move, and what it leaves.
PRESSED = ((PLAY, 'Playing 4 -64 0'), (PAUSE, 'Paused 4 -64 0'), (FORWARD, 'Seeking 4 -64 4'))


def come_to(group, track, place, opcode, pressed):
    """The player, which plays at half speed in order 4, comes to half a hundredth past a place; then a pedal is pressed, which keeps that."""
    go_to_group(group, 'done', 'Playing 4 -64 0 | %d %d 0' % (group, {1: 0, 3: 3}[group]))
    go_to_track(track, 'done', 'Playing 4 -64 0 | %d %d 0' % (group, track))
    position(place, 'done', 'Playing 4 -64 0 | %d %d %d' % (group, track, place))
    advance(1, 'done', 'Playing 4 -64 0 | %d %d %d+32768' % (group, track, place))
    control(opcode, 'result 1', '%s | %d %d %d+32768' % (pressed, group, track, place))


# In track 0 segments begin at 0, 1500 and 4000. The rest plays no part in where a move leads (1799 is less than 300 past 1500, 1800 is not).
for opcode, pressed in PRESSED:
    case('moves within a track make the rest 0: %s' % pressed)
    stand(4, 0, 0)
    at_speed(-64, 4, '1 0 0')
    for track, place, move, number, to in (
            (0, 0, PREVIOUS_SEGMENT, 0, 0),
            (0, 1500, PREVIOUS_SEGMENT, 0, 0),
            (0, 1799, PREVIOUS_SEGMENT, 0, 0),
            (0, 1800, PREVIOUS_SEGMENT, 0, 1500),
            (0, 1499, NEXT_SEGMENT, 0, 1500),
            (0, 1500, NEXT_SEGMENT, 0, 4000),
            (0, 5999, NEXT_SEGMENT, 0, 6000),
            (0, 0, FIRST_SEGMENT, 0, 0),
            (0, 5000, FIRST_SEGMENT, 0, 0),
            (0, 4000, LAST_SEGMENT, 0, 4000),
            (0, 1500, LAST_SEGMENT, 0, 4000),
            (0, 0, GOTO_SEGMENT, 1, 0),
            (0, 1500, GOTO_SEGMENT, 2, 1500),
            (0, 1500, GOTO_SEGMENT, 4, 6000),
            (0, 4000, GOTO_SEGMENT, -1, 4000),
            (0, 0, GOTO_SEGMENT, LEAST, 0),
            (0, 777, GOTO_SEGMENT, MOST, 6000),
            (0, 1000, RELATIVE, 0, 1000),
            (0, 0, RELATIVE, 0, 0),
            (0, 1000, RELATIVE, 1, 1001),
            (0, 1000, RELATIVE, -1, 999),
            # Held to 0 and to D.
            (0, 0, RELATIVE, -1, 0),
            (0, 0, RELATIVE, LEAST, 0),
            (0, 5999, RELATIVE, 1, 6000),
            (0, 5999, RELATIVE, MOST, 6000),
            # A track without segments.
            (1, 0, PREVIOUS_SEGMENT, 0, 0),
            (1, 100, LAST_SEGMENT, 0, 0),
            (1, 100, NEXT_SEGMENT, 0, 300)):
        come_to(1, track, place, opcode, pressed)
        control(move, 'result 1', '%s | 1 %d %d' % (pressed, track, to), number)
        control(PLAY, 'result 1', 'Playing 4 -64 0 | 1 %d %d' % (track, to))

for opcode, pressed in PRESSED:
    case('Stop and writes of 7 make the rest 0: %s' % pressed)
    stand(4, 0, 0)
    at_speed(-64, 4, '1 0 0')
    for place in (0, 1000):
        come_to(1, 0, place, opcode, pressed)
        control(STOP, 'result 1', 'Paused 4 -64 0 | 1 0 0')
        control(PLAY, 'result 1', 'Playing 4 -64 0 | 1 0 0')
    for place, number, to in ((0, 0, 0), (1000, 1000, 1000), (1000, -5000, 1000), (1000, 1001, 1001), (0, LEAST, 0), (5999, -1, 5999),
                              (5999, MOST, 6000)):
        come_to(1, 0, place, opcode, pressed)
        position(number, 'done', '%s | 1 0 %d' % (pressed, to))
        control(PLAY, 'result 1', 'Playing 4 -64 0 | 1 0 %d' % to)

# Order 4 goes round through tracks 0, 1 and 2 of group 1; group 3 has track 3. Track and group moves turn Seeking into Playing (SCOPE 11.7, 12.3).
for opcode, pressed in PRESSED:
    moved = 'Paused 4 -64 0' if opcode == PAUSE else 'Playing 4 -64 0'
    case('track and group moves make the rest 0: %s' % pressed)
    stand(4, 0, 0)
    at_speed(-64, 4, '1 0 0')
    for group, track, place, move, number, to in (
            (1, 0, 0, NEXT_TRACK, 0, '1 1 0'),
            (1, 1, 100, NEXT_TRACK, 0, '1 2 0'),
            (3, 3, 0, NEXT_TRACK, 0, '3 3 0'),
            (1, 1, 100, PREVIOUS_TRACK, 0, '1 0 0'),
            (3, 3, 0, PREVIOUS_TRACK, 0, '3 3 0'),
            (1, 0, 0, FIRST_TRACK, 0, '1 0 0'),
            (1, 1, 100, FIRST_TRACK, 0, '1 0 0'),
            (1, 0, 0, LAST_TRACK, 0, '1 2 0'),
            (3, 3, 0, LAST_TRACK, 0, '3 3 0'),
            (1, 0, 0, GOTO_TRACK, 0, '1 0 0'),
            (1, 1, 100, GOTO_TRACK, 0, '1 1 0'),
            (1, 1, 0, GOTO_TRACK, 2, '1 1 0'),
            (1, 1, 0, GOTO_TRACK, LEAST, '1 1 0'),
            (1, 0, 0, GOTO_TRACK, 3, '1 2 0'),
            (1, 1, 100, NEXT_GROUP, 0, '3 3 0'),
            (3, 3, 0, PREVIOUS_GROUP, 0, '1 0 0'),
            (1, 0, 0, FIRST_GROUP, 0, '1 0 0'),
            (1, 1, 100, FIRST_GROUP, 0, '1 0 0'),
            (3, 3, 0, LAST_GROUP, 0, '3 3 0'),
            (1, 0, 0, LAST_GROUP, 0, '3 3 0'),
            (1, 0, 0, GOTO_GROUP, 0, '1 0 0'),
            (3, 3, 0, GOTO_GROUP, 0, '3 3 0'),
            (1, 0, 0, GOTO_GROUP, 1, '1 0 0'),
            (3, 3, 100, GOTO_GROUP, -2, '1 0 0'),
            (1, 1, 0, GOTO_GROUP, 2, '3 3 0')):
        come_to(group, track, place, opcode, pressed)
        control(move, 'result 1', '%s | %s' % (moved, to), number)
        control(PLAY, 'result 1', 'Playing 4 -64 0 | ' + to)
    # 11 goes to a track of the current group at 0 (SCOPE 14.2), 14 to a group as activate does, but keeping the state, where Seeking becomes Playing (SCOPE
    # 14.3).
    for place, track in ((0, 0), (1000, 0), (0, 1), (0, 2)):
        come_to(1, 0, place, opcode, pressed)
        go_to_track(track, 'done', '%s | 1 %d 0' % (moved, track))
        control(PLAY, 'result 1', 'Playing 4 -64 0 | 1 %d 0' % track)
    for place, group, to in ((0, 1, '1 0 0'), (1000, 1, '1 0 0'), (0, 3, '3 3 0')):
        come_to(1, 0, place, opcode, pressed)
        go_to_group(group, 'done', '%s | %s' % (moved, to))
        control(PLAY, 'result 1', 'Playing 4 -64 0 | ' + to)

# 12 names a track of the current group that Next Track or the end of a track uses once (SCOPE 14.4, 14.5): the current one too.
case('Next Track to a named track makes the rest 0')
for track in (0, 1, 2):
    half_past(1, 100)
    name(track, 'done', 'Playing 3 -64 0 | 1 1 100+32768 %d' % track)
    control(NEXT_TRACK, 'result 1', 'Playing 3 -64 0 | 1 %d 0' % track)

for opcode, pressed in PRESSED:
    case('Activate, Deactivate and Start make the rest 0: %s' % pressed)
    stand(4, 0, 0)
    at_speed(-64, 4, '1 0 0')
    for place, group, to in ((0, 1, '1 0 0'), (1000, 1, '1 0 0'), (0, 3, '3 3 0')):
        come_to(1, 0, place, opcode, pressed)
        activate(group, 'done', 'Paused 4 -64 0 | ' + to)
        control(PLAY, 'result 1', 'Playing 4 -64 0 | ' + to)
    for place in (0, 1000):
        come_to(1, 0, place, opcode, pressed)
        deactivate('done', 'Inactive 4 -64 0 | 0 0 0')
        activate(1, 'done', 'Paused 4 -64 0 | 1 0 0')
        control(PLAY, 'result 1', 'Playing 4 -64 0 | 1 0 0')
    come_to(1, 0, 0, opcode, pressed)
    start(b'Radio', ALL, 7, 'done', 'Inactive 3 0 0 | 0 0 0')

# The recording was still running when it came to half a hundredth past 300, and is finished now with a duration of 300.
case('moves at D make the rest 0')
for move, number, state in (
        (NEXT_SEGMENT, 0, 'Playing 3 -64 0 | 1 1 300'),
        (GOTO_SEGMENT, 2, 'Playing 3 -64 0 | 1 1 300'),
        (RELATIVE, 0, 'Playing 3 -64 0 | 1 1 300'),
        (RELATIVE, MOST, 'Playing 3 -64 0 | 1 1 300'),
        (FIRST_SEGMENT, 0, 'Playing 3 -64 0 | 1 1 0'),
        (STOP, 0, 'Paused 3 -64 0 | 1 1 0'),
        (NEXT_TRACK, 0, 'Playing 3 -64 0 | 1 2 0')):
    stand_in_running(3, 1, 299)
    at_speed(-64, 3, '1 1 299', RUNNING)
    advance(3, 'done', 'Playing 3 -64 0 | 1 1 300+32768', catalogue=RUNNING)
    control(GOTO_SEGMENT, 'result 1', 'Playing 3 -64 0 | 1 1 300+32768', 0)
    control(move, 'result 1', state, number)

# In a track of duration 0 every position is 0.
case('moves in a track of duration 0 make the rest 0')
stand(4, 2, 0)
for move, number in ((PREVIOUS_SEGMENT, 0), (NEXT_SEGMENT, 0), (FIRST_SEGMENT, 0), (LAST_SEGMENT, 0), (GOTO_SEGMENT, 7), (RELATIVE, 0), (RELATIVE, 5),
                     (STOP, 0), (GOTO_TRACK, 0), (LAST_TRACK, 0)):
    damage(REST, 12345, 'Paused 4 0 0 | 1 2 0+12345')
    control(move, 'result 1', 'Paused 4 0 0 | 1 2 0', number)
for number in (0, 1, -1):
    damage(REST, 12345, 'Paused 4 0 0 | 1 2 0+12345')
    position(number, 'done', 'Paused 4 0 0 | 1 2 0')


# ---- In Seeking the playback speed plays no part (SCOPE 13.7)

# Seeking adds d times the seeking speed, held to 0 and D (SCOPE 13.7); the playback speed plays no part.
case('Seeking at every kind of speed')
stand(3, 0, 1000)
control(FORWARD, 'result 1', 'Seeking 3 0 4 | 1 0 1000')
for p in SPEEDS:
    speed(p, 'done', 'Seeking 3 %d 4 | 1 0 1000' % p)
    advance(10, 'done', 'Seeking 3 %d 4 | 1 0 1040' % p)
    position(1000, 'done', 'Seeking 3 %d 4 | 1 0 1000' % p)

for opcode, rung, steps in (
        # From 0, within the track and before D; and held to either end.
        (FORWARD, 4, ((0, 0, 0), (1000, 0, 1000), (5999, 0, 5999), (1000, 1, 1004), (5999, 1, 6000), (1000, LONGEST, 6000))),
        (REWIND, -4, ((0, 0, 0), (1000, 0, 1000), (5999, 0, 5999), (1000, 1, 996), (3, 1, 0), (0, 1, 0), (1000, LONGEST, 0), (0, LONGEST, 0)))):
    for place, d, to in steps:
        case('a Seeking step of %d from %d makes the rest 0' % (d, place))
        half_past(0, place)
        control(opcode, 'result 1', 'Seeking 3 -64 %d | 1 0 %d+32768' % (rung, place))
        advance(d, 'done', 'Seeking 3 -64 %d | 1 0 %d' % (rung, to))
        control(PLAY, 'result 1', 'Playing 3 -64 0 | 1 0 %d' % to)

case('a Seeking step at D makes the rest 0')
stand(3, 0, 6000)
control(FORWARD, 'result 1', 'Seeking 3 0 4 | 1 0 6000')
for d in (0, 1, LONGEST):
    damage(REST, 65535, 'Seeking 3 0 4 | 1 0 6000+65535')
    advance(d, 'done', 'Seeking 3 0 4 | 1 0 6000')
stand(3, 2, 0)
control(REWIND, 'result 1', 'Seeking 3 0 -4 | 1 2 0')
for d in (0, 1, LONGEST):
    damage(REST, 1, 'Seeking 3 0 -4 | 1 2 0+1')
    advance(d, 'done', 'Seeking 3 0 -4 | 1 2 0')

case('a Seeking step of a running recording makes the rest 0')
stand_in_running(3, 1, FURTHEST - 1)
at_speed(-64, 3, '1 1 8639999', RUNNING)
advance(1, 'done', 'Playing 3 -64 0 | 1 1 8639999+32768', catalogue=RUNNING)
control(FORWARD, 'result 1', 'Seeking 3 -64 4 | 1 1 8639999+32768', catalogue=RUNNING)
advance(1, 'done', 'Seeking 3 -64 4 | 1 1 8640000', catalogue=RUNNING)
for d in (0, 1, LONGEST):
    damage(REST, 65535, 'Seeking 3 -64 4 | 1 1 8640000+65535')
    advance(d, 'done', 'Seeking 3 -64 4 | 1 1 8640000', catalogue=RUNNING)
control(REWIND, 'result 1', 'Seeking 3 -64 -4 | 1 1 8640000', catalogue=RUNNING)
position(0, 'done', 'Seeking 3 -64 -4 | 1 1 0', RUNNING)
for d in (0, 1, LONGEST):
    damage(REST, 65535, 'Seeking 3 -64 -4 | 1 1 0+65535')
    advance(d, 'done', 'Seeking 3 -64 -4 | 1 1 0', catalogue=RUNNING)


# ---- What sets no position keeps the rest.

case('the rest is kept by writes of 8, 12 and 15 and by names')
half_past(0, 1000)
for p in (127, -128, 0, -64):
    speed(p, 'done', 'Playing 3 %d 0 | 1 0 1000+32768' % p)
for playing_order in (1, 2, 3, 4, 5, 6, 7, 8, 3):
    order(playing_order, 'done', 'Playing %d -64 0 | 1 0 1000+32768' % playing_order)
# 12 names a track of the current group that Next Track or the end of a track uses once (SCOPE 14.4, 14.5): the current one too, and the same again.
for track in (1, 0, 2, 2):
    name(track, 'done', 'Playing 3 -64 0 | 1 0 1000+32768 %d' % track)
set_name(b'Box', 'done', 'Playing 3 -64 0 | 1 0 1000+32768 2')
set_name(b'Box', 'done', 'Playing 3 -64 0 | 1 0 1000+32768 2')
advance(1, 'done', 'Playing 3 -64 0 | 1 0 1001 2')

# Goto Segment 0 moves nothing (SCOPE 10.7).
for opcode, pressed in PRESSED:
    case('the rest is kept by Goto Segment 0: %s' % pressed)
    stand(4, 0, 0)
    at_speed(-64, 4, '1 0 0')
    for place in (0, 1500, 5999):
        come_to(1, 0, place, opcode, pressed)
        control(GOTO_SEGMENT, 'result 1', '%s | 1 0 %d+32768' % (pressed, place), 0)
        control(PLAY, 'result 1', 'Playing 4 -64 0 | 1 0 %d+32768' % place)

# After results 2, 3 and 4 the player is as before (SCOPE 9.4).
case('the rest is kept by results 2 and 4')
half_past(0, 1000)
for opcode in UNKNOWN:
    control(opcode, 'result 2', 'Playing 3 -64 0 | 1 0 1000+32768')
for opcode, number in ((PREVIOUS_TRACK, 0), (GOTO_TRACK, 4), (GOTO_TRACK, -4), (GOTO_TRACK, MOST), (GOTO_TRACK, LEAST), (PREVIOUS_GROUP, 0),
                       (GOTO_GROUP, 3), (GOTO_GROUP, -3), (GOTO_GROUP, LEAST)):
    control(opcode, 'result 4', 'Playing 3 -64 0 | 1 0 1000+32768', number)
order(1, 'done', 'Playing 1 -64 0 | 1 0 1000+32768')
control(NEXT_TRACK, 'result 4', 'Playing 1 -64 0 | 1 0 1000+32768')
control(PAUSE, 'result 1', 'Paused 1 -64 0 | 1 0 1000+32768')
control(PREVIOUS_TRACK, 'result 4', 'Paused 1 -64 0 | 1 0 1000+32768')
control(FORWARD, 'result 1', 'Seeking 1 -64 4 | 1 0 1000+32768')
control(GOTO_TRACK, 'result 4', 'Seeking 1 -64 4 | 1 0 1000+32768', 2)
# Of a running recording Next Segment with no later start, and a Goto that needs it, have result 4 (SCOPE 10.4, 10.8).
stand_in_running(3, 2, 1000)
at_speed(-64, 3, '1 2 1000', RUNNING)
advance(1, 'done', 'Playing 3 -64 0 | 1 2 1000+32768', catalogue=RUNNING)
control(NEXT_SEGMENT, 'result 4', 'Playing 3 -64 0 | 1 2 1000+32768', catalogue=RUNNING)
control(GOTO_SEGMENT, 'result 4', 'Playing 3 -64 0 | 1 2 1000+32768', 2, RUNNING)
control(NEXT_TRACK, 'result 4', 'Playing 3 -64 0 | 1 2 1000+32768', catalogue=RUNNING)

case('the rest is kept by opcodes that are not offered')
start(b'Radio', 1 << MASK_BITS[PLAY], 7, 'done', 'Inactive 3 0 0 | 0 0 0')
attend()
activate(1, 'done', 'Paused 3 0 0 | 1 0 0')
at_speed(-64, 3, '1 0 0')
advance(1, 'done', 'Playing 3 -64 0 | 1 0 0+32768')
for opcode in MASK_BITS:
    control(opcode, 'result 1' if opcode == PLAY else 'result 2', 'Playing 3 -64 0 | 1 0 0+32768', 1)

# 201 asks no more of the rest than that it is at most 65,535, so there may be one while Inactive. While Inactive a position write is accepted and alters
# nothing (SCOPE 9.9).
case('a rest while Inactive')
start(b'Radio', ALL, 7, 'done', 'Inactive 3 0 0 | 0 0 0')
attend()
damage(REST, 65535, 'Inactive 3 0 0 | 0 0 0+65535')
check('nothing', 'Inactive 3 0 0 | 0 0 0+65535')
for opcode in MASK_BITS:
    control(opcode, 'result 3', 'Inactive 3 0 0 | 0 0 0+65535', 0)
control(0x06, 'result 2', 'Inactive 3 0 0 | 0 0 0+65535')
for number in (0, 1500, -1):
    position(number, 'done', 'Inactive 3 0 0 | 0 0 0+65535')
for d in (0, 1, LONGEST):
    advance(d, 'done', 'Inactive 3 0 0 | 0 0 0+65535')
speed(64, 'done', 'Inactive 3 64 0 | 0 0 0+65535')
order(4, 'done', 'Inactive 4 64 0 | 0 0 0+65535')
set_name(b'Box', 'done', 'Inactive 4 64 0 | 0 0 0+65535')
go_to_track(0, 'refused 0x13', 'Inactive 4 64 0 | 0 0 0+65535')
go_to_group(1, 'refused 0x13', 'Inactive 4 64 0 | 0 0 0+65535')
activate(2, 'refused 208', 'Inactive 4 64 0 | 0 0 0+65535')
value(7, 'read ff ff ff ff', 'Inactive 4 64 0 | 0 0 0+65535')
activate(1, 'done', 'Paused 4 64 0 | 1 0 0')
deactivate('done', 'Inactive 4 64 0 | 0 0 0')
# Deactivate leaves no rest, whatever there was.
damage(REST, 1, 'Inactive 4 64 0 | 0 0 0+1')
deactivate('done', 'Inactive 4 64 0 | 0 0 0')
damage(REST, 1, 'Inactive 4 64 0 | 0 0 0+1')
start(b'Radio', ALL, 7, 'done', 'Inactive 3 0 0 | 0 0 0')

case('the rest is kept by calls that are not to the player')
half_past(0, 1000)
connect(RIGHT, 23, ENCRYPTED, 'done')
subscribe(RIGHT, 7, 'done')
unsubscribe(RIGHT, 7, 'done')
disconnect(RIGHT, 'done')
# The position is read without the rest.
value(7, 'read e8 03 00 00', 'Playing 3 -64 0 | 1 0 1000+32768')
value(8, 'read c0', 'Playing 3 -64 0 | 1 0 1000+32768')
title('title card 0 10' + octets(UEBERFAHRT))
take('nothing')
advance(1, 'done', 'Playing 3 -64 0 | 1 0 1001')

# A refusal alters nothing (SCOPE 20.1). Nobody stands at the right pedal, the headset has eight results waiting, the screen is connected unencrypted.
several('the rest is kept by refusals')
office('1 17', headset='18')
connect(SCREEN, 517, OPEN, 'done')
calls.set_name(b'A', 'done', 'left 1')
write(LEFT, 8, [0xC0], 'done', 'Paused 3 -64 0 | 1 0 0')
calls.control(LEFT, PLAY, 'Playing 3 -64 0 | 1 0 0', 'left 17')
advance(1, 'done', 'Playing 3 -64 0 | 1 0 0+32768')
for _ in range(8):
    calls.control(HEADSET, PLAY, 'Playing 3 -64 0 | 1 0 0+32768', 'headset 18')
each_call('refused 200', CUT)
each_call('refused 200 1 5', BAD_TITLES)
titles([(0, 6)] * 3, FAEHRE)
each_call('refused 224')
titles()
damage(TURN, 4, 'Playing 3 -64 0 | 1 0 0+32768')
calls.set_name(b'B', 'refused 201')
the_others_refuse_the_state()
damage(TURN, 3, 'Playing 3 -64 0 | 1 0 0+32768')
each_call_to(2, 'refused 219')
take('refused 205', 127)
read(LEFT, 7, 0, 'refused 205', 127)
for who, answer in ((4, 'refused 202'), (RIGHT, 'refused 203'), (SCREEN, 'refused 0x0F')):
    write(who, 7, word(0), answer)
    write(who, 11, track_object(1), answer)
    write(who, 18, [STOP], answer)
connect(LEFT, 23, ENCRYPTED, 'refused 204')
connect(RIGHT, 22, ENCRYPTED, 'refused 206')
write(LEFT, 3, [0], 'refused 0x01')
subscribe(LEFT, 16, 'refused 209')
read(LEFT, 18, 0, 'refused 0x02')
write(LEFT, 17, [2], 'refused 0x03')
read(LEFT, 7, 1, 'refused 0x80')
read(LEFT, 7, 0, 'read 00 00 00 00')
read(LEFT, 7, 5, 'refused 0x07')
for characteristic, text in ((7, bytes(3)), (8, []), (11, bytes(5)), (12, bytes(7)), (14, []), (15, [3, 3]), (18, [STOP, 0]), (18, [RELATIVE])):
    write(LEFT, characteristic, text, 'refused 0x0D')
for characteristic, text in ((11, track_object(3)), (12, track_object(3)), (14, group_object(2)), (15, [0])):
    write(LEFT, characteristic, text, 'refused 0x13')
write(HEADSET, 18, [STOP], 'refused 0x11')
calls.set_name(b'\xFF', 'refused 207 0')
start(b'Desk', ALL, 7, 'refused 207 1', beside=(b'a\xFF', ALL, 9))
for group in (0, 2, 4):
    activate(group, 'refused 208')
advance(1, 'done', 'Playing 3 -64 0 | 1 0 1')


# ---- The end of a track is no step within a track, so the rest becomes 0 (SCOPE 13.9)

case('the end of a track, and the next one')
stand(4, 1, 298)
at_speed(-64, 4, '1 1 298')
advance(3, 'done', 'Playing 4 -64 0 | 1 1 299+32768')
advance(1, 'done', 'Playing 4 -64 0 | 1 2 0')
# Track 2 has duration 0: a step of half a hundredth is at D or beyond.
advance(1, 'done', 'Playing 4 -64 0 | 1 0 0')
advance(1, 'done', 'Playing 4 -64 0 | 1 0 0+32768')
# What is beyond D is lost: 5 are two and a half, which lead from 299 to half past 301.
go_to_track(1, 'done', 'Playing 4 -64 0 | 1 1 0')
position(299, 'done', 'Playing 4 -64 0 | 1 1 299')
advance(5, 'done', 'Playing 4 -64 0 | 1 2 0')
go_to_track(1, 'done', 'Playing 4 -64 0 | 1 1 0')
position(299, 'done', 'Playing 4 -64 0 | 1 1 299')
advance(1, 'done', 'Playing 4 -64 0 | 1 1 299+32768')
speed(64, 'done', 'Playing 4 64 0 | 1 1 299+32768')
advance(1, 'done', 'Playing 4 64 0 | 1 2 0')

# Where there is no next track, Paused at D (SCOPE 13.5).
case('the end of the last track: Paused at D')
stand_in_3(3, 899)
at_speed(-64, 3, '3 3 899')
advance(1, 'done', 'Playing 3 -64 0 | 3 3 899+32768')
advance(2, 'done', 'Paused 3 -64 0 | 3 3 900')
for d in (0, 1, LONGEST):
    control(PLAY, 'result 1', 'Playing 3 -64 0 | 3 3 900')
    advance(d, 'done', 'Paused 3 -64 0 | 3 3 900')
position(0, 'done', 'Paused 3 -64 0 | 3 3 0')
control(PLAY, 'result 1', 'Playing 3 -64 0 | 3 3 0')
advance(1799, 'done', 'Playing 3 -64 0 | 3 3 899+32768')
advance(1, 'done', 'Paused 3 -64 0 | 3 3 900')

case('the end of a track that repeats itself')
stand(2, 1, 299)
at_speed(-64, 2, '1 1 299')
advance(1, 'done', 'Playing 2 -64 0 | 1 1 299+32768')
advance(2, 'done', 'Playing 2 -64 0 | 1 1 0')
advance(1, 'done', 'Playing 2 -64 0 | 1 1 0+32768')
advance(LONGEST, 'done', 'Playing 2 -64 0 | 1 1 0')
# Alone in a repeat order.
stand_in_3(4, 899)
at_speed(-64, 4, '3 3 899')
advance(1, 'done', 'Playing 4 -64 0 | 3 3 899+32768')
advance(1, 'done', 'Playing 4 -64 0 | 3 3 0')
# Of duration 0.
stand(2, 2, 0)
at_speed(-64, 2, '1 2 0')
for d in (0, 1, 3):
    damage(REST, 32768, 'Playing 2 -64 0 | 1 2 0+32768')
    advance(d, 'done', 'Playing 2 -64 0 | 1 2 0')

# The end of a track uses the named one, also where that is the current track, and also at the end of a once order.
case('the end of a track, and a named one')
for track in (0, 1, 2):
    stand(3, 1, 299)
    at_speed(-64, 3, '1 1 299')
    name(track, 'done', 'Playing 3 -64 0 | 1 1 299 %d' % track)
    advance(1, 'done', 'Playing 3 -64 0 | 1 1 299+32768 %d' % track)
    advance(2, 'done', 'Playing 3 -64 0 | 1 %d 0' % track)
stand_in_3(3, 899)
at_speed(-64, 3, '3 3 899')
name(3, 'done', 'Playing 3 -64 0 | 3 3 899 3')
advance(1, 'done', 'Playing 3 -64 0 | 3 3 899+32768 3')
advance(2, 'done', 'Playing 3 -64 0 | 3 3 0')

case('a step of 0 at D ends the track')
stand(3, 0, 6000)
at_speed(-64, 3, '1 0 6000')
advance(0, 'done', 'Playing 3 -64 0 | 1 1 0')
stand(3, 0, 6000)
at_speed(127, 3, '1 0 6000')
damage(REST, 1, 'Playing 3 127 0 | 1 0 6000+1')
advance(0, 'done', 'Playing 3 127 0 | 1 1 0')
# Below D it does not, whatever the rest is.
stand(3, 0, 5999)
at_speed(127, 3, '1 0 5999')
damage(REST, 65535, 'Playing 3 127 0 | 1 0 5999+65535')
advance(0, 'done', 'Playing 3 127 0 | 1 0 5999+65535')
# The recording was running beyond 300, and is finished now with a duration of 300.
stand_in_running(3, 1, 299)
at_speed(-64, 3, '1 1 299', RUNNING)
advance(3, 'done', 'Playing 3 -64 0 | 1 1 300+32768', catalogue=RUNNING)
advance(0, 'done', 'Playing 3 -64 0 | 1 2 0')

case('d would end the track, and the step does not')
stand(3, 0, 5900)
at_speed(-64, 3, '1 0 5900')
advance(100, 'done', 'Playing 3 -64 0 | 1 0 5950')
advance(50, 'done', 'Playing 3 -64 0 | 1 0 5975')
advance(49, 'done', 'Playing 3 -64 0 | 1 0 5999+32768')
advance(1, 'done', 'Playing 3 -64 0 | 1 1 0')

case('d would not end the track, and the step does')
stand(3, 0, 5900)
at_speed(64, 3, '1 0 5900')
advance(49, 'done', 'Playing 3 64 0 | 1 0 5998')
position(5900, 'done', 'Playing 3 64 0 | 1 0 5900')
advance(50, 'done', 'Playing 3 64 0 | 1 1 0')
go_to_track(0, 'done', 'Playing 3 64 0 | 1 0 0')
position(5999, 'done', 'Playing 3 64 0 | 1 0 5999')
advance(1, 'done', 'Playing 3 64 0 | 1 1 0')

# 3 are one and a half: from 5998 they stay below D, from half past 5998 they do not.
case('the rest decides whether the track ends')
stand(3, 0, 5998)
at_speed(-64, 3, '1 0 5998')
advance(3, 'done', 'Playing 3 -64 0 | 1 0 5999+32768')
position(5998, 'done', 'Playing 3 -64 0 | 1 0 5998')
advance(1, 'done', 'Playing 3 -64 0 | 1 0 5998+32768')
advance(3, 'done', 'Playing 3 -64 0 | 1 1 0')

case('the longest step below D, and one more, at many speeds')
stand(3, 0, 0)
control(PLAY, 'result 1', 'Playing 3 0 0 | 1 0 0')
for p in SPEEDS:
    speed(p, 'done', 'Playing 3 %d 0 | 1 0 0' % p)
    d = longest_below(p, 6000)
    at = stepped(p, d, 0)
    advance(d, 'done', 'Playing 3 %d 0 | 1 0 %s' % (p, shown(*at)))
    assert at[0] < 6000 <= stepped(p, 1, *at)[0]
    advance(1, 'done', 'Playing 3 %d 0 | 1 1 0' % p)
    go_to_track(0, 'done', 'Playing 3 %d 0 | 1 0 0' % p)
    advance(d + 1, 'done', 'Playing 3 %d 0 | 1 1 0' % p)
    go_to_track(0, 'done', 'Playing 3 %d 0 | 1 0 0' % p)


# ---- Running recordings. An advance never ends a running recording: at 8,640,000 the player stays there in its state (SCOPE 13.6). A step that is held there
# ---- keeps the rest that there was before it.

case('a running recording comes to 8640000')
stand_in_running(3, 1, FURTHEST - 2)
at_speed(-64, 3, '1 1 8639998', RUNNING)
for d, where in ((1, '8639998+32768'), (2, '8639999+32768'), (0, '8639999+32768')):
    advance(d, 'done', 'Playing 3 -64 0 | 1 1 ' + where, catalogue=RUNNING)
# Half past 8639999 and a half are 8640000.
advance(1, 'done', 'Playing 3 -64 0 | 1 1 8640000+32768', catalogue=RUNNING)
for d in (0, 1, 2, 3, LONGEST):
    advance(d, 'done', 'Playing 3 -64 0 | 1 1 8640000+32768', catalogue=RUNNING)
# Beyond it, by a half and by more: from no rest, and from a quarter.
for d in (3, 5, 17280001, LONGEST):
    position(8639999, 'done', 'Playing 3 -64 0 | 1 1 8639999', RUNNING)
    advance(d, 'done', 'Playing 3 -64 0 | 1 1 8640000', catalogue=RUNNING)
    for step in (0, 1, 3):
        advance(step, 'done', 'Playing 3 -64 0 | 1 1 8640000', catalogue=RUNNING)
speed(-128, 'done', 'Playing 3 -128 0 | 1 1 8640000', RUNNING)
for d in (3, 4, 6, 34560001, LONGEST):
    position(8639999, 'done', 'Playing 3 -128 0 | 1 1 8639999', RUNNING)
    advance(1, 'done', 'Playing 3 -128 0 | 1 1 8639999+16384', catalogue=RUNNING)
    advance(d, 'done', 'Playing 3 -128 0 | 1 1 8640000+16384', catalogue=RUNNING)
    for step in (0, 1, 2, 3):
        advance(step, 'done', 'Playing 3 -128 0 | 1 1 8640000+16384', catalogue=RUNNING)


def at_the_furthest():
    """The recording, which plays at half speed, comes to 8640000 and is held there with a rest of a half."""
    position(8639999, 'done', 'Playing 3 -64 0 | 1 1 8639999', RUNNING)
    advance(1, 'done', 'Playing 3 -64 0 | 1 1 8639999+32768', catalogue=RUNNING)
    advance(1, 'done', 'Playing 3 -64 0 | 1 1 8640000+32768', catalogue=RUNNING)


# What the calls do with a rest at 8,640,000 is what they do with one elsewhere.
case('the rest of a running recording at 8640000')
stand_in_running(3, 1, FURTHEST)
at_speed(-64, 3, '1 1 8640000', RUNNING)
at_the_furthest()
control(PAUSE, 'result 1', 'Paused 3 -64 0 | 1 1 8640000+32768', catalogue=RUNNING)
advance(1, 'done', 'Paused 3 -64 0 | 1 1 8640000+32768', catalogue=RUNNING)
control(PLAY, 'result 1', 'Playing 3 -64 0 | 1 1 8640000+32768', catalogue=RUNNING)
speed(64, 'done', 'Playing 3 64 0 | 1 1 8640000+32768', RUNNING)
advance(1, 'done', 'Playing 3 64 0 | 1 1 8640000+32768', catalogue=RUNNING)
speed(-64, 'done', 'Playing 3 -64 0 | 1 1 8640000+32768', RUNNING)
# Its segments begin at 0, 1500 and 8639999.
control(NEXT_SEGMENT, 'result 4', 'Playing 3 -64 0 | 1 1 8640000+32768', catalogue=RUNNING)
control(GOTO_SEGMENT, 'result 4', 'Playing 3 -64 0 | 1 1 8640000+32768', 4, RUNNING)
control(GOTO_SEGMENT, 'result 1', 'Playing 3 -64 0 | 1 1 8640000+32768', 0, RUNNING)
control(GOTO_SEGMENT, 'result 1', 'Playing 3 -64 0 | 1 1 8639999', 3, RUNNING)
for number in (0, 1, MOST):
    at_the_furthest()
    control(RELATIVE, 'result 1', 'Playing 3 -64 0 | 1 1 8640000', number, RUNNING)
for number in (FURTHEST, FURTHEST + 1, MOST):
    at_the_furthest()
    position(number, 'done', 'Playing 3 -64 0 | 1 1 8640000', RUNNING)
at_the_furthest()
control(REWIND, 'result 1', 'Seeking 3 -64 -4 | 1 1 8640000+32768', catalogue=RUNNING)
advance(1, 'done', 'Seeking 3 -64 -4 | 1 1 8639996', catalogue=RUNNING)
control(PLAY, 'result 1', 'Playing 3 -64 0 | 1 1 8639996', catalogue=RUNNING)
at_the_furthest()
control(NEXT_TRACK, 'result 1', 'Playing 3 -64 0 | 1 2 0', catalogue=RUNNING)

# Of a running recording a negative position write is accepted and moves nothing (SCOPE 9.9). It sets no position, so the rest stays; another one sets one.
for opcode, pressed in ((PLAY, 'Playing 3 -64 0'), (PAUSE, 'Paused 3 -64 0'), (FORWARD, 'Seeking 3 -64 4')):
    case('position writes on a running recording: %s' % pressed)
    stand_in_running(3, 2, 1000)
    at_speed(-64, 3, '1 2 1000', RUNNING)
    advance(1, 'done', 'Playing 3 -64 0 | 1 2 1000+32768', catalogue=RUNNING)
    control(opcode, 'result 1', '%s | 1 2 1000+32768' % pressed, catalogue=RUNNING)
    for number in (-1, -1000, -FURTHEST, LEAST):
        position(number, 'done', '%s | 1 2 1000+32768' % pressed, RUNNING)
    position(1000, 'done', '%s | 1 2 1000' % pressed, RUNNING)
    position(-1, 'done', '%s | 1 2 1000' % pressed, RUNNING)

# Products of d and e above 32 bits: 65536 times 65536 and more.
case('long steps of a running recording')
stand_in_running(3, 1, 0)
control(PLAY, 'result 1', 'Playing 3 0 0 | 1 1 0', catalogue=RUNNING)
for p, d, where in (
        (0, 65535, '65535'), (0, 65536, '65536'), (0, 65537, '65537'), (0, 8639999, '8639999'),
        (-64, 131072, '65536'), (-64, 131073, '65536+32768'), (-64, 17279998, '8639999'), (-64, 17279999, '8639999+32768'),
        (-128, 262144, '65536'), (-128, 262147, '65536+49152'), (-128, 34559999, '8639999+49152'),
        (64, 32768, '65536'), (64, 4319999, '8639998'),
        # At 8,640,000 the rest is the one before the step, which is 0.
        (0, 8640000, '8640000'), (-64, 17280000, '8640000'), (-64, 17280001, '8640000'), (-128, 34560000, '8640000'), (-128, 34560003, '8640000'),
        (64, 4320000, '8640000')):
    speed(p, 'done', 'Playing 3 %d 0 | 1 1 0' % p, RUNNING)
    advance(d, 'done', 'Playing 3 %d 0 | 1 1 %s' % (p, where), catalogue=RUNNING)
    position(0, 'done', 'Playing 3 %d 0 | 1 1 0' % p, RUNNING)

case('the longest step below 8640000, and one more, at many speeds')
stand_in_running(3, 1, 0)
control(PLAY, 'result 1', 'Playing 3 0 0 | 1 1 0', catalogue=RUNNING)
for p in SPEEDS:
    speed(p, 'done', 'Playing 3 %d 0 | 1 1 0' % p, RUNNING)
    d = longest_below(p, FURTHEST)
    place, rest = stepped(p, d, 0)
    assert place < FURTHEST <= stepped(p, 1, place, rest)[0]
    advance(d, 'done', 'Playing 3 %d 0 | 1 1 %s' % (p, shown(place, rest)), catalogue=RUNNING)
    # The rest before the step that is held.
    advance(1, 'done', 'Playing 3 %d 0 | 1 1 %s' % (p, shown(FURTHEST, rest)), catalogue=RUNNING)
    advance(1, 'done', 'Playing 3 %d 0 | 1 1 %s' % (p, shown(FURTHEST, rest)), catalogue=RUNNING)
    position(0, 'done', 'Playing 3 %d 0 | 1 1 0' % p, RUNNING)
    advance(d + 1, 'done', 'Playing 3 %d 0 | 1 1 8640000' % p, catalogue=RUNNING)
    position(0, 'done', 'Playing 3 %d 0 | 1 1 0' % p, RUNNING)


# ---- More than 8,640,000 whole hundredths count as 8,640,000 (SCOPE 13.3)

# Steps whose whole part is beyond 32 bits: the least d that reaches once, twice and three times 2 to the power 32, of which the lowest 32 bits are few.
BEYOND = [(p, -(-(times << 48) // E[p])) for p, times in ((1, 1), (32, 1), (63, 1), (64, 1), (65, 1), (96, 2), (126, 3), (127, 1), (127, 2), (127, 3))]
for p, d in BEYOND:
    assert d <= LONGEST and stepped(p, d, 0)[0] >= 1 << 32 and stepped(p, d, 0)[0] % (1 << 32) < 4

case('steps of 4294967295 of a running recording')
stand_in_running(3, 1, 0)
control(PLAY, 'result 1', 'Playing 3 0 0 | 1 1 0', catalogue=RUNNING)
for p, d in [(p, LONGEST) for p in SPEEDS] + BEYOND:
    speed(p, 'done', 'Playing 3 %d 0 | 1 1 0' % p, RUNNING)
    advance(d, 'done', 'Playing 3 %d 0 | 1 1 8640000' % p, catalogue=RUNNING)
    damage(REST, 65535, 'Playing 3 %d 0 | 1 1 8640000+65535' % p)
    advance(d, 'done', 'Playing 3 %d 0 | 1 1 8640000+65535' % p, catalogue=RUNNING)
    position(8639999, 'done', 'Playing 3 %d 0 | 1 1 8639999' % p, RUNNING)
    damage(REST, 65535, 'Playing 3 %d 0 | 1 1 8639999+65535' % p)
    advance(d, 'done', 'Playing 3 %d 0 | 1 1 8640000+65535' % p, catalogue=RUNNING)
    position(0, 'done', 'Playing 3 %d 0 | 1 1 0' % p, RUNNING)

case('steps of 4294967295 of a track')
stand(4, 0, 0)
control(PLAY, 'result 1', 'Playing 4 0 0 | 1 0 0')
for p, d in [(p, LONGEST) for p in SPEEDS] + BEYOND:
    speed(p, 'done', 'Playing 4 %d 0 | 1 0 0' % p)
    advance(d, 'done', 'Playing 4 %d 0 | 1 1 0' % p)
    damage(REST, 65535, 'Playing 4 %d 0 | 1 1 0+65535' % p)
    advance(d, 'done', 'Playing 4 %d 0 | 1 2 0' % p)
    advance(d, 'done', 'Playing 4 %d 0 | 1 0 0' % p)


# ---- What is owed: 7 is not owed when an advance in Playing stays below D (SCOPE 18.3).

several('7 is owed by the position and the whole part')
office('7', screen='4 7 17')
write(LEFT, 8, [0xC0], 'done', 'Paused 3 -64 0 | 1 0 0')
write(LEFT, 7, word(5900), 'done', 'Paused 3 -64 0 | 1 0 5900', 'left 7; screen 7')
calls.control(LEFT, PLAY, 'Playing 3 -64 0 | 1 0 5900', 'screen 17')
take('left 7 0c 17 00 00')
take('screen 7 0c 17 00 00')
take('screen 17 01')
# d alone would lead to D.
advance(100, 'done', 'Playing 3 -64 0 | 1 0 5950')
take('nothing')
advance(99, 'done', 'Playing 3 -64 0 | 1 0 5999+32768')
take('nothing')
seen('23: 7;; 0', '-', '-', '517: 4 7 17;; 0')
advance(1, 'done', 'Playing 3 -64 0 | 1 1 0', 'left 7; screen 4 7')
take('left 7 00 00 00 00')
take('screen 4')
take('screen 7 00 00 00 00')
take('nothing')
# d alone would not lead to D, which is 300.
write(LEFT, 8, [0x40], 'done', 'Playing 3 64 0 | 1 1 0')
advance(149, 'done', 'Playing 3 64 0 | 1 1 298')
take('nothing')
advance(1, 'done', 'Playing 3 64 0 | 1 2 0', 'left 7; screen 4 7')
take('left 7 00 00 00 00')
take('screen 4')
take('screen 7 00 00 00 00')
# At D already, which is 0, and in the last track.
advance(1, 'done', 'Paused 3 64 0 | 1 2 0', 'screen 17')
take('screen 17 02')
take('nothing')

several('7 is owed at the end of the last track')
office('7', screen='17')
write(LEFT, 8, [0xC0], 'done', 'Paused 3 -64 0 | 1 0 0')
write(LEFT, 15, [1], 'done', 'Paused 1 -64 0 | 1 0 0')
calls.control(LEFT, PLAY, 'Playing 1 -64 0 | 1 0 0', 'screen 17')
take('screen 17 01')
advance(11999, 'done', 'Playing 1 -64 0 | 1 0 5999+32768')
take('nothing')
advance(1, 'done', 'Paused 1 -64 0 | 1 0 6000', 'left 7; screen 17')
take('left 7 70 17 00 00')
take('screen 17 02')
# At D already: Paused where it is, and nothing of 7.
calls.control(LEFT, PLAY, 'Playing 1 -64 0 | 1 0 6000', 'screen 17')
take('screen 17 01')
advance(1, 'done', 'Paused 1 -64 0 | 1 0 6000', 'screen 17')
take('screen 17 02')
take('nothing')

# What is owed goes by the same D (SCOPE 4.9).
several('7 of a running recording is owed by the position and the whole part')
office('7', screen='7 17', catalogue=RUNNING)
calls.control(LEFT, NEXT_TRACK, 'Paused 3 0 0 | 1 1 0', 'left 7; screen 7', catalogue=RUNNING)
write(LEFT, 8, [0xC0], 'done', 'Paused 3 -64 0 | 1 1 0', catalogue=RUNNING)
write(LEFT, 7, word(8639990), 'done', 'Paused 3 -64 0 | 1 1 8639990', 'left 7; screen 7', RUNNING)
calls.control(LEFT, PLAY, 'Playing 3 -64 0 | 1 1 8639990', 'screen 17', catalogue=RUNNING)
take('left 7 f6 d5 83 00', catalogue=RUNNING)
take('screen 7 f6 d5 83 00', catalogue=RUNNING)
take('screen 17 01', catalogue=RUNNING)
advance(10, 'done', 'Playing 3 -64 0 | 1 1 8639995', catalogue=RUNNING)
advance(9, 'done', 'Playing 3 -64 0 | 1 1 8639999+32768', catalogue=RUNNING)
take('nothing', catalogue=RUNNING)
read(LEFT, 7, 0, 'read ff d5 83 00', catalogue=RUNNING)
advance(1, 'done', 'Playing 3 -64 0 | 1 1 8640000+32768', 'left 7; screen 7', RUNNING)
take('left 7 00 d6 83 00', catalogue=RUNNING)
take('screen 7 00 d6 83 00', catalogue=RUNNING)
read(LEFT, 7, 1, 'refused 0x80', catalogue=RUNNING)
read(LEFT, 7, 0, 'read 00 d6 83 00', catalogue=RUNNING)
# Held there nothing changes; neither by writes that set it where it is, or nothing.
for d in (0, 1, 3, LONGEST):
    advance(d, 'done', 'Playing 3 -64 0 | 1 1 8640000+32768', catalogue=RUNNING)
write(LEFT, 7, word(-1), 'done', 'Playing 3 -64 0 | 1 1 8640000+32768', catalogue=RUNNING)
write(LEFT, 7, word(FURTHEST), 'done', 'Playing 3 -64 0 | 1 1 8640000', catalogue=RUNNING)
advance(1, 'done', 'Playing 3 -64 0 | 1 1 8640000', catalogue=RUNNING)
read(LEFT, 7, 1, 'read d6 83 00', catalogue=RUNNING)
take('nothing', catalogue=RUNNING)
# Beyond 8,640,000 by d alone, and not.
write(LEFT, 7, word(0), 'done', 'Playing 3 -64 0 | 1 1 0', 'left 7; screen 7', RUNNING)
take('left 7 00 00 00 00', catalogue=RUNNING)
take('screen 7 00 00 00 00', catalogue=RUNNING)
advance(17279999, 'done', 'Playing 3 -64 0 | 1 1 8639999+32768', catalogue=RUNNING)
take('nothing', catalogue=RUNNING)

# Every value that may be read, of the office of the case below, in which the generic service plays at half speed.
VALUES = (
    (1, b'Desk'), (5, UEBERFAHRT), (6, word(6000)), (7, word(0)), (8, [0xC0]), (9, [0]), (10, segments_object(0)), (11, track_object(0)),
    (12, track_object(1)), (13, group_object(0)), (14, group_object(1)), (15, [3]), (16, [0xFF, 0x00]), (17, [1]), (19, word(ALL)), (22, [7]),
)


def nothing_changed():
    """Nothing is owed to the screen, which subscribed to every slot, and of the values that the left pedal read at 0 none was changed since: each may
    be read at its end."""
    take('nothing')
    for characteristic, text in VALUES:
        read(LEFT, characteristic, len(text), 'read')


# Nothing that a client reads shows the rest, so a rest alone changes no value: it makes nothing owed, and marks nothing as changed.
several('the rest is no value')
office('', screen=EVERY)
write(LEFT, 8, [0xC0], 'done', 'Paused 3 -64 0 | 1 0 0', 'screen 8')
calls.control(LEFT, PLAY, 'Playing 3 -64 0 | 1 0 0', 'screen 17')
take('screen 8 c0')
take('screen 17 01')
for characteristic, text in VALUES:
    read(LEFT, characteristic, 0, 'read' + octets(text))
nothing_changed()
advance(1, 'done', 'Playing 3 -64 0 | 1 0 0+32768')
nothing_changed()
read(LEFT, 7, 0, 'read 00 00 00 00')
# Nor does it change one when it becomes 0 alone.
for opcode, number in ((PREVIOUS_SEGMENT, None), (FIRST_SEGMENT, None), (GOTO_SEGMENT, 1), (GOTO_SEGMENT, -3), (RELATIVE, 0), (RELATIVE, -1),
                       (FIRST_TRACK, None), (GOTO_TRACK, 0), (GOTO_TRACK, 1), (FIRST_GROUP, None), (GOTO_GROUP, 0), (GOTO_GROUP, -2)):
    calls.control(LEFT, opcode, 'Playing 3 -64 0 | 1 0 0', '', number)
    nothing_changed()
    advance(1, 'done', 'Playing 3 -64 0 | 1 0 0+32768')
for characteristic, text in ((7, word(0)), (7, word(-6000)), (11, track_object(0)), (14, group_object(1))):
    write(LEFT, characteristic, text, 'done', 'Playing 3 -64 0 | 1 0 0')
    nothing_changed()
    advance(1, 'done', 'Playing 3 -64 0 | 1 0 0+32768')
# A whole hundredth is a change of 7, though not owed.
advance(1, 'done', 'Playing 3 -64 0 | 1 0 1')
take('nothing')
read(LEFT, 7, 4, 'refused 0x80')
read(LEFT, 7, 0, 'read 01 00 00 00')

several('the rest becomes 0 alone by Stop, Activate and a Seeking step')
office('', screen='4 7 11 12 14')
write(LEFT, 8, [0xC0], 'done', 'Paused 3 -64 0 | 1 0 0')
calls.control(LEFT, PLAY, 'Playing 3 -64 0 | 1 0 0', '')
advance(1, 'done', 'Playing 3 -64 0 | 1 0 0+32768')
calls.control(LEFT, PAUSE, 'Paused 3 -64 0 | 1 0 0+32768', '')
calls.control(LEFT, STOP, 'Paused 3 -64 0 | 1 0 0', '')
take('nothing')
calls.control(LEFT, PLAY, 'Playing 3 -64 0 | 1 0 0', '')
advance(1, 'done', 'Playing 3 -64 0 | 1 0 0+32768')
activate(1, 'done', 'Paused 3 -64 0 | 1 0 0')
take('nothing')
calls.control(LEFT, PLAY, 'Playing 3 -64 0 | 1 0 0', '')
advance(1, 'done', 'Playing 3 -64 0 | 1 0 0+32768')
calls.control(LEFT, FORWARD, 'Seeking 3 -64 4 | 1 0 0+32768', '')
advance(0, 'done', 'Seeking 3 -64 4 | 1 0 0')
take('nothing')
advance(1, 'done', 'Seeking 3 -64 4 | 1 0 4', 'screen 7')
take('screen 7 04 00 00 00')
take('nothing')

# 4 and 7 are owed whenever the track number changes (SCOPE 18.2); it does not.
several('the end of a track that repeats itself from a rest')
office('', screen='4 7')
write(LEFT, 15, [2], 'done', 'Paused 2 0 0 | 1 0 0')
write(LEFT, 8, [0xC0], 'done', 'Paused 2 -64 0 | 1 0 0')
calls.control(LEFT, PLAY, 'Playing 2 -64 0 | 1 0 0', '')
read(LEFT, 7, 0, 'read 00 00 00 00')
advance(1, 'done', 'Playing 2 -64 0 | 1 0 0+32768')
advance(12000, 'done', 'Playing 2 -64 0 | 1 0 0')
take('nothing')
read(LEFT, 7, 4, 'read')
advance(3, 'done', 'Playing 2 -64 0 | 1 0 1+32768')
advance(11997, 'done', 'Playing 2 -64 0 | 1 0 0', 'screen 7')
take('screen 7 00 00 00 00')
take('nothing')


# ---- 201 refuses a rest over 65,535 (SCOPE 20.5)

case('a wrong rest in each media state')
stand(3, 0, 1000)
for opcode, pressed in ((PAUSE, 'Paused 3 0 0'), (PLAY, 'Playing 3 0 0'), (FORWARD, 'Seeking 3 0 4')):
    control(opcode, 'result 1', '%s | 1 0 1000' % pressed)
    for rest in (65536, 65537, 131071, 131072, 0x00FFFFFF, 0x01000000, 0x7FFFFFFF, 0x80000000, 0xFFFF0000, LONGEST):
        damage(REST, rest, '%s | 1 0 1000+%d' % (pressed, rest))
        check('refused 201', '%s | 1 0 1000+%d' % (pressed, rest))
    for rest in (1, 255, 256, 32768, 65280, 65535):
        damage(REST, rest, '%s | 1 0 1000+%d' % (pressed, rest))
        check('nothing', '%s | 1 0 1000+%d' % (pressed, rest))
    damage(REST, 0, '%s | 1 0 1000' % pressed)
    check('nothing', '%s | 1 0 1000' % pressed)
# At D, in a track of duration 0, and in a running recording.
stand(3, 0, 6000)
for rest, answer in ((65535, 'nothing'), (65536, 'refused 201')):
    damage(REST, rest, 'Paused 3 0 0 | 1 0 6000+%d' % rest)
    check(answer, 'Paused 3 0 0 | 1 0 6000+%d' % rest)
stand(3, 2, 0)
for rest, answer in ((65535, 'nothing'), (65536, 'refused 201')):
    damage(REST, rest, 'Paused 3 0 0 | 1 2 0+%d' % rest)
    check(answer, 'Paused 3 0 0 | 1 2 0+%d' % rest)
stand_in_running(3, 1, FURTHEST)
for rest, answer in ((65535, 'nothing'), (65536, 'refused 201'), (LONGEST, 'refused 201')):
    damage(REST, rest, 'Paused 3 0 0 | 1 1 8640000+%d' % rest)
    check(answer, 'Paused 3 0 0 | 1 1 8640000+%d' % rest, RUNNING)

case('a wrong rest while Inactive')
start(b'Radio', ALL, 7, 'done', 'Inactive 3 0 0 | 0 0 0')
attend()
for rest in (65536, 131071, 0x80000000, LONGEST):
    damage(REST, rest, 'Inactive 3 0 0 | 0 0 0+%d' % rest)
    check('refused 201', 'Inactive 3 0 0 | 0 0 0+%d' % rest)
    activate(1, 'refused 201', 'Inactive 3 0 0 | 0 0 0+%d' % rest)
    deactivate('refused 201', 'Inactive 3 0 0 | 0 0 0+%d' % rest)
for rest in (65535, 32768, 1):
    damage(REST, rest, 'Inactive 3 0 0 | 0 0 0+%d' % rest)
    check('nothing', 'Inactive 3 0 0 | 0 0 0+%d' % rest)
damage(REST, LONGEST, 'Inactive 3 0 0 | 0 0 0+4294967295')
# Start takes no state.
start(b'Radio', ALL, 7, 'done', 'Inactive 3 0 0 | 0 0 0')
check('nothing', 'Inactive 3 0 0 | 0 0 0')

several('every call refuses a wrong rest')
office('1 17 18')
calls.set_name(b'A', 'done', 'left 1')
for rest in (65536, LONGEST):
    damage(REST, rest, 'Paused 3 0 0 | 1 0 0+%d' % rest)
    calls.set_name(b'B', 'refused 201')
    the_others_refuse_the_state()
    title('refused 201')
    each_call_to(2, 'refused 201')
    # 200, 224 and 205 before 201, and 201 before what follows it.
    each_call('refused 200', CUT)
    titles([(0, 6)] * 3, FAEHRE)
    each_call('refused 224')
    titles()
    take('refused 205', 127)
    read(LEFT, 7, 0, 'refused 205', 127)
    calls.set_name(b'\xFF', 'refused 201')
    write(4, 7, word(0), 'refused 201')
    write(LEFT, 15, [9], 'refused 201')
    write(LEFT, 18, [], 'refused 201')
damage(REST, 65535, 'Paused 3 0 0 | 1 0 0+65535')
take('left 1 41')
take('nothing')

several('a wrong rest in one service')
desks('1 17 18 / 1 17 18')
for service in SERVICES:
    for rest in (65536, LONGEST):
        calls.damage(REST, rest, state='Paused 3 0 0 | 1 0 0+%d' % rest, service=service)
        take('refused 201')
        connect(RIGHT, 23, ENCRYPTED, 'refused 201')
        for each in SERVICES:
            advance(1, 'refused 201', service=each)
            title('refused 201', service=each)
    each_call_to(NAMED if service == GENERIC else GENERIC, 'refused 201')
    calls.damage(REST, 65535, state='Paused 3 0 0 | 1 0 0+65535', service=service)
    take('nothing')
# Both have the greatest rest, and then one of them is Inactive with it.
for service in SERVICES:
    calls.control(LEFT, PLAY, 'Playing 3 0 0 | 1 0 0+65535', 'left 17 18', service=service)
    advance(1, 'done', 'Playing 3 0 0 | 1 0 1+65535', service=service)
deactivate('done', 'Inactive 3 0 0 | 0 0 0', 'left 17', service=NAMED)
calls.damage(REST, 65535, state='Inactive 3 0 0 | 0 0 0+65535', service=NAMED)
advance(1, 'done', 'Playing 3 0 0 | 1 0 2+65535', service=GENERIC)
calls.damage(REST, 65536, state='Inactive 3 0 0 | 0 0 0+65536', service=NAMED)
advance(1, 'refused 201', service=GENERIC)
advance(1, 'refused 201', service=NAMED)
calls.damage(REST, 0, state='Inactive 3 0 0 | 0 0 0', service=NAMED)
seen_in_both(('23: 1 17 18; 17 18; 1', '-', '-', '-'), ('23: 1 17 18; 17 18; 1', '-', '-', '-'))
take_generic('left 17 01')
take_generic('left 18 01 01')
take_named('left 17 00')
take_named('left 18 01 01')
take('nothing')


# ---- Both services. A call to one service never alters replies, state or owed values of the other (SCOPE 17.4).

several('each service has its own speed and rest')
desks('7 / 7')
write(LEFT, 8, [0xC0], 'done', 'Paused 3 -64 0 | 1 0 0', service=GENERIC)
write(LEFT, 8, [0x80], 'done', 'Paused 3 -128 0 | 1 0 0', service=NAMED)
calls.control(LEFT, PLAY, 'Playing 3 -64 0 | 1 0 0', '', service=GENERIC)
calls.control(LEFT, PLAY, 'Playing 3 -128 0 | 1 0 0', '', service=NAMED)
for generic, named in (('0+32768', '0+16384'), ('1', '0+32768'), ('1+32768', '0+49152'), ('2', '1'), ('2+32768', '1+16384')):
    advance(1, 'done', 'Playing 3 -64 0 | 1 0 ' + generic, service=GENERIC)
    advance(1, 'done', 'Playing 3 -128 0 | 1 0 ' + named, service=NAMED)
# What makes the rest of the one 0 leaves that of the other.
calls.control(LEFT, RELATIVE, 'Playing 3 -64 0 | 1 0 2', '', 0, service=GENERIC)
advance(1, 'done', 'Playing 3 -64 0 | 1 0 2+32768', service=GENERIC)
calls.control(LEFT, RELATIVE, 'Playing 3 -128 0 | 1 0 1', '', 0, service=NAMED)
advance(3, 'done', 'Playing 3 -128 0 | 1 0 1+49152', service=NAMED)
write(LEFT, 7, word(1500), 'done', 'Playing 3 -128 0 | 1 0 1500', 'left 7', service=NAMED)
advance(1, 'done', 'Playing 3 -128 0 | 1 0 1500+16384', service=NAMED)
calls.control(LEFT, STOP, 'Paused 3 -64 0 | 1 0 0', 'left 7', service=GENERIC)
calls.control(LEFT, FORWARD, 'Seeking 3 -64 4 | 1 0 0', '', service=GENERIC)
advance(1, 'done', 'Seeking 3 -64 4 | 1 0 4', 'left 7', service=GENERIC)
advance(1, 'done', 'Playing 3 -128 0 | 1 0 1500+32768', service=NAMED)
activate(3, 'done', 'Paused 3 -64 0 | 3 3 0', 'left 7', service=GENERIC)
deactivate('done', 'Inactive 3 -64 0 | 0 0 0', 'left 7', service=GENERIC)
advance(1, 'done', 'Inactive 3 -64 0 | 0 0 0', service=GENERIC)
advance(1, 'done', 'Playing 3 -128 0 | 1 0 1500+49152', service=NAMED)
take_generic('left 7 ff ff ff ff')
take_named('left 7 dc 05 00 00')
take('nothing')

# The end of a track in one of them, and the speed of the other.
several('the clocks of both services')
desks('7 / 7')
write(LEFT, 8, [0x40], 'done', 'Paused 3 64 0 | 1 0 0', service=NAMED)
for service, playing in ((GENERIC, 'Playing 3 0 0'), (NAMED, 'Playing 3 64 0')):
    calls.control(LEFT, PLAY, '%s | 1 0 0' % playing, '', service=service)
advance(3000, 'done', 'Playing 3 0 0 | 1 0 3000', service=GENERIC)
advance(3000, 'done', 'Playing 3 64 0 | 1 1 0', 'left 7', service=NAMED)
write(LEFT, 8, [0xC0], 'done', 'Playing 3 -64 0 | 1 0 3000', service=GENERIC)
advance(1, 'done', 'Playing 3 -64 0 | 1 0 3000+32768', service=GENERIC)
advance(1, 'done', 'Playing 3 64 0 | 1 1 2', service=NAMED)
write(LEFT, 8, [0x80], 'done', 'Playing 3 -128 0 | 1 1 2', service=NAMED)
advance(1, 'done', 'Playing 3 -128 0 | 1 1 2+16384', service=NAMED)
advance(1, 'done', 'Playing 3 -64 0 | 1 0 3001', service=GENERIC)
advance(1, 'done', 'Playing 3 -64 0 | 1 0 3001+32768', service=GENERIC)
# Start names both players at once (SCOPE 17.6), and leaves neither a rest.
start(b'Desk', ALL, 7, 'done', 'Inactive 3 0 0 | 0 0 0', beside=(b'Aula', ALL, 9))
take('nothing')
