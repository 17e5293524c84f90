"""The player's cases: calls of one client over the sample catalogue (SCOPE 22.1), which vectors/script.py puts behind those of two services.

Each call has its answer and the state of the player that it leaves beside it, worked out by hand from the rules that docs/SCOPE.md has. vectors/calls.py says
how they are written. The cases are to the generic service and to the named player in turn. The client is the left pedal; its ATT_MTU leaves room for every
value, and it subscribes to 18 alone, so that nothing falls due but the results of its control writes. A position, a speed, an order and an opcode are written,
a value is read at offset 0.

A comment that names a rule, such as SCOPE 18.2, says it in a few words; docs/SCOPE.md has the rule.
"""
import calls
from calls import (
    ALL, BAD_AND_WRONG, BAD_TITLES, CASES, CLOSE, CUT, ENCRYPTED, FIRST_GROUP, FIRST_SEGMENT, FIRST_TRACK, FORWARD, GOTO_GROUP, GOTO_SEGMENT,
    GOTO_TRACK, GROUP, LAST_GROUP, LAST_SEGMENT, LAST_TRACK, LEFT, LONGEST, MEDIA, NAME_FIRST, NAME_LENGTH, NEXT_GROUP, NEXT_SEGMENT, NEXT_TRACK,
    ON, OWN_PARENT, PAUSE, PLACE, PLAY, PLAYERS, PLAYING_ORDER, PREVIOUS_GROUP, PREVIOUS_SEGMENT, PREVIOUS_TRACK, RELATIVE, REWIND, RUNNING, SAMPLE,
    SEEKING_SPEED, SERVICES, STOP, TRACK,
    activate, advance, connect, deactivate, octets, on, read, start, subscribe, take, word, write,
)

# 0x01 Play (0), 0x02 Pause (1), 0x03 Fast Rewind (2), 0x04 Fast Forward (3), 0x05 Stop (4), 0x10 Move Relative (5), 0x20–0x24 Previous, Next, First, Last,
# Goto Segment (6–10), 0x30–0x34 the same of Track (11–15), 0x40–0x44 of Group (16–20) (SCOPE 9.1).
MASK_BITS = {
    0x01: 0, 0x02: 1, 0x03: 2, 0x04: 3, 0x05: 4, 0x10: 5,
    0x20: 6, 0x21: 7, 0x22: 8, 0x23: 9, 0x24: 10,
    0x30: 11, 0x31: 12, 0x32: 13, 0x33: 14, 0x34: 15,
    0x40: 16, 0x41: 17, 0x42: 18, 0x43: 19, 0x44: 20,
}
UNKNOWN = (0x00, 0x06, 0x0F, 0x11, 0x1F, 0x25, 0x2F, 0x35, 0x3F, 0x45, 0x50, 0x81, 0xFF)
# 0x10, 0x24, 0x34, 0x44 carry a signed 32-bit number (SCOPE 9.3).
WITH_NUMBER = (RELATIVE, GOTO_SEGMENT, GOTO_TRACK, GOTO_GROUP)

LEAST, MOST = -2147483648, 2147483647


def case(name):
    calls.case(name)
    on(SERVICES[CASES[0] % len(SERVICES)])


def attend():
    """The left pedal connects, and subscribes to the results of its control writes."""
    connect(LEFT, 517, ENCRYPTED, 'done')
    subscribe(LEFT, 18, 'done')


def stays(state):
    """The state beside a call that does not touch the player is the one that there was."""
    assert state == PLAYERS[ON[0]], (CASES[0], state)


def set_name(name, answer, state, catalogue=SAMPLE):
    stays(state)
    calls.set_name(name, answer, catalogue=catalogue)


def position(number, answer, state, catalogue=SAMPLE):
    write(LEFT, 7, word(number), answer, state, catalogue=catalogue)


def speed(number, answer, state, catalogue=SAMPLE):
    write(LEFT, 8, [number & 0xFF], answer, state, catalogue=catalogue)


def order(number, answer, state, catalogue=SAMPLE):
    write(LEFT, 15, [number], answer, state, catalogue=catalogue)


def control(opcode, answer, state, number=0, catalogue=SAMPLE):
    """A control write; 'result 1' is the opcode and 1, which the take behind it hands out. The number goes with the opcodes that carry one."""
    value = bytes([opcode]) + (word(number) if opcode in WITH_NUMBER else b'')
    if not answer.startswith('result '):
        write(LEFT, 18, value, answer, state, catalogue=catalogue)
        return
    write(LEFT, 18, value, 'done', state, 'left 18', catalogue)
    take('left 18 %02x %02x' % (opcode, int(answer.split()[1])), catalogue=catalogue)


def value(characteristic, answer, state, room=128, catalogue=SAMPLE):
    stays(state)
    read(LEFT, characteristic, 0, answer, room, catalogue)


def check(answer, state, catalogue=SAMPLE):
    """A take while nothing is owed: it says so, or refuses a wrong state."""
    stays(state)
    take(answer, catalogue=catalogue)


def damage(part, number, state):
    calls.damage(part, number, state=state)


def stand(number, track, place):
    """A fresh player, Paused at a place of a track of group 1 in an order."""
    start(b'Radio', ALL, 7, 'done', 'Inactive 3 0 0 | 0 0 0')
    attend()
    activate(1, 'done', 'Paused 3 0 0 | 1 0 0')
    control(GOTO_TRACK, 'result 1', 'Paused 3 0 0 | 1 %d 0' % track, track + 1)
    order(number, 'done', 'Paused %d 0 0 | 1 %d 0' % (number, track))
    position(place, 'done', 'Paused %d 0 0 | 1 %d %d' % (number, track, place))


def stand_in_3(number, place):
    """The same in track 3 of group 3."""
    start(b'Radio', ALL, 7, 'done', 'Inactive 3 0 0 | 0 0 0')
    attend()
    activate(3, 'done', 'Paused 3 0 0 | 3 3 0')
    order(number, 'done', 'Paused %d 0 0 | 3 3 0' % number)
    position(place, 'done', 'Paused %d 0 0 | 3 3 %d' % (number, place))


# ---- The sample and its cases (SCOPE 22)

case('1500 Previous Segment')
stand(3, 0, 1500)
control(PREVIOUS_SEGMENT, 'result 1', 'Paused 3 0 0 | 1 0 0')

# 1501 → 0, 1799 → 0, 1800 → 1500, 4299 → 1500 (SCOPE 22.2).
for place, to in ((1501, 0), (1799, 0), (1800, 1500), (4299, 1500)):
    case('%d Previous Segment' % place)
    stand(3, 0, place)
    control(PREVIOUS_SEGMENT, 'result 1', 'Paused 3 0 0 | 1 0 %d' % to)

case('4000 Next Segment')
stand(3, 0, 4000)
control(NEXT_SEGMENT, 'result 1', 'Paused 3 0 0 | 1 0 6000')

case('Goto Segment 3, 4, -2, -2147483648')
stand(3, 0, 77)
control(GOTO_SEGMENT, 'result 1', 'Paused 3 0 0 | 1 0 4000', 3)
control(GOTO_SEGMENT, 'result 1', 'Paused 3 0 0 | 1 0 6000', 4)
control(GOTO_SEGMENT, 'result 1', 'Paused 3 0 0 | 1 0 1500', -2)
control(GOTO_SEGMENT, 'result 1', 'Paused 3 0 0 | 1 0 0', LEAST)

case('1500 Move Relative 2147483647')
stand(3, 0, 1500)
control(RELATIVE, 'result 1', 'Paused 3 0 0 | 1 0 6000', MOST)

# Reading a written −1 as unavailable is an error that looks right (SCOPE 22.4).
case('write -4000 and -1')
stand(3, 0, 10)
position(-4000, 'done', 'Paused 3 0 0 | 1 0 2000')
position(-1, 'done', 'Paused 3 0 0 | 1 0 5999')

case('order 3 Next from 2')
stand(3, 2, 0)
control(NEXT_TRACK, 'result 4', 'Paused 3 0 0 | 1 2 0')

case('order 4 Next from 2')
stand(4, 2, 0)
control(NEXT_TRACK, 'result 1', 'Paused 4 0 0 | 1 0 0')

case('order 5 Next from 2')
stand(5, 2, 0)
control(NEXT_TRACK, 'result 1', 'Paused 5 0 0 | 1 0 0')

# Making |n| in signed 32 bits (SCOPE 22.4) is an error that looks right.
case('order 4 Goto Track -2147483648')
stand(4, 0, 55)
control(GOTO_TRACK, 'result 1', 'Paused 4 0 0 | 1 1 0', LEAST)

# Letting group 2 count in Goto Group (SCOPE 22.4) is an error that looks right.
case('Next Group and Goto Group 3')
stand(3, 0, 55)
control(GOTO_GROUP, 'result 4', 'Paused 3 0 0 | 1 0 55', 3)
control(NEXT_GROUP, 'result 1', 'Paused 3 0 0 | 3 3 0')


# ---- Segments

# If the position is less than 300 past the start of the segment it lies in, and there is a segment before, Previous Segment goes to that one's start;
# otherwise to the start of its own (SCOPE 10.3). Before the first start there is none.
case('Previous Segment about the starts and 300 past them')
stand(3, 0, 0)
control(PREVIOUS_SEGMENT, 'result 1', 'Paused 3 0 0 | 1 0 0')
for place, to in ((1, 0), (299, 0), (300, 0), (301, 0), (1499, 0), (1500, 0), (1801, 1500), (3999, 1500), (4000, 1500), (4001, 1500), (4300, 4000),
                  (4301, 4000), (5999, 4000), (6000, 4000)):
    position(place, 'done', 'Paused 3 0 0 | 1 0 %d' % place)
    control(PREVIOUS_SEGMENT, 'result 1', 'Paused 3 0 0 | 1 0 %d' % to)

# The last segment is 200 long, so at D the position is less than 300 past its start. At 449 it lies in the segment from 200 on, and 0 is before that.
case('Previous Segment where starts are less than 300 apart')
stand(3, 0, 0)
for place, to in ((199, 0), (200, 0), (201, 0), (449, 0), (450, 200), (451, 200), (749, 200), (750, 450), (751, 450), (5799, 450), (5800, 450),
                  (5999, 450), (6000, 450)):
    position(place, 'done', 'Paused 3 0 0 | 1 0 %d' % place, CLOSE)
    control(PREVIOUS_SEGMENT, 'result 1', 'Paused 3 0 0 | 1 0 %d' % to, catalogue=CLOSE)
for to in (200, 0, 0):
    control(PREVIOUS_SEGMENT, 'result 1', 'Paused 3 0 0 | 1 0 %d' % to, catalogue=CLOSE)

# Typists press the pedal twice (SCOPE 10.3); segment moves and Move Relative keep the state (SCOPE 10.9, 9.10).
case('Previous Segment twice on a moving tape')
stand(3, 0, 5000)
control(PLAY, 'result 1', 'Playing 3 0 0 | 1 0 5000')
control(PREVIOUS_SEGMENT, 'result 1', 'Playing 3 0 0 | 1 0 4000')
advance(120, 'done', 'Playing 3 0 0 | 1 0 4120')
control(PREVIOUS_SEGMENT, 'result 1', 'Playing 3 0 0 | 1 0 1500')
advance(300, 'done', 'Playing 3 0 0 | 1 0 1800')
control(PREVIOUS_SEGMENT, 'result 1', 'Playing 3 0 0 | 1 0 1500')
control(FORWARD, 'result 1', 'Seeking 3 0 4 | 1 0 1500')
advance(74, 'done', 'Seeking 3 0 4 | 1 0 1796')
control(PREVIOUS_SEGMENT, 'result 1', 'Seeking 3 0 4 | 1 0 0')
advance(74, 'done', 'Seeking 3 0 4 | 1 0 296')
control(PREVIOUS_SEGMENT, 'result 1', 'Seeking 3 0 4 | 1 0 0')

# Next Segment goes to the least start above the position, or to D (SCOPE 10.4).
for place, to in ((0, 1500), (1499, 1500), (1500, 4000), (3999, 4000), (4001, 6000), (5999, 6000), (6000, 6000)):
    case('Next Segment')
    stand(3, 0, place)
    control(NEXT_SEGMENT, 'result 1', 'Paused 3 0 0 | 1 0 %d' % to)

# Goto n is, for n above 0, First and then Next n − 1 times; for n below 0 Last and then Previous |n| − 1 times; for 0 no step is made (SCOPE 10.6).
case('First, Last and Goto Segment')
stand(3, 0, 777)
control(GOTO_SEGMENT, 'result 1', 'Paused 3 0 0 | 1 0 777', 0)
control(LAST_SEGMENT, 'result 1', 'Paused 3 0 0 | 1 0 4000')
control(FIRST_SEGMENT, 'result 1', 'Paused 3 0 0 | 1 0 0')
control(GOTO_SEGMENT, 'result 1', 'Paused 3 0 0 | 1 0 1500', 2)
control(GOTO_SEGMENT, 'result 1', 'Paused 3 0 0 | 1 0 0', 1)
control(GOTO_SEGMENT, 'result 1', 'Paused 3 0 0 | 1 0 4000', -1)
control(GOTO_SEGMENT, 'result 1', 'Paused 3 0 0 | 1 0 0', -3)
control(GOTO_SEGMENT, 'result 1', 'Paused 3 0 0 | 1 0 6000', 5)
control(GOTO_SEGMENT, 'result 1', 'Paused 3 0 0 | 1 0 0', -4)
control(GOTO_SEGMENT, 'result 1', 'Paused 3 0 0 | 1 0 6000', MOST)

# Each step back of Goto begins on a start, so it leads one segment back, however close the one before is.
case('Goto Segment where starts are less than 300 apart')
stand(3, 0, 777)
for number, to in ((-1, 5800), (-2, 450), (-3, 200), (-4, 0), (-5, 0), (2, 200), (3, 450), (4, 5800), (5, 6000), (LEAST, 0)):
    control(GOTO_SEGMENT, 'result 1', 'Paused 3 0 0 | 1 0 %d' % to, number, CLOSE)

# A track without segments is one segment from 0 (SCOPE 10.1).
case('segments of a track without them')
stand(3, 1, 150)
control(PREVIOUS_SEGMENT, 'result 1', 'Paused 3 0 0 | 1 1 0')
control(NEXT_SEGMENT, 'result 1', 'Paused 3 0 0 | 1 1 300')
control(PREVIOUS_SEGMENT, 'result 1', 'Paused 3 0 0 | 1 1 0')
control(GOTO_SEGMENT, 'result 1', 'Paused 3 0 0 | 1 1 300', 2)
control(FIRST_SEGMENT, 'result 1', 'Paused 3 0 0 | 1 1 0')
control(GOTO_SEGMENT, 'result 1', 'Paused 3 0 0 | 1 1 300', 3)
control(LAST_SEGMENT, 'result 1', 'Paused 3 0 0 | 1 1 0')
position(299, 'done', 'Paused 3 0 0 | 1 1 299')
control(GOTO_SEGMENT, 'result 1', 'Paused 3 0 0 | 1 1 299', 0)
control(GOTO_SEGMENT, 'result 1', 'Paused 3 0 0 | 1 1 0', 1)
position(299, 'done', 'Paused 3 0 0 | 1 1 299')
control(GOTO_SEGMENT, 'result 1', 'Paused 3 0 0 | 1 1 0', -1)
control(GOTO_SEGMENT, 'result 1', 'Paused 3 0 0 | 1 1 0', -2)
control(GOTO_SEGMENT, 'result 1', 'Paused 3 0 0 | 1 1 0', LEAST)

case('Previous Segment in a longer track without segments')
stand_in_3(3, 0)
for place in (0, 299, 300, 301, 900):
    position(place, 'done', 'Paused 3 0 0 | 3 3 %d' % place)
    control(PREVIOUS_SEGMENT, 'result 1', 'Paused 3 0 0 | 3 3 0')

case('segments of a track of duration 0')
stand(3, 2, 0)
control(NEXT_SEGMENT, 'result 1', 'Paused 3 0 0 | 1 2 0')
control(PREVIOUS_SEGMENT, 'result 1', 'Paused 3 0 0 | 1 2 0')
control(LAST_SEGMENT, 'result 1', 'Paused 3 0 0 | 1 2 0')
control(FIRST_SEGMENT, 'result 1', 'Paused 3 0 0 | 1 2 0')
control(GOTO_SEGMENT, 'result 1', 'Paused 3 0 0 | 1 2 0', 7)
control(GOTO_SEGMENT, 'result 1', 'Paused 3 0 0 | 1 2 0', -7)


# ---- Positions

# Move Relative: the sum, held to 0 and D (SCOPE 9.7).
for number, to in ((0, 1500), (100, 1600), (-100, 1400), (4499, 5999), (4500, 6000), (4501, 6000), (-1499, 1), (-1500, 0), (-1501, 0), (LEAST, 0)):
    case('1500 Move Relative %d' % number)
    stand(3, 0, 1500)
    control(RELATIVE, 'result 1', 'Paused 3 0 0 | 1 0 %d' % to, number)

case('Move Relative in a track of duration 0')
stand(3, 2, 0)
control(RELATIVE, 'result 1', 'Paused 3 0 0 | 1 2 0', 1)
control(RELATIVE, 'result 1', 'Paused 3 0 0 | 1 2 0', -1)

# Position write: v ≥ 0 gives the lesser of v and D; v < 0 gives D + v, not below 0 (SCOPE 9.8).
case('position writes')
stand(3, 0, 5)
position(0, 'done', 'Paused 3 0 0 | 1 0 0')
position(5999, 'done', 'Paused 3 0 0 | 1 0 5999')
position(6000, 'done', 'Paused 3 0 0 | 1 0 6000')
position(-5999, 'done', 'Paused 3 0 0 | 1 0 1')
position(6001, 'done', 'Paused 3 0 0 | 1 0 6000')
position(-6000, 'done', 'Paused 3 0 0 | 1 0 0')
position(MOST, 'done', 'Paused 3 0 0 | 1 0 6000')
position(-6001, 'done', 'Paused 3 0 0 | 1 0 0')
position(-1, 'done', 'Paused 3 0 0 | 1 0 5999')
position(LEAST, 'done', 'Paused 3 0 0 | 1 0 0')

case('position writes in a track of duration 0')
stand(3, 2, 0)
position(1, 'done', 'Paused 3 0 0 | 1 2 0')
position(-1, 'done', 'Paused 3 0 0 | 1 2 0')


# ---- Tracks

# Orders 3 and 4 are by number (SCOPE 11.1); odd orders play once, even ones repeat (SCOPE 11.3); past an end comes the other end in a repeat order, else
# result 4 (SCOPE 11.5).
case('order 3, number order, once')
stand(3, 0, 100)
control(PREVIOUS_TRACK, 'result 4', 'Paused 3 0 0 | 1 0 100')
control(NEXT_TRACK, 'result 1', 'Paused 3 0 0 | 1 1 0')
control(NEXT_TRACK, 'result 1', 'Paused 3 0 0 | 1 2 0')
control(NEXT_TRACK, 'result 4', 'Paused 3 0 0 | 1 2 0')
control(PREVIOUS_TRACK, 'result 1', 'Paused 3 0 0 | 1 1 0')
control(PREVIOUS_TRACK, 'result 1', 'Paused 3 0 0 | 1 0 0')
control(LAST_TRACK, 'result 1', 'Paused 3 0 0 | 1 2 0')
control(FIRST_TRACK, 'result 1', 'Paused 3 0 0 | 1 0 0')

# Goto Track is First or Last and then steps; if one step cannot be made, the whole has result 4 (SCOPE 10.6, 11.6). Folding a long Goto Track by the count of
# tracks in an order that plays once (SCOPE 22.4) is an error that looks right.
case('order 3, Goto Track')
stand(3, 0, 100)
control(GOTO_TRACK, 'result 4', 'Paused 3 0 0 | 1 0 100', 4)
control(GOTO_TRACK, 'result 4', 'Paused 3 0 0 | 1 0 100', -4)
control(GOTO_TRACK, 'result 4', 'Paused 3 0 0 | 1 0 100', MOST)
control(GOTO_TRACK, 'result 4', 'Paused 3 0 0 | 1 0 100', LEAST)
control(GOTO_TRACK, 'result 1', 'Paused 3 0 0 | 1 0 0', 1)
control(GOTO_TRACK, 'result 1', 'Paused 3 0 0 | 1 1 0', 2)
control(GOTO_TRACK, 'result 1', 'Paused 3 0 0 | 1 2 0', 3)
control(GOTO_TRACK, 'result 1', 'Paused 3 0 0 | 1 1 0', -2)
control(GOTO_TRACK, 'result 1', 'Paused 3 0 0 | 1 2 0', -1)
control(GOTO_TRACK, 'result 1', 'Paused 3 0 0 | 1 0 0', -3)

# 0 keeps the track, and the position becomes 0 (SCOPE 11.6, 11.7).
case('Goto Track 0')
stand(3, 1, 100)
control(GOTO_TRACK, 'result 1', 'Paused 3 0 0 | 1 1 0', 0)

case('order 4, number order, repeated')
stand(4, 0, 100)
control(PREVIOUS_TRACK, 'result 1', 'Paused 4 0 0 | 1 2 0')
control(NEXT_TRACK, 'result 1', 'Paused 4 0 0 | 1 0 0')
control(NEXT_TRACK, 'result 1', 'Paused 4 0 0 | 1 1 0')
control(LAST_TRACK, 'result 1', 'Paused 4 0 0 | 1 2 0')
control(FIRST_TRACK, 'result 1', 'Paused 4 0 0 | 1 0 0')

# From First, 3 steps lead round to track 0; 4 to track 1; 2147483646, a multiple of 3, to track 0. From Last, 3 steps lead round to track 2.
case('order 4, Goto Track')
stand(4, 1, 100)
control(GOTO_TRACK, 'result 1', 'Paused 4 0 0 | 1 0 0', 4)
control(GOTO_TRACK, 'result 1', 'Paused 4 0 0 | 1 1 0', 5)
control(GOTO_TRACK, 'result 1', 'Paused 4 0 0 | 1 2 0', -4)
control(GOTO_TRACK, 'result 1', 'Paused 4 0 0 | 1 0 0', MOST)
control(GOTO_TRACK, 'result 1', 'Paused 4 0 0 | 1 1 0', -5)

# Orders 5 and 6 are by rising stamp, and of equal stamps the lower number comes first (SCOPE 11.1, 11.2): 1, 2, 0.
case('order 5, rising stamp, once')
stand(5, 0, 100)
control(NEXT_TRACK, 'result 4', 'Paused 5 0 0 | 1 0 100')
control(PREVIOUS_TRACK, 'result 1', 'Paused 5 0 0 | 1 2 0')
control(PREVIOUS_TRACK, 'result 1', 'Paused 5 0 0 | 1 1 0')
control(PREVIOUS_TRACK, 'result 4', 'Paused 5 0 0 | 1 1 0')
control(NEXT_TRACK, 'result 1', 'Paused 5 0 0 | 1 2 0')
control(LAST_TRACK, 'result 1', 'Paused 5 0 0 | 1 0 0')
control(FIRST_TRACK, 'result 1', 'Paused 5 0 0 | 1 1 0')
control(GOTO_TRACK, 'result 1', 'Paused 5 0 0 | 1 2 0', 2)
control(GOTO_TRACK, 'result 1', 'Paused 5 0 0 | 1 0 0', 3)
control(GOTO_TRACK, 'result 4', 'Paused 5 0 0 | 1 0 0', 4)
control(GOTO_TRACK, 'result 1', 'Paused 5 0 0 | 1 1 0', 1)
control(GOTO_TRACK, 'result 1', 'Paused 5 0 0 | 1 2 0', -2)
control(GOTO_TRACK, 'result 1', 'Paused 5 0 0 | 1 0 0', -1)
control(GOTO_TRACK, 'result 1', 'Paused 5 0 0 | 1 1 0', -3)
control(GOTO_TRACK, 'result 4', 'Paused 5 0 0 | 1 1 0', -4)

# From Last, track 0, 2147483647 steps back: one more than a multiple of 3.
case('order 6, rising stamp, repeated')
stand(6, 0, 100)
control(NEXT_TRACK, 'result 1', 'Paused 6 0 0 | 1 1 0')
control(PREVIOUS_TRACK, 'result 1', 'Paused 6 0 0 | 1 0 0')
control(GOTO_TRACK, 'result 1', 'Paused 6 0 0 | 1 1 0', 4)
control(GOTO_TRACK, 'result 1', 'Paused 6 0 0 | 1 2 0', LEAST)
control(GOTO_TRACK, 'result 1', 'Paused 6 0 0 | 1 0 0', -4)

# Orders 7 and 8 are by falling stamp, and of equal stamps the lower number comes first (SCOPE 11.1, 11.2): 0, 1, 2. The newest order as the reverse of the
# oldest, by which equal stamps come out 2, 1, is an error that looks right (SCOPE 22.4).
case('order 7, falling stamp, once')
stand(7, 0, 100)
control(PREVIOUS_TRACK, 'result 4', 'Paused 7 0 0 | 1 0 100')
control(NEXT_TRACK, 'result 1', 'Paused 7 0 0 | 1 1 0')
control(NEXT_TRACK, 'result 1', 'Paused 7 0 0 | 1 2 0')
control(NEXT_TRACK, 'result 4', 'Paused 7 0 0 | 1 2 0')
control(PREVIOUS_TRACK, 'result 1', 'Paused 7 0 0 | 1 1 0')
control(LAST_TRACK, 'result 1', 'Paused 7 0 0 | 1 2 0')
control(FIRST_TRACK, 'result 1', 'Paused 7 0 0 | 1 0 0')
control(GOTO_TRACK, 'result 1', 'Paused 7 0 0 | 1 1 0', 2)
control(GOTO_TRACK, 'result 1', 'Paused 7 0 0 | 1 2 0', -1)
control(GOTO_TRACK, 'result 4', 'Paused 7 0 0 | 1 2 0', 4)

case('order 8, falling stamp, repeated')
stand(8, 0, 100)
control(PREVIOUS_TRACK, 'result 1', 'Paused 8 0 0 | 1 2 0')
control(NEXT_TRACK, 'result 1', 'Paused 8 0 0 | 1 0 0')
control(GOTO_TRACK, 'result 1', 'Paused 8 0 0 | 1 1 0', LEAST)
control(GOTO_TRACK, 'result 1', 'Paused 8 0 0 | 1 2 0', 3)
control(GOTO_TRACK, 'result 1', 'Paused 8 0 0 | 1 0 0', 4)

# Orders 1 and 2 have the current track alone (SCOPE 11.1).
case('order 1, the current track once')
stand(1, 1, 100)
control(NEXT_TRACK, 'result 4', 'Paused 1 0 0 | 1 1 100')
control(PREVIOUS_TRACK, 'result 4', 'Paused 1 0 0 | 1 1 100')
control(GOTO_TRACK, 'result 4', 'Paused 1 0 0 | 1 1 100', 2)
control(GOTO_TRACK, 'result 4', 'Paused 1 0 0 | 1 1 100', -2)
control(FIRST_TRACK, 'result 1', 'Paused 1 0 0 | 1 1 0')
position(100, 'done', 'Paused 1 0 0 | 1 1 100')
control(LAST_TRACK, 'result 1', 'Paused 1 0 0 | 1 1 0')
position(100, 'done', 'Paused 1 0 0 | 1 1 100')
control(GOTO_TRACK, 'result 1', 'Paused 1 0 0 | 1 1 0', 1)
position(100, 'done', 'Paused 1 0 0 | 1 1 100')
control(GOTO_TRACK, 'result 1', 'Paused 1 0 0 | 1 1 0', -1)
position(100, 'done', 'Paused 1 0 0 | 1 1 100')
control(GOTO_TRACK, 'result 1', 'Paused 1 0 0 | 1 1 0', 0)

case('order 2, the current track repeated')
stand(2, 1, 100)
control(NEXT_TRACK, 'result 1', 'Paused 2 0 0 | 1 1 0')
position(100, 'done', 'Paused 2 0 0 | 1 1 100')
control(PREVIOUS_TRACK, 'result 1', 'Paused 2 0 0 | 1 1 0')
position(100, 'done', 'Paused 2 0 0 | 1 1 100')
control(FIRST_TRACK, 'result 1', 'Paused 2 0 0 | 1 1 0')
position(100, 'done', 'Paused 2 0 0 | 1 1 100')
control(LAST_TRACK, 'result 1', 'Paused 2 0 0 | 1 1 0')
position(100, 'done', 'Paused 2 0 0 | 1 1 100')
control(GOTO_TRACK, 'result 1', 'Paused 2 0 0 | 1 1 0', 2)
position(100, 'done', 'Paused 2 0 0 | 1 1 100')
control(GOTO_TRACK, 'result 1', 'Paused 2 0 0 | 1 1 0', MOST)
position(100, 'done', 'Paused 2 0 0 | 1 1 100')
control(GOTO_TRACK, 'result 1', 'Paused 2 0 0 | 1 1 0', LEAST)
position(100, 'done', 'Paused 2 0 0 | 1 1 100')
control(GOTO_TRACK, 'result 1', 'Paused 2 0 0 | 1 1 0', 0)

case('a group of one track')
stand_in_3(5, 100)
control(NEXT_TRACK, 'result 4', 'Paused 5 0 0 | 3 3 100')
control(PREVIOUS_TRACK, 'result 4', 'Paused 5 0 0 | 3 3 100')
control(LAST_TRACK, 'result 1', 'Paused 5 0 0 | 3 3 0')
order(6, 'done', 'Paused 6 0 0 | 3 3 0')
position(100, 'done', 'Paused 6 0 0 | 3 3 100')
control(NEXT_TRACK, 'result 1', 'Paused 6 0 0 | 3 3 0')
position(100, 'done', 'Paused 6 0 0 | 3 3 100')
control(PREVIOUS_TRACK, 'result 1', 'Paused 6 0 0 | 3 3 0')


# ---- Groups

# Group moves run over the groups of the same parent that have tracks, group 0 left out (SCOPE 12.1); group moves do not repeat (SCOPE 12.2).
case('group moves')
stand(3, 1, 100)
control(PREVIOUS_GROUP, 'result 4', 'Paused 3 0 0 | 1 1 100')
control(NEXT_GROUP, 'result 1', 'Paused 3 0 0 | 3 3 0')
position(100, 'done', 'Paused 3 0 0 | 3 3 100')
control(NEXT_GROUP, 'result 4', 'Paused 3 0 0 | 3 3 100')
control(PREVIOUS_GROUP, 'result 1', 'Paused 3 0 0 | 1 0 0')
control(LAST_GROUP, 'result 1', 'Paused 3 0 0 | 3 3 0')
position(100, 'done', 'Paused 3 0 0 | 3 3 100')
control(LAST_GROUP, 'result 1', 'Paused 3 0 0 | 3 3 0')
control(FIRST_GROUP, 'result 1', 'Paused 3 0 0 | 1 0 0')

# Goto Group 0 keeps the group, and leads to its first track, at position 0 (SCOPE 12.2, 12.3).
case('Goto Group')
stand(3, 1, 100)
control(GOTO_GROUP, 'result 4', 'Paused 3 0 0 | 1 1 100', -3)
control(GOTO_GROUP, 'result 4', 'Paused 3 0 0 | 1 1 100', MOST)
control(GOTO_GROUP, 'result 4', 'Paused 3 0 0 | 1 1 100', LEAST)
control(GOTO_GROUP, 'result 1', 'Paused 3 0 0 | 1 0 0', 0)
control(GOTO_GROUP, 'result 1', 'Paused 3 0 0 | 3 3 0', 2)
control(GOTO_GROUP, 'result 1', 'Paused 3 0 0 | 1 0 0', 1)
control(GOTO_GROUP, 'result 1', 'Paused 3 0 0 | 3 3 0', -1)
control(GOTO_GROUP, 'result 1', 'Paused 3 0 0 | 1 0 0', -2)

case('Goto Group 0 in group 3')
stand_in_3(4, 100)
control(GOTO_GROUP, 'result 1', 'Paused 4 0 0 | 3 3 0', 0)

# Group moves do not repeat (SCOPE 12.2), in the repeat orders either.
case('group moves in repeat orders')
stand_in_3(4, 100)
control(NEXT_GROUP, 'result 4', 'Paused 4 0 0 | 3 3 100')
control(GOTO_GROUP, 'result 4', 'Paused 4 0 0 | 3 3 100', 3)
stand(2, 1, 100)
control(PREVIOUS_GROUP, 'result 4', 'Paused 2 0 0 | 1 1 100')

# Orders 1 and 2 have the current track alone; when a group is activated or moved to, its lowest track (SCOPE 11.1, 11.4); the other orders begin as they run.
for number, first in ((1, 0), (2, 0), (3, 0), (4, 0), (5, 1), (6, 1), (7, 0), (8, 0)):
    case('Previous Group and Goto Group 0 in order %d' % number)
    stand_in_3(number, 100)
    control(PREVIOUS_GROUP, 'result 1', 'Paused %d 0 0 | 1 %d 0' % (number, first))
    stand(number, 2, 0)
    control(GOTO_GROUP, 'result 1', 'Paused %d 0 0 | 1 %d 0' % (number, first), 0)


# ---- State and seeking speed

# Play gives Playing, Pause gives Paused, and Stop gives Paused at 0 (SCOPE 9.5).
case('Play, Pause, Stop')
stand(3, 0, 1500)
control(PAUSE, 'result 1', 'Paused 3 0 0 | 1 0 1500')
control(PLAY, 'result 1', 'Playing 3 0 0 | 1 0 1500')
control(PLAY, 'result 1', 'Playing 3 0 0 | 1 0 1500')
control(PAUSE, 'result 1', 'Paused 3 0 0 | 1 0 1500')
control(STOP, 'result 1', 'Paused 3 0 0 | 1 0 0')
control(PLAY, 'result 1', 'Playing 3 0 0 | 1 0 0')
position(40, 'done', 'Playing 3 0 0 | 1 0 40')
control(STOP, 'result 1', 'Paused 3 0 0 | 1 0 0')

# Fast Forward enters Seeking at 4, Rewind at −4; while Seeking they go one rung up or down, and stay at the end rung (SCOPE 9.6).
case('Fast Forward and Rewind over all rungs')
stand(3, 0, 1500)
control(FORWARD, 'result 1', 'Seeking 3 0 4 | 1 0 1500')
control(FORWARD, 'result 1', 'Seeking 3 0 8 | 1 0 1500')
control(FORWARD, 'result 1', 'Seeking 3 0 16 | 1 0 1500')
control(FORWARD, 'result 1', 'Seeking 3 0 32 | 1 0 1500')
control(FORWARD, 'result 1', 'Seeking 3 0 32 | 1 0 1500')
control(REWIND, 'result 1', 'Seeking 3 0 16 | 1 0 1500')
control(REWIND, 'result 1', 'Seeking 3 0 8 | 1 0 1500')
control(REWIND, 'result 1', 'Seeking 3 0 4 | 1 0 1500')
control(REWIND, 'result 1', 'Seeking 3 0 -4 | 1 0 1500')
control(REWIND, 'result 1', 'Seeking 3 0 -8 | 1 0 1500')
control(REWIND, 'result 1', 'Seeking 3 0 -16 | 1 0 1500')
control(REWIND, 'result 1', 'Seeking 3 0 -32 | 1 0 1500')
control(REWIND, 'result 1', 'Seeking 3 0 -32 | 1 0 1500')
control(FORWARD, 'result 1', 'Seeking 3 0 -16 | 1 0 1500')
control(FORWARD, 'result 1', 'Seeking 3 0 -8 | 1 0 1500')
control(FORWARD, 'result 1', 'Seeking 3 0 -4 | 1 0 1500')
control(FORWARD, 'result 1', 'Seeking 3 0 4 | 1 0 1500')

# Outside Seeking the speed is 0 (SCOPE 8.5).
case('out of Seeking')
stand(3, 0, 1500)
control(REWIND, 'result 1', 'Seeking 3 0 -4 | 1 0 1500')
control(PLAY, 'result 1', 'Playing 3 0 0 | 1 0 1500')
control(FORWARD, 'result 1', 'Seeking 3 0 4 | 1 0 1500')
control(PAUSE, 'result 1', 'Paused 3 0 0 | 1 0 1500')
control(PLAY, 'result 1', 'Playing 3 0 0 | 1 0 1500')
control(REWIND, 'result 1', 'Seeking 3 0 -4 | 1 0 1500')
control(STOP, 'result 1', 'Paused 3 0 0 | 1 0 0')
control(FORWARD, 'result 1', 'Seeking 3 0 4 | 1 0 0')
activate(1, 'done', 'Paused 3 0 0 | 1 0 0')
control(FORWARD, 'result 1', 'Seeking 3 0 4 | 1 0 0')
deactivate('done', 'Inactive 3 0 0 | 0 0 0')

# Segment moves and Move Relative keep the state (SCOPE 10.9, 9.10).
case('Seeking stays')
stand(3, 0, 1500)
control(FORWARD, 'result 1', 'Seeking 3 0 4 | 1 0 1500')
control(FORWARD, 'result 1', 'Seeking 3 0 8 | 1 0 1500')
control(PREVIOUS_SEGMENT, 'result 1', 'Seeking 3 0 8 | 1 0 0')
control(NEXT_SEGMENT, 'result 1', 'Seeking 3 0 8 | 1 0 1500')
control(LAST_SEGMENT, 'result 1', 'Seeking 3 0 8 | 1 0 4000')
control(FIRST_SEGMENT, 'result 1', 'Seeking 3 0 8 | 1 0 0')
control(GOTO_SEGMENT, 'result 1', 'Seeking 3 0 8 | 1 0 1500', 2)
control(GOTO_SEGMENT, 'result 1', 'Seeking 3 0 8 | 1 0 1500', 0)
control(RELATIVE, 'result 1', 'Seeking 3 0 8 | 1 0 1400', -100)
position(1300, 'done', 'Seeking 3 0 8 | 1 0 1300')
speed(64, 'done', 'Seeking 3 64 8 | 1 0 1300')
order(5, 'done', 'Seeking 5 64 8 | 1 0 1300')
set_name(b'Radio', 'done', 'Seeking 5 64 8 | 1 0 1300')
control(NEXT_TRACK, 'result 4', 'Seeking 5 64 8 | 1 0 1300')
control(GOTO_TRACK, 'result 4', 'Seeking 5 64 8 | 1 0 1300', 4)
control(PREVIOUS_GROUP, 'result 4', 'Seeking 5 64 8 | 1 0 1300')
control(0x06, 'result 2', 'Seeking 5 64 8 | 1 0 1300')
activate(2, 'refused 208', 'Seeking 5 64 8 | 1 0 1300')

case('Playing stays by segment moves and Move Relative')
stand(3, 0, 1500)
control(PLAY, 'result 1', 'Playing 3 0 0 | 1 0 1500')
control(NEXT_SEGMENT, 'result 1', 'Playing 3 0 0 | 1 0 4000')
control(NEXT_SEGMENT, 'result 1', 'Playing 3 0 0 | 1 0 6000')
control(RELATIVE, 'result 1', 'Playing 3 0 0 | 1 0 5999', -1)

# Track and group moves turn Seeking into Playing (SCOPE 11.7, 12.3).
for opcode, number, to in (
    (NEXT_TRACK, 0, '1 2 0'),
    (PREVIOUS_TRACK, 0, '1 0 0'),
    (FIRST_TRACK, 0, '1 0 0'),
    (LAST_TRACK, 0, '1 2 0'),
    (GOTO_TRACK, 2, '1 1 0'),
    (GOTO_TRACK, 0, '1 1 0'),
    (NEXT_GROUP, 0, '3 3 0'),
    (FIRST_GROUP, 0, '1 0 0'),
    (LAST_GROUP, 0, '3 3 0'),
    (GOTO_GROUP, -1, '3 3 0'),
    (GOTO_GROUP, 0, '1 0 0'),
):
    case('0x%02X turns Seeking into Playing' % opcode)
    stand(3, 1, 100)
    control(FORWARD, 'result 1', 'Seeking 3 0 4 | 1 1 100')
    control(opcode, 'result 1', 'Playing 3 0 0 | ' + to, number)

case('Previous Group turns Seeking into Playing')
stand_in_3(3, 100)
control(REWIND, 'result 1', 'Seeking 3 0 -4 | 3 3 100')
control(PREVIOUS_GROUP, 'result 1', 'Playing 3 0 0 | 1 0 0')

case('Playing stays by track and group moves')
stand(3, 0, 100)
control(PLAY, 'result 1', 'Playing 3 0 0 | 1 0 100')
control(NEXT_TRACK, 'result 1', 'Playing 3 0 0 | 1 1 0')
control(NEXT_GROUP, 'result 1', 'Playing 3 0 0 | 3 3 0')


# ---- Result codes

# The first result that applies is given, in the order 2, 3, 4, 1; after 2, 3 and 4 the player is as before (SCOPE 9.4).
case('an opcode without a current track')
start(b'Radio', ALL, 7, 'done', 'Inactive 3 0 0 | 0 0 0')
attend()
for opcode in MASK_BITS:
    control(opcode, 'result 3', 'Inactive 3 0 0 | 0 0 0', 1)

# Result 2 is for an opcode that is unknown or not in the mask, and 3 while Inactive (SCOPE 9.4).
case('an unknown opcode')
start(b'Radio', ALL, 7, 'done', 'Inactive 3 0 0 | 0 0 0')
attend()
for opcode in UNKNOWN:
    control(opcode, 'result 2', 'Inactive 3 0 0 | 0 0 0')
activate(1, 'done', 'Paused 3 0 0 | 1 0 0')
for opcode in UNKNOWN:
    control(opcode, 'result 2', 'Paused 3 0 0 | 1 0 0')

for opcode in MASK_BITS:
    case('the mask bit of 0x%02X' % opcode)
    start(b'Radio', 1 << MASK_BITS[opcode], 7, 'done', 'Inactive 3 0 0 | 0 0 0')
    attend()
    control(opcode, 'result 3', 'Inactive 3 0 0 | 0 0 0')
    start(b'Radio', ALL - (1 << MASK_BITS[opcode]), 7, 'done', 'Inactive 3 0 0 | 0 0 0')
    attend()
    control(opcode, 'result 2', 'Inactive 3 0 0 | 0 0 0')
    activate(1, 'done', 'Paused 3 0 0 | 1 0 0')
    control(opcode, 'result 2', 'Paused 3 0 0 | 1 0 0')

# Higher mask bits count as 0 (SCOPE 9.2).
case('higher mask bits')
start(b'Radio', 0xFFE00000, 7, 'done', 'Inactive 3 0 0 | 0 0 0')
attend()
value(19, 'read 00 00 00 00', 'Inactive 3 0 0 | 0 0 0')
for opcode in tuple(MASK_BITS) + UNKNOWN:
    control(opcode, 'result 2', 'Inactive 3 0 0 | 0 0 0')
start(b'Radio', 0xFFFFFFFF, 7, 'done', 'Inactive 3 0 0 | 0 0 0')
attend()
value(19, 'read ff ff 1f 00', 'Inactive 3 0 0 | 0 0 0')
for opcode in UNKNOWN:
    control(opcode, 'result 2', 'Inactive 3 0 0 | 0 0 0')
start(b'Radio', 0xFFF21001, 7, 'done', 'Inactive 3 0 0 | 0 0 0')
connect(LEFT, 517, ENCRYPTED, 'done')
value(19, 'read 01 10 12 00', 'Inactive 3 0 0 | 0 0 0')


# ---- Inactive, activation, deactivation

# While Inactive a position write is accepted and alters nothing (SCOPE 9.9). Deactivate leaves the player Inactive; order and playback speed are kept (SCOPE
# 8.10).
case('Inactive')
start(b'Radio', ALL, 7, 'done', 'Inactive 3 0 0 | 0 0 0')
attend()
check('nothing', 'Inactive 3 0 0 | 0 0 0')
position(0, 'done', 'Inactive 3 0 0 | 0 0 0')
position(100, 'done', 'Inactive 3 0 0 | 0 0 0')
position(-1, 'done', 'Inactive 3 0 0 | 0 0 0')
advance(0, 'done', 'Inactive 3 0 0 | 0 0 0')
advance(LONGEST, 'done', 'Inactive 3 0 0 | 0 0 0')
deactivate('done', 'Inactive 3 0 0 | 0 0 0')
speed(127, 'done', 'Inactive 3 127 0 | 0 0 0')
speed(-128, 'done', 'Inactive 3 -128 0 | 0 0 0')
speed(-1, 'done', 'Inactive 3 -1 0 | 0 0 0')
order(8, 'done', 'Inactive 8 -1 0 | 0 0 0')
order(5, 'done', 'Inactive 5 -1 0 | 0 0 0')
activate(1, 'done', 'Paused 5 -1 0 | 1 1 0')
control(PLAY, 'result 1', 'Playing 5 -1 0 | 1 1 0')
# E of -1 is 64830, as vectors/clock.py tells. Ten times that is 648300, which is 9 times 65536 and 58476.
advance(10, 'done', 'Playing 5 -1 0 | 1 1 9+58476')
deactivate('done', 'Inactive 5 -1 0 | 0 0 0')
deactivate('done', 'Inactive 5 -1 0 | 0 0 0')
start(b'Radio', ALL, 7, 'done', 'Inactive 3 0 0 | 0 0 0')

# Activate goes to the group's first track in the order, at position 0, Paused, with seeking speed 0 (SCOPE 8.9).
for number, first in ((1, 0), (2, 0), (3, 0), (4, 0), (5, 1), (6, 1), (7, 0), (8, 0)):
    case('activation in order %d' % number)
    start(b'Radio', ALL, 7, 'done', 'Inactive 3 0 0 | 0 0 0')
    connect(LEFT, 517, ENCRYPTED, 'done')
    order(number, 'done', 'Inactive %d 0 0 | 0 0 0' % number)
    activate(1, 'done', 'Paused %d 0 0 | 1 %d 0' % (number, first))
    activate(3, 'done', 'Paused %d 0 0 | 3 3 0' % number)

case('activation of the current group')
stand(1, 2, 0)
activate(1, 'done', 'Paused 1 0 0 | 1 0 0')
position(9, 'done', 'Paused 1 0 0 | 1 0 9')
control(PLAY, 'result 1', 'Playing 1 0 0 | 1 0 9')
activate(1, 'done', 'Paused 1 0 0 | 1 0 0')

# The group is absent or has no tracks (SCOPE 20.2).
case('groups that cannot be activated')
start(b'Radio', ALL, 7, 'done', 'Inactive 3 0 0 | 0 0 0')
for group in (0, 2, 4, 9, 64, LONGEST):
    activate(group, 'refused 208', 'Inactive 3 0 0 | 0 0 0')
stand(3, 1, 100)
for group in (0, 2, 4, 9, 64, LONGEST):
    activate(group, 'refused 208', 'Paused 3 0 0 | 1 1 100')

# An order that is written moves neither track nor position.
case('written orders')
stand(3, 2, 0)
for number in (1, 2, 3, 4, 5, 6, 7, 8):
    order(number, 'done', 'Paused %d 0 0 | 1 2 0' % number)
stand(3, 1, 99)
order(8, 'done', 'Paused 8 0 0 | 1 1 99')

# The written order is not 1 to 8 (SCOPE 20.2).
case('orders that are refused')
start(b'Radio', ALL, 7, 'done', 'Inactive 3 0 0 | 0 0 0')
connect(LEFT, 517, ENCRYPTED, 'done')
order(0, 'refused 0x13', 'Inactive 3 0 0 | 0 0 0')
order(9, 'refused 0x13', 'Inactive 3 0 0 | 0 0 0')
order(255, 'refused 0x13', 'Inactive 3 0 0 | 0 0 0')
stand(6, 1, 100)
order(0, 'refused 0x13', 'Paused 6 0 0 | 1 1 100')
order(9, 'refused 0x13', 'Paused 6 0 0 | 1 1 100')
order(131, 'refused 0x13', 'Paused 6 0 0 | 1 1 100')


# ---- Advance

# Paused and Inactive, an advance changes nothing (SCOPE 13.8).
case('advance while Paused')
stand(3, 0, 5999)
advance(0, 'done', 'Paused 3 0 0 | 1 0 5999')
advance(1, 'done', 'Paused 3 0 0 | 1 0 5999')
advance(LONGEST, 'done', 'Paused 3 0 0 | 1 0 5999')

# At D or beyond comes the next track at 0 or, where there is none, Paused at D; a call makes at most one such move (SCOPE 13.5).
case('advance below D, then to D')
stand(3, 0, 0)
control(PLAY, 'result 1', 'Playing 3 0 0 | 1 0 0')
advance(0, 'done', 'Playing 3 0 0 | 1 0 0')
advance(1, 'done', 'Playing 3 0 0 | 1 0 1')
advance(5998, 'done', 'Playing 3 0 0 | 1 0 5999')
advance(1, 'done', 'Playing 3 0 0 | 1 1 0')
advance(299, 'done', 'Playing 3 0 0 | 1 1 299')
advance(1, 'done', 'Playing 3 0 0 | 1 2 0')
advance(0, 'done', 'Paused 3 0 0 | 1 2 0')

case('advance by 4294967295')
stand(3, 0, 1)
control(PLAY, 'result 1', 'Playing 3 0 0 | 1 0 1')
advance(LONGEST, 'done', 'Playing 3 0 0 | 1 1 0')
advance(LONGEST, 'done', 'Playing 3 0 0 | 1 2 0')
advance(LONGEST, 'done', 'Paused 3 0 0 | 1 2 0')
advance(LONGEST, 'done', 'Paused 3 0 0 | 1 2 0')

case('advance beyond D by 4294967295')
stand(3, 0, 6000)
control(PLAY, 'result 1', 'Playing 3 0 0 | 1 0 6000')
advance(LONGEST, 'done', 'Playing 3 0 0 | 1 1 0')

case('advance by 0 at D')
stand(3, 0, 6000)
control(PLAY, 'result 1', 'Playing 3 0 0 | 1 0 6000')
advance(0, 'done', 'Playing 3 0 0 | 1 1 0')
advance(0, 'done', 'Playing 3 0 0 | 1 1 0')

# One move per call, also where what is left of d is longer than the next track.
case('one move per call')
stand(4, 0, 5999)
control(PLAY, 'result 1', 'Playing 4 0 0 | 1 0 5999')
advance(900, 'done', 'Playing 4 0 0 | 1 1 0')
advance(900, 'done', 'Playing 4 0 0 | 1 2 0')
advance(900, 'done', 'Playing 4 0 0 | 1 0 0')
advance(900, 'done', 'Playing 4 0 0 | 1 0 900')

case('the last track in order 3: Paused at D')
stand_in_3(3, 0)
control(PLAY, 'result 1', 'Playing 3 0 0 | 3 3 0')
advance(899, 'done', 'Playing 3 0 0 | 3 3 899')
advance(1, 'done', 'Paused 3 0 0 | 3 3 900')
control(PLAY, 'result 1', 'Playing 3 0 0 | 3 3 900')
advance(0, 'done', 'Paused 3 0 0 | 3 3 900')
position(1, 'done', 'Paused 3 0 0 | 3 3 1')
control(PLAY, 'result 1', 'Playing 3 0 0 | 3 3 1')
advance(LONGEST, 'done', 'Paused 3 0 0 | 3 3 900')

case('a track of duration 0')
stand(3, 2, 0)
control(PLAY, 'result 1', 'Playing 3 0 0 | 1 2 0')
advance(0, 'done', 'Paused 3 0 0 | 1 2 0')
order(4, 'done', 'Paused 4 0 0 | 1 2 0')
control(PLAY, 'result 1', 'Playing 4 0 0 | 1 2 0')
advance(0, 'done', 'Playing 4 0 0 | 1 0 0')

# The current track alone: none follows in order 1, itself in order 2.
case('advance in orders 1 and 2')
stand(1, 1, 299)
control(PLAY, 'result 1', 'Playing 1 0 0 | 1 1 299')
advance(5, 'done', 'Paused 1 0 0 | 1 1 300')
order(2, 'done', 'Paused 2 0 0 | 1 1 300')
control(PLAY, 'result 1', 'Playing 2 0 0 | 1 1 300')
advance(0, 'done', 'Playing 2 0 0 | 1 1 0')
advance(300, 'done', 'Playing 2 0 0 | 1 1 0')
advance(LONGEST, 'done', 'Playing 2 0 0 | 1 1 0')
advance(299, 'done', 'Playing 2 0 0 | 1 1 299')

case('advance in orders 5 to 8')
stand(5, 1, 0)
control(PLAY, 'result 1', 'Playing 5 0 0 | 1 1 0')
advance(300, 'done', 'Playing 5 0 0 | 1 2 0')
advance(1, 'done', 'Playing 5 0 0 | 1 0 0')
advance(6000, 'done', 'Paused 5 0 0 | 1 0 6000')
order(6, 'done', 'Paused 6 0 0 | 1 0 6000')
control(PLAY, 'result 1', 'Playing 6 0 0 | 1 0 6000')
advance(1, 'done', 'Playing 6 0 0 | 1 1 0')
order(7, 'done', 'Playing 7 0 0 | 1 1 0')
advance(301, 'done', 'Playing 7 0 0 | 1 2 0')
advance(0, 'done', 'Paused 7 0 0 | 1 2 0')
order(8, 'done', 'Paused 8 0 0 | 1 2 0')
control(PLAY, 'result 1', 'Playing 8 0 0 | 1 2 0')
advance(0, 'done', 'Playing 8 0 0 | 1 0 0')
advance(6000, 'done', 'Playing 8 0 0 | 1 1 0')

case('a group of one track in a repeat order')
stand_in_3(4, 899)
control(PLAY, 'result 1', 'Playing 4 0 0 | 3 3 899')
advance(2, 'done', 'Playing 4 0 0 | 3 3 0')

# Speed p means 2 to the power p/64 (SCOPE 13.2): double and half. vectors/clock.py has the cases of the clock.
case('playback speed and advance')
stand(3, 0, 0)
speed(64, 'done', 'Paused 3 64 0 | 1 0 0')
control(PLAY, 'result 1', 'Playing 3 64 0 | 1 0 0')
advance(100, 'done', 'Playing 3 64 0 | 1 0 200')
speed(-64, 'done', 'Playing 3 -64 0 | 1 0 200')
advance(100, 'done', 'Playing 3 -64 0 | 1 0 250')

# Seeking adds d times the seeking speed, held to 0 and D (SCOPE 13.7).
case('advance while Seeking forward')
stand(3, 0, 1500)
control(FORWARD, 'result 1', 'Seeking 3 0 4 | 1 0 1500')
advance(0, 'done', 'Seeking 3 0 4 | 1 0 1500')
advance(10, 'done', 'Seeking 3 0 4 | 1 0 1540')
control(FORWARD, 'result 1', 'Seeking 3 0 8 | 1 0 1540')
advance(10, 'done', 'Seeking 3 0 8 | 1 0 1620')
control(FORWARD, 'result 1', 'Seeking 3 0 16 | 1 0 1620')
advance(10, 'done', 'Seeking 3 0 16 | 1 0 1780')
control(FORWARD, 'result 1', 'Seeking 3 0 32 | 1 0 1780')
advance(10, 'done', 'Seeking 3 0 32 | 1 0 2100')
advance(121, 'done', 'Seeking 3 0 32 | 1 0 5972')
advance(1, 'done', 'Seeking 3 0 32 | 1 0 6000')
advance(1, 'done', 'Seeking 3 0 32 | 1 0 6000')
position(1500, 'done', 'Seeking 3 0 32 | 1 0 1500')
advance(134217728, 'done', 'Seeking 3 0 32 | 1 0 6000')
position(1500, 'done', 'Seeking 3 0 32 | 1 0 1500')
advance(LONGEST, 'done', 'Seeking 3 0 32 | 1 0 6000')

case('advance while Seeking back')
stand(3, 0, 6000)
control(REWIND, 'result 1', 'Seeking 3 0 -4 | 1 0 6000')
advance(0, 'done', 'Seeking 3 0 -4 | 1 0 6000')
advance(10, 'done', 'Seeking 3 0 -4 | 1 0 5960')
control(REWIND, 'result 1', 'Seeking 3 0 -8 | 1 0 5960')
advance(10, 'done', 'Seeking 3 0 -8 | 1 0 5880')
control(REWIND, 'result 1', 'Seeking 3 0 -16 | 1 0 5880')
advance(10, 'done', 'Seeking 3 0 -16 | 1 0 5720')
control(REWIND, 'result 1', 'Seeking 3 0 -32 | 1 0 5720')
advance(10, 'done', 'Seeking 3 0 -32 | 1 0 5400')
advance(168, 'done', 'Seeking 3 0 -32 | 1 0 24')
advance(1, 'done', 'Seeking 3 0 -32 | 1 0 0')
advance(1, 'done', 'Seeking 3 0 -32 | 1 0 0')
position(1500, 'done', 'Seeking 3 0 -32 | 1 0 1500')
advance(134217728, 'done', 'Seeking 3 0 -32 | 1 0 0')
position(1500, 'done', 'Seeking 3 0 -32 | 1 0 1500')
advance(LONGEST, 'done', 'Seeking 3 0 -32 | 1 0 0')

case('advance while Seeking in a track of duration 0')
stand(4, 2, 0)
control(FORWARD, 'result 1', 'Seeking 4 0 4 | 1 2 0')
advance(5, 'done', 'Seeking 4 0 4 | 1 2 0')
control(REWIND, 'result 1', 'Seeking 4 0 -4 | 1 2 0')
advance(5, 'done', 'Seeking 4 0 -4 | 1 2 0')


# ---- Recordings that are still running (SCOPE 4.8)

# D of a running recording is 8,640,000 (SCOPE 4.9).
FURTHEST = 8640000


def stand_in_running(number, track, place):
    """The same as stand, over the catalogue whose tracks 1 and 2 of group 1 are still running."""
    start(b'Radio', ALL, 7, 'done', 'Inactive 3 0 0 | 0 0 0', RUNNING)
    attend()
    activate(1, 'done', 'Paused 3 0 0 | 1 0 0', catalogue=RUNNING)
    control(GOTO_TRACK, 'result 1', 'Paused 3 0 0 | 1 %d 0' % track, track + 1, RUNNING)
    order(number, 'done', 'Paused %d 0 0 | 1 %d 0' % (number, track), RUNNING)
    position(place, 'done', 'Paused %d 0 0 | 1 %d %d' % (number, track, place), RUNNING)


# 6 reads −1 (SCOPE 16.4).
case('the duration of a running recording')
stand_in_running(3, 0, 0)
value(6, 'read 70 17 00 00', 'Paused 3 0 0 | 1 0 0', catalogue=RUNNING)
control(NEXT_TRACK, 'result 1', 'Paused 3 0 0 | 1 1 0', catalogue=RUNNING)
value(6, 'read ff ff ff ff', 'Paused 3 0 0 | 1 1 0', catalogue=RUNNING)
value(7, 'read 00 00 00 00', 'Paused 3 0 0 | 1 1 0', catalogue=RUNNING)
value(5, 'read 52 61 73 74', 'Paused 3 0 0 | 1 1 0', catalogue=RUNNING)

# An advance never ends a running recording: at 8,640,000 the player stays there in its state (SCOPE 13.6). In order 3 track 2 is the last, in order 1 each
# track is.
for number, track in ((1, 1), (2, 1), (3, 1), (3, 2), (4, 2), (5, 1), (8, 2)):
    case('a running recording in order %d' % number)
    stand_in_running(number, track, FURTHEST - 2)
    control(PLAY, 'result 1', 'Playing %d 0 0 | 1 %d 8639998' % (number, track), catalogue=RUNNING)
    advance(0, 'done', 'Playing %d 0 0 | 1 %d 8639998' % (number, track), catalogue=RUNNING)
    advance(1, 'done', 'Playing %d 0 0 | 1 %d 8639999' % (number, track), catalogue=RUNNING)
    advance(1, 'done', 'Playing %d 0 0 | 1 %d 8640000' % (number, track), catalogue=RUNNING)
    advance(0, 'done', 'Playing %d 0 0 | 1 %d 8640000' % (number, track), catalogue=RUNNING)
    advance(LONGEST, 'done', 'Playing %d 0 0 | 1 %d 8640000' % (number, track), catalogue=RUNNING)
    position(0, 'done', 'Playing %d 0 0 | 1 %d 0' % (number, track), RUNNING)
    advance(LONGEST, 'done', 'Playing %d 0 0 | 1 %d 8640000' % (number, track), catalogue=RUNNING)
    control(PAUSE, 'result 1', 'Paused %d 0 0 | 1 %d 8640000' % (number, track), catalogue=RUNNING)
    advance(1, 'done', 'Paused %d 0 0 | 1 %d 8640000' % (number, track), catalogue=RUNNING)

# A finished track ends as ever and goes on to a running one; one that is held is finished, and then ends.
case('from a finished recording into a running one')
stand_in_running(3, 0, 5999)
control(PLAY, 'result 1', 'Playing 3 0 0 | 1 0 5999', catalogue=RUNNING)
advance(1, 'done', 'Playing 3 0 0 | 1 1 0', catalogue=RUNNING)
advance(300, 'done', 'Playing 3 0 0 | 1 1 300', catalogue=RUNNING)
# Track 1 of the sample lasts 300.
advance(0, 'done', 'Playing 3 0 0 | 1 2 0')

# Track moves and group moves are as ever.
case('moves between running recordings')
stand_in_running(3, 1, FURTHEST)
control(NEXT_TRACK, 'result 1', 'Paused 3 0 0 | 1 2 0', catalogue=RUNNING)
control(NEXT_TRACK, 'result 4', 'Paused 3 0 0 | 1 2 0', catalogue=RUNNING)
control(GOTO_TRACK, 'result 1', 'Paused 3 0 0 | 1 1 0', -2, RUNNING)
control(NEXT_GROUP, 'result 1', 'Paused 3 0 0 | 3 3 0', catalogue=RUNNING)
position(FURTHEST, 'done', 'Paused 3 0 0 | 3 3 8640000', RUNNING)
control(PREVIOUS_GROUP, 'result 1', 'Paused 3 0 0 | 1 0 0', catalogue=RUNNING)

# D is 8,640,000 (SCOPE 4.9): Seeking at both ends stays Seeking.
case('Seeking in a running recording')
stand_in_running(3, 1, FURTHEST - 5)
control(FORWARD, 'result 1', 'Seeking 3 0 4 | 1 1 8639995', catalogue=RUNNING)
advance(1, 'done', 'Seeking 3 0 4 | 1 1 8639999', catalogue=RUNNING)
advance(1, 'done', 'Seeking 3 0 4 | 1 1 8640000', catalogue=RUNNING)
advance(LONGEST, 'done', 'Seeking 3 0 4 | 1 1 8640000', catalogue=RUNNING)
control(REWIND, 'result 1', 'Seeking 3 0 -4 | 1 1 8640000', catalogue=RUNNING)
advance(2159999, 'done', 'Seeking 3 0 -4 | 1 1 4', catalogue=RUNNING)
advance(1, 'done', 'Seeking 3 0 -4 | 1 1 0', catalogue=RUNNING)
advance(LONGEST, 'done', 'Seeking 3 0 -4 | 1 1 0', catalogue=RUNNING)

case('Move Relative in a running recording')
stand_in_running(3, 2, 100)
control(RELATIVE, 'result 1', 'Paused 3 0 0 | 1 2 8639999', FURTHEST - 101, RUNNING)
control(RELATIVE, 'result 1', 'Paused 3 0 0 | 1 2 8640000', 1, RUNNING)
control(RELATIVE, 'result 1', 'Paused 3 0 0 | 1 2 8640000', MOST, RUNNING)
control(RELATIVE, 'result 1', 'Paused 3 0 0 | 1 2 8639999', -1, RUNNING)
control(RELATIVE, 'result 1', 'Paused 3 0 0 | 1 2 0', LEAST, RUNNING)

# Of a running recording a negative position write is accepted and moves nothing (SCOPE 9.9).
case('position writes in a running recording')
stand_in_running(3, 1, 1000)
position(-1, 'done', 'Paused 3 0 0 | 1 1 1000', RUNNING)
position(LEAST, 'done', 'Paused 3 0 0 | 1 1 1000', RUNNING)
position(-FURTHEST, 'done', 'Paused 3 0 0 | 1 1 1000', RUNNING)
position(0, 'done', 'Paused 3 0 0 | 1 1 0', RUNNING)
position(8639999, 'done', 'Paused 3 0 0 | 1 1 8639999', RUNNING)
position(FURTHEST, 'done', 'Paused 3 0 0 | 1 1 8640000', RUNNING)
position(1000, 'done', 'Paused 3 0 0 | 1 1 1000', RUNNING)
position(FURTHEST + 1, 'done', 'Paused 3 0 0 | 1 1 8640000', RUNNING)
position(-1, 'done', 'Paused 3 0 0 | 1 1 8640000', RUNNING)
position(0, 'done', 'Paused 3 0 0 | 1 1 0', RUNNING)
position(MOST, 'done', 'Paused 3 0 0 | 1 1 8640000', RUNNING)
control(REWIND, 'result 1', 'Seeking 3 0 -4 | 1 1 8640000', catalogue=RUNNING)
position(-1, 'done', 'Seeking 3 0 -4 | 1 1 8640000', RUNNING)
position(5, 'done', 'Seeking 3 0 -4 | 1 1 5', RUNNING)
# Of a finished recording a negative one counts from D.
control(FIRST_TRACK, 'result 1', 'Playing 3 0 0 | 1 0 0', catalogue=RUNNING)
position(-1, 'done', 'Playing 3 0 0 | 1 0 5999', RUNNING)

# Of a running recording Next Segment with no later start, and a Goto that needs it, have result 4 (SCOPE 10.4, 10.8); after results 2, 3 and 4 the player is
# as before (SCOPE 9.4).
case('segments of a running recording')
stand_in_running(3, 1, 0)
control(NEXT_SEGMENT, 'result 1', 'Paused 3 0 0 | 1 1 1500', catalogue=RUNNING)
control(NEXT_SEGMENT, 'result 1', 'Paused 3 0 0 | 1 1 8639999', catalogue=RUNNING)
control(NEXT_SEGMENT, 'result 4', 'Paused 3 0 0 | 1 1 8639999', catalogue=RUNNING)
position(FURTHEST, 'done', 'Paused 3 0 0 | 1 1 8640000', RUNNING)
control(NEXT_SEGMENT, 'result 4', 'Paused 3 0 0 | 1 1 8640000', catalogue=RUNNING)
control(GOTO_SEGMENT, 'result 4', 'Paused 3 0 0 | 1 1 8640000', 4, RUNNING)
control(GOTO_SEGMENT, 'result 4', 'Paused 3 0 0 | 1 1 8640000', 5, RUNNING)
control(GOTO_SEGMENT, 'result 4', 'Paused 3 0 0 | 1 1 8640000', MOST, RUNNING)
control(GOTO_SEGMENT, 'result 1', 'Paused 3 0 0 | 1 1 8640000', 0, RUNNING)
control(GOTO_SEGMENT, 'result 1', 'Paused 3 0 0 | 1 1 8639999', 3, RUNNING)
control(GOTO_SEGMENT, 'result 1', 'Paused 3 0 0 | 1 1 1500', 2, RUNNING)
control(GOTO_SEGMENT, 'result 4', 'Paused 3 0 0 | 1 1 1500', 4, RUNNING)
control(GOTO_SEGMENT, 'result 1', 'Paused 3 0 0 | 1 1 0', 1, RUNNING)
control(GOTO_SEGMENT, 'result 1', 'Paused 3 0 0 | 1 1 8639999', -1, RUNNING)
control(GOTO_SEGMENT, 'result 1', 'Paused 3 0 0 | 1 1 1500', -2, RUNNING)
control(GOTO_SEGMENT, 'result 1', 'Paused 3 0 0 | 1 1 0', -4, RUNNING)
control(LAST_SEGMENT, 'result 1', 'Paused 3 0 0 | 1 1 8639999', catalogue=RUNNING)
control(GOTO_SEGMENT, 'result 1', 'Paused 3 0 0 | 1 1 0', LEAST, RUNNING)
# At 8,640,000 the position is 1 past the last start.
position(FURTHEST, 'done', 'Paused 3 0 0 | 1 1 8640000', RUNNING)
control(PREVIOUS_SEGMENT, 'result 1', 'Paused 3 0 0 | 1 1 1500', catalogue=RUNNING)
control(FIRST_SEGMENT, 'result 1', 'Paused 3 0 0 | 1 1 0', catalogue=RUNNING)

# A track without segments is one segment from 0 (SCOPE 10.1).
case('a running recording without segments')
stand_in_running(3, 2, 0)
control(NEXT_SEGMENT, 'result 4', 'Paused 3 0 0 | 1 2 0', catalogue=RUNNING)
position(777, 'done', 'Paused 3 0 0 | 1 2 777', RUNNING)
control(NEXT_SEGMENT, 'result 4', 'Paused 3 0 0 | 1 2 777', catalogue=RUNNING)
control(GOTO_SEGMENT, 'result 4', 'Paused 3 0 0 | 1 2 777', 2, RUNNING)
control(GOTO_SEGMENT, 'result 4', 'Paused 3 0 0 | 1 2 777', MOST, RUNNING)
control(GOTO_SEGMENT, 'result 1', 'Paused 3 0 0 | 1 2 777', 0, RUNNING)
control(GOTO_SEGMENT, 'result 1', 'Paused 3 0 0 | 1 2 0', 1, RUNNING)
position(FURTHEST, 'done', 'Paused 3 0 0 | 1 2 8640000', RUNNING)
control(NEXT_SEGMENT, 'result 4', 'Paused 3 0 0 | 1 2 8640000', catalogue=RUNNING)
control(GOTO_SEGMENT, 'result 1', 'Paused 3 0 0 | 1 2 0', -2, RUNNING)
position(777, 'done', 'Paused 3 0 0 | 1 2 777', RUNNING)
control(PREVIOUS_SEGMENT, 'result 1', 'Paused 3 0 0 | 1 2 0', catalogue=RUNNING)
control(LAST_SEGMENT, 'result 1', 'Paused 3 0 0 | 1 2 0', catalogue=RUNNING)

# 200 and 201 go by the same rules (SCOPE 4.8, 20.5).
case('a wrong position in a running recording')
stand_in_running(3, 1, 0)
damage(PLACE, FURTHEST, 'Paused 3 0 0 | 1 1 8640000')
check('nothing', 'Paused 3 0 0 | 1 1 8640000', RUNNING)
check('refused 201', 'Paused 3 0 0 | 1 1 8640000')
damage(PLACE, FURTHEST + 1, 'Paused 3 0 0 | 1 1 8640001')
check('refused 201', 'Paused 3 0 0 | 1 1 8640001', RUNNING)
damage(PLACE, LONGEST, 'Paused 3 0 0 | 1 1 4294967295')
check('refused 201', 'Paused 3 0 0 | 1 1 4294967295', RUNNING)


# ---- Values

# While Inactive the title is empty, duration and position read −1 (SCOPE 16.3, 16.4); 16 reads 0x00FF (SCOPE 16.7). Of the values 1 and 5 are text, and 4 is
# empty; 6, 7 and 19 have four octets, 16 and 18 two, 10 to 14 six or none, the others one (SCOPE 16.1).
case('values while Inactive')
start(b'Radio', ALL, 7, 'done', 'Inactive 3 0 0 | 0 0 0')
connect(LEFT, 517, ENCRYPTED, 'done')
value(1, 'read 52 61 64 69 6f', 'Inactive 3 0 0 | 0 0 0')
value(5, 'read', 'Inactive 3 0 0 | 0 0 0')
value(6, 'read ff ff ff ff', 'Inactive 3 0 0 | 0 0 0')
value(7, 'read ff ff ff ff', 'Inactive 3 0 0 | 0 0 0')
value(8, 'read 00', 'Inactive 3 0 0 | 0 0 0')
value(9, 'read 00', 'Inactive 3 0 0 | 0 0 0')
for characteristic in (10, 11, 12, 13, 14):
    value(characteristic, 'read', 'Inactive 3 0 0 | 0 0 0')
value(15, 'read 03', 'Inactive 3 0 0 | 0 0 0')
value(16, 'read ff 00', 'Inactive 3 0 0 | 0 0 0')
value(17, 'read 00', 'Inactive 3 0 0 | 0 0 0')
value(19, 'read ff ff 1f 00', 'Inactive 3 0 0 | 0 0 0')
value(22, 'read 07', 'Inactive 3 0 0 | 0 0 0')

case('values of track 0')
stand(6, 0, 1501)
speed(-64, 'done', 'Paused 6 -64 0 | 1 0 1501')
value(1, 'read 52 61 64 69 6f', 'Paused 6 -64 0 | 1 0 1501')
value(5, 'read c3 9c 62 65 72 66 61 68 72 74', 'Paused 6 -64 0 | 1 0 1501')
value(6, 'read 70 17 00 00', 'Paused 6 -64 0 | 1 0 1501')
value(7, 'read dd 05 00 00', 'Paused 6 -64 0 | 1 0 1501')
value(8, 'read c0', 'Paused 6 -64 0 | 1 0 1501')
value(9, 'read 00', 'Paused 6 -64 0 | 1 0 1501')
value(10, 'read 00 30 00 00 00 00', 'Paused 6 -64 0 | 1 0 1501')
value(11, 'read 00 10 00 00 00 00', 'Paused 6 -64 0 | 1 0 1501')
# By rising stamp track 0 is the last, and track 1 the first.
value(12, 'read 01 10 00 00 00 00', 'Paused 6 -64 0 | 1 0 1501')
value(13, 'read 00 20 00 00 00 00', 'Paused 6 -64 0 | 1 0 1501')
value(14, 'read 01 20 00 00 00 00', 'Paused 6 -64 0 | 1 0 1501')
value(15, 'read 06', 'Paused 6 -64 0 | 1 0 1501')
value(16, 'read ff 00', 'Paused 6 -64 0 | 1 0 1501')
value(17, 'read 02', 'Paused 6 -64 0 | 1 0 1501')
value(19, 'read ff ff 1f 00', 'Paused 6 -64 0 | 1 0 1501')
value(22, 'read 07', 'Paused 6 -64 0 | 1 0 1501')
control(REWIND, 'result 1', 'Seeking 6 -64 -4 | 1 0 1501')
value(9, 'read fc', 'Seeking 6 -64 -4 | 1 0 1501')
value(17, 'read 03', 'Seeking 6 -64 -4 | 1 0 1501')
control(PLAY, 'result 1', 'Playing 6 -64 0 | 1 0 1501')
value(17, 'read 01', 'Playing 6 -64 0 | 1 0 1501')

case('values of the other tracks')
stand(3, 1, 299)
value(5, 'read 52 61 73 74', 'Paused 3 0 0 | 1 1 299')
value(6, 'read 2c 01 00 00', 'Paused 3 0 0 | 1 1 299')
value(7, 'read 2b 01 00 00', 'Paused 3 0 0 | 1 1 299')
stand(3, 2, 0)
value(5, 'read', 'Paused 3 0 0 | 1 2 0')
value(6, 'read 00 00 00 00', 'Paused 3 0 0 | 1 2 0')
value(7, 'read 00 00 00 00', 'Paused 3 0 0 | 1 2 0')
stand_in_3(3, 256)
value(5, 'read 5a 69 65 6c', 'Paused 3 0 0 | 3 3 256')
value(6, 'read 84 03 00 00', 'Paused 3 0 0 | 3 3 256')
value(7, 'read 00 01 00 00', 'Paused 3 0 0 | 3 3 256')
deactivate('done', 'Inactive 3 0 0 | 0 0 0')
value(5, 'read', 'Inactive 3 0 0 | 0 0 0')
value(7, 'read ff ff ff ff', 'Inactive 3 0 0 | 0 0 0')

case('another Content Control ID')
start(b'', 0x00ABCDEF, 255, 'done', 'Inactive 3 0 0 | 0 0 0')
connect(LEFT, 517, ENCRYPTED, 'done')
value(1, 'read', 'Inactive 3 0 0 | 0 0 0')
value(19, 'read ef cd 0b 00', 'Inactive 3 0 0 | 0 0 0')
value(22, 'read ff', 'Inactive 3 0 0 | 0 0 0')

# The lent output of a read or take is under 128 octets (SCOPE 20.2).
case('an output of 127 octets')
stand(3, 0, 1501)
for characteristic in (1, 5, 6, 7, 8, 9, 10, 11, 12, 13, 14, 15, 16, 17, 19, 22):
    value(characteristic, 'refused 205', 'Paused 3 0 0 | 1 0 1501', room=127)
value(7, 'refused 205', 'Paused 3 0 0 | 1 0 1501', room=0)
value(7, 'read dd 05 00 00', 'Paused 3 0 0 | 1 0 1501', room=128)


# ---- Names

# The name has over 128 octets or is not UTF-8 (SCOPE 20.2).
case('names')
start(b'Radio', ALL, 7, 'done', 'Inactive 3 0 0 | 0 0 0')
connect(LEFT, 517, ENCRYPTED, 'done')
set_name(b'a' * 128, 'done', 'Inactive 3 0 0 | 0 0 0')
value(1, 'read' + ' 61' * 128, 'Inactive 3 0 0 | 0 0 0')
set_name(b'a' * 129, 'refused 207 128', 'Inactive 3 0 0 | 0 0 0')
set_name(b'a' * 255, 'refused 207 128', 'Inactive 3 0 0 | 0 0 0')
value(1, 'read' + ' 61' * 128, 'Inactive 3 0 0 | 0 0 0')
set_name(b'\xC3\xA9', 'done', 'Inactive 3 0 0 | 0 0 0')
value(1, 'read c3 a9', 'Inactive 3 0 0 | 0 0 0')
set_name(b'\xC3\xA9' * 64 + b'a', 'refused 207 128', 'Inactive 3 0 0 | 0 0 0')
set_name(b'a\xFF', 'refused 207 1', 'Inactive 3 0 0 | 0 0 0')
set_name(b'a\xC3', 'refused 207 1', 'Inactive 3 0 0 | 0 0 0')
set_name(b'\xC0\x80', 'refused 207 0', 'Inactive 3 0 0 | 0 0 0')
set_name(b'\xED\xA0\x80', 'refused 207 0', 'Inactive 3 0 0 | 0 0 0')
set_name(b'\xF4\x90\x80\x80', 'refused 207 0', 'Inactive 3 0 0 | 0 0 0')
value(1, 'read c3 a9', 'Inactive 3 0 0 | 0 0 0')
set_name(b'\xC3\xA9' * 64, 'done', 'Inactive 3 0 0 | 0 0 0')
value(1, 'read' + ' c3 a9' * 64, 'Inactive 3 0 0 | 0 0 0')
set_name(b'', 'done', 'Inactive 3 0 0 | 0 0 0')
value(1, 'read', 'Inactive 3 0 0 | 0 0 0')

case('a name is kept and keeps the rest')
stand(7, 1, 100)
speed(3, 'done', 'Paused 7 3 0 | 1 1 100')
control(FORWARD, 'result 1', 'Seeking 7 3 4 | 1 1 100')
set_name(b'Box', 'done', 'Seeking 7 3 4 | 1 1 100')
set_name(b'\x80', 'refused 207 0', 'Seeking 7 3 4 | 1 1 100')
control(NEXT_GROUP, 'result 1', 'Playing 7 3 0 | 3 3 0')
deactivate('done', 'Inactive 7 3 0 | 0 0 0')
value(1, 'read 42 6f 78', 'Inactive 7 3 0 | 0 0 0')

# A refused start leaves the state that there was.
case('a start with a wrong name')
stand(7, 1, 100)
start(b'a' * 129, ALL, 7, 'refused 207 128', 'Paused 7 0 0 | 1 1 100')
start(b'\xE2\x82', ALL, 7, 'refused 207 0', 'Paused 7 0 0 | 1 1 100')
start(b'a' * 128, ALL, 9, 'done', 'Inactive 3 0 0 | 0 0 0')
connect(LEFT, 517, ENCRYPTED, 'done')
value(1, 'read' + ' 61' * 128, 'Inactive 3 0 0 | 0 0 0')
value(22, 'read 09', 'Inactive 3 0 0 | 0 0 0')

# The offset, within the name or title, of the first octet that does not start a whole valid character, with all octets before it being whole valid characters
# (SCOPE 2.6). A name is that of a start, or one that is set.
case('where a name is wrong')
stand(7, 1, 100)
for name, offset in (
        # Bad at 0.
        (b'\xFF', 0),
        (b'\x80', 0),
        (b'\xFFabc', 0),
        (b'\xC3abc', 0),
        (b'\xFF' + b'a' * 127, 0),
        # In the middle. Octets are counted, not characters.
        (b'abc\xFFdef', 3),
        (b'\xC3\xA9\xE2\x82\xAC\xF0\x9D\x84\x9Ea\xFFb', 10),
        (b'a' * 64 + b'\xFF' + b'a' * 63, 64),
        # The first of two places.
        (b'ab\xFFcd\xFF', 2),
        (b'ab\xFFcd\xC3', 2),
        # Something else in place of a tail, in a character of two, three and four octets.
        (b'ab\xC3cd', 2),
        (b'ab\xE2\x82cd', 2),
        (b'ab\xF0\x9D\x84cd', 2),
        (b'ab\xF0\x9D\x84\xC3\xA9', 2),
        # The name ends inside a character.
        (b'ab\xC3', 2),
        (b'ab\xE2', 2),
        (b'ab\xE2\x82', 2),
        (b'ab\xF0', 2),
        (b'ab\xF0\x9D', 2),
        (b'ab\xF0\x9D\x84', 2),
        # 128 octets that end inside a character, and those whose last octet or last character is bad.
        (b'a' * 127 + b'\xC3', 127),
        (b'a' * 126 + b'\xE2\x82', 126),
        (b'a' * 125 + b'\xF0\x9D\x84', 125),
        (b'a' * 127 + b'\xFF', 127),
        (b'a' * 127 + b'\x80', 127),
        (b'a' * 126 + b'\xC3a', 126),
        (b'a' * 124 + b'\xF0\x9D\x84a', 124),
        (b'\xC3\xA9' * 63 + b'a\xC3', 127)):
    set_name(name, 'refused 207 %d' % offset, 'Paused 7 0 0 | 1 1 100')
    start(name, ALL, 9, 'refused 207 %d' % offset, 'Paused 7 0 0 | 1 1 100')
value(1, 'read 52 61 64 69 6f', 'Paused 7 0 0 | 1 1 100')
value(22, 'read 07', 'Paused 7 0 0 | 1 1 100')

# Of a name over 128 octets 207 carries 128, tested first (SCOPE 20.4).
case('names over 128 octets, bad ones among them')
stand(7, 1, 100)
for name in (
        b'a' * 129,
        b'a' * 130,
        b'a' * 255,
        b'\xFF' + b'a' * 128,
        b'a' * 64 + b'\xFF' + b'a' * 64,
        b'a' * 127 + b'\xFFa',
        b'a' * 128 + b'\xFF',
        b'a' * 127 + b'\xC3\xA9',
        b'a' * 126 + b'\xE2\x82\xAC',
        b'a' * 126 + b'\xE2\x82a',
        b'a' * 128 + b'\xC3\xA9',
        b'\xC3\xA9' * 65,
        b'\xFF' * 129,
        b'\xFF' * 255):
    set_name(name, 'refused 207 128', 'Paused 7 0 0 | 1 1 100')
    start(name, ALL, 9, 'refused 207 128', 'Paused 7 0 0 | 1 1 100')
value(1, 'read 52 61 64 69 6f', 'Paused 7 0 0 | 1 1 100')
value(22, 'read 07', 'Paused 7 0 0 | 1 1 100')

# No octets, and 128 of which the last are a character of one, two, three and four.
case('names of 0 and of 128 octets')
for name in (b'', b'a' * 128, b'a' * 126 + b'\xC3\xA9', b'a' * 125 + b'\xE2\x82\xAC', b'a' * 124 + b'\xF0\x9D\x84\x9E'):
    start(name, ALL, 9, 'done', 'Inactive 3 0 0 | 0 0 0')
    connect(LEFT, 517, ENCRYPTED, 'done')
    value(1, 'read' + octets(name), 'Inactive 3 0 0 | 0 0 0')
    set_name(b'Box', 'done', 'Inactive 3 0 0 | 0 0 0')
    value(1, 'read 42 6f 78', 'Inactive 3 0 0 | 0 0 0')
    set_name(name, 'done', 'Inactive 3 0 0 | 0 0 0')
    value(1, 'read' + octets(name), 'Inactive 3 0 0 | 0 0 0')


# ---- Refusals. A refusal alters nothing (SCOPE 20.1); of several the first in the table is given (SCOPE 20.2). 200 with a bad title and 207 carry a place.

# A rule of the catalogue fails, or a lent table ends inside a record (SCOPE 4.14); 200 for a bad title carries the lowest such track and the offset; every
# other 200 carries nothing and comes before (SCOPE 4.14).
for catalogue, answer in ((OWN_PARENT, 'refused 200'), (CUT, 'refused 200'), (BAD_TITLES, 'refused 200 1 5'), (BAD_AND_WRONG, 'refused 200')):
    case('a wrong catalogue')
    stand(3, 1, 100)
    control(PLAY, 'result 1', 'Playing 3 0 0 | 1 1 100')
    start(b'Radio', ALL, 7, answer, 'Playing 3 0 0 | 1 1 100', catalogue)
    set_name(b'Box', answer, 'Playing 3 0 0 | 1 1 100', catalogue)
    activate(1, answer, 'Playing 3 0 0 | 1 1 100', catalogue=catalogue)
    deactivate(answer, 'Playing 3 0 0 | 1 1 100', catalogue=catalogue)
    advance(10, answer, 'Playing 3 0 0 | 1 1 100', catalogue=catalogue)
    position(10, answer, 'Playing 3 0 0 | 1 1 100', catalogue)
    speed(10, answer, 'Playing 3 0 0 | 1 1 100', catalogue)
    order(4, answer, 'Playing 3 0 0 | 1 1 100', catalogue)
    control(PAUSE, answer, 'Playing 3 0 0 | 1 1 100', catalogue=catalogue)
    value(7, answer, 'Playing 3 0 0 | 1 1 100', catalogue=catalogue)
    check(answer, 'Playing 3 0 0 | 1 1 100', catalogue)
    # 200 before 205, 207, 208, 0x13.
    value(7, answer, 'Playing 3 0 0 | 1 1 100', 127, catalogue)
    start(b'\xFF', ALL, 7, answer, 'Playing 3 0 0 | 1 1 100', catalogue)
    set_name(b'\xFF', answer, 'Playing 3 0 0 | 1 1 100', catalogue)
    activate(9, answer, 'Playing 3 0 0 | 1 1 100', catalogue=catalogue)
    order(0, answer, 'Playing 3 0 0 | 1 1 100', catalogue)
    control(0xFF, answer, 'Playing 3 0 0 | 1 1 100', catalogue=catalogue)
    # 200 before 201.
    damage(TRACK, 3, 'Playing 3 0 0 | 1 3 100')
    check(answer, 'Playing 3 0 0 | 1 3 100', catalogue)
    value(7, answer, 'Playing 3 0 0 | 1 3 100', 127, catalogue)
    check('refused 201', 'Playing 3 0 0 | 1 3 100')

# The titles of tracks 1 and 3 are bad in that catalogue, those of tracks 0 and 2 are not. The lowest bad one is told, whatever track is current.
case('a bad title, and any track current')
for track in (0, 1, 2):
    stand(3, track, 0)
    value(5, 'refused 200 1 5', 'Paused 3 0 0 | 1 %d 0' % track, catalogue=BAD_TITLES)
    control(PLAY, 'refused 200 1 5', 'Paused 3 0 0 | 1 %d 0' % track, catalogue=BAD_TITLES)
    value(5, 'refused 200', 'Paused 3 0 0 | 1 %d 0' % track, catalogue=BAD_AND_WRONG)
stand_in_3(3, 256)
value(5, 'refused 200 1 5', 'Paused 3 0 0 | 3 3 256', catalogue=BAD_TITLES)
advance(0, 'refused 200 1 5', 'Paused 3 0 0 | 3 3 256', catalogue=BAD_TITLES)
value(5, 'refused 200', 'Paused 3 0 0 | 3 3 256', catalogue=BAD_AND_WRONG)
deactivate('done', 'Inactive 3 0 0 | 0 0 0')
value(5, 'refused 200 1 5', 'Inactive 3 0 0 | 0 0 0', catalogue=BAD_TITLES)
position(10, 'refused 200 1 5', 'Inactive 3 0 0 | 0 0 0', BAD_TITLES)
activate(3, 'refused 200 1 5', 'Inactive 3 0 0 | 0 0 0', catalogue=BAD_TITLES)
check('refused 200 1 5', 'Inactive 3 0 0 | 0 0 0', BAD_TITLES)
check('refused 200', 'Inactive 3 0 0 | 0 0 0', BAD_AND_WRONG)
check('nothing', 'Inactive 3 0 0 | 0 0 0')

# A player in the state breaks a rule for this catalogue (group, track in it, position, state, seeking speed, order), or its name does (SCOPE 20.5).
case('every call refuses a wrong state')
stand(3, 0, 1500)
damage(PLACE, 6001, 'Paused 3 0 0 | 1 0 6001')
check('refused 201', 'Paused 3 0 0 | 1 0 6001')
set_name(b'Box', 'refused 201', 'Paused 3 0 0 | 1 0 6001')
activate(1, 'refused 201', 'Paused 3 0 0 | 1 0 6001')
deactivate('refused 201', 'Paused 3 0 0 | 1 0 6001')
advance(10, 'refused 201', 'Paused 3 0 0 | 1 0 6001')
position(10, 'refused 201', 'Paused 3 0 0 | 1 0 6001')
speed(10, 'refused 201', 'Paused 3 0 0 | 1 0 6001')
order(4, 'refused 201', 'Paused 3 0 0 | 1 0 6001')
control(PLAY, 'refused 201', 'Paused 3 0 0 | 1 0 6001')
value(7, 'refused 201', 'Paused 3 0 0 | 1 0 6001')
# 201 before 207, 208, 0x13 and any result; 205 before 201.
set_name(b'\xFF', 'refused 201', 'Paused 3 0 0 | 1 0 6001')
activate(9, 'refused 201', 'Paused 3 0 0 | 1 0 6001')
order(0, 'refused 201', 'Paused 3 0 0 | 1 0 6001')
control(0xFF, 'refused 201', 'Paused 3 0 0 | 1 0 6001')
value(7, 'refused 205', 'Paused 3 0 0 | 1 0 6001', room=127)
# Start takes no state.
start(b'Box', ALL, 7, 'done', 'Inactive 3 0 0 | 0 0 0')

case('a wrong group')
stand(3, 0, 1500)
for group in (0, 2, 3, 4, 9, LONGEST):
    damage(GROUP, group, 'Paused 3 0 0 | %d 0 1500' % group)
    check('refused 201', 'Paused 3 0 0 | %d 0 1500' % group)
damage(GROUP, 1, 'Paused 3 0 0 | 1 0 1500')
check('nothing', 'Paused 3 0 0 | 1 0 1500')

case('a wrong track')
stand(3, 0, 0)
for track in (3, 4, 256, LONGEST):
    damage(TRACK, track, 'Paused 3 0 0 | 1 %d 0' % track)
    check('refused 201', 'Paused 3 0 0 | 1 %d 0' % track)
damage(TRACK, 2, 'Paused 3 0 0 | 1 2 0')
check('nothing', 'Paused 3 0 0 | 1 2 0')
stand_in_3(3, 0)
damage(TRACK, 2, 'Paused 3 0 0 | 3 2 0')
check('refused 201', 'Paused 3 0 0 | 3 2 0')

# Otherwise the position is 0 to D (SCOPE 8.2).
case('a wrong position')
stand(3, 1, 0)
damage(PLACE, 300, 'Paused 3 0 0 | 1 1 300')
check('nothing', 'Paused 3 0 0 | 1 1 300')
damage(PLACE, 301, 'Paused 3 0 0 | 1 1 301')
check('refused 201', 'Paused 3 0 0 | 1 1 301')
damage(PLACE, LONGEST, 'Paused 3 0 0 | 1 1 4294967295')
check('refused 201', 'Paused 3 0 0 | 1 1 4294967295')
stand(3, 2, 0)
damage(PLACE, 1, 'Paused 3 0 0 | 1 2 1')
check('refused 201', 'Paused 3 0 0 | 1 2 1')

# The player is Inactive exactly when there is no current track (SCOPE 8.2).
case('a wrong state')
stand(3, 0, 0)
damage(MEDIA, 0, 'Inactive 3 0 0 | 1 0 0')
check('refused 201', 'Inactive 3 0 0 | 1 0 0')
damage(MEDIA, 1, 'Playing 3 0 0 | 1 0 0')
check('nothing', 'Playing 3 0 0 | 1 0 0')
damage(MEDIA, 4, '4 3 0 0 | 1 0 0')
check('refused 201', '4 3 0 0 | 1 0 0')
damage(MEDIA, 255, '255 3 0 0 | 1 0 0')
check('refused 201', '255 3 0 0 | 1 0 0')
start(b'Radio', ALL, 7, 'done', 'Inactive 3 0 0 | 0 0 0')
damage(MEDIA, 2, 'Paused 3 0 0 | 0 0 0')
check('refused 201', 'Paused 3 0 0 | 0 0 0')

case('a place while Inactive')
start(b'Radio', ALL, 7, 'done', 'Inactive 3 0 0 | 0 0 0')
damage(GROUP, 1, 'Inactive 3 0 0 | 1 0 0')
check('refused 201', 'Inactive 3 0 0 | 1 0 0')
damage(GROUP, 0, 'Inactive 3 0 0 | 0 0 0')
damage(TRACK, 1, 'Inactive 3 0 0 | 0 1 0')
check('refused 201', 'Inactive 3 0 0 | 0 1 0')
damage(TRACK, 0, 'Inactive 3 0 0 | 0 0 0')
damage(PLACE, 1, 'Inactive 3 0 0 | 0 0 1')
check('refused 201', 'Inactive 3 0 0 | 0 0 1')
damage(PLACE, 0, 'Inactive 3 0 0 | 0 0 0')
check('nothing', 'Inactive 3 0 0 | 0 0 0')

# Seeking speed rungs: −32, −16, −8, −4, 4, 8, 16, 32 (SCOPE 8.5); outside Seeking the speed is 0 (SCOPE 8.5).
case('a wrong seeking speed')
stand(3, 0, 0)
damage(SEEKING_SPEED, 4, 'Paused 3 0 4 | 1 0 0')
check('refused 201', 'Paused 3 0 4 | 1 0 0')
damage(MEDIA, 1, 'Playing 3 0 4 | 1 0 0')
check('refused 201', 'Playing 3 0 4 | 1 0 0')
damage(MEDIA, 3, 'Seeking 3 0 4 | 1 0 0')
check('nothing', 'Seeking 3 0 4 | 1 0 0')
for rung in (-32, -16, -8, -4, 4, 8, 16, 32):
    damage(SEEKING_SPEED, rung, 'Seeking 3 0 %d | 1 0 0' % rung)
    check('nothing', 'Seeking 3 0 %d | 1 0 0' % rung)
for other in (0, 1, 2, 5, 31, 64, 127, -1, -2, -3, -5, -31, -33, -64, -128):
    damage(SEEKING_SPEED, other, 'Seeking 3 0 %d | 1 0 0' % other)
    check('refused 201', 'Seeking 3 0 %d | 1 0 0' % other)
start(b'Radio', ALL, 7, 'done', 'Inactive 3 0 0 | 0 0 0')
damage(SEEKING_SPEED, 4, 'Inactive 3 0 4 | 0 0 0')
check('refused 201', 'Inactive 3 0 4 | 0 0 0')

case('a wrong order')
stand(3, 0, 0)
for number in (1, 2, 3, 4, 5, 6, 7, 8):
    damage(PLAYING_ORDER, number, 'Paused %d 0 0 | 1 0 0' % number)
    check('nothing', 'Paused %d 0 0 | 1 0 0' % number)
for number in (0, 9, 255):
    damage(PLAYING_ORDER, number, 'Paused %d 0 0 | 1 0 0' % number)
    check('refused 201', 'Paused %d 0 0 | 1 0 0' % number)
start(b'Radio', ALL, 7, 'done', 'Inactive 3 0 0 | 0 0 0')
damage(PLAYING_ORDER, 0, 'Inactive 0 0 0 | 0 0 0')
check('refused 201', 'Inactive 0 0 0 | 0 0 0')

# The octets behind the length of a name are no part of it. 201 does not tell where the name of a state is wrong.
case('a wrong name')
stand(3, 0, 0)
damage(NAME_LENGTH, 128, 'Paused 3 0 0 | 1 0 0')
check('nothing', 'Paused 3 0 0 | 1 0 0')
damage(NAME_LENGTH, 129, 'Paused 3 0 0 | 1 0 0')
check('refused 201', 'Paused 3 0 0 | 1 0 0')
damage(NAME_LENGTH, 255, 'Paused 3 0 0 | 1 0 0')
check('refused 201', 'Paused 3 0 0 | 1 0 0')
damage(NAME_LENGTH, 5, 'Paused 3 0 0 | 1 0 0')
check('nothing', 'Paused 3 0 0 | 1 0 0')
damage(NAME_FIRST, 0xFF, 'Paused 3 0 0 | 1 0 0')
check('refused 201', 'Paused 3 0 0 | 1 0 0')
value(1, 'refused 201', 'Paused 3 0 0 | 1 0 0')
set_name(b'Box', 'refused 201', 'Paused 3 0 0 | 1 0 0')
damage(NAME_FIRST, 0xC3, 'Paused 3 0 0 | 1 0 0')
check('refused 201', 'Paused 3 0 0 | 1 0 0')
damage(NAME_LENGTH, 0, 'Paused 3 0 0 | 1 0 0')
check('nothing', 'Paused 3 0 0 | 1 0 0')
value(1, 'read', 'Paused 3 0 0 | 1 0 0')
