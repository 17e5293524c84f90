"""The manual's cases: Goto by single steps, beside ours (SCOPE 15.1), which vectors/script.py puts behind the clock's.

Each call has its answer and the state of the player that it leaves beside it, worked out from the rules that docs/SCOPE.md has. vectors/calls.py says how they
are written. The manual's Goto leaves the state that there was, and every line of it shows that. Its answers are written out by hand; or a walk is, which is
where First or Last leads and then each single step, and the answer is found by going along the walk and counting the steps, never from the number at once.
Where ours follows, it is a control write on the same state, and ends where the manual said.

The cases of one client are the left pedal's, as in vectors/player.py, to the generic service and to the named player in turn; those of several clients
are to the generic service, as in vectors/office.py, or to the service that a call names.

A comment that names a rule, such as SCOPE 18.2, says it in a few words; docs/SCOPE.md has the rule.
"""
from itertools import chain, cycle, repeat

import calls
from calls import (
    ALL, BAD_AND_WRONG, BAD_TITLES, CLOSE, CUT, FIRST_GROUP, FIRST_SEGMENT, FIRST_TRACK, FOLDERS, FORWARD, GENERIC, GOTO_GROUP, GOTO_SEGMENT,
    GOTO_TRACK, GROUP, LAST_GROUP, LAST_SEGMENT, LAST_TRACK, LEFT, LONG, LONGEST, MANY, MEDIA, MTU, NAMED, NEXT, NEXT_GROUP, NEXT_SEGMENT, NEXT_TRACK,
    ON, OWN_PARENT, PAUSE, PLACE, PLAY, PLAYERS, PREVIOUS_GROUP, PREVIOUS_SEGMENT, PREVIOUS_TRACK, REST, RUNNING, SAMPLE, SERVICES, TURN,
    activate, advance, deactivate, manual_goto, octets, read, seen, start, take, titles, write,
)
from clock import PRESSED, at_speed, come_to, half_past
from objects import go_to_group, go_to_track, name, several
from office import RAST, UEBERFAHRT, WRONG_PLAYERS, office
from player import (
    FURTHEST, LEAST, MASK_BITS, MOST, attend, case, check, control, damage, order, position, stand, stand_in_3, stand_in_running,
)
from services import NO_SERVICES, desks, seen_in_both, take_generic, take_named
from titles import BAD_RENAMES, FAEHRE, KAI, rename

# Each Goto with the single moves that it is made of: First and Next for a number above 0, Last and Previous for one below.
MOVES = {
    GOTO_SEGMENT: (FIRST_SEGMENT, NEXT_SEGMENT, LAST_SEGMENT, PREVIOUS_SEGMENT),
    GOTO_TRACK: (FIRST_TRACK, NEXT_TRACK, LAST_TRACK, PREVIOUS_TRACK),
    GOTO_GROUP: (FIRST_GROUP, NEXT_GROUP, LAST_GROUP, PREVIOUS_GROUP),
}
# If the allowed steps run out, it says so (SCOPE 15.5), which is the outcome 0; the other outcomes are the results of SCOPE 9.4.
RAN_OUT, SUCCESS, CANNOT = 0, 1, 4


# ---- Walks: the places, as a line writes them, that First or Last and then each single step lead to

def ending(*places):
    """The step behind the last place cannot be made."""
    return lambda: iter(places)


def staying(*places):
    """Each step behind the last place is made, and leads to it again."""
    return lambda: chain(places, repeat(places[-1]))


def going_round(*places):
    """The step behind the last place leads to the first one."""
    return lambda: cycle(places)


def both_ways(behind, *places):
    """Tracks and groups: from First on through all of them, and from Last back."""
    return behind(*places), behind(*reversed(places))


def mode():
    """Media state, order and both speeds of the player that the calls are to."""
    return PLAYERS[ON[0]].split(' | ')[0]


def here():
    """Group, track and position of that player, with its rest."""
    return ' '.join(PLAYERS[ON[0]].split(' | ')[1].split()[:3])


def by_steps(walk, number, allowed):
    """Outcome, steps and place of a number but 0: First or Last is really made and then each step, up to a given number of steps (SCOPE 15.1)."""
    onward, back = walk
    way = onward() if number > 0 else back()
    steps, place = 0, None
    while steps < abs(number):
        # The count is the number allowed, and nothing moves (SCOPE 15.5).
        if steps == allowed:
            return RAN_OUT, steps, here()
        steps += 1
        place = next(way, None)
        # Where a step cannot be made it stops there, the count includes that step, and result 4 stands (SCOPE 15.4).
        if place is None:
            return CANNOT, steps, here()
    return SUCCESS, steps, place


def along(opcode, walk, number, allowed, catalogue=SAMPLE):
    """The manual's Goto, and the outcome and the place that it tells."""
    outcome, steps, place = by_steps(walk, number, allowed)
    manual_goto(opcode, number, allowed, 'goto %d %d at %s' % (outcome, steps, place), catalogue)
    return outcome, place


def ours(opcode, outcome, place, number=0, catalogue=SAMPLE):
    """A control write that keeps the media state, and leads to a place or, where it cannot be completed, leaves the player at it."""
    control(opcode, 'result %d' % outcome, '%s | %s' % (mode(), place), number, catalogue)


def with_rest(rest):
    """The rest of the player becomes this one, above 0."""
    damage(REST, rest, '%s | %s+%d' % (mode(), here().split('+')[0], rest))


def every_number(opcode, walk, most, rest, catalogue=SAMPLE):
    """Each number up to `most` above and below 0, from a place with a rest: with one step too few allowed, and with enough, which are just so many
    above 0 and as many as can be below it; then ours."""
    for size in range(1, most + 1):
        for number, enough in ((size, size), (-size, LONGEST)):
            with_rest(rest)
            along(opcode, walk, number, size - 1, catalogue)
            told = along(opcode, walk, number, enough, catalogue)
            ours(opcode, *told, number, catalogue)


def stand_over(catalogue, playing_order, group, lowest, track):
    """A fresh player over another catalogue, Paused at the start of a track of a group in an order."""
    start(b'Radio', ALL, 7, 'done', 'Inactive 3 0 0 | 0 0 0')
    attend()
    activate(group, 'done', 'Paused 3 0 0 | %d %d 0' % (group, lowest), catalogue=catalogue)
    order(playing_order, 'done', 'Paused %d 0 0 | %d %d 0' % (playing_order, group, lowest), catalogue)
    go_to_track(track, 'done', 'Paused %d 0 0 | %d %d 0' % (playing_order, group, track), catalogue)


# Nothing is renamed in these cases.
titles()


# ---- A second player of the three Gotos, which really makes First or Last and then each step, up to a given number of steps (SCOPE 15.1).

# Goto n is, for n above 0, First and then Next n − 1 times; for n below 0 Last and then Previous |n| − 1 times; for 0 no step is made (SCOPE 10.6). In track
# 0 segments begin at 0, 1500 and 4000, and D is 6000.
case('Goto Segment by the manual')
stand(3, 0, 777)
with_rest(12)
for number, allowed, answer in (
        (0, 0, '1 0 at 1 0 777+12'),
        (0, 1, '1 0 at 1 0 777+12'),
        (0, LONGEST, '1 0 at 1 0 777+12'),
        (1, 0, '0 0 at 1 0 777+12'),
        (1, 1, '1 1 at 1 0 0'),
        (1, 2, '1 1 at 1 0 0'),
        (1, LONGEST, '1 1 at 1 0 0'),
        (2, 0, '0 0 at 1 0 777+12'),
        (2, 1, '0 1 at 1 0 777+12'),
        (2, 2, '1 2 at 1 0 1500'),
        (2, 3, '1 2 at 1 0 1500'),
        (3, 2, '0 2 at 1 0 777+12'),
        (3, 3, '1 3 at 1 0 4000'),
        # Next Segment goes to the least start above the position, or to D (SCOPE 10.4): from D it is made, and stays there.
        (4, 3, '0 3 at 1 0 777+12'),
        (4, 4, '1 4 at 1 0 6000'),
        (5, 4, '0 4 at 1 0 777+12'),
        (5, 5, '1 5 at 1 0 6000'),
        (6, 5, '0 5 at 1 0 777+12'),
        (6, LONGEST, '1 6 at 1 0 6000'),
        (-1, 0, '0 0 at 1 0 777+12'),
        (-1, 1, '1 1 at 1 0 4000'),
        (-1, LONGEST, '1 1 at 1 0 4000'),
        (-2, 1, '0 1 at 1 0 777+12'),
        (-2, 2, '1 2 at 1 0 1500'),
        (-3, 2, '0 2 at 1 0 777+12'),
        (-3, 3, '1 3 at 1 0 0'),
        # Before the first segment there is none, and Previous Segment leads to its start.
        (-4, 3, '0 3 at 1 0 777+12'),
        (-4, 4, '1 4 at 1 0 0'),
        (-5, 5, '1 5 at 1 0 0'),
        (-5, LONGEST, '1 5 at 1 0 0')):
    manual_goto(GOTO_SEGMENT, number, allowed, 'goto ' + answer)
ours(GOTO_SEGMENT, SUCCESS, '1 0 777+12', 0)
ours(GOTO_SEGMENT, SUCCESS, '1 0 1500', -2)

# Past an end comes the other end in a repeat order, else result 4 (SCOPE 11.5). Group 1 has tracks 0, 1 and 2.
case('Goto Track by the manual in a once order')
stand(3, 1, 100)
with_rest(12)
for number, allowed, answer in (
        # 0 keeps the track, and the position becomes 0 (SCOPE 11.6, 11.7).
        (0, 0, '1 0 at 1 1 0'),
        (0, LONGEST, '1 0 at 1 1 0'),
        (1, 0, '0 0 at 1 1 100+12'),
        (1, 1, '1 1 at 1 0 0'),
        (2, 1, '0 1 at 1 1 100+12'),
        (2, 2, '1 2 at 1 1 0'),
        (2, 3, '1 2 at 1 1 0'),
        (3, 2, '0 2 at 1 1 100+12'),
        (3, 3, '1 3 at 1 2 0'),
        (3, LONGEST, '1 3 at 1 2 0'),
        # The fourth step cannot be made. It needs one of the allowed steps too.
        (4, 0, '0 0 at 1 1 100+12'),
        (4, 3, '0 3 at 1 1 100+12'),
        (4, 4, '4 4 at 1 1 100+12'),
        (4, 5, '4 4 at 1 1 100+12'),
        (4, LONGEST, '4 4 at 1 1 100+12'),
        (5, 3, '0 3 at 1 1 100+12'),
        (5, 4, '4 4 at 1 1 100+12'),
        (5, 5, '4 4 at 1 1 100+12'),
        (MOST, 3, '0 3 at 1 1 100+12'),
        (MOST, 4, '4 4 at 1 1 100+12'),
        (MOST, LONGEST, '4 4 at 1 1 100+12'),
        (-1, 0, '0 0 at 1 1 100+12'),
        (-1, 1, '1 1 at 1 2 0'),
        (-2, 2, '1 2 at 1 1 0'),
        (-3, 2, '0 2 at 1 1 100+12'),
        (-3, 3, '1 3 at 1 0 0'),
        (-4, 3, '0 3 at 1 1 100+12'),
        (-4, 4, '4 4 at 1 1 100+12'),
        (-5, 4, '4 4 at 1 1 100+12'),
        # Making |n| in signed 32 bits (SCOPE 22.4) is an error that looks right.
        (LEAST, 0, '0 0 at 1 1 100+12'),
        (LEAST, 3, '0 3 at 1 1 100+12'),
        (LEAST, 4, '4 4 at 1 1 100+12'),
        (LEAST, LONGEST, '4 4 at 1 1 100+12')):
    manual_goto(GOTO_TRACK, number, allowed, 'goto ' + answer)
for number in (4, -4, MOST, LEAST):
    ours(GOTO_TRACK, CANNOT, '1 1 100+12', number)
ours(GOTO_TRACK, SUCCESS, '1 1 0', 0)
ours(GOTO_TRACK, SUCCESS, '1 2 0', 3)

case('Goto Track by the manual in a repeat order')
stand(4, 1, 100)
with_rest(65535)
for number, allowed, answer in (
        (0, 0, '1 0 at 1 1 0'),
        (3, 3, '1 3 at 1 2 0'),
        (4, 3, '0 3 at 1 1 100+65535'),
        (4, 4, '1 4 at 1 0 0'),
        (5, 5, '1 5 at 1 1 0'),
        (6, 6, '1 6 at 1 2 0'),
        (7, 6, '0 6 at 1 1 100+65535'),
        (7, 7, '1 7 at 1 0 0'),
        (-3, 3, '1 3 at 1 0 0'),
        (-4, 3, '0 3 at 1 1 100+65535'),
        (-4, 4, '1 4 at 1 2 0'),
        (-5, 5, '1 5 at 1 1 0'),
        (-6, 6, '1 6 at 1 0 0'),
        (-7, LONGEST, '1 7 at 1 2 0')):
    manual_goto(GOTO_TRACK, number, allowed, 'goto ' + answer)
ours(GOTO_TRACK, SUCCESS, '1 2 0', -7)

# Group moves run over the groups of the same parent that have tracks, group 0 left out (SCOPE 12.1); group moves do not repeat (SCOPE 12.2). They are groups
# 1 and 3, so the third step cannot be made.
case('Goto Group by the manual')
stand(3, 1, 100)
with_rest(12)
for number, allowed, answer in (
        # 0 keeps the group, and leads to its first track, at position 0 (SCOPE 12.2, 12.3).
        (0, 0, '1 0 at 1 0 0'),
        (0, LONGEST, '1 0 at 1 0 0'),
        (1, 0, '0 0 at 1 1 100+12'),
        (1, 1, '1 1 at 1 0 0'),
        (1, LONGEST, '1 1 at 1 0 0'),
        (2, 1, '0 1 at 1 1 100+12'),
        (2, 2, '1 2 at 3 3 0'),
        (2, 3, '1 2 at 3 3 0'),
        (3, 2, '0 2 at 1 1 100+12'),
        (3, 3, '4 3 at 1 1 100+12'),
        (3, LONGEST, '4 3 at 1 1 100+12'),
        (4, 2, '0 2 at 1 1 100+12'),
        (4, 3, '4 3 at 1 1 100+12'),
        (4, 4, '4 3 at 1 1 100+12'),
        (MOST, 2, '0 2 at 1 1 100+12'),
        (MOST, LONGEST, '4 3 at 1 1 100+12'),
        (-1, 0, '0 0 at 1 1 100+12'),
        (-1, 1, '1 1 at 3 3 0'),
        (-2, 1, '0 1 at 1 1 100+12'),
        (-2, 2, '1 2 at 1 0 0'),
        (-3, 2, '0 2 at 1 1 100+12'),
        (-3, 3, '4 3 at 1 1 100+12'),
        (LEAST, 2, '0 2 at 1 1 100+12'),
        (LEAST, 3, '4 3 at 1 1 100+12'),
        (LEAST, LONGEST, '4 3 at 1 1 100+12')):
    manual_goto(GOTO_GROUP, number, allowed, 'goto ' + answer)
for number in (3, -3, MOST, LEAST):
    ours(GOTO_GROUP, CANNOT, '1 1 100+12', number)
ours(GOTO_GROUP, SUCCESS, '1 0 0', 0)
ours(GOTO_GROUP, SUCCESS, '3 3 0', 2)

# Of a running recording Next Segment with no later start, and a Goto that needs it, have result 4 (SCOPE 10.4, 10.8). Segments begin at 0, 1500 and 8639999.
case('Goto Segment by the manual in a running recording')
stand_in_running(3, 1, FURTHEST)
with_rest(32768)
for number, allowed, answer in (
        (0, 0, '1 0 at 1 1 8640000+32768'),
        (1, 1, '1 1 at 1 1 0'),
        (2, 2, '1 2 at 1 1 1500'),
        (3, 2, '0 2 at 1 1 8640000+32768'),
        (3, 3, '1 3 at 1 1 8639999'),
        (4, 3, '0 3 at 1 1 8640000+32768'),
        (4, 4, '4 4 at 1 1 8640000+32768'),
        (4, LONGEST, '4 4 at 1 1 8640000+32768'),
        (5, 3, '0 3 at 1 1 8640000+32768'),
        (5, 4, '4 4 at 1 1 8640000+32768'),
        (MOST, 3, '0 3 at 1 1 8640000+32768'),
        (MOST, 4, '4 4 at 1 1 8640000+32768'),
        (MOST, LONGEST, '4 4 at 1 1 8640000+32768'),
        (-1, 1, '1 1 at 1 1 8639999'),
        (-2, 2, '1 2 at 1 1 1500'),
        (-3, 3, '1 3 at 1 1 0'),
        (-4, 4, '1 4 at 1 1 0'),
        (-5, 4, '0 4 at 1 1 8640000+32768'),
        (-5, 5, '1 5 at 1 1 0')):
    manual_goto(GOTO_SEGMENT, number, allowed, 'goto ' + answer, RUNNING)
for number in (4, 5, MOST):
    ours(GOTO_SEGMENT, CANNOT, '1 1 8640000+32768', number, RUNNING)
ours(GOTO_SEGMENT, SUCCESS, '1 1 8639999', 3, RUNNING)


# ---- Trainers teach Goto by single steps and ask whether the player agrees (SCOPE 15.1).

def pressed_singly(opcode, walk, most, catalogue=SAMPLE):
    """Each single step is pressed by itself, up to one that cannot be made, and before each press the manual says where it leads."""
    first, following, last, before = MOVES[opcode]
    for sign, end, step in ((1, first, following), (-1, last, before)):
        for size in range(1, most + 1):
            told = along(opcode, walk, sign * size, size, catalogue)
            ours(end if size == 1 else step, *told, catalogue=catalogue)
            if told[0] == CANNOT:
                break


THREE_SEGMENTS = staying('1 0 0', '1 0 1500', '1 0 4000', '1 0 6000'), staying('1 0 4000', '1 0 1500', '1 0 0')
# If the position is less than 300 past the start of the segment it lies in, and there is a segment before, Previous Segment goes to that one's start (SCOPE
# 10.3): each step back begins on a start, so it leads one segment back, however close the one before is.
CLOSE_SEGMENTS = staying('1 0 0', '1 0 200', '1 0 450', '1 0 5800', '1 0 6000'), staying('1 0 5800', '1 0 450', '1 0 200', '1 0 0')
RUNNING_SEGMENTS = ending('1 1 0', '1 1 1500', '1 1 8639999'), staying('1 1 8639999', '1 1 1500', '1 1 0')
# Orders 3 and 4 are by number, 5 and 6 by rising stamp, 7 and 8 by falling stamp; of equal stamps the lower number comes first (SCOPE 11.1, 11.2). The stamps
# of tracks 0, 1 and 2 are 30, 10 and 10.
BY_NUMBER, BY_RISING_STAMP, BY_FALLING_STAMP = ('1 0 0', '1 1 0', '1 2 0'), ('1 1 0', '1 2 0', '1 0 0'), ('1 0 0', '1 1 0', '1 2 0')

case('the steps of Goto Segment pressed singly')
stand(3, 0, 777)
pressed_singly(GOTO_SEGMENT, THREE_SEGMENTS, 5)
stand_in_running(3, 1, 777)
pressed_singly(GOTO_SEGMENT, RUNNING_SEGMENTS, 5, RUNNING)

case('the steps of Goto Track pressed singly')
stand(5, 1, 100)
pressed_singly(GOTO_TRACK, both_ways(ending, *BY_RISING_STAMP), 5)
stand(6, 1, 100)
pressed_singly(GOTO_TRACK, both_ways(going_round, *BY_RISING_STAMP), 5)

case('the steps of Goto Group pressed singly')
stand(5, 2, 0)
pressed_singly(GOTO_GROUP, both_ways(ending, '1 1 0', '3 3 0'), 3)


# ---- With |n| or more steps allowed it comes to what the control point's Goto comes to (SCOPE 15.8): each number about the ends, and ours behind it

case('numbers of segments')
stand(3, 0, 777)
every_number(GOTO_SEGMENT, THREE_SEGMENTS, 5, 1)

case('numbers of segments where starts are less than 300 apart')
stand(3, 0, 6000)
every_number(GOTO_SEGMENT, CLOSE_SEGMENTS, 6, 65535, CLOSE)

case('numbers of segments of a running recording')
stand_in_running(3, 1, 1799)
every_number(GOTO_SEGMENT, RUNNING_SEGMENTS, 5, 32768, RUNNING)

# A track without segments is one segment from 0 (SCOPE 10.1).
case('numbers of segments of tracks without them')
stand(3, 1, 299)
every_number(GOTO_SEGMENT, (staying('1 1 0', '1 1 300'), staying('1 1 0')), 3, 257)
go_to_track(2, 'done', 'Paused 3 0 0 | 1 2 0')
every_number(GOTO_SEGMENT, (staying('1 2 0'), staying('1 2 0')), 2, 1)
go_to_group(3, 'done', 'Paused 3 0 0 | 3 3 0')
every_number(GOTO_SEGMENT, (staying('3 3 0', '3 3 900'), staying('3 3 0')), 2, 65535)

case('numbers of segments of a running recording without them')
stand_in_running(3, 2, 777)
every_number(GOTO_SEGMENT, (ending('1 2 0'), staying('1 2 0')), 2, 1, RUNNING)

# The order plays no part.
case('Goto Segment in every order')
stand(3, 0, 777)
for playing_order in (1, 2, 3, 4, 5, 6, 7, 8):
    order(playing_order, 'done', 'Paused %d 0 0 | 1 0 777' % playing_order)
    for number, allowed, answer in ((3, 3, '1 3 at 1 0 4000'), (5, LONGEST, '1 5 at 1 0 6000'), (-2, 1, '0 1 at 1 0 777')):
        manual_goto(GOTO_SEGMENT, number, allowed, 'goto ' + answer)

# Orders 1 and 2 have the current track alone (SCOPE 11.1).
for playing_order, behind, track in ((1, ending, 1), (2, going_round, 2)):
    case('numbers of tracks in order %d' % playing_order)
    stand(playing_order, track, 0)
    every_number(GOTO_TRACK, both_ways(behind, '1 %d 0' % track), 3, 7)

# Odd orders play once, even ones repeat (SCOPE 11.3).
for once, repeated, places in ((3, 4, BY_NUMBER), (5, 6, BY_RISING_STAMP), (7, 8, BY_FALLING_STAMP)):
    case('numbers of tracks in orders %d and %d' % (once, repeated))
    stand(once, 1, 100)
    every_number(GOTO_TRACK, both_ways(ending, *places), 4, 65535)
    order(repeated, 'done', 'Paused %d 0 0 | %s' % (repeated, here()))
    every_number(GOTO_TRACK, both_ways(going_round, *places), 4, 1)

case('numbers of tracks of a group of one')
stand_in_3(3, 100)
every_number(GOTO_TRACK, both_ways(ending, '3 3 0'), 2, 1)
order(4, 'done', 'Paused 4 0 0 | 3 3 0+1')
every_number(GOTO_TRACK, both_ways(going_round, '3 3 0'), 2, 1)

case('numbers of tracks and groups among running recordings')
stand_in_running(5, 1, FURTHEST)
for goto, number, answer in (
        (GOTO_TRACK, 1, '1 1 at 1 1 0'),
        (GOTO_TRACK, 2, '1 2 at 1 2 0'),
        (GOTO_TRACK, 3, '1 3 at 1 0 0'),
        (GOTO_TRACK, 4, '4 4 at 1 1 8640000'),
        (GOTO_TRACK, -1, '1 1 at 1 0 0'),
        (GOTO_TRACK, -4, '4 4 at 1 1 8640000'),
        (GOTO_GROUP, 2, '1 2 at 3 3 0'),
        (GOTO_GROUP, -2, '1 2 at 1 1 0'),
        (GOTO_GROUP, -3, '4 3 at 1 1 8640000')):
    manual_goto(goto, number, LONGEST, 'goto ' + answer, RUNNING)

# The stamps of tracks 1 and 2 are equal.
case('numbers of tracks of a folder')
stand_over(FOLDERS, 7, 1, 1, 2)
every_number(GOTO_TRACK, both_ways(ending, '1 1 0', '1 2 0'), 3, 1, FOLDERS)

# Orders 1 and 2 have the current track alone; when a group is activated or moved to, its lowest track (SCOPE 11.1, 11.4).
FIRST_IN_ORDER = ((1, 0), (2, 0), (3, 0), (4, 0), (5, 1), (6, 1), (7, 0), (8, 0))

case('numbers of groups in every order')
stand(3, 2, 0)
for playing_order, first in FIRST_IN_ORDER:
    order(playing_order, 'done', 'Paused %d 0 0 | %s' % (playing_order, here()))
    every_number(GOTO_GROUP, both_ways(ending, '1 %d 0' % first, '3 3 0'), 2, 65535)
    # Group moves do not repeat (SCOPE 12.2), in the repeat orders too.
    for number, allowed, outcome in ((3, 2, '0 2'), (3, 3, '4 3'), (-3, LONGEST, '4 3')):
        manual_goto(GOTO_GROUP, number, allowed, 'goto %s at 1 %d 0' % (outcome, first))

# For group 0 moves run over itself alone (SCOPE 12.1); group 1 is the only one of its parent with tracks, group 0 left out; and in group 1 are group 2,
# without tracks, and group 3.
case('numbers of groups in folders')
for group, lowest, track in ((0, 0, 0), (1, 1, 2), (3, 3, 3)):
    stand_over(FOLDERS, 4, group, lowest, track)
    every_number(GOTO_GROUP, both_ways(ending, '%d %d 0' % (group, lowest)), 2, 1, FOLDERS)
    manual_goto(GOTO_GROUP, MOST, 1, 'goto 0 1 at %d %d 0+1' % (group, lowest), FOLDERS)
    manual_goto(GOTO_GROUP, LEAST, LONGEST, 'goto 4 2 at %d %d 0+1' % (group, lowest), FOLDERS)

case('segments in a folder')
stand_over(FOLDERS, 3, 0, 0, 0)
for number, answer in ((2, '1 2 at 0 0 1500'), (4, '1 4 at 0 0 6000'), (-1, '1 1 at 0 0 4000'), (-4, '1 4 at 0 0 0')):
    manual_goto(GOTO_SEGMENT, number, abs(number), 'goto ' + answer, FOLDERS)


# ---- n = 0: what our Goto 0 does, by no step, whatever is allowed

# Goto Segment 0 moves nothing, so the rest stays too (SCOPE 10.7); Goto Track 0 keeps the track, and the position becomes 0 (SCOPE 11.6, 11.7); Goto Group 0
# keeps the group, and leads to its first track (SCOPE 12.2, 12.3).
case('the number 0 in every order')
stand(3, 0, 0)
for playing_order, first in FIRST_IN_ORDER:
    order(playing_order, 'done', 'Paused %d 0 0 | %s' % (playing_order, here()))
    go_to_track(2, 'done', 'Paused %d 0 0 | 1 2 0' % playing_order)
    with_rest(12345)
    for allowed in (0, LONGEST):
        manual_goto(GOTO_SEGMENT, 0, allowed, 'goto 1 0 at 1 2 0+12345')
        manual_goto(GOTO_TRACK, 0, allowed, 'goto 1 0 at 1 2 0')
        manual_goto(GOTO_GROUP, 0, allowed, 'goto 1 0 at 1 %d 0' % first)
    ours(GOTO_GROUP, SUCCESS, '1 %d 0' % first, 0)

case('the number 0 at the ends of a track, and elsewhere')
stand(3, 0, 0)
for place in (0, 1, 1500, 5999, 6000):
    position(place, 'done', 'Paused 3 0 0 | 1 0 %d' % place)
    with_rest(1)
    manual_goto(GOTO_SEGMENT, 0, 0, 'goto 1 0 at 1 0 %d+1' % place)
    manual_goto(GOTO_TRACK, 0, 0, 'goto 1 0 at 1 0 0')
    manual_goto(GOTO_GROUP, 0, 0, 'goto 1 0 at 1 0 0')
ours(GOTO_SEGMENT, SUCCESS, '1 0 6000+1', 0)
ours(GOTO_TRACK, SUCCESS, '1 0 0', 0)
stand_in_3(6, 900)
with_rest(65535)
manual_goto(GOTO_SEGMENT, 0, 0, 'goto 1 0 at 3 3 900+65535')
manual_goto(GOTO_TRACK, 0, 0, 'goto 1 0 at 3 3 0')
manual_goto(GOTO_GROUP, 0, 0, 'goto 1 0 at 3 3 0')
stand_over(FOLDERS, 1, 1, 1, 2)
manual_goto(GOTO_SEGMENT, 0, 0, 'goto 1 0 at 1 2 0', FOLDERS)
manual_goto(GOTO_TRACK, 0, 0, 'goto 1 0 at 1 2 0', FOLDERS)
manual_goto(GOTO_GROUP, 0, 0, 'goto 1 0 at 1 1 0', FOLDERS)


# ---- Far past the ends

# Steps that stay where they are count as others do.
case('far past the ends of a track')
stand(3, 0, 777)
with_rest(12)
for number, to in ((100, 6000), (-100, 0), (1000, 6000), (-1000, 0)):
    size = abs(number)
    manual_goto(GOTO_SEGMENT, number, size - 1, 'goto 0 %d at 1 0 777+12' % (size - 1))
    for allowed in (size, size + 1, LONGEST):
        manual_goto(GOTO_SEGMENT, number, allowed, 'goto 1 %d at 1 0 %d' % (size, to))
for number in (MOST, LEAST):
    for allowed in (0, 1, 4, 500, 2000):
        manual_goto(GOTO_SEGMENT, number, allowed, 'goto 0 %d at 1 0 777+12' % allowed)
ours(GOTO_SEGMENT, SUCCESS, '1 0 6000', MOST)
ours(GOTO_SEGMENT, SUCCESS, '1 0 0', LEAST)

case('far past the ends of a running recording')
stand_in_running(3, 1, 777)
for number, allowed, answer in ((1000, LONGEST, '4 4 at 1 1 777'), (MOST - 1, LONGEST, '4 4 at 1 1 777'), (1000, 3, '0 3 at 1 1 777'),
                                (-1000, 1000, '1 1000 at 1 1 0'), (-1000, 999, '0 999 at 1 1 777'), (LEAST, 999, '0 999 at 1 1 777')):
    manual_goto(GOTO_SEGMENT, number, allowed, 'goto ' + answer, RUNNING)
ours(GOTO_SEGMENT, CANNOT, '1 1 777', MOST, RUNNING)
ours(GOTO_SEGMENT, SUCCESS, '1 1 0', LEAST, RUNNING)

# All 32 bits of both count.
case('great numbers of allowed steps, and great numbers')
stand(3, 1, 100)
for allowed in (256, 65536, 0x1000000, 0x7FFFFFFF, 0x80000000, 0xFFFF0000):
    for goto, number, answer in ((GOTO_SEGMENT, -2, '1 2 at 1 1 0'), (GOTO_TRACK, 3, '1 3 at 1 2 0'), (GOTO_GROUP, 2, '1 2 at 3 3 0')):
        manual_goto(goto, number, allowed, 'goto ' + answer)
for number in (256, -256, 65536, -65536, 0x1000000, -0x1000000, 0x40000000, -0x40000000):
    manual_goto(GOTO_TRACK, number, LONGEST, 'goto 4 4 at 1 1 100')
    manual_goto(GOTO_GROUP, number, LONGEST, 'goto 4 3 at 1 1 100')
    manual_goto(GOTO_SEGMENT, number, 3, 'goto 0 3 at 1 1 100')

# 300 steps behind First or Last, a multiple of 3, lead round to it again.
for playing_order, first, second, last in ((4, 0, 1, 2), (6, 1, 2, 0)):
    case('many times round in order %d' % playing_order)
    stand(playing_order, 1, 100)
    for number, track in ((301, first), (302, second), (303, last), (-301, last), (-302, second), (-303, first)):
        size = abs(number)
        manual_goto(GOTO_TRACK, number, size - 1, 'goto 0 %d at 1 1 100' % (size - 1))
        manual_goto(GOTO_TRACK, number, LONGEST, 'goto 1 %d at 1 %d 0' % (size, track))
    for number in (MOST, LEAST):
        for allowed in (0, 3, 1000):
            manual_goto(GOTO_TRACK, number, allowed, 'goto 0 %d at 1 1 100' % allowed)
    # 2147483646 steps behind First are a multiple of 3, and 2147483647 behind Last one more.
    ours(GOTO_TRACK, SUCCESS, '1 %d 0' % first, MOST)
    ours(GOTO_TRACK, SUCCESS, '1 %d 0' % second, LEAST)

case('many times round one track')
stand(2, 1, 100)
for number in (300, -300):
    manual_goto(GOTO_TRACK, number, 299, 'goto 0 299 at 1 1 100')
    manual_goto(GOTO_TRACK, number, 300, 'goto 1 300 at 1 1 0')
for number in (MOST, LEAST):
    manual_goto(GOTO_TRACK, number, 300, 'goto 0 300 at 1 1 100')
# Order 1 has no second step.
order(1, 'done', 'Paused 1 0 0 | 1 1 100')
for number in (300, -300, MOST, LEAST):
    manual_goto(GOTO_TRACK, number, 1, 'goto 0 1 at 1 1 100')
    for allowed in (2, LONGEST):
        manual_goto(GOTO_TRACK, number, allowed, 'goto 4 2 at 1 1 100')

# Folding a long Goto Track by the count of tracks in an order that plays once (SCOPE 22.4) is an error that looks right. Group 63 has all 256 tracks, and all
# stamps are equal.
case('256 tracks in a once order')
stand_over(MANY, 3, 63, 0, 128)
with_rest(9)
for number, allowed, answer in (
        (1, 1, '1 1 at 63 0 0'),
        (129, 129, '1 129 at 63 128 0'),
        (255, 255, '1 255 at 63 254 0'),
        (256, 255, '0 255 at 63 128 0+9'),
        (256, 256, '1 256 at 63 255 0'),
        (257, 256, '0 256 at 63 128 0+9'),
        (257, 257, '4 257 at 63 128 0+9'),
        (258, 257, '4 257 at 63 128 0+9'),
        (MOST, LONGEST, '4 257 at 63 128 0+9'),
        (-1, 1, '1 1 at 63 255 0'),
        (-129, 129, '1 129 at 63 127 0'),
        (-256, 255, '0 255 at 63 128 0+9'),
        (-256, 256, '1 256 at 63 0 0'),
        (-257, 256, '0 256 at 63 128 0+9'),
        (-257, LONGEST, '4 257 at 63 128 0+9'),
        (LEAST, 257, '4 257 at 63 128 0+9')):
    manual_goto(GOTO_TRACK, number, allowed, 'goto ' + answer, MANY)
ours(GOTO_TRACK, CANNOT, '63 128 0+9', 257, MANY)
ours(GOTO_TRACK, SUCCESS, '63 255 0', 256, MANY)
for playing_order in (5, 7):
    order(playing_order, 'done', 'Paused %d 0 0 | 63 255 0' % playing_order, MANY)
    for number, answer in ((200, '1 200 at 63 199 0'), (-256, '1 256 at 63 0 0'), (257, '4 257 at 63 255 0'), (LEAST, '4 257 at 63 255 0')):
        manual_goto(GOTO_TRACK, number, LONGEST, 'goto ' + answer, MANY)

case('256 tracks in repeat orders')
stand_over(MANY, 4, 63, 0, 200)
for number, track in ((256, 255), (257, 0), (258, 1), (513, 0), (-256, 0), (-257, 255), (-258, 254), (-512, 0)):
    size = abs(number)
    manual_goto(GOTO_TRACK, number, size - 1, 'goto 0 %d at 63 200 0' % (size - 1), MANY)
    manual_goto(GOTO_TRACK, number, LONGEST, 'goto 1 %d at 63 %d 0' % (size, track), MANY)
for playing_order in (6, 8):
    order(playing_order, 'done', 'Paused %d 0 0 | 63 200 0' % playing_order, MANY)
    for number, answer in ((200, '1 200 at 63 199 0'), (258, '1 258 at 63 1 0'), (-258, '1 258 at 63 254 0'), (LEAST, '0 258 at 63 200 0')):
        manual_goto(GOTO_TRACK, number, 258, 'goto ' + answer, MANY)
ours(GOTO_TRACK, SUCCESS, '63 1 0', 258, MANY)

# Of duration 0 and without segments; and the only group with tracks.
case('segments and groups of 256 tracks')
stand_over(MANY, 2, 63, 0, 200)
with_rest(1)
for goto, number, allowed, answer in (
        (GOTO_SEGMENT, 3, 2, '0 2 at 63 200 0+1'),
        (GOTO_SEGMENT, 3, 3, '1 3 at 63 200 0'),
        (GOTO_SEGMENT, -3, 3, '1 3 at 63 200 0'),
        (GOTO_TRACK, 257, 257, '1 257 at 63 200 0'),
        (GOTO_TRACK, -257, 256, '0 256 at 63 200 0+1'),
        (GOTO_GROUP, 1, 1, '1 1 at 63 0 0'),
        (GOTO_GROUP, 0, 0, '1 0 at 63 0 0'),
        (GOTO_GROUP, -1, 0, '0 0 at 63 200 0+1'),
        (GOTO_GROUP, 2, 2, '4 2 at 63 200 0+1'),
        (GOTO_GROUP, 64, LONGEST, '4 2 at 63 200 0+1')):
    manual_goto(goto, number, allowed, 'goto ' + answer, MANY)
ours(GOTO_GROUP, CANNOT, '63 200 0+1', 64, MANY)


# ---- Media states and the rest of the clock

# Half a hundredth past 100 in track 1, whose D is 300. Segment moves keep the state (SCOPE 10.9); track and group moves turn Seeking into Playing (SCOPE
# 11.7, 12.3).
for opcode, pressed in PRESSED:
    moved = 'Paused 4 -64 0' if opcode == PAUSE else 'Playing 4 -64 0'
    case('the manual and ours: %s' % pressed)
    stand(4, 0, 0)
    at_speed(-64, 4, '1 0 0')
    for goto, number, outcome, steps, place, state in (
            (GOTO_SEGMENT, 0, 1, 0, '1 1 100+32768', pressed),
            (GOTO_SEGMENT, 2, 1, 2, '1 1 300', pressed),
            (GOTO_TRACK, 4, 1, 4, '1 0 0', moved),
            (GOTO_GROUP, -1, 1, 1, '3 3 0', moved),
            (GOTO_GROUP, -3, 4, 3, '1 1 100+32768', pressed)):
        come_to(1, 1, 100, opcode, pressed)
        if steps > 0:
            manual_goto(goto, number, steps - 1, 'goto 0 %d at 1 1 100+32768' % (steps - 1))
        manual_goto(goto, number, steps, 'goto %d %d at %s' % (outcome, steps, place))
        control(goto, 'result %d' % outcome, '%s | %s' % (state, place), number)
        control(PLAY, 'result 1', 'Playing 4 -64 0 | ' + place)

# The clock goes on from the rest that there was, whatever the manual told.
case('the clock runs on behind the manual')
half_past(0, 1000)
for goto, number, allowed, answer in (
        (GOTO_SEGMENT, 3, 3, '1 3 at 1 0 4000'),
        (GOTO_SEGMENT, 0, 0, '1 0 at 1 0 1000+32768'),
        (GOTO_TRACK, 0, 0, '1 0 at 1 0 0'),
        (GOTO_TRACK, 2, 5, '1 2 at 1 1 0'),
        (GOTO_TRACK, 4, 4, '4 4 at 1 0 1000+32768'),
        (GOTO_GROUP, 2, 2, '1 2 at 3 3 0'),
        (GOTO_GROUP, 2, 1, '0 1 at 1 0 1000+32768'),
        (0x25, 1, 1, '2 0 at 1 0 1000+32768')):
    manual_goto(goto, number, allowed, 'goto ' + answer)
advance(0, 'done', 'Playing 3 -64 0 | 1 0 1000+32768')
advance(1, 'done', 'Playing 3 -64 0 | 1 0 1001')

# If the allowed steps run out, nothing moves (SCOPE 15.5); after results 2, 3 and 4 the player is as before (SCOPE 9.4).
case('the rest is kept by every outcome but 1')
stand(3, 0, 1500)
for opcode, pressed, rest in ((PLAY, 'Playing 3 0 0', 65535), (FORWARD, 'Seeking 3 0 4', 1), (PAUSE, 'Paused 3 0 0', 65535)):
    control(opcode, 'result 1', '%s | %s' % (pressed, here()))
    with_rest(rest)
    for goto, number, allowed, outcome in (
            (GOTO_SEGMENT, 2, 1, '0 1'),
            (GOTO_TRACK, -3, 2, '0 2'),
            (GOTO_GROUP, 1, 0, '0 0'),
            (NEXT_SEGMENT, 2, 2, '2 0'),
            (GOTO_TRACK, 4, 4, '4 4'),
            (GOTO_GROUP, LEAST, 3, '4 3'),
            (GOTO_SEGMENT, 0, 0, '1 0')):
        manual_goto(goto, number, allowed, 'goto %s at 1 0 1500+%d' % (outcome, rest))
    # The same position, gone to.
    manual_goto(GOTO_SEGMENT, 2, 2, 'goto 1 2 at 1 0 1500')

# The recording was still running when it came to 300, and is finished now with a duration of 300.
case('at D, with a rest')
stand_in_running(3, 1, 300)
with_rest(40000)
for number, running, finished in (
        (0, '1 0 at 1 1 300+40000', '1 0 at 1 1 300+40000'),
        (1, '1 1 at 1 1 0', '1 1 at 1 1 0'),
        (2, '1 2 at 1 1 1500', '1 2 at 1 1 300'),
        (3, '1 3 at 1 1 8639999', '1 3 at 1 1 300'),
        (4, '4 4 at 1 1 300+40000', '1 4 at 1 1 300'),
        (-1, '1 1 at 1 1 8639999', '1 1 at 1 1 0'),
        (-2, '1 2 at 1 1 1500', '1 2 at 1 1 0')):
    manual_goto(GOTO_SEGMENT, number, LONGEST, 'goto ' + running, RUNNING)
    manual_goto(GOTO_SEGMENT, number, LONGEST, 'goto ' + finished)
manual_goto(GOTO_SEGMENT, 2, LONGEST, 'goto 1 2 at 1 1 300', LONG)


# ---- A named next track. 12 names a track of the current group that Next Track or the end of a track uses once, and Goto's steps do not (SCOPE 11.8, 14.4,
# ---- 14.5).

case('the manual uses no named next track')
stand(3, 0, 100)
name(2, 'done', 'Paused 3 0 0 | 1 0 100 2')
for goto, number, allowed, answer in (
        (GOTO_TRACK, 1, 1, '1 1 at 1 0 0'),
        (GOTO_TRACK, 2, 2, '1 2 at 1 1 0'),
        (GOTO_TRACK, 3, 3, '1 3 at 1 2 0'),
        (GOTO_TRACK, 4, 3, '0 3 at 1 0 100'),
        (GOTO_TRACK, 4, 4, '4 4 at 1 0 100'),
        (GOTO_TRACK, -2, 2, '1 2 at 1 1 0'),
        (GOTO_TRACK, 0, 0, '1 0 at 1 0 0'),
        (GOTO_SEGMENT, 0, 0, '1 0 at 1 0 100'),
        (GOTO_SEGMENT, 2, 2, '1 2 at 1 0 1500'),
        (GOTO_GROUP, 0, 0, '1 0 at 1 0 0'),
        (GOTO_GROUP, 2, 2, '1 2 at 3 3 0'),
        (GOTO_GROUP, 3, 3, '4 3 at 1 0 100'),
        (NEXT_TRACK, 1, 1, '2 0 at 1 0 100')):
    manual_goto(goto, number, allowed, 'goto ' + answer)
# Ours: a call that ends on another track or group than it began on drops the name, what lies between does not (SCOPE 14.6).
control(GOTO_TRACK, 'result 4', 'Paused 3 0 0 | 1 0 100 2', 4)
control(GOTO_SEGMENT, 'result 1', 'Paused 3 0 0 | 1 0 1500 2', 2)
control(GOTO_TRACK, 'result 1', 'Paused 3 0 0 | 1 0 0 2', -3)
manual_goto(GOTO_TRACK, 2, 2, 'goto 1 2 at 1 1 0')
control(GOTO_TRACK, 'result 1', 'Paused 3 0 0 | 1 1 0', 2)
# The name is still there to be used by Next Track.
name(0, 'done', 'Paused 3 0 0 | 1 1 0 0')
manual_goto(GOTO_TRACK, 3, 3, 'goto 1 3 at 1 2 0')
manual_goto(GOTO_TRACK, -1, 1, 'goto 1 1 at 1 2 0')
control(NEXT_TRACK, 'result 1', 'Paused 3 0 0 | 1 0 0')

# Past the end of a once order and alone in it a named track makes no step that there is not.
for playing_order, track, next_track, number, steps in ((1, 1, 0, 2, 2), (3, 2, 0, 4, 4), (7, 0, 0, -4, 4)):
    case('a named next track and a step that cannot be made in order %d' % playing_order)
    stand(playing_order, track, 0)
    name(next_track, 'done', 'Paused %d 0 0 | 1 %d 0 %d' % (playing_order, track, next_track))
    damage(REST, 7, 'Paused %d 0 0 | 1 %d 0+7 %d' % (playing_order, track, next_track))
    manual_goto(GOTO_TRACK, number, steps - 1, 'goto 0 %d at 1 %d 0+7' % (steps - 1, track))
    manual_goto(GOTO_TRACK, number, steps, 'goto 4 %d at 1 %d 0+7' % (steps, track))
    control(GOTO_TRACK, 'result 4', 'Paused %d 0 0 | 1 %d 0+7 %d' % (playing_order, track, next_track), number)

# Repeat orders go round as they do without a name. Where ours ends on the track that it began on the name stays.
case('a named next track in repeat orders')
stand(2, 1, 0)
name(0, 'done', 'Paused 2 0 0 | 1 1 0 0')
manual_goto(GOTO_TRACK, 3, 3, 'goto 1 3 at 1 1 0')
control(GOTO_TRACK, 'result 1', 'Paused 2 0 0 | 1 1 0 0', 3)
order(4, 'done', 'Paused 4 0 0 | 1 1 0 0')
manual_goto(GOTO_TRACK, 5, 5, 'goto 1 5 at 1 1 0')
control(GOTO_TRACK, 'result 1', 'Paused 4 0 0 | 1 1 0 0', 5)
manual_goto(GOTO_TRACK, 3, 3, 'goto 1 3 at 1 2 0')
control(GOTO_TRACK, 'result 1', 'Paused 4 0 0 | 1 2 0', 3)


# ---- Results 2 and 3 come first, with a count of 0 (SCOPE 15.3).

GOTOS = (GOTO_SEGMENT, GOTO_TRACK, GOTO_GROUP)
# Numbers and allowed steps with which the Gotos of the sample make no step, run out, make all steps, and stop or run out far on.
ASKED = ((0, 0), (1, 0), (-2, 2), (LEAST, 2000))

case('every opcode that is no Goto')
stand(3, 0, 1500)
with_rest(12)
for opcode in range(256):
    if opcode not in GOTOS:
        manual_goto(opcode, 1, LONGEST, 'goto 2 0 at 1 0 1500+12')
# The single moves are no Gotos either, whatever is asked.
for opcode in (NEXT_SEGMENT, FIRST_TRACK, LAST_GROUP):
    for number, allowed in ASKED:
        manual_goto(opcode, number, allowed, 'goto 2 0 at 1 0 1500+12')

# An opcode is one octet. Of most of these the lowest octet, or another one, is a Goto's.
OVER_255 = (0x100, 0x124, 0x134, 0x144, 0x224, 0x2400, 0x3400, 0x4400, 0x10024, 0x1000034, 0x24000000, 0x34343434, 0x80000024, 0xFFFFFF24, 0xFFFFFF44,
            LONGEST)

case('opcodes over 255')
stand(4, 1, 100)
with_rest(12)
for opcode in OVER_255:
    manual_goto(opcode, 2, 2, 'goto 2 0 at 1 1 100+12')
for number, allowed in ASKED:
    manual_goto(0x124, number, allowed, 'goto 2 0 at 1 1 100+12')

# The first result that applies is given, in the order 2, 3, 4, 1 (SCOPE 9.4).
case('the manual while Inactive')
start(b'Radio', ALL, 7, 'done', 'Inactive 3 0 0 | 0 0 0')
attend()
for opcode in GOTOS:
    for number, allowed in ASKED:
        manual_goto(opcode, number, allowed, 'goto 3 0 at 0 0 0')
    control(opcode, 'result 3', 'Inactive 3 0 0 | 0 0 0', -2)
for opcode in (0x00, PLAY, NEXT_TRACK, 0x23, 0x25, 0x45, 0xFF, 0x124, LONGEST):
    manual_goto(opcode, 1, 1, 'goto 2 0 at 0 0 0')
# 201 asks no more of the rest than that it is at most 65,535, so there may be one.
damage(REST, 65535, 'Inactive 3 0 0 | 0 0 0+65535')
for opcode in GOTOS:
    for number in (0, 1):
        manual_goto(opcode, number, 1, 'goto 3 0 at 0 0 0+65535')
manual_goto(0x124, 1, 1, 'goto 2 0 at 0 0 0+65535')
for catalogue in (CLOSE, RUNNING, FOLDERS, MANY):
    manual_goto(GOTO_TRACK, 1, 1, 'goto 3 0 at 0 0 0+65535', catalogue)
# Group 0 is a group with tracks here; while it is current, and while none is.
stand_over(FOLDERS, 3, 0, 0, 0)
manual_goto(GOTO_GROUP, 1, 1, 'goto 1 1 at 0 0 0', FOLDERS)
deactivate('done', 'Inactive 3 0 0 | 0 0 0', catalogue=FOLDERS)
manual_goto(GOTO_GROUP, 1, 1, 'goto 3 0 at 0 0 0', FOLDERS)

# 0x24 Goto Segment has bit 10, 0x34 Goto Track bit 15, 0x44 Goto Group bit 20 (SCOPE 9.1); result 2 is for an opcode that is unknown or not in the mask
# (SCOPE 9.4).
for bit in GOTOS:
    # That bit alone is set, and then all but that one.
    for mask, offered in ((1 << MASK_BITS[bit], (bit,)), (ALL - (1 << MASK_BITS[bit]), tuple(each for each in GOTOS if each != bit))):
        case('the mask 0x%06X' % mask)
        start(b'Radio', mask, 7, 'done', 'Inactive 3 0 0 | 0 0 0')
        attend()
        for opcode in GOTOS:
            manual_goto(opcode, 1, 1, 'goto %d 0 at 0 0 0' % (3 if opcode in offered else 2))
        activate(1, 'done', 'Paused 3 0 0 | 1 0 0')
        position(777, 'done', 'Paused 3 0 0 | 1 0 777')
        with_rest(12)
        for opcode, last, none in ((GOTO_SEGMENT, '1 0 4000', '1 0 777+12'), (GOTO_TRACK, '1 2 0', '1 0 0'), (GOTO_GROUP, '3 3 0', '1 0 0')):
            if opcode in offered:
                manual_goto(opcode, -1, 1, 'goto 1 1 at ' + last)
                manual_goto(opcode, -1, 0, 'goto 0 0 at 1 0 777+12')
                manual_goto(opcode, 0, 0, 'goto 1 0 at ' + none)
            else:
                for number, allowed in ASKED:
                    manual_goto(opcode, number, allowed, 'goto 2 0 at 1 0 777+12')
                control(opcode, 'result 2', 'Paused 3 0 0 | 1 0 777+12', -1)

# Higher mask bits count as 0 (SCOPE 9.2).
case('higher mask bits')
for mask, outcome in ((0xFFE00000, '2 0'), (0x80000400, '1 1')):
    start(b'Radio', mask, 7, 'done', 'Inactive 3 0 0 | 0 0 0')
    activate(1, 'done', 'Paused 3 0 0 | 1 0 0')
    manual_goto(GOTO_SEGMENT, 1, 1, 'goto %s at 1 0 0' % outcome)
    manual_goto(GOTO_GROUP, 1, 1, 'goto 2 0 at 1 0 0')
    manual_goto(0x54, 1, 1, 'goto 2 0 at 1 0 0')


# ---- Nothing that was lent is altered, and nothing falls due

# It serves nothing, marks nothing and reads nothing, leaves no result, and clients play no part in it.
several('the manual alters nothing')
office('4 5 7 18', screen='7')
read(LEFT, 5, 0, 'read' + octets(UEBERFAHRT))
read(LEFT, 7, 0, 'read 00 00 00 00')
for opcode, number, allowed, answer in ((GOTO_SEGMENT, 2, 2, '1 2 at 1 0 1500'), (GOTO_TRACK, 2, 2, '1 2 at 1 1 0'), (GOTO_GROUP, 2, 2, '1 2 at 3 3 0'),
                                        (GOTO_TRACK, 4, 4, '4 4 at 1 0 0'), (GOTO_TRACK, 4, 1, '0 1 at 1 0 0'), (0x124, 0, 0, '2 0 at 1 0 0')):
    manual_goto(opcode, number, allowed, 'goto ' + answer)
    take('nothing')
    read(LEFT, 5, 10, 'read')
    read(LEFT, 7, 4, 'read')
# What is owed stays owed: the manual neither takes it back nor serves it.
calls.control(LEFT, GOTO_TRACK, 'Paused 3 0 0 | 1 1 0', 'left 4 5 7 18; screen 7', 2)
for number, answer in ((1, '1 1 at 1 0 0'), (0, '1 0 at 1 1 0'), (4, '4 4 at 1 1 0')):
    manual_goto(GOTO_TRACK, number, LONGEST, 'goto ' + answer)
seen('23: 4 5 7 18; 4 5 7 18; 1', '-', '-', '517: 7; 7; 0')
take('left 4')
manual_goto(GOTO_GROUP, -1, 1, 'goto 1 1 at 3 3 0')
take('screen 7 00 00 00 00')
take('left 5' + octets(RAST))
manual_goto(GOTO_GROUP, -3, 3, 'goto 4 3 at 1 1 0')
take('left 7 00 00 00 00')
take('left 18 34 01')
take('nothing')
# Titles of the office's own are lent to it as to every call, and it shows none.
rename(FAEHRE, KAI, None, None)
manual_goto(GOTO_TRACK, 1, 1, 'goto 1 1 at 1 0 0')
titles()
take('nothing')
# Without a client.
start(b'Desk', ALL, 7, 'done', 'Inactive 3 0 0 | 0 0 0')
activate(1, 'done', 'Paused 3 0 0 | 1 0 0')
manual_goto(GOTO_TRACK, -2, 2, 'goto 1 2 at 1 1 0')
seen('-', '-', '-', '-')

# Each service has its own player (SCOPE 17.2); a call to one service never alters replies, state or owed values of the other (SCOPE 17.4). Goto Segment is in
# one mask alone.
several('the manual of each service')
start(b'Desk', ALL, 7, 'done', 'Inactive 3 0 0 | 0 0 0', beside=(b'Aula', ALL - (1 << MASK_BITS[GOTO_SEGMENT]), 9))
for opcode, number, generic, named in ((GOTO_SEGMENT, 1, '3 0', '2 0'), (GOTO_TRACK, 0, '3 0', '3 0'), (GOTO_GROUP, -2, '3 0', '3 0')):
    manual_goto(opcode, number, LONGEST, 'goto %s at 0 0 0' % generic, service=GENERIC)
    manual_goto(opcode, number, LONGEST, 'goto %s at 0 0 0' % named, service=NAMED)
activate(1, 'done', 'Paused 3 0 0 | 1 0 0', service=GENERIC)
manual_goto(GOTO_TRACK, 2, 2, 'goto 1 2 at 1 1 0', service=GENERIC)
manual_goto(GOTO_TRACK, 2, 2, 'goto 3 0 at 0 0 0', service=NAMED)
activate(3, 'done', 'Paused 3 0 0 | 3 3 0', service=NAMED)
calls.damage(PLACE, 500, state='Paused 3 0 0 | 3 3 500', service=NAMED)
calls.damage(REST, 65535, state='Paused 3 0 0 | 3 3 500+65535', service=NAMED)
for opcode, number, allowed, generic, named in (
        (GOTO_SEGMENT, 0, 0, '1 0 at 1 0 0', '2 0 at 3 3 500+65535'),
        (GOTO_SEGMENT, 2, 2, '1 2 at 1 0 1500', '2 0 at 3 3 500+65535'),
        (GOTO_TRACK, 0, 0, '1 0 at 1 0 0', '1 0 at 3 3 0'),
        (GOTO_TRACK, 2, 2, '1 2 at 1 1 0', '4 2 at 3 3 500+65535'),
        (GOTO_TRACK, 2, 1, '0 1 at 1 0 0', '0 1 at 3 3 500+65535'),
        (GOTO_TRACK, -1, 1, '1 1 at 1 2 0', '1 1 at 3 3 0'),
        (GOTO_GROUP, 0, 0, '1 0 at 1 0 0', '1 0 at 3 3 0'),
        (GOTO_GROUP, 1, 1, '1 1 at 1 0 0', '1 1 at 1 0 0'),
        (GOTO_GROUP, -1, 1, '1 1 at 3 3 0', '1 1 at 3 3 0'),
        (GOTO_GROUP, 3, 3, '4 3 at 1 0 0', '4 3 at 3 3 500+65535')):
    manual_goto(opcode, number, allowed, 'goto ' + generic, service=GENERIC)
    manual_goto(opcode, number, allowed, 'goto ' + named, service=NAMED)
deactivate('done', 'Inactive 3 0 0 | 0 0 0', service=GENERIC)
manual_goto(GOTO_GROUP, 1, 1, 'goto 3 0 at 0 0 0', service=GENERIC)
manual_goto(GOTO_GROUP, 1, 1, 'goto 1 1 at 1 0 0', service=NAMED)

several('the manual and ours in both services')
desks('18 / 18')
write(LEFT, 15, [5], 'done', 'Paused 5 0 0 | 1 0 0', service=NAMED)
for number, generic, named in ((1, '1 1 at 1 0 0', '1 1 at 1 1 0'), (2, '1 2 at 1 1 0', '1 2 at 1 2 0'), (-1, '1 1 at 1 2 0', '1 1 at 1 0 0')):
    manual_goto(GOTO_TRACK, number, 2, 'goto ' + generic, service=GENERIC)
    manual_goto(GOTO_TRACK, number, 2, 'goto ' + named, service=NAMED)
calls.control(LEFT, GOTO_TRACK, 'Paused 3 0 0 | 1 1 0', 'left 18', 2, service=GENERIC)
manual_goto(GOTO_TRACK, 2, 2, 'goto 1 2 at 1 2 0', service=NAMED)
calls.control(LEFT, GOTO_TRACK, 'Paused 5 0 0 | 1 2 0', 'left 18', 2, service=NAMED)
manual_goto(GOTO_TRACK, 0, 2, 'goto 1 0 at 1 1 0', service=GENERIC)
manual_goto(GOTO_TRACK, 0, 2, 'goto 1 0 at 1 2 0', service=NAMED)
seen_in_both(('23: 18; 18; 1', '-', '-', '-'), ('23: 18; 18; 1', '-', '-', '-'))
take_generic('left 18 34 01')
take_named('left 18 34 01')
take('nothing')


# ---- Refusals: 200, 224, 201, 219, and then the outcomes

def refused(answer, catalogue=SAMPLE, services=(GENERIC, NAMED, 2)):
    """What would make all its steps, stop at one, and be outcome 2."""
    for service in services:
        for opcode, number, allowed in ((GOTO_SEGMENT, 2, 2), (GOTO_TRACK, LEAST, LONGEST), (0x124, 0, 0)):
            manual_goto(opcode, number, allowed, answer, catalogue, service)


# 200 for a bad title carries the lowest such track and the offset; every other 200 carries nothing and comes before (SCOPE 4.14).
several('the manual refuses a wrong catalogue')
desks('5 / 5')
for catalogue, answer in ((OWN_PARENT, 'refused 200'), (CUT, 'refused 200'), (BAD_TITLES, 'refused 200 1 5'), (BAD_AND_WRONG, 'refused 200')):
    refused(answer, catalogue)
# While no track is current.
deactivate('done', 'Inactive 3 0 0 | 0 0 0', 'left 5')
refused('refused 200 1 5', BAD_TITLES, (GENERIC,))
refused('refused 200', BAD_AND_WRONG, (GENERIC,))

# 224 comes after 200 (SCOPE 5.3), and before 201 and 219.
several('the manual refuses bad titles')
desks('5 / 5')
for entries, text in BAD_RENAMES:
    titles(entries, text)
    for service in (GENERIC, NAMED, 2):
        manual_goto(GOTO_TRACK, 1, 1, 'refused 224', service=service)
    manual_goto(GOTO_TRACK, 1, 1, 'refused 200 1 5', BAD_TITLES)
    manual_goto(GOTO_TRACK, 1, 1, 'refused 200', CUT, 2)
refused('refused 224')
damage(TURN, 4, 'Paused 3 0 0 | 1 0 0')
refused('refused 224')
refused('refused 200 1 5', BAD_TITLES, (2,))
titles()
refused('refused 201')
damage(TURN, 3, 'Paused 3 0 0 | 1 0 0')
# An entry for each of four tracks is not one for each of 256.
rename(FAEHRE, KAI, None, None)
manual_goto(GOTO_TRACK, 1, 1, 'refused 224', MANY)
manual_goto(GOTO_TRACK, 1, 1, 'goto 1 1 at 1 0 0')
titles()
take('nothing')

# 201 looks at both players and at every record, whichever service the call is to, and comes before 219.
several('the manual refuses a wrong state')
desks('5 / 5')
for service in SERVICES:
    for part, number, state, right in WRONG_PLAYERS:
        calls.damage(part, number, state=state, service=service)
        for each in SERVICES:
            manual_goto(GOTO_TRACK, 2, 2, 'refused 201', service=each)
        calls.damage(part, right, state='Paused 3 0 0 | 1 0 0', service=service)
    manual_goto(GOTO_TRACK, 2, 2, 'goto 1 2 at 1 1 0', service=service)
calls.damage(MTU, 22, who=LEFT, shows='22: 5;; 0', beside='22: 5;; 0')
refused('refused 201')
refused('refused 200 1 5', BAD_TITLES, (2,))
calls.damage(MTU, 23, who=LEFT)
take('nothing')

# The position is beyond D, group 63 is not there, and track 0 is not of group 1.
case('the manual refuses a state that stands in another catalogue')
stand_in_running(3, 1, 301)
manual_goto(GOTO_SEGMENT, 2, 2, 'goto 1 2 at 1 1 1500', RUNNING)
manual_goto(GOTO_SEGMENT, 2, 2, 'refused 201')
stand_over(MANY, 3, 63, 0, 7)
manual_goto(GOTO_TRACK, 7, 7, 'goto 1 7 at 63 6 0', MANY)
manual_goto(GOTO_TRACK, 7, 7, 'refused 201')
stand(3, 0, 0)
manual_goto(GOTO_GROUP, 1, 1, 'refused 201', FOLDERS)
manual_goto(GOTO_GROUP, 1, 1, 'goto 1 1 at 1 0 0', CLOSE)
# Inactive with a group, with a next track that is named, with a rest that is too long, and Paused without a track.
start(b'Radio', ALL, 7, 'done', 'Inactive 3 0 0 | 0 0 0')
for part, number, state in ((GROUP, 1, 'Inactive 3 0 0 | 1 0 0'), (NEXT, 1, 'Inactive 3 0 0 | 0 0 0 0'), (REST, 65536, 'Inactive 3 0 0 | 0 0 0+65536'),
                            (MEDIA, 2, 'Paused 3 0 0 | 0 0 0')):
    damage(part, number, state)
    manual_goto(GOTO_SEGMENT, 0, 0, 'refused 201')
    manual_goto(0x100, 0, 0, 'refused 201')
    damage(part, 0, 'Inactive 3 0 0 | 0 0 0')
manual_goto(GOTO_SEGMENT, 0, 0, 'goto 3 0 at 0 0 0')
check('nothing', 'Inactive 3 0 0 | 0 0 0')

# 219, for a service number over 1 (SCOPE 20.2), comes before results 2 and 3.
several('the manual of no service')
desks('5 / 5')
refused('refused 219', services=NO_SERVICES)
for service in SERVICES:
    deactivate('done', 'Inactive 3 0 0 | 0 0 0', 'left 5', service=service)
refused('refused 219', services=NO_SERVICES)
for service in SERVICES:
    manual_goto(GOTO_SEGMENT, 2, 2, 'goto 3 0 at 0 0 0', service=service)
take_generic('left 5')
take_named('left 5')
take('nothing')
