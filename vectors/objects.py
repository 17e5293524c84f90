"""The object numbers' cases: 10 to 14 of the standard (SCOPE 14 and 16.5), which vectors/script.py puts behind the player's.

Each call has its answer, the state of the player that it leaves and what falls due by it to whom beside it, worked out by hand from the rules that
docs/SCOPE.md has. vectors/calls.py says how they are written: the last part of a state is the named next track. The cases of one client are the left pedal's,
as in vectors/player.py, to the generic service and to the named player in turn; those of several clients are to the generic service, as in vectors/office.py.
The objects themselves are asked of the catalogue alone, and are in vectors/make.py.

The tracks 0, 1 and 2 of group 1 come in orders 3, 4, 7 and 8 as 0, 1, 2 and in orders 5 and 6 as 1, 2, 0; track 3 is alone in group 3. Track 0 has
segments, and no other.

A comment that names a rule, such as SCOPE 18.2, says it in a few words; docs/SCOPE.md has the rule.
"""
import calls
from calls import (
    ALL, BAD_TITLES, CLOSE, CUT, ENCRYPTED, FIRST_GROUP, FIRST_SEGMENT, FIRST_TRACK, FOLDERS, FORWARD, GENERIC, GOTO_GROUP, GOTO_SEGMENT,
    GOTO_TRACK, HEADSET, LAST_GROUP, LAST_SEGMENT, LAST_TRACK, LEFT, LONGEST, MANY, NAMED, NEXT, NEXT_GROUP, NEXT_SEGMENT, NEXT_TRACK, OPEN, PAUSE,
    PLAY, PREVIOUS_GROUP, PREVIOUS_SEGMENT, PREVIOUS_TRACK, RELATIVE, REWIND, RIGHT, RUNNING, SAMPLE, SCREEN, STOP, TRACK,
    activate, advance, connect, deactivate, disconnect, group_object, octets, on, read, seen, segments_object, start, subscribe, take, track_object,
    unsubscribe, word, write,
)
from office import come, office, the_others_refuse_the_state
from player import LEAST, MASK_BITS, MOST, attend, case, check, control, damage, order, position, set_name, speed, stand, stand_in_3, stays, value

OBJECTS = (10, 11, 12, 13, 14)
WRITTEN = (11, 12, 14)


def go_to_track(track, answer, state, catalogue=SAMPLE):
    """A write of 11."""
    write(LEFT, 11, track_object(track), answer, state, catalogue=catalogue)


def name(track, answer, state, catalogue=SAMPLE):
    """A write of 12."""
    write(LEFT, 12, track_object(track), answer, state, catalogue=catalogue)


def go_to_group(group, answer, state, catalogue=SAMPLE):
    """A write of 14."""
    write(LEFT, 14, group_object(group), answer, state, catalogue=catalogue)


def number(characteristic, wanted, state, catalogue=SAMPLE):
    """A read of six octets, or of none."""
    value(characteristic, 'read' + ('' if wanted is None else octets(wanted.to_bytes(6, 'little'))), state, catalogue=catalogue)


def numbers(state, *wanted, catalogue=SAMPLE):
    """Reads of 10 to 14."""
    for characteristic, each in zip(OBJECTS, wanted):
        number(characteristic, each, state, catalogue)


def several(words):
    """A case of several clients, to the generic service."""
    calls.case(words)
    on(GENERIC)


# ---- Values

# A value of 10 to 14 is six octets, or none while Inactive, of 10 where the track has no segments, and of 12 where no next track exists (SCOPE 16.5, 16.6).
case('object numbers while Inactive')
start(b'Radio', ALL, 7, 'done', 'Inactive 3 0 0 | 0 0 0')
attend()
numbers('Inactive 3 0 0 | 0 0 0', None, None, None, None, None)
# Order 2 has the current track for the next one, and there is none.
order(2, 'done', 'Inactive 2 0 0 | 0 0 0')
numbers('Inactive 2 0 0 | 0 0 0', None, None, None, None, None)
activate(1, 'done', 'Paused 2 0 0 | 1 0 0')
numbers('Paused 2 0 0 | 1 0 0', 0x3000, 0x1000, 0x1000, 0x2000, 0x2001)
deactivate('done', 'Inactive 2 0 0 | 0 0 0')
numbers('Inactive 2 0 0 | 0 0 0', None, None, None, None, None)

case('object numbers in each media state')
stand(3, 0, 1501)
numbers('Paused 3 0 0 | 1 0 1501', 0x3000, 0x1000, 0x1001, 0x2000, 0x2001)
control(PLAY, 'result 1', 'Playing 3 0 0 | 1 0 1501')
numbers('Playing 3 0 0 | 1 0 1501', 0x3000, 0x1000, 0x1001, 0x2000, 0x2001)
control(REWIND, 'result 1', 'Seeking 3 0 -4 | 1 0 1501')
numbers('Seeking 3 0 -4 | 1 0 1501', 0x3000, 0x1000, 0x1001, 0x2000, 0x2001)
# The same with a name.
name(2, 'done', 'Seeking 3 0 -4 | 1 0 1501 2')
numbers('Seeking 3 0 -4 | 1 0 1501 2', 0x3000, 0x1000, 0x1002, 0x2000, 0x2001)
control(PLAY, 'result 1', 'Playing 3 0 0 | 1 0 1501 2')
numbers('Playing 3 0 0 | 1 0 1501 2', 0x3000, 0x1000, 0x1002, 0x2000, 0x2001)
control(PAUSE, 'result 1', 'Paused 3 0 0 | 1 0 1501 2')
numbers('Paused 3 0 0 | 1 0 1501 2', 0x3000, 0x1000, 0x1002, 0x2000, 0x2001)
deactivate('done', 'Inactive 3 0 0 | 0 0 0')
numbers('Inactive 3 0 0 | 0 0 0', None, None, None, None, None)

case('object numbers of the other tracks')
stand(3, 1, 100)
numbers('Paused 3 0 0 | 1 1 100', None, 0x1001, 0x1002, 0x2000, 0x2001)
stand(3, 2, 0)
numbers('Paused 3 0 0 | 1 2 0', None, 0x1002, None, 0x2000, 0x2001)
stand_in_3(3, 100)
numbers('Paused 3 0 0 | 3 3 100', None, 0x1003, None, 0x2000, 0x2003)

# 12 is what Next Track would reach: none in order 1 and past the end of a once order, the current track in order 2 and alone in a repeat order.
for playing_order, behind_0, behind_1, behind_2, behind_3 in (
        (1, None, None, None, None),
        (2, 0x1000, 0x1001, 0x1002, 0x1003),
        (3, 0x1001, 0x1002, None, None),
        (4, 0x1001, 0x1002, 0x1000, 0x1003),
        (5, None, 0x1002, 0x1000, None),
        (6, 0x1001, 0x1002, 0x1000, 0x1003),
        (7, 0x1001, 0x1002, None, None),
        (8, 0x1001, 0x1002, 0x1000, 0x1003)):
    case('the next track in order %d' % playing_order)
    for track, behind in enumerate((behind_0, behind_1, behind_2)):
        stand(playing_order, track, 0)
        number(12, behind, 'Paused %d 0 0 | 1 %d 0' % (playing_order, track))
        # And Next Track reaches it.
        reached = track if behind is None else behind - 0x1000
        control(NEXT_TRACK, 'result 4' if behind is None else 'result 1', 'Paused %d 0 0 | 1 %d 0' % (playing_order, reached))
    stand_in_3(playing_order, 0)
    number(12, behind_3, 'Paused %d 0 0 | 3 3 0' % playing_order)

# The segments of track t are object 0x3000 + t (SCOPE 7.1): of tracks 0 and 1 in the one catalogue, of track 0 in the other.
case('the segments of other tracks')
start(b'Radio', ALL, 7, 'done', 'Inactive 3 0 0 | 0 0 0')
attend()
activate(1, 'done', 'Paused 3 0 0 | 1 0 0', catalogue=RUNNING)
number(10, 0x3000, 'Paused 3 0 0 | 1 0 0', RUNNING)
control(NEXT_TRACK, 'result 1', 'Paused 3 0 0 | 1 1 0', catalogue=RUNNING)
numbers('Paused 3 0 0 | 1 1 0', 0x3001, 0x1001, 0x1002, 0x2000, 0x2001, catalogue=RUNNING)
control(NEXT_TRACK, 'result 1', 'Paused 3 0 0 | 1 2 0', catalogue=RUNNING)
number(10, None, 'Paused 3 0 0 | 1 2 0', RUNNING)
control(FIRST_TRACK, 'result 1', 'Paused 3 0 0 | 1 0 0', catalogue=CLOSE)
number(10, 0x3000, 'Paused 3 0 0 | 1 0 0', CLOSE)

# The standard, 3.13: a group without a parent is its own. Group 0, if any, is its own parent (SCOPE 4.5).
case('parents')
start(b'Radio', ALL, 7, 'done', 'Inactive 3 0 0 | 0 0 0')
attend()
activate(0, 'done', 'Paused 3 0 0 | 0 0 0', catalogue=FOLDERS)
numbers('Paused 3 0 0 | 0 0 0', 0x3000, 0x1000, None, 0x2000, 0x2000, catalogue=FOLDERS)
activate(1, 'done', 'Paused 3 0 0 | 1 1 0', catalogue=FOLDERS)
numbers('Paused 3 0 0 | 1 1 0', None, 0x1001, 0x1002, 0x2000, 0x2001, catalogue=FOLDERS)
activate(3, 'done', 'Paused 3 0 0 | 3 3 0', catalogue=FOLDERS)
numbers('Paused 3 0 0 | 3 3 0', None, 0x1003, None, 0x2001, 0x2003, catalogue=FOLDERS)

# The greatest numbers: group 63 and track 255. All stamps are equal, so all orders but 1 and 2 are by number.
case('the last of 64 groups and of 256 tracks')
start(b'Radio', ALL, 7, 'done', 'Inactive 3 0 0 | 0 0 0')
attend()
activate(62, 'refused 208', 'Inactive 3 0 0 | 0 0 0', catalogue=MANY)
activate(63, 'done', 'Paused 3 0 0 | 63 0 0', catalogue=MANY)
numbers('Paused 3 0 0 | 63 0 0', None, 0x1000, 0x1001, 0x2000, 0x203F, catalogue=MANY)
control(LAST_TRACK, 'result 1', 'Paused 3 0 0 | 63 255 0', catalogue=MANY)
numbers('Paused 3 0 0 | 63 255 0', None, 0x10FF, None, 0x2000, 0x203F, catalogue=MANY)
order(4, 'done', 'Paused 4 0 0 | 63 255 0', MANY)
number(12, 0x1000, 'Paused 4 0 0 | 63 255 0', MANY)
control(PREVIOUS_TRACK, 'result 1', 'Paused 4 0 0 | 63 254 0', catalogue=MANY)
number(12, 0x10FF, 'Paused 4 0 0 | 63 254 0', MANY)
go_to_track(0, 'done', 'Paused 4 0 0 | 63 0 0', MANY)
name(255, 'done', 'Paused 4 0 0 | 63 0 0 255', MANY)
number(12, 0x10FF, 'Paused 4 0 0 | 63 0 0 255', MANY)
control(NEXT_TRACK, 'result 1', 'Paused 4 0 0 | 63 255 0', catalogue=MANY)
go_to_track(128, 'done', 'Paused 4 0 0 | 63 128 0', MANY)
number(11, 0x1080, 'Paused 4 0 0 | 63 128 0', MANY)
for track in (256, 257, 511, 4096):
    go_to_track(track, 'refused 0x13', 'Paused 4 0 0 | 63 128 0', MANY)
    name(track, 'refused 0x13', 'Paused 4 0 0 | 63 128 0', MANY)
for group in (0, 1, 62, 64, 255, 319):
    go_to_group(group, 'refused 0x13', 'Paused 4 0 0 | 63 128 0', MANY)
go_to_group(63, 'done', 'Paused 4 0 0 | 63 0 0', MANY)

# A read above offset 0, where some call changed the value, even if it changed back, since the client's last accepted read of it at 0, or where there was no
# such read since connecting (SCOPE 17.14); an offset above the length (SCOPE 20.2).
case('object numbers at offsets')
stand(3, 0, 0)
for characteristic, text in ((10, segments_object(0)), (11, track_object(0)), (12, track_object(1)), (13, group_object(0)), (14, group_object(1))):
    read(LEFT, characteristic, 1, 'refused 0x80')
    read(LEFT, characteristic, 0, 'read' + octets(text))
    for offset in (1, 2, 5, 6):
        read(LEFT, characteristic, offset, 'read' + octets(text[offset:]))
    read(LEFT, characteristic, 7, 'refused 0x07')
    read(LEFT, characteristic, LONGEST, 'refused 0x07')
# Of no octets.
control(LAST_TRACK, 'result 1', 'Paused 3 0 0 | 1 2 0')
for characteristic in (10, 12):
    read(LEFT, characteristic, 1, 'refused 0x80')
    read(LEFT, characteristic, 0, 'read')
    read(LEFT, characteristic, 1, 'refused 0x07')


def changed(state, *characteristics, empty=(), catalogue=SAMPLE):
    """Of 10 to 14, each of which the left pedal read at 0, these were changed since and the others not. Of those that are not, the ones that have no
    octets are named too: any offset is above their length."""
    stays(state)
    for characteristic in OBJECTS:
        if characteristic in characteristics:
            read(LEFT, characteristic, 1, 'refused 0x80', catalogue=catalogue)
        elif characteristic in empty:
            read(LEFT, characteristic, 1, 'refused 0x07', catalogue=catalogue)
        else:
            read(LEFT, characteristic, 6, 'read', catalogue=catalogue)


case('the changed marks of object numbers')
stand(3, 0, 0)
numbers('Paused 3 0 0 | 1 0 0', 0x3000, 0x1000, 0x1001, 0x2000, 0x2001)
changed('Paused 3 0 0 | 1 0 0')
# The track that comes next anyway is no change, another one is.
name(1, 'done', 'Paused 3 0 0 | 1 0 0 1')
changed('Paused 3 0 0 | 1 0 0 1')
name(2, 'done', 'Paused 3 0 0 | 1 0 0 2')
changed('Paused 3 0 0 | 1 0 0 2', 12)
# It counts as changed even if it changed back (SCOPE 17.14).
name(1, 'done', 'Paused 3 0 0 | 1 0 0 1')
changed('Paused 3 0 0 | 1 0 0 1', 12)
name(2, 'done', 'Paused 3 0 0 | 1 0 0 2')
numbers('Paused 3 0 0 | 1 0 0 2', 0x3000, 0x1000, 0x1002, 0x2000, 0x2001)
# The name is dropped, and track 2 comes next by the order: 12 reads what it read.
go_to_track(1, 'done', 'Paused 3 0 0 | 1 1 0')
changed('Paused 3 0 0 | 1 1 0', 10, 11)
numbers('Paused 3 0 0 | 1 1 0', None, 0x1001, 0x1002, 0x2000, 0x2001)
# 10 is empty before and after.
go_to_group(3, 'done', 'Paused 3 0 0 | 3 3 0')
changed('Paused 3 0 0 | 3 3 0', 11, 12, 14, empty=(10,))
numbers('Paused 3 0 0 | 3 3 0', None, 0x1003, None, 0x2000, 0x2003)
order(4, 'done', 'Paused 4 0 0 | 3 3 0')
changed('Paused 4 0 0 | 3 3 0', 12, empty=(10,))
numbers('Paused 4 0 0 | 3 3 0', None, 0x1003, 0x1003, 0x2000, 0x2003)
# Nothing changes by a position, a speed or a state.
position(100, 'done', 'Paused 4 0 0 | 3 3 100')
speed(5, 'done', 'Paused 4 5 0 | 3 3 100')
control(FORWARD, 'result 1', 'Seeking 4 5 4 | 3 3 100')
go_to_track(3, 'done', 'Playing 4 5 0 | 3 3 0')
# At a speed above 0 a step of 900 is more than the 900 of the track (SCOPE 13.2).
advance(900, 'done', 'Playing 4 5 0 | 3 3 0')
changed('Playing 4 5 0 | 3 3 0', empty=(10,))
deactivate('done', 'Inactive 4 5 0 | 0 0 0')
changed('Inactive 4 5 0 | 0 0 0', 11, 12, 13, 14, empty=(10,))
numbers('Inactive 4 5 0 | 0 0 0', None, None, None, None, None)
activate(1, 'done', 'Paused 4 5 0 | 1 0 0')
changed('Paused 4 5 0 | 1 0 0', 10, 11, 12, 13, 14)

case('the changed mark of a parent')
start(b'Radio', ALL, 7, 'done', 'Inactive 3 0 0 | 0 0 0')
attend()
activate(1, 'done', 'Paused 3 0 0 | 1 1 0', catalogue=FOLDERS)
numbers('Paused 3 0 0 | 1 1 0', None, 0x1001, 0x1002, 0x2000, 0x2001, catalogue=FOLDERS)
go_to_group(3, 'done', 'Paused 3 0 0 | 3 3 0', FOLDERS)
changed('Paused 3 0 0 | 3 3 0', 11, 12, 13, 14, empty=(10,), catalogue=FOLDERS)
numbers('Paused 3 0 0 | 3 3 0', None, 0x1003, None, 0x2001, 0x2003, catalogue=FOLDERS)
go_to_group(0, 'done', 'Paused 3 0 0 | 0 0 0', FOLDERS)
changed('Paused 3 0 0 | 0 0 0', 10, 11, 13, 14, empty=(12,), catalogue=FOLDERS)
numbers('Paused 3 0 0 | 0 0 0', 0x3000, 0x1000, None, 0x2000, 0x2000, catalogue=FOLDERS)
# The parent of group 1 is group 0, and so is that of group 0.
go_to_group(1, 'done', 'Paused 3 0 0 | 1 1 0', FOLDERS)
changed('Paused 3 0 0 | 1 1 0', 10, 11, 12, 14, catalogue=FOLDERS)


# ---- Writing 11 goes to a track of the current group at 0 (SCOPE 14.2)

for playing_order in (1, 2, 3, 4, 5, 6, 7, 8):
    case('going to each track of the group in order %d' % playing_order)
    stand(playing_order, 1, 100)
    for track in (0, 1, 2, 0, 2, 1):
        go_to_track(track, 'done', 'Paused %d 0 0 | 1 %d 0' % (playing_order, track))

# A write of 11 acts as Goto Track does (the standard, 3.11.1). Track and group moves turn Seeking into Playing (SCOPE 11.7, 12.3).
case('going to a track in each media state')
stand(3, 0, 1501)
go_to_track(1, 'done', 'Paused 3 0 0 | 1 1 0')
position(100, 'done', 'Paused 3 0 0 | 1 1 100')
go_to_track(1, 'done', 'Paused 3 0 0 | 1 1 0')
control(PLAY, 'result 1', 'Playing 3 0 0 | 1 1 0')
go_to_track(0, 'done', 'Playing 3 0 0 | 1 0 0')
advance(100, 'done', 'Playing 3 0 0 | 1 0 100')
go_to_track(0, 'done', 'Playing 3 0 0 | 1 0 0')
control(FORWARD, 'result 1', 'Seeking 3 0 4 | 1 0 0')
advance(100, 'done', 'Seeking 3 0 4 | 1 0 400')
go_to_track(2, 'done', 'Playing 3 0 0 | 1 2 0')
control(REWIND, 'result 1', 'Seeking 3 0 -4 | 1 2 0')
# The current one too.
go_to_track(2, 'done', 'Playing 3 0 0 | 1 2 0')
speed(-64, 'done', 'Playing 3 -64 0 | 1 2 0')
go_to_track(1, 'done', 'Playing 3 -64 0 | 1 1 0')
# A result is one of a control write.
check('nothing', 'Playing 3 -64 0 | 1 1 0')

case('going to a running recording')
start(b'Radio', ALL, 7, 'done', 'Inactive 3 0 0 | 0 0 0', RUNNING)
attend()
activate(1, 'done', 'Paused 3 0 0 | 1 0 0', catalogue=RUNNING)
go_to_track(1, 'done', 'Paused 3 0 0 | 1 1 0', RUNNING)
position(8640000, 'done', 'Paused 3 0 0 | 1 1 8640000', RUNNING)
go_to_track(1, 'done', 'Paused 3 0 0 | 1 1 0', RUNNING)
go_to_track(2, 'done', 'Paused 3 0 0 | 1 2 0', RUNNING)


# ---- Writing 14 goes to a group as activate does, but keeping the state, where Seeking becomes Playing (SCOPE 14.3)

for playing_order, first in ((1, 0), (2, 0), (3, 0), (4, 0), (5, 1), (6, 1), (7, 0), (8, 0)):
    case('going to a group in order %d' % playing_order)
    stand_in_3(playing_order, 100)
    go_to_group(1, 'done', 'Paused %d 0 0 | 1 %d 0' % (playing_order, first))
    go_to_track(2, 'done', 'Paused %d 0 0 | 1 2 0' % playing_order)
    # The current group is entered anew.
    go_to_group(1, 'done', 'Paused %d 0 0 | 1 %d 0' % (playing_order, first))
    position(10, 'done', 'Paused %d 0 0 | 1 %d 10' % (playing_order, first))
    go_to_group(1, 'done', 'Paused %d 0 0 | 1 %d 0' % (playing_order, first))
    go_to_group(3, 'done', 'Paused %d 0 0 | 3 3 0' % playing_order)

case('going to a group in each media state')
stand(3, 1, 100)
go_to_group(3, 'done', 'Paused 3 0 0 | 3 3 0')
control(PLAY, 'result 1', 'Playing 3 0 0 | 3 3 0')
advance(100, 'done', 'Playing 3 0 0 | 3 3 100')
go_to_group(1, 'done', 'Playing 3 0 0 | 1 0 0')
control(FORWARD, 'result 1', 'Seeking 3 0 4 | 1 0 0')
control(FORWARD, 'result 1', 'Seeking 3 0 8 | 1 0 0')
go_to_group(3, 'done', 'Playing 3 0 0 | 3 3 0')
control(REWIND, 'result 1', 'Seeking 3 0 -4 | 3 3 0')
go_to_group(3, 'done', 'Playing 3 0 0 | 3 3 0')
check('nothing', 'Playing 3 0 0 | 3 3 0')

# Any group with tracks, group 0 too, and from anywhere: group moves stay among the groups of one parent, and of group 0 with itself.
case('going to groups of another parent')
start(b'Radio', ALL, 7, 'done', 'Inactive 3 0 0 | 0 0 0')
attend()
activate(3, 'done', 'Paused 3 0 0 | 3 3 0', catalogue=FOLDERS)
control(PREVIOUS_GROUP, 'result 4', 'Paused 3 0 0 | 3 3 0', catalogue=FOLDERS)
go_to_group(0, 'done', 'Paused 3 0 0 | 0 0 0', FOLDERS)
control(NEXT_GROUP, 'result 4', 'Paused 3 0 0 | 0 0 0', catalogue=FOLDERS)
go_to_group(1, 'done', 'Paused 3 0 0 | 1 1 0', FOLDERS)
go_to_group(2, 'refused 0x13', 'Paused 3 0 0 | 1 1 0', FOLDERS)
go_to_group(3, 'done', 'Paused 3 0 0 | 3 3 0', FOLDERS)
go_to_group(1, 'done', 'Paused 3 0 0 | 1 1 0', FOLDERS)
go_to_group(0, 'done', 'Paused 3 0 0 | 0 0 0', FOLDERS)
go_to_group(0, 'done', 'Paused 3 0 0 | 0 0 0', FOLDERS)


# ---- Refused writes

def all_48_bits(lowest):
    """Numbers that have the lowest two octets of a right one, and one bit or one octet more."""
    for octet in (2, 3, 4, 5):
        for bits in (0x01, 0x80, 0xFF):
            yield lowest + (bits << 8 * octet)


# 0x13 is for any other number (SCOPE 14.8): of a track of another group or of none, of a group or of segments for a track, and any that is not wholly the
# one.
case('numbers that are not those of a track of the group')
stand(3, 1, 100)
for characteristic in (11, 12):
    for wrong in (0, 1, 0xFF, 0x0FFF, 0x1003, 0x1004, 0x10FF, 0x1100, 0x1102, 0x1FFF, 0x2000, 0x2001, 0x3000, 0x3001, 0x9001, 0xFFFF, 0x011001,
                  0xFFFFFFFF, 0xFFFFFFFFFFFF) + tuple(all_48_bits(0x1001)) + tuple(all_48_bits(0x1000)):
        write(LEFT, characteristic, wrong.to_bytes(6, 'little'), 'refused 0x13', 'Paused 3 0 0 | 1 1 100')
stand_in_3(3, 100)
for characteristic in (11, 12):
    for track in (0, 1, 2, 4):
        write(LEFT, characteristic, track_object(track), 'refused 0x13', 'Paused 3 0 0 | 3 3 100')
    # The number of the highest octet first.
    write(LEFT, characteristic, (0x1003).to_bytes(6, 'big'), 'refused 0x13', 'Paused 3 0 0 | 3 3 100')

# A group without tracks in 14 (SCOPE 14.8): groups 0 and 2.
case('numbers that are not those of a group with tracks')
stand(3, 1, 100)
for wrong in (0, 1, 3, 0xFF, 0x1000, 0x1001, 0x1FFF, 0x2000, 0x2002, 0x2004, 0x203F, 0x20FF, 0x2101, 0x2103, 0x3001, 0xA001, 0xFFFF, 0x012001,
              0xFFFFFFFF, 0xFFFFFFFFFFFF) + tuple(all_48_bits(0x2001)) + tuple(all_48_bits(0x2003)):
    write(LEFT, 14, wrong.to_bytes(6, 'little'), 'refused 0x13', 'Paused 3 0 0 | 1 1 100')
write(LEFT, 14, (0x2003).to_bytes(6, 'big'), 'refused 0x13', 'Paused 3 0 0 | 1 1 100')

# 0x0D is for a length other than 6 (SCOPE 20.6), and before 0x13: the numbers are right, or none that may be written.
case('lengths other than six octets')
stand(3, 1, 100)
for characteristic, right in ((11, track_object(2)), (12, track_object(2)), (14, group_object(3))):
    for length in (0, 1, 2, 3, 4, 5):
        write(LEFT, characteristic, right[:length], 'refused 0x0D', 'Paused 3 0 0 | 1 1 100')
        write(LEFT, characteristic, b'\xFF' * length, 'refused 0x0D', 'Paused 3 0 0 | 1 1 100')
    for more in (1, 2, 6, 249):
        write(LEFT, characteristic, right + bytes(more), 'refused 0x0D', 'Paused 3 0 0 | 1 1 100')
        write(LEFT, characteristic, b'\xFF' * (6 + more), 'refused 0x0D', 'Paused 3 0 0 | 1 1 100')
    write(LEFT, characteristic, right + right, 'refused 0x0D', 'Paused 3 0 0 | 1 1 100')
    write(LEFT, characteristic, b'\xFF' * 6, 'refused 0x13', 'Paused 3 0 0 | 1 1 100')

# 0x13 is for every number while Inactive (SCOPE 14.8).
case('object numbers are written while Inactive')
start(b'Radio', ALL, 7, 'done', 'Inactive 3 0 0 | 0 0 0')
attend()
for characteristic, right in ((11, track_object(0)), (12, track_object(0)), (14, group_object(1))):
    write(LEFT, characteristic, right, 'refused 0x13', 'Inactive 3 0 0 | 0 0 0')
    write(LEFT, characteristic, bytes(6), 'refused 0x13', 'Inactive 3 0 0 | 0 0 0')
    write(LEFT, characteristic, right[:5], 'refused 0x0D', 'Inactive 3 0 0 | 0 0 0')
    write(LEFT, characteristic, [], 'refused 0x0D', 'Inactive 3 0 0 | 0 0 0')
stand(3, 1, 100)
deactivate('done', 'Inactive 3 0 0 | 0 0 0')
go_to_track(1, 'refused 0x13', 'Inactive 3 0 0 | 0 0 0')
name(1, 'refused 0x13', 'Inactive 3 0 0 | 0 0 0')
go_to_group(1, 'refused 0x13', 'Inactive 3 0 0 | 0 0 0')
# Group 0 has tracks there, and track 0 is one of them.
go_to_track(0, 'refused 0x13', 'Inactive 3 0 0 | 0 0 0', FOLDERS)
go_to_group(0, 'refused 0x13', 'Inactive 3 0 0 | 0 0 0', FOLDERS)

# 11, 12, 14 may be written (SCOPE 16.1), and 10 and 13 not, whatever is written. Slots 11 to 14 (SCOPE 16.2): 10 is none.
case('what may be done with 10 and 13')
stand(3, 1, 100)
for characteristic in (10, 13):
    for text in (b'', b'\x01', track_object(1), segments_object(0), group_object(1), group_object(3), bytes(7)):
        write(LEFT, characteristic, text, 'refused 0x03', 'Paused 3 0 0 | 1 1 100')
subscribe(LEFT, 10, 'refused 209')
unsubscribe(LEFT, 10, 'refused 209')
for characteristic in (11, 12, 13, 14):
    subscribe(LEFT, characteristic, 'done')
    unsubscribe(LEFT, characteristic, 'done')
check('nothing', 'Paused 3 0 0 | 1 1 100')

# Of several refusals the first in the table is given (SCOPE 20.2).
case('the order of refusals of a written object number')
stand(3, 1, 100)
connect(RIGHT, 23, OPEN, 'done')
for characteristic in WRITTEN:
    for text in (b'\xFF' * 6, b'\xFF' * 5):
        write(LEFT, characteristic, text, 'refused 200 1 5', 'Paused 3 0 0 | 1 1 100', catalogue=BAD_TITLES)
        write(LEFT, characteristic, text, 'refused 200', 'Paused 3 0 0 | 1 1 100', catalogue=CUT)
        write(4, characteristic, text, 'refused 202', 'Paused 3 0 0 | 1 1 100')
        write(LEFT, characteristic, text, 'refused 219', service=2)
        write(SCREEN, characteristic, text, 'refused 203', 'Paused 3 0 0 | 1 1 100')
        write(RIGHT, characteristic, text, 'refused 0x0F', 'Paused 3 0 0 | 1 1 100')
    damage(TRACK, 3, 'Paused 3 0 0 | 1 3 100')
    write(LEFT, characteristic, b'\xFF' * 5, 'refused 201', 'Paused 3 0 0 | 1 3 100')
    write(LEFT, characteristic, track_object(1), 'refused 201', 'Paused 3 0 0 | 1 3 100')
    damage(TRACK, 1, 'Paused 3 0 0 | 1 1 100')
for characteristic in (10, 13):
    write(RIGHT, characteristic, b'', 'refused 0x03', 'Paused 3 0 0 | 1 1 100')
    write(RIGHT, characteristic, track_object(1), 'refused 0x03', 'Paused 3 0 0 | 1 1 100')

# 0x11 is of writes to 18 alone (SCOPE 20.2).
case('object numbers are written while eight results wait')
stand(3, 1, 100)
for _ in range(8):
    write(LEFT, 18, [PREVIOUS_GROUP], 'done', 'Paused 3 0 0 | 1 1 100', 'left 18')
write(LEFT, 18, [PREVIOUS_GROUP], 'refused 0x11', 'Paused 3 0 0 | 1 1 100')
name(0, 'done', 'Paused 3 0 0 | 1 1 100 0')
go_to_track(2, 'done', 'Paused 3 0 0 | 1 2 0')
go_to_group(3, 'done', 'Paused 3 0 0 | 3 3 0')
for _ in range(8):
    take('left 18 40 04')
check('nothing', 'Paused 3 0 0 | 3 3 0')


# ---- 12 names a track of the current group that Next Track or the end of a track uses once (SCOPE 14.4, 14.5)

case('Next Track goes to the named track, once')
stand(3, 1, 100)
name(0, 'done', 'Paused 3 0 0 | 1 1 100 0')
number(12, 0x1000, 'Paused 3 0 0 | 1 1 100 0')
control(NEXT_TRACK, 'result 1', 'Paused 3 0 0 | 1 0 0')
number(12, 0x1001, 'Paused 3 0 0 | 1 0 0')
control(NEXT_TRACK, 'result 1', 'Paused 3 0 0 | 1 1 0')
control(NEXT_TRACK, 'result 1', 'Paused 3 0 0 | 1 2 0')
control(NEXT_TRACK, 'result 4', 'Paused 3 0 0 | 1 2 0')

case('the end of a track goes to the named track, once')
stand(3, 1, 299)
control(PLAY, 'result 1', 'Playing 3 0 0 | 1 1 299')
name(0, 'done', 'Playing 3 0 0 | 1 1 299 0')
advance(0, 'done', 'Playing 3 0 0 | 1 1 299 0')
advance(1, 'done', 'Playing 3 0 0 | 1 0 0')
advance(5999, 'done', 'Playing 3 0 0 | 1 0 5999')
advance(1, 'done', 'Playing 3 0 0 | 1 1 0')
# A call makes at most one such move (SCOPE 13.5), also where what is left would end the named track.
name(2, 'done', 'Playing 3 0 0 | 1 1 0 2')
advance(LONGEST, 'done', 'Playing 3 0 0 | 1 2 0')
name(1, 'done', 'Playing 3 0 0 | 1 2 0 1')
advance(LONGEST, 'done', 'Playing 3 0 0 | 1 1 0')

# The later name stands.
case('another track is named')
stand(3, 1, 100)
name(0, 'done', 'Paused 3 0 0 | 1 1 100 0')
name(1, 'done', 'Paused 3 0 0 | 1 1 100 1')
name(0, 'done', 'Paused 3 0 0 | 1 1 100 0')
name(2, 'done', 'Paused 3 0 0 | 1 1 100 2')
# A name cannot be taken back, and what is refused leaves the one that there was.
write(LEFT, 12, b'', 'refused 0x0D', 'Paused 3 0 0 | 1 1 100 2')
write(LEFT, 12, bytes(6), 'refused 0x13', 'Paused 3 0 0 | 1 1 100 2')
name(3, 'refused 0x13', 'Paused 3 0 0 | 1 1 100 2')
control(NEXT_TRACK, 'result 1', 'Paused 3 0 0 | 1 2 0')

# The name is the current track: Next Track and the end of the track lead to its start, and the name is gone.
case('the current track is named')
stand(3, 1, 100)
name(1, 'done', 'Paused 3 0 0 | 1 1 100 1')
number(12, 0x1001, 'Paused 3 0 0 | 1 1 100 1')
control(NEXT_TRACK, 'result 1', 'Paused 3 0 0 | 1 1 0')
number(12, 0x1002, 'Paused 3 0 0 | 1 1 0')
name(1, 'done', 'Paused 3 0 0 | 1 1 0 1')
control(PLAY, 'result 1', 'Playing 3 0 0 | 1 1 0 1')
advance(300, 'done', 'Playing 3 0 0 | 1 1 0')
advance(300, 'done', 'Playing 3 0 0 | 1 2 0')
# At the end of a once order: no result 4, and no pause.
name(2, 'done', 'Playing 3 0 0 | 1 2 0 2')
control(NEXT_TRACK, 'result 1', 'Playing 3 0 0 | 1 2 0')
control(NEXT_TRACK, 'result 4', 'Playing 3 0 0 | 1 2 0')
name(2, 'done', 'Playing 3 0 0 | 1 2 0 2')
advance(0, 'done', 'Playing 3 0 0 | 1 2 0')
advance(0, 'done', 'Paused 3 0 0 | 1 2 0')
# In a group of one.
stand_in_3(5, 100)
name(3, 'done', 'Paused 5 0 0 | 3 3 100 3')
control(NEXT_TRACK, 'result 1', 'Paused 5 0 0 | 3 3 0')
control(NEXT_TRACK, 'result 4', 'Paused 5 0 0 | 3 3 0')

# Orders 1 and 2 have the current track alone (SCOPE 11.1). The name is gone to all the same.
case('a name in order 1')
stand(1, 1, 100)
number(12, None, 'Paused 1 0 0 | 1 1 100')
control(NEXT_TRACK, 'result 4', 'Paused 1 0 0 | 1 1 100')
name(2, 'done', 'Paused 1 0 0 | 1 1 100 2')
number(12, 0x1002, 'Paused 1 0 0 | 1 1 100 2')
control(NEXT_TRACK, 'result 1', 'Paused 1 0 0 | 1 2 0')
number(12, None, 'Paused 1 0 0 | 1 2 0')
control(NEXT_TRACK, 'result 4', 'Paused 1 0 0 | 1 2 0')
name(0, 'done', 'Paused 1 0 0 | 1 2 0 0')
control(PLAY, 'result 1', 'Playing 1 0 0 | 1 2 0 0')
advance(0, 'done', 'Playing 1 0 0 | 1 0 0')
name(0, 'done', 'Playing 1 0 0 | 1 0 0 0')
advance(6000, 'done', 'Playing 1 0 0 | 1 0 0')
advance(6000, 'done', 'Paused 1 0 0 | 1 0 6000')

case('a name in order 2')
stand(2, 1, 100)
number(12, 0x1001, 'Paused 2 0 0 | 1 1 100')
name(0, 'done', 'Paused 2 0 0 | 1 1 100 0')
number(12, 0x1000, 'Paused 2 0 0 | 1 1 100 0')
control(NEXT_TRACK, 'result 1', 'Paused 2 0 0 | 1 0 0')
control(NEXT_TRACK, 'result 1', 'Paused 2 0 0 | 1 0 0')
name(2, 'done', 'Paused 2 0 0 | 1 0 0 2')
control(PLAY, 'result 1', 'Playing 2 0 0 | 1 0 0 2')
advance(6000, 'done', 'Playing 2 0 0 | 1 2 0')
advance(0, 'done', 'Playing 2 0 0 | 1 2 0')
name(2, 'done', 'Playing 2 0 0 | 1 2 0 2')
advance(0, 'done', 'Playing 2 0 0 | 1 2 0')

# Tracks 2, 0 and 2 are the last in orders 3, 5 and 7.
for playing_order, last, other, duration in ((3, 2, 1, 0), (5, 0, 1, 6000), (7, 2, 0, 0)):
    case('a name at the end of order %d' % playing_order)
    stand(playing_order, last, 0)
    number(12, None, 'Paused %d 0 0 | 1 %d 0' % (playing_order, last))
    name(other, 'done', 'Paused %d 0 0 | 1 %d 0 %d' % (playing_order, last, other))
    number(12, 0x1000 + other, 'Paused %d 0 0 | 1 %d 0 %d' % (playing_order, last, other))
    control(NEXT_TRACK, 'result 1', 'Paused %d 0 0 | 1 %d 0' % (playing_order, other))
    stand(playing_order, last, 0)
    control(PLAY, 'result 1', 'Playing %d 0 0 | 1 %d 0' % (playing_order, last))
    name(other, 'done', 'Playing %d 0 0 | 1 %d 0 %d' % (playing_order, last, other))
    advance(duration, 'done', 'Playing %d 0 0 | 1 %d 0' % (playing_order, other))

# The order's next track is another in each.
for playing_order in (4, 6, 8):
    case('a name in order %d' % playing_order)
    stand(playing_order, 1, 100)
    name(0, 'done', 'Paused %d 0 0 | 1 1 100 0' % playing_order)
    control(NEXT_TRACK, 'result 1', 'Paused %d 0 0 | 1 0 0' % playing_order)
    control(NEXT_TRACK, 'result 1', 'Paused %d 0 0 | 1 1 0' % playing_order)
    name(1, 'done', 'Paused %d 0 0 | 1 1 0 1' % playing_order)
    control(PLAY, 'result 1', 'Playing %d 0 0 | 1 1 0 1' % playing_order)
    advance(301, 'done', 'Playing %d 0 0 | 1 1 0' % playing_order)
    advance(301, 'done', 'Playing %d 0 0 | 1 2 0' % playing_order)

# Naming the track that comes next anyway is naming one: the order that is written after it does not alter it.
case('the track that comes next anyway is named')
stand(3, 1, 100)
name(2, 'done', 'Paused 3 0 0 | 1 1 100 2')
order(1, 'done', 'Paused 1 0 0 | 1 1 100 2')
number(12, 0x1002, 'Paused 1 0 0 | 1 1 100 2')
control(NEXT_TRACK, 'result 1', 'Paused 1 0 0 | 1 2 0')

case('a name and Next Track while Seeking')
stand(3, 0, 100)
control(FORWARD, 'result 1', 'Seeking 3 0 4 | 1 0 100')
name(2, 'done', 'Seeking 3 0 4 | 1 0 100 2')
# Seeking never ends a track.
advance(LONGEST, 'done', 'Seeking 3 0 4 | 1 0 6000 2')
control(NEXT_TRACK, 'result 1', 'Playing 3 0 0 | 1 2 0')
control(REWIND, 'result 1', 'Seeking 3 0 -4 | 1 2 0')
name(2, 'done', 'Seeking 3 0 -4 | 1 2 0 2')
control(NEXT_TRACK, 'result 1', 'Playing 3 0 0 | 1 2 0')

# An advance never ends a running recording (SCOPE 13.6).
case('a name in a running recording')
start(b'Radio', ALL, 7, 'done', 'Inactive 3 0 0 | 0 0 0')
attend()
activate(1, 'done', 'Paused 3 0 0 | 1 0 0', catalogue=RUNNING)
go_to_track(1, 'done', 'Paused 3 0 0 | 1 1 0', RUNNING)
control(PLAY, 'result 1', 'Playing 3 0 0 | 1 1 0', catalogue=RUNNING)
name(0, 'done', 'Playing 3 0 0 | 1 1 0 0', RUNNING)
advance(LONGEST, 'done', 'Playing 3 0 0 | 1 1 8640000 0', catalogue=RUNNING)
advance(0, 'done', 'Playing 3 0 0 | 1 1 8640000 0', catalogue=RUNNING)
control(NEXT_TRACK, 'result 1', 'Playing 3 0 0 | 1 0 0', catalogue=RUNNING)
name(2, 'done', 'Playing 3 0 0 | 1 0 0 2', RUNNING)
advance(6000, 'done', 'Playing 3 0 0 | 1 2 0', catalogue=RUNNING)
# Result 4 of Next Segment, and a negative position, which moves nothing.
name(1, 'done', 'Playing 3 0 0 | 1 2 0 1', RUNNING)
control(NEXT_SEGMENT, 'result 4', 'Playing 3 0 0 | 1 2 0 1', catalogue=RUNNING)
position(-1, 'done', 'Playing 3 0 0 | 1 2 0 1', RUNNING)
control(NEXT_TRACK, 'result 1', 'Playing 3 0 0 | 1 1 0', catalogue=RUNNING)

# The mask is of opcodes, and no opcode is written.
case('object numbers are written without an opcode in the mask')
start(b'Radio', 1 << MASK_BITS[PLAY], 7, 'done', 'Inactive 3 0 0 | 0 0 0')
attend()
activate(1, 'done', 'Paused 3 0 0 | 1 0 0')
go_to_track(1, 'done', 'Paused 3 0 0 | 1 1 0')
go_to_group(3, 'done', 'Paused 3 0 0 | 3 3 0')
go_to_group(1, 'done', 'Paused 3 0 0 | 1 0 0')
name(2, 'done', 'Paused 3 0 0 | 1 0 0 2')
# Next Track is not offered, and the end of a track is no opcode.
control(NEXT_TRACK, 'result 2', 'Paused 3 0 0 | 1 0 0 2')
control(PLAY, 'result 1', 'Playing 3 0 0 | 1 0 0 2')
advance(6000, 'done', 'Playing 3 0 0 | 1 2 0')
start(b'Radio', 0, 7, 'done', 'Inactive 3 0 0 | 0 0 0')
attend()
activate(1, 'done', 'Paused 3 0 0 | 1 0 0')
name(1, 'done', 'Paused 3 0 0 | 1 0 0 1')
go_to_track(2, 'done', 'Paused 3 0 0 | 1 2 0')
go_to_group(3, 'done', 'Paused 3 0 0 | 3 3 0')


# ---- A call that ends on another track or group than it began on drops the name, what lies between does not (SCOPE 14.6)

def named(playing_order, track, place, next_track):
    """A fresh player, Paused at a place of a track of group 1 in an order, and a next track that is named."""
    stand(playing_order, track, place)
    name(next_track, 'done', 'Paused %d 0 0 | 1 %d %d %d' % (playing_order, track, place, next_track))


case('a name is kept by what moves no track')
named(3, 1, 100, 0)
control(PLAY, 'result 1', 'Playing 3 0 0 | 1 1 100 0')
advance(50, 'done', 'Playing 3 0 0 | 1 1 150 0')
advance(0, 'done', 'Playing 3 0 0 | 1 1 150 0')
control(FORWARD, 'result 1', 'Seeking 3 0 4 | 1 1 150 0')
advance(10, 'done', 'Seeking 3 0 4 | 1 1 190 0')
advance(LONGEST, 'done', 'Seeking 3 0 4 | 1 1 300 0')
control(REWIND, 'result 1', 'Seeking 3 0 -4 | 1 1 300 0')
control(PAUSE, 'result 1', 'Paused 3 0 0 | 1 1 300 0')
advance(10, 'done', 'Paused 3 0 0 | 1 1 300 0')
control(RELATIVE, 'result 1', 'Paused 3 0 0 | 1 1 290 0', -10)
control(PREVIOUS_SEGMENT, 'result 1', 'Paused 3 0 0 | 1 1 0 0')
control(NEXT_SEGMENT, 'result 1', 'Paused 3 0 0 | 1 1 300 0')
control(FIRST_SEGMENT, 'result 1', 'Paused 3 0 0 | 1 1 0 0')
control(LAST_SEGMENT, 'result 1', 'Paused 3 0 0 | 1 1 0 0')
control(GOTO_SEGMENT, 'result 1', 'Paused 3 0 0 | 1 1 300 0', 2)
control(GOTO_SEGMENT, 'result 1', 'Paused 3 0 0 | 1 1 300 0', 0)
control(STOP, 'result 1', 'Paused 3 0 0 | 1 1 0 0')
position(100, 'done', 'Paused 3 0 0 | 1 1 100 0')
position(-1, 'done', 'Paused 3 0 0 | 1 1 299 0')
speed(-64, 'done', 'Paused 3 -64 0 | 1 1 299 0')
for playing_order in (1, 2, 3, 4, 5, 6, 7, 8):
    order(playing_order, 'done', 'Paused %d -64 0 | 1 1 299 0' % playing_order)
    number(12, 0x1000, 'Paused %d -64 0 | 1 1 299 0' % playing_order)
control(NEXT_TRACK, 'result 1', 'Paused 8 -64 0 | 1 0 0')

case('a name is kept by calls that are not to the player')
named(3, 1, 100, 0)
set_name(b'Box', 'done', 'Paused 3 0 0 | 1 1 100 0')
connect(RIGHT, 23, ENCRYPTED, 'done')
subscribe(RIGHT, 12, 'done')
unsubscribe(RIGHT, 12, 'done')
disconnect(RIGHT, 'done')
subscribe(LEFT, 1, 'done')
calls.set_name(b'Radio', 'done', 'left 1')
take('left 1 52 61 64 69 6f')
take('nothing')
unsubscribe(LEFT, 1, 'done')
numbers('Paused 3 0 0 | 1 1 100 0', None, 0x1001, 0x1000, 0x2000, 0x2001)
value(1, 'read 52 61 64 69 6f', 'Paused 3 0 0 | 1 1 100 0')
control(NEXT_TRACK, 'result 1', 'Paused 3 0 0 | 1 0 0')

# After results 2, 3 and 4 the player is as before (SCOPE 9.4); a refusal alters nothing (SCOPE 20.1).
case('a name is kept by results 2 and 4 and by refusals')
named(3, 1, 100, 0)
for opcode in (0x00, 0x06, 0x35, 0x45, 0xFF):
    control(opcode, 'result 2', 'Paused 3 0 0 | 1 1 100 0')
for number_of_tracks in (4, -4, MOST, LEAST):
    control(GOTO_TRACK, 'result 4', 'Paused 3 0 0 | 1 1 100 0', number_of_tracks)
control(PREVIOUS_GROUP, 'result 4', 'Paused 3 0 0 | 1 1 100 0')
control(GOTO_GROUP, 'result 4', 'Paused 3 0 0 | 1 1 100 0', 3)
control(GOTO_GROUP, 'result 4', 'Paused 3 0 0 | 1 1 100 0', -3)
activate(2, 'refused 208', 'Paused 3 0 0 | 1 1 100 0')
activate(4, 'refused 208', 'Paused 3 0 0 | 1 1 100 0')
activate(3, 'refused 200', 'Paused 3 0 0 | 1 1 100 0', catalogue=CUT)
control(NEXT_TRACK, 'refused 200 1 5', 'Paused 3 0 0 | 1 1 100 0', catalogue=BAD_TITLES)
control(PLAY, 'result 1', 'Playing 3 0 0 | 1 1 100 0')
advance(200, 'refused 200', 'Playing 3 0 0 | 1 1 100 0', catalogue=CUT)
deactivate('refused 200', 'Playing 3 0 0 | 1 1 100 0', catalogue=CUT)
set_name(b'\xFF', 'refused 207 0', 'Playing 3 0 0 | 1 1 100 0')
order(9, 'refused 0x13', 'Playing 3 0 0 | 1 1 100 0')
write(LEFT, 7, [1], 'refused 0x0D', 'Playing 3 0 0 | 1 1 100 0')
go_to_track(3, 'refused 0x13', 'Playing 3 0 0 | 1 1 100 0')
name(3, 'refused 0x13', 'Playing 3 0 0 | 1 1 100 0')
go_to_group(2, 'refused 0x13', 'Playing 3 0 0 | 1 1 100 0')
start(b'\xFF', ALL, 7, 'refused 207 0', 'Playing 3 0 0 | 1 1 100 0')
take('refused 205', 127)
check('nothing', 'Playing 3 0 0 | 1 1 100 0')
# Where Previous Track cannot be made.
named(3, 0, 100, 2)
control(PREVIOUS_TRACK, 'result 4', 'Paused 3 0 0 | 1 0 100 2')
control(NEXT_TRACK, 'result 1', 'Paused 3 0 0 | 1 2 0')
# Order 1 has no step but Next Track's with the name.
named(1, 1, 100, 0)
control(PREVIOUS_TRACK, 'result 4', 'Paused 1 0 0 | 1 1 100 0')
control(GOTO_TRACK, 'result 4', 'Paused 1 0 0 | 1 1 100 0', 2)
control(GOTO_TRACK, 'result 4', 'Paused 1 0 0 | 1 1 100 0', -2)

# Every opcode, with none of them in the mask.
case('a name is kept by opcodes that are not offered')
start(b'Radio', 0, 7, 'done', 'Inactive 3 0 0 | 0 0 0')
attend()
activate(1, 'done', 'Paused 3 0 0 | 1 0 0')
name(2, 'done', 'Paused 3 0 0 | 1 0 0 2')
for opcode in MASK_BITS:
    control(opcode, 'result 2', 'Paused 3 0 0 | 1 0 0 2', 1)

# Calls that end where they began. Track 1 is the first in order 5.
case('a name is kept where a move ends on the track that it began on')
named(5, 1, 100, 0)
control(FIRST_TRACK, 'result 1', 'Paused 5 0 0 | 1 1 0 0')
control(GOTO_TRACK, 'result 1', 'Paused 5 0 0 | 1 1 0 0', 0)
control(GOTO_TRACK, 'result 1', 'Paused 5 0 0 | 1 1 0 0', 1)
control(GOTO_TRACK, 'result 1', 'Paused 5 0 0 | 1 1 0 0', -3)
control(FIRST_GROUP, 'result 1', 'Paused 5 0 0 | 1 1 0 0')
control(GOTO_GROUP, 'result 1', 'Paused 5 0 0 | 1 1 0 0', 0)
control(GOTO_GROUP, 'result 1', 'Paused 5 0 0 | 1 1 0 0', 1)
control(GOTO_GROUP, 'result 1', 'Paused 5 0 0 | 1 1 0 0', -2)
activate(1, 'done', 'Paused 5 0 0 | 1 1 0 0')
position(100, 'done', 'Paused 5 0 0 | 1 1 100 0')
activate(1, 'done', 'Paused 5 0 0 | 1 1 0 0')
go_to_track(1, 'done', 'Paused 5 0 0 | 1 1 0 0')
go_to_group(1, 'done', 'Paused 5 0 0 | 1 1 0 0')
# From Seeking, which becomes Playing.
control(FORWARD, 'result 1', 'Seeking 5 0 4 | 1 1 0 0')
control(FIRST_TRACK, 'result 1', 'Playing 5 0 0 | 1 1 0 0')
control(FORWARD, 'result 1', 'Seeking 5 0 4 | 1 1 0 0')
go_to_track(1, 'done', 'Playing 5 0 0 | 1 1 0 0')
control(FORWARD, 'result 1', 'Seeking 5 0 4 | 1 1 0 0')
go_to_group(1, 'done', 'Playing 5 0 0 | 1 1 0 0')
control(FORWARD, 'result 1', 'Seeking 5 0 4 | 1 1 0 0')
activate(1, 'done', 'Paused 5 0 0 | 1 1 0 0')
control(NEXT_TRACK, 'result 1', 'Paused 5 0 0 | 1 0 0')

# Goto's steps use no named track (SCOPE 11.8), and what lies between drops none (SCOPE 14.6): Goto Track goes by the order over other tracks and comes back.
# 2 from First is track 1 in order 3; in order 4 so are 5, and -2 and -5 from Last.
case('a name is kept by a Goto that comes back')
named(3, 1, 100, 0)
control(GOTO_TRACK, 'result 1', 'Paused 3 0 0 | 1 1 0 0', 2)
control(GOTO_TRACK, 'result 1', 'Paused 3 0 0 | 1 1 0 0', -2)
named(4, 1, 100, 2)
for number_of_tracks in (2, 5, -2, -5, 8):
    control(GOTO_TRACK, 'result 1', 'Paused 4 0 0 | 1 1 0 2', number_of_tracks)
control(NEXT_TRACK, 'result 1', 'Paused 4 0 0 | 1 2 0')
# In orders 1 and 2 First and Last are the current track, and in order 2 Previous Track is too.
named(1, 1, 100, 0)
control(LAST_TRACK, 'result 1', 'Paused 1 0 0 | 1 1 0 0')
control(FIRST_TRACK, 'result 1', 'Paused 1 0 0 | 1 1 0 0')
control(GOTO_TRACK, 'result 1', 'Paused 1 0 0 | 1 1 0 0', -1)
named(2, 1, 100, 0)
control(PREVIOUS_TRACK, 'result 1', 'Paused 2 0 0 | 1 1 0 0')
control(LAST_TRACK, 'result 1', 'Paused 2 0 0 | 1 1 0 0')
control(GOTO_TRACK, 'result 1', 'Paused 2 0 0 | 1 1 0 0', MOST)
control(NEXT_TRACK, 'result 1', 'Paused 2 0 0 | 1 0 0')
# In a group of one.
stand_in_3(4, 100)
name(3, 'done', 'Paused 4 0 0 | 3 3 100 3')
control(PREVIOUS_TRACK, 'result 1', 'Paused 4 0 0 | 3 3 0 3')
control(LAST_GROUP, 'result 1', 'Paused 4 0 0 | 3 3 0 3')
control(NEXT_GROUP, 'result 4', 'Paused 4 0 0 | 3 3 0 3')
control(GOTO_GROUP, 'result 1', 'Paused 4 0 0 | 3 3 0 3', 2)
control(GOTO_GROUP, 'result 1', 'Paused 4 0 0 | 3 3 0 3', 0)
activate(3, 'done', 'Paused 4 0 0 | 3 3 0 3')
go_to_group(3, 'done', 'Paused 4 0 0 | 3 3 0 3')
go_to_track(3, 'done', 'Paused 4 0 0 | 3 3 0 3')

# The name is not where these go: they go by the order.
for opcode, parameter, to in (
        (PREVIOUS_TRACK, 0, '1 0 0'),
        (FIRST_TRACK, 0, '1 0 0'),
        (LAST_TRACK, 0, '1 2 0'),
        (GOTO_TRACK, 1, '1 0 0'),
        (GOTO_TRACK, 3, '1 2 0'),
        (GOTO_TRACK, -1, '1 2 0'),
        (GOTO_TRACK, -3, '1 0 0'),
        (NEXT_GROUP, 0, '3 3 0'),
        (LAST_GROUP, 0, '3 3 0'),
        (GOTO_GROUP, 2, '3 3 0'),
        (GOTO_GROUP, -1, '3 3 0'),
        # Another track of the same group.
        (FIRST_GROUP, 0, '1 0 0'),
        (GOTO_GROUP, 0, '1 0 0'),
        (GOTO_GROUP, 1, '1 0 0')):
    case('0x%02X drops a name' % opcode)
    for next_track in (0, 1, 2):
        named(3, 1, 100, next_track)
        control(opcode, 'result 1', 'Paused 3 0 0 | ' + to, parameter)

case('Previous Group drops a name')
stand_in_3(3, 100)
name(3, 'done', 'Paused 3 0 0 | 3 3 100 3')
control(PREVIOUS_GROUP, 'result 1', 'Paused 3 0 0 | 1 0 0')

case('a name is dropped by an activation')
named(3, 1, 100, 2)
activate(3, 'done', 'Paused 3 0 0 | 3 3 0')
# Another track of the same group, which is the named one or not.
named(3, 1, 100, 2)
activate(1, 'done', 'Paused 3 0 0 | 1 0 0')
named(3, 1, 100, 0)
activate(1, 'done', 'Paused 3 0 0 | 1 0 0')
number(12, 0x1001, 'Paused 3 0 0 | 1 0 0')

case('a name is dropped by a deactivation')
named(3, 0, 100, 2)
deactivate('done', 'Inactive 3 0 0 | 0 0 0')
number(12, None, 'Inactive 3 0 0 | 0 0 0')
# The track that was current before, in another call.
activate(1, 'done', 'Paused 3 0 0 | 1 0 0')
number(12, 0x1001, 'Paused 3 0 0 | 1 0 0')
control(NEXT_TRACK, 'result 1', 'Paused 3 0 0 | 1 1 0')

case('a name is dropped by a written track or group')
for next_track in (0, 1, 2):
    named(3, 1, 100, next_track)
    go_to_track(2, 'done', 'Paused 3 0 0 | 1 2 0')
    named(3, 1, 100, next_track)
    go_to_track(0, 'done', 'Paused 3 0 0 | 1 0 0')
    named(3, 1, 100, next_track)
    go_to_group(3, 'done', 'Paused 3 0 0 | 3 3 0')
    named(3, 1, 100, next_track)
    go_to_group(1, 'done', 'Paused 3 0 0 | 1 0 0')

# There and back again in two calls.
case('a name that was dropped does not come back')
named(3, 1, 100, 0)
control(NEXT_GROUP, 'result 1', 'Paused 3 0 0 | 3 3 0')
control(PREVIOUS_GROUP, 'result 1', 'Paused 3 0 0 | 1 0 0')
named(4, 1, 100, 0)
control(PREVIOUS_TRACK, 'result 1', 'Paused 4 0 0 | 1 0 0')
control(NEXT_TRACK, 'result 1', 'Paused 4 0 0 | 1 1 0')
control(NEXT_TRACK, 'result 1', 'Paused 4 0 0 | 1 2 0')

# A start has no name, of either player.
case('a start after a name')
named(3, 1, 100, 0)
start(b'Radio', ALL, 7, 'done', 'Inactive 3 0 0 | 0 0 0')
check('nothing', 'Inactive 3 0 0 | 0 0 0')

# A call to one service never alters replies, state or owed values of the other (SCOPE 17.4).
case('a name of each player')
start(b'Desk', ALL, 7, 'done', 'Inactive 3 0 0 | 0 0 0', beside=(b'Aula', ALL, 9))
attend()
for service in (GENERIC, NAMED):
    activate(1, 'done', 'Paused 3 0 0 | 1 0 0', service=service)
write(LEFT, 12, track_object(2), 'done', 'Paused 3 0 0 | 1 0 0 2', service=GENERIC)
read(LEFT, 12, 0, 'read' + octets(track_object(1)), service=NAMED)
write(LEFT, 12, track_object(0), 'done', 'Paused 3 0 0 | 1 0 0 0', service=NAMED)
read(LEFT, 12, 0, 'read' + octets(track_object(2)), service=GENERIC)
read(LEFT, 12, 0, 'read' + octets(track_object(0)), service=NAMED)
write(LEFT, 14, group_object(3), 'done', 'Paused 3 0 0 | 3 3 0', service=NAMED)
read(LEFT, 12, 6, 'read', service=GENERIC)
read(LEFT, 12, 6, 'refused 0x80', service=NAMED)
# Track 3 is of the current group of the one, and not of the other's.
write(LEFT, 12, track_object(3), 'refused 0x13', service=GENERIC)
write(LEFT, 12, track_object(3), 'done', 'Paused 3 0 0 | 3 3 0 3', service=NAMED)
write(LEFT, 11, track_object(0), 'refused 0x13', service=NAMED)
write(LEFT, 11, track_object(1), 'done', 'Paused 3 0 0 | 1 1 0', service=GENERIC)
deactivate('done', 'Inactive 3 0 0 | 0 0 0', service=GENERIC)
read(LEFT, 12, 0, 'read' + octets(track_object(3)), service=NAMED)


# ---- 201 refuses a named next track while Inactive, or one that is not of the current group (SCOPE 20.5)

case('a wrong name of a next track')
stand(3, 0, 1500)
# NEXT is the number plus 1.
for part, track in ((1, 0), (2, 1), (3, 2)):
    damage(NEXT, part, 'Paused 3 0 0 | 1 0 1500 %d' % track)
    check('nothing', 'Paused 3 0 0 | 1 0 1500 %d' % track)
    number(12, 0x1000 + track, 'Paused 3 0 0 | 1 0 1500 %d' % track)
for part in (4, 5, 256, 257, 0x1001, LONGEST):
    damage(NEXT, part, 'Paused 3 0 0 | 1 0 1500 %d' % (part - 1))
    check('refused 201', 'Paused 3 0 0 | 1 0 1500 %d' % (part - 1))
damage(NEXT, 0, 'Paused 3 0 0 | 1 0 1500')
check('nothing', 'Paused 3 0 0 | 1 0 1500')
stand_in_3(3, 100)
for part in (1, 2, 3, 5, LONGEST):
    damage(NEXT, part, 'Paused 3 0 0 | 3 3 100 %d' % (part - 1))
    check('refused 201', 'Paused 3 0 0 | 3 3 100 %d' % (part - 1))
damage(NEXT, 4, 'Paused 3 0 0 | 3 3 100 3')
check('nothing', 'Paused 3 0 0 | 3 3 100 3')
# Whatever the state and the order.
control(PLAY, 'result 1', 'Playing 3 0 0 | 3 3 100 3')
order(2, 'done', 'Playing 2 0 0 | 3 3 100 3')
damage(NEXT, 1, 'Playing 2 0 0 | 3 3 100 0')
check('refused 201', 'Playing 2 0 0 | 3 3 100 0')

case('a name of a next track while Inactive')
start(b'Radio', ALL, 7, 'done', 'Inactive 3 0 0 | 0 0 0')
for part in (1, 2, 4, LONGEST):
    damage(NEXT, part, 'Inactive 3 0 0 | 0 0 0 %d' % (part - 1))
    check('refused 201', 'Inactive 3 0 0 | 0 0 0 %d' % (part - 1))
    # Track 0 is in group 0 there.
    check('refused 201', 'Inactive 3 0 0 | 0 0 0 %d' % (part - 1), FOLDERS)
damage(NEXT, 0, 'Inactive 3 0 0 | 0 0 0')
check('nothing', 'Inactive 3 0 0 | 0 0 0')

# Group 1 has tracks 0 to 2 in the one catalogue, and 1 and 2 in the other.
case('a name of a next track by the catalogue that is lent')
named(3, 1, 100, 0)
check('refused 201', 'Paused 3 0 0 | 1 1 100 0', FOLDERS)
check('nothing', 'Paused 3 0 0 | 1 1 100 0')
check('refused 201', 'Paused 3 0 0 | 1 1 100 0', MANY)
name(2, 'refused 201', 'Paused 3 0 0 | 1 1 100 0', FOLDERS)
name(2, 'done', 'Paused 3 0 0 | 1 1 100 2')
check('nothing', 'Paused 3 0 0 | 1 1 100 2', FOLDERS)
name(0, 'refused 0x13', 'Paused 3 0 0 | 1 1 100 2', FOLDERS)

several('every call refuses a wrong name of a next track')
office('1 12 17 18')
damage(NEXT, 4, 'Paused 3 0 0 | 1 0 0 3')
calls.set_name(b'B', 'refused 201')
the_others_refuse_the_state()
for characteristic, right in ((11, track_object(1)), (12, track_object(1)), (14, group_object(3))):
    write(LEFT, characteristic, right, 'refused 201')
read(LEFT, 12, 0, 'refused 201')
read(LEFT, 12, 0, 'refused 205', 127)
advance(1, 'refused 200', catalogue=CUT)
# Start takes no state.
start(b'Desk', ALL, 7, 'done', 'Inactive 3 0 0 | 0 0 0')
take('nothing')


# ---- Slots 11 to 14 are owed on change, 11, 12 and 14 not to their writer (SCOPE 18.1, 18.4)

FOUR = '11 12 13 14'

several('the writer of a track')
office(FOUR, FOUR, '12', '4 5 6 7 9 11 12 13 14 17 18')
write(LEFT, 11, track_object(1), 'done', 'Paused 3 0 0 | 1 1 0', 'left 12; right 11 12; headset 12; screen 4 5 6 7 11 12')
seen('23: 11 12 13 14; 12; 0', '24: 11 12 13 14; 11 12; 0', '64: 12; 12; 0', '517: 4 5 6 7 9 11 12 13 14 17 18; 4 5 6 7 11 12; 0')
take('left 12' + octets(track_object(2)))
take('right 11' + octets(track_object(1)))
take('headset 12' + octets(track_object(2)))
take('screen 4')
take('right 12' + octets(track_object(2)))
take('screen 5 52 61 73 74')
take('screen 6 2c 01 00 00')
take('screen 7 00 00 00 00')
take('screen 11' + octets(track_object(1)))
take('screen 12' + octets(track_object(2)))
take('nothing')
# The same track again changes nothing; from another position it changes that.
write(LEFT, 11, track_object(1), 'done', 'Paused 3 0 0 | 1 1 0')
write(LEFT, 7, word(100), 'done', 'Paused 3 0 0 | 1 1 100', 'screen 7')
write(LEFT, 11, track_object(1), 'done', 'Paused 3 0 0 | 1 1 0', 'screen 7')
take('screen 7 00 00 00 00')
# A writer that subscribed to 7, 17 and the others is owed these; no result is owed.
calls.control(SCREEN, FORWARD, 'Seeking 3 0 4 | 1 1 0', 'screen 9 17 18')
write(SCREEN, 11, track_object(2), 'done', 'Playing 3 0 0 | 1 2 0', 'left 11 12; right 11 12; headset 12; screen 4 5 6 7 9 12 17')
seen('23: 11 12 13 14; 11 12; 0', '24: 11 12 13 14; 11 12; 0', '64: 12; 12; 0', '517: 4 5 6 7 9 11 12 13 14 17 18; 4 5 6 7 9 12 17 18; 1')
take('left 11' + octets(track_object(2)))
take('right 11' + octets(track_object(2)))
# No track is behind track 2.
take('headset 12')
take('screen 9 00')

# From track 0 with track 2 named to track 1, behind which track 2 is: 12 is what it was.
several('the writer of a track that has the same next track')
office(FOUR, FOUR)
write(RIGHT, 12, track_object(2), 'done', 'Paused 3 0 0 | 1 0 0 2', 'left 12')
take('left 12' + octets(track_object(2)))
write(LEFT, 11, track_object(1), 'done', 'Paused 3 0 0 | 1 1 0', 'right 11')
take('right 11' + octets(track_object(1)))
take('nothing')

several('the writer of a next track')
office(FOUR, FOUR, '12', '4 7 11 12 17 18')
write(LEFT, 12, track_object(2), 'done', 'Paused 3 0 0 | 1 0 0 2', 'right 12; headset 12; screen 12')
take('right 12' + octets(track_object(2)))
take('headset 12' + octets(track_object(2)))
take('screen 12' + octets(track_object(2)))
# The same again, by another client too.
write(LEFT, 12, track_object(2), 'done', 'Paused 3 0 0 | 1 0 0 2')
write(RIGHT, 12, track_object(2), 'done', 'Paused 3 0 0 | 1 0 0 2')
take('nothing')
# The current track.
write(RIGHT, 12, track_object(0), 'done', 'Paused 3 0 0 | 1 0 0 0', 'left 12; headset 12; screen 12')
# What is already owed stays owed, also when the client writes it (SCOPE 18.6); what is handed out is the present value (SCOPE 19.4).
write(LEFT, 12, track_object(1), 'done', 'Paused 3 0 0 | 1 0 0 1', 'right 12; headset 12; screen 12')
seen('23: 11 12 13 14; 12; 0', '24: 11 12 13 14; 12; 0', '64: 12; 12; 0', '517: 4 7 11 12 17 18; 12; 0')
take('left 12' + octets(track_object(1)))
take('right 12' + octets(track_object(1)))
take('headset 12' + octets(track_object(1)))
take('screen 12' + octets(track_object(1)))
take('nothing')

# Naming the track that comes next anyway changes no value.
several('the track that comes next anyway is named among several')
office(FOUR, FOUR)
write(LEFT, 12, track_object(1), 'done', 'Paused 3 0 0 | 1 0 0 1')
take('nothing')
# And with the name 12 is the same in every order.
write(LEFT, 15, [7], 'done', 'Paused 7 0 0 | 1 0 0 1')
write(LEFT, 15, [1], 'done', 'Paused 1 0 0 | 1 0 0 1')
take('nothing')
calls.control(RIGHT, NEXT_TRACK, 'Paused 1 0 0 | 1 1 0', 'left 11 12; right 11 12')
take('left 11' + octets(track_object(1)))
take('right 11' + octets(track_object(1)))
take('left 12')
take('right 12')
take('nothing')

several('the writer of a group')
office(FOUR, FOUR, '13 14', '4 5 6 7 11 12 13 14 17')
# Groups 1 and 3 have one parent; behind track 3 there is none.
write(RIGHT, 14, group_object(3), 'done', 'Paused 3 0 0 | 3 3 0', 'left 11 12 14; right 11 12; headset 14; screen 4 5 6 7 11 12 14')
take('left 11' + octets(track_object(3)))
take('right 11' + octets(track_object(3)))
take('headset 14' + octets(group_object(3)))
take('screen 4')
take('left 12')
take('right 12')
take('screen 5 5a 69 65 6c')
take('left 14' + octets(group_object(3)))
take('screen 6 84 03 00 00')
take('screen 7 00 00 00 00')
take('screen 11' + octets(track_object(3)))
take('screen 12')
take('screen 14' + octets(group_object(3)))
take('nothing')
# The current group again, at its only track.
write(RIGHT, 14, group_object(3), 'done', 'Paused 3 0 0 | 3 3 0')
take('nothing')
write(LEFT, 14, group_object(1), 'done', 'Paused 3 0 0 | 1 0 0', 'left 11 12; right 11 12 14; headset 14; screen 4 5 6 7 11 12 14')
calls.control(LEFT, NEXT_TRACK, 'Paused 3 0 0 | 1 1 0', 'left 11 12; right 11 12; screen 4 5 6 7 11 12')
seen('23: 11 12 13 14; 11 12; 0', '24: 11 12 13 14; 11 12 14; 0', '64: 13 14; 14; 0', '517: 4 5 6 7 11 12 13 14 17; 4 5 6 7 11 12 14; 0')
# The current group, from another track: 14 does not change, and the writer is owed what does.
write(LEFT, 14, group_object(1), 'done', 'Paused 3 0 0 | 1 0 0', 'left 11 12; right 11 12; screen 4 5 6 7 11 12')
take('left 11' + octets(track_object(0)))

several('the writer of a group of another parent')
start(b'Desk', ALL, 7, 'done', 'Inactive 3 0 0 | 0 0 0')
activate(1, 'done', 'Paused 3 0 0 | 1 1 0', catalogue=FOLDERS)
come(FOUR, FOUR, '13', None)
write(LEFT, 14, group_object(3), 'done', 'Paused 3 0 0 | 3 3 0', 'left 11 12 13; right 11 12 13 14; headset 13', FOLDERS)
take('left 11' + octets(track_object(3)), catalogue=FOLDERS)
take('right 11' + octets(track_object(3)), catalogue=FOLDERS)
take('headset 13' + octets(group_object(1)), catalogue=FOLDERS)
take('left 12', catalogue=FOLDERS)
take('right 12', catalogue=FOLDERS)
take('left 13' + octets(group_object(1)), catalogue=FOLDERS)
take('right 13' + octets(group_object(1)), catalogue=FOLDERS)
take('right 14' + octets(group_object(3)), catalogue=FOLDERS)
take('nothing', catalogue=FOLDERS)
# To group 0, its own parent: 13 and 14 read the same, and 12 stays empty.
write(LEFT, 14, group_object(0), 'done', 'Paused 3 0 0 | 0 0 0', 'left 11 13; right 11 13 14; headset 13', FOLDERS)
# The right pedal was served last.
take('headset 13' + octets(group_object(0)), catalogue=FOLDERS)
take('left 11' + octets(track_object(0)), catalogue=FOLDERS)
take('right 11' + octets(track_object(0)), catalogue=FOLDERS)
take('left 13' + octets(group_object(0)), catalogue=FOLDERS)
take('right 13' + octets(group_object(0)), catalogue=FOLDERS)
take('right 14' + octets(group_object(0)), catalogue=FOLDERS)
take('nothing', catalogue=FOLDERS)
# From group 0 to group 1 the parent is group 0 before and after.
write(RIGHT, 14, group_object(1), 'done', 'Paused 3 0 0 | 1 1 0', 'left 11 12 14; right 11 12', FOLDERS)

# 8 and 15 are not owed to the client that wrote them (SCOPE 18.4), and 12 is another characteristic.
several('the writer of an order is owed a next track that changed')
office('12 15', '12 15', '15', '12')
write(LEFT, 15, [4], 'done', 'Paused 4 0 0 | 1 0 0', 'right 15; headset 15')
write(LEFT, 15, [5], 'done', 'Paused 5 0 0 | 1 0 0', 'left 12; right 12 15; headset 15; screen 12')
take('left 12')
take('right 12')
take('headset 15 05')
take('screen 12')
take('right 15 05')
write(RIGHT, 15, [2], 'done', 'Paused 2 0 0 | 1 0 0', 'left 12 15; right 12; headset 15; screen 12')
take('headset 15 02')
take('screen 12' + octets(track_object(0)))
take('left 15 02')
take('right 12' + octets(track_object(0)))
take('left 12' + octets(track_object(0)))
take('nothing')
# With a name the order alters 12 no more.
write(SCREEN, 12, track_object(2), 'done', 'Paused 2 0 0 | 1 0 0 2', 'left 12; right 12')
write(SCREEN, 15, [1], 'done', 'Paused 1 0 0 | 1 0 0 2', 'left 15; right 15; headset 15')
write(SCREEN, 15, [6], 'done', 'Paused 6 0 0 | 1 0 0 2', 'left 15; right 15; headset 15')
seen('23: 12 15; 12 15; 0', '24: 12 15; 12 15; 0', '64: 15; 15; 0', '517: 12;; 0')

# A control write is no write of 11, 12 or 14: all is owed, to the client that wrote it too.
several('who moves by the control point')
office(FOUR + ' 18', FOUR)
calls.control(LEFT, NEXT_TRACK, 'Paused 3 0 0 | 1 1 0', 'left 11 12 18; right 11 12')
take('left 11' + octets(track_object(1)))
take('right 11' + octets(track_object(1)))
take('left 12' + octets(track_object(2)))
take('right 12' + octets(track_object(2)))
take('left 18 31 01')
calls.control(LEFT, NEXT_GROUP, 'Paused 3 0 0 | 3 3 0', 'left 11 12 14 18; right 11 12 14')
take('right 14' + octets(group_object(3)))
take('left 11' + octets(track_object(3)))
take('right 11' + octets(track_object(3)))
take('left 12')
take('right 12')
take('left 14' + octets(group_object(3)))
take('left 18 41 01')
take('nothing')
# Result 4 and result 2 change nothing.
calls.control(LEFT, NEXT_TRACK, 'Paused 3 0 0 | 3 3 0', 'left 18')
calls.control(LEFT, 0x06, 'Paused 3 0 0 | 3 3 0', 'left 18')
take('left 18 31 04')
take('left 18 06 02')
take('nothing')

# The name is used where it is the current track: 4, 11 and 14 are not owed, 12 is, and 7 where the position changed.
several('a named current track is used')
office('4 7 11 12 14 17 18', '12')
write(LEFT, 12, track_object(0), 'done', 'Paused 3 0 0 | 1 0 0 0', 'right 12')
take('right 12' + octets(track_object(0)))
calls.control(LEFT, NEXT_TRACK, 'Paused 3 0 0 | 1 0 0', 'left 12 18; right 12')
take('left 12' + octets(track_object(1)))
take('right 12' + octets(track_object(1)))
take('left 18 31 01')
write(RIGHT, 12, track_object(0), 'done', 'Paused 3 0 0 | 1 0 0 0', 'left 12')
calls.control(RIGHT, PLAY, 'Playing 3 0 0 | 1 0 0 0', 'left 17')
advance(5999, 'done', 'Playing 3 0 0 | 1 0 5999 0')
advance(1, 'done', 'Playing 3 0 0 | 1 0 0', 'left 7 12; right 12')
# Where track 0 follows itself by the order, too, its use changes nothing but the position.
write(RIGHT, 15, [2], 'done', 'Playing 2 0 0 | 1 0 0', 'left 12; right 12')
write(RIGHT, 12, track_object(0), 'done', 'Playing 2 0 0 | 1 0 0 0')
advance(6000, 'done', 'Playing 2 0 0 | 1 0 0')
seen('23: 4 7 11 12 14 17 18; 7 12 17; 0', '24: 12; 12; 0', '-', '-')

several('the clock and the desk tell everybody')
office('4 7 11 12 13 14 17', '11 12 13 14')
calls.control(RIGHT, PLAY, 'Playing 3 0 0 | 1 0 0', 'left 17')
write(RIGHT, 12, track_object(2), 'done', 'Playing 3 0 0 | 1 0 0 2', 'left 12')
advance(6000, 'done', 'Playing 3 0 0 | 1 2 0', 'left 4 7 11 12; right 11 12')
seen('23: 4 7 11 12 13 14 17; 4 7 11 12 17; 0', '24: 11 12 13 14; 11 12; 0', '-', '-')
# At the end of the order nothing but the state changes.
advance(0, 'done', 'Paused 3 0 0 | 1 2 0', 'left 17')
take('left 4')
take('right 11' + octets(track_object(2)))
take('left 7 00 00 00 00')
take('right 12')
take('left 11' + octets(track_object(2)))
take('left 12')
take('left 17 02')
take('nothing')
activate(3, 'done', 'Paused 3 0 0 | 3 3 0', 'left 4 7 11 14; right 11 14')
deactivate('done', 'Inactive 3 0 0 | 0 0 0', 'left 4 7 11 13 14 17; right 11 13 14')
seen('23: 4 7 11 12 13 14 17; 4 7 11 13 14 17; 0', '24: 11 12 13 14; 11 13 14; 0', '-', '-')
take('right 13')
take('left 4')
take('right 14')
take('left 7 ff ff ff ff')
take('right 11')
take('left 11')
take('left 13')
take('left 14')
take('left 17 00')
take('nothing')

# Unsubscribing drops what the slot owes (SCOPE 17.11); subscribing twice changes nothing (SCOPE 17.10); only who subscribed is owed.
several('subscriptions to object numbers')
office('11 12', '14', '', None)
calls.control(HEADSET, NEXT_GROUP, 'Paused 3 0 0 | 3 3 0', 'left 11 12; right 14')
seen('23: 11 12; 11 12; 0', '24: 14; 14; 0', '64:;; 0', '-')
unsubscribe(LEFT, 11, 'done')
subscribe(LEFT, 12, 'done')
seen('23: 12; 12; 0', '24: 14; 14; 0', '64:;; 0', '-')
subscribe(LEFT, 11, 'done')
unsubscribe(RIGHT, 14, 'done')
seen('23: 11 12; 12; 0', '24:;; 0', '64:;; 0', '-')
take('left 12')
take('nothing')
disconnect(LEFT, 'done')
connect(LEFT, 23, ENCRYPTED, 'done')
calls.control(HEADSET, PREVIOUS_GROUP, 'Paused 3 0 0 | 1 0 0', '')
take('nothing')

# Two writers, each with both numbers subscribed to, one after the other.
several('two clients write in turn')
office('11 12 14 18', '11 12 14 18')
write(LEFT, 11, track_object(2), 'done', 'Paused 3 0 0 | 1 2 0', 'left 12; right 11 12')
write(RIGHT, 11, track_object(1), 'done', 'Paused 3 0 0 | 1 1 0', 'left 11 12; right 12')
write(LEFT, 12, track_object(0), 'done', 'Paused 3 0 0 | 1 1 0 0', 'right 12')
write(RIGHT, 14, group_object(3), 'done', 'Paused 3 0 0 | 3 3 0', 'left 11 12 14; right 11 12')
seen('23: 11 12 14 18; 11 12 14; 0', '24: 11 12 14 18; 11 12; 0', '-', '-')
take('left 11' + octets(track_object(3)))
take('right 11' + octets(track_object(3)))
take('left 12')
take('right 12')
take('left 14' + octets(group_object(3)))
take('nothing')
# A refused write tells nobody anything.
for characteristic in WRITTEN:
    write(LEFT, characteristic, track_object(1), 'refused 0x13')
    write(LEFT, characteristic, [3], 'refused 0x0D')
take('nothing')
# Every client sees the same value, and a written one like any other.
write(LEFT, 14, group_object(1), 'done', 'Paused 3 0 0 | 1 0 0', 'left 11 12; right 11 12 14')
write(LEFT, 12, track_object(2), 'done', 'Paused 3 0 0 | 1 0 0 2', 'right 12')
for who in (LEFT, RIGHT):
    read(who, 11, 0, 'read' + octets(track_object(0)))
    read(who, 12, 0, 'read' + octets(track_object(2)))
    read(who, 14, 0, 'read' + octets(group_object(1)))
