"""The cases of screens that agree when things go quiet (SCOPE 21.11), which vectors/script.py puts last.

Each call has its answer, the state of the player that it leaves and what falls due by it to whom beside it, worked out by hand from the rules that
docs/SCOPE.md has. vectors/calls.py says how they are written. Behind the last take nothing is owed, and then every client reads: what it last took or itself
wrote, the later of the two, is what it reads. The calls are to the service that `on` named last, or to the one that they name.

A comment that names a rule, such as SCOPE 18.2, says it in a few words; docs/SCOPE.md has the rule.
"""
from calls import (
    ALL, CLIENTS, ENCRYPTED, FOLDERS, FORWARD, GENERIC, HEADSET, LEFT, LONG, NAMED, NEXT_GROUP, NEXT_TRACK, PLAY, PREVIOUS_GROUP, RECORDS, RIGHT,
    SAMPLE, SCREEN, SERVICES,
    activate, advance, case, connect, control, deactivate, disconnect, group_object, octets, on, read, seen, set_name, start, subscribe, take, titles,
    to, track_object, unsubscribe, word, write,
)
from office import EVERY, GESPRAECH, LONG_NAME, UEBERFAHRT, come, every_slot, every_slot_falls_due, office, subscribe_to_all
from services import desks, seen_in_both, take_generic, take_named
from titles import KAI, TWICE, rename

EVERYONE = (LEFT, RIGHT, HEADSET, SCREEN)


def but(*left_out):
    return [who for who in EVERYONE if who not in left_out]


def due(clients, characteristic):
    """What falls due where this slot does to each of the clients, and no other slot."""
    return '; '.join('%s %d' % (CLIENTS[who], characteristic) for who in clients)


def each_takes(clients, characteristic, value):
    """The clients are served this slot, one behind the other: the present value, its first ATT_MTU − 3 octets (SCOPE 19.4)."""
    for who in clients:
        take('%s %d%s' % (CLIENTS[who], characteristic, octets(value[:RECORDS[to(None)][who].mtu - 3])))


def each_reads(characteristic, value, catalogue=SAMPLE, service=None):
    """Every client that is connected reads the value: a read hands out up to ATT_MTU − 1 octets (SCOPE 17.13)."""
    for who in EVERYONE:
        record = RECORDS[to(service)][who]
        if record is not None:
            read(who, characteristic, 0, 'read' + octets(value[:record.mtu - 1]), catalogue=catalogue, service=service)


def settles(clients, characteristic, value):
    """The slot is owed to these clients alone, and nothing else to anyone: behind their takes nothing is owed, and everybody reads what these took."""
    each_takes(clients, characteristic, value)
    take('nothing')
    each_reads(characteristic, value)


# Nothing is renamed where a case does not say so.
titles()


# ---- Once only takes with enough room are called, after at most 168 takes nothing more is owed (SCOPE 21.11).

def further_presses(service, who):
    """Seven opcodes with their results, for a client that is at the last track of order 5 and seeks at the end rung, behind the one Fast Forward of
    `every_slot_falls_due`. The last five are unknown, and others for each client and service."""
    unknown = 0x80 + 0x20 * service + 8 * who
    return ((NEXT_TRACK, 4), (FORWARD, 1)) + tuple((unknown + place, 2) for place in range(5))


# 168 is 4 · (2 · 13 + 2 · 8): to each of the four clients 13 values and 8 results of each service. Nothing more can be owed.
case('a hundred and sixty-eight takes')
start(b'A', ALL, 7, 'done', 'Inactive 3 0 0 | 0 0 0', beside=(b'A', ALL, 9))
subscribe_to_all(SERVICES)
for service, name in ((NAMED, b'N'), (GENERIC, b'G')):
    on(service)
    every_slot_falls_due(name)
    for place in range(7):
        for who in EVERYONE:
            control(who, further_presses(service, who)[place][0], 'Seeking 5 2 32 | 1 0 0', due([who], 18))
on(GENERIC)
seen_in_both(['23: %s; %s; 8' % (EVERY, EVERY)] * 4, ['23: %s; %s; 8' % (EVERY, EVERY)] * 4)
# 0x11: a write to 18 by a client with 8 results waiting (SCOPE 20.2).
for service in SERVICES:
    for who in EVERYONE:
        write(who, 18, [PLAY], 'refused 0x11', service=service)
# A take starts after the client that was served last, in number order round the four, and in it after the slot that was served last (SCOPE 19.2, 19.3): each
# of the four in turn is served place 0, then each place 1, and so on to place 27. Slot 18 holds up to 8 results, oldest first (SCOPE 18.7), and one goes with
# each take.
served_in_all = 0
for service, name in ((GENERIC, b'G'), (NAMED, b'N')):
    for served in every_slot(name):
        for who in EVERYONE:
            take('%s %s' % (CLIENTS[who], served), service=service)
            served_in_all += 1
# Then each is owed places 13 and 27 alone, seven results at both.
seen_in_both(['23: %s; 18; 7' % EVERY] * 4, ['23: %s; 18; 7' % EVERY] * 4)
for place in range(7):
    for service in SERVICES:
        for who in EVERYONE:
            take('%s 18 %02x %02x' % (CLIENTS[who], *further_presses(service, who)[place]), service=service)
            served_in_all += 1
assert served_in_all == 168
take('nothing')
take('nothing')
# Every slot changed since subscribing, and every client took it. The tape stands, so that 7 is what was taken, too.
for service, name in ((GENERIC, b'G'), (NAMED, b'N')):
    for served in every_slot(name):
        characteristic, _, taken = served.partition(' ')
        if characteristic not in ('4', '18'):
            each_reads(int(characteristic), bytes.fromhex(taken), service=service)

# Takes need enough room (SCOPE 21.11): one with less is refused and hands out nothing, however often it is called.
case('takes with too little room')
on(GENERIC)
desks('8 / 1', '8 / 1', '8 / 1', '8 / 1')
write(LEFT, 8, [16], 'done', 'Paused 3 16 0 | 1 0 0', due(but(LEFT), 8))
set_name(b'B', 'done', due(EVERYONE, 1), service=NAMED)
for room in (127, 127, 1, 0) * 2:
    take('refused 205', room)
seen_in_both(('23: 8;; 0', '24: 8; 8; 0', '64: 8; 8; 0', '517: 8; 8; 0'), ('23: 1; 1; 0', '24: 1; 1; 0', '64: 1; 1; 0', '517: 1; 1; 0'))
take_named('left 1 42')
each_takes(but(LEFT), 8, [16])
take('refused 205', 127)
on(NAMED)
each_takes(but(LEFT), 1, b'B')
take('nothing')
take('refused 205', 127)
each_reads(8, [16], service=GENERIC)
each_reads(1, b'B', service=NAMED)


# ---- What a client last took, or itself wrote with success since, is the present value (SCOPE 21.12)

# 8, 11, 12, 14 and 15 are not owed to the client that wrote them (SCOPE 18.4). Each of these characteristics with its value on a fresh desk, Paused at the
# start of track 0 of group 1, in order 3; and with two other values, and the state that a write of either leaves there, whichever of the two was written
# before.
WRITES = (
    (8, [0], ([16], 'Paused 3 16 0 | 1 0 0'), ([256 - 48], 'Paused 3 -48 0 | 1 0 0')),
    (11, track_object(0), (track_object(1), 'Paused 3 0 0 | 1 1 0'), (track_object(2), 'Paused 3 0 0 | 1 2 0')),
    (12, track_object(1), (track_object(2), 'Paused 3 0 0 | 1 0 0 2'), (track_object(0), 'Paused 3 0 0 | 1 0 0 0')),
    # The second is the one that there was.
    (14, group_object(1), (group_object(3), 'Paused 3 0 0 | 3 3 0'), (group_object(1), 'Paused 3 0 0 | 1 0 0')),
    (15, [3], ([4], 'Paused 4 0 0 | 1 0 0'), ([5], 'Paused 5 0 0 | 1 0 0')),
)


def write_for(clients, who, characteristic, written):
    """An accepted write of a value, by which the slot falls due to these clients."""
    value, state = written
    write(who, characteristic, value, 'done', state, due(clients, characteristic))


def all_follow(service, characteristic):
    """A fresh desk, and the four clients subscribe to one characteristic of both services; the calls are to this one."""
    on(service)
    desks(*['%d / %d' % (characteristic, characteristic)] * 4)


# The writer knows what it wrote, the others what they took; the other service's value is what it was.
for characteristic, found, first, _ in WRITES:
    for service, beside, writer in ((GENERIC, NAMED, RIGHT), (NAMED, GENERIC, SCREEN)):
        case('the writer of %d is owed nothing, and knows it' % characteristic)
        all_follow(service, characteristic)
        write_for(but(writer), writer, characteristic, first)
        settles(but(writer), characteristic, first[0])
        each_reads(characteristic, found, service=beside)

# What is already owed stays owed until served or dropped, also when the value changes back or the client writes it (SCOPE 18.6).
for characteristic, _, first, second in WRITES:
    case('what was written of %d is changed and changed back' % characteristic)
    all_follow(GENERIC, characteristic)
    # Before any take: the writer takes what it wrote, once, and so does who changed it back.
    write_for(but(LEFT), LEFT, characteristic, first)
    write_for(but(RIGHT), RIGHT, characteristic, second)
    write_for(but(RIGHT), RIGHT, characteristic, first)
    settles(EVERYONE, characteristic, first[0])
    # Changed by one and changed back by another.
    write_for(but(RIGHT), RIGHT, characteristic, second)
    write_for(but(HEADSET), HEADSET, characteristic, first)
    settles(EVERYONE, characteristic, first[0])
    # By one and the same: it is owed nothing by either, and the others take once what they took before.
    write_for(but(SCREEN), SCREEN, characteristic, second)
    write_for(but(SCREEN), SCREEN, characteristic, first)
    settles(but(SCREEN), characteristic, first[0])

for characteristic, _, first, second in WRITES:
    case('a client that is owed %d writes it' % characteristic)
    all_follow(NAMED, characteristic)
    write_for(but(RIGHT), RIGHT, characteristic, first)
    write_for(but(LEFT), LEFT, characteristic, second)
    # It takes what it wrote.
    settles(EVERYONE, characteristic, second[0])
    # What it took is older than what it then writes.
    write_for(but(LEFT), LEFT, characteristic, first)
    settles(but(LEFT), characteristic, first[0])
    # A write that is refused does not count (SCOPE 21.12).
    write_for(but(SCREEN), SCREEN, characteristic, second)
    write(RIGHT, characteristic, [9] * 7, 'refused 0x0D')
    settles(but(SCREEN), characteristic, second[0])

# Unsubscribing drops what the slot owes; subscribing twice changes nothing (SCOPE 17.10, 17.11). What changed before subscribing does not count (SCOPE
# 21.12).
for characteristic, _, first, second in WRITES:
    case('%d changes while a client is not subscribed to it' % characteristic)
    all_follow(GENERIC, characteristic)
    unsubscribe(LEFT, characteristic, 'done')
    write_for((HEADSET, SCREEN), RIGHT, characteristic, first)
    subscribe(LEFT, characteristic, 'done')
    # The left pedal is told nothing, and reads what there is.
    settles((HEADSET, SCREEN), characteristic, first[0])
    write_for(but(RIGHT), RIGHT, characteristic, second)
    unsubscribe(LEFT, characteristic, 'done')
    subscribe(LEFT, characteristic, 'done')
    settles((HEADSET, SCREEN), characteristic, second[0])
    # From then on it is told again.
    write_for(but(RIGHT), RIGHT, characteristic, first)
    subscribe(LEFT, characteristic, 'done')
    settles(but(RIGHT), characteristic, first[0])

# A write is of the characteristic of one service, and the other service's is no knowledge of it.
case('two clients write the speed of one service each')
on(GENERIC)
desks('8 / 8', '8 / 8')
write(LEFT, 8, [16], 'done', 'Paused 3 16 0 | 1 0 0', 'right 8', service=GENERIC)
write(RIGHT, 8, [16], 'done', 'Paused 3 16 0 | 1 0 0', 'left 8', service=NAMED)
take_named('left 8 10')
take_generic('right 8 10')
take('nothing')
for service in SERVICES:
    each_reads(8, [16], service=service)


# ---- Only the slot that is written is spared: what else changes by the write is owed to the writer too

# Track 0 is the last one in order 5, and no track is behind it.
case('the writer of an order takes the next track')
on(GENERIC)
office('12 15', '12 15')
write(LEFT, 15, [5], 'done', 'Paused 5 0 0 | 1 0 0', 'left 12; right 12 15')
take('left 12')
take('right 12')
take('right 15 05')
take('nothing')
each_reads(12, b'')
each_reads(15, [5])

case('the writer of a track takes the next track')
on(GENERIC)
office('11 12', '11 12')
write(LEFT, 11, track_object(1), 'done', 'Paused 3 0 0 | 1 1 0', 'left 12; right 11 12')
take('left 12' + octets(track_object(2)))
take('right 11' + octets(track_object(1)))
take('right 12' + octets(track_object(2)))
take('nothing')
each_reads(11, track_object(1))
each_reads(12, track_object(2))

# Where all is subscribed to, 4 and 7 are owed whenever the track number changes (SCOPE 18.2), and the values that differ.
case('the writer of a track takes all else that changed')
on(GENERIC)
office(EVERY)
write(LEFT, 11, track_object(1), 'done', 'Paused 3 0 0 | 1 1 0', 'left 4 5 6 7 12')
take('left 4')
take('left 5 52 61 73 74')
take('left 6 2c 01 00 00')
take('left 7 00 00 00 00')
take('left 12' + octets(track_object(2)))
take('nothing')
for characteristic, value in ((5, b'Rast'), (6, word(300)), (7, word(0)), (11, track_object(1)), (12, track_object(2))):
    each_reads(characteristic, value)

# Group 1 is in group 0 and has tracks 1 and 2; group 3, in group 1, has track 3 alone, and no track is behind that.
case('the writer of a group takes its track, the next one and its parent')
on(GENERIC)
start(b'Desk', ALL, 7, 'done', 'Inactive 3 0 0 | 0 0 0')
activate(1, 'done', 'Paused 3 0 0 | 1 1 0', catalogue=FOLDERS)
come('11 12 13 14', '11 12 13 14')
write(LEFT, 14, group_object(3), 'done', 'Paused 3 0 0 | 3 3 0', 'left 11 12 13; right 11 12 13 14', FOLDERS)
for served in ('11' + octets(track_object(3)), '12', '13' + octets(group_object(1))):
    take('left ' + served, catalogue=FOLDERS)
    take('right ' + served, catalogue=FOLDERS)
take('right 14' + octets(group_object(3)), catalogue=FOLDERS)
take('nothing', catalogue=FOLDERS)
for characteristic, value in ((11, track_object(3)), (12, b''), (13, group_object(1)), (14, group_object(3))):
    each_reads(characteristic, value, FOLDERS)

# 12 names a track of the current group that Next Track or the end of a track uses once (SCOPE 14.4, 14.5). What the left pedal wrote is then older than what
# it takes.
case('the writer of a next track takes the one behind it')
on(GENERIC)
office('11 12', '11 12')
write(LEFT, 12, track_object(2), 'done', 'Paused 3 0 0 | 1 0 0 2', 'right 12')
control(RIGHT, NEXT_TRACK, 'Paused 3 0 0 | 1 2 0', 'left 11 12; right 11 12')
each_takes((LEFT, RIGHT), 11, track_object(2))
each_takes((LEFT, RIGHT), 12, b'')
take('nothing')
each_reads(11, track_object(2))
each_reads(12, b'')
write(LEFT, 12, track_object(1), 'done', 'Paused 3 0 0 | 1 2 0 1', 'right 12')
control(RIGHT, PLAY, 'Playing 3 0 0 | 1 2 0 1', '')
advance(0, 'done', 'Playing 3 0 0 | 1 1 0', 'left 11 12; right 11 12')
# The left pedal was served 12 last, and so was the right one.
each_takes((LEFT, RIGHT), 11, track_object(1))
each_takes((LEFT, RIGHT), 12, track_object(2))
take('nothing')
each_reads(11, track_object(1))
each_reads(12, track_object(2))


# ---- What is known is the present value as far as ATT_MTU − 3 reaches (SCOPE 21.12)

# The titles of tracks 0 and 1 have 64 octets, and that of track 3 is the same twice.
case('a title that is longer than a notification')
on(GENERIC)
office('5', None, None, '5', LONG)
control(SCREEN, NEXT_GROUP, 'Paused 3 0 0 | 3 3 0', 'left 5; screen 5', catalogue=LONG)
take('left 5' + octets(GESPRAECH[:20]), catalogue=LONG)
take('screen 5' + octets(TWICE), catalogue=LONG)
take('nothing', catalogue=LONG)
# 22 octets and 128: the left pedal reads two more than it took.
each_reads(5, TWICE, LONG)
# It comes back with an ATT_MTU of 64. What changed before it subscribes is none of its own.
disconnect(LEFT, 'done', LONG)
connect(LEFT, 64, ENCRYPTED, 'done', LONG)
control(SCREEN, PREVIOUS_GROUP, 'Paused 3 0 0 | 1 0 0', 'screen 5', catalogue=LONG)
subscribe(LEFT, 5, 'done', LONG)
take('screen 5' + octets(GESPRAECH), catalogue=LONG)
take('nothing', catalogue=LONG)
each_reads(5, GESPRAECH, LONG)
# The titles differ beyond the 61 octets that it takes.
control(SCREEN, NEXT_GROUP, 'Paused 3 0 0 | 3 3 0', 'left 5; screen 5', catalogue=LONG)
take('left 5' + octets(GESPRAECH[:61]), catalogue=LONG)
take('screen 5' + octets(TWICE), catalogue=LONG)
take('nothing', catalogue=LONG)
each_reads(5, TWICE, LONG)
read(LEFT, 5, 63, 'read' + octets(TWICE[63:126]), catalogue=LONG)
control(SCREEN, PREVIOUS_GROUP, 'Paused 3 0 0 | 1 0 0', 'left 5; screen 5', catalogue=LONG)
take('left 5' + octets(GESPRAECH[:61]), catalogue=LONG)
take('screen 5' + octets(GESPRAECH), catalogue=LONG)
# Another track with the same title: what was taken is the present value still.
control(SCREEN, NEXT_TRACK, 'Paused 3 0 0 | 1 1 0', '', catalogue=LONG)
take('nothing', catalogue=LONG)
each_reads(5, GESPRAECH, LONG)

# One set of titles is lent throughout, which 224 does not refuse (SCOPE 21.3). The right pedal's 21 octets end inside the umlaut, which stands at 20 and 21.
case('titles of the office that are longer than a notification')
on(GENERIC)
rename(LONG_NAME, None, None, KAI)
office('5', '5', '5', '5')
control(SCREEN, NEXT_GROUP, 'Paused 3 0 0 | 3 3 0', due(EVERYONE, 5))
settles(EVERYONE, 5, KAI)
control(SCREEN, PREVIOUS_GROUP, 'Paused 3 0 0 | 1 0 0', due(EVERYONE, 5))
for who, reaches in (('left', 20), ('right', 21), ('headset', 61), ('screen', 128)):
    take('%s 5%s' % (who, octets(LONG_NAME[:reaches])))
take('nothing')
each_reads(5, LONG_NAME)
titles()

case('a name that is longer than a notification')
on(NAMED)
desks('/ 1', '/ 1')
set_name(LONG_NAME, 'done', 'left 1; right 1')
# Both names begin with the same octets, as far as either client is told.
set_name(LONG_NAME[:30], 'done', 'left 1; right 1')
each_takes((LEFT, RIGHT), 1, LONG_NAME)
take('nothing')
each_reads(1, LONG_NAME[:30])


# ---- It holds of every subscribed slot (SCOPE 21.12): what the desk changes, and changes back

# The tracks are gone: the title is empty, duration and position read −1 (SCOPE 16.3, 16.4), and there are no object numbers (SCOPE 16.5).
GONE = ((5, b''), (6, word(-1)), (7, word(-1)), (11, b''), (12, b''), (13, b''), (14, b''), (17, [0]))
AT_TRACK_0 = ((5, UEBERFAHRT), (6, word(6000)), (7, word(0)), (11, track_object(0)), (12, track_object(1)), (13, group_object(0)),
              (14, group_object(1)), (17, [2]))
CHANGED = 'left 4 5 6 7 11 12 13 14 17; screen 4 5 6 7 11 12 13 14 17'


def both_take(values):
    """The left pedal and the screen are served Track Changed, which is empty, and then these values."""
    each_takes((LEFT, SCREEN), 4, b'')
    for characteristic, value in values:
        each_takes((LEFT, SCREEN), characteristic, value)
    take('nothing')
    for characteristic, value in values:
        each_reads(characteristic, value)


case('a group is closed, opened and closed again')
on(GENERIC)
office(EVERY, None, None, EVERY)
deactivate('done', 'Inactive 3 0 0 | 0 0 0', CHANGED)
both_take(GONE)
# Before any take all of it changes back, and each client takes it once.
activate(1, 'done', 'Paused 3 0 0 | 1 0 0', CHANGED)
deactivate('done', 'Inactive 3 0 0 | 0 0 0', CHANGED)
# Both were served 17 last.
both_take(GONE)
activate(1, 'done', 'Paused 3 0 0 | 1 0 0', CHANGED)
both_take(AT_TRACK_0)
# 1, 8, 9 and 15 did not change since subscribing, and nobody was told of them.
for characteristic, value in ((1, b'Desk'), (8, [0]), (9, [0]), (15, [3])):
    each_reads(characteristic, value)


# ---- 7 and 18 are left out (SCOPE 21.12)

# 7 is not owed when an advance in Playing stays below D (SCOPE 18.3): what was taken is not the present value, and nothing is owed.
case('the position goes on with nobody told')
on(GENERIC)
office('7 17', '7')
write(LEFT, 7, word(100), 'done', 'Paused 3 0 0 | 1 0 100', 'left 7; right 7')
each_takes((LEFT, RIGHT), 7, word(100))
control(RIGHT, PLAY, 'Playing 3 0 0 | 1 0 100', 'left 17')
take('left 17 01')
take('nothing')
each_reads(7, word(100))
advance(50, 'done', 'Playing 3 0 0 | 1 0 150')
take('nothing')
each_reads(7, word(150))
advance(5849, 'done', 'Playing 3 0 0 | 1 0 5999')
seen('23: 7 17;; 0', '24: 7;; 0', '-', '-')
take('nothing')
each_reads(7, word(5999))
# What the left pedal wrote is not what there is either.
write(LEFT, 7, word(-1000), 'done', 'Playing 3 0 0 | 1 0 5000', 'left 7; right 7')
settles((RIGHT, LEFT), 7, word(5000))
# While Seeking everybody is told. The left pedal was served 7 last, so 17 comes before it.
control(RIGHT, FORWARD, 'Seeking 3 0 4 | 1 0 5000', 'left 17')
advance(10, 'done', 'Seeking 3 0 4 | 1 0 5040', 'left 7; right 7')
each_takes([RIGHT], 7, word(5040))
take('left 17 03')
settles([LEFT], 7, word(5040))
