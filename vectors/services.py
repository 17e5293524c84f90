"""The two services' cases: the generic service and the named player over one catalogue (SCOPE 17.1), which vectors/script.py puts behind the
office's day.

Each call has the service that it is to, its answer, the state of that service's player and what falls due by it to whom beside it, worked out by hand from
the rules of docs/SCOPE.md. vectors/calls.py says how they are written. A client's places are numbered as the takes go through them: the slots 1, 4, 5, 6, 7,
8, 9, 11, 12, 13, 14, 15, 17, 18 of the generic service are places 0 to 13, the same of the named player 14 to 27.

A comment that names a rule, such as SCOPE 18.2, says it in a few words; docs/SCOPE.md has the rule.
"""
from calls import (
    ALL, BAD_AND_WRONG, BAD_TITLES, CODE, CONNECTED, CUT, ENCRYPTED, ENCRYPTION, FIRST_GROUP, FIRST_SEGMENT, FORWARD, FRESH, GENERIC, HEADSET,
    LAST_SEGMENT, LEFT, LONGEST, MARK, MTU, NAMED, NAME_FIRST, NEXT_GROUP, NEXT_SEGMENT, NEXT_TRACK, OPEN, OWED, OWN_PARENT, PAUSE, PLACE, PLAY,
    PREVIOUS_TRACK, RIGHT, SAMPLE, SCREEN, SERVICES, STOP, SUBSCRIBED, TURN, WAITING,
    activate, advance, case, connect, control, damage, deactivate, disconnect, group_object, octets, on, read, seen, segments_object, set_name, start,
    subscribe, take, track_object, unsubscribe, word, write,
)
from office import (
    EVERY, LONG_NAME, RAST, UEBERFAHRT, WRONG_PLAYERS, ZIEL,
    come, every_slot, every_slot_falls_due, slots, subscribe_to_all, the_others_refuse_the_state,
)

# 219 is for a service number over 1 (SCOPE 20.2).
NO_SERVICES = (2, 3, 128, 255)


def desks(left=None, right=None, headset=None, screen=None):
    """A fresh desk, both players Paused at the start of track 0, and the clients that come."""
    start(b'Desk', ALL, 7, 'done', 'Inactive 3 0 0 | 0 0 0', beside=(b'Aula', ALL, 9))
    for service in SERVICES:
        activate(1, 'done', 'Paused 3 0 0 | 1 0 0', service=service)
    come(left, right, headset, screen)


def take_generic(answer):
    take(answer, service=GENERIC)


def take_named(answer):
    take(answer, service=NAMED)


def seen_in_both(generic, named):
    """What is seen of the four clients in the one service and in the other."""
    seen(*generic, service=GENERIC)
    seen(*named, service=NAMED)


# ---- Start

# Start names both players at once (SCOPE 17.6); each service has its own player, name, subscriptions and results (SCOPE 17.2).
case('two players, each with its own name, mask and Content Control ID')
start(b'Desk', ALL, 7, 'done', 'Inactive 3 0 0 | 0 0 0', beside=(b'Aydin', 0xFFE00002, 200))
come('18 / 18')
for characteristic, generic, named in (
        (1, ' 44 65 73 6b', ' 41 79 64 69 6e'),
        (5, '', ''),
        (6, ' ff ff ff ff', ' ff ff ff ff'),
        (7, ' ff ff ff ff', ' ff ff ff ff'),
        (8, ' 00', ' 00'),
        (9, ' 00', ' 00'),
        (10, '', ''),
        (11, '', ''),
        (12, '', ''),
        (13, '', ''),
        (14, '', ''),
        (15, ' 03', ' 03'),
        (16, ' ff 00', ' ff 00'),
        (17, ' 00', ' 00'),
        # Higher mask bits count as 0 (SCOPE 9.2).
        (19, ' ff ff 1f 00', ' 02 00 00 00'),
        (22, ' 07', ' c8')):
    read(LEFT, characteristic, 0, 'read' + generic, service=GENERIC)
    read(LEFT, characteristic, 0, 'read' + named, service=NAMED)
# Play is in the mask of the generic service alone, Pause in both.
control(LEFT, PLAY, 'Inactive 3 0 0 | 0 0 0', 'left 18', service=GENERIC)
control(LEFT, PLAY, 'Inactive 3 0 0 | 0 0 0', 'left 18', service=NAMED)
control(LEFT, PAUSE, 'Inactive 3 0 0 | 0 0 0', 'left 18', service=GENERIC)
control(LEFT, PAUSE, 'Inactive 3 0 0 | 0 0 0', 'left 18', service=NAMED)
take_generic('left 18 01 03')
take_named('left 18 01 02')
take_generic('left 18 02 03')
take_named('left 18 02 03')
take('nothing')

case('the masks and Content Control IDs the other way round')
start(b'Aydin', 0x00000001, 0, 'done', 'Inactive 3 0 0 | 0 0 0', beside=(b'Desk', 0x001FFFFE, 255))
come('18 / 18')
read(LEFT, 19, 0, 'read 01 00 00 00', service=GENERIC)
read(LEFT, 19, 0, 'read fe ff 1f 00', service=NAMED)
read(LEFT, 22, 0, 'read 00', service=GENERIC)
read(LEFT, 22, 0, 'read ff', service=NAMED)
control(LEFT, PLAY, 'Inactive 3 0 0 | 0 0 0', 'left 18', service=NAMED)
control(LEFT, PLAY, 'Inactive 3 0 0 | 0 0 0', 'left 18', service=GENERIC)
take_generic('left 18 01 03')
take_named('left 18 01 02')

# Names of any length up to 128 in both, equal ones too.
case('names of both players')
for generic, named in ((b'', b''), (b'Desk', b'Desk'), (b'', b'Aula'), (b'Desk', b''), (LONG_NAME, b'a'), (b'a', LONG_NAME), (b'b' * 128, LONG_NAME)):
    start(generic, ALL, 7, 'done', 'Inactive 3 0 0 | 0 0 0', beside=(named, ALL, 9))
    connect(SCREEN, 517, ENCRYPTED, 'done')
    read(SCREEN, 1, 0, 'read' + octets(generic), service=GENERIC)
    read(SCREEN, 1, 0, 'read' + octets(named), service=NAMED)

# The generic player's name is checked first (SCOPE 17.6); 207 carries an offset; of a name over 128 octets it is 128, tested first (SCOPE 20.4).
case('a start with wrong names')
desks('1 17 18 / 1 17 18')
for generic, named, offset in (
        # Both are bad: the offset is that of the generic service's.
        (b'ab\xFF', b'\xFF', 2),
        (b'\xFF', b'ab\xFF', 0),
        (b'abcde\xC3', b'a\xC3', 5),
        (b'a' * 127 + b'\xFF', b'\xFF', 127),
        # One is over 128 octets, the other bad.
        (b'a' * 129, b'a\xFF', 128),
        (b'abc\xFF', b'a' * 129, 3),
        (b'\xFF', b'\xFF' * 129, 0),
        (b'\xFF' * 255, b'\xFF', 128),
        # Both are over 128 octets.
        (b'a' * 129, b'b' * 129, 128),
        (b'a' * 255, b'b' * 255, 128),
        (b'a' * 128 + b'\xFF', b'\xFF' * 130, 128),
        # The generic service's alone.
        (b'abcd\xFF', b'Aula', 4),
        (b'a' * 129, b'Aula', 128),
        (b'\xFF', b'', 0),
        # The named player's alone.
        (b'Desk', b'\xFF', 0),
        (b'Desk', b'abc\xFFd', 3),
        (b'Desk', b'ab\xE2\x82', 2),
        (b'Desk', b'a' * 127 + b'\xC3', 127),
        (b'Desk', b'a' * 129, 128),
        (b'Desk', b'\xFF' + b'a' * 128, 128),
        (b'a' * 128, b'a' * 128 + b'\xFF', 128),
        (b'', b'\x80', 0),
        (LONG_NAME, LONG_NAME[:21], 20)):
    start(generic, ALL, 1, 'refused 207 %d' % offset, beside=(named, ALL, 2))
# A refusal alters nothing (SCOPE 20.1).
seen_in_both(('23: 1 17 18;; 0', '-', '-', '-'), ('23: 1 17 18;; 0', '-', '-', '-'))
read(LEFT, 1, 0, 'read 44 65 73 6b', service=GENERIC)
read(LEFT, 1, 0, 'read 41 75 6c 61', service=NAMED)
read(LEFT, 22, 0, 'read 07', service=GENERIC)
read(LEFT, 22, 0, 'read 09', service=NAMED)
take('nothing')

# 200 before both names, and it carries what it carries without them.
case('a start with wrong names over a wrong catalogue')
desks('1 / 1')
for catalogue, answer in ((OWN_PARENT, 'refused 200'), (CUT, 'refused 200'), (BAD_TITLES, 'refused 200 1 5'), (BAD_AND_WRONG, 'refused 200')):
    for generic, named in ((b'ab\xFF', b'\xFF'), (b'Desk', b'\xFF'), (b'a' * 129, b'a' * 129), (b'Desk', b'a' * 129), (b'\xFF', b'Aula'),
                           (b'Desk', b'Aula')):
        start(generic, ALL, 1, answer, catalogue=catalogue, beside=(named, ALL, 2))
read(LEFT, 1, 0, 'read 44 65 73 6b', service=GENERIC)
read(LEFT, 1, 0, 'read 41 75 6c 61', service=NAMED)


# ---- 219, for a service number over 1, comes after 202 (SCOPE 20.2)

def each_call_to(service, answer, catalogue=SAMPLE):
    """Every call that is to a service, as one of the two would accept it and as it would refuse it, in the office of the case below."""
    lent = {'catalogue': catalogue, 'service': service}
    set_name(b'B', answer, **lent)
    activate(1, answer, **lent)
    deactivate(answer, **lent)
    advance(10, answer, **lent)
    subscribe(LEFT, 4, answer, **lent)
    unsubscribe(LEFT, 17, answer, **lent)
    read(LEFT, 1, 0, answer, **lent)
    write(LEFT, 15, [4], answer, **lent)
    # 207 and 208.
    set_name(b'a\xFF', answer, **lent)
    set_name(b'a' * 129, answer, **lent)
    activate(0, answer, **lent)
    activate(2, answer, **lent)
    activate(4, answer, **lent)
    # 203.
    subscribe(RIGHT, 4, answer, **lent)
    unsubscribe(RIGHT, 17, answer, **lent)
    read(RIGHT, 1, 0, answer, **lent)
    write(RIGHT, 18, [PLAY], answer, **lent)
    # 0x01.
    subscribe(LEFT, 3, answer, **lent)
    unsubscribe(LEFT, 255, answer, **lent)
    read(LEFT, 3, 0, answer, **lent)
    write(LEFT, 0, [1], answer, **lent)
    # 209, 0x02 and 0x03.
    subscribe(LEFT, 16, answer, **lent)
    unsubscribe(LEFT, 22, answer, **lent)
    read(LEFT, 4, 0, answer, **lent)
    write(LEFT, 17, [1], answer, **lent)
    # 0x0F.
    subscribe(SCREEN, 4, answer, **lent)
    unsubscribe(SCREEN, 17, answer, **lent)
    read(SCREEN, 1, 0, answer, **lent)
    write(SCREEN, 18, [PLAY], answer, **lent)
    # 0x80, 0x07, 0x0D, 0x13 and 0x11.
    read(LEFT, 1, 1, answer, **lent)
    read(LEFT, 5, 200, answer, **lent)
    write(LEFT, 7, [1], answer, **lent)
    write(LEFT, 15, [9], answer, **lent)
    write(LEFT, 11, track_object(3), answer, **lent)
    write(LEFT, 18, [PLAY], answer, **lent)


# The left pedal has eight results waiting in each service, nobody stands at the right one, the screen is connected unencrypted.
case('no such service')
desks('1 17 18 / 1 17 18')
connect(SCREEN, 517, OPEN, 'done')
for service in SERVICES:
    for _ in range(8):
        control(LEFT, PREVIOUS_TRACK, 'Paused 3 0 0 | 1 0 0', 'left 18', service=service)
    set_name(b'A', 'done', 'left 1', service=service)
    read(LEFT, 5, 0, 'read' + octets(UEBERFAHRT), service=service)
for service in NO_SERVICES:
    each_call_to(service, 'refused 219')
seen_in_both(('23: 1 17 18; 1 18; 8', '-', '-', '517:;; 0'), ('23: 1 17 18; 1 18; 8', '-', '-', '517:;; 0'))
# 202 before 219, and before 203.
for who in (4, 255):
    for service in (GENERIC, NAMED, 2, 255):
        subscribe(who, 17, 'refused 202', service=service)
        unsubscribe(who, 17, 'refused 202', service=service)
        read(who, 1, 0, 'refused 202', service=service)
        write(who, 18, [PLAY], 'refused 202', service=service)
        subscribe(who, 3, 'refused 202', service=service)
        write(who, 18, [], 'refused 202', service=service)
# 219 before 203, which the same client meets in both services.
for service, answer in ((2, 'refused 219'), (255, 'refused 219'), (GENERIC, 'refused 203'), (NAMED, 'refused 203')):
    for who in (RIGHT, HEADSET):
        subscribe(who, 17, answer, service=service)
        unsubscribe(who, 17, answer, service=service)
        read(who, 1, 0, answer, service=service)
        write(who, 18, [PLAY], answer, service=service)
        write(who, 3, [], answer, service=service)
# 205 before 202, 219 and 203.
for who in (LEFT, RIGHT, 4):
    for service in (GENERIC, NAMED, 2, 255):
        read(who, 1, 0, 'refused 205', 127, service=service)
        read(who, 3, 1, 'refused 205', 0, service=service)
# 200 before 205, 202 and 219.
for catalogue, answer in ((OWN_PARENT, 'refused 200'), (BAD_TITLES, 'refused 200 1 5')):
    each_call_to(2, answer, catalogue)
    read(LEFT, 1, 0, answer, 127, catalogue, 2)
    read(4, 1, 0, answer, 127, catalogue, 255)
    write(4, 18, [PLAY], answer, catalogue=catalogue, service=2)
# 201 before 202 and 219, 205 before 201. The first state is wrong in no service, the other two in one.
for part, wrong, right, service in ((TURN, 4, 3, GENERIC), (NAME_FIRST, 0xFF, 0x41, GENERIC), (NAME_FIRST, 0xFF, 0x41, NAMED)):
    damage(part, wrong, service=service)
    each_call_to(2, 'refused 201')
    read(4, 1, 0, 'refused 201', service=2)
    write(255, 18, [PLAY], 'refused 201', service=255)
    subscribe(4, 17, 'refused 201', service=2)
    unsubscribe(4, 17, 'refused 201', service=NAMED)
    read(4, 1, 0, 'refused 205', 127, service=2)
    read(LEFT, 1, 0, 'refused 205', 127, service=2)
    damage(part, right, service=service)
# Nothing was altered. The round begins at place 0; 13 and 27 come in turn, once in twenty-eight places.
take_generic('left 1 41')
take_generic('left 18 30 04')
take_named('left 1 41')
for _ in range(7):
    take_named('left 18 30 04')
    take_generic('left 18 30 04')
take_named('left 18 30 04')
take('nothing')

# The refusals behind 219 are those of the named player too.
case('refusals of the named player')
desks('18 / 18')
connect(SCREEN, 517, OPEN, 'done')
for characteristic in (0, 2, 3, 20, 21, 23, 255):
    read(LEFT, characteristic, 0, 'refused 0x01', service=NAMED)
    write(LEFT, characteristic, [1], 'refused 0x01', service=NAMED)
    subscribe(LEFT, characteristic, 'refused 0x01', service=NAMED)
    unsubscribe(LEFT, characteristic, 'refused 0x01', service=NAMED)
for characteristic in (10, 16, 19, 22):
    subscribe(LEFT, characteristic, 'refused 209', service=NAMED)
    unsubscribe(LEFT, characteristic, 'refused 209', service=NAMED)
for characteristic in (4, 18):
    read(LEFT, characteristic, 0, 'refused 0x02', service=NAMED)
for characteristic in (1, 4, 5, 6, 9, 10, 13, 16, 17, 19, 22):
    write(LEFT, characteristic, [1], 'refused 0x03', service=NAMED)
read(SCREEN, 1, 0, 'refused 0x0F', service=NAMED)
write(SCREEN, 7, word(1), 'refused 0x0F', service=NAMED)
subscribe(SCREEN, 17, 'refused 0x0F', service=NAMED)
unsubscribe(SCREEN, 17, 'refused 0x0F', service=NAMED)
write(LEFT, 7, [1], 'refused 0x0D', service=NAMED)
write(LEFT, 8, [], 'refused 0x0D', service=NAMED)
write(LEFT, 15, [9, 9], 'refused 0x0D', service=NAMED)
write(LEFT, 18, [PLAY, 0], 'refused 0x0D', service=NAMED)
write(LEFT, 15, [9], 'refused 0x13', service=NAMED)
for characteristic in (11, 12, 14):
    write(LEFT, characteristic, [0, 0x10, 0, 0, 0], 'refused 0x0D', service=NAMED)
    write(LEFT, characteristic, segments_object(0), 'refused 0x13', service=NAMED)
set_name(b'ab\xC3', 'refused 207 2', service=NAMED)
set_name(b'a' * 129, 'refused 207 128', service=NAMED)
activate(2, 'refused 208', service=NAMED)
activate(LONGEST, 'refused 208', service=NAMED)
seen_in_both(('23: 18;; 0', '-', '-', '517:;; 0'), ('23: 18;; 0', '-', '-', '517:;; 0'))
take('nothing')


# ---- A call to one service never alters replies, state or owed values of the other (SCOPE 17.4)

case('one player is put on and off, and then the other')
start(b'Desk', ALL, 7, 'done', 'Inactive 3 0 0 | 0 0 0', beside=(b'Aula', ALL, 9))
come('4 5 6 7 17 / 4 5 6 7 17')
activate(3, 'done', 'Paused 3 0 0 | 3 3 0', 'left 4 5 6 7 17', service=NAMED)
seen_in_both(('23: 4 5 6 7 17;; 0', '-', '-', '-'), ('23: 4 5 6 7 17; 4 5 6 7 17; 0', '-', '-', '-'))
for characteristic, generic, named in ((5, '', octets(ZIEL)), (6, ' ff ff ff ff', ' 84 03 00 00'), (7, ' ff ff ff ff', ' 00 00 00 00'),
                                       (17, ' 00', ' 02')):
    read(LEFT, characteristic, 0, 'read' + generic, service=GENERIC)
    read(LEFT, characteristic, 0, 'read' + named, service=NAMED)
take_named('left 4')
take_named('left 5' + octets(ZIEL))
take_named('left 6 84 03 00 00')
take_named('left 7 00 00 00 00')
take_named('left 17 02')
take('nothing')
activate(1, 'done', 'Paused 3 0 0 | 1 0 0', 'left 4 5 6 7 17', service=GENERIC)
deactivate('done', 'Inactive 3 0 0 | 0 0 0', 'left 4 5 6 7 17', service=NAMED)
# Place 26 was served last: the round goes on at the generic service.
take_generic('left 4')
take_generic('left 5' + octets(UEBERFAHRT))
take_generic('left 6 70 17 00 00')
take_generic('left 7 00 00 00 00')
take_generic('left 17 02')
take_named('left 4')
take_named('left 5')
take_named('left 6 ff ff ff ff')
take_named('left 7 ff ff ff ff')
take_named('left 17 00')
take('nothing')
deactivate('done', 'Inactive 3 0 0 | 0 0 0', service=NAMED)
take('nothing')

case('the name of one player')
desks('1 / 1', None, '1', '/ 1')
set_name(b'Desk', 'done', 'left 1; screen 1', service=NAMED)
seen_in_both(('23: 1;; 0', '-', '64: 1;; 0', '517:;; 0'), ('23: 1; 1; 0', '-', '64:;; 0', '517: 1; 1; 0'))
read(HEADSET, 1, 0, 'read 44 65 73 6b', service=GENERIC)
read(HEADSET, 1, 0, 'read 44 65 73 6b', service=NAMED)
# It has that name already.
set_name(b'Desk', 'done', service=GENERIC)
set_name(b'Aula', 'done', 'left 1; headset 1', service=GENERIC)
read(HEADSET, 1, 0, 'read 41 75 6c 61', service=GENERIC)
read(HEADSET, 1, 0, 'read 44 65 73 6b', service=NAMED)
take_generic('left 1 41 75 6c 61')
take_generic('headset 1 41 75 6c 61')
take_named('screen 1 44 65 73 6b')
take_named('left 1 44 65 73 6b')
take('nothing')
# ATT_MTU is the client's, in both services.
set_name(LONG_NAME, 'done', 'left 1; screen 1', service=NAMED)
take_named('screen 1' + octets(LONG_NAME))
take_named('left 1' + octets(LONG_NAME[:20]))
read(LEFT, 1, 0, 'read' + octets(LONG_NAME[:22]), service=NAMED)
read(HEADSET, 1, 0, 'read' + octets(LONG_NAME[:63]), service=NAMED)

# 7 is not owed when an advance in Playing stays below D (SCOPE 18.3), which changes the value all the same, in that service alone.
case('the clock of each player')
desks('7 / 7')
for service in SERVICES:
    control(LEFT, PLAY, 'Playing 3 0 0 | 1 0 0', '', service=service)
    read(LEFT, 7, 0, 'read 00 00 00 00', service=service)
advance(500, 'done', 'Playing 3 0 0 | 1 0 500', service=GENERIC)
take('nothing')
read(LEFT, 7, 1, 'refused 0x80', service=GENERIC)
read(LEFT, 7, 1, 'read 00 00 00', service=NAMED)
read(LEFT, 7, 0, 'read f4 01 00 00', service=GENERIC)
advance(5999, 'done', 'Playing 3 0 0 | 1 0 5999', service=NAMED)
take('nothing')
read(LEFT, 7, 1, 'read 01 00 00', service=GENERIC)
read(LEFT, 7, 1, 'refused 0x80', service=NAMED)
# The one reaches D, the other stays below it.
advance(1, 'done', 'Playing 3 0 0 | 1 1 0', 'left 7', service=NAMED)
advance(100, 'done', 'Playing 3 0 0 | 1 0 600', service=GENERIC)
seen_in_both(('23: 7;; 0', '-', '-', '-'), ('23: 7; 7; 0', '-', '-', '-'))
take_named('left 7 00 00 00 00')
take('nothing')
# Paused and Playing, then Seeking and Playing.
control(LEFT, PAUSE, 'Paused 3 0 0 | 1 0 600', '', service=GENERIC)
advance(1000, 'done', 'Paused 3 0 0 | 1 0 600', service=GENERIC)
advance(10, 'done', 'Playing 3 0 0 | 1 1 10', service=NAMED)
take('nothing')
control(LEFT, FORWARD, 'Seeking 3 0 4 | 1 0 600', '', service=GENERIC)
advance(10, 'done', 'Seeking 3 0 4 | 1 0 640', 'left 7', service=GENERIC)
advance(10, 'done', 'Playing 3 0 0 | 1 1 20', service=NAMED)
take_generic('left 7 80 02 00 00')
take('nothing')
# What is owed in one is handed out as it is, whatever the other one's clock does.
write(LEFT, 7, word(100), 'done', 'Playing 3 0 0 | 1 1 100', 'left 7', service=NAMED)
advance(1, 'done', 'Seeking 3 0 4 | 1 0 644', 'left 7', service=GENERIC)
advance(50, 'done', 'Playing 3 0 0 | 1 1 150', service=NAMED)
take_named('left 7 96 00 00 00')
take_generic('left 7 84 02 00 00')
take('nothing')
# Where there is no next track, Paused at D (SCOPE 13.5), in one; the order of the other plays no part.
write(LEFT, 15, [1], 'done', 'Playing 1 0 0 | 1 1 150', service=NAMED)
advance(LONGEST, 'done', 'Paused 1 0 0 | 1 1 300', 'left 7', service=NAMED)
advance(LONGEST, 'done', 'Seeking 3 0 4 | 1 0 6000', 'left 7', service=GENERIC)
take_named('left 7 2c 01 00 00')
take_generic('left 7 70 17 00 00')
take('nothing')

# 8 and 15 are not owed to the client that wrote them (SCOPE 18.4), in the service that it wrote to.
case('the writer of a speed or an order of one player')
desks('8 15 / 8 15', '8 15 / 8 15')
write(LEFT, 8, [10], 'done', 'Paused 3 10 0 | 1 0 0', 'right 8', service=GENERIC)
write(LEFT, 15, [4], 'done', 'Paused 4 10 0 | 1 0 0', 'right 15', service=GENERIC)
seen_in_both(('23: 8 15;; 0', '24: 8 15; 8 15; 0', '-', '-'), ('23: 8 15;; 0', '24: 8 15;; 0', '-', '-'))
write(RIGHT, 8, [20], 'done', 'Paused 3 20 0 | 1 0 0', 'left 8', service=NAMED)
write(RIGHT, 15, [5], 'done', 'Paused 5 20 0 | 1 0 0', 'left 15', service=NAMED)
# Both are owed 8 of the service that the other one wrote to before they write it too.
write(LEFT, 8, [40], 'done', 'Paused 5 40 0 | 1 0 0', 'right 8', service=NAMED)
write(LEFT, 8, [30], 'done', 'Paused 4 30 0 | 1 0 0', 'right 8', service=GENERIC)
seen_in_both(('23: 8 15;; 0', '24: 8 15; 8 15; 0', '-', '-'), ('23: 8 15; 8 15; 0', '24: 8 15; 8; 0', '-', '-'))
take_named('left 8 28')
take_generic('right 8 1e')
take_named('left 15 05')
take_generic('right 15 04')
take_named('right 8 28')
take('nothing')
read(LEFT, 8, 0, 'read 1e', service=GENERIC)
read(LEFT, 8, 0, 'read 28', service=NAMED)
read(LEFT, 15, 0, 'read 04', service=GENERIC)
read(LEFT, 15, 0, 'read 05', service=NAMED)

# A read above offset 0, where some call changed the value since the client's last accepted read of it at 0 (SCOPE 17.14): in that service.
case('the changed mark in each service')
desks('', screen='')
read(LEFT, 5, 0, 'read' + octets(UEBERFAHRT), service=GENERIC)
read(LEFT, 5, 2, 'refused 0x80', service=NAMED)
control(SCREEN, NEXT_TRACK, 'Paused 3 0 0 | 1 1 0', '', service=NAMED)
read(LEFT, 5, 2, 'read' + octets(b'berfahrt'), service=GENERIC)
read(LEFT, 5, 0, 'read' + octets(RAST), service=NAMED)
control(SCREEN, NEXT_TRACK, 'Paused 3 0 0 | 1 1 0', '', service=GENERIC)
read(LEFT, 5, 1, 'read 61 73 74', service=NAMED)
read(LEFT, 5, 1, 'refused 0x80', service=GENERIC)
# It counts as changed even if it changed back (SCOPE 17.14), and a read at 0 of the other service's value is none of its own.
control(SCREEN, PREVIOUS_TRACK, 'Paused 3 0 0 | 1 0 0', '', service=NAMED)
control(SCREEN, NEXT_TRACK, 'Paused 3 0 0 | 1 1 0', '', service=NAMED)
read(LEFT, 5, 0, 'read' + octets(RAST), service=GENERIC)
read(LEFT, 5, 1, 'refused 0x80', service=NAMED)
read(LEFT, 5, 1, 'read 61 73 74', service=GENERIC)
# 0x07 goes by the length of the service's own value.
read(LEFT, 1, 0, 'read 44 65 73 6b', service=GENERIC)
set_name(b'Weber', 'done', service=NAMED)
read(LEFT, 1, 0, 'read 57 65 62 65 72', service=NAMED)
read(LEFT, 1, 4, 'read', service=GENERIC)
read(LEFT, 1, 5, 'refused 0x07', service=GENERIC)
read(LEFT, 1, 5, 'read', service=NAMED)
read(LEFT, 1, 6, 'refused 0x07', service=NAMED)
# There was no such read since connecting (SCOPE 17.14).
disconnect(LEFT, 'done')
connect(LEFT, 23, ENCRYPTED, 'done')
for service in SERVICES:
    read(LEFT, 1, 1, 'refused 0x80', service=service)
    read(LEFT, 5, 1, 'refused 0x80', service=service)

for one, name, ccid, other in ((GENERIC, b'Desk', 7, NAMED), (NAMED, b'Aula', 9, GENERIC)):
    case('every value of one service changes, and none of the other')
    desks(screen='')
    values = (
        (1, name), (5, UEBERFAHRT), (6, word(6000)), (7, word(0)), (8, [0]), (9, [0]), (10, segments_object(0)),
        (11, track_object(0)), (12, track_object(1)), (13, group_object(0)), (14, group_object(1)), (15, [3]), (16, [0xFF, 0x00]), (17, [2]),
        (19, word(ALL)), (22, [ccid]),
    )
    for characteristic, value in values:
        read(SCREEN, characteristic, 0, 'read' + octets(value), service=one)
    set_name(b'Weber', 'done', service=other)
    control(SCREEN, NEXT_TRACK, 'Paused 3 0 0 | 1 1 0', '', service=other)
    write(SCREEN, 7, word(5), 'done', 'Paused 3 0 0 | 1 1 5', service=other)
    write(SCREEN, 8, [6], 'done', 'Paused 3 6 0 | 1 1 5', service=other)
    write(SCREEN, 15, [7], 'done', 'Paused 7 6 0 | 1 1 5', service=other)
    control(SCREEN, FORWARD, 'Seeking 7 6 4 | 1 1 5', '', service=other)
    for characteristic, value in values:
        read(SCREEN, characteristic, 1, 'read' + octets(value[1:]), service=one)
        read(SCREEN, characteristic, 1, 'refused 0x80', service=other)


# ---- Subscriptions and results

case('unsubscribing from one service')
desks('1 17 18 / 1 17 18')
set_name(b'A', 'done', 'left 1', service=GENERIC)
set_name(b'B', 'done', 'left 1', service=NAMED)
control(LEFT, PLAY, 'Playing 3 0 0 | 1 0 0', 'left 17 18', service=GENERIC)
control(LEFT, PLAY, 'Playing 3 0 0 | 1 0 0', 'left 17 18', service=NAMED)
control(LEFT, NEXT_SEGMENT, 'Playing 3 0 0 | 1 0 1500', 'left 18', service=NAMED)
seen_in_both(('23: 1 17 18; 1 17 18; 1', '-', '-', '-'), ('23: 1 17 18; 1 17 18; 2', '-', '-', '-'))
# Unsubscribing drops what the slot owes (SCOPE 17.11).
unsubscribe(LEFT, 1, 'done', service=GENERIC)
seen_in_both(('23: 17 18; 17 18; 1', '-', '-', '-'), ('23: 1 17 18; 1 17 18; 2', '-', '-', '-'))
unsubscribe(LEFT, 18, 'done', service=NAMED)
seen_in_both(('23: 17 18; 17 18; 1', '-', '-', '-'), ('23: 1 17; 1 17; 0', '-', '-', '-'))
# What is not subscribed to there, though in the other one it is.
unsubscribe(LEFT, 1, 'done', service=GENERIC)
unsubscribe(LEFT, 18, 'done', service=NAMED)
take_generic('left 17 01')
take_generic('left 18 01 01')
take_named('left 1 42')
take_named('left 17 01')
take('nothing')
# There is one result for each accepted control write by a client subscribed to 18 at the time (SCOPE 18.7), in the service that is written to.
control(LEFT, PAUSE, 'Paused 3 0 0 | 1 0 1500', 'left 17', service=NAMED)
take_named('left 17 02')
take('nothing')
# The other way round.
subscribe(LEFT, 18, 'done', service=NAMED)
control(LEFT, PAUSE, 'Paused 3 0 0 | 1 0 0', 'left 17 18', service=GENERIC)
control(LEFT, STOP, 'Paused 3 0 0 | 1 0 0', 'left 18', service=NAMED)
unsubscribe(LEFT, 18, 'done', service=GENERIC)
seen_in_both(('23: 17; 17; 0', '-', '-', '-'), ('23: 1 17 18; 18; 1', '-', '-', '-'))
# Place 26 was served last.
take_named('left 18 05 01')
take_generic('left 17 02')
take('nothing')

# Slot 18 holds up to 8 results, oldest first (SCOPE 18.7); 0x11 is for a write to 18 by a client with 8 results waiting (SCOPE 20.2): in that service.
case('eight results in each service')
desks('18 / 18', '/ 18')
control(LEFT, PLAY, 'Playing 3 0 0 | 1 0 0', 'left 18', service=GENERIC)
control(LEFT, NEXT_SEGMENT, 'Playing 3 0 0 | 1 0 1500', 'left 18', service=GENERIC)
control(LEFT, NEXT_SEGMENT, 'Playing 3 0 0 | 1 0 4000', 'left 18', service=GENERIC)
control(LEFT, PREVIOUS_TRACK, 'Playing 3 0 0 | 1 0 4000', 'left 18', service=GENERIC)
control(LEFT, 0x77, 'Playing 3 0 0 | 1 0 4000', 'left 18', service=GENERIC)
control(LEFT, FIRST_SEGMENT, 'Playing 3 0 0 | 1 0 0', 'left 18', service=GENERIC)
control(LEFT, STOP, 'Paused 3 0 0 | 1 0 0', 'left 18', service=GENERIC)
control(LEFT, LAST_SEGMENT, 'Paused 3 0 0 | 1 0 4000', 'left 18', service=GENERIC)
write(LEFT, 18, [PLAY], 'refused 0x11', service=GENERIC)
seen_in_both(('23: 18; 18; 8', '24:;; 0', '-', '-'), ('23: 18;; 0', '24: 18;; 0', '-', '-'))
control(LEFT, FORWARD, 'Seeking 3 0 4 | 1 0 0', 'left 18', service=NAMED)
control(LEFT, NEXT_TRACK, 'Playing 3 0 0 | 1 1 0', 'left 18', service=NAMED)
control(LEFT, NEXT_TRACK, 'Playing 3 0 0 | 1 2 0', 'left 18', service=NAMED)
control(LEFT, NEXT_TRACK, 'Playing 3 0 0 | 1 2 0', 'left 18', service=NAMED)
write(LEFT, 18, [PLAY], 'refused 0x11', service=GENERIC)
control(LEFT, NEXT_GROUP, 'Playing 3 0 0 | 3 3 0', 'left 18', service=NAMED)
control(LEFT, 0x88, 'Playing 3 0 0 | 3 3 0', 'left 18', service=NAMED)
control(LEFT, PAUSE, 'Paused 3 0 0 | 3 3 0', 'left 18', service=NAMED)
control(LEFT, FIRST_GROUP, 'Paused 3 0 0 | 1 0 0', 'left 18', service=NAMED)
seen_in_both(('23: 18; 18; 8', '24:;; 0', '-', '-'), ('23: 18; 18; 8', '24: 18;; 0', '-', '-'))
for service in SERVICES:
    write(LEFT, 18, [PLAY], 'refused 0x11', service=service)
    write(LEFT, 18, [0x77], 'refused 0x11', service=service)
    # 0x0D before 0x11.
    write(LEFT, 18, [PLAY, 0], 'refused 0x0D', service=service)
# Other writes, and another client, which is not subscribed to 18 of the generic service.
write(LEFT, 8, [1], 'done', 'Paused 3 1 0 | 1 0 0', service=NAMED)
control(RIGHT, PAUSE, 'Paused 3 0 0 | 1 0 4000', '', service=GENERIC)
control(RIGHT, STOP, 'Paused 3 1 0 | 1 0 0', 'right 18', service=NAMED)
# One result per take; the round goes on to the 18 of the other service.
take_generic('left 18 01 01')
take_named('right 18 05 01')
# There is room in the generic service, and none in the other.
write(LEFT, 18, [PLAY], 'refused 0x11', service=NAMED)
control(LEFT, PLAY, 'Playing 3 0 0 | 1 0 4000', 'left 18', service=GENERIC)
write(LEFT, 18, [PLAY], 'refused 0x11', service=GENERIC)
take_named('left 18 04 01')
write(LEFT, 18, [PLAY], 'refused 0x11', service=GENERIC)
control(LEFT, PLAY, 'Playing 3 1 0 | 1 0 0', 'left 18', service=NAMED)
write(LEFT, 18, [PLAY], 'refused 0x11', service=NAMED)
take_generic('left 18 21 01')
take_named('left 18 31 01')
take_generic('left 18 21 01')
take_named('left 18 31 01')
take_generic('left 18 30 04')
take_named('left 18 31 04')
take_generic('left 18 77 02')
take_named('left 18 41 01')
seen_in_both(('23: 18; 18; 4', '24:;; 0', '-', '-'), ('23: 18; 18; 4', '24: 18;; 0', '-', '-'))
take_generic('left 18 22 01')
take_named('left 18 88 02')
take_generic('left 18 05 01')
take_named('left 18 02 01')
take_generic('left 18 23 01')
take_named('left 18 42 01')
take_generic('left 18 01 01')
take_named('left 18 01 01')
take('nothing')

case('results of one service are dropped by unsubscribing from it')
desks('18 / 18')
for service in SERVICES:
    for opcode in range(0x50, 0x58):
        control(LEFT, opcode, 'Paused 3 0 0 | 1 0 0', 'left 18', service=service)
unsubscribe(LEFT, 18, 'done', service=NAMED)
seen_in_both(('23: 18; 18; 8', '-', '-', '-'), ('23:;; 0', '-', '-', '-'))
# Without a subscription no result waits, so there is room; the eight of the other one stay.
control(LEFT, 0x58, 'Paused 3 0 0 | 1 0 0', '', service=NAMED)
write(LEFT, 18, [0x58], 'refused 0x11', service=GENERIC)
subscribe(LEFT, 18, 'done', service=NAMED)
control(LEFT, 0x59, 'Paused 3 0 0 | 1 0 0', 'left 18', service=NAMED)
take_generic('left 18 50 02')
take_named('left 18 59 02')
for opcode in range(0x51, 0x58):
    take_generic('left 18 %02x 02' % opcode)
take('nothing')


# ---- Connect and disconnect act on both services (SCOPE 17.9).

case('connecting and disconnecting in both services')
start(b'Desk', ALL, 7, 'done', 'Inactive 3 0 0 | 0 0 0', beside=(b'Aula', ALL, 9))
for service in SERVICES:
    read(LEFT, 1, 0, 'refused 203', service=service)
    subscribe(LEFT, 1, 'refused 203', service=service)
connect(LEFT, 23, ENCRYPTED, 'done')
connect(LEFT, 23, ENCRYPTED, 'refused 204')
seen_in_both(('23:;; 0', '-', '-', '-'), ('23:;; 0', '-', '-', '-'))
for service in SERVICES:
    for characteristic in (1, 17, 18):
        subscribe(LEFT, characteristic, 'done', service=service)
    read(LEFT, 1, 0, 'read 44 65 73 6b' if service == GENERIC else 'read 41 75 6c 61', service=service)
    control(LEFT, PLAY, 'Inactive 3 0 0 | 0 0 0', 'left 18', service=service)
    set_name(b'A', 'done', 'left 1', service=service)
seen_in_both(('23: 1 17 18; 1 18; 1', '-', '-', '-'), ('23: 1 17 18; 1 18; 1', '-', '-', '-'))
disconnect(LEFT, 'done')
seen_in_both(('-', '-', '-', '-'), ('-', '-', '-', '-'))
disconnect(LEFT, 'refused 203')
take('nothing')
for service in SERVICES:
    write(LEFT, 18, [PLAY], 'refused 203', service=service)
connect(LEFT, 100, ENCRYPTED, 'done')
seen_in_both(('100:;; 0', '-', '-', '-'), ('100:;; 0', '-', '-', '-'))
take('nothing')
for service in SERVICES:
    read(LEFT, 1, 1, 'refused 0x80', service=service)
    set_name(b'B', 'done', service=service)
    control(LEFT, PLAY, 'Inactive 3 0 0 | 0 0 0', '', service=service)
take('nothing')
# A read, write, subscribe or unsubscribe by a client that is connected unencrypted (SCOPE 20.2).
disconnect(LEFT, 'done')
connect(LEFT, 517, OPEN, 'done')
seen_in_both(('517:;; 0', '-', '-', '-'), ('517:;; 0', '-', '-', '-'))
for service in SERVICES:
    read(LEFT, 1, 0, 'refused 0x0F', service=service)
    write(LEFT, 18, [PLAY], 'refused 0x0F', service=service)
    subscribe(LEFT, 17, 'refused 0x0F', service=service)
    unsubscribe(LEFT, 17, 'refused 0x0F', service=service)

# Connect sets that client's round to the lowest place, and nothing else (SCOPE 17.8): place 0.
case('the round of the places after connecting')
desks('1 / 1 17')
set_name(b'A', 'done', 'left 1', service=GENERIC)
set_name(b'B', 'done', 'left 1', service=NAMED)
take_generic('left 1 41')
take_named('left 1 42')
# Place 14 was served last: 26 comes next, then 0 and 14.
set_name(b'C', 'done', 'left 1', service=GENERIC)
set_name(b'D', 'done', 'left 1', service=NAMED)
control(LEFT, PLAY, 'Playing 3 0 0 | 1 0 0', 'left 17', service=NAMED)
take_named('left 17 01')
take_generic('left 1 43')
take_named('left 1 44')
take('nothing')
disconnect(LEFT, 'done')
connect(LEFT, 23, ENCRYPTED, 'done')
subscribe(LEFT, 17, 'done', service=NAMED)
subscribe(LEFT, 1, 'done', service=NAMED)
subscribe(LEFT, 1, 'done', service=GENERIC)
control(LEFT, PAUSE, 'Paused 3 0 0 | 1 0 0', 'left 17', service=NAMED)
set_name(b'E', 'done', 'left 1', service=NAMED)
set_name(b'F', 'done', 'left 1', service=GENERIC)
take_generic('left 1 46')
take_named('left 1 45')
take_named('left 17 02')
take('nothing')

# The round of the clients stays where it stood, and the places of the others too.
case('the rounds of the others after connecting')
desks('/ 1', '/ 1', None, '1 / 1')
set_name(b'A', 'done', 'left 1; right 1; screen 1', service=NAMED)
take_named('left 1 41')
take_named('right 1 41')
take_named('screen 1 41')
set_name(b'B', 'done', 'left 1; right 1; screen 1', service=NAMED)
take_named('left 1 42')
disconnect(LEFT, 'done')
connect(LEFT, 23, ENCRYPTED, 'done')
subscribe(LEFT, 1, 'done', service=GENERIC)
set_name(b'C', 'done', 'left 1; screen 1', service=GENERIC)
take_named('right 1 42')
take_generic('screen 1 43')
take_generic('left 1 43')
take_named('screen 1 42')
take('nothing')


# ---- Only the order of takes is shared: a client's round runs through the slots of service 0 and then those of service 1, 28 places (SCOPE 17.4, 19.3)

case('the edges between the services')
desks('1 18 / 1 18')
# From place 13 to 14: the named player's name before the generic service's.
control(LEFT, PLAY, 'Playing 3 0 0 | 1 0 0', 'left 18', service=GENERIC)
take_generic('left 18 01 01')
set_name(b'A', 'done', 'left 1', service=GENERIC)
set_name(b'B', 'done', 'left 1', service=NAMED)
take_named('left 1 42')
take_generic('left 1 41')
# From place 27 to 0: the generic service's name before the named player's.
control(LEFT, PLAY, 'Playing 3 0 0 | 1 0 0', 'left 18', service=NAMED)
take_named('left 18 01 01')
set_name(b'C', 'done', 'left 1', service=GENERIC)
set_name(b'D', 'done', 'left 1', service=NAMED)
take_generic('left 1 43')
take_named('left 1 44')
take('nothing')
# Two results wait at 27: place 0 comes between them.
control(LEFT, PAUSE, 'Paused 3 0 0 | 1 0 0', 'left 18', service=NAMED)
control(LEFT, STOP, 'Paused 3 0 0 | 1 0 0', 'left 18', service=NAMED)
set_name(b'E', 'done', 'left 1', service=GENERIC)
take_named('left 18 02 01')
take_generic('left 1 45')
take_named('left 18 05 01')
take('nothing')

# What was served last comes last, when it is owed again.
case('the place that was served last')
desks('7 / 7')
write(LEFT, 7, word(1), 'done', 'Paused 3 0 0 | 1 0 1', 'left 7', service=NAMED)
take_named('left 7 01 00 00 00')
write(LEFT, 7, word(2), 'done', 'Paused 3 0 0 | 1 0 2', 'left 7', service=NAMED)
take_named('left 7 02 00 00 00')
write(LEFT, 7, word(3), 'done', 'Paused 3 0 0 | 1 0 3', 'left 7', service=NAMED)
write(LEFT, 7, word(4), 'done', 'Paused 3 0 0 | 1 0 4', 'left 7', service=GENERIC)
take_generic('left 7 04 00 00 00')
write(LEFT, 7, word(5), 'done', 'Paused 3 0 0 | 1 0 5', 'left 7', service=GENERIC)
take_named('left 7 03 00 00 00')
take_generic('left 7 05 00 00 00')
take('nothing')

# A client is owed something when either service owes it something.
case('the round of the clients through both services')
desks('/ 1', '1', '/ 1', '1 / 1')
set_name(b'A', 'done', 'left 1; headset 1; screen 1', service=NAMED)
set_name(b'B', 'done', 'right 1; screen 1', service=GENERIC)
take_named('left 1 41')
take_generic('right 1 42')
take_named('headset 1 41')
take_generic('screen 1 42')
# The screen is owed one more; the round comes to it again behind the others, who are owed nothing.
take_named('screen 1 41')
take('nothing')
set_name(b'C', 'done', 'right 1; screen 1', service=GENERIC)
take_generic('right 1 43')
# A service's call between takes leaves the round of the clients where it stood.
set_name(b'D', 'done', 'left 1; headset 1; screen 1', service=NAMED)
take_named('headset 1 44')
take_generic('screen 1 43')
take_named('left 1 44')
take_named('screen 1 44')
take('nothing')

# The left pedal has places 0, 12, 14 and 26; the headset 1, 4, 16 and 27; the screen 13, 15 and 20.
case('a longer run of takes')
desks('1 17 / 1 17', None, '4 7 / 5 18', '18 / 4 9')
set_name(b'A', 'done', 'left 1', service=GENERIC)
set_name(b'B', 'done', 'left 1', service=NAMED)
control(SCREEN, NEXT_TRACK, 'Paused 3 0 0 | 1 1 0', 'headset 4 7; screen 18', service=GENERIC)
control(HEADSET, FORWARD, 'Seeking 3 0 4 | 1 0 0', 'left 17; headset 18; screen 9', service=NAMED)
control(LEFT, NEXT_TRACK, 'Playing 3 0 0 | 1 1 0', 'left 17; headset 5; screen 4 9', service=NAMED)
seen_in_both(('23: 1 17; 1; 0', '-', '64: 4 7; 4 7; 0', '517: 18; 18; 1'), ('23: 1 17; 1 17; 0', '-', '64: 5 18; 5 18; 1', '517: 4 9; 4 9; 0'))
take_generic('left 1 41')
take_generic('headset 4')
take_generic('screen 18 31 01')
take_named('left 1 42')
take_generic('headset 7 00 00 00 00')
take_named('screen 4')
# The left pedal was served place 14 last, the headset 4, the screen 15. More falls due on both sides of these.
set_name(b'C', 'done', 'left 1', service=GENERIC)
control(SCREEN, PREVIOUS_TRACK, 'Paused 3 0 0 | 1 0 0', 'headset 4 7; screen 18', service=GENERIC)
control(HEADSET, NEXT_TRACK, 'Playing 3 0 0 | 1 2 0', 'headset 5 18; screen 4', service=NAMED)
seen_in_both(('23: 1 17; 1; 0', '-', '64: 4 7; 4 7; 0', '517: 18; 18; 1'), ('23: 1 17; 17; 0', '-', '64: 5 18; 5 18; 2', '517: 4 9; 4 9; 0'))
take_named('left 17 01')
# The title of track 2 is empty.
take_named('headset 5')
take_named('screen 9 00')
# From 26 to 0; to 27; from 20 to 13.
take_generic('left 1 43')
take_named('headset 18 04 01')
take_generic('screen 18 30 01')
# The left pedal is owed nothing more. From 27 to 1, with a second result waiting.
take_generic('headset 4')
take_named('screen 4')
take_generic('headset 7 00 00 00 00')
take_named('headset 18 31 01')
take('nothing')

# The left pedal has places 12, 13, 26 and 27; the right one 5 and 25; the headset 4 and 18; the screen 0, 1, 14 and 15.
case('a longer run of takes that begins in the named player')
desks('17 18 / 17 18', '8 / 15', '7 / 7', '1 4 / 1 4')
set_name(b'N', 'done', 'screen 1', service=NAMED)
control(LEFT, PLAY, 'Playing 3 0 0 | 1 0 0', 'left 17 18', service=NAMED)
write(SCREEN, 15, [5], 'done', 'Playing 5 0 0 | 1 0 0', 'right 15', service=NAMED)
write(LEFT, 7, word(1500), 'done', 'Playing 5 0 0 | 1 0 1500', 'headset 7', service=NAMED)
take_named('left 17 01')
take_named('right 15 05')
take_named('headset 7 dc 05 00 00')
take_named('screen 1 4e')
# The marks stand at 26, 25, 18 and 14. Now the generic service, and behind it the end of track 0, the last in order 5, in the other.
control(LEFT, PLAY, 'Playing 3 0 0 | 1 0 0', 'left 17 18', service=GENERIC)
write(SCREEN, 8, [0x20], 'done', 'Playing 3 32 0 | 1 0 0', 'right 8', service=GENERIC)
write(RIGHT, 7, word(-1), 'done', 'Playing 3 32 0 | 1 0 5999', 'headset 7', service=GENERIC)
set_name(b'G', 'done', 'screen 1', service=GENERIC)
# At a speed above 0 a step of 1 is more than 1 (SCOPE 13.2).
advance(1, 'done', 'Playing 3 32 0 | 1 1 0', 'headset 7; screen 4', service=GENERIC)
advance(4500, 'done', 'Paused 5 0 0 | 1 0 6000', 'left 17; headset 7', service=NAMED)
set_name(b'P', 'done', 'screen 1', service=NAMED)
seen_in_both(('23: 17 18; 17 18; 1', '24: 8; 8; 0', '64: 7; 7; 0', '517: 1 4; 1 4; 0'),
             ('23: 17 18; 17 18; 1', '24: 15;; 0', '64: 7; 7; 0', '517: 1 4; 1; 0'))
take_named('left 18 01 01')
take_generic('right 8 20')
take_generic('headset 7 00 00 00 00')
take_generic('screen 1 47')
# From 27 to 12.
take_generic('left 17 01')
take_named('headset 7 70 17 00 00')
take_generic('screen 4')
take_generic('left 18 01 01')
# The right pedal and the headset are owed nothing more.
take_named('screen 1 50')
take_named('left 17 02')
take('nothing')

# Unsubscribing and disconnecting between takes: what is dropped is passed over, and the rounds stay.
case('a longer run of takes while subscriptions and clients go')
desks('1 5 / 1 5', '1 5 / 1 5', '1 5 / 1 5')
for service, name in ((NAMED, b'A'), (GENERIC, b'B')):
    set_name(name, 'done', 'left 1; right 1; headset 1', service=service)
    control(LEFT, NEXT_TRACK, 'Paused 3 0 0 | 1 1 0', 'left 5; right 5; headset 5', service=service)
take_generic('left 1 42')
take_generic('right 1 42')
take_generic('headset 1 42')
# Place 2 is dropped for the left pedal, 14 and 16 for the right one.
unsubscribe(LEFT, 5, 'done', service=GENERIC)
unsubscribe(RIGHT, 1, 'done', service=NAMED)
unsubscribe(RIGHT, 5, 'done', service=NAMED)
seen_in_both(('23: 1;; 0', '24: 1 5; 5; 0', '64: 1 5; 5; 0', '-'), ('23: 1 5; 1 5; 0', '24:;; 0', '64: 1 5; 1 5; 0', '-'))
take_named('left 1 41')
take_generic('right 5' + octets(RAST))
take_generic('headset 5' + octets(RAST))
take_named('left 5' + octets(RAST))
# The right pedal is owed nothing more, the headset goes.
disconnect(HEADSET, 'done')
seen_in_both(('23: 1;; 0', '24: 1 5;; 0', '-', '-'), ('23: 1 5;; 0', '24:;; 0', '-', '-'))
take('nothing')
connect(HEADSET, 64, ENCRYPTED, 'done')
subscribe(HEADSET, 5, 'done', service=NAMED)
control(RIGHT, PREVIOUS_TRACK, 'Paused 3 0 0 | 1 0 0', 'left 5; headset 5', service=NAMED)
control(RIGHT, PREVIOUS_TRACK, 'Paused 3 0 0 | 1 0 0', 'right 5', service=GENERIC)
# The left pedal was served last.
take_generic('right 5' + octets(UEBERFAHRT))
take_named('headset 5' + octets(UEBERFAHRT))
take_named('left 5' + octets(UEBERFAHRT))
take('nothing')

# A client has 28 places, and the bound is 112 (SCOPE 19.3, 21.4): a value is handed out by the 112th answered take from when it fell due. Here the left
# pedal's result of the named player comes with the 112th, and no sooner.
case('the hundred and twelfth take')
start(b'A', ALL, 7, 'done', 'Inactive 3 0 0 | 0 0 0', beside=(b'A', ALL, 9))
subscribe_to_all(SERVICES)
# The left pedal is served 18 of the named player, so that both rounds go on behind it.
control(LEFT, PLAY, 'Inactive 3 0 0 | 0 0 0', 'left 18', service=NAMED)
take_named('left 18 01 03')
for service, name in ((NAMED, b'N'), (GENERIC, b'G')):
    on(service)
    every_slot_falls_due(name)
on(GENERIC)
seen_in_both(['23: %s; %s; 1' % (EVERY, EVERY)] * 4, ['23: %s; %s; 1' % (EVERY, EVERY)] * 4)
handed_out = []
for service, name in ((GENERIC, b'G'), (NAMED, b'N')):
    for served in every_slot(name):
        for who in ('right', 'headset', 'screen', 'left'):
            take('%s %s' % (who, served), service=service)
            handed_out.append((who, service, served.split()[0]))
assert handed_out.index(('left', NAMED, '18')) == 111
take('nothing')


# ---- 201 looks at both players and at all records, in every call.

case('a wrong player in one service')
desks('1 17 18 / 1 17 18')
set_name(b'Hall', 'done', 'left 1', service=NAMED)
for service in (NAMED, GENERIC):
    for part, number, state, right in WRONG_PLAYERS:
        damage(part, number, state=state, service=service)
        for each in SERVICES:
            advance(10, 'refused 201', service=each)
            read(LEFT, 22, 0, 'refused 201', service=each)
        take('refused 201')
        damage(part, right, state='Paused 3 0 0 | 1 0 0', service=service)
        disconnect(RIGHT, 'refused 203')
# Every call, to either service.
damage(PLACE, 6001, state='Paused 3 0 0 | 1 0 6001', service=NAMED)
for service in SERVICES:
    on(service)
    set_name(b'B', 'refused 201')
    set_name(b'\xFF', 'refused 201')
    the_others_refuse_the_state()
on(GENERIC)
read(LEFT, 1, 0, 'refused 205', 127)
take('refused 205', 127)
connect(4, 22, ENCRYPTED, 'refused 201')
disconnect(4, 'refused 201')
# Start takes no state (SCOPE 17.6), and both names are told.
start(b'Desk', ALL, 7, 'refused 207 1', beside=(b'a\xFF', ALL, 9))
damage(PLACE, 0, state='Paused 3 0 0 | 1 0 0', service=NAMED)
take_named('left 1 48 61 6c 6c')
take('nothing')
damage(PLACE, 6001, state='Paused 3 0 0 | 1 0 6001', service=NAMED)
start(b'Desk', ALL, 7, 'done', 'Inactive 3 0 0 | 0 0 0', beside=(b'Aula', ALL, 9))
take('nothing')

# Two results wait and 17 is owed in the named player; the record in the generic service is right.
case('a wrong record in the named player')
desks('17 18 / 17 18')
control(LEFT, PLAY, 'Playing 3 0 0 | 1 0 0', 'left 17 18', service=NAMED)
control(LEFT, PAUSE, 'Paused 3 0 0 | 1 0 0', 'left 17 18', service=NAMED)
for part, number, shows, right in (
        # Over 8 results, or a result code that is not 1 to 4 (SCOPE 20.5).
        (WAITING, 9, '23: 17 18; 17 18; 9', 2),
        (WAITING, LONGEST, '23: 17 18; 17 18; 4294967295', 2),
        (CODE, 0, None, 1),
        (CODE, 5, None, 1),
        (CODE, 0x1FF, None, 0x101),
        # A slot is owed but not subscribed (SCOPE 20.5).
        (OWED, slots(7, 17, 18), '23: 17 18; 7 17 18; 2', slots(17, 18)),
        (SUBSCRIBED, slots(18), '23: 18; 17 18; 2', slots(17, 18)),
        # 18 is owed otherwise than when results wait (SCOPE 20.5).
        (OWED, slots(17), '23: 17 18; 17; 2', slots(17, 18)),
        (WAITING, 0, '23: 17 18; 17 18; 0', 2),
        # Bits outside the fourteen slots, the next service's among them, and marks of what cannot be read.
        (OWED, slots(17, 18) | 1 << 14, '23: 17 18; 17 18 +; 2', slots(17, 18)),
        (SUBSCRIBED, slots(17, 18) | 1 << 14, '23: 17 18 +; 17 18; 2', slots(17, 18)),
        (SUBSCRIBED, slots(17, 18) | slots(17, 18) << 14, '23: 17 18 +; 17 18; 2', slots(17, 18)),
        (FRESH, 1 << 4, None, 0),
        (FRESH, 1 << 18, None, 0),
        (FRESH, 1 << 31, None, 0)):
    damage(part, number, LEFT, shows, service=NAMED)
    take('refused 201')
    read(LEFT, 22, 0, 'refused 201', service=GENERIC)
    advance(1, 'refused 201', service=GENERIC)
    write(LEFT, 15, [4], 'refused 201', service=NAMED)
    connect(RIGHT, 23, ENCRYPTED, 'refused 201')
    damage(part, right, LEFT, service=NAMED)
    disconnect(RIGHT, 'refused 203')
# The third place holds no result yet, so its code says nothing.
damage(CODE, 0x207, LEFT, service=NAMED)
take_named('left 17 02')
take_named('left 18 01 01')
take_named('left 18 02 01')
take('nothing')
# Results that wait in one service are none of the other.
control(LEFT, PLAY, 'Playing 3 0 0 | 1 0 0', 'left 17 18', service=GENERIC)
damage(OWED, slots(18), LEFT, '23: 17 18; 18; 0', service=NAMED)
take('refused 201')
damage(OWED, slots(), LEFT, service=NAMED)
take_generic('left 17 01')
take_generic('left 18 01 01')
take('nothing')

# The place of the round is none of the 28 (SCOPE 20.5).
case('the last mark of a round')
desks('1 / 1 18')
set_name(b'A', 'done', 'left 1', service=GENERIC)
set_name(b'B', 'done', 'left 1', service=NAMED)
control(LEFT, PLAY, 'Playing 3 0 0 | 1 0 0', 'left 18', service=NAMED)
for mark in (28, 29, 41, 42, 56, 255, LONGEST):
    damage(MARK, mark, LEFT)
    take('refused 201')
    set_name(b'C', 'refused 201', service=GENERIC)
    set_name(b'C', 'refused 201', service=NAMED)
damage(MARK, 27, LEFT)
take_generic('left 1 41')
# A mark of 14: 27 comes next, and 14 behind it.
damage(MARK, 14, LEFT)
take_named('left 18 01 01')
damage(MARK, 26, LEFT)
take_named('left 1 42')
take('nothing')

# A client that is not connected and does not have start's record, an ATT_MTU that is not 23 to 517, and a subscription while unencrypted (SCOPE 20.5), in a
# record that is right in the generic service.
case('a wrong record of a client in the named player alone')
desks('17 / 17', None, '/ 17', '')
for part, wrong in ((SUBSCRIBED, slots(1)), (SUBSCRIBED, slots(18)), (OWED, slots(1)), (FRESH, 1 << 1), (WAITING, 1)):
    damage(part, wrong, RIGHT, service=NAMED)
    take('refused 201')
    for service in SERVICES:
        read(LEFT, 22, 0, 'refused 201', service=service)
    connect(RIGHT, 23, ENCRYPTED, 'refused 201')
    disconnect(RIGHT, 'refused 201')
    damage(part, 0, RIGHT, service=NAMED)
    disconnect(RIGHT, 'refused 203')
# Results that do not wait are dead there too.
damage(CODE, 7, RIGHT, service=NAMED)
take('nothing')
damage(ENCRYPTION, OPEN, HEADSET)
take('refused 201')
write(LEFT, 18, [PLAY], 'refused 201', service=GENERIC)
damage(ENCRYPTION, ENCRYPTED, HEADSET)
# Without a subscription in either service it is a client connected unencrypted, with one in the named player it is not.
damage(ENCRYPTION, OPEN, SCREEN)
take('nothing')
read(SCREEN, 1, 0, 'refused 0x0F', service=NAMED)
damage(SUBSCRIBED, slots(17), SCREEN, '517: 17;; 0', service=NAMED)
take('refused 201')
read(SCREEN, 1, 0, 'refused 201', service=GENERIC)
damage(SUBSCRIBED, slots(), SCREEN, service=NAMED)
damage(MTU, 518, SCREEN, '518:;; 0', '518:;; 0')
take('refused 201')
damage(MTU, 517, SCREEN)
take('nothing')
# What a client that is connected holds in the named player alone is not start's.
damage(CONNECTED, 0, HEADSET, '-', '-')
take('refused 201')
damage(CONNECTED, 1, HEADSET)
take('nothing')
