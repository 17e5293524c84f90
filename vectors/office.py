"""The office's day: the calls of four clients over the sample catalogue (SCOPE 22.1), which vectors/script.py puts first.

Each call has its answer, the state of the player that it leaves and what falls due by it to whom beside it, worked out by hand from the rules that
docs/SCOPE.md has. vectors/calls.py says how they are written. All calls are to the generic service, and every line shows that nothing of the named player moves
by them.

A comment that names a rule, such as SCOPE 18.2, says it in a few words; docs/SCOPE.md has the rule.
"""
from calls import (
    ALL, BAD_AND_WRONG, BAD_TITLES, CODE, CONNECTED, CUT, ENCRYPTED, ENCRYPTION, FIRST_GROUP, FIRST_SEGMENT, FIRST_TRACK, FORWARD, FRESH, GENERIC,
    GOTO_GROUP, GOTO_SEGMENT, GOTO_TRACK, GROUP, HEADSET, LAST_GROUP, LAST_SEGMENT, LAST_TRACK, LEFT, LONG, LONGEST, MARK, MEDIA, MTU, NAME_FIRST,
    NAME_LENGTH, NEXT, NEXT_GROUP, NEXT_SEGMENT, NEXT_TRACK, OPEN, OWED, OWN_PARENT, PAUSE, PLACE, PLAY, PLAYING_ORDER, PREVIOUS_GROUP, PREVIOUS_SEGMENT,
    PREVIOUS_TRACK, RELATIVE, REST, REWIND, RIGHT, RUNNING, SAMPLE, SCREEN, SEEKING_SPEED, SERVICES, STOP, SUBSCRIBED, TRACK, TURN, WAITING,
    activate, advance, case, connect, control, damage, deactivate, disconnect, group_object, octets, read, seen, set_name, start, subscribe, take,
    track_object, unsubscribe, word, write,
)

# The slots of each service: what may be subscribed to, fourteen of them (SCOPE 16.2).
SLOTS = (1, 4, 5, 6, 7, 8, 9, 11, 12, 13, 14, 15, 17, 18)
# The characteristics (SCOPE 16.1): 1 name, 4 Track Changed, 5 title, 6 duration, 7 position, 8 playback speed, 9 seeking speed, 10 to 14 object numbers, 15
# playing order, 16 orders supported, 17 state, 18 control point, 19 opcodes supported, 22 Content Control ID.
EIGHTEEN = (1, 4, 5, 6, 7, 8, 9, 10, 11, 12, 13, 14, 15, 16, 17, 18, 19, 22)
OTHERS = (0, 2, 3, 20, 21, 23, 24, 33, 36, 39, 50, 128, 255)

UEBERFAHRT, RAST, ZIEL = 'Überfahrt'.encode(), b'Rast', b'Ziel'
# The title of tracks 0 and 1 of the catalogue with long titles, 64 octets; that of track 3 is it twice.
GESPRAECH = 'Gespräch über die Überfahrt, aufgenommen im Hafen, erste Spur'.encode()
# A name of 128 octets, whose umlaut stands at 20 and 21.
LONG_NAME = 'Schreibtisch 4, am Fünffenster, Kanzlei Aydin und Weber, Diktate vom Vormittag, bitte bis zum Abend abschreiben und gut ablegen'.encode()


def come(left=None, right=None, headset=None, screen=None):
    """Clients that are connected and subscribe, after that, to what is named: of the generic service and, behind a slash, of the named player."""
    for who, mtu, wanted in ((LEFT, 23, left), (RIGHT, 24, right), (HEADSET, 64, headset), (SCREEN, 517, screen)):
        if wanted is not None:
            connect(who, mtu, ENCRYPTED, 'done')
            for service, characteristics in zip(SERVICES, wanted.split('/')):
                for characteristic in map(int, characteristics.split()):
                    subscribe(who, characteristic, 'done', service=service)


def office(left=None, right=None, headset=None, screen=None, catalogue=SAMPLE):
    """A fresh desk, Paused at the start of track 0, and the clients that come."""
    start(b'Desk', ALL, 7, 'done', 'Inactive 3 0 0 | 0 0 0')
    activate(1, 'done', 'Paused 3 0 0 | 1 0 0', catalogue=catalogue)
    come(left, right, headset, screen)


EVERY = '1 4 5 6 7 8 9 11 12 13 14 15 17 18'


# ---- The day

case('the desk is switched on')
start(b'Desk 4', ALL, 7, 'done', 'Inactive 3 0 0 | 0 0 0')
# Where nothing is owed, the answer says so and nothing changes (SCOPE 19.5).
take('nothing')
advance(100, 'done', 'Inactive 3 0 0 | 0 0 0')

case('two pedals, a headset and a screen connect')
connect(LEFT, 23, ENCRYPTED, 'done')
connect(RIGHT, 23, ENCRYPTED, 'done')
connect(HEADSET, 64, ENCRYPTED, 'done')
connect(SCREEN, 517, ENCRYPTED, 'done')
subscribe(LEFT, 17, 'done')
subscribe(LEFT, 18, 'done')
# Subscribing twice changes nothing (SCOPE 17.10).
subscribe(LEFT, 17, 'done')
subscribe(RIGHT, 8, 'done')
subscribe(RIGHT, 15, 'done')
subscribe(RIGHT, 18, 'done')
subscribe(HEADSET, 4, 'done')
subscribe(HEADSET, 5, 'done')
subscribe(HEADSET, 7, 'done')
for characteristic in SLOTS:
    subscribe(SCREEN, characteristic, 'done')
seen('23: 17 18;; 0', '23: 8 15 18;; 0', '64: 4 5 7;; 0', '517: 1 4 5 6 7 8 9 11 12 13 14 15 17 18;; 0')
take('nothing')

# While Inactive the title is empty, duration and position read −1 (SCOPE 16.3, 16.4); 16 reads 0x00FF (SCOPE 16.7).
case('the screen reads all it may while Inactive')
read(SCREEN, 1, 0, 'read 44 65 73 6b 20 34')
read(SCREEN, 5, 0, 'read')
read(SCREEN, 6, 0, 'read ff ff ff ff')
read(SCREEN, 7, 0, 'read ff ff ff ff')
read(SCREEN, 8, 0, 'read 00')
read(SCREEN, 9, 0, 'read 00')
# 10 to 14 are six octets, or none while Inactive (SCOPE 16.5).
read(SCREEN, 10, 0, 'read')
read(SCREEN, 11, 0, 'read')
read(SCREEN, 12, 0, 'read')
read(SCREEN, 13, 0, 'read')
read(SCREEN, 14, 0, 'read')
read(SCREEN, 15, 0, 'read 03')
read(SCREEN, 16, 0, 'read ff 00')
read(SCREEN, 17, 0, 'read 00')
read(SCREEN, 19, 0, 'read ff ff 1f 00')
read(SCREEN, 22, 0, 'read 07')

case('a pedal is pressed too early')
control(LEFT, PLAY, 'Inactive 3 0 0 | 0 0 0', 'left 18')
take('left 18 01 03')
take('nothing')

# 8 and 15 are not owed to the client that wrote them (SCOPE 18.4). The right pedal wants 15 too.
case('an order is chosen while Inactive')
write(RIGHT, 15, [4], 'done', 'Inactive 4 0 0 | 0 0 0', 'screen 15')
take('screen 15 04')
write(RIGHT, 15, [3], 'done', 'Inactive 3 0 0 | 0 0 0', 'screen 15')
take('screen 15 03')
# While Inactive a position write is accepted and alters nothing (SCOPE 9.9).
write(RIGHT, 7, word(1500), 'done', 'Inactive 3 0 0 | 0 0 0')
take('nothing')

# Activate goes to the group's first track in the order, at position 0, Paused (SCOPE 8.9); 4 and 7 are owed whenever the track number changes, to or from
# none too (SCOPE 18.2); slots 11 to 14 are owed on change (SCOPE 18.1).
case('an interview is put on')
activate(1, 'done', 'Paused 3 0 0 | 1 0 0', 'left 17; headset 4 5 7; screen 4 5 6 7 11 12 13 14 17')
seen('23: 17 18; 17; 0', '23: 8 15 18;; 0', '64: 4 5 7; 4 5 7; 0', '517: 1 4 5 6 7 8 9 11 12 13 14 15 17 18; 4 5 6 7 11 12 13 14 17; 0')
# The screen was last served, and 15 of its slots: the round of clients goes on at 0, that of its slots at 17.
take('left 17 02')
take('headset 4')
take('screen 17 02')
take('headset 5' + octets(UEBERFAHRT))
take('screen 4')
take('headset 7 00 00 00 00')
take('screen 5 c3 9c 62 65 72 66 61 68 72 74')
take('screen 6 70 17 00 00')
take('screen 7 00 00 00 00')
# Track 0, and track 1 behind it; group 0, which is the parent of group 1.
take('screen 11 00 10 00 00 00 00')
take('screen 12 01 10 00 00 00 00')
take('screen 13 00 20 00 00 00 00')
take('screen 14 01 20 00 00 00 00')
take('nothing')
read(SCREEN, 5, 0, 'read c3 9c 62 65 72 66 61 68 72 74')

case('the left pedal plays')
control(LEFT, PLAY, 'Playing 3 0 0 | 1 0 0', 'left 17 18; screen 17')
# The left pedal was last served 17, the screen 14.
take('left 18 01 01')
take('screen 17 01')
take('left 17 01')
take('nothing')

# 7 is not owed when an advance in Playing stays below D (SCOPE 18.3).
case('the interview runs')
advance(500, 'done', 'Playing 3 0 0 | 1 0 500')
take('nothing')
read(HEADSET, 7, 0, 'read f4 01 00 00')
advance(1, 'done', 'Playing 3 0 0 | 1 0 501')
read(HEADSET, 7, 1, 'refused 0x80')
read(HEADSET, 7, 0, 'read f5 01 00 00')
read(HEADSET, 7, 2, 'read 00 00')
read(HEADSET, 7, 4, 'read')
read(HEADSET, 7, 5, 'refused 0x07')
take('nothing')

# Segment moves and Move Relative keep the state (SCOPE 10.9, 9.10).
case('both pedals are pressed')
control(RIGHT, NEXT_SEGMENT, 'Playing 3 0 0 | 1 0 1500', 'right 18; headset 7; screen 7')
control(LEFT, PAUSE, 'Paused 3 0 0 | 1 0 1500', 'left 17 18; screen 17')
take('right 18 21 01')
take('headset 7 dc 05 00 00')
take('screen 7 dc 05 00 00')
take('left 18 02 01')
take('screen 17 02')
take('left 17 02')
take('nothing')

# Results come oldest first: requested opcode and result, one for each accepted control write by a client subscribed to 18 at the time (SCOPE 18.7).
case('each pedal gets the results that it asked for')
control(LEFT, PLAY, 'Playing 3 0 0 | 1 0 1500', 'left 17 18; screen 17')
control(RIGHT, PREVIOUS_SEGMENT, 'Playing 3 0 0 | 1 0 0', 'right 18; headset 7; screen 7')
control(LEFT, GOTO_SEGMENT, 'Playing 3 0 0 | 1 0 4000', 'left 18; headset 7; screen 7', 3)
control(RIGHT, RELATIVE, 'Playing 3 0 0 | 1 0 3900', 'right 18; headset 7; screen 7', -100)
seen('23: 17 18; 17 18; 2', '23: 8 15 18; 18; 2', '64: 4 5 7; 7; 0', '517: 1 4 5 6 7 8 9 11 12 13 14 15 17 18; 7 17; 0')
take('right 18 20 01')
# What is handed out is the present value (SCOPE 19.4): 3900, and once for the three changes.
take('headset 7 3c 0f 00 00')
take('screen 7 3c 0f 00 00')
take('left 18 01 01')
take('right 18 10 01')
take('screen 17 01')
take('left 17 01')
take('left 18 24 01')
take('nothing')

# At D or beyond comes the next track at 0 or, where there is none, Paused at D (SCOPE 13.5).
case('the tracks of the group run out')
advance(2100, 'done', 'Playing 3 0 0 | 1 1 0', 'headset 4 5 7; screen 4 5 6 7 11 12')
take('headset 4')
take('screen 4')
take('headset 5 52 61 73 74')
take('screen 5 52 61 73 74')
take('headset 7 00 00 00 00')
take('screen 6 2c 01 00 00')
take('screen 7 00 00 00 00')
take('screen 11' + octets(track_object(1)))
take('screen 12' + octets(track_object(2)))
take('nothing')
advance(299, 'done', 'Playing 3 0 0 | 1 1 299')
take('nothing')
# No track is behind track 2.
advance(1, 'done', 'Playing 3 0 0 | 1 2 0', 'headset 4 5 7; screen 4 5 6 7 11 12')
# Track 2 has duration 0: nothing more is added, it ends, and it is the last.
advance(0, 'done', 'Paused 3 0 0 | 1 2 0', 'left 17; screen 17')
take('left 17 02')
take('headset 4')
take('screen 17 02')
take('headset 5')
take('screen 4')
take('headset 7 00 00 00 00')
take('screen 5')
take('screen 6 00 00 00 00')
take('screen 7 00 00 00 00')
take('screen 11' + octets(track_object(2)))
take('screen 12')
take('nothing')

# Past an end comes the other end in a repeat order, else result 4 (SCOPE 11.5).
case('the right pedal goes round')
control(RIGHT, NEXT_TRACK, 'Paused 3 0 0 | 1 2 0', 'right 18')
take('right 18 31 04')
# By the order alone track 0 is behind track 2 now.
write(RIGHT, 15, [4], 'done', 'Paused 4 0 0 | 1 2 0', 'screen 12 15')
control(RIGHT, NEXT_TRACK, 'Paused 4 0 0 | 1 0 0', 'right 18; headset 4 5 7; screen 4 5 6 7 11 12')
take('headset 4')
take('screen 15 04')
take('right 18 31 01')
take('headset 5' + octets(UEBERFAHRT))
take('screen 4')
take('headset 7 00 00 00 00')
take('screen 5' + octets(UEBERFAHRT))
take('screen 6 70 17 00 00')
take('screen 7 00 00 00 00')
take('screen 11' + octets(track_object(0)))
take('screen 12' + octets(track_object(1)))
take('nothing')

# Fast Forward enters Seeking at 4, Rewind at −4; while Seeking they go one rung up or down (SCOPE 9.6); Seeking adds d times the seeking speed (SCOPE 13.7).
case('the left pedal seeks')
control(LEFT, FORWARD, 'Seeking 4 0 4 | 1 0 0', 'left 17 18; screen 9 17')
control(LEFT, FORWARD, 'Seeking 4 0 8 | 1 0 0', 'left 18; screen 9')
advance(100, 'done', 'Seeking 4 0 8 | 1 0 800', 'headset 7; screen 7')
control(LEFT, REWIND, 'Seeking 4 0 4 | 1 0 800', 'left 18; screen 9')
control(LEFT, PLAY, 'Playing 4 0 0 | 1 0 800', 'left 17 18; screen 9 17')
seen('23: 17 18; 17 18; 4', '23: 8 15 18;; 0', '64: 4 5 7; 7; 0', '517: 1 4 5 6 7 8 9 11 12 13 14 15 17 18; 7 9 17; 0')
take('left 18 04 01')
take('headset 7 20 03 00 00')
# The screen was last served 12.
take('screen 17 01')
take('left 17 01')
take('screen 7 20 03 00 00')
take('left 18 04 01')
take('screen 9 00')
take('left 18 03 01')
take('left 18 01 01')
take('nothing')

# What is already owed stays owed, also when the client writes it (SCOPE 18.6).
case('the speed knob, and then the screen')
write(RIGHT, 8, [0x40], 'done', 'Playing 4 64 0 | 1 0 800', 'screen 8')
write(SCREEN, 8, [0xC0], 'done', 'Playing 4 -64 0 | 1 0 800', 'right 8')
take('right 8 c0')
take('screen 8 c0')
take('nothing')

# The writer of 7 is owed a change of it (SCOPE 18.5).
case('the slider of the screen')
write(SCREEN, 7, word(4500), 'done', 'Playing 4 -64 0 | 1 0 4500', 'headset 7; screen 7')
take('headset 7 94 11 00 00')
take('screen 7 94 11 00 00')
take('nothing')

case('the desk gets another name')
set_name(b'Desk 4, Aydin', 'done', 'screen 1')
# Nothing changes.
set_name(b'Desk 4, Aydin', 'done')
take('screen 1' + octets(b'Desk 4, Aydin'))
take('nothing')
read(LEFT, 1, 0, 'read' + octets(b'Desk 4, Aydin'))
read(LEFT, 1, 8, 'read 41 79 64 69 6e')

# Paused and Inactive, an advance changes nothing (SCOPE 13.8); disconnecting gives start's record (SCOPE 17.9).
case('the headset leaves for lunch')
control(LEFT, PAUSE, 'Paused 4 -64 0 | 1 0 4500', 'left 17 18; screen 17')
advance(1000, 'done', 'Paused 4 -64 0 | 1 0 4500')
# Track 3 is alone in group 3, and follows itself in order 4. The parent of group 3 is that of group 1.
control(RIGHT, NEXT_GROUP, 'Paused 4 -64 0 | 3 3 0', 'right 18; headset 4 5 7; screen 4 5 6 7 11 12 14')
seen('23: 17 18; 17 18; 1', '23: 8 15 18; 18; 1', '64: 4 5 7; 4 5 7; 0', '517: 1 4 5 6 7 8 9 11 12 13 14 15 17 18; 4 5 6 7 11 12 14 17; 0')
disconnect(HEADSET, 'done')
seen('23: 17 18; 17 18; 1', '23: 8 15 18; 18; 1', '-', '517: 1 4 5 6 7 8 9 11 12 13 14 15 17 18; 4 5 6 7 11 12 14 17; 0')
take('left 17 02')
take('right 18 41 01')
take('screen 4')
take('left 18 02 01')
take('screen 5 5a 69 65 6c')
take('screen 6 84 03 00 00')
take('screen 7 00 00 00 00')
take('screen 11' + octets(track_object(3)))
take('screen 12' + octets(track_object(3)))
take('screen 14' + octets(group_object(3)))
take('screen 17 02')
take('nothing')
read(HEADSET, 5, 0, 'refused 203')

# A read, write, subscribe or unsubscribe by a client that is connected unencrypted (SCOPE 20.2).
case('a visitor with a phone')
connect(HEADSET, 185, OPEN, 'done')
read(HEADSET, 1, 0, 'refused 0x0F')
write(HEADSET, 18, [PLAY], 'refused 0x0F')
subscribe(HEADSET, 17, 'refused 0x0F')
unsubscribe(HEADSET, 17, 'refused 0x0F')
set_name(b'Desk 4, Weber', 'done', 'screen 1')
seen('23: 17 18;; 0', '23: 8 15 18;; 0', '185:;; 0', '517: 1 4 5 6 7 8 9 11 12 13 14 15 17 18; 1; 0')
take('screen 1' + octets(b'Desk 4, Weber'))
take('nothing')
disconnect(HEADSET, 'done')

# Subscriptions that outlast a connection are left out (SCOPE 1.4).
case('the headset comes back')
connect(HEADSET, 64, ENCRYPTED, 'done')
control(LEFT, PLAY, 'Playing 4 -64 0 | 3 3 0', 'left 17 18; screen 17')
seen('23: 17 18; 17 18; 1', '23: 8 15 18;; 0', '64:;; 0', '517: 1 4 5 6 7 8 9 11 12 13 14 15 17 18; 17; 0')
take('left 17 01')
take('screen 17 01')
take('left 18 01 01')
take('nothing')
subscribe(HEADSET, 4, 'done')
subscribe(HEADSET, 5, 'done')
subscribe(HEADSET, 7, 'done')
# Speed p means 2 to the power p/64 (SCOPE 13.2). At half speed the 900 of track 3 take 1800. Order 4 in a group of one track: the next track is the same one,
# at 0 as before.
advance(1800, 'done', 'Playing 4 -64 0 | 3 3 0')
advance(201, 'done', 'Playing 4 -64 0 | 3 3 100+32768')
take('nothing')
# 100 and a half, and half of 1599.
advance(1599, 'done', 'Playing 4 -64 0 | 3 3 0', 'headset 7; screen 7')
take('headset 7 00 00 00 00')
take('screen 7 00 00 00 00')
take('nothing')

# Deactivate leaves the player Inactive; order and playback speed are kept (SCOPE 8.10).
case('the evening')
deactivate('done', 'Inactive 4 -64 0 | 0 0 0', 'left 17; headset 4 5 7; screen 4 5 6 7 11 12 13 14 17')
deactivate('done', 'Inactive 4 -64 0 | 0 0 0')
take('left 17 00')
take('headset 4')
# The screen was last served 7.
take('screen 11')
take('headset 5')
take('screen 12')
take('headset 7 ff ff ff ff')
take('screen 13')
take('screen 14')
take('screen 17 00')
take('screen 4')
take('screen 5')
take('screen 6 ff ff ff ff')
take('screen 7 ff ff ff ff')
take('nothing')
disconnect(LEFT, 'done')
disconnect(RIGHT, 'done')
disconnect(HEADSET, 'done')
disconnect(SCREEN, 'done')
seen('-', '-', '-', '-')
disconnect(SCREEN, 'refused 203')
take('nothing')


# ---- What is owed

# A slot is owed to a subscribed client when a call changes its value (SCOPE 18.1).
case('only who subscribed is owed')
office('1', '17', '', '1')
set_name(b'Desk 5', 'done', 'left 1; screen 1')
take('left 1 44 65 73 6b 20 35')
take('screen 1 44 65 73 6b 20 35')
take('nothing')
set_name(b'Desk 5', 'done')
take('nothing')

# 7 is not owed when an advance in Playing stays below D (SCOPE 18.3); it changes the value all the same.
case('a quiet advance')
office('7 18', screen='7')
control(LEFT, PLAY, 'Playing 3 0 0 | 1 0 0', 'left 18')
take('left 18 01 01')
read(SCREEN, 7, 0, 'read 00 00 00 00')
read(SCREEN, 7, 1, 'read 00 00 00')
advance(5999, 'done', 'Playing 3 0 0 | 1 0 5999')
take('nothing')
read(SCREEN, 7, 1, 'refused 0x80')
read(SCREEN, 7, 0, 'read 6f 17 00 00')
advance(0, 'done', 'Playing 3 0 0 | 1 0 5999')
read(SCREEN, 7, 1, 'read 17 00 00')
advance(1, 'done', 'Playing 3 0 0 | 1 1 0', 'left 7; screen 7')
take('screen 7 00 00 00 00')
take('left 7 00 00 00 00')
take('nothing')

case('what is owed is handed out as it is after a quiet advance')
office('7')
control(LEFT, PLAY, 'Playing 3 0 0 | 1 0 0', '')
write(LEFT, 7, word(100), 'done', 'Playing 3 0 0 | 1 0 100', 'left 7')
advance(50, 'done', 'Playing 3 0 0 | 1 0 150')
seen('23: 7; 7; 0', '-', '-', '-')
take('left 7 96 00 00 00')
take('nothing')

# Order 1 is the current track alone, once: where there is no next track, Paused at D (SCOPE 13.5).
case('the end of the last track')
office(screen='4 5 6 7 17')
write(SCREEN, 15, [1], 'done', 'Paused 1 0 0 | 1 0 0')
control(SCREEN, PLAY, 'Playing 1 0 0 | 1 0 0', 'screen 17')
take('screen 17 01')
advance(LONGEST, 'done', 'Paused 1 0 0 | 1 0 6000', 'screen 7 17')
take('screen 7 70 17 00 00')
take('screen 17 02')
control(SCREEN, PLAY, 'Playing 1 0 0 | 1 0 6000', 'screen 17')
take('screen 17 01')
# At D already: Paused where it is.
advance(0, 'done', 'Paused 1 0 0 | 1 0 6000', 'screen 17')
take('screen 17 02')
take('nothing')

# Order 2 is the current track alone, repeated: the track number stays.
case('a track that repeats itself')
office(screen='4 7')
write(SCREEN, 15, [2], 'done', 'Paused 2 0 0 | 1 0 0')
control(SCREEN, PLAY, 'Playing 2 0 0 | 1 0 0', '')
read(SCREEN, 7, 0, 'read 00 00 00 00')
advance(6000, 'done', 'Playing 2 0 0 | 1 0 0')
take('nothing')
read(SCREEN, 7, 3, 'read 00')
advance(1, 'done', 'Playing 2 0 0 | 1 0 1')
advance(5999, 'done', 'Playing 2 0 0 | 1 0 0', 'screen 7')
take('screen 7 00 00 00 00')
take('nothing')
# It counts as changed even if it changed back (SCOPE 17.14).
read(SCREEN, 7, 3, 'refused 0x80')

# 4 and 7 are owed whenever the track number changes, to or from none too (SCOPE 18.2). The position is 0 before and after, so its value has not changed.
case('a change of track')
office(screen='4 5 6 7 17')
read(SCREEN, 5, 0, 'read' + octets(UEBERFAHRT))
read(SCREEN, 7, 0, 'read 00 00 00 00')
control(SCREEN, NEXT_TRACK, 'Paused 3 0 0 | 1 1 0', 'screen 4 5 6 7')
read(SCREEN, 7, 1, 'read 00 00 00')
read(SCREEN, 5, 1, 'refused 0x80')
take('screen 4')
take('screen 5 52 61 73 74')
take('screen 6 2c 01 00 00')
take('screen 7 00 00 00 00')
take('nothing')
# 0 keeps the track, and the position becomes 0 (SCOPE 11.6, 11.7).
control(SCREEN, GOTO_TRACK, 'Paused 3 0 0 | 1 1 0', '', 0)
take('nothing')
write(SCREEN, 7, word(-1), 'done', 'Paused 3 0 0 | 1 1 299', 'screen 7')
control(SCREEN, GOTO_TRACK, 'Paused 3 0 0 | 1 1 0', 'screen 7', 0)
take('screen 7 00 00 00 00')
take('nothing')
deactivate('done', 'Inactive 3 0 0 | 0 0 0', 'screen 4 5 6 7 17')
take('screen 17 00')
take('screen 4')
take('screen 5')
take('screen 6 ff ff ff ff')
take('screen 7 ff ff ff ff')
take('nothing')
activate(3, 'done', 'Paused 3 0 0 | 3 3 0', 'screen 4 5 6 7 17')
activate(3, 'done', 'Paused 3 0 0 | 3 3 0')
take('screen 17 02')
take('screen 4')
take('screen 5 5a 69 65 6c')
take('screen 6 84 03 00 00')
take('screen 7 00 00 00 00')
take('nothing')

# Order 5 by rising stamp: group 1 is entered at track 1, Rast, and group 3 at its only one, Ziel, of as many octets.
case('another value of the same length')
office(screen='1 5 6')
write(SCREEN, 15, [5], 'done', 'Paused 5 0 0 | 1 0 0')
activate(1, 'done', 'Paused 5 0 0 | 1 1 0', 'screen 5 6')
take('screen 5 52 61 73 74')
take('screen 6 2c 01 00 00')
control(SCREEN, NEXT_GROUP, 'Paused 5 0 0 | 3 3 0', 'screen 5 6')
take('screen 5 5a 69 65 6c')
take('screen 6 84 03 00 00')
control(SCREEN, PREVIOUS_GROUP, 'Paused 5 0 0 | 1 1 0', 'screen 5 6')
take('screen 5 52 61 73 74')
take('screen 6 2c 01 00 00')
set_name(b'Dusk', 'done', 'screen 1')
take('screen 1 44 75 73 6b')
set_name(b'Desk', 'done', 'screen 1')
take('screen 1 44 65 73 6b')
set_name(b'Desi', 'done', 'screen 1')
take('screen 1 44 65 73 69')
set_name(b'Eesi', 'done', 'screen 1')
take('screen 1 45 65 73 69')
take('nothing')

# Tracks 0 and 1 have equal titles there.
case('an equal title on another track')
office(screen='4 5 6 7', catalogue=LONG)
read(SCREEN, 5, 0, 'read' + octets(GESPRAECH), catalogue=LONG)
control(SCREEN, NEXT_TRACK, 'Paused 3 0 0 | 1 1 0', 'screen 4 6 7', catalogue=LONG)
read(SCREEN, 5, 53, 'read' + octets(b' erste Spur'), catalogue=LONG)
take('screen 4', catalogue=LONG)
take('screen 6 2c 01 00 00', catalogue=LONG)
take('screen 7 00 00 00 00', catalogue=LONG)
take('nothing', catalogue=LONG)

# The title of track 2 is empty, and so is that of no track.
case('no track after an empty title')
office(screen='4 5 6 7 17')
control(SCREEN, LAST_TRACK, 'Paused 3 0 0 | 1 2 0', 'screen 4 5 6 7')
take('screen 4')
take('screen 5')
take('screen 6 00 00 00 00')
take('screen 7 00 00 00 00')
take('nothing')
read(SCREEN, 5, 0, 'read')
deactivate('done', 'Inactive 3 0 0 | 0 0 0', 'screen 4 6 7 17')
read(SCREEN, 5, 1, 'refused 0x07')
take('screen 17 00')
take('screen 4')
take('screen 6 ff ff ff ff')
take('screen 7 ff ff ff ff')
take('nothing')

# The sum is held to 0 and D (SCOPE 9.7); Seeking stays at the end rung (SCOPE 9.6).
case('seeking')
office(screen='7 9 17 18')
control(SCREEN, REWIND, 'Seeking 3 0 -4 | 1 0 0', 'screen 9 17 18')
take('screen 9 fc')
take('screen 17 03')
take('screen 18 03 01')
# At 0 already.
advance(10, 'done', 'Seeking 3 0 -4 | 1 0 0')
take('nothing')
control(SCREEN, REWIND, 'Seeking 3 0 -8 | 1 0 0', 'screen 9 18')
control(SCREEN, REWIND, 'Seeking 3 0 -16 | 1 0 0', 'screen 9 18')
control(SCREEN, REWIND, 'Seeking 3 0 -32 | 1 0 0', 'screen 9 18')
control(SCREEN, REWIND, 'Seeking 3 0 -32 | 1 0 0', 'screen 18')
take('screen 9 e0')
take('screen 18 03 01')
take('screen 18 03 01')
take('screen 18 03 01')
take('screen 18 03 01')
take('nothing')
write(SCREEN, 7, word(64), 'done', 'Seeking 3 0 -32 | 1 0 64', 'screen 7')
advance(1, 'done', 'Seeking 3 0 -32 | 1 0 32', 'screen 7')
take('screen 7 20 00 00 00')
take('nothing')
# Track and group moves turn Seeking into Playing (SCOPE 11.7, 12.3).
control(SCREEN, FIRST_TRACK, 'Playing 3 0 0 | 1 0 0', 'screen 7 9 17 18')
take('screen 9 00')
take('screen 17 01')
take('screen 18 32 01')
take('screen 7 00 00 00 00')
take('nothing')
# Stop gives Paused at 0 (SCOPE 9.5).
control(SCREEN, STOP, 'Paused 3 0 0 | 1 0 0', 'screen 17 18')
control(SCREEN, STOP, 'Paused 3 0 0 | 1 0 0', 'screen 18')
take('screen 17 02')
take('screen 18 05 01')
take('screen 18 05 01')
take('nothing')

# 8 and 15 are not owed to the client that wrote them (SCOPE 18.4).
case('the writer of a speed or an order')
office('8 15', '8 15', '8', '15')
write(LEFT, 8, [10], 'done', 'Paused 3 10 0 | 1 0 0', 'right 8; headset 8')
write(LEFT, 8, [10], 'done', 'Paused 3 10 0 | 1 0 0')
write(RIGHT, 15, [5], 'done', 'Paused 5 10 0 | 1 0 0', 'left 15; screen 15')
write(RIGHT, 15, [5], 'done', 'Paused 5 10 0 | 1 0 0')
seen('23: 8 15; 15; 0', '24: 8 15; 8; 0', '64: 8; 8; 0', '517: 15; 15; 0')
# The right pedal was owed 8 before it writes it.
write(RIGHT, 8, [20], 'done', 'Paused 5 20 0 | 1 0 0', 'left 8; headset 8')
write(LEFT, 15, [6], 'done', 'Paused 6 20 0 | 1 0 0', 'right 15; screen 15')
seen('23: 8 15; 8 15; 0', '24: 8 15; 8 15; 0', '64: 8; 8; 0', '517: 15; 15; 0')
take('left 8 14')
take('right 8 14')
take('headset 8 14')
take('screen 15 06')
take('left 15 06')
take('right 15 06')
take('nothing')
# The screen did not subscribe to 8.
write(SCREEN, 8, [0], 'done', 'Paused 6 0 0 | 1 0 0', 'left 8; right 8; headset 8')
take('headset 8 00')
take('left 8 00')
take('right 8 00')
take('nothing')

# The writer of 7 is owed a change of it (SCOPE 18.5), as the test suite expects, 4.6.2.
case('the writer of a position')
office('7', screen='7')
write(LEFT, 7, word(1000), 'done', 'Paused 3 0 0 | 1 0 1000', 'left 7; screen 7')
take('left 7 e8 03 00 00')
take('screen 7 e8 03 00 00')
write(LEFT, 7, word(1000), 'done', 'Paused 3 0 0 | 1 0 1000')
write(LEFT, 7, word(-5000), 'done', 'Paused 3 0 0 | 1 0 1000')
take('nothing')

# What is already owed stays owed until served or dropped, also when the value changes back or the client writes it (SCOPE 18.6).
case('a value that changes back')
office('17', screen='1 7 17')
set_name(b'Table', 'done', 'screen 1')
set_name(b'Desk', 'done', 'screen 1')
control(LEFT, PLAY, 'Playing 3 0 0 | 1 0 0', 'left 17; screen 17')
control(LEFT, PAUSE, 'Paused 3 0 0 | 1 0 0', 'left 17; screen 17')
write(SCREEN, 7, word(1), 'done', 'Paused 3 0 0 | 1 0 1', 'screen 7')
write(SCREEN, 7, word(0), 'done', 'Paused 3 0 0 | 1 0 0', 'screen 7')
take('left 17 02')
take('screen 1 44 65 73 6b')
take('screen 7 00 00 00 00')
take('screen 17 02')
take('nothing')

# Unsubscribing drops what the slot owes (SCOPE 17.11).
case('unsubscribing')
office('1 17')
set_name(b'Table', 'done', 'left 1')
control(LEFT, PLAY, 'Playing 3 0 0 | 1 0 0', 'left 17')
seen('23: 1 17; 1 17; 0', '-', '-', '-')
unsubscribe(LEFT, 1, 'done')
seen('23: 17; 17; 0', '-', '-', '-')
subscribe(LEFT, 1, 'done')
seen('23: 1 17; 17; 0', '-', '-', '-')
take('left 17 01')
take('nothing')
# What is not subscribed to.
unsubscribe(LEFT, 18, 'done')
unsubscribe(LEFT, 4, 'done')
# Subscribing twice changes nothing (SCOPE 17.10).
set_name(b'Desk', 'done', 'left 1')
subscribe(LEFT, 1, 'done')
take('left 1 44 65 73 6b')
take('nothing')

case('results are dropped by unsubscribing')
office('17 18', '18')
control(LEFT, PLAY, 'Playing 3 0 0 | 1 0 0', 'left 17 18')
control(RIGHT, NEXT_SEGMENT, 'Playing 3 0 0 | 1 0 1500', 'right 18')
control(LEFT, NEXT_SEGMENT, 'Playing 3 0 0 | 1 0 4000', 'left 18')
seen('23: 17 18; 17 18; 2', '24: 18; 18; 1', '-', '-')
unsubscribe(LEFT, 18, 'done')
seen('23: 17; 17; 0', '24: 18; 18; 1', '-', '-')
subscribe(LEFT, 18, 'done')
seen('23: 17 18; 17; 0', '24: 18; 18; 1', '-', '-')
control(LEFT, PAUSE, 'Paused 3 0 0 | 1 0 4000', 'left 17 18')
take('left 17 02')
take('right 18 21 01')
take('left 18 02 01')
take('nothing')

case('results are dropped by disconnecting')
office('18', '18')
control(LEFT, PLAY, 'Playing 3 0 0 | 1 0 0', 'left 18')
control(RIGHT, PAUSE, 'Paused 3 0 0 | 1 0 0', 'right 18')
disconnect(LEFT, 'done')
seen('-', '24: 18; 18; 1', '-', '-')
connect(LEFT, 23, ENCRYPTED, 'done')
subscribe(LEFT, 18, 'done')
take('right 18 02 01')
take('nothing')

# There is one result for each accepted control write by a client subscribed to 18 at the time (SCOPE 18.7).
case('a control write by a client that is not subscribed to 18')
office('17', '18')
control(LEFT, PLAY, 'Playing 3 0 0 | 1 0 0', 'left 17')
seen('23: 17; 17; 0', '24: 18;; 0', '-', '-')
subscribe(LEFT, 18, 'done')
take('left 17 01')
take('nothing')
control(LEFT, PAUSE, 'Paused 3 0 0 | 1 0 0', 'left 17 18')
take('left 18 02 01')
take('left 17 02')
take('nothing')

# Result 2 is for an opcode that is unknown or not in the mask, 3 while Inactive, 4 where it cannot be completed. The first result that applies is given, in
# the order 2, 3, 4, 1 (SCOPE 9.4); higher mask bits count as 0 (SCOPE 9.2).
case('results')
start(b'Desk', 0xFFFFFFFD, 9, 'done', 'Inactive 3 0 0 | 0 0 0')
connect(LEFT, 23, ENCRYPTED, 'done')
for characteristic in SLOTS:
    subscribe(LEFT, characteristic, 'done')
read(LEFT, 19, 0, 'read fd ff 1f 00')
read(LEFT, 22, 0, 'read 09')
control(LEFT, PLAY, 'Inactive 3 0 0 | 0 0 0', 'left 18')
take('left 18 01 03')
control(LEFT, PAUSE, 'Inactive 3 0 0 | 0 0 0', 'left 18')
take('left 18 02 02')
control(LEFT, 0x06, 'Inactive 3 0 0 | 0 0 0', 'left 18')
take('left 18 06 02')
control(LEFT, NEXT_TRACK, 'Inactive 3 0 0 | 0 0 0', 'left 18')
take('left 18 31 03')
control(LEFT, GOTO_GROUP, 'Inactive 3 0 0 | 0 0 0', 'left 18', 0)
take('left 18 44 03')
activate(1, 'done', 'Paused 3 0 0 | 1 0 0', 'left 4 5 6 7 11 12 13 14 17')
take('left 4')
take('left 5' + octets(UEBERFAHRT))
take('left 6 70 17 00 00')
take('left 7 00 00 00 00')
take('left 11' + octets(track_object(0)))
take('left 12' + octets(track_object(1)))
take('left 13' + octets(group_object(0)))
take('left 14' + octets(group_object(1)))
take('left 17 02')
# After results 2, 3 and 4 the player is as before (SCOPE 9.4).
control(LEFT, PAUSE, 'Paused 3 0 0 | 1 0 0', 'left 18')
take('left 18 02 02')
for opcode in (0x00, 0x0F, 0x11, 0x25, 0x35, 0x45, 0x81, 0xFF):
    control(LEFT, opcode, 'Paused 3 0 0 | 1 0 0', 'left 18')
    take('left 18 %02x 02' % opcode)
# Of an unknown opcode any length up to 5.
for length in (2, 3, 4, 5):
    write(LEFT, 18, [0x50] * length, 'done', 'Paused 3 0 0 | 1 0 0', 'left 18')
    take('left 18 50 02')
control(LEFT, PREVIOUS_TRACK, 'Paused 3 0 0 | 1 0 0', 'left 18')
take('left 18 30 04')
control(LEFT, GOTO_TRACK, 'Paused 3 0 0 | 1 0 0', 'left 18', 4)
take('left 18 34 04')
control(LEFT, GOTO_GROUP, 'Paused 3 0 0 | 1 0 0', 'left 18', 3)
take('left 18 44 04')
control(LEFT, PLAY, 'Playing 3 0 0 | 1 0 0', 'left 17 18')
take('left 17 01')
take('left 18 01 01')
take('nothing')

# Slot 18 holds up to 8 results, oldest first (SCOPE 18.7).
case('eight results')
office('17 18', '18')
control(LEFT, PLAY, 'Playing 3 0 0 | 1 0 0', 'left 17 18')
control(LEFT, NEXT_SEGMENT, 'Playing 3 0 0 | 1 0 1500', 'left 18')
control(LEFT, GOTO_SEGMENT, 'Playing 3 0 0 | 1 0 4000', 'left 18', -1)
control(LEFT, RELATIVE, 'Playing 3 0 0 | 1 0 4100', 'left 18', 100)
control(LEFT, PREVIOUS_TRACK, 'Playing 3 0 0 | 1 0 4100', 'left 18')
control(LEFT, 0x77, 'Playing 3 0 0 | 1 0 4100', 'left 18')
control(LEFT, FIRST_SEGMENT, 'Playing 3 0 0 | 1 0 0', 'left 18')
control(LEFT, PAUSE, 'Paused 3 0 0 | 1 0 0', 'left 17 18')
seen('23: 17 18; 17 18; 8', '24: 18;; 0', '-', '-')
# 0x11: a write to 18 by a client with 8 results waiting (SCOPE 20.2).
write(LEFT, 18, [PLAY], 'refused 0x11')
write(LEFT, 18, [0x77], 'refused 0x11')
write(LEFT, 18, [PREVIOUS_TRACK], 'refused 0x11')
# 0x0D before 0x11.
write(LEFT, 18, [], 'refused 0x0D')
write(LEFT, 18, [PLAY, 0], 'refused 0x0D')
write(LEFT, 18, [1, 2, 3, 4, 5, 6], 'refused 0x0D')
# Other writes, and other clients.
write(LEFT, 15, [9], 'refused 0x13')
write(LEFT, 15, [4], 'done', 'Paused 4 0 0 | 1 0 0')
write(LEFT, 8, [1], 'done', 'Paused 4 1 0 | 1 0 0')
write(LEFT, 7, word(7), 'done', 'Paused 4 1 0 | 1 0 7')
control(RIGHT, STOP, 'Paused 4 1 0 | 1 0 0', 'right 18')
take('left 17 02')
take('right 18 05 01')
take('left 18 01 01')
seen('23: 17 18; 18; 7', '24: 18;; 0', '-', '-')
control(LEFT, LAST_SEGMENT, 'Paused 4 1 0 | 1 0 4000', 'left 18')
write(LEFT, 18, [PLAY], 'refused 0x11')
take('left 18 21 01')
take('left 18 24 01')
take('left 18 10 01')
take('left 18 30 04')
take('left 18 77 02')
take('left 18 22 01')
take('left 18 02 01')
take('left 18 23 01')
take('nothing')


# 6 reads −1 (SCOPE 16.4), as it does while Inactive, so it does not change.
case('a recording that is still running is put on')
start(b'Desk', ALL, 7, 'done', 'Inactive 3 0 0 | 0 0 0', RUNNING)
connect(SCREEN, 517, ENCRYPTED, 'done')
for characteristic in SLOTS:
    subscribe(SCREEN, characteristic, 'done')
# Track 3 is alone in group 3, and in order 3 none follows it: 12 is empty before and after.
activate(3, 'done', 'Paused 3 0 0 | 3 3 0', 'screen 4 5 7 11 13 14 17', RUNNING)
read(SCREEN, 6, 0, 'read ff ff ff ff', catalogue=RUNNING)
take('screen 4', catalogue=RUNNING)
take('screen 5' + octets(ZIEL), catalogue=RUNNING)
take('screen 7 00 00 00 00', catalogue=RUNNING)
take('screen 11' + octets(track_object(3)), catalogue=RUNNING)
take('screen 13' + octets(group_object(0)), catalogue=RUNNING)
take('screen 14' + octets(group_object(3)), catalogue=RUNNING)
take('screen 17 02', catalogue=RUNNING)
deactivate('done', 'Inactive 3 0 0 | 0 0 0', 'screen 4 5 7 11 13 14 17', RUNNING)
read(SCREEN, 6, 3, 'read ff', catalogue=RUNNING)

case('from a finished recording to running ones, and back')
office(screen='4 5 6 7', catalogue=RUNNING)
control(SCREEN, NEXT_TRACK, 'Paused 3 0 0 | 1 1 0', 'screen 4 5 6 7', catalogue=RUNNING)
take('screen 4', catalogue=RUNNING)
take('screen 5' + octets(RAST), catalogue=RUNNING)
take('screen 6 ff ff ff ff', catalogue=RUNNING)
take('screen 7 00 00 00 00', catalogue=RUNNING)
control(SCREEN, NEXT_TRACK, 'Paused 3 0 0 | 1 2 0', 'screen 4 5 7', catalogue=RUNNING)
take('screen 4', catalogue=RUNNING)
take('screen 5', catalogue=RUNNING)
take('screen 7 00 00 00 00', catalogue=RUNNING)
control(SCREEN, FIRST_TRACK, 'Paused 3 0 0 | 1 0 0', 'screen 4 5 6 7', catalogue=RUNNING)
take('screen 4', catalogue=RUNNING)
take('screen 5' + octets(UEBERFAHRT), catalogue=RUNNING)
take('screen 6 70 17 00 00', catalogue=RUNNING)
take('screen 7 00 00 00 00', catalogue=RUNNING)
take('nothing', catalogue=RUNNING)

# 7 is not owed when an advance in Playing stays below D (SCOPE 18.3); what is owed goes by the same D (SCOPE 4.9). The step that reaches 8,640,000 does not
# stay below it, and the steps after it change nothing.
case('the position of a running recording')
office('7', screen='4 6 7 17', catalogue=RUNNING)
control(SCREEN, NEXT_TRACK, 'Paused 3 0 0 | 1 1 0', 'left 7; screen 4 6 7', catalogue=RUNNING)
write(LEFT, 7, word(8639990), 'done', 'Paused 3 0 0 | 1 1 8639990', 'left 7; screen 7', RUNNING)
control(SCREEN, PLAY, 'Playing 3 0 0 | 1 1 8639990', 'screen 17', catalogue=RUNNING)
take('left 7 f6 d5 83 00', catalogue=RUNNING)
take('screen 4', catalogue=RUNNING)
take('screen 6 ff ff ff ff', catalogue=RUNNING)
take('screen 7 f6 d5 83 00', catalogue=RUNNING)
take('screen 17 01', catalogue=RUNNING)
advance(9, 'done', 'Playing 3 0 0 | 1 1 8639999', catalogue=RUNNING)
take('nothing', catalogue=RUNNING)
advance(1, 'done', 'Playing 3 0 0 | 1 1 8640000', 'left 7; screen 7', RUNNING)
take('left 7 00 d6 83 00', catalogue=RUNNING)
take('screen 7 00 d6 83 00', catalogue=RUNNING)
advance(0, 'done', 'Playing 3 0 0 | 1 1 8640000', catalogue=RUNNING)
advance(LONGEST, 'done', 'Playing 3 0 0 | 1 1 8640000', catalogue=RUNNING)
take('nothing', catalogue=RUNNING)
# Of a running recording a negative position write is accepted and moves nothing (SCOPE 9.9), so nothing is owed, and the changed mark stays.
read(LEFT, 7, 0, 'read 00 d6 83 00', catalogue=RUNNING)
write(LEFT, 7, word(-1), 'done', 'Playing 3 0 0 | 1 1 8640000', catalogue=RUNNING)
read(LEFT, 7, 1, 'read d6 83 00', catalogue=RUNNING)
write(LEFT, 7, word(8640001), 'done', 'Playing 3 0 0 | 1 1 8640000', catalogue=RUNNING)
take('nothing', catalogue=RUNNING)
write(LEFT, 7, word(0), 'done', 'Playing 3 0 0 | 1 1 0', 'left 7; screen 7', RUNNING)
read(LEFT, 7, 1, 'refused 0x80', catalogue=RUNNING)
advance(LONGEST, 'done', 'Playing 3 0 0 | 1 1 8640000', 'left 7; screen 7', RUNNING)
take('left 7 00 d6 83 00', catalogue=RUNNING)
take('screen 7 00 d6 83 00', catalogue=RUNNING)
take('nothing', catalogue=RUNNING)


# ---- The rounds

# A take starts after the client that was served last, in number order round the four, and serves the first that is owed something (SCOPE 19.2); after start
# the round of clients begins at 0 (SCOPE 17.6).
case('the round of the clients')
office('1', '1', '1', '1')
set_name(b'A', 'done', 'left 1; right 1; headset 1; screen 1')
take('left 1 41')
take('right 1 41')
set_name(b'B', 'done', 'left 1; right 1; headset 1; screen 1')
take('headset 1 42')
take('screen 1 42')
take('left 1 42')
take('right 1 42')
# Where nothing is owed, the answer says so and nothing changes (SCOPE 19.5).
take('nothing')
take('nothing')
set_name(b'C', 'done', 'left 1; right 1; headset 1; screen 1')
take('headset 1 43')
take('screen 1 43')
take('left 1 43')
# A client that is owed nothing is passed over.
unsubscribe(RIGHT, 1, 'done')
take('nothing')
set_name(b'D', 'done', 'left 1; headset 1; screen 1')
take('headset 1 44')
take('screen 1 44')
take('left 1 44')
take('nothing')

# Connect sets that client's round to the lowest place, and nothing else (SCOPE 17.8).
case('the round of the clients while they come and go')
office('1', '1', '1', '1')
set_name(b'A', 'done', 'left 1; right 1; headset 1; screen 1')
take('left 1 41')
take('right 1 41')
disconnect(RIGHT, 'done')
connect(RIGHT, 100, ENCRYPTED, 'done')
subscribe(RIGHT, 1, 'done')
disconnect(LEFT, 'done')
connect(LEFT, 23, ENCRYPTED, 'done')
subscribe(LEFT, 1, 'done')
set_name(b'B', 'done', 'left 1; right 1; headset 1; screen 1')
take('headset 1 42')
disconnect(HEADSET, 'done')
take('screen 1 42')
take('left 1 42')
disconnect(SCREEN, 'done')
take('right 1 42')
take('nothing')
seen('23: 1;; 0', '100: 1;; 0', '-', '-')

# Within it comes the first owed slot after the one that was served last (SCOPE 19.3): of the fourteen.
case('the round of the slots')
office('', screen=EVERY)
deactivate('done', 'Inactive 3 0 0 | 0 0 0', 'screen 4 5 6 7 11 12 13 14 17')
activate(1, 'done', 'Paused 3 0 0 | 1 0 0', 'screen 4 5 6 7 11 12 13 14 17')
set_name(b'A', 'done', 'screen 1')
control(SCREEN, FORWARD, 'Seeking 3 0 4 | 1 0 0', 'screen 9 17 18')
control(SCREEN, NEXT_TRACK, 'Playing 3 0 0 | 1 1 0', 'screen 4 5 6 7 9 11 12 17 18')
write(LEFT, 8, [2], 'done', 'Playing 3 2 0 | 1 1 0', 'screen 8')
# Track 2 is behind track 1 in order 4 too.
write(LEFT, 15, [4], 'done', 'Playing 4 2 0 | 1 1 0', 'screen 15')
seen('23:;; 0', '-', '-', '517: %s; %s; 2' % (EVERY, EVERY))
take('screen 1 41')
take('screen 4')
take('screen 5 52 61 73 74')
take('screen 6 2c 01 00 00')
take('screen 7 00 00 00 00')
# Slots that were served are owed again, and wait until the round comes to them.
set_name(b'B', 'done', 'screen 1')
write(LEFT, 7, word(30), 'done', 'Playing 4 2 0 | 1 1 30', 'screen 7')
take('screen 8 02')
take('screen 9 00')
take('screen 11' + octets(track_object(1)))
take('screen 12' + octets(track_object(2)))
take('screen 13' + octets(group_object(0)))
take('screen 14' + octets(group_object(1)))
take('screen 15 04')
take('screen 17 01')
# One result per take; the round goes on behind 18 although another one waits.
take('screen 18 04 01')
take('screen 1 42')
take('screen 7 1e 00 00 00')
take('screen 18 31 01')
take('nothing')

# Subscribing and unsubscribing leave the rounds as they are.
case('the round of the slots while subscriptions change')
office('1 7 17')
write(LEFT, 7, word(100), 'done', 'Paused 3 0 0 | 1 0 100', 'left 7')
take('left 7 64 00 00 00')
unsubscribe(LEFT, 7, 'done')
subscribe(LEFT, 18, 'done')
subscribe(LEFT, 4, 'done')
set_name(b'A', 'done', 'left 1')
control(LEFT, NEXT_TRACK, 'Paused 3 0 0 | 1 1 0', 'left 4 18')
control(LEFT, PLAY, 'Playing 3 0 0 | 1 1 0', 'left 17 18')
seen('23: 1 4 17 18; 1 4 17 18; 2', '-', '-', '-')
# 7 was served last.
take('left 17 01')
take('left 18 31 01')
take('left 1 41')
take('left 4')
take('left 18 01 01')
take('nothing')
# 18 was served last; now 4 is, and its subscription is given up and taken anew.
control(LEFT, NEXT_TRACK, 'Playing 3 0 0 | 1 2 0', 'left 4 18')
take('left 4')
unsubscribe(LEFT, 4, 'done')
subscribe(LEFT, 4, 'done')
set_name(b'B', 'done', 'left 1')
take('left 18 31 01')
take('left 1 42')
take('nothing')

case('the round of the slots after connecting')
office('1 17')
set_name(b'A', 'done', 'left 1')
take('left 1 41')
# 1 was served last, so that 17 comes before it.
set_name(b'B', 'done', 'left 1')
control(LEFT, PLAY, 'Playing 3 0 0 | 1 0 0', 'left 17')
take('left 17 01')
take('left 1 42')
take('nothing')
# Connect sets that client's round to the lowest place, and nothing else (SCOPE 17.8).
disconnect(LEFT, 'done')
connect(LEFT, 23, ENCRYPTED, 'done')
subscribe(LEFT, 17, 'done')
subscribe(LEFT, 1, 'done')
control(LEFT, PAUSE, 'Paused 3 0 0 | 1 0 0', 'left 17')
set_name(b'C', 'done', 'left 1')
take('left 1 43')
take('left 17 02')
take('nothing')


# ---- Octets handed out

assert len(LONG_NAME) == 128 and len(GESPRAECH) == 64

# What is handed out is the present value, its first ATT_MTU − 3 octets (SCOPE 19.4); lent octets behind the answer stay (SCOPE 17.13).
case('a long name is taken')
office('1', '1', '1', '1')
set_name(b'Radio', 'done', 'left 1; right 1; headset 1; screen 1')
set_name(LONG_NAME, 'done', 'left 1; right 1; headset 1; screen 1')
take('left 1' + octets(LONG_NAME[:20]))
# In octets: the umlaut is cut.
take('right 1' + octets(LONG_NAME[:21]), room=129)
take('headset 1' + octets(LONG_NAME[:61]), room=160)
take('screen 1' + octets(LONG_NAME), room=160)
take('nothing', room=160)
for mtu, count in ((130, 127), (131, 128), (132, 128), (25, 22), (26, 23)):
    disconnect(HEADSET, 'done')
    connect(HEADSET, mtu, ENCRYPTED, 'done')
    subscribe(HEADSET, 1, 'done')
    set_name(b'', 'done', 'left 1; right 1; headset 1; screen 1')
    set_name(LONG_NAME, 'done', 'left 1; right 1; headset 1; screen 1')
    for who in (LEFT, RIGHT, SCREEN):
        unsubscribe(who, 1, 'done')
        subscribe(who, 1, 'done')
    take('headset 1' + octets(LONG_NAME[:count]), room=160)
    take('nothing')

# A read hands out up to ATT_MTU − 1 octets (SCOPE 17.13).
case('a long name is read in pieces')
office('', '', '', '')
set_name(LONG_NAME, 'done')
read(LEFT, 1, 0, 'read' + octets(LONG_NAME[:22]))
read(LEFT, 1, 22, 'read' + octets(LONG_NAME[22:44]), room=160)
read(LEFT, 1, 44, 'read' + octets(LONG_NAME[44:66]))
read(LEFT, 1, 66, 'read' + octets(LONG_NAME[66:88]))
read(LEFT, 1, 88, 'read' + octets(LONG_NAME[88:110]))
read(LEFT, 1, 110, 'read' + octets(LONG_NAME[110:]))
read(LEFT, 1, 128, 'read')
read(LEFT, 1, 129, 'refused 0x07')
read(LEFT, 1, LONGEST, 'refused 0x07')
# Any piece, in any order.
read(LEFT, 1, 21, 'read' + octets(LONG_NAME[21:43]))
read(LEFT, 1, 127, 'read 6e')
read(LEFT, 1, 1, 'read' + octets(LONG_NAME[1:23]))
read(RIGHT, 1, 0, 'read' + octets(LONG_NAME[:23]))
read(HEADSET, 1, 0, 'read' + octets(LONG_NAME[:63]))
read(HEADSET, 1, 63, 'read' + octets(LONG_NAME[63:126]))
read(HEADSET, 1, 126, 'read 65 6e')
read(SCREEN, 1, 0, 'read' + octets(LONG_NAME))
read(SCREEN, 1, 0, 'read' + octets(LONG_NAME), room=160)
read(SCREEN, 1, 100, 'read' + octets(LONG_NAME[100:]), room=160)
for mtu, count in ((128, 127), (129, 128), (130, 128)):
    disconnect(HEADSET, 'done')
    connect(HEADSET, mtu, ENCRYPTED, 'done')
    read(HEADSET, 1, 0, 'read' + octets(LONG_NAME[:count]), room=160)

case('a long title is read in pieces')
start(b'Desk', ALL, 7, 'done', 'Inactive 3 0 0 | 0 0 0', catalogue=LONG)
connect(LEFT, 23, ENCRYPTED, 'done', catalogue=LONG)
connect(RIGHT, 24, ENCRYPTED, 'done', catalogue=LONG)
connect(HEADSET, 64, ENCRYPTED, 'done', catalogue=LONG)
subscribe(LEFT, 5, 'done', catalogue=LONG)
subscribe(RIGHT, 5, 'done', catalogue=LONG)
subscribe(HEADSET, 5, 'done', catalogue=LONG)
activate(3, 'done', 'Paused 3 0 0 | 3 3 0', 'left 5; right 5; headset 5', catalogue=LONG)
take('left 5' + octets(GESPRAECH[:20]), catalogue=LONG)
take('right 5' + octets(GESPRAECH[:21]), catalogue=LONG)
take('headset 5' + octets(GESPRAECH[:61]), catalogue=LONG)
read(LEFT, 5, 0, 'read' + octets(GESPRAECH[:22]), catalogue=LONG)
read(LEFT, 5, 22, 'read' + octets(GESPRAECH[22:44]), catalogue=LONG)
read(LEFT, 5, 44, 'read' + octets(GESPRAECH[44:] + GESPRAECH[:2]), catalogue=LONG)
# The other pedal moves on, to a title that has the same first 64 octets, before the whole is read.
read(HEADSET, 5, 0, 'read' + octets(GESPRAECH[:63]), catalogue=LONG)
write(RIGHT, 18, [FIRST_GROUP], 'done', 'Paused 3 0 0 | 1 0 0', 'left 5; right 5; headset 5', catalogue=LONG)
read(LEFT, 5, 66, 'refused 0x80', catalogue=LONG)
read(HEADSET, 5, 63, 'refused 0x80', catalogue=LONG)
read(LEFT, 5, 0, 'read' + octets(GESPRAECH[:22]), catalogue=LONG)
read(LEFT, 5, 22, 'read' + octets(GESPRAECH[22:44]), catalogue=LONG)
read(LEFT, 5, 44, 'read' + octets(GESPRAECH[44:]), catalogue=LONG)
read(LEFT, 5, 64, 'read', catalogue=LONG)
read(LEFT, 5, 65, 'refused 0x07', catalogue=LONG)
read(HEADSET, 5, 0, 'read' + octets(GESPRAECH[:63]), catalogue=LONG)
read(HEADSET, 5, 63, 'read 72', catalogue=LONG)
# What was owed when the title was longer is handed out as it is now.
disconnect(HEADSET, 'done', catalogue=LONG)
connect(HEADSET, 100, ENCRYPTED, 'done', catalogue=LONG)
subscribe(HEADSET, 5, 'done', catalogue=LONG)
write(RIGHT, 18, [LAST_GROUP], 'done', 'Paused 3 0 0 | 3 3 0', 'left 5; right 5; headset 5', catalogue=LONG)
write(RIGHT, 18, [PREVIOUS_GROUP], 'done', 'Paused 3 0 0 | 1 0 0', 'left 5; right 5; headset 5', catalogue=LONG)
take('left 5' + octets(GESPRAECH[:20]), catalogue=LONG)
take('right 5' + octets(GESPRAECH[:21]), catalogue=LONG)
take('headset 5' + octets(GESPRAECH), catalogue=LONG)
take('nothing', catalogue=LONG)


# ---- The changed mark

# A read above offset 0, where some call changed the value, even if it changed back, since the client's last accepted read of it at 0, or where there was no
# such read since connecting (SCOPE 17.14).
case('the changed mark')
office('', screen='')
read(LEFT, 1, 1, 'refused 0x80')
read(SCREEN, 1, 0, 'read 44 65 73 6b')
# Another client's read is not its own, nor is the read of another characteristic.
read(LEFT, 1, 1, 'refused 0x80')
read(LEFT, 5, 0, 'read' + octets(UEBERFAHRT))
read(LEFT, 1, 1, 'refused 0x80')
# A refused read at 0 does not count.
read(LEFT, 1, 0, 'refused 205', room=127)
read(LEFT, 1, 1, 'refused 0x80')
read(LEFT, 1, 0, 'read 44 65 73 6b')
read(LEFT, 1, 1, 'read 65 73 6b')
read(LEFT, 1, 1, 'read 65 73 6b')
# Clearing the mark at a read above offset 0 (SCOPE 22.4) is an error that looks right.
set_name(b'Table', 'done')
read(LEFT, 1, 1, 'refused 0x80')
read(LEFT, 1, 1, 'refused 0x80')
set_name(b'Desk', 'done')
read(LEFT, 1, 1, 'refused 0x80')
read(SCREEN, 1, 1, 'refused 0x80')
read(LEFT, 1, 0, 'read 44 65 73 6b')
read(LEFT, 1, 3, 'read 6b')
read(SCREEN, 1, 1, 'refused 0x80')
# The title was not touched.
read(LEFT, 5, 2, 'read' + octets(b'berfahrt'))
# The same name again, or a refused one, is no change.
set_name(b'Desk', 'done')
set_name(b'\xFF', 'refused 207 0')
read(LEFT, 1, 2, 'read 73 6b')
# A read before connecting does not count (SCOPE 17.14).
disconnect(LEFT, 'done')
connect(LEFT, 23, ENCRYPTED, 'done')
read(LEFT, 1, 1, 'refused 0x80')
read(LEFT, 5, 1, 'refused 0x80')

case('changes by the reader itself')
office('')
read(LEFT, 6, 0, 'read 70 17 00 00')
read(LEFT, 7, 0, 'read 00 00 00 00')
read(LEFT, 8, 0, 'read 00')
read(LEFT, 9, 0, 'read 00')
read(LEFT, 15, 0, 'read 03')
read(LEFT, 16, 0, 'read ff 00')
read(LEFT, 17, 0, 'read 02')
read(LEFT, 19, 0, 'read ff ff 1f 00')
read(LEFT, 22, 0, 'read 07')
write(LEFT, 7, word(0), 'done', 'Paused 3 0 0 | 1 0 0')
write(LEFT, 8, [0], 'done', 'Paused 3 0 0 | 1 0 0')
write(LEFT, 15, [3], 'done', 'Paused 3 0 0 | 1 0 0')
read(LEFT, 7, 1, 'read 00 00 00')
read(LEFT, 8, 1, 'read')
read(LEFT, 15, 1, 'read')
write(LEFT, 7, word(256), 'done', 'Paused 3 0 0 | 1 0 256')
read(LEFT, 7, 1, 'refused 0x80')
read(LEFT, 8, 1, 'read')
write(LEFT, 8, [5], 'done', 'Paused 3 5 0 | 1 0 256')
read(LEFT, 8, 1, 'refused 0x80')
read(LEFT, 15, 1, 'read')
write(LEFT, 15, [8], 'done', 'Paused 8 5 0 | 1 0 256')
read(LEFT, 15, 1, 'refused 0x80')
read(LEFT, 9, 1, 'read')
read(LEFT, 17, 1, 'read')
control(LEFT, FORWARD, 'Seeking 8 5 4 | 1 0 256', '')
read(LEFT, 9, 1, 'refused 0x80')
read(LEFT, 17, 1, 'refused 0x80')
read(LEFT, 6, 1, 'read 17 00 00')
control(LEFT, NEXT_TRACK, 'Playing 8 5 0 | 1 1 0', '')
read(LEFT, 6, 1, 'refused 0x80')
# 16, 19 and 22 never change.
read(LEFT, 16, 1, 'read 00')
read(LEFT, 16, 2, 'read')
read(LEFT, 16, 3, 'refused 0x07')
read(LEFT, 19, 2, 'read 1f 00')
read(LEFT, 19, 5, 'refused 0x07')
read(LEFT, 22, 1, 'read')
read(LEFT, 22, 2, 'refused 0x07')
read(LEFT, 9, 0, 'read 00')
read(LEFT, 15, 0, 'read 08')
read(LEFT, 17, 0, 'read 01')
read(LEFT, 8, 0, 'read 05')
read(LEFT, 8, 1, 'read')
read(LEFT, 8, 2, 'refused 0x07')


# ---- Refusals. A refusal alters nothing (SCOPE 20.1); of several the first in the table is given (SCOPE 20.2). 200 with a bad title and 207 carry a place.

# All but 4 and 18 may be read; 7, 8, 11, 12, 14, 15 and 18 may be written (SCOPE 16.1). Of 10 nothing is owed, so it is no slot.
case('what may be read, written and subscribed to')
office('')
for characteristic in OTHERS:
    read(LEFT, characteristic, 0, 'refused 0x01')
    write(LEFT, characteristic, [1], 'refused 0x01')
    subscribe(LEFT, characteristic, 'refused 0x01')
    unsubscribe(LEFT, characteristic, 'refused 0x01')
for characteristic in (4, 18):
    read(LEFT, characteristic, 0, 'refused 0x02')
for characteristic in (1, 4, 5, 6, 9, 10, 13, 16, 17, 19, 22):
    write(LEFT, characteristic, [1], 'refused 0x03')
for characteristic in (10, 16, 19, 22):
    subscribe(LEFT, characteristic, 'refused 209')
    unsubscribe(LEFT, characteristic, 'refused 209')
for characteristic in SLOTS:
    subscribe(LEFT, characteristic, 'done')
for characteristic in SLOTS:
    unsubscribe(LEFT, characteristic, 'done')

# 0x01, 209, 0x02 and 0x03 before 0x0F.
case('a client connected unencrypted')
office()
connect(LEFT, 23, OPEN, 'done')
read(LEFT, 3, 0, 'refused 0x01')
write(LEFT, 3, [1], 'refused 0x01')
subscribe(LEFT, 3, 'refused 0x01')
unsubscribe(LEFT, 255, 'refused 0x01')
subscribe(LEFT, 16, 'refused 209')
unsubscribe(LEFT, 22, 'refused 209')
subscribe(LEFT, 10, 'refused 209')
unsubscribe(LEFT, 10, 'refused 209')
read(LEFT, 4, 0, 'refused 0x02')
read(LEFT, 18, 1, 'refused 0x02')
write(LEFT, 17, [1], 'refused 0x03')
write(LEFT, 10, [1], 'refused 0x03')
write(LEFT, 13, group_object(1), 'refused 0x03')
# 0x0F before 0x80, 0x07, 0x0D and 0x13.
read(LEFT, 1, 0, 'refused 0x0F')
read(LEFT, 1, 1, 'refused 0x0F')
read(LEFT, 1, 200, 'refused 0x0F')
write(LEFT, 7, word(1), 'refused 0x0F')
write(LEFT, 7, [1, 2, 3], 'refused 0x0F')
write(LEFT, 15, [9], 'refused 0x0F')
for characteristic in (11, 12, 14):
    write(LEFT, characteristic, track_object(1), 'refused 0x0F')
    write(LEFT, characteristic, group_object(1), 'refused 0x0F')
    write(LEFT, characteristic, [], 'refused 0x0F')
for characteristic in (10, 11, 12, 13, 14):
    read(LEFT, characteristic, 0, 'refused 0x0F')
    read(LEFT, characteristic, 7, 'refused 0x0F')
write(LEFT, 18, [PLAY], 'refused 0x0F')
write(LEFT, 18, [], 'refused 0x0F')
for characteristic in SLOTS:
    subscribe(LEFT, characteristic, 'refused 0x0F')
    unsubscribe(LEFT, characteristic, 'refused 0x0F')
set_name(b'Table', 'done')
take('nothing')
disconnect(LEFT, 'done')

# 0x80 before 0x07.
case('offsets')
office('')
read(LEFT, 1, 200, 'refused 0x80')
read(LEFT, 1, 0, 'read 44 65 73 6b')
read(LEFT, 1, 4, 'read')
read(LEFT, 1, 5, 'refused 0x07')
read(LEFT, 1, 200, 'refused 0x07')
set_name(b'Table', 'done')
read(LEFT, 1, 200, 'refused 0x80')
# A refused read alters nothing.
read(LEFT, 1, 0, 'read 54 61 62 6c 65')
read(LEFT, 1, 6, 'refused 0x07')
read(LEFT, 1, 5, 'read')

# What is written has not 4 octets for 7, or 1 for 8 and 15; or for 18 it has 0, over 5, or not 1 or 5 as a known opcode asks (SCOPE 20.6).
case('lengths')
office(left='18')
for length in (0, 1, 2, 3, 5, 6, 255):
    write(LEFT, 7, [0] * length, 'refused 0x0D')
for length in (0, 2, 3, 4, 5, 255):
    write(LEFT, 8, [1] * length, 'refused 0x0D')
    write(LEFT, 15, [1] * length, 'refused 0x0D')
# 0x0D before 0x13.
write(LEFT, 15, [9, 9], 'refused 0x0D')
write(LEFT, 18, [], 'refused 0x0D')
for length in (6, 7, 128, 255):
    write(LEFT, 18, [0x50] * length, 'refused 0x0D')
for opcode in (PLAY, PAUSE, REWIND, FORWARD, STOP, PREVIOUS_SEGMENT, LAST_SEGMENT, PREVIOUS_TRACK, LAST_TRACK, PREVIOUS_GROUP, LAST_GROUP):
    write(LEFT, 18, [opcode, 0], 'refused 0x0D')
    write(LEFT, 18, [opcode, 0, 0, 0, 0], 'refused 0x0D')
for opcode in (RELATIVE, GOTO_SEGMENT, GOTO_TRACK, GOTO_GROUP):
    write(LEFT, 18, [opcode], 'refused 0x0D')
    write(LEFT, 18, [opcode, 0, 0, 0], 'refused 0x0D')
    write(LEFT, 18, [opcode, 0, 0, 0, 0, 0], 'refused 0x0D')
take('nothing')
# A known opcode is known whatever the mask says.
start(b'Desk', 0, 7, 'done', 'Inactive 3 0 0 | 0 0 0')
connect(LEFT, 23, ENCRYPTED, 'done')
subscribe(LEFT, 18, 'done')
write(LEFT, 18, [PLAY, 0], 'refused 0x0D')
write(LEFT, 18, [GOTO_TRACK], 'refused 0x0D')
control(LEFT, PLAY, 'Inactive 3 0 0 | 0 0 0', 'left 18')
control(LEFT, GOTO_TRACK, 'Inactive 3 0 0 | 0 0 0', 'left 18', 1)
take('left 18 01 02')
take('left 18 34 02')
take('nothing')

# The written order is not 1 to 8 (SCOPE 20.2).
case('orders')
office('', screen='15')
for order in (0, 9, 128, 255):
    write(LEFT, 15, [order], 'refused 0x13')
write(LEFT, 15, [1], 'done', 'Paused 1 0 0 | 1 0 0', 'screen 15')
write(LEFT, 15, [8], 'done', 'Paused 8 0 0 | 1 0 0', 'screen 15')
take('screen 15 08')
take('nothing')

# 202 before 206; 204 before 206.
case('connecting')
office('17', screen='1')
for who in (4, 5, 128, 255):
    connect(who, 23, ENCRYPTED, 'refused 202')
    connect(who, 22, ENCRYPTED, 'refused 202')
connect(LEFT, 23, ENCRYPTED, 'refused 204')
connect(LEFT, 600, OPEN, 'refused 204')
for mtu in (0, 22, 518, 65535, LONGEST):
    connect(RIGHT, mtu, ENCRYPTED, 'refused 206')
    connect(RIGHT, mtu, OPEN, 'refused 206')
connect(RIGHT, 517, OPEN, 'done')
connect(RIGHT, 517, OPEN, 'refused 204')
disconnect(RIGHT, 'done')
connect(RIGHT, 23, ENCRYPTED, 'done')
seen('23: 17;; 0', '23:;; 0', '-', '517: 1;; 0')

# 202 and 203 before what follows them.
case('no such client, or none there')
office('17')
for who in (4, 255):
    disconnect(who, 'refused 202')
    subscribe(who, 17, 'refused 202')
    unsubscribe(who, 17, 'refused 202')
    read(who, 1, 0, 'refused 202')
    write(who, 18, [PLAY], 'refused 202')
    subscribe(who, 3, 'refused 202')
    unsubscribe(who, 16, 'refused 202')
    read(who, 4, 7, 'refused 202')
    write(who, 17, [], 'refused 202')
for who in (RIGHT, HEADSET, SCREEN):
    disconnect(who, 'refused 203')
    subscribe(who, 17, 'refused 203')
    unsubscribe(who, 17, 'refused 203')
    read(who, 1, 0, 'refused 203')
    write(who, 18, [PLAY], 'refused 203')
    subscribe(who, 3, 'refused 203')
    unsubscribe(who, 16, 'refused 203')
    read(who, 4, 7, 'refused 203')
    write(who, 17, [], 'refused 203')
    write(who, 15, [9], 'refused 203')

# The name has over 128 octets or is not UTF-8 (SCOPE 20.2); the group is absent or has no tracks (SCOPE 20.2); 207 carries an offset; of a name over 128
# octets it is 128, tested first (SCOPE 20.4).
case('names and groups')
office('1 4')
for name, offset in ((b'a' * 129, 128), (b'a' * 255, 128), (b'\xFF', 0), (b'a\xC3', 1), (b'\xC0\x80', 0), (b'\xED\xA0\x80', 0), (b'\xF4\x90\x80\x80', 0),
                     (b'\xFF' + b'a' * 128, 128), (b'a' * 127 + b'\xFF', 127), (LONG_NAME[:21], 20), (LONG_NAME + b'!', 128)):
    set_name(name, 'refused 207 %d' % offset)
    start(name, ALL, 7, 'refused 207 %d' % offset)
for group in (0, 2, 4, 64, LONGEST):
    activate(group, 'refused 208')
take('nothing')
set_name(b'a' * 128, 'done', 'left 1')
take('left 1' + ' 61' * 20)
set_name(b'', 'done', 'left 1')
take('left 1')
take('nothing')

# The lent output of a read or take is under 128 octets (SCOPE 20.2).
case('small outputs')
office('1')
set_name(b'A', 'done', 'left 1')
for room in (0, 1, 127):
    read(LEFT, 1, 0, 'refused 205', room)
    take('refused 205', room)
# 205 before 202, 203, 0x01, 0x02, 0x80 and before nothing owed.
read(4, 1, 0, 'refused 205', 127)
read(RIGHT, 1, 0, 'refused 205', 127)
read(LEFT, 3, 0, 'refused 205', 127)
read(LEFT, 4, 0, 'refused 205', 127)
read(LEFT, 1, 1, 'refused 205', 127)
take('left 1 41')
take('refused 205', 127)
take('nothing')
read(LEFT, 1, 0, 'read 41')


def each_call(answer, catalogue=SAMPLE):
    """Every call that is lent the catalogue but the title call and the manual's Goto, as it would be accepted in the office of the left pedal, to which
    1 is owed."""
    start(b'Desk', ALL, 7, answer, catalogue=catalogue)
    set_name(b'B', answer, catalogue=catalogue)
    activate(1, answer, catalogue=catalogue)
    deactivate(answer, catalogue=catalogue)
    advance(10, answer, catalogue=catalogue)
    connect(RIGHT, 23, ENCRYPTED, answer, catalogue=catalogue)
    disconnect(LEFT, answer, catalogue=catalogue)
    subscribe(LEFT, 4, answer, catalogue=catalogue)
    unsubscribe(LEFT, 1, answer, catalogue=catalogue)
    read(LEFT, 1, 0, answer, catalogue=catalogue)
    write(LEFT, 18, [PLAY], answer, catalogue=catalogue)
    take(answer, catalogue=catalogue)


# A rule of the catalogue fails, or a lent table ends inside a record (SCOPE 4.14); 200 for a bad title carries the lowest such track and the offset; every
# other 200 carries nothing and comes before (SCOPE 4.14). Each call is lent the catalogue, and each tells the same.
for catalogue, answer in ((OWN_PARENT, 'refused 200'), (CUT, 'refused 200'), (BAD_TITLES, 'refused 200 1 5'), (BAD_AND_WRONG, 'refused 200')):
    case('a wrong catalogue')
    office('1 17 18')
    set_name(b'A', 'done', 'left 1')
    each_call(answer, catalogue)
    # 200 before whatever else there is.
    start(b'\xFF', ALL, 7, answer, catalogue=catalogue)
    set_name(b'\xFF', answer, catalogue=catalogue)
    activate(2, answer, catalogue=catalogue)
    connect(4, 23, ENCRYPTED, answer, catalogue=catalogue)
    connect(LEFT, 22, ENCRYPTED, answer, catalogue=catalogue)
    disconnect(RIGHT, answer, catalogue=catalogue)
    subscribe(LEFT, 3, answer, catalogue=catalogue)
    unsubscribe(RIGHT, 16, answer, catalogue=catalogue)
    read(LEFT, 1, 0, answer, 127, catalogue)
    read(LEFT, 1, 1, answer, catalogue=catalogue)
    write(LEFT, 15, [9], answer, catalogue=catalogue)
    take(answer, 127, catalogue)
    damage(TURN, 4)
    take(answer, catalogue=catalogue)
    take(answer, 127, catalogue)
    connect(RIGHT, 23, ENCRYPTED, answer, catalogue=catalogue)
    damage(TURN, 3)
    take('left 1 41')
    read(LEFT, 1, 1, 'refused 0x80')
    seen('23: 1 17 18;; 0', '-', '-', '-')
    take(answer, catalogue=catalogue)
    take('nothing')


def before_the_others(words, refused):
    """What comes before every refusal behind it, and carries what it carries without them: `refused` makes a call that meets it."""
    def before(other, call, *arguments, **room):
        """A call that meets the earlier refusal, and then the same with the sample and right titles, which meets the other one."""
        refused(call, *arguments, **room)
        call(*arguments, other, **room)

    case(words)
    office('1 17', None, '18', None)
    connect(SCREEN, 517, OPEN, 'done')
    set_name(b'A', 'done', 'left 1')
    for _ in range(8):
        control(HEADSET, PREVIOUS_TRACK, 'Paused 3 0 0 | 1 0 0', 'headset 18')
    read(LEFT, 5, 0, 'read' + octets(UEBERFAHRT))
    seen('23: 1 17; 1; 0', '-', '64: 18; 18; 8', '517:;; 0')
    before('refused 205', read, LEFT, 1, 0, room=127)
    before('refused 205', take, room=127)
    before('refused 205', take, room=0)
    before('refused 202', connect, 4, 23, ENCRYPTED)
    before('refused 202', disconnect, 4)
    before('refused 202', subscribe, 4, 17)
    before('refused 202', unsubscribe, 4, 17)
    before('refused 202', read, 4, 1, 0)
    before('refused 202', write, 255, 18, [PLAY])
    before('refused 203', disconnect, RIGHT)
    before('refused 203', subscribe, RIGHT, 17)
    before('refused 203', unsubscribe, RIGHT, 17)
    before('refused 203', read, RIGHT, 1, 0)
    before('refused 203', write, RIGHT, 18, [PLAY])
    before('refused 204', connect, LEFT, 23, ENCRYPTED)
    before('refused 206', connect, RIGHT, 22, ENCRYPTED)
    before('refused 206', connect, RIGHT, 518, OPEN)
    before('refused 0x01', subscribe, LEFT, 3)
    before('refused 0x01', unsubscribe, LEFT, 3)
    before('refused 0x01', read, LEFT, 3, 0)
    before('refused 0x01', write, LEFT, 3, [1])
    before('refused 209', subscribe, LEFT, 16)
    before('refused 209', unsubscribe, LEFT, 22)
    before('refused 0x02', read, LEFT, 4, 0)
    before('refused 0x03', write, LEFT, 17, [1])
    before('refused 0x0F', read, SCREEN, 5, 0)
    before('refused 0x0F', write, SCREEN, 18, [PLAY])
    before('refused 0x0F', subscribe, SCREEN, 17)
    before('refused 0x0F', unsubscribe, SCREEN, 17)
    before('refused 0x80', read, LEFT, 1, 1)
    before('refused 0x07', read, LEFT, 5, 11)
    before('refused 0x0D', write, LEFT, 7, [1])
    before('refused 0x0D', write, LEFT, 18, [])
    before('refused 0x0D', write, LEFT, 12, [1])
    before('refused 0x13', write, LEFT, 15, [9])
    before('refused 0x13', write, LEFT, 11, group_object(1))
    before('refused 0x13', write, LEFT, 14, group_object(0))
    before('refused 0x11', write, HEADSET, 18, [PLAY])
    before('refused 207 0', start, b'\xFF', ALL, 7)
    before('refused 207 0', set_name, b'\xFF')
    before('refused 207 128', start, b'a' * 129, ALL, 7)
    before('refused 207 128', set_name, b'a' * 129)
    before('refused 208', activate, 0)
    before('refused 208', activate, 2)
    before('refused 208', activate, 4)
    seen('23: 1 17; 1; 0', '-', '64: 18; 18; 8', '517:;; 0')
    # A position beyond the end of the track, a name that is not UTF-8, and a client served last that there is not.
    for part, wrong, right in ((PLACE, 6001, 0), (NAME_FIRST, 0xFF, 0x41), (TURN, 4, 3)):
        damage(part, wrong, state='Paused 3 0 0 | 1 0 6001' if part == PLACE else None)
        before('refused 201', set_name, b'B')
        before('refused 201', set_name, b'\xFF')
        before('refused 201', activate, 1)
        before('refused 201', deactivate)
        before('refused 201', advance, 10)
        before('refused 201', connect, RIGHT, 23, ENCRYPTED)
        before('refused 201', disconnect, LEFT)
        before('refused 201', subscribe, LEFT, 4)
        before('refused 201', unsubscribe, LEFT, 1)
        before('refused 201', read, LEFT, 1, 0)
        before('refused 201', write, LEFT, 18, [PLAY])
        before('refused 201', take)
        before('refused 205', take, room=127)
        # Start takes no state.
        refused(start, b'Desk', ALL, 7)
        before('refused 207 1', start, b'a\xFF', ALL, 7)
        damage(part, right, state='Paused 3 0 0 | 1 0 0')
    take('left 1 41')
    take('headset 18 30 04')


def with_catalogue(catalogue, answer):
    """What makes a call with a wrong catalogue."""
    return lambda call, *arguments, **room: call(*arguments, answer, catalogue=catalogue, **room)


before_the_others('a wrong catalogue before the other refusals', with_catalogue(BAD_TITLES, 'refused 200 1 5'))
before_the_others('a wrong catalogue before the other refusals', with_catalogue(BAD_AND_WRONG, 'refused 200'))

# 200 with a bad title comes whatever the call would do: where it would change nothing, and where no track is current.
case('a bad title while nothing would happen')
start(b'Desk', ALL, 7, 'done', 'Inactive 3 0 0 | 0 0 0')
take('refused 200 1 5', catalogue=BAD_TITLES)
deactivate('refused 200 1 5', catalogue=BAD_TITLES)
advance(0, 'refused 200 1 5', catalogue=BAD_TITLES)
set_name(b'Desk', 'refused 200 1 5', catalogue=BAD_TITLES)
connect(LEFT, 23, ENCRYPTED, 'refused 200 1 5', catalogue=BAD_TITLES)
connect(LEFT, 23, ENCRYPTED, 'done')
subscribe(LEFT, 5, 'done')
subscribe(LEFT, 5, 'refused 200 1 5', catalogue=BAD_TITLES)
unsubscribe(LEFT, 17, 'refused 200 1 5', catalogue=BAD_TITLES)
write(LEFT, 7, word(1500), 'refused 200 1 5', catalogue=BAD_TITLES)
read(LEFT, 5, 0, 'refused 200 1 5', catalogue=BAD_TITLES)
read(LEFT, 5, 0, 'read')
# The title that is owed is good in one catalogue, and the other one is refused. It stays owed.
activate(1, 'done', 'Paused 3 0 0 | 1 0 0', 'left 5')
take('refused 200 1 5', catalogue=BAD_TITLES)
take('refused 200', catalogue=BAD_AND_WRONG)
seen('23: 5; 5; 0', '-', '-', '-')
take('left 5' + octets(UEBERFAHRT))
take('nothing')
disconnect(LEFT, 'refused 200 1 5', catalogue=BAD_TITLES)
disconnect(LEFT, 'done')
seen('-', '-', '-', '-')


# ---- Wrong states: 201


def the_others_refuse_the_state():
    """Every call that takes a state but set name, in the office of the left pedal."""
    activate(1, 'refused 201')
    deactivate('refused 201')
    advance(10, 'refused 201')
    connect(RIGHT, 23, ENCRYPTED, 'refused 201')
    disconnect(LEFT, 'refused 201')
    subscribe(LEFT, 4, 'refused 201')
    unsubscribe(LEFT, 1, 'refused 201')
    read(LEFT, 1, 0, 'refused 201')
    write(LEFT, 18, [PLAY], 'refused 201')
    take('refused 201')


case('every call refuses a wrong state')
office('1 17 18')
set_name(b'A', 'done', 'left 1')
damage(TURN, 4)
set_name(b'B', 'refused 201')
the_others_refuse_the_state()
# 205 before 201, and 201 before whatever follows it.
read(LEFT, 1, 0, 'refused 205', 127)
take('refused 205', 127)
set_name(b'\xFF', 'refused 201')
activate(2, 'refused 201')
connect(4, 23, ENCRYPTED, 'refused 201')
connect(LEFT, 23, ENCRYPTED, 'refused 201')
connect(RIGHT, 22, ENCRYPTED, 'refused 201')
disconnect(4, 'refused 201')
disconnect(RIGHT, 'refused 201')
subscribe(LEFT, 3, 'refused 201')
unsubscribe(LEFT, 16, 'refused 201')
read(LEFT, 3, 0, 'refused 201')
read(LEFT, 4, 0, 'refused 201')
read(LEFT, 1, 1, 'refused 201')
write(LEFT, 17, [1], 'refused 201')
write(LEFT, 7, [1], 'refused 201')
write(LEFT, 15, [9], 'refused 201')
for turn in (5, 255, LONGEST):
    damage(TURN, turn)
    take('refused 201')
damage(TURN, 3)
take('left 1 41')
# Start takes no state.
damage(TURN, 4)
start(b'Desk', ALL, 7, 'done', 'Inactive 3 0 0 | 0 0 0')
take('nothing')

# A player in the state breaks a rule for this catalogue (group, track in it, position, state, seeking speed, order), or its name does (SCOPE 20.5). Each is a
# part of a player that is Paused at the start of track 0 and has a name of four octets, what it becomes, what is then seen, and what it was.
WRONG_PLAYERS = (
    (GROUP, 3, 'Paused 3 0 0 | 3 0 0', 1),
    (TRACK, 3, 'Paused 3 0 0 | 1 3 0', 0),
    (PLACE, 6001, 'Paused 3 0 0 | 1 0 6001', 0),
    (MEDIA, 0, 'Inactive 3 0 0 | 1 0 0', 2),
    (MEDIA, 4, '4 3 0 0 | 1 0 0', 2),
    (SEEKING_SPEED, 4, 'Paused 3 0 4 | 1 0 0', 0),
    (PLAYING_ORDER, 0, 'Paused 0 0 0 | 1 0 0', 3),
    (PLAYING_ORDER, 9, 'Paused 9 0 0 | 1 0 0', 3),
    # 201 refuses a named next track that is not of the current group (SCOPE 20.5): track 3.
    (NEXT, 4, 'Paused 3 0 0 | 1 0 0 3', 0),
    # 201 refuses a rest over 65,535 (SCOPE 20.5).
    (REST, 65536, 'Paused 3 0 0 | 1 0 0+65536', 0),
    (NAME_LENGTH, 129, 'Paused 3 0 0 | 1 0 0', 4),
)

case('a player that does not stand')
office('17')
for part, number, state, right in WRONG_PLAYERS:
    damage(part, number, state=state)
    take('refused 201')
    connect(RIGHT, 23, ENCRYPTED, 'refused 201')
    damage(part, right, state='Paused 3 0 0 | 1 0 0')
    take('nothing')

# The name in the state breaks SCOPE 8.3 (SCOPE 20.5), of which 201 says nothing. It is too long, bad at its first octet, and cut inside its last character.
case('a damaged name')
office('1')
set_name('Café'.encode(), 'done', 'left 1')
for part, number, right in ((NAME_LENGTH, 129, 5), (NAME_FIRST, 0xFF, 0x43), (NAME_LENGTH, 4, 5)):
    damage(part, number)
    set_name(b'B', 'refused 201')
    set_name(b'B\xFF', 'refused 201')
    set_name(b'B' * 129, 'refused 201')
    the_others_refuse_the_state()
    # A start takes no state, and its own name is told.
    start(b'B\xFF', ALL, 7, 'refused 207 1')
    damage(part, right)
take('left 1' + octets('Café'.encode()))
take('nothing')


def two_results():
    """The left pedal is owed 17 and two results, nobody stands at the right one, the headset wants nothing, the screen is owed 1."""
    office('17 18', None, '', '1')
    control(LEFT, PLAY, 'Playing 3 0 0 | 1 0 0', 'left 17 18')
    control(LEFT, PAUSE, 'Paused 3 0 0 | 1 0 0', 'left 17 18')
    set_name(b'A', 'done', 'screen 1')
    seen('23: 17 18; 17 18; 2', '-', '64:;; 0', '517: 1; 1; 0')


def slots(*characteristics):
    """The word of the slots: one bit each, in the order of the fourteen."""
    return sum(1 << SLOTS.index(characteristic) for characteristic in characteristics)


# A connected client has over 8 results (SCOPE 20.5).
case('too many results in a record')
two_results()
for count in (9, 255, LONGEST):
    damage(WAITING, count, LEFT, '23: 17 18; 17 18; %d' % count)
    write(LEFT, 18, [PLAY], 'refused 201')
    take('refused 201')
damage(WAITING, 2, LEFT)
take('left 17 02')

# A result code is not 1 to 4 (SCOPE 20.5): of those that wait. The second octet of the number is the place of the result, the first one its code.
case('a wrong result code in a record')
two_results()
for code in (0, 5, 255):
    damage(CODE, code, LEFT)
    take('refused 201')
    damage(CODE, 1, LEFT)
    damage(CODE, 0x100 + code, LEFT)
    unsubscribe(LEFT, 18, 'refused 201')
    damage(CODE, 0x104, LEFT)
    read(SCREEN, 1, 0, 'read 41')
# The third place holds no result yet, so its code says nothing; when it is counted among those that wait, it does.
damage(CODE, 0x205, LEFT)
read(SCREEN, 1, 0, 'read 41')
damage(WAITING, 3, LEFT, '23: 17 18; 17 18; 3')
take('refused 201')
damage(WAITING, 2, LEFT)
take('left 17 02')
take('screen 1 41')
take('left 18 01 01')
take('left 18 02 04')
take('nothing')

# A slot is owed but not subscribed (SCOPE 20.5).
case('a slot owed but not subscribed')
two_results()
damage(OWED, slots(7, 17, 18), LEFT, '23: 17 18; 7 17 18; 2')
take('refused 201')
damage(OWED, slots(17, 18), LEFT)
take('left 17 02')
two_results()
damage(SUBSCRIBED, slots(18), LEFT, '23: 18; 17 18; 2')
advance(1, 'refused 201')
damage(SUBSCRIBED, slots(17), LEFT, '23: 17; 17 18; 2')
deactivate('refused 201')
damage(SUBSCRIBED, slots(17, 18), LEFT)
take('left 17 02')
damage(OWED, slots(1), HEADSET, '64:; 1; 0')
take('refused 201')
damage(OWED, slots(), HEADSET)
take('screen 1 41')

# 18 is owed otherwise than when results wait (SCOPE 20.5).
case('18 owed without results, and results without it')
two_results()
damage(OWED, slots(17), LEFT, '23: 17 18; 17; 2')
take('refused 201')
damage(OWED, slots(17, 18), LEFT)
damage(WAITING, 0, LEFT, '23: 17 18; 17 18; 0')
set_name(b'B', 'refused 201')
take('refused 201')
damage(WAITING, 2, LEFT)
take('left 17 02')
damage(WAITING, 1, HEADSET, '64:;; 1')
take('refused 201')
damage(WAITING, 0, HEADSET)
take('screen 1 41')

# ATT_MTU is not 23 to 517 (SCOPE 20.5).
case('a wrong ATT_MTU in a record')
two_results()
for mtu in (0, 2, 22, 518, LONGEST):
    damage(MTU, mtu, LEFT, '%d: 17 18; 17 18; 2' % mtu, '%d:;; 0' % mtu)
    take('refused 201')
    read(LEFT, 1, 0, 'refused 201')
damage(MTU, 23, LEFT)
damage(MTU, 22, HEADSET, '22:;; 0', '22:;; 0')
take('refused 201')
damage(MTU, 64, HEADSET)
take('left 17 02')

# The place of the round is none of the 28 (SCOPE 20.5).
case('a wrong mark of a round')
two_results()
for mark in (28, 31, 32, LONGEST):
    damage(MARK, mark, LEFT)
    take('refused 201')
# 17, which is slot 12, was served last, says the mark now: 18 comes next.
damage(MARK, 12, LEFT)
take('left 18 01 01')
damage(TURN, 4)
take('refused 201')
# The left one was served last, says the turn now.
damage(TURN, 0)
take('screen 1 41')

# A slot is subscribed while unencrypted (SCOPE 20.5).
case('a subscription while unencrypted')
two_results()
damage(ENCRYPTION, OPEN, LEFT)
disconnect(LEFT, 'refused 201')
damage(ENCRYPTION, ENCRYPTED, LEFT)
damage(ENCRYPTION, OPEN, SCREEN)
take('refused 201')
damage(ENCRYPTION, ENCRYPTED, SCREEN)
take('left 17 02')
# Without a subscription it is a client connected unencrypted.
damage(ENCRYPTION, OPEN, HEADSET)
read(HEADSET, 1, 0, 'refused 0x0F')
subscribe(HEADSET, 1, 'refused 0x0F')

# The slots of a client are one set of fourteen bits (SCOPE 19.7): others mean nothing, and the changed marks are of what may be read.
case('bits outside the sets')
two_results()
damage(SUBSCRIBED, 1 << 14 | slots(17, 18), LEFT, '23: 17 18 +; 17 18; 2')
take('refused 201')
damage(OWED, 1 << 14 | slots(17, 18), LEFT, '23: 17 18 +; 17 18 +; 2')
take('refused 201')
damage(SUBSCRIBED, slots(17, 18), LEFT, '23: 17 18; 17 18 +; 2')
take('refused 201')
damage(OWED, slots(17, 18), LEFT)
damage(SUBSCRIBED, 1 << 31, HEADSET, '64: +;; 0')
take('refused 201')
damage(SUBSCRIBED, slots(), HEADSET)
for characteristic in (0, 2, 4, 18, 20, 31):
    damage(FRESH, 1 << characteristic, HEADSET)
    take('refused 201')
damage(FRESH, sum(1 << characteristic for characteristic in EIGHTEEN if characteristic not in (4, 18)), HEADSET)
read(HEADSET, 5, 8, 'read 72 74')
take('left 17 02')

# A client that is not connected does not have start's record (SCOPE 20.5).
case('an unconnected record that is not that of start')
two_results()
for part, wrong, right in (
        (ENCRYPTION, ENCRYPTED, OPEN),
        (MTU, 24, 23),
        (SUBSCRIBED, slots(1), slots()),
        (OWED, slots(1), slots()),
        (FRESH, 2, 0),
        (MARK, 0, 27),
        (MARK, 13, 27),
        (MARK, 26, 27),
        (MARK, 28, 27),
        (WAITING, 1, 0)):
    damage(part, wrong, RIGHT)
    take('refused 201')
    connect(RIGHT, 23, ENCRYPTED, 'refused 201')
    disconnect(RIGHT, 'refused 201')
    damage(part, right, RIGHT)
    disconnect(RIGHT, 'refused 203')
# Results that do not wait are dead there too.
damage(CODE, 7, RIGHT)
connect(RIGHT, 23, ENCRYPTED, 'done')
subscribe(RIGHT, 18, 'done')
control(RIGHT, STOP, 'Paused 3 0 0 | 1 0 0', 'right 18')
take('left 17 02')
take('right 18 05 01')
# What a connected one holds is not start's.
damage(CONNECTED, 0, LEFT, '-', '-')
take('refused 201')
damage(CONNECTED, 1, LEFT)
take('screen 1 41')
take('left 18 01 01')
take('left 18 02 01')
take('nothing')


# ---- All that a service can owe

def subscribe_to_all(services):
    """The four clients connect with the least ATT_MTU, and subscribe to every slot of these services."""
    for who in range(4):
        connect(who, 23, ENCRYPTED, 'done')
        for service in services:
            for characteristic in SLOTS:
                subscribe(who, characteristic, 'done', service=service)


def every_slot_falls_due(name):
    """From Inactive: the fourteen slots of a service fall due to each of the four clients, all of which subscribed to them, and one result to each."""
    set_name(name, 'done', 'left 1; right 1; headset 1; screen 1')
    activate(1, 'done', 'Paused 3 0 0 | 1 0 0', '; '.join(who + ' 4 5 6 7 11 12 13 14 17' for who in ('left', 'right', 'headset', 'screen')))
    write(RIGHT, 8, [1], 'done', 'Paused 3 1 0 | 1 0 0', 'left 8; headset 8; screen 8')
    write(HEADSET, 8, [2], 'done', 'Paused 3 2 0 | 1 0 0', 'left 8; right 8; screen 8')
    write(RIGHT, 15, [4], 'done', 'Paused 4 2 0 | 1 0 0', 'left 15; headset 15; screen 15')
    # Track 1 comes next in orders 3 and 4, and none in order 5: the writer of 15 is owed 12.
    write(HEADSET, 15, [5], 'done', 'Paused 5 2 0 | 1 0 0', 'left 12 15; right 12 15; headset 12; screen 12 15')
    control(LEFT, FORWARD, 'Seeking 5 2 4 | 1 0 0', 'left 9 17 18; right 9 17; headset 9 17; screen 9 17')
    control(RIGHT, FORWARD, 'Seeking 5 2 8 | 1 0 0', 'left 9; right 9 18; headset 9; screen 9')
    control(HEADSET, FORWARD, 'Seeking 5 2 16 | 1 0 0', 'left 9; right 9; headset 9 18; screen 9')
    control(SCREEN, FORWARD, 'Seeking 5 2 32 | 1 0 0', 'left 9; right 9; headset 9; screen 9 18')
    seen(*['23: %s; %s; 1' % (EVERY, EVERY)] * 4)


def every_slot(name):
    """The characteristics and octets that are then handed out, in the order of the slots."""
    return ('1' + octets(name), '4', '5 c3 9c 62 65 72 66 61 68 72 74', '6 70 17 00 00', '7 00 00 00 00', '8 02', '9 20', '11 00 10 00 00 00 00', '12',
            '13 00 20 00 00 00 00', '14 01 20 00 00 00 00', '15 05', '17 03', '18 04 01')


# Both rounds go round once: the four clients, and the slots of each.
case('fifty-six takes')
start(b'A', ALL, 7, 'done', 'Inactive 3 0 0 | 0 0 0')
subscribe_to_all((GENERIC,))
# The left pedal is served 18, so that both rounds go on behind it.
control(LEFT, PLAY, 'Inactive 3 0 0 | 0 0 0', 'left 18')
take('left 18 01 03')
every_slot_falls_due(b'B')
for served in every_slot(b'B'):
    for who in ('right', 'headset', 'screen', 'left'):
        take('%s %s' % (who, served))
take('nothing')
