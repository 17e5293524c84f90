"""The calls of a script on the whole: each adds its frame and, beside it, the line that it must give.

A frame is an octet for the catalogue, one for the call, one for the client, one for the service, one for the characteristic, a little endian word that
the call takes, an octet for the room of the lent output, two, little endian, for the length of the text, and the text. The octet of the characteristic
is whether it is encrypted of a connect, and the part of the state of damage. A start has service 0's mask in the word and its Content Control ID in the
octet of the characteristic; its text is an octet with the length of service 0's name, that name, four octets, little endian, with service 1's mask, one
with its Content Control ID, and service 1's name. The manual's Goto (SCOPE 15.1) has its signed number in the word; its text is two words,
little endian: the allowed steps, and the opcode.

A frame of titles is no call: it says what the office's titles (SCOPE 5.1) are that are lent to every call behind it. Where its octet of the
characteristic is 1, nothing is renamed: an empty text and an entry of zeros for each track of the catalogue that the call is made with; the script
begins with these. Where it is 0, the word is the number of the entries' words, at most 64; the text is these words, little endian, and behind them the
office's text, at most 1,024 octets. Its line is 'titles none', or 'titles' with the numbers of words and of octets, and no state.

A line is the answer and, for each of the two services (SCOPE 17.1), the state of its player that the call leaves and what is seen of each of the
four clients in it. The state of a player is written

    media state, playing order, playback speed, seeking speed | group, track, position, next

with the number of the named next track (SCOPE 14.4) as the last part, or '-' where none is named. In the script the last part is left out where none is.
The position is followed at once by '+' and the rest (SCOPE 13.3), in 65,536ths of a hundredth of a second, where the rest is not 0: '1 0 1500+32768' is half
a hundredth past 1500 of track 0.
The state stays as it is where a call is refused, is one that does not touch the player, or is to the other service. The answer of a refused call is
'refused', the number and, behind it, what 200 and 207 carry (SCOPE 20.4): 'refused 200 1 5' has the track and the offset of a bad title, 'refused 207 0' the
offset within the name. A plain 200 and every other refusal carry nothing. The answer of the title call (SCOPE 5.8) is 'title card' or 'title office', by the
text that the title of the service's current track stands in, the offset there, the length, and the octets. The answer of the manual's Goto is 'goto',
the outcome, the steps that are counted, 'at', and the group, track and position where the player would be, with the rest as in a state. The outcome is
a result of the control point, or 0 where the allowed steps ran out: 'goto 1 2 at 1 0 1500', 'goto 0 3 at 1 0 777+12'.

A call is to the service that it names or, where it names none, to the one that `on` named last. What falls due by it is given as characteristics of that
service behind the client: 'left 17 18; screen 17'. Each client is seen in each service, as 'ATT_MTU: subscribed; owed; waiting results', or '-' while it
is unconnected. Of these only the sums are kept here: what fell due is added to what is owed, what a take hands out (or an unsubscribe drops) leaves it,
and `seen` holds them to what was worked out by hand.
"""
import struct

# The catalogues of the program: the sample (SCOPE 22.1), whose text is the 10 octets '\xC3\x9Cberfahrt', the 4 octets 'Rast' and the 4 octets 'Ziel', the
# titles of tracks 0, 1 and 3 at 0, 10 and 14, with that of track 2 empty at 14; the same with long titles; one whose group 3 is its own parent; one whose
# groups end inside a record; the sample with other segments in track 0, from 0, 200, 450 and 5800 on, of which the first two and the last are shorter than
# 300; the sample with tracks 1, 2 and 3 still running, the first of them with segments from 0, 1500 and 8639999 on; the sample with other titles, whose text
# is the 8 octets 'Pr\xC3\xA9lude', the 10 octets 'Inter\xC3ezzo' and the 4 octets 'Cod\xFF', so that the titles of tracks 1 and 3 are bad, at 5 and at 3, and
# that of track 2 is empty; the same with group 3 its own parent; the sample with folders, group 0 with track 0, group 1 in it with tracks 1 and 2, and in
# that one group 2 without tracks and group 3 with track 3; one of 64 groups, of which the last has all 256 tracks, of duration 0, without segments and with
# empty titles, and the others none.
SAMPLE, LONG, OWN_PARENT, CUT, CLOSE, RUNNING, BAD_TITLES, BAD_AND_WRONG, FOLDERS, MANY = range(10)

(NOTE, START, SET_NAME, ACTIVATE, DEACTIVATE, ADVANCE, CONNECT, DISCONNECT, SUBSCRIBE, UNSUBSCRIBE, READ, WRITE, TAKE, DAMAGE,
 TITLES, TITLE, MANUAL_GOTO) = range(17)

# The two services: the generic one, 0, and that of the named player (SCOPE 17.1).
GENERIC, NAMED = range(2)
SERVICES = (GENERIC, NAMED)

# The four clients.
LEFT, RIGHT, HEADSET, SCREEN = range(4)
CLIENTS = ('left', 'right', 'headset', 'screen')
ENCRYPTED, OPEN = 1, 0

PLAY, PAUSE, REWIND, FORWARD, STOP, RELATIVE = 0x01, 0x02, 0x03, 0x04, 0x05, 0x10
PREVIOUS_SEGMENT, NEXT_SEGMENT, FIRST_SEGMENT, LAST_SEGMENT, GOTO_SEGMENT = 0x20, 0x21, 0x22, 0x23, 0x24
PREVIOUS_TRACK, NEXT_TRACK, FIRST_TRACK, LAST_TRACK, GOTO_TRACK = 0x30, 0x31, 0x32, 0x33, 0x34
PREVIOUS_GROUP, NEXT_GROUP, FIRST_GROUP, LAST_GROUP, GOTO_GROUP = 0x40, 0x41, 0x42, 0x43, 0x44
ALL = 0x1FFFFF
LONGEST = 4294967295

# Parts of the state: of a service's player, the client served last, of a client's record. REST is that of the clock (SCOPE 13.3). NEXT is 0 where no next
# track is named, else the number of the named one plus 1. Of the record's parts CONNECTED, ENCRYPTION, MTU and MARK are the client's in both services.
REST, MEDIA, PLAYING_ORDER, SEEKING_SPEED, GROUP, TRACK, PLACE, NEXT, NAME_LENGTH, NAME_FIRST, TURN = range(11)
CONNECTED, ENCRYPTION, MTU, SUBSCRIBED, OWED, FRESH, MARK, WAITING, CODE = range(11, 20)

FRAMES, LINES = [], []
CASES = [0]
# The service that a call is to where it names none.
ON = [GENERIC]
# The state of each service's player.
PLAYERS = ['' for _ in SERVICES]


class Record:
    """What is seen of a connected client in a service."""

    def __init__(self, mtu):
        self.mtu, self.subscribed, self.owed, self.waiting = mtu, set(), set(), 0

    def __str__(self):
        def listed(numbers):
            return ''.join(' %d' % number for number in sorted(numbers))
        return '%d:%s;%s; %d' % (self.mtu, listed(self.subscribed), listed(self.owed), self.waiting)


RECORDS = [[None] * 4 for _ in SERVICES]
# What a damaged record shows.
DAMAGED = [[None] * 4 for _ in SERVICES]


def on(service):
    """The calls from here on are to this service, where they do not name one."""
    ON[0] = service


def to(service):
    return ON[0] if service is None else service


def fields(service):
    """What is seen of the four clients in a service."""
    return [damaged or str(record or '-') for damaged, record in zip(DAMAGED[service], RECORDS[service])]


def whole(state):
    """The state of a player with all its parts: four on each side."""
    return state if len(state.split('|')[1].split()) == 4 else state + ' -'


def frame(catalogue, call, who, service, octet, number, room, text, line):
    FRAMES.append(struct.pack('<BBBBBIBH', catalogue, call, who, service, octet & 0xFF, number & 0xFFFFFFFF, room, len(text)) + text)
    LINES.append(line)


def made(call, who, service, octet, number, text, answer, catalogue, room=128):
    shown = [answer]
    for each in SERVICES:
        shown += [whole(PLAYERS[each])] + fields(each)
    frame(catalogue, call, who, service, octet, number, room, text, ' | '.join(shown))


def case(name):
    CASES[0] += 1
    words = '%d %s' % (CASES[0], name)
    frame(SAMPLE, NOTE, 0, 0, 0, 0, 0, words.encode('ascii'), '# ' + words)


def seen(*clients, service=None):
    """What is seen of the four clients in a service by now, worked out by hand."""
    assert fields(to(service)) == list(clients), (CASES[0], fields(to(service)))


def becomes(service, answer, state, owed):
    """An accepted call leaves a state and makes slots due; a refused one alters nothing, and a state beside it is the one that there was."""
    if answer != 'done':
        assert (state is None or state == PLAYERS[service]) and not owed, (CASES[0], state)
        return
    PLAYERS[service] = state
    for each in filter(None, owed.split('; ')):
        words = each.split()
        record = RECORDS[service][CLIENTS.index(words[0])]
        numbers = set(map(int, words[1:]))
        assert numbers <= record.subscribed, (CASES[0], each)
        record.owed |= numbers
        record.waiting += 18 in numbers


def octets(text):
    return ''.join(' %02x' % octet for octet in text)


def word(number):
    return struct.pack('<I', number & 0xFFFFFFFF)


def track_object(track):
    """Track t is object 0x1000 + t, group g 0x2000 + g, the segments of t 0x3000 + t (SCOPE 7.1); a number of six octets."""
    return (0x1000 + track).to_bytes(6, 'little')


def group_object(group):
    return (0x2000 + group).to_bytes(6, 'little')


def segments_object(track):
    return (0x3000 + track).to_bytes(6, 'little')


# ---- The calls

# What a start gives the service that the script says nothing of: another name, no opcode, another Content Control ID.
BESIDE = (b'Beside', 0, 42)


def start(name, mask, ccid, answer, state=None, catalogue=SAMPLE, beside=BESIDE):
    """Start names both players at once (SCOPE 17.6): the one that the calls are to, and the one beside it."""
    becomes(ON[0], answer, state, '')
    if answer == 'done':
        PLAYERS[:] = [state for _ in SERVICES]
        for records in RECORDS:
            records[:] = [None] * 4
    generic, named = ((name, mask, ccid), beside) if ON[0] == GENERIC else (beside, (name, mask, ccid))
    text = bytes([len(generic[0])]) + generic[0] + word(named[1]) + bytes([named[2]]) + named[0]
    made(START, 0, 0, generic[2], generic[1], text, answer, catalogue)


def set_name(name, answer, owed='', catalogue=SAMPLE, service=None):
    service = to(service)
    becomes(service, answer, PLAYERS[service] if answer == 'done' else None, owed)
    made(SET_NAME, 0, service, 0, 0, name, answer, catalogue)


def activate(group, answer, state=None, owed='', catalogue=SAMPLE, service=None):
    becomes(to(service), answer, state, owed)
    made(ACTIVATE, 0, to(service), 0, group, b'', answer, catalogue)


def deactivate(answer, state=None, owed='', catalogue=SAMPLE, service=None):
    becomes(to(service), answer, state, owed)
    made(DEACTIVATE, 0, to(service), 0, 0, b'', answer, catalogue)


def advance(d, answer, state=None, owed='', catalogue=SAMPLE, service=None):
    becomes(to(service), answer, state, owed)
    made(ADVANCE, 0, to(service), 0, d, b'', answer, catalogue)


def connect(who, mtu, encrypted, answer, catalogue=SAMPLE):
    """Connect and disconnect act on both services (SCOPE 17.9)."""
    if answer == 'done':
        for records in RECORDS:
            records[who] = Record(mtu)
    made(CONNECT, who, 0, encrypted, mtu, b'', answer, catalogue)


def disconnect(who, answer, catalogue=SAMPLE):
    if answer == 'done':
        for records in RECORDS:
            records[who] = None
    made(DISCONNECT, who, 0, 0, 0, b'', answer, catalogue)


def subscribe(who, characteristic, answer, catalogue=SAMPLE, service=None):
    if answer == 'done':
        RECORDS[to(service)][who].subscribed.add(characteristic)
    made(SUBSCRIBE, who, to(service), characteristic, 0, b'', answer, catalogue)


def unsubscribe(who, characteristic, answer, catalogue=SAMPLE, service=None):
    if answer == 'done':
        record = RECORDS[to(service)][who]
        record.subscribed.discard(characteristic)
        record.owed.discard(characteristic)
        if characteristic == 18:
            record.waiting = 0
    made(UNSUBSCRIBE, who, to(service), characteristic, 0, b'', answer, catalogue)


def read(who, characteristic, offset, answer, room=128, catalogue=SAMPLE, service=None):
    made(READ, who, to(service), characteristic, offset, b'', answer, catalogue, room)


def write(who, characteristic, value, answer, state=None, owed='', catalogue=SAMPLE, service=None):
    becomes(to(service), answer, state, owed)
    made(WRITE, who, to(service), characteristic, 0, bytes(value), answer, catalogue)


def control(who, opcode, state, owed, number=None, catalogue=SAMPLE, service=None):
    """An accepted control write; its result is seen when it is taken."""
    write(who, 18, bytes([opcode]) + (b'' if number is None else word(number)), 'done', state, owed, catalogue, service)


def take(answer, room=128, catalogue=SAMPLE, service=None):
    """'left 17 02': the client, the characteristic of the service and its octets; or 'nothing'; or a refusal. A take is a call to neither (SCOPE 19.1)."""
    words = answer.split()
    if words[0] in CLIENTS:
        who = CLIENTS.index(words[0])
        record, characteristic = RECORDS[to(service)][who], int(words[1])
        if characteristic == 18:
            record.waiting -= 1
        if characteristic != 18 or record.waiting == 0:
            record.owed.remove(characteristic)
        answer = ' '.join(['take', str(who), str(to(service))] + words[1:])
    made(TAKE, 0, 0, 0, 0, b'', answer, catalogue, room)


def damage(part, number, who=0, shows=None, beside=None, state=None, service=None):
    """A part of the state becomes anything; `shows` is what is then seen of the client in the service and `beside` in the other one, `state` of the
    service's player."""
    service = to(service)
    PLAYERS[service] = state or PLAYERS[service]
    for each in SERVICES:
        DAMAGED[each][who] = shows if each == service else beside
    made(DAMAGE, who, service, part, number, b'', 'damaged', SAMPLE)


def titles(entries=None, text=b''):
    """The office's titles from here on: an offset and a length for each track, where length 0 says that it is not renamed (SCOPE 5.1, 5.2),
    in the office's text. An entry of one word is one that the table ends in. Without entries nothing is renamed."""
    if entries is None:
        frame(SAMPLE, TITLES, 0, 0, 1, 0, 0, b'', 'titles none')
        return
    words = [number for entry in entries for number in entry]
    assert len(words) <= 64 and len(text) <= 1024, (CASES[0], len(words), len(text))
    frame(SAMPLE, TITLES, 0, 0, 0, len(words), 0, b''.join(map(word, words)) + text, 'titles %d %d' % (len(words), len(text)))


def title(answer, catalogue=SAMPLE, service=None):
    """'title office 6 3 4b 61 69': the text, the offset, the length and the octets of the title; or a refusal."""
    made(TITLE, 0, to(service), 0, 0, b'', answer, catalogue)


def manual_goto(opcode, number, allowed, answer, catalogue=SAMPLE, service=None):
    """'goto 1 2 at 1 0 1500': the outcome, the steps and the place of the manual's Goto (SCOPE 15.1), with so many steps allowed; or a refusal."""
    made(MANUAL_GOTO, 0, to(service), 0, number, word(allowed) + word(opcode), answer, catalogue)
