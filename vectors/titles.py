"""The cases of the office's own titles (SCOPE 5.1), which vectors/script.py puts behind the object numbers'.

Each call has its answer, the state of the player that it leaves and what falls due by it to whom beside it, worked out by hand from the rules that
docs/SCOPE.md has. vectors/calls.py says how they are written, and where the card's own titles stand. The calls are to the generic service where they name none.
Titles that are lent stay lent until others are, so each case begins with its own. Which entries and texts are refused is tried on the catalogue alone in
vectors/make.py, over more of them and over full tables.

A comment that names a rule, such as SCOPE 18.2, says it in a few words; docs/SCOPE.md has the rule.
"""
from calls import (
    ALL, BAD_AND_WRONG, BAD_TITLES, CLOSE, CUT, ENCRYPTED, FOLDERS, FORWARD, GENERIC, LAST_TRACK, LEFT, LONG, LONGEST, MANY, NAMED, NEXT_GROUP,
    NEXT_TRACK, OWN_PARENT, PAUSE, PLAY, PREVIOUS_TRACK, RIGHT, RUNNING, SCREEN, SERVICES, STOP, TURN,
    activate, advance, case, connect, control, damage, deactivate, group_object, octets, on, read, seen, set_name, start, take, title, titles,
    track_object, unsubscribe, word, write,
)
from office import GESPRAECH, LONG_NAME, RAST, UEBERFAHRT, WRONG_PLAYERS, ZIEL, before_the_others, come, each_call, office
from services import NO_SERVICES, desks, each_call_to, seen_in_both, take_generic, take_named

# Titles of 6, 3, 6 and 5 octets, and one of 128. LONG_NAME, of 128 octets too, is a title here.
FAEHRE, KAI, STILLE, HAFEN = 'Fähre'.encode(), b'Kai', b'Stille', b'Hafen'
TWICE = GESPRAECH + GESPRAECH


def rename(*own):
    """The office's own titles of tracks 0 to 3, one behind the other in its text; None is a track that is not renamed."""
    entries, text = [], b''
    for each in own:
        entries.append((0, 0) if each is None else (len(text), len(each)))
        text += each or b''
    titles(entries, text)


def one_entry(track, entry, text):
    """This entry is one of the four tracks', and the other tracks are not renamed."""
    titles([entry if each == track else (0, 0) for each in range(4)], text)


on(GENERIC)


# ---- 5 is the title of the current track (SCOPE 16.3): which title is shown, and which part it is

case('renamed tracks and others')
rename(FAEHRE, None, STILLE, None)
office('5 18', screen='4 5 7')
read(LEFT, 5, 0, 'read' + octets(FAEHRE))
title('title office 0 6' + octets(FAEHRE))
control(LEFT, NEXT_TRACK, 'Paused 3 0 0 | 1 1 0', 'left 5 18; screen 4 5 7')
title('title card 10 4' + octets(RAST))
take('left 5' + octets(RAST))
take('screen 4')
take('left 18 31 01')
take('screen 5' + octets(RAST))
take('screen 7 00 00 00 00')
take('nothing')
read(LEFT, 5, 0, 'read' + octets(RAST))
# The title of track 2 is empty on the card.
control(LEFT, NEXT_TRACK, 'Paused 3 0 0 | 1 2 0', 'left 5 18; screen 4 5 7')
title('title office 6 6' + octets(STILLE))
take('left 5' + octets(STILLE))
take('screen 4')
take('left 18 31 01')
take('screen 5' + octets(STILLE))
take('screen 7 00 00 00 00')
take('nothing')
read(SCREEN, 5, 0, 'read' + octets(STILLE))
control(LEFT, NEXT_GROUP, 'Paused 3 0 0 | 3 3 0', 'left 5 18; screen 4 5 7')
title('title card 14 4' + octets(ZIEL))
take('left 5' + octets(ZIEL))
take('screen 4')
take('left 18 41 01')
take('screen 5' + octets(ZIEL))
take('screen 7 00 00 00 00')
take('nothing')

# The others the other way round, and a title that is empty: the card's, at its own offset.
case('the other tracks renamed')
rename(None, KAI, None, HAFEN)
office('')
for track, place, shown in ((0, 'card 0 10', UEBERFAHRT), (1, 'office 0 3', KAI), (2, 'card 14 0', b'')):
    write(LEFT, 11, track_object(track), 'done', 'Paused 3 0 0 | 1 %d 0' % track)
    title('title ' + place + octets(shown))
    read(LEFT, 5, 0, 'read' + octets(shown))
write(LEFT, 14, group_object(3), 'done', 'Paused 3 0 0 | 3 3 0')
title('title office 3 5' + octets(HAFEN))
read(LEFT, 5, 0, 'read' + octets(HAFEN))

# A title alone is renamed: the other values are what they were.
case('every track renamed')
rename(FAEHRE, KAI, STILLE, HAFEN)
office('')
for track, place, shown in ((0, 'office 0 6', FAEHRE), (2, 'office 9 6', STILLE), (1, 'office 6 3', KAI)):
    write(LEFT, 11, track_object(track), 'done', 'Paused 3 0 0 | 1 %d 0' % track)
    title('title ' + place + octets(shown))
    read(LEFT, 5, 0, 'read' + octets(shown))
write(LEFT, 14, group_object(3), 'done', 'Paused 3 0 0 | 3 3 0')
title('title office 15 5' + octets(HAFEN))
read(LEFT, 5, 0, 'read' + octets(HAFEN))
read(LEFT, 1, 0, 'read 44 65 73 6b')
read(LEFT, 6, 0, 'read 84 03 00 00')
read(LEFT, 11, 0, 'read' + octets(track_object(3)))
read(LEFT, 14, 0, 'read' + octets(group_object(3)))

# Length 0 says that the track is not renamed (SCOPE 5.2): such an entry is not looked at further, whatever its offset is.
case('an office that renames nothing')
titles()
office('')
for entries, text in (
        (None, b''),
        ([(0, 0)] * 4, b''),
        ([(0, 0)] * 4, FAEHRE),
        ([(6, 0)] * 4, FAEHRE),
        ([(7, 0)] * 4, FAEHRE),
        ([(2, 0), (129, 0), (0x80000000, 0), (LONGEST, 0)], FAEHRE),
        ([(LONGEST, 0)] * 4, b''),
        ([(0, 0), (1, 0), (2, 0), (3, 0)], b'\xFF\xC3\x80')):
    titles(entries, text)
    write(LEFT, 11, track_object(0), 'done', 'Paused 3 0 0 | 1 0 0')
    title('title card 0 10' + octets(UEBERFAHRT))
    read(LEFT, 5, 0, 'read' + octets(UEBERFAHRT))
    write(LEFT, 11, track_object(2), 'done', 'Paused 3 0 0 | 1 2 0')
    title('title card 14 0')
    read(LEFT, 5, 0, 'read')

case('a renamed title in each media state')
rename(FAEHRE, KAI, None, None)
office('')
for opcode, state in ((PLAY, 'Playing 3 0 0 | 1 0 0'), (FORWARD, 'Seeking 3 0 4 | 1 0 0'), (PAUSE, 'Paused 3 0 0 | 1 0 0'),
                      (STOP, 'Paused 3 0 0 | 1 0 0')):
    control(LEFT, opcode, state, '')
    title('title office 0 6' + octets(FAEHRE))
    read(LEFT, 5, 0, 'read' + octets(FAEHRE))
# Refused or Inactive, the part is the empty front of the card's text (SCOPE 5.7).
deactivate('done', 'Inactive 3 0 0 | 0 0 0')
title('title card 0 0')
read(LEFT, 5, 0, 'read')

case('titles while no track was ever current')
rename(FAEHRE, KAI, STILLE, HAFEN)
start(b'Desk', ALL, 7, 'done', 'Inactive 3 0 0 | 0 0 0')
connect(LEFT, 23, ENCRYPTED, 'done')
for service in SERVICES:
    title('title card 0 0', service=service)
    read(LEFT, 5, 0, 'read', service=service)
titles([(0, 0)] * 4, FAEHRE)
title('title card 0 0')
titles()
title('title card 0 0')
take('nothing')


# ---- Parts of the office's text

case('where a part may stand')
titles()
office('', screen='')
for entry, text, shown in (
        ((0, 6), FAEHRE, FAEHRE),
        # Its last octet is the text's.
        ((3, 3), FAEHRE, b'hre'),
        ((5, 1), FAEHRE, b'e'),
        ((0, 1), FAEHRE, b'F'),
        ((0, 3), FAEHRE, b'F\xC3\xA4'),
        ((1, 2), FAEHRE, b'\xC3\xA4'),
        ((1, 5), FAEHRE, b'\xC3\xA4hre'),
        ((0, 1), b'\0', b'\0'),
        ((0, 4), b'\xF4\x8F\xBF\xBF', b'\xF4\x8F\xBF\xBF'),
        # Text that is in no part need not be UTF-8.
        ((1, 3), b'\xFFKai\xFF', KAI),
        ((3, 3), b'\xF0\x9D\x84Kai\xC3', KAI),
        # The card's text has 18 octets, and says nothing of the office's.
        ((18, 3), b'.' * 18 + KAI, KAI),
        # Lengths up to 128, wherever they stand.
        ((0, 127), b'h' * 127, b'h' * 127),
        ((0, 128), LONG_NAME, LONG_NAME),
        ((0, 128), LONG_NAME + b'\xFF', LONG_NAME),
        ((1, 128), b'\xFF' + LONG_NAME, LONG_NAME),
        ((896, 128), b'.' * 896 + LONG_NAME, LONG_NAME)):
    one_entry(0, entry, text)
    title('title office %d %d' % entry + octets(shown))
    read(SCREEN, 5, 0, 'read' + octets(shown))
    # Of a track that is not the current one.
    one_entry(3, entry, text)
    title('title card 0 10' + octets(UEBERFAHRT))
    read(SCREEN, 5, 0, 'read' + octets(UEBERFAHRT))

# 224: a length over 128, a part of length above 0 that is outside the text or not UTF-8 (SCOPE 5.3), of the current track, which is 0, or of another.
case('parts that are refused')
titles()
office('', screen='')
for entry, text in (
        # Beyond the text: by one octet, and by more.
        ((0, 7), FAEHRE),
        ((1, 6), FAEHRE),
        ((5, 2), FAEHRE),
        ((6, 1), FAEHRE),
        ((7, 1), FAEHRE),
        ((0, 128), FAEHRE),
        ((1000, 1), FAEHRE),
        ((0, 1), b''),
        # In the card's text, and not in the office's.
        ((10, 4), FAEHRE),
        # Offset and length together are 2 to the power 32 or more.
        ((LONGEST, 1), FAEHRE),
        ((LONGEST, 2), FAEHRE),
        ((0xFFFFFFFC, 8), FAEHRE),
        ((0xFFFFFF80, 128), LONG_NAME),
        ((0xFFFFFF81, 128), LONG_NAME),
        ((0x80000000, 128), LONG_NAME),
        # Over 128 octets, though the text has them.
        ((0, 129), b'h' * 129),
        ((0, 129), b'h' * 1024),
        ((0, 255), b'h' * 1024),
        ((0, 256), b'h' * 1024),
        ((0, 1024), b'h' * 1024),
        ((0, 0x10003), FAEHRE),
        ((0, 0x80000003), FAEHRE),
        ((1, LONGEST), FAEHRE),
        ((0x80000000, 0x80000000), FAEHRE),
        # Cut inside a character at its end, though the text goes on with the rest, and at its beginning.
        ((0, 2), FAEHRE),
        ((2, 4), FAEHRE),
        ((2, 1), FAEHRE),
        ((0, 2), '€'.encode()),
        ((1, 2), '€'.encode()),
        ((0, 128), b'h' * 127 + b'\xC3\xA4'),
        ((1, 128), b'\xC3\xA4' + b'h' * 127),
        # Octets that are no UTF-8: an overlong form, a surrogate, above U+10FFFF, the text's end inside a character, an octet that never is.
        ((0, 2), b'\xC0\x80'),
        ((3, 4), b'Kai\xE0\x9F\xBFn'),
        ((0, 3), b'\xED\xA0\x80'),
        ((0, 4), b'\xF4\x90\x80\x80'),
        ((0, 5), b'Ka\xF0\x9D\x84'),
        ((0, 128), b'h' * 127 + b'\xFF')):
    for track in (0, 3):
        one_entry(track, entry, text)
        title('refused 224')
        take('refused 224')
        read(SCREEN, 5, 0, 'refused 224')
titles()
take('nothing')
title('title card 0 10' + octets(UEBERFAHRT))

# There is not one entry for each track (SCOPE 5.3); a table that ends inside an entry has not one for each track either.
case('not one entry for each track')
titles()
office('', screen='')
for entries in (
        [],
        [(0, 6)],
        [(0, 6)] * 3,
        [(0, 6)] * 5,
        [(0, 6)] * 8,
        [(0, 6)] * 3 + [(0,)],
        [(0, 6)] * 4 + [(0,)],
        [(0,)],
        # A word for each track.
        [(0,)] * 4,
        # What is missing, or is too many, would not rename.
        [(0, 0)] * 3,
        [(0, 0)] * 5,
        [(0, 0)] * 3 + [(0,)],
        [(0, 0)] * 4 + [(0,)],
        [(0, 0)] * 32):
    for text in (FAEHRE, b''):
        titles(entries, text)
        title('refused 224')
        take('refused 224')
titles([(0, 6)] * 4, FAEHRE)
title('title office 0 6' + octets(FAEHRE))
take('nothing')

# As many entries as the catalogue has tracks that the call is lent: four, or 256.
case('an entry for each track of the catalogue that is lent')
rename(FAEHRE, KAI, None, HAFEN)
start(b'Desk', ALL, 7, 'refused 224', catalogue=MANY)
start(b'Desk', ALL, 7, 'done', 'Inactive 3 0 0 | 0 0 0')
connect(LEFT, 23, ENCRYPTED, 'done')
activate(63, 'refused 224', catalogue=MANY)
take('refused 224', catalogue=MANY)
title('refused 224', catalogue=MANY)
titles([(0, 0)] * 32)
title('refused 224', catalogue=MANY)
titles()
activate(63, 'done', 'Paused 3 0 0 | 63 0 0', catalogue=MANY)
read(LEFT, 5, 0, 'read', catalogue=MANY)
rename(FAEHRE, KAI, None, HAFEN)
read(LEFT, 5, 0, 'refused 224', catalogue=MANY)
# The sample has no group 63.
title('refused 201')
for catalogue in (FOLDERS, RUNNING, CLOSE, LONG):
    start(b'Desk', ALL, 7, 'done', 'Inactive 3 0 0 | 0 0 0', catalogue=catalogue)
    activate(3, 'done', 'Paused 3 0 0 | 3 3 0', catalogue=catalogue)
    title('title office 9 5' + octets(HAFEN), catalogue=catalogue)

# Octet 0, octets 7 and 8 and octets 12 and 13 are no characters, and no title has them.
case('an office text that is not UTF-8 outside the parts')
NOT_UTF_8 = b'\xFF' + FAEHRE + b'\x80\xC3' + KAI + b'\xF0\x9D'
titles([(1, 6), (9, 3), (0, 0), (2, 2)], NOT_UTF_8)
office('5')
title('title office 1 6' + octets(FAEHRE))
read(LEFT, 5, 0, 'read' + octets(FAEHRE))
control(LEFT, NEXT_TRACK, 'Paused 3 0 0 | 1 1 0', 'left 5')
title('title office 9 3' + octets(KAI))
take('left 5' + octets(KAI))
activate(3, 'done', 'Paused 3 0 0 | 3 3 0', 'left 5')
title('title office 2 2 c3 a4')
take('left 5 c3 a4')
for entry in ((0, 7), (1, 7), (8, 4), (9, 4), (12, 1), (12, 2), (2, 1), (3, 4)):
    titles([(1, 6), (9, 3), entry, (2, 2)], NOT_UTF_8)
    title('refused 224')
titles([(1, 6), (9, 3), (12, 0), (2, 2)], NOT_UTF_8)
title('title office 2 2 c3 a4')
take('nothing')

case('parts that overlap')
titles([(0, 8), (5, 3), (3, 4), (0, 5)], b'Hafenkai')
office('')
for track, place, shown in ((0, 'office 0 8', b'Hafenkai'), (1, 'office 5 3', b'kai'), (2, 'office 3 4', b'enka')):
    write(LEFT, 11, track_object(track), 'done', 'Paused 3 0 0 | 1 %d 0' % track)
    title('title ' + place + octets(shown))
    read(LEFT, 5, 0, 'read' + octets(shown))
activate(3, 'done', 'Paused 3 0 0 | 3 3 0')
title('title office 0 5' + octets(HAFEN))
read(LEFT, 5, 0, 'read' + octets(HAFEN))

# The rules of a catalogue are as they were: a bad title of the card is refused, renamed or not.
case('a bad title of the card is renamed')
rename(None, b'Intermezzo', None, b'Coda')
start(b'Desk', ALL, 7, 'refused 200 1 5', catalogue=BAD_TITLES)
start(b'Desk', ALL, 7, 'done', 'Inactive 3 0 0 | 0 0 0')
title('refused 200 1 5', catalogue=BAD_TITLES)
title('refused 200', catalogue=BAD_AND_WRONG)
activate(3, 'refused 200 1 5', catalogue=BAD_TITLES)


# ---- A slot is owed to a subscribed client when a call changes its value (SCOPE 18.1). Equal octets are no change, from whichever text.

case('two tracks that share a part')
titles([(0, 6), (0, 6), (6, 3), (6, 3)], FAEHRE + KAI)
office('4 5 6 7 11 12', screen='5')
read(SCREEN, 5, 0, 'read' + octets(FAEHRE))
title('title office 0 6' + octets(FAEHRE))
control(LEFT, NEXT_TRACK, 'Paused 3 0 0 | 1 1 0', 'left 4 6 7 11 12')
title('title office 0 6' + octets(FAEHRE))
read(SCREEN, 5, 1, 'read' + octets(b'\xC3\xA4hre'))
take('left 4')
take('left 6 2c 01 00 00')
take('left 7 00 00 00 00')
take('left 11' + octets(track_object(1)))
take('left 12' + octets(track_object(2)))
take('nothing')
# To the other part. No track is behind track 2, and none behind track 3.
control(LEFT, NEXT_TRACK, 'Paused 3 0 0 | 1 2 0', 'left 4 5 6 7 11 12; screen 5')
read(SCREEN, 5, 1, 'refused 0x80')
read(SCREEN, 5, 0, 'read' + octets(KAI))
control(LEFT, NEXT_GROUP, 'Paused 3 0 0 | 3 3 0', 'left 4 6 7 11')
read(SCREEN, 5, 1, 'read 61 69')
title('title office 6 3' + octets(KAI))
take('screen 5' + octets(KAI))
take('left 4')
take('left 5' + octets(KAI))
take('left 6 84 03 00 00')
take('left 7 00 00 00 00')
take('left 11' + octets(track_object(3)))
take('left 12')
take('nothing')

# Tracks 0 and 1 show the same: two parts of the office's text, a part of it and the card's title, and the other way round.
for own, shown, first, second in (
        ((FAEHRE, FAEHRE), FAEHRE, 'office 0 6', 'office 6 6'),
        ((RAST, None), RAST, 'office 0 4', 'card 10 4'),
        ((None, UEBERFAHRT), UEBERFAHRT, 'card 0 10', 'office 0 10')):
    case('equal titles of two tracks')
    rename(*own, None, None)
    office('4 5', screen='4 5')
    read(LEFT, 5, 0, 'read' + octets(shown))
    title('title ' + first + octets(shown))
    control(LEFT, NEXT_TRACK, 'Paused 3 0 0 | 1 1 0', 'left 4; screen 4')
    title('title ' + second + octets(shown))
    read(LEFT, 5, 1, 'read' + octets(shown[1:]))
    take('left 4')
    take('screen 4')
    take('nothing')
    control(LEFT, PREVIOUS_TRACK, 'Paused 3 0 0 | 1 0 0', 'left 4; screen 4')
    read(LEFT, 5, 1, 'read' + octets(shown[1:]))
    take('left 4')
    take('screen 4')
    take('nothing')
    # The screen did not read it at 0.
    read(SCREEN, 5, 1, 'refused 0x80')

# A part of the office's text that is as long as the card's title, or as another part, or that begins like it, is another title.
for own, before, behind in (
        ((KAI, b'Kaj'), KAI, b'Kaj'),
        ((KAI, b'kai'), KAI, b'kai'),
        ((KAI, b'Kais'), KAI, b'Kais'),
        ((b'Kais', KAI), b'Kais', KAI),
        ((b'Rasd', None), b'Rasd', RAST),
        ((b'Ras', None), b'Ras', RAST),
        ((b'Rast.', None), b'Rast.', RAST),
        ((None, UEBERFAHRT[:9]), UEBERFAHRT, UEBERFAHRT[:9]),
        ((None, UEBERFAHRT + b'\0'), UEBERFAHRT, UEBERFAHRT + b'\0'),
        # The first 20 octets, which a take hands out, are the same: it is owed all the same.
        ((TWICE, TWICE[:127] + b'.'), TWICE, TWICE[:127] + b'.'),
        ((TWICE, TWICE[:127]), TWICE, TWICE[:127]),
        ((TWICE, GESPRAECH), TWICE, GESPRAECH)):
    case('titles of two tracks that are almost equal')
    rename(*own, None, None)
    office('4 5')
    read(LEFT, 5, 0, 'read' + octets(before[:22]))
    control(LEFT, NEXT_TRACK, 'Paused 3 0 0 | 1 1 0', 'left 4 5')
    read(LEFT, 5, 1, 'refused 0x80')
    take('left 4')
    take('left 5' + octets(behind[:20]))
    take('nothing')

# Tracks 0 and 1 have equal titles on that card, and the title of track 3 is theirs twice.
case('equal titles on the card, of which one is renamed')
rename(None, KAI, None, GESPRAECH)
office('4 5', catalogue=LONG)
read(LEFT, 5, 0, 'read' + octets(GESPRAECH[:22]), catalogue=LONG)
control(LEFT, NEXT_TRACK, 'Paused 3 0 0 | 1 1 0', 'left 4 5', catalogue=LONG)
read(LEFT, 5, 1, 'refused 0x80', catalogue=LONG)
take('left 4', catalogue=LONG)
take('left 5' + octets(KAI), catalogue=LONG)
control(LEFT, PREVIOUS_TRACK, 'Paused 3 0 0 | 1 0 0', 'left 4 5', catalogue=LONG)
take('left 4', catalogue=LONG)
take('left 5' + octets(GESPRAECH[:20]), catalogue=LONG)
read(LEFT, 5, 0, 'read' + octets(GESPRAECH[:22]), catalogue=LONG)
# Different on the card, and equal as the office has it.
control(LEFT, NEXT_GROUP, 'Paused 3 0 0 | 3 3 0', 'left 4', catalogue=LONG)
title('title office 3 64' + octets(GESPRAECH), catalogue=LONG)
read(LEFT, 5, 44, 'read' + octets(GESPRAECH[44:]), catalogue=LONG)
read(LEFT, 5, 65, 'refused 0x07', catalogue=LONG)
take('left 4', catalogue=LONG)
take('nothing', catalogue=LONG)

case('who writes a track or a group is owed its title')
rename(FAEHRE, KAI, FAEHRE, KAI)
office('5 11 14', '5')
write(LEFT, 11, track_object(1), 'done', 'Paused 3 0 0 | 1 1 0', 'left 5; right 5')
take('left 5' + octets(KAI))
take('right 5' + octets(KAI))
take('nothing')
write(LEFT, 14, group_object(3), 'done', 'Paused 3 0 0 | 3 3 0', 'left 11')
write(LEFT, 14, group_object(1), 'done', 'Paused 3 0 0 | 1 0 0', 'left 5 11; right 5')
write(LEFT, 11, track_object(2), 'done', 'Paused 3 0 0 | 1 2 0')
take('left 11' + octets(track_object(2)))
take('right 5' + octets(FAEHRE))
take('left 5' + octets(FAEHRE))
take('nothing')


# ---- Pieces and changed marks

assert len(TWICE) == 128

# What is handed out is the present value, its first ATT_MTU − 3 octets (SCOPE 19.4); a read hands out up to ATT_MTU − 1 octets (SCOPE 17.13).
case('a long renamed title is taken and read in pieces')
rename(LONG_NAME, None, None, TWICE)
office('5', '5', '5', '5')
activate(3, 'done', 'Paused 3 0 0 | 3 3 0', 'left 5; right 5; headset 5; screen 5')
title('title office 128 128' + octets(TWICE))
take('left 5' + octets(TWICE[:20]))
take('right 5' + octets(TWICE[:21]))
take('headset 5' + octets(TWICE[:61]))
take('screen 5' + octets(TWICE))
activate(1, 'done', 'Paused 3 0 0 | 1 0 0', 'left 5; right 5; headset 5; screen 5')
title('title office 0 128' + octets(LONG_NAME))
take('left 5' + octets(LONG_NAME[:20]))
take('right 5' + octets(LONG_NAME[:21]), room=129)
take('headset 5' + octets(LONG_NAME[:61]), room=160)
take('screen 5' + octets(LONG_NAME), room=160)
take('nothing')
read(LEFT, 5, 0, 'read' + octets(LONG_NAME[:22]))
read(LEFT, 5, 22, 'read' + octets(LONG_NAME[22:44]), room=160)
read(LEFT, 5, 44, 'read' + octets(LONG_NAME[44:66]))
read(LEFT, 5, 66, 'read' + octets(LONG_NAME[66:88]))
read(LEFT, 5, 88, 'read' + octets(LONG_NAME[88:110]))
read(LEFT, 5, 110, 'read' + octets(LONG_NAME[110:]))
read(LEFT, 5, 128, 'read')
read(LEFT, 5, 129, 'refused 0x07')
read(LEFT, 5, LONGEST, 'refused 0x07')
read(RIGHT, 5, 0, 'read' + octets(LONG_NAME[:23]))
read(SCREEN, 5, 0, 'read' + octets(LONG_NAME))
read(SCREEN, 5, 100, 'read' + octets(LONG_NAME[100:]), room=160)

# A read above offset 0, where some call changed the value, even if it changed back, since the client's last accepted read of it at 0 (SCOPE 17.14).
case('a call changes the title between two pieces')
rename(LONG_NAME, KAI, None, TWICE)
office('', '')
read(LEFT, 5, 0, 'read' + octets(LONG_NAME[:22]))
read(LEFT, 5, 22, 'read' + octets(LONG_NAME[22:44]))
control(RIGHT, NEXT_TRACK, 'Paused 3 0 0 | 1 1 0', '')
read(LEFT, 5, 44, 'refused 0x80')
read(LEFT, 5, 3, 'refused 0x80')
control(RIGHT, PREVIOUS_TRACK, 'Paused 3 0 0 | 1 0 0', '')
read(LEFT, 5, 44, 'refused 0x80')
read(LEFT, 5, 0, 'read' + octets(LONG_NAME[:22]))
read(LEFT, 5, 44, 'read' + octets(LONG_NAME[44:66]))
# Calls that leave the title as it is, the title call among them.
control(RIGHT, PLAY, 'Playing 3 0 0 | 1 0 0', '')
advance(10, 'done', 'Playing 3 0 0 | 1 0 10')
set_name(b'Weber', 'done')
read(LEFT, 5, 66, 'read' + octets(LONG_NAME[66:88]))
title('title office 0 128' + octets(LONG_NAME))
read(LEFT, 5, 88, 'read' + octets(LONG_NAME[88:110]))
write(RIGHT, 14, group_object(3), 'done', 'Playing 3 0 0 | 3 3 0')
read(LEFT, 5, 110, 'refused 0x80')
read(LEFT, 5, 0, 'read' + octets(TWICE[:22]))
# The title call is no read at 0.
read(RIGHT, 5, 1, 'refused 0x80')
title('title office 131 128' + octets(TWICE))
read(RIGHT, 5, 1, 'refused 0x80')

# Values before and after a call are both read with what that call is lent: lending other titles marks nothing.
case('other titles are lent between two pieces')
rename(LONG_NAME, KAI, None, None)
office('', '')
read(LEFT, 5, 0, 'read' + octets(LONG_NAME[:22]))
rename(TWICE, KAI, None, None)
read(LEFT, 5, 22, 'read' + octets(TWICE[22:44]))
# The offset is above the length (SCOPE 20.2) of the title that is lent now: 64 octets, and the card's ten.
rename(GESPRAECH, KAI, None, None)
read(LEFT, 5, 44, 'read' + octets(GESPRAECH[44:]))
read(LEFT, 5, 64, 'read')
read(LEFT, 5, 65, 'refused 0x07')
titles()
read(LEFT, 5, 9, 'read 74')
read(LEFT, 5, 10, 'read')
read(LEFT, 5, 11, 'refused 0x07')
read(LEFT, 5, 22, 'refused 0x07')
rename(LONG_NAME, KAI, None, None)
read(LEFT, 5, 110, 'read' + octets(LONG_NAME[110:]))
# To lend a title is not to read it.
read(RIGHT, 5, 1, 'refused 0x80')
# As it is lent now the tracks 0 and 1 show the same.
rename(LONG_NAME, LONG_NAME, None, None)
control(RIGHT, NEXT_TRACK, 'Paused 3 0 0 | 1 1 0', '')
read(LEFT, 5, 44, 'read' + octets(LONG_NAME[44:66]))
rename(LONG_NAME, KAI, None, None)
read(LEFT, 5, 44, 'refused 0x07')
read(LEFT, 5, 3, 'read')
read(LEFT, 5, 1, 'read 61 69')
# As it is lent now they do not.
control(RIGHT, PREVIOUS_TRACK, 'Paused 3 0 0 | 1 0 0', '')
read(LEFT, 5, 1, 'refused 0x80')
read(LEFT, 5, 129, 'refused 0x80')
# The mark stays, also where the titles that are lent then would have made none, and where the title is what was read at 0.
rename(LONG_NAME, LONG_NAME, None, None)
read(LEFT, 5, 1, 'refused 0x80')
rename(KAI, KAI, None, None)
read(LEFT, 5, 1, 'refused 0x80')
read(LEFT, 5, 0, 'read' + octets(KAI))
read(LEFT, 5, 1, 'read 61 69')
# A refused call marks nothing.
one_entry(3, (0, 129), b'h' * 129)
write(RIGHT, 18, [NEXT_TRACK], 'refused 224')
read(LEFT, 5, 1, 'refused 224')
read(LEFT, 5, 0, 'refused 224')
titles()
read(LEFT, 5, 1, 'read' + octets(UEBERFAHRT[1:]))

case('a track renamed to its own title')
rename(UEBERFAHRT, RAST, None, ZIEL)
office('5')
title('title office 0 10' + octets(UEBERFAHRT))
read(LEFT, 5, 0, 'read' + octets(UEBERFAHRT))
titles()
title('title card 0 10' + octets(UEBERFAHRT))
read(LEFT, 5, 2, 'read' + octets(b'berfahrt'))
activate(3, 'done', 'Paused 3 0 0 | 3 3 0', 'left 5')
rename(UEBERFAHRT, RAST, None, ZIEL)
take('left 5' + octets(ZIEL))
title('title office 14 4' + octets(ZIEL))
take('nothing')


# ---- Titles exchanged between calls: nothing falls due by it, and a take hands out what is lent now.

case('other titles are lent between takes')
rename(FAEHRE, KAI, STILLE, HAFEN)
office('5 17', '5', screen='4 5')
control(LEFT, NEXT_TRACK, 'Paused 3 0 0 | 1 1 0', 'left 5; right 5; screen 4 5')
take('left 5' + octets(KAI))
titles()
take('right 5' + octets(RAST))
rename(None, HAFEN, None, None)
take('screen 4')
take('screen 5' + octets(HAFEN))
take('nothing')
# Three titles were handed out, and one is shown.
advance(10, 'done', 'Paused 3 0 0 | 1 1 0')
set_name(b'Weber', 'done')
write(LEFT, 7, word(5), 'done', 'Paused 3 0 0 | 1 1 5')
control(RIGHT, PLAY, 'Playing 3 0 0 | 1 1 5', 'left 17')
take('left 17 01')
take('nothing')
# The title was another one to everybody, and it is the same before and after by what this call is lent.
rename(STILLE, STILLE, None, None)
control(RIGHT, PREVIOUS_TRACK, 'Playing 3 0 0 | 1 0 0', 'screen 4')
take('screen 4')
take('nothing')
# What is owed stays owed, whatever is lent then. The screen was last served 4.
rename(FAEHRE, KAI, None, None)
control(RIGHT, NEXT_TRACK, 'Playing 3 0 0 | 1 1 0', 'left 5; right 5; screen 4 5')
rename(STILLE, STILLE, None, None)
seen('23: 5 17; 5; 0', '24: 5; 5; 0', '-', '517: 4 5; 4 5; 0')
take('left 5' + octets(STILLE))
titles()
take('right 5' + octets(RAST))
rename(None, LONG_NAME, None, None)
take('screen 5' + octets(LONG_NAME))
take('screen 4')
take('nothing')
# The title of track 2 is empty where it is not renamed.
control(RIGHT, NEXT_TRACK, 'Playing 3 0 0 | 1 2 0', 'left 5; right 5; screen 4 5')
rename(None, None, STILLE, None)
take('left 5' + octets(STILLE))
titles()
take('right 5')
take('screen 5')
take('screen 4')
take('nothing')

# A refused take leaves what it would have served.
case('bad titles are lent between takes')
rename(FAEHRE, KAI, STILLE, HAFEN)
office('4 5', '5')
control(LEFT, NEXT_TRACK, 'Paused 3 0 0 | 1 1 0', 'left 4 5; right 5')
titles([(0, 6)] * 3, FAEHRE)
take('refused 224')
take('refused 224', room=127)
seen('23: 4 5; 4 5; 0', '24: 5; 5; 0', '-', '-')
rename(FAEHRE, KAI, STILLE, HAFEN)
take('left 4')
# The title that would be handed out is good, and another one is bad.
titles([(0, 6), (0, 6), (0, 0), (0, 2)], FAEHRE)
take('refused 224')
titles([(0, 6), (0, 6), (0, 0), (0, 0)], FAEHRE)
take('right 5' + octets(FAEHRE))
one_entry(1, (1, 1), FAEHRE)
take('refused 224')
titles()
take('left 5' + octets(RAST))
# Nothing is owed.
titles([], FAEHRE)
take('refused 224')
titles()
take('nothing')


# ---- Activate, Deactivate and the clock

# While Inactive the title is empty (SCOPE 16.3); 4 and 7 are owed whenever the track number changes, to or from none too (SCOPE 18.2).
case('Activate and Deactivate with renamed titles')
rename(FAEHRE, None, STILLE, FAEHRE)
start(b'Desk', ALL, 7, 'done', 'Inactive 3 0 0 | 0 0 0')
come('4 5 7')
read(LEFT, 5, 0, 'read')
activate(1, 'done', 'Paused 3 0 0 | 1 0 0', 'left 4 5 7')
read(LEFT, 5, 1, 'refused 0x80')
take('left 4')
take('left 5' + octets(FAEHRE))
take('left 7 00 00 00 00')
read(LEFT, 5, 0, 'read' + octets(FAEHRE))
# The title of the first track of group 3 is equal.
activate(3, 'done', 'Paused 3 0 0 | 3 3 0', 'left 4 7')
read(LEFT, 5, 1, 'read' + octets(FAEHRE[1:]))
take('left 4')
take('left 7 00 00 00 00')
take('nothing')
# The same track again.
activate(3, 'done', 'Paused 3 0 0 | 3 3 0')
take('nothing')
deactivate('done', 'Inactive 3 0 0 | 0 0 0', 'left 4 5 7')
read(LEFT, 5, 1, 'refused 0x80')
title('title card 0 0')
take('left 4')
take('left 5')
take('left 7 ff ff ff ff')
take('nothing')
# Other titles while Inactive, and Deactivate while Inactive.
rename(KAI, KAI, KAI, KAI)
deactivate('done', 'Inactive 3 0 0 | 0 0 0')
take('nothing')
read(LEFT, 5, 0, 'read')
titles()
activate(3, 'done', 'Paused 3 0 0 | 3 3 0', 'left 4 5 7')
rename(KAI, KAI, KAI, KAI)
take('left 4')
take('left 5' + octets(KAI))
take('left 7 00 00 00 00')
take('nothing')

# The title of track 2 is empty on the card, as that of no track is.
case('Deactivate from a track whose title is empty on the card')
rename(FAEHRE, None, STILLE, None)
office('4 5 7')
write(LEFT, 11, track_object(2), 'done', 'Paused 3 0 0 | 1 2 0', 'left 4 5 7')
take('left 4')
take('left 5' + octets(STILLE))
take('left 7 00 00 00 00')
read(LEFT, 5, 0, 'read' + octets(STILLE))
deactivate('done', 'Inactive 3 0 0 | 0 0 0', 'left 4 5 7')
read(LEFT, 5, 1, 'refused 0x80')
take('left 4')
take('left 5')
take('left 7 ff ff ff ff')
activate(1, 'done', 'Paused 3 0 0 | 1 0 0', 'left 4 5 7')
take('left 4')
take('left 5' + octets(FAEHRE))
take('left 7 00 00 00 00')
rename(FAEHRE, None, None, None)
write(LEFT, 11, track_object(2), 'done', 'Paused 3 0 0 | 1 2 0', 'left 4 5 7')
take('left 4')
take('left 5')
take('left 7 00 00 00 00')
read(LEFT, 5, 0, 'read')
deactivate('done', 'Inactive 3 0 0 | 0 0 0', 'left 4 7')
read(LEFT, 5, 1, 'refused 0x07')
take('left 4')
take('left 7 ff ff ff ff')
take('nothing')

# At D or beyond comes the next track at 0 or, where there is none, Paused at D (SCOPE 13.5).
case('the clock leads to a renamed track')
rename(FAEHRE, KAI, KAI, None)
office('4 5 7 17')
control(LEFT, PLAY, 'Playing 3 0 0 | 1 0 0', 'left 17')
take('left 17 01')
read(LEFT, 5, 0, 'read' + octets(FAEHRE))
advance(5999, 'done', 'Playing 3 0 0 | 1 0 5999')
read(LEFT, 5, 1, 'read' + octets(FAEHRE[1:]))
advance(1, 'done', 'Playing 3 0 0 | 1 1 0', 'left 4 5 7')
read(LEFT, 5, 1, 'refused 0x80')
title('title office 6 3' + octets(KAI))
take('left 4')
take('left 5' + octets(KAI))
take('left 7 00 00 00 00')
read(LEFT, 5, 0, 'read' + octets(KAI))
# To track 2, whose title is equal; and its end, which is the group's. The left pedal was last served 7.
advance(300, 'done', 'Playing 3 0 0 | 1 2 0', 'left 4 7')
title('title office 9 3' + octets(KAI))
advance(0, 'done', 'Paused 3 0 0 | 1 2 0', 'left 17')
read(LEFT, 5, 1, 'read 61 69')
take('left 17 02')
take('left 4')
take('left 7 00 00 00 00')
take('nothing')

# 12 names a track of the current group that Next Track or the end of a track uses once (SCOPE 14.4, 14.5).
case('the clock leads to a renamed track that was named')
rename(None, KAI, STILLE, None)
office('5 12')
write(LEFT, 12, track_object(2), 'done', 'Paused 3 0 0 | 1 0 0 2')
control(LEFT, PLAY, 'Playing 3 0 0 | 1 0 0 2', '')
title('title card 0 10' + octets(UEBERFAHRT))
advance(6000, 'done', 'Playing 3 0 0 | 1 2 0', 'left 5 12')
title('title office 3 6' + octets(STILLE))
take('left 5' + octets(STILLE))
take('left 12')
take('nothing')

# Order 2 has the current track for the next one.
case('the clock leads to the same track')
rename(FAEHRE, KAI, None, None)
office('4 5 7')
write(LEFT, 15, [2], 'done', 'Paused 2 0 0 | 1 0 0')
control(LEFT, PLAY, 'Playing 2 0 0 | 1 0 0', '')
read(LEFT, 5, 0, 'read' + octets(FAEHRE))
advance(5000, 'done', 'Playing 2 0 0 | 1 0 5000')
rename(STILLE, KAI, None, None)
advance(1000, 'done', 'Playing 2 0 0 | 1 0 0', 'left 7')
read(LEFT, 5, 1, 'read' + octets(STILLE[1:]))
take('left 7 00 00 00 00')
take('nothing')


# ---- Over the same tables (SCOPE 17.1). Both services share the titles; each has its own current track, owed values and marks.

case('both services with renamed titles')
rename(FAEHRE, KAI, None, FAEHRE)
desks('5 / 5')
for service in SERVICES:
    title('title office 0 6' + octets(FAEHRE), service=service)
    read(LEFT, 5, 0, 'read' + octets(FAEHRE), service=service)
control(LEFT, NEXT_TRACK, 'Paused 3 0 0 | 1 1 0', 'left 5', service=NAMED)
seen_in_both(('23: 5;; 0', '-', '-', '-'), ('23: 5; 5; 0', '-', '-', '-'))
title('title office 0 6' + octets(FAEHRE), service=GENERIC)
title('title office 6 3' + octets(KAI), service=NAMED)
read(LEFT, 5, 1, 'read' + octets(FAEHRE[1:]), service=GENERIC)
read(LEFT, 5, 1, 'refused 0x80', service=NAMED)
take_named('left 5' + octets(KAI))
take('nothing')
# The one on a track that is renamed, the other on one that is not, and the other way round.
control(LEFT, LAST_TRACK, 'Paused 3 0 0 | 1 2 0', 'left 5', service=GENERIC)
seen_in_both(('23: 5; 5; 0', '-', '-', '-'), ('23: 5;; 0', '-', '-', '-'))
title('title card 14 0', service=GENERIC)
title('title office 6 3' + octets(KAI), service=NAMED)
take_generic('left 5')
titles()
title('title card 14 0', service=GENERIC)
title('title card 10 4' + octets(RAST), service=NAMED)
rename(None, None, STILLE, None)
title('title office 0 6' + octets(STILLE), service=GENERIC)
title('title card 10 4' + octets(RAST), service=NAMED)
take('nothing')
# Inactive in one of them.
rename(FAEHRE, KAI, None, FAEHRE)
deactivate('done', 'Inactive 3 0 0 | 0 0 0', 'left 5', service=NAMED)
title('title card 0 0', service=NAMED)
title('title card 14 0', service=GENERIC)
take_named('left 5')
# The tracks 0 and 3 show the same, each is a change in its own service. The named player's 5 was served last.
activate(3, 'done', 'Paused 3 0 0 | 3 3 0', 'left 5', service=NAMED)
activate(1, 'done', 'Paused 3 0 0 | 1 0 0', 'left 5', service=GENERIC)
title('title office 9 6' + octets(FAEHRE), service=NAMED)
title('title office 0 6' + octets(FAEHRE), service=GENERIC)
take_generic('left 5' + octets(FAEHRE))
# A take is a call to neither (SCOPE 19.1): what is lent to it is shown in both.
rename(STILLE, None, None, HAFEN)
take_named('left 5' + octets(HAFEN))
read(LEFT, 5, 0, 'read' + octets(STILLE), service=GENERIC)
read(LEFT, 5, 0, 'read' + octets(HAFEN), service=NAMED)
take('nothing')

case('equal titles in one service and not in the other')
rename(FAEHRE, FAEHRE, KAI, None)
desks('4 5 / 4 5')
for service in SERVICES:
    read(LEFT, 5, 0, 'read' + octets(FAEHRE), service=service)
control(LEFT, NEXT_TRACK, 'Paused 3 0 0 | 1 1 0', 'left 4', service=GENERIC)
control(LEFT, LAST_TRACK, 'Paused 3 0 0 | 1 2 0', 'left 4 5', service=NAMED)
seen_in_both(('23: 4 5; 4; 0', '-', '-', '-'), ('23: 4 5; 4 5; 0', '-', '-', '-'))
read(LEFT, 5, 1, 'read' + octets(FAEHRE[1:]), service=GENERIC)
read(LEFT, 5, 1, 'refused 0x80', service=NAMED)
# Other titles are lent, and neither service owes or marks more.
rename(KAI, STILLE, HAFEN, None)
seen_in_both(('23: 4 5; 4; 0', '-', '-', '-'), ('23: 4 5; 4 5; 0', '-', '-', '-'))
read(LEFT, 5, 1, 'read' + octets(STILLE[1:]), service=GENERIC)
read(LEFT, 5, 1, 'refused 0x80', service=NAMED)
take_generic('left 4')
take_named('left 4')
take_named('left 5' + octets(HAFEN))
take('nothing')


# ---- 224 comes after 200 (SCOPE 5.3)

# One of each reason, of a track that is not the current one where a track's entry is wrong.
BAD_RENAMES = (
    ([(0, 6)] * 3, FAEHRE),
    ([(0, 6)] * 5, FAEHRE),
    ([(0, 6)] * 3 + [(0,)], FAEHRE),
    ([(0, 0)] * 3 + [(0, 129)], b'h' * 129),
    ([(0, 0)] * 3 + [(1, 6)], FAEHRE),
    ([(0, 0)] * 3 + [(LONGEST, 2)], FAEHRE),
    ([(0, 0)] * 3 + [(0, 2)], FAEHRE),
)

# A refusal alters nothing (SCOPE 20.1). 200 and 207 carry something, 224 does not (SCOPE 20.4).
case('every call refuses bad titles')
titles()
office('1 17 18')
set_name(b'A', 'done', 'left 1')
for entries, text in BAD_RENAMES:
    titles(entries, text)
    each_call('refused 224')
    for service in SERVICES:
        title('refused 224', service=service)
titles()
seen('23: 1 17 18; 1; 0', '-', '-', '-')
take('left 1 41')
read(LEFT, 1, 1, 'refused 0x80')
take('nothing')

# While nothing would happen, and while no track is current.
case('bad titles while nothing would happen')
titles()
start(b'Desk', ALL, 7, 'done', 'Inactive 3 0 0 | 0 0 0')
connect(LEFT, 23, ENCRYPTED, 'done')
for entries, text in BAD_RENAMES:
    titles(entries, text)
    take('refused 224')
    title('refused 224')
    advance(0, 'refused 224')
    deactivate('refused 224')
    set_name(b'Desk', 'refused 224')
    unsubscribe(LEFT, 17, 'refused 224')
    write(LEFT, 7, word(1500), 'refused 224')
    read(LEFT, 22, 0, 'refused 224')
titles()
read(LEFT, 22, 0, 'read 07')
take('nothing')


def with_bad_titles(call, *arguments, **room):
    """A call with bad titles, over the sample and over wrong catalogues; behind it nothing is renamed."""
    titles([(0, 6)] * 3, FAEHRE)
    call(*arguments, 'refused 224', **room)
    call(*arguments, 'refused 200 1 5', catalogue=BAD_TITLES, **room)
    call(*arguments, 'refused 200', catalogue=CUT, **room)
    titles()


titles()
before_the_others('bad titles before the other refusals', with_bad_titles)

# The same of an entry that is wrong, where the table of entries is not, and of numbers of services.
case('bad titles before 219')
titles()
desks('1 / 1')
for entries, text in BAD_RENAMES:
    titles(entries, text)
    each_call_to(2, 'refused 224')
each_call_to(2, 'refused 200 1 5', BAD_TITLES)
each_call_to(255, 'refused 200', OWN_PARENT)
for service in NO_SERVICES:
    each_call_to(service, 'refused 224')
titles()
each_call_to(2, 'refused 219')
take('nothing')


# ---- The title call: refused, the part is the empty front of the card's text (SCOPE 5.7).

# 200, 224, 201, 219.
case('the refusals of the title call')
rename(FAEHRE, KAI, None, None)
desks('5 / 5')
for catalogue, answer in ((OWN_PARENT, 'refused 200'), (CUT, 'refused 200'), (BAD_TITLES, 'refused 200 1 5'), (BAD_AND_WRONG, 'refused 200')):
    for service in SERVICES + NO_SERVICES:
        title(answer, catalogue, service)
for service in NO_SERVICES:
    title('refused 219', service=service)
for entries, text in BAD_RENAMES:
    titles(entries, text)
    for service in SERVICES + NO_SERVICES:
        title('refused 224', service=service)
        title('refused 200 1 5', BAD_TITLES, service)
        title('refused 200', CUT, service)
# A state that is wrong in no service.
damage(TURN, 4)
title('refused 224')
title('refused 224', service=2)
title('refused 200 1 5', BAD_TITLES)
rename(FAEHRE, KAI, None, None)
for service in SERVICES + NO_SERVICES:
    title('refused 201', service=service)
title('refused 200 1 5', BAD_TITLES, 2)
damage(TURN, 3)
# 201 looks at both players, whichever the call is to.
for service, own_name in ((GENERIC, b'Desk'), (NAMED, b'Aula')):
    for part, number, state, right in WRONG_PLAYERS:
        damage(part, number, state=state, service=service)
        for each in SERVICES + (2,):
            title('refused 201', service=each)
        damage(part, right, state='Paused 3 0 0 | 1 0 0', service=service)
    title('title office 0 6' + octets(FAEHRE), service=service)
    read(LEFT, 1, 0, 'read' + octets(own_name), service=service)
take('nothing')

# It serves nothing, marks nothing and reads nothing, and clients play no part in it.
case('the title call alters nothing')
rename(FAEHRE, KAI, None, None)
office('4 5 18')
control(LEFT, NEXT_TRACK, 'Paused 3 0 0 | 1 1 0', 'left 4 5 18')
for _ in range(2):
    title('title office 6 3' + octets(KAI))
seen('23: 4 5 18; 4 5 18; 1', '-', '-', '-')
read(LEFT, 5, 1, 'refused 0x80')
take('left 4')
title('title office 6 3' + octets(KAI))
take('left 5' + octets(KAI))
take('left 18 31 01')
take('nothing')
start(b'Desk', ALL, 7, 'done', 'Inactive 3 0 0 | 0 0 0')
activate(1, 'done', 'Paused 3 0 0 | 1 0 0')
title('title office 0 6' + octets(FAEHRE))
activate(3, 'done', 'Paused 3 0 0 | 3 3 0', service=NAMED)
title('title card 14 4' + octets(ZIEL), service=NAMED)
seen('-', '-', '-', '-')
