#!/usr/bin/env python3
"""The vectors of the card reader, the catalogue check, the text check, the cue sheet reader, the card writer, the writing and reading of objects, and
the check of the office's own titles.

    python3 vectors/make.py            writes the files below
    python3 vectors/make.py --check    compares them, and fails on a difference

    crates/vectors/stdin    the cases, framed
    crates/vectors/stdout   the answer of each
    crates/inspect/stdin    the card of the sample catalogue

Each vector has its answer beside it, worked out by hand from the rules that docs/SCOPE.md has: those of section 3 for a card, read or written, of section 4
for a catalogue, of section 5 for titles of the office, of section 6 for a sheet and of section 7 for an object. Only four things are computed: the check
numbers of the tables, from the tables that the vector was made of; those of written cards, from cards made by the rules of blocks (SCOPE 3.2 to 3.9); those of
objects, from their entries, which are stated, by the tables of sections 4.2 and 4.4 of the standard; and the starts of the two sheets that have 1,024 and 3,640
of them, by the formula of SCOPE 6.6. Many sheets, some cards, some catalogues and some titles are variants that a loop makes, with one answer set by hand for
all of them or, of a card, with the number that REASONS sets for each reason. The refused catalogues of REFUSED_TITLES are also ones to be written, with the
same answer. A comment that names a rule, such as SCOPE 4.14, says it in a few words; docs/SCOPE.md has the rule.
"""
import struct
import sys

from vector_files import write_or_compare

WORD = 0xFFFFFFFF

CARD, CATALOGUE, TEXT, SHEET, WRITE, GROUP_OBJECT, SEGMENTS_OBJECT, GROUP_READ, SEGMENTS_READ, RENAMED = range(1, 11)
GROUP_KIND, TRACK_KIND, SEGMENT_KIND, TEXT_KIND = 1, 2, 3, 4

# One entry for each vector: its kind, its name, the octets of its case, its answer.
VECTORS = []


def add(kind, name, case, answer):
    if any(name == other for _, other, _, _ in VECTORS):
        sys.exit('two vectors are named ' + name)
    VECTORS.append((kind, name, case, answer))


def words(numbers):
    return b''.join(struct.pack('<I', n) for n in numbers)


def flat(records):
    return [n for record in records for n in record]


# ---- Catalogues: groups (parent, first track, track count), tracks (duration, age stamp, first segment, segment count,
# ---- title offset, title length), starts of segments, text.

# Groups: 0 (no tracks), 1 (tracks 0–2), 2 (none), 3 (track 3); parents 0 (SCOPE 22.1).
SAMPLE_GROUPS = [(0, 0, 0), (0, 0, 3), (0, 3, 0), (0, 3, 1)]
# Track, duration, stamp: 0, 6000, 30 with starts 0, 1500, 4000; 1, 300, 10; 2, 0, 10; 3, 900, 5 (SCOPE 22.1). The titles are Prélude (8 octets), Intermezzo
# (10), an empty one, Coda (4).
SAMPLE_TRACKS = [(6000, 30, 0, 3, 0, 8), (300, 10, 3, 0, 8, 10), (0, 10, 3, 0, 18, 0), (900, 5, 3, 0, 18, 4)]
SAMPLE_SEGMENTS = [0, 1500, 4000]
SAMPLE_TEXT = b'Pr\xC3\xA9ludeIntermezzoCoda'

# At most 64 groups, 256 tracks, 1,024 segments, 32,768 text octets (SCOPE 4.2): each group has four tracks, each track four segments and a title of 128
# octets with characters of one to four octets.
FULL_GROUPS = [(i // 2, 4 * i, 4) for i in range(64)]
FULL_TRACKS = [(301 + i, WORD - i, 4 * i, 4, 128 * i, 128) for i in range(256)]
FULL_SEGMENTS = flat([(0, 1, 2 + i, 300 + i) for i in range(256)])
FULL_TEXT = b''.join(b'%03d-' % i + b'\xC3\xA9' * 31 + b'\xE2\x82\xAC' * 10 + b'\xF0\x9D\x84\x9E' * 8 for i in range(256))

# A track without segments and with an empty title.
PLAIN = (100, 0, 0, 0, 0, 0)


class Tables:
    """The four tables of a catalogue, flat."""

    def __init__(self, groups=(), tracks=(), segments=(), text=b''):
        self.groups, self.tracks, self.segments, self.text = flat(groups), flat(tracks), list(segments), text


SAMPLE = Tables(SAMPLE_GROUPS, SAMPLE_TRACKS, SAMPLE_SEGMENTS, SAMPLE_TEXT)
FULL = Tables(FULL_GROUPS, FULL_TRACKS, FULL_SEGMENTS, FULL_TEXT)


def put(records, place, record):
    """The records with another one at a place."""
    return records[:place] + [record] + records[place + 1:]


# ---- Cards

# The most records of a block: 42, 21, 126 or 505 by kind (SCOPE 3.3).
MOST = {GROUP_KIND: 42, TRACK_KIND: 21, SEGMENT_KIND: 126, TEXT_KIND: 505}


def seal(octets):
    """A block of its 510 octets. Octet 510 is the sum of octets 0 to 509 modulo 255; octet 511 is the sum of the 510 running sums modulo 255 (SCOPE 3.4)."""
    octets = bytes(octets)
    assert len(octets) == 510
    plain = running = 0
    for octet in octets:
        plain += octet
        running += plain
    return octets + bytes([plain % 255, running % 255])


def open_block(number, kind, count, records):
    """The 510 octets of a block, which may be spoiled before they are sealed."""
    return bytearray((struct.pack('<HBH', number, kind, count) + records).ljust(510, b'\0'))


def block(number, kind, count, records):
    return seal(open_block(number, kind, count, records))


def pieces(records, most):
    return [records[i:i + most] for i in range(0, len(records), most)]


def card_of(groups=(), tracks=(), segments=(), text=b'', most=MOST):
    """A card of these records, with no more than `most` of them in a block."""
    made = b''
    for kind, records in ((GROUP_KIND, groups), (TRACK_KIND, tracks), (SEGMENT_KIND, segments), (TEXT_KIND, text)):
        for piece in pieces(records, most[kind]):
            octets = piece if kind == TEXT_KIND else words(piece if kind == SEGMENT_KIND else flat(piece))
            made += block(len(made) // 512, kind, len(piece), octets)
    return made


SAMPLE_CARD = card_of(SAMPLE_GROUPS, SAMPLE_TRACKS, SAMPLE_SEGMENTS, SAMPLE_TEXT)

# The room of the groups, tracks and segments in words, and of the text in octets.
AT_LIMITS = (192, 1536, 1024, 32768)
ABOVE_LIMITS = (300, 2048, 1100, 40000)
NO_ROOM = (0, 0, 0, 0)


def check_number(table):
    total = totals = 0
    for n in table:
        total = (total + n) & WORD
        totals = (totals + total) & WORD
    return totals


def after(table, old):
    """A lent table after a load, which fills its front (SCOPE 3.14)."""
    return list(table) + old[len(table):]


def lent_words(room):
    """A lent table of words before a call: each word another."""
    return [(0xA5A50000 + i) & WORD for i in range(room)]


def card(name, answer, octets, tables=None, room=AT_LIMITS):
    """A card vector: `tables` are what a granted load fills in; a refusal alters nothing (SCOPE 20.1). The answer is the four counts, or the refusal and,
    where it is a block's, the block by its place on the card, from 0."""
    tables = tables or Tables()
    lent = [lent_words(n) for n in room[:3]] + [[0xA5] * room[3]]
    left = [after(*pair) for pair in zip((tables.groups, tables.tracks, tables.segments, tables.text), lent)]
    case = struct.pack('<I', len(octets)) + octets + words(room)
    add(CARD, name, case, ' '.join([answer] + [str(check_number(table)) for table in left]))


def spoiled(octets, place, octet):
    """A card with another octet at a place, and with its check octets as they were."""
    assert octets[place] != octet
    return octets[:place] + bytes([octet]) + octets[place + 1:]


def resealed(octets, place, octet):
    """A block of these 510 octets with another octet at a place, and with the check octets of that."""
    octets[place] = octet
    return seal(octets)


# Five reasons: 211 check, 215 block number, 216 kind, 217 count, 218 padding (SCOPE 3.12).
REASONS = (('211', 'check'), ('215', 'number'), ('216', 'kind'), ('217', 'count'), ('218', 'padding'))


def flawed(octets, place, *reasons):
    """A card whose block at this place is made bad for these of the five reasons.

    number: the block number is one too high.
    kind: the kind is 0, so that the kind of the block behind does not fall.
    count: the count is 65,535, above that of every kind. The records would go on beyond byte 509: there is no padding.
    padding: byte 509 is 1. No block that is given here has a record so far behind.
    count and padding: the count is 0. There are no records, and the padding begins at byte 5.
    check: byte 511 is not what it is in a block of these 510 octets. Without this reason both check octets fit.
    """
    assert reasons and set(reasons) <= {reason for _, reason in REASONS}
    made = bytearray(octets[512 * place:512 * place + 510])
    if 'number' in reasons:
        made[0] += 1
    if 'kind' in reasons:
        made[2] = 0
    if 'count' in reasons:
        made[3:5] = b'\0\0' if 'padding' in reasons else b'\xFF\xFF'
    if 'padding' in reasons:
        made[509] = 1
    made = seal(made)
    if 'check' in reasons:
        made = spoiled(made, 511, made[511] ^ 1)
    return octets[:512 * place] + made + octets[512 * place + 512:]


def group_block(number=0):
    return open_block(number, GROUP_KIND, 1, words((0, 0, 0)))


def text_block(number=0):
    return open_block(number, TEXT_KIND, 2, b'ab')


# A card is 0 to 128 blocks of 512 octets (SCOPE 3.1).
card('card-empty', '0 0 0 0', b'')
card('card-empty-no-room', '0 0 0 0', b'', room=NO_ROOM)
card('card-sample', '4 4 3 22', SAMPLE_CARD, SAMPLE)
# All blocks but the last of a kind are full: 64 groups take 2 blocks, 256 tracks 13, 1,024 segments 9, 32,768 octets of text 65.
# These 89 blocks are the longest card that is not refused. With 85 groups, which take 3 blocks, there are 90.
card('card-full', '64 256 1024 32768', card_of(FULL_GROUPS, FULL_TRACKS, FULL_SEGMENTS, FULL_TEXT), FULL)
card('card-90-blocks', '212', card_of([(0, 0, 0)] * 85, FULL_TRACKS, FULL_SEGMENTS, FULL_TEXT), room=ABOVE_LIMITS)
# 127 blocks of 505 octets and one of 1 octet: the length is right and so is each block, and only the text is too long.
card('card-128-blocks', '212', card_of(text=b'x' * 64136))

# 210: the card's length is no multiple of 512, or over 65,536 (SCOPE 3.11).
card('card-length-1', '210', b'\0')
card('card-length-511', '210', SAMPLE_CARD[:511])
card('card-length-513', '210', SAMPLE_CARD[:512] + b'\0')
card('card-length-2047', '210', SAMPLE_CARD[:2047])
card('card-129-blocks', '210', card_of(text=b'x' * 64641))

# Text is octets (SCOPE 3.3), and none of the reasons of SCOPE 3.12 is in a record: no word and no octet of a record is looked at.
ANY_GROUP = (WORD, 0x01020304, 0x80000000)
ANY_TRACK = (0xFFFFFFFE, 0x04030201, 0xFF, 0xFF00, 0xFF0000, 0xFF000000)
ANY = Tables([ANY_GROUP], [ANY_TRACK], [WORD, 0, 0x7FFFFFFF], b'\xFF\x00\x80\xC0')
card('card-any-words', '1 1 3 4', card_of([ANY_GROUP], [ANY_TRACK], [WORD, 0, 0x7FFFFFFF], b'\xFF\x00\x80\xC0'), ANY)

# 212: a limit is exceeded (SCOPE 3.13), by one, with room for all.
card('card-64-groups', '64 0 0 0', card_of(groups=[(0, 0, 0)] * 64), Tables([(0, 0, 0)] * 64), ABOVE_LIMITS)
card('card-65-groups', '212', card_of(groups=[(0, 0, 0)] * 65), room=ABOVE_LIMITS)
card('card-256-tracks', '0 256 0 0', card_of(tracks=[PLAIN] * 256), Tables(tracks=[PLAIN] * 256), ABOVE_LIMITS)
card('card-257-tracks', '212', card_of(tracks=[PLAIN] * 257), room=ABOVE_LIMITS)
card('card-1024-segments', '0 0 1024 0', card_of(segments=[7] * 1024), Tables(segments=[7] * 1024), ABOVE_LIMITS)
card('card-1025-segments', '212', card_of(segments=[7] * 1025), room=ABOVE_LIMITS)
card('card-32768-text', '0 0 0 32768', card_of(text=b'y' * 32768), Tables(text=b'y' * 32768), ABOVE_LIMITS)
card('card-32769-text', '212', card_of(text=b'y' * 32769), room=ABOVE_LIMITS)

# 212: a lent table's room is exceeded (SCOPE 3.13). The sample has 12 words, 24 words, 3 words and 22 octets.
card('room-exact', '4 4 3 22', SAMPLE_CARD, SAMPLE, (12, 24, 3, 22))
card('room-groups-word-short', '212', SAMPLE_CARD, room=(11, 24, 3, 22))
card('room-groups-record-short', '212', SAMPLE_CARD, room=(9, 24, 3, 22))
card('room-groups-word-over', '4 4 3 22', SAMPLE_CARD, SAMPLE, (13, 24, 3, 22))
card('room-groups-none', '212', SAMPLE_CARD, room=(0, 24, 3, 22))
card('room-tracks-word-short', '212', SAMPLE_CARD, room=(12, 23, 3, 22))
card('room-tracks-record-short', '212', SAMPLE_CARD, room=(12, 18, 3, 22))
card('room-tracks-words-over', '4 4 3 22', SAMPLE_CARD, SAMPLE, (12, 29, 3, 22))
card('room-tracks-none', '212', SAMPLE_CARD, room=(12, 0, 3, 22))
card('room-segments-short', '212', SAMPLE_CARD, room=(12, 24, 2, 22))
card('room-segments-over', '4 4 3 22', SAMPLE_CARD, SAMPLE, (12, 24, 4, 22))
card('room-text-short', '212', SAMPLE_CARD, room=(12, 24, 3, 21))
card('room-text-over', '4 4 3 22', SAMPLE_CARD, SAMPLE, (12, 24, 3, 23))
card('room-all-short', '212', SAMPLE_CARD, room=NO_ROOM)

# 215: octets 0 and 1 are the block number, from 0 (SCOPE 3.5). The refusal has the place of the block, not the number that stands in it.
card('block-number-first-1', '215 0', block(1, TEXT_KIND, 2, b'ab'))
card('block-number-again', '215 1', block(0, TEXT_KIND, 505, b'z' * 505) + block(0, TEXT_KIND, 2, b'cd'))
card('block-number-skipped', '215 1', block(0, TEXT_KIND, 505, b'z' * 505) + block(2, TEXT_KIND, 2, b'cd'))
card('block-number-high-octet', '215 0', block(256, TEXT_KIND, 2, b'ab'))
card('block-number-high-octet-second', '215 1', seal(group_block()) + seal(text_block(257)))
card('block-numbers-swapped', '215 0', seal(group_block(1)) + seal(text_block(0)))
# The blocks of tracks and of segments in each other's place. Block 2 is bad too: its number is 1, and its kind falls.
card('blocks-swapped', '215 1', SAMPLE_CARD[:512] + SAMPLE_CARD[1024:1536] + SAMPLE_CARD[512:1024] + SAMPLE_CARD[1536:])

# 216: octet 2 is the kind (1 groups, 2 tracks, 3 segments, 4 text), which never falls (SCOPE 3.3, 3.6).
card('block-kind-0', '216 0', block(0, 0, 1, b''))
card('block-kind-5', '216 0', block(0, 5, 1, b'a'))
card('block-kind-5-last', '216 1', block(0, TEXT_KIND, 2, b'ab') + block(1, 5, 1, b'a'))
card('block-kind-255', '216 0', block(0, 255, 1, b'a'))
card('block-kind-falls-2-1', '216 1', block(0, TRACK_KIND, 1, words(PLAIN)) + block(1, GROUP_KIND, 1, words((0, 0, 0))))
card('block-kind-falls-4-3', '216 1', block(0, TEXT_KIND, 2, b'ab') + block(1, SEGMENT_KIND, 1, words((0,))))
card('block-kind-falls-later', '216 2', block(0, GROUP_KIND, 1, words((0, 0, 0))) + block(1, SEGMENT_KIND, 1, words((0,)))
     + block(2, TRACK_KIND, 1, words(PLAIN)))
# The block that falls is the bad one, and a kind may rise again behind it; where a second one falls, only the first is said.
card('block-kind-falls-and-rises', '216 1', block(0, TRACK_KIND, 1, words(PLAIN)) + seal(group_block(1)) + seal(text_block(2)))
card('block-kind-falls-twice', '216 1', seal(text_block()) + block(1, TRACK_KIND, 1, words(PLAIN)) + seal(group_block(2)))
card('block-kind-falls-to-0', '216 1', seal(group_block()) + block(1, 0, 1, b'a'))
# A kind out of range, and behind it one that is lower: only the first is said.
card('block-kind-5-then-4', '216 0', block(0, 5, 1, b'a') + seal(text_block(1)))
card('block-kind-5-then-0', '216 0', block(0, 5, 1, b'a') + block(1, 0, 1, b'a'))
card('block-kind-255-then-4', '216 1', seal(group_block()) + block(1, 255, 1, b'a') + seal(text_block(2)))
card('block-kind-0-then-1', '216 0', block(0, 0, 1, b'a') + seal(group_block(1)))

# 217: octets 3 and 4 are the record count, 1 up to 42, 21, 126 or 505 by kind (SCOPE 3.2, 3.7).
card('block-groups-0', '217 0', block(0, GROUP_KIND, 0, b''))
card('block-tracks-0', '217 0', block(0, TRACK_KIND, 0, b''))
card('block-segments-0', '217 0', block(0, SEGMENT_KIND, 0, b''))
card('block-text-0', '217 0', block(0, TEXT_KIND, 0, b''))
card('block-groups-42', '42 0 0 0', block(0, GROUP_KIND, 42, words((1, 2, 3)) * 42), Tables(groups=[(1, 2, 3)] * 42))
card('block-groups-43', '217 0', block(0, GROUP_KIND, 43, words((1, 2, 3)) * 42))
card('block-tracks-21', '0 21 0 0', block(0, TRACK_KIND, 21, words(PLAIN) * 21), Tables(tracks=[PLAIN] * 21))
card('block-tracks-22', '217 0', block(0, TRACK_KIND, 22, words(PLAIN) * 21))
card('block-segments-126', '0 0 126 0', block(0, SEGMENT_KIND, 126, words((9,)) * 126), Tables(segments=[9] * 126))
card('block-segments-127', '217 0', block(0, SEGMENT_KIND, 127, words((9,)) * 126))
card('block-text-505', '0 0 0 505', block(0, TEXT_KIND, 505, b'z' * 505), Tables(text=b'z' * 505))
card('block-text-506', '217 0', block(0, TEXT_KIND, 506, b'z' * 505))
card('block-text-1', '0 0 0 1', block(0, TEXT_KIND, 1, b'z'), Tables(text=b'z'))
card('block-count-high-octet', '217 0', block(0, GROUP_KIND, 257, words((0, 0, 0))))
card('block-count-65535', '217 0', block(0, TEXT_KIND, 65535, b'z' * 505))

# 218: zeros up to octet 509 (SCOPE 3.9). One group ends before octet 17, two octets of text before octet 7, 42 groups before octet 509.
card('block-padding-group', '1 0 0 0', seal(group_block()), Tables(groups=[(0, 0, 0)]))
card('block-padding-group-first', '218 0', resealed(group_block(), 17, 1))
card('block-padding-group-last', '218 0', resealed(group_block(), 509, 1))
card('block-padding-text-first', '218 0', resealed(text_block(), 7, 1))
card('block-padding-text-middle', '218 0', resealed(text_block(), 300, 255))
card('block-padding-text-last', '218 0', resealed(text_block(), 509, 255))
card('block-padding-42-groups', '218 0', resealed(open_block(0, GROUP_KIND, 42, words((1, 2, 3)) * 42), 509, 1))
card('block-padding-21-tracks', '218 0', resealed(open_block(0, TRACK_KIND, 21, words(PLAIN) * 21), 509, 1))
card('block-padding-126-segments', '218 0', resealed(open_block(0, SEGMENT_KIND, 126, words((9,)) * 126), 509, 1))

# 211: octet 510 is the sum of octets 0 to 509 modulo 255; octet 511 is the sum of the 510 running sums modulo 255 (SCOPE 3.4).
AB = block(0, TEXT_KIND, 2, b'ab')
card('check-right', '0 0 0 2', AB, Tables(text=b'ab'))
card('check-plain-flipped', '211 0', spoiled(AB, 510, AB[510] ^ 1))
card('check-running-flipped', '211 0', spoiled(AB, 511, AB[511] ^ 1))
card('check-plain-zero', '211 0', spoiled(AB, 510, 0))
card('check-running-zero', '211 0', spoiled(AB, 511, 0))
card('check-octet-changed', '211 0', spoiled(AB, 5, 0x62))
card('check-octets-swapped', '211 0', AB[:5] + b'ba' + AB[7:])
card('check-last-block', '211 3', spoiled(SAMPLE_CARD, 2047, SAMPLE_CARD[2047] ^ 1))
card('check-first-block', '211 0', spoiled(SAMPLE_CARD, 510, SAMPLE_CARD[510] ^ 1))
# Modulo 255 (SCOPE 3.4) gives 0 to 254. With the octet 250 the plain sum is 4 + 1 + 250 = 255, with 47 and 1 the sum of the running sums is 4 * 508 + 2 * 507
# + 47 * 505 + 1 * 504 = 107 * 255.
PLAIN_ZERO = block(0, TEXT_KIND, 1, b'\xFA')
RUNNING_ZERO = block(0, TEXT_KIND, 2, b'\x2F\x01')
assert PLAIN_ZERO[510] == 0 and RUNNING_ZERO[511] == 0
card('check-plain-is-0', '0 0 0 1', PLAIN_ZERO, Tables(text=b'\xFA'))
card('check-plain-255-for-0', '211 0', spoiled(PLAIN_ZERO, 510, 255))
card('check-running-is-0', '0 0 0 2', RUNNING_ZERO, Tables(text=b'\x2F\x01'))
card('check-running-255-for-0', '211 0', spoiled(RUNNING_ZERO, 511, 255))
# One octet of block 1 that becomes another, and the check octets as they were: the check is said, whatever the octet was for.
card('check-number-changed', '211 1', spoiled(SAMPLE_CARD, 512, 2))
card('check-kind-changed', '211 1', spoiled(SAMPLE_CARD, 514, 5))
card('check-count-changed', '211 1', spoiled(SAMPLE_CARD, 515, 22))
card('check-padding-changed', '211 1', spoiled(SAMPLE_CARD, 1021, 1))
# An octet that was 0 and becomes 255 leaves both sums modulo 255 as they were: the check octets fit.
card('check-number-0-to-255', '215 1', spoiled(SAMPLE_CARD, 513, 255))
card('check-count-0-to-255', '217 1', spoiled(SAMPLE_CARD, 516, 255))
card('check-padding-0-to-255', '218 1', spoiled(SAMPLE_CARD, 1021, 255))
# 510 zeros have the check octets 0 and 0; 510 octets of 255 have them too, and not 255 and 255.
card('block-all-0', '216 0', bytes(512))
card('block-all-0-second', '215 1', SAMPLE_CARD[:512] + bytes(512))
card('block-all-255', '211 0', b'\xFF' * 512)

# The lowest bad block is named, with its reason (SCOPE 3.12). The sample has the blocks 0 to 3, the longest card 0 to 127.
LONGEST_CARD = card_of(segments=[7] * 16128)
assert len(LONGEST_CARD) == 65536
for number, reason in REASONS:
    card('reason-%s-first' % reason, number + ' 0', flawed(SAMPLE_CARD, 0, reason))
    card('reason-%s-middle' % reason, number + ' 2', flawed(SAMPLE_CARD, 2, reason))
    card('reason-%s-last' % reason, number + ' 3', flawed(SAMPLE_CARD, 3, reason))
card('reason-check-block-127', '211 127', flawed(LONGEST_CARD, 127, 'check'))
card('reason-number-block-126', '215 126', flawed(LONGEST_CARD, 126, 'number'))
card('reason-padding-block-127', '218 127', flawed(LONGEST_CARD, 127, 'padding'))

# 211 comes first, then 215, 216, 217 and 218, in that order within a block (SCOPE 3.12).


def several(answer, *reasons):
    """The sample with a block of segments that is bad for all of these reasons."""
    card('reasons-' + '-'.join(reasons), answer, flawed(SAMPLE_CARD, 2, *reasons))


several('211 2', 'check', 'number')
several('211 2', 'check', 'kind')
several('211 2', 'check', 'count')
several('211 2', 'check', 'padding')
several('215 2', 'number', 'kind')
several('215 2', 'number', 'count')
several('215 2', 'number', 'padding')
several('216 2', 'kind', 'count')
several('216 2', 'kind', 'padding')
# The count is 0: no record stands before the padding, which begins at byte 5 and is not zeros. 217 comes before 218.
several('217 2', 'count', 'padding')
several('216 2', 'kind', 'count', 'padding')
several('215 2', 'number', 'kind', 'count', 'padding')
several('211 2', 'check', 'number', 'kind', 'count', 'padding')
# Records and no count: those octets are padding. A count one above the most: 127 segments would end before byte 513, so that
# byte 509 is a record's and there is no padding.
card('reasons-count-0-records', '217 0', block(0, SEGMENT_KIND, 0, words((7,)) * 126))
card('reasons-count-127-byte-509', '217 0', block(0, SEGMENT_KIND, 127, words((7,)) * 126 + b'\x07'))
# A kind that falls, from 2 to 1: it is one of the four, so it says how many records there may be and how long they are.
FALLING = block(0, TRACK_KIND, 1, words(PLAIN)) + block(1, GROUP_KIND, 1, words((0, 0, 0)))
card('reasons-check-falling', '211 1', flawed(FALLING, 1, 'check'))
card('reasons-number-falling', '215 1', flawed(FALLING, 1, 'number'))
card('reasons-falling-count', '216 1', flawed(FALLING, 1, 'count'))
card('reasons-falling-padding', '216 1', flawed(FALLING, 1, 'padding'))
card('reasons-falling-count-padding', '216 1', flawed(FALLING, 1, 'count', 'padding'))

# The lowest bad block is named (SCOPE 3.12): its reason is said, also where a block behind it has an earlier one.
for lower, reason in REASONS:
    for higher, reason_behind in REASONS:
        card('lowest-%s-1-then-%s-2' % (lower, higher), lower + ' 1', flawed(flawed(SAMPLE_CARD, 1, reason), 2, reason_behind))
card('lowest-218-0-then-211-3', '218 0', flawed(flawed(SAMPLE_CARD, 0, 'padding'), 3, 'check'))
card('lowest-211-0-then-218-3', '211 0', flawed(flawed(SAMPLE_CARD, 0, 'check'), 3, 'padding'))
card('lowest-211-0-then-216-falling-1', '211 0', flawed(FALLING, 0, 'check'))
card('lowest-217-0-then-216-falling-1', '217 0', flawed(FALLING, 0, 'count'))
card('lowest-216-falling-1-then-211-2', '216 1', flawed(FALLING + seal(text_block(2)), 2, 'check'))
card('lowest-of-four', '218 0',
     flawed(flawed(flawed(flawed(SAMPLE_CARD, 0, 'padding'), 1, 'count'), 2, 'number'), 3, 'check'))

# Kinds never fall, and may be left out or be spread over several blocks, all of which but the last are full.
card('kinds-groups-only', '4 0 0 0', card_of(groups=SAMPLE_GROUPS), Tables(groups=SAMPLE_GROUPS))
card('kinds-tracks-only', '0 4 0 0', card_of(tracks=SAMPLE_TRACKS), Tables(tracks=SAMPLE_TRACKS))
card('kinds-segments-only', '0 0 3 0', card_of(segments=SAMPLE_SEGMENTS), Tables(segments=SAMPLE_SEGMENTS))
card('kinds-text-only', '0 0 0 22', card_of(text=SAMPLE_TEXT), Tables(text=SAMPLE_TEXT), (0, 0, 0, 22))
card('kinds-1-and-4', '4 0 0 22', card_of(groups=SAMPLE_GROUPS, text=SAMPLE_TEXT), Tables(SAMPLE_GROUPS, text=SAMPLE_TEXT))
card('kinds-2-and-3', '0 4 3 0', card_of(tracks=SAMPLE_TRACKS, segments=SAMPLE_SEGMENTS),
     Tables(tracks=SAMPLE_TRACKS, segments=SAMPLE_SEGMENTS), (0, 24, 3, 0))
TWO_EACH = (FULL_GROUPS[:43], FULL_TRACKS[:22], FULL_SEGMENTS[:127], FULL_TEXT[:506])
card('kinds-two-blocks-each', '43 22 127 506', card_of(*TWO_EACH), Tables(*TWO_EACH))
card('kinds-full-then-short', '0 0 0 507', block(0, TEXT_KIND, 505, b'z' * 505) + block(1, TEXT_KIND, 2, b'ab'),
     Tables(text=b'z' * 505 + b'ab'))
SHORT = {GROUP_KIND: 1, TRACK_KIND: 3, SEGMENT_KIND: 2, TEXT_KIND: 7}
card('kinds-short-blocks', '214 0', card_of(SAMPLE_GROUPS, SAMPLE_TRACKS, SAMPLE_SEGMENTS, SAMPLE_TEXT, SHORT))
card('kinds-short-then-full', '214 0', block(0, TEXT_KIND, 2, b'ab') + block(1, TEXT_KIND, 505, b'z' * 505))

# 214: a block that is not the last of its kind is not full (SCOPE 3.8).

# How many octets a record has, and the word of which each octet is 1.
RECORD = {GROUP_KIND: 12, TRACK_KIND: 24, SEGMENT_KIND: 4, TEXT_KIND: 1}
ONES = 0x01010101


def counted(*blocks):
    """A card of blocks with these kinds and counts. Each octet of their records is 1."""
    return b''.join(block(place, kind, count, b'\x01' * (RECORD[kind] * count)) for place, (kind, count) in enumerate(blocks))


for kind, name in ((GROUP_KIND, 'groups'), (TRACK_KIND, 'tracks'), (SEGMENT_KIND, 'segments'), (TEXT_KIND, 'text')):
    full = MOST[kind]
    card('short-%s-1-then-1' % name, '214 0', counted((kind, 1), (kind, 1)))
    card('short-%s-1-then-full' % name, '214 0', counted((kind, 1), (kind, full)))
    card('short-%s-by-one-then-1' % name, '214 0', counted((kind, full - 1), (kind, 1)))
    card('short-%s-by-one-then-full' % name, '214 0', counted((kind, full - 1), (kind, full)))
    card('short-%s-by-one-middle' % name, '214 1', counted((kind, full), (kind, full - 1), (kind, 1)))
    card('short-%s-twice' % name, '214 0', counted((kind, full - 1), (kind, full - 1), (kind, 1)))
# The same behind other kinds, whose last blocks are not full either.
card('short-tracks-behind-groups', '214 1', counted((GROUP_KIND, 4), (TRACK_KIND, 20), (TRACK_KIND, 1), (TEXT_KIND, 9)))
card('short-segments-behind-tracks', '214 2', counted((GROUP_KIND, 4), (TRACK_KIND, 4), (SEGMENT_KIND, 125), (SEGMENT_KIND, 1)))
card('short-text-behind-segments', '214 2', counted((GROUP_KIND, 4), (SEGMENT_KIND, 3), (TEXT_KIND, 504), (TEXT_KIND, 505)))
# A block that is the last of its kind may be short: the last of the card, and the last before another kind.
card('short-groups-last', '43 0 0 0', counted((GROUP_KIND, 42), (GROUP_KIND, 1)), Tables(groups=[(ONES,) * 3] * 43))
card('short-tracks-last', '0 41 0 0', counted((TRACK_KIND, 21), (TRACK_KIND, 20)), Tables(tracks=[(ONES,) * 6] * 41))
card('short-segments-last', '0 0 251 0', counted((SEGMENT_KIND, 126), (SEGMENT_KIND, 125)), Tables(segments=[ONES] * 251))
card('short-text-last', '0 0 0 1009', counted((TEXT_KIND, 505), (TEXT_KIND, 504)), Tables(text=b'\x01' * 1009))
card('short-last-of-each-kind', '41 20 125 504',
     counted((GROUP_KIND, 41), (TRACK_KIND, 20), (SEGMENT_KIND, 125), (TEXT_KIND, 504)),
     Tables([(ONES,) * 3] * 41, [(ONES,) * 6] * 20, [ONES] * 125, b'\x01' * 504))
card('short-groups-before-text', '43 0 0 1', counted((GROUP_KIND, 42), (GROUP_KIND, 1), (TEXT_KIND, 1)),
     Tables([(ONES,) * 3] * 43, text=b'\x01'))
# The longest card with its last block but one short, and with its last one short: that one may be, and its segments are too many.
card('short-block-126', '214 126', LONGEST_CARD[:64512] + block(126, SEGMENT_KIND, 125, words((7,)) * 125) + LONGEST_CARD[65024:])
card('short-block-127', '212', LONGEST_CARD[:65024] + block(127, SEGMENT_KIND, 125, words((7,)) * 125))
ONE_EACH = {GROUP_KIND: 1, TRACK_KIND: 1, SEGMENT_KIND: 1, TEXT_KIND: 1}
card('short-128-blocks', '214 0', card_of(text=b'x' * 128, most=ONE_EACH))

# The last of a kind is judged by the kind octet of the block behind it, even if that one is bad (SCOPE 3.8). Block 0 is short by one group; behind it are
# groups, and it is the lowest bad block, or tracks, and it is right.
BEFORE_GROUPS = counted((GROUP_KIND, 41), (GROUP_KIND, 9))
BEFORE_TRACKS = counted((GROUP_KIND, 41), (TRACK_KIND, 9))
card('short-before-groups-check', '214 0', flawed(BEFORE_GROUPS, 1, 'check'))
card('short-before-groups-number', '214 0', flawed(BEFORE_GROUPS, 1, 'number'))
card('short-before-groups-count', '214 0', flawed(BEFORE_GROUPS, 1, 'count'))
card('short-before-groups-padding', '214 0', flawed(BEFORE_GROUPS, 1, 'padding'))
card('short-before-groups-all-but-kind', '214 0', flawed(BEFORE_GROUPS, 1, 'check', 'number', 'count', 'padding'))
card('short-before-tracks-check', '211 1', flawed(BEFORE_TRACKS, 1, 'check'))
card('short-before-tracks-number', '215 1', flawed(BEFORE_TRACKS, 1, 'number'))
card('short-before-tracks-count', '217 1', flawed(BEFORE_TRACKS, 1, 'count'))
card('short-before-tracks-padding', '218 1', flawed(BEFORE_TRACKS, 1, 'padding'))
card('short-before-tracks-short', '214 1', counted((GROUP_KIND, 41), (TRACK_KIND, 9), (TRACK_KIND, 9)))
# Block 1 becomes another kind, and its check octets are as they were: groups in place of tracks, and others in place of groups.
card('short-before-tracks-changed-to-groups', '214 0', spoiled(BEFORE_TRACKS, 514, GROUP_KIND))
card('short-before-groups-changed-to-tracks', '211 1', spoiled(BEFORE_GROUPS, 514, TRACK_KIND))
card('short-before-groups-changed-to-0', '211 1', spoiled(BEFORE_GROUPS, 514, 0))
card('short-before-groups-changed-to-5', '211 1', spoiled(BEFORE_GROUPS, 514, 5))
# Behind the short block is an octet that is no kind, or a kind that falls: it is the last of its kind, and block 1 is the bad one.
card('short-groups-before-kind-0', '216 1', counted((GROUP_KIND, 41)) + block(1, 0, 1, b'a'))
card('short-groups-before-kind-5', '216 1', counted((GROUP_KIND, 41)) + block(1, 5, 1, b'a'))
card('short-text-before-kind-0', '216 1', counted((TEXT_KIND, 504)) + block(1, 0, 1, b'a'))
card('short-text-before-kind-5', '216 1', counted((TEXT_KIND, 504)) + block(1, 5, 1, b'a'))
card('short-text-before-kind-255', '216 1', counted((TEXT_KIND, 504)) + block(1, 255, 1, b'a'))
card('short-tracks-before-falling-kind', '216 1', counted((TRACK_KIND, 20), (GROUP_KIND, 1)))
# The blocks 0 and 2 are tracks, and only the block directly behind says whether block 0 is the last of its kind.
card('short-tracks-around-groups', '216 1', counted((TRACK_KIND, 20), (GROUP_KIND, 1), (TRACK_KIND, 1)))

# 214 comes after 217 and before 218 (SCOPE 3.12).
card('reasons-check-short', '211 0', flawed(BEFORE_GROUPS, 0, 'check'))
card('reasons-number-short', '215 0', flawed(BEFORE_GROUPS, 0, 'number'))
card('reasons-falling-short', '216 1', FALLING + seal(group_block(2)))
card('reasons-kind-0-twice', '216 0', block(0, 0, 1, b'a') + block(1, 0, 1, b'a'))
card('reasons-kind-5-twice', '216 0', block(0, 5, 1, b'a') + block(1, 5, 1, b'a'))
card('reasons-short-padding', '214 0', flawed(BEFORE_GROUPS, 0, 'padding'))
card('reasons-short-padding-both', '214 0', flawed(flawed(BEFORE_GROUPS, 0, 'padding'), 1, 'padding'))
# A count of 0 is not full, but 217 comes first; a count above the most is not short.
card('reasons-count-0-short', '217 0', counted((GROUP_KIND, 0), (GROUP_KIND, 1)))
card('reasons-count-43-before-groups', '217 0', block(0, GROUP_KIND, 43, words((ONES,)) * 126) + seal(group_block(1)))
card('reasons-count-65535-before-groups', '217 0', flawed(BEFORE_GROUPS, 0, 'count'))
card('reasons-count-short-padding', '217 0', flawed(BEFORE_GROUPS, 0, 'count', 'padding'))
card('reasons-falling-count-short-padding', '216 1', flawed(FALLING + seal(group_block(2)), 1, 'count', 'padding'))
card('reasons-all-but-check', '215 1', flawed(FALLING + seal(group_block(2)), 1, 'number', 'count', 'padding'))
card('reasons-all-six', '211 1', flawed(FALLING + seal(group_block(2)), 1, 'check', 'number', 'count', 'padding'))
# A full block with padding that is not zeros, before another of its kind.
card('reasons-full-padding', '218 0', flawed(counted((GROUP_KIND, 42), (GROUP_KIND, 1)), 0, 'padding'))

# The lowest bad block is named (SCOPE 3.12): block 1 is short, and a bad block is before it or behind it.
SHORT_SECOND = counted((TRACK_KIND, 21), (TRACK_KIND, 20), (TRACK_KIND, 1))
for number, reason in REASONS:
    card('lowest-%s-0-then-214-1' % number, number + ' 0', flawed(SHORT_SECOND, 0, reason))
card('lowest-214-1-then-211-2', '214 1', flawed(SHORT_SECOND, 2, 'check'))
card('lowest-214-1-then-215-2', '214 1', flawed(SHORT_SECOND, 2, 'number'))
card('lowest-216-2-behind-short', '216 2', flawed(SHORT_SECOND, 2, 'kind'))
card('lowest-214-1-then-217-2', '214 1', flawed(SHORT_SECOND, 2, 'count'))
card('lowest-214-1-then-218-2', '214 1', flawed(SHORT_SECOND, 2, 'padding'))
card('lowest-214-0-then-211-2', '214 0', flawed(BEFORE_GROUPS + seal(text_block(2)), 2, 'check'))
card('lowest-214-0-then-216-2', '214 0', BEFORE_GROUPS + block(2, 5, 1, b'a'))
card('lowest-218-0-then-214-2', '218 0',
     flawed(counted((GROUP_KIND, 4), (TRACK_KIND, 21), (TRACK_KIND, 20), (TRACK_KIND, 1)), 0, 'padding'))

# Of several refusals the first in the table is given (SCOPE 20.2). A bad block comes before 212, also where it stands behind the records that are too many.
# The 65 groups take the blocks 0 and 1, and the text is block 2.
OVER_LIMIT = card_of(groups=[(0, 0, 0)] * 65, text=SAMPLE_TEXT)
for number, reason in REASONS:
    card('first-%s-no-room' % number, number + ' 3', flawed(SAMPLE_CARD, 3, reason), room=NO_ROOM)
    card('first-%s-no-room-for-groups' % number, number + ' 1', flawed(SAMPLE_CARD, 1, reason), room=(0, 24, 3, 22))
    card('first-%s-before-no-room' % number, number + ' 0', flawed(SAMPLE_CARD, 0, reason), room=NO_ROOM)
    card('first-%s-over-limit' % number, number + ' 2', flawed(OVER_LIMIT, 2, reason), room=ABOVE_LIMITS)
    card('first-%s-in-table-over-limit' % number, number + ' 1', flawed(OVER_LIMIT, 1, reason), room=ABOVE_LIMITS)
    card('first-210-%s' % number, '210', flawed(SAMPLE_CARD, 0, reason) + b'\0')
card('first-214-no-room', '214 0', BEFORE_GROUPS, room=NO_ROOM)
card('first-214-no-room-for-groups', '214 1', counted((GROUP_KIND, 4), (TEXT_KIND, 504), (TEXT_KIND, 1)), room=(0, 0, 0, 505))
card('first-214-over-limit', '214 2', OVER_LIMIT + block(3, TEXT_KIND, 1, b'a'), room=ABOVE_LIMITS)
card('first-214-in-table-over-limit', '214 0', counted((GROUP_KIND, 41), (GROUP_KIND, 24)), room=ABOVE_LIMITS)
card('first-210-214', '210', BEFORE_GROUPS + b'\0')
card('first-212-over-limit', '212', OVER_LIMIT, room=ABOVE_LIMITS)
card('first-216-falling-no-room', '216 2', card_of(tracks=[PLAIN] * 22) + seal(group_block(2)), room=(192, 0, 0, 0))
card('first-210-bad-block', '210', flawed(SAMPLE_CARD, 3, 'check') + b'\0')
card('first-210-no-room', '210', SAMPLE_CARD + b'\0', room=NO_ROOM)
card('first-210-129-blocks-first-bad', '210', flawed(LONGEST_CARD, 0, 'padding') + block(128, SEGMENT_KIND, 1, words((7,))))
card('first-210-129-short-blocks', '210', card_of(text=b'x' * 129, most=ONE_EACH))
card('first-210-129-bad-blocks', '210', b'\xFF' * 66048, room=NO_ROOM)


# ---- Catalogues

def lent_tables(tables):
    case = words((len(tables.groups), len(tables.tracks), len(tables.segments), len(tables.text)))
    return case + words(tables.groups) + words(tables.tracks) + words(tables.segments) + tables.text


def tables_case(name, answer, tables):
    """A catalogue vector: the answer is 'fine', or 200, and behind it the track and the offset of a bad title (SCOPE 20.4)."""
    add(CATALOGUE, name, lent_tables(tables), answer)


def catalogue(name, answer, groups=SAMPLE_GROUPS, tracks=SAMPLE_TRACKS, segments=SAMPLE_SEGMENTS, text=SAMPLE_TEXT):
    """A catalogue vector: the sample, but for the tables that are given."""
    tables_case(name, answer, Tables(groups, tracks, segments, text))


def cut(name, groups=(), tracks=(), text=SAMPLE_TEXT):
    """The sample with words behind its last group and its last track."""
    tables = Tables(SAMPLE_GROUPS, SAMPLE_TRACKS, SAMPLE_SEGMENTS, text)
    tables.groups += groups
    tables.tracks += tracks
    tables_case(name, '200', tables)


tables_case('catalogue-sample', 'fine', SAMPLE)
tables_case('catalogue-empty', 'fine', Tables())
tables_case('catalogue-full', 'fine', FULL)
catalogue('catalogue-text-alone', 'fine', [], [], [], SAMPLE_TEXT)

# A lent table ends inside a record (SCOPE 4.4).
cut('cut-groups-1-word', groups=[0])
cut('cut-groups-2-words', groups=[0, 4])
cut('cut-tracks-1-word', tracks=[100])
cut('cut-tracks-3-words', tracks=[100, 0, 3])
cut('cut-tracks-5-words', tracks=[100, 0, 3, 0, 0])
tables_case('cut-groups-no-record', '200', Tables([(0,)]))
tables_case('cut-tracks-no-record', '200', Tables([], [(100, 0)]))

# At most 64 groups, 256 tracks, 1,024 segments, 32,768 text octets (SCOPE 4.2).
catalogue('limit-64-groups', 'fine', [(0, 0, 0)] * 64, [], [], b'')
catalogue('limit-65-groups', '200', [(0, 0, 0)] * 65, [], [], b'')
catalogue('limit-256-tracks', 'fine', [(0, 0, 256)], [PLAIN] * 256, [], b'')
catalogue('limit-257-tracks', '200', [(0, 0, 257)], [PLAIN] * 257, [], b'')
catalogue('limit-1024-segments', 'fine', [(0, 0, 1)], [(8640000, 0, 0, 1024, 0, 0)], range(1024), b'')
catalogue('limit-1025-segments', '200', [(0, 0, 1)], [(8640000, 0, 0, 1025, 0, 0)], range(1025), b'')
catalogue('limit-32768-text', 'fine', [], [], [], b'y' * 32768)
catalogue('limit-32769-text', '200', [], [], [], b'y' * 32769)

# Group 0, if any, is its own parent; every other parent number is smaller than its child's (SCOPE 4.5).
catalogue('parent-of-0-is-1', '200', put(SAMPLE_GROUPS, 0, (1, 0, 0)))
catalogue('parent-of-0-is-greatest', '200', put(SAMPLE_GROUPS, 0, (WORD, 0, 0)))
catalogue('parent-of-only-group-is-1', '200', [(1, 0, 4)])
catalogue('parent-of-only-group-is-0', 'fine', [(0, 0, 4)])
catalogue('parent-of-1-is-1', '200', put(SAMPLE_GROUPS, 1, (1, 0, 3)))
catalogue('parent-of-2-is-2', '200', put(SAMPLE_GROUPS, 2, (2, 3, 0)))
catalogue('parent-of-2-is-3', '200', put(SAMPLE_GROUPS, 2, (3, 3, 0)))
catalogue('parent-of-2-is-1', 'fine', put(SAMPLE_GROUPS, 2, (1, 3, 0)))
catalogue('parent-of-3-is-2', 'fine', put(SAMPLE_GROUPS, 3, (2, 3, 1)))
catalogue('parent-of-3-is-4', '200', put(SAMPLE_GROUPS, 3, (4, 3, 1)))
catalogue('parent-of-3-is-greatest', '200', put(SAMPLE_GROUPS, 3, (WORD, 3, 1)))

# The groups' track runs follow each other from 0 in group order and use up all tracks (SCOPE 4.6).
FOUR = [PLAIN] * 4


def track_runs(name, answer, groups, tracks=FOUR):
    catalogue(name, answer, groups, tracks, [], b'')


track_runs('track-runs-one', 'fine', [(0, 0, 4)])
track_runs('track-runs-two', 'fine', [(0, 0, 3), (0, 3, 1)])
track_runs('track-runs-empty-last', 'fine', [(0, 0, 4), (0, 4, 0)])
track_runs('track-runs-first-1', '200', [(0, 1, 3)])
track_runs('track-runs-shifted', '200', [(0, 1, 4)])
track_runs('track-runs-gap', '200', [(0, 0, 2), (0, 3, 1)])
track_runs('track-runs-overlap', '200', [(0, 0, 3), (0, 2, 2)])
track_runs('track-runs-wrong-order', '200', [(0, 3, 1), (0, 0, 3)])
track_runs('track-runs-not-used-up', '200', [(0, 0, 3)])
track_runs('track-runs-beyond', '200', [(0, 0, 5)])
track_runs('track-runs-none', '200', [(0, 0, 0)])
track_runs('track-runs-no-groups', '200', [])
track_runs('track-runs-no-tracks', '200', [(0, 0, 1)], [])
track_runs('track-runs-empty-first-off', '200', [(0, 1, 0), (0, 0, 4)])
track_runs('track-runs-empty-middle-low', '200', [(0, 0, 3), (0, 2, 0), (0, 3, 1)])
track_runs('track-runs-empty-middle-high', '200', [(0, 0, 3), (0, 4, 0), (0, 3, 1)])
track_runs('track-runs-empty-last-off', '200', [(0, 0, 4), (0, 0, 0)])
# Runs that fit only where a sum of 32 bits wraps.
track_runs('track-runs-wrap-first', '200', [(0, WORD, 1), (0, 0, 4)])
track_runs('track-runs-wrap-last', '200', [(0, 0, 4), (0, WORD, 1)])
track_runs('track-runs-wrap-sum', '200', [(0, 0, WORD), (0, WORD, 1), (0, 0, 4)])
track_runs('track-runs-wrap-back', '200', [(0, 0, 5), (0, 5, WORD)])

# The tracks' segment runs follow each other in the same way (SCOPE 4.7).


def segment_runs(name, answer, runs, segments):
    """Tracks of a duration of 6000 with these runs (first segment, segment count), all in one group."""
    tracks = [(6000, 0, first, count, 0, 0) for first, count in runs]
    catalogue(name, answer, [(0, 0, len(tracks))] if tracks else [], tracks, segments, b'')


segment_runs('segment-runs-one', 'fine', [(0, 3)], [0, 1500, 4000])
segment_runs('segment-runs-two', 'fine', [(0, 2), (2, 1)], [0, 1500, 0])
segment_runs('segment-runs-empty-between', 'fine', [(0, 2), (2, 0), (2, 1)], [0, 1500, 0])
segment_runs('segment-runs-first-1', '200', [(1, 2)], [0, 0, 1500])
segment_runs('segment-runs-gap', '200', [(0, 1), (2, 1)], [0, 9, 0])
segment_runs('segment-runs-overlap', '200', [(0, 1), (0, 1)], [0])
segment_runs('segment-runs-wrong-order', '200', [(1, 1), (0, 1)], [0, 0])
segment_runs('segment-runs-not-used-up', '200', [(0, 2)], [0, 1500, 4000])
segment_runs('segment-runs-beyond', '200', [(0, 4)], [0, 1500, 4000])
segment_runs('segment-runs-none', '200', [(0, 0)], [0])
segment_runs('segment-runs-no-tracks', '200', [], [0])
segment_runs('segment-runs-no-segments', '200', [(0, 1)], [])
segment_runs('segment-runs-empty-first-off', '200', [(1, 0), (0, 1)], [0])
segment_runs('segment-runs-empty-middle-low', '200', [(0, 2), (1, 0), (2, 1)], [0, 1500, 0])
segment_runs('segment-runs-empty-middle-high', '200', [(0, 2), (3, 0), (2, 1)], [0, 1500, 0])
segment_runs('segment-runs-empty-last-off', '200', [(0, 1), (0, 0)], [0])
segment_runs('segment-runs-wrap-first', '200', [(WORD, 1), (0, 1)], [0])
segment_runs('segment-runs-wrap-last', '200', [(0, 1), (WORD, 1)], [0])
segment_runs('segment-runs-wrap-sum', '200', [(0, WORD), (WORD, 1), (0, 1)], [0])

# A duration is 0 to 8,640,000, or the word 0xFFFFFFFF, which says that it is not yet known (SCOPE 4.8), and no other word does.
catalogue('duration-0', 'fine', tracks=put(SAMPLE_TRACKS, 3, (0, 5, 3, 0, 18, 4)))
catalogue('duration-8640000', 'fine', tracks=put(SAMPLE_TRACKS, 3, (8640000, 5, 3, 0, 18, 4)))
catalogue('duration-8640001', '200', tracks=put(SAMPLE_TRACKS, 3, (8640001, 5, 3, 0, 18, 4)))
catalogue('duration-8640001-first', '200', tracks=put(SAMPLE_TRACKS, 0, (8640001, 30, 0, 3, 0, 8)))
catalogue('duration-not-yet-known', 'fine', tracks=put(SAMPLE_TRACKS, 3, (WORD, 5, 3, 0, 18, 4)))
catalogue('duration-not-yet-known-first', 'fine', tracks=put(SAMPLE_TRACKS, 0, (WORD, 30, 0, 3, 0, 8)))
catalogue('duration-one-below-not-yet-known', '200', tracks=put(SAMPLE_TRACKS, 3, (WORD - 1, 5, 3, 0, 18, 4)))
catalogue('duration-half', '200', tracks=put(SAMPLE_TRACKS, 3, (0x7FFFFFFF, 5, 3, 0, 18, 4)))
catalogue('duration-sign', '200', tracks=put(SAMPLE_TRACKS, 3, (0x80000000, 5, 3, 0, 18, 4)))
catalogue('stamp-greatest', 'fine', tracks=put(SAMPLE_TRACKS, 3, (900, WORD, 3, 0, 18, 4)))

# Segment starts begin at 0, rise strictly and lie below D (SCOPE 4.10). Track 0 of the sample lasts 6000.
catalogue('starts-begin-at-1', '200', segments=[1, 1500, 4000])
catalogue('starts-equal', '200', segments=[0, 1500, 1500])
catalogue('starts-two-zeros', '200', segments=[0, 0, 4000])
catalogue('starts-fall', '200', segments=[0, 4000, 1500])
catalogue('starts-below-duration', 'fine', segments=[0, 1500, 5999])
catalogue('starts-at-duration', '200', segments=[0, 1500, 6000])
catalogue('starts-above-duration', '200', segments=[0, 1500, WORD])
catalogue('starts-next-to-each-other', 'fine', segments=[0, 1, 2])
catalogue('starts-in-duration-0', '200', [(0, 0, 1)], [(0, 0, 0, 1, 0, 0)], [0], b'')
catalogue('starts-in-duration-1', 'fine', [(0, 0, 1)], [(1, 0, 0, 1, 0, 0)], [0], b'')
# Starts lie below D (SCOPE 4.10), which is 8,640,000 of a running recording (SCOPE 4.9).
for last, answer in ((8639999, 'fine'), (8640000, '200'), (8640001, '200'), (WORD - 1, '200'), (WORD, '200')):
    catalogue('starts-of-a-running-recording-%d' % last, answer, tracks=put(SAMPLE_TRACKS, 0, (WORD, 30, 0, 3, 0, 8)), segments=[0, 1500, last])
catalogue('starts-of-a-running-recording-begin-at-1', '200', tracks=put(SAMPLE_TRACKS, 0, (WORD, 30, 0, 3, 0, 8)), segments=[1, 1500, 4000])
segment_runs('starts-anew', 'fine', [(0, 2), (2, 2)], [0, 5999, 0, 1])
segment_runs('starts-not-anew', '200', [(0, 2), (2, 2)], [0, 1, 2, 3])
segment_runs('starts-fall-in-second', '200', [(0, 1), (1, 3)], [0, 0, 9, 8])
segment_runs('starts-at-duration-in-second', '200', [(0, 1), (1, 2)], [0, 0, 6000])

# Titles, also empty ones, lie in the text, have at most 128 octets and are UTF-8 (SCOPE 4.11, 4.12). The text of the sample has 22 octets.


def title(name, answer, offset, length, text=SAMPLE_TEXT):
    """The sample with empty titles but for one, that of the last track."""
    tracks = [(6000, 30, 0, 3, 0, 0), (300, 10, 3, 0, 0, 0), (0, 10, 3, 0, 0, 0), (900, 5, 3, 0, offset, length)]
    catalogue(name, answer, tracks=tracks, text=text)


title('title-whole-text', 'fine', 0, 22)
title('title-out-by-one', '200', 18, 5)
title('title-whole-out-by-one', '200', 0, 23)
title('title-empty-at-0', 'fine', 0, 0)
title('title-empty-at-end', 'fine', 22, 0)
title('title-empty-beyond', '200', 23, 0)
title('title-empty-far-beyond', '200', WORD, 0)
title('title-empty-in-empty-text', 'fine', 0, 0, b'')
title('title-one-in-empty-text', '200', 0, 1, b'')
title('title-128', 'fine', 0, 128, b't' * 129)
title('title-129', '200', 0, 129, b't' * 129)
title('title-128-at-1', 'fine', 1, 128, b't' * 129)
title('title-wrap-offset', '200', WORD, 1)
title('title-wrap-length', '200', 1, WORD)
title('title-wrap-inside', '200', 0xFFFFFFFC, 8)
# Octets 2 and 3 are one character. The title is that of track 3, and the offset is counted from where the title begins.
title('title-cuts-character', '200 3 2', 0, 3)
title('title-begins-in-character', '200 3 0', 3, 5)
title('title-ends-before-character', 'fine', 0, 2)
title('title-one-character', 'fine', 2, 2)
title('title-not-utf-8', '200 3 0', 2, 2, b'ab\xC0\x80cd')
title('title-bad-octet-last', '200 3 3', 0, 4, b'abc\xFF')
title('title-bad-octets-outside', 'fine', 2, 2, b'\xFF\xC3ab\x80\xFF')
title('title-character-behind-end', '200 3 0', 0, 1, b'\xC3\xA9')
catalogue('title-bad-in-first-track', '200 0 2', text=b'Pr\xC3\xC3ludeIntermezzoCoda')
catalogue('title-bad-in-second-track', '200 1 0', text=b'Pr\xC3\xA9lude\x80ntermezzoCoda')
catalogue('titles-share-octets', 'fine', tracks=put(SAMPLE_TRACKS, 3, (900, 5, 3, 0, 8, 14)))
catalogue('titles-in-any-order', 'fine', tracks=put(put(SAMPLE_TRACKS, 1, (300, 10, 3, 0, 18, 4)), 3, (900, 5, 3, 0, 8, 10)))

# The offset, within the title, of the first octet that does not start a whole valid character, with all octets before it being whole valid characters (SCOPE
# 2.6).

# The catalogues from here on that are refused, each with its name, its answer and its records: the card writer gets them too.
REFUSED_TITLES = []


def titled(name, answer, groups=SAMPLE_GROUPS, tracks=SAMPLE_TRACKS, segments=SAMPLE_SEGMENTS, text=SAMPLE_TEXT):
    """The sample, but for the tables that are given."""
    catalogue(name, answer, groups, tracks, segments, text)
    if answer != 'fine':
        REFUSED_TITLES.append((name, answer, (groups, tracks, segments, text)))


def parts(name, answer, text, *places):
    """A group of tracks whose titles are these parts of the text, each by its offset and its length."""
    titled(name, answer, [(0, 0, len(places))], [(100, 0, 0, 0, offset, length) for offset, length in places], [], text)


def titles(name, answer, *octets):
    """A group of tracks that have these titles, which follow each other in the text."""
    places, text = [], b''
    for each in octets:
        places.append((len(text), len(each)))
        text += each
    parts(name, answer, text, *places)


titles('bad-title-at-0', '200 0 0', b'\xFFabcdef')
titles('bad-title-middle', '200 0 3', b'abc\xFFdef')
titles('bad-title-last-octet', '200 0 6', b'abcdef\xFF')
titles('bad-title-one-octet', '200 0 0', b'\x80')
titles('bad-title-every-octet', '200 0 0', b'\xFF' * 7)
titles('bad-title-two-places', '200 0 2', b'ab\xFFcd\xFFef')
titles('bad-title-cut-behind-bad-octet', '200 0 1', b'a\xFFbcd\xC3')
# Octets are counted, not characters: one of two, one of three, one of four and one of one stand before the bad one.
titles('bad-title-behind-characters', '200 0 10', b'\xC3\xA9\xE2\x82\xAC\xF0\x9D\x84\x9Ea\xFF')
titles('bad-title-tail-too-many', '200 0 2', b'\xC3\xA9\xA9')
# Within the title, not within the text.
titles('bad-title-behind-titles', '200 2 1', b'abcdefgh', b'ijkl', b'm\xFFn')
parts('bad-title-far-into-text', '200 0 2', b'x' * 1000 + b'ab\xFFc', (1000, 4))
parts('bad-title-from-inside-text', '200 0 4', b'ab\xC3\xA9cd\xFFef', (2, 7))

# A title of 128 octets.
titles('bad-title-128-at-0', '200 0 0', b'\xFF' + b't' * 127)
titles('bad-title-128-at-64', '200 0 64', b't' * 64 + b'\xFF' + b't' * 63)
titles('bad-title-128-at-126', '200 0 126', b't' * 126 + b'\xFFt')
titles('bad-title-128-at-127', '200 0 127', b't' * 127 + b'\xFF')
titles('bad-title-128-tail-at-127', '200 0 127', b't' * 127 + b'\x80')
titles('bad-title-128-cut-2', '200 0 127', b't' * 127 + b'\xC3')
titles('bad-title-128-cut-3', '200 0 126', b't' * 126 + b'\xE2\x82')
titles('bad-title-128-cut-4', '200 0 125', b't' * 125 + b'\xF0\x9D\x84')
titles('bad-title-128-octet-127-in-2', '200 0 126', b't' * 126 + b'\xC3t')
titles('bad-title-128-octet-127-in-3', '200 0 125', b't' * 125 + b'\xE2\x82t')
titles('bad-title-128-octet-127-in-4', '200 0 124', b't' * 124 + b'\xF0\x9D\x84t')
parts('bad-title-128-tail-behind-end', '200 0 127', b't' * 127 + b'\xC3\xA9', (0, 128))
titles('bad-title-128-in-second', '200 1 127', b't' * 128, b't' * 127 + b'\xFF', b't' * 128)

# The title ends inside a character. The text ends there too, or goes on behind the title: with something else, or with the rest of the
# character, which may be the title of the next track or of the one before. The offset is that of the character's first octet.
for character, kept in ((b'\xC3\xA9', 1), (b'\xE2\x82\xAC', 1), (b'\xE2\x82\xAC', 2), (b'\xF0\x9D\x84\x9E', 1), (b'\xF0\x9D\x84\x9E', 2),
                        (b'\xF0\x9D\x84\x9E', 3)):
    name = 'bad-title-cut-%d-after-%d' % (len(character), kept)
    front, rest = (0, 2 + kept), (2 + kept, len(character) - kept)
    parts(name, '200 0 2', b'ab' + character[:kept], front)
    parts(name + '-alone', '200 0 0', character[:kept], (0, kept))
    parts(name + '-text-goes-on', '200 0 2', b'ab' + character + b'cd', front)
    parts(name + '-other-text-goes-on', '200 0 2', b'ab' + character[:kept] + b'cd', front)
    parts(name + '-then-rest', '200 0 2', b'ab' + character, front, rest)
    parts(name + '-behind-rest', '200 0 0', b'ab' + character, rest, front)
    parts(name + '-behind-whole', '200 1 2', b'ab' + character, (0, 2 + len(character)), front)

# Something else in place of a tail of a character of two, three or four octets. The offset is that of the character's first octet, and
# not that of the octet that is no tail.
for other, octet in (('letter', b'A'), ('7F', b'\x7F'), ('C3', b'\xC3'), ('FF', b'\xFF')):
    titles('bad-title-%s-in-2' % other, '200 0 3', b'abc\xC3' + octet + b'd')
    titles('bad-title-%s-in-3-second' % other, '200 0 3', b'abc\xE2' + octet + b'\xACd')
    titles('bad-title-%s-in-3-third' % other, '200 0 3', b'abc\xE2\x82' + octet + b'd')
    titles('bad-title-%s-in-4-second' % other, '200 0 3', b'abc\xF0' + octet + b'\x84\x9Ed')
    titles('bad-title-%s-in-4-third' % other, '200 0 3', b'abc\xF0\x9D' + octet + b'\x9Ed')
    titles('bad-title-%s-in-4-fourth' % other, '200 0 3', b'abc\xF0\x9D\x84' + octet + b'd')
# A whole character in place of the last tail, or of all tails.
titles('bad-title-character-in-3', '200 0 3', b'abc\xE2\x82\xC3\xA9')
titles('bad-title-character-in-4', '200 0 3', b'abc\xF0\xE2\x82\xAC')
# Overlong forms, surrogates, and what lies above U+10FFFF.
for form in ('C080', 'C1BF', 'E09FBF', 'EDA080', 'EDBFBF', 'F08FBFBF', 'F4908080', 'F5808080'):
    titles('bad-title-form-' + form, '200 0 3', b'abc' + bytes.fromhex(form) + b'd')

# 200 for a bad title carries the lowest such track and the offset (SCOPE 4.14).
titles('bad-titles-lower-track', '200 0 6', b'abcdef\xFF', b'\xFFabcdef')
titles('bad-titles-lower-track-lower-offset', '200 0 0', b'\xFFabcdef', b'abcdef\xFF')
titles('bad-titles-equal', '200 0 1', b'a\xFF', b'a\xFF')
titles('bad-titles-behind-good-ones', '200 2 4', b'ab', b'', b'abcd\xFF', b'cd', b'\xFF')
titles('bad-titles-all', '200 0 3', b'abc\xFF', b'ab\xFF', b'a\xFF', b'\xFF')
titles('bad-title-second', '200 1 2', b'ab', b'ab\xFF')
titles('bad-title-last', '200 3 2', b'ab', b'ab', b'ab', b'ab\xFF')
# The titles of tracks 1 and 3 of the sample are bad, at 5 and at 3. Track 3 has the lower stamp.
titled('bad-titles-sample', '200 1 5', text=b'Pr\xC3\xA9ludeInter\xC3ezzoCod\xFF')
# The lowest track, not the one whose title lies first in the text.
parts('bad-titles-lower-track-behind-in-text', '200 0 5', b'\xFFabcde\x80', (1, 6), (0, 1))
parts('bad-titles-from-behind', '200 1 3', b'\xFFa\xFFab\xFFabc\xFFabcd', (10, 4), (6, 4), (3, 3), (1, 2), (0, 1))
# Tracks that share a bad title.
parts('bad-title-shared', '200 0 3', b'abc\xFF', (0, 4), (0, 4))
parts('bad-title-shared-behind-good-one', '200 1 3', b'abc\xFFde', (4, 2), (0, 4), (0, 4), (4, 2))
# Titles that overlap. The bad octet is at another offset in each title that has it.
parts('bad-titles-overlap-shorter-first', '200 0 1', b'abc\xFFde', (2, 3), (0, 6))
parts('bad-titles-overlap-longer-first', '200 0 3', b'abc\xFFde', (0, 6), (2, 3))
parts('bad-titles-overlap-octet-alone', '200 0 3', b'abc\xFFde', (0, 6), (3, 1))
parts('bad-title-overlaps-good-one', '200 1 3', b'abc\xFFde', (0, 3), (0, 4))
parts('bad-title-overlaps-good-one-behind', '200 0 3', b'abc\xFFde', (0, 4), (0, 3))
parts('bad-title-begins-in-good-one', '200 1 0', b'ab\xC3\xA9cd', (0, 4), (3, 3))
parts('bad-title-ends-in-good-one', '200 1 1', b'ab\xC3\xA9cd', (0, 6), (1, 2))
parts('bad-titles-cut-one-character', '200 0 2', b'ab\xC3\xA9cd', (0, 3), (3, 3))
parts('bad-titles-cut-one-character-turned', '200 0 0', b'ab\xC3\xA9cd', (3, 3), (0, 3))

# The last of 256 tracks. Its title in the full catalogue ends with a character of four octets at 124 to 127, and the text with it.
# Octet 4 of each title there begins a character of two octets, and octet 66 one of three.
tables_case('bad-title-full-last', '200 255 124', Tables(FULL_GROUPS, FULL_TRACKS, FULL_SEGMENTS, spoiled(FULL_TEXT, 32767, 0x41)))
tables_case('bad-title-full-last-at-4', '200 255 4', Tables(FULL_GROUPS, FULL_TRACKS, FULL_SEGMENTS, spoiled(FULL_TEXT, 32645, 0x41)))
tables_case('bad-title-full-last-at-0', '200 255 0', Tables(FULL_GROUPS, FULL_TRACKS, FULL_SEGMENTS, spoiled(FULL_TEXT, 32640, 0x80)))
tables_case('bad-titles-full-last-two', '200 254 66',
            Tables(FULL_GROUPS, FULL_TRACKS, FULL_SEGMENTS, spoiled(spoiled(FULL_TEXT, 32580, 0x41), 32640, 0x80)))
tables_case('bad-titles-full-first-and-last', '200 0 124',
            Tables(FULL_GROUPS, FULL_TRACKS, FULL_SEGMENTS, spoiled(spoiled(FULL_TEXT, 127, 0x41), 32640, 0x80)))
# The title of the last track goes beyond the text by one octet, that of the first is bad.
tables_case('bad-title-full-first-and-last-out', '200',
            Tables(FULL_GROUPS, put(FULL_TRACKS, 255, (556, 0, 1020, 4, 32641, 128)), FULL_SEGMENTS, spoiled(FULL_TEXT, 127, 0x41)))
# A track whose title is the first octet of the text.
FIRST_OCTET = (100, 0, 0, 0, 0, 1)
titled('bad-title-last-of-256', '200 255 0', [(0, 0, 256)], [PLAIN] * 255 + [FIRST_OCTET], [], b'\xFF')
titled('bad-title-first-of-256', '200 0 0', [(0, 0, 256)], [FIRST_OCTET] + [PLAIN] * 255, [], b'\xFF')
titled('bad-title-128-of-256', '200 128 0', [(0, 0, 256)], [PLAIN] * 128 + [FIRST_OCTET] * 128, [], b'\xFF')
titled('bad-title-all-of-256', '200 0 0', [(0, 0, 256)], [FIRST_OCTET] * 256, [], b'\xFF')

# Every other 200 carries nothing and comes before (SCOPE 4.14). The title of track 1 of the sample is bad at 5, and another rule is broken too: before it, in
# its own track or group, or behind it.
BAD_TEXT = b'Pr\xC3\xA9ludeInter\xC3ezzoCoda'


def plain(name, groups=SAMPLE_GROUPS, tracks=SAMPLE_TRACKS, segments=SAMPLE_SEGMENTS, text=BAD_TEXT):
    """The sample with the bad title, but for the tables that are given: 200 carries nothing."""
    titled('bad-title-and-' + name, '200', groups, tracks, segments, text)


titled('bad-title-and-nothing-else', '200 1 5', text=BAD_TEXT)
# A lent table ends inside a record (SCOPE 4.4).
cut('bad-title-and-cut-groups-1-word', groups=[0], text=BAD_TEXT)
cut('bad-title-and-cut-groups-2-words', groups=[0, 4], text=BAD_TEXT)
cut('bad-title-and-cut-tracks-1-word', tracks=[100], text=BAD_TEXT)
cut('bad-title-and-cut-tracks-5-words', tracks=[100, 0, 3, 0, 0], text=BAD_TEXT)
# At most 64 groups, 256 tracks, 1,024 segments, 32,768 text octets (SCOPE 4.2).
titled('bad-title-in-64-groups', '200 1 5', SAMPLE_GROUPS + [(0, 4, 0)] * 60, text=BAD_TEXT)
plain('65-groups', SAMPLE_GROUPS + [(0, 4, 0)] * 61)
plain('257-tracks-first', [(0, 0, 257)], [FIRST_OCTET] + [PLAIN] * 256, [], b'\xFF')
plain('257-tracks-middle', [(0, 0, 257)], [PLAIN] * 128 + [FIRST_OCTET] + [PLAIN] * 128, [], b'\xFF')
plain('257-tracks-last', [(0, 0, 257)], [PLAIN] * 256 + [FIRST_OCTET], [], b'\xFF')
titled('bad-title-and-1024-segments', '200 0 0', [(0, 0, 1)], [(8640000, 0, 0, 1024, 0, 1)], range(1024), b'\xFF')
plain('1025-segments', [(0, 0, 1)], [(8640000, 0, 0, 1025, 0, 1)], range(1025), b'\xFF')
plain('1025-segments-behind', [(0, 0, 2)], [FIRST_OCTET, (8640000, 0, 0, 1025, 0, 0)], range(1025), b'\xFF')
plain('1025-segments-before', [(0, 0, 2)], [(8640000, 0, 0, 1025, 0, 0), (100, 0, 1025, 0, 0, 1)], range(1025), b'\xFF')
parts('bad-title-at-end-of-32768', '200 0 0', b'y' * 32767 + b'\xFF', (32767, 1))
parts('bad-title-and-32769-text-last', '200', b'y' * 32768 + b'\xFF', (32768, 1))
parts('bad-title-and-32769-text-first', '200', b'\xFF' + b'y' * 32768, (0, 1))
# Group 0, if any, is its own parent; every other parent number is smaller than its child's (SCOPE 4.5). Track 1 is in group 1.
plain('parent-of-0-is-1', put(SAMPLE_GROUPS, 0, (1, 0, 0)))
plain('parent-of-1-is-1', put(SAMPLE_GROUPS, 1, (1, 0, 3)))
plain('parent-of-2-is-3', put(SAMPLE_GROUPS, 2, (3, 3, 0)))
plain('parent-of-3-is-3', put(SAMPLE_GROUPS, 3, (3, 3, 1)))
plain('parent-of-3-is-greatest', put(SAMPLE_GROUPS, 3, (WORD, 3, 1)))
# The groups' track runs follow each other from 0 in group order and use up all tracks (SCOPE 4.6).
plain('track-run-of-0-off', put(SAMPLE_GROUPS, 0, (0, 1, 0)))
plain('track-run-of-1-off', put(SAMPLE_GROUPS, 1, (0, 1, 2)))
plain('track-run-of-2-off', put(SAMPLE_GROUPS, 2, (0, 2, 0)))
plain('track-run-of-3-off', put(SAMPLE_GROUPS, 3, (0, 2, 2)))
plain('track-runs-not-used-up', put(SAMPLE_GROUPS, 3, (0, 3, 0)))
plain('track-runs-beyond', put(SAMPLE_GROUPS, 3, (0, 3, 2)))
plain('track-in-no-group', [(0, 0, 1)])
plain('no-groups', [])
# The tracks' segment runs follow each other in the same way (SCOPE 4.7).
plain('segment-run-of-0-off', tracks=put(SAMPLE_TRACKS, 0, (6000, 30, 1, 2, 0, 8)))
plain('segment-run-of-0-short', tracks=put(SAMPLE_TRACKS, 0, (6000, 30, 0, 2, 0, 8)))
plain('segment-run-of-1-off', tracks=put(SAMPLE_TRACKS, 1, (300, 10, 2, 0, 8, 10)))
plain('segment-run-of-2-off', tracks=put(SAMPLE_TRACKS, 2, (0, 10, 4, 0, 18, 0)))
plain('segment-run-of-3-off', tracks=put(SAMPLE_TRACKS, 3, (900, 5, 0, 0, 18, 4)))
plain('segment-run-of-3-beyond', tracks=put(SAMPLE_TRACKS, 3, (900, 5, 3, 1, 18, 4)))
plain('segments-not-used-up', segments=[0, 1500, 4000, 0])
plain('segments-too-few', segments=[0, 1500])
# A duration is 0 to 8,640,000, or the word 0xFFFFFFFF, which says that it is not yet known (SCOPE 4.8).
plain('duration-of-0', tracks=put(SAMPLE_TRACKS, 0, (8640001, 30, 0, 3, 0, 8)))
plain('duration-of-1', tracks=put(SAMPLE_TRACKS, 1, (8640001, 10, 3, 0, 8, 10)))
plain('duration-of-2', tracks=put(SAMPLE_TRACKS, 2, (WORD - 1, 10, 3, 0, 18, 0)))
plain('duration-of-3', tracks=put(SAMPLE_TRACKS, 3, (8640001, 5, 3, 0, 18, 4)))
titled('bad-title-of-a-running-recording', '200 1 5', tracks=put(SAMPLE_TRACKS, 1, (WORD, 10, 3, 0, 8, 10)), text=BAD_TEXT)
# Segment starts begin at 0, rise strictly and lie below D (SCOPE 4.10).
plain('starts-of-0-begin-at-1', segments=[1, 1500, 4000])
plain('starts-of-0-equal', segments=[0, 1500, 1500])
plain('starts-of-0-fall', segments=[0, 4000, 1500])
plain('starts-of-0-at-duration', segments=[0, 1500, 6000])
# Two segments in track 1, which lasts 300, and two in track 3, which lasts 900.
TWO_AND_TWO = [(6000, 30, 0, 0, 0, 8), (300, 10, 0, 2, 8, 10), (0, 10, 2, 0, 18, 0), (900, 5, 2, 2, 18, 4)]
titled('bad-title-of-segments', '200 1 5', tracks=TWO_AND_TWO, segments=[0, 299, 0, 899], text=BAD_TEXT)
plain('starts-of-1-begin-at-1', tracks=TWO_AND_TWO, segments=[1, 299, 0, 899])
plain('starts-of-1-equal', tracks=TWO_AND_TWO, segments=[0, 0, 0, 899])
plain('starts-of-1-at-duration', tracks=TWO_AND_TWO, segments=[0, 300, 0, 899])
plain('starts-of-3-begin-at-1', tracks=TWO_AND_TWO, segments=[0, 299, 1, 899])
plain('starts-of-3-equal', tracks=TWO_AND_TWO, segments=[0, 299, 0, 0])
plain('starts-of-3-at-duration', tracks=TWO_AND_TWO, segments=[0, 299, 0, 900])
# Titles, also empty ones, lie in the text, have at most 128 octets (SCOPE 4.11): those of other tracks.
plain('title-of-0-out', tracks=put(SAMPLE_TRACKS, 0, (6000, 30, 0, 3, 15, 8)))
plain('title-of-2-out', tracks=put(SAMPLE_TRACKS, 2, (0, 10, 3, 0, 23, 0)))
plain('title-of-3-out', tracks=put(SAMPLE_TRACKS, 3, (900, 5, 3, 0, 18, 5)))
plain('title-of-3-wraps', tracks=put(SAMPLE_TRACKS, 3, (900, 5, 3, 0, 0xFFFFFFFC, 8)))
titles('bad-title-before-128', '200 0 0', b'\xFF', b't' * 128)
titles('bad-title-behind-128', '200 1 0', b't' * 128, b'\xFF')
titles('bad-title-before-129', '200', b'\xFF', b't' * 129)
titles('bad-title-behind-129', '200', b't' * 129, b'\xFF')
titles('bad-title-far-before-129', '200', b'\xFF', b'', b'ab', b't' * 129)
# Rules that are broken before it and behind it at once.
plain('others-on-both-sides', put(SAMPLE_GROUPS, 3, (3, 3, 1)), segments=[1, 1500, 4000])
# The bad title is in the first track or in the last one.
plain('duration-behind-first', tracks=put(SAMPLE_TRACKS, 3, (8640001, 5, 3, 0, 18, 4)), text=b'\xFFr\xC3\xA9ludeIntermezzoCoda')
plain('duration-before-last', tracks=put(SAMPLE_TRACKS, 0, (8640001, 30, 0, 3, 0, 8)), text=b'Pr\xC3\xA9ludeIntermezzoCod\xFF')
plain('duration-between-two', tracks=put(SAMPLE_TRACKS, 1, (8640001, 10, 3, 0, 8, 10)), text=b'\xFFr\xC3\xA9ludeIntermezzoCod\xFF')

# A title that is not UTF-8 and is over 128 octets, or does not lie in the text: 200 carries nothing.
titles('long-title-bad-at-0', '200', b'\xFF' + b't' * 128)
titles('long-title-bad-at-64', '200', b't' * 64 + b'\xFF' + b't' * 64)
titles('long-title-bad-at-127', '200', b't' * 127 + b'\xFFt')
titles('long-title-bad-at-128', '200', b't' * 128 + b'\xFF')
titles('long-title-cut-at-128', '200', b't' * 128 + b'\xC3')
titles('long-title-character-at-127', '200', b't' * 127 + b'\xC3\xA9')
titles('long-title-bad-behind-bad-title', '200', b'a\xFF', b'\xFF' * 129)
titles('long-title-bad-before-bad-title', '200', b'\xFF' * 129, b'a\xFF')
parts('title-out-bad-at-0', '200', b'\xFFab', (0, 4))
parts('title-out-bad-at-2', '200', b'ab\xFF', (0, 4))
parts('title-out-bad-alone', '200', b'ab\xFF', (2, 2))
parts('title-out-cut-by-end-of-text', '200', b'ab\xC3', (0, 4))
parts('title-out-behind-bad-text', '200', b'ab\xFF', (3, 1))
parts('title-out-empty-behind-bad-text', '200', b'ab\xFF', (4, 0))
parts('title-out-wraps-to-bad-text', '200', b'\xFFab', (WORD, 2))
parts('title-out-and-long-and-bad', '200', b'\xFF' * 129, (0, 130))
parts('title-out-greatest-length-and-bad', '200', b'\xFFab', (0, WORD))
parts('title-out-behind-bad-title', '200', b'ab\xFF', (0, 3), (0, 4))
parts('title-out-before-bad-title', '200', b'ab\xFF', (0, 4), (0, 3))

# Text that is in no title need not be UTF-8.
parts('titles-around-bad-text', 'fine', b'ab\xFF\xC3cd', (0, 2), (4, 2))
parts('titles-around-bad-text-next-to-it', 'fine', b'\xC3\xA9\x80\xE2\x82\xAC', (0, 2), (3, 3))
parts('titles-empty-in-bad-text', 'fine', b'\xFF\xFF', (0, 0), (1, 0), (2, 0))
parts('titles-empty-inside-a-character', 'fine', b'\xE2\x82\xAC', (1, 0), (2, 0))
parts('title-128-up-to-bad-text', 'fine', b't' * 128 + b'\xFF', (0, 128))
parts('title-128-behind-bad-text', 'fine', b'\xFF' + b't' * 128, (1, 128))
parts('title-behind-cut-character', 'fine', b'\xF0\x9D\x84ab', (3, 2))
parts('titles-around-bad-title', '200 1 0', b'ab\xFF\xC3cd', (0, 2), (2, 2), (4, 2))
catalogue('catalogue-bad-text-alone', 'fine', [], [], [], b'\xFF\xC0\x80')
catalogue('catalogue-bad-text-behind-titles', 'fine', text=SAMPLE_TEXT + b'\xC3\xFF')


# ---- Text: RFC 3629. The text check answers the offset of the first octet that does not start a whole valid character, where all octets before it are whole
# ---- valid characters (SCOPE 2.6).

GOOD = b'a\xC3\xA9\xE2\x82\xAC\xF0\x9D\x84\x9E'  # characters of one, two, three and four octets: ten octets


def text(name, answer, octets):
    add(TEXT, name, struct.pack('<I', len(octets)) + octets, answer)


text('text-empty', 'fine', b'')
text('text-ascii-40', 'fine', b'0123456789' * 4)
text('text-ascii-40-then-bad', 'bad at 40', b'0123456789' * 4 + b'\x80')
text('text-ascii-40-bad-first', 'bad at 0', b'\x80' + b'0123456789' * 4)
text('text-mixed-300', 'fine', GOOD * 30)
text('text-mixed-300-cut', 'bad at 296', (GOOD * 30)[:299])
text('text-mixed-300-spoiled', 'bad at 150', GOOD * 15 + b'\xFF' + (GOOD * 15)[1:])

# The first and the last character of each row of the RFC's syntax (UTF8-1 to UTF8-4).
text('text-U+0000', 'fine', b'\x00')
text('text-U+007F', 'fine', b'\x7F')
text('text-U+0080', 'fine', b'\xC2\x80')
text('text-U+07FF', 'fine', b'\xDF\xBF')
text('text-U+0800', 'fine', b'\xE0\xA0\x80')
text('text-U+0FFF', 'fine', b'\xE0\xBF\xBF')
text('text-U+1000', 'fine', b'\xE1\x80\x80')
text('text-U+CFFF', 'fine', b'\xEC\xBF\xBF')
text('text-U+D000', 'fine', b'\xED\x80\x80')
text('text-U+D7FF', 'fine', b'\xED\x9F\xBF')
text('text-U+E000', 'fine', b'\xEE\x80\x80')
text('text-U+FFFF', 'fine', b'\xEF\xBF\xBF')
text('text-U+10000', 'fine', b'\xF0\x90\x80\x80')
text('text-U+3FFFF', 'fine', b'\xF0\xBF\xBF\xBF')
text('text-U+40000', 'fine', b'\xF1\x80\x80\x80')
text('text-U+FFFFF', 'fine', b'\xF3\xBF\xBF\xBF')
text('text-U+100000', 'fine', b'\xF4\x80\x80\x80')
text('text-U+10FFFF', 'fine', b'\xF4\x8F\xBF\xBF')

# Overlong forms: C0 and C1 never appear, nor 80 to 9F behind E0, nor 80 to 8F behind F0.
text('text-overlong-C0-80', 'bad at 0', b'\xC0\x80')
text('text-overlong-C1-BF', 'bad at 0', b'\xC1\xBF')
text('text-overlong-E0-80-80', 'bad at 0', b'\xE0\x80\x80')
text('text-overlong-E0-9F-BF', 'bad at 0', b'\xE0\x9F\xBF')
text('text-overlong-F0-80-80-80', 'bad at 0', b'\xF0\x80\x80\x80')
text('text-overlong-F0-8F-BF-BF', 'bad at 0', b'\xF0\x8F\xBF\xBF')
text('text-overlong-behind-good', 'bad at 10', GOOD + b'\xE0\x9F\xBF' + GOOD)

# Surrogates: A0 to BF never appear behind ED.
text('text-surrogate-ED-A0-80', 'bad at 0', b'\xED\xA0\x80')
text('text-surrogate-ED-BF-BF', 'bad at 0', b'\xED\xBF\xBF')
text('text-surrogate-behind-good', 'bad at 10', GOOD + b'\xED\xA0\x80' + GOOD)

# Above U+10FFFF: 90 to BF never appear behind F4, nor F5 to FF anywhere.
text('text-above-F4-90-80-80', 'bad at 0', b'\xF4\x90\x80\x80')
text('text-above-F5-80-80-80', 'bad at 0', b'\xF5\x80\x80\x80')
text('text-above-FE', 'bad at 0', b'\xFE')
text('text-above-FF', 'bad at 0', b'\xFF')
text('text-above-behind-good', 'bad at 10', GOOD + b'\xF4\x90\x80\x80')
text('text-above-behind-three', 'bad at 3', b'a\xC3\xA9\xF5\x80\x80\x80')

# Tails where a character has to begin.
text('text-lone-80', 'bad at 0', b'\x80')
text('text-lone-BF', 'bad at 0', b'\xBF')
text('text-lone-behind-good', 'bad at 10', GOOD + b'\xBF')
text('text-tail-too-many', 'bad at 2', b'\xC3\xA9\xA9')

# The end comes inside a character.
text('text-cut-2-after-1', 'bad at 0', b'\xC3')
text('text-cut-3-after-1', 'bad at 0', b'\xE2')
text('text-cut-3-after-2', 'bad at 0', b'\xE2\x82')
text('text-cut-4-after-1', 'bad at 0', b'\xF0')
text('text-cut-4-after-2', 'bad at 0', b'\xF0\x9D')
text('text-cut-4-after-3', 'bad at 0', b'\xF0\x9D\x84')
text('text-cut-2-behind-good', 'bad at 10', GOOD + b'\xC3')
text('text-cut-3-behind-good', 'bad at 10', GOOD + b'\xE2\x82')
text('text-cut-4-behind-good', 'bad at 10', GOOD + b'\xF0\x9D\x84')

# Something else in place of a tail, which is 80 to BF.
text('text-ascii-in-2', 'bad at 0', b'\xC3A')
text('text-ascii-in-3-second', 'bad at 0', b'\xE2A\xAC')
text('text-ascii-in-3-third', 'bad at 0', b'\xE2\x82A')
text('text-ascii-in-4-second', 'bad at 0', b'\xF0A\x84\x9E')
text('text-ascii-in-4-third', 'bad at 0', b'\xF0\x9DA\x9E')
text('text-ascii-in-4-fourth', 'bad at 0', b'\xF0\x9D\x84A')
text('text-ascii-behind-good', 'bad at 10', GOOD + b'\xE2\x82A')
text('text-7F-for-tail', 'bad at 0', b'\xC2\x7F')
text('text-C0-for-tail', 'bad at 0', b'\xC2\xC0')
text('text-7F-for-third', 'bad at 0', b'\xE1\x80\x7F')
text('text-C0-for-third', 'bad at 0', b'\xE1\x80\xC0')
text('text-C0-for-fourth', 'bad at 0', b'\xF1\x80\x80\xC0')
text('text-first-for-tail', 'bad at 0', b'\xC3\xC3\xA9')
text('text-first-of-two-bad', 'bad at 1', b'a\xFF\xC0\x80')
text('text-ascii-in-2-behind-good', 'bad at 10', GOOD + b'\xC3A')
text('text-ascii-in-4-behind-good', 'bad at 10', GOOD + b'\xF0\x9D\x84A')
text('text-character-in-4', 'bad at 1', b'a\xF0\x9D\xC3\xA9')
text('text-cut-behind-bad', 'bad at 11', GOOD + b'a\xFF' + GOOD + b'\xC3')

# No length is too long for the text check itself.
text('text-128-bad-last', 'bad at 127', b'a' * 127 + b'\xFF')
text('text-128-cut-4', 'bad at 125', b'a' * 125 + b'\xF0\x9D\x84')
text('text-129', 'fine', b'a' * 127 + b'\xC3\xA9')
text('text-129-bad-first', 'bad at 0', b'\xFF' + b'a' * 128)
text('text-129-bad-last', 'bad at 128', b'a' * 128 + b'\xFF')


# ---- Sheets: the number of starts, or the refusal and its line. The starts are hundredths of a second.

def sheet(name, answer, octets, starts=(), room=16):
    """A sheet vector: `starts` are what an accepted sheet fills in; a refusal writes nothing (SCOPE 6.10)."""
    assert not starts or answer == str(len(starts))
    case = struct.pack('<I', len(octets)) + octets + words([room])
    add(SHEET, name, case, '%s %d' % (answer, check_number(after(starts, lent_words(room)))))


ZERO = b'INDEX 01 00:00:00\n'  # gives 0
FIFTEEN = b'INDEX 01 00:15:00\n'  # 15 seconds: gives 1500
FORTY = b'INDEX 01 00:40:00\n'  # 40 seconds: gives 4000

# A cue sheet is read into the segment starts of one track (SCOPE 6.1).
sheet('sheet-empty', '0', b'')
sheet('sheet-one-start', '1', ZERO, [0])
sheet('sheet-two-starts', '2', ZERO + FIFTEEN, [0, 1500])
sheet('sheet-three-starts', '3', ZERO + FIFTEEN + FORTY, [0, 1500, 4000])
sheet('sheet-no-starts', '0', b'REM nothing marked\nTRACK 01 AUDIO\n  INDEX 00 00:00:00\n')
# 2 minutes, 5 seconds, 30 frames: 125 seconds and 120 / 3 = 40. 61 minutes, 0 seconds, 70 frames: 3660 seconds and
# 280 / 3, of which 93 is the whole part.
sheet('sheet-of-a-recorder', '3',
      b'REM GENRE Interview\r\nPERFORMER "A. Castelo"\r\nTITLE "The lighthouse"\r\nFILE "LIGHT.WAV" WAVE\r\n'
      b'  TRACK 01 AUDIO\r\n    TITLE "Arrival"\r\n    INDEX 01 00:00:00\r\n'
      b'  TRACK 02 AUDIO\r\n    TITLE "The keeper"\r\n    INDEX 00 02:03:00\r\n    INDEX 01 02:05:30\r\n'
      b'  TRACK 03 AUDIO\r\n    TITLE "The storm"\r\n    INDEX 01 61:00:70\r\n    INDEX 02 61:10:00\r\n',
      [0, 12540, 366093])

# The start is (60 times mm + ss) times 100 plus the whole part of 4 times ff over 3 (SCOPE 6.6). Three frames are four hundredths: the frames 3k, 3k + 1, 3k
# + 2 give 4k, 4k + 1, 4k + 2, and 4k + 3 is given by none.
sheet('sheet-frames-0-1-2-3', '4', ZERO + b'INDEX 01 00:00:01\nINDEX 01 00:00:02\nINDEX 01 00:00:03\n', [0, 1, 2, 4])
sheet('sheet-frames-all-75', '75', b''.join(b'INDEX 01 00:00:%02d\n' % frame for frame in range(75)),
      [0, 1, 2, 4, 5, 6, 8, 9, 10, 12, 13, 14, 16, 17, 18, 20, 21, 22, 24, 25, 26, 28, 29, 30, 32, 33, 34, 36, 37, 38,
       40, 41, 42, 44, 45, 46, 48, 49, 50, 52, 53, 54, 56, 57, 58, 60, 61, 62, 64, 65, 66, 68, 69, 70, 72, 73, 74,
       76, 77, 78, 80, 81, 82, 84, 85, 86, 88, 89, 90, 92, 93, 94, 96, 97, 98], room=80)
sheet('sheet-frames-into-second', '3', ZERO + b'INDEX 01 00:00:74\nINDEX 01 00:01:00\n', [0, 98, 100])
sheet('sheet-frames-into-minute', '3', ZERO + b'INDEX 01 00:59:74\nINDEX 01 01:00:00\n', [0, 5998, 6000])
sheet('sheet-frames-into-ten-minutes', '3', ZERO + b'INDEX 01 09:59:74\nINDEX 01 10:00:00\n', [0, 59998, 60000])
sheet('sheet-greatest-start', '2', ZERO + b'INDEX 01 99:59:74\n', [0, 599998])
# One in each digit: 4 / 3 is 1, 40 / 3 is 13.
sheet('sheet-one-in-each-digit', '7',
      ZERO + b'INDEX 01 00:00:01\nINDEX 01 00:00:10\nINDEX 01 00:01:00\nINDEX 01 00:10:00\nINDEX 01 01:00:00\n'
      b'INDEX 01 10:00:00\n', [0, 1, 13, 100, 1000, 6000, 60000])
sheet('sheet-tens-of-minutes', '10', b''.join(b'INDEX 01 %d0:00:00\n' % digit for digit in range(10)),
      [0, 60000, 120000, 180000, 240000, 300000, 360000, 420000, 480000, 540000])
sheet('sheet-minutes', '10', b''.join(b'INDEX 01 0%d:00:00\n' % digit for digit in range(10)),
      [0, 6000, 12000, 18000, 24000, 30000, 36000, 42000, 48000, 54000])
sheet('sheet-tens-of-seconds', '6', b''.join(b'INDEX 01 00:%d0:00\n' % digit for digit in range(6)),
      [0, 1000, 2000, 3000, 4000, 5000])
sheet('sheet-seconds', '10', b''.join(b'INDEX 01 00:0%d:00\n' % digit for digit in range(10)),
      [0, 100, 200, 300, 400, 500, 600, 700, 800, 900])
# 12 minutes, 34 seconds, 56 frames: 754 seconds and 224 / 3, of which 74 is the whole part.
sheet('sheet-12-34-56', '2', ZERO + b'INDEX 01 12:34:56\n', [0, 75474])

# Lines end in LF or CR LF or at the end of the text (SCOPE 6.3).
sheet('sheet-crlf', '3', b'INDEX 01 00:00:00\r\nINDEX 01 00:15:00\r\nINDEX 01 00:40:00\r\n', [0, 1500, 4000])
sheet('sheet-crlf-then-lf', '3', b'INDEX 01 00:00:00\r\nINDEX 01 00:15:00\nINDEX 01 00:40:00\r\n', [0, 1500, 4000])
sheet('sheet-lf-then-crlf', '3', b'INDEX 01 00:00:00\nINDEX 01 00:15:00\r\nINDEX 01 00:40:00\n', [0, 1500, 4000])
sheet('sheet-no-end', '1', b'INDEX 01 00:00:00', [0])
sheet('sheet-no-end-behind-lf', '2', b'INDEX 01 00:00:00\nINDEX 01 00:15:00', [0, 1500])
sheet('sheet-no-end-behind-crlf', '2', b'INDEX 01 00:00:00\r\nINDEX 01 00:15:00', [0, 1500])
sheet('sheet-no-end-passed-over', '1', ZERO + b'REM', [0])
sheet('sheet-no-end-not-understood', '226 2', ZERO + b'x')
sheet('sheet-lf-alone', '0', b'\n')
sheet('sheet-crlf-alone', '0', b'\r\n')
sheet('sheet-lf-many', '1', b'\n\n\n' + ZERO + b'\n\n', [0])
sheet('sheet-crlf-many', '1', b'\r\n\r\n\r\nINDEX 01 00:00:00\r\n\r\n\r\n', [0])
sheet('sheet-word-cut-by-lf', '226 1', b'RE\nM\n')
sheet('sheet-start-cut-by-lf', '226 1', b'INDEX 01\n00:00:00\n')
sheet('sheet-start-cut-by-crlf', '226 1', b'INDEX 0\r\n1 00:00:00\r\n')
# Nothing else ends a line: the whole of this is one line that begins REM.
sheet('sheet-other-ends', '0', b'REM\x0BINDEX 01 00:00:01\x0CINDEX 01 00:00:01\x1CINDEX 01 00:00:01\x85INDEX 01 00:00:01'
      b'\xE2\x80\xA8INDEX 01 00:00:01\0INDEX 01 00:00:01')
sheet('sheet-form-feed-behind-start', '226 1', b'INDEX 01 00:00:00\x0C\n')
sheet('sheet-end-of-file-mark', '226 2', ZERO + b'\x1A')

# CR ends a line only directly before LF: elsewhere, and at the end of the text, it belongs to its line.
sheet('sheet-cr-in-rem', '1', b'REM a\rb\n' + ZERO, [0])
sheet('sheet-cr-hides-start', '0', b'REM a\rINDEX 01 00:00:01\r\n')
sheet('sheet-cr-hides-nonsense', '1', b'TITLE a\rnonsense\n' + ZERO, [0])
sheet('sheet-cr-behind-word-at-end', '0', b'REM\r')
sheet('sheet-cr-behind-index-00-at-end', '0', b'INDEX 00\r')
sheet('sheet-cr-behind-start-at-end', '226 1', b'INDEX 01 00:00:00\r')
sheet('sheet-cr-behind-second-start-at-end', '226 2', ZERO + b'INDEX 01 00:15:00\r')
sheet('sheet-cr-between-starts', '226 1', b'INDEX 01 00:00:00\rINDEX 01 00:15:00\n')
sheet('sheet-cr-before-start', '226 1', b'\rINDEX 01 00:00:00\n')
sheet('sheet-cr-before-rem', '226 1', b'\rREM\n')
sheet('sheet-cr-behind-lf', '226 2', b'INDEX 01 00:00:00\n\rINDEX 01 00:15:00\n\r')
sheet('sheet-cr-alone', '226 1', b'\r')
sheet('sheet-cr-alone-second', '226 2', ZERO + b'\r')
sheet('sheet-cr-spaces-lf', '226 1', b'\r  \n')
sheet('sheet-spaces-cr-at-end', '226 1', b'   \r')
sheet('sheet-cr-space-behind-start', '226 1', b'INDEX 01 00:00:00\r \n')
sheet('sheet-cr-cr-lf', '226 1', b'\r\r\n')
sheet('sheet-cr-cr-lf-behind-rem', '1', b'REM\r\r\n' + ZERO, [0])
sheet('sheet-cr-cr-lf-behind-start', '226 1', b'INDEX 01 00:00:00\r\r\n')
sheet('sheet-cr-in-short-index', '226 1', b'INDEX 0\r\n')
sheet('sheet-cr-in-bare-index', '226 1', b'INDEX \r\n')
sheet('sheet-cr-for-a-digit', '226 1', b'INDEX 01 00:00:0\r\n')
sheet('sheet-cr-only', '226 1', b'INDEX 01 00:00:00\rINDEX 01 00:15:00\r')

# Leading spaces are allowed (SCOPE 6.4).
sheet('sheet-space-before-start', '1', b' INDEX 01 00:00:00\n', [0])
sheet('sheet-spaces-before-starts', '2', b'    INDEX 01 00:00:00\n  INDEX 01 00:15:00\r\n', [0, 1500])
sheet('sheet-300-spaces-before-start', '1', b' ' * 300 + ZERO, [0])
sheet('sheet-spaces-before-index-00', '0', b'  INDEX 00 00:00:00\n')
sheet('sheet-spaces-before-words', '1', b' REM\n  TITLE a\n   PERFORMER\n    FILE b\n     TRACK\n      ' + ZERO, [0])
sheet('sheet-spaces-before-nonsense', '226 1', b'   nonsense\n')
sheet('sheet-spaces-before-bad-start', '226 2', ZERO + b'  INDEX 01 00:15\n')
sheet('sheet-spaces-before-low-start', '227 2', ZERO + b'  INDEX 01 00:00:00\n')
sheet('sheet-spaces-alone', '0', b'     ')
sheet('sheet-spaces-alone-lf', '1', b'   \n' + ZERO, [0])
sheet('sheet-spaces-alone-crlf', '1', b'   \r\n' + ZERO, [0])
sheet('sheet-spaces-at-end', '1', ZERO + b'   ', [0])
sheet('sheet-tab-before-start', '226 1', b'\tINDEX 01 00:00:00\n')
sheet('sheet-tab-before-rem', '226 1', b'\tREM\n')
sheet('sheet-tab-before-index-00', '226 1', b'\tINDEX 00 00:00:00\n')
sheet('sheet-space-tab-before-start', '226 1', b' \tINDEX 01 00:00:00\n')
sheet('sheet-tab-space-before-rem', '226 1', b'\t REM\n')
sheet('sheet-tab-alone', '226 1', b'\t\n')
sheet('sheet-spaces-tab', '226 2', ZERO + b'  \t\n')
sheet('sheet-other-space-before-start', '226 1', b'\xA0INDEX 01 00:00:00\n')
sheet('sheet-byte-order-mark', '226 1', b'\xEF\xBB\xBFREM\n' + ZERO)

# Lines beginning INDEX, one space and two other digits are passed over (SCOPE 6.7): whatever follows, and they give no start.
for digits in (b'00', b'02', b'03', b'09', b'10', b'11', b'20', b'21', b'91', b'99'):
    name = 'sheet-index-' + digits.decode('ascii')
    sheet(name + '-alone', '0', b'INDEX ' + digits)
    sheet(name + '-time', '1', b'INDEX ' + digits + b' 00:00:01\n' + ZERO, [0])
    sheet(name + '-anything', '1', b'INDEX ' + digits + b' any\tthing INDEX 01 at all\r\n' + ZERO, [0])
sheet('sheet-index-001', '0', b'INDEX 001 00:00:01\n')
sheet('sheet-index-000', '0', b'INDEX 000\n')
sheet('sheet-index-00-letters', '0', b'INDEX 00letters\n')
sheet('sheet-index-02-space', '0', b'INDEX 02 \n')
sheet('sheet-index-02-tab', '0', b'INDEX 02\t00:00:01\n')
sheet('sheet-index-02-falls', '3', ZERO + FIFTEEN + b'INDEX 02 00:01:00\n' + FORTY + b'INDEX 02 00:00:00\n', [0, 1500, 4000])
sheet('sheet-index-00-rises', '3', b'INDEX 00 99:59:74\n' + ZERO + b'INDEX 00 99:59:74\n' + FIFTEEN + FORTY, [0, 1500, 4000])

# So are lines beginning REM, TITLE, PERFORMER, FILE or TRACK, whatever follows (SCOPE 6.7).
for word in ('REM', 'TITLE', 'PERFORMER', 'FILE', 'TRACK'):
    octets = word.encode('ascii')
    sheet('sheet-%s-alone' % word, '0', octets)
    sheet('sheet-%s-lf' % word, '1', octets + b'\n' + ZERO, [0])
    sheet('sheet-%s-crlf' % word, '1', octets + b'\r\n' + ZERO, [0])
    sheet('sheet-%s-space' % word, '1', octets + b' \n' + ZERO, [0])
    sheet('sheet-%s-anything' % word, '1', octets + b' "any\tthing", INDEX 01 00:00:01\n' + ZERO, [0])
    sheet('sheet-%s-letters' % word, '1', octets + b'arkable\n' + ZERO, [0])
    sheet('sheet-%s-01' % word, '1', octets + b'01\n' + ZERO, [0])
    sheet('sheet-%s-cut' % word, '226 2', ZERO + octets[:-1])
    sheet('sheet-%s-cut-lf' % word, '226 2', ZERO + octets[:-1] + b'\n')
    sheet('sheet-%s-cut-space' % word, '226 1', octets[:-1] + b' ' + octets[-1:] + b'\n')
    sheet('sheet-%s-first-letter' % word, '226 1', octets[:1] + b'\n')
    sheet('sheet-%s-without-first-letter' % word, '226 1', octets[1:] + b'\n')
    sheet('sheet-%s-small' % word, '226 1', octets.lower() + b' a\n')
    sheet('sheet-%s-one-small' % word, '226 1', octets[:-1] + octets[-1:].lower() + b' a\n')
    sheet('sheet-%s-behind-letter' % word, '226 1', b'X' + octets + b'\n')
    sheet('sheet-%s-in-quotation-marks' % word, '226 1', b'"' + octets + b'"\n')
sheet('sheet-REMARK', '0', b'REMARK\n')
sheet('sheet-words-after-each-other', '0', b'REM\nTITLE\nPERFORMER\nFILE\nTRACK\nINDEX 00')

# 226: a line is not understood (SCOPE 6.8).
for other in ('CATALOG', 'CDTEXTFILE', 'FLAGS', 'ISRC', 'PREGAP', 'POSTGAP', 'SONGWRITER'):
    sheet('sheet-other-word-' + other, '226 1', other.encode('ascii') + b' 00:00:00\n')
sheet('sheet-letter', '226 1', b'x')
sheet('sheet-letter-lf', '226 1', b'x\n')
sheet('sheet-digit', '226 1', b'0\n')
sheet('sheet-time-alone', '226 1', b'00:00:00\n')
sheet('sheet-number-alone', '226 1', b'01 00:00:00\n')
sheet('sheet-semicolon', '226 1', b'; INDEX 01 00:00:00\n')
sheet('sheet-start-in-quotation-marks', '226 1', b'"INDEX 01 00:00:00"\n')
sheet('sheet-two-words-one-line', '226 1', b'INDEX 01 00:00:00 REM here it begins\n')

# 226: INDEX with anything but one space and two digits.
sheet('sheet-index-bare', '226 1', b'INDEX')
sheet('sheet-index-bare-lf', '226 1', b'INDEX\n')
sheet('sheet-index-space', '226 1', b'INDEX \n')
sheet('sheet-index-spaces', '226 1', b'INDEX    \n')
sheet('sheet-index-0', '226 1', b'INDEX 0\n')
sheet('sheet-index-0-at-end', '226 1', b'INDEX 0')
sheet('sheet-index-2', '226 1', b'INDEX 2 00:00:00\n')
sheet('sheet-index-1', '226 1', b'INDEX 1 00:00:00\n')
sheet('sheet-INDEX1', '226 1', b'INDEX1\n')
sheet('sheet-INDEX01', '226 1', b'INDEX01 00:00:00\n')
sheet('sheet-INDEX00', '226 1', b'INDEX00 00:00:00\n')
sheet('sheet-INDEXES', '226 1', b'INDEXES 00\n')
sheet('sheet-index-two-spaces-00', '226 1', b'INDEX  00 00:00:00\n')
sheet('sheet-index-two-spaces-01', '226 1', b'INDEX  01 00:00:00\n')
sheet('sheet-index-tab-00', '226 1', b'INDEX\t00 00:00:00\n')
sheet('sheet-index-tab-01', '226 1', b'INDEX\t01 00:00:00\n')
sheet('sheet-index-letters', '226 1', b'INDEX AB\n')
sheet('sheet-index-digit-letter', '226 1', b'INDEX 0A\n')
sheet('sheet-index-letter-digit', '226 1', b'INDEX A0\n')
sheet('sheet-index-O1', '226 1', b'INDEX O1 00:00:00\n')
sheet('sheet-index-0l', '226 1', b'INDEX 0l 00:00:00\n')
# / and : stand beside the digits.
sheet('sheet-index-slash-first', '226 1', b'INDEX /0\n')
sheet('sheet-index-slash-second', '226 1', b'INDEX 0/\n')
sheet('sheet-index-colon-first', '226 1', b'INDEX :0\n')
sheet('sheet-index-colon-second', '226 1', b'INDEX 0:\n')
sheet('sheet-index-minus', '226 1', b'INDEX -1 00:00:00\n')
sheet('sheet-index-small', '226 1', b'index 00 00:00:00\n')
sheet('sheet-index-some-small', '226 1', b'Index 00 00:00:00\n')

# 226: INDEX 01 in any other form than `INDEX 01 mm:ss:ff`, two digits each, ss to 59, ff to 74 (SCOPE 6.5).
RIGHT = b'INDEX 01 12:34:56'  # gives 75474


def second_line(name, answer, line, starts=()):
    """The line behind one that gives 0."""
    sheet(name, answer, ZERO + line + b'\n', starts)


second_line('sheet-form-right', '2', RIGHT, [0, 75474])
# The line breaks off, at the end of its line and at that of the text.
for length in range(1, 17):
    second_line('sheet-form-first-%d-octets' % length, '226 2', RIGHT[:length])
    sheet('sheet-form-first-%d-octets-at-end' % length, '226 2', ZERO + RIGHT[:length])
# The room's word follows the sheet in its frame, and begins here with the digit 2 and with the digit 6.
sheet('sheet-index-0-before-a-digit', '226 1', b'INDEX 0', room=0x32)
sheet('sheet-form-first-16-octets-before-a-digit', '226 2', ZERO + RIGHT[:16], room=0x36)
# The octets beside the right one: the letters and the space of INDEX, the space behind 01, and both colons.
for place in (0, 1, 2, 3, 4, 5, 8, 11, 14):
    second_line('sheet-form-octet-%d-below' % place, '226 2', spoiled(RIGHT, place, RIGHT[place] - 1))
    second_line('sheet-form-octet-%d-above' % place, '226 2', spoiled(RIGHT, place, RIGHT[place] + 1))
# No digit: the six digits of the time.
for place in (9, 10, 12, 13, 15, 16):
    second_line('sheet-form-octet-%d-letter' % place, '226 2', spoiled(RIGHT, place, ord('O')))
    second_line('sheet-form-octet-%d-slash' % place, '226 2', spoiled(RIGHT, place, ord('/')))
    second_line('sheet-form-octet-%d-colon' % place, '226 2', spoiled(RIGHT, place, ord(':')))
    second_line('sheet-form-octet-%d-space' % place, '226 2', spoiled(RIGHT, place, ord(' ')))
    second_line('sheet-form-octet-%d-top-bit' % place, '226 2', spoiled(RIGHT, place, RIGHT[place] | 0x80))
second_line('sheet-form-small', '226 2', b'index 01 12:34:56')
second_line('sheet-form-no-space', '226 2', b'INDEX 0112:34:56')
second_line('sheet-form-two-spaces', '226 2', b'INDEX 01  12:34:56')
second_line('sheet-form-tab', '226 2', b'INDEX 01\t12:34:56')
second_line('sheet-form-space-in-time', '226 2', b'INDEX 01 12: 34:56')
second_line('sheet-form-dots', '226 2', b'INDEX 01 12.34.56')
second_line('sheet-form-dot-last', '226 2', b'INDEX 01 12:34.56')
second_line('sheet-form-minuses', '226 2', b'INDEX 01 12-34-56')
second_line('sheet-form-no-colons', '226 2', b'INDEX 01 123456')
second_line('sheet-form-one-digit-mm', '226 2', b'INDEX 01 2:34:56')
second_line('sheet-form-one-digit-ss', '226 2', b'INDEX 01 12:4:56')
second_line('sheet-form-one-digit-ff', '226 2', b'INDEX 01 12:34:6')
second_line('sheet-form-three-digits-mm', '226 2', b'INDEX 01 012:34:56')
second_line('sheet-form-three-digits-ss', '226 2', b'INDEX 01 12:034:56')
second_line('sheet-form-three-digits-ff', '226 2', b'INDEX 01 12:34:056')
second_line('sheet-form-no-mm', '226 2', b'INDEX 01 34:56')
second_line('sheet-form-empty-mm', '226 2', b'INDEX 01 :34:56')
second_line('sheet-form-empty-ss', '226 2', b'INDEX 01 12::56')
second_line('sheet-form-four-parts', '226 2', b'INDEX 01 12:34:56:00')
second_line('sheet-form-plus', '226 2', b'INDEX 01 +2:34:56')
second_line('sheet-form-minus', '226 2', b'INDEX 01 -2:34:56')
second_line('sheet-form-space-behind', '226 2', b'INDEX 01 12:34:56 ')
second_line('sheet-form-tab-behind', '226 2', b'INDEX 01 12:34:56\t')
second_line('sheet-form-letter-behind', '226 2', b'INDEX 01 12:34:56x')
second_line('sheet-form-digit-behind', '226 2', b'INDEX 01 12:34:560')
second_line('sheet-form-zero-octet-behind', '226 2', b'INDEX 01 12:34:56\0')
second_line('sheet-form-word-behind', '226 2', b'INDEX 01 12:34:56 REM')
second_line('sheet-form-space-behind-crlf', '226 2', b'INDEX 01 12:34:56 \r')
sheet('sheet-form-space-behind-at-end', '226 2', ZERO + b'INDEX 01 12:34:56 ')
second_line('sheet-form-010', '226 2', b'INDEX 010 12:34:56')
second_line('sheet-form-01-letter', '226 2', b'INDEX 01A 12:34:56')
second_line('sheet-form-01-anything', '226 2', b'INDEX 01 anything')
second_line('sheet-ss-59', '2', b'INDEX 01 12:59:56', [0, 77974])
second_line('sheet-ss-60', '226 2', b'INDEX 01 12:60:56')
second_line('sheet-ss-61', '226 2', b'INDEX 01 12:61:00')
second_line('sheet-ss-70', '226 2', b'INDEX 01 12:70:00')
second_line('sheet-ss-99', '226 2', b'INDEX 01 12:99:00')
second_line('sheet-ff-74', '2', b'INDEX 01 12:34:74', [0, 75498])
second_line('sheet-ff-75', '226 2', b'INDEX 01 12:34:75')
second_line('sheet-ff-76', '226 2', b'INDEX 01 12:34:76')
second_line('sheet-ff-80', '226 2', b'INDEX 01 12:34:80')
second_line('sheet-ff-99', '226 2', b'INDEX 01 12:34:99')
second_line('sheet-mm-99', '2', b'INDEX 01 99:34:56', [0, 597474])
second_line('sheet-mm-60', '2', b'INDEX 01 60:00:00', [0, 360000])
second_line('sheet-mm-100', '226 2', b'INDEX 01 100:00:00')
sheet('sheet-first-ss-60', '226 1', b'INDEX 01 00:60:00\n')
sheet('sheet-first-ff-75', '226 1', b'INDEX 01 00:00:75\n')

# 227: the first start is not 0 (SCOPE 6.9).
sheet('sheet-first-1-frame', '227 1', b'INDEX 01 00:00:01\n')
sheet('sheet-first-1-frame-no-end', '227 1', b'INDEX 01 00:00:01')
sheet('sheet-first-1-second', '227 1', b'INDEX 01 00:01:00\n')
sheet('sheet-first-1-minute', '227 1', b'INDEX 01 01:00:00\r\n')
sheet('sheet-first-greatest', '227 1', b'INDEX 01 99:59:74\n')
sheet('sheet-first-not-0-then-rising', '227 1', FIFTEEN + FORTY)
sheet('sheet-first-not-0-then-0', '227 1', FIFTEEN + ZERO)
sheet('sheet-first-behind-index-00', '227 3', b'REM\nINDEX 00 00:00:00\nINDEX 01 00:02:00\n')
sheet('sheet-first-behind-spaces', '227 2', b'    \n    INDEX 01 00:00:01\n')

# 227: a start is not above the one before (SCOPE 6.9).
sheet('sheet-equal-zeros', '227 2', ZERO + ZERO)
sheet('sheet-equal', '227 3', ZERO + FIFTEEN + FIFTEEN)
sheet('sheet-equal-last', '227 4', ZERO + FIFTEEN + FORTY + FORTY)
sheet('sheet-equal-greatest', '227 3', ZERO + b'INDEX 01 99:59:74\nINDEX 01 99:59:74\n')
sheet('sheet-falls', '227 3', ZERO + FORTY + FIFTEEN)
sheet('sheet-falls-to-0', '227 3', ZERO + FIFTEEN + ZERO)
sheet('sheet-falls-a-frame', '227 3', ZERO + b'INDEX 01 00:00:02\nINDEX 01 00:00:01\n')
sheet('sheet-falls-a-frame-of-a-minute', '227 3', ZERO + b'INDEX 01 01:00:00\nINDEX 01 00:59:74\n')
sheet('sheet-falls-but-frames-rise', '227 3', ZERO + b'INDEX 01 00:02:00\nINDEX 01 00:01:74\n')
sheet('sheet-falls-but-seconds-rise', '227 3', ZERO + b'INDEX 01 02:00:00\nINDEX 01 01:59:00\n')
sheet('sheet-falls-behind-rise', '227 4', ZERO + FIFTEEN + FORTY + b'INDEX 01 00:39:74\n')
sheet('sheet-falls-to-one-before', '227 4', ZERO + FIFTEEN + FORTY + FIFTEEN)
sheet('sheet-falls-behind-others', '227 5', ZERO + b'REM\nINDEX 02 00:00:10\n\nINDEX 01 00:00:00\n')
sheet('sheet-rises-a-frame', '3', ZERO + b'INDEX 01 00:00:01\nINDEX 01 00:00:02\n', [0, 1, 2])
sheet('sheet-rises-a-frame-two-hundredths', '3', ZERO + b'INDEX 01 00:00:05\nINDEX 01 00:00:06\n', [0, 6, 8])

# Of 226 and 227 the one of the lowest line is given (SCOPE 6.10).
sheet('sheet-226-1-then-227-2', '226 1', b'x\nINDEX 01 00:00:01\n')
sheet('sheet-227-1-then-226-2', '227 1', b'INDEX 01 00:00:01\nx\n')
sheet('sheet-226-2-then-227-3', '226 2', ZERO + b'x\n' + ZERO)
sheet('sheet-227-2-then-226-3', '227 2', ZERO + ZERO + b'x\n')
sheet('sheet-226-1-then-226-2', '226 1', b'x\ny\n')
sheet('sheet-226-far-before-227', '226 3', ZERO + b'REM\nx\n' + b'REM\n' * 20 + ZERO)
sheet('sheet-227-far-before-226', '227 3', ZERO + b'REM\n' + ZERO + b'REM\n' * 20 + b'x\n')
sheet('sheet-227-2-then-227-3', '227 2', ZERO + ZERO + ZERO)
sheet('sheet-227-1-then-227-3', '227 1', FIFTEEN + FORTY + FIFTEEN)
sheet('sheet-226-2-then-226-3', '226 2', ZERO + b'INDEX 01 00:00:75\nx\n')
# A first start that is not 0 and one that falls, in another form than the right one: these are no starts.
sheet('sheet-226-and-not-0', '226 1', b'INDEX 01 00:00:01 \n')
sheet('sheet-226-and-falls', '226 3', ZERO + FORTY + b'INDEX 01 00:15:00 \n')

# Each of 226 and 227 carries the line, from 1 (SCOPE 6.10): LF ends a line to be counted, CR alone does not.
BEFORE = b'\n\r\nREM\r\n   \n  INDEX 00\n' + ZERO  # six lines
sheet('sheet-226-behind-6-lines', '226 7', BEFORE + b'x\n')
sheet('sheet-227-behind-6-lines', '227 7', BEFORE + ZERO)
sheet('sheet-226-behind-empty-line', '226 2', b'\nx')
sheet('sheet-226-behind-crlf-line', '226 2', b'\r\nx')
sheet('sheet-227-behind-crlf-lines', '227 3', b'\r\n\r\nINDEX 01 00:00:01\r\n')
sheet('sheet-226-behind-crs', '226 2', b'REM a\rb\rc\r\r\nx\n')
sheet('sheet-226-line-10', '226 10', b'REM\n' * 9 + b'x\n')
sheet('sheet-226-line-256', '226 256', b'\r\n' * 255 + b'x')
sheet('sheet-226-line-300', '226 300', b'\n' * 299 + b'x\n')
sheet('sheet-227-line-257', '227 257', b'TRACK\r\n' * 256 + b'INDEX 01 00:00:01')
# Lines 1 to 75 rise by a frame each, line 76 gives what line 75 does.
sheet('sheet-227-line-76', '227 76',
      b''.join(b'INDEX 01 00:00:%02d\n' % frame for frame in range(75)) + b'INDEX 01 00:00:74\n', room=80)

# Then comes 228, where there are more starts than room (SCOPE 6.10).
sheet('sheet-room-0-empty', '0', b'', room=0)
sheet('sheet-room-0-no-starts', '0', b'REM\nINDEX 00 00:00:00\n', room=0)
sheet('sheet-room-0-one-start', '228', ZERO, room=0)
sheet('sheet-room-0-one-start-no-end', '228', b'INDEX 01 00:00:00', room=0)
sheet('sheet-room-1-empty', '0', b'', room=1)
sheet('sheet-room-1-one-start', '1', ZERO, [0], 1)
sheet('sheet-room-1-two-starts', '228', ZERO + FIFTEEN, room=1)
sheet('sheet-room-2-three-starts', '228', ZERO + FIFTEEN + FORTY, room=2)
sheet('sheet-room-3-three-starts', '3', ZERO + FIFTEEN + FORTY, [0, 1500, 4000], 3)
sheet('sheet-room-4-three-starts', '3', ZERO + FIFTEEN + FORTY, [0, 1500, 4000], 4)
sheet('sheet-room-3-three-starts-others', '3', BEFORE + FIFTEEN + b'INDEX 02 00:20:00\n' + FORTY + b'REM\n',
      [0, 1500, 4000], 3)
sheet('sheet-room-1-many-starts', '228', ZERO + FIFTEEN + FORTY + b'INDEX 01 01:00:00\nINDEX 01 02:00:00\n', room=1)
# A line that is not understood and one that is not rising come first, wherever the room ends.
sheet('sheet-room-0-226-first', '226 1', b'x\n' + ZERO, room=0)
sheet('sheet-room-0-226-behind', '226 2', ZERO + b'x\n', room=0)
sheet('sheet-room-0-227', '227 1', b'INDEX 01 00:00:01\n', room=0)
sheet('sheet-room-0-227-behind', '227 2', ZERO + ZERO, room=0)
sheet('sheet-room-1-226-behind', '226 3', ZERO + FIFTEEN + b'x\n', room=1)
sheet('sheet-room-1-226-far-behind', '226 24', ZERO + FIFTEEN + FORTY + b'REM\n' * 20 + b'INDEX 01 00:41\n', room=1)
sheet('sheet-room-1-227-second', '227 2', ZERO + ZERO, room=1)
sheet('sheet-room-1-227-third', '227 3', ZERO + FIFTEEN + FIFTEEN, room=1)
sheet('sheet-room-1-227-behind', '227 4', ZERO + FIFTEEN + FORTY + FIFTEEN, room=1)
# The third start is above the first, behind which the room ends, but not above the second.
sheet('sheet-room-1-227-above-first', '227 3', ZERO + FORTY + FIFTEEN, room=1)

# Octets above 127, and 0, are as any other.
sheet('sheet-title-utf-8', '1', b'TITLE "Pr\xC3\xA9lude"\n' + ZERO, [0])
sheet('sheet-title-not-utf-8', '1', b'TITLE "Pr\xE9lude\xFF"\n' + ZERO, [0])
sheet('sheet-index-00-any-octets', '1', b'INDEX 00\xFF\x80\0\n' + ZERO, [0])
sheet('sheet-rem-every-octet-but-lf', '1', b'REM' + bytes(n for n in range(256) if n != 10) + b'\n' + ZERO, [0])
sheet('sheet-rem-zero-octet', '1', b'REM\0\0\n' + ZERO, [0])
sheet('sheet-octets-above-127', '226 1', b'\xC3\xA9\n')
sheet('sheet-octet-128', '226 1', b'\x80')
sheet('sheet-octet-255', '226 2', ZERO + b'\xFF')
sheet('sheet-octet-0', '226 1', b'\0')
sheet('sheet-octet-0-lf', '226 1', b'\0\n')
sheet('sheet-octet-0-before-rem', '226 1', b'\0REM\n')
sheet('sheet-octet-0-behind-starts', '226 3', ZERO + FIFTEEN + b'\0')
sheet('sheet-octet-127', '226 1', b'\x7F\n')
sheet('sheet-top-bit-of-a-letter', '226 1', b'R\xC5M\n')
sheet('sheet-top-bit-of-index-digit', '226 1', b'INDEX 0\xB0\n')
sheet('sheet-top-bit-of-a-space', '226 1', b'INDEX\xA000 00:00:00\n')


# Many starts: a start in every so many frames, of which a minute has 4500 and a second 75.
def every(step, count):
    return [(frame // 4500, frame // 75 % 60, frame % 75) for frame in range(0, step * count, step)]


def lines_of(times):
    return b''.join(b'INDEX 01 %02d:%02d:%02d\n' % time for time in times)


def starts_of(times):
    """The start is (60 times mm + ss) times 100 plus the whole part of 4 times ff over 3 (SCOPE 6.6)."""
    return [(60 * mm + ss) * 100 + 4 * ff // 3 for mm, ss, ff in times]


sheet('sheet-1024-starts-room-1024', '1024', lines_of(every(1, 1024)), starts_of(every(1, 1024)), 1024)
sheet('sheet-1025-starts-room-1024', '228', lines_of(every(439, 1025)), room=1024)
sheet('sheet-300-starts-then-equal', '227 301', lines_of(every(1499, 300)) + lines_of(every(1499, 300))[-18:], room=1024)

# A sheet has at most 65,536 octets (SCOPE 6.2), and else 225 is given (SCOPE 6.10). 3640 lines of 18 octets and one of 16.
LONGEST = lines_of(every(122, 3640)) + b'REM the last one'
assert len(LONGEST) == 65536
sheet('sheet-65536-octets', '3640', LONGEST, starts_of(every(122, 3640)), 4096)
sheet('sheet-65537-octets', '225', LONGEST + b'.', room=4096)
sheet('sheet-65536-octets-226-in-last', '226 65536', b'\n' * 65535 + b'x')
sheet('sheet-65537-octets-226-in-line-1', '225', b'x' * 65537, room=0)


# ---- Written cards: how many blocks there are, or the refusal and what it carries; and the lent card, which was 0xA5 in each octet.

def write(name, answer, room, groups=(), tracks=(), segments=(), text=b'', written=True):
    """A catalogue that is written into a card of so many octets. Octets behind the last block stay (SCOPE 3.17)."""
    front = card_of(groups, tracks, segments, text) if written else b''
    left = front + b'\xA5' * (room - len(front))
    case = lent_tables(Tables(groups, tracks, segments, text)) + words((room,))
    add(WRITE, name, case, '%s %d' % (answer, check_number(left)))


def no_write(name, answer, room, groups=(), tracks=(), segments=(), text=b''):
    """One that is refused, which alters nothing (SCOPE 20.1)."""
    write(name, answer, room, groups, tracks, segments, text, False)


SAMPLE_RECORDS = (SAMPLE_GROUPS, SAMPLE_TRACKS, SAMPLE_SEGMENTS, SAMPLE_TEXT)
FULL_RECORDS = (FULL_GROUPS, FULL_TRACKS, FULL_SEGMENTS, FULL_TEXT)


def bare_groups(n):
    return [(0, 0, 0)] * n


def bare_tracks(n):
    """A group of n tracks that have nothing."""
    return [(0, 0, n)], [PLAIN] * n


def segments_of_one(n):
    """A group of one track that has n segments, a hundredth apart."""
    return [(0, 0, 1)], [(n, 0, 0, n, 0, 0)], list(range(n))


# From a catalogue the writer fills lent octets with blocks, and returns how many there are (SCOPE 3.15). The sample has a block of each kind.
write('write-sample', '4', 2048, *SAMPLE_RECORDS)
# A catalogue of nothing has no block, and no room is enough for it.
write('write-nothing', '0', 0)
write('write-nothing-in-a-block', '0', 512)
# One kind alone: groups, and text. Tracks are in a group and segments in a track, so those two bring others with them.
write('write-one-group', '1', 512, bare_groups(1))
write('write-text-alone', '1', 512, text=b'\xFF\0a')
write('write-one-track', '2', 1024, *bare_tracks(1))
write('write-one-segment', '3', 1536, *segments_of_one(1))
write('write-group-and-text', '2', 1024, bare_groups(1), text=b'ab')

# Every block but the last of its kind is full (SCOPE 3.15): 42, 21, 126 and 505 records fill a block, and one more begins another.
write('write-42-groups', '1', 512, bare_groups(42))
write('write-43-groups', '2', 1024, bare_groups(43))
write('write-21-tracks', '2', 1024, *bare_tracks(21))
write('write-22-tracks', '3', 1536, *bare_tracks(22))
write('write-126-segments', '3', 1536, *segments_of_one(126))
write('write-127-segments', '4', 2048, *segments_of_one(127))
write('write-505-text', '1', 512, text=b'z' * 505)
write('write-506-text', '2', 1024, text=b'z' * 506)
write('write-1010-text', '2', 1024, text=bytes(range(202)) * 5)
# 64 groups are 42 and 22, 256 tracks 12 times 21 and 4, 1,024 segments 8 times 126 and 16, 32,768 octets 64 times 505 and 448:
# 2 + 13 + 9 + 65 blocks, which are 45,568 octets.
write('write-full', '89', 45568, *FULL_RECORDS)

# 213 is given exactly when the blocks exceed the lent room (SCOPE 3.17).
no_write('write-room-one-short', '213', 2047, *SAMPLE_RECORDS)
no_write('write-full-room-one-short', '213', 45567, *FULL_RECORDS)
no_write('write-no-room', '213', 0, bare_groups(1))
no_write('write-room-for-groups-only', '213', 512, *bare_tracks(1))
# Octets behind the last block stay (SCOPE 3.17).
write('write-one-octet-behind', '4', 2049, *SAMPLE_RECORDS)
write('write-511-octets-behind', '4', 2559, *SAMPLE_RECORDS)
write('write-blocks-behind', '4', 65536, *SAMPLE_RECORDS)
write('write-room-above-a-card', '89', 66048, *FULL_RECORDS)

# 200 comes first, then 213 (SCOPE 3.17).
no_write('write-200-with-room', '200', 2048, SAMPLE_GROUPS, SAMPLE_TRACKS, [0, 1500, 1500], SAMPLE_TEXT)
no_write('write-200-no-room', '200', 0, SAMPLE_GROUPS, SAMPLE_TRACKS, [0, 1500, 1500], SAMPLE_TEXT)
no_write('write-tracks-alone', '200', 512, tracks=[PLAIN])
no_write('write-segments-alone', '200', 512, segments=[0])
no_write('write-65-groups', '200', 1024, bare_groups(65))
no_write('write-text-32769', '200', 65536, text=b'a' * 32769)

# 200 for a bad title carries the lowest such track and the offset (SCOPE 4.14). With room for the blocks and without: 200 comes before 213.
FINALE = [(6000, 30, 0, 3, 0, 8), (300, 10, 3, 0, 8, 10), (0, 10, 3, 0, 18, 0), (900, 5, 3, 0, 18, 6)]
for room in (0, 512, 2047, 2048, 2049):
    no_write('write-bad-title-of-3-room-%d' % room, '200 3 5', room, SAMPLE_GROUPS, FINALE, SAMPLE_SEGMENTS,
             b'Pr\xC3\xA9ludeIntermezzoFinal\xFF')
    no_write('write-bad-title-of-1-room-%d' % room, '200 1 5', room, SAMPLE_GROUPS, SAMPLE_TRACKS, SAMPLE_SEGMENTS, BAD_TEXT)
    no_write('write-bad-titles-of-1-and-3-room-%d' % room, '200 1 5', room, SAMPLE_GROUPS, SAMPLE_TRACKS, SAMPLE_SEGMENTS,
             b'Pr\xC3\xA9ludeInter\xC3ezzoCod\xFF')
    # Every other 200 carries nothing and comes before (SCOPE 4.14): the starts of track 0 and the parent of group 3.
    no_write('write-bad-title-and-starts-room-%d' % room, '200', room, SAMPLE_GROUPS, SAMPLE_TRACKS, [0, 1500, 1500], BAD_TEXT)
    no_write('write-bad-title-and-parent-room-%d' % room, '200', room, put(SAMPLE_GROUPS, 3, (3, 3, 1)), SAMPLE_TRACKS, SAMPLE_SEGMENTS,
             BAD_TEXT)


def one_title(octets, length=None):
    """A group of one track, whose title is the front of the text or, without a length, all of it."""
    return [(0, 0, 1)], [(100, 0, 0, 0, 0, len(octets) if length is None else length)], [], octets


# Groups, tracks and text: three blocks.
no_write('write-bad-title-at-0', '200 0 0', 1536, *one_title(b'\xFFabc'))
no_write('write-bad-title-at-127', '200 0 127', 1536, *one_title(b't' * 127 + b'\xFF'))
no_write('write-bad-title-in-4', '200 0 2', 1536, *one_title(b'ab\xF0\x9D\x84Acd'))
no_write('write-bad-title-cut', '200 0 2', 1536, *one_title(b'ab\xE2\x82'))
no_write('write-bad-title-cut-text-goes-on', '200 0 2', 1536, *one_title(b'ab\xE2\x82\xAC', 4))
no_write('write-bad-title-cut-no-room', '200 0 2', 1535, *one_title(b'ab\xE2\x82\xAC', 4))
no_write('write-bad-title-of-129', '200', 1536, *one_title(b'\xFF' * 129))
no_write('write-bad-title-out', '200', 1536, *one_title(b'ab\xFF', 4))
write('write-title-before-bad-text', '3', 1536, *one_title(b'ab\xC3\xFF', 2))
no_write('write-title-before-bad-text-no-room', '213', 1535, *one_title(b'ab\xC3\xFF', 2))
# Every catalogue of REFUSED_TITLES has three blocks or more: it is refused as it is above, and not for the room of one block.
for name, answer, records in REFUSED_TITLES:
    no_write('write-' + name + '-one-block', answer, 512, *records)
no_write('write-bad-title-and-cut-groups', '200', 512, SAMPLE_GROUPS + [(0,)], SAMPLE_TRACKS, SAMPLE_SEGMENTS, BAD_TEXT)
no_write('write-bad-title-and-cut-tracks', '200', 512, SAMPLE_GROUPS, SAMPLE_TRACKS + [(100, 0, 3)], SAMPLE_SEGMENTS, BAD_TEXT)
# The last of 256 tracks, and 255 good titles before it.
BAD_AT_LAST = (FULL_GROUPS, FULL_TRACKS, FULL_SEGMENTS, spoiled(FULL_TEXT, 32767, 0x41))
no_write('write-full-bad-title', '200 255 124', 45568, *BAD_AT_LAST)
no_write('write-full-bad-title-room-one-short', '200 255 124', 45567, *BAD_AT_LAST)
no_write('write-full-bad-title-no-room', '200 255 124', 0, *BAD_AT_LAST)


# ---- Objects (SCOPE 7): of a written one how many octets there are, of a read one how many entries, or the refusal and what it carries; and the lent octets,
# ---- which were 0xA5 each, or the lent words. A comment that names a rule, such as SCOPE 18.2, says it in a few words; docs/SCOPE.md has the rule. 0x13 is
# ---- written 19 here.

# Type 1 is a group, type 0 a track (the standard, 4.4.1).
TRACK_ENTRY, GROUP_ENTRY = 0, 1


def track_entries(first, count):
    """Track t is object 0x1000 + t (SCOPE 7.1): those of tracks that follow each other."""
    return [(TRACK_ENTRY, 0x1000 + t) for t in range(first, first + count)]


def group_entries(*groups):
    """Group g is object 0x2000 + g (SCOPE 7.1)."""
    return [(GROUP_ENTRY, 0x2000 + g) for g in groups]


def group_octets(entries):
    """The standard, 4.4: an octet for the type, and six, little endian, for the object number."""
    return b''.join(bytes([kind]) + number.to_bytes(6, 'little') for kind, number in entries)


def group_words(entries):
    """Three words for each entry: its type, the low 32 bits of its number and the high 16."""
    return flat([(kind, number & WORD, number >> 32) for kind, number in entries])


def segment_octets(entries):
    """The standard, 4.2: an octet for the length of the name, the name, and four, little endian, for the position."""
    return b''.join(bytes([len(name)]) + name + struct.pack('<I', position) for name, position in entries)


def segment_words(entries):
    """A word for each entry: its position."""
    return [position for _, position in entries]


def written_object(kind, name, answer, which, room, records, octets=b''):
    """The object of a group or of a track that is written into so many octets. Those behind it stay; a refusal alters nothing (SCOPE 20.1)."""
    left = octets + b'\xA5' * (room - len(octets))
    case = lent_tables(Tables(*records)) + words((which, room))
    add(kind, name, case, '%s %d' % (answer, check_number(left)))


def read_object(kind, name, answer, octets, room, filled=()):
    """An object that is read into so many words."""
    case = struct.pack('<I', len(octets)) + octets + words((room,))
    add(kind, name, case, '%s %d' % (answer, check_number(after(filled, lent_words(room)))))


def stated_object(kinds, name, which, entries, records, octets_of, words_of):
    """An object with these entries: written into as many octets as it has, into more and into one too few; and read back
    (SCOPE 7.2, 7.4, 7.6), into as many words as its entries fill, into more and into one too few."""
    writes, reads = kinds
    octets, filled = octets_of(entries), words_of(entries)
    written_object(writes, name, str(len(octets)), which, len(octets), records, octets)
    written_object(writes, name + '-octets-behind', str(len(octets)), which, len(octets) + 9, records, octets)
    read_object(reads, name + '-back', str(len(entries)), octets, len(filled), filled)
    read_object(reads, name + '-back-words-behind', str(len(entries)), octets, len(filled) + 4, filled)
    if entries:
        # 223 where there is too little room (SCOPE 7.5, 7.7).
        written_object(writes, name + '-one-short', '223', which, len(octets) - 1, records)
        read_object(reads, name + '-back-one-short', '223', octets, len(filled) - 1)


def group_object(name, group, entries, records=SAMPLE_RECORDS):
    stated_object((GROUP_OBJECT, GROUP_READ), name, group, entries, records, group_octets, group_words)


def segments_object(name, track, starts, records=SAMPLE_RECORDS):
    """A track's segments in order, names of length 0 (SCOPE 7.4)."""
    stated_object((SEGMENTS_OBJECT, SEGMENTS_READ), name, track, [(b'', start) for start in starts], records, segment_octets, segment_words)


# A group's child groups by number (group 0 is not its own child), then its tracks by number (SCOPE 7.3). Groups 0 and 2 of the sample have no tracks, and
# group 2 is listed all the same.
group_object('group-0', 0, group_entries(1, 2, 3))
group_object('group-1', 1, track_entries(0, 3))
group_object('group-2-empty', 2, [])
group_object('group-3', 3, track_entries(3, 1))
# Group 0 with a track; groups 2 and 3 in group 1, so that they are no children of group 0.
IN_FOLDERS = ([(0, 0, 1), (0, 1, 2), (1, 3, 0), (1, 3, 1)], SAMPLE_TRACKS, SAMPLE_SEGMENTS, SAMPLE_TEXT)
group_object('group-0-in-folders', 0, group_entries(1) + track_entries(0, 1), IN_FOLDERS)
group_object('group-1-in-folders', 1, group_entries(2, 3) + track_entries(1, 2), IN_FOLDERS)
group_object('group-2-in-folders', 2, [], IN_FOLDERS)
group_object('group-3-in-folders', 3, track_entries(3, 1), IN_FOLDERS)
# One group, with tracks and without.
group_object('group-alone', 0, track_entries(0, 4), ([(0, 0, 4)], SAMPLE_TRACKS, SAMPLE_SEGMENTS, SAMPLE_TEXT))
group_object('group-alone-empty', 0, [], (bare_groups(1), [], [], b''))
# Each group in the one before it.
CHAIN = ([(max(i - 1, 0), 0, 0) for i in range(64)], [], [], b'')
for group in (0, 1, 30, 62):
    group_object('group-%d-of-a-chain' % group, group, group_entries(group + 1), CHAIN)
group_object('group-63-of-a-chain', 63, [], CHAIN)
# 64 groups of four tracks each; group i is in group i // 2. Group 1 is the only child of group 0, which is in itself.
FULL_OF_TRACKS = (FULL_GROUPS, [PLAIN] * 256, [], b'')
group_object('group-0-of-full', 0, group_entries(1) + track_entries(0, 4), FULL_OF_TRACKS)
group_object('group-31-of-full', 31, group_entries(62, 63) + track_entries(124, 4), FULL_OF_TRACKS)
group_object('group-63-of-full', 63, track_entries(252, 4), FULL_OF_TRACKS)
# The longest object: 63 groups and 256 tracks are 319 entries, 2,233 octets.
LONGEST_GROUP = ([(0, 0, 256)] + [(0, 256, 0)] * 63, [PLAIN] * 256, [], b'')
assert len(group_octets(group_entries(*range(1, 64)) + track_entries(0, 256))) == 2233
group_object('group-of-63-groups-and-256-tracks', 0, group_entries(*range(1, 64)) + track_entries(0, 256), LONGEST_GROUP)
group_object('group-in-the-longest', 63, [], LONGEST_GROUP)
# All tracks in the last of 64 groups.
LAST_HAS_ALL = (bare_groups(63) + [(0, 0, 256)], [PLAIN] * 256, [], b'')
group_object('group-of-63-groups', 0, group_entries(*range(1, 64)), LAST_HAS_ALL)
group_object('group-63-of-256-tracks', 63, track_entries(0, 256), LAST_HAS_ALL)
# A track that is still running, and wrong text that is in no title, are like any other.
group_object('group-of-a-running-recording', 3, track_entries(3, 1), (SAMPLE_GROUPS, put(SAMPLE_TRACKS, 3, (WORD, 5, 3, 0, 18, 4)), SAMPLE_SEGMENTS,
                                                                     SAMPLE_TEXT + b'\xFF'))

segments_object('segments-0', 0, [0, 1500, 4000])
# Tracks 1 and 3 have two segments each, tracks 0 and 2 none.
SEGMENTS_OF_TWO = (SAMPLE_GROUPS, TWO_AND_TWO, [0, 299, 0, 899], SAMPLE_TEXT)
segments_object('segments-1-of-two', 1, [0, 299], SEGMENTS_OF_TWO)
segments_object('segments-3-of-two', 3, [0, 899], SEGMENTS_OF_TWO)
segments_object('segments-one', 0, [0], segments_of_one(1))
# Track i of the full catalogue has starts 0, 1, 2 + i and 300 + i.
FULL_OF_SEGMENTS = (FULL_GROUPS, [track[:4] + (0, 0) for track in FULL_TRACKS], FULL_SEGMENTS, b'')
segments_object('segments-255-of-full', 255, [0, 1, 257, 555], FULL_OF_SEGMENTS)
# The longest object: 1,024 segments, 5,120 octets.
segments_object('segments-1024', 0, list(range(1024)), segments_of_one(1024))
segments_object('segments-of-a-running-recording', 0, [0, 1500, 8639999],
                (SAMPLE_GROUPS, put(SAMPLE_TRACKS, 0, (WORD, 30, 0, 3, 0, 8)), [0, 1500, 8639999], SAMPLE_TEXT))

# There is no object of a group or track that is absent, nor of a track without segments: 0x13 (SCOPE 7.5).
for group in (4, 5, 63, 64, 256, 0x2001, 0x7FFFFFFF, 0x80000000, WORD):
    written_object(GROUP_OBJECT, 'group-absent-%d' % group, '19', group, 64, SAMPLE_RECORDS)
written_object(GROUP_OBJECT, 'group-absent-in-full', '19', 64, 64, FULL_OF_TRACKS)
written_object(GROUP_OBJECT, 'group-absent-in-nothing', '19', 0, 64, ([], [], [], b''))
for track in (4, 5, 255, 256, 0x1000, 0x3000, 0x7FFFFFFF, 0x80000000, WORD):
    written_object(SEGMENTS_OBJECT, 'segments-track-absent-%d' % track, '19', track, 64, SAMPLE_RECORDS)
written_object(SEGMENTS_OBJECT, 'segments-track-absent-in-full', '19', 256, 64, FULL_OF_SEGMENTS)
written_object(SEGMENTS_OBJECT, 'segments-track-absent-in-nothing', '19', 0, 64, ([], [], [], b''))
written_object(SEGMENTS_OBJECT, 'segments-track-absent-in-groups', '19', 0, 64, (bare_groups(64), [], [], b''))
for track in (1, 2, 3):
    written_object(SEGMENTS_OBJECT, 'segments-none-%d' % track, '19', track, 64, SAMPLE_RECORDS)
for track in (0, 2):
    written_object(SEGMENTS_OBJECT, 'segments-none-%d-of-two' % track, '19', track, 64, SEGMENTS_OF_TWO)

# Every room below the 21 octets of the three tracks, and the 15 of the three segments.
for room in range(20):
    written_object(GROUP_OBJECT, 'group-1-room-%d' % room, '223', 1, room, SAMPLE_RECORDS)
for room in range(14):
    written_object(SEGMENTS_OBJECT, 'segments-0-room-%d' % room, '223', 0, room, SAMPLE_RECORDS)
# 0x13 before 223.
written_object(GROUP_OBJECT, 'group-absent-no-room', '19', 4, 0, SAMPLE_RECORDS)
written_object(SEGMENTS_OBJECT, 'segments-absent-no-room', '19', 4, 0, SAMPLE_RECORDS)
written_object(SEGMENTS_OBJECT, 'segments-none-no-room', '19', 1, 0, SAMPLE_RECORDS)
# 200 comes before both; for a bad title it carries the lowest such track and the offset; every other 200 carries nothing and comes before (SCOPE 4.14).
BAD_TITLE = (SAMPLE_GROUPS, SAMPLE_TRACKS, SAMPLE_SEGMENTS, BAD_TEXT)
BAD_STARTS = (SAMPLE_GROUPS, SAMPLE_TRACKS, [0, 1500, 1500], SAMPLE_TEXT)
CUT_GROUPS = (SAMPLE_GROUPS + [(0,)], SAMPLE_TRACKS, SAMPLE_SEGMENTS, SAMPLE_TEXT)
for name, answer, records in (('bad-title', '200 1 5', BAD_TITLE), ('bad-starts', '200', BAD_STARTS), ('cut-groups', '200', CUT_GROUPS),
                              ('bad-title-and-starts', '200', (SAMPLE_GROUPS, SAMPLE_TRACKS, [0, 1500, 1500], BAD_TEXT))):
    for which in (0, 1, 3, 4, WORD):
        for room in (0, 64):
            written_object(GROUP_OBJECT, 'group-%d-%s-room-%d' % (which, name, room), answer, which, room, records)
            written_object(SEGMENTS_OBJECT, 'segments-%d-%s-room-%d' % (which, name, room), answer, which, room, records)


def read_group(name, answer, octets, room, entries=()):
    read_object(GROUP_READ, name, answer, octets, room, group_words(entries))


def read_segments(name, answer, octets, room, entries=()):
    read_object(SEGMENTS_READ, name, answer, octets, room, segment_words(entries))


def reads_group(name, *entries):
    """Entries that are read, into the words that they fill."""
    read_group(name, str(len(entries)), group_octets(entries), 3 * len(entries), entries)


def reads_segments(name, *entries):
    read_segments(name, str(len(entries)), segment_octets(entries), len(entries), entries)


# An object of no octets has no entries, and no room is enough for it.
read_group('read-group-nothing', '0', b'', 0)
read_group('read-group-nothing-with-room', '0', b'', 6)
read_segments('read-segments-nothing', '0', b'', 0)
read_segments('read-segments-nothing-with-room', '0', b'', 6)

# Any number of 48 bits, in any order and more than once: what there is of it in a catalogue is not asked.
reads_group('read-group-any-numbers', (TRACK_ENTRY, 0), (GROUP_ENTRY, 0xFFFFFFFFFFFF), (TRACK_ENTRY, 0x123456789ABC), (GROUP_ENTRY, 1),
            (TRACK_ENTRY, 0xFFFFFFFF), (GROUP_ENTRY, 0x100000000), (TRACK_ENTRY, 0x800000000000), (GROUP_ENTRY, 0x80000000))
reads_group('read-group-tracks-before-groups', (TRACK_ENTRY, 0x1005), (GROUP_ENTRY, 0x2002), (TRACK_ENTRY, 0x1001), (GROUP_ENTRY, 0x2002))
reads_group('read-group-types-for-others', (TRACK_ENTRY, 0x2001), (GROUP_ENTRY, 0x1001), (GROUP_ENTRY, 0x3001))
# Each octet of a number stands for itself: 1 to 6, the lowest first.
read_group('read-group-octets-in-order', '1', b'\x01\x01\x02\x03\x04\x05\x06', 3, [(GROUP_ENTRY, 0x060504030201)])
# More entries than a catalogue's group can have.
read_group('read-group-400', '400', group_octets(track_entries(0, 400)), 1200, track_entries(0, 400))
read_group('read-group-400-one-short', '223', group_octets(track_entries(0, 400)), 1199)
for room in range(9):
    read_group('read-group-three-room-%d' % room, '223', group_octets(track_entries(0, 3)), room)
for room in range(9, 13):
    read_group('read-group-three-room-%d' % room, '3', group_octets(track_entries(0, 3)), room, track_entries(0, 3))

# Octets that are not whole entries give 222 (SCOPE 7.7): every cut of three entries of seven octets, with room for all and without any.
CUT_GROUP = group_octets(group_entries(1) + track_entries(0, 2))
for length in range(1, 21):
    whole = length // 7
    if length % 7:
        read_group('read-group-cut-%d' % length, '222', CUT_GROUP[:length], 9)
        # 222 before 223.
        read_group('read-group-cut-%d-no-room' % length, '222', CUT_GROUP[:length], 0)
        read_group('read-group-cut-%d-room-for-whole' % length, '222', CUT_GROUP[:length], 3 * whole)
    else:
        read_group('read-group-cut-%d' % length, str(whole), CUT_GROUP[:length], 9, (group_entries(1) + track_entries(0, 2))[:whole])
for more in (1, 2, 3, 4, 5, 6):
    read_group('read-group-%d-octets-more' % more, '222', CUT_GROUP + bytes(more), 12)
# The standard, table 4.3: types 2 to 255 are reserved.
for kind in (2, 3, 16, 127, 128, 254, 255):
    for place in (0, 1, 2):
        entries = put(track_entries(0, 3), place, (kind, 0x2001))
        read_group('read-group-type-%d-at-%d' % (kind, place), '222', group_octets(entries), 9)
    # 222 is about all octets (SCOPE 7.7), also those behind the entries that there is room for.
    read_group('read-group-type-%d-behind-room' % kind, '222', group_octets(put(track_entries(0, 3), 2, (kind, 0x1002))), 3)
    read_group('read-group-type-%d-no-room' % kind, '222', group_octets([(kind, 0x1000)]), 0)
read_group('read-group-400-bad-last', '222', group_octets(track_entries(0, 399) + [(2, 0x1000)]), 1200)
read_group('read-group-400-cut', '222', group_octets(track_entries(0, 400))[:2799], 1200)
# A number is not a type: octets above 1 in it are like any other, and types 0 and 1 in it too.
reads_group('read-group-numbers-like-types', (GROUP_ENTRY, 0x020202020202), (TRACK_ENTRY, 0x010101010101), (GROUP_ENTRY, 0))

# Names are passed over; their length is any, and nothing is asked of the positions but that they are not negative.
reads_segments('read-segments-names', (b'a', 0), (b'', 100), ('Überfahrt'.encode(), 200), (GOOD, 300), (b'\0', 400))
reads_segments('read-segments-name-255', (b'n' * 255, 7))
reads_segments('read-segments-names-255', (b'n' * 255, 7), (b'\xC3\xA9' * 127 + b'n', 8), (b'\xF0\x9D\x84\x9E' * 63 + b'\xE2\x82\xAC', 9), (b'', 10))
reads_segments('read-segments-names-127-to-130', (b'n' * 127, 1), (b'n' * 128, 2), (b'n' * 129, 3), (b'n' * 130, 4))
reads_segments('read-segments-name-like-entries', (b'\0\0\0\0\0\0\0\0\0\0', 5), (b'\x05abcd', 6))
reads_segments('read-segments-falling', (b'', 4000), (b'', 1500), (b'', 1500), (b'', 0))
reads_segments('read-segments-positions', (b'', 1), (b'', 255), (b'', 256), (b'', 65536), (b'', 0x01020304), (b'', 8640000), (b'', 8640001),
               (b'', 0x7FFFFFFF))
# More entries than a catalogue's track can have.
reads_segments('read-segments-1100', *[(b'', 3 * i) for i in range(1100)])
read_segments('read-segments-1100-one-short', '223', segment_octets([(b'', 3 * i) for i in range(1100)]), 1099)

# The standard, 4.2.3: no position of a segment is negative.
for position in (0x80000000, 0x80000001, 0xFFFFFF00, WORD - 1, WORD):
    for place in (0, 1, 2):
        entries = put([(b'ab', 0), (b'', 1500), (b'c', 4000)], place, (b'n', position))
        read_segments('read-segments-position-%d-at-%d' % (position, place), '222', segment_octets(entries), 3)
    read_segments('read-segments-position-%d-no-room' % position, '222', segment_octets([(b'', position)]), 0)
    read_segments('read-segments-position-%d-behind-room' % position, '222', segment_octets([(b'', 0), (b'', position)]), 1)

# Names that are not UTF-8 (the standard, 4.2.2; RFC 3629), in any entry.
for name in (b'\x80', b'\xFF', b'\xC3', b'a\xC3', b'\xC0\x80', b'\xE0\x9F\xBF', b'\xED\xA0\x80', b'\xF4\x90\x80\x80', b'\xE2\x82', b'\xF0\x9D\x84',
             b'\xC3A', b'n' * 254 + b'\xFF', b'\xFF' + b'n' * 254, b'n' * 253 + b'\xE2\x82'):
    label = name.hex() if len(name) < 5 else '255-%02x-%02x' % (name[0], name[-1])
    for place in (0, 1, 2):
        entries = put([(b'ab', 0), (b'', 1500), (b'c', 4000)], place, (name, 100))
        read_segments('read-segments-name-%s-at-%d' % (label, place), '222', segment_octets(entries), 3)
    read_segments('read-segments-name-%s-no-room' % label, '222', segment_octets([(name, 0)]), 0)
    read_segments('read-segments-name-%s-behind-room' % label, '222', segment_octets([(b'', 0), (name, 1)]), 1)
# The position, or the name behind it, would complete the last character of the name: it ends with its length.
read_segments('read-segments-name-completed-by-position', '222', b'\x01\xC3\xA9\0\0\0', 1)
read_segments('read-segments-name-cut-in-three', '222', b'\x02\xE2\x82\xAC\0\0\0', 1)
read_segments('read-segments-names-share-character', '222', segment_octets([(b'\xC3', 0), (b'\xA9', 1)]), 2)
# A position is no text.
reads_segments('read-segments-position-not-utf-8', (b'a', 0x7FFFC3FF))

# Every cut of three entries of 7, 5 and 8 octets: 7, 12 and 20 octets are whole.
CUT_SEGMENTS = [(b'ab', 0), (b'', 1500), (b'\xE2\x82\xAC', 4000)]
for length in range(1, 20):
    octets = segment_octets(CUT_SEGMENTS)[:length]
    if length in (7, 12):
        whole = CUT_SEGMENTS[:1 if length == 7 else 2]
        read_segments('read-segments-cut-%d' % length, str(len(whole)), octets, 3, whole)
    else:
        read_segments('read-segments-cut-%d' % length, '222', octets, 3)
        read_segments('read-segments-cut-%d-no-room' % length, '222', octets, 0)
for room in range(3):
    read_segments('read-segments-three-room-%d' % room, '223', segment_octets(CUT_SEGMENTS), room)
for room in (3, 4, 7):
    read_segments('read-segments-three-room-%d' % room, '3', segment_octets(CUT_SEGMENTS), room, CUT_SEGMENTS)
for more in (1, 2, 3, 4):
    read_segments('read-segments-%d-octets-more' % more, '222', segment_octets(CUT_SEGMENTS) + bytes(more), 4)
# A length of 255 before 254 octets and a position, before 255 octets and no position, and before one octet of it too few.
read_segments('read-segments-name-one-short', '222', b'\xFF' + b'n' * 254 + b'\0\0\0\0', 1)
read_segments('read-segments-name-255-no-position', '222', b'\xFF' + b'n' * 255, 1)
read_segments('read-segments-name-255-position-cut', '222', b'\xFF' + b'n' * 255 + b'\0\0\0', 1)
read_segments('read-segments-length-alone', '222', b'\xFF', 1)
read_segments('read-segments-length-0-alone', '222', b'\0', 1)
# The one object is not the other: three tracks read as segments, and three segments as a group.
read_segments('read-segments-of-a-group', '222', group_octets(track_entries(0, 3)), 9)
read_group('read-group-of-segments', '222', segment_octets([(b'', 0), (b'', 1500), (b'', 4000)]), 9)


# ---- A catalogue with the office's own titles (SCOPE 5.1): 'fine', or 200 with what it carries, or 224, which carries nothing. A comment that names a rule,
# ---- such as SCOPE 18.2, says it in a few words; docs/SCOPE.md has the rule.

def renamed(name, answer, entries, office, tables=SAMPLE):
    """A catalogue, the entries of its tracks, each an offset and a length, and the office's text. An entry of one word is one that the table ends in."""
    listed = flat(entries)
    add(RENAMED, 'renamed-' + name, lent_tables(tables) + words((len(listed), len(office))) + words(listed) + office, answer)


def renamed_one(name, answer, entry, office, track=3):
    """The sample with one of its tracks renamed, the last where none is named."""
    renamed(name, answer, put([NOT_RENAMED] * 4, track, entry), office)


# Length 0 says that the track is not renamed (SCOPE 5.2).
NOT_RENAMED = (0, 0)
HAFEN = b'Hafen'

renamed('none', 'fine', [NOT_RENAMED] * 4, b'')
renamed('none-of-a-text', 'fine', [NOT_RENAMED] * 4, HAFEN)
renamed('none-of-a-bad-text', 'fine', [NOT_RENAMED] * 4, b'\xFF\xC3')
for track in (0, 1, 2, 3):
    renamed_one('track-%d' % track, 'fine', (0, 5), HAFEN, track)
renamed('all', 'fine', [(0, 5), (5, 3), (8, 6), (14, 4)], HAFEN + b'KaiStilleZiel')
renamed('all-share-a-part', 'fine', [(0, 5)] * 4, HAFEN)
renamed('all-overlap', 'fine', [(0, 5), (1, 4), (0, 4), (2, 1)], HAFEN)
renamed('as-on-the-card', 'fine', [(0, 8), (8, 10), NOT_RENAMED, (18, 4)], SAMPLE_TEXT)

# There is not one entry for each track (SCOPE 5.3): none at all, one too few, one too many, and a table that ends inside an entry; also where no entry would
# rename.
for count in (0, 1, 3, 5, 8):
    renamed('%d-entries-for-4-tracks' % count, '224', [(0, 5)] * count, HAFEN)
renamed('3-entries-of-zeros', '224', [NOT_RENAMED] * 3, b'')
renamed('5-entries-of-zeros', '224', [NOT_RENAMED] * 5, b'')
for count in (0, 3, 4):
    renamed('%d-entries-and-a-word' % count, '224', [(0, 5)] * count + [(0,)], HAFEN)
renamed('4-entries-of-zeros-and-a-word', '224', [NOT_RENAMED] * 4 + [(0,)], b'')
renamed('a-word-for-each-track', '224', [(0,)] * 4, HAFEN)
renamed('a-record-for-each-track', '224', [(0,) * 6] * 4, HAFEN)
# The number of the tracks, and not of the groups: four of each in the sample.
ONE_OF_FOUR = Tables([(0, 0, 0), (0, 0, 0), (0, 0, 0), (0, 0, 1)], [PLAIN])
renamed('one-track-of-four-groups', 'fine', [(0, 5)], HAFEN, ONE_OF_FOUR)
renamed('four-groups-of-one-track', '224', [(0, 5)] * 4, HAFEN, ONE_OF_FOUR)
renamed('one-track-and-no-entry', '224', [], HAFEN, ONE_OF_FOUR)
# Without tracks there is no entry.
renamed('empty-catalogue', 'fine', [], b'', Tables())
renamed('empty-catalogue-with-a-text', 'fine', [], HAFEN, Tables())
renamed('empty-catalogue-with-a-bad-text', 'fine', [], b'\xFF', Tables())
renamed('empty-catalogue-one-entry', '224', [NOT_RENAMED], b'', Tables())
renamed('empty-catalogue-one-entry-of-a-text', '224', [(0, 5)], HAFEN, Tables())
renamed('empty-catalogue-one-word', '224', [(0,)], b'', Tables())
renamed('no-tracks-in-64-groups', 'fine', [], b'', Tables(bare_groups(64)))
renamed('no-tracks-in-64-groups-one-entry', '224', [NOT_RENAMED], b'', Tables(bare_groups(64)))

# A part of length above 0 that is outside the text (SCOPE 5.3). The card's text has 22 octets, and plays no part.
renamed_one('ends-with-the-text', 'fine', (3, 2), HAFEN)
renamed_one('last-octet', 'fine', (4, 1), HAFEN)
renamed_one('beyond-by-one', '224', (3, 3), HAFEN)
renamed_one('whole-beyond-by-one', '224', (0, 6), HAFEN)
renamed_one('begins-at-the-end', '224', (5, 1), HAFEN)
renamed_one('begins-beyond', '224', (6, 1), HAFEN)
renamed_one('in-an-empty-text', '224', (0, 1), b'')
renamed_one('in-the-text-of-the-card-alone', '224', (8, 10), HAFEN)
renamed_one('beyond-the-text-of-the-card', 'fine', (23, 5), b'.' * 23 + HAFEN)
# Sums that are inside only where they are taken in 32 bits.
for offset, length in ((WORD, 1), (WORD, 2), (0xFFFFFFFC, 8), (0xFFFFFF80, 128), (0xFFFFFF81, 128)):
    renamed_one('wraps-%d-and-%d' % (offset, length), '224', (offset, length), HAFEN)
renamed_one('wraps-first-of-four', '224', (0xFFFFFFFC, 8), HAFEN, 0)
# Offsets that are 0 in 31 bits and in 16.
renamed_one('offset-with-the-highest-bit', '224', (0x80000000, 5), HAFEN)
renamed_one('offset-65536-of-five', '224', (65536, 5), HAFEN)
# An offset and a length for each track, where length 0 says that it is not renamed (SCOPE 5.1, 5.2): such an entry is not looked at further.
for offset in (5, 6, 0x80000000, WORD):
    renamed_one('length-0-at-%d' % offset, 'fine', (offset, 0), HAFEN)
renamed('length-0-at-greatest-of-all', 'fine', [(WORD, 0)] * 4, b'')
renamed_one('length-0-inside-a-character', 'fine', (1, 0), b'\xC3\xA9')

# A length over 128 (SCOPE 5.3), though the text has as many octets where it is no more than 1,000.
LONG_OFFICE = b'h' * 1000
for length, answer in ((127, 'fine'), (128, 'fine'), (129, '224'), (256, '224'), (1000, '224'), (65536, '224'), (65664, '224'), (0x80000005, '224'),
                       (WORD, '224')):
    renamed_one('length-%d' % length, answer, (0, length), LONG_OFFICE)
renamed_one('length-129-of-129', '224', (0, 129), b'h' * 129)
renamed_one('length-128-at-the-end', 'fine', (872, 128), LONG_OFFICE)
renamed_one('length-128-beyond-by-one', '224', (873, 128), LONG_OFFICE)
renamed_one('greatest-length-at-1', '224', (1, WORD), LONG_OFFICE)
renamed_one('halves-of-2-to-the-32', '224', (0x80000000, 0x80000000), LONG_OFFICE)
# The office's text has no limit: above the 32,768 octets of a card's, and at an offset above 65,535.
renamed_one('in-a-text-of-40000', 'fine', (39995, 5), b'\xFF' * 39995 + HAFEN)
renamed_one('in-a-text-of-40000-beyond-by-one', '224', (39996, 5), b'\xFF' * 39995 + HAFEN)
renamed_one('in-a-text-of-65600', 'fine', (65595, 5), b'\xFF' * 65595 + HAFEN)
# Octets 65,590 to 65,594 are no text; at 54 to 58, where an offset of 16 bits would lead, they are.
renamed_one('in-a-text-of-65600-bad', '224', (65590, 5), b'.' * 65590 + b'\xFF' * 5 + HAFEN)

# A part that is not UTF-8 (SCOPE 5.3), as the titles of a card have to be (SCOPE 4.12). The first and the last characters of the rows of its syntax.
for form in ('00', '7F', 'C280', 'E0A080', 'ED9FBF', 'EE8080', 'F0908080', 'F48FBFBF'):
    renamed_one('character-' + form, 'fine', (2, 1 + len(form) // 2), b'\xFF\xFFn' + bytes.fromhex(form))
# Overlong forms, surrogates, what lies above U+10FFFF, a tail where a character has to begin, characters that the part's end cuts, and a letter for a
# tail.
for form in ('C080', 'C1BF', 'E09FBF', 'F08FBFBF', 'EDA080', 'EDBFBF', 'F4908080', 'F5808080', 'FF', '80', 'C3', 'E2', 'E282', 'F09D84', 'C341'):
    renamed_one('form-' + form, '224', (2, 1 + len(form) // 2), b'\xFF\xFFn' + bytes.fromhex(form))
renamed_one('form-C080-between', '224', (1, 6), b'.abc\xC0\x80d.', 1)
renamed_one('form-F4908080-between', '224', (1, 8), b'.abc\xF4\x90\x80\x80d.', 0)
# Parts that begin and end with a character, or inside one, of which the text has the rest. The ten octets are characters of one, two, three and four.
for offset, length, answer in ((0, 10, 'fine'), (3, 7, 'fine'), (1, 2, 'fine'), (0, 6, 'fine'), (0, 2, '224'), (2, 8, '224'), (2, 1, '224'),
                               (0, 5, '224'), (4, 6, '224'), (0, 7, '224'), (0, 9, '224'), (7, 3, '224'), (9, 1, '224')):
    renamed_one('part-%d-%d-of-characters' % (offset, length), answer, (offset, length), GOOD)
renamed_one('128-bad-last', '224', (0, 128), b'h' * 127 + b'\xFF')
renamed_one('128-cut-2', '224', (0, 128), b'h' * 127 + b'\xC3\xA9')
renamed_one('128-cut-4', '224', (0, 128), b'h' * 125 + b'\xF0\x9D\x84\x9E')
renamed_one('128-whole-4', 'fine', (0, 128), b'h' * 124 + b'\xF0\x9D\x84\x9E')
renamed_one('128-between-bad-octets', 'fine', (1, 128), b'\xFF' + b'h' * 128 + b'\xFF')
# The parts alone: what lies before, between and behind them is not looked at.
AROUND = b'\xFFab\xC3\xFFcd\xF0\x9D'
renamed('around-bad-text', 'fine', [(1, 2), NOT_RENAMED, (5, 2), (1, 1)], AROUND)
for offset, length in ((0, 3), (1, 3), (4, 3), (5, 3)):
    renamed('around-bad-text-%d-%d' % (offset, length), '224', [(1, 2), (offset, length), (5, 2), (1, 1)], AROUND)
# One bad entry, of each track, beside good ones; and three reasons at once.
for track in (0, 1, 2, 3):
    renamed('bad-beside-good-%d' % track, '224', put([(0, 5)] * 4, track, (5, 1)), HAFEN + b'\xFF')
renamed_one('too-long-and-outside-and-bad', '224', (0, 130), b'\xFF' * 129)

# 224 comes after 200 (SCOPE 5.3): a plain 200, or one with the track and the offset of a bad title of the card (SCOPE 20.4), also where that track is
# renamed.
for rule, answer, records in (('title', '200 1 5', BAD_TITLE), ('starts', '200', BAD_STARTS), ('cut-groups', '200', CUT_GROUPS),
                              ('cut-tracks', '200', (SAMPLE_GROUPS, SAMPLE_TRACKS + [(100, 0, 3)], SAMPLE_SEGMENTS, SAMPLE_TEXT)),
                              ('title-and-starts', '200', (SAMPLE_GROUPS, SAMPLE_TRACKS, [0, 1500, 1500], BAD_TEXT))):
    for entries_are, entries, office in (('good', [(0, 5)] * 4, HAFEN), ('not-utf-8', [(0, 5)] * 4, b'\xFFafen'), ('too-few', [(0, 5)] * 3, HAFEN)):
        renamed('200-%s-and-entries-%s' % (rule, entries_are), answer, entries, office, Tables(*records))
renamed('200-257-tracks-and-entries', '200', [NOT_RENAMED] * 257, b'', Tables([(0, 0, 257)], [PLAIN] * 257))
renamed('200-first-title-and-entries-too-many', '200 0 0', [(0, 5)] * 2, HAFEN, Tables(*one_title(b'\xFFabc')))

# 256 tracks, each renamed to 128 octets, with characters of four, three, two and one octets, in the order of the tracks and from behind.
FULL_OFFICE = b''.join(b'\xF0\x9D\x84\x9E' * 8 + b'\xE2\x82\xAC' * 10 + b'\xC3\xA9' * 31 + b'+%03d' % i for i in range(256))
FULL_ENTRIES = [(128 * i, 128) for i in range(256)]
renamed('full', 'fine', FULL_ENTRIES, FULL_OFFICE, FULL)
renamed('full-from-behind', 'fine', FULL_ENTRIES[::-1], FULL_OFFICE, FULL)
renamed('full-none', 'fine', [NOT_RENAMED] * 256, b'', FULL)
# The last octet of the last title, the first octet of the first one, and the last title too long by one octet.
renamed('full-last-bad', '224', FULL_ENTRIES, spoiled(FULL_OFFICE, 32767, 0xFF), FULL)
renamed('full-first-bad', '224', FULL_ENTRIES, spoiled(FULL_OFFICE, 0, 0x80), FULL)
renamed('full-last-too-long', '224', put(FULL_ENTRIES, 255, (32639, 129)), FULL_OFFICE, FULL)
renamed('full-one-entry-short', '224', FULL_ENTRIES[:255], FULL_OFFICE, FULL)
renamed('full-one-entry-over', '224', FULL_ENTRIES + [NOT_RENAMED], FULL_OFFICE, FULL)
# The title of the card's last track is bad too, at its last character.
renamed('full-both-bad', '200 255 124', FULL_ENTRIES, spoiled(FULL_OFFICE, 32767, 0xFF), Tables(*BAD_AT_LAST))


# ---- Files

def files():
    cases = b''.join(bytes([kind, len(name)]) + name.encode('ascii') + case for kind, name, case, _ in VECTORS)
    answers = ''.join('%s %s\n' % (name, answer) for _, name, _, answer in VECTORS)
    return {
        'crates/vectors/stdin': cases,
        'crates/vectors/stdout': answers.encode('ascii'),
        'crates/inspect/stdin': SAMPLE_CARD,
    }


def main(arguments):
    differing = write_or_compare(__doc__, arguments, files())
    for kind, kind_name in ((CARD, 'cards'), (CATALOGUE, 'catalogues'), (TEXT, 'texts'), (SHEET, 'sheets'), (WRITE, 'written cards'),
                            (GROUP_OBJECT, 'written groups'), (SEGMENTS_OBJECT, 'written segments'), (GROUP_READ, 'read groups'),
                            (SEGMENTS_READ, 'read segments'), (RENAMED, 'catalogues with titles')):
        print('%s: %d' % (kind_name, sum(1 for vector in VECTORS if vector[0] == kind)))
    if differing:
        sys.exit(1)


if __name__ == '__main__':
    main(sys.argv[1:])
