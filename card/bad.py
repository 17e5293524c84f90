#!/usr/bin/env python3
"""Writes to standard output a card that is refused with the number that is named: 211, 215, 216, 217, 214 or 218, each for another
of its blocks; or 200, for the catalogue that it holds; or 200-title, with 200 for titles that are not UTF-8, those of tracks 1 and 3;
or 0, which is accepted.

The card is the sample's with more text, in six blocks: groups, tracks, segments, and three of text. But for 211 every check octet
is right.
"""
import os
import sys

sys.path.insert(0, os.path.join(os.path.dirname(os.path.abspath(__file__)), '..', 'vectors'))
import make

TEXT = make.SAMPLE_TEXT.ljust(2 * make.MOST[make.TEXT_KIND] + 5)
RIGHT = make.card_of(make.SAMPLE_GROUPS, make.SAMPLE_TRACKS, make.SAMPLE_SEGMENTS, TEXT)


def with_block(place, octets):
    """The card with another block at a place."""
    return RIGHT[:512 * place] + octets + RIGHT[512 * (place + 1):]


def with_octet(place, at, octet):
    """The card with another octet in a block, and with the check octets of that."""
    octets = bytearray(RIGHT[512 * place:512 * place + 510])
    octets[at] = octet
    return with_block(place, make.seal(octets))


CARDS = {
    '0': RIGHT,
    '211': RIGHT[:512 * 5 + 5] + b'!' + RIGHT[512 * 5 + 6:],
    '215': with_octet(0, 0, 3),
    '216': with_block(3, make.block(3, make.GROUP_KIND, 1, make.words((0, 0, 0)))),
    '217': with_octet(1, 3, 22),
    '214': with_block(4, make.block(4, make.TEXT_KIND, 504, b' ' * 504)),
    '218': with_octet(2, 509, 1),
    '200': make.card_of(tracks=make.SAMPLE_TRACKS, segments=make.SAMPLE_SEGMENTS, text=TEXT),
    '200-title': make.card_of(make.SAMPLE_GROUPS, make.SAMPLE_TRACKS, make.SAMPLE_SEGMENTS,
                              TEXT.replace(b'Intermezzo', b'Inter\xC3ezzo').replace(b'Coda', b'Cod\xFF')),
}

sys.stdout.buffer.write(CARDS[sys.argv[1]])
