#!/usr/bin/env python3
"""Writes to standard output the sample's card, but its track 0 is still being recorded (SCOPE 4.8)."""
import os
import sys

sys.path.insert(0, os.path.join(os.path.dirname(os.path.abspath(__file__)), '..', 'vectors'))
import make

RUNNING_TRACKS = [(make.WORD, *make.SAMPLE_TRACKS[0][1:]), *make.SAMPLE_TRACKS[1:]]

sys.stdout.buffer.write(make.card_of(make.SAMPLE_GROUPS, RUNNING_TRACKS, make.SAMPLE_SEGMENTS, make.SAMPLE_TEXT))
