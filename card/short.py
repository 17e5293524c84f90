#!/usr/bin/env python3
"""Writes to standard output the sample's card with its groups in two blocks, of which the first is not full, which 214 refuses."""
import os
import sys

sys.path.insert(0, os.path.join(os.path.dirname(os.path.abspath(__file__)), '..', 'vectors'))
import make

short = dict(make.MOST)
short[make.GROUP_KIND] = 3
sys.stdout.buffer.write(make.card_of(make.SAMPLE_GROUPS, make.SAMPLE_TRACKS, make.SAMPLE_SEGMENTS, make.SAMPLE_TEXT, short))
