#!/usr/bin/env python3
"""Writes clicks.cnd: a tone with its mirror, a DC offset, noise and clicks, at 48 kHz, with all stages applying.

    python3 example/make_clicks.py > example/clicks.cnd
"""
import math
import struct
import sys

FS = 48000.0
CENTRE = 7_100_000.0
GAIN, PHASE = 1.08, 2.5  # of Q over I, in degrees
SAMPLES = 9600
CLICKS = [(500, 1), (1777, 2), (3001, 3), (4444, 4), (6000, 1), (7000, 6), (8125, 2)]  # first sample and length

header = struct.pack("<3sH4B5d", b"CND", 1, 2, 2, 2, 1, FS, CENTRE, GAIN, PHASE, CENTRE)

state = 88172645463325252


def noise():
    """Marsaglia's xorshift, from -1 to 1."""
    global state
    state ^= state << 13 & 0xFFFFFFFFFFFFFFFF
    state ^= state >> 7
    state ^= state << 17 & 0xFFFFFFFFFFFFFFFF
    return state / 2**63 - 1


def sample(k):
    turn = 2 * math.pi * 6000 * k / FS
    i = math.cos(turn)
    q = GAIN * math.sin(turn + math.radians(PHASE))
    re, im = 0.5 * i + 0.12 + 0.01 * noise(), 0.5 * q - 0.07 + 0.01 * noise()
    if any(first <= k < first + length for first, length in CLICKS):
        re, im = re + 40, im - 25
    return struct.pack("<2f", re, im)


sys.stdout.buffer.write(header + b"".join(sample(k) for k in range(SAMPLES)))
