"""Bytes and places to test with: the same in every run."""
import hashlib

BLANK = b"\xee" * 16  # an output before the call
FAR = [2**63, 2**64 - 4, 2**64 - 2, 2**64 - 1]  # places where a sum would wrap


def sample(seed, length):
    """Any bytes, by seed."""
    return hashlib.shake_128(b"%d" % seed).digest(length)


def changed(run, place, bits):
    """The run with these bits of one byte turned."""
    return run[:place] + bytes([run[place] ^ bits]) + run[place + 1:]


def cuts(length):
    """All pairs a <= b of places around the borders of blocks, of padding, and the ends."""
    near = {0, 1, 55, 56, length - 1, length}
    for border in range(64, length + 2, 64):
        near |= {border - 1, border, border + 1}
    places = sorted(p for p in near if 0 <= p <= length)
    return [(a, b) for a in places for b in places if a <= b]


def all_cuts(length):
    return [(a, b) for a in range(length + 1) for b in range(a, length + 1)]
