"""MD5 beside Python's."""
import hashlib

from tests.inputs.byte_runs import BLANK, all_cuts, cuts, sample

LONG = [319, 320, 321, 511, 512, 513, 1000, 1023, 1024, 1025, 2047, 2048, 2049, 3000, 4095, 4096, 4097, 4999, 5000]
CUT = [0, 1, 2, 55, 56, 57, 63, 64, 65, 119, 120, 127, 128, 129, 192, 193, 256, 300, 320, 400]


def md5(message):
    return hashlib.md5(message).digest()


def whole(probe, tally):
    for length in [*range(301), *LONG]:
        messages = [sample(seed, length) for seed in range(4)]
        for message in [*messages, bytes(length), b"\xff" * length, b"\x80" * length]:
            tally.same(probe("md5", message, BLANK), (0, message, md5(message)), "length", length)


def cut(probe, tally):
    for length in CUT:
        message = sample(length, length)
        for a, b in cuts(length):
            got = probe("md5_cut", message, a, b, BLANK)
            tally.same(got, (0, message, md5(message)), "length", length, "cut at", a, b)


def cut_anywhere(probe, tally):
    message = sample(0, 130)
    for a, b in all_cuts(130):
        tally.same(probe("md5_cut", message, a, b, BLANK), (0, message, md5(message)), "cut at", a, b)


GROUPS = [
    ("MD5 in one piece, 0 to 5,000 bytes", whole),
    ("MD5 cut around block borders", cut),
    ("MD5 of 130 bytes, every cut in three", cut_anywhere),
]
