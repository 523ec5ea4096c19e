"""HMAC-MD5 beside Python's."""
import hmac

from tests.inputs.byte_runs import BLANK, all_cuts, cuts, sample

LENGTHS = [0, 1, 20, 55, 56, 63, 64, 65, 119, 120, 128, 300]
CUT_KEYS = [0, 1, 16, 63, 64, 65, 128, 200]
CUT = [0, 1, 56, 64, 65, 128, 200, 400]


def expected(key, message):
    return 0, key, message, hmac.digest(key, message, "md5")


def whole(probe, tally):
    for key_length in range(201):
        for length in LENGTHS:
            key, message = sample(key_length, key_length), sample(1000 + length, length)
            tally.same(probe("hmac", key, message, BLANK), expected(key, message), "key", key_length, "length", length)


def keys_cut(probe, tally):
    for key_length in range(201):
        for length, a, b in [(0, 0, 0), (40, 0, 16), (100, 16, 64), (130, 64, 128)]:
            key, message = sample(key_length, key_length), sample(2000 + length, length)
            got = probe("hmac_cut", key, message, a, b, BLANK)
            tally.same(got, expected(key, message), "key", key_length, "length", length, "cut at", a, b)


def cut(probe, tally):
    for key_length in CUT_KEYS:
        for length in CUT:
            key, message = sample(key_length, key_length), sample(3000 + length, length)
            for a, b in cuts(length):
                got = probe("hmac_cut", key, message, a, b, BLANK)
                tally.same(got, expected(key, message), "key", key_length, "length", length, "cut at", a, b)


def cut_anywhere(probe, tally):
    key, message = sample(7, 16), sample(8, 70)
    for a, b in all_cuts(70):
        tally.same(probe("hmac_cut", key, message, a, b, BLANK), expected(key, message), "cut at", a, b)


GROUPS = [
    ("HMAC, keys of 0 to 200 bytes", whole),
    ("HMAC, keys of 0 to 200 bytes, cut", keys_cut),
    ("HMAC cut around block borders", cut),
    ("HMAC of 70 bytes, every cut in three", cut_anywhere),
]
