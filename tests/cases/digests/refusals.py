"""What MD5 and HMAC refuse: 1, and the output as it was. And a run of no bytes may be NULL."""
import hashlib
import hmac

from tests.harness.probe import NULL, cell
from tests.inputs.byte_runs import BLANK, FAR, sample

OUTS = [0, 1, 8, 15, 17, 31, 32, 64]  # every length but 16
LENGTHS = [0, 1, 63, 64, 65, 130]
KEY = sample(1, 16)


def outputs(probe, tally):
    for length in LENGTHS:
        message = sample(length, length)
        a, b = length // 3, length // 2
        for size in OUTS:
            out = b"\xee" * size
            case = ("length", length, "out of", size)
            tally.same(probe("md5", message, out), (1, message, out), "md5", *case)
            tally.same(probe("md5_cut", message, a, b, out), (1, message, out), "md5_cut", *case)
            tally.same(probe("hmac", KEY, message, out), (1, KEY, message, out), "hmac", *case)
            tally.same(probe("hmac_cut", KEY, message, a, b, out), (1, KEY, message, out), "hmac_cut", *case)


def wrong_cuts(length):
    """Places that are not a <= b <= length."""
    near = [*range(length + 3)] if length < 4 else [0, 1, length // 2, length - 1, length, length + 1, length + 2]
    places = near + FAR
    return [(a, b) for a in places for b in places if not a <= b <= length]


def bad_cuts(probe, tally):
    for length in LENGTHS:
        message = sample(length, length)
        for a, b in wrong_cuts(length):
            for out in [BLANK, b"\xee" * 15]:
                case = ("length", length, "cut at", a, b, "out of", len(out))
                tally.same(probe("md5_cut", message, a, b, out), (1, message, out), "md5_cut", *case)
                tally.same(probe("hmac_cut", KEY, message, a, b, out), (1, KEY, message, out), "hmac_cut", *case)


def nulls(probe, tally):
    five, v = sample(5, 5), sample(6, 16)
    md5 = hashlib.md5(b"").digest()
    no_key, no_message = hmac.digest(b"", five, "md5"), hmac.digest(KEY, b"", "md5")
    for call, wanted in [
        (("md5", NULL, BLANK), (0, md5)),
        (("md5", five, NULL), (1, five)),
        (("md5", NULL, NULL), (1,)),
        (("md5_cut", NULL, 0, 0, BLANK), (0, md5)),
        (("md5_cut", NULL, 0, 1, BLANK), (1, BLANK)),
        (("md5_cut", five, 1, 2, NULL), (1, five)),
        (("hmac", NULL, five, BLANK), (0, five, no_key)),
        (("hmac", KEY, NULL, BLANK), (0, KEY, no_message)),
        (("hmac", NULL, NULL, BLANK), (0, hmac.digest(b"", b"", "md5"))),
        (("hmac", KEY, five, NULL), (1, KEY, five)),
        (("hmac_cut", NULL, five, 1, 2, BLANK), (0, five, no_key)),
        (("hmac_cut", KEY, NULL, 0, 0, BLANK), (0, KEY, no_message)),
        (("hmac_cut", KEY, five, 1, 2, NULL), (1, KEY, five)),
        (("equal", NULL, NULL), (1,)),
        (("equal", NULL, b""), (1, b"")),
        (("equal", NULL, five), (0, five)),
        (("equal", five, NULL), (0, five)),
        (("equal16", NULL, NULL), (2,)),
        (("equal16", v, NULL), (2, v)),
        (("equal16", NULL, v), (2, v)),
        (("number", NULL, 0, 2, cell(9)), (1, cell(9))),
        (("put", NULL, 0, 2, 1), (1,)),
        (("copy", NULL, 0, NULL), (0,)),
        (("copy", five, 5, NULL), (0, five)),
        (("copy", five, 6, NULL), (1, five)),
        (("copy", NULL, 0, five), (1, five)),
        (("fill", NULL, 0, 0, 7), (0,)),
        (("fill", NULL, 0, 1, 7), (1,)),
    ]:
        tally.same(probe(*call), wanted, *call)


GROUPS = [
    ("refused: an output that has not 16 bytes", outputs),
    ("refused: cuts out of order or out of range", bad_cuts),
    ("NULL where a length is 0", nulls),
]
