"""Seeded requests written and replies checked: sound ones, and with faults put in. Every answer must come up often."""
from collections import Counter
from random import Random

from tests.compare.exchanges import checked, written
from tests.harness.probe import NULL
from tests.inputs.exchange_calls import Asked, Reply
from tests.inputs.exchange_drafts import any_asked, any_reply

ROUNDS = 10000
OFTEN = 100  # each answer comes up so often at least


def drafts(any_draft, rounds):
    """The same in every run."""
    rng = Random(3576)
    return (any_draft(rng) for _ in range(rounds))


def seeded_requests(probe, tally, drafts):
    seen = Counter()
    for round, (asked, answer) in enumerate(drafts):
        told = written(probe, tally, asked, "round", round, answer=answer)
        seen[told.answer, asked.code, asked.add != 0] += 1
    return seen


def any_requests(probe, tally):
    seen = seeded_requests(probe, tally, drafts(any_asked, ROUNDS))
    for answer in [0, 2, 4, 13]:
        for kind in [(40, False), (40, True), (43, False), (43, True)]:
            tally.same(seen[answer, *kind] >= OFTEN, True, "answer", answer, "to", *kind, "came up", seen[answer, *kind])
    for code in [296, 299, 2**32 - 1]:
        twelve = seen[12, code, False] + seen[12, code, True]
        tally.same(twelve >= OFTEN // 2, True, "R12 to code", code, "came up", twelve)


def seeded_replies(probe, tally, drafts):
    seen = Counter()
    for round, (reply, answer) in enumerate(drafts):
        seen[checked(probe, tally, reply, "round", round, answer=answer)] += 1
    return seen


def any_replies(probe, tally):
    seen = seeded_replies(probe, tally, drafts(any_reply, ROUNDS))
    for answer in [0, 2, *range(201, 207)]:
        tally.same(seen[answer] >= OFTEN, True, "answer", answer, "came up", seen[answer])


def any_bytes(probe, tally):
    """Arguments of any bytes and lengths."""
    rng = Random(2866)
    for round in range(2000):
        lengths = rng.randrange(60), rng.randrange(70), rng.choice([4096, 4095, 0])
        given, secret, out = [rng.randbytes(length) or rng.choice([NULL, b""]) for length in lengths]
        code = rng.choice([40, 43, rng.randrange(2**32)])
        written(probe, tally, Asked(code, given, rng.randrange(2**32), rng.randrange(256), secret, out), "round", round)
        packets = [rng.choice([b"", b"\x28\x07\0", b"\x29\x07\0\x14"]) + rng.randbytes(rng.randrange(60)) or NULL for _ in range(2)]
        checked(probe, tally, Reply(*packets, secret), "round", round)


GROUPS = [
    ("write: seeded requests, each answer often", any_requests),
    ("check reply: seeded replies, each answer often", any_replies),
    ("write and check reply: any bytes", any_bytes),
]
