"""Any packets, rightly and wrongly signed. Every verdict must come up often."""
from collections import Counter
from random import Random

from tests.compare.verdicts import judged
from tests.inputs.any_vendors import any_value
from tests.inputs.packets import CLOCK, GATE, MAC, STAMP, TIMEOUT, USER, attribute, flipped, put_macs, sign, stamp, unsigned

ROUNDS = 12000
VERDICTS = [0, *range(101, 107), *range(401, 406), 506]
OFTEN = 40
COMMON = [
    USER, STAMP, TIMEOUT, MAC, attribute(33, b"p"), attribute(4, GATE.address.to_bytes(4, "big")), attribute(32, GATE.name),
    attribute(11, bytes(33)),
]
KINDS = [1, 4, 5, 6, 8, 11, 24, 26, 27, 28, 31, 32, 33, 44, 55, 80]


def any_attribute(random):
    choice = random.random()
    if choice < 0.5:
        return random.choice(COMMON)
    if choice < 0.6:
        return stamp(CLOCK + random.randint(-310, 310))
    if choice < 0.64:
        return attribute(26, any_value(random))
    kind = random.choice(KINDS) if choice < 0.98 else random.randrange(256)
    return attribute(kind, random.randbytes(random.choice([0, 1, 3, 4, 4, 4, 5, 16, 32, 33, random.randrange(254)])))


def any_request(random):
    """A list of attributes that mostly passes D6, in any order."""
    parts = [any_attribute(random) for _ in range(random.choice([0, 0, 1, 2, 3, 6]))]
    if random.random() < 0.8:
        parts = [part for part in parts if part[0] != 55] + [STAMP]
    if random.random() < 0.8:
        parts += [USER] + ([TIMEOUT] if random.random() < 0.7 else [])
    if random.random() < 0.6:  # each type once
        parts = list({part[0]: part for part in parts}.values())
    random.shuffle(parts)
    return parts


def any_packet(random):
    code = random.choice([40, 43, 43]) if random.random() < 0.97 else random.randrange(256)
    parts = any_request(random)
    p = unsigned(code, parts)
    if random.random() < 0.9:
        p = put_macs(p, parts)
    damage = random.random()
    if damage < 0.05:
        p = flipped(p, random.randrange(8 * len(p)))
    if damage < 0.96:
        p = sign(p)
    if 0.05 < damage < 0.1:
        p = flipped(p, random.randrange(8 * len(p)))
    if damage < 0.15:
        return p[:len(p) - random.choice([0, 0, 0, 1, 30])]
    return p + random.randbytes(random.choice([0, 0, 0, 1, 40]))


def any_packets(probe, tally):
    random, seen = Random(3576), Counter()
    for round in range(ROUNDS):
        seen[judged(probe, tally, any_packet(random), "round", round)] += 1
    for number in VERDICTS:
        tally.same(seen[number] >= OFTEN, True, "verdict", number, "came up", seen[number])


def any_bytes(probe, tally):
    """A head that may pass, and then any bytes."""
    random = Random(2866)
    for round in range(3000):
        area = random.randbytes(random.randrange(60))
        p = unsigned(random.choice([40, 43]), [area])
        judged(probe, tally, sign(p), "round", round)
        judged(probe, tally, random.randbytes(random.randrange(80)), "no head, round", round)


GROUPS = [
    ("any packets, each verdict often", any_packets),
    ("any bytes", any_bytes),
]
