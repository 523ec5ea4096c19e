"""Faults to put into a draft, by the number that it is then answered with."""
from tests.inputs.any_vendors import any_unfit, any_without_rate, of_another_vendor
from tests.inputs.handler_drafts import ADDRESSES, PORTS, USERS
from tests.inputs.packets import COA, MAC, attribute, flipped, sign, stamp
from tests.inputs.tables import OTHER_LENGTHS
from tests.models.packet_model import SUPPORTED, authenticator
from tests.models.table_model import number

CRITERIA, CHANGES = [1, 5, 8, 31, 44], [11, 26, 27, 28]


def r1(d):
    d.table = (d.table * 101)[:d.rng.choice(OTHER_LENGTHS)]


def r2(d):
    d.secret = d.rng.randbytes(d.rng.choice([0, 0, 65, 66, 128]))


def r3(d):
    d.name = d.rng.randbytes(d.rng.choice([0, 0, 33, 34, 64]))


def r4(d):
    d.reply = d.reply[:d.rng.choice([0, 0, 1, 20, 100, 2048, 4095])]


def with_length(p, length):
    return p[:2] + length.to_bytes(2, "big") + p[4:]


def d1(d):
    below, above, more = d.rng.randrange(20), d.rng.randint(4097, 6000), d.rng.randint(1, 60)
    d.damage.append(d.rng.choice([
        lambda p: p[:below],
        lambda p: sign(with_length(p, below), d.secret),
        lambda p: sign(with_length(p.ljust(above, b"\x02"), above), d.secret),
        lambda p: with_length(p, min(len(p) + more, 65535)),
    ]))


def d2(d):
    d.code = d.rng.choice([0, 1, 39, 41, 42, 44, 45, 168, 171, 255])


def d3(d):
    kind, size, over = d.rng.choice([0, 1, 33, 55, 80, 255]), d.rng.choice([2, 3, 6, 100]), d.rng.choice([1, 2, 100])
    d.tail = d.rng.choice([bytes([kind]), bytes([kind, 0]), bytes([kind, 1, 5, 5]), bytes([kind, size + over]) + bytes(size - 2)])


def d4(d):
    bit, secret = 32 + d.rng.randrange(128), d.secret + b"\0"
    d.damage.insert(0, d.rng.choice([  # before D1's, which may cut the packet
        lambda p: flipped(p, bit),
        lambda p: sign(p, secret),
        lambda p: p[:4] + bytes(16) + p[20:],
        lambda p: p[:4] + authenticator(p + b"+", len(p) + 1, bytes(16), d.secret) + p[20:],  # over padding, or the secret moved on
    ]))


def d5(d):
    d.without(80)
    wrong, of_wrong_length = attribute(80, d.rng.randbytes(16)), attribute(80, bytes(d.rng.choice([0, 1, 15, 17, 34])))
    d.parts += d.rng.choice([[MAC, MAC], [MAC] * 3, [wrong], [of_wrong_length]])


def no_stamp(d):
    now, of_wrong_length = stamp(d.clock), attribute(55, bytes(d.rng.choice([0, 3, 5, 8])))
    d.stamps = d.rng.choice([[], [now, now], [now, stamp(0)], [now, of_wrong_length], [of_wrong_length]])


def stale(d):
    far = d.rng.choice([301, -301, 302, 3600, -3600, 65536, -65536])
    d.stamps = [stamp(d.rng.choice([d.near(far), (d.clock + 2**31) % 2**32]))]


def unsupported(d):
    kinds = sorted({0, 2, 3, 7, 26, 49, 101, 128, 255, *CHANGES, d.rng.randrange(256)} - SUPPORTED.get(d.code, set()))
    d.parts.append(attribute(d.rng.choice(kinds), d.rng.randbytes(d.rng.choice([0, 4, 4, 33]))))


def other_vendor(d):
    """A type 26 of another vendor, alone or beside one of ours."""
    d.parts.append(attribute(26, of_another_vendor(d.rng)))


def service(d):
    d.parts += [attribute(6, d.rng.randbytes(d.rng.choice([0, 1, 4, 4])))] * d.rng.choice([1, 1, 2])


def invalid(d):
    numbers, texts = [4, 5, 8] + [27, 28] * (d.code == COA), [1, 24, 31, 32, 33, 44] + [11] * (d.code == COA)
    wrong = [attribute(d.rng.choice(numbers), d.rng.randbytes(d.rng.choice([0, 3, 5]))), attribute(d.rng.choice(texts), b"")]
    twice = [part for part in d.parts if part[0] in {1, 4, 5, 8, 11, 24, 26, 27, 28, 31, 32, 44}]
    states = [attribute(24, b"first"), attribute(24, b"then"), attribute(24, b"")]
    d.parts += d.rng.choice([[wrong[0]], [wrong[1]], [d.rng.choice(twice)] if twice else states, states])


def unfit_rates(d):
    d.code = COA
    d.without(26)
    d.parts.append(attribute(26, any_unfit(d.rng)))


def identity(d):
    address = d.address ^ 1 << d.rng.randrange(32)
    names = [name for name in (d.name + b"\0", d.name[:-1], d.name[::-1] + b"x") if name]
    other = d.rng.choice([attribute(4, number(address)), attribute(32, d.rng.choice(names))])
    d.without(other[0])
    d.parts.append(other)


def missing(d):
    """No criterion; or no change, where a type 26 without a rate is none."""
    gone = d.rng.choice([CRITERIA, CHANGES] if d.code == COA else [CRITERIA])
    d.without(*gone)
    d.parts += [attribute(26, any_without_rate(d.rng))] * (gone == CHANGES and d.rng.random() < 0.5)


def oversized(d):
    d.code = COA
    d.without(11)
    d.parts.append(attribute(11, d.rng.randbytes(d.rng.choice([33, 34, 64, 253]))))


def nobody(d):
    """A criterion that no session of the small world meets."""
    kind = d.rng.choice(CRITERIA)
    given = next((part[2:66] for part in d.parts if part[0] == kind), b"\0\0\0\x07" if kind in (5, 8) else b"4F")
    d.without(kind)
    texts = [given + b"?", b"?" + given[1:], given.ljust(64, b"?")]
    d.parts.append(attribute(kind, flipped(given.ljust(4), 12) if kind in (5, 8) else d.rng.choice(texts)))


def anybody(d):
    """A criterion that some sessions of the small world meet: the answer depends on the table."""
    kind = d.rng.choice([1, 5, 8])
    d.without(kind)
    d.parts.append(attribute(kind, d.rng.choice({1: USERS, 5: list(map(number, PORTS)), 8: list(map(number, ADDRESSES))}[kind])))


FAULTS = [
    (1, r1), (2, r2), (3, r3), (4, r4), (101, d1), (102, d2), (103, d3), (104, d4), (105, d5), (106, no_stamp), (106, stale),
    (401, unsupported), (401, other_vendor), (405, service), (404, invalid), (404, unfit_rates), (403, identity), (402, missing), (506, oversized),
    (503, nobody), (None, anybody),
]
