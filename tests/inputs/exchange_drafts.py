"""Requests to be written and replies to be checked, with faults to put in, by the number that they are then answered with."""
from tests.harness.probe import NULL
from tests.inputs.exchange_calls import Asked, Reply
from tests.inputs.packets import CODES, MAC, attribute, flipped, put_macs, sign, unsigned

SECRETS = [1, 9, 16, 63, 64]  # lengths
NO_SECRETS = [0, 0, 65, 66, 128]
OTHER_CODES = [0, 39, 41, 42, 44, 45, 168, 171, 255, 256, 296, 299, 2**16 + 40, 2**24 + 43, 2**31 + 40, 2**32 - 1]


def filled(rng, length):
    """Attributes of any type but 80 that fill this many bytes; there is no attribute of 1 byte."""
    parts = []
    while length > 0:
        size = min(rng.choice([2, 3, 6, 8, 18, 34, 255]), length)
        size += 1 if length - size == 1 and size < 255 else -1 if length - size == 1 else 0
        parts.append(attribute(rng.choice([1, 5, 24, 27, 33, 55, 79, 81, 255]), rng.randbytes(size - 2)))
        length -= size
    return parts


def broken(rng):
    """Bytes that no attribute begins with, or that it runs past."""
    kind, size, over = rng.choice([0, 1, 33, 80, 255]), rng.choice([2, 3, 6, 100]), rng.choice([1, 2, 100])
    return rng.choice([bytes([kind]), bytes([kind, 0]), bytes([kind, 1, 5, 5]), bytes([kind, size + over]) + bytes(size - 2)])


def maybe_null(rng, run):
    return NULL if run == b"" and rng.random() < 0.5 else run


def any_asked(rng):
    """What to write, and what it must be answered with: the lowest number of the faults put in."""
    add = rng.choice([0, 0, 1, 1, 2, 256, 2**32 - 1])
    most = 4058 if add else 4076
    parts = filled(rng, rng.choice([0, 2, 3, 40, 82, 100, most, most - 1, rng.randrange(2, 300)]))
    code, secret, out = rng.choice(CODES), rng.randbytes(rng.choice(SECRETS)), rng.randbytes(rng.choice([4096, 4096, 4097, 5000]))
    faults = rng.sample([2, 4, 12, 13], rng.choice([0, 0, 0, 1, 1, 1, 2, 3, 4]))
    if 2 in faults:
        secret = rng.randbytes(rng.choice(NO_SECRETS))
    if 4 in faults:
        out = out[:rng.choice([0, 0, 1, 20, 2048, 4095])]
    if 12 in faults:
        code = rng.choice(OTHER_CODES)
    if 13 in faults:
        inside = rng.randrange(len(parts) + 1)
        mac = attribute(80, rng.randbytes(rng.choice([0, 1, 16, 16, 17])))
        longer = filled(rng, most + rng.choice([1, 1, 2, 18]))
        parts = rng.choice([parts + [broken(rng)], parts[:inside] + [mac] + parts[inside:], longer])
    area = maybe_null(rng, b"".join(parts))
    return Asked(code, area, add, rng.randrange(256), maybe_null(rng, secret), maybe_null(rng, out)), min(faults, default=0)


class Exchange:
    """A request and its reply, until `given` puts them together."""

    def __init__(self, rng):
        self.rng, self.secret = rng, rng.randbytes(rng.choice(SECRETS))
        self.code, self.identifier = rng.choice(CODES), rng.randrange(256)
        self.auth = rng.randbytes(16)  # the request's, which is not judged
        self.asked = filled(rng, rng.choice([0, 6, 40, 4058])) + rng.choice([[], [MAC]])
        self.more, self.replied = rng.choice([1, 2]), self.identifier
        self.parts = filled(rng, rng.choice([0, 6, 40, 120, 4040])) + rng.choice([[], [MAC]])
        rng.shuffle(self.parts)
        self.damage_request, self.damage_reply = [], []
        self.sign_reply = lambda p: sign(p, self.secret, self.auth)
        self.mac_over = self.auth

    def given(self):
        rng = self.rng
        request = unsigned(self.code, self.asked, identifier=self.identifier)
        request = request[:4] + self.auth + request[20:]
        reply = unsigned((self.code + self.more) % 256, self.parts, identifier=self.replied)
        reply = self.sign_reply(put_macs(reply, self.parts, self.secret, self.mac_over))
        for damage in self.damage_request:
            request = damage(request)
        for damage in self.damage_reply:
            reply = damage(reply)
        behind = [rng.randbytes(rng.choice([0, 0, 1, 40])) for _ in range(2)]
        return Reply(maybe_null(rng, request + behind[0]), maybe_null(rng, reply + behind[1]), maybe_null(rng, self.secret))


def r2(e):
    e.secret = e.rng.randbytes(e.rng.choice(NO_SECRETS))


def too_short(rng):
    """D1's rule broken, whatever stands after the packet."""
    below, above = rng.randrange(20), rng.randint(4097, 6000)
    return rng.choice([
        lambda p: p[:2] + below.to_bytes(2, "big") + p[4:],
        lambda p: (p[:2] + above.to_bytes(2, "big") + p[4:]).ljust(above, b"\x02"),
        lambda p: p[:2] + b"\x10\0" + p[4:100],
    ])


def v1(e):
    choice = e.rng.randrange(3)
    if choice == 0:
        e.damage_request.append(too_short(e.rng))
    elif choice == 1:
        e.code = e.rng.choice([0, 39, 41, 42, 44, 45, 255])
    else:
        e.asked = e.asked[:3] + [broken(e.rng)]


def v2(e):
    if e.rng.random() < 0.5:
        e.damage_reply.append(too_short(e.rng))
    else:
        e.parts = e.parts[:3] + [broken(e.rng)]


def v3(e):
    e.more = e.rng.choice([0, 3, 4, -1, 253, 255, 128])


def v4(e):
    e.replied = (e.identifier + e.rng.choice([1, 2, 128, 255])) % 256


def v5(e):
    bit, other = 32 + e.rng.randrange(128), e.rng.randbytes(16)
    e.sign_reply = e.rng.choice([
        lambda p: flipped(sign(p, e.secret, e.auth), bit),
        lambda p: sign(p, e.secret),  # over zeros
        lambda p: sign(p, e.secret + b"\0", e.auth),
        lambda p: sign(p, e.secret, other),
        lambda p: sign(p + b"+", e.secret, sign(p, e.secret, e.auth)[4:20])[:len(p)],
    ])


def v6(e):
    e.parts = [part for part in e.parts if part is not MAC]
    wrong, of_wrong_length = attribute(80, e.rng.randbytes(16)), attribute(80, bytes(e.rng.choice([0, 1, 15, 17])))
    e.parts += e.rng.choice([[MAC, MAC], [wrong], [of_wrong_length], [MAC]])
    if e.parts[-2:].count(MAC) == 1:
        e.mac_over = e.rng.choice([bytes(16), e.rng.randbytes(16)])


FAULTS = [(2, r2), (201, v1), (202, v2), (203, v3), (204, v4), (205, v5), (206, v6)]


def any_reply(rng):
    """What to check, and what it must be answered with: the lowest number of the faults put in."""
    exchange = Exchange(rng)
    faults = rng.sample(FAULTS, rng.choice([0, 0, 0, 1, 1, 1, 1, 1, 2, 3]))
    for _, put in faults:
        put(exchange)
    return exchange.given(), min((number for number, _ in faults), default=0)
