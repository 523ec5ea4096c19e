"""Requests to test with."""
from tests.models import packet_model
from tests.models.packet_model import Gate

GATE = Gate(b"xyzzy5461", 0xC0000207, b"gate-7")
CLOCK = 1_700_000_000
DISCONNECT, COA = 40, 43
CODES = [DISCONNECT, COA]


def attribute(kind, value):
    return bytes([kind, len(value) + 2]) + value


def stamp(time):
    return attribute(55, time.to_bytes(4, "big"))


STAMP = stamp(CLOCK)
USER = attribute(1, b"ann")
TIMEOUT = attribute(27, (3600).to_bytes(4, "big"))
MAC = attribute(80, bytes(16))  # where it stands in a list, `request` puts the right value


def unsigned(code, parts, length=None, identifier=7):
    """Packet of these attributes, its authenticator zeros."""
    area = b"".join(parts)
    return bytes([code, identifier]) + (20 + len(area) if length is None else length).to_bytes(2, "big") + bytes(16) + area


def sign(p, secret=GATE.secret, auth=bytes(16)):
    """The packet up to its Length with the right authenticator; what is after Length stays."""
    return p[:4] + packet_model.authenticator(p, packet_model.length_of(p), auth, secret) + p[20:]


def put_macs(p, parts, secret=GATE.secret, auth=bytes(16)):
    """The packet with the right value in each MAC among the parts."""
    at = 20
    for part in parts:
        if part is MAC:
            p = p[:at + 2] + packet_model.message_authenticator(p, len(p), auth, at + 2, secret) + p[at + 18:]
        at += len(part)
    return p


def request(code, parts, gate=GATE, identifier=7):
    """Rightly signed."""
    return sign(put_macs(unsigned(code, parts, identifier=identifier), parts, gate.secret), gate.secret)


def reply(asked, parts, more=1, secret=GATE.secret, identifier=None):
    """To what was asked, rightly signed: its code and `more`, its identifier unless another is given."""
    p = unsigned((asked[0] + more) % 256, parts, identifier=asked[1] if identifier is None else identifier)
    return sign(put_macs(p, parts, secret, asked[4:20]), secret, asked[4:20])


def good(code):
    """Attributes of a request that passes."""
    return [USER, STAMP] if code == DISCONNECT else [USER, TIMEOUT, STAMP]


def flipped(p, bit):
    return p[:bit // 8] + bytes([p[bit // 8] ^ 1 << bit % 8]) + p[bit // 8 + 1:]
