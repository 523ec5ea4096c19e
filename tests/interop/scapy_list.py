"""What scapy sends to the host: a title, the packet (made when it is sent, for its stamp), and the rule that applies."""
from scapy_packets import attribute, number, request, signed, stamp, unsigned, with_mac
from settings import COA, DISCONNECT

USER, STRANGER = attribute(1, b"room-9"), attribute(1, b"room-99")
TIMEOUT = number(27, 65748)


def flipped(packet, place):
    return packet[:place] + bytes([packet[place] ^ 1]) + packet[place + 1:]


def with_macs(*values):
    """A rightly signed Disconnect-Request with these Message-Authenticators."""
    return request(DISCONNECT, USER, stamp(), *[attribute(80, value) for value in values])


def empty(kind):
    """One attribute of length 2 beside what names the session and changes it."""
    named = attribute(44, b"0000004F") if kind == 1 else USER
    changes = [TIMEOUT] if kind != 27 else []
    return request(COA, named, *changes, attribute(kind, b""), stamp())


def filled():
    """4,096 bytes, all but the stamp and the name of the session Proxy-States: the reply is 14 bytes shorter."""
    head = [stamp(), USER]
    room = 4096 - 20 - sum(len(bytes(one)) for one in head)
    sizes = [255] * (room // 255) + [room % 255]
    return request(DISCONNECT, *head, *[attribute(33, bytes(size - 2)) for size in sizes])


SILENT = [
    ("19 bytes", lambda: bytes(19), "D1"),
    ("an empty datagram", lambda: b"", "D1"),
    ("Length 19", lambda: signed(unsigned(DISCONNECT, [], 19)), "D1"),
    ("Length above what was sent", lambda: signed(unsigned(DISCONNECT, [USER, stamp()], 35)), "D1"),
    ("Length above 4,096", lambda: signed(unsigned(DISCONNECT, [attribute(33, bytes(253))] * 16, 4100)), "D1"),
    ("an Accounting-Request", lambda: request(4, USER, stamp()), "D2"),
    ("a Disconnect-ACK", lambda: request(41, USER, stamp()), "D2"),
    ("an attribute of length 0", lambda: request(DISCONNECT, stamp(), attribute(1, b"room-9", 0)), "D3"),
    ("an attribute of length 1", lambda: request(DISCONNECT, stamp(), attribute(1, b"room-9", 1)), "D3"),
    ("an attribute beyond Length", lambda: request(DISCONNECT, stamp(), attribute(1, b"room-9", 9)), "D3"),
    ("one byte after the attributes", lambda: signed(unsigned(DISCONNECT, [USER, stamp()], 35) + b"\x01"), "D3"),
    ("authenticator wrong in its first byte", lambda: flipped(request(DISCONNECT, USER, stamp()), 4), "D4"),
    ("authenticator wrong in its last byte", lambda: flipped(request(DISCONNECT, USER, stamp()), 19), "D4"),
    ("a name altered on the way", lambda: flipped(request(DISCONNECT, USER, stamp()), 24), "D4"),
    ("another secret", lambda: request(DISCONNECT, USER, stamp(), secret=b"testing124"), "D4"),
    ("wrong Message-Authenticator", lambda: with_macs(bytes(16)), "D5"),
    ("Message-Authenticator of 15 bytes", lambda: with_macs(bytes(15)), "D5"),
    ("Message-Authenticator twice", lambda: with_macs(bytes(16), bytes(16)), "D5"),
    ("Event-Timestamp of 3 bytes", lambda: request(DISCONNECT, USER, attribute(55, bytes(3))), "D6"),
    ("Event-Timestamp twice", lambda: request(DISCONNECT, USER, stamp(), stamp()), "D6"),
    ("a stamp of 302 s ago", lambda: request(DISCONNECT, USER, stamp(-302)), "D6"),  # the host's time() may be a second behind Python's
    ("a stamp of 1970", lambda: request(DISCONNECT, USER, number(55, 0)), "D6"),
]

ANSWERED = [
    *[(f"type {kind} with no value", lambda kind=kind: empty(kind), 404) for kind in (1, 11, 24, 31, 32, 33, 44)],
    *[(f"type {kind} of 3 bytes", lambda kind=kind: request(COA, USER, attribute(kind, bytes(3)), stamp()), 404) for kind in (4, 5, 8, 27, 28)],
    *[(f"unsupported type {kind}", lambda kind=kind: request(COA, USER, TIMEOUT, attribute(kind, b"x"), stamp()), 401) for kind in (0, 2, 25, 255)],
    ("401 before 405 and 404", lambda: request(DISCONNECT, TIMEOUT, number(6, 17), attribute(1, b""), stamp()), 401),
    ("405 before 404", lambda: request(DISCONNECT, number(6, 17), attribute(1, b""), stamp()), 405),
    ("a stamp of 290 s ago", lambda: request(DISCONNECT, STRANGER, stamp(-290)), 503),
    ("a stamp 290 s ahead", lambda: with_mac(DISCONNECT, STRANGER, stamp(290)), 503),
    ("bytes after Length", lambda: request(DISCONNECT, STRANGER, stamp()) + b"padding", 503),
    ("a CoA-Request", lambda: request(COA, USER, TIMEOUT, stamp()), 0),
    ("a CoA-Request with Message-Authenticator", lambda: with_mac(COA, USER, TIMEOUT, stamp()), 0),
    ("4,096 bytes of Proxy-State", filled, 0),
]
