"""The reply: its order, its signatures, its place in the buffer, never longer than the request."""
import hashlib
import hmac
import itertools

from tests.compare.handler import handled
from tests.inputs.byte_runs import sample
from tests.inputs.handler_calls import Call, ROOM
from tests.inputs.packets import CLOCK, COA, CODES, DISCONNECT, GATE, MAC, STAMP, TIMEOUT, USER, attribute, flipped, good, request, stamp
from tests.inputs.tables import loose, seeded, session

RNG = seeded("replies")
TABLE = loose(RNG, session(RNG, user=b"ann"))
FAULTS = {
    0: [], 401: [attribute(2, b"v")], 405: [attribute(6, b"\0\0\0\x11")], 404: [attribute(32, b"")], 403: [attribute(4, bytes(4))],
    402: None, 506: [attribute(11, bytes(33))], 503: [attribute(44, b"nobody")],
}
STATES = [[], [b"s"], [bytes(253)]]
PROXIES = [[], [b"p"], [b"p", b"p"], [b"b", b"a", b"b"], [b"", b"x"], [bytes(253), b"z" * 12, b"last"]]


def expected(packet, cause, state, proxies, mac):
    """The reply once more, straight from the sentence on replies."""
    area = b"".join(attribute(24, value) for value in state)
    area += b"\x65\x06" + cause.to_bytes(4, "big") if cause else b""
    area += b"".join(attribute(33, value) for value in proxies)
    head = bytes([packet[0] + (2 if cause else 1), packet[1], 0, 0])
    head = head[:2] + (20 + len(area) + 18 * mac).to_bytes(2, "big")
    if mac:
        area += b"\x50\x12"
        area += hmac.digest(GATE.secret, head + packet[4:20] + area + bytes(16), "md5")
    return head + hashlib.md5(head + packet[4:20] + area + GATE.secret).digest() + area


def forms(probe, tally):
    """Every answer with every kind of State, Proxy-States and type 80."""
    for code, (cause, fault), state, proxies, mac in itertools.product(CODES, FAULTS.items(), STATES, PROXIES, [False, True]):
        if code == DISCONNECT and cause == 506:
            continue  # Filter-Id is unsupported there
        if b"" in proxies and cause in (0, 402, 403, 503, 506):
            cause = 404  # an empty Proxy-State, returned as it came
        asked = [part for part in good(code) if part is not USER or fault is not None] + (fault or [])
        echoed = [attribute(24, value) for value in state] + [attribute(33, value) for value in proxies]
        packet = request(code, asked[:1] + echoed + asked[1:] + [MAC] * mac, identifier=cause % 256)
        told = handled(probe, tally, Call(TABLE, packet), "code", code, "cause", cause, "proxies", len(proxies), "80", mac, answer=cause)
        wanted = expected(packet, cause, state, proxies, mac)
        tally.same((told.reply_len, told.reply), (len(wanted), wanted + ROOM[len(wanted):]), "code", code, "cause", cause)
        tally.same(told.reply_len <= len(packet), True, "not longer than the request")


def states_twice(probe, tally):
    """Of several States only the first is returned, also where it is empty."""
    for code, values in itertools.product(CODES, [[b"a", b"b"], [b"", b"b"], [b"b", b""], [b"a", b"a", b"a"]]):
        packet = request(code, good(code) + [attribute(24, value) for value in values])
        told = handled(probe, tally, Call(TABLE, packet), "States", values, answer=404)
        wanted = expected(packet, 404, values[:1], [], False)
        tally.same(told.reply[:told.reply_len], wanted, "States", values)


def places(probe, tally):
    """Type 80 anywhere in the request is last in the reply; the order of types in the request changes nothing."""
    for code in CODES:
        parts = [*good(code), attribute(24, b"state"), attribute(33, b"one"), attribute(33, b"two"), MAC]
        rng = seeded("places", code)
        for turn in range(60):
            rng.shuffle(parts)
            proxies = [part[2:] for part in parts if part[0] == 33]
            packet = request(code, parts)
            told = handled(probe, tally, Call(TABLE, packet), "order", turn, answer=0)
            tally.same(told.reply[:told.reply_len], expected(packet, 0, [b"state"], proxies, True), "order", turn)


def long(probe, tally):
    """4,096 bytes, of which 4,070 are Proxy-States, however they are split: NAK 402 of 4,096 bytes. With more than these, shorter ones."""
    splits = [[3] * 1355 + [5], [255] * 15 + [245], [5] * 814, [254] * 16 + [6], [4] * 1016 + [6], [3, 4, 5, 250] * 15 + [140]]
    for code, split in itertools.product(CODES, splits):
        states = [attribute(33, sample(i, size - 2)) for i, size in enumerate(split)]
        for parts in ([STAMP, *states], [*states, STAMP]):
            told = handled(probe, tally, Call(TABLE, request(code, parts)), "split", len(split), answer=402)
            tally.same(told.reply_len, 4096, "NAK 402 of 4,096 bytes")
        for more in ([USER, TIMEOUT], [MAC], [USER, attribute(24, b"state"), MAC]):
            kept = [part for part in more if code == COA or part is not TIMEOUT]
            room = 4096 - 26 - sum(map(len, kept))
            states = [attribute(33, sample(i, 253)) for i in range(room // 255)]
            handled(probe, tally, Call(TABLE, request(code, [*kept, STAMP, *states])), "long, with", len(kept))
            handled(probe, tally, Call(TABLE, request(code, [*kept, stamp(CLOCK + 301), *states])), "long and stale", answer=106)


def marked(probe, tally):
    """Document 01's example: the whole NAK 503 to Disconnect identifier 7 with Proxy-State 41."""
    packet = request(DISCONNECT, [attribute(1, b"nobody"), STAMP, attribute(33, b"\x41")], identifier=7)
    told = handled(probe, tally, Call(TABLE, packet), "NAK 503", answer=503)
    tally.same(told.reply[:4] + told.reply[20:told.reply_len], bytes.fromhex("2A07001D 6506000001F7 210341"), "NAK 503")


def around(probe, tally):
    """Every identifier; any bytes after the request and in the buffer; buffers that are longer."""
    for code, identifier in itertools.product(CODES, range(256)):
        handled(probe, tally, Call(TABLE, request(code, good(code), identifier=identifier)), "identifier", identifier, answer=0)
    for code, size in itertools.product(CODES, [1, 2, 18, 64, 4000, 4096, 10000]):
        for padding in (bytes(size), USER * (size // 5), sample(size, size), STAMP * (size // 6)):
            handled(probe, tally, Call(TABLE, request(code, good(code) + [MAC]) + padding), "padding of", size, answer=0)
        for fill in (b"\0", b"\xff", b"\x2a\x07"):
            handled(probe, tally, Call(TABLE, request(code, good(code)), reply=fill * 4096 + ROOM[:size]), "a longer buffer", answer=0)
    for bit in range(160):  # no reply to a packet that is discarded
        handled(probe, tally, Call(TABLE, flipped(request(COA, good(COA)), bit)), "bit", bit)


GROUPS = [
    ("handle, replies: every answer, every form", forms),
    ("handle, replies: several States", states_twice),
    ("handle, replies: any order of the request", places),
    ("handle, replies: 4,096 bytes", long),
    ("handle, replies: the marked NAK 503", marked),
    ("handle, replies: identifiers, padding, longer buffers", around),
]
