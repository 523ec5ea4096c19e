"""The request writer: its bytes, its place in the output, R2, R4, R12 and R13, the lowest that applies; and what it writes is no D1 to D5."""
import hashlib
import hmac
from itertools import product

from tests.compare.exchanges import written
from tests.compare.handler import handled
from tests.compare.verdicts import TABLE
from tests.harness.probe import NULL
from tests.inputs.byte_runs import sample
from tests.inputs.exchange_calls import Asked, ROOM
from tests.inputs.exchange_drafts import OTHER_CODES, filled
from tests.inputs.handler_calls import Call
from tests.inputs.packets import CODES, GATE, STAMP, TIMEOUT, USER, attribute, good
from tests.inputs.tables import seeded
from tests.models.packet_model import attributes

ADDS = [0, 1, 2, 256, 2**31, 2**32 - 1]  # 0 no, any other number yes
SECRETS = [0, 65, 66, 127, 128, 255, 256, 4096]  # lengths that are refused
ROOMS = [0, 1, 19, 20, 38, 4094, 4095]
GIVEN = b"".join([USER, TIMEOUT, STAMP, attribute(33, b"p")])


def expected(asked):
    """The request once more, straight from the sentences on the packet and its signatures."""
    head = bytes([asked.code, asked.identifier]) + (20 + len(asked.given or b"") + (18 if asked.add else 0)).to_bytes(2, "big")
    area = asked.given or b""
    if asked.add:
        area += b"\x50\x12"
        area += hmac.digest(asked.secret, head + bytes(16) + area + bytes(16), "md5")
    return head + hashlib.md5(head + bytes(16) + area + asked.secret).digest() + area


def right(probe, tally, asked, *case):
    """Three tests and the handler's: the bytes, the length, the attributes read back; and the handler does not discard it by D1 to D5."""
    told = written(probe, tally, asked, *case, answer=0)
    wanted = expected(asked)
    tally.same((told.length, told.out), (len(wanted), wanted + asked.out[len(wanted):]), *case)
    packet = told.out[:told.length]
    before = [(a.kind, a.value) for a in attributes(bytes(20) + (asked.given or b""), 20 + len(asked.given or b""))]
    after = [(a.kind, a.value) for a in attributes(packet, told.length)]
    tally.same(after, before + [(80, packet[-16:])] * (asked.add != 0), "read back", *case)
    handled_so = handled(probe, tally, Call(TABLE, packet, asked.secret), "through the handler", *case)
    tally.same(handled_so.answer in range(101, 106), False, "not D1 to D5", *case)
    return handled_so


def forms(probe, tally):
    """Every code, identifier, length of the secret and room; with and without type 80."""
    for code, add, identifier in product(CODES, [0, 1], range(256)):
        answer = right(probe, tally, Asked(code, b"".join(good(code)), add, identifier), "identifier", identifier).answer
        tally.same(answer in (0, 503), True, "a good request is answered")
    for code, add, size in product(CODES, ADDS, range(1, 65)):
        right(probe, tally, Asked(code, GIVEN, add, secret=sample(size, size)), "secret of", size, "add", add)
    for code, add, more in product(CODES, ADDS, [0, 1, 2, 100, 4096, 10000]):
        for fill in (b"\0", b"\xff", b"\x28\x07"):
            right(probe, tally, Asked(code, GIVEN, add, out=(fill * 4096)[:4096] + sample(more, more)), "room of", 4096 + more)


def lengths(probe, tally):
    """Every length up to 300 bytes of attributes and at the limits: 4,076, or 4,058 with type 80 to be added."""
    for code, add in product(CODES, [0, 1]):
        most = 4058 if add else 4076
        for size in [0, *range(2, 301), *range(4040, 4130), 5000, 8000]:
            given = b"".join(filled(seeded("lengths", code, size), size)) or NULL
            asked = Asked(code, given, add)
            if size > most:
                written(probe, tally, asked, "attributes of", size, "add", add, answer=13)
            else:
                right(probe, tally, asked, "attributes of", size, "add", add)
        for split in ([3] * 1355 + [4], [255] * 15 + [233], [2] * 2029, [254] * 15 + [248]):  # 4,058 to 4,069 bytes
            given = b"".join(attribute(33, sample(i, size - 2)) for i, size in enumerate(split))
            written(probe, tally, Asked(code, given, add), "split", len(split), answer=13 if len(given) > most else 0)


def broken(probe, tally):
    """R13: attributes that do not fill their area, or type 80 among them, in each place."""
    for code, add in product(CODES, [0, 1]):
        for before in (b"", GIVEN, b"".join(filled(seeded("broken"), 300))):
            for last in range(256):
                written(probe, tally, Asked(code, before + bytes([last]), add), "a lone last byte", last, answer=13)
            for kind, length in product([0, 1, 33, 80, 255], [0, 1]):
                for rest in (b"", bytes(4), USER):
                    written(probe, tally, Asked(code, before + bytes([kind, length]) + rest, add), "length", length, answer=13)
            for over, size in product([1, 2, 100, 200], [2, 3, 6, 50]):
                written(probe, tally, Asked(code, before + bytes([33, size + over]) + bytes(size - 2), add), "past by", over, answer=13)
        parts = [USER, TIMEOUT, STAMP, attribute(33, b"p")]
        for place, size in product(range(5), range(254)):
            given = b"".join(parts[:place] + [attribute(80, bytes(size))] + parts[place:])
            written(probe, tally, Asked(code, given, add), "type 80 at", place, "value of", size, answer=13)
        for kind in range(256):  # no other type is refused, nor a type twice, nor a value that holds 80
            given = attribute(kind, b"\x50\x12" * 8)
            written(probe, tally, Asked(code, given * 2, add), "type", kind, "twice", answer=13 if kind == 80 else 0)


def codes(probe, tally):
    for code in [*range(256), *OTHER_CODES, *[40 + 2**bit for bit in range(32)], *[43 + 2**bit for bit in range(32)], 2**32 - 216, 2**32 - 213]:
        for add in [0, 1]:
            written(probe, tally, Asked(code, GIVEN, add), "code", code, answer=0 if code in CODES else 12)


def subsets(probe, tally):
    """Every subset of the four, each argument unfit in several ways."""
    faults = [b"\x01", b"\x01\x01", attribute(80, bytes(16)), b"".join(filled(seeded("subsets"), 4077))]
    for secret, room, code, given, add in product([None, *SECRETS], [None, *ROOMS], [None, 0, 41, 296, 299, 2**32 - 1], [None, *faults], [0, 1]):
        unfit = [bad is not None for bad in (secret, room, code, given)]
        asked = Asked(
            CODES[add] if code is None else code, GIVEN if given is None else given, add,
            secret=GATE.secret if secret is None else sample(1, secret) or NULL, out=ROOM if room is None else ROOM[:room] or NULL)
        written(probe, tally, asked, "unfit", unfit, answer=[2, 4, 12, 13][unfit.index(True)] if any(unfit) else 0)


def nulls(probe, tally):
    """NULL, and a run of no bytes, for each and for every subset of them."""
    for gone, nothing, add in product(product([False, True], repeat=3), [NULL, b""], [0, 1]):
        names = [name for name, out in zip(["given", "secret", "out"], gone) if out]
        answer = 2 if gone[1] else 4 if gone[2] else 0
        written(probe, tally, Asked(40, GIVEN, add)._replace(**{name: nothing for name in names}), "NULL:", names, answer=answer)


GROUPS = [
    ("write: codes, identifiers, secrets, rooms", forms),
    ("write: lengths up to 4,076 and 4,058 bytes", lengths),
    ("write, refused: attributes that are no attributes, type 80 among them", broken),
    ("write, refused: every code but two", codes),
    ("write, refused: every subset of R2, R4, R12 and R13", subsets),
    ("write: NULL where a length is 0", nulls),
]
