"""The NAK causes 401 to 506, first that applies."""
from itertools import product

from tests.compare.verdicts import judged
from tests.inputs.byte_runs import sample
from tests.inputs.packets import CLOCK, COA, CODES, DISCONNECT, GATE, MAC, STAMP, TIMEOUT, USER
from tests.inputs.packets import Gate, attribute, good, request, stamp
from tests.inputs.vendor_items import down, vendor
from tests.inputs.vendor_requests import every_order

# Document 01's lists once more, with document 02's type 26, so that an error in the model's shows.
CRITERIA, CHANGES = {1, 5, 8, 31, 44}, {11, 26, 27, 28}
NUMBERS, TEXTS = {4, 5, 8, 27, 28}, {1, 11, 24, 31, 32, 33, 44}
SUPPORTED = {
    DISCONNECT: {1, 4, 5, 6, 8, 24, 31, 32, 33, 44, 55, 80},
    COA: {1, 4, 5, 6, 8, 11, 24, 26, 27, 28, 31, 32, 33, 44, 55, 80},
}
OWN = {4: GATE.address.to_bytes(4, "big"), 26: vendor(down())[2:], 32: GATE.name}


def fitting(kind):
    """An attribute of this type that no rule forbids for its length or value; a change where it can be one."""
    return MAC if kind == 80 else STAMP if kind == 55 else attribute(kind, OWN.get(kind, bytes(4)))


def all_types(probe, tally):
    for code in CODES:
        for kind in range(256):
            number = 405 if kind == 6 else 0 if kind in SUPPORTED[code] else 401
            others = [part for part in good(code) if part[0] != kind]
            for size in [None, 0, 1, 4, 253]:
                one = fitting(kind) if size is None else attribute(kind, sample(kind, size))
                for parts in [[one] + others, others + [one]]:
                    expected = number if size is None or number in (401, 405) else None
                    judged(probe, tally, request(code, parts), "code", code, "type", kind, "value of", size, number=expected)


def lengths(probe, tally):
    for code in CODES:
        for kind in SUPPORTED[code] - {6, 55, 80}:
            others = [part for part in good(code) if part[0] != kind]
            for size in range(254):
                one = attribute(kind, sample(size, size))
                bad = size != 4 if kind in NUMBERS else size < 4 if kind == 26 else kind in TEXTS and size == 0
                for parts in [[one] + others, others + [one]]:
                    number = 404 if bad else None
                    judged(probe, tally, request(code, parts), "code", code, "type", kind, "value of", size, number=number)


def doubled(probe, tally):
    for code in CODES:
        for kind in range(256):
            one, others = fitting(kind), [part for part in good(code) if part[0] != kind]
            number = {6: 405, 33: 0, 55: 106, 80: 105}.get(kind, 404 if kind in SUPPORTED[code] else 401)
            for parts in [[one, one] + others, [one] + others + [one], others + [one, one, one]]:
                judged(probe, tally, request(code, parts), "code", code, "twice", kind, number=number)
            if kind in NUMBERS & SUPPORTED[code]:
                for size in [0, 3, 5, 253]:
                    p = request(code, [one] + others + [attribute(kind, bytes(size))])
                    judged(probe, tally, p, "twice", kind, "second of", size, number=404)


def identity(probe, tally):
    for code in CODES:
        for bit in range(32):
            other = attribute(4, (GATE.address ^ 1 << bit).to_bytes(4, "big"))
            judged(probe, tally, request(code, good(code) + [other]), "address, bit", bit, number=403)
        for name in [GATE.name[:-1], GATE.name[1:], GATE.name + b"\0", GATE.name * 2, b"Gate-7", b"g", GATE.name.ljust(253)]:
            other = attribute(32, name)
            judged(probe, tally, request(code, [other] + good(code)), "name", name, number=403)
            judged(probe, tally, request(code, good(code) + [fitting(4), other]), "own address, name", name, number=403)
        for parts in [[fitting(4)], [fitting(32)], [fitting(4), fitting(32)], [fitting(32), fitting(4)]]:
            judged(probe, tally, request(code, parts + good(code)), "our own", len(parts), number=0)
        for size in range(1, 33):
            gate = Gate(GATE.secret, 0xFFFFFFFF - size, sample(size, size))
            for text in [gate.name, gate.name + b"x", gate.name[:-1]]:
                number = 0 if text == gate.name else 404 if not text else 403
                p = request(code, good(code) + [attribute(32, text)], gate)
                judged(probe, tally, p, "own name of", size, "named", text, number=number, gate=gate)
            own = attribute(4, gate.address.to_bytes(4, "big"))
            judged(probe, tally, request(code, good(code) + [own], gate), "own address", gate.address, number=0, gate=gate)


def missing(probe, tally):
    rest = [attribute(24, b"s"), attribute(33, b"p"), fitting(4), fitting(32), STAMP]
    for used in product([False, True], repeat=len(CRITERIA)):
        names = [fitting(kind) for kind, on in zip(sorted(CRITERIA), used) if on]
        judged(probe, tally, request(DISCONNECT, rest + names), "criteria", used, number=0 if names else 402)
        for changing in product([False, True], repeat=len(CHANGES)):
            changes = [fitting(kind) for kind, on in zip(sorted(CHANGES), changing) if on]
            number = 0 if names and changes else 402
            judged(probe, tally, request(COA, names + rest + changes), "criteria", used, "changes", changing, number=number)
    states = [attribute(33, b"p")] * 1355 + [attribute(33, b"ppp")]
    for code in CODES:
        judged(probe, tally, request(code, [STAMP, *states]), "4,070 bytes of Proxy-States", number=402)
        judged(probe, tally, request(code, [STAMP]), "a stamp alone", number=402)
        judged(probe, tally, request(code, [MAC, STAMP]), "a stamp and type 80", number=402)


def filters(probe, tally):
    for size in range(254):
        number = 404 if size == 0 else 0 if size <= 32 else 506
        one = attribute(11, sample(size, size))
        judged(probe, tally, request(COA, [one, USER, STAMP]), "Filter-Id of", size, number=number)
        judged(probe, tally, request(COA, [USER, STAMP, TIMEOUT, one, MAC]), "Filter-Id of", size, number=number)
        judged(probe, tally, request(DISCONNECT, [USER, STAMP, one]), "in a Disconnect, of", size, number=401)
    for kind in TEXTS - {11, 32}:  # no other text is too long here
        others = [part for part in good(COA) if part[0] != kind]
        judged(probe, tally, request(COA, others + [attribute(kind, bytes(253))]), "type", kind, number=0)


FAULTS = [
    (401, [attribute(2, b"v")]),
    (405, [attribute(6, bytes(4))]),
    (404, [attribute(24, b"s")] * 2),
    (404, [attribute(31, b"")]),
    (403, [attribute(4, bytes(4))]),
    (403, [attribute(32, b"gate")]),
    (506, [attribute(11, bytes(33))]),
]


def first_of(code, causes, parts):
    """By the order of document 01's list; 402 by what the request has."""
    kinds = {part[0] for part in parts}
    lacks = not kinds & CRITERIA or code == COA and not kinds & CHANGES
    applying = [*causes, *[401] * (code == DISCONNECT and 506 in causes), *[402] * lacks]
    return next((number for number in (401, 405, 404, 403, 402, 506) if number in applying), 0)


def together(probe, tally):
    """Several causes at once, and the discards before them: the first that applies."""
    for code, named, *used in product(CODES, [[USER], []], *[[False, True]] * len(FAULTS)):
        chosen = [fault for fault, on in zip(FAULTS, used) if on]
        causes = [number for number, _ in chosen]
        bad = [part for _, parts in chosen for part in parts]
        change = [TIMEOUT] if code == COA and named else []
        for parts in [bad + named + change + [STAMP], [STAMP] + change + named + bad[::-1]]:
            first = first_of(code, causes, parts)
            stale = [stamp(CLOCK - 301) if part is STAMP else part for part in parts]
            elsewhere = GATE._replace(secret=b"other")
            judged(probe, tally, request(code, parts), "causes", causes, number=first)
            judged(probe, tally, request(code, parts + [MAC]), "causes and type 80", causes, number=first)
            judged(probe, tally, request(code, parts + [MAC, MAC]), "causes and D5", causes, number=105)
            judged(probe, tally, request(code, stale), "causes and D6", causes, number=106)
            judged(probe, tally, request(code, stale + [MAC], elsewhere), "causes and D4", causes, number=104)
            judged(probe, tally, request(code, parts + [b"\x01\x01"]), "causes and D3", causes, number=103)


def rates(probe, tally):
    """A type 26 of every kind, beside every change and every other cause."""
    for case, call, answer in every_order():
        judged(probe, tally, call.packet, *case, number=answer)


GROUPS = [
    ("401: every type in both codes", all_types),
    ("404: every length of every type", lengths),
    ("404: every type twice", doubled),
    ("403: address and name", identity),
    ("402: criteria and changes", missing),
    ("506: Filter-Id of 32 and 33 bytes", filters),
    ("several causes and discards at once", together),
    ("401, 402, 404: type 26 beside every change and every cause", rates),
]
