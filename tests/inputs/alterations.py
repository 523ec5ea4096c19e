"""Outside writes to a packet in the store: one for each clause of the re-reading rule, and others that are followed as they stand."""
from typing import Callable, NamedTuple

from tests.inputs.packets import COA, DISCONNECT, GATE, attribute
from tests.inputs.vendor_items import OURS, down, group, item, nested, up, vendor
from tests.models.packet_model import attributes, length_of
from tests.models.table_model import number

FORM = None  # stands for D1 in Check, Match and Commit alike


class Write(NamedTuple):
    """What is written, and what a Check answers then where the request has no type 80. A Match and a Commit answer D1."""
    name: str
    written: Callable  # of the packet
    checked: int = FORM
    codes: tuple = (DISCONNECT, COA)


def parts_of(p):
    return [attribute(a.kind, a.value) for a in attributes(p, length_of(p))]


def without(parts, *kinds):
    return [part for part in parts if part[0] not in kinds]


def fitted(p, parts):
    """The packet with these attributes and its Proxy-States cut or grown to the same Length; as it was where that cannot be."""
    states, parts = [part for part in parts if part[0] == 33], without(parts, 33)
    room = length_of(p) - 20 - sum(map(len, parts))
    while states and len(states[-1]) + 2 < room:
        parts.append(states.pop())
        room -= len(parts[-1])
    if room < 0 or room == 1 or room > 255:
        return p
    return p[:20] + b"".join(parts) + (attribute(33, bytes(room - 2)) if room else b"")


def adding(*more):
    return lambda p: fitted(p, parts_of(p) + list(more))


def replacing(kind, *others):
    """Those of this type go, the others come."""
    return lambda p: fitted(p, without(parts_of(p), kind) + list(others))


def again(kind):
    """One that is there once more; User-Name where it is not."""
    return lambda p: fitted(p, parts_of(p) + ([part for part in parts_of(p) if part[0] == kind] or [attribute(kind, b"ann")] * 2)[:2])


def with_head(code=None, length=None):
    """Another code, and the Length moved."""
    def written(p):
        n = length_of(p) if length is None else length(p)
        return bytes([p[0] if code is None else code, p[1]]) + max(0, n).to_bytes(2, "big") + p[4:]
    return written


def one_shorter(p):
    """Length without the last attribute."""
    return length_of(p) - len(parts_of(p)[-1]) if parts_of(p) else 19


def longer(p):
    """An attribute more, within the longer Length."""
    n = length_of(p)
    return with_head(length=lambda p: n + 3)(p[:n] + attribute(33, b"+")) if n <= 4093 else p


def last_length(size):
    """The last attribute's own length as this makes it."""
    def written(p):
        if not parts_of(p):
            return p
        at = length_of(p) - len(parts_of(p)[-1]) + 1
        return p[:at] + bytes([size(p[at]) % 256]) + p[at + 1:]
    return written


def other_code(p):
    return with_head(code=DISCONNECT + COA - p[0])(p)


def empty_state(p):
    """Two bytes of a Proxy-State become one with no value."""
    parts = parts_of(p)
    long = [k for k, part in enumerate(parts) if part[0] == 33 and len(part) > 4]
    if not long:
        return p
    parts[long[0]] = attribute(33, parts[long[0]][2:-2]) + attribute(33, b"")
    return p[:20] + b"".join(parts)


def gone(*kinds):
    return lambda p: fitted(p, without(parts_of(p), *kinds))


def value(kind, put):
    """The value of the first of this type as this makes it."""
    def written(p):
        for a in attributes(p, length_of(p)):
            if a.kind == kind:
                return p[:a.place] + put(a.value) + p[a.place + len(a.value):]
        return p
    return written


def turned(run):
    return run[:-1] + bytes([run[-1] ^ 1]) if run else run


CLAUSES = [
    Write("Length without the last attribute", with_head(length=one_shorter)),
    Write("Length with an attribute more", longer),
    Write("Length 0", with_head(length=lambda p: 0)),
    Write("Length 19", with_head(length=lambda p: 19)),
    Write("Length 4,097", with_head(length=lambda p: 4097)),
    Write("code 41", with_head(code=41)),
    Write("code 0", with_head(code=0)),
    Write("an attribute of length 0", last_length(lambda size: 0)),
    Write("an attribute of length 1", last_length(lambda size: 1)),
    Write("an attribute one byte shorter", last_length(lambda size: size - 1)),
    Write("an attribute past Length", last_length(lambda size: size + 1)),
    Write("no type 55", gone(55), 106),
    Write("type 55 twice", again(55), 106),
    Write("type 55 of length 5", replacing(55, attribute(55, bytes(3))), 106),
    Write("type 55 of length 7", replacing(55, attribute(55, bytes(5))), 106),
    Write("type 55 of two lengths", adding(attribute(55, bytes(3))), 106),
    Write("type 80 of length 2", replacing(80, attribute(80, b"")), 105),
    Write("type 80 of length 17", replacing(80, attribute(80, bytes(15))), 105),
    Write("type 80 of length 19", replacing(80, attribute(80, bytes(17))), 105),
    Write("type 80 twice", replacing(80, *[attribute(80, bytes(16))] * 2), 105),
    Write("the other code: its changes are unsupported", other_code, 401, (COA,)),
    Write("the other code: nothing to change", other_code, 402, (DISCONNECT,)),
    Write("type 2", adding(attribute(2, b"secret")), 401),
    Write("type 101", adding(attribute(101, number(503))), 401),
    Write("a change in a Disconnect", adding(attribute(27, number(7))), 401, (DISCONNECT,)),
    Write("type 6", adding(attribute(6, number(17))), 405),
    Write("type 1 twice", again(1), 404),
    Write("type 24 twice", again(24), 404),
    Write("type 24 with no value", replacing(24, attribute(24, b"")), 404),
    Write("type 33 with no value", empty_state, 404),
    Write("type 44 with no value", replacing(44, attribute(44, b"")), 404),
    Write("type 5 of length 5", replacing(5, attribute(5, bytes(3))), 404),
    Write("type 27 of length 7", replacing(27, attribute(27, bytes(5))), 404, (COA,)),
    Write("type 11 with no value", replacing(11, attribute(11, b"")), 404, (COA,)),
    Write("a type 26 in a Disconnect", adding(vendor(down())), 401, (DISCONNECT,)),
    Write("type 26 of another vendor", replacing(26, vendor(down(), of=number(32474))), 401),
    Write("type 26 of length 5", replacing(26, attribute(26, OURS[:3])), 404, (COA,)),
    Write("type 26 twice", again(26), 404, (COA,)),
    Write("an item 4 in type 26", replacing(26, vendor(down(), item(4))), 404, (COA,)),
    Write("an item of length 1 in type 26", replacing(26, vendor(down(), b"\3\1")), 404, (COA,)),
    Write("a lone byte in type 26", replacing(26, vendor(down(), b"\3")), 404, (COA,)),
    Write("a rate of length 7", replacing(26, vendor(item(1, bytes(5)))), 404, (COA,)),
    Write("a rate past its group", replacing(26, vendor(group(down()[:4]), group())), 404, (COA,)),
    Write("a rate in two groups", replacing(26, vendor(group(down()), group(down()))), 404, (COA,)),
    Write("a fifth group", replacing(26, vendor(nested(b"", 5))), 404, (COA,)),
    Write("another NAS-IP-Address", replacing(4, attribute(4, number(GATE.address ^ 1))), 403),
    Write("another NAS-Identifier", replacing(32, attribute(32, turned(GATE.name))), 403),
    Write("a longer NAS-Identifier", replacing(32, attribute(32, GATE.name + b"\0")), 403),
    Write("no criterion", gone(1, 5, 8, 31, 44), 402),
    Write("no change", gone(11, 26, 27, 28), 402, (COA,)),
    Write("no change but a type 26 without a rate", lambda p: replacing(26, vendor(group()))(gone(11, 26, 27, 28)(p)), 402, (COA,)),
    Write("a Filter-Id of 33 bytes", replacing(11, attribute(11, bytes(33))), 506, (COA,)),
]
FOLLOWED = [  # no clause of the rule
    Write("another identifier", lambda p: p[:1] + bytes([p[1] ^ 1]) + p[2:], 0),
    Write("another authenticator", lambda p: p[:4] + turned(p[4:20]) + p[20:], 104),
    Write("a stamp of another day", value(55, lambda run: turned(run[:1]) + run[1:]), 106),
    Write("a wrong type 80", value(80, turned), 105),
    Write("another User-Name", value(1, turned), 0),
    Write("another State", value(24, turned), 0),
    Write("another Proxy-State", value(33, turned), 0),
    Write("another Session-Timeout", value(27, turned), 0),
    Write("another Filter-Id", value(11, turned), 0),
    Write("another rate", value(26, turned), 0),
    Write("a rate in four groups", replacing(26, vendor(nested(up(7), 4))), 0, (COA,)),
    Write("a type 26 without a rate", replacing(26, vendor(group())), 0, (COA,)),
    Write("no type 26", gone(26), 0, (COA,)),
    Write("a State", replacing(24, attribute(24, b"late")), 0),
    Write("a NAS-Port", replacing(5, attribute(5, number(7))), 0),
    Write("a type 80", replacing(80, attribute(80, bytes(16))), 105),
    Write("the stamp first", lambda p: fitted(p, sorted(parts_of(p), key=lambda part: part[0] != 55)), 0),
]
