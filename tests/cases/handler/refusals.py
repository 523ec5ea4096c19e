"""R1 to R4 before any judgement of the packet, the lowest that applies; nothing lent is written, nor the four numbers."""
from itertools import product

from tests.compare.handler import handled
from tests.harness.probe import NULL
from tests.inputs.byte_runs import sample
from tests.inputs.handler_calls import Call, ROOM
from tests.inputs.packets import CODES, GATE, flipped, good, request, sign, unsigned
from tests.inputs.tables import OTHER_LENGTHS, free, loose, seeded, session

SECRETS = [0, 65, 66, 127, 128, 255, 256, 4096]  # lengths that are refused
NAMES = [0, 33, 34, 64, 65, 255, 256, 4096]
ROOMS = [0, 1, 19, 20, 44, 192, 255, 256, 2048, 4094, 4095]


def house(slots=1):
    """A table whose first session is ann's, which `good` asks for."""
    rng = seeded("house", slots)
    return loose(rng, session(rng, user=b"ann")) + b"".join(free(rng) for _ in range(slots - 1))


def of_length(run, length):
    """The run, repeated or cut; NULL where it has no bytes."""
    return (run * (1 + length // len(run)))[:length] or NULL


def subsets(probe, tally):
    """Every subset of the four, each argument unfit in several ways."""
    tables, secrets, names, rooms = OTHER_LENGTHS[::4], SECRETS[::4], NAMES[::4], ROOMS[::5]
    for code, bad_table, bad_secret, bad_name, bad_room in product(
            CODES, [None, *tables], [None, *secrets], [None, *names], [None, *rooms]):
        secret = GATE.secret if bad_secret is None else of_length(GATE.secret, bad_secret)
        name = GATE.name if bad_name is None else of_length(GATE.name, bad_name)
        packet = request(code, good(code), GATE._replace(secret=secret or b""))
        table = house() if bad_table is None else of_length(house(), bad_table)
        room = ROOM if bad_room is None else of_length(ROOM, bad_room)
        unfit = [bad is not None for bad in (bad_table, bad_secret, bad_name, bad_room)]
        call = Call(table, packet, secret, GATE.address, name, room)
        handled(probe, tally, call, "unfit", unfit, answer=unfit.index(True) + 1 if any(unfit) else 0)


def each_length(probe, tally):
    """Each length at and around the limits, of one argument at a time."""
    for code in CODES:
        for length in [*OTHER_LENGTHS, *[192 * slots + off for slots in range(66) for off in (-1, 1)][1:]]:
            call = Call(of_length(house(), length), request(code, good(code)))
            handled(probe, tally, call, "table of", length, answer=1)
        for slots in range(1, 65):
            handled(probe, tally, Call(house(slots), request(code, good(code))), "slots", slots, answer=0)
        for length in [*SECRETS, *range(1, 65)]:
            gate = GATE._replace(secret=of_length(b"xyzzy5461", length) or b"")
            call = Call(house(), request(code, good(code), gate), gate.secret)
            handled(probe, tally, call, "secret of", length, answer=0 if 1 <= length <= 64 else 2)
        for length in [*NAMES, *range(1, 33)]:
            call = Call(house(), request(code, good(code)), name=of_length(b"gate-7", length))
            handled(probe, tally, call, "name of", length, answer=0 if 1 <= length <= 32 else 3)
        for length in [*ROOMS, 4096, 4097, 4098, 8192]:
            call = Call(house(), request(code, good(code)), reply=of_length(ROOM, length))
            handled(probe, tally, call, "room of", length, answer=4 if length < 4096 else 0)


def before_packet(probe, tally):
    """A refusal comes before every discard and every cause."""
    good_one = request(40, good(40))
    for packet in [
        NULL, b"", good_one[:19], sign(good_one[:2] + b"\0\x13" + good_one[4:]), request(41, good(40)), request(40, [b"\x01\x01"]),
        flipped(good_one, 40), request(40, []), request(40, [b"\x1a\x02", *good(40)]), request(43, good(40)), unsigned(43, []), sample(1, 4096),
    ]:
        handled(probe, tally, Call(house()[:191], packet), "R1 before the packet", answer=1)
        handled(probe, tally, Call(house(), packet, secret=b"s" * 65), "R2 before the packet", answer=2)
        handled(probe, tally, Call(house(), packet, name=b"n" * 33), "R3 before the packet", answer=3)
        handled(probe, tally, Call(house(), packet, reply=ROOM[:4095]), "R4 before the packet", answer=4)


def nulls(probe, tally):
    """NULL for each run, and for every subset of them."""
    packet = request(40, good(40))
    full = Call(house(), packet)
    for gone in product([False, True], repeat=5):
        names = [name for name, out in zip(["table", "secret", "name", "reply", "packet"], gone) if out]
        answer = next((number for number, out in zip([1, 2, 3, 4, 101], gone) if out), 0)
        handled(probe, tally, full._replace(**{name: NULL for name in names}), "NULL:", names, answer=answer)
        handled(probe, tally, full._replace(**{name: b"" for name in names}), "no bytes:", names, answer=answer)


GROUPS = [
    ("handle, refused: every subset of R1 to R4", subsets),
    ("handle, refused: every length at the limits", each_length),
    ("handle, refused: before any judgement of the packet", before_packet),
    ("handle: NULL where a length is 0", nulls),
]
