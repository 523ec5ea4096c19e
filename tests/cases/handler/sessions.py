"""Which sessions a request changes, what is written to them, and how many there are."""
import itertools

from tests.compare.handler import handled
from tests.inputs.handler_calls import Call
from tests.inputs.packets import COA, CODES, DISCONNECT, STAMP, attribute, request
from tests.inputs.tables import FIELDS, criteria, free, full, loose, seeded, session, table, with_byte
from tests.models import table_model as model

TYPES = {"user": 1, "port": 5, "address": 8, "station": 31, "id": 44}
TIMEOUT = attribute(27, model.number(65748))
SETTINGS = [TIMEOUT, attribute(28, model.number(70000)), attribute(11, b"night")]


def asking(code, asked, changes=(TIMEOUT,)):
    """A request for the sessions of these criteria, pairs of name and value."""
    return request(code, [attribute(TYPES[name], value) for name, value in asked] + [STAMP] + list(changes) * (code == COA))


def other(value):
    return with_byte(value, len(value) - 1, value[-1] ^ 0x10)


def subsets(probe, tally):
    """Every subset of the criteria, right or with one of them wrong, to slots of which some differ in one field."""
    for code, size in itertools.product(CODES, range(1, 6)):
        for names in itertools.combinations(FIELDS, size):
            rng = seeded("whole", names)
            mine = session(rng, station=b"station")
            near = [mine | {name: session(rng)[name]} for name in FIELDS]
            run = b"".join([loose(rng, mine), free(rng, mine), *[loose(rng, one) for one in near], loose(rng, mine), free(rng, mine)])
            right = criteria(mine, names)
            told = handled(probe, tally, Call(run, asking(code, right)), "code", code, "by", names, answer=0)
            tally.same(told.changed, 7 - size, "changed by", names)
            for i, (name, value) in enumerate(right):
                wrong = right[:i] + [(name, other(value))] + right[i + 1:]
                handled(probe, tally, Call(run, asking(code, wrong)), "code", code, "by", names, "wrong", name, answer=503)


def tables(probe, tally):
    """1 to 64 slots, of which any number match."""
    for code, slots in itertools.product(CODES, range(1, 65)):
        rng = seeded("whole tables", slots)
        mine = session(rng)
        for hits in {1, 2, slots // 2, slots - 1, slots} - {0}:
            hits = min(hits, slots)
            rest = [rng.choice([loose(rng, session(rng)), free(rng, mine), rng.randbytes(192)]) for _ in range(slots - hits)]
            run = [loose(rng, mine) for _ in range(hits)] + rest
            rng.shuffle(run)
            told = handled(probe, tally, Call(b"".join(run), asking(code, criteria(mine, ["id"]))), slots, "slots,", hits, "match", answer=0)
            tally.same(told.changed, hits, "changed of", slots)


def each_slot(probe, tally):
    """One of 64 live sessions. Asked again, a Disconnect finds none and a CoA the same one."""
    run = full(seeded("whole full"), 64)
    for code, k in itertools.product(CODES, range(64)):
        packet = asking(code, [("id", b"%d of 64" % k)])
        told = handled(probe, tally, Call(run, packet), "only slot", k, answer=0)
        others = run[:k * 192] + told.table[k * 192:k * 192 + 192] + run[k * 192 + 192:]
        tally.same((told.changed, told.table), (1, others), "no other slot than", k)
        handled(probe, tally, Call(told.table, packet), "again, slot", k, answer=503 if code == DISCONNECT else 0)


def names(probe, tally):
    """Names that share 40 bytes, and names that no field can equal."""
    rng = seeded("whole names")
    base = rng.randbytes(253)
    users = [base[:n] for n in range(38, 64)] + [base[:40] + bytes([x]) for x in range(10)] + [base[:40] + rng.randbytes(n) for n in range(1, 20)]
    run = b"".join(loose(rng, session(rng, user=user, id=base[:32], station=base[:32])) for user in users)
    for code in CODES:
        for user in users:
            told = handled(probe, tally, Call(run, asking(code, [("user", user)])), "User-Name of", len(user), answer=0)
            tally.same(told.changed, users.count(user), "sessions of this name")
        for name, size in [("user", 64), ("user", 253), ("id", 31), ("id", 33), ("id", 253), ("station", 31), ("station", 33), ("station", 253)]:
            handled(probe, tally, Call(run, asking(code, [(name, base[:size])])), name, "of", size, answer=503)


def live(probe, tally):
    """A slot is live exactly if mark and four lengths are in their limits: every value of each."""
    rng = seeded("whole live")
    mine = session(rng, user=bytes(63), id=b"id", station=b"s" * 32, filter=b"f" * 32)
    content = model.record(mine)
    for code in CODES:
        packet = asking(code, criteria(mine, ["port"]))
        for place, value in itertools.product([0, 1, 18, 82, 115, 148], range(256)):
            low, high = {0: (0x5A, 0x5A), 1: (0x4C, 0x4C), 18: (1, 63), 82: (1, 32)}.get(place, (0, 32))
            run = with_byte(content, place, value)
            handled(probe, tally, Call(run, packet), "byte", place, "is", value, answer=0 if low <= value <= high else 503)


def written(probe, tally):
    """A Disconnect zeroes the slot; a CoA writes the fields that it names and no other byte, all 32 bits of a number."""
    rng = seeded("whole written")
    values = [0, 212, 65535, 65536, 65748, 2**32 - 1, *[1 << bit for bit in range(32)]]
    for value in values:
        mine = session(rng)
        run = loose(rng, mine)
        ended = handled(probe, tally, Call(run, asking(DISCONNECT, criteria(mine, ["id"]))), "ended", answer=0)
        tally.same(ended.table, bytes(192), "ended")
        for kind, place in [(27, 10), (28, 14)]:
            packet = asking(COA, criteria(mine, ["id"]), [attribute(kind, model.number(value))])
            told = handled(probe, tally, Call(run, packet), "type", kind, "of", value, answer=0)
            tally.same(told.table, run[:place] + model.number(value) + run[place + 4:], "type", kind, "of", value)
    told = handled(probe, tally, Call(run, asking(COA, criteria(mine, ["id"]))), "65,748", answer=0)
    tally.same(told.table[10:14], bytes.fromhex("000100d4"), "65,748 in the table")
    for size in range(1, 34):
        text = rng.randbytes(size)
        told = handled(probe, tally, Call(run, asking(COA, criteria(mine, ["id"]), [attribute(11, text)])), "Filter-Id of", size)
        fits = run[:148] + bytes([size]) + text.ljust(32, b"\0") + run[181:]
        tally.same((told.answer, told.table), (0, fits) if size < 33 else (506, run), "Filter-Id of", size)
    for names in itertools.chain.from_iterable(itertools.permutations(SETTINGS, size) for size in range(1, 4)):
        run = table(rng, 9, [mine], 0.8)
        handled(probe, tally, Call(run, asking(COA, criteria(mine, ["user"]), names)), "changes", len(names))


GROUPS = [
    ("handle: every subset of the criteria, each one wrong", subsets),
    ("handle: tables of 1 to 64 slots, any number match", tables),
    ("handle: each of 64 sessions, and again", each_slot),
    ("handle: names that share 40 bytes or are too long", names),
    ("handle: every value of mark and lengths", live),
    ("handle: the bytes written", written),
]
