"""A new session: R1, R8, R9, R10 in this order, else all 192 bytes of the lowest free slot."""
import itertools

from tests.harness.probe import cell
from tests.inputs.tables import OTHER_LENGTHS, free, full, loose, seeded, session, table, with_byte
from tests.models import table_model as model

BEFORE = 0xEEEEEEEE  # the slot before the call
AROUND = [0, 1, 31, 32, 33, 62, 63, 64]
WRAPPED = [255, 256, 257, 256 + 32, 256 + 63, 512 + 1, 4096 + 32]  # lengths whose low byte is within the limits, or not


def start(probe, tally, run, fields, *case):
    refusal, k, after = model.start(run, fields)
    texts = [fields[name] for name in model.TEXTS]
    got = probe("table_insert", run, *[fields[name] for name in model.NUMBERS], *texts, cell(BEFORE))
    tally.same(got, (refusal, after, *texts, cell(BEFORE if k is None else k)), *case)
    return after


def text_lengths(probe, tally):
    rng = seeded("start lengths")
    run = free(rng) + loose(rng, session(rng))
    for name, (_, _, high) in model.TEXTS.items():
        for length in [*range(high + 4), *WRAPPED]:
            start(probe, tally, run, session(rng, **{name: rng.randbytes(length)}), name, "of", length)
    for four in itertools.product(AROUND, repeat=4):
        fields = session(rng, **{name: rng.randbytes(length) for name, length in zip(model.TEXTS, four)})
        start(probe, tally, run, fields, "texts of", four)


def order(probe, tally):
    """Every set of R1, R8, R9, R10 that can apply at once."""
    for count in [1, 2, 3, 63, 64]:
        for long_name, (r1, r8, r9, r10) in itertools.product(model.TEXTS, itertools.product([False, True], repeat=4)):
            rng = seeded("order", count, long_name, r1, r8, r9, r10)
            run = full(rng, count)
            fields = session(rng, id=model.field(model.slot(run, rng.randrange(count)), "id") if r9 else b"new")
            if r8:
                fields[long_name] = rng.randbytes(model.TEXTS[long_name][2] + 1)
            if not r10 and (count > 1 or not r9):
                others = [k for k in range(count) if model.field(model.slot(run, k), "id") != fields["id"]]
                run = model.with_slot(run, rng.choice(others), free(rng))
            if r1:
                run = rng.choice([run[:-1], run + b"\0", run[:100], b""])
            start(probe, tally, run, fields, count, "slots; R1, R8, R9, R10:", r1, r8, r9, r10, long_name)


def lowest(probe, tally):
    for count in range(1, 65):
        for live in [0.0, 0.5, 0.9, 1.0]:
            rng = seeded("lowest", count, live)
            start(probe, tally, table(rng, count, live=live), session(rng), count, "slots, live", live)
        run = full(seeded("one free", count), count)
        for k in range(count):  # one free slot, each in turn
            rng = seeded("one free", count, k)
            start(probe, tally, model.with_slot(run, k, free(rng)), session(rng), count, "slots, free", k)


def filled(probe, tally):
    """Starts until there is no free slot, and one more."""
    for count in [*range(1, 65, 7), 64]:
        rng = seeded("filled", count)
        run = b"".join(free(rng) for _ in range(count))
        for n in range(count + 2):
            run = start(probe, tally, run, session(rng, id=b"%d" % n), count, "slots, start", n)


def ids(probe, tally):
    """R9 goes by whole texts, over live slots only."""
    rng = seeded("ids")
    whole = rng.randbytes(33)
    place, _, high = model.TEXTS["id"]
    for have in range(1, 33):
        held = bytearray(model.record(session(rng, id=whole[:have])))
        held[place + 1:place + 1 + high] = whole[:high]  # after the text stands how it would go on
        for want in range(1, 33):
            start(probe, tally, bytes(held) + free(rng), session(rng, id=whole[:want]), "id of", have, "new", want)
        for byte in range(have):
            near = with_byte(whole[:have], byte, whole[byte] ^ 1)
            start(probe, tally, free(rng) + bytes(held), session(rng, id=near), "id of", have, "differs at", byte)
    for turn in range(200):
        fields = session(rng)
        run = free(rng, fields) + free(rng, fields)
        start(probe, tally, run, fields, "the id only in free slots, turn", turn)
    for k in range(64):
        run = model.with_slot(full(rng, 64), 63 - k, free(rng))
        start(probe, tally, run, session(rng, id=b"%d of 64" % k), "the id of slot", k)


def numbers(probe, tally):
    rng = seeded("numbers")
    for name in model.NUMBERS:
        for value in [0, 65748, 2**32 - 1, *[1 << bit for bit in range(32)]]:
            start(probe, tally, rng.randbytes(192) + free(rng), session(rng, **{name: value}), name, value)


def wrong_tables(probe, tally):
    rng = seeded("wrong")
    for length in OTHER_LENGTHS:
        for run in [bytes(length), rng.randbytes(length), (loose(rng, session(rng)) * 101)[:length]]:
            start(probe, tally, run, session(rng), "length", length)


GROUPS = [
    ("start: texts at and around their limits", text_lengths),
    ("start: R1, R8, R9, R10 in this order", order),
    ("start: the lowest free slot", lowest),
    ("start: until the table is full", filled),
    ("start: ids alike", ids),
    ("start: all bits of the numbers", numbers),
    ("start: tables of a wrong length", wrong_tables),
]
