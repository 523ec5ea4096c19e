"""Which slots match: live, and every criterion equal to its field."""
import itertools

from tests.inputs.tables import FIELDS, OTHER_LENGTHS, criteria, free, loose, request, seeded, session, table, with_byte
from tests.models import table_model as model

BLANK = b"\xee" * 64  # the marks before the call
TEXTS = [name for name in FIELDS if name in model.TEXTS]
NUMBERS = [name for name in FIELDS if name in model.NUMBERS]
SUBSETS = [names for size in range(6) for names in itertools.combinations(FIELDS, size)]


def ask(probe, tally, run, asked, *case):
    """All marks at once, and each slot alone."""
    held, given = request(asked)
    wanted = model.marks(run, asked)
    tally.same(probe("table_marks", run, held, given, BLANK), (0, run, held, given, wanted), *case)
    for k in range(model.slot_count(run)):
        tally.same(probe("table_match", run, k, held, given), (wanted[k], run, held, given), *case, "slot", k)


def other(value, place=0):
    """The value with a bit changed; a byte where there is none."""
    return with_byte(value, place, value[place] ^ 0x10) if value else b"x"


def subsets(probe, tally):
    """Every subset of the criteria, all right or one of them wrong, to slots of which some differ in one field."""
    for names in SUBSETS:
        rng = seeded(names)
        mine = session(rng)
        near = [mine | {name: session(rng)[name]} for name in FIELDS]
        run = b"".join([loose(rng, mine), free(rng, mine), *[loose(rng, one) for one in near], loose(rng, mine), free(rng, mine)])
        right = criteria(mine, names)
        ask(probe, tally, run, right, "by", names)
        for i in range(len(right)):
            wrong = right[:i] + [(right[i][0], other(right[i][1]))] + right[i + 1:]
            ask(probe, tally, run, wrong, "by", names, "wrong", names[i])


def orders(probe, tally):
    rng = seeded("orders")
    mine = session(rng, station=b"station")
    run = loose(rng, mine)
    for names in itertools.permutations(FIELDS):
        right = criteria(mine, names)
        ask(probe, tally, run, right, "by", names)
        for i in range(5):
            ask(probe, tally, run, right[:i] + [(names[i], other(right[i][1]))] + right[i + 1:], "by", names, "wrong", names[i])


def text_lengths(probe, tally):
    """Texts that are prefixes of each other; after the text in the slot stands how it would go on."""
    whole = seeded("text").randbytes(70)
    for name in TEXTS:
        place, low, high = model.TEXTS[name]
        for have in range(low, high + 1):
            run = bytearray(model.record(session(seeded("lengths"), **{name: whole[:have]})))
            run[place + 1:place + 1 + high] = whole[:high]
            for want in range(high + 3):
                ask(probe, tally, bytes(run), [(name, whole[:want])], name, "of", have, "asked for", want)


def text_bytes(probe, tally):
    """Texts that differ in one byte, each in turn."""
    for name in TEXTS:
        _, low, high = model.TEXTS[name]
        for length in range(max(low, 1), high + 1):
            rng = seeded(name, length)
            mine = session(rng, **{name: rng.randbytes(length)})
            run = loose(rng, mine)
            ask(probe, tally, run, [(name, mine[name])], name, "of", length)
            for place in range(length):
                ask(probe, tally, run, [(name, other(mine[name], place))], name, "of", length, "differs at", place)


def shared_names(probe, tally):
    """Names with the same 40 first bytes, one byte more or less, prefixes of each other."""
    rng = seeded("names")
    base = rng.randbytes(63)
    names = [base[:n] for n in range(38, 64)] + [base[:40] + bytes([x]) for x in range(10)]
    names += [base[:40] + rng.randbytes(n) for n in range(1, 24)] + [other(base, place)[:41] for place in (0, 38, 39, 40)]
    run = b"".join(loose(rng, session(rng, user=name)) for name in names)
    for name in names:
        ask(probe, tally, run, [("user", name)], "User-Name of", len(name))


def numbers(probe, tally):
    for name in NUMBERS:
        for value in [0, 1, 0x00010000, 0x12345678, 65748, 2**32 - 1]:
            run = loose(seeded(name), session(seeded(name), **{name: value}))
            near = {value, value ^ 0xFFFF, value ^ 0xFFFF0000, value & 0xFFFF, value >> 16, value >> 16 | (value & 0xFFFF) << 16}
            for asked in near | {value ^ 1 << bit for bit in range(32)}:
                ask(probe, tally, run, [(name, model.number(asked))], name, hex(value), "asked for", hex(asked))
            for size in range(9):
                ask(probe, tally, run, [(name, (model.number(value) * 3)[:size])], name, hex(value), "in bytes", size)


def tables(probe, tally):
    """1 to 64 slots, with sessions that share fields, so that several match."""
    for count in range(1, 65):
        rng = seeded("tables", count)
        texts = {name: [rng.randbytes(rng.randint(1, 32)) for _ in range(2)] for name in TEXTS}
        pool = [session(rng, **{name: rng.choice(values) for name, values in texts.items()}, **{name: rng.choice([7, 65543]) for name in NUMBERS}) for _ in range(12)]
        run = table(rng, count, pool, 0.8)
        for turn in range(8):
            names = rng.sample(FIELDS, rng.randint(0, 3))
            ask(probe, tally, run, criteria(rng.choice(pool), names), count, "slots by", names)


def no_session(probe, tally):
    """Tables of a wrong length have no slots."""
    rng = seeded("none")
    content = loose(rng, session(rng))
    for length in OTHER_LENGTHS:
        ask(probe, tally, (content * 101)[:length], [], "length", length)


def room(probe, tally):
    rng = seeded("room")
    mine = session(rng)
    run, (held, given) = loose(rng, mine), request(criteria(mine, ["id"]))
    for size in [0, 1, 32, 63, 65, 128, 256]:
        marks = b"\xee" * size
        tally.same(probe("table_marks", run, held, given, marks), (1, run, held, given, marks), "room for", size)


def in_part(probe, tally):
    """Values that the request holds in part or not at all: what there is of them counts. At most five criteria are taken."""
    rng = seeded("part")
    mine = session(rng, user=b"name", station=b"")
    run = loose(rng, mine) + free(rng)
    for held in [b"", b"n", b"name", b"names", b"name" + bytes(300)]:
        for at in [0, 1, 3, 4, 5, 200, 255]:
            for size in [0, 1, 3, 4, 5, 63, 64, 65, 200, 255]:
                for number, name in [(0, "user"), (3, "station"), (4, "id"), (9, "id")]:
                    asked, given = [(name, held[at:at + size])], bytes([number, at, size])
                    wanted = model.marks(run, asked)
                    tally.same(probe("table_marks", run, held, given, BLANK), (0, run, held, given, wanted), name, "at", at, "size", size)
                    tally.same(probe("table_match", run, 0, held, given), (wanted[0], run, held, given), name, "at", at, "size", size)
    held, right = request(criteria(mine, ["user"]))
    for given, wanted in [(right * 5 + b"\0\0\0", 1), (right * 4 + b"\0\0\0", 0), (right + b"\0\0", 1), (right[:2], 1)]:
        tally.same(probe("table_match", run, 0, held, given), (wanted, run, held, given), "criteria in bytes", len(given))


GROUPS = [
    ("match: every subset of the criteria, each one wrong", subsets),
    ("match: every order of the criteria, each one wrong", orders),
    ("match: texts of every length against every length", text_lengths),
    ("match: texts that differ in one byte", text_bytes),
    ("match: names that share 40 bytes", shared_names),
    ("match: numbers that agree in part, and in other sizes", numbers),
    ("match: tables of 1 to 64 slots", tables),
    ("match: tables of a wrong length", no_session),
    ("refused: room for other than 64 marks", room),
    ("match: values cut by the request's end", in_part),
]
