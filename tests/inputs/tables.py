"""Sessions, slots, tables and requests to test with: the same in every run."""
import random

from tests.models import table_model as model

FIELDS = ["user", "port", "address", "station", "id"]  # by the exports' field numbers: attribute types 1, 5, 8, 31, 44
BEYOND = [64, 65, 2**32, 2**58, 2**58 + 1, 2**63, 2**64 - 1]  # slots of no table; 2**58 times 192 wraps to 0
OTHER_LENGTHS = [0, 1, 2, 150, 191, 193, 383, 385, 64 * 192 - 1, 64 * 192 + 1, 65 * 192, 66 * 192, 100 * 192]  # R1


def seeded(*seed):
    return random.Random(repr(seed))


def session(rng, **given):
    """Any session that fits the record."""
    fields = {name: rng.randrange(2**32) for name in model.NUMBERS}
    for name, (_, low, high) in model.TEXTS.items():
        fields[name] = rng.randbytes(rng.randint(low, high))
    return fields | given


def loose(rng, fields):
    """The slot of a session with any rates, and with any bytes where nothing is read: after the texts and at the end."""
    content = bytearray(model.record(fields))
    for place, _, high in model.TEXTS.values():
        start = place + 1 + content[place]
        content[start:place + 1 + high] = rng.randbytes(place + 1 + high - start)
    rates = model.RATES["down"]
    content[rates:] = rng.randbytes(model.SIZE - rates)
    return bytes(content)


def with_byte(run, place, value):
    return run[:place] + bytes([value]) + run[place + 1:]


def free(rng, fields=None):
    """A free slot: zeros, any bytes, or a session's slot that misses by one byte."""
    content = loose(rng, fields or session(rng))
    name = rng.choice(list(model.TEXTS))
    place, low, high = model.TEXTS[name]
    outside = [*range(low), high + 1, 255]
    content = rng.choice([
        bytes(model.SIZE),
        rng.randbytes(model.SIZE),
        with_byte(content, 0, content[0] ^ 1 << rng.randrange(8)),
        with_byte(content, 1, content[1] ^ 1 << rng.randrange(8)),
        with_byte(content, place, rng.choice(outside)),
        with_byte(content, place, rng.choice(outside)),
    ])
    return bytes(model.SIZE) if model.live(content) else content


def table(rng, count, pool=None, live=0.6):
    """A table with free slots among the live ones, whose sessions are from the pool, if there is one."""
    slots = []
    for _ in range(count):
        fields = rng.choice(pool) if pool else session(rng)
        slots.append(loose(rng, fields) if rng.random() < live else free(rng, fields))
    return b"".join(slots)


def full(rng, count):
    """A table of live slots only, each with an Acct-Session-Id of its own."""
    return b"".join(loose(rng, session(rng, id=b"%d of %d" % (k, count))) for k in range(count))


def criteria(fields, names):
    """What a request asks to find this session by."""
    return [(name, model.number(fields[name]) if name in model.NUMBERS else fields[name]) for name in names]


def request(asked):
    """Bytes that hold the values of the criteria, with others between, and the criteria as the exports take them."""
    held, given = b"\x1c", b""
    for name, value in asked:
        given += bytes([FIELDS.index(name), len(held), len(value)])
        held += value + b"\x2c\x06"
    return held, given
