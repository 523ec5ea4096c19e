"""The slots of a table: how many there are, and which are live."""
import itertools

from tests.harness.probe import NULL
from tests.inputs.byte_runs import FAR, sample
from tests.inputs.tables import BEYOND, OTHER_LENGTHS, loose, seeded, session, table, with_byte
from tests.models import table_model as model

AROUND = [0, 1, 31, 32, 33, 62, 63, 64, 255]  # lengths at and around the limits


def lives(probe, tally, run, *case):
    """Each slot of a table, and none after it."""
    count = model.slot_count(run)
    for k in range(count):
        tally.same(probe("table_live", run, k), (int(model.live(model.slot(run, k))), run), *case, "slot", k)
    for k in [count, count + 1]:
        tally.same(probe("table_live", run, k), (0, run), *case, "slot", k, "of", count)


def counts(probe, tally):
    for length in [*range(400), *[192 * k + d for k in range(2, 70) for d in (-1, 0, 1)], *OTHER_LENGTHS]:
        run = sample(length, length)
        tally.same(probe("table_count", run), (model.slot_count(run), run), "length", length)
    tally.same(probe("table_count", NULL), (0,), "no table")


def lengths(probe, tally):
    rng = seeded("lengths")
    for name, (place, _, _) in model.TEXTS.items():
        for value in range(256):
            slots = [loose(rng, session(rng)) for _ in range(3)]
            slots[value % 3] = with_byte(slots[value % 3], place, value)
            lives(probe, tally, b"".join(slots), "length of", name, value)


def length_pairs(probe, tally):
    content = loose(seeded("pairs"), session(seeded("pairs")))
    for four in itertools.product(AROUND, repeat=4):
        run = content
        for (place, _, _), value in zip(model.TEXTS.values(), four):
            run = with_byte(run, place, value)
        tally.same(probe("table_live", run, 0), (int(model.live(run)), run), "lengths", four)


def mark_bytes(probe, tally):
    content = loose(seeded("marks"), session(seeded("marks")))
    for place in range(2):
        for value in range(256):
            lives(probe, tally, with_byte(content, place, value), "mark byte", place, "is", value)
    for bit in range(16):
        mark = int.from_bytes(model.MARK, "big") ^ 1 << bit
        lives(probe, tally, mark.to_bytes(2, "big") + content[2:], "mark", hex(mark))
    lives(probe, tally, model.MARK[::-1] + content[2:], "mark bytes swapped")


def anywhere(probe, tally):
    for count in range(1, 65):
        for turn in range(3):
            rng = seeded("anywhere", count, turn)
            lives(probe, tally, table(rng, count), count, "slots, table", turn)


def beyond(probe, tally):
    for count in [1, 2, 63, 64]:
        run = b"".join(loose(seeded("beyond", k), session(seeded("beyond", k))) for k in range(count))
        for k in [count, count + 1, *BEYOND, *FAR]:
            tally.same(probe("table_live", run, k), (0, run), "slot", k, "of", count)


def cut_short(probe, tally):
    """A table with part of a slot is refused elsewhere (R1). Here it reads as if zeros followed, and nothing after it is read."""
    content = loose(seeded("cut"), session(seeded("cut")))
    for length in range(2 * 192):
        run = (content + content)[:length]
        for k in range(3):
            part = model.slot(run, k)
            wanted = int(model.live(part + bytes(192 - len(part))))
            tally.same(probe("table_live", run, k), (wanted, run), "length", length, "slot", k)


GROUPS = [
    ("slots counted, right and wrong lengths", counts),
    ("live: all 256 values of each length", lengths),
    ("live: lengths around their limits, all four at once", length_pairs),
    ("live: all values and bits of the mark", mark_bytes),
    ("live: tables of 1 to 64 slots with free ones among them", anywhere),
    ("live: slots after the table", beyond),
    ("live: slots cut short", cut_short),
]
