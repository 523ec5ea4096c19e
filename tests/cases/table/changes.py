"""Ending and altering the slots that are marked: each that is live, only what is named, and how many."""
import itertools

from tests.harness.probe import cell
from tests.inputs.tables import OTHER_LENGTHS, free, full, loose, seeded, session, table
from tests.models import table_model as model

BEFORE = 0xEEEEEEEE  # the count before the call
NAMES = ["timeout", "idle", "filter", "down", "up"]
SUBSETS = [names for size in range(len(NAMES) + 1) for names in itertools.combinations(NAMES, size)]
END = None
ALL = b"\x01" * 64


def arguments(settings, flag=1):
    """The request that holds the Filter-Id, and the exports' numbers. What is not named has a value too, which must not be written."""
    named = settings or {}
    text = named.get("filter", b"not to be written")
    held = b"\x0b\x22" + text + b"\x2c"
    numbers = [0 if settings is not None else flag]
    for name in ["timeout", "idle"]:
        numbers += [flag if name in named else 0, named.get(name, 0xDDDDDDDD)]
    numbers += [flag if "filter" in named else 0, 2, len(text)]
    for name in ["down", "up"]:
        numbers += [flag if name in named else 0, named.get(name, 0xDDDDDDDD)]
    return held, numbers


def change(probe, tally, run, marks, settings, *case, flag=1):
    held, numbers = arguments(settings, flag)
    changed, after = model.change_marked(run, marks, settings)
    got = probe("table_change", run, held, marks, *numbers, cell(BEFORE))
    tally.same(got, (0, after, held, marks, cell(changed)), *case)


def some_settings(rng, names):
    return {name: rng.randbytes(rng.randint(1, 32)) if name == "filter" else rng.randrange(2**32) for name in names}


def every_change(probe, tally):
    for count in range(1, 65):
        rng = seeded("change", count)
        run, marks = table(rng, count), bytes(rng.choices([0, 1], k=64))
        for settings in [END, *[some_settings(rng, names) for names in SUBSETS]]:
            change(probe, tally, run, marks, settings, count, "slots", settings)
            change(probe, tally, run, ALL, settings, count, "slots, all marked", settings)
            change(probe, tally, run, bytes(64), settings, count, "slots, none marked", settings)


def each_slot(probe, tally):
    """One mark among 64 live slots, and all but one."""
    run = full(seeded("each"), 64)
    for k in range(64):
        one = bytes(64)[:k] + b"\x01" + bytes(63 - k)
        for settings in [END, {}, {"timeout": 65748}, {"idle": 65748}, {"filter": b"rule"}, {"down": 65748}, {"up": 65748}]:
            change(probe, tally, run, one, settings, "only slot", k, settings)
            change(probe, tally, run, bytes(1 - mark for mark in one), settings, "all but slot", k, settings)


def mark_values(probe, tally):
    """1 marks a slot, no other byte does."""
    run = full(seeded("values"), 3)
    for value in range(256):
        for settings in [END, {"idle": value}]:
            change(probe, tally, run, bytes([1, value]) + bytes([value]) * 62, settings, "mark", value)


def free_slots(probe, tally):
    """Marks on slots that are not live or not there are skipped."""
    for count in range(1, 65):
        rng = seeded("free", count)
        dead = b"".join(free(rng) for _ in range(count))
        for settings in [END, some_settings(rng, NAMES)]:
            change(probe, tally, dead, ALL, settings, count, "free slots", settings)
            change(probe, tally, model.with_slot(dead, count // 2, loose(rng, session(rng))), ALL, settings, count, "slots, one live")


def all_bits(probe, tally):
    rng = seeded("bits")
    run = loose(rng, session(rng)) + loose(rng, session(rng))
    for name in ["timeout", "idle", "down", "up"]:
        for value in [0, 212, 65535, 65536, 65748, 2**32 - 1, *[1 << bit for bit in range(32)], *[2**32 - 1 - (1 << bit) for bit in range(32)]]:
            change(probe, tally, run, ALL, {name: value}, name, value)
    for name, place in [("timeout", 10), ("down", 181), ("up", 185)]:
        held, numbers = arguments({name: 65748})
        after = probe("table_change", run, held, ALL, *numbers, cell(BEFORE))[1]
        tally.same(after[place:place + 4], b"\x00\x01\x00\xd4", "65,748 written as", name)


def filters(probe, tally):
    """Filter-Ids of every length over others of every length."""
    rng = seeded("filters")
    for before in range(33):
        run = loose(rng, session(rng, filter=rng.randbytes(before)))
        for after in range(33):
            change(probe, tally, run, ALL, {"filter": rng.randbytes(after)}, "Filter-Id of", before, "becomes", after)


def long_filters(probe, tally):
    """A longer one is 506 elsewhere. Here its first 32 bytes count, and what the request has of it."""
    rng = seeded("long")
    run = loose(rng, session(rng))
    for length in [0, 1, 31, 32, 33, 64, 300]:
        held = rng.randbytes(length)
        for at in [0, 1, 5, 31, 299, 300, 301, 2**63, 2**64 - 1]:
            for size in [0, 1, 32, 33, 253, 2**63, 2**64 - 1]:
                changed, after = model.change_marked(run, ALL, {"filter": held[at:at + size][:32]})
                got = probe("table_change", run, held, ALL, 0, 0, 9, 0, 9, 1, at, size, 0, 9, 0, 9, cell(BEFORE))
                tally.same(got, (0, after, held, ALL, cell(changed)), "of", length, "at", at, "size", size)


def flags(probe, tally):
    """Any number but 0 sets a flag."""
    rng = seeded("flags")
    run = table(rng, 5)
    for flag in [1, 2, 255, 256, 65536, 2**31, 2**32 - 1]:
        for settings in [END, *[some_settings(rng, names) for names in SUBSETS]]:
            change(probe, tally, run, ALL, settings, "flag", flag, settings, flag=flag)


def nothing(probe, tally):
    """No slots, or not 64 marks: refused in the second case, with the count as it was."""
    rng = seeded("nothing")
    content = loose(rng, session(rng))
    for settings in [END, some_settings(rng, NAMES)]:
        for length in OTHER_LENGTHS:
            change(probe, tally, (content * 101)[:length], ALL, settings, "length", length, settings)
        for size in [0, 1, 32, 63, 65, 128]:
            held, numbers = arguments(settings)
            got = probe("table_change", content, held, b"\x01" * size, *numbers, cell(BEFORE))
            tally.same(got, (1, content, held, b"\x01" * size, cell(BEFORE)), "marks", size, settings)


GROUPS = [
    ("change: every subset of the settings, 1 to 64 slots", every_change),
    ("change: each slot alone, and all but one", each_slot),
    ("change: all 256 values of a mark", mark_values),
    ("change: marks on slots free or not there", free_slots),
    ("change: all 32 bits of the timeouts and the rates", all_bits),
    ("change: Filter-Ids of every length", filters),
    ("change: Filter-Ids too long or cut by the request's end", long_filters),
    ("change: flags", flags),
    ("change: wrong lengths of table and marks", nothing),
]
