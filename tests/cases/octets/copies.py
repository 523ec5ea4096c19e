"""Copy and fill: the bytes named, and no other."""
from tests.inputs.byte_runs import FAR, sample

COUNTS = range(41)
PLACES = [0, 1, 2, 3, 7, 8, 9, 15, 16, 17, 31]
REST = [-3, -1, 0, 1, 7, 8, 20]  # bytes after the last that is written; below 0: so many are missing


def spots(count):
    """Runs and places that hold count bytes, and some that do not."""
    for at in PLACES:
        for rest in REST:
            if at + count + rest >= 0:
                yield sample(100 + at, at + count + rest), at
    for at in FAR:
        yield sample(count, 24), at


def after(run, at, written):
    if at + len(written) > len(run):
        return 1, run
    return 0, run[:at] + written + run[at + len(written):]


def copy(probe, tally):
    for count in COUNTS:
        source = sample(count, count)
        for run, at in spots(count):
            wanted = (*after(run, at, source), source)
            tally.same(probe("copy", run, at, source), wanted, "count", count, "at", at, "of", len(run))


def fill(probe, tally):
    for count in COUNTS:
        for run, at in spots(count):
            for x in [0, 0x5A, 0xFF]:
                wanted = after(run, at, bytes([x]) * count)
                tally.same(probe("fill", run, at, count, x), wanted, "count", count, "at", at, "of", len(run))
    for count in FAR:
        for at in [0, 1, 2, 4, 24, *FAR]:
            run = sample(1, 24)
            tally.same(probe("fill", run, at, count, 1), (1, run), "count", count, "at", at)


GROUPS = [
    ("copy of 0 to 40 bytes", copy),
    ("fill of 0 to 40 bytes", fill),
]
