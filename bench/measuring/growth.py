"""How the instructions of a request grow with its length and with the slots of the table."""
import callgrind
from rows import Row, number

LENGTHS = [20, 64, 128, 256, 512, 1024, 2048, 3072, 4096]
SLOTS = [1, 2, 4, 8, 16, 32, 48, 64]
# kinds of bench/programs/handle.c
BY_LENGTH = {"short": "3-byte Proxy-States, echoed", "long": "255-byte Proxy-States, echoed"}
BY_SLOTS = {"plain": "live, another User-Name, as long", "length": "live, User-Name of another length", "lone": "free"}
MARK = 7  # what the commit takes for the look at a slot's mark
# the goal of one slot more: 30 for the walk, 12 where the slot is free, and its mark
SLOT_GOALS = {"plain": 30 + MARK, "length": 30 + MARK, "lone": 12 + MARK}
TWICE = 2.1  # the most that twice as much may take


def name(kind, size):
    return f"handle-{kind}-{size}"


def points():
    """One row for each size of each kind."""
    for kinds, sizes, unit in ((BY_LENGTH, LENGTHS, "bytes"), (BY_SLOTS, SLOTS, "slots")):
        for kind, title in kinds.items():
            for size in sizes:
                yield Row(f"{title}, {size:,} {unit}", callgrind.handled(kind, size), name(kind, size))


def grid(title, kinds, sizes):
    print(f"  {title:38}" + "".join(f"{size:>9,}" for size in sizes))
    for kind, line in kinds.items():
        print(f"    {line:36}" + "".join(f"{number(callgrind.handled(kind, size)):>9}" for size in sizes), flush=True)


def twice(kind, sizes):
    """What all takes over what half takes, each less the smallest: 2 where the growth is linear, 4 where it is quadratic."""
    least, half, whole = (callgrind.handled(kind, size) for size in (sizes[0], sizes[-1] // 2, sizes[-1]))
    return (whole - least) / (half - least)


def ratios():
    for kind, title in BY_LENGTH.items():
        yield Row(f"4,096 over 2,048 bytes: {title}", twice(kind, LENGTHS), goal=TWICE)
    for kind, title in BY_SLOTS.items():
        yield Row(f"64 over 32 slots: {title}", twice(kind, SLOTS), goal=TWICE)
    for kind, title in BY_SLOTS.items():
        each = (callgrind.handled(kind, 64) - callgrind.handled(kind, 32)) / 32
        yield Row(f"one slot more: {title}", each, goal=SLOT_GOALS[kind])
