"""What header_scheduler.c must print, by the stepwise model."""
from tests.inputs.packets import CLOCK
from tests.inputs.scheduler_world import BUFFER, World
from tests.models.scheduler_calls import JOBS, Drop, End, Open, Start, Step
from tests.stored.sample_requests import GATE, REQUESTS, sent

KEPT, NUMBERS = 77, "5 6 -8 7"
PACKETS = [asked.there.made(sent(asked)) for asked in REQUESTS]


def line(world, asked, table=None, store=None):
    """A call's line: its answer and the numbers beside it, which a refusal leaves."""
    told = world.call(asked, table, store)
    refused = 1 <= told.answer <= 99
    beside = f", {told.count if told.answer == 0 else KEPT}" if isinstance(asked, (Open, Start)) else ""
    if isinstance(asked, Step):
        beside = ", " + (NUMBERS if refused else f"{told.count} {told.size} {told.skew} {told.stamped}")
    return f"{type(asked).__name__.lower()}: {told.answer}{beside}"


def session(user, id):
    return Start({"port": 9, "address": 0x0A000009, "timeout": 65000, "idle": 600, "user": user, "id": id, "station": b"", "filter": b""})


def refusals(world):
    yield line(world, Open(b"", CLOCK))
    yield line(world, Open(PACKETS[0], CLOCK), store=world.store[1:])
    yield line(world, Step(0, BUFFER), table=world.table[1:])
    yield line(world, Step(0, BUFFER[1:]))
    yield line(world, Step(0, BUFFER), store=world.store[1:])
    yield line(world, Step(0, BUFFER))
    yield line(world, Drop(4))
    yield line(world, End(2))


def work(world):
    left = list(PACKETS)
    while left or world.in_use:
        while left and len(world.in_use) < JOBS:
            yield line(world, Open(left.pop(0), CLOCK))
        for job in world.in_use:
            yield line(world, Step(job, BUFFER))


def lines():
    world = World(bytes(3 * 192), GATE)
    yield from ["make: 2", "make: 3", "make: 0"]
    for one in [session(b"room-9", b"0000004F"), session(b"room-9", b"0000004F"), session(b"room-12", b"00000050")]:
        yield line(world, one)
    yield from refusals(world)
    yield from work(world)
    yield line(world, Open(PACKETS[0], CLOCK))
    yield line(world, Drop(0))
    yield line(world, End(1))
