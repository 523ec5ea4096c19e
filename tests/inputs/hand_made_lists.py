"""Calls on a scheduler, made by hand: making, refused calls one after the other, and the longest lists of steps."""
from tests.inputs.altered_worlds import ANN, TABLE, at_slot, people
from tests.inputs.packets import CLOCK, COA, GATE, STAMP, TIMEOUT, USER, attribute, request
from tests.inputs.scheduler_world import BUFFER, STALE, World
from tests.inputs.tables import full, seeded, session
from tests.models.scheduler_calls import Drop, End, Open, Start, Step
from tests.models.scheduler_model import MATCH

RNG = seeded("scheduler cases")
# secret and name that a scheduler is made with, and the answer
MADE = [(b"", b"", 2), (bytes(65), b"n", 2), (b"s", b"", 3), (bytes(64), bytes(33), 3), (b"s", b"n", 0), (bytes(64), bytes(32), 0)]
LONG = request(COA, [USER, TIMEOUT, STAMP] + [attribute(33, bytes(253))] * 15 + [attribute(33, bytes(232))], GATE._replace(secret=bytes(64)))
CROWD = people("ab" * 32)


def refused():
    """A scheduler that refused one call after the other, and what it must have answered."""
    world = at_slot(COA, 5)
    short, bad, room = BUFFER[:4095], TABLE[:-1], STALE[:-1]
    fits = session(RNG, id=b"new")
    rows = [
        (Step(3, short), bad, room, 1), (Step(3, short), None, room, 4), (Step(3, BUFFER), None, room, 5), (Step(3, BUFFER), None, None, 7),
        (Step(4, BUFFER), None, None, 7), (Step(2**32 - 1, BUFFER), None, None, 7), (Drop(3), None, None, 7), (Drop(4), None, None, 7),
        (Open(b"", 0), None, room, 5), (Start(fits | {"user": b""}), bad, None, 1), (Start(ANN | {"user": b""}), None, None, 8),
        (Start(ANN), None, None, 9), (Start(fits), full(RNG, 5), None, 10), (End(5), bad, None, 1), (End(5), None, None, 11),
        (End(0), None, None, 11), (End(2**32 - 1), None, None, 11),
    ]
    for asked, table, store, _ in rows:
        world.call(asked, table, store)
    return world, [answer for *_, answer in rows]


def crowded(jobs):
    world = World(CROWD, GATE._replace(secret=bytes(64)))
    for _ in range(jobs):
        world.open(LONG, CLOCK)
    return world


def longest():
    """Four jobs, all brought to Commit before each commit."""
    world = crowded(4)
    while world.in_use:
        for job in world.in_use:
            while world.jobs[job].kind != MATCH or world.jobs[job].place < 64:
                world.step(job)
        world.step(world.in_use[-1])
    return world
