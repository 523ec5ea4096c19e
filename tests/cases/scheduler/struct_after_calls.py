"""The struct after a call: kept where nothing may be written, the same by both doors."""
from collections import Counter

from tests.compare.doors import all_doors
from tests.compare.scheduler import beside, same
from tests.compare.struct_writes import OF_JOB, refusals, writes
from tests.inputs.altered_worlds import TABLE
from tests.inputs.any_structs import any_struct, any_turns
from tests.inputs.packets import CLOCK, COA, good, request
from tests.inputs.scheduler_world import World
from tests.inputs.tables import seeded
from tests.models.packet_model import Gate
from tests.models.scheduler_struct import SIZE, left

OFTEN = 5  # each of these comes up so often at least
WRITTEN = {"open": OF_JOB, "step": OF_JOB, "drop": OF_JOB, "start": ["place", "marks"], "end": ["place", "marks"]}
NUMBERS = {"make": {2, 3}, "open": {5, 6, 101, 102, 103}, "step": {1, 4, 5, 7}, "drop": {7}, "start": {1, 8, 9, 10}, "end": {1, 11}}


def kept(probe, tally):
    """A refused call and a discarded opening write nothing at all."""
    for door in all_doors(probe):
        seen = {name: set() for name in NUMBERS}
        for got, wanted, name, answer in refusals(door):
            tally.same(got, wanted, door.title, name, answer)
            seen[name].add(answer)
        tally.same(seen, NUMBERS, door.title, "every number")


def confined(probe, tally):
    """A call writes the rows of its own job, and place and marks of the jobs that it sends back to slot 0."""
    for door in all_doors(probe):
        seen = Counter()
        for wrote, may, name, answer in writes(door):
            tally.same(wrote - may, set(), door.title, name, answer)
            seen.update({(name, piece[0]) for piece in wrote})
        for name, names in WRITTEN.items():
            for piece in names:
                tally.same(seen[name, piece] >= OFTEN, True, door.title, name, "wrote", piece, seen[name, piece], "times")


def both(probe, tally):
    """By the exported functions and by the header's inline functions, in each language, a call gives the same."""
    rng, (exported, *inlined) = seeded("both"), all_doors(probe)
    for round in range(1000):
        held, packet = any_struct(rng)
        calls = [beside(turn.asked, turn.table, turn.store) for turn in any_turns(rng, held, packet)]
        calls.append(("make", (rng.randbytes(rng.choice([0, 1, 64, 65])), rng.randrange(2**32), rng.randbytes(rng.choice([0, 1, 32, 33])))))
        for name, given in calls:
            wanted = exported(name, held, *given)
            for door in inlined:
                tally.same(door(name, held, *given), wanted, door.title, name, "round", round)


def zeros(probe, tally):
    """Why a refused scheduler is not to be used: to zeros, what is signed with one byte 0 is rightly signed."""
    world = World(TABLE, Gate(b"\0", 0, b"\0"))
    world.open(request(COA, good(COA), world.gate), CLOCK)
    _, told = world.finish(0)
    tally.same((told.answer, told.count), (0, 2), "both sessions of Ann")
    for door in all_doors(probe):
        held = bytes(SIZE)
        for k, turn in enumerate(world.turns):
            wanted = left(held, turn.asked, turn.after)
            same(door, tally, held, turn, wanted, k, "on zeros")
            held = wanted


GROUPS = [
    ("scheduler: a refused call and a discarded opening keep every byte of the struct", kept),
    ("scheduler: a call writes only what it may of the struct", confined),
    ("scheduler: exported and inline functions give the same", both),
    ("scheduler: a struct of zeros", zeros),
]
