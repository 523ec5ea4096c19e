"""A type 26 in the scheduler's steps: four requests in work at once beside the serial execution and the library; and what a start writes."""
from collections import Counter, defaultdict

from tests.cases.scheduler.model import Beside
from tests.compare.doors import all_doors, two_doors
from tests.compare.scheduler import replayed
from tests.inputs import vendor_requests
from tests.inputs.packets import CLOCK, COA, STAMP, USER, request
from tests.inputs.scheduler_world import World
from tests.inputs.tables import free, seeded, session
from tests.inputs.vendor_items import RATES, down, group, up, vendor
from tests.inputs.vendor_requests import TABLE
from tests.models.scheduler_calls import JOBS, Step
from tests.models.table_model import number

MOST = 150  # requests of a family that have one answer
ANSWERS = [0, 401, 402, 403, 404, 405, 506, 600]  # that steps must come to


def packets():
    """Some of each family and each answer, in any order."""
    by_answer, rng = defaultdict(list), seeded("four at once")
    for family in vendor_requests.FAMILIES:
        for _, call, answer in family():
            by_answer[family, answer].append(call.packet)
    drawn = [packet for found in by_answer.values() for packet in rng.sample(found, min(MOST, len(found)))]
    return rng.sample(drawn, len(drawn))


def worlds():
    """Four requests each, a step of one and then of the next."""
    left = packets()
    for at in range(0, len(left), JOBS):
        world = World(TABLE)
        for packet in left[at:at + JOBS]:
            world.open(packet, CLOCK)
        while world.in_use:
            for job in world.in_use:
                world.step(job)
        yield world


def serial(probe, tally):
    seen = Counter()
    for k, world in enumerate(worlds()):
        beside = Beside(tally, World(TABLE))
        for turn in world.turns:
            beside.same(turn, "of world", k)
            seen[turn.after.told.answer] += isinstance(turn.asked, Step)
    print("   steps", ", ".join(f"{answer}: {seen[answer]:,}" for answer in ANSWERS))
    tally.same([answer for answer in ANSWERS if seen[answer] == 0], [], "answers that never came up")


def library(probe, tally):
    for k, world in enumerate(worlds()):
        replayed(two_doors(probe), tally, world.gate, world.turns, "of world", k)


def started(probe, tally):
    """A start writes zeros to bytes 181-191, whatever stood there; what a CoA wrote there is gone with its session."""
    for turn, rate in enumerate([*RATES, *[1 << bit for bit in range(32)]]):
        rng, other = seeded("started", turn), rate ^ 0x5A5A5A5A
        world = World(b"".join(free(rng) for _ in range(3)))
        world.start(session(rng, user=b"ann"))
        tally.same(world.table[181:192], bytes(11), "after a start, rate", rate)
        world.open(request(COA, [USER, vendor(group(up(other)), down(rate)), STAMP]), CLOCK)
        world.finish(0)
        tally.same(world.table[181:192], number(rate) + number(other) + bytes(3), "after a CoA, rate", rate)
        world.end(0)
        world.start(session(rng, user=b"ann"))
        tally.same(world.table[181:192], bytes(11), "after another start, rate", rate)
        replayed(all_doors(probe), tally, world.gate, world.turns, "rate", rate)


GROUPS = [
    ("scheduler model, type 26: four at once beside the serial execution", serial),
    ("scheduler, type 26: four at once", library),
    ("scheduler, type 26: a start leaves bytes 181-191 zero", started),
]
