"""The scheduler of the library beside the stepwise model, after every call: lists with and without outside writes, refusals, the longest list."""
from collections import Counter

from tests.compare.doors import all_doors, two_doors
from tests.compare.scheduler import ANY, PLACE, TOLD, replayed, same
from tests.harness.probe import NULL, cell
from tests.inputs.altered_lists import Altered
from tests.inputs.altered_worlds import OTHER, directed
from tests.inputs.any_structs import any_struct as any_held, any_turns
from tests.inputs.hand_made_lists import MADE, crowded, longest, refused
from tests.inputs.packets import CLOCK
from tests.inputs.scheduler_lists import ANSWERS, OFTEN, Seeded
from tests.inputs.tables import seeded
from tests.models import scheduler_model, table_model
from tests.models.scheduler_calls import STORE, Step
from tests.models.scheduler_struct import left, written

LISTS, LENGTH = 100, 300
ANSWERS_OF_ANY = ANSWERS | {Step: [0, 1, 4, 5, 7, 101, 104, 106, 503, 600]}  # on any struct


def made(probe, tally):
    """Making, and a struct that holds what it was made with; one that is refused stays as it was."""
    for door in all_doors(probe):
        for secret, name, answer in MADE:
            held = written(scheduler_model.make(secret, 7, name)[1], ANY) if answer == 0 else ANY
            for run in [(secret, name), (secret or NULL, name or NULL)]:
                lent = [one for one in run if one is not NULL]
                tally.same(door("make", ANY, run[0], 7, run[1]), (answer, held, lent), door.title, "make with", len(secret), len(name))


def hand_made(probe, tally):
    for k, world in enumerate(directed()):
        replayed(two_doors(probe), tally, world.gate, world.turns, "of scheduler", k)
    world, _ = refused()
    replayed(all_doors(probe), tally, world.gate, world.turns, "among the refused")


def bounds(probe, tally):
    """A lone job's 132 steps, and 912 at worst."""
    world = crowded(1)
    tally.same(world.finish(0)[0], 132, "a lone job")
    replayed(all_doors(probe), tally, world.gate, world.turns, "of a lone job")
    world = longest()
    replayed(all_doors(probe), tally, world.gate, world.turns, "of the longest list")


def lists(kind):
    def seeded_lists(probe, tally):
        for k in range(LISTS):
            list = kind("C", k)
            for _ in list.turns(LENGTH):
                pass
            replayed(two_doors(probe), tally, list.world.gate, list.world.turns, "of list", k)
    return seeded_lists


def nulls(probe, tally):
    """A run of no bytes may be NULL; all but the start of a session leave every byte and number that is lent."""
    store, table, reply = bytes(STORE), bytes(192), bytes(4096)
    held = written(scheduler_model.make(b"s", 7, b"n")[1], ANY)
    for door in all_doors(probe):
        for name, given, answer in [
            ("open", (NULL, 0, store, PLACE), 101), ("open", (OTHER, CLOCK, NULL, PLACE), 5), ("step", (0, NULL, reply, store, *TOLD), 1),
            ("step", (0, table, NULL, store, *TOLD), 4), ("step", (0, table, reply, NULL, *TOLD), 5), ("end", (NULL, 0), 1),
            ("start", (NULL, 1, 2, 3, 4, b"u", b"i", b"", b"", PLACE), 1), ("start", (table, 1, 2, 3, 4, NULL, b"i", b"", b"", PLACE), 8),
            ("start", (table, 1, 2, 3, 4, b"u", NULL, b"", b"", PLACE), 8),
        ]:
            lent = [one for one in given if isinstance(one, bytes)]
            tally.same(door(name, held, *given), (answer, held, lent), door.title, name, answer)
        session = {"port": 1, "address": 2, "timeout": 3, "idle": 4, "user": b"u", "id": b"i", "station": b"", "filter": b""}
        lent = [table_model.record(session), b"u", b"i", cell(0)]
        tally.same(door("start", held, table, 1, 2, 3, 4, b"u", b"i", NULL, NULL, PLACE), (0, held, lent), door.title, "start 0")


def any_struct(probe, tally):
    """Whatever the caller's struct holds, each call does what the model does with what the library reads there, within its buffers."""
    rng, seen = seeded("any struct"), Counter()
    for round in range(2000):
        held, packet = any_held(rng)
        for turn in any_turns(rng, held, packet):
            seen[type(turn.asked), turn.after.told.answer] += 1
            for door in two_doors(probe):
                same(door, tally, held, turn, left(held, turn.asked, turn.after), "round", round)
    for kind, answers in ANSWERS_OF_ANY.items():
        print(f"   {kind.__name__.lower():6}", ", ".join(f"{answer}: {seen[kind, answer]:,}" for answer in answers))
        for answer in answers:
            tally.same(seen[kind, answer] >= OFTEN, True, kind.__name__, "answered", answer, "came up", seen[kind, answer], "times")


GROUPS = [
    ("scheduler: making", made),
    ("scheduler: each clause of the re-reading rule, altered tables, restarts, refusals", hand_made),
    ("scheduler: 132 and 912 steps", bounds),
    ("scheduler: seeded lists", lists(Seeded)),
    ("scheduler: seeded lists with outside writes", lists(Altered)),
    ("scheduler: NULL where a length is 0", nulls),
    ("scheduler: any struct", any_struct),
]
