"""The tests of the scheduler themselves: a scheduler that does one thing wrong is found out by what it tells and writes, without a look inside."""
from collections import Counter
from unittest import mock

from tests.inputs.altered_lists import Altered, stage
from tests.inputs.altered_worlds import directed
from tests.inputs.scheduler_lists import Seeded
from tests.models import scheduler_model
from tests.models.scheduler_calls import Step
from tests.models.scheduler_model import Job
from tests.self_tests.wrong_schedulers import WRONG

LISTS, LENGTH = 60, 250
OFTEN = 5


def is_found_out(recorded):
    """Whether the model as it is now tells or writes something else in one of these lists."""
    for gate, turns in recorded:
        _, scheduler = scheduler_model.make(*gate)
        for turn in turns:
            after = scheduler_model.call(scheduler, turn.table, turn.store, turn.asked)
            if after[1:] != turn.after[1:]:
                return True
            scheduler = after.scheduler
    return False


def recorded(list):
    return list.world.gate, [turn for turn in list.turns(LENGTH)]


def wrong_schedulers(probe, tally):
    lists = [(world.gate, world.turns) for world in directed()] + [recorded(kind(k)) for k in range(LISTS // 6) for kind in (Seeded, Altered)]
    tally.same(is_found_out(lists), False, "the right scheduler is found out")
    for name, wrong in WRONG.items():
        with mock.patch.multiple(scheduler_model, **wrong):
            tally.same(is_found_out(lists), True, "a scheduler that", name)


def altered(probe, tally):
    """Each move meets a written packet often, and each way to end comes of it."""
    seen = Counter()
    for k in range(LISTS):
        list, before = Altered("seen", k), None
        for turn in list.turns(LENGTH):
            if isinstance(turn.asked, Step) and before and turn.asked.job in list.written:
                move = stage(before.jobs[turn.asked.job] if turn.asked.job < 4 else Job(), turn.table)
                seen[move, turn.after.told.answer] += 1
                list.written.pop(turn.asked.job)
            before = turn.after.scheduler
    for move, answers in {"Hash": [600], "Check": [101, 104, 105, 106, 600], "Match": [101, 600], "Commit": [101, 0]}.items():
        print(f"   {move:6} after a write:", ", ".join(f"{answer}: {seen[move, answer]:,}" for answer in answers))
        for answer in answers:
            tally.same(seen[move, answer] >= OFTEN, True, move, "after a write answered", answer, "came up", seen[move, answer], "times")


GROUPS = [
    ("the tests: a wrong scheduler is found out", wrong_schedulers),
    ("the tests: each move of a scheduler meets outside writes", altered),
]
