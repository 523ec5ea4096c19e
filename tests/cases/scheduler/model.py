"""The stepwise model, also beside the serial execution: seeded lists, restarts, refusals, and the bounds of 132 and 912 steps."""
import hashlib
from collections import Counter

from tests.inputs.altered_worlds import OTHER, SPARE, TABLE, at_check, at_slot, disturbed
from tests.inputs.hand_made_lists import LONG, MADE, RNG, crowded, longest, refused
from tests.inputs.packets import CLOCK, COA, STAMP, TIMEOUT, USER, request
from tests.inputs.scheduler_lists import ANSWERS, OFTEN, Seeded
from tests.inputs.scheduler_world import STALE, World
from tests.inputs.tables import session
from tests.models import md5_block, scheduler_model, serial_model
from tests.models.scheduler_calls import Step, Told, is_refused
from tests.models.scheduler_model import CHECK, HASH, MATCH, After, Job

LISTS, LENGTH = 100, 300


class Beside:
    """The serial execution beside a list: told only what document 01 lets it know."""

    def __init__(self, tally, world):
        self.tally, self.serial = tally, serial_model.begun(world.gate, world.table)

    def same(self, turn, *case):
        """One test: answer, table and reply buffer are the serial execution's after this call."""
        after = turn.after
        finished = isinstance(turn.asked, Step) and not is_refused(after.told) and after.told.answer != 600
        self.serial, told, reply = serial_model.call(self.serial, turn.asked, len(turn.store), finished)
        self.tally.same((after.told, after.table, after.reply), (told, self.serial.table, reply), type(turn.asked).__name__, *case)

    def same_jobs(self, world, *case):
        self.tally.same(world.in_use, serial_model.noted(self.serial), "open jobs", *case)


def restarts(before, turn):
    """Which jobs that had marks this call sent back to slot 0, and by what."""
    sent = [k for k, (old, new) in enumerate(zip(before.jobs, turn.after.scheduler.jobs)) if any(old.marks) and new.kind == MATCH and new.place == 0]
    return [type(turn.asked).__name__] * len(sent)


def seen_in(list, beside, *case):
    """What came up in a list that is run beside the serial execution."""
    seen, before = Counter(), list.world.scheduler
    for k, turn in enumerate(list.turns(LENGTH)):
        beside.same(turn, "call", k, *case)
        seen[type(turn.asked), turn.after.told.answer] += 1
        seen.update(restarts(before, turn))
        before = turn.after.scheduler
    beside.same_jobs(list.world, *case)
    return seen


def lists(probe, tally):
    seen, slots = Counter(), set()
    for k in range(LISTS):
        list = Seeded(k)
        slots.add(len(list.world.table) // 192)
        seen += seen_in(list, Beside(tally, list.world), "of list", k)
    for kind, answers in ANSWERS.items():
        print(f"   {kind.__name__.lower():6}", ", ".join(f"{answer}: {seen[kind, answer]:,}" for answer in answers))
        for answer in answers:
            tally.same(seen[kind, answer] >= OFTEN, True, kind.__name__, "answered", answer, "came up", seen[kind, answer], "times")
    tally.same(({1, 64} <= slots, len(slots) > 30), (True, True), "tables of 1 slot, of 64 and of many numbers between")
    for kind in ("Step", "Start", "End"):
        print(f"   jobs with marks sent back to slot 0 by {kind}: {seen[kind]:,}")
        tally.same(seen[kind] >= OFTEN, True, "a restart by", kind)


def blocks(probe, tally):
    """The model's MD5, block by block, is the whole one."""
    for length in [*range(260), 4095, 4096, 4160]:
        words, run = md5_block.FIRST, RNG.randbytes(length)
        for k in range(md5_block.blocks(length)):
            words = md5_block.after(words, md5_block.block(run, k))
        tally.same(md5_block.digest(words), hashlib.md5(run).digest(), "MD5 of", length, "bytes")


def sent_back(probe, tally):
    """Who sends job 1, which awaits Commit, back to slot 0, and who does not; jobs in Hash and Check keep their place."""
    for name, world, wanted in disturbed():
        steps, told = world.finish(1)
        tally.same((steps, told.count), wanted, "job 1 after", name)
    for name, call in [("a start", lambda d: d.start(session(RNG, id=b"new"))), ("an end", lambda d: d.end(4)), ("an ACK", lambda d: d.finish(0))]:
        world = at_check(COA)
        world.open(request(COA, [USER, TIMEOUT, STAMP, SPARE]), CLOCK)
        world.step(2)
        call(world)
        tally.same([(job.kind, job.place) for job in world.jobs[1:]], [(CHECK, 0), (HASH, 1), (0, 0)], "jobs in Check and Hash after", name)


def refusals(probe, tally):
    """The lowest number that applies; nothing is changed."""
    world, answers = refused()
    for turn, answer in zip(world.turns[-len(answers):], answers):
        same = After(world.scheduler, Told(answer), turn.table, turn.store, getattr(turn.asked, "reply", None))
        tally.same(turn.after, same, type(turn.asked).__name__, answer)
    world.open(OTHER, CLOCK), world.open(OTHER, CLOCK)
    tally.same(world.open(b"", 0), Told(6), "R6 before D1")
    world.drop(2)
    tally.same((world.open(b"", 0), world.open(OTHER, CLOCK)), (Told(101), Told(0, 2)), "a discard takes no job, the next opening the lowest")
    for secret, name, answer in MADE:
        tally.same(scheduler_model.make(secret, 7, name)[0], answer, "make with", len(secret), len(name))


def freed(probe, tally):
    """A job that is free again holds nothing; opening writes only the copied bytes."""
    for name, end in [("an ACK", lambda d: d.finish(1)), ("a drop", lambda d: d.drop(1)), ("a discard", lambda d: (d.write(1, b"\0"), d.finish(1)))]:
        world = at_slot(COA, 5)
        end(world)
        tally.same(world.jobs[1], Job(), "after", name)
    world = World(TABLE)
    world.open(OTHER + b"padding", CLOCK), world.open(OTHER, CLOCK)
    tally.same(world.store, OTHER + STALE[len(OTHER):4096] + OTHER + STALE[4096 + len(OTHER):], "the store after two openings")


def alone(probe, tally):
    """A lone job: 66 blocks, the check, 64 slots, the commit."""
    tally.same(len(LONG), 4096, "its Length")
    world = crowded(1)
    steps, told = world.finish(0)
    tally.same((steps, told.answer, told.count, told.size), (132, 0, 32, 4096 - 17), "a lone job")
    kinds = [turn.after.scheduler.jobs[0].kind for turn in world.turns[1:]]
    tally.same([kinds.count(kind) for kind in (HASH, CHECK, MATCH, 0)], [65, 1, 65, 1], "steps that leave it in Hash, Check, Match, free")


def worst(probe, tally):
    """No list of steps is longer: 912."""
    world, beside = longest(), Beside(tally, crowded(0))
    steps = [turn.after.told.answer for turn in world.turns if isinstance(turn.asked, Step)]
    tally.same((len(steps), steps.count(0), steps.count(600)), (912, 4, 908), "steps of four jobs, and how they were answered")
    for turn in world.turns:
        beside.same(turn, "of the longest list")


GROUPS = [
    ("scheduler model: MD5 by blocks", blocks),
    ("scheduler model: seeded lists beside the serial execution", lists),
    ("scheduler model: who is sent back to slot 0", sent_back),
    ("scheduler model: refusals", refusals),
    ("scheduler model: freed jobs and copied bytes", freed),
    ("scheduler model: a lone job's 132 steps", alone),
    ("scheduler model: 912 steps at worst", worst),
]
