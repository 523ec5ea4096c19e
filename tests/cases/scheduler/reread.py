"""The stepwise model on altered stores and tables: what document 01 says of each, clause by clause."""
from itertools import product

from tests.inputs.alterations import CLAUSES, FOLLOWED, FORM
from tests.inputs.altered_worlds import RNG, TABLE, half_hashed, other_tables, packet, stages, valued, written
from tests.inputs.packets import COA, GATE
from tests.inputs.scheduler_world import BUFFER
from tests.models import table_model
from tests.models.exchange_model import check_reply
from tests.models.scheduler_calls import Told
from tests.models.scheduler_model import CHECK, Job


def discarded(tally, world, told, *case):
    """One test: the next step of job 1 tells this, frees it, and writes nothing."""
    wanted = world.table, world.store, BUFFER, told, (world.jobs[0], Job(), *world.jobs[2:])
    world.step(1)
    after = world.turns[-1].after
    tally.same((after.table, after.store, after.reply, after.told, after.scheduler.jobs), wanted, *case)


def clauses(probe, tally):
    """Each clause of the re-reading rule in Check, in Match and in Commit."""
    seen = set()
    for world, write, stage, signed, case in written(CLAUSES):
        seen.add((write.name, stage, signed))
        if stage != "Check" or write.checked is FORM:
            discarded(tally, world, Told(101), *case)
        elif signed or write.checked < 200:
            discarded(tally, world, Told(105 if signed else write.checked), *case)
        else:
            told = world.step(1)
            tally.same((told.answer, told.count, told.stamped, world.table), (write.checked, 0, 1, TABLE), *case)
    tally.same(len(seen), 2 * 4 * len(CLAUSES), "clauses tried")


def followed(probe, tally):
    """What no clause names: Check goes by it, Match and Commit follow it."""
    for world, write, stage, signed, case in written(FOLLOWED):
        left = 7 if stage == "Check" else 6 - world.jobs[1].place
        asked, (steps, told) = packet(world), world.finish(1)
        answer = 0 if stage != "Check" else 105 if signed and write.checked != 104 else write.checked
        tally.same((told.answer, steps), (answer, left if answer == 0 else 1), *case)
        if answer == 0:
            tally.same(check_reply(GATE.secret, asked, world.turns[-1].after.reply[:told.size]), 0, "reply:", *case)


def values(probe, tally):
    """A field that is named is as the store has it then; one that is not (None) as it was."""
    for name, world, fields, wanted in valued():
        _, told = world.finish(1)
        tally.same((told.answer, told.count, told.skew), wanted, name)
        changed = [k for k in range(5) if table_model.slot(world.table, k) != table_model.slot(TABLE, k)]
        tally.same(len(changed), wanted[1], name, "in the table")
        for k, (field, value) in product(changed, fields.items()):
            before, after = [table_model.field(table_model.slot(table, k), field) for table in (TABLE, world.table)]
            tally.same(after, before if value is None else value, name, "in slot", k, field)


def hashing(probe, tally):
    """A byte that is altered before its block is hashed is found by D4, one that is altered after is not; D4 goes by the words as held."""
    for name, world, answer in half_hashed():
        tally.same((world.jobs[0].kind, world.step(0).answer), (CHECK, answer), "a byte altered", name)


def tables(probe, tally):
    for name, world, wanted in other_tables():
        steps, told = world.finish(1)
        tally.same((steps, told.answer, told.count), wanted, "a table", name)


def other_parts(probe, tally):
    """What is written to another part of the store, or after Length, is nothing to a job."""
    for stage, made in stages(COA, True):
        world = made.copy()
        world.write(0, RNG.randbytes(4096))
        world.write(2, RNG.randbytes(8192))
        world.write(1, packet(world) + RNG.randbytes(1000))
        tally.same(world.finish(1), made.copy().finish(1), "other bytes before", stage)
        tally.same(world.step(0), Told(101), "and the part that was written, before", stage)


GROUPS = [
    ("scheduler model: each clause of the re-reading rule", clauses),
    ("scheduler model: an altered store is followed as it stands", followed),
    ("scheduler model: altered values", values),
    ("scheduler model: a store altered while it is hashed", hashing),
    ("scheduler model: altered tables", tables),
    ("scheduler model: other bytes of the store", other_parts),
]
