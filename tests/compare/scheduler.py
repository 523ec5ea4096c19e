"""How calls on the scheduler of the library are held beside the stepwise model."""
from tests.harness.probe import cell, cell64
from tests.inputs.byte_runs import sample
from tests.models import scheduler_model
from tests.models.scheduler_calls import Drop, End, Open, Step, is_refused
from tests.models.scheduler_struct import SIZE, written

TEXTS = ["user", "id", "station", "filter"]
ANY = sample(SIZE, SIZE)  # a struct before it is made: making writes every field
PLACE = cell(77)  # where a job's or slot's number goes, before a call
TOLD = cell(5), cell(6), cell64(-8), cell(7)  # changed, reply_len, skew and stamped, before a step


def place(told):
    return cell(told.count) if told.answer == 0 else PLACE


def beside(asked, table, store):
    """The function's name, and what it is given after the scheduler."""
    if isinstance(asked, Open):
        return "open", (asked.packet, asked.clock, store, PLACE)
    if isinstance(asked, Step):
        return "step", (asked.job, table, asked.reply, store, *TOLD)
    if isinstance(asked, Drop):
        return "drop", (asked.job,)
    if isinstance(asked, End):
        return "end", (table, asked.slot)
    numbers, texts = [asked.session[name] for name in ("port", "address", "timeout", "idle")], [asked.session[name] for name in TEXTS]
    return "start", (table, *numbers, *texts, PLACE)


def lent_after(asked, after):
    """The runs and numbers among these as the model leaves them."""
    told = after.told
    if isinstance(asked, Open):
        return [asked.packet, after.store, place(told)]
    if isinstance(asked, Step):
        numbers = TOLD if is_refused(told) else (cell(told.count), cell(told.size), cell64(told.skew), cell(told.stamped))
        return [after.table, after.reply, after.store, *numbers]
    if isinstance(asked, Drop):
        return []
    if isinstance(asked, End):
        return [after.table]
    return [after.table, *[asked.session[name] for name in TEXTS], place(told)]


def same(door, tally, held, turn, wanted, *case):
    """One test: answer, struct, runs of bytes and numbers are the model's."""
    name, given = beside(turn.asked, turn.table, turn.store)
    answer, after, lent = door(name, held, *given)
    tally.same((answer, after, *lent), (turn.after.told.answer, wanted, *lent_after(turn.asked, turn.after)), name, door.title, *case)


def replayed(doors, tally, gate, turns, *case):
    """A list of calls, from making on, by each door: the struct is the model's scheduler after each of them, and no byte more is written."""
    for door in doors:
        held = written(scheduler_model.make(*gate)[1], ANY)
        answer, made, _ = door("make", ANY, gate.secret, gate.address, gate.name)
        tally.same((answer, made), (0, held), "make", door.title, *case)
        for k, turn in enumerate(turns):
            wanted = written(turn.after.scheduler, held)
            same(door, tally, held, turn, wanted, k, *case)
            held = wanted
