"""A session's end: R1, R11, else 192 zeros. And long histories of starts, ends and changes on one table."""
from tests.cases.table.changes import END, NAMES, change, some_settings
from tests.cases.table.matching import ask
from tests.cases.table.starts import start
from tests.inputs.byte_runs import FAR
from tests.inputs.tables import BEYOND, OTHER_LENGTHS, criteria, free, full, loose, seeded, session, table
from tests.models import table_model as model


def end(probe, tally, run, k, *case):
    refusal, after = model.end(run, k)
    tally.same(probe("table_remove", run, k), (refusal, after), *case, "slot", k)
    return after


def each(probe, tally):
    for count in range(1, 65):
        rng = seeded("end", count)
        for run in [table(rng, count), full(rng, count)]:
            for k in range(count + 2):
                end(probe, tally, run, k, count, "slots")


def beyond(probe, tally):
    for count in [1, 2, 63, 64]:
        run = full(seeded("end beyond"), count)
        for k in [count, *BEYOND, *FAR]:
            end(probe, tally, run, k, count, "slots")


def free_slots(probe, tally):
    for turn in range(300):
        rng = seeded("end free", turn)
        end(probe, tally, loose(rng, session(rng)) + free(rng) + loose(rng, session(rng)), 1, "turn", turn)


def wrong_tables(probe, tally):
    content = loose(seeded("end wrong"), session(seeded("end wrong")))
    for length in OTHER_LENGTHS:
        for k in [0, 1, 63, 64, *BEYOND]:
            end(probe, tally, (content * 101)[:length], k, "length", length)


def histories(probe, tally):
    for turn in range(30):
        rng = seeded("history", turn)
        count = rng.choice([1, 2, 5, 17, 64])
        run, names = table(rng, count, live=0.3), [b"%d" % n for n in range(2 * count)]
        for step in range(60):
            case = ("history", turn, "step", step)
            one = session(rng, id=rng.choice(names), user=rng.choice([b"ann", b"anna"]))
            act = rng.randrange(4)
            if act == 0:
                run = end(probe, tally, run, rng.randrange(count + 1), *case)
            elif act == 1:
                settings = rng.choice([END, some_settings(rng, NAMES)])
                asked = criteria(one, ["id"] if settings is END else ["user"])
                ask(probe, tally, run, asked, *case)
                marks = model.marks(run, asked)
                change(probe, tally, run, marks, settings, *case)
                run = model.change_marked(run, marks, settings)[1]
            else:
                run = start(probe, tally, run, one, *case)


GROUPS = [
    ("end: each slot of tables of 1 to 64 slots", each),
    ("end: slots after the table", beyond),
    ("end: free slots", free_slots),
    ("end: tables of a wrong length", wrong_tables),
    ("histories of starts, ends, matches and changes", histories),
]
