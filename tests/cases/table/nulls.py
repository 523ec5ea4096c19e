"""A run of no bytes may be NULL, in every place of the table's exports."""
from tests.harness.probe import NULL, cell
from tests.inputs.tables import loose, request, seeded, session
from tests.models import table_model as model

RNG = seeded("null")
MINE = session(RNG, station=b"", filter=b"")
RUN = loose(RNG, MINE)
ONES, BLANK, BEFORE = b"\x01" * 64, b"\xee" * 64, cell(0xEEEEEEEE)


def nulls(probe, tally):
    held, given = request([("station", b"")])
    marked = b"\x01" + bytes(63)
    user, sid = MINE["user"], MINE["id"]
    numbers = [MINE[name] for name in model.NUMBERS]
    emptied = model.altered(RUN, {"filter": b""})
    for call, wanted in [
        (("table_count", NULL), (0,)),
        (("table_live", NULL, 0), (0,)),
        (("table_match", NULL, 0, held, given), (0, held, given)),
        (("table_match", RUN, 0, NULL, given), (1, RUN, given)),
        (("table_match", RUN, 0, held, NULL), (1, RUN, held)),
        (("table_marks", NULL, held, given, BLANK), (0, held, given, bytes(64))),
        (("table_marks", RUN, NULL, NULL, BLANK), (0, RUN, marked)),
        (("table_marks", RUN, held, given, NULL), (1, RUN, held, given)),
        (("table_change", NULL, held, ONES, 1, 0, 0, 0, 0, 0, 0, 0, 0, 0, 0, 0, BEFORE), (0, held, ONES, cell(0))),
        (("table_change", RUN, NULL, ONES, 0, 0, 0, 0, 0, 1, 0, 9, 0, 0, 0, 0, BEFORE), (0, emptied, ONES, cell(1))),
        (("table_change", RUN, held, NULL, 1, 0, 0, 0, 0, 0, 0, 0, 0, 0, 0, 0, BEFORE), (1, RUN, held, BEFORE)),
        (("table_insert", NULL, *numbers, user, sid, NULL, NULL, BEFORE), (1, user, sid, BEFORE)),
        (("table_insert", bytes(192), *numbers, user, sid, NULL, NULL, BEFORE), (0, model.record(MINE), user, sid, cell(0))),
        (("table_insert", bytes(192), *numbers, NULL, sid, NULL, NULL, BEFORE), (8, bytes(192), sid, BEFORE)),
        (("table_insert", bytes(192), *numbers, user, NULL, NULL, NULL, BEFORE), (8, bytes(192), user, BEFORE)),
        (("table_remove", NULL, 0), (1,)),
    ]:
        tally.same(probe(*call), wanted, *call)


GROUPS = [
    ("the table: NULL where a length is 0", nulls),
]
