"""The script of docs/TIMES.md: what it takes from rt's words, and what it leaves alone."""
from tests.tools.times import first_part, table, told, written

SAID = """fn made::act: proved
rt: made proved (13 s)
rt: other proved (unchanged since it was last proved)
rt: third NOT PROVED (exit 1, 4 s)
rt: must-fail made/wrong-way: refused, as it must be (first at proofs/act/Proof.antt:9:13; 7 s)
rt: must-fail made/no-place: refused, as it must be (8 s)
rt: must-fail other/some-way: NOT REFUSED: the crate is still proved with this edit (5 s)
must-fail made/third: refused, as it must be (9 s)
"""
ROWS = """| crate | seconds to check | must-fail edits | seconds of its edits |
|---|---|---|---|
| made | 13 | 2 | 15 |
| other | - | 1 | - |
| bare | - | 0 | 0 |
| all | - | 3 | - |
"""


def said(probe, tally):
    tally.same(told(SAID), ({"made": 13}, {"made": [7, 8]}), "what rt said")
    tally.same(table(["made", "other", "bare"], {"made": 2, "other": 1, "bare": 0}, SAID), ROWS, "the table")
    tally.same(table(["made"], {"made": 2}, SAID).splitlines()[-1], "| all | 13 | 2 | 15 |", "all is measured")
    tally.same(table(["made"], {"made": 3}, SAID).splitlines()[-2], "| made | 13 | 3 | - |", "an edit was not tried")


def kept(probe, tally):
    new = first_part("2026-01-02", "by hand", ROWS)
    rest = "\n## Earlier\n\n| b |\n\n## More\n"
    tally.same(written("# Old\n\n| a |\n" + rest, new), new + rest, "what stands after the first part")
    tally.same(written("", new), new, "a file that is not there yet")


GROUPS = [
    ("the times: what rt said", said),
    ("the times: what stays", kept),
]
