"""The test of the guides itself: tables that are broken, rules without a place, crates without a family, edits of each kind."""
import tempfile
from pathlib import Path

from tests.guides.edits import counted, edit_fault, edits
from tests.guides.tables import broken, cells, in_family, listed, rule_fault, rules

TABLE = """| rule | definition | code |
|---|---|---|
| D1 | a | b |
| cause 2, 405: x | c | d |

Text | no row
| crates | what |
|---|---|
| `made_`, `other` | y |
"""
BROKEN = [
    ("| a | b |\n|---|---|\n| x | y | z |\n", 3), ("| a | b |\n|---|---|\n| x |\n", 3), ("| a | b |\n|---|---|\n| x | y\n", 3),
    ("| a | b |\n|---|---|\n| x | `y | z` |\n", 3), ("| a | b |\n|---|\n| x | y |\n", 2), ("| a | b |\n| x | y |\n| x | y |\n", 1),
    ("| a | b |\n|---|---|\n", 1),
]
LIB = "ghost use a.{b};\npub fn act(x: u8) -> u8\n    requires { x }\n    ensures value { y }\n{\n    first(x)\n}\n"
EDITS = {
    "code": "file: src/lib.rt\nold: first(x)\nnew: last(x)\n",
    "code-twice": "file: src/lib.rt\nold: first(x)\nnew: next(x)\nold: next(x)\nnew: last(x)\n",
    "code-and-proof": "file: src/lib.rt\nold: (x)\nnew: (1)\nfile: proofs/Laws.antt\nold: law\nnew: other\n",
    "promise": "file: src/lib.rt\nold: { y }\nnew: { z }\n",
    "promise-and-import": "file: src/lib.rt\nold: a.{b}\nnew: a.{b, c}\nold: ensures value { y }\nnew: ensures value { z }\n",
    "need": "file: src/lib.rt\nold: { x }\nnew: { z }\n",
    "claim": "# a comment\nfile: specs/Facts.antt\nold: fact\nnew: other\n",
    "claim-and-proof": "file: specs/Facts.antt\nold: fact\nnew: other\nfile: proofs/Laws.antt\nold: law\nnew: other\n",
}
MISPLACED = {
    "gone": "file: src/lib.rt\nold: second(x)\nnew: last(x)\n",
    "twice": "file: src/lib.rt\nold: u8\nnew: u16\n",
    "no-file": "file: src/other.rt\nold: first(x)\nnew: last(x)\n",
    "empty": "# nothing\n",
}


def shown(probe, tally):
    tally.same(list(broken(TABLE)), [], "tables that are not broken")
    for text, line in BROKEN:
        tally.same([number for number, _ in broken(text)], [line], "a broken table", text)
    tally.same(cells("| a \\| b | c |"), ["a \\| b", "c"], "a stroke with a backslash")


def placed(probe, tally):
    tally.same(rules(TABLE), [(3, ["D1"], "a", "b"), (4, ["cause 2", "405", "x"], "c", "d")], "the rows of rules")
    right, function, proof = "`made/specs/Facts.antt` `fact`", "`made::act`", "proof `made/proofs/Laws.antt` `law`"
    tally.same([rule_fault(right, code) for code in [function, proof, "`made/src/lib.rt` `act`", "`made::inner::act`"]], [None] * 4, "right rows")
    wrong = [("`made/specs/Facts.antt`", function), ("`made::act`", function), (right, "`made`"), (right, "`made/src/lib.rt`"), (right, "act")]
    for definition, code in wrong:
        tally.same(rule_fault(definition, code) is None, False, "a wrong row", definition, code)


def grouped(probe, tally):
    tally.same(listed(TABLE, "crates"), ["made_", "other"], "the families")
    pairs = [("made_one", "made_"), ("other", "other"), ("other_one", "other"), ("others", "other"), ("unmade_", "made_"), ("made", "made_")]
    tally.same([in_family(crate, family) for crate, family in pairs], [True, True, True, False, False, False], "crates and families")


def kinds(probe, tally):
    with tempfile.TemporaryDirectory() as folder:
        crate = Path(folder) / "crates/made"
        files = {f"must-fail/{name}.edit": text for name, text in {**EDITS, **MISPLACED}.items()}
        for name, text in {"src/lib.rt": LIB, "specs/Facts.antt": "fact\n", "proofs/Laws.antt": "law\n", **files}.items():
            (crate / name).parent.mkdir(parents=True, exist_ok=True)
            (crate / name).write_text(text)
        found = edits(Path(folder))
        wrong = {name for name, kinds in found.items() if edit_fault(kinds)}
        tally.same(wrong, {f"made/{name}" for name in MISPLACED}, "edits that cannot be made")
        tally.same(counted({name: kinds for name, kinds in found.items() if name not in wrong}), (8, 2, 3), "all edits, of claims, of promises")


GROUPS = [
    ("the tables: broken ones", shown),
    ("the tables: rules and their places", placed),
    ("the tables: families", grouped),
    ("the edits: each kind", kinds),
]
