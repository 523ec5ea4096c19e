"""The test of the guides itself: in a made-up repository a wrong citation of each kind is found, and a right one passes."""
import tempfile
from pathlib import Path

from tests.guides.citations import Repository, citations, indexed, paragraphs, plain, quotations, row_fault, rows

FILES = {
    "crates.txt": "# level 0\nmade:\nother: made\nfor_c staticlib: made other\n",
    "Makefile": "demo:\n\ttrue\n",
    "docs/DECISIONS.md": "1. **One.** As 7. **no entry**\n2. **Two.**\n",
    "crates/made/specs/Facts.antt": "-- spoken : of\nunfoldable pub fact : ℕ\nfact = said\n\npub record Rec (a : ℕ) : Type 0 where\n  pub field : a ≡ 0\n",
    "crates/made/src/lib.rt": "// fn spoken\npub struct Thing {\n    pub part: u8,\n}\npub fn act() {}\n",
    "crates/made/src/inner.rt": "impl Thing {\n    pub fn move_on(self) -> Thing {}\n}\nfn helper() {}\n",
    "crates/made/must-fail/wrong-way.edit": "file: src/lib.rt\n",
    "tests/some_cases.py": "LIMIT = 3\n\n\ndef group(probe, tally):\n    inside = 1\n",
}
RIGHT = [
    "`made`", "`other`", "`for_c`", "`made/wrong-way`", "`made/specs/Facts.antt` `fact`, `Rec` and `field`", "`crates/made/src/lib.rt`", "`made/src/lib.rt` (`Thing`, `act`)",
    "`made::act`", "`made::Thing`", "`made::inner::helper`", "`made::Thing::move_on`", "`docs/DECISIONS.md`, 1 and 2", "DECISIONS 2", "docs/DECISIONS.md, 1, 2",
    "`tests/`", "`tests/some_cases.py` `group`, `LIMIT`", "`make demo`",
]
WRONG = [
    "`maid`", "`staticlib`", "`made/wrong-turn`", "`other/wrong-way`", "`made/*`", "`tests/no_cases.py`", "`no/such`", "`made/nowhere/`", "`tests/some_cases.py/`",
    "`made/specs/Facts.antt` `fac`", "`made/specs/Facts.antt` `said`", "`made/specs/Facts.antt` `spoken`", "`made/specs/Facts.antt`; `fact`",
    "`made/src/lib.rt` `helper`", "`made/src/lib.rt` `spok`", "`made::helper`", "`made::inner::act`", "`made::Thing::helper`", "`made::Think::move_on`", "`maid::act`",
    "`docs/DECISIONS.md`, 1 and 7", "DECISIONS 3", "docs/DECISIONS.md, 1, 2, and 3", "`tests/some_cases.py` `inside`", "`make tea`", "`made/specs/Facts.antt` `fact`, `none`",
    "`made/specs/Facts.antt` `fact'`",
]
NO_CITATION = ["`x.now`", "`result`", "`requires`", "words alone"]


def made(folder):
    for name, text in FILES.items():
        place = Path(folder) / name
        place.parent.mkdir(parents=True, exist_ok=True)
        place.write_text(text)
    return Repository(folder)


def kinds(probe, tally):
    with tempfile.TemporaryDirectory() as folder:
        repository = made(folder)
        for text in RIGHT:
            found = citations(repository, text)
            tally.same((len(found) > 0, [fault for _, fault in found if fault]), (True, []), "a right citation", text)
        for text in WRONG:
            tally.same(sum(fault is not None for _, fault in citations(repository, text)), 1, "a wrong citation", text)
        for text in NO_CITATION:
            tally.same(citations(repository, text), [], "no citation", text)


def table_rows(probe, tally):
    text = "| words | where |\n|---|---|\n| Said (02). | - |\n| Said. | - |\n| Said. | the same |\n| Said. | `made` |\n"
    with tempfile.TemporaryDirectory() as folder:
        repository = made(folder)
        faults = [row_fault(repository, words, where) for _, words, where in rows(text)]
        tally.same(faults, [None, "a dash for what is built", "nothing is cited", None], "rows")


def lines(probe, tally):
    text = "# Head\n\nA name that\ngoes on\n| a row |\n| b row |\nand on\n"
    tally.same(list(paragraphs(text)), [(1, "# Head"), (3, "A name that goes on"), (5, "| a row |"), (6, "| b row |"), (7, "and on")], "paragraphs")


def quotes(probe, tally):
    tally.same(list(quotations('"Two words" and "these are four words" in `"code of four words"`')), [(1, "these are four words")], "quotations")
    tally.same(plain("All *house*  rules"), "All house rules", "plain words")


def index(probe, tally):
    text = "| subject | entries |\n|---|---|\n| one and 4 | 1, 3 |\n| two | 2 |\n\n5. **Five.**\n"
    tally.same(indexed(text), {1, 2, 3}, "an index")
    with tempfile.TemporaryDirectory() as folder:
        tally.same(made(folder).decisions(), [1, 2], "the decisions, in the order of the file")


GROUPS = [
    ("the citations: each kind, right and wrong", kinds),
    ("the citations: rows that show nothing", table_rows),
    ("the citations: paragraphs", lines),
    ("the citations: quotations", quotes),
    ("the citations: the index of the decisions", index),
]
