"""Writes the first table of docs/TIMES.md from what rt said: python3 -m tests.tools.times HOW FILE...

HOW tells how it was measured, as "two at a time, nothing else on the cores". A FILE is what an rt printed that tells seconds, as
'rt: CRATE proved (9 s)' and 'rt: must-fail CRATE/EDIT: refused, as it must be (8 s)': those up to 2026-11 did, and the rt of today tells none, so its
words give a table of dashes. What was not measured gets a dash. All after the first table of the file stays.
"""
import datetime
import re
import sys
import textwrap
from pathlib import Path

from tests import ROOT
from tests.guides.citations import Repository

PLACE = "docs/TIMES.md"
HEAD = ["crate", "seconds to check", "must-fail edits", "seconds of its edits"]
CHECKED = re.compile(r"^rt: (\w+) proved \((\d+) s\)$", re.M)
REFUSED = re.compile(r"^rt: must-fail (\w+)/[\w-]+: refused, as it must be \((?:.*; )?(\d+) s\)$", re.M)
NEXT = "\n## "


def told(text):
    """Seconds of each crate, and of each crate's edits, by what rt printed."""
    edits = {}
    for crate, seconds in REFUSED.findall(text):
        edits.setdefault(crate, []).append(int(seconds))
    return {crate: int(seconds) for crate, seconds in CHECKED.findall(text)}, edits


def row(cells):
    return "| " + " | ".join("-" if cell is None else str(cell) for cell in cells) + " |"


def total(numbers):
    """The sum, or None where one of them is not known."""
    return None if None in numbers else sum(numbers)


def table(crates, counts, text):
    """The table of these crates; `counts` has how many edits each has. The seconds of edits are told where all of a crate's were tried."""
    checks, tried = told(text)
    rows = []
    for crate in crates:
        seconds = tried.get(crate, [])
        rows.append([crate, checks.get(crate), counts[crate], sum(seconds) if len(seconds) == counts[crate] else None])
    columns = list(zip(*rows))
    rows.append(["all", *map(total, columns[1:])])
    return "\n".join([row(HEAD), "|" + "---|" * len(HEAD), *map(row, rows)]) + "\n"


def first_part(date, how, rows):
    words = (
        f"Measured on {date}, {how}. The seconds of a crate are those of its own check, when all that it rests on is proved; an edit checks its "
        "whole crate anew. A dash: not measured. `python3 -m tests.tools.times` writes this table; it says how."
    )
    lines = "\n".join(textwrap.wrap(words, 150, break_on_hyphens=False))
    return f"# How long the proofs take\n\n{lines}\n\n{rows}"


def written(old, new):
    """The file with a new first part; what stands after the first part of the old one stays."""
    _, found, rest = old.partition(NEXT)
    return new + found + rest


def main(how, *names):
    files = [Path(name) for name in names]
    crates = Repository(ROOT).crates
    counts = {crate: len(list(ROOT.glob(f"crates/{crate}/must-fail/*.edit"))) for crate in crates}
    date = datetime.date.fromtimestamp(max(file.stat().st_mtime for file in files))
    rows = table(crates, counts, "".join(file.read_text() for file in files))
    place = ROOT / PLACE
    place.write_text(written(place.read_text() if place.exists() else "", first_part(date, how, rows)))


if __name__ == "__main__":
    if len(sys.argv) < 3:
        sys.exit(__doc__)
    main(*sys.argv[1:])
