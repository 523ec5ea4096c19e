"""The test of the guides itself: what a reading guide says of itself, right and wrong."""
from tests.guides.reading import lines, minutes, near, repeated, said, to_read, told_repeated

FILES = {
    "a/specs/One.antt": "-- spoken : of\nuse x.{one}\n\nabbrev pub one : \u2115\none = 1\n\npub record Rec (n : X) : Type 0 where\n  pub part : n\n",
    "b/specs/Two.antt": "unfoldable pub one : \u2115\none = two\n\nabbrev own : \u2115\nown = 2\n\nabbrev pub part : \u2115\npart = 3\n",
    "c/specs/Three.antt": "abbrev own : \u2115\nown = 4\n\npub record Rec : Type 0 where\n  pub part : \u2115\n",
}
GUIDE = """# Guide

It takes 30 minutes in all. You read some 2 files
of definitions, about 1,000 lines without import lines and empty ones. You may skip `c/specs/Three.antt`, and of
`b/specs/Two.antt` `part` alone.

## One (10 minutes)

| same name | what each is |
|---|---|
| `a/specs/One.antt` `one`; `b/specs/Two.antt` `one` | x; y |

## Two (20 minutes)

`a/specs/One.antt`
"""


def names(probe, tally):
    one = {"a/specs/One.antt", "b/specs/Two.antt"}
    tally.same(repeated(FILES), {"one": one, "Rec": {"a/specs/One.antt", "c/specs/Three.antt"}}, "names in more than one file")
    tally.same(told_repeated(GUIDE), {"one": one}, "names by the guide")


def numbers(probe, tally):
    tally.same(said(GUIDE), [30, 2, 1000], "what the guide says")
    tally.same(minutes(GUIDE), 30, "the minutes of its parts")
    tally.same(sorted(to_read(GUIDE, FILES)), ["a/specs/One.antt", "b/specs/Two.antt"], "the files to be read")
    tally.same(lines(FILES["a/specs/One.antt"]), 5, "lines without import lines and empty ones")
    tally.same([near(100, found) for found in (94, 95, 105, 106)], [False, True, True, False], "a round figure")


GROUPS = [
    ("the reading guide: names", names),
    ("the reading guide: figures", numbers),
]
