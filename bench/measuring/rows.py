"""A row of the table: a figure, what it is held against, and what comes of it."""
from typing import NamedTuple

WORSE, BETTER = 1.03, 0.99  # a figure fails above so many times the recorded one, and is called better below so many


class Row(NamedTuple):
    title: str
    ours: float
    name: str = None  # in bench/expected.txt; a figure worked out from others has none
    goal: float = None  # the most that it may be
    decision: int = None  # the entry of docs/DECISIONS.md that says why the goal is missed
    floor: float = None  # what its MD5 blocks alone take
    openssl: float = None  # what OpenSSL takes for MD5 of the same bytes
    peers: str = ""


def number(value):
    if value is None:
        return ""
    return f"{value:,.0f}" if value >= 100 else f"{value:.2f}"


def missed(row):
    return row.goal is not None and row.ours > row.goal


def verdict(row):
    """Whether the goal is reached."""
    if row.goal is None:
        return ""
    if missed(row):
        return f"missed, {row.ours / row.goal:.2f} times" + (f" (known: {row.decision})" if row.decision else "")
    return "reached" + (f" (so decision {row.decision} is out of date)" if row.decision else "")


def unrecorded(row, expected):
    return row.name is not None and row.name not in expected


def worse(row, expected):
    return row.name in expected and row.ours > expected[row.name] * WORSE


def change(row, expected):
    """What the recorded figure says to this one."""
    if unrecorded(row, expected):
        return "not recorded"
    if worse(row, expected):
        return f"WORSE, was {number(expected[row.name])}"
    if row.name in expected and row.ours < expected[row.name] * BETTER:
        return f"better, was {number(expected[row.name])}"
    return ""


LEGEND = """Instructions are counted by valgrind --tool=callgrind. MD5 floor: the blocks that the work must hash, at what one takes here; OpenSSL: its MD5 of
the same bytes; peers: as measured once, not by this run, hostapd with one session. Known: the entry of docs/DECISIONS.md that says why a goal is missed.
"""


def head():
    print(LEGEND)
    print(f"{'':60}{'ours':>10}{'MD5 floor':>11}{'OpenSSL':>9}  {'peers':19}{'goal':>7}")


def show(title, rows, expected):
    """A part of the table."""
    print(title)
    for row in rows:
        cells = f"  {row.title:58}{number(row.ours):>10}{number(row.floor):>11}{number(row.openssl):>9}  {row.peers:19}{number(row.goal):>7}"
        told = ", ".join(filter(None, (verdict(row), change(row, expected))))
        print(f"{cells}  {told}".rstrip(), flush=True)


def fault(row, expected):
    """Why the benchmark fails for this row; empty where it does not."""
    if unrecorded(row, expected) or worse(row, expected):
        return f"{row.title}: {number(row.ours)}, {change(row, expected)}"
    if missed(row) and row.decision is None:
        return f"{row.title}: {number(row.ours)}, the goal is {number(row.goal)}"
    return ""
