"""Measures the library and prints one table: python3 bench/measuring/measure.py compare|record. 'compare' fails where a figure is worse than the
recorded one or a goal is missed that is no known miss; 'record' makes the figures the recorded ones, and draws their growth."""
import sys

import digests
import growth
import memory
import plot
import recorded
import rows
import works


def table(expected):
    """Prints all parts; their rows."""
    rows.head()
    all_rows = []
    for title, part in [
        ("whole requests through fbk_handle, in instructions", works.requests()),
        ("long names through fbk_handle, in instructions", works.names()),
        ("steps of a job through fbk_step_lent, in instructions", works.steps()),
        ("growth: what twice as much takes, what a slot more takes", growth.ratios()),
        ("code by `size`, stack by painting it before a call, in bytes", [*memory.code(), *memory.stack()]),
    ]:
        part = list(part)
        rows.show(title, part, expected)
        all_rows += part
    print("growth of a whole request, in instructions")
    growth.grid("bytes of the packet", growth.BY_LENGTH, growth.LENGTHS)
    growth.grid("slots of the table; all but the last", growth.BY_SLOTS, growth.SLOTS)
    print("MD5 and HMAC-MD5")
    return all_rows + list(growth.points()) + digests.show(expected)


def main(mode):
    expected = recorded.read()
    measured = table(expected)
    print()
    if mode == "record":
        recorded.write(measured)
        plot.draw(recorded.read())
        print(f"recorded: {recorded.PLACE} and {plot.PLACE}")
        return 0
    measured = list({row.name or row.title: row for row in reversed(measured)}.values())  # one that stands in two parts fails once
    faults = [fault for fault in (rows.fault(row, expected) for row in reversed(measured)) if fault]
    for fault in faults:
        print("failed:", fault)
    known = sum(rows.missed(row) for row in measured)
    print(f"{len(faults)} figures fail" if faults else f"every figure holds; {known} goals are missed, and known: docs/DECISIONS.md says why")
    return 1 if faults else 0


sys.exit(main(sys.argv[1]))
