"""Counts the cases of a group."""

SHOWN = 5  # failures in full; the others are only counted


class Tally:
    def __init__(self):
        self.passed = self.failed = 0

    def same(self, got, wanted, *case):
        """One test: got is wanted. The case says which it is."""
        if got == wanted:
            self.passed += 1
            return
        self.failed += 1
        if self.failed <= SHOWN:
            print("   FAILED", *case)
            print("      got   ", show(got))
            print("      wanted", show(wanted))


def show(value):
    if isinstance(value, tuple):
        return ", ".join(map(show, value))
    if isinstance(value, bytes):
        return value[:40].hex(" ") + (" .." if len(value) > 40 else "") if value else "no bytes"
    return "written before its start" if value is None else str(value)
