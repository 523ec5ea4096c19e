"""Runs groups of tests and prints their counts; the last line is the whole count."""
import sys
import traceback

from tests.harness.tally import Tally


def run(probe, modules):
    """The exit status."""
    passed = failed = 0
    for title, group in [pair for module in modules for pair in module.GROUPS]:
        tally = Tally()
        try:
            group(probe, tally)
        except Exception:
            traceback.print_exc(file=sys.stdout)
            tally.failed += 1
        if tally.passed + tally.failed == 0:
            tally.failed = 1  # a group with no case tests nothing
        print(f"{title}: {tally.passed} passed, {tally.failed} failed", flush=True)
        passed += tally.passed
        failed += tally.failed
    print(f"{passed} passed, {failed} failed")
    return 1 if failed else 0
