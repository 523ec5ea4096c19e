"""The tests themselves: a run with a failure ends so."""
from types import SimpleNamespace

from tests.harness import runner
from tests.self_tests.quiet import quietly


def endings(probe, tally):
    """How a run ends: with its count, and a status that says whether all is well."""
    def group(got):
        return SimpleNamespace(GROUPS=[("a group", lambda probe, tally: [tally.same(x, 1) for x in got])])
    crash = SimpleNamespace(GROUPS=[("a crash", lambda probe, tally: 1 // 0)])
    for modules, status, last in [
        ([group([1, 1])], 0, "2 passed, 0 failed"), ([group([1, 2, 1])], 1, "2 passed, 1 failed"), ([group([])], 1, "0 passed, 1 failed"),
        ([group([1]), crash], 1, "1 passed, 1 failed"), ([group([2]), group([1])], 1, "1 passed, 1 failed"),
    ]:
        ended, printed = quietly(runner.run, None, modules)
        tally.same((ended, printed.splitlines()[-1]), (status, last), "a run")


GROUPS = [
    ("the tests: how a run ends", endings),
]
