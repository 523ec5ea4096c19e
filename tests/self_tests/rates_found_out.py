"""The tests of type 26 themselves: a handler that does one thing wrong with it is found out by the requests of tests/inputs/vendor_requests.py."""
from contextlib import ExitStack
from unittest import mock

from tests.compare.handler import modelled
from tests.inputs.tables import seeded
from tests.inputs.vendor_requests import FAMILIES
from tests.models import vendor_model
from tests.models.packet_model import VENDOR_SPECIFIC, attributes, length_of
from tests.self_tests.rate_readers import Reader
from tests.self_tests.wrong_rates import WRONG

ROUNDS = 8000  # calls, of all that the families have


def some_calls():
    calls = [call for family in FAMILIES for _, call, _ in family()]
    return seeded("found out").sample(calls, ROUNDS)


def told(call):
    """All that is told and written."""
    got = modelled(call)
    return got._replace(reply=got.reply[:got.reply_len])


def is_found_out(calls, wanted, wrong):
    """Whether the model, with these in the place of its own, tells or writes something else."""
    with ExitStack() as stack:
        for (module, name), other in wrong.items():
            stack.enter_context(mock.patch.object(module, name, other))
        return any(told(call) != right for call, right in zip(calls, wanted))


def wrong_rates(probe, tally):
    calls = some_calls()
    wanted = [told(call) for call in calls]
    tally.same(is_found_out(calls, wanted, {}), False, "the right handler is found out")
    for name, wrong in WRONG.items():
        tally.same(is_found_out(calls, wanted, wrong), True, "a handler that", name)


def other_reader(probe, tally):
    """What the wrong ones are made of reads as the model does where nothing is wrong in it."""
    for case, call, _ in [row for family in FAMILIES for row in family()]:
        for a in attributes(call.packet, length_of(call.packet)) or []:
            if a.kind == VENDOR_SPECIFIC:
                tally.same(Reader().rates(a.value), vendor_model.rates(a.value), *case)


GROUPS = [
    ("the tests: a handler that is wrong in type 26 is found out", wrong_rates),
    ("the tests: type 26 read by two readers", other_reader),
]
