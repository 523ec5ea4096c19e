"""How the whole-request handler is held beside the model."""
from tests.harness.probe import NULL, cell, cell64
from tests.models import handle_model

BEFORE = cell(0xEEEEEEEE), cell(0xDDDDDDDD), cell64(-0x1122334455667788), cell(0xCCCCCCCC)  # the four numbers before the call


def modelled(call):
    return handle_model.handle(
        call.table or b"", call.secret or b"", call.address, call.name or b"", call.reply or b"", call.packet or b"", call.clock)


def arguments(call):
    return (call.table, call.secret, call.address, call.name, call.reply, call.packet, call.clock, *BEFORE)


def returned(call, told):
    """What the probe tells of a call that is handled so: the answer, then each run of bytes and each number after it."""
    refused = told.changed is None
    numbers = BEFORE if refused else (cell(told.changed), cell(told.reply_len), cell64(told.skew), cell(told.stamped))
    after = [(call.table, told.table), (call.secret,) * 2, (call.name,) * 2, (call.reply, told.reply), (call.packet,) * 2]
    return (told.answer, *[now for given, now in after if given is not NULL], *numbers)


def handled(probe, tally, call, *case, answer=None):
    """One test: all that the handler tells and writes is the model's. Both answer `answer`, where it is given."""
    told = modelled(call)
    if answer is not None and told.answer != answer:
        tally.same(told.answer, answer, "the model", *case)
        return told
    tally.same(probe("handle", *arguments(call)), returned(call, told), *case)
    return told
