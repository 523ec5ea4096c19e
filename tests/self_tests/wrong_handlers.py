"""The tests themselves: a handler that does one thing wrong is found out."""
from tests.cases.handler.seeded import seeded_calls
from tests.compare.handler import modelled, returned
from tests.harness.tally import Tally
from tests.inputs.handler_calls import Call
from tests.inputs.packets import COA
from tests.models import handle_model, table_model
from tests.models.packet_model import Gate, attributes, verdict
from tests.self_tests.quiet import quietly

ROUNDS = 600
NAK = range(401, 600)


def found(call):
    return attributes(call.packet, int.from_bytes(call.packet[2:4], "big"))


def with_reply(call, told, sent):
    return told._replace(reply=sent + call.reply[len(sent):])


def refuses_all(call, told):
    return handle_model.Handled(4, None, None, None, None, call.table or b"", call.reply or b"")


def discards_all(call, told):
    return handle_model.Handled(104, 0, 0, 0, 0, call.table or b"", call.reply or b"")


def always_acks(call, told):
    return told._replace(answer=0) if told.answer in NAK else told


def leaves_the_table(call, told):
    return told._replace(table=call.table or b"")


def makes_up_the_count(call, told):
    return told._replace(changed=1) if told.answer == 0 else told


def changes_the_first_match(call, told):
    slots = [k for k in range(len(told.table) // 192) if table_model.slot(told.table, k) != table_model.slot(call.table, k)]
    last = 192 * (slots[0] + 1) if slots else 0
    return told._replace(table=told.table[:last] + (call.table or b"")[last:])


def keeps_16_bits(call, told):
    if told.answer != 0 or call.packet[0] != COA or all(a.kind != 27 for a in found(call)):
        return told
    table = told.table
    for k in handle_model.matching(call.table, found(call)):
        table = table[:192 * k + 10] + b"\0\0" + table[192 * k + 12:]
    return told._replace(table=table)


def signs_over_zeros(call, told):
    if not told.reply_len:
        return told
    blank = call.packet[:4] + bytes(16) + call.packet[20:]
    return with_reply(call, told, handle_model.reply_to(blank, found(call), told.answer, call.secret))


def turns_proxy_states(call, told):
    return with_reply(call, told, handle_model.reply_to(call.packet, found(call)[::-1], told.answer, call.secret)) if told.reply_len else told


def writes_behind_the_reply(call, told):
    return told._replace(reply=told.reply[:told.reply_len] + b"\0" + told.reply[told.reply_len + 1:]) if told.reply_len else told


def asks_503_before_506(call, told):
    return told._replace(answer=503) if told.answer == 506 and not handle_model.matching(call.table, found(call)) else told


def turns_the_skew(call, told):
    return told._replace(skew=-told.skew) if told.stamped else told


def has_no_skew_when_stale(call, told):
    return told._replace(skew=0, stamped=0) if told.answer == 106 else told


def writes_numbers_when_refused(call, told):
    return told._replace(changed=0, reply_len=0, skew=0, stamped=0) if told.changed is None else told


def refuses_after_the_packet(call, told):
    d = verdict(call.packet or b"", Gate(call.secret or b"", call.address, call.name or b""), call.clock)[0]
    return discards_all(call, told)._replace(answer=d) if told.changed is None and d in (101, 102, 103) else told


WRONG = [
    refuses_all, discards_all, always_acks, leaves_the_table, makes_up_the_count, changes_the_first_match, keeps_16_bits, signs_over_zeros,
    turns_proxy_states, writes_behind_the_reply, asks_503_before_506, turns_the_skew, has_no_skew_when_stale, writes_numbers_when_refused,
    refuses_after_the_packet,
]


def standing_in(spoil):
    """A handler that is the model, with something wrong in it, in the place of the probe."""
    def probe(name, table, secret, address, nas_name, reply, packet, clock, *numbers):
        call = Call(table, packet, secret, address, nas_name, reply, clock)
        return returned(call, spoil(call, modelled(call)))
    return probe


def right(call, told):
    return told


def wrong_handlers(probe, tally):
    for spoil in [right, *WRONG]:
        inner = Tally()
        quietly(seeded_calls, standing_in(spoil), inner, ROUNDS)
        tally.same(inner.failed > 0, spoil is not right, "a handler that", spoil.__name__)


def missing_outcomes(probe, tally):
    for rounds, complete in [(5, False), (ROUNDS, False), (12000, True)]:
        inner = Tally()
        outcomes = seeded_calls(standing_in(right), Tally(), rounds)
        quietly(outcomes.judge, inner)
        tally.same(inner.failed == 0, complete, "every outcome in", rounds, "calls")


GROUPS = [
    ("the tests: a wrong handler is found out", wrong_handlers),
    ("the tests: a missing outcome fails", missing_outcomes),
]
