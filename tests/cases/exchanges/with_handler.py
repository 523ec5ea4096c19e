"""The two sides together: requests from the writer through the handler, and its replies through the reply check."""
from collections import Counter
from random import Random

from tests.compare.exchanges import checked, handler_reply, written
from tests.inputs.exchange_calls import Asked, Reply
from tests.inputs.handler_calls import Call
from tests.inputs.handler_drafts import Draft
from tests.inputs.handler_faults import FAULTS
from tests.inputs.packets import MAC, flipped

ROUNDS = 4000
CAUSES = [number for number, _ in FAULTS if number and number > 400] + [0]


def often(tally, seen, answers):
    for answer in answers:
        tally.same(seen[answer] >= 100, True, "answer", answer, "came up", seen[answer])


def drafted(rng, causes):
    """A draft with faults put in that leave it answered by one of these causes."""
    draft = Draft(rng)
    for _, put in rng.sample([fault for fault in FAULTS if fault[0] in causes], rng.choice([0, 1, 1, 2])):
        put(draft)
    return draft


def replies(probe, tally):
    """Every reply of the proved handler is right for the proved check and for Python's, with padding and without; and not to another request."""
    rng, seen = Random(3576), Counter()
    for round in range(ROUNDS):
        call = drafted(rng, CAUSES).call()
        answer, sent = handler_reply(probe, call)
        tally.same(answer in CAUSES, True, "round", round, "is answered", answer)
        seen[answer] += 1
        reply = Reply(call.packet, sent, call.secret)
        checked(probe, tally, reply, "round", round, "answer", answer, answer=0)
        checked(probe, tally, reply._replace(reply=sent + call.reply[len(sent):]), "the whole buffer, round", round, answer=0)
        other = flipped(call.packet, 32 + rng.randrange(128))
        checked(probe, tally, reply._replace(request=other), "to another request, round", round, answer=205)
    often(tally, seen, CAUSES)


def altered(probe, tally):
    """A reply of the proved handler with one byte altered is never right."""
    rng = Random(2865)
    for round in range(60):
        call = drafted(rng, CAUSES).call()
        _, sent = handler_reply(probe, call)
        for at in range(len(sent)):
            other = sent[:at] + bytes([sent[at] ^ rng.randrange(1, 256)]) + sent[at + 1:]
            told = checked(probe, tally, Reply(call.packet, other, call.secret), "round", round, "byte", at)
            tally.same(told in range(202, 207), True, "round", round, "byte", at, "is not right")


def whole(probe, tally):
    """Written, handled, checked: no D1 to D5, and the reply is right."""
    rng, seen = Random(5176), Counter()
    for round in range(ROUNDS):
        draft = drafted(rng, [106, *CAUSES])
        parts = [part for part in draft.parts if part is not MAC]
        given, add = b"".join(parts + draft.stamps), len(draft.parts) - len(parts)
        told = written(probe, tally, Asked(draft.code, given, add, draft.identifier, draft.secret), "round", round, answer=0)
        call = Call(draft.table, told.out[:told.length], draft.secret, draft.address, draft.name, draft.reply, draft.clock)
        answer, sent = handler_reply(probe, call)
        tally.same(answer in [106, *CAUSES], True, "round", round, "is answered", answer)
        seen[answer] += 1
        if sent:
            checked(probe, tally, Reply(call.packet, sent, call.secret), "round", round, "answer", answer, answer=0)
    often(tally, seen, [106, *CAUSES])


GROUPS = [
    ("replies of the handler through the reply check", replies),
    ("replies of the handler, each byte altered", altered),
    ("written, handled, checked", whole),
]
