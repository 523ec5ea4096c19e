"""Seeded calls of the handler: sound ones, and with faults put in. Every outcome must come up often."""
from random import Random

from tests.cases.handler.outcomes import Outcomes
from tests.compare.handler import handled
from tests.inputs.handler_calls import Call
from tests.inputs.handler_drafts import Draft
from tests.inputs.handler_faults import FAULTS

ROUNDS = 20000


def any_call(rng):
    """A call, and what it must be answered with where at most one fault was put in."""
    draft = Draft(rng)
    faults = rng.sample(FAULTS, rng.choice([0, 0, 0, 1, 1, 1, 1, 1, 2, 3]))
    for _, put in faults:
        put(draft)
    answer = 0 if not faults else faults[0][0] if len(faults) == 1 else None
    return draft.call(), answer, [put.__name__ for _, put in faults]


def seeded_calls(probe, tally, rounds):
    rng, outcomes = Random(3576), Outcomes()
    for round in range(rounds):
        call, answer, faults = any_call(rng)
        outcomes.add(call, handled(probe, tally, call, "round", round, *faults, answer=answer))
    return outcomes


def any_calls(probe, tally):
    seeded_calls(probe, tally, ROUNDS).judge(tally)


def any_bytes(probe, tally):
    """Tables, packets and the rest of any bytes and lengths."""
    rng = Random(5176)
    for round in range(1000):
        lengths = rng.choice([192, 12288, rng.randrange(13000)]), rng.randrange(80), rng.randrange(70), rng.randrange(40), rng.choice([4096, 4095, 0])
        table, packet, secret, name, reply = map(rng.randbytes, lengths)
        handled(probe, tally, Call(table, packet, secret, rng.randrange(2**32), name, reply, rng.randrange(2**32)), "round", round)


GROUPS = [
    ("handle: seeded calls, each outcome often", any_calls),
    ("handle: any bytes", any_bytes),
]
