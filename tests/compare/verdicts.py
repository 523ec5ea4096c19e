"""How the proved verdict on a packet, and the whole handling of it, are held beside the models."""
from tests.compare.handler import handled
from tests.harness.probe import cell, cell64
from tests.inputs.handler_calls import Call
from tests.inputs.packets import CLOCK, GATE
from tests.inputs.tables import free, loose, seeded, session
from tests.models import packet_model

RNG = seeded("judged")
ANN = session(RNG, user=b"ann")
TABLE = free(RNG, ANN) + loose(RNG, ANN)  # requests for her meet 503 or pass


def judged(probe, tally, p, *case, number=None, gate=GATE, clock=CLOCK):
    """Two tests: the proved verdict is the model's, and so is the whole handling. The verdict is `number`, where it is given."""
    told, skew = packet_model.verdict(p, gate, clock)
    if number is not None and told != number:
        tally.same(told, number, "the model", *case)
        return told
    wanted = (told, p, gate.secret, gate.name, cell64(skew or 0), cell(0 if skew is None else 1))
    before = cell64(-0x1122334455667788), cell(0xEEEEEEEE)
    tally.same(probe("verdict", p, gate.secret, gate.address, gate.name, clock, *before), wanted, *case)
    call = Call(TABLE, p, gate.secret, gate.address, gate.name, clock=clock)
    handled(probe, tally, call, "whole:", *case, answer=told or None)
    return told
