"""A run of no bytes may be NULL, in every place of the packets' exports."""
from tests.harness.probe import NULL, cell, cell64
from tests.inputs.byte_runs import BLANK, sample
from tests.inputs.packets import CLOCK, GATE, STAMP, USER, attribute, sign, unsigned
from tests.models import packet_model

ZEROS = bytes(16)
P, SECRET = sample(1, 60), sample(2, 10)
SKEW, STAMPED = cell64(-5), cell(9)
ANSWERS = cell64(0), cell(1)


def nulls(probe, tally):
    open_one = sign(unsigned(40, [USER, STAMP]), b"")  # signed with no secret
    named = sign(unsigned(40, [USER, STAMP, attribute(32, b"gate")]))
    secret, name, address = GATE.secret, GATE.name, GATE.address
    no_secret = packet_model.authenticator(P, 60, ZEROS, b"")
    for call, wanted in [
        (("authenticator", NULL, 0, ZEROS, SECRET, BLANK), (1, ZEROS, SECRET, BLANK)),
        (("authenticator", NULL, 20, ZEROS, SECRET, BLANK), (1, ZEROS, SECRET, BLANK)),
        (("authenticator", P, 60, NULL, SECRET, BLANK), (1, P, SECRET, BLANK)),
        (("authenticator", P, 60, ZEROS, NULL, BLANK), (0, P, ZEROS, no_secret)),
        (("authenticator", P, 60, ZEROS, SECRET, NULL), (1, P, ZEROS, SECRET)),
        (("mac", NULL, 0, ZEROS, 0, SECRET, BLANK), (1, ZEROS, SECRET, BLANK)),
        (("mac", P, 60, NULL, 20, SECRET, BLANK), (1, P, SECRET, BLANK)),
        (("mac", P, 60, ZEROS, 20, NULL, BLANK), (0, P, ZEROS, packet_model.message_authenticator(P, 60, ZEROS, 20, b""))),
        (("mac", P, 60, ZEROS, 20, SECRET, NULL), (1, P, ZEROS, SECRET)),
        (("blocks", NULL, 20, SECRET, BLANK), (1, SECRET, BLANK)),
        (("blocks", P, 60, NULL, BLANK), (0, P, no_secret)),
        (("blocks", P, 60, SECRET, NULL), (1, P, SECRET)),
        (("verdict", NULL, secret, address, name, CLOCK, SKEW, STAMPED), (101, secret, name, cell64(0), cell(0))),
        (("verdict", open_one, NULL, address, name, CLOCK, SKEW, STAMPED), (0, open_one, name, *ANSWERS)),
        (("verdict", named, secret, address, NULL, CLOCK, SKEW, STAMPED), (403, named, secret, *ANSWERS)),
    ]:
        tally.same(probe(*call), wanted, *call)


GROUPS = [
    ("packets: NULL where a length is 0", nulls),
]
