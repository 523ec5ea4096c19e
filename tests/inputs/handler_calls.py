"""What a call of the whole-request handler takes."""
from typing import NamedTuple, Optional

from tests.inputs.byte_runs import sample
from tests.inputs.packets import CLOCK, GATE

ROOM = sample(4096, 4096)  # a reply buffer before the call: what is not written must stay


class Call(NamedTuple):
    """What the handler takes. A run of no bytes may be NULL."""
    table: Optional[bytes]
    packet: Optional[bytes]
    secret: Optional[bytes] = GATE.secret
    address: int = GATE.address
    name: Optional[bytes] = GATE.name
    reply: Optional[bytes] = ROOM
    clock: int = CLOCK
