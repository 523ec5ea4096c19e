"""What calls of the request writer and of the reply check take."""
from typing import NamedTuple, Optional

from tests.inputs.byte_runs import sample
from tests.inputs.packets import GATE

ROOM = sample(4076, 4096)  # an output before the call: what is not written must stay


class Asked(NamedTuple):
    """What the writer takes. A run of no bytes may be NULL."""
    code: int
    given: Optional[bytes]
    add: int = 0  # type 80: 0 no, any other number yes
    identifier: int = 7
    secret: Optional[bytes] = GATE.secret
    out: Optional[bytes] = ROOM


class Reply(NamedTuple):
    """What the reply check takes. A run of no bytes may be NULL."""
    request: Optional[bytes]
    reply: Optional[bytes]
    secret: Optional[bytes] = GATE.secret
