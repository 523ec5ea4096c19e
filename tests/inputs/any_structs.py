"""Structs that no call made, and calls on them. Most are near to a scheduler: jobs of every kind, some of which would be acknowledged."""
import struct

from tests.inputs.altered_worlds import ANN, TABLE
from tests.inputs.packets import CLOCK, CODES, COA, STAMP, TIMEOUT, USER, attribute, flipped, request
from tests.inputs.scheduler_world import BUFFER, Turn
from tests.inputs.tables import full, session
from tests.inputs.vendor_items import down, group, up, vendor
from tests.models import scheduler_model
from tests.models.scheduler_calls import JOBS, Drop, End, Open, Start, Step
from tests.models.scheduler_struct import SIZE, Struct, read
from tests.models.table_model import number

KINDS = [0, 1, 1, 2, 3, 3, 3, 4, 2**32 - 1]
PLACES = [0, 1, 2, 5, 63, 64, 65, 66, 67, 2**32, 2**64 - 1]
LENGTHS = [0, 19, 20, 100, 4096, 4097, 2**63, 2**64 - 1]
NUMBERS = [0, 1, 2, 3, 3, 2, 1, 0, 4, 5, 255, 256, 2**32 - 1]  # of jobs and slots


def own_request(rng, gate):
    """For Ann, to the gate that the struct reads as."""
    code = rng.choice(CODES)
    changes = rng.choice([[TIMEOUT], [vendor(group(down(7)), up(8))], [TIMEOUT, vendor(up(9))]]) if code == COA else []
    return request(code, [attribute(4, number(gate.address)), attribute(32, gate.name), USER, STAMP, *changes], gate)


def any_struct(rng):
    """Its bytes, and a request that some of its jobs can be for."""
    any_bytes = rng.randbytes(SIZE)
    held = Struct.from_buffer_copy(any_bytes)
    held.secret_len, held.nas_id_len = rng.choice([0, 1, 9, 63, 64, 65, 2**64 - 1]), rng.choice([0, 1, 6, 31, 32, 33, 2**64 - 1])
    packet = own_request(rng, read(bytes(held)).gate)
    for k in range(JOBS):
        held.kinds[k][:] = [rng.choice(KINDS), rng.choice([CLOCK, CLOCK, rng.randrange(2**32)])]
        held.places[k][:] = [rng.choice(PLACES), rng.choice([len(packet)] * len(LENGTHS) + LENGTHS)]
        held.words[k][:] = rng.choice([struct.unpack("<4I", packet[4:20]), struct.unpack("<4I", rng.randbytes(16))])
        held.marks[k][:] = rng.choice([bytes(64), rng.randbytes(64), bytes(rng.choices([0, 1, 1, 2], k=64))])
    return (any_bytes if rng.random() < 0.05 else bytes(held)), packet


def any_store(rng, packet):
    parts = [rng.choice([packet] * 5 + [flipped(packet, rng.randrange(8 * len(packet))), b""]) for _ in range(JOBS)]
    store = b"".join(one + rng.randbytes(4096 - len(one)) for one in parts)
    return store[:-1] if rng.random() < 0.1 else store


def any_turns(rng, held, packet):
    """Calls of each kind with what the model makes of them, each on the same struct."""
    table = rng.choice([TABLE] * 6 + [full(rng, 5), bytes(192), TABLE[:-1]])
    store, scheduler = any_store(rng, packet), read(held)
    short, other, shorter = packet[:rng.randrange(len(packet))], b"\x2c" + packet[1:], packet[:2] + number(len(packet) - 1)[2:] + packet[4:]
    for asked in [
        Open(rng.choice([packet, packet + b"padding", short, other, shorter]), rng.randrange(2**32)),
        Step(rng.choice(NUMBERS), BUFFER[1:] if rng.random() < 0.5 else BUFFER),
        *[Step(job, BUFFER) for job in range(JOBS)],
        Drop(rng.choice(NUMBERS)),
        Start(rng.choice([session(rng, id=b"new"), ANN, ANN | {"user": b""}])),
        End(rng.choice(NUMBERS)),
    ]:
        yield Turn(asked, table, store, scheduler_model.call(scheduler, table, store, asked))
