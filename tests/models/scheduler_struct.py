"""The bytes of an fbk_scheduler: as the model's scheduler is written there, as the library reads any bytes, and what a call leaves of them."""
import ctypes
from ctypes import c_size_t, c_uint8, c_uint32

from tests.models import md5_block
from tests.models.packet_model import Gate
from tests.models.scheduler_calls import JOBS, End, Open, Start, Step, is_refused
from tests.models.scheduler_model import CHECK, FREE, HASH, MATCH, NO_MARKS, Job, Scheduler

ROWS = ["words", "kinds", "places", "marks"]  # a row for each job


class Struct(ctypes.Structure):
    _fields_ = [
        ("words", c_uint32 * 4 * JOBS), ("kinds", c_uint32 * 2 * JOBS), ("places", c_size_t * 2 * JOBS), ("marks", c_uint8 * 64 * JOBS),
        ("secret", c_uint8 * 64), ("secret_len", c_size_t), ("nas_id", c_uint8 * 32), ("nas_id_len", c_size_t), ("nas_ip", c_uint32)]


FIELDS = [name for name, _ in Struct._fields_]
SIZE = ctypes.sizeof(Struct)


def part(held, name):
    """The bytes of a field."""
    field = getattr(Struct, name)
    return held[field.offset:field.offset + field.size]


def with_part(held, name, run):
    field = getattr(Struct, name)
    return held[:field.offset] + run + held[field.offset + field.size:]


def put(struct, k, job):
    struct.words[k][:] = job.words
    struct.kinds[k][:] = [job.kind, job.clock]
    struct.places[k][:] = [job.place, job.length]
    struct.marks[k][:] = job.marks


def written(scheduler, held):
    """A scheduler of the model: zeros after the secret and the name, and after the last field what was there."""
    struct, (secret, address, name) = Struct.from_buffer_copy(held), scheduler.gate
    struct.secret[:], struct.nas_id[:] = secret.ljust(64, b"\0"), name.ljust(32, b"\0")
    struct.secret_len, struct.nas_id_len, struct.nas_ip = len(secret), len(name), address
    for k, job in enumerate(scheduler.jobs):
        put(struct, k, job)
    return bytes(struct)


def read_job(struct, k, secret_len):
    """An unknown kind, and a Hash whose Length or block is none of a message's, is a free job."""
    (kind, clock), (place, length) = struct.kinds[k], struct.places[k]
    has_block = 20 <= length <= 4096 and place < md5_block.blocks(length + secret_len)
    known = kind in (CHECK, MATCH) or kind == HASH and has_block
    return Job(kind if known else FREE, place, length, clock, tuple(struct.words[k]), bytes(struct.marks[k]))


def read(held):
    """The model's scheduler that the library takes any bytes for: lengths outside their limits are brought inside."""
    struct = Struct.from_buffer_copy(held)
    secret, name = bytes(struct.secret)[:max(1, min(64, struct.secret_len))], bytes(struct.nas_id)[:max(1, min(32, struct.nas_id_len))]
    return Scheduler(Gate(secret, struct.nas_ip, name), tuple(read_job(struct, k, len(secret)) for k in range(JOBS)))


def is_left(asked, told):
    """Refused, or an opening discarded: nothing is written."""
    return is_refused(told) or isinstance(asked, Open) and told.answer != 0


def restarts(asked, told):
    """An ACK, a start and an end send the jobs of kind Match back to slot 0."""
    return isinstance(asked, (Step, Start, End)) and told.answer == 0


def left(held, asked, after):
    """The bytes after a call that the model answers so: those of the job that it moved, of the jobs sent back, and no others."""
    struct, told = Struct.from_buffer_copy(held), after.told
    if is_left(asked, told):
        return held
    if not isinstance(asked, (Start, End)):
        k = told.count if isinstance(asked, Open) else asked.job
        put(struct, k, after.scheduler.jobs[k])
    for k in range(JOBS):
        if restarts(asked, told) and struct.kinds[k][0] == MATCH:
            struct.places[k][0], struct.marks[k][:] = 0, NO_MARKS
    return bytes(struct)
