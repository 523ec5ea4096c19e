"""Document 01's desk in Python, step by step: four jobs, each moved by one block, one check, one slot or one commit at a time."""
from typing import NamedTuple

from tests.models import handle_model, md5_block, packet_model, table_model
from tests.models.packet_model import Gate
from tests.models.scheduler_calls import GOING, JOBS, PART, Drop, End, Open, Step, Told, refusal

NO_MARKS = bytes(64)
FREE, HASH, CHECK, MATCH = range(4)  # kinds of job; one in Match whose place is not below the number of slots awaits Commit


class Job(NamedTuple):
    kind: int = FREE
    place: int = 0  # the next block in Hash, the next slot in Match
    length: int = 0  # of its opening, and the clock too
    clock: int = 0
    words: tuple = (0, 0, 0, 0)
    marks: bytes = NO_MARKS


class Scheduler(NamedTuple):
    gate: Gate
    jobs: tuple


class After(NamedTuple):
    """What a call leaves."""
    scheduler: Scheduler
    told: Told
    table: bytes
    store: bytes
    reply: bytes = None  # the buffer of a step


class Moved(NamedTuple):
    """What a step makes of its job, the table and the reply buffer."""
    job: Job
    told: Told
    table: bytes
    reply: bytes


def make(secret, address, name):
    """R2, R3 or 0; the scheduler, None where it is refused."""
    if not 1 <= len(secret) <= 64:
        return 2, None
    if not 1 <= len(name) <= 32:
        return 3, None
    return 0, Scheduler(Gate(secret, address, name), (Job(),) * JOBS)


def in_use(scheduler):
    return [k for k, job in enumerate(scheduler.jobs) if job.kind != FREE]


def with_job(scheduler, k, job):
    return scheduler._replace(jobs=scheduler.jobs[:k] + (job,) + scheduler.jobs[k + 1:])


def restarted(scheduler):
    """Every job in Match or awaiting Commit back at slot 0, marks cleared."""
    return scheduler._replace(jobs=tuple(job._replace(place=0, marks=NO_MARKS) if job.kind == MATCH else job for job in scheduler.jobs))


def part(store, k):
    return store[PART * k:PART * (k + 1)]


def message(job, p, gate):
    """What the authenticator is the MD5 of, up to the kept Length, as the store stands."""
    return packet_model.with_auth(p, job.length, packet_model.ZEROS) + gate.secret


def hashed(job, p, gate):
    signed = message(job, p, gate)
    job = job._replace(words=md5_block.after(job.words, md5_block.block(signed, job.place)), place=job.place + 1)
    return job if job.place < md5_block.blocks(len(signed)) else job._replace(kind=CHECK, place=0)


def same_form(job, p):
    """Length is the kept one, and none of D1 to D3 applies."""
    return packet_model.length_of(p) == job.length and packet_model.bad_form(p) == 0


def same_sense(p, found, gate):
    """Type 55 is there once with length 6, each type 80 has length 18, and none of causes 1 to 6 applies."""
    if packet_model.no_stamp(found) or any(a.kind == 80 and len(a.value) != 16 for a in found):
        return False
    return packet_model.cause(p[0], found, gate) == 0


def read_again(job, p, gate):
    """Whether the job's part of the store can still be worked on."""
    return same_form(job, p) and (job.kind != MATCH or same_sense(p, packet_model.attributes(p, job.length), gate))


def is_signed(job, p, gate):
    """D4, by the chaining words as held."""
    return md5_block.digest(job.words) == p[4:20]


def replied(answer, count, skew, p, job, gate, table, reply):
    sent = handle_model.reply_to(p, packet_model.attributes(p, job.length), answer, gate.secret)
    return Moved(Job(), Told(answer, count, len(sent), skew, 1), table, sent + reply[len(sent):])


def checked(job, p, gate, table, reply):
    answer, skew = packet_model.judged(p, is_signed(job, p, gate), gate, job.clock)
    if answer == 0:
        return Moved(job._replace(kind=MATCH, place=0, marks=NO_MARKS), GOING, table, reply)
    if answer < 200:
        return Moved(Job(), Told(answer, 0, 0, skew or 0, 0 if skew is None else 1), table, reply)
    return replied(answer, 0, skew, p, job, gate, table, reply)


def matched(job, p, table):
    """The next slot examined, and marked where it matches. A mark that is there stays: only a struct that no call made has one."""
    asked = [(handle_model.FOUND_BY[a.kind], a.value) for a in packet_model.attributes(p, job.length) if a.kind in handle_model.FOUND_BY]
    mark = 1 if table_model.matches(table_model.slot(table, job.place), asked) else job.marks[job.place]
    return job._replace(place=job.place + 1, marks=job.marks[:job.place] + bytes([mark]) + job.marks[job.place + 1:])


def committed(job, p, gate, table, reply):
    """503, or the marked slots changed: those that are there and live."""
    found = packet_model.attributes(p, job.length)
    skew = packet_model.stamp(found) - job.clock
    slots = [k for k in range(table_model.slot_count(table)) if job.marks[k] == 1 and table_model.live(table_model.slot(table, k))]
    for k in slots:
        table = table_model.with_slot(table, k, handle_model.changed_slot(table_model.slot(table, k), p[0], found))
    return replied(0 if slots else 503, len(slots), skew, p, job, gate, table, reply)


def moved(job, p, gate, table, reply):
    """One step of a job: one block, or what comes after its part of the store was read again."""
    if job.kind == HASH:
        return Moved(hashed(job, p, gate), GOING, table, reply)
    if not read_again(job, p, gate):
        return Moved(Job(), Told(101), table, reply)
    if job.kind == CHECK:
        return checked(job, p, gate, table, reply)
    if job.place < table_model.slot_count(table):
        return Moved(matched(job, p, table), GOING, table, reply)
    return committed(job, p, gate, table, reply)


def stepped(scheduler, table, store, asked):
    job, told, table, reply = moved(scheduler.jobs[asked.job], part(store, asked.job), scheduler.gate, table, asked.reply)
    scheduler = with_job(scheduler, asked.job, job)
    return After(restarted(scheduler) if told.answer == 0 else scheduler, told, table, store, reply)


def opened(scheduler, table, store, asked):
    form = packet_model.bad_form(asked.packet)
    if form:
        return After(scheduler, Told(100 + form), table, store)
    k = min(set(range(JOBS)) - set(in_use(scheduler)))
    n = packet_model.length_of(asked.packet)
    store = store[:PART * k] + asked.packet[:n] + store[PART * k + n:]
    return After(with_job(scheduler, k, Job(HASH, 0, n, asked.clock, md5_block.FIRST)), Told(0, k), table, store)


def call(scheduler, table, store, asked):
    refused = refusal(asked, in_use(scheduler), table, len(store))
    if refused:
        return After(scheduler, Told(refused), table, store, asked.reply if isinstance(asked, Step) else None)
    if isinstance(asked, Step):
        return stepped(scheduler, table, store, asked)
    if isinstance(asked, Open):
        return opened(scheduler, table, store, asked)
    if isinstance(asked, Drop):
        return After(with_job(scheduler, asked.job, Job()), Told(0), table, store)
    if isinstance(asked, End):
        return After(restarted(scheduler), Told(0), table_model.end(table, asked.slot)[1], store)
    _, slot, table = table_model.start(table, asked.session)
    return After(restarted(scheduler), Told(0, slot), table, store)
