"""What a call keeps of the struct that it is given: every byte where it is refused or discards a packet, and else all but what it may write."""
from tests.compare.scheduler import ANY, beside
from tests.inputs.altered_worlds import ANN, TABLE, at_slot
from tests.inputs.any_structs import any_struct, any_turns
from tests.inputs.packets import CLOCK, COA
from tests.inputs.scheduler_world import BUFFER, STALE
from tests.inputs.tables import full, seeded, session
from tests.models.scheduler_calls import JOBS, Drop, End, Open, Start, Step, Told
from tests.models.scheduler_model import HASH, MATCH
from tests.models.scheduler_struct import FIELDS, ROWS, Struct, is_left, part, restarts, written

FREED = 2  # the job that is free where one is to be
FREE_AS = [(0, 0, 0), (4, 0, 100), (2**32 - 1, 0, 100), (HASH, 0, 19), (HASH, 0, 4097), (HASH, 3, 100)]  # kind, place and Length of one
OF_JOB = ["words", "kind", "clock", "place", "Length", "marks"]


def in_match(held, free=None):
    """All jobs in Match, but for one that is free, where its rows are given."""
    struct = Struct.from_buffer_copy(held)
    for k in range(JOBS):
        struct.kinds[k][0] = MATCH
    if free:
        struct.kinds[FREED][0], struct.places[FREED][:] = free[0], free[1:]
    return bytes(struct)


def refused_calls(packet):
    """Whether a job is to be free, the call, what it is given, and the refusal or the discard."""
    rng, none = seeded("refused"), TABLE[1:]
    fits, other, shorter = session(rng, id=b"new"), b"\x2c" + packet[1:], packet[:3] + bytes([packet[3] - 1]) + packet[4:]
    for secret, name, answer in [(b"", b"n", 2), (bytes(65), b"n", 2), (b"s", b"", 3), (b"s", bytes(33), 3)]:
        yield False, "make", (secret, 7, name), answer
    for is_free, asked, table, store, answer in [
        (True, Open(packet, CLOCK), None, STALE[1:], 5), (False, Open(packet, CLOCK), None, STALE, 6),
        *[(True, Open(run, CLOCK), None, STALE, answer) for run, answer in [(packet[:19], 101), (other, 102), (shorter, 103)]],
        (False, Step(0, BUFFER), none, STALE, 1), (False, Step(0, BUFFER[1:]), TABLE, STALE, 4), (False, Step(0, BUFFER), TABLE, STALE[1:], 5),
        *[(True, Step(job, BUFFER), TABLE, STALE, 7) for job in (FREED, JOBS, 2**32 - 1)],
        *[(True, Drop(job), None, None, 7) for job in (FREED, JOBS, 2**32 - 1)],
        (False, Start(fits), none, None, 1), (False, Start(fits | {"user": b""}), TABLE, None, 8), (False, Start(ANN), TABLE, None, 9),
        (False, Start(fits), full(rng, 5), None, 10), (False, End(1), none, None, 1), *[(False, End(k), TABLE, None, 11) for k in (0, 5, 2**32 - 1)],
    ]:
        yield is_free, *beside(asked, table, store), answer


def structs():
    """A scheduler with jobs before slot 1 and before Commit, and structs that no call made; a packet for each."""
    world, rng = at_slot(COA, 5), seeded("kept")
    yield written(world.scheduler, ANY), world.store[:world.jobs[0].length]
    for _ in range(100):
        yield any_struct(rng)


def refusals(door):
    """Answer, struct and all that is lent beside it, after each refused call and each discard, and as they must be; jobs are in Match, or free."""
    for round, (held, packet) in enumerate(structs()):
        for is_free, name, given, answer in refused_calls(packet):
            before = in_match(held, FREE_AS[round % len(FREE_AS)] if is_free else None)
            lent = [one for one in given if isinstance(one, bytes)]
            yield door(name, before, *given), (answer, before, lent), name, answer


def pieces(held):
    """The struct in pieces that a call may or may not write."""
    struct, found = Struct.from_buffer_copy(held), {name: part(held, name) for name in FIELDS if name not in ROWS}
    found["after the last field"] = held[Struct.nas_ip.offset + Struct.nas_ip.size:]
    for k in range(JOBS):
        found["words", k], found["marks", k] = bytes(struct.words[k]), bytes(struct.marks[k])
        (found["kind", k], found["clock", k]), (found["place", k], found["Length", k]) = struct.kinds[k], struct.places[k]
    return found


def touched(before, after):
    old, new = pieces(before), pieces(after)
    return {name for name in old if old[name] != new[name]}


def may_touch(held, asked, told):
    """The pieces of the job that the call works on, and place and marks of each job that it sends back to slot 0."""
    if is_left(asked, told):
        return set()
    own = told.count if isinstance(asked, Open) else asked.job if isinstance(asked, (Step, Drop)) else None
    found = {(name, own) for name in OF_JOB if own is not None}
    kinds = Struct.from_buffer_copy(held).kinds
    return found | {(name, k) for k in range(JOBS) for name in ("place", "marks") if restarts(asked, told) and kinds[k][0] == MATCH}


def writes(door, rounds=1000):
    """Of calls on any structs: what each wrote, what it may write, and the call. The library's own answer says what it may."""
    rng = seeded("written")
    for _ in range(rounds):
        held, packet = any_struct(rng)
        for turn in any_turns(rng, held, packet):
            name, given = beside(turn.asked, turn.table, turn.store)
            answer, after, lent = door(name, held, *given)
            job = int.from_bytes(lent[-1], "little") if name == "open" else 0
            yield touched(held, after), may_touch(held, turn.asked, Told(answer, job)), name, answer
