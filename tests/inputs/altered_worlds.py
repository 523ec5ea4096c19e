"""Schedulers whose store or table is written to between calls, made by hand, with what document 01 says of each."""
from tests.inputs.alterations import CLAUSES, FOLLOWED
from tests.inputs.packets import CLOCK, COA, CODES, DISCONNECT, MAC, STAMP, TIMEOUT, USER, attribute, request, stamp
from tests.inputs.scheduler_world import World
from tests.inputs.tables import free, loose, seeded, session
from tests.inputs.vendor_items import down, group, up, vendor
from tests.models import scheduler_model, table_model
from tests.models.scheduler_model import CHECK
from tests.models.table_model import number

RNG = seeded("read again")
ANN, BEN = session(RNG, user=b"ann", port=7), session(RNG, user=b"ano", port=7)
SPARE = attribute(33, RNG.randbytes(100))  # room for what is put in
RATES = vendor(group(down(64000), up(128000)))
OTHER = request(COA, [attribute(1, b"ano"), TIMEOUT, STAMP])


def people(*users):
    """A table with a session of Ann's (a), of Ben's (b) or none (-) in each slot."""
    return b"".join({"a": loose(RNG, ANN), "b": loose(RNG, BEN), "-": free(RNG, BEN)}[user] for user in "".join(users))


TABLE = people("-ab-a")


def parts(code, signed):
    return [USER] + [TIMEOUT] * (code == COA) + [STAMP, attribute(24, b"state")] + [RATES] * (code == COA) + [MAC] * signed + [SPARE]


def at_check(code, signed=False, table=TABLE):
    """A scheduler whose job 1 awaits its Check; job 0 is another, before its second slot."""
    world = World(table)
    world.open(OTHER, CLOCK)
    while not world.jobs[0].place or world.jobs[0].kind != scheduler_model.MATCH:
        world.step(0)
    world.open(request(code, parts(code, signed)), CLOCK)
    while world.jobs[1].kind != CHECK:
        world.step(1)
    return world


def at_slot(code, place, signed=False, table=TABLE):
    world = at_check(code, signed, table)
    world.step(1, 1 + place)
    return world


def stages(code, signed):
    yield "Check", at_check(code, signed)
    for place, name in [(0, "first Match"), (3, "Match"), (5, "Commit")]:
        yield name, at_slot(code, place, signed)


def packet(world):
    return world.store[4096:4096 + world.jobs[1].length]


def written(writes):
    """For each kind of request, next step and write a scheduler where that was written, and what is told of it."""
    for code, signed in [(code, signed) for code in CODES for signed in (False, True)]:
        for stage, made in stages(code, signed):
            for write in writes:
                world = made.copy()
                world.write(1, write.written(packet(world)))
                if code in write.codes and packet(world) != packet(made):
                    yield world, write, stage, signed, (write.name, "before", stage, "of", code, "with type 80" if signed else "")


def valued():
    """Values that are followed: a name, a scheduler where one was written, the slots' fields then, and answer, count and skew."""
    stamped = [STAMP, stamp(CLOCK + 10000)]
    user, timeout = [USER, attribute(1, b"ano")], [TIMEOUT, attribute(27, number(65748))]
    both, down_alone = [RATES, vendor(up(0), group(down(2**32 - 1)))], [RATES, vendor(group(group(group(down(7)))), group())]
    as_asked = {"timeout": TIMEOUT[2:], "down": number(64000), "up": number(128000)}
    for name, (old, new), place, wanted, fields in [
        ("Ben for Ann before slot 0", user, 0, (0, 1, 0), {}), ("Ben for Ann before slot 2", user, 2, (0, 2, 0), {}),
        ("Ben for Ann before Commit", user, 5, (0, 2, 0), {}),
        ("a late stamp before slot 0", stamped, 0, (0, 2, 10000), {}), ("a late stamp before Commit", stamped, 5, (0, 2, 10000), {}),
        ("a timeout before Commit", timeout, 5, (0, 2, 0), {"timeout": number(65748)}),
        ("rates before slot 0", both, 0, (0, 2, 0), {"down": number(2**32 - 1), "up": number(0)}),
        ("rates before Commit", both, 5, (0, 2, 0), {"down": number(2**32 - 1), "up": number(0)}),
        ("the down rate alone before Commit", down_alone, 5, (0, 2, 0), {"down": number(7), "up": None}),
    ]:
        world = at_slot(COA, place)
        world.write(1, packet(world).replace(old, new))
        yield name, world, as_asked | fields, wanted


def half_hashed():
    """A name, a scheduler whose job 0 awaits its Check after a byte was altered among its blocks, and what it answers."""
    p = request(COA, parts(COA, False))
    place = p.index(b"state")
    changed, shorter = p[:place] + b"X" + p[place + 1:], p[:2] + b"\0\x14" + p[4:]
    for name, written, answer in [  # what is written before each block, and before the Check
        ("before its block", [changed, None, None, None], 104), ("after its block", [None, changed, None, None], 600),
        ("before the Check", [None, None, None, changed], 600), ("before its block, and put back after it", [changed, p, None, None], 104),
        ("after its block, and put back", [None, changed, p, None], 600), ("of Length, and put back", [shorter, None, None, p], 104),
    ]:
        world = World(TABLE)
        world.open(p, CLOCK)
        for k, run in enumerate(written):
            if run:
                world.write(0, run)
            if k < 3:
                world.step(0)
        yield name, world, answer


def other_tables():
    """Job 1 stands before slot `place` of TABLE, which has Ann in slots 1 and 4: a name, the scheduler; steps to the end, answer, count."""
    def put(k, slot):
        return lambda table: table_model.with_slot(table, k, slot)
    ann, ben, none = loose(RNG, ANN), loose(RNG, BEN), bytes(192)
    for name, place, written, wanted in [
        ("as it was", 3, lambda t: t, (3, 0, 2)), ("cut at the place", 3, lambda t: t[:3 * 192], (1, 0, 1)),
        ("cut before the place", 3, lambda t: t[:2 * 192], (1, 0, 1)), ("cut before the mark", 3, lambda t: t[:192], (1, 503, 0)),
        ("cut before Commit", 5, lambda t: t[:4 * 192], (1, 0, 1)),
        ("grown before Commit", 5, lambda t: t + people("ba"), (3, 0, 3)), ("grown to 64", 5, lambda t: t + people("b" * 59), (60, 0, 2)),
        ("a marked slot free", 5, put(1, none), (1, 0, 1)), ("all marked slots free", 5, lambda t: put(1, none)(put(4, none)(t)), (1, 503, 0)),
        ("another in a marked slot", 5, put(1, ben), (1, 0, 2)), ("one more, after the place", 5, put(0, ann), (1, 0, 2)),
        ("one more, before the place", 3, put(3, ann), (3, 0, 3)), ("one less, before the place", 3, put(4, ben), (3, 0, 1)),
    ]:
        world = at_slot(COA, place)
        world.table = written(world.table)
        yield name, world, wanted


def disturbed():
    """Job 1 awaits Commit, and something is called: its name, the scheduler, and steps to the end and sessions changed."""
    nobody = request(DISCONNECT, [attribute(1, b"nobody"), STAMP])
    bens = [session(RNG, user=b"ano", id=id) for id in (b"in slot 0", b"in slot 1")]
    for name, call, wanted in [
        ("nothing", lambda d: None, (1, 2)), ("an ACK", lambda d: d.finish(0), (6, 2)), ("a step", lambda d: d.step(0), (1, 2)),
        ("a start", lambda d: d.start(session(RNG, user=b"ann", id=b"new")), (6, 3)), ("an end", lambda d: d.end(4), (6, 1)),
        ("an end of another", lambda d: d.end(2), (6, 2)),
        ("another in the slot of one that ended", lambda d: (d.end(1), *map(d.start, bens)), (6, 1)),
        ("a drop", lambda d: d.drop(0), (1, 2)), ("an opening", lambda d: d.open(nobody, CLOCK), (1, 2)),
        ("a NAK", lambda d: (d.drop(0), d.open(nobody, CLOCK), d.finish(0)), (1, 2)),
        ("a discard", lambda d: (d.write(0, b"\0"), d.step(0)), (1, 2)), ("a refused start", lambda d: d.start(ANN), (1, 2)),
        ("a refused end", lambda d: d.end(0), (1, 2)), ("a refused step", lambda d: d.step(3), (1, 2)), ("a refused drop", lambda d: d.drop(3), (1, 2)),
    ]:
        world = at_slot(COA, 5)
        call(world)
        yield name, world, wanted


def directed():
    """The schedulers of all these cases, each job run to its end."""
    made = [row[0] for row in written(CLAUSES + FOLLOWED)]
    made += [row[1] for rows in (valued(), half_hashed(), other_tables(), disturbed()) for row in rows]
    for world in made:
        for job in world.in_use[::-1]:
            world.finish(job)
        yield world
