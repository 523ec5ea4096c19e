"""Seeded lists of calls on a scheduler: opens of packets of every outcome, steps in any order, drops, starts, ends, and refused calls."""
from tests.inputs.handler_drafts import HOUSES, LAST, Draft, resident
from tests.inputs.handler_faults import FAULTS
from tests.inputs.packets import CLOCK, attribute
from tests.inputs.scheduler_world import World
from tests.inputs.tables import BEYOND, OTHER_LENGTHS, full, seeded, session
from tests.models import table_model
from tests.models.packet_model import Gate
from tests.models.scheduler_calls import STORE, Drop, End, Open, Start, Step

OTHER_STORES = [0, 1, 4096, STORE - 1, STORE + 1]  # R5
PACKET_FAULTS = [put for number, put in FAULTS if number is None or number > 100]
SLOTS = [slot for slot in BEYOND if slot <= LAST]
BUFFERS = [seeded("a reply buffer", size).randbytes(size) for size in (4096, 4096, 4097, 5000)]
SHORT = [buffer[:size] for buffer, size in zip(BUFFERS * 2, (0, 1, 20, 2048, 4095))]  # R4
ANSWERS = {  # what the lists must come to, each often
    Open: [0, 5, 6, 101, 102, 103],
    Step: [0, 1, 4, 5, 7, 104, 105, 106, 401, 402, 403, 404, 405, 503, 506, 600],
    Drop: [0, 7],
    Start: [0, 1, 8, 9, 10],
    End: [0, 1, 11],
}
OFTEN = 5  # so many times at least


def fields(content):
    """The session of a live slot."""
    numbers = {name: int.from_bytes(table_model.field(content, name), "big") for name in table_model.NUMBERS}
    return numbers | {name: table_model.field(content, name) for name in table_model.TEXTS}


def sessions(table):
    slots = [table_model.slot(table, k) for k in range(table_model.slot_count(table))]
    return [fields(content) for content in slots if table_model.live(content)]


class Posted(Draft):
    """A packet to be opened on a scheduler, for a session that is there now."""

    def __init__(self, rng, world, clock):
        self.world, self.clock = world, clock
        super().__init__(rng)

    def surroundings(self):
        self.secret, self.address, self.name = self.world.gate
        return self.rng.choice(sessions(self.world.table) or [resident(self.rng)])


def lengthen(d):
    """Proxy-States, to a Length of up to 4,096."""
    room = 4076 - sum(map(len, d.parts + d.stamps))
    d.parts += [attribute(33, d.rng.randbytes(253)) for _ in range(room // 255)]
    if room % 255 > 2:
        d.parts.append(attribute(33, d.rng.randbytes(room % 255 - 2)))


def posted(rng, world, clock):
    draft = Posted(rng, world, clock)
    for put in rng.sample(PACKET_FAULTS, rng.choice([0, 0, 0, 0, 1, 1, 1, 2])):
        put(draft)
    if rng.random() < 0.02:
        lengthen(draft)
    return draft.packet()


def any_gate(rng):
    return Gate(rng.randbytes(rng.choice([1, 9, 16, 63, 64])), rng.randrange(2**32), rng.randbytes(rng.choice([1, 6, 31, 32])))


def any_table(rng):
    """A house, now and then one with no free slot, or of no table's length."""
    table, _ = rng.choice(HOUSES)
    among = rng.random()
    return full(rng, rng.choice([1, 2, 3, 5, 64])) if among < 0.1 else (table * 101)[:rng.choice(OTHER_LENGTHS)] if among < 0.15 else table


class Seeded:
    """One list, call by call."""

    def __init__(self, *seed):
        self.rng = rng = seeded("a list of calls", *seed)
        self.world = World(any_table(rng), any_gate(rng), rng.randbytes(rng.choice(OTHER_STORES) if rng.random() < 0.02 else STORE))
        self.clock = rng.choice([0, 300, CLOCK, LAST - 300, rng.randrange(2**32)])
        self.job, self.steps = 0, 0  # steps that are still to be taken in one go

    def any_open(self):
        self.clock = min(LAST, self.clock + self.rng.choice([0, 0, 1, 300]))
        return Open(posted(self.rng, self.world, self.clock), self.clock)

    def any_session(self):
        rng = self.rng
        one = resident(rng) if rng.random() < 0.7 else session(rng)
        if rng.random() < 0.6:
            one["id"] = rng.randbytes(8)
        if rng.random() < 0.15:
            name, (_, low, high) = rng.choice(list(table_model.TEXTS.items()))
            one[name] = bytes(rng.choice([high + 1, 255, 300] + [0] * low))  # R8
        return one

    def any_end(self):
        rng = self.rng
        slots = table_model.slot_count(self.world.table)
        return End(rng.choice([slots, LAST, *SLOTS]) if rng.random() < 0.1 or slots == 0 else rng.randrange(slots))

    def any_job(self):
        """One in use; a free one or a number of no job now and then."""
        rng = self.rng
        return rng.choice(self.world.in_use or range(4)) if rng.random() < 0.97 else rng.choice([0, 1, 2, 3, 4, 5, 255, 256, LAST])

    def next_step(self):
        if self.steps == 0 or self.job not in self.world.in_use:
            self.job, self.steps = self.any_job(), self.rng.choice([1, 1, 1, 2, 5, 20, 70, 140] if table_model.slot_count(self.world.table) else [1])
        self.steps -= 1
        return Step(self.job, self.rng.choice(SHORT if self.rng.random() < 0.003 else BUFFERS))

    def next_call(self):
        rng = self.rng
        if self.steps and rng.random() < 0.98:
            return self.next_step()
        missing = 4 - len(self.world.in_use)
        kind = rng.choices(["open", "step", "drop", "start", "end"], [2 + 6 * missing, 25 if missing < 4 else 2, 1, 3, 3])[0]
        if kind == "open":
            return self.any_open()
        if kind == "drop":
            return Drop(self.any_job())
        return Start(self.any_session()) if kind == "start" else self.any_end() if kind == "end" else self.next_step()

    def one(self):
        """One call, made; a store of another length is lent now and then."""
        store = self.rng.randbytes(self.rng.choice(OTHER_STORES)) if self.rng.random() < 0.003 else None
        self.world.call(self.next_call(), store=store)
        return self.world.turns[-1]

    def turns(self, length):
        """So many calls, and then steps in any order until every job is finished, where the table and the store let them."""
        for _ in range(length):
            yield self.one()
        while self.world.in_use and table_model.slot_count(self.world.table) and len(self.world.store) == STORE:
            self.world.call(Step(self.rng.choice(self.world.in_use), self.rng.choice(BUFFERS)))
            yield self.world.turns[-1]
