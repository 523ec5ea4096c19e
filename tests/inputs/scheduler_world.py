"""A list of calls on the stepwise model: what each was given and what it left, kept to be held beside another."""
from typing import NamedTuple

from tests.inputs.byte_runs import sample
from tests.inputs.packets import GATE
from tests.models import scheduler_model
from tests.models.scheduler_calls import PART, STORE, Drop, End, Open, Start, Step
from tests.models.scheduler_model import After

STALE = sample(16384, STORE)  # a store before the first call
BUFFER = sample(4097, 4096)  # a reply buffer


class Turn(NamedTuple):
    asked: tuple
    table: bytes  # as lent
    store: bytes
    after: After


class World:
    """table and store are the caller's: to write to them between calls is an outside write."""

    def __init__(self, table, gate=GATE, store=STALE):
        self.gate, self.table, self.store, self.turns = gate, table, store, []
        _, self.scheduler = scheduler_model.make(*gate)

    def copy(self):
        """Another that had the same calls."""
        other = World(self.table, self.gate, self.store)
        other.scheduler, other.turns = self.scheduler, self.turns[:]
        return other

    def call(self, asked, table=None, store=None):
        """What is told. A table or store that is given is lent for this call alone, to be refused."""
        lent = self.table if table is None else table, self.store if store is None else store
        after = scheduler_model.call(self.scheduler, *lent, asked)
        self.turns.append(Turn(asked, *lent, after))
        self.scheduler = after.scheduler
        self.table = after.table if table is None else self.table
        self.store = after.store if store is None else self.store
        return after.told

    def open(self, packet, clock):
        return self.call(Open(packet, clock))

    def step(self, job, times=1):
        """What the last of these steps told."""
        for _ in range(times):
            told = self.call(Step(job, BUFFER))
        return told

    def finish(self, job):
        """How many steps the job takes to its end, and what the last tells."""
        for steps in range(1, 1000):
            told = self.step(job)
            if told.answer != 600:
                return steps, told
        return None, None

    def drop(self, job):
        return self.call(Drop(job))

    def start(self, session):
        return self.call(Start(session))

    def end(self, slot):
        return self.call(End(slot))

    def write(self, job, p):
        """An outside write: the front of the job's part of the store."""
        self.store = self.store[:PART * job] + p + self.store[PART * job + len(p):]

    @property
    def jobs(self):
        return self.scheduler.jobs

    @property
    def in_use(self):
        return scheduler_model.in_use(self.scheduler)
