"""Seeded lists of calls with outside writes in between: to packets in the store, to other bytes of it, and to the table."""
from tests.inputs.alterations import CLAUSES, FOLLOWED
from tests.inputs.handler_drafts import HOUSES, resident
from tests.inputs.packets import flipped
from tests.inputs.scheduler_lists import Seeded
from tests.inputs.tables import OTHER_LENGTHS, free, loose
from tests.models import table_model
from tests.models.packet_model import bad_form, length_of
from tests.models.scheduler_calls import PART, STORE
from tests.models.scheduler_model import CHECK, HASH, MATCH, part


class Altered(Seeded):
    """One list, call by call. written: what was written since the last step of each job."""

    def __init__(self, *seed):
        super().__init__("altered", *seed)
        self.world.table = self.world.table[:192 * self.rng.choice([1, 5, 12, 64])]  # mostly short, for many commits
        self.posted = {}  # each job's packet as it was opened
        self.written = {}

    def job_to_alter(self):
        """Mostly the one whose steps are under way."""
        return self.job if self.job in self.world.in_use and self.rng.random() < 0.7 else self.rng.choice(self.world.in_use)

    def alter_packet(self, write):
        k = self.job_to_alter()
        p = part(self.world.store, k)
        if bad_form(p) == 0:
            p = p[:length_of(p)]
            self.world.write(k, write.written(p)[:PART])
            self.written[k] = write.name

    def alter_clause(self):
        self.alter_packet(self.rng.choice(CLAUSES))

    def alter_value(self):
        self.alter_packet(self.rng.choice(FOLLOWED))

    def put_back(self):
        k = self.job_to_alter()
        self.world.write(k, self.posted[k])

    def alter_bit(self):
        k = self.job_to_alter()
        self.world.write(k, flipped(part(self.world.store, k), self.rng.randrange(8 * self.world.jobs[k].length)))

    def alter_other_bytes(self):
        at, run = self.rng.randrange(STORE - 100), self.rng.randbytes(self.rng.randrange(100))
        self.world.store = self.world.store[:at] + run + self.world.store[at + len(run):]

    def alter_slot(self):
        rng, table = self.rng, self.world.table
        k = rng.randrange(table_model.slot_count(table))
        old = table_model.slot(table, rng.randrange(table_model.slot_count(table)))
        new = rng.choice([old, bytes(192), loose(rng, resident(rng)), free(rng), flipped(old, rng.randrange(192 * 8))])
        self.world.table = table_model.with_slot(table, k, new)

    def alter_size(self):
        slots = max(1, min(64, table_model.slot_count(self.world.table) + self.rng.choice([-30, -3, -1, 1, 2, 20])))
        self.world.table = (self.world.table + self.rng.choice(HOUSES)[0] * 64)[:192 * slots]

    def alter(self):
        kinds = [self.alter_clause, self.alter_value, self.put_back, self.alter_bit, self.alter_other_bytes, self.alter_slot, self.alter_size]
        self.rng.choices(kinds, [8, 6, 4, 1, 1, 5, 2])[0]()

    def chance(self):
        """Of a write: high before the Check and the Commit of the job whose steps are under way, since these are rare."""
        near = self.steps and self.job in self.world.in_use and stage(self.world.jobs[self.job], self.world.table) in ("Check", "Commit")
        return 0.3 if near else 0.03

    def one(self):
        """One call, with something written before it now and then; a table of no table's length may be lent for it."""
        world, rng = self.world, self.rng
        if world.in_use and len(world.store) == STORE and table_model.slot_count(world.table) and rng.random() < self.chance():
            self.alter()
        table = (world.table * 101)[:rng.choice(OTHER_LENGTHS)] if rng.random() < 0.003 else None
        asked = self.next_call()
        told = world.call(asked, table)
        if type(asked).__name__ == "Open" and told.answer == 0:
            self.posted[told.count] = asked.packet[:length_of(asked.packet)]
        return world.turns[-1]


def stage(job, table):
    """What the next step of a job is."""
    if job.kind == MATCH:
        return "Match" if job.place < table_model.slot_count(table) else "Commit"
    return {HASH: "Hash", CHECK: "Check"}.get(job.kind, "none")
