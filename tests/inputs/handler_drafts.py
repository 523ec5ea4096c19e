"""Calls that will be acknowledged, to put faults into: the same in every run."""
from tests.harness.probe import NULL
from tests.inputs.any_vendors import any_fit, any_without_rate
from tests.inputs.handler_calls import Call
from tests.inputs.packets import CLOCK, COA, CODES, MAC, attribute, request, stamp
from tests.inputs.tables import free, loose, seeded, session
from tests.models.packet_model import Gate
from tests.models.table_model import number

LAST = 2**32 - 1
TYPES = {1: "user", 5: "port", 8: "address", 31: "station", 44: "id"}
TIMEOUTS = [0, 212, 65535, 65536, 65748, LAST]
USERS = [b"tablet@room-9.ward-3.home-of-the-oak.example"[:40] + end for end in (b"", b"a", b"b", b"ab")]  # that share 40 bytes
PORTS, ADDRESSES = [7, 7 + 65536], [0x0A000007, 0x0A010007]  # that share 16 bits
SHORT = [b"\0", b"\0\0\0", b"Oak", b"Oak\0"]


def resident(rng):
    """A session of a small world, so that sessions share fields."""
    return session(
        rng,
        user=rng.choice(USERS),
        port=rng.choice(PORTS),
        address=rng.choice(ADDRESSES),
        station=rng.choice([b"", b"02-00-5E", b"02-00-5E-10-00-01", *SHORT]),
        id=rng.choice([b"4F", b"0000004F", b"0000004F" * 4, *SHORT]),
    )


def house(slots, turn):
    """A table and a live session in it, among others that share its fields, near misses and slots of any bytes."""
    rng = seeded("a house", slots, turn)
    people = [resident(rng) for _ in range([1, 3, 12, 40][turn])]
    mine = rng.choice(people)
    run = [loose(rng, one) if rng.random() < 0.75 else free(rng, one) for one in rng.choices(people, k=slots)]
    run[rng.randrange(slots)] = loose(rng, mine)
    return b"".join(run), mine


HOUSES = [house(slots, turn) for slots in range(1, 65) for turn in range(4)]


class Draft:
    """The parts of a call, until `call` puts them together."""

    def __init__(self, rng):
        self.rng = rng
        self.code, self.identifier = rng.choice(CODES), rng.randrange(256)
        mine = self.surroundings()
        self.parts = self.criteria(mine) + (self.changes() if self.code == COA else []) + self.others()
        self.stamps = [stamp(self.near(rng.choice([0, 0, 1, -1, 300, -300, rng.randint(-300, 300)])))]
        self.tail = b""  # attributes that do not tile
        self.damage = []  # what is done to the signed packet
        self.padding = rng.randbytes(rng.choice([0, 0, 0, 1, 40, 5000]))

    def surroundings(self):
        """Draws the gate, reply buffer, clock and table; returns a session that is in the table."""
        rng = self.rng
        self.secret = rng.randbytes(rng.choice([1, 9, 16, 63, 64]))
        self.address, self.name = rng.randrange(2**32), rng.randbytes(rng.choice([1, 6, 31, 32]))
        self.reply = rng.randbytes(rng.choice([4096, 4096, 4097, 5000]))
        self.clock = rng.choice([0, 300, CLOCK, CLOCK, LAST - 300, LAST, rng.randrange(2**32)])
        self.table, mine = rng.choice(HOUSES)
        return mine

    def near(self, off):
        """A stamp this far from the clock, or as far on the other side where there is none."""
        return self.clock + off if 0 <= self.clock + off <= LAST else self.clock - off

    def criteria(self, mine):
        values = {kind: number(mine[name]) if kind in (5, 8) else mine[name] for kind, name in TYPES.items()}
        chosen = [kind for kind, value in values.items() if value and self.rng.random() < 0.4] or [self.rng.choice([1, 5, 8, 44])]
        return [attribute(kind, values[kind]) for kind in chosen]

    def changes(self):
        rng = self.rng
        sets = [
            attribute(27, number(rng.choice([*TIMEOUTS, rng.randrange(2**32)]))),
            attribute(28, number(rng.choice([*TIMEOUTS, rng.randrange(2**32)]))),
            attribute(11, rng.randbytes(rng.choice([1, 8, 31, 32, rng.randint(1, 32)]))),
        ]
        rates, least = rng.choices([([], 1), ([attribute(26, any_fit(rng))], 0), ([attribute(26, any_without_rate(rng))], 1)], [5, 4, 1])[0]
        return rng.sample(sets, rng.randint(least, 3)) + rates

    def others(self):
        rng = self.rng
        states = [attribute(33, rng.randbytes(rng.choice([1, 2, 12, 253]))) for _ in range(rng.choice([0, 0, 1, 2, 5]))]
        extra = [attribute(24, rng.randbytes(rng.choice([1, 8, 253]))), attribute(4, number(self.address)), attribute(32, self.name), MAC]
        return states + [part for part in extra if rng.random() < 0.35]

    def without(self, *kinds):
        self.parts = [part for part in self.parts if part[0] not in kinds]

    def packet(self):
        parts = self.parts + self.stamps
        self.rng.shuffle(parts)
        parts += [self.tail] if self.tail else []
        p = request(self.code, parts, Gate(self.secret, self.address, self.name), self.identifier) + self.padding
        for damaged in self.damage:
            p = damaged(p)
        return p

    def call(self):
        """The call; a run of no bytes is NULL now and then."""
        call = Call(self.table, self.packet(), self.secret, self.address, self.name, self.reply, self.clock)
        return Call(*[NULL if field == b"" and self.rng.random() < 0.5 else field for field in call])
