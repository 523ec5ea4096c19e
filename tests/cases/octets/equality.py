"""Equality of byte runs: any, and of authenticators."""
from tests.inputs.byte_runs import changed, sample


def equal(probe, tally):
    for length in [*range(41), 255, 256, 257, 1000]:
        a = sample(length, length)
        tally.same(probe("equal", a, a), (1, a, a), "the same", length)
        for place in range(length):
            b = changed(a, place, 1 << place % 8)
            tally.same(probe("equal", a, b), (0, a, b), "length", length, "differ at", place)
        for more in [1, 2, 8]:
            b = a + bytes(more)
            tally.same(probe("equal", a, b), (0, a, b), "lengths", length, length + more)
            tally.same(probe("equal", b, a), (0, b, a), "lengths", length + more, length)


def equal16(probe, tally):
    for seed in range(4):
        a = sample(seed, 16)
        tally.same(probe("equal16", a, a), (1, a, a), "the same")
        for place in range(16):
            for bit in range(8):
                b = changed(a, place, 1 << bit)
                tally.same(probe("equal16", a, b), (0, a, b), "differ at", place, "bit", bit)
                for other in range(place):  # two differences must not cancel
                    c = changed(b, other, 1 << bit)
                    tally.same(probe("equal16", a, c), (0, a, c), "differ at", other, place, "bit", bit)


def not16(probe, tally):
    for m in range(41):
        for n in range(41):
            if (m, n) != (16, 16):
                a, b = sample(1, m), sample(1, n)
                tally.same(probe("equal16", a, b), (2, a, b), "lengths", m, n)


GROUPS = [
    ("equal, each byte that can differ", equal),
    ("equal16, each bit and each two bytes", equal16),
    ("equal16 of other lengths than 16", not16),
]
