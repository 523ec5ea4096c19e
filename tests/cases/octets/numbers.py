"""Numbers in two and four bytes, high byte first."""
from tests.harness.probe import cell
from tests.inputs.byte_runs import FAR, sample

RUNS = range(21)
BAD_WIDTHS = [0, 1, 3, 5, 6, 8, 16, 2**16 + 2, 2**31, 2**32 - 2, 2**32 - 1]
VALUES = [0, 1, 255, 256, 258, 32768, 65535, 65536, 65748, 2**24 - 1, 2**24, 2**31, 2**32 - 1]
EXAMPLE = b"\x00\x01\x00\xd4"  # 65,748


def places(length):
    """Every place in a run, and some after it."""
    return [*range(length + 6), *FAR]


def read(probe, tally):
    before = 0xEEEEEEEE
    for length in RUNS:
        for run in [sample(length, length), bytes(length), b"\xff" * length]:
            for at in places(length):
                for width in [2, 4]:
                    good = at + width <= length
                    value = int.from_bytes(run[at:at + width], "big") if good else before
                    wanted = (0 if good else 1, run, cell(value))
                    got = probe("number", run, at, width, cell(before))
                    tally.same(got, wanted, "length", length, "at", at, "width", width)


def written(probe, tally):
    for length in RUNS:
        before = sample(length, length)
        for at in places(length):
            for width in [2, 4]:
                for value in VALUES:
                    good = at + width <= length and value < 256**width
                    after = before[:at] + value.to_bytes(width, "big") + before[at + width:] if good else before
                    got = probe("put", before, at, width, value)
                    tally.same(got, (0 if good else 1, after), "length", length, "at", at, "width", width, "v", value)


def widths(probe, tally):
    run, before = sample(1, 20), cell(0xEEEEEEEE)
    for width in BAD_WIDTHS:
        for at in places(20):
            tally.same(probe("number", run, at, width, before), (1, run, before), "read at", at, "width", width)
            tally.same(probe("put", run, at, width, 1), (1, run), "written at", at, "width", width)


def example(probe, tally):
    tally.same(probe("number", EXAMPLE, 0, 4, cell(0)), (0, EXAMPLE, cell(65748)), "65,748 read")
    tally.same(probe("put", bytes(4), 0, 4, 65748), (0, EXAMPLE), "65,748 written")
    tally.same(probe("number", EXAMPLE, 2, 2, cell(0)), (0, EXAMPLE, cell(0xD4)), "its low half read")
    tally.same(probe("put", b"\xee" * 4, 0, 2, 65748), (1, b"\xee" * 4), "65,748 does not go in two bytes")


GROUPS = [
    ("numbers read", read),
    ("numbers written", written),
    ("refused: numbers in other than 2 or 4 bytes", widths),
    ("65,748 is 00 01 00 d4", example),
]
