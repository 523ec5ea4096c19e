"""Texts compared from the last byte on, and the byte pairs compared: beside the second implementation."""
from tests.harness.probe import cell64
from tests.inputs.byte_runs import changed, sample
from tests.models.text_model import compared

LENGTHS = range(64)  # of a text in a slot: 0 to 63 bytes
BEFORE = 2**63 - 1  # what stands where the count is written


def held(probe, tally, a, b, *case):
    """The call beside the second implementation; both texts stay as they were."""
    same, pairs = compared(a, b)
    tally.same(probe("compare", a, b, cell64(BEFORE)), (int(same), a, b, cell64(pairs)), *case)


def same_texts(probe, tally):
    for length in LENGTHS:
        for text in (sample(length, length), bytes(length), b"\xff" * length):
            held(probe, tally, text, text, "the same, length", length)


def first_unequal(probe, tally):
    """At every place, with all bytes before it the same or all others."""
    for length in LENGTHS:
        a = sample(length, length)
        flipped = bytes(x ^ 0x80 for x in a)
        for place in range(length):
            b = changed(a, place, 1 << place % 8)
            held(probe, tally, a, b, "length", length, "differ at", place)
            held(probe, tally, a, flipped[:place] + b[place:], "length", length, "differ up to", place)


def unequal_lengths(probe, tally):
    longest = sample(1, LENGTHS[-1])
    for m in LENGTHS:
        for n in LENGTHS:
            if m != n:
                held(probe, tally, longest[:m], longest[:n], "the same first bytes, lengths", m, n)
                held(probe, tally, longest[len(longest) - m:], longest[len(longest) - n:], "the same last bytes, lengths", m, n)


GROUPS = [
    ("texts compared: the same", same_texts),
    ("texts compared: the first unequal byte at every place", first_unequal),
    ("texts compared: all unequal lengths to 63", unequal_lengths),
]
