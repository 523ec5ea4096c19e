"""The tests themselves: a comparison of texts that does one thing wrong is found out."""
from tests.cases.octets.comparisons import GROUPS as CASES
from tests.harness.probe import cell64
from tests.harness.tally import Tally
from tests.models.text_model import compared
from tests.self_tests.quiet import quietly


def right(a, b):
    return compared(a, b)


def from_the_front(a, b):
    return compared(a[::-1], b[::-1])


def one_short(a, b):
    same, pairs = compared(a, b)
    return same, pairs - (0 if same or pairs == 0 else 1)


def one_short_where_equal(a, b):
    same, pairs = compared(a, b)
    return same, max(pairs - 1, 0) if same else pairs


def over_the_shorter_length(a, b):
    n = min(len(a), len(b))
    return compared(a[:n], b[:n])


def over_the_shorter_end(a, b):
    n = min(len(a), len(b))
    return compared(a[len(a) - n:], b[len(b) - n:])


def counts_unequal_lengths(a, b):
    return compared(a, b) if len(a) == len(b) else (False, 1)


def leaves_the_first_byte(a, b):
    same, pairs = compared(a[1:], b[1:])
    return (same, pairs + 1) if len(a) == len(b) and a and same else compared(a, b)


def counts_whole_words(a, b):
    same, pairs = compared(a, b)
    return same, pairs if same else min((pairs + 3) // 4 * 4, len(a))


def counts_equal_pairs_too(a, b):
    """All pairs, also those before the first unequal."""
    return compared(a, b)[0], len(a) if len(a) == len(b) else 0


WRONG = [
    from_the_front, one_short, one_short_where_equal, over_the_shorter_length, over_the_shorter_end, counts_unequal_lengths, leaves_the_first_byte,
    counts_whole_words, counts_equal_pairs_too,
]


def wrong_comparisons(probe, tally):
    for compare in [right, *WRONG]:
        def standing_in(name, a, b, _):
            same, pairs = compare(a, b)
            return int(same), a, b, cell64(pairs)
        inner = Tally()
        for _, group in CASES:
            quietly(group, standing_in, inner)
        tally.same(inner.failed > 0, compare is not right, "a comparison that is", compare.__name__)


GROUPS = [
    ("the tests: a wrong comparison of texts is found out", wrong_comparisons),
]
