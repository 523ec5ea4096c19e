"""What a type 26 can hold: its items, every small tree of them, and items that are unfit."""
from itertools import product

from tests.inputs.packets import attribute
from tests.models.table_model import number

OURS = number(32473)
DOWN, UP = "down", "up"  # leaves of a tree; a tuple is a group
MOST_ITEMS = 6  # of a tree: five groups in each other and a rate in the last
RATES = [0, 1, 212, 64000, 65535, 65536, 2**31, 2**32 - 1]


def item(kind, value=b"", length=None):
    """The length may be a wrong one."""
    return bytes([kind, len(value) + 2 if length is None else length]) + value


def down(rate=64000):
    return item(1, number(rate))


def up(rate=65536):
    return item(2, number(rate))


def group(*inside):
    return item(3, b"".join(inside))


def nested(run, groups):
    """The run in so many groups, one in the other."""
    for _ in range(groups):
        run = group(run)
    return run


def vendor(*items, of=OURS):
    """The attribute."""
    return attribute(26, of + b"".join(items))


def trees(size):
    """Every item with so many items in all, itself counted."""
    yield from [DOWN, UP] if size == 1 else []
    yield from forests(size - 1)


def forests(size):
    """Every list with so many items in all, those inside its groups counted."""
    if size == 0:
        yield ()
    for first in range(1, size + 1):
        for tree, rest in product(trees(first), list(forests(size - first))):
            yield tree, *rest


def leaves(forest):
    """The rates of a tree's list, as they come."""
    return [leaf for tree in forest for leaf in ([tree] if isinstance(tree, str) else leaves(tree))]


def depth(forest):
    """How many groups stand in each other."""
    return max([0 if isinstance(tree, str) else 1 + depth(tree) for tree in forest], default=0)


def written(forest, rates):
    """The bytes of a tree's list; each rate takes the next of these numbers."""
    return b"".join(item(1 if tree == DOWN else 2, number(next(rates))) if isinstance(tree, str) else group(written(tree, rates)) for tree in forest)


# Unfit wherever they stand: by what is wrong with them.
UNFIT = {
    "another item": [item(kind, value) for kind in (0, 4, 5, 6, 26, 127, 128, 255) for value in (b"", bytes(4), down())],
    "length 0": [item(kind, value, 0) for kind in (0, 1, 2, 3, 255) for value in (b"", bytes(4))],
    "length 1": [item(kind, value, 1) for kind in (0, 1, 2, 3, 255) for value in (b"", bytes(4))],
    "a rate of another length": [item(kind, bytes(size)) for kind in (1, 2) for size in (0, 1, 3, 5, 6, 8, 16, 40)],
}
# Unfit where they are last in their list; what comes after it, further out, would fit.
UNFIT_LAST = {
    "a lone byte": [bytes([kind]) for kind in (0, 1, 2, 3, 4, 255)],
    "a rate past its list": [rate[:-over] for rate in (down(), up()) for over in (1, 2, 3, 4)],
    "a group past its list": [item(3, inside, 2 + len(inside) + over) for inside in (b"", up(), group()) for over in (1, 2, 4, 8, 200)],
    "a length of 255": [item(kind, b"", 255) for kind in (1, 2, 3, 4)],
}


def placed(bad, is_last):
    """An unfit item in none to four groups, alone and among others in its list, with and without more after each of the groups."""
    other = up(7) if bad[0] == 1 else down(7)
    befores, afters = [b"", other, group()], [b""] if is_last else [b"", group()]
    for groups, before, after, outside in product(range(5), befores, afters, [b"", group(), group() * 2, group(group())]):
        run = before + bad + after
        for _ in range(groups):
            run = group(run) + outside
        yield run


def unfit():
    """What is wrong, and the items of a type 26 that is 404 for nothing else."""
    for by_name, is_last in [(UNFIT, False), (UNFIT_LAST, True)]:
        for name, all_bad in by_name.items():
            yield from [(name, run) for bad in all_bad for run in placed(bad, is_last)]
