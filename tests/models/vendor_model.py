"""A type 26 (Vendor-Specific) in Python, from the words of request 01 of document 02: whose it is, its items, and the rates that it sets."""

VENDOR = (32473).to_bytes(4, "big")
DOWN, UP, GROUP = 1, 2, 3  # items; the third is a list of items itself
DEEPEST = 4  # so many groups may stand in each other


def is_of_another(value):
    """The vendor number is there, and it is not ours."""
    return len(value) >= 4 and value[:4] != VENDOR


def items(run):
    """Type and value of each item of a list; None where they do not fill it, or one has length 0 or 1."""
    found, at = [], 0
    while at < len(run):
        if at + 1 == len(run) or run[at + 1] < 2 or at + run[at + 1] > len(run):
            return None
        found.append((run[at], run[at + 2:at + run[at + 1]]))
        at += run[at + 1]
    return found


def is_rate(kind, value):
    """A down or an up rate, of length 6."""
    return kind in (DOWN, UP) and len(value) == 4


def named(run, groups=0):
    """Each rate of a list that stands in so many groups, and of the groups in it: item and value, as they come; None where an item is unfit."""
    listed, found = items(run), []
    if listed is None:
        return None
    for kind, value in listed:
        if is_rate(kind, value):
            found.append((kind, value))
            continue
        inside = named(value, groups + 1) if kind == GROUP and groups < DEEPEST else None
        if inside is None:
            return None
        found += inside
    return found


def is_repeated(found):
    """A rate twice, wherever the two stand."""
    return len({kind for kind, _ in found}) < len(found)


def rates(value):
    """What a type 26 of ours sets: the four bytes of each rate by its item. None where it is 404: under length 6, or its items are unfit."""
    found = named(value[4:]) if len(value) >= 4 else None
    return None if found is None or is_repeated(found) else dict(found)
