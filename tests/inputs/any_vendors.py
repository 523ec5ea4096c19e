"""Values of a type 26, drawn by chance: rates in groups, something wrong in them, bytes that are damaged."""
from tests.inputs.vendor_items import DOWN, OURS, RATES, UNFIT, UNFIT_LAST, UP, group, item, nested
from tests.models.table_model import number

GROUPS = [0, 0, 1, 2, 3, 4]  # that a rate stands in
NAMED = [[DOWN], [UP], [DOWN, UP], [UP, DOWN]]


def any_rate(rng, name):
    return item(1 if name == DOWN else 2, number(rng.choice([*RATES, rng.randrange(2**32)])))


def any_items(rng, names):
    """Items that set these rates, in one place or each in groups of its own, now and then with groups that hold none."""
    rates = [any_rate(rng, name) for name in names]
    if rng.random() < 0.5:
        runs = [nested(b"".join(rates), rng.choice(GROUPS))]
    else:
        runs = [nested(rate, rng.choice(GROUPS)) for rate in rates]
    runs += [nested(b"", rng.randint(1, 4)) for _ in range(rng.choice([0, 0, 0, 1, 2]))]
    rng.shuffle(runs)
    return b"".join(runs)


def any_fit(rng):
    """A value that sets a rate, or both."""
    return OURS + any_items(rng, rng.choice(NAMED))


def any_without_rate(rng):
    return OURS + any_items(rng, [])


def of_another_vendor(rng):
    """One bit or any bytes of the vendor number are others; its items may be what they like."""
    other = int.from_bytes(OURS, "big") ^ rng.choice([1 << rng.randrange(32), rng.randrange(1, 2**32)])
    return number(other) + rng.choice([b"", any_items(rng, [DOWN]), rng.randbytes(rng.randrange(60))])


def with_unfit(rng):
    """Items of which one is unfit; more may come after the groups that it stands in, but nothing after one that has to be last."""
    is_last, groups = rng.random() < 0.5, rng.choice(GROUPS)
    bad = rng.choice([one for all_bad in (UNFIT_LAST if is_last else UNFIT).values() for one in all_bad])
    before, after = rng.choice([b"", any_rate(rng, DOWN)]), b"" if is_last else rng.choice([b"", any_rate(rng, UP), group()])
    return nested(before + bad + after, groups) + rng.choice([b"", group() * 2 if groups else b""])


def any_unfit(rng):
    """A value that is 404: too short, an unfit item, a rate twice, a fifth group."""
    name = rng.choice([DOWN, UP])
    return rng.choice([
        rng.randbytes(rng.randrange(4)),
        OURS[:rng.randrange(4)],
        OURS + with_unfit(rng),
        OURS + any_items(rng, [name]) + any_items(rng, [name]),
        OURS + group(any_rate(rng, name), nested(any_rate(rng, name), rng.randint(0, 3))),
        OURS + nested(rng.choice([b"", any_rate(rng, name)]), rng.randint(5, 9)),
    ])


def damaged(rng, value):
    """A byte altered, put in, taken out or doubled."""
    at, byte = rng.randrange(len(value) + 1), bytes([rng.choice([0, 1, 2, 3, 4, 6, 8, 255, rng.randrange(256)])])
    before, after = value[:at], value[at:]
    return rng.choice([before + byte + after[1:], before + byte + after, before + after[1:], before + after[:1] + after])


def any_value(rng):
    """Mostly one that sets a rate, damaged now and then."""
    value = rng.choices([any_fit, any_without_rate, of_another_vendor, any_unfit], [6, 1, 1, 2])[0](rng)
    for _ in range(rng.choice([0, 0, 1, 2])):
        value = damaged(rng, value)
    return value[:253]
