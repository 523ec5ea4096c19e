"""Requests with a type 26, each with the answer that the words of documents 01 and 02 give it; None where the second implementation alone says."""
from itertools import count, product

from tests.inputs.any_vendors import any_value
from tests.inputs.handler_calls import Call
from tests.inputs.packets import COA, CODES, DISCONNECT, MAC, STAMP, TIMEOUT, USER, attribute, request
from tests.inputs.tables import free, loose, seeded, session
from tests.inputs.vendor_items import DOWN, MOST_ITEMS, OURS, UP, depth, down, forests, group, leaves, nested, unfit, up, vendor, written
from tests.models.table_model import number

RNG = seeded("rates")
ANN, BEN = session(RNG, user=b"ann"), session(RNG, user=b"ben")
TABLE = free(RNG, ANN) + loose(RNG, ANN) + loose(RNG, BEN) + loose(RNG, ANN)  # any bytes where the rates are
FORMED = vendor(nested(down(), 4), group(up()), group())
OTHERS = [number(other) for other in (0, 9, 311, 32472, 32474, 0x7ED90000, 0xD97E0000, 0x007ED900, 2**32 - 1)]
ANY_ROUNDS = 5000

# A type 26, or several: the cause that they have by themselves, and whether they set a rate.
KINDS = {
    "no type 26": ([], 0, False),
    "the down rate": ([vendor(down())], 0, True),
    "the up rate": ([vendor(up())], 0, True),
    "both rates in groups": ([vendor(nested(up() + group(down()), 3))], 0, True),
    "no item": ([vendor()], 0, False),
    "groups without a rate": ([vendor(nested(b"", 4), group())], 0, False),
    "an unfit item": ([vendor(down(), b"\1")], 404, False),
    "under length 6": ([attribute(26, OURS[:3])], 404, False),
    "ours twice": ([vendor(), vendor(up())], 404, False),
    "another vendor": ([vendor(down(), of=OTHERS[1])], 401, False),
    "another vendor, an unfit item": ([vendor(b"\1", of=OTHERS[1])], 401, False),
    "ours and another vendor": ([vendor(down()), vendor(of=OTHERS[1])], 401, False),
    "under length 6 and another vendor": ([attribute(26, b""), vendor(of=OTHERS[1])], 401, False),
}
IDLE, FILTER, LONG_FILTER = attribute(28, number(70000)), attribute(11, b"night"), attribute(11, bytes(33))
CHANGES = [[], [TIMEOUT], [IDLE], [FILTER], [TIMEOUT, IDLE, FILTER], [LONG_FILTER], [TIMEOUT, LONG_FILTER]]
FAULTS = [(401, [attribute(2, b"v")]), (405, [attribute(6, bytes(4))]), (404, [attribute(24, b"s")] * 2), (403, [attribute(4, bytes(4))])]


def asking(*parts, code=COA, named=(USER,)):
    return Call(TABLE, request(code, [*named, *parts, STAMP]))


def alone_and_beside(case, attributes, alone, beside):
    """With no other change, and with one."""
    yield (*case, "alone"), asking(*attributes), alone
    yield (*case, "beside type 27"), asking(TIMEOUT, *attributes, MAC), beside


def every_tree():
    """Every list of up to six rates and groups; up to five also beside a type 27."""
    for size in range(MOST_ITEMS + 1):
        for forest in forests(size):
            named, run = leaves(forest), written(forest, count(64000))
            bad = depth(forest) > 4 or named.count(DOWN) > 1 or named.count(UP) > 1
            both = list(alone_and_beside(("items", forest), [vendor(run)], 404 if bad else 0 if named else 402, 404 if bad else 0))
            yield from both[:1 if size == MOST_ITEMS else 2]


def every_unfit():
    for k, (name, run) in enumerate(unfit()):
        yield (name, run.hex()), asking(*[TIMEOUT] * (k % 2), vendor(run)), 404


def every_damage():
    """A rightly formed one with each byte as each other value: its own type and length, the vendor, types, lengths, rates."""
    for at, byte in product(range(len(FORMED)), range(256)):
        if byte != FORMED[at]:
            yield ("byte", at, "is", byte), asking(FORMED[:at] + bytes([byte]) + FORMED[at + 1:]), None


def every_length():
    """Lengths 2 to 6, and the longest."""
    for size, run in product(range(4), [OURS, OTHERS[1], bytes(4), b"\xff" * 4, down()]):
        yield from alone_and_beside(("length", size + 2), [attribute(26, run[:size])], 404, 404)
    yield from alone_and_beside(("length 6",), [vendor()], 402, 0)
    for title, run, sets in [
        ("groups", group() * 124, False), ("a rate after groups", group() * 121 + down(), True),
        ("a group of 248 bytes", group(group() * 120, up()), True), ("the same in two more", nested(group() * 118 + up(), 3), True),
    ]:
        yield from alone_and_beside(("length 254", title), [vendor(run)], 0 if sets else 402, 0)
        yield from alone_and_beside(("length 255", title), [vendor(run, b"\3")], 404, 404)


def every_vendor():
    """Each bit of the vendor number, and others; what follows is not read."""
    for other in [number(32473 ^ 1 << bit) for bit in range(32)] + OTHERS:
        for run in [b"", down(), b"\1", down() + down(), nested(b"", 5), bytes(249)]:
            yield from alone_and_beside(("vendor", other.hex(), run.hex()), [vendor(run, of=other)], 401, 401)


def every_pair():
    """Two and three of them."""
    ours = [vendor(), vendor(down()), vendor(up()), vendor(b"\1"), attribute(26, b""), attribute(26, OURS[:3])]
    others = [vendor(of=OTHERS[0]), vendor(down(), of=OTHERS[4])]
    for several in [*product(ours + others, repeat=2), *product(ours[1:5] + others[1:], repeat=3)]:
        number = 401 if any(one in others for one in several) else 404
        yield from alone_and_beside(("several", b" ".join(several).hex()), several, number, number)
        yield ("several, apart",), asking(several[0], TIMEOUT, attribute(33, b"p"), *several[1:]), number


def first_of(code, causes, lacks):
    """By the order of document 01's list."""
    applying = [*causes, *[402] * lacks]
    return next((number for number in (401, 405, 404, 403, 402, 506) if number in applying), 0)


def every_order():
    """Each kind beside each change, with every set of other causes, in both codes."""
    for code, named, (title, (mine, number, sets)), changes in product(CODES, [[USER], []], KINDS.items(), CHANGES):
        for used in product([False, True], repeat=len(FAULTS)):
            chosen = [fault for fault, on in zip(FAULTS, used) if on]
            causes = [number] + [number for number, _ in chosen] + [506] * (LONG_FILTER in changes)
            causes += [401] * (code == DISCONNECT and mine + changes != [])
            answer = first_of(code, causes, not named or code == COA and not sets and not changes)
            parts = [*changes, *mine, *[part for _, parts in chosen for part in parts]]
            yield (title, "code", code, "causes", causes), asking(*(parts[::-1] if used[0] else parts), code=code, named=named), answer


def any_values():
    rng = seeded("any type 26")
    for k in range(ANY_ROUNDS):
        yield ("round", k), asking(attribute(26, any_value(rng)), *[TIMEOUT] * (rng.random() < 0.2)), None


FAMILIES = [every_tree, every_unfit, every_damage, every_length, every_vendor, every_pair, every_order, any_values]
