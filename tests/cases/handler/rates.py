"""A type 26 in whole requests: what is answered to it, which bytes of the table it writes, and that it is not returned."""
from collections import Counter
from itertools import product

from tests.compare.handler import handled
from tests.inputs import vendor_requests
from tests.inputs.handler_calls import Call
from tests.inputs.packets import COA, MAC, STAMP, TIMEOUT, USER, attribute, request
from tests.inputs.tables import free, loose, seeded, session
from tests.inputs.vendor_items import RATES, down, nested, up, vendor
from tests.inputs.vendor_requests import KINDS, TABLE, asking
from tests.models.table_model import number

OFTEN = 40  # each outcome of any value comes up so often at least


def all_of(family):
    """One test for each of its requests."""
    def group_of_tests(probe, tally):
        for case, call, answer in family():
            handled(probe, tally, call, *case, answer=answer)
    return group_of_tests


def rates_of(table, k):
    return table[192 * k + 181:192 * k + 185], table[192 * k + 185:192 * k + 189]


def outcome(call, told):
    """The answer; of an ACK, which rates are others than before."""
    if told.answer:
        return str(told.answer)
    names = [name for name, old, new in zip(("down", "up"), rates_of(call.table, 1), rates_of(told.table, 1)) if old != new]
    return " and ".join(["ACK", *names])


def any_values(probe, tally):
    seen = Counter()
    for case, call, _ in vendor_requests.any_values():
        seen[outcome(call, handled(probe, tally, call, *case))] += 1
    for name in ["401", "402", "404", "ACK", "ACK and down", "ACK and up", "ACK and down and up"]:
        print(f"   {name:20}{seen[name]:8,}")
        tally.same(seen[name] >= OFTEN, True, name, "came up", seen[name], "times")


def with_rates(table, rates):
    """The table with these rates, by their place, in Ann's slots, and no other byte altered."""
    for k, (place, rate) in product((1, 3), rates.items()):
        table = table[:192 * k + place] + number(rate) + table[192 * k + place + 4:]
    return table


def written(probe, tally):
    """Bytes 181-184 and 185-188 of every matching session, all 32 bits, high byte first. A rate that is not named stays; so does every other byte."""
    for groups, rate in product(range(5), [*RATES, *[1 << bit for bit in range(32)], 0x01020304]):
        other = rate ^ 0xA5A5A5A5
        for items, rates in [
            (down(rate), {181: rate}), (up(rate), {185: rate}), (down(rate) + up(other), {181: rate, 185: other}),
            (up(rate) + down(other), {185: rate, 181: other}),
        ]:
            told = handled(probe, tally, asking(vendor(nested(items, groups))), "rate", rate, "in", groups, "groups", answer=0)
            tally.same((told.changed, told.table), (2, with_rates(TABLE, rates)), "the table", items.hex(), "in", groups, "groups")
    told = handled(probe, tally, asking(vendor(nested(down(1), 4), nested(up(2), 4))), "each in groups of its own", answer=0)
    tally.same(told.table, with_rates(TABLE, {181: 1, 185: 2}), "each in groups of its own")
    for kind in ("no item", "groups without a rate"):
        told = handled(probe, tally, asking(*KINDS[kind][0], TIMEOUT), kind, answer=0)
        plain = handled(probe, tally, asking(TIMEOUT), "type 27 alone", answer=0)
        tally.same(told.table, plain.table, kind, "beside type 27: only this is written")


def ended(probe, tally):
    """A Disconnect zeroes the rates with the rest of the slot; a slot is live or not whatever stands where the rates are."""
    rng = seeded("rates ended")
    for turn in range(200):
        slot = loose(rng, session(rng, user=b"ann"))[:181] + rng.choice([bytes(11), b"\xff" * 11, rng.randbytes(11)])
        for run, answer in [(slot, 0), (free(rng), 503)]:
            told = handled(probe, tally, Call(run, request(40, [USER, STAMP])), "ended, turn", turn, answer=answer)
            tally.same(told.table, run if answer else bytes(192), "ended, turn", turn)
            handled(probe, tally, Call(run, request(COA, [USER, vendor(down(turn)), STAMP])), "altered, turn", turn, answer=answer)


def returned(probe, tally):
    """No type 26 in a reply: it is as long as that to the same request without one, or with its cause."""
    echoed = [attribute(24, b"state"), attribute(33, b"one"), attribute(33, b"two")]
    for (title, (mine, number, sets)), beside, mac in product(KINDS.items(), [[TIMEOUT], []], [[], [MAC]]):
        told = handled(probe, tally, asking(*mine, *echoed, *beside, *mac), title)
        cause = 6 if told.answer else 0
        tally.same(told.reply_len, 20 + 7 + 5 + 5 + cause + 18 * len(mac), title, "beside", len(beside), "the reply's length")
        tally.same(told.answer, number or (0 if sets or beside else 402), title, "beside", len(beside))


GROUPS = [
    ("handle, type 26: every list of up to six rates and groups", all_of(vendor_requests.every_tree)),
    ("handle, type 26: every unfit item in none to four groups", all_of(vendor_requests.every_unfit)),
    ("handle, type 26: each byte as each other value", all_of(vendor_requests.every_damage)),
    ("handle, type 26: lengths 2 to 6, 254 and 255", all_of(vendor_requests.every_length)),
    ("handle, type 26: other vendors", all_of(vendor_requests.every_vendor)),
    ("handle, type 26: two and three of them", all_of(vendor_requests.every_pair)),
    ("handle, type 26: beside every change and every cause", all_of(vendor_requests.every_order)),
    ("handle, type 26: any values, each outcome often", any_values),
    ("handle, type 26: the bytes written", written),
    ("handle, type 26: sessions with any rates", ended),
    ("handle, type 26: not returned", returned),
]
