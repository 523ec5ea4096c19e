"""Counts how calls of the handler came out, by request code. One that is missing fails the run."""
from collections import Counter

from tests.inputs.packets import COA, DISCONNECT
from tests.models import vendor_model
from tests.models.packet_model import attributes
from tests.models.table_model import field, live, slot, slot_count

BOTH, CODES = ("Disconnect", "CoA"), {DISCONNECT: "Disconnect", COA: "CoA"}
OUTCOMES = {name: BOTH for name in (
    "R1", "R2", "R3", "R4", "D1", "D3", "D4", "D5", "D6, stale", "D6, no stamp", "401", "405", "404", "403", "402", "503", "ACK")}
OUTCOMES |= {"D2": ("other code",), "506": ("CoA",)}
MORE = {name: BOTH for name in (
    "ACK: 1 session", "ACK: 2 to 9", "ACK: 10 or more", "ACK: a table of 1 slot", "ACK: a table of 64 slots", "ACK: padding",
    "ACK: names share 40 bytes", "reply with State", "reply with Proxy-States", "reply with type 80", "reply with all three", "skew below 0", "skew above 0")}
MORE |= {name: ("CoA",) for name in (
    "ACK: timeout over 16 bits", "ACK: Filter-Id of 32", "ACK: Filter-Id alone", "ACK: 11, 27 and 28", "ACK: type 26 alone", "ACK: down rate",
    "ACK: up rate", "ACK: both rates", "ACK: rate over 16 bits", "ACK: a type 26 without a rate", "ACK: 11, 26, 27 and 28", "401: a type 26",
    "402: a type 26 without a rate", "404: a type 26")}
OFTEN = 20  # each of these comes up so often at least


def outcome(told):
    if told.answer == 106:
        return "D6, stale" if told.stamped else "D6, no stamp"
    first = told.answer // 100
    return "ACK" if told.answer == 0 else f"R{told.answer}" if first == 0 else f"D{told.answer - 100}" if first == 1 else str(told.answer)


def more(call, told):
    """What else is to be seen of a call that was answered with a reply."""
    length = int.from_bytes(call.packet[2:4], "big")
    found = attributes(call.packet, length)
    kinds = [a.kind for a in found]
    yield "skew below 0" if told.skew < 0 else "skew above 0" if told.skew else None
    extras = 24 in kinds, kinds.count(33) > 1, 80 in kinds
    yield from [name for name, on in zip(("reply with State", "reply with Proxy-States", "reply with type 80"), extras) if on]
    yield "reply with all three" if all(extras) else None
    if told.answer == 0:
        yield "ACK: 1 session" if told.changed == 1 else "ACK: 2 to 9" if told.changed < 10 else "ACK: 10 or more"
        slots = slot_count(call.table)
        yield "ACK: a table of 1 slot" if slots == 1 else "ACK: a table of 64 slots" if slots == 64 else None
        others = [field(slot(call.table, k), "user") for k in range(slots) if live(slot(call.table, k))]
        names = [a.value for a in found if a.kind == 1]
        yield "ACK: names share 40 bytes" if any(name != user and name[:40] == user[:40] for name in names for user in others) else None
        yield "ACK: padding" if len(call.packet) > length else None
        yield "ACK: timeout over 16 bits" if any(a.kind in (27, 28) and a.value >= b"\0\1" for a in found) else None
        yield "ACK: Filter-Id of 32" if any(a.kind == 11 and len(a.value) == 32 for a in found) else None
        changes = tuple(sorted({11, 26, 27, 28}.intersection(kinds)))
        yield {(11,): "ACK: Filter-Id alone", (26,): "ACK: type 26 alone", (11, 27, 28): "ACK: 11, 27 and 28",
               (11, 26, 27, 28): "ACK: 11, 26, 27 and 28"}.get(changes)
    yield from [name for a in found if a.kind == 26 for name in of_rates(told.answer, a.value)]


def of_rates(answer, value):
    """What is to be seen of a type 26 in a request that was answered so."""
    rates = vendor_model.rates(value)
    if answer == 0:
        yield ["ACK: a type 26 without a rate", "ACK: up rate" if 2 in rates else "ACK: down rate", "ACK: both rates"][len(rates)]
        yield "ACK: rate over 16 bits" if any(rate >= b"\0\1" for rate in rates.values()) else None
    yield "401: a type 26" if answer == 401 and vendor_model.is_of_another(value) else None
    yield "402: a type 26 without a rate" if answer == 402 and rates == {} else None
    yield "404: a type 26" if answer == 404 and rates is None else None


class Outcomes:
    def __init__(self):
        self.seen = Counter()

    def add(self, call, told):
        code = CODES.get((call.packet or b"\0")[0], "other code")
        self.seen[outcome(told), code] += 1
        if told.reply_len:
            self.seen.update((name, code) for name in more(call, told) if name)

    def judge(self, tally):
        """Prints the counts; one test for each that is to come up."""
        print(f"   {'how calls came out':32}{'Disconnect':>12}{'CoA':>8}{'other code':>12}")
        for name, codes in {**OUTCOMES, **MORE}.items():
            counts = [self.seen[name, code] for code in (*BOTH, "other code")]
            print(f"   {name:32}{counts[0]:12,}{counts[1]:8,}{counts[2]:12,}")
            for code in codes:
                tally.same(self.seen[name, code] >= OFTEN, True, name, "in", code, "came up", self.seen[name, code], "times")
