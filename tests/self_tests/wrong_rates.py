"""Handlers that do one thing wrong with a type 26, each by what is put in the place of the model's own functions."""
from tests.models import handle_model, packet_model, table_model, vendor_model
from tests.models.packet_model import CHANGES, SUPPORTED, VENDOR_SPECIFIC
from tests.models.vendor_model import VENDOR
from tests.self_tests.rate_readers import IN_ONE_LIST, ITEM, ITS_GROUP, NOWHERE, WITH_OTHER_VALUES, Reader

CAUSE, CHANGED_SLOT, RATES_SET, REPLY_TO, RATES = (
    packet_model.cause, handle_model.changed_slot, handle_model.rates_set, handle_model.reply_to, vendor_model.rates)


def rates_by(reading):
    """The model with another way to read a type 26."""
    return {(vendor_model, "rates"): reading}


def reads(**wrong):
    return rates_by(lambda value: Reader(**wrong).rates(value))


def with_rates(made):
    """The model with something else made of the rates that are set."""
    return {(handle_model, "rates_set"): lambda found: {name: made(rate) for name, rate in RATES_SET(found).items()}}


def written_besides(alter):
    """The model with a slot altered once more where a CoA sets a rate."""
    def changed_slot(content, code, found):
        changed = CHANGED_SLOT(content, code, found)
        return alter(changed, RATES_SET(found)) if code == 43 and RATES_SET(found) else changed
    return {(handle_model, "changed_slot"): changed_slot}


def other_rate_zero(content, rates):
    return table_model.altered(content, {name: 0 for name in table_model.RATES if name not in rates})


def causes_by(judged):
    """The model with other causes: judged from the code, the attributes, the gate."""
    return {(packet_model, "cause"): judged}


def first_alone(code, found, gate):
    """Of several type 26, one is judged for its number."""
    more = [a for a in found if a.kind == VENDOR_SPECIFIC][1:]
    answer = CAUSE(code, found, gate)
    return CAUSE(code, [a for a in found if a not in more], gate) if answer == 404 and more else answer


def items_before_type_6(code, found, gate):
    answer = CAUSE(code, found, gate)
    return 404 if answer == 405 and any(a.kind == VENDOR_SPECIFIC and packet_model.is_invalid(a) for a in found) else answer


def vendor_after_type_6(code, found, gate):
    others = [a for a in found if a.kind == VENDOR_SPECIFIC and vendor_model.is_of_another(a.value)]
    rest = CAUSE(code, [a for a in found if a not in others], gate)
    return 405 if code == 43 and rest == 405 else CAUSE(code, found, gate)


def identity_before_items(code, found, gate):
    answer = CAUSE(code, found, gate)
    rest = CAUSE(code, [a for a in found if a.kind != VENDOR_SPECIFIC], gate)
    return 403 if answer == 404 and rest == 403 else answer


def returned_too(p, found, cause, secret):
    """With the first type 26 among the Proxy-States."""
    mine = [a._replace(kind=33) for a in found if a.kind == VENDOR_SPECIFIC][:1]
    return REPLY_TO(p, found + mine, cause, secret)


WRONG = {  # what is put in the place of ours: (module, name) and the function or number
    "reads a fifth group": reads(deepest=5),
    "reads a fifth group that is empty": reads(takes_empty_fifth=True),
    "reads three groups": reads(deepest=3),
    "takes a rate twice in different groups": reads(repeats=IN_ONE_LIST),
    "takes a rate twice with the same value": reads(repeats=WITH_OTHER_VALUES),
    "takes a rate twice": reads(repeats=NOWHERE),
    "takes a rate of length 7": reads(lengths=(6, 7)),
    "takes a rate of length 5": reads(lengths=(5, 6)),
    "skips items of other types": reads(others=set(range(256)) - {1, 2, 3}),
    "skips an item 0": reads(others={0}),
    "takes an item past its group and goes on after it": reads(goes_on_after=ITEM),
    "takes an item past its group and goes on after the group": reads(goes_on_after=ITS_GROUP),
    "cuts a group at the end of its list": reads(takes_cut_group=True),
    "takes a lone last byte": reads(takes_lone_byte=True),
    "ends a list at length 0": reads(takes_length_0=True),
    "wants an item in each list": reads(least=2),
    "takes another vendor for 404": {(vendor_model, "is_of_another"): lambda value: False} | rates_by(
        lambda value: RATES(value) if value[:4] == VENDOR else None),
    "takes a short type 26 for 401": {(vendor_model, "is_of_another"): lambda value: value[:4] != VENDOR},
    "compares 16 bits of the vendor": {(vendor_model, "is_of_another"): lambda value: len(value) >= 4 and value[2:4] != VENDOR[2:]},
    "judges the items of another vendor": causes_by(lambda code, found, gate: 404 if CAUSE(code, found, gate) == 401 and not any(
        a.kind not in SUPPORTED[code] for a in found) and any(map(packet_model.is_invalid, found)) else CAUSE(code, found, gate)),
    "takes two type 26": causes_by(first_alone),
    "judges items before type 6": causes_by(items_before_type_6),
    "judges the vendor after type 6": causes_by(vendor_after_type_6),
    "judges the NAS before the items": causes_by(identity_before_items),
    "supports type 26 in a Disconnect": {(packet_model, "SUPPORTED"): {43: SUPPORTED[43], 40: SUPPORTED[40] | {VENDOR_SPECIFIC}}},
    "supports no type 26": {(packet_model, "SUPPORTED"): {43: SUPPORTED[43] - {VENDOR_SPECIFIC}, 40: SUPPORTED[40]}},
    "takes a type 26 without a rate for a change": {(packet_model, "is_change"): lambda a: a.kind in CHANGES},
    "takes a rate for no change": {(packet_model, "is_change"): lambda a: a.kind in CHANGES - {VENDOR_SPECIFIC}},
    "swaps down and up": {(handle_model, "RATE_SET_BY"): {1: "up", 2: "down"}},
    "keeps 16 bits of a rate": with_rates(lambda rate: b"\0\0" + rate[2:]),
    "writes a rate with its low byte first": with_rates(lambda rate: rate[::-1]),
    "writes no rate": {(handle_model, "rates_set"): lambda found: {}},
    "writes byte 189": written_besides(lambda content, rates: content[:189] + b"\0" + content[190:]),
    "writes bytes 189 to 191": written_besides(lambda content, rates: content[:189] + bytes(3)),
    "writes byte 180": written_besides(lambda content, rates: content[:180] + b"\0" + content[181:]),
    "writes zero to a rate that is not named": written_besides(other_rate_zero),
    "returns a type 26": {(handle_model, "reply_to"): returned_too},
}
