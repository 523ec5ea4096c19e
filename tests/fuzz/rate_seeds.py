"""Requests in which a type 26 decides, one for each way of tests/fuzz/model.h, by the names that seen.sh asks for."""
from tests.inputs.packets import attribute
from tests.inputs.vendor_items import OURS, down, group, item, nested, up, vendor
from tests.models.table_model import number

DECIDING = [
    ("another-vendor", [vendor(down(), of=number(9))]),
    ("another-vendor", [vendor(down()), vendor(of=number(32474))]),
    ("under-length-6", [attribute(26, b"")]),
    ("under-length-6", [attribute(26, OURS[:3])]),
    ("twice", [vendor(down()), vendor(up())]),
    ("other-item", [vendor(item(4, bytes(4)))]),
    ("other-item", [vendor(group(item(0)), down())]),
    ("item-length", [vendor(item(3, b"", 0))]),
    ("item-length", [vendor(down(), item(1, bytes(4), 1))]),
    ("past-type-26", [vendor(down()[:-1])]),
    ("past-type-26", [vendor(group(down()[:-1]))]),
    ("past-group", [vendor(group(down()[:-2]), group())]),
    ("past-group", [vendor(nested(item(3, b"", 4), 3), group())]),
    ("lone-byte", [vendor(down(), b"\1")]),
    ("lone-byte", [vendor(group(b"\3"))]),
    ("rate-length", [vendor(item(1, bytes(5)))]),
    ("rate-length", [vendor(item(2, bytes(3)))]),
    ("rate-twice", [vendor(up(), up())]),
    ("rate-twice-in-groups", [vendor(group(down()), group(down(7)))]),
    ("rate-twice-in-groups", [vendor(up(), nested(up(), 4))]),
    ("fifth-group", [vendor(nested(b"", 5))]),
    ("fifth-group", [vendor(nested(down(), 5))]),
    ("no-rate-402", [vendor()]),
    ("no-rate-402", [vendor(nested(b"", 4))]),
    ("no-rate-ack", [vendor(group()), attribute(27, number(65748))]),
    ("down-ack", [vendor(down(2**32 - 1))]),
    ("up-ack", [vendor(up(0)), attribute(28, number(70000))]),
    ("both-ack", [vendor(up(65536), group(down(64000)))]),
    ("four-groups-ack", [vendor(nested(down(1) + up(2), 4))]),
]


def words():
    """Items and attributes for the fuzzer to put in."""
    yield from [down(), up(), group(), group(down()), nested(b"", 4), OURS, vendor(), vendor(down(), up()), vendor(group(up())), vendor(of=number(9))]
