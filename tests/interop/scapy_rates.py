"""Vendor-Specific attributes as raw bytes by scapy: what is answered, and the rates of the session then, one request after the other."""
from datagrams import asked
from host import Host
from radclient_rates import shown
from scapy_list import TIMEOUT, USER
from scapy_packets import attribute, cause, is_authentic, request, stamp, with_mac
from settings import ACK, COA, DISCONNECT, NAK, WAYS

OURS = bytes.fromhex("00007ED9")  # vendor 32473


def item(kind, value, length=None):
    return bytes([kind, len(value) + 2 if length is None else length]) + value


def down(rate):
    return item(1, rate.to_bytes(4, "big"))


def up(rate):
    return item(2, rate.to_bytes(4, "big"))


def groups(inside, count=1):
    """In so many groups, one in the other."""
    return inside if count == 0 else groups(item(3, inside), count - 1)


def vendor(*items, of=OURS):
    return attribute(26, of + b"".join(items))


# A title, the attributes beside User-Name and stamp, the Error-Cause or 0, and the rates of the session after it.
CHANGING = [
    ("a down rate", [vendor(down(64000))], 0, (64000, 0)),
    ("an up rate; the down rate stays", [vendor(up(4294967295))], 0, (64000, 4294967295)),
    ("both rates in no group", [vendor(up(5), down(250))], 0, (250, 5)),
    ("a rate among groups without one", [vendor(groups(b""), down(9), groups(b"", 4))], 0, (9, 5)),
    ("both rates in four groups", [vendor(groups(up(65536) + down(1), 4))], 0, (1, 65536)),
    ("each in four groups of its own", [vendor(groups(down(2), 4), groups(up(3), 4))], 0, (2, 3)),
    ("rates of 0, beside Session-Timeout", [TIMEOUT, vendor(down(0), groups(up(0)))], 0, (0, 0)),
    ("a down rate again", [vendor(down(5))], 0, (5, 0)),
    ("no rate, beside Session-Timeout", [TIMEOUT, vendor(groups(b"", 4))], 0, (5, 0)),
]
REFUSED = [
    ("no item", [vendor()], 402),
    ("empty groups", [vendor(groups(b"", 4))], 402),
    *[(f"length {size + 2}", [TIMEOUT, attribute(26, OURS[:size])], 404) for size in range(4)],
    ("two of them", [vendor(down(1)), vendor(up(1))], 404),
    ("a fifth group", [vendor(groups(b"", 5))], 404),
    ("a rate in a fifth group", [vendor(groups(down(1), 5))], 404),
    ("a rate twice", [vendor(down(1), down(1))], 404),
    ("a rate twice, in two groups", [vendor(groups(down(1)), groups(down(2)))], 404),
    ("a rate of length 5", [vendor(item(1, bytes(3)))], 404),
    ("a rate of length 7", [vendor(item(2, bytes(5)))], 404),
    ("an item 0", [vendor(item(0, b""))], 404),
    ("an item 4", [vendor(item(4, bytes(4)))], 404),
    ("an item of length 0", [vendor(item(3, b"", 0))], 404),
    ("an item of length 1", [vendor(down(1), item(1, bytes(4), 1))], 404),
    ("a rate past its group", [vendor(item(3, down(1)[:4]), groups(b""))], 404),
    ("a group past the attribute", [vendor(item(3, b"", 8))], 404),
    ("a lone last byte", [vendor(down(1), b"\1")], 404),
    ("another vendor", [TIMEOUT, vendor(down(1), of=bytes.fromhex("00007ED8"))], 401),
    ("another vendor, an unfit item", [vendor(b"\1", of=bytes(4))], 401),
    ("another vendor, type 6", [vendor(of=bytes(4)), attribute(6, bytes(4))], 401),
    ("length 5, type 6", [attribute(26, OURS[:3]), attribute(6, bytes(4))], 405),
    ("an unfit item, another NAS", [vendor(b"\1"), attribute(4, bytes(4))], 404),
]


def answered(report, client, host, port, title, packet, rule):
    """One case: the reply is authentic, and both it and the host name the rule."""
    reply, told = asked(port, packet) or bytes(20), host.told()
    found = reply[0], cause(reply), is_authentic(reply, packet), told.rule
    report.same(found, (packet[0] + (NAK if rule else ACK), rule, True, str(rule)), client, f"{rule or 'ACK'}: Vendor-Specific, {title}")


def rates(report, program, port, way):
    client = f"scapy, {way}"
    with Host(program, port, *WAYS[way]) as host:
        for title, attributes, rule, after in CHANGING:
            answered(report, client, host, port, title, with_mac(COA, USER, *attributes, stamp()), rule)
            report.same(shown(*after) in host.table()[0], True, client, f"the table after: Vendor-Specific, {title}")
        before = host.table()
        for title, attributes, rule in REFUSED:
            answered(report, client, host, port, title, request(COA, USER, *attributes, stamp()), rule)
        answered(report, client, host, port, "in a Disconnect-Request", request(DISCONNECT, USER, vendor(down(1)), stamp()), 401)
        report.same(host.table(), before, client, "the table after all that was not acknowledged")
