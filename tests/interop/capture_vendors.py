"""What tshark reads in the Vendor-Specific attributes of all requests that the hosts of a run were sent, beside their bytes."""
from capture import fields

LEAST = 100  # requests of a run with an attribute of ours
OURS, VENDOR_SPECIFIC, HEAD = 32473, 26, 20


def listed(run):
    """Type and value of each attribute or item; None where they do not fill the run."""
    found = []
    while run:
        if len(run) < 2 or not 2 <= run[1] <= len(run):
            return None
        found.append((run[0], run[2:run[1]]))
        run = run[run[1]:]
    return found


def sent(packet):
    """The vendors of a request, in order, and the items that stand in no group; None where these cannot be told apart."""
    values = [value for kind, value in listed(packet[HEAD:]) or [] if kind == VENDOR_SPECIFIC and len(value) >= 4]
    lists = [listed(value[4:]) for value in values]
    items = None if None in lists else [kind for one in lists for kind, _ in one]
    return [int.from_bytes(value[:4], "big") for value in values], items


def numbers(text):
    return [int(number) for number in text.split(",") if number]


def vendors(report, path, port):
    options = ["-d", f"udp.port=={port},radius", "-Y", f"radius && udp.dstport == {port}"]
    count, other_vendors, other_items = 0, [], []
    for payload, ids, kinds in fields(path, options, ["udp.payload", "radius.avp.vendor_id", "radius.avp.vendor_type"]):
        wanted, items = sent(bytes.fromhex(payload.replace(":", "")))
        count += OURS in wanted
        other_vendors += [payload] if numbers(ids) != wanted else []
        other_items += [payload] if wanted == [OURS] and items is not None and numbers(kinds) != items else []
    found, title = (count >= LEAST, other_vendors), f"{count} requests with attributes of vendor {OURS}: it reads the vendors as sent"
    report.same(found, (True, []), "tshark", title)
    report.same(other_items, [], "tshark", "and the types of the items that stand in no group")
