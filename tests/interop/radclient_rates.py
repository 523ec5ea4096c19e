"""What radclient asks the host for by a Vendor-Specific attribute: named as freeradius/dictionary has it, and as bytes what it cannot name.
Bytes that fit the dictionary it reads and writes anew: several items outside a group become an attribute each, and an empty group outside any
other is not sent. Those are left to scapy."""
from radclient_list import ALLOWANCE, ECHO, STRANGER, TWO_USERS, USER, Case

PREFIX = "Fumbokeri-"
OURS = "Attr-26 = 0x00007ed9"  # and items in hex


def rate(name, value, group=""):
    return f"{PREFIX}{group}{name}-Rate = {value}"


def shown(down, up):
    """As the host shows the rates of a session."""
    return f"down rate {down}, up rate {up}"


def changing(slots, rates):
    return ", ".join([str(len(slots)), *[f"slot {slot} ({rates})" for slot in slots]])


def ack(title, request, down, up, slots=(0,), reply=()):
    """A CoA-Request that is acknowledged, after which these slots have these rates; other sessions have rates of 0."""
    rates = shown(down, up)
    return Case("coa", f"ACK, {title}", request, changed=changing(slots, rates), reply=list(reply), after=(rates, len(slots)))


RATE_CASES = [
    ack("a down rate", [USER, rate("Down", 64000)], 64000, 0),
    ack("an up rate of 32 bits", [USER, rate("Up", 4294967295)], 0, 4294967295),
    ack("both rates in a group, for two sessions", [TWO_USERS, rate("Down", 64000, "Group-"), rate("Up", 65536, "Group-")], 64000, 65536, (1, 2)),
    *[ack(f"both rates in {n} groups", [USER, rate("Up", 7, f"Group-{n}-"), rate("Down", 8, f"Group-{n}-")], 8, 7) for n in (2, 3, 4)],
    ack("a rate in a group and one in a group inside", [USER, rate("Down", 1, "Group-"), rate("Up", 2, "Group-2-")], 1, 2),
    ack("a rate beside Session-Timeout, State and two Proxy-States back", [USER, ALLOWANCE, rate("Up", 3), *ECHO], 0, 3, reply=ECHO),
    Case("coa", "ACK, a group without a rate beside Session-Timeout", [USER, ALLOWANCE, OURS + "03040302"], changed="1, slot 0",
         after=(shown(0, 0), 4)),
    Case("coa", "402, a group without a rate", [USER, OURS + "03040302"], 402),
    Case("coa", "402, no item", [USER, OURS], 402),
    Case("coa", "404, both rates in no group: two attributes", [USER, rate("Down", 64000), rate("Up", 65536)], 404),
    Case("coa", "404, a rate twice in a fourth group", [USER, rate("Down", 1, "Group-4-"), rate("Down", 1, "Group-4-")], 404),
    Case("coa", "404, a rate twice, in two groups", [USER, rate("Down", 1, "Group-"), rate("Down", 2, "Group-2-")], 404),
    Case("coa", "404, a fifth group", [USER, OURS + "030a0308030603040302"], 404),
    Case("coa", "404, a rate in a fifth group", [USER, OURS + "0310030e030c030a0308010600000001"], 404),
    Case("coa", "404, a rate of length 7", [USER, OURS + "01070000fa0000"], 404),
    Case("coa", "404, a rate past its group", [USER, OURS + "0306010600000302"], 404),
    Case("coa", "404, an item 4", [USER, OURS + "040600000001"], 404),
    Case("coa", "404, a byte after the items", [USER, OURS + "01060000fa0001"], 404),
    Case("coa", "404, under length 6", [USER, ALLOWANCE, "Attr-26 = 0x00007e"], 404),
    Case("coa", "401, Cisco's attribute", [USER, ALLOWANCE, 'Cisco-AVPair = "rate=64000"'], 401),
    Case("coa", "401, Cisco's attribute beside a rate", [USER, rate("Down", 64000), 'Cisco-AVPair = "rate=64000"'], 401),
    Case("disconnect", "401, a rate in a disconnect", [USER, rate("Down", 64000)], 401),
    Case("coa", "503, a rate for no such session, State and two Proxy-States back", [STRANGER, rate("Down", 64000), *ECHO], 503, reply=ECHO),
]
