"""What the billing server of the sample asks the gate for: python3 -m tests.stored.sample_requests writes samples/requests.h."""
from typing import NamedTuple

from tests import ROOT
from tests.inputs.packets import CLOCK, COA, DISCONNECT, attribute, stamp
from tests.inputs.vendor_items import down, group, vendor
from tests.models import exchange_model, handle_model, table_model
from tests.models.packet_model import Gate
from tests.models.table_model import number

PLACE = ROOT / "samples" / "requests.h"
GATE = Gate(b"care home secret", 0xC0000207, b"oak-gate")
HEAD = [stamp(CLOCK - 2), attribute(4, number(GATE.address)), attribute(32, GATE.name)]


class Change(NamedTuple):
    """A byte that is altered on the way, and by what; 0 for none."""
    at: int = 0
    by: int = 0

    def made(self, packet):
        return packet[:self.at] + bytes([packet[self.at] ^ self.by]) + packet[self.at + 1:] if packet else packet


class Asked(NamedTuple):
    title: str
    code: int
    identifier: int
    attributes: bytes
    add_mac: int = 0
    there: Change = Change()
    back: Change = Change()


def listed(*parts, head=HEAD):
    return b"".join([*head, *parts])


USER_9, USER_11, USER_12 = [attribute(1, b"room-%d" % room) for room in (9, 11, 12)]
SESSION = attribute(44, b"0000004F")
ALLOWANCE = listed(SESSION, attribute(27, number(65748)), attribute(24, b"ledger 9"), attribute(33, b"proxy-1"), attribute(33, b"proxy-2"))
FORGED = listed(USER_11)
FROM_11_TO_12, FROM_NAK_TO_ACK = Change(19 + len(FORGED), ord("1") ^ ord("2")), Change(0, 42 ^ 41)
REQUESTS = [
    Asked("The billing server raises the allowance of room 9 to 65,748 s.", COA, 1, ALLOWANCE),
    Asked("Both devices of room 12 get the Filter-Id of the night.", COA, 2, listed(USER_12, attribute(11, b"night")), 1),
    Asked("The session of room 9 is ended.", DISCONNECT, 3, listed(USER_9, SESSION), 1),
    Asked("The same once more: there is no such session now.", DISCONNECT, 3, listed(USER_9, SESSION), 1),
    Asked("A request of five minutes and a second ago.", DISCONNECT, 4, listed(USER_12, head=[stamp(CLOCK - 301)])),
    Asked("A request for room 11, altered on its way to ask for room 12.", DISCONNECT, 5, FORGED, there=FROM_11_TO_12),
    Asked("A request whose answer is altered on its way back, from NAK to ACK.", DISCONNECT, 6, listed(USER_9), back=FROM_NAK_TO_ACK),
    Asked("Both devices of room 12 are slowed to a down rate of 64,000.", COA, 7, listed(USER_12, vendor(group(down(64000)))), 1),
]


def lines(run, width=16):
    rows = [run[i:i + width] for i in range(0, len(run), width)]
    return "".join("    " + " ".join(f"0x{byte:02X}," for byte in row) + "\n" for row in rows)


def header():
    text = "/* What the billing server asks the gate of samples/rooms.c for, and the gate's settings: "
    text += "written by tests/stored/sample_requests.py. */\n#include <stddef.h>\n#include <stdint.h>\n\n"
    text += f"static const uint8_t secret[{len(GATE.secret)}] = {{ /* {GATE.secret.decode()} */\n{lines(GATE.secret)}}};\n"
    text += f"static const uint8_t nas_id[{len(GATE.name)}] = {{ /* {GATE.name.decode()} */\n{lines(GATE.name)}}};\n"
    text += f"static const uint32_t nas_ip = 0x{GATE.address:08X}; /* 192.0.2.7 */\nstatic const uint32_t clock_now = {CLOCK};\n\n"
    for i, asked in enumerate(REQUESTS):
        text += f"static const uint8_t attributes_{i + 1}[{len(asked.attributes)}] = {{\n{lines(asked.attributes)}}};\n"
    text += "\n/* A byte that is altered on the way, and by what; 0 for none. */\nstruct change {\n    size_t at;\n    uint8_t by;\n};\n\n"
    text += "static const struct request {\n    const char *title;\n    uint32_t code;\n    uint8_t identifier;\n    const uint8_t *attributes;\n"
    text += "    size_t attributes_len;\n    uint32_t add_mac;\n    struct change there, back;\n} requests[] = {\n"
    for i, asked in enumerate(REQUESTS):
        changes = ", ".join(f"{{{change.at}, {change.by}}}" for change in (asked.there, asked.back))
        area = f"attributes_{i + 1}, sizeof attributes_{i + 1}"
        text += f'    {{"{asked.title}",\n     {asked.code}, {asked.identifier}, {area}, {asked.add_mac}, {changes}}},\n'
    return text + "};\n"


def room(port, address, timeout, user, id, station, filter):
    return table_model.record({
        "port": port, "address": address, "timeout": timeout, "idle": 600, "user": user, "id": id, "station": station, "filter": filter})


def sent(asked):
    """The packet as it is sent."""
    return exchange_model.request_of(asked.code, asked.identifier, asked.attributes, asked.add_mac, GATE.secret)


def answers():
    """Of the second implementation, from the table that samples/rooms.c makes: for each request the packet that comes to the gate,
    what the gate makes of it, and what the check says of the reply that comes back; None where there is none."""
    table = room(9, 0x0A000009, 65000, b"room-9", b"0000004F", b"02-00-5E-10-00-09", b"day")
    table += room(12, 0x0A00000C, 7200, b"room-12", b"00000050", b"02-00-5E-10-00-0C", b"day") + bytes(192)
    table += room(12, 0x0A00000D, 7200, b"room-12", b"00000051", b"02-00-5E-10-00-0D", b"guest")
    for asked in REQUESTS:
        packet = asked.there.made(sent(asked))
        told = handle_model.handle(table, *GATE, bytes(4096), packet, CLOCK)
        table = told.table
        back = asked.back.made(told.reply[:told.reply_len])
        yield packet, told, exchange_model.check_reply(GATE.secret, sent(asked), back) if back else None


if __name__ == "__main__":
    PLACE.write_text(header())
