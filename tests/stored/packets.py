"""The packets that the program `vectors_packets` runs through the handler: python3 -m tests.stored.packets writes its src/stored.rt
and its stdout, as the second implementation has it."""
from tests import ROOT
from tests.inputs.packets import CLOCK, COA, DISCONNECT, MAC, attribute, flipped, request, stamp
from tests.inputs.vendor_items import down, nested, up, vendor
from tests.models import handle_model, table_model
from tests.models.packet_model import Gate
from tests.models.table_model import number

CRATE = ROOT / "crates" / "vectors_packets"
SOURCE, STDOUT = CRATE / "src" / "stored.rt", CRATE / "stdout"

# As in crates/vectors_packets/src/main.rt
GATE = Gate(b"xyzzy", 0xC0000207, b"g")
SESSIONS = [
    {"port": 7, "address": 0x0A000007, "timeout": 65000, "idle": 600, "user": b"ann", "id": b"4F", "station": b"02", "filter": b"day"},
    {"port": 7, "address": 0x0A000008, "timeout": 7200, "idle": 600, "user": b"bob", "id": b"50", "station": b"", "filter": b""},
]
TABLE = b"".join(map(table_model.record, SESSIONS))

STAMP = stamp(CLOCK - 2)
ANN, STATE, PROXY = attribute(1, b"ann"), attribute(24, b"s"), attribute(33, b"\x41")
BOTH = attribute(5, number(7))
TIMEOUT, IDLE = attribute(27, number(65748)), attribute(28, number(131072))


def asking(code, *parts):
    return request(code, [STAMP, *parts], GATE)


GROUPS = {
    "discards": [
        ("D1", asking(DISCONNECT, ANN)[:19]),
        ("D2", request(41, [STAMP, ANN], GATE)),
        ("D3", asking(DISCONNECT, b"\x01\x01")),
        ("D4", flipped(asking(DISCONNECT, ANN), 159)),
        ("D5", asking(DISCONNECT, ANN, attribute(80, bytes(16)))),
        ("D6, no stamp", request(DISCONNECT, [ANN], GATE)),
        ("D6, stale", request(DISCONNECT, [stamp(CLOCK - 301), ANN], GATE)),
    ],
    "naks": [
        ("401", asking(DISCONNECT, ANN, TIMEOUT)),
        ("405", asking(COA, ANN, attribute(6, number(17)), TIMEOUT, STATE)),
        ("404", asking(DISCONNECT, ANN, STATE, attribute(24, b"t"), PROXY)),
        ("404, a fifth group", asking(COA, ANN, vendor(nested(down(), 5)))),
        ("403", asking(COA, ANN, TIMEOUT, attribute(32, b"h"), MAC)),
        ("402", asking(COA, ANN, STATE, PROXY, attribute(33, b"\x42"))),
        ("506", asking(COA, ANN, attribute(11, b"0123456789abcdef0123456789abcdefg"))),
        ("503", asking(DISCONNECT, attribute(1, b"nobody"), PROXY)),
    ],
    "acks": [
        ("ACK Disconnect", asking(DISCONNECT, ANN, PROXY)),
        ("ACK Disconnect of two", asking(DISCONNECT, BOTH, MAC)),
        ("ACK CoA", asking(COA, ANN, TIMEOUT, STATE, PROXY, attribute(33, b"\x42"), MAC)),
        ("ACK CoA of two", asking(COA, BOTH, IDLE, attribute(11, b"night")) + b"padding"),
        ("ACK CoA, both rates", asking(COA, ANN, vendor(nested(up(), 4), down()))),
    ],
}


def literal(run, head):
    """A byte string of Rattle, with letters and digits where they can be, but for the first bytes."""
    letters = [chr(byte) if chr(byte).isascii() and chr(byte).isalnum() else f"\\x{byte:02x}" for byte in run[head:]]
    return 'b"' + "".join(f"\\x{byte:02x}" for byte in run[:head]) + "".join(letters) + '"'


def called(name, packet):
    return f'    run(\n        out,\n        b"Packet {name}",\n        {literal(packet, 20)},\n    )?;\n'


def source():
    text = "// The stored packets: written by tests/stored/packets.py.\nuse crate::run;\nuse std::io;\n"
    for group, cases in GROUPS.items():
        text += f"\npub fn {group}<W: io::Write>(out: &mut W) -> io::Result<()> {{\n" + "".join(called(*case) for case in cases) + "    Ok(())\n}\n"
    return text


def slots(before, after):
    changed = [k for k in range(2) if table_model.slot(before, k) != table_model.slot(after, k)]
    return "".join(f" slot {k} {table_model.slot(after, k).hex()}" for k in changed)


def line(name, packet):
    told = handle_model.handle(TABLE, *GATE, bytes(4096), packet, CLOCK)
    text = f"Packet {name} answer {told.answer}" + (f" changed {told.changed}" if told.answer == 0 else "")
    text += f" skew {told.skew}" if told.stamped else ""
    text += f" reply {told.reply[:told.reply_len].hex()}" if told.reply_len else ""
    return text + slots(TABLE, told.table) + "\n"


def lines():
    """What the program writes of the packets; the first line is of the table that each of them finds."""
    return f"Table{slots(bytes(384), TABLE)}\n" + "".join(line(*case) for cases in GROUPS.values() for case in cases)


if __name__ == "__main__":
    STDOUT.write_text(lines())
    SOURCE.write_text(source())
