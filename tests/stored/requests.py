"""The requests that the program `vectors_requests` writes and the replies that it checks: python3 -m tests.stored.requests writes
src/stored.rt and stdout of its crate, as the second implementation has them."""
from tests import ROOT
from tests.inputs.packets import CLOCK, COA, DISCONNECT, MAC, attribute, flipped, reply, unsigned
from tests.models import exchange_model, handle_model
from tests.stored.packets import ANN, GATE, PROXY, STAMP, STATE, TABLE, TIMEOUT, asking, literal

CRATE = ROOT / "crates" / "vectors_requests"
SOURCE, STDOUT = CRATE / "src" / "stored.rt", CRATE / "stdout"
SECRET = GATE.secret

WRITTEN = [  # name, code, attributes, whether to add type 80
    ("Disconnect", DISCONNECT, STAMP + ANN, False),
    ("CoA with type 80", COA, STAMP + ANN + TIMEOUT + STATE + PROXY, True),
    ("of type 80 alone", DISCONNECT, b"", True),
    ("R12", 296, STAMP + ANN, False),
    ("R13, a length of 1", COA, b"\x01\x01", False),
    ("R13, type 80 given", COA, STAMP + attribute(80, bytes(16)), True),
]

END, CHANGE = asking(DISCONNECT, ANN, PROXY), asking(COA, ANN, TIMEOUT, STATE, PROXY, MAC)
BARE = unsigned(DISCONNECT, [])


def answered(packet):
    """The reply of the handler."""
    told = handle_model.handle(TABLE, *GATE, bytes(4096), packet, CLOCK)
    return told.reply[:told.reply_len]


RIGHT = [  # name, request, reply
    ("right, ACK", END, answered(END)),
    ("right, ACK with type 80 and padding", CHANGE, answered(CHANGE) + b"padding"),
    ("right, NAK", asking(COA, ANN), answered(asking(COA, ANN))),
]
FAILED = [
    ("V1", unsigned(41, []), reply(BARE, [], secret=SECRET)),
    ("V2", BARE, reply(BARE, [b"\x01\x01"], secret=SECRET)),
    ("V3", BARE, reply(BARE, [], more=3, secret=SECRET)),
    ("V4", BARE, reply(BARE, [], secret=SECRET, identifier=8)),
    ("V5", END, flipped(answered(END), 159)),
    ("V6", BARE, reply(BARE, [attribute(80, bytes(16))], secret=SECRET)),
]


def call(function, *arguments):
    """On one line where the arguments take up to 60 letters, as `rt fmt` has it."""
    arguments = ("out", *arguments)
    short = ", ".join(map(str, arguments))
    if len(short) <= 60:
        return f"    {function}({short})?;\n"
    return f"    {function}(\n" + "".join(f"        {text},\n" for text in arguments) + "    )?;\n"


def group(name, calls):
    return f"\npub fn {name}<W: io::Write>(out: &mut W) -> io::Result<()> {{\n{calls}    Ok(())\n}}\n"


def source():
    text = "// Requests to be written and replies to be checked: written by tests/stored/requests.py.\nuse crate::{check, write};\nuse std::io;\n"
    text += group("written", "".join(call("write", f'b"Request {name}"', code, literal(given, 0), str(add).lower()) for name, code, given, add in WRITTEN))
    for name, cases in [("right", RIGHT), ("failed", FAILED)]:
        text += group(name, "".join(call("check", f'b"Reply {case}"', literal(asked, 20), literal(answer, 20)) for case, asked, answer in cases))
    return text


def written_line(name, code, given, add):
    told = exchange_model.write(code, 7, given, add, SECRET, bytes(4096))
    return f"Request {name} answer {told.answer}" + (f" packet {told.out[:told.length].hex()}" if told.length else "") + "\n"


def lines():
    """What the program writes."""
    checks = [f"Reply {name} answer {exchange_model.check_reply(SECRET, asked, answer)}\n" for name, asked, answer in RIGHT + FAILED]
    return "".join([written_line(*case) for case in WRITTEN] + checks)


if __name__ == "__main__":
    SOURCE.write_text(source())
    STDOUT.write_text(lines())
