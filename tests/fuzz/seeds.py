"""Inputs to start from, made of the tests' own drafts: python3 -m tests.fuzz.seeds DIR writes DIR/PROGRAM/NUMBER and DIR/dictionary."""
import pathlib
import sys

from tests.fuzz.rate_seeds import DECIDING, words
from tests.inputs.exchange_drafts import any_asked, any_reply
from tests.inputs.handler_drafts import HOUSES, Draft
from tests.inputs.handler_faults import FAULTS
from tests.inputs.packets import COA, attribute
from tests.inputs.scheduler_lists import Posted, any_gate, posted
from tests.inputs.scheduler_world import World
from tests.inputs.tables import seeded
from tests.models.packet_model import Gate

COUNT = 120  # of each program's inputs
SMALL = 4 * 192  # a table of more bytes would be what is mutated most
ALL = 127  # everything is mended
CLOCKS = [512, 512, 212, 812, 211, 813]  # mended: the stamp 0, 300 and 301 seconds from it either way
BUFFERS = [4096, 4096, 4096, 4096, 4096, 4096, 4096, 4097, 4099, 5000, 0, 1, 20, 2048, 4095, 4095]  # as in harness.c


def joined(*parts):
    """A list of parts as tests/fuzz/parts.c reads it."""
    return b"".join(len(part).to_bytes(2, "big") + part for part in parts)


def buffer_number(size):
    return bytes([BUFFERS.index(size) if size in BUFFERS else 0])


def table_numbers(table):
    slots, rest = divmod(len(table), 192)
    whole = rest == 0 and slots <= 64
    return bytes([slots if whole else 128]) + (len(table) % 19200).to_bytes(2, "big")


def small_draft(rng):
    while True:
        draft = Draft(rng)
        if len(draft.table) <= SMALL:
            return draft


def with_rates(draft, parts):
    """A short CoA-Request in which these are the only changes."""
    draft.code, draft.padding = COA, b""
    draft.without(11, 24, 26, 27, 28, 33)
    draft.parts += parts
    return draft


def end_with_state(draft):
    """A few bytes to be copied, that lie close before the reply where buffers lie close together."""
    draft.without(24)
    draft.tail, draft.padding = attribute(24, b"state"), b""


def handle(rng, turn):
    """A call with none or one of the faults. Every other is mended, which the draft's packet needs not until it is mutated."""
    draft = small_draft(rng)
    if turn >= COUNT:
        with_rates(draft, DECIDING[turn - COUNT][1])
    elif turn % 3:
        FAULTS[turn // 3 % len(FAULTS)][1](draft)
    if turn % 8 == 0:
        end_with_state(draft)
    call = draft.call()
    what, clock = (ALL, CLOCKS[turn // 2 % len(CLOCKS) if turn < COUNT else 0]) if turn % 2 else (0, call.clock)
    table = call.table or b""
    settings = bytes([what]) + table_numbers(table) + buffer_number(len(call.reply or b"")) + bytes([1 + 2 * (turn % 5 > 2)])
    settings += call.address.to_bytes(4, "big") + clock.to_bytes(4, "big") + b"reply"
    return joined(settings, call.secret or b"", call.name or b"", table[:SMALL], (call.packet or b"")[:600])


def write(rng, turn):
    asked, _ = any_asked(rng)
    codes = [40, 43, 40, 43, 41, 296, 2**31 + 40, 0]  # as in write.c
    code = codes.index(asked.code) if asked.code in codes else 7
    settings = bytes([ALL if turn % 2 else 0, code]) + asked.add.to_bytes(4, "big") + bytes([asked.identifier])
    settings += buffer_number(len(asked.out or b"")) + b"\1output"
    return joined(settings, asked.secret or b"", asked.given or b"")


def check_reply(rng, turn):
    reply, _ = any_reply(rng)
    what = ALL if turn % 2 else 0
    return joined(bytes([what, what, turn % 2, 1]), reply.secret or b"", reply.request or b"", reply.reply or b"")


def any_call(rng):
    """Four bytes, as tests/fuzz/scheduler.c reads them: mostly openings and runs of steps."""
    kind = rng.choices([0, 2, 4, 5, 6, 7], [6, 12, 1, 2, 2, 2])[0]
    if kind == 0:
        return bytes([kind, rng.randrange(4), 2, rng.choice([0, 0, 44, 45])])
    return bytes([kind, rng.randrange(8), rng.choice([0, 0, 1, 2, 5, 70]), rng.randrange(100)])


def scheduler(rng, turn):
    gate, table = any_gate(rng), rng.choice([table for table, _ in HOUSES if len(table) <= SMALL])
    world = World(table, Gate(*gate))
    packets = [posted(rng, world, 10**9)[:400] for _ in range(4)]
    calls = b"".join(any_call(rng) for _ in range(rng.choice([8, 16, 32])))
    if turn >= COUNT:
        packets[0] = with_rates(Posted(rng, world, 10**9), DECIDING[turn - COUNT][1]).packet()[:400]
        calls = bytes([0, 0, 2, 0, 2, 0, 140, 0]) + calls  # it is opened, and steps are taken to its end
    settings = table_numbers(table) + gate.address.to_bytes(4, "big") + bytes([turn % 4 == 3]) + bytes([63] * 4) + b"store"
    return joined(settings, gate.secret, gate.name, table, calls, *packets)


def dictionary():
    """Attributes for the fuzzer to put in, one of each type that a request may have, and some; and what a type 26 holds."""
    sizes = {4: 4, 5: 4, 8: 4, 27: 4, 28: 4, 55: 4, 6: 4, 101: 4, 80: 16}
    kinds = [1, 4, 5, 6, 8, 11, 24, 27, 28, 31, 32, 33, 44, 55, 80, 26, 101]
    for run in [attribute(kind, bytes(size)) for kind in kinds for size in {sizes.get(kind, 5), 0}] + list(words()):
        yield '"%s"\n' % "".join(f"\\x{byte:02X}" for byte in run)


def main(to):
    for draft in (handle, write, check_reply, scheduler):
        folder = to / draft.__name__
        folder.mkdir(parents=True, exist_ok=True)
        for turn in range(COUNT + (len(DECIDING) if draft in (handle, scheduler) else 0)):
            (folder / str(turn)).write_bytes(draft(seeded("fuzz", draft.__name__, turn), turn))
    (to / "dictionary").write_text("".join(dictionary()))


main(pathlib.Path(sys.argv[1]))
