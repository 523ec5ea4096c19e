"""Document 01's plain book in Python: what a list of calls comes to where each request is handled whole at the call that finished it."""
from typing import NamedTuple

from tests.models import handle_model, packet_model, table_model
from tests.models.packet_model import Gate
from tests.models.scheduler_calls import GOING, Drop, End, Open, Step, Told, refusal


class Note(NamedTuple):
    packet: bytes
    clock: int


class Serial(NamedTuple):
    gate: Gate
    table: bytes
    notes: tuple  # for each job number a note or None


def begun(gate, table):
    return Serial(gate, table, (None,) * 4)


def noted(serial):
    return [k for k, note in enumerate(serial.notes) if note is not None]


def with_note(serial, k, note):
    return serial._replace(notes=serial.notes[:k] + (note,) + serial.notes[k + 1:])


def finish(serial, asked):
    """The noted packet handled whole, with the noted clock and this step's reply buffer."""
    note, gate = serial.notes[asked.job], serial.gate
    done = handle_model.handle(serial.table, *gate, asked.reply, note.packet, note.clock)
    told = Told(done.answer, done.changed, done.reply_len, done.skew, done.stamped)
    return with_note(serial._replace(table=done.table), asked.job, None), told, done.reply


def call(serial, asked, store_size, finished):
    """The serial execution after a call, the answer, and the reply buffer, None where the call has none. finished: of a step, whether it did."""
    reply = asked.reply if isinstance(asked, Step) else None
    refused = refusal(asked, noted(serial), serial.table, store_size)
    if refused:
        return serial, Told(refused), reply
    if isinstance(asked, Step):
        return finish(serial, asked) if finished else (serial, GOING, reply)
    if isinstance(asked, Drop):
        return with_note(serial, asked.job, None), Told(0), None
    if isinstance(asked, End):
        return serial._replace(table=table_model.end(serial.table, asked.slot)[1]), Told(0), None
    if isinstance(asked, Open):
        form, k = packet_model.bad_form(asked.packet), serial.notes.index(None)
        return (serial, Told(100 + form), None) if form else (with_note(serial, k, Note(*asked)), Told(0, k), None)
    _, slot, table = table_model.start(serial.table, asked.session)
    return serial._replace(table=table), Told(0, slot), None
