"""Schedulers that do one thing wrong, each by what is put in the place of the model's own functions."""
from unittest import mock

from tests.inputs.altered_lists import stage
from tests.models import handle_model, md5_block, packet_model, scheduler_model as model, table_model
from tests.models.scheduler_calls import GOING, PART, Drop, End, Open, Start, Step, Told
from tests.models.scheduler_model import CHECK, HASH, MATCH, After, Job, Moved

OURS = {name: getattr(model, name) for name in ("hashed", "same_sense", "matched", "committed", "moved", "restarted", "part", "opened", "call")}


def whole(job, p, gate):
    """The job with all blocks hashed that are left, from the store as it stands."""
    while job.kind == HASH:
        job = OURS["hashed"](job, p, gate)
    return job


def hashes_at_last(job, p, gate):
    """Keeps the first words until the last block."""
    after = OURS["hashed"](job, p, gate)
    anew = whole(job._replace(place=0, words=md5_block.FIRST), p, gate)
    return after._replace(words=anew.words if after.kind == CHECK else md5_block.FIRST)


def matches_at_once(job, p, table):
    while job.place < table_model.slot_count(table):
        job = OURS["matched"](job, p, table)
    return job


def matches_at_commit(job, p, gate, table, reply):
    return OURS["committed"](matches_at_once(job._replace(place=0), p, table), p, gate, table, reply)


def reads_again_not_in(name):
    """A scheduler that skips the re-reading there; what cannot be worked on then is not claimed."""
    def moved(job, p, gate, table, reply):
        if stage(job, table) != name:
            return OURS["moved"](job, p, gate, table, reply)
        with mock.patch.object(model, "read_again", lambda job, p, gate: True):
            try:
                return OURS["moved"](job, p, gate, table, reply)
            except (TypeError, KeyError, StopIteration, ValueError):
                return Moved(job, GOING, table, reply)
    return moved


def any_length(job, p):
    return packet_model.bad_form(p) == 0


def but(*kinds):
    """Re-reading in Match and Commit with no eye for these."""
    def same_sense(p, found, gate):
        kept = [a for a in found if a.kind not in kinds or a.kind == 80 and len(a.value) == 16]
        return OURS["same_sense"](p, kept, gate)
    return same_sense


def stamps_unseen(p, found, gate):
    return OURS["same_sense"](p, [a for a in found if a.kind != 55] + [packet_model.Attribute(55, bytes(4), 0)], gate)


def causes_unseen(p, found, gate):
    return not packet_model.no_stamp(found) and all(a.kind != 80 or len(a.value) == 16 for a in found)


def without_cause(number):
    def same_sense(p, found, gate):
        return OURS["same_sense"](p, found, gate) or causes_unseen(p, found, gate) and packet_model.cause(p[0], found, gate) == number
    return same_sense


def signed_anew(job, p, gate):
    return p[4:20] == packet_model.authenticator(p, job.length, packet_model.ZEROS, gate.secret)


def judged_again(job, p, gate, table, reply):
    skew = packet_model.stamp(packet_model.attributes(p, job.length)) - job.clock
    return Moved(Job(), Told(106, 0, 0, skew, 1), table, reply) if abs(skew) > 300 else OURS["committed"](job, p, gate, table, reply)


def compared_again(job, p, gate, table, reply):
    named = handle_model.matching(table, packet_model.attributes(p, job.length))
    return OURS["committed"](job._replace(marks=bytes(mark and k in named for k, mark in enumerate(job.marks))), p, gate, table, reply)


def commits_dead_slots(job, p, gate, table, reply):
    with mock.patch.object(table_model, "live", lambda content: True):
        return OURS["committed"](job, p, gate, table, reply)


def rates_of_the_opening():
    """Writes the rates that a packet had when it was opened."""
    kept, named = {}, handle_model.rates_set

    def opened(scheduler, table, store, asked):
        kept[asked.packet[4:20]] = asked.packet
        return OURS["opened"](scheduler, table, store, asked)

    def committed(job, p, gate, table, reply):
        first = packet_model.attributes(kept.get(p[4:20], p), job.length)
        with mock.patch.object(handle_model, "rates_set", lambda found: named(first)):
            return OURS["committed"](job, p, gate, table, reply)
    return {"opened": opened, "committed": committed}


def keeps_marks(scheduler):
    return scheduler._replace(jobs=tuple(job._replace(place=0) if job.kind == MATCH else job for job in scheduler.jobs))


def restarts_never_by(kind):
    def call(scheduler, table, store, asked):
        if not isinstance(asked, kind):
            return OURS["call"](scheduler, table, store, asked)
        with mock.patch.object(model, "restarted", lambda scheduler: scheduler):
            return OURS["call"](scheduler, table, store, asked)
    return call


def restarts_also(when):
    def call(scheduler, table, store, asked):
        after = OURS["call"](scheduler, table, store, asked)
        return after._replace(scheduler=OURS["restarted"](after.scheduler)) if when(asked, after.told) else after
    return call


def takes_the_highest(scheduler, table, store, asked):
    """Works on the scheduler and the store with their jobs turned about."""
    def about(scheduler, store):
        return scheduler._replace(jobs=scheduler.jobs[::-1]), b"".join(OURS["part"](store, k) for k in (3, 2, 1, 0))
    turned, parts = about(scheduler, store)
    after = OURS["opened"](turned, table, parts, asked)
    told = after.told._replace(count=3 - after.told.count) if after.told.answer == 0 else after.told
    turned, parts = about(after.scheduler, after.store)
    return After(turned, told, table, parts)


def copies_padding(scheduler, table, store, asked):
    after = OURS["opened"](scheduler, table, store, asked)
    at = PART * after.told.count
    more = store[:at] + asked.packet[:PART] + store[at + len(asked.packet[:PART]):]
    return after._replace(store=more) if after.told.answer == 0 else after


def forgets_the_clock(scheduler, table, store, asked):
    return OURS["opened"](scheduler, table, store, asked._replace(clock=0))


WRONG = {  # what is put in the place of ours
    "hashes wholly in the first step": {"hashed": whole},
    "hashes only in the last step": {"hashed": hashes_at_last},
    "matches wholly in the first step": {"matched": matches_at_once},
    "matches only in the commit": {"committed": matches_at_commit},
    "does not read again in Check": {"moved": reads_again_not_in("Check")},
    "does not read again in Match": {"moved": reads_again_not_in("Match")},
    "does not read again in Commit": {"moved": reads_again_not_in("Commit")},
    "does not compare the kept Length": {"same_form": any_length},
    "has no eye for type 55 again": {"same_sense": stamps_unseen},
    "has no eye for type 80's length again": {"same_sense": but(80)},
    "has no eye for type 26 again": {"same_sense": but(26)},
    "commits the rates of the opening": rates_of_the_opening(),
    "does not judge causes again": {"same_sense": causes_unseen},
    **{f"does not judge {number} again": {"same_sense": without_cause(number)} for number in (401, 405, 404, 403, 402, 506)},
    "works D4 out anew": {"is_signed": signed_anew},
    "judges the stamp again": {"committed": judged_again},
    "compares criteria again": {"committed": compared_again},
    "commits slots that are not live": {"committed": commits_dead_slots},
    "restarts nobody": {"restarted": lambda scheduler: scheduler},
    "restarts nobody by an ACK": {"call": restarts_never_by(Step)},
    "restarts nobody by a start": {"call": restarts_never_by(Start)},
    "restarts nobody by an end": {"call": restarts_never_by(End)},
    "keeps marks in a restart": {"restarted": keeps_marks},
    "restarts by a refused start": {"call": restarts_also(lambda asked, told: isinstance(asked, Start))},
    "restarts by a refused end": {"call": restarts_also(lambda asked, told: isinstance(asked, End))},
    "restarts by a NAK": {"call": restarts_also(lambda asked, told: isinstance(asked, Step) and 400 < told.answer < 600)},
    "restarts by a discard": {"call": restarts_also(lambda asked, told: isinstance(asked, Step) and 100 < told.answer < 200)},
    "restarts by a drop": {"call": restarts_also(lambda asked, told: isinstance(asked, Drop))},
    "restarts by an opening": {"call": restarts_also(lambda asked, told: isinstance(asked, Open))},
    "reads the part of job 0": {"part": lambda store, k: store[:PART]},
    "takes the highest free job": {"opened": takes_the_highest},
    "copies the padding too": {"opened": copies_padding},
    "keeps another clock": {"opened": forgets_the_clock},
}
