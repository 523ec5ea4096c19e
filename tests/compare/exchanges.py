"""How the request writer and the reply check are held beside the model."""
import sys

from tests.compare.handler import arguments
from tests.harness.probe import NULL, cell
from tests.models import exchange_model

BEFORE = cell(0xEEEEEEEE)  # its length before the call


def modelled(asked):
    return exchange_model.write(asked.code, asked.identifier, asked.given or b"", asked.add != 0, asked.secret or b"", asked.out or b"")


def returned(asked, told):
    """What the probe tells of a request that is written so: the answer, then each run of bytes and the length after it."""
    after = [(asked.given,) * 2, (asked.secret,) * 2, (asked.out, told.out)]
    return (told.answer, *[now for given, now in after if given is not NULL], BEFORE if told.length is None else cell(told.length))


def written(probe, tally, asked, *case, answer=None):
    """One test: all that the writer tells and writes is the model's. Both answer `answer`, where it is given."""
    told = modelled(asked)
    if answer is not None and told.answer != answer:
        tally.same(told.answer, answer, "the model", *case)
        return told
    got = probe("write", asked.code, asked.identifier, asked.given, asked.add, asked.secret, asked.out, BEFORE)
    tally.same(got, returned(asked, told), *case)
    return told


def judgement(reply):
    return exchange_model.check_reply(reply.secret or b"", reply.request or b"", reply.reply or b"")


def kept(reply, answer):
    """What the probe tells of a reply that is judged so: the answer, then each run of bytes as it was."""
    return (answer, *[run for run in (reply.secret, reply.request, reply.reply) if run is not NULL])


def checked(probe, tally, reply, *case, answer=None):
    """One test: the reply check says what the model says, and writes nothing. Both say `answer`, where it is given."""
    told = judgement(reply)
    if answer is not None and told != answer:
        tally.same(told, answer, "the model", *case)
        return told
    tally.same(probe("check_reply", reply.secret, reply.request, reply.reply), kept(reply, told), *case)
    return told


def handler_reply(probe, call):
    """The answer of the proved handler, and its reply; none where it sends none."""
    got = probe("handle", *arguments(call))
    length = int.from_bytes(got[-3], sys.byteorder) if got[0] == 0 or got[0] >= 400 else 0
    return got[0], got[4][:length] if length else b""
