"""Calls on document 01's desk: what they take, what they answer, and when they are refused."""
from typing import NamedTuple

from tests.models import table_model

STORE, PART, JOBS = 16384, 4096, 4


class Open(NamedTuple):
    packet: bytes
    clock: int


class Step(NamedTuple):
    job: int
    reply: bytes  # the buffer


class Drop(NamedTuple):
    job: int


class Start(NamedTuple):
    session: dict


class End(NamedTuple):
    slot: int


class Told(NamedTuple):
    """An answer by the numbers of the whole request; 600 where a step goes on. What a call does not tell is 0."""
    answer: int
    count: int = 0  # sessions changed; at opening the job, at start the slot
    size: int = 0  # of the reply
    skew: int = 0
    stamped: int = 0


GOING = Told(600)


def is_refused(told):
    return 1 <= told.answer <= 99


def refusal(asked, in_use, table, store_size):
    """The lowest R number that applies, 0 where none does. in_use: the numbers of the jobs that are not free."""
    if isinstance(asked, Open):
        return 5 if store_size != STORE else 6 if len(in_use) == JOBS else 0
    if isinstance(asked, Drop):
        return 0 if asked.job in in_use else 7
    if isinstance(asked, Start):
        return table_model.start(table, asked.session)[0]
    if isinstance(asked, End):
        return table_model.end(table, asked.slot)[0]
    if table_model.slot_count(table) == 0:
        return 1
    if len(asked.reply) < 4096:
        return 4
    return 5 if store_size != STORE else 0 if asked.job in in_use else 7
