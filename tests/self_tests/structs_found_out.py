"""The tests of the struct themselves: a library that writes too much of it is found out."""
from tests.compare.doors import all_doors
from tests.compare.struct_writes import refusals, writes
from tests.models.scheduler_calls import JOBS
from tests.models.scheduler_model import MATCH, NO_MARKS
from tests.models.scheduler_struct import Struct


def lengths_inside(struct):
    struct.secret_len, struct.nas_id_len = max(1, min(64, struct.secret_len)), max(1, min(32, struct.nas_id_len))


def unknown_as_free(struct):
    for k in range(JOBS):
        struct.kinds[k][0] *= struct.kinds[k][0] <= MATCH


def sent_back(struct):
    for k in range(JOBS):
        if struct.kinds[k][0] == MATCH:
            struct.places[k][0], struct.marks[k][:] = 0, NO_MARKS


def number_lost(struct):
    struct.nas_ip = 0


def refused(answer):
    return 1 <= answer <= 99


WRONG = {  # what is done to the struct besides, and after which calls
    "writes lengths back as it read them": (lengths_inside, lambda name, answer: name == "step" and answer == 600),
    "writes jobs of unknown kinds back as free": (unknown_as_free, lambda name, answer: name == "drop" and answer == 0),
    "sends jobs back though a start is refused": (sent_back, lambda name, answer: name == "start" and refused(answer)),
    "sends jobs back though an end is refused": (sent_back, lambda name, answer: name == "end" and answer == 11),
    "sends jobs back in each step": (sent_back, lambda name, answer: name == "step" and answer == 600),
    "sends jobs back by a discard": (sent_back, lambda name, answer: name == "open" and answer == 103),
    "writes the address though making is refused": (number_lost, lambda name, answer: name == "make" and answer == 3),
    "writes the address in an end": (number_lost, lambda name, answer: name == "end" and answer == 0),
}


def spoilt(door, spoil, when):
    def call(name, held, *arguments):
        answer, after, lent = door(name, held, *arguments)
        struct = Struct.from_buffer_copy(after)
        if when(name, answer):
            spoil(struct)
        return answer, bytes(struct), lent
    return call


def is_found_out(door):
    return any(got != wanted for got, wanted, *_ in refusals(door)) or any(wrote - may for wrote, may, *_ in writes(door))


def found_out(probe, tally):
    door = all_doors(probe)[1]
    tally.same(is_found_out(spoilt(door, number_lost, lambda name, answer: False)), False, "the right library is found out")
    for name, wrong in WRONG.items():
        tally.same(is_found_out(spoilt(door, *wrong)), True, "a library that", name)


GROUPS = [
    ("the tests: a library that writes too much of the struct is found out", found_out),
]
