"""The second implementation in Python beside the fuzzer's in C: neither shares code with the other, and both answer and write the same."""
import ctypes
import subprocess
from ctypes import POINTER, Structure, byref, c_char_p, c_int64, c_size_t, c_uint32, c_void_p

from tests import ROOT
from tests.cases.handler.seeded import any_call
from tests.compare.handler import modelled
from tests.inputs.tables import seeded
from tests.self_tests.rates_found_out import some_calls

ROUNDS = 6000
PLACE = ROOT / "target" / "tests" / "models.so"


class Bytes(Structure):
    _fields_ = [("at", c_char_p), ("size", c_size_t)]


class Gate(Structure):
    _fields_ = [("secret", Bytes), ("name", Bytes), ("address", c_uint32)]


class Told(Structure):
    _fields_ = [("answer", c_uint32), ("changed", c_uint32), ("reply_len", c_uint32), ("stamped", c_uint32), ("skew", c_int64)]


def built():
    """`handled` of tests/fuzz/model.h."""
    PLACE.parent.mkdir(parents=True, exist_ok=True)
    sources = [*sorted(ROOT.glob("tests/fuzz/*_model.c")), ROOT / "bench" / "programs" / "plain_md5.c"]
    subprocess.run(["gcc", "-std=c99", "-O2", "-fPIC", "-shared", *sources, "-o", PLACE], check=True)
    function = ctypes.CDLL(PLACE).handled
    function.argtypes, function.restype = [POINTER(Gate), c_void_p, c_size_t, c_void_p, c_size_t, Bytes, c_uint32], Told
    return function


def run_of(text):
    return Bytes(text or b"", len(text or b""))


def in_c(function, call):
    """What it tells and writes; the numbers alone where it is refused."""
    table, reply = [ctypes.create_string_buffer(run or b"", len(run or b"") + 1) for run in (call.table, call.reply)]
    gate = Gate(run_of(call.secret), run_of(call.name), call.address)
    told = function(byref(gate), table, len(call.table or b""), reply, len(call.reply or b""), run_of(call.packet), call.clock)
    numbers = (told.changed, told.reply_len, told.skew, told.stamped) if told.answer == 0 or told.answer > 100 else (None,) * 4
    return told.answer, *numbers, table.raw[:-1], reply.raw[:-1]


def agree(probe, tally):
    function, rng = built(), seeded("models agree")
    for call in some_calls():
        tally.same(in_c(function, call), tuple(modelled(call)), "type 26", call.packet.hex())
    for round in range(ROUNDS):
        call, _, faults = any_call(rng)
        tally.same(in_c(function, call), tuple(modelled(call)), "round", round, *faults)


GROUPS = [
    ("the tests: the second implementations in Python and C agree", agree),
]
