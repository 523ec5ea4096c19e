"""The two ways to the scheduler's calls: exported functions, each array lent by itself, and the header's inline functions, in C and C++."""
import ctypes
import functools
import subprocess
import sys

from tests import ROOT
from tests.harness.compiled import ARCHIVE, STRICT, languages
from tests.harness.fence import Room
from tests.harness.probe import BYTES, POINTER, SIZE, U32, Cell, found, lay
from tests.models.scheduler_struct import part, with_part

ORDER = ["words", "kinds", "places", "marks", "secret", "secret_len", "nas_ip", "nas_id", "nas_id_len"]  # of the parameters
NUMBERS = {"secret_len": SIZE, "nas_ip": U32, "nas_id_len": SIZE}  # lent for making alone
APART = [word for name in ORDER for word in NUMBERS.get(name, POINTER)]
BESIDE = {  # what each call takes beside its scheduler
    "make": BYTES + U32 + BYTES,
    "open": BYTES + U32 + BYTES + POINTER,
    "step": U32 + BYTES * 3 + POINTER * 4,
    "drop": U32,
    "start": BYTES + U32 * 4 + BYTES * 4 + POINTER,
    "end": BYTES + U32,
}
MOST = 20  # arguments of a call


class Door:
    """door(name, held, ..) gives the answer, the struct, and each run and number that was lent beside it, as they are after the call."""

    def __init__(self, title, libraries, named, scheduler):
        self.title, self.functions, self.rooms = title, {}, [Room() for _ in range(MOST)]
        for name, words in BESIDE.items():
            function = self.functions[name] = found(libraries, named.format(name))
            function.argtypes, function.restype = scheduler(name) + words, ctypes.c_uint32

    def run(self, name, arguments):
        words, laid = lay(self.rooms, arguments)
        answer = self.functions[name](*words)
        return answer, *[room.found(length) for room, length in laid]


class Exported(Door):
    """Each array ends at a fence of its own."""

    def __init__(self, probe):
        super().__init__("exported", probe.libraries, "fbk_{}_lent", lambda name: POINTER * len(ORDER) if name == "make" else APART)

    def __call__(self, name, held, *arguments):
        lent = [one for one in ORDER if name == "make" or one not in NUMBERS]
        apart = [Cell(part(held, one)) if one in lent else int.from_bytes(part(held, one), sys.byteorder) for one in ORDER]
        answer, *after = self.run(name, [*apart, *arguments])
        whole = held
        for one, run in zip(lent, after):
            whole = None if whole is None or run is None else with_part(whole, one, run)
        return answer, whole, after[len(lent):]


class Inlined(Door):
    """The struct as one run at a fence; compiled in this language."""

    def __init__(self, language):
        place = ROOT / "target" / "tests" / f"inlined-{language[1]}.so"
        command = [*language, *STRICT, "-fPIC", "-shared", "tests/compare/inlined.c", "-x", "none", ARCHIVE, "-o", place]
        built = subprocess.run(command, cwd=ROOT, capture_output=True, text=True)
        if built.returncode != 0:
            raise ValueError(built.stderr)
        super().__init__(f"inlined, {language[1]}", [ctypes.CDLL(place)], "inlined_{}", lambda name: POINTER)

    def __call__(self, name, held, *arguments):
        answer, whole, *after = self.run(name, [Cell(held), *arguments])
        return answer, whole, after


@functools.cache
def all_doors(probe):
    """The exported functions, and the inline ones in each language that is installed, C99 first."""
    return [Exported(probe), *map(Inlined, languages())]


def two_doors(probe):
    """For long lists."""
    return all_doors(probe)[:2]
