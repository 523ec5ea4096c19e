"""C programs over the header and the archive: what firmware sees."""
import re
import subprocess

from tests import ROOT
from tests.cases.c import header_scheduler
from tests.compare.doors import BESIDE
from tests.harness.compiled import ARCHIVE, HEADER, STRICT, languages
from tests.models.scheduler_struct import SIZE
from tests.stored import sample_requests

KEPT, NONE = "5 6 -8 7", "0 0 0 0"  # the four numbers: as they were, or as a discard without a stamp writes them
NULLS = [
    f"none: 104, {NONE}", f"table: 1, {KEPT}", f"secret: 2, {KEPT}", f"nas_id: 3, {KEPT}", f"reply: 4, {KEPT}", f"packet: 101, {NONE}",
    f"all but the table: 2, {KEPT}", f"all: 1, {KEPT}",
    "write, none: 0, 40", "write, attributes: 0, 38", "write, secret: 2, 5", "write, out: 4, 5", "write, all: 2, 5",
    "check, none: 205", "check, secret: 2", "check, request: 201", "check, reply: 202", "check, all: 2",
]
OF_C = {"memcpy", "memmove", "memset", "memcmp", "bcmp"}  # what a compiler may call by itself


def ran(command, sources):
    """What the program prints; what is wrong where it cannot be had."""
    program = ROOT / "target" / "tests" / "program"
    built = subprocess.run([*command, *STRICT, *sources, "-x", "none", ARCHIVE, "-o", program], cwd=ROOT, capture_output=True, text=True)
    if built.returncode != 0:
        return built.stderr
    run = subprocess.run([program], capture_output=True, text=True, timeout=60)
    return run.stdout if run.returncode == 0 else f"status {run.returncode}"


def nulls(probe, tally):
    for language in languages():
        for got, wanted in zip(ran(language, ["tests/cases/c/header.c"]).splitlines() + [""] * len(NULLS), NULLS):
            tally.same(got, wanted, *language)


def found(text, pattern):
    match = re.search(pattern, text, re.M)
    return match and match[1]


def run_of(text, name):
    """The bytes shown under this name."""
    return bytes.fromhex(found(text, rf"^  {name:8}((?:[ \n]+[0-9a-f]{{2}})+)$") or "")


def world(probe, tally):
    wanted = list(header_scheduler.lines())
    for language in languages():
        printed = ran(language, ["tests/cases/c/header_scheduler.c"]).splitlines()
        for got, line in zip(printed + [""] * len(wanted), wanted):
            tally.same(got, line, *language)
        tally.same(len(printed), len(wanted), "lines,", *language)


def layout(probe, tally):
    """The header's size of an fbk_scheduler is that of the tests, and a compiler that lays it out otherwise is stopped by the header itself."""
    for language in languages():
        for more, wanted in [([], r"\A\Z"), (["-fpack-struct=1"], "not.as.the.library.reads.it")]:
            run = subprocess.run([*language, *STRICT, *more, "-fsyntax-only", HEADER], capture_output=True, text=True)
            tally.same((run.returncode != 0, bool(re.search(wanted, run.stderr))), (more != [], True), *language, *more)
    stated = set(re.findall(r"sizeof\(fbk_scheduler\) == (\d+)", HEADER.read_text()))
    tally.same(stated, {str(SIZE)}, "the size that the header states")


def inline_functions(probe, tally):
    """What the header compiles into firmware takes the struct apart and calls, and that is all: no branch, no other statement."""
    bodies = re.findall(r"^static inline \w+ fbk_(\w+)\([^{]*\)\n\{\n(.*?)^\}\n", HEADER.read_text(), re.M | re.S)
    tally.same([name for name, _ in bodies], list(BESIDE), "the inline functions")
    for name, body in bodies:
        tally.same(bool(re.fullmatch(rf"\treturn fbk_{name}_lent\([\w\s,&>-]*\);\n", body)), True, name, "does nothing else")


def interleaved(probe, tally):
    stored = (ROOT / "samples" / "interleaved.stdout").read_text()
    tally.same(ran(["gcc", "-std=c99"], ["samples/interleaved.c", "samples/show.c"]), stored, "two requests in work at once")


def sample(probe, tally):
    """The sample gate prints what is stored, and that is what the second implementation answers."""
    stored = (ROOT / "samples" / "rooms.stdout").read_text()
    tally.same(ran(["gcc", "-std=c99"], ["samples/rooms.c", "samples/show.c"]), stored, "the sample gate")
    shown = re.split(r"^\d+\. ", stored, flags=re.M)[1:]
    for text, (packet, told, check) in zip(shown, sample_requests.answers(), strict=True):
        title = text.splitlines()[0]
        numbers = found(text, r"^  answer   (\d+): "), found(text, r"changed: (\d+)") or "0", found(text, r"^  check    (\d+): ")
        tally.same(numbers, (str(told.answer), str(told.changed), None if check is None else str(check)), "answers to:", title)
        tally.same(run_of(text, "packet"), packet, "request:", title)
        tally.same(run_of(text, "reply"), told.reply[:told.reply_len], "reply to:", title)


def archive(probe, tally):
    """No state, no allocation: nothing but functions and constants, and of others' only what copies, fills and compares."""
    run = subprocess.run(["nm", "-P", ARCHIVE], capture_output=True, text=True)
    symbols = [line.split()[:2] for line in run.stdout.splitlines() if len(line.split()) > 1]
    tally.same([name for name, kind in symbols if kind == "U" and name not in OF_C], [], "what the archive calls")
    tally.same([name for name, kind in symbols if kind in "BbDdCcSsGg"], [], "what the archive keeps")
    offered = {name for name, kind in symbols if kind == "T"}
    declared = set(re.findall(r"^(?!static )[a-z].* \*?(\w+)\(", HEADER.read_text(), re.M))
    tally.same(declared, {"fbk_handle", "fbk_write", "fbk_check_reply"} | {f"fbk_{name}_lent" for name in BESIDE}, "what is declared")
    tally.same(declared - offered, set(), "declared, and not in the archive")
    tally.same(offered - declared, set(), "in the archive, and not declared")


GROUPS = [
    ("C: NULL where a length is 0, in C and C++", nulls),
    ("C: the scheduler's inline functions, in C and C++", world),
    ("C: the size of the scheduler's struct", layout),
    ("C: the inline functions decide nothing", inline_functions),
    ("C: the sample gate", sample),
    ("C: the sample of requests in work at once", interleaved),
    ("C: the archive keeps nothing and allocates nothing", archive),
]
