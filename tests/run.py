"""The tests outside the prover, from the root: python3 -m tests.run LIBRARY.so... Its last line is the count."""
import faulthandler
import sys
from importlib import import_module

from tests.harness import runner
from tests.harness.probe import Probe

MODULES = [  # of each folder, in the order in which they are run
    ("self_tests", ["wrong_handlers", "rates_found_out", "models_agree", "run_endings", "wrong_writers", "wrong_reply_checks", "wrong_comparisons"]),
    ("self_tests", ["schedulers_found_out", "structs_found_out"]),
    ("cases.scheduler", ["model", "reread"]),  # the model itself; the library is held beside it further down
    ("cases.digests", ["md5", "hmac_md5", "refusals"]),
    ("cases.octets", ["equality", "comparisons", "numbers", "copies"]),
    ("cases.packets", ["signatures", "discards", "stamps", "causes", "seeded", "nulls"]),
    ("cases.table", ["slots", "matching", "changes", "starts", "ends", "nulls"]),
    ("cases.handler", ["refusals", "sessions", "replies", "rates", "seeded"]),
    ("cases.exchanges", ["writer", "reply_check", "seeded", "with_handler"]),
    ("cases.scheduler", ["library", "struct_after_calls", "rates"]),
    ("cases.c", ["programs", "install"]),
    ("stored", ["cases"]),
]

faulthandler.enable()  # a byte touched behind a fence ends the process: say in which test
modules = [import_module(f"tests.{folder}.{name}") for folder, names in MODULES for name in names]
sys.exit(runner.run(Probe(sys.argv[1:]), modules))
