"""Counts instructions with callgrind."""
import functools
import re
import shutil
import subprocess
import sys

PROGRAMS = "target/bench"
FEW, MANY = 10, 60  # calls in the two counts; their difference is of calls alone, with no start of the program


@functools.cache
def per_call(program, *words, function=None):
    """Instructions of one call, or of one function in it; the program takes the number of calls as its last word."""
    few, many = (collected([f"{PROGRAMS}/{program}", *map(str, words), str(runs)], function) for runs in (FEW, MANY))
    return (many - few) / (MANY - FEW)


def collected(command, function):
    callgrind = [shutil.which("valgrind"), "--tool=callgrind", "--callgrind-out-file=/dev/null"]
    if function is not None:
        callgrind.append(f"--toggle-collect={function}")
    # no environment: its size moves the stack, and memset takes more or less by where that is
    run = subprocess.run(callgrind + command, env={}, capture_output=True, text=True)
    found = re.search(r"Collected : (\d+)", run.stderr)
    if run.returncode != 0 or not found:
        sys.exit(f"bench: no count of {' '.join(command)}\n{run.stderr}")
    return int(found[1])


def handled(kind, size):
    """Of fbk_handle alone; bench/programs/handle.c has the kinds."""
    return per_call("handle", kind, size, function="fbk_handle")


def digested(who, what, size):
    """Of MD5 or HMAC of so many bytes; bench/programs/digests.c has who can do it."""
    return per_call("digests", "count", who, what, size)


def block(who="proved"):
    """Of one MD5 block in a long message: what 63 more of them take."""
    return (digested(who, "MD5", 4096) - digested(who, "MD5", 64)) / 63
