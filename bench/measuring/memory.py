"""Bytes of code and of stack."""
import subprocess
import sys

from callgrind import PROGRAMS
from rows import Row


def printed(*command):
    run = subprocess.run(command, stdout=subprocess.PIPE, text=True)
    if run.returncode != 0:
        sys.exit(f"bench: {command[0]} failed")
    return run.stdout.splitlines()


def text(functions):
    """Of a program that links so many functions of the library: the first column of `size`."""
    return int(printed("size", f"{PROGRAMS}/linked{functions}")[1].split()[0])


def code():
    yield Row("text of a program, all nine functions, over one with none", text(9) - text(0), "text-all")
    yield Row("text of a program, fbk_handle alone, over one with none", text(1) - text(0), "text-handle")


def stack():
    """The most over the packets of the benchmark, as bench/programs/stack.c measures it."""
    for line in printed(f"{PROGRAMS}/stack"):
        call, depth = line.split()
        yield Row(f"stack of {call}", int(depth), f"stack-{call}")
