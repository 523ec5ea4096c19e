"""Where valgrind reports that a branch, an address or a result depends on the secret."""
import subprocess
import xml.etree.ElementTree as ElementTree
from typing import NamedTuple

REPORTED = 9  # exit status where valgrind reports anything


class Site(NamedTuple):
    function: str  # the innermost, as the archive's symbols name it
    address: int  # in the program, which is linked to a fixed place: the same in every run
    kind: str  # valgrind's: UninitCondition is a branch


class Run(NamedTuple):
    calls: int  # -1 where one was not answered as it must be
    sites: dict  # how often each was reported


def site(error):
    frame = error.find("stack/frame")  # --num-callers=1: the archive says nothing of how its stack unwinds
    return Site(frame.findtext("fn", "?"), int(frame.findtext("ip"), 16), error.findtext("kind"))


def run(program, group, name, report):
    """One subject under valgrind."""
    done = subprocess.run(
        ["valgrind", "-q", "--track-origins=no", "--num-callers=1", "--error-limit=no", "--expensive-definedness-checks=yes",
         f"--error-exitcode={REPORTED}", "--xml=yes", f"--xml-file={report}", program, group, name],
        stdout=subprocess.PIPE, text=True)
    root = ElementTree.parse(report).getroot()
    counts = {pair.findtext("unique"): int(pair.findtext("count")) for pair in root.findall("errorcounts/pair")}
    sites = {site(error): counts[error.findtext("unique")] for error in root.findall("error")}
    if done.returncode != (REPORTED if sites else 0):
        return Run(-1, sites)
    return Run(int(done.stdout or -1), sites)


def subjects(program):
    listed = subprocess.run([program], stdout=subprocess.PIPE, text=True, check=True).stdout
    return [tuple(line.split("\t")) for line in listed.splitlines()]
