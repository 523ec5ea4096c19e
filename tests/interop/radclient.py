"""FreeRADIUS's radclient: exit status 0 means that the reply is authentic and passes the filter."""
import subprocess
import tempfile
from pathlib import Path
from typing import NamedTuple

from settings import HERE, LIMIT, QUIET, SECRET

DICTIONARY = HERE / "freeradius"  # beside those that come with radclient


class Ran(NamedTuple):
    status: int
    output: str

    def verdict(self):
        """What radclient says against the reply, if anything."""
        said = [line for line in self.output.splitlines() if line.startswith("(")]  # (0) FILE: what is wrong
        return "as expected" if self.status == 0 else "no reply" if "No reply from server" in self.output else "; ".join(said)


def radclient(port, command, requests, filters=None, *options, secret=SECRET, wait=LIMIT):
    """Sends each of the requests once. A request is a list of pairs as radclient reads them, and so is its filter."""
    with tempfile.TemporaryDirectory() as room:
        files = [Path(room, "requests")]
        files[0].write_text(text(requests))
        if filters is not None:
            files.append(Path(room, "filters"))
            files[1].write_text(text(filters))
        words = ["radclient", "-x", "-d", str(DICTIONARY), "-r", "1", "-t", str(wait), "-f", ":".join(map(str, files))]
        words += [*options, f"127.0.0.1:{port}", command, secret]
        ran = subprocess.run(words, stdout=subprocess.PIPE, stderr=subprocess.STDOUT, text=True, errors="replace", timeout=4 * LIMIT)
    return Ran(ran.returncode, ran.stdout)


def unanswered(port, command, request, secret=SECRET):
    return radclient(port, command, [request], secret=secret, wait=QUIET)


def text(packets):
    return "\n\n".join("\n".join(pairs) for pairs in packets) + "\n"
