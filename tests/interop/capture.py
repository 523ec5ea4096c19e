"""tshark: captures what passes on the loopback interface, and says of each reply whether its authenticator is valid."""
import signal
import subprocess
import time
from pathlib import Path
from typing import NamedTuple

from datagrams import asked
from settings import LIMIT, START_LIMIT

TRUE = {"1", "True"}  # both fields are always there; how they are written depends on tshark's version


class Judged(NamedTuple):
    """Replies, counted by what tshark says of their authenticator."""
    valid: int = 0
    invalid: int = 0
    untold: int = 0


class Capture:
    """with Capture(file, port): what is sent to the port and from it goes into the file."""

    def __init__(self, path, port):
        self.path, self.port = Path(path), port
        self.path.unlink(missing_ok=True)
        words = ["tshark", "-q", "-i", "lo", "-f", f"udp port {port}", "-w", str(path)]
        self.process = subprocess.Popen(words, stdout=subprocess.DEVNULL, stderr=subprocess.PIPE, text=True)

    def packets(self):
        """How many are in the file by now."""
        return len(fields(self.path, [], ["frame.number"]))

    def __enter__(self):
        """Waits until it captures: a byte that is sent to the port has to turn up in the file."""
        end = time.monotonic() + START_LIMIT
        while time.monotonic() < end and self.process.poll() is None:
            probe(self.port)
            if self.path.exists() and self.packets():
                return self
        self.process.kill()
        raise RuntimeError("tshark does not capture on lo: " + self.process.communicate()[1])

    def __exit__(self, *_):
        """Ends it when nothing new has come for a while."""
        before = -1
        while before != (before := self.packets()):
            time.sleep(0.5)
        self.process.send_signal(signal.SIGINT)
        self.process.communicate(timeout=LIMIT)


def probe(port):
    """A byte to a port that nothing listens on yet: the system refuses it, and the capture has it."""
    try:
        asked(port, b"?", 0.2)
    except ConnectionRefusedError:
        time.sleep(0.2)


def fields(path, options, names):
    """The fields of each packet in the file, as tshark reads it."""
    words = ["tshark", "-r", str(path), *options, "-T", "fields", *[word for name in names for word in ("-e", name)]]
    ran = subprocess.run(words, stdout=subprocess.PIPE, stderr=subprocess.PIPE, text=True, timeout=4 * LIMIT)
    return [line.split("\t") for line in ran.stdout.splitlines()]


def judged(path, port, secret):
    """What tshark says of what came from the port, if this is the secret."""
    settings = ["-o", f"radius.shared_secret:{secret}", "-o", "radius.validate_authenticator:TRUE"]
    options = ["-d", f"udp.port=={port},radius", "-Y", f"radius && udp.srcport == {port}", *settings]
    count = {"valid": 0, "invalid": 0, "untold": 0}
    for valid, invalid in fields(path, options, ["radius.authenticator.valid", "radius.authenticator.invalid"]):
        count["valid" if valid in TRUE else "invalid" if invalid in TRUE else "untold"] += 1
    return Judged(**count)
