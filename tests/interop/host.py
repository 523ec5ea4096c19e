"""The host of samples/host as a process: started, read and ended."""
import queue
import signal
import subprocess
import threading
from typing import NamedTuple

from settings import LIMIT, ROOMS, SECRET


class Line(NamedTuple):
    """What the host writes for a packet."""
    came: str
    rule: str  # D1 to D6, an Error-Cause, or 0
    answer: str
    changed: str  # sessions, and the slots that differ
    job: str


def parsed(text):
    _, came, rule, answer, changed, *job = text.split(" | ")
    return Line(came, rule.split()[0], answer.split(",")[0], changed.removeprefix("sessions changed: "), job[0] if job else "")


class Host:
    """with Host(program, port) as host: it listens on the port."""
    replies = 0  # of all hosts of the run with the secret that tshark is told

    def __init__(self, program, port, *options, secret=("--secret", SECRET), rooms=ROOMS):
        self.is_captured = secret == ("--secret", SECRET)
        self.lines = queue.Queue()
        self.process = subprocess.Popen([program, "--port", str(port), *secret, *options, rooms], stdout=subprocess.PIPE, text=True)
        threading.Thread(target=self.read, daemon=True).start()

    def read(self):
        for text in self.process.stdout:
            self.lines.put(text.rstrip("\n"))

    def line(self):
        return self.lines.get(timeout=LIMIT)

    def until(self, end):
        """The lines up to the one that has this text."""
        found = [self.line()]
        while end not in found[-1]:
            found.append(self.line())
        return found

    def told(self):
        """What it writes for the next packet."""
        return parsed(self.line())

    def table(self):
        """The live slots, a line each."""
        self.process.send_signal(signal.SIGUSR1)
        return self.until("free slots")[1:-1]

    def end(self, number=signal.SIGTERM):
        """Its exit status, and its last line."""
        self.process.send_signal(number)
        last = self.until("ended;")[-1]
        if self.is_captured:
            Host.replies += int(last.split("replies: ")[1].split(",")[0])
        return self.process.wait(LIMIT), last

    def __enter__(self):
        self.until("time (UTC)")
        return self

    def __exit__(self, kind, *_):
        if self.process.poll() is None and kind is None:
            self.end()
        elif self.process.poll() is None:
            self.process.kill()
            self.process.wait(LIMIT)
