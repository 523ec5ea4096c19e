"""The host itself: help, errors that name their place, signals, and what it holds at once."""
import signal
import subprocess
import tempfile
import time
from pathlib import Path

from datagrams import asked_in_vain
from host import Host
from scapy_packets import attribute, request, stamp
from settings import DISCONNECT, LIMIT, ROOMS

ROW = "room-9 0000004F 9 10.0.0.9 - 65000 600 day\n"
BAD_ROOMS = [
    ("a column too few", "# rooms\n" + ROW.replace(" day", ""), 2, "fewer columns"),
    ("a column too many", ROW.replace("day", "day day"), 1, "more columns"),
    ("a NAS-Port that is no number", "\n\n" + ROW.replace(" 9 ", " nine "), 3, 'NAS-Port "nine"'),
    ("a Session-Timeout of 33 bits", ROW.replace("65000", "4294967296"), 1, 'Session-Timeout "4294967296"'),
    ("an address of three numbers", ROW.replace("10.0.0.9", "10.0.9"), 1, 'Framed-IP-Address "10.0.9"'),
    ("an Acct-Session-Id twice", ROW + "\n" + ROW, 3, 'Acct-Session-Id "0000004F" stands in a line before'),
    ("a Filter-Id of 33 bytes", ROW.replace("day", 33 * "d"), 1, "too long"),
    ("65 sessions", "".join(ROW.replace("4F", f"{row:02}") for row in range(65)), 65, "the table is full"),
]
BAD_WORDS = [
    ("no such option", ["--porte", "1", ROOMS], "no such option: --porte"),
    ("a port that is none", ["--port", "65536", ROOMS], "--port is 0 to 65535, not: 65536"),
    ("no rooms", ["--port", "0"], "no file of rooms"),
    ("a secret of 65 bytes", ["--secret", 65 * "s", ROOMS], "the secret has 65 bytes"),
    ("a NAS-Identifier of 33 bytes", ["--nas-id", 33 * "n", ROOMS], "the NAS-Identifier has 33 bytes"),
    ("a file that is not there", ["no-such-rooms.txt"], "no-such-rooms.txt: No such file or directory"),
]


def ran(program, *words):
    return subprocess.run([program, *words], capture_output=True, text=True, timeout=LIMIT)


def errors(report, program, port):
    help_text = ran(program, "--help")
    report.same((help_text.returncode, "--secret TEXT" in help_text.stdout), (0, True), "host", "--help")
    for title, words, said in BAD_WORDS:
        found = ran(program, *words)
        report.same((found.returncode, said in found.stderr), (2, True), "host", f"error: {title}")
    with tempfile.TemporaryDirectory() as room:
        for title, text, line, said in BAD_ROOMS:
            path = Path(room, "rooms.txt")
            path.write_text(text)
            found = ran(program, "--port", "0", path)
            says = f"rooms.txt:{line}: " in found.stderr, said in found.stderr
            report.same((found.returncode, *says), (2, True, True), "host", f"error in rooms: {title}")
    with Host(program, port):
        found = ran(program, "--port", str(port), ROOMS)
    report.same((found.returncode, f"UDP port {port} of 127.0.0.1: Address already in use" in found.stderr), (1, True), "host", "error: port in use")


def ends(report, program, port):
    for number in (signal.SIGTERM, signal.SIGINT):
        with Host(program, port) as host:
            status, last = host.end(number)
        report.same((status, "ended; packets: 0, replies: 0" in last), (0, True), "host", f"ends on {number.name}")
    with Host(program, port, "--steps", "--pace", "1000") as host:
        for _ in range(6):
            asked_in_vain(port, request(DISCONNECT, attribute(1, b"room-9"), stamp()))
        table = host.table()
        begin = time.monotonic()
        status, last = host.end()
    found = status, len(table), last.split("ended; ")[1], time.monotonic() - begin < LIMIT
    wanted = 0, 4, "packets: 0, replies: 0, requests dropped in work: 4", True
    report.same(found, wanted, "host", "six slow requests: four in work, two not read, the table printed, ended at once")
