"""Real clients against the host: python3 tests/interop/run.py HOST LIBRARY.so CAPTURE. A row for each case; its last line is the count."""
import signal
import sys

import capture_cases
import capture_vendors
import host_cases
import pyrad_cases
import radclient_cases
import scapy_cases
import scapy_rates
import writer_cases
from capture import Capture
from report import Report
from settings import WAYS, WHOLE_LIMIT, free_port


def clients(report, program, port):
    """All that speaks with the host by the secret that tshark is told."""
    for way in WAYS:
        report.group("radclient", radclient_cases.answered, program, port, way)
        report.group("radclient", radclient_cases.discarded, program, port, way)
        report.group("scapy", scapy_cases.answered, program, port, way)
        report.group("scapy", scapy_cases.discarded, program, port, way)
        report.group("scapy", scapy_rates.rates, program, port, way)
        report.group("pyrad", pyrad_cases.causes, program, port, way)
    report.group("radclient", radclient_cases.together, program, port)
    report.group("pyrad", pyrad_cases.meeting, program, port)


def captured(report, program, file, port):
    with Capture(file, port):
        clients(report, program, port)
    capture_cases.replies(report, file, port)
    capture_vendors.vendors(report, file, port)


def break_off(number, _):
    """Leaves by an exception, so that every process that was started is ended."""
    sys.exit(f"interop: broken off by {signal.Signals(number).name}")


def main(program, library, file):
    report = Report()
    report.head()
    report.group("host", host_cases.errors, program, free_port())
    report.group("host", host_cases.ends, program, free_port())
    report.group("tshark", captured, program, file, free_port())
    for way in WAYS:
        report.group("pyrad", pyrad_cases.secrets, program, free_port(), way)
    report.group("hostapd", writer_cases.answered, library, free_port())
    report.group("hostapd", writer_cases.judged, library, free_port())
    return report.end()


for taken in (signal.SIGALRM, signal.SIGTERM):
    signal.signal(taken, break_off)
signal.alarm(WHOLE_LIMIT)
sys.exit(main(*sys.argv[1:]))
