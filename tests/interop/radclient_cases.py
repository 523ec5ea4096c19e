"""radclient against the host: each case with and without Message-Authenticator."""
import re
import time

from host import Host
from radclient import radclient, unanswered
from radclient_list import ALLOWANCE, CASES, ECHO, USER
from radclient_rates import RATE_CASES
from settings import WAYS

KINDS = {"coa": "CoA", "disconnect": "Disconnect"}
MAC, MAC_BACK = "Message-Authenticator = 0x00", "Message-Authenticator =* ANY"  # radclient fills it in, and checks the reply's


def stamp(seconds=0):
    return f"Event-Timestamp = {int(time.time()) + seconds}"


def filter_for(case, mac):
    """Where the reply is to have attributes, radclient wants it to have these and no others."""
    answer = "NAK" if case.cause else "ACK"
    pairs = [f"Response-Packet-Type == {KINDS[case.command]}-{answer}", *[pair.replace("=", "==") for pair in case.reply]]
    return pairs + ([f"Error-Cause == {case.cause}"] if case.cause else []) + ([MAC_BACK] if mac else [])


def length_for(case, mac):
    """Of the reply: radclient does not look at attributes that a filter without any does not name."""
    return 20 + sum(len(pair.split("0x")[1]) // 2 + 2 for pair in case.reply) + (6 if case.cause else 0) + (18 if mac else 0)


def answered(report, program, port, way):
    for case in CASES + RATE_CASES:
        for mac in (False, True):
            with Host(program, port, *WAYS[way]) as host:
                before = host.table()
                ran = radclient(port, case.command, [[*case.request, stamp(), *([MAC] if mac else [])]], [filter_for(case, mac)])
                told, table = host.told(), host.table()
            kept = sum(case.after[0] in slot for slot in table) if case.after else table == before
            found = ran.verdict(), re.findall("Received .* length ([0-9]+)", ran.output), told.rule, told.changed, kept
            wanted = "as expected", [str(length_for(case, mac))], str(case.cause), case.changed, case.after[1] if case.after else True
            report.same(found, wanted, f"radclient, {way}", f"{case.command}: {case.title}{', with Message-Authenticator' if mac else ''}")


SILENT = [
    ("coa", "no Event-Timestamp", lambda: [USER, ALLOWANCE], "D6"),
    ("disconnect", "no Event-Timestamp", lambda: [USER], "D6"),
    ("disconnect", "no Event-Timestamp, with Message-Authenticator", lambda: [USER, MAC], "D6"),
    ("disconnect", "two Event-Timestamps", lambda: [USER, stamp(), stamp()], "D6"),
    ("disconnect", "a stamp of 310 s ago", lambda: [USER, stamp(-310)], "D6"),
    ("coa", "a stamp 310 s ahead", lambda: [USER, ALLOWANCE, stamp(310)], "D6"),
]


def discarded(report, program, port, way):
    with Host(program, port, *WAYS[way]) as host:
        before = host.table()
        for command, title, request, rule in SILENT:
            ran, told = unanswered(port, command, request()), host.told()
            report.same((ran.verdict(), told.rule, told.answer), ("no reply", rule, "no reply"), f"radclient, {way}", f"{command}: no reply, {title}")
        ran, told = unanswered(port, "coa", [USER, ALLOWANCE, stamp()], secret="testing124"), host.told()
        report.same((ran.verdict(), told.rule, told.answer), ("no reply", "D4", "no reply"), f"radclient, {way}", "coa: no reply, another secret")
        report.same(host.table(), before, f"radclient, {way}", "the table after all that had no reply")


def together(report, program, port):
    """Ten requests at once, in slow steps: four are in work, the others wait."""
    requests = [[f'User-Name = "room-{room}"', ALLOWANCE, stamp(), *ECHO, MAC] for room in (9, 12, 14, 99, 9) * 2]
    filters = [["Response-Packet-Type == CoA-NAK" if '"room-99"' in pairs[0] else "Response-Packet-Type == CoA-ACK"] for pairs in requests]
    with Host(program, port, "--steps", "--pace", "2") as host:
        ran = radclient(port, "coa", requests, filters, "-p", "10")
        told = [host.told() for _ in requests]
    jobs = {line.job.split(",")[0] for line in told}
    wanted = "as expected", {f"job {number}" for number in range(4)}
    report.same((ran.verdict(), jobs), wanted, "radclient, steps", "coa: ten at once, by four jobs")
