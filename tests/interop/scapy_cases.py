"""scapy against the host: what radclient cannot send. One host takes all of it, so it also lives through all of it."""
from datagrams import asked, asked_in_vain
from host import Host
from scapy_list import ANSWERED, SILENT
from scapy_packets import cause, is_authentic
from settings import ACK, NAK, WAYS


def discarded(report, program, port, way):
    with Host(program, port, *WAYS[way]) as host:
        before = host.table()
        for title, make, rule in SILENT:
            reply, told = asked_in_vain(port, make()), host.told()
            report.same((reply, told.rule, told.answer), (None, rule, "no reply"), f"scapy, {way}", f"no reply, {rule}: {title}")
        report.same(host.table(), before, f"scapy, {way}", "the table after all that had no reply")


def answered(report, program, port, way):
    with Host(program, port, *WAYS[way]) as host:
        for title, make, rule in ANSWERED:
            packet = make()
            reply, told = asked(port, packet) or bytes(20), host.told()
            found = reply[0], reply[1], cause(reply), is_authentic(reply, packet), told.rule
            wanted = packet[0] + (NAK if rule else ACK), packet[1], rule, True, str(rule)
            report.same(found, wanted, f"scapy, {way}", f"{rule or 'ACK'}: {title}")
