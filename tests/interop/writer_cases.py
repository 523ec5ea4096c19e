"""Our request writer against hostapd: it answers, and its replies pass our reply check."""
import hashlib
import time

from datagrams import asked, asked_in_vain
from hostapd import Hostapd
from library import Library
from scapy_packets import attribute, cause, number
from settings import ACK, COA, DISCONNECT, NAK, SECRET

SECRET_BYTES = SECRET.encode()
USER, OTHER_NAS = attribute(1, b"room-9"), attribute(32, b"oak-gate")
CASES = [
    ("Disconnect-Request by User-Name", DISCONNECT, [USER], 503),
    ("Disconnect-Request by Acct-Session-Id", DISCONNECT, [attribute(44, b"0000004F")], 503),
    ("Disconnect-Request by Calling-Station-Id", DISCONNECT, [attribute(31, b"02-00-5E-10-00-09")], 503),
    ("Disconnect-Request to another NAS", DISCONNECT, [USER, OTHER_NAS], 403),
    ("Disconnect-Request with Session-Timeout", DISCONNECT, [USER, number(27, 65748)], 401),
    ("CoA-Request with Filter-Id", COA, [USER, attribute(11, b"night")], 401),
]


def written(library, code, attributes, add_mac, seconds=0):
    parts = [*attributes, number(55, int(time.time()) + seconds)]
    return library.write(code, 9, b"".join(map(bytes, parts)), add_mac, SECRET_BYTES)


def resigned(reply, request):
    """The reply with its authenticator worked out again, after something in it was altered."""
    return reply[:4] + hashlib.md5(reply[:4] + request[4:20] + reply[20:] + SECRET_BYTES).digest() + reply[20:]


def flipped(run, place):
    return run[:place] + bytes([run[place] ^ 1]) + run[place + 1:]


def answered(report, path, port):
    library = Library(path)
    with Hostapd(port, False):
        for title, code, attributes, wanted in CASES:
            for add_mac in (0, 1):
                request = written(library, code, attributes, add_mac)
                reply = asked(port, request) or bytes(20)
                found = reply[0], cause(reply), library.check(SECRET_BYTES, request, reply)
                tail = ", with Message-Authenticator" if add_mac else ""
                report.same(found, (code + NAK, wanted, 0), "hostapd", f"{wanted}, its reply is right: {title}{tail}")
        for title, packet in [
            ("a request with one bit altered", flipped(written(library, DISCONNECT, [USER], 0), 24)),
            ("a stamp of 310 s ago", written(library, DISCONNECT, [USER], 1, -310)),
        ]:
            report.same(asked_in_vain(port, packet), None, "hostapd", f"no reply: {title}")


def judged(report, path, port):
    """The reply check must be able to say no to a reply of hostapd's; those of 2.10 end with a Message-Authenticator."""
    library = Library(path)
    with Hostapd(port, True):
        request = written(library, DISCONNECT, [USER], 1)
        reply = asked(port, request) or bytes(20)
        report.same(library.check(SECRET_BYTES, request, reply), 0, "hostapd", "it wants Message-Authenticator: answered, and its reply is right")
        report.same(asked_in_vain(port, written(library, DISCONNECT, [USER], 0)), None, "hostapd", "it wants Message-Authenticator: no reply without")
    altered = [
        ("another secret", (b"testing124", request, reply), 205),
        ("a reply with its last bit altered", (SECRET_BYTES, request, flipped(reply, len(reply) - 1)), 205),
        ("the same, signed again", (SECRET_BYTES, request, resigned(flipped(reply, len(reply) - 1), request)), 206),
        ("another identifier", (SECRET_BYTES, request, resigned(flipped(reply, 1), request)), 204),
        ("the code of a CoA-NAK", (SECRET_BYTES, request, resigned(bytes([COA + NAK]) + reply[1:], request)), 203),
        ("a Disconnect-ACK instead", (SECRET_BYTES, request, bytes([DISCONNECT + ACK]) + reply[1:]), 205),
        ("cut off", (SECRET_BYTES, request, reply[:-1]), 202),
    ]
    for title, arguments, wanted in altered:
        report.same(library.check(*arguments), wanted, "fbk_check_reply", f"{wanted}: hostapd's reply, {title}")
