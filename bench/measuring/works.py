"""Whole requests, walks over long names, and the steps of a job, through C, beside what MD5 and the peers take."""
import callgrind
from rows import Row

SECRET, PAD, DIGEST = 10, 64, 16  # bytes of the secret, of a key pad and of an MD5


def authenticator(size):
    """The MD5 messages of a packet's authenticator, in bytes."""
    return [size + SECRET]


def mac(size):
    """The same of its Message-Authenticator: the inner hash and the outer."""
    return [PAD + size, PAD + DIGEST]


PLAIN = authenticator(102) + authenticator(34)
TIMEOUT, RATES = (authenticator(size) + authenticator(20) for size in (75, 95))
WITH_MAC = authenticator(120) + mac(120) + mac(52) + authenticator(52)
ECHOED = authenticator(4096) + authenticator(4096)
# kind and size for bench/programs/handle.c, title, MD5 messages of request and reply, what a peer takes, goal, decision
REQUESTS = [
    ("plain", 64, "Disconnect, no MAC, 102 bytes, 64 slots, all live", PLAIN, "hostapd 11,648", 4500, 34),
    ("lone", 64, "the same, one slot live", PLAIN, "hostapd 11,648", 4500, 34),
    ("mac", 64, "Disconnect, MAC, 120 bytes, 64 slots, all live", WITH_MAC, "hostapd 20,100", 12000, 34),
    ("short", 4096, "4,096 bytes of 3-byte Proxy-States, echoed", ECHOED, "FreeRADIUS 256,195", 200000, None),
    ("long", 4096, "4,096 bytes of 255-byte Proxy-States, echoed", ECHOED, "FreeRADIUS 256,195", 200000, None),
    ("forged", 64, "wrong authenticator, 120 bytes", authenticator(120), "hostapd 5,718", 3000, None),
    ("timeout", 64, "CoA, Session-Timeout, 75 bytes, 64 slots, all live", TIMEOUT, "", None, None),
    ("rates", 64, "CoA, both rates in four groups, 95 bytes", RATES, "", None, None),
]
# kind, title, and what the walk over its 63 other slots may take: half of the 9,450 that it took when names were compared from their front
LONG_NAMES = [
    ("last", "64 live, User-Names that share forty of 41 bytes", 4725),
    ("same", "64 live, one User-Name of 63 bytes", None),
]


def blocks(size):
    """MD5 blocks of a message."""
    return (size + 8) // 64 + 1


def requests():
    yield Row("one MD5 block", callgrind.block(), "md5-block", 580, openssl=callgrind.block("openssl"), peers="others 580 to 660")
    for kind, size, title, messages, peers, goal, decision in REQUESTS:
        floor = sum(map(blocks, messages)) * callgrind.block()
        openssl = sum(callgrind.digested("openssl", "MD5", message) for message in messages)
        yield Row(title, callgrind.handled(kind, size), f"handle-{kind}-{size}", goal, decision, floor, openssl, peers)
    yield Row("rates in four groups, beyond Session-Timeout", callgrind.handled("rates", 64) - callgrind.handled("timeout", 64), goal=1200)


def names():
    """A request that names one of 64 sessions with long names, and the walk alone: what 63 more slots take."""
    for kind, title, goal in LONG_NAMES:
        whole = callgrind.handled(kind, 64)
        yield Row(title, whole, f"handle-{kind}-64")
        yield Row(f"{title}: walk", whole - callgrind.handled(kind, 1), f"walk-{kind}", goal)


def steps():
    """Each with its goal; beside them what it takes to read a packet, which all but a Hash do again."""
    verdict, authenticator = (callgrind.per_call("reading", what, function=f"probe_{what}") for what in ("verdict", "authenticator"))
    yield Row("the rules read on 102 bytes, without the hash", verdict - authenticator, "reading")
    for kind, title, goal, decision in [
        ("hash", "Hash, the first block", 1200, None),
        ("check", "Check, 102 bytes", 1150, None),
        ("match", "Match of one slot, 102 bytes read again", 1600, None),
        ("commit", "Commit of an ACK, read again, the reply signed", 2900, None),
    ]:
        yield Row(title, callgrind.per_call("steps", kind, function="fbk_step_lent"), f"steps-{kind}", goal, decision)
