"""Authenticators and Message-Authenticators beside Python's, and block by block."""
from tests.inputs.byte_runs import BLANK, FAR, sample
from tests.inputs.packets import MAC, unsigned
from tests.models import packet_model

BORDERS = [n for k in (256, 512, 1024, 2048, 4096) for n in range(k - 10, k + 2) if n <= 4096]
LENGTHS = [*range(20, 210), *BORDERS]
SECRETS = [1, 10, 16, 63, 64]
ZEROS = bytes(16)


def packets(lengths):
    """Any bytes of each length, with none, one or more after them as padding."""
    for n in lengths:
        for padding in [0, 1, 70]:
            yield n, sample(n, n + padding)


def authenticators(probe, tally):
    for n, p in packets(LENGTHS):
        for size in SECRETS:
            secret = sample(size, size)
            for auth in [ZEROS, sample(n + 1, 16)]:
                wanted = (0, p, auth, secret, packet_model.authenticator(p, n, auth, secret))
                got = probe("authenticator", p, n, auth, secret, BLANK)
                tally.same(got, wanted, "Length", n, "of", len(p), "secret", size)


def secrets(probe, tally):
    for size in range(1, 65):
        secret = sample(size, size)
        for n in [20, 21, 46, 54, 55, 56, 63, 64, 65, 102, 120, 128, 4095, 4096]:
            p, auth = sample(n, n + 3), sample(size, 16)
            case = ("Length", n, "secret", size)
            whole = packet_model.authenticator(p, n, auth, secret)
            tally.same(probe("authenticator", p, n, auth, secret, BLANK), (0, p, auth, secret, whole), *case)
            request = packet_model.authenticator(p, n, ZEROS, secret)
            tally.same(probe("blocks", p, n, secret, BLANK), (0, p, secret, request), "by blocks", *case)
            for at in {20, (n + 4) // 2, n - 16}:
                if 20 <= at <= n - 16:
                    mac = packet_model.message_authenticator(p, n, auth, at, secret)
                    tally.same(probe("mac", p, n, auth, at, secret, BLANK), (0, p, auth, secret, mac), "at", at, *case)


def blockwise(probe, tally):
    for n, p in packets(LENGTHS):
        for size in [0, *SECRETS]:
            secret = sample(size, size)
            wanted = (0, p, secret, packet_model.authenticator(p, n, ZEROS, secret))
            tally.same(probe("blocks", p, n, secret, BLANK), wanted, "Length", n, "of", len(p), "secret", size)


def placed(probe, tally):
    """A Message-Authenticator first, in the middle and last, and at every place of 130 bytes."""
    for before in [0, 3, 30, 43, 44, 45, 100]:
        for behind in [0, 1, 30, 43, 64, 100, 300]:
            parts = [sample(before, before), MAC, sample(behind, behind)]
            n, at = 38 + before + behind, 22 + before
            for padding in [b"", b"\x50\x12", sample(5, 40)]:
                mac_at(probe, tally, unsigned(43, parts) + padding, n, at)
    for at in range(20, 115):
        mac_at(probe, tally, sample(at, 131), 130, at)


def mac_at(probe, tally, p, n, at):
    for size in SECRETS:
        secret = sample(size, size)
        for auth in [ZEROS, sample(9, 16)]:
            wanted = (0, p, auth, secret, packet_model.message_authenticator(p, n, auth, at, secret))
            tally.same(probe("mac", p, n, auth, at, secret, BLANK), wanted, "Length", n, "at", at, "secret", size)


def refused(probe, tally):
    secret, auth = sample(1, 10), sample(2, 16)
    for given in [0, 1, 19, 20, 36, 100, 4096, 4200]:
        p = sample(given, given)
        for n in {0, 19, 20, 35, 36, given - 1, given, given + 1, 4096, 4097, *FAR} - {-1}:
            for sizes in [(16, 16), (15, 16), (16, 15), (17, 16), (16, 17), (0, 16), (16, 0)]:
                lent, out = auth[:sizes[0]].ljust(sizes[0], b"x"), b"\xee" * sizes[1]
                case = ("Length", n, "of", given, "authenticator and output of", *sizes)
                if not (20 <= n <= given and sizes == (16, 16)):
                    tally.same(probe("authenticator", p, n, lent, secret, out), (1, p, lent, secret, out), *case)
                for at in {0, 19, 20, n - 17, n - 16, n - 15, n, *FAR}:
                    if at >= 0 and not (20 <= at <= n - 16 and n <= given and sizes == (16, 16)):
                        tally.same(probe("mac", p, n, lent, at, secret, out), (1, p, lent, secret, out), "at", at, *case)
            for size in [1, 64, 65, 200]:
                for room in [16, 15, 17, 0]:
                    long, out = sample(3, size), b"\xee" * room
                    if not (20 <= n <= min(given, 4096) and size <= 64 and room == 16):
                        case = ("by blocks, Length", n, "of", given, "secret", size, "room", room)
                        tally.same(probe("blocks", p, n, long, out), (1, p, long, out), *case)


GROUPS = [
    ("authenticators of 20 to 4,096 bytes, with padding", authenticators),
    ("signatures with secrets of 1 to 64 bytes", secrets),
    ("authenticators block by block", blockwise),
    ("Message-Authenticators first, in the middle, last", placed),
    ("refused: signatures past Length, the packet or 16 bytes", refused),
]
