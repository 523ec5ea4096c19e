"""The packet in Python, from the words of document 01, and of document 02 on type 26: signatures, silent discards, NAK causes 1 to 6."""
import hashlib
import hmac
from typing import NamedTuple

from tests.models import vendor_model

ZEROS = bytes(16)
CRITERIA = {1, 5, 8, 31, 44}
VENDOR_SPECIFIC = 26
CHANGES = {11, VENDOR_SPECIFIC, 27, 28}
SUPPORTED = {43: {1, 4, 5, 6, 8, 11, 24, VENDOR_SPECIFIC, 27, 28, 31, 32, 33, 44, 55, 80}}
SUPPORTED[40] = SUPPORTED[43] - CHANGES
OF_LENGTH_6 = {4, 5, 8, 27, 28}
NOT_EMPTY = {1, 11, 24, 31, 32, 33, 44}


class Gate(NamedTuple):
    secret: bytes
    address: int
    name: bytes


class Attribute(NamedTuple):
    kind: int
    value: bytes
    place: int  # of the value, in the packet


def with_auth(p, n, auth):
    return p[:4] + auth + p[20:n]


def authenticator(p, n, auth, secret):
    return hashlib.md5(with_auth(p, n, auth) + secret).digest()


def message_authenticator(p, n, auth, at, secret):
    m = with_auth(p, n, auth)
    return hmac.digest(secret, m[:at] + ZEROS + m[at + 16:], "md5")


def attributes(p, n):
    """Those of a packet of Length n; None where they do not fill Length, or one has length 0 or 1."""
    found, at = [], 20
    while at < n:
        if at + 1 == n or p[at + 1] < 2 or at + p[at + 1] > n:
            return None
        found.append(Attribute(p[at], p[at + 2:at + p[at + 1]], at + 2))
        at += p[at + 1]
    return found


def length_of(p):
    return int.from_bytes(p[2:4], "big")


def bad_length(p):
    """D1's rule."""
    return len(p) < 20 or not 20 <= length_of(p) <= min(4096, len(p))


def bad_form(p):
    """D1, D2 or D3; 0 where none applies."""
    if bad_length(p):
        return 1
    if p[0] not in SUPPORTED:
        return 2
    return 3 if attributes(p, length_of(p)) is None else 0


def bad_mac(p, n, auth, secret):
    """Type 80 repeated, of wrong length or wrong, worked out over auth."""
    macs = [a for a in attributes(p, n) if a.kind == 80]
    if len(macs) > 1:
        return True
    return any(a.value != message_authenticator(p, n, auth, a.place, secret) for a in macs)


def no_stamp(found):
    """Type 55 is not there exactly once with length 6."""
    return [len(a.value) for a in found if a.kind == 55] != [4]


def stamp(found):
    """The time in the one type 55."""
    return next(int.from_bytes(a.value, "big") for a in found if a.kind == 55)


def is_unsupported(code, a):
    return a.kind not in SUPPORTED[code] or a.kind == VENDOR_SPECIFIC and vendor_model.is_of_another(a.value)


def is_invalid(a):
    """404's rule on one attribute alone."""
    if a.kind == VENDOR_SPECIFIC:
        return vendor_model.rates(a.value) is None
    return a.kind in OF_LENGTH_6 and len(a.value) != 4 or a.kind in NOT_EMPTY and not a.value


def is_change(a):
    """402's rule: a type 26 exactly if it sets a rate."""
    return bool(vendor_model.rates(a.value)) if a.kind == VENDOR_SPECIFIC else a.kind in CHANGES


def cause(code, found, gate):
    """1 to 6, first that applies; 0 where none does."""
    kinds = [a.kind for a in found]
    if any(is_unsupported(code, a) for a in found):
        return 401
    if 6 in kinds:
        return 405
    if any(kind != 33 and kinds.count(kind) > 1 for kind in kinds) or any(map(is_invalid, found)):
        return 404
    own = {4: gate.address.to_bytes(4, "big"), 32: gate.name}
    if any(a.kind in own and a.value != own[a.kind] for a in found):
        return 403
    if CRITERIA.isdisjoint(kinds) or code == 43 and not any(map(is_change, found)):
        return 402
    return 506 if any(a.kind == 11 and len(a.value) > 32 for a in found) else 0


def judged(p, signed, gate, clock):
    """Of a packet that D1 to D3 pass, D4 to D6 and causes 1 to 6: as verdict. signed: whether the authenticator is right."""
    if not signed:
        return 104, None
    n = length_of(p)
    if bad_mac(p, n, ZEROS, gate.secret):
        return 105, None
    found = attributes(p, n)
    if no_stamp(found):
        return 106, None
    skew = stamp(found) - clock
    return 106 if abs(skew) > 300 else cause(p[0], found, gate), skew


def verdict(p, gate, clock):
    """0 passed, 100 + n discarded by Dn, else the cause; and the skew, None where no stamp is usable."""
    form = bad_form(p)
    if form:
        return 100 + form, None
    return judged(p, p[4:20] == authenticator(p, length_of(p), ZEROS, gate.secret), gate, clock)
