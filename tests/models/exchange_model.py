"""The other side in Python, written from document 01's words: a request written, a reply checked."""
from typing import NamedTuple, Optional

from tests.models import packet_model
from tests.models.packet_model import ZEROS

CODES = (40, 43)
MESSAGE_AUTHENTICATOR = 80


class Written(NamedTuple):
    answer: int  # 0 written, else the refusal's number
    length: Optional[int]  # None where a refusal leaves it as it was
    out: bytes


def bad_secret(secret):
    return not 1 <= len(secret) <= 64


def refusal(code, given, add, secret, out):
    """R2, R4, R12, R13, the lowest that applies; 0 where none does."""
    if bad_secret(secret):
        return 2
    if len(out) < 4096:
        return 4
    if code not in CODES:
        return 12
    found = packet_model.attributes(bytes(20) + given, 20 + len(given))
    if found is None or any(a.kind == MESSAGE_AUTHENTICATOR for a in found):
        return 13
    return 13 if len(given) > (4058 if add else 4076) else 0


def request_of(code, identifier, given, add, secret):
    """Type 80 last if it is to be added, worked out before the authenticator; both over zeros."""
    n = 20 + len(given) + (18 if add else 0)
    p = bytes([code, identifier]) + n.to_bytes(2, "big") + ZEROS + given
    if add:
        p += bytes([MESSAGE_AUTHENTICATOR, 18]) + ZEROS
        p = p[:-16] + packet_model.message_authenticator(p, n, ZEROS, n - 16, secret)
    return p[:4] + packet_model.authenticator(p, n, ZEROS, secret) + p[20:]


def write(code, identifier, given, add, secret, out):
    refused = refusal(code, given, add, secret, out)
    if refused:
        return Written(refused, None, out)
    p = request_of(code, identifier, given, add, secret)
    return Written(0, len(p), p + out[len(p):])


def check_reply(secret, request, reply):
    """0 right, 2 refused, 200 + n where Vn is the first failure."""
    if bad_secret(secret):
        return 2
    if packet_model.bad_form(request):
        return 201
    n, theirs = packet_model.length_of(reply), request[4:20]
    if packet_model.bad_length(reply) or packet_model.attributes(reply, n) is None:
        return 202
    if reply[0] not in (request[0] + 1, request[0] + 2):
        return 203
    if reply[1] != request[1]:
        return 204
    if reply[4:20] != packet_model.authenticator(reply, n, theirs, secret):
        return 205
    return 206 if packet_model.bad_mac(reply, n, theirs, secret) else 0
