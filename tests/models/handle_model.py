"""A whole request in Python, written from the words of documents 01 and 02: refused, discarded, or answered with table and reply."""
from typing import NamedTuple, Optional

from tests.models import packet_model, table_model, vendor_model
from tests.models.packet_model import VENDOR_SPECIFIC, Gate

FOUND_BY = {1: "user", 5: "port", 8: "address", 31: "station", 44: "id"}
SET_BY = {11: "filter", 27: "timeout", 28: "idle"}
RATE_SET_BY = {vendor_model.DOWN: "down", vendor_model.UP: "up"}  # items of a type 26
STATE, PROXY_STATE, MESSAGE_AUTHENTICATOR, ERROR_CAUSE = 24, 33, 80, 101
DISCONNECT = 40


class Handled(NamedTuple):
    answer: int  # 0 ACK, 1 to 4 refused, 100 + n discarded by Dn, else the NAK's Error-Cause
    changed: Optional[int]  # this and the next three: None where a refusal leaves them as they were
    reply_len: Optional[int]
    skew: Optional[int]
    stamped: Optional[int]
    table: bytes
    reply: bytes


def refusal(table, secret, nas_id, reply):
    """R1 to R4, the lowest that applies; 0 where none does."""
    if table_model.slot_count(table) == 0:
        return 1
    if not 1 <= len(secret) <= 64:
        return 2
    if not 1 <= len(nas_id) <= 32:
        return 3
    return 4 if len(reply) < 4096 else 0


def matching(table, found):
    """The live slots whose fields equal every one of 1, 5, 8, 31, 44 in the request."""
    asked = [(FOUND_BY[a.kind], a.value) for a in found if a.kind in FOUND_BY]
    return [k for k in range(table_model.slot_count(table)) if table_model.matches(table_model.slot(table, k), asked)]


def rates_set(found):
    """The rates that a type 26 names, by their field; none where there is no type 26."""
    values = [vendor_model.rates(a.value) or {} for a in found if a.kind == VENDOR_SPECIFIC]
    return {RATE_SET_BY[item]: rate for rates in values for item, rate in rates.items()}


def changed_slot(content, code, found):
    """Ended: zeros. Altered: only the fields of 11, 26, 27 and 28, those that the request has."""
    if code == DISCONNECT:
        return bytes(table_model.SIZE)
    named = {SET_BY[a.kind]: a.value for a in found if a.kind in SET_BY} | rates_set(found)
    numbers = {name: int.from_bytes(value, "big") for name, value in named.items() if name in table_model.PLACES}
    return table_model.altered(content, named | numbers)


def attribute(kind, value):
    return bytes([kind, len(value) + 2]) + value


def reply_to(p, found, cause, secret):
    """The ACK where cause is 0, else the NAK: first State, Error-Cause, every 33 in order, 80 if the request had one."""
    parts = [attribute(STATE, a.value) for a in found if a.kind == STATE][:1]
    if cause:
        parts.append(attribute(ERROR_CAUSE, cause.to_bytes(4, "big")))
    parts += [attribute(PROXY_STATE, a.value) for a in found if a.kind == PROXY_STATE]
    signed = any(a.kind == MESSAGE_AUTHENTICATOR for a in found)
    if signed:
        parts.append(attribute(MESSAGE_AUTHENTICATOR, bytes(16)))
    area = b"".join(parts)
    n, theirs = 20 + len(area), p[4:20]
    sent = bytes([p[0] + (2 if cause else 1), p[1]]) + n.to_bytes(2, "big") + bytes(16) + area
    if signed:
        sent = sent[:-16] + packet_model.message_authenticator(sent, n, theirs, n - 16, secret)
    return sent[:4] + packet_model.authenticator(sent, n, theirs, secret) + sent[20:]


def handle(table, secret, nas_ip, nas_id, reply, packet, clock):
    refused = refusal(table, secret, nas_id, reply)
    if refused:
        return Handled(refused, None, None, None, None, table, reply)
    answer, skew = packet_model.verdict(packet, Gate(secret, nas_ip, nas_id), clock)
    if answer in range(101, 107):
        return Handled(answer, 0, 0, skew or 0, 0 if skew is None else 1, table, reply)
    found = packet_model.attributes(packet, int.from_bytes(packet[2:4], "big"))
    slots = matching(table, found) if answer == 0 else []
    if answer == 0 and not slots:
        answer = 503
    for k in slots:
        table = table_model.with_slot(table, k, changed_slot(table_model.slot(table, k), packet[0], found))
    sent = reply_to(packet, found, answer, secret)
    return Handled(answer, len(slots), len(sent), skew, 1, table, sent + reply[len(sent):])
