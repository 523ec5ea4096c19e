"""The tests themselves: a request writer that does one thing wrong is found out."""
import hashlib

from tests.cases.exchanges.seeded import drafts, seeded_requests
from tests.compare.exchanges import modelled, returned
from tests.harness.tally import Tally
from tests.inputs.exchange_calls import Asked
from tests.inputs.exchange_drafts import any_asked
from tests.inputs.packets import sign
from tests.models.exchange_model import Written
from tests.models.packet_model import attributes
from tests.self_tests.quiet import quietly

ROUNDS = 800


def right(asked, told):
    return told


def with_packet(asked, told, packet):
    return told._replace(length=len(packet), out=packet + asked.out[len(packet):])


def packet_of(told):
    return told.out[:told.length]


def forced(asked, **other):
    """As if it had been asked for otherwise, where that can be written."""
    told = modelled(asked._replace(**other))
    return told if told.answer == 0 else modelled(asked)


def refuses_every_request(asked, told):
    return Written(13, None, asked.out or b"")


def takes_296_for_40(asked, told):
    return forced(asked, code=asked.code % 256) if told.answer == 12 else told


def puts_type_80_first(asked, told):
    if told.answer or not asked.add:
        return told
    p = packet_of(told)
    return with_packet(asked, told, sign(p[:20] + p[-18:] + p[20:-18], asked.secret))


def has_length_one_off(asked, told):
    p = packet_of(told) if told.answer == 0 else b""
    return with_packet(asked, told, sign(p[:2] + (told.length - 1).to_bytes(2, "big") + p[4:], asked.secret)) if p else told


def never_adds_type_80(asked, told):
    return forced(asked, add=0) if told.answer == 0 else told


def adds_type_80_only_for_1(asked, told):
    return forced(asked, add=0) if told.answer == 0 and asked.add != 1 else told


def signs_before_type_80(asked, told):
    if told.answer or not asked.add:
        return told
    p = packet_of(told)
    return with_packet(asked, told, sign(p[:-16] + bytes(16), asked.secret)[:-16] + p[-16:])


def hashes_the_secret_first(asked, told):
    if told.answer:
        return told
    p = packet_of(told)
    return with_packet(asked, told, p[:4] + hashlib.md5(asked.secret + p[:4] + bytes(16) + p[20:]).digest() + p[20:])


def lets_more_bytes_pass(asked, told):
    if told.answer != 13 or len(asked.given) > 4076 or attributes(bytes(20) + asked.given, 20 + len(asked.given)) is None:
        return told
    return told._replace(answer=0)


def lets_type_80_pass(asked, told):
    other = asked.given.replace(b"\x50", b"\x51") if told.answer == 13 else b""
    return told._replace(answer=0) if other and modelled(asked._replace(given=other)).answer == 0 else told


def refuses_4058_bytes_always(asked, told):
    return Written(13, None, asked.out) if told.answer == 0 and len(asked.given or b"") > 4058 else told


def judges_attributes_before_the_code(asked, told):
    return told._replace(answer=13) if told.answer == 12 and modelled(asked._replace(code=40)).answer == 13 else told


def judges_the_output_before_the_secret(asked, told):
    return told._replace(answer=4) if told.answer == 2 and len(asked.out or b"") < 4096 else told


def writes_behind_the_request(asked, told):
    return told._replace(out=told.out[:told.length] + b"\0" + told.out[told.length + 1:]) if told.answer == 0 and told.length < 4096 else told


def writes_the_length_when_refused(asked, told):
    return told._replace(length=0) if told.length is None else told


WRITERS = [
    refuses_every_request, takes_296_for_40, puts_type_80_first, has_length_one_off,
    never_adds_type_80, adds_type_80_only_for_1, signs_before_type_80, hashes_the_secret_first,
    lets_more_bytes_pass, lets_type_80_pass, refuses_4058_bytes_always, judges_attributes_before_the_code,
    judges_the_output_before_the_secret, writes_behind_the_request, writes_the_length_when_refused,
]


def wrong_writers(probe, tally):
    asked_for = list(drafts(any_asked, ROUNDS))
    for spoil in [right, *WRITERS]:
        def standing_in(name, code, identifier, given, add, secret, out, length):
            asked = Asked(code, given, add, identifier, secret, out)
            return returned(asked, spoil(asked, modelled(asked)))
        inner = Tally()
        quietly(seeded_requests, standing_in, inner, asked_for)
        tally.same(inner.failed > 0, spoil is not right, "a writer that", spoil.__name__)


GROUPS = [
    ("the tests: a wrong request writer is found out", wrong_writers),
]
