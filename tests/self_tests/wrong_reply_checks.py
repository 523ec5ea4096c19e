"""The tests themselves: a reply check that does one thing wrong is found out."""
from tests.cases.exchanges.seeded import drafts, seeded_replies
from tests.compare.exchanges import judgement, kept
from tests.harness.tally import Tally
from tests.inputs.exchange_calls import Reply
from tests.inputs.exchange_drafts import any_reply
from tests.models.packet_model import attributes, authenticator, bad_form, bad_mac, length_of
from tests.self_tests.quiet import quietly

ROUNDS = 800


def right(given, told):
    return told


def says_right(given, told):
    return 0


def says_wrong(given, told):
    return told or 205


def judges_before_refusing(given, told):
    return 201 if told == 2 and bad_form(given.request or b"") else told


def lets_other_codes_ask(given, told):
    return judgement(given._replace(request=b"\x28" + given.request[1:])) if told == 201 and bad_form(given.request or b"") == 2 else told


def judges_the_request_too(given, told):
    n = length_of(given.request or b"")
    return 201 if told == 0 and given.request[4:20] != authenticator(given.request, n, bytes(16), given.secret) else told


def wants_a_request_code(given, told):
    return 202 if told not in (2, 201) and bad_form(given.reply or b"") == 2 else told


def takes_no_padding(given, told):
    return 202 if told == 0 and len(given.reply) > length_of(given.reply) else told


def takes_code_plus_3(given, told):
    return 0 if told == 203 and given.reply[0] == given.request[0] + 3 else told


def asks_identifier_before_code(given, told):
    return 204 if told == 203 and given.reply[1] != given.request[1] else told


def compares_no_identifier(given, told):
    return 0 if told == 204 else told


def asks_type_80_before_the_authenticator(given, told):
    n = length_of(given.reply or b"")
    return 206 if told == 205 and bad_mac(given.reply, n, given.request[4:20], given.secret) else told


def works_type_80_over_zeros(given, told):
    if told not in (0, 206):
        return told
    return 206 if bad_mac(given.reply, length_of(given.reply), bytes(16), given.secret) else 0


def takes_type_80_twice(given, told):
    found = attributes(given.reply, length_of(given.reply)) if told == 206 else []
    return 0 if [a.kind for a in found].count(80) > 1 else told


def passes_type_80_of_other_length(given, told):
    found = attributes(given.reply, length_of(given.reply)) if told == 206 else []
    return 0 if any(a.kind == 80 and len(a.value) != 16 for a in found) else told


def wants_type_80_back(given, told):
    if told or all(a.kind != 80 for a in attributes(given.request, length_of(given.request))):
        return told
    return 0 if any(a.kind == 80 for a in attributes(given.reply, length_of(given.reply))) else 206


CHECKS = [
    says_right, says_wrong, judges_before_refusing, lets_other_codes_ask, judges_the_request_too, wants_a_request_code, takes_no_padding,
    takes_code_plus_3, asks_identifier_before_code, compares_no_identifier, asks_type_80_before_the_authenticator, works_type_80_over_zeros,
    takes_type_80_twice, passes_type_80_of_other_length, wants_type_80_back,
]


def wrong_checks(probe, tally):
    replies = list(drafts(any_reply, ROUNDS))
    for spoil in [right, *CHECKS]:
        def standing_in(name, secret, request, reply):
            given = Reply(request, reply, secret)
            return kept(given, spoil(given, judgement(given)))
        inner = Tally()
        quietly(seeded_replies, standing_in, inner, replies)
        tally.same(inner.failed > 0, spoil is not right, "a reply check that", spoil.__name__)


GROUPS = [
    ("the tests: a wrong reply check is found out", wrong_checks),
]
