"""The reply check: R2, then V1 to V6, each from many sides; the first failure is named."""
from itertools import product

from tests.compare.exchanges import checked
from tests.harness.probe import NULL
from tests.inputs.byte_runs import sample
from tests.inputs.exchange_calls import Reply
from tests.inputs.packets import CODES, COA, DISCONNECT, GATE, MAC, STAMP, USER, attribute, flipped, good, put_macs, reply, request, sign, unsigned

ASKED = {code: request(code, [*good(code), MAC]) for code in CODES}
STATE, CAUSE, PROXY = attribute(24, b"state"), attribute(101, b"\0\0\1\xf7"), attribute(33, b"p")
FORMS = [[], [MAC], [STATE], [CAUSE], [STATE, CAUSE, PROXY, PROXY, MAC], [MAC, PROXY], [STATE, MAC, PROXY]]  # of a right reply
LONG = [attribute(33, sample(i, 253)) for i in range(15)] + [attribute(33, bytes(231))]  # 4,058 bytes


def with_length(p, length):
    return p[:2] + length.to_bytes(2, "big") + p[4:]


def right(probe, tally):
    """Also with padding on both sides, to a request that the gate would discard by D4 to D6, and whether or not request or reply have type 80."""
    for code, more, parts in product(CODES, [1, 2], [*FORMS, LONG, [*LONG, MAC]]):
        for asked in (ASKED[code], request(code, good(code)), unsigned(code, []), request(code, [MAC, MAC]), unsigned(code, [b"\x21\x04pp"] * 1019)):
            answer = reply(asked, parts, more)
            for behind, padding in product([b"", b"\0", USER, sample(3, 50)], repeat=2):
                checked(probe, tally, Reply(asked + behind, answer + padding), "code", code, "plus", more, "parts", len(parts), answer=0)
    for code, identifier in product(CODES, range(256)):
        asked = request(code, good(code), identifier=identifier)
        checked(probe, tally, Reply(asked, reply(asked, [CAUSE, MAC], 2)), "identifier", identifier, answer=0)


def secrets(probe, tally):
    """R2 before any judgement of request and reply."""
    for size in [*range(0, 70), 127, 128, 255, 256, 4096]:
        for code, parts in product(CODES, FORMS[:2]):
            secret = sample(size, size)
            refused = not 1 <= size <= 64
            asked = request(code, good(code), GATE._replace(secret=secret))
            answer = reply(asked, parts, secret=secret)
            checked(probe, tally, Reply(asked, answer, secret or NULL), "secret of", size, answer=2 if refused else 0)
            for bad in (b"", NULL, asked[:19], bytes([41]) + asked[1:]):
                checked(probe, tally, Reply(bad, answer, secret), "V1, secret of", size, answer=2 if refused else 201)
                checked(probe, tally, Reply(asked, bad[:19] if bad else bad, secret), "V2, secret of", size, answer=2 if refused else 202)


def broken():
    """Attributes that break D3's rule."""
    yield from ([bytes([last])] for last in (0, 1, 2, 80, 255))
    yield from ([bytes([kind, length]) + rest] for kind, length, rest in product([1, 33, 80], [0, 1], [b"", bytes(4), USER]))
    yield from ([bytes([kind, size + over]) + bytes(size - 2)] for kind, size, over in product([1, 80], [2, 6, 18], [1, 2, 100]))


def v1(probe, tally):
    """The request by D1 to D3, whatever the reply is."""
    for code in CODES:
        asked = ASKED[code]
        answers = [reply(asked, []), reply(asked, [MAC]), reply(asked, [], 3), reply(asked, [MAC, MAC]), b"", unsigned(code, [b"\x01"])]
        for answer in answers:
            for given in range(20):
                checked(probe, tally, Reply(asked[:given] or NULL, answer), "bytes", given, answer=201)
                checked(probe, tally, Reply(with_length(asked, given), answer), "Length", given, answer=201)
            for length in (len(asked) + 1, 4096, 4097, 65535):
                checked(probe, tally, Reply(with_length(asked, length), answer), "Length", length, answer=201)
            checked(probe, tally, Reply(with_length(asked, 4097).ljust(5000, b"\x02"), answer), "Length 4,097 of 5,000", answer=201)
            for parts in broken():
                checked(probe, tally, Reply(request(code, [*good(code), *parts]), answer), "D3", parts, answer=201)
        for other in set(range(256)) - set(CODES):
            p = request(other, good(code))
            checked(probe, tally, Reply(p, reply(p, [])), "code", other, answer=201)


def v2(probe, tally):
    """The reply by D1's and D3's rules, before its code, identifier and signatures are looked at."""
    for code, more, identifier in product(CODES, [1, 2, 3, 0], [7, 8]):
        asked = ASKED[code]
        answer = reply(asked, FORMS[4], more, identifier=identifier)
        for given in range(20):
            checked(probe, tally, Reply(asked, answer[:given] or NULL), "bytes", given, answer=202)
            checked(probe, tally, Reply(asked, sign(with_length(answer, given))), "Length", given, answer=202)
        for length in (len(answer) + 1, 4096, 4097, 65535):
            checked(probe, tally, Reply(asked, with_length(answer, length)), "Length", length, answer=202)
        checked(probe, tally, Reply(asked, with_length(answer, 4097).ljust(5000, b"\x02")), "Length 4,097 of 5,000", answer=202)
        for parts, before in product(broken(), ([], [STATE], [MAC, MAC])):
            bad = reply(asked, before + parts, more, identifier=identifier)
            checked(probe, tally, Reply(asked, bad), "D3", parts, answer=202)
            checked(probe, tally, Reply(asked, bad + bytes(300)), "D3, with padding", parts, answer=202)


def v3_v4(probe, tally):
    """Every code and every identifier, rightly signed; and not, so that V5 and V6 would apply."""
    for code, parts in product(CODES, ([], [MAC], [MAC, MAC], [attribute(80, b"")])):
        asked = ASKED[code]
        for more in range(256):
            wanted = 203 if more not in (1, 2) else 206 if len(parts) > 1 or parts and parts[0] is not MAC else 0
            answer = reply(asked, parts, more)
            checked(probe, tally, Reply(asked, answer), "plus", more, answer=wanted)
            wrong = wanted if wanted == 203 else 205
            checked(probe, tally, Reply(asked, flipped(answer, 32 + more % 128)), "not signed, plus", more, answer=wrong)
            identifier = reply(asked, parts, 1, identifier=more)
            checked(probe, tally, Reply(asked, identifier), "identifier", more, answer=204 if more != 7 else 206 if wanted == 206 else None)
            both = reply(asked, parts, more, identifier=more)
            checked(probe, tally, Reply(asked, both), "both", more, answer=203 if more not in (1, 2) else 204)


def v5(probe, tally):
    """Signed otherwise: over zeros, over the padding, over another request's, with another secret."""
    for code, more, parts in product(CODES, [1, 2], FORMS):
        asked = ASKED[code]
        answer = reply(asked, parts, more)
        for bit in range(32, 160):
            checked(probe, tally, Reply(asked, flipped(answer, bit)), "bit", bit, answer=205)
            checked(probe, tally, Reply(flipped(asked, bit), answer), "bit of the request's", bit, answer=205)
        for secret in (GATE.secret[:-1], GATE.secret + b"\0", b"Xyzzy5461", bytes(64)):
            checked(probe, tally, Reply(asked, sign(answer, secret, asked[4:20])), "signed with", secret, answer=205)
            checked(probe, tally, Reply(asked, answer, secret), "checked with", secret, answer=205)
        checked(probe, tally, Reply(asked, sign(answer)), "over zeros", answer=205)
        longer = sign(with_length(answer, len(answer) + 3) + USER, auth=asked[4:20])
        checked(probe, tally, Reply(asked, with_length(longer, len(answer))), "over the padding", answer=205)
        checked(probe, tally, Reply(asked, sign(sign(answer), auth=answer[4:20])), "over its own", answer=205)
        checked(probe, tally, Reply(asked, asked), "the request sent back", answer=203)


def v6(probe, tally):
    """Type 80 wrong in each bit, over zeros, of every length, twice; in each place, the authenticator right."""
    for code, place in product(CODES, range(4)):
        asked, others = ASKED[code], [STATE, CAUSE, PROXY]
        auth = asked[4:20]
        parts = others[:place] + [MAC] + others[place:]
        p, at = unsigned(code + 2, parts), 22 + sum(map(len, parts[:place]))
        good_one = put_macs(p, parts, auth=auth)
        checked(probe, tally, Reply(asked, sign(good_one, auth=auth)), "right, at", at, answer=0)
        for bit in range(8 * at, 8 * at + 128):
            checked(probe, tally, Reply(asked, sign(flipped(good_one, bit), auth=auth)), "wrong in bit", bit, answer=206)
        for other in (bytes(16), sample(1, 16), good_one[4:20]):
            if other != auth:
                checked(probe, tally, Reply(asked, sign(put_macs(p, parts, auth=other), auth=auth)), "over another", other, answer=206)
        late = put_macs(sign(p, auth=auth), parts, auth=sign(p, auth=auth)[4:20])
        checked(probe, tally, Reply(asked, sign(late, auth=auth)), "over the authenticator", answer=206)
        for size in [*range(16), *range(17, 40), 253]:
            wrong = others[:place] + [attribute(80, good_one[at:at + 16].ljust(size, b"\0")[:size])] + others[place:]
            checked(probe, tally, Reply(asked, reply(asked, wrong, 2)), "length", size + 2, answer=206)
        for second in range(5):
            both = parts[:second] + [MAC] + parts[second:]
            checked(probe, tally, Reply(asked, reply(asked, both, 2)), "twice", answer=206)
            checked(probe, tally, Reply(asked, reply(asked, [*both, MAC], 1)), "three times", answer=206)


def each_byte(probe, tally):
    """A reply altered in one byte is never right, whatever the byte becomes; but after Length any byte may stand."""
    for code, more, parts in [(DISCONNECT, 1, []), (COA, 2, [STATE, CAUSE, MAC]), (DISCONNECT, 2, [CAUSE, PROXY]), (COA, 1, [MAC, STAMP])]:
        asked, padding = ASKED[code], sample(code, 6)
        answer = reply(asked, parts, more)
        whole = answer + padding
        for at, change in product(range(len(whole)), range(1, 256)):
            altered = whole[:at] + bytes([whole[at] ^ change]) + whole[at + 1:]
            told = checked(probe, tally, Reply(asked, altered), "byte", at, "changed by", change, answer=0 if at >= len(answer) else None)
            if at < len(answer):
                tally.same(told in range(202, 207), True, "byte", at, "changed by", change, "is not right")
        for size in range(len(answer)):
            checked(probe, tally, Reply(asked, answer[:size]), "cut to", size, answer=202)


def nulls(probe, tally):
    asked = ASKED[DISCONNECT]
    full = Reply(asked, reply(asked, [MAC]))
    for gone, nothing in product(product([False, True], repeat=3), [NULL, b""]):
        names = [name for name, out in zip(["secret", "request", "reply"], gone) if out]
        answer = next((number for number, out in zip([2, 201, 202], gone) if out), 0)
        checked(probe, tally, full._replace(**{name: nothing for name in names}), "NULL:", names, answer=answer)


GROUPS = [
    ("check reply: right ones of every form, with padding", right),
    ("check reply, refused: secrets of 0 to 4,096 bytes", secrets),
    ("check reply, V1: requests by D1 to D3", v1),
    ("check reply, V2: replies by D1's and D3's rules", v2),
    ("check reply, V3 and V4: every code, every identifier", v3_v4),
    ("check reply, V5: signed otherwise", v5),
    ("check reply, V6: type 80 in each place", v6),
    ("check reply: each byte altered", each_byte),
    ("check reply: NULL where a length is 0", nulls),
]
