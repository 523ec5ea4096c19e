"""The silent discards D1 to D5, first that applies."""
from tests.compare.verdicts import judged
from tests.inputs.byte_runs import sample
from tests.inputs.packets import CODES, DISCONNECT, GATE, MAC, STAMP, USER
from tests.inputs.packets import attribute, flipped, good, put_macs, request, sign, unsigned


def with_length(p, length):
    return p[:2] + length.to_bytes(2, "big") + p[4:]


def filled(code, length):
    """A good request of this Length: Proxy-States of 3 bytes, the first of them longer."""
    states, rest = divmod(length - len(unsigned(code, good(code))), 3)
    return request(code, [*good(code), attribute(33, bytes(1 + rest)), *[attribute(33, b"p")] * (states - 1)])


def d1(probe, tally):
    for code in CODES:
        p = request(code, good(code))
        for given in range(20):
            judged(probe, tally, p[:given], "bytes", given, number=101)
            judged(probe, tally, with_length(p, given)[:given], "bytes and Length", given, number=101)
            judged(probe, tally, sign(with_length(p, given)), "Length", given, number=101)
        for more in [1, 2, 100, 4096 - len(p), 4097 - len(p), 65535 - len(p)]:
            judged(probe, tally, with_length(p, len(p) + more), "Length above the bytes given by", more, number=101)
        for length in [4094, 4095, 4096]:
            long = filled(code, length)
            for more in [0, 1, 3000]:
                judged(probe, tally, long + bytes(more), "Length", length, "of", length + more, number=0)
        for length in [4097, 4098, 5000, 8000]:
            long = unsigned(code, good(code), length) + sample(length, length)
            judged(probe, tally, sign(long), "Length", length, number=101)
        for bad in [0, 39, 41, 42]:  # a bad code beside a bad Length
            judged(probe, tally, bytes([bad]) + with_length(p, 19)[1:], "Length 19, code", bad, number=101)


def padding(probe, tally):
    for code in CODES:
        p = request(code, good(code))
        for size in [*range(1, 70), 1000, 4096 - len(p), 4097 - len(p), 8000 - len(p)]:
            for behind in [bytes(size), b"\x01" * size, STAMP * 1500]:
                judged(probe, tally, p + behind[:size], "padding of", size, number=0)
        wrong = sign(with_length(p, len(p) + 3) + b"abc")
        judged(probe, tally, with_length(wrong, len(p)), "signed over the padding", number=104)


def d2(probe, tally):
    for code in range(256):
        p = request(code, good(DISCONNECT))
        if code not in CODES:
            judged(probe, tally, p, "code", code, number=102)
            judged(probe, tally, flipped(p, 40), "code, not signed", code, number=102)
            judged(probe, tally, request(code, [b"\x01\x01"]), "code, with a bad attribute", code, number=102)
            judged(probe, tally, unsigned(code, []), "code, Length 20", code, number=102)
        else:
            judged(probe, tally, request(code, []), "code, no attributes", code, number=106)


def d3(probe, tally):
    for code in CODES:
        for before in [[], good(code), good(code) + [MAC]]:
            for last in range(256):
                judged(probe, tally, request(code, before + [bytes([last])]), "a lone last byte", last, number=103)
            for kind in [0, 1, 26, 33, 55, 80, 255]:
                for length in [0, 1]:
                    for rest in [b"", bytes(4), USER]:
                        short = bytes([kind, length]) + rest
                        judged(probe, tally, request(code, before + [short]), "type", kind, "length", length, number=103)
                for over in [1, 2, 100]:
                    for size in {2, 3, 6, 255 - over}:
                        long = bytes([kind, size + over]) + bytes(size - 2)
                        p = request(code, before + [long])
                        judged(probe, tally, p, "past Length by", over, number=103)
                        judged(probe, tally, p + bytes(300), "into the padding by", over, number=103)
                        judged(probe, tally, unsigned(code, before + [long]), "not signed, past Length by", over, number=103)


def d4(probe, tally):
    for code in CODES:
        for parts in [good(code), good(code) + [MAC]]:
            p = request(code, parts)
            for bit in range(32, 160):
                judged(probe, tally, flipped(p, bit), "bit", bit, number=104)
            for bit in range(8 * len(p)):
                judged(probe, tally, flipped(p, bit), "bit", bit)
            judged(probe, tally, unsigned(code, parts), "zeros", number=104)
            for secret in [b"", GATE.secret[:-1], GATE.secret + b"\0", b"Xyzzy5461", bytes(64)]:
                judged(probe, tally, sign(p, secret), "signed with", secret, number=104)
            judged(probe, tally, sign(p), "signed again", number=0)
        twice = request(code, [*good(code), MAC, MAC])
        judged(probe, tally, flipped(twice, 40), "type 80 twice, not signed", number=104)
        wrong = unsigned(code, [*good(code), MAC])
        judged(probe, tally, wrong, "type 80 wrong, not signed", number=104)


def d5(probe, tally):
    for code in CODES:
        others = good(code)
        for place in range(len(others) + 1):
            parts = others[:place] + [MAC] + others[place:]
            p, at = put_macs(unsigned(code, parts), parts), 22 + sum(map(len, parts[:place]))
            judged(probe, tally, sign(p), "right, at", at, number=0)
            judged(probe, tally, sign(p) + sample(7, 50), "right, with padding, at", at, number=0)
            for bit in range(8 * at, 8 * at + 128):
                judged(probe, tally, sign(flipped(p, bit)), "wrong in bit", bit, number=105)
            judged(probe, tally, sign(put_macs(p, parts, GATE.secret + b"x")), "another secret, at", at, number=105)
            for size in [*range(16), *range(17, 40), 253]:
                other = attribute(80, p[at:at + 16].ljust(size, b"\0")[:size])
                wrong = request(code, others[:place] + [other] + others[place:])
                judged(probe, tally, wrong, "length", size + 2, "at", at, number=105)
        for where in range(len(others) + 1):
            both = [MAC] + others[:where] + [MAC] + others[where:]
            judged(probe, tally, request(code, both), "twice, the second right, after", where, number=105)
            judged(probe, tally, request(code, both + [MAC]), "three times", number=105)
        judged(probe, tally, request(code, [MAC]), "alone", number=106)
        judged(probe, tally, request(code, [MAC, attribute(2, b"")]), "right, an unsupported type", number=106)


GROUPS = [
    ("D1: bytes given and Length", d1),
    ("padding after Length is ignored", padding),
    ("D2: every code", d2),
    ("D3: attributes that do not fill Length", d3),
    ("D4: every bit of a signed packet", d4),
    ("D5: type 80 twice, of wrong length, wrong", d5),
]
