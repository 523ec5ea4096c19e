"""D6: the stamp, the clock and the skew."""
from tests.compare.verdicts import judged
from tests.inputs.packets import CLOCK, CODES, MAC, STAMP, TIMEOUT, USER, attribute, good, request, stamp

LAST = 2**32 - 1
CLOCKS = [0, 1, 299, 300, 301, 2**31 - 1, 2**31, CLOCK, LAST - 301, LAST - 300, LAST - 1, LAST]
NEAR = [-302, -301, -300, -299, -1, 0, 1, 299, 300, 301, 302]


def without_stamp(code):
    return [part for part in good(code) if part is not STAMP]


def near(probe, tally):
    for code in CODES:
        for clock in CLOCKS:
            for off in NEAR:
                if 0 <= clock + off <= LAST:
                    p = request(code, without_stamp(code) + [stamp(clock + off)])
                    judged(probe, tally, p, "clock", clock, "skew", off, number=0 if abs(off) <= 300 else 106, clock=clock)


def far(probe, tally):
    """Any two times: no difference wraps."""
    for code in CODES:
        for time in CLOCKS:
            p = request(code, without_stamp(code) + [stamp(time)])
            for clock in CLOCKS:
                judged(probe, tally, p, "stamp", time, "clock", clock, clock=clock)
        p = request(code, without_stamp(code) + [stamp(LAST)])
        judged(probe, tally, p, "the last stamp at clock 0", number=106, clock=0)


def unusable(probe, tally):
    for code in CODES:
        rest = without_stamp(code)
        judged(probe, tally, request(code, rest), "no stamp", number=106)
        for size in range(254):
            if size != 4:
                bad = attribute(55, STAMP[2:].ljust(size, b"\0")[:size])
                judged(probe, tally, request(code, rest + [bad]), "length", size + 2, number=106)
                judged(probe, tally, request(code, rest + [STAMP, bad]), "a second one of length", size + 2, number=106)
                judged(probe, tally, request(code, rest + [bad, STAMP]), "a first one of length", size + 2, number=106)
        for time in [CLOCK, 0, LAST]:
            for parts in [[stamp(time), STAMP], [STAMP, stamp(time)], [STAMP, STAMP, stamp(time)]]:
                judged(probe, tally, request(code, rest + parts), "more than once", time, number=106)
                judged(probe, tally, request(code, parts + rest + [MAC]), "more than once, type 80 right", time, number=106)


def placed(probe, tally):
    """The stamp is read wherever it stands, after values that look like one."""
    for code in CODES:
        for before in [[], [USER], [attribute(33, STAMP)], [attribute(33, stamp(0)), USER, MAC], [attribute(1, STAMP)]]:
            for behind in [[], [attribute(33, STAMP)], [attribute(44, stamp(LAST))]]:
                parts = before + [STAMP] + behind + [attribute(5, bytes(4))] + ([] if code == 40 else [TIMEOUT])
                judged(probe, tally, request(code, parts), "stamp after", len(before), number=0)


def before_causes(probe, tally):
    """A stale or missing stamp is D6 whatever cause applies; a good one tells the skew of the NAK."""
    causes = {401: attribute(2, b""), 405: attribute(6, bytes(4)), 404: attribute(24, b""), 403: attribute(4, bytes(4))}
    for code in CODES:
        for number, fault in causes.items():
            for off in NEAR:
                p = request(code, without_stamp(code) + [fault, stamp(CLOCK + off)])
                judged(probe, tally, p, "cause", number, "skew", off, number=number if abs(off) <= 300 else 106)
            judged(probe, tally, request(code, without_stamp(code) + [fault]), "cause", number, "no stamp", number=106)


GROUPS = [
    ("D6: 300 and 301 seconds either way", near),
    ("D6: any stamp at any clock", far),
    ("D6: type 55 not there once with length 6", unusable),
    ("the stamp wherever it stands", placed),
    ("D6 comes before the causes", before_causes),
]
