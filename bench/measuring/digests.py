"""MD5 and HMAC-MD5 beside OpenSSL and plain C, in instructions and in nanoseconds."""
import callgrind
from memory import printed
from rows import Row, change, verdict

CASES = [(what, size) for what in ("MD5", "HMAC") for size in (64, 1024, 4096)]
WHO = ("proved", "openssl", "plain")
INSTRUCTIONS = {("MD5", 64): 1.05, ("MD5", 4096): 1.05}  # the goal, as a multiple of OpenSSL's
TIME = {("MD5", 64): 1.10, ("MD5", 4096): 1.05}  # the same of its time, some 0.08 above what was measured, for the noise
TRIES = 5  # what disturbs the machine only adds to a time: a ratio that is too high is measured again


def nanoseconds():
    """Of one call, by case and who: the best of some runs, until every ratio that is held holds."""
    times = {}
    for _ in range(TRIES):
        for line in printed(f"{callgrind.PROGRAMS}/digests", "time"):
            who, what, size, time = line.split()
            case = what, int(size), who
            times[case] = min(float(time), times.get(case, float("inf")))
        if all(ratio(times, case) <= limit for case, limit in TIME.items()):
            break
    return times


def ratio(times, case):
    """Of our time to OpenSSL's."""
    return times[*case, "proved"] / times[*case, "openssl"]


def timed(times, what, size):
    """Our time as a multiple of OpenSSL's, as a row. It is not recorded: another machine has another."""
    return Row(f"{what}, {size:,} bytes: time, as a multiple of OpenSSL's", ratio(times, (what, size)), goal=TIME.get((what, size)))


def goals(count, limit, time):
    """What comes of the goals of a case."""
    if limit:
        yield f"goal {limit}: {verdict(count)}"
    if time.goal:
        yield f"goal of time {time.goal}: {verdict(time)}"


def show(expected):
    """Prints this part of the table, whose columns are its own; its rows."""
    times = nanoseconds()
    rows = []
    print(f"{'':20}{'instructions: ours':>20}{'OpenSSL':>9}{'plain C':>9}{'nanoseconds: ours':>20}{'OpenSSL':>9}{'plain C':>9}    to OpenSSL")
    for what, size in CASES:
        counts = [callgrind.digested(who, what, size) for who in WHO]
        took = [times[what, size, who] for who in WHO]
        limit = INSTRUCTIONS.get((what, size))
        count = Row(f"{what}, {size:,} bytes", counts[0], f"{what.lower()}-{size}", limit and limit * counts[1])
        time = timed(times, what, size)
        cells = f"  {count.title:18}{counts[0]:20,.0f}{counts[1]:9,.0f}{counts[2]:9,.0f}{took[0]:20,.0f}{took[1]:9,.0f}{took[2]:9,.0f}"
        cells += f"    {counts[0] / counts[1]:.2f} instructions, {time.ours:.2f} time"
        print(", ".join([cells, *goals(count, limit, time), *filter(None, [change(count, expected)])]), flush=True)
        rows += [count, time]
    return rows
