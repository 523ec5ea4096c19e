"""What is written by the second implementation and stored is what it writes now."""
from tests.stored import packets as stored_packets, requests as stored_requests, sample_requests


def files(probe, tally):
    tally.same(sample_requests.PLACE.read_text(), sample_requests.header(), "samples/requests.h, by tests/stored/sample_requests.py")
    tally.same(stored_packets.SOURCE.read_text(), stored_packets.source(), "crates/vectors_packets/src/stored.rt, by tests/stored/packets.py")
    tally.same(stored_packets.STDOUT.read_text(), stored_packets.lines(), "crates/vectors_packets/stdout, by tests/stored/packets.py")
    tally.same(stored_requests.SOURCE.read_text(), stored_requests.source(), "crates/vectors_requests/src/stored.rt, by tests/stored/requests.py")
    tally.same(stored_requests.STDOUT.read_text(), stored_requests.lines(), "crates/vectors_requests/stdout, by tests/stored/requests.py")


def answers(probe, tally):
    """The stored packets are answered as their names say, and the marked NAK 503 is among them."""
    for name, packet in [case for cases in stored_packets.GROUPS.values() for case in cases]:
        word = name.replace(",", "").split()[0]
        wanted = 0 if word == "ACK" else 100 + int(word[1]) if word[0] == "D" else int(word)
        told = stored_packets.line(name, packet).split(" answer ")[1].split()[0]
        tally.same(int(told), wanted, "stored packet", name)
    nak = stored_packets.line("503", dict(stored_packets.GROUPS["naks"])["503"]).split(" reply ")[1].strip()
    tally.same((nak[:8], nak[40:]), ("2a07001d", "6506000001f7210341"), "the marked NAK 503")


def exchanges(probe, tally):
    """The stored requests and replies are answered as their names say."""
    for text in stored_requests.lines().splitlines():
        name, answer = text.split(" ", 1)[1].split(" answer ")
        word = name.replace(",", "").split()[0]
        wanted = {"R": 0, "V": 200}[word[0]] + int(word[1:]) if word[1:].isdigit() else 0
        tally.same(int(answer.split()[0]), wanted, "stored", text)


GROUPS = [
    ("stored files are as they are written now", files),
    ("stored packets are answered by their names", answers),
    ("stored requests and replies are answered by their names", exchanges),
]
