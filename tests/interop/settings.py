"""What both sides agree on in the tests with real clients."""
import socket
from pathlib import Path

HERE = Path(__file__).parent
ROOMS = HERE.parent.parent / "samples" / "host" / "rooms.txt"
SECRET = "testing123"
NAS_IP, NAS_ID = "192.0.2.7", "oak-gate"
WAYS = {"whole": [], "steps": ["--steps"]}  # how the host works on requests, and the options for it
QUIET = 0.3  # seconds without a reply that count as none; what the host writes says so too
LIMIT = 5  # seconds after which one thing is waited for no longer
START_LIMIT = 20  # the same for a program of others to be ready
WHOLE_LIMIT = 900  # the same for the whole run, which takes about one minute
DISCONNECT, COA = 40, 43
ACK, NAK = 1, 2  # added to the code of the request


def free_port():
    """A UDP port of 127.0.0.1 that nothing listens on."""
    with socket.socket(socket.AF_INET, socket.SOCK_DGRAM) as probe:
        probe.bind(("127.0.0.1", 0))
        return probe.getsockname()[1]
