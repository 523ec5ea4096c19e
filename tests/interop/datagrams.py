"""One datagram to 127.0.0.1, and what comes back."""
import socket

from settings import LIMIT, QUIET


def asked(port, packet, wait=LIMIT):
    """The reply, or None where none comes in time."""
    with socket.socket(socket.AF_INET, socket.SOCK_DGRAM) as client:
        client.connect(("127.0.0.1", port))
        client.settimeout(wait)
        client.send(packet)
        try:
            return client.recv(8192)
        except TimeoutError:
            return None


def asked_in_vain(port, packet):
    return asked(port, packet, QUIET)
