"""Requests built and replies read by scapy, which sends what radclient does not."""
import logging
import time

logging.getLogger("scapy.runtime").setLevel(logging.ERROR)  # it warns of interfaces, which are not used here

from scapy.layers.radius import Radius, RadiusAttr_Message_Authenticator, RadiusAttribute  # noqa: E402

from settings import SECRET  # noqa: E402

SECRET_BYTES = SECRET.encode()
NO_AUTHENTICATOR = bytes(16)


def attribute(kind, value, length=None):
    """An attribute; its length may be a wrong one."""
    return RadiusAttribute(type=kind, value=value, len=length)


def number(kind, value):
    return attribute(kind, value.to_bytes(4, "big"))


def stamp(seconds=0):
    return number(55, int(time.time()) + seconds)


def unsigned(code, attributes, length=None, identifier=7):
    """A packet by the layout of RFC 2865, its authenticator zeros; its Length may be a wrong one."""
    area = b"".join(map(bytes, attributes))
    head = bytes(Radius(code=code, id=identifier, len=20 + len(area) if length is None else length, authenticator=NO_AUTHENTICATOR))
    return head + area


def signed(packet, secret=SECRET_BYTES):
    """The same with the request authenticator that scapy works out."""
    return packet[:4] + Radius(packet).compute_authenticator(NO_AUTHENTICATOR, secret) + packet[20:]


def request(code, *attributes, secret=SECRET_BYTES):
    return signed(unsigned(code, attributes), secret)


def with_mac(code, *attributes, secret=SECRET_BYTES):
    """A request with a Message-Authenticator as its last attribute."""
    packet = unsigned(code, [*attributes, attribute(80, bytes(16))])
    value = RadiusAttr_Message_Authenticator.compute_message_authenticator(Radius(packet), NO_AUTHENTICATOR, secret)
    return signed(packet[:-16] + value, secret)


def is_authentic(reply, request_bytes, secret=SECRET_BYTES):
    """Whether scapy finds the reply's authenticator right, and its Message-Authenticator where it has one."""
    read, authenticator = Radius(reply), request_bytes[4:20]
    if read.compute_authenticator(authenticator, secret) != reply[4:20]:
        return False
    macs = [found.value for found in read.attributes if found.type == 80]
    if not macs:
        return True
    return RadiusAttr_Message_Authenticator.compute_message_authenticator(Radius(reply), authenticator, secret) == bytes(macs[0])


def cause(reply):
    """Error-Cause of a reply, 0 where it has none."""
    return next((int.from_bytes(bytes(found)[2:6], "big") for found in Radius(reply).attributes if found.type == 101), 0)
