"""What radclient asks the host for: each case begins with the session table of samples/host/rooms.txt."""
from typing import NamedTuple

from settings import NAS_ID, NAS_IP

USER, TWO_USERS, STRANGER = 'User-Name = "room-9"', 'User-Name = "room-12"', 'User-Name = "room-99"'
ALLOWANCE, FILTER = "Session-Timeout = 65748", 'Filter-Id = "night"'
OWN = [f"NAS-IP-Address = {NAS_IP}", f'NAS-Identifier = "{NAS_ID}"']
STATE, PROXIES = "State = 0x6C6564676572", ["Proxy-State = 0x70312D00FF", "Proxy-State = 0x7032"]
ECHO = [STATE, *PROXIES]
ALL_FIVE = [USER, "NAS-Port = 9", "Framed-IP-Address = 10.0.0.9", 'Calling-Station-Id = "02-00-5E-10-00-09"', 'Acct-Session-Id = "0000004F"']


class Case(NamedTuple):
    command: str  # coa or disconnect
    title: str
    request: list  # without stamp
    cause: int = 0  # 0: ACK
    changed: str = "0"  # sessions, and the slots that differ
    reply: list = []  # what the reply has beside Error-Cause and Message-Authenticator
    after: tuple = ()  # a text, and how many live slots have it afterwards


CASES = [
    Case("disconnect", "ACK, by session", ['Acct-Session-Id = "00000050"'], changed="1, slot 1", after=("room-12", 1)),
    Case("disconnect", "ACK, by all five criteria and both names of the NAS", OWN + ALL_FIVE, changed="1, slot 0", after=("room-9", 0)),
    Case("disconnect", "ACK, one request ends two sessions", [TWO_USERS], changed="2, slot 1, slot 2", after=("room-12", 0)),
    Case("disconnect", "ACK, State and two Proxy-States back", [USER, *ECHO], changed="1, slot 0", reply=ECHO, after=("room-9", 0)),
    Case("coa", "ACK, Session-Timeout of more than 16 bits", [USER, ALLOWANCE], changed="1, slot 0", after=("Session-Timeout 65748", 1)),
    Case("coa", "ACK, one request alters two sessions", [TWO_USERS, FILTER], changed="2, slot 1, slot 2", after=('Filter-Id "night"', 2)),
    Case("coa", "ACK, all that may be altered, State and two Proxy-States back", [*OWN, USER, ALLOWANCE, FILTER, "Idle-Timeout = 1", *ECHO],
         changed="1, slot 0", reply=ECHO, after=('Session-Timeout 65748, Idle-Timeout 1, Filter-Id "night"', 1)),
    Case("disconnect", "401, Session-Timeout in a disconnect", [USER, ALLOWANCE], 401),
    Case("coa", "401, Reply-Message", [USER, ALLOWANCE, 'Reply-Message = "no"'], 401),
    Case("disconnect", "402, names no session", OWN, 402),
    Case("coa", "402, names no session", [*OWN, ALLOWANCE], 402),
    Case("coa", "402, changes nothing", [USER], 402),
    Case("disconnect", "403, NAS-Identifier of another NAS", [USER, 'NAS-Identifier = "oak-gate2"'], 403),
    Case("coa", "403, NAS-IP-Address of another NAS", [USER, ALLOWANCE, "NAS-IP-Address = 192.0.2.8"], 403),
    Case("disconnect", "404, User-Name twice", [USER, USER], 404),
    Case("coa", "404, Session-Timeout twice", [USER, ALLOWANCE, ALLOWANCE], 404),
    Case("disconnect", "405, Service-Type", [USER, "Service-Type = Authorize-Only"], 405),
    Case("coa", "405, Service-Type", [USER, ALLOWANCE, "Service-Type = Authorize-Only"], 405),
    Case("disconnect", "503, no such session", [STRANGER], 503),
    Case("disconnect", "503, a session that fits in one criterion only", [USER, "NAS-Port = 12"], 503),
    Case("disconnect", "503, User-Name of which a longer one is there", ['User-Name = "room-1"'], 503),
    Case("disconnect", "503, State and two Proxy-States back", [STRANGER, *ECHO], 503, reply=ECHO),
    Case("coa", "503, State and two Proxy-States back", [STRANGER, FILTER, *ECHO], 503, reply=ECHO),
    Case("coa", "506, Filter-Id of 33 bytes", [USER, f'Filter-Id = "{33 * "n"}"'], 506),
    Case("coa", "ACK, Filter-Id of 32 bytes", [USER, f'Filter-Id = "{32 * "n"}"'], changed="1, slot 0", after=(f'Filter-Id "{32 * "n"}"', 1)),
]
