"""hostapd as a Dynamic Authorization server: no radio, no stations, only its UDP port."""
import subprocess
import tempfile
import time
from pathlib import Path

from settings import LIMIT, SECRET, START_LIMIT

PROGRAM = "/usr/sbin/hostapd"
CONFIGURATION = """interface=das0
driver=none
nas_identifier=ap.example
own_ip_addr=127.0.0.1
radius_das_port={port}
radius_das_client=127.0.0.1 {secret}
radius_das_time_window=300
radius_das_require_event_timestamp=1
radius_das_require_message_authenticator={mac}
"""


class Hostapd:
    """with Hostapd(port, mac): it listens on the port; with mac, only to requests that have a Message-Authenticator."""

    def __init__(self, port, mac):
        self.room = tempfile.TemporaryDirectory()
        self.log = Path(self.room.name, "log")
        settings = Path(self.room.name, "hostapd.conf")
        settings.write_text(CONFIGURATION.format(port=port, secret=SECRET, mac=int(mac)))
        with self.log.open("w") as log:
            self.process = subprocess.Popen([PROGRAM, "-dd", str(settings)], stdout=log, stderr=subprocess.STDOUT)

    def __enter__(self):
        end = time.monotonic() + START_LIMIT
        while "AP-ENABLED" not in self.log.read_text():
            if self.process.poll() is not None or time.monotonic() > end:
                self.process.kill()
                raise RuntimeError("hostapd does not start: " + self.log.read_text()[-500:])
            time.sleep(0.05)
        return self

    def __exit__(self, *_):
        self.process.terminate()
        self.process.wait(LIMIT)
        self.room.cleanup()
