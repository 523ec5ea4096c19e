"""What tshark says of all replies that the hosts of a run sent."""
from capture import Judged, judged
from host import Host
from settings import SECRET


def replies(report, path, port):
    report.same(judged(path, port, SECRET), Judged(valid=Host.replies), "tshark", f"{Host.replies} replies of the hosts: all authenticators valid")
    wrong = judged(path, port, SECRET + "4")
    report.same(wrong, Judged(invalid=Host.replies), "tshark", f"the same {Host.replies} with another secret: all invalid, so it does look")
