"""The last reply of a connection arrives, whatever its peer still sends."""
import concurrent.futures
import os
import shutil
import socket
import subprocess
import sys
import time

from checks import Between
from serve_parts.shared import ASK, PERMIT, PROGRAM, TOKEN_FILE, folder
from serving import fault

from .addresses import At, client_of
from .late import HERE, THERE, NoNetwork, apart, gone, late
from .shared import checks, expect, listening, timed, within

TOO_LARGE = fault("413 Payload Too Large", "BodyTooLarge")
NO_CHUNKS = fault("501 Not Implemented", "TransferCoding")
LARGE = b"POST /domains/acme/pdp HTTP/1.1\r\nContent-Length: 100000000\r\n\r\n"
CHUNKED = b"POST /domains/acme/pdp HTTP/1.1\r\nTransfer-Encoding: chunked\r\n\r\n"
BEHIND = 8_000_000
# How often over a network that delays, of which a test of a release has 200.
OFTEN = int(os.environ.get("LISTEN_PARTINGS", "20"))


def reply_behind(client, head, count):
    """All that comes for a head to one that sends so many bytes behind it before it reads."""
    client.send(head)
    try:
        for _ in range(count // 65_536):
            client.send(b"x" * 65_536)
    except OSError:
        pass
    return client.all()


def behind_faults():
    """413 and 501 arrive at one that sends 8 MB behind its head before it reads; another is served meanwhile."""
    with listening("parting") as served, served.client() as other:
        for head, wanted in ((LARGE, TOO_LARGE), (CHUNKED, NO_CHUNKS), (ASK + LARGE, PERMIT + TOO_LARGE)):
            for _ in range(5):
                with served.client() as client:
                    expect(f"{head[:40]} and 8 MB", reply_behind(client, head, BEHIND), wanted)
            expect("another", other.ask(ASK), PERMIT)


def stays_bounded():
    """One that sends on without an end is left after two seconds."""
    with listening("sends-on") as served, served.client() as client:
        began = time.monotonic()
        client.send(LARGE)
        try:
            while time.monotonic() < began + 10:
                client.send(b"x" * 1_024)
                time.sleep(0.01)
        except OSError:
            pass
        within("the seconds until it was left", time.monotonic() - began, Between(1.5, 6))


# In a network of its own, whose packets come 20 ms late.
DELAYED = """
import pathlib, subprocess, sys
sys.path.insert(0, sys.argv[1])
sys.argv[1:] = ["--listen", *sys.argv[2:]]
subprocess.run(["ip", "link", "set", "lo", "up"], check=True)
subprocess.run(["tc", "qdisc", "add", "dev", "lo", "root", "netem", "delay", "20ms"], check=True)
from listen_parts.parting import BEHIND, LARGE, TOO_LARGE, reply_behind
from serving import Served
with Served(sys.argv[2], sys.argv[3], sys.argv[4]) as served:
    print(sum(reply_behind(served.client(), LARGE, BEHIND) == TOO_LARGE for _ in range(int(sys.argv[5]))))
"""


def over_a_slow_network():
    """The same over a network whose packets come 20 ms late."""
    if os.geteuid() != 0 or not all(map(shutil.which, ("unshare", "ip", "tc"))):
        print(f"{checks.name}: a network that delays can't be made here (that takes root, ip and tc): left out")
        return
    ran = subprocess.run(
        ["unshare", "--net", sys.executable, "-c", DELAYED, os.path.dirname(os.path.dirname(__file__)), PROGRAM,
         str(folder / "delayed.db"), TOKEN_FILE, str(OFTEN)], capture_output=True, text=True, timeout=600, check=False)
    if "netem" in ran.stderr or "qdisc" in ran.stderr:
        print(f"{checks.name}: packets can't be delayed here (that takes the kernel's netem): left out")
        return
    expect(f"replies of {OFTEN} that arrive behind 8 MB over a slow network", (ran.stdout, ran.stderr[-300:]),
           (f"{OFTEN}\n", ""))


def asked_late(often):
    """Of so many clients, four at once, over packets that come 20 ms late: what comes to each behind 8 MB, its port,
    and after how many seconds all of it was acknowledged; and the ports that the program resets."""
    port = 8080

    def comes_behind():
        with client_of(socket.AF_INET, (THERE, port)) as client:
            found = reply_behind(client, LARGE, BEHIND), client.socket.getsockname()[1]
            gone(client, 2)
            return found
    with late(0.02) as resets, At("late.db", f"{HERE}:{port}") as at, \
            concurrent.futures.ThreadPoolExecutor(4) as clients:
        came = list(clients.map(lambda _: timed(comes_behind), range(often))) if at.first_line else []
        return came, {to for by, to in resets() if by == port}


def over_late_packets():
    """The same over a network in user space, which sees each packet: no client whose bytes have come soon is reset
    within the two seconds of parting. What was reset may lose its reply, or read no more."""
    try:
        came, reset = apart(asked_late, OFTEN)
    except NoNetwork as error:
        print(f"{checks.name}: no packets can be delayed here (that takes root, ip and TUN): {error}: left out")
        return
    soon = {port for (_, port), seconds in came if seconds < 1}
    expect(f"what comes to {OFTEN} behind 8 MB over late packets", [found for (found, _), _ in came],
           [TOO_LARGE] * OFTEN)
    expect("resets of those whose bytes have come within a second", reset & soon, set())
    within("the seconds of the quickest", min((seconds for _, seconds in came), default=0), Between(0.08))
    print(f"{len(came)} clients over late packets: {len(soon)} took less than a second, {len(reset)} were reset")
