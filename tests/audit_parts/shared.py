"""What the parts of tests/audit.py share: a pdpd with a daemon before it, and messages as HAProxy passes them on."""
import argparse
import base64
import hashlib
import json
import os
import pathlib
import signal
import subprocess
import sys
import tempfile
import time

from checks import Checks, program_named
from log.pdpd import replies
from serving import OPERATOR, PATIENCE, Client, Served, free_port, message

TOP = pathlib.Path(__file__).resolve().parent.parent.parent
options = argparse.ArgumentParser(add_help=False)
options.add_argument("--kills", type=int, default=12)
options.add_argument("--askers", type=int, default=6)
options.add_argument("--seed", type=int, default=7)
options.add_argument("--seconds", type=float, default=float("inf"))
options.add_argument("--record", type=pathlib.Path)
GIVEN, sys.argv[1:] = options.parse_known_args()
PROGRAM = program_named(sys.argv[1:])
SEED = GIVEN.seed

checks = Checks("tests/audit.py")
expect, within = checks.expect, checks.within
folder = pathlib.Path(tempfile.mkdtemp(prefix="pdpd-audit-"))
# where a sync costs nothing: what is tried there is what stands in files, and not the disk
memory = pathlib.Path(tempfile.mkdtemp(prefix="pdpd-audit-", dir="/dev/shm" if os.path.isdir("/dev/shm") else None))


def kept(token):
    """What HAProxy puts in a token's place: its SHA-256 in the base64 for URLs, without padding (RFC 4648)."""
    return base64.urlsafe_b64encode(hashlib.sha256(token.encode()).digest()).decode().rstrip("=")


def passed_on(method, path, token, body=None, more=""):
    """A message as HAProxy passes it on: of the token of a domain the digest alone."""
    return message(method, path, token if path.startswith("/operator") else kept(token), body, more)


def status_of(reply):
    """The status of a reply; 0 where there is none."""
    return int(reply[9:12]) if reply else 0


def log(*words, **more):
    """Runs pdpd-log; its status and what it wrote."""
    ran = subprocess.run([TOP / "deploy" / "pdpd-log", *words], capture_output=True, check=False,
                         env={**os.environ, "PDPD": PROGRAM, "PDPD_ARCHIVES": "/nowhere"}, **more)
    return ran.returncode, ran.stdout, ran.stderr.decode()


class Logged:
    """A pdpd over a file, and a daemon that logs its changes. Both are killed at the end of the `with` statement."""

    def __init__(self, name, program=PROGRAM, room=1):
        self.folder, self.program, self.room = folder / name, program, room
        self.folder.mkdir()
        self.archive, self.token_file = self.folder / "log", self.folder / "token"
        self.token_file.write_text(f"{OPERATOR}\n")
        self.pdpd_port, self.port = 0, free_port()
        self.address, self.changes = f"127.0.0.1:{self.port}", f"unix:{self.folder}/changes"
        self.pdpd = self.daemon = None

    def start_pdpd(self, **more):
        """(It ends, and is started again, while the port is another's.)"""
        self.pdpd = Served(self.program, str(self.folder / "store.db"), str(self.token_file),
                           port=self.pdpd_port or None, command="listen", changes=self.changes, **more)
        self.pdpd_port = self.pdpd.port

    def start_daemon(self, **more):
        words = [TOP / "deploy" / "pdpd-replica", "--archive", self.archive, "--listen", self.address,
                 "--pdpd", self.changes, "--token", self.token_file, "--room", str(self.room)]
        with open(self.folder / "said", "ab") as said:
            self.daemon = subprocess.Popen(words, stdin=subprocess.DEVNULL, stdout=subprocess.PIPE, stderr=said, **more)
        return self.daemon.stdout.readline()

    def said(self):
        return (self.folder / "said").read_text()

    def kill_daemon(self):
        self.daemon.kill()
        self.daemon.communicate()

    def change(self, data):
        """The reply of the daemon to a message; what came of one."""
        try:
            with Client(self.port) as client:
                client.socket.settimeout(2 * PATIENCE)
                return client.ask(data)
        except OSError:
            return b""

    def read(self, *messages):
        """pdpd's own replies."""
        return self.pdpd.once(*messages)

    def past_the_log(self, *messages):
        """pdpd's replies to changes that come past the daemon."""
        return [replies(self.changes, one, 1, PATIENCE)[0].data for one in messages]

    def make_domain(self, name="acme", form=passed_on):
        """A domain whose root permits everything, by the daemon; the statuses."""
        at, admin, tokens = f"/domains/{name}", f"{name}-admin-1", f"/operator/domains/{name}/tokens"
        text = (TOP / "examples" / "ward" / "policy.json").read_text()
        rows = (TOP / "examples" / "ward" / "rows.json").read_text()
        steps = [("PUT", f"/operator/domains/{name}", OPERATOR, None),
                 ("POST", tokens, OPERATOR, json.dumps({"Role": "admin", "Token": admin})),
                 ("POST", tokens, OPERATOR, json.dumps({"Role": "ask", "Token": f"{name}-asks-1"})),
                 ("POST", f"{at}/pap/policies", admin, text),
                 ("PUT", f"{at}/pap/policy/urn:example:ward:records/1.0/active", admin, None),
                 ("PUT", f"{at}/pap/root", admin, '{"PolicyIdReference":{"Id":"urn:example:ward:records"}}'),
                 ("PUT", f"{at}/pip", admin, rows)]
        return [status_of(self.change(form(*step))) for step in steps]

    def __enter__(self):
        self.start_pdpd()
        self.start_daemon()
        return self

    def __exit__(self, *what):
        if self.daemon and self.daemon.poll() is None:
            self.kill_daemon()
        if self.pdpd and self.pdpd.process.poll() is None:
            self.pdpd.process.send_signal(signal.SIGCONT)
            self.pdpd.kill()


def wait_until(holds, seconds=PATIENCE):
    """Whether a condition holds before so many seconds have passed."""
    end = time.monotonic() + seconds
    while not (found := holds()) and time.monotonic() < end:
        time.sleep(0.02)
    return bool(found)
