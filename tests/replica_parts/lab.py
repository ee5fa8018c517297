"""Three machines on this one: three members of etcd, and for each a pdpd with a daemon before it, which are all on
the loopback."""
import functools
import hashlib
import http.client
import json
import pathlib
import signal
import subprocess
import sys
import time

from audit_parts.shared import PROGRAM, TOP, folder, passed_on, status_of, wait_until
from serving import OPERATOR, PATIENCE, Client, Served, free_port

sys.path.insert(0, str(TOP / "deploy"))
from log.pdpd import replies  # noqa: E402
from replica.daemon import BEGINS  # noqa: E402
from replica.etcd import Etcd, Member  # noqa: E402
from replica.shared_log import SharedLog, program_of  # noqa: E402

NAMES = ("a", "b", "c")
LEASE = 5.0
# the log's name
LOG = "ab" * 32
# how long a beginning may take on a machine that others use as well, in seconds
BEGINNING = 4 * PATIENCE


@functools.cache
def digest():
    """The SHA-256 of the program."""
    return hashlib.sha256(pathlib.Path(PROGRAM).read_bytes()).hexdigest()


class Process:
    """A program that is started, killed and started again; what it says goes into a file."""

    def __init__(self, words, said):
        self.words, self.said, self.running = [str(word) for word in words], said, None

    def start(self):
        with open(self.said, "ab") as said:
            self.running = subprocess.Popen(self.words, stdin=subprocess.DEVNULL, stdout=said, stderr=said)

    def send(self, number):
        if self.running and self.running.poll() is None:
            self.running.send_signal(number)

    def kill(self):
        self.send(signal.SIGKILL)
        self.end()

    def stop(self):
        self.send(signal.SIGTERM)
        self.end()

    def end(self):
        if self.running:
            self.running.wait(PATIENCE)

    def is_running(self):
        return self.running is not None and self.running.poll() is None


class Machine:
    """One machine: its member of etcd, its pdpd and its daemon."""

    def __init__(self, lab, name):
        self.lab, self.name, self.folder = lab, name, lab.folder / name
        self.folder.mkdir()
        self.archive, self.token_file = self.folder / "log", self.folder / "token"
        self.runs = self.folder / "program"
        self.archive.mkdir()
        (self.archive / BEGINS).write_text(f"{LOG}\n")
        self.token_file.write_text(f"{OPERATOR}\n")
        self.client_port, self.peer_port, self.port = free_port(), free_port(), free_port()
        self.changes = f"unix:{self.folder}/changes"
        self.pdpd, self.pdpd_port = None, None
        self.etcd = self.daemon = None

    def make(self, **more):
        lab, at = self.lab, f"http://127.0.0.1:{self.client_port}"
        cluster = ",".join(f"{one.name}=http://127.0.0.1:{one.peer_port}" for one in lab.machines)
        self.etcd = Process(["etcd", "--name", self.name, "--data-dir", self.folder / "etcd",
                             "--listen-client-urls", at, "--advertise-client-urls", at, "--listen-peer-urls", f"http://127.0.0.1:{self.peer_port}",
                             "--initial-advertise-peer-urls", f"http://127.0.0.1:{self.peer_port}",
                             "--initial-cluster", cluster, "--initial-cluster-token", str(lab.folder),
                             "--pre-vote", "--logger", "zap", "--log-level", "warn",
                             "--quota-backend-bytes", str(lab.quota)], self.folder / "etcd.said")
        members = ",".join(f"{one.name}=127.0.0.1:{one.client_port}" for one in lab.machines)
        given = {"ack": "all", "lease": LEASE, "log-tail": 10_000, "room": 1, "runs": self.runs, **lab.more, **more}
        self.pdpd_port = self.pdpd_port or free_port()
        self.daemon = Process([TOP / "deploy" / "pdpd-replica", "--archive", self.archive,
                               "--listen", f"127.0.0.1:{self.port}", "--pdpd", self.changes,
                               "--token", self.token_file, "--replicas", members, "--name", self.name,
                               *(word for name, value in given.items() for word in (f"--{name}", value))],
                              self.folder / "said")

    def start_pdpd(self):
        self.runs.write_text(f"{digest()}  -\n")
        self.pdpd = Served(PROGRAM, str(self.folder / "store.db"), str(self.token_file), port=self.pdpd_port,
                           command="listen", changes=self.changes)

    def read(self, *messages):
        """pdpd's own replies."""
        return self.pdpd.once(*messages)

    def past_the_log(self, data):
        """pdpd's reply to a change that comes past the daemon."""
        return replies(self.changes, data, 1, PATIENCE)[0].data

    def said(self):
        return (self.folder / "said").read_text(errors="replace")

    def change(self, *message, seconds=2 * PATIENCE):
        """The daemon's reply to a message as HAProxy passes it on; what came of one."""
        try:
            with Client(self.port) as client:
                client.socket.settimeout(seconds)
                return client.ask(passed_on(*message))
        except OSError:
            return b""

    def figures(self):
        """What the daemon tells of itself; nothing where it doesn't."""
        connection = http.client.HTTPConnection("127.0.0.1", self.port, timeout=2)
        try:
            connection.request("GET", "/figures")
            return json.loads(connection.getresponse().read())
        except (OSError, http.client.HTTPException, ValueError):
            return {}
        finally:
            connection.close()

    def has(self, number):
        return self.figures().get("position", -1) >= number

    def end(self):
        for one in (self.daemon, self.etcd):
            if one and one.is_running():
                one.send(signal.SIGCONT)
                one.kill()
        if self.pdpd and self.pdpd.process.poll() is None:
            self.pdpd.process.send_signal(signal.SIGCONT)
            self.pdpd.kill()


class Lab:
    """The machines. Everything is killed at the end of the `with` statement."""

    def __init__(self, name, quota=0, **more):
        """`quota`: how many bytes etcd takes; 0 for what it takes by itself."""
        self.folder, self.more, self.quota = pathlib.Path(folder) / name, more, quota
        self.folder.mkdir()
        self.machines = []
        for one in NAMES:
            self.machines.append(Machine(self, one))
        for one in self.machines:
            one.make()
        members = [Member("127.0.0.1", one.client_port) for one in self.machines]
        self.log = SharedLog(Etcd(members), 0, "test", program_of(digest(), 1))

    def __enter__(self):
        try:
            for one in self.machines:
                one.etcd.start()
            self.begin_log()
            for one in self.machines:
                one.start_pdpd()
                one.daemon.start()
            if not wait_until(self.are_level, BEGINNING):
                raise RuntimeError("the replicas aren't there: " + self.machines[0].said())
        except BaseException:
            self.__exit__()
            raise
        return self

    def begin_log(self):
        end = time.monotonic() + BEGINNING
        while True:
            try:
                return self.log.make(LOG)
            except Exception:  # noqa: BLE001 (etcd has no leader yet)
                if time.monotonic() > end:
                    raise
                time.sleep(0.2)

    def are_level(self):
        """Whether each machine has the last entry, and a lease."""
        found = [one.figures() for one in self.machines]
        return (all(one.get("lease", 0) > 0 for one in found) and len({one["position"] for one in found}) == 1
                and found[0]["position"] == self.log.look().head.number)

    def __exit__(self, *what):
        for one in self.machines:
            one.end()

    def make_domain(self, machine, name="acme"):
        """A domain whose root permits everything; the statuses."""
        at, admin, tokens = f"/domains/{name}", f"{name}-admin-1", f"/operator/domains/{name}/tokens"
        text = (TOP / "examples" / "ward" / "policy.json").read_text()
        steps = [("PUT", f"/operator/domains/{name}", OPERATOR, None),
                 ("POST", tokens, OPERATOR, json.dumps({"Role": "admin", "Token": admin})),
                 ("POST", tokens, OPERATOR, json.dumps({"Role": "ask", "Token": f"{name}-asks-1"})),
                 ("POST", f"{at}/pap/policies", admin, text),
                 ("PUT", f"{at}/pap/policy/urn:example:ward:records/1.0/active", admin, None),
                 ("PUT", f"{at}/pap/root", admin, '{"PolicyIdReference":{"Id":"urn:example:ward:records"}}')]
        return [self.made(machine, *step) for step in steps]

    def made(self, machine, *step):
        """The status of a change, once it is neither refused for a while nor unknown."""
        found = []
        wait_until(lambda: found.append(status_of(machine.change(*step))) or found[-1] not in (0, 502, 503, 504))
        return found[-1]


def entry_of_reply(reply):
    """The number of the entry that a reply names, 0 where it names none."""
    lines = [line for line in reply.split(b"\r\n\r\n")[0].split(b"\r\n") if line.lower().startswith(b"x-entry:")]
    return int(lines[0].split(b":")[1]) if lines else 0
