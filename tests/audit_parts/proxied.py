"""HAProxy, with the configuration that pdpd-shards makes, before a daemon and its pdpd: changes, tokens, decisions."""
import json
import os
import shutil
import subprocess
import time
import urllib.request

from log.archive import segments_in
from log.history import changes_in
from log.receiving import files_in
from serving import OPERATOR, Client, free_port, message, policy

from .shared import TOP, Logged, expect, kept, log, status_of, wait_until

ADMIN, ASKS = "acme-admin-1", "acme-asks-1"
REQUEST = (TOP / "examples" / "ward" / "request-alice.json").read_bytes()


class Proxied(Logged):
    """With HAProxy before both."""

    def __init__(self, name, **settings):
        super().__init__(name)
        while not 0 < self.pdpd_port < 65_000:
            self.pdpd_port = free_port()
        self.front, self.haproxy = free_port(), None
        self.decisions, self.receiver = self.folder / "decisions", None
        self.settings = {"SHARDS": 1, "FIRST_PORT": self.pdpd_port, "HAPROXY_ETC": self.folder,
                         "HAPROXY_RUN": self.folder, "HAPROXY_USER": "", "TLS_BIND": "",
                         "PLAIN_BIND": f"127.0.0.1:{self.front}", "REFUSALS": 0, "OF_SOURCE": 0, "AUDIT": 1,
                         "AUDIT_RUN": self.folder / "run", "SUPERVISOR": "runit",
                         "DECISIONS": 1, **settings}
        for path in (self.folder / "run" / "0", self.folder / "run" / "decisions", self.decisions):
            path.mkdir(parents=True)
        self.address = f"unix:{self.folder}/run/0/socket"

    def start_receiver(self, size=1 << 20):
        words = [TOP / "deploy" / "pdpd-log", "receive", "--listen", f"unix:{self.folder}/run/decisions/socket",
                 "--bytes", str(size), "--days", "1", self.decisions]
        with open(self.folder / "receiver.log", "ab") as said:
            self.receiver = subprocess.Popen(words, stdin=subprocess.DEVNULL, stdout=said, stderr=said)

    def start_haproxy(self):
        lines = [f'{name}="{value}"\n' for name, value in self.settings.items()]
        (self.folder / "shards.conf").write_text("".join(lines))
        made = subprocess.run([TOP / "deploy" / "pdpd-shards", "config"], capture_output=True, check=True,
                              env={**os.environ, "PDPD_SETTINGS": str(self.folder / "shards.conf")})
        (self.folder / "haproxy.cfg").write_bytes(made.stdout)
        shutil.copy(TOP / "deploy" / "domains.lua", self.folder)
        (self.folder / "domains.map").touch()
        self.run_haproxy()

    def run_haproxy(self):
        """(Whoever is started again finds the port taken for a moment.)"""
        with open(self.folder / "haproxy.log", "ab") as said:
            self.haproxy = subprocess.Popen(["haproxy", "-db", "-f", self.folder / "haproxy.cfg"],
                                            stdin=subprocess.DEVNULL, stdout=said, stderr=said)
        wait_until(lambda: status_of(self.front_reply(message("GET", "/operator/domains", "-"))) == 401)

    def kill_haproxy(self):
        self.haproxy.kill()
        self.haproxy.wait()

    def front_reply(self, data):
        """HAProxy's reply to a client's message."""
        try:
            with Client(self.front) as client:
                client.socket.settimeout(60)
                return client.ask(data)
        except OSError:
            return b""

    # what a client sends: HAProxy puts the digest of the token in its place
    def change(self, data):
        return self.front_reply(data)

    def __enter__(self):
        super().__enter__()
        self.start_receiver()
        self.start_haproxy()
        return self

    def __exit__(self, *what):
        for one in (self.haproxy, self.receiver):
            if one and one.poll() is None:
                one.kill()
                one.wait()
        super().__exit__(*what)


def clear(method, path, token, body=None, more=""):
    return message(method, path, token, body, more)


def make(proxied, name="acme"):
    """A domain, by clients that know nothing of digests; the statuses."""
    at, tokens = f"/domains/{name}", f"/operator/domains/{name}/tokens"
    steps = [("PUT", f"/operator/domains/{name}", OPERATOR),
             ("POST", tokens, OPERATOR, '{"Role":"admin","Token":"%s"}' % ADMIN),
             ("POST", tokens, OPERATOR, '{"Role":"ask","Token":"%s"}' % ASKS),
             ("POST", f"{at}/pap/policies", ADMIN, policy()), ("PUT", f"{at}/pap/policy/urn:p/1.0/active", ADMIN),
             ("PUT", f"{at}/pap/root", ADMIN, '{"PolicyIdReference":{"Id":"urn:p"}}')]
    return [status_of(proxied.change(clear(*step))) for step in steps]


def ask(proxied, token=ASKS, more=""):
    return proxied.change(clear("POST", "/domains/acme/pdp", token, REQUEST, more))


def is_there():
    """Whether HAProxy is installed; a line says so where it isn't."""
    if shutil.which("haproxy"):
        return True
    print("  left out, since haproxy isn't installed")
    return False


def front():
    """Tokens through HAProxy, changes by the daemon, and each decision in the log, worked out again."""
    if not is_there():
        return
    with Proxied("front") as proxied:
        expect("a domain is made", make(proxied), [201, 200, 200, 201, 200, 200])
        changes = list(changes_in(segments_in([proxied.archive])))
        expect("by the daemon", len(changes), 6)
        data = b"".join(segment.data() for segment in segments_in([proxied.archive]))
        expect("no token in the archive", [one for one in (OPERATOR, ADMIN, ASKS) if one.encode() in data], [])
        expect("a decision", status_of(ask(proxied)), 200)
        asked, second = clear("POST", "/domains/acme/pdp", ASKS, REQUEST), f"Authorization: Bearer {ASKS}\r\n"
        for what, data, status in (
                ("a digest that is shown", clear("POST", "/domains/acme/pdp", kept(ASKS), REQUEST), 401),
                ("a digest of a digest", clear("POST", "/domains/acme/pdp", kept(kept(ASKS)), REQUEST), 401),
                ("two fields", clear("POST", "/domains/acme/pdp", ASKS, REQUEST, second), 401),
                ("a suffix", clear("POST", "/domains/acme/pdp", f"{ASKS}, x", REQUEST), 401),
                ("a scheme in capitals", asked.replace(b"Bearer", b"BEARER "), 200),
                ("an absolute target", clear("POST", "http://pdp.example/domains/acme/pdp", ASKS, REQUEST), 200),
                ("a query", clear("POST", "/domains/acme/pdp?x=/pip", ASKS, REQUEST), 200),
                ("no token", b"PUT /domains/acme/pip HTTP/1.1\r\nHost: a\r\nContent-Length: 2\r\n\r\n{}", 401),
                ("a change of who may ask alone", clear("PUT", "/domains/acme/pip", ASKS, '{"Row":[]}'), 403),
                ("no route", clear("POST", "/domains/acme/pdp/x", ADMIN, "{}"), 404),
                ("what is read", clear("GET", "/domains/acme/pip", ADMIN), 200)):
            expect(what, status_of(proxied.change(data)), status)
        for number in range(10):
            effect = "Permit" if number % 2 else "Deny"
            proxied.change(clear("POST", "/domains/acme/pap/policies", ADMIN, policy(effect, version=f"2.{number}")))
            proxied.change(clear("PUT", f"/domains/acme/pap/policy/urn:p/2.{number}/active", ADMIN))
            ask(proxied)
        verified(proxied, 14)


def decision_lines(proxied):
    return [line for path in files_in(proxied.decisions) for line in path.read_text().splitlines()]


def verified(proxied, count):
    """All decisions are in the log, and are the same."""
    expect("the lines come", wait_until(lambda: len(decision_lines(proxied)) >= count), True)
    expect("each is the same", log("verify", "--archive", proxied.archive, proxied.decisions),
           (0, f"{count} same, 0 other, 0 refused, 0 unverified\n".encode(), ""))
    usual = (proxied.folder / "haproxy.log").read_text()
    expect("requests in HAProxy's usual log", ["request" in usual, '"POST /domains/acme/pdp HTTP/1.1" 200' in usual],
           [False, False])
    who = json.loads(decision_lines(proxied)[0])["who"]
    listed = log("changes", "--archive", proxied.archive, "--domain", "acme")[1].decode()
    expect("who asked", f"gives the token {who}, ask" in listed, True)


def hashed():
    """DECISION_REQUESTS=digest: a line has no attribute of anybody, and can't be worked out again."""
    if not is_there():
        return
    with Proxied("hashed", DECISION_REQUESTS="digest") as proxied:
        make(proxied)
        expect("a decision", status_of(ask(proxied)), 200)
        expect("the line comes", wait_until(lambda: decision_lines(proxied)), True)
        held = json.loads(decision_lines(proxied)[0])
        expect("what it has", sorted(held), ["begin", "domain", "end", "reply", "request_digest", "status", "who"])
        expect("verify", log("verify", "--archive", proxied.archive, proxied.decisions)[:2],
               (0, b"0 same, 0 other, 0 refused, 1 unverified\n"))
        proxied.kill_daemon()
        held = clear("PUT", "/operator/domains/b", OPERATOR)
        expect("a change without the daemon", status_of(proxied.change(held)), 503)
        expect("a decision without it", status_of(ask(proxied)), 200)
        proxied.start_daemon()
        expect("once it is started again", wait_until(lambda: status_of(
            proxied.change(clear("PUT", "/operator/domains/c", OPERATOR))) == 201), True)


def unlogged():
    """DECISION_REQUESTS=none: nothing of a request is in a line. Lines wait while nobody keeps them."""
    if not is_there():
        return
    with Proxied("unlogged", DECISION_REQUESTS="none") as proxied:
        make(proxied)
        proxied.receiver.kill()
        proxied.receiver.wait()
        for _ in range(5):
            expect("a decision", status_of(ask(proxied)), 200)
        proxied.start_receiver()
        expect("the lines come", wait_until(lambda: len(decision_lines(proxied)) == 5), True)
        held = json.loads(decision_lines(proxied)[0])
        expect("what one has", sorted(held), ["begin", "domain", "end", "reply", "status", "who"])
        expect("verify", log("verify", "--archive", proxied.archive, proxied.decisions)[:2],
               (0, b"0 same, 0 other, 0 refused, 5 unverified\n"))


def health():
    """/health is 200 only while decisions are answered, /ready only while changes are taken too."""
    if not is_there():
        return
    port = free_port()

    def status(path):
        with Client(port) as client:
            client.socket.settimeout(60)
            return status_of(client.ask(message("GET", path, "-")))

    def answered(wanted):
        found = None
        for _ in range(20):
            found = [status("/health"), status("/ready")]
            if found == wanted:
                break
            time.sleep(1.1)
        return found

    with Proxied("health", METRICS=f"127.0.0.1:{port}") as proxied:
        expect("all is well", answered([200, 200]), [200, 200])
        proxied.kill_daemon()
        expect("without the daemon", answered([200, 503]), [200, 503])
        proxied.start_daemon()
        expect("with it", answered([200, 200]), [200, 200])
        proxied.pdpd.kill()
        expect("without pdpd", answered([503, 503]), [503, 503])
        proxied.start_pdpd()
        expect("with it again", answered([200, 200]), [200, 200])
        expect("no entry", list(proxied.archive.glob("*.log")), [])
        with urllib.request.urlopen(f"http://127.0.0.1:{port}/metrics", timeout=60) as reply:
            expect("HAProxy's figures", b"haproxy_process_uptime_seconds" in reply.read(), True)


PARTS = (front, hashed, unlogged, health)
