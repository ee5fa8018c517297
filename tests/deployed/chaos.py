"""A chaos among three machines: changes at random machines while programs are killed or stand still and machines are
cut off; then what clients were told is compared with the archives, and the archives with each other."""
import base64
import collections
import contextlib
import hashlib
import http.client
import json
import os
import pathlib
import random
import re
import ssl
import subprocess
import threading
import time
import zlib

from .machine import TOP, wait_until
from .three import NAMES, address, known_as

WARD = TOP / "examples" / "ward"
SEED = int(os.environ.get("CHAOS_SEED", "7"))
SECONDS = float(os.environ.get("CHAOS_SECONDS", "120"))
# by hand until so many faults were done and so many changes acknowledged, but no longer than so many seconds; and where
# that is written down
FAULTS, CHANGES = (int(os.environ.get(f"CHAOS_{name}", "0")) for name in ("FAULTS", "CHANGES"))
LONGEST, RECORD = 1_200, pathlib.Path(os.environ["CHAOS_RECORD"]) if "CHAOS_RECORD" in os.environ else None
CLIENTS = int(os.environ.get("CHAOS_CLIENTS", "4"))
ADMIN, ASKS = "ward-three-admin", "ward-three-asks"
# what is done, some of it more often: `hold` kills what holds the input of a pdpd, which then ends in good order;
# `part` has two machines reach each other no more; with `all` each program of a machine is killed; with `sleep` all of
# them stand still, as on a machine that is paused
KINDS = ("kill", "kill", "kill", "cut", "pause", "all", "part", "hold", "sleep")
# what says nothing of a change, or that it wasn't made
NONE = (0, 502, 503, 504)
AT = "/domains/ward/pap/policy/urn:example:ward:records/1.0/active"
ROW = '{"Row":[{"Category":"AccessSubject","Entity":"e%d","AttributeId":"urn:a","DataType":"string","Value":"%s"}]}'


class Client:
    """Who sends messages to the machines."""

    def __init__(self, operator, certificates=None):
        """`certificates`: a folder with those of a machine."""
        self.operator, self.certificates = operator, certificates

    def sent(self, name, method, path, token, body=None, seconds=60, is_machine=False):
        """The status, the entry that the reply names, and the body; 0 where there is no reply. What a machine sends
        goes to no third one."""
        connection = self.as_machine(name, seconds) if is_machine else http.client.HTTPConnection(
            address(name), 80, timeout=seconds)
        fields = {"Authorization": f"Bearer {token}"}
        if body is not None:
            fields["Content-Type"] = "application/json"
        try:
            connection.request(method, path, body, fields)
            reply = connection.getresponse()
            return reply.status, int(reply.getheader("X-Entry") or 0), reply.read().decode()
        except (OSError, http.client.HTTPException):
            return 0, 0, ""
        finally:
            connection.close()

    def as_machine(self, name, seconds):
        """A connection by which machines come in at another one."""
        context = ssl.create_default_context(cafile=self.certificates / "ca.crt")
        context.load_cert_chain(self.certificates / "client.crt", self.certificates / "client.key")
        return http.client.HTTPSConnection(known_as(name).strip("[]"), 444, timeout=seconds, context=context)

    def has_made(self, name, domain):
        """Whether a machine makes a domain, or has made it."""
        return self.sent(name, "PUT", f"/operator/domains/{domain}", self.operator)[0] in (201, 409)

    def make_ward(self, name):
        at, pap = "/operator/domains/ward", "/domains/ward/pap"
        steps = [("PUT", at, self.operator), *(("POST", f"{at}/tokens", self.operator, json.dumps(
                     {"Role": role, "Token": token})) for role, token in (("admin", ADMIN), ("ask", ASKS))),
                 ("POST", f"{pap}/policies", ADMIN, (WARD / "policy.json").read_text()), ("PUT", AT, ADMIN),
                 ("PUT", f"{pap}/root", ADMIN, '{"PolicyIdReference":{"Id":"urn:example:ward:records"}}'),
                 ("PUT", "/domains/ward/pip", ADMIN, (WARD / "rows.json").read_text())]
        return [self.sent(name, *step)[0] for step in steps]

    def decision(self, name, seconds=10, is_own=False):
        """The decision of a machine, or of one that it asks; the status where it gives none."""
        # (who is on the night's shift may read at any hour)
        status, _, body = self.sent(name, "POST", "/domains/ward/pdp", ASKS, (WARD / "request-bob.json").read_text(),
                                    seconds, is_own)
        return re.search(r'"Decision":"(\w+)"', body)[1] if status == 200 else status

    def own_decision(self, name):
        """The same of the machine itself."""
        return self.decision(name, is_own=True)

    def shard(self, three):
        return int(three.run("a", "pdpd-shards where ward"))


@contextlib.contextmanager
def changing(client, name):
    """Meanwhile somebody changes a domain; the statuses."""
    is_over, found = threading.Event(), []
    rows = (WARD / "rows.json").read_text()

    def work():
        while not is_over.is_set():
            found.append(client.sent(name, "PUT", "/domains/ward/pip", ADMIN, rows)[0])
    thread = threading.Thread(target=work)
    thread.start()
    try:
        yield found
    finally:
        is_over.set()
        thread.join()


def name_of(number):
    """The name of a client's domain. They are in the two shards by turns."""
    names = (f"own-{number}-{more}" for more in range(100))
    return next(name for name in names if zlib.crc32(name.encode()) % 2 == number % 2)


class Changer(threading.Thread):
    """A client that changes a domain of its own at random machines, each time otherwise."""

    def __init__(self, client, number, is_over):
        super().__init__(daemon=True)
        self.client, self.name, self.is_over = client, name_of(number), is_over
        self.chance, self.sent, self.count = random.Random(SEED + number), [], 0

    def change(self, method, path, token, body=None):
        name = self.chance.choice(NAMES)
        status, entry, text = self.client.sent(name, method, path, token, body)
        self.sent.append((method, path, body or "", status, entry, text))
        if status in NONE:
            time.sleep(0.2)
        return status

    def run(self):
        operator, admin = self.client.operator, f"{self.name}-admin-1"
        at = f"/operator/domains/{self.name}"
        while self.change("PUT", at, operator) not in (201, 409):
            pass
        while self.change("POST", f"{at}/tokens", operator, json.dumps({"Role": "admin", "Token": admin})) != 200:
            pass
        text = json.loads((WARD / "policy.json").read_text())
        while not self.is_over.is_set():
            self.count += 1
            text["Policy"]["PolicyId"] = f"urn:{self.name}:{self.count}"
            self.change("POST", f"/domains/{self.name}/pap/policies", admin, json.dumps(text))
            self.change("PUT", f"/domains/{self.name}/pip", admin, ROW % (self.count, self.name))
            self.change("PUT", f"/domains/{self.name}/pap/policy/urn:{self.name}:{self.count}/1.0/active", admin)


@contextlib.contextmanager
def others_changing(client, number=90):
    """Meanwhile a client changes a domain of its own; what it sent."""
    one = Changer(client, number, threading.Event())
    one.start()
    try:
        yield one.sent
    finally:
        one.is_over.set()
        one.join()


class Withdrawer(threading.Thread):
    """Activates and withdraws a policy at random machines; once that was acknowledged it asks all of them."""

    def __init__(self, client, is_over):
        super().__init__(daemon=True)
        self.client, self.is_over, self.chance = client, is_over, random.Random(SEED + 99)
        self.asked, self.stale, self.rounds = collections.Counter(), [], 0

    def run(self):
        while not self.is_over.is_set():
            for method in ("DELETE", "PUT"):
                status = self.client.sent(self.chance.choice(NAMES), method, AT, ADMIN)[0]
                if status != 200:
                    # (a daemon may try for some seconds more what nobody waits for)
                    time.sleep(0.2 if status == 503 else 12)
                    continue
                self.rounds += 1
                for name in [*NAMES] * 3:
                    found = self.client.decision(name, 3)
                    self.asked[method, found] += 1
                    # (without the policy its reference is an error)
                    if isinstance(found, str) and (found == "Permit") != (method == "PUT"):
                        self.stale.append((self.rounds, method, name, found))


def services(shards):
    kinds = ("pdpd", "pdpd-replica")
    return [*(f"{kind}-{shard}" for kind in kinds for shard in range(shards)), "pdpd-etcd", "haproxy"]


def disturb(three, chance, shards):
    """Does something to one machine, or between two, for a while; what."""
    name, kind = chance.choice(NAMES), chance.choice(KINDS)
    some, shard = services(shards), chance.randrange(shards)
    if kind == "kill":
        some = [chance.choice(some)]
        three.signal(name, some[0], "KILL")
    elif kind == "hold":
        some = [f"pdpd-{shard}"]
        three.signal(name, some[0], "KILL", is_holder=True)
    elif kind == "all":
        for one in some:
            three.signal(name, one, "KILL")
    elif kind == "sleep":
        three.sleep(name, chance.uniform(1, 10))
    elif kind in ("cut", "part"):
        some = [chance.choice([one for one in NAMES if one != name])]
        for is_off in (True, False):
            three.cut(name, is_off) if kind == "cut" else three.part(name, some[0], is_off)
            time.sleep(chance.uniform(1, 9) if is_off else 0)
    else:
        some = [chance.choice([one for one in some if one != "haproxy"])]
        three.signal(name, some[0], "STOP")
        time.sleep(chance.uniform(0.5, 7))
        three.signal(name, some[0], "CONT")
    return f"{kind} {name} {'' if kind in ('cut', 'all', 'sleep') else some[0]}".strip()


def archived(three, name, shard):
    """The entries of a machine's archive: number, method, path, body, status, reply, whether it was sent again,
    name."""
    script = ("import sys, json, base64, pathlib\nsys.path.insert(0, '/usr/local/lib/pdpd')\n"
              "sys.dont_write_bytecode = True\n"
              "from log.archive import segments_in\nfrom log.history import changes_in\n"
              f"for one in changes_in(segments_in([pathlib.Path('/var/lib/pdpd-replica/{shard}')])):\n"
              "    h = one.entry.head\n"
              "    print(json.dumps([h['n'], h['method'], h['path'], base64.b64encode(one.body()).decode(), one.status(),\n"
              "        base64.b64encode(one.reply.body.partition(b'\\r\\n\\r\\n')[2] if one.reply else b'').decode(), one.is_again(), h['log']['name']]))")
    said = three.run(name, f"python3 - <<'END'\n{script}\nEND")
    return [json.loads(line) for line in said.splitlines()]


def compare_archives(three, shard, checks):
    """Compares the archives of a shard with each other and with a replay; the entries by their numbers."""
    held = {name: archived(three, name, shard) for name in NAMES}
    for name in NAMES[1:]:
        checks.expect(f"the entries of {name}, shard {shard}", [one[7] for one in held[name]],
                      [one[7] for one in held[NAMES[0]]])
    firsts = [{tuple(one[4:6]) for one in those if not one[6]} for those in zip(*held.values())]
    checks.expect(f"first replies that differ, shard {shard}", [one for one in firsts if len(one) > 1], [])
    for name in NAMES:
        said = three.run(name, f"pdpd-log check --archive /var/lib/pdpd-replica/{shard}")
        checks.expect(f"replies that a replay gives otherwise, {name}, shard {shard}",
                      re.findall(r"(\d+) replies that replay gives otherwise", said), ["0"])
    uploads = collections.Counter(one[3] for one in held[NAMES[0]] if one[2].endswith("/pap/policies"))
    twice = [key for key, count in uploads.items() if count > 1]
    checks.expect(f"uploads that are there twice, shard {shard}", twice, [])
    return {one[0]: one for one in held[NAMES[0]]}


def compare(three, shard_of, sent, checks, shards):
    """What clients were told, and what the archives have: how many changes were acknowledged, how many entries there
    are, and how many of them were sent again."""
    kept = {shard: compare_archives(three, shard, checks) for shard in range(shards)}
    told = [one for one in sent if one[3] not in NONE and one[4]]
    wrong = [one for one in told if not is_kept(kept[shard_of(one[1])].get(one[4]), one)]
    checks.expect("acknowledged changes that aren't at their place", wrong[:3], [])
    entries = [one for held in kept.values() for one in held.values()]
    return len(told), len(entries), sum(one[6] for one in entries)


def is_kept(entry, told):
    method, path, body, status, _, text = told
    if entry is None or entry[1:3] != [method, path]:
        return False
    is_text = path.endswith("/tokens") or base64.b64decode(entry[3]).decode() == body
    return is_text and (entry[6] or (entry[4], base64.b64decode(entry[5]).decode()) == (status, text))


def domain_of(path):
    return path.split("/")[3 if path.startswith("/operator") else 2]


def read_everywhere(client, sent):
    """What each machine lists of each domain."""
    names = sorted({one[1].split("/")[2] for one in sent if one[1].startswith("/domains/")})
    return {name: [client.sent(name, "GET", f"/domains/{domain}/{what}", f"{domain}-admin-1")[::2]
                   for domain in names for what in ("pap/policies", "pip")] for name in NAMES}


def are_level(three):
    """Whether `status` finds nothing wrong."""
    return "WRONG" not in (said := three.run("a", "pdpd-replicas status", None)) and "doesn't answer" not in said


def acknowledged(changers):
    """The changes that were, as clients were told."""
    return [one for changer in changers for one in changer.sent if one[3] not in NONE and one[4]]


def disturbed(three, client, chance, shards):
    """Disturbs for so long, and until enough was done, while clients go on; these, who withdraws, and what was done:
    when, how many changes were acknowledged, and what."""
    is_over, faults, began = threading.Event(), [], time.time()
    changers, withdrawer = [Changer(client, number, is_over) for number in range(CLIENTS)], Withdrawer(client, is_over)
    for one in (*changers, withdrawer):
        one.start()
    try:
        while time.time() < began + SECONDS or (
                time.time() < began + LONGEST and (len(faults) < FAULTS or len(acknowledged(changers)) < CHANGES)):
            time.sleep(chance.uniform(1, 5))
            at, count = time.time() - began, len(acknowledged(changers))
            faults.append((at, count, disturb(three, chance, shards)))
    finally:
        is_over.set()
    for one in (*changers, withdrawer):
        one.join(120)
    return changers, withdrawer, faults


def record(three, summary, faults, checks):
    """Writes what was done, and of which sources, into the file that was named."""
    if not RECORD:
        return
    commit = subprocess.run(["git", "-C", TOP, "rev-parse", "HEAD"], capture_output=True, text=True, check=False).stdout
    digest = three.run("a", "sha256sum < /usr/local/lib/pdpd/pdpd").split()[0]
    # (as `cat deploy/log/*.py deploy/replica/*.py | sha256sum`)
    paths = [path for name in ("log", "replica") for path in sorted((TOP / "deploy" / name).glob("*.py"))]
    tools = hashlib.sha256(b"".join(path.read_bytes() for path in paths)).hexdigest()
    lines = [f"REPLICAS_ONLY=run CHAOS_SEED={SEED} CHAOS_SECONDS={SECONDS:g} CHAOS_CHANGES={CHANGES} "
             f"CHAOS_FAULTS={FAULTS} CHAOS_CLIENTS={CLIENTS} tests/deploy.py PDPD replicas, on {os.cpu_count()} cores "
             f"with a load of {os.getloadavg()[0]:.0f}", time.strftime("%Y-%m-%dT%H:%M:%SZ", time.gmtime()),
             f"behind commit {commit.strip() or 'unknown'}", f"pdpd of SHA-256 {digest}",
             f"deploy/log/*.py deploy/replica/*.py, one behind another, of SHA-256 {tools}", summary,
             f"{checks.failed} of {checks.count} checks failed", "", "seconds  acknowledged  what was done"]
    lines += [f"{at:7.1f}  {count:12d}  {what}" for at, count, what in faults]
    RECORD.write_text("\n".join(lines) + "\n")


def run(three, client, checks, shards=2):
    """Two minutes of it, by a seed."""
    began = time.time()
    changers, withdrawer, faults = disturbed(three, client, random.Random(SEED), shards)
    checks.expect("all clients have ended", [one for one in (*changers, withdrawer) if one.is_alive()], [])
    wait_until(lambda: are_level(three), lambda: three.run("a", "pdpd-replicas status", None), 120)
    # (its last activation may have got no answer)
    wait_until(lambda: client.sent("a", "PUT", AT, ADMIN)[0] == 200, "no change is taken", 60)
    sent = [one for changer in changers for one in changer.sent]
    places = {one.name: int(three.run("a", f"pdpd-shards where {one.name}")) for one in changers}
    told, entries, again = compare(three, lambda path: places[domain_of(path)], sent, checks, shards)
    lists = read_everywhere(client, sent)
    checks.expect("what machines list", [lists[name] == lists[NAMES[0]] for name in NAMES], [True] * len(NAMES))
    checks.expect("all lists are there", {status for status, _ in lists[NAMES[0]]}, {200})
    checks.expect("decisions that were stale with ACK=all", withdrawer.stale, [])
    checks.expect("enough was tried", min(told, withdrawer.rounds, len(faults)) > 3, True)
    kinds = collections.Counter(what.split()[0] for *_, what in faults)
    summary = (f"seed {SEED}, {time.time() - began:.0f} s, {len(faults)} faults ({dict(kinds)}): {len(sent)} changes "
               f"sent, {told} acknowledged; {entries} entries, {again} sent again; {withdrawer.rounds} acknowledged "
               f"activations and withdrawals, and behind them {dict(withdrawer.asked)}")
    checks.say(summary)
    record(three, summary, faults, checks)
