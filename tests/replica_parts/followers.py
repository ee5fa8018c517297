"""The map of all groups of machines: how a HAProxy follows it, and what a daemon does that is behind it."""
import pathlib
import random
import shutil
import socket
import subprocess
import sys
import threading
import time

from audit_parts.shared import OPERATOR, SEED, TOP, expect, folder, status_of, wait_until
from replica.etcd import after
from replica.following import Follower, Point
from replica.groups import ALL, MAP, MOVED, NUMBER, Map, number_in
from replica.leases import Leases
from serving import free_port

from .etcds import LONG
from .groups import one_member
from .lab import Lab, Process

CONFIGURATION = """
global
    stats socket {at}/admin.sock level user
    tune.bufsize 1048576
defaults
    mode http
    timeout client 5s
    timeout server 5s
    timeout connect 1s
frontend asked
    bind 127.0.0.1:{port}
    acl is_mapped str(MAPPED),map({at}/leases.map) -m found
    http-request return status 503 if !is_mapped
    http-request set-var(txn.now) date(0,ms)
    acl is_fresh str(MAPPED),map_str_int({at}/leases.map),sub(txn.now) -m int gt 0
    http-request return status 503 if {{ path_beg /fresh }} !is_fresh
    http-request set-var(txn.place) path,field(2,/),map({at}/moved.map)
    acl is_told var(txn.place) -m found
    http-request set-var(txn.place) path,field(2,/),map({at}/groups.map,nowhere) if !is_told
    http-request return status 200 content-type text/plain lf-string %[var(txn.place)]
"""


class Proxied:
    """A HAProxy that goes by the map in a folder."""

    def __init__(self, place):
        self.place, self.port, self.running = place, free_port(), None
        (place / "haproxy.cfg").write_text(CONFIGURATION.format(at=place, port=self.port))
        (place / "leases.map").write_text("")
        for name in (MAP, MOVED):
            (place / name).touch()

    def start(self):
        self.running = subprocess.Popen(["haproxy", "-db", "-f", self.place / "haproxy.cfg"], stderr=subprocess.DEVNULL)
        wait_until(lambda: self.asked("x")[0] != 0)

    def kill(self):
        if self.running:
            self.running.kill()
            self.running.wait()

    def asked(self, name):
        """The status, and where it leads a domain."""
        try:
            with socket.create_connection(("127.0.0.1", self.port), 5) as asks:
                asks.sendall(f"GET /{name} HTTP/1.0\r\n\r\n".encode())
                reply = b"".join(iter(lambda: asks.recv(65_536), b""))
        except OSError:
            return 0, ""
        return status_of(reply), reply.partition(b"\r\n\r\n")[2].decode()


FOLLOWS = """
import pathlib, sys
sys.dont_write_bytecode = True
sys.path.insert(0, {deploy!r})
from replica import following, proxy_map
from replica.etcd import Etcd, Member
from replica.leases import Leases
proxy_map.MOST_MOVED, proxy_map.PART = {most}, 20
place = pathlib.Path({place!r})
etcd = Etcd([Member("127.0.0.1", {port})], 5.0)
following.Follower(etcd, place, Leases(place / "admin.sock", str(place / "leases.map"), 0), 5.0).run()
"""


def follower_of(etcd, place, most=20_000):
    """What has a HAProxy follow the map; with so many changes it merges them."""
    text = FOLLOWS.format(deploy=str(TOP / "deploy"), place=str(place), port=etcd.members[0].port, most=most)
    made = Process([sys.executable, "-c", text], place / "followed")
    made.start()
    return made


def followed():
    """A HAProxy goes by each change soon; one that begins with an older file answers nothing before it was told the
    rest, also by a follower that has begun after it."""
    if not shutil.which("haproxy"):
        expect("haproxy", "isn't there", "is there")
        return
    with one_member("followed") as (place, etcd, _):
        domains, proxy = Map(etcd), Proxied(place)
        made = None
        try:
            domains.claim(["acme", "ward"], "one.0")
            proxy.start()
            expect("before it is told", proxy.asked("acme")[0], 503)
            made = follower_of(etcd, place)
            expect("told", wait_until(lambda: proxy.asked("acme") == (200, "one.0"), LONG), True)
            expect("no domain", proxy.asked("nobody"), (200, "nowhere"))
            domains.claim(["new"], "two.1")
            last = domains.move("acme", "one.0", "two.0")
            expect("followed", wait_until(lambda: proxy.asked("acme") == (200, "two.0"), LONG), True)
            expect("a new one", proxy.asked("new"), (200, "two.1"))
            expect("up to which change", wait_until(lambda: number_in(place / NUMBER) == last, LONG), True)
            wait_until(lambda: "acme two.0" in (place / MAP).read_text(), LONG)
            old = (place / MAP).read_text()
            # one that begins with an older file than what its follower knows
            domains.move("acme", "two.0", "three.0")
            expect("followed again", wait_until(lambda: proxy.asked("acme") == (200, "three.0"), LONG), True)
            restarted(proxy, place, old)
            expect("by what has come since", wait_until(lambda: proxy.asked("acme")[0] == 200, LONG), True)
            expect("where it is", proxy.asked("acme"), (200, "three.0"))
            # one of which nobody knows what it began with
            restarted(proxy, place, "".join(old.splitlines(True)[2:]).replace("ward one.0", "ward nine.9"))
            expect("by all that it has", wait_until(lambda: proxy.asked("acme")[0] == 200, LONG), True)
            found = [proxy.asked(name) for name in ("acme", "ward")]
            expect("where both are", found, [(200, "three.0"), (200, "one.0")])
            # and one whose follower has ended meanwhile
            made.kill()
            domains.move("acme", "three.0", "four.0")
            restarted(proxy, place, old)
            expect("without a follower", {proxy.asked("acme")[0] for _ in range(5)}, {503})
            made = follower_of(etcd, place)
            expect("by another one", wait_until(lambda: proxy.asked("acme")[0] == 200, LONG), True)
            expect("where it is then", proxy.asked("acme"), (200, "four.0"))
            missed(etcd, domains, proxy)
        finally:
            if made:
                made.kill()
            proxy.kill()


def missed(etcd, domains, proxy):
    """A map that was lost, and is made anew with other numbers, is read whole."""
    etcd.delete(ALL, after(ALL))
    domains.raise_to(900)
    domains.claim(["acme"], "five.0")
    expect("made anew", wait_until(lambda: proxy.asked("acme") == (200, "five.0"), LONG), True)


def fresh():
    """What HAProxy was told is known to be all that there was, also while changes come on and on; not where it wasn't
    told of all, nor where the map is behind what was heard."""
    one = Follower(None, folder, Leases(None, "", 0), 5.0)
    for what, heard, told, last, then, wanted in (
            ("all was told", 7, 7, 7, 7, True), ("one has come since", 7, 7, 8, 9, True),
            ("one wasn't told", 8, 7, 8, 7, False), ("the map was lost", 7, 7, 3, 7, False)):
        one.heard, one.at, one.fresh_until = Point(heard, 70), Point(told, 70), 0.0

        def asked(last=last, then=then):
            one.at = Point(then, 71)
            return 71, last
        one.last = asked
        one.look_at_map()
        expect(what, one.fresh_until > time.monotonic(), wanted)


def restarted(proxy, place, text):
    """HAProxy begins anew with that file."""
    proxy.kill()
    (place / MAP).write_text(text)
    proxy.start()


class Mover(threading.Thread):
    """Moves domains of its own on and on, ten times a second: each to the place of the next number."""

    def __init__(self, domains, names, is_over):
        super().__init__(daemon=True)
        self.domains, self.is_over, self.at = domains, is_over, dict.fromkeys(names, 0)

    def run(self):
        for name in self.at:
            self.domains.claim([name], "one.0")
        chance, next_at = random.Random(SEED), time.monotonic()
        while not self.is_over.is_set():
            name = chance.choice([*self.at])
            number = self.at[name]
            if not self.domains.put([name], f"one.{number}", f"one.{number + 1}"):
                raise RuntimeError(f"{name} isn't at {number}")
            self.at[name] += 1
            next_at += 0.1
            time.sleep(max(0.0, next_at - time.monotonic()))


def hurried():
    """A hundred moves a second, while HAProxy merges what it was told, and HAProxy and its follower are killed: no
    domain is led where it was before, what is no domain is known to be none, and in the end all is as the map has
    it."""
    with one_member("hurried") as (place, etcd, _):
        domains, proxy, is_over = Map(etcd), Proxied(place), threading.Event()
        movers = [Mover(domains, [f"d{part}-{number}" for number in range(10)], is_over) for part in range(10)]
        made = follower_of(etcd, place, most=30)
        try:
            proxy.start()
            for one in movers:
                one.start()
            seen = Seen(proxy, [name for one in movers for name in one.at])
            wait_until(lambda: proxy.asked("d0-0")[0] == 200, LONG)
            # (that it knows of all domains lasts 5 s)
            seen.ask(8.0)
            expect("what is no domain, all the time", (seen.statuses, seen.unknown), ({200}, {200}))
            # (others come while it merges)
            found = entries_of(place, MAP), entries_of(place, MOVED)
            expect(f"it was merged: {found}", found[0] > 0 and found[1] < 80, True)
            for number in range(6):
                made.kill() if number % 2 else proxy.kill()
                seen.ask(0.3)
                made.start() if number % 2 else proxy.start()
                seen.ask(1.5)
            is_over.set()
            for one in movers:
                one.join()
            last = {name: f"one.{number}" for one in movers for name, number in one.at.items()}
            wanted = lambda: {name: proxy.asked(name) for name in last}  # noqa: E731
            is_there = wait_until(lambda: wanted() == {name: (200, at) for name, at in last.items()}, LONG)
            expect("where all are", is_there, True)
            expect("domains that were led where they had been", seen.back, [])
            print(f"  {sum(sum(one.at.values()) for one in movers)} moves; {seen.count} asked", flush=True)
        finally:
            is_over.set()
            made.kill()
            proxy.kill()


def entries_of(place, name):
    """How many domains HAProxy has in a map."""
    said = Leases(place / "admin.sock", "", 0).said(f"show map {place / name}") or ""
    return said.count(" one.")


class Seen:
    """What a HAProxy leads domains to, which never goes back."""

    def __init__(self, proxy, names):
        self.proxy, self.names, self.last, self.back, self.count = proxy, names, {}, [], 0
        self.statuses, self.unknown, self.chance = set(), set(), random.Random(SEED)

    def ask(self, seconds):
        end = time.monotonic() + seconds
        while time.monotonic() < end:
            name = self.chance.choice(self.names)
            status, at = self.proxy.asked(name)
            self.statuses.add(status)
            if status == 200 and at != "nowhere":
                number = int(at.split(".")[1])
                if number < self.last.get(name, 0):
                    self.back.append((name, number, self.last[name]))
                self.last[name] = max(number, self.last.get(name, 0))
                self.count += 1
            self.unknown.add(self.proxy.asked("fresh/nobody")[0])


def behind():
    """A machine whose HAProxy doesn't go by the change of the map that its log wants has no lease, and appends
    nothing; a domain that another group has isn't made."""
    with Lab("behind", lease=3.0) as lab:
        first, second, _ = lab.machines
        lab.make_domain(first)
        led = pathlib.Path(first.folder) / "map"
        led.mkdir()
        groups = "one=" + ",".join(f"127.0.0.1:{one.client_port}" for one in lab.machines) + " two=127.0.0.9"
        first.daemon.kill()
        first.make(lease=3.0, groups=groups, group="one", led=led)
        first.daemon.start()
        expect("level", wait_until(lambda: first.figures().get("lease", 0) > 0, 120), True)
        lab.log.etcd.put(lab.log.led, b"7")
        expect("no lease", wait_until(lambda: first.figures().get("lease", 1) == 0, 15), True)
        rows = ("PUT", "/domains/acme/pip", "acme-admin-1", '{"Row":[]}')
        expect("no change", status_of(first.change(*rows)), 503)
        expect("it says why", "have to be by 7" in first.said(), True)
        (led / NUMBER).write_text("7\n")
        expect("a lease", wait_until(lambda: first.figures().get("lease", 0) > 0, 15), True)
        expect("a change", lab.made(first, *rows), 200)
        domains = Map(lab.log.etcd)
        domains.claim(["theirs"], "two.0")
        make = lambda name: status_of(first.change("PUT", f"/operator/domains/{name}", OPERATOR, None))  # noqa: E731
        expect("a domain of another group", make("theirs"), 503)
        expect("a new domain", make("ours"), 201)
        expect("where it is", domains.places(["theirs", "ours"]), {"theirs": "two.0", "ours": "one.0"})
        expect("it isn't in the log", [one for number in range(1, lab.log.look().head.number + 1)
                                       if (one := lab.log.entry(number)).head["domain"] == "theirs"], [])


PARTS = (fresh, followed, hurried, behind)
