#!/usr/bin/env python3
"""What it takes to keep in etcd in which group of machines each of a million domains is, and to have HAProxy go by it.

usage: bench/domain_map.py [DOMAINS]

Three members of etcd get the map, as `pdpd-replicas fill` gives it, and a HAProxy begins with it. Then domains move, a
hundred a second, each by the map's own transaction, and the follower (deploy/replica/following.py) has HAProxy go by
it; in the middle come so many new domains that HAProxy has to merge its maps. Takes Debian's etcd-server and haproxy,
4 GB and some minutes for a million.
"""
import concurrent.futures
import contextlib
import multiprocessing
import os
import pathlib
import random
import re
import resource
import shutil
import signal
import socket
import statistics
import subprocess
import sys
import tempfile
import threading
import time

sys.dont_write_bytecode = True
TOP = pathlib.Path(__file__).resolve().parent.parent
sys.path[:0] = [str(TOP / "deploy"), str(TOP / "tests")]
from replica.etcd import Down, Etcd, Member, Open  # noqa: E402
from replica.following import Follower  # noqa: E402
from replica.groups import MAP, MOST_PUT, MOVED, Map, NoPlace, all_of  # noqa: E402
from replica.leases import Leases  # noqa: E402
from replica.proxy_map import MOST_MOVED  # noqa: E402
from serving import free_port  # noqa: E402

DOMAINS, GROUPS, SHARDS = int(sys.argv[1]) if sys.argv[1:] else 1_000_000, 100, 4
MOVES, SECONDS, MOVERS, FILLERS, LOOK_UPS = 100, 60, 20, 10, 20_000
NAMES, LEASE, THERE = "abc", 5.0, "group-moved.0"
CONFIGURATION = """
global
    stats socket {at}/admin.sock level admin
    tune.bufsize 1048576
defaults
    mode http
    timeout client 60s
    timeout server 5s
    timeout connect 1s
frontend asked
    bind 127.0.0.1:{port}
    acl of_domain path_beg /t
    http-request set-var(txn.place) path,field(2,/),map({at}/moved.map) if of_domain
    acl is_told var(txn.place) -m found
    http-request set-var(txn.place) path,field(2,/),map({at}/groups.map) if of_domain !is_told
    http-request set-var(txn.place) str(LEASE),map({at}/leases.map) if !of_domain
    http-request return status 200 content-type text/plain lf-string %[var(txn.place)]
"""


def name_of(number):
    return f"tenant-{number:07d}"


def place_of(number):
    return f"group-{number % GROUPS}.{number % SHARDS}"


def megabytes_of(pid, most=False):
    """What a process holds in memory now, or has held at the most."""
    if most:
        text = pathlib.Path(f"/proc/{pid}/status").read_text()
        return int(re.search(r"VmHWM:\s*(\d+) kB", text)[1]) * 1024 / 1e6
    words = pathlib.Path(f"/proc/{pid}/statm").read_text().split()
    return int(words[1]) * resource.getpagesize() / 1e6


def processor_of(pid):
    """The processor time of a process, in seconds."""
    words = pathlib.Path(f"/proc/{pid}/stat").read_text().rpartition(")")[2].split()
    return (int(words[11]) + int(words[12])) / os.sysconf("SC_CLK_TCK")


def filled(domains):
    """How long it takes to put all domains into the map, by several groups."""
    def put(first):
        part = range(first, min(first + MOST_PUT * FILLERS, DOMAINS), FILLERS)
        for more in range(FILLERS):
            names = [name_of(number + more) for number in part if number + more < DOMAINS]
            while True:
                try:
                    domains.claim(names, place_of(first + more))
                    break
                except NoPlace:  # (a busy disk: they are put once more)
                    pass
    began = time.monotonic()
    with concurrent.futures.ThreadPoolExecutor(FILLERS) as pool:
        list(pool.map(put, range(0, DOMAINS, MOST_PUT * FILLERS)))
    return time.monotonic() - began


def looked_up(port, pid, path):
    """HAProxy's processor time for a message that it answers by itself, in microseconds, over one connection."""
    chance, before = random.Random(1), processor_of(pid)
    with socket.create_connection(("127.0.0.1", port)) as asks:
        for _ in range(LOOK_UPS):
            asks.sendall(f"GET /{path(chance.randrange(DOMAINS))} HTTP/1.1\r\nhost: x\r\n\r\n".encode())
            asks.recv(65_536)
    return (processor_of(pid) - before) / LOOK_UPS * 1e6


def asked(port, is_over, took):
    """Asks for domains over one connection, a hundred times a second; how long each took, in milliseconds."""
    chance, found = random.Random(2), []
    with socket.create_connection(("127.0.0.1", port)) as asks:
        while not is_over.is_set():
            began = time.monotonic()
            asks.sendall(f"GET /{name_of(chance.randrange(DOMAINS))} HTTP/1.1\r\nhost: x\r\n\r\n".encode())
            asks.recv(65_536)
            found.append((time.monotonic() - began) * 1e3)
            time.sleep(0.01)
    took.put(found)


class Timed(Follower):
    """One that notes when HAProxy was told of each domain, and whether it knew of all."""

    def __init__(self, *given):
        super().__init__(*given)
        self.moments, self.stale, self.merges, tell = {}, 0, 0, self.proxy.tell

        def told(changes):
            tell(changes)
            self.moments.update(dict.fromkeys(changes, time.monotonic()))
        self.proxy.tell = told

    def look_at_proxy(self):
        self.stale += time.monotonic() > self.fresh_until
        super().look_at_proxy()

    def merge(self):
        was_merging = self.merging is not None
        super().merge()
        self.merges += was_merging and self.merging is None


class Movers:
    """Several clients that move domains, all together a hundred times a second."""

    def __init__(self, domains):
        self.domains, self.lock, self.count = domains, threading.Lock(), 0
        self.began, self.took, self.start = {}, [], time.monotonic()

    def work(self):
        step = max(1, DOMAINS // (MOVES * SECONDS))
        while True:
            with self.lock:
                count, self.count = self.count, self.count + 1
            if count >= MOVES * SECONDS:
                return
            time.sleep(max(0.0, self.start + count / MOVES - time.monotonic()))
            name, now = name_of(count * step), time.monotonic()
            self.began[name] = now
            self.move(name)
            self.took.append((time.monotonic() - now) * 1e3)

    def move(self, name):
        """Moves a domain; once more where etcd says nothing of it, as on a busy machine."""
        at = ""
        while at != THERE:
            with contextlib.suppress(Down, Open):
                at = self.domains.places([name])[name]
                if at == THERE or self.domains.put([name], at, THERE):
                    return

    def run(self, made):
        """Tells how many moves were made in a second, when each was begun, and how long each took."""
        with concurrent.futures.ThreadPoolExecutor(MOVERS) as pool:
            for one in [pool.submit(self.work) for _ in range(MOVERS)]:
                one.result()
        made.put((len(self.began) / (time.monotonic() - self.start), self.began, self.took))


def moves(ports, made):
    Movers(Map(etcd_at(ports))).run(made)


def come(domains):
    """So many new domains that HAProxy merges what it was told."""
    time.sleep(SECONDS / 3)
    for first in range(0, MOST_MOVED, MOST_PUT):
        domains.claim([f"tenant-new-{number}" for number in range(first, first + MOST_PUT)], "group-1.1")


def moved(domains, follower, port):
    """How many moves were made in a second, how long after each was begun it was made, and in HAProxy's map, and how
    long messages took meanwhile. (Who moves and who asks are processes of their own.)"""
    threading.Thread(target=follower.run, daemon=True).start()
    time.sleep(5)
    follower.moments.clear()
    follower.stale = 0
    made, took, is_over = multiprocessing.Queue(), multiprocessing.Queue(), multiprocessing.Event()
    ports = [one.port for one in domains.etcd.members]
    works = [multiprocessing.Process(target=moves, args=(ports, made), daemon=True),
             multiprocessing.Process(target=asked, args=(port, is_over, took), daemon=True)]
    for one in works:
        one.start()
    come(domains)
    rate, began, puts = made.get(timeout=20 * SECONDS)
    end = time.monotonic() + 60
    while not began.keys() <= follower.moments.keys():
        if time.monotonic() > end:
            raise RuntimeError(f"the follower is at {follower.at}, has heard {follower.heard}, and the map is at "
                               f"{domains.last()}")
        time.sleep(0.1)
    is_over.set()
    return rate, puts, [(follower.moments[name] - moment) * 1e3 for name, moment in began.items()], took.get()


def shown(what, took):
    took = sorted(took)
    print(f"{what}: {statistics.median(took):.1f} ms, 99%: {took[len(took) * 99 // 100]:.1f} ms, all: "
          f"{took[-1]:.1f} ms, of {len(took)}", flush=True)


def members(place, ran):
    """Three members of etcd that have begun."""
    ports = {name: (free_port(), free_port()) for name in NAMES}
    cluster = ",".join(f"{name}=http://127.0.0.1:{peers}" for name, (_, peers) in ports.items())
    for name, (clients, peers) in ports.items():
        at, to = f"http://127.0.0.1:{clients}", f"http://127.0.0.1:{peers}"
        ran.append(subprocess.Popen([
            "etcd", "--name", name, "--data-dir", place / name, "--listen-client-urls", at,
            "--advertise-client-urls", at, "--listen-peer-urls", to, "--initial-advertise-peer-urls", to,
            "--initial-cluster", cluster,
            "--quota-backend-bytes", str(2 << 30), "--auto-compaction-retention", "1h", "--logger", "zap",
            "--log-level", "error"], stderr=subprocess.DEVNULL))
    time.sleep(5)
    return etcd_at([clients for clients, _ in ports.values()])


def etcd_at(ports):
    return Etcd([Member("127.0.0.1", port) for port in ports], 30.0)


def begun(place, ran, follower):
    """A HAProxy that has begun with the map: its port and process."""
    port = free_port()
    (place / "haproxy.cfg").write_text(CONFIGURATION.format(at=place, port=port))
    began = time.monotonic()
    ran.append(subprocess.Popen(["haproxy", "-db", "-f", place / "haproxy.cfg"]))
    pid = ran[-1].pid
    while not follower.proxy.process():
        time.sleep(0.01)
    print(f"HAProxy: begins in {time.monotonic() - began:.1f} s, {processor_of(pid):.2f} s of a processor, "
          f"{megabytes_of(pid):.0f} MB of memory; a message {looked_up(port, pid, name_of):.1f} microseconds of a "
          f"processor, {looked_up(port, pid, str):.1f} by a map of one line", flush=True)
    return port, pid


def run(place, ran):
    print(f"{DOMAINS:,} domains, {os.cpu_count()} cores with a load of {os.getloadavg()[0]:.0f}", flush=True)
    etcd = members(place, ran)
    domains = Map(etcd)
    print(f"etcd: put in {filled(domains):.0f} s, {FILLERS} groups at the same time", flush=True)
    began = time.monotonic()
    _, _, places = all_of(etcd)
    print(f"etcd: {len(places):,} read in {time.monotonic() - began:.0f} s; {etcd.bytes_in_use() / 1e6:.0f} MB in a "
          f"member's file, {', '.join(f'{megabytes_of(one.pid):.0f}' for one in ran)} MB of memory", flush=True)
    del places
    follower = Timed(etcd, place, Leases(place / "admin.sock", str(place / "leases.map"), 0), LEASE)
    (place / "leases.map").write_text("LEASE 1\n")
    (place / MOVED).touch()
    began = time.monotonic()
    follower.read()
    follower.take()
    print(f"the follower: reads it in {time.monotonic() - began:.0f} s; {megabytes_of('self'):.0f} MB of memory",
          flush=True)
    began = time.monotonic()
    follower.write()
    took = time.monotonic() - began
    print(f"the follower: writes {(place / MAP).stat().st_size / 1e6:.0f} MB in {took:.1f} s", flush=True)
    port, pid = begun(place, ran, follower)
    follower = Timed(etcd, place, Leases(place / "admin.sock", str(place / "leases.map"), 0), LEASE)
    follower.load()
    began = time.monotonic()
    follower.look_at_proxy()
    print(f"a follower that has begun: has compared HAProxy's map in {time.monotonic() - began:.1f} s", flush=True)
    before, load = processor_of(pid), os.getloadavg()[0]
    rate, put, told, took = moved(domains, follower, port)
    print(f"{rate:.0f} moves a second, by {MOVERS} clients, with a load of {load:.0f} to {os.getloadavg()[0]:.0f}")
    shown("a move is made after", put)
    shown("it is in HAProxy's map after", told)
    shown("a message meanwhile", took)
    print(f"HAProxy: {processor_of(pid) - before:.1f} s of a processor for these, {MOST_MOVED:,} new domains and "
          f"{follower.merges} merges; {megabytes_of(pid, True):.0f} MB of memory at the most")
    print(f"looks at which it didn't know of all domains: {follower.stale}; {megabytes_of('self'):.0f} MB of memory in "
          "the follower", flush=True)


def main():
    place, ran = pathlib.Path(tempfile.mkdtemp(prefix="domain-map-")), []
    try:
        run(place, ran)
    finally:
        for one in ran:
            one.send_signal(signal.SIGKILL)
            one.wait()
        shutil.rmtree(place)


if __name__ == "__main__":
    main()
