"""Three daemons whose disks and etcd are full, whose archive is damaged, whose pdpd is another program, and which go on
without a quorum."""
import contextlib
import resource
import socket
import threading
import time
from unittest import mock

from audit_parts.shared import expect, status_of, wait_until, within
from log.archive import segments_in
from replica import etcd as etcds
from replica.etcd import Open, Refused
from replica.leases import FOR_EVER
from serving import OPERATOR

from .etcds import LONG, are_level, leases_end, rows
from .groups import one_member
from .lab import LEASE, Lab, digest

DOMAIN = ("PUT", "/operator/domains/other", OPERATOR)


class Proxy:
    """In place of HAProxy a socket that keeps what it is told of a lease last."""

    def __init__(self, path):
        self.path, self.last, self.socket = path, -1, socket.socket(socket.AF_UNIX)
        self.socket.bind(str(path))
        self.socket.listen()
        threading.Thread(target=self.work, daemon=True).start()

    def work(self):
        with contextlib.suppress(OSError):
            while True:
                with self.socket.accept()[0] as one:
                    words = one.recv(4_096).split()
                    self.last = int(words[-1]) if words[1:2] == [b"map"] else self.last


def with_proxies(lab, **more):
    """Has the daemon of each machine tell a HAProxy of its own."""
    made = [Proxy(one.folder / "proxy") for one in lab.machines]
    for one, proxy in zip(lab.machines, made):
        one.make(proxy=proxy.path, leases="map", **more)
    return made


def goes_on():
    """Without a quorum decisions go on for ever if that was wanted, and else until the lease ends; changes never do."""
    for word in ("go-on", "stop"):
        lab = Lab(f"goes_on_{word}", ack="local")
        proxies = with_proxies(lab, **{"without-quorum": word})
        with lab:
            first = lab.machines[0]
            lab.make_domain(first)
            are_level(lab)
            for one in lab.machines[:2]:
                one.etcd.kill()
            expect("leases end", leases_end(lab), True)
            told = [one.last for one in proxies]
            if word == "go-on":
                expect("what HAProxy goes by", told, [FOR_EVER] * 3)
                proxies[0].last = -1
                expect("one that has begun meanwhile", wait_until(lambda: proxies[0].last == FOR_EVER), True)
                found = status_of(first.change("PUT", "/domains/acme/pip", "nobody-at-all", "{}"))
                expect("who isn't entitled is told so", found, 401)
            else:
                # (what a lease lets pass ends with it)
                expect("what HAProxy goes by", [one < time.time() * 1000 for one in told], [True] * 3)
            expect("a change", wait_until(lambda: status_of(rows(first, "no")) == 503), True)


def no_room():
    """A machine whose disk has less than ROOM has none take a change, before anything is appended; all decide."""
    lab = Lab("no_room")
    third = lab.machines[2]
    third.make(room=1 << 60)
    with lab:
        first = lab.machines[0]
        expect("a change", status_of(first.change(*DOMAIN)), 503)
        expect("nothing was appended", lab.log.look().head.number, 0)
        expect("why", "the disk of c has less room than ROOM" in first.said(), True)
        expect("all have their leases", lab.are_level(), True)


def no_byte_left():
    """A machine whose archive takes no byte more applies nothing, and decides nothing; then it goes on."""
    with Lab("no_byte_left", ack="local") as lab:
        first, _, third = lab.machines
        lab.make_domain(first)
        are_level(lab)
        pid, size = third.daemon.running.pid, segments_in([third.archive])[-1].path.stat().st_size
        most = resource.RLIM_INFINITY
        resource.prlimit(pid, resource.RLIMIT_FSIZE, (size, most))
        expect("changes elsewhere", [status_of(rows(first, number)) for number in range(2)], [200] * 2)
        expect("its lease ends", wait_until(lambda: third.figures().get("lease") == 0, 3 * LEASE), True)
        found = third.figures()["position"], "can't be kept" in third.said()
        expect("where it is, and what it says", found, (6, True))
        resource.prlimit(pid, resource.RLIMIT_FSIZE, (most, most))
        expect("it is level again", are_level(lab), True)


def etcd_is_full():
    """An etcd that is full takes no change; decisions go on. Once it is trimmed changes are taken again."""
    with Lab("etcd_is_full", ack="local", quota=16 << 20) as lab:
        first = lab.machines[0]
        lab.make_domain(first)
        are_level(lab)
        with contextlib.suppress(Refused, Open):
            for _ in range(64):
                lab.log.etcd.put(b"/filler", b"x" * 1_000_000)
        expect("a change", wait_until(lambda: status_of(rows(first, "no")) == 503), True)
        before = lab.log.look().head.number
        time.sleep(2 * LEASE)
        expect("all decide", [one.figures()["lease"] > 0 for one in lab.machines], [True] * 3)
        lab.log.etcd.delete(b"/filler")
        within("what is dropped", lab.log.drop_all(4), range(1, before))
        lab.log.etcd.give_space_back()
        expect("a change again", wait_until(lambda: status_of(rows(first, "yes")) == 200, LONG), True)
        expect("all are level", are_level(lab), True)


def damaged():
    """A daemon whose archive is damaged in its middle ends, and says so; the others go on without it."""
    with Lab("damaged", ack="local") as lab:
        first, _, third = lab.machines
        lab.make_domain(first)
        are_level(lab)
        third.daemon.kill()
        path = segments_in([third.archive])[-1].path
        data = bytearray(path.read_bytes())
        data[len(data) // 2] ^= 1
        path.write_bytes(data)
        third.daemon.start()
        expect("how it ends", third.daemon.running.wait(LONG), 3)
        expect("what it says", "put this file back from a copy" in third.said(), True)
        expect("the others", wait_until(lambda: status_of(rows(first, "on")) == 200), True)


def another_program():
    """A pdpd that was started as another program gets no entry, and its machine decides nothing, while changes are
    taken. Its daemon goes by what was started, and not by what stands on the disk."""
    with Lab("another_program", ack="local") as lab:
        first, _, third = lab.machines
        lab.make_domain(first)
        are_level(lab)
        third.runs.write_text("3" * 64)
        expect("its daemon begins anew", wait_until(lambda: not third.daemon.is_running()), True)
        expect("a change elsewhere", status_of(rows(first, "one")), 200)
        third.daemon.start()
        is_told = lambda: "all machines have to run the same one" in third.figures().get("wrong", "")  # noqa: E731
        expect("it is told", wait_until(is_told, LONG), True)
        expect("where it is, and its lease", (third.figures()["position"], third.figures()["lease"]), (6, 0))
        third.runs.write_text(digest())
        wait_until(lambda: not third.daemon.is_running())
        third.daemon.start()
        expect("with the right one again", are_level(lab), True)


def heard_once():
    """Who hears of changes goes on at another member where one is silent: nothing is heard twice, and nothing missed,
    though it was put in between."""
    with one_member("heard") as (_, etcd, _), mock.patch.object(etcds, "SILENCE", 3.0):
        class Second(etcds.Member):
            """One that is asked once something was put."""

            def connection(self, seconds):
                etcd.put(b"/key", b"2")
                return super().connection(seconds)
        (first,) = etcd.members
        both = etcds.Etcd([first, Second(first.host, first.port)], 5.0)
        for is_known in (True, False):
            etcd.put(b"/key", b"0")
            revision, heard, revisions = etcd.range_at(0, b"/key")[0], [], []
            for known, events in both.events_since(revision + 1 if is_known else 0, b"/key", b"/kez"):
                if not events and not heard:
                    etcd.put(b"/key", b"1")
                heard += [etcds.pair_of(one)[1] for one in events]
                revisions.append(known)
            expect("what was heard", heard, [b"1", b"2"])
            found = [revision if is_known else 0, revision + 1, revision + 1, revision + 2]
            expect("up to which revision", revisions, found)


PARTS = (heard_once, goes_on, no_room, no_byte_left, etcd_is_full, damaged, another_program)
