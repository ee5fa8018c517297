"""The map of all groups of machines: who changes it at the same time, and how long what was is kept."""
import collections
import contextlib
import threading
import time

from audit_parts.shared import expect, folder, wait_until
from replica.etcd import Etcd, Member, Refused
from replica.groups import LAST, Map, NoPlace, all_of, groups_in, parts_of
from serving import free_port

from .etcds import LONG
from .lab import Process


def named():
    """What a setting may name."""
    found = groups_in("one=10.0.0.1,10.0.0.2 two=[fd00::1]:2400")
    expect("groups", found, {"one": {"one-0": ("10.0.0.1", 2379), "one-1": ("10.0.0.2", 2379)},
                             "two": {"two-0": ("fd00::1", 2400)}})
    for text in ("one", "one=", "=10.0.0.1", "one=10.0.0.1, two=10.0.0.2", "one=10.0.0.1 one=10.0.0.2",
                 "one=10.0.0.1 two=10.0.0.1", "1=10.0.0.1", "one=10.0.0.1;x"):
        expect(f"{text!r}", refused(lambda text=text: groups_in(text)), True)
    expect("a place", parts_of("one-b.12"), ("one-b", 12))
    for text in ("one", "one.x", ".1", "one.123", "1.1", "one.1 "):
        expect(f"{text!r}", refused(lambda text=text: parts_of(text)), True)


def refused(work):
    try:
        work()
    except ValueError:
        return True
    return False


@contextlib.contextmanager
def one_member(name):
    """A member of etcd, and its client."""
    place, (clients, peers) = folder / name, [free_port() for _ in range(2)]
    place.mkdir()
    at, to = (f"http://127.0.0.1:{port}" for port in (clients, peers))
    member = Process(["etcd", "--data-dir", place / "etcd", "--listen-client-urls", at, "--advertise-client-urls", at,
                      "--listen-peer-urls", to, "--initial-advertise-peer-urls", to, "--initial-cluster",
                      f"default={to}", "--logger", "zap", "--log-level", "error"], place / "etcd.said")
    member.start()
    etcd = Etcd([Member("127.0.0.1", clients)], 5.0)
    try:
        if not wait_until(lambda: answers(etcd), LONG):
            raise RuntimeError((place / "etcd.said").read_text())
        yield place, etcd, member
    finally:
        member.kill()


def answers(etcd):
    with contextlib.suppress(Exception):
        etcd.get(LAST)
        return True
    return False


def history():
    """What etcd had stays to be read for a while, and then goes: who reads a large map while entries are dropped gets
    all of it."""
    with one_member("history") as (_, etcd, _):
        revisions = []
        for number in range(3):
            etcd.put(b"/key", b"%d" % number)
            revisions.append(etcd.range_at(0, b"/key")[0])
            if number:
                time.sleep(0.3)
                etcd.drop_history(1.0)
        expect("at once", [values_at(etcd, one) for one in revisions], [b"0", b"1", b"2"])
        time.sleep(1.0)
        etcd.drop_history(1.0)
        expect("a second later", [values_at(etcd, one) for one in revisions], ["gone", "gone", b"2"])
        etcd.put(b"/key", b"3")
        etcd.drop_history()
        expect("all of it", [values_at(etcd, one) for one in revisions], ["gone", "gone", "gone"])
        etcd.drop_history()
        expect("a second time", etcd.get(b"/key"), b"3")


def values_at(etcd, revision):
    try:
        return etcd.range_at(revision, b"/key")[1][0][1]
    except Refused:
        return "gone"


def claims():
    """Machines of two groups make the same domains at the same time: each is in one place, and all know that one. A
    domain goes elsewhere only from where it is."""
    with one_member("claims") as (_, etcd, member):
        told, names = collections.defaultdict(set), [f"d{number}" for number in range(40)]

        def claim(place, order):
            for name in order:
                told[name].add(Map(etcd).claim([name], place)[name])
        works = [threading.Thread(target=claim, args=given) for given in (
            ("one.0", names), ("two.1", names), ("one.1", names[::-1]), ("two.0", names[20:] + names[:20]))]
        for one in works:
            one.start()
        for one in works:
            one.join()
        expect("all claimed", sorted(told), sorted(names))
        expect("one place each", {len(places) for places in told.values()}, {1})
        domains = Map(etcd)
        expect("as the map has it", domains.places(names), {name: min(told[name]) for name in names})
        # (with the one that has begun it)
        expect("how often it was changed", domains.last(), len(names) + 1)
        _, last, places = all_of(etcd)
        expect("read whole", (last, len(places)), (len(names) + 1, len(names)))
        expect("one of them is elsewhere", (domains.put(["new", "d1"], None, "one.0"), domains.places(["new"])),
               (False, {}))
        before = min(told["d0"])
        expect("moved", domains.move("d0", before, "three.3"), len(names) + 2)
        expect("moved again", domains.move("d0", before, "three.3"), len(names) + 2)
        expect("from where it isn't", refused(lambda: domains.move("d0", "nine.9", "one.0")), True)
        expect("one that isn't there", refused(lambda: domains.move("nobody", "one.0", "two.0")), True)
        at_once(domains)
        domains.raise_to(1000)
        domains.raise_to(500)
        expect("counted on", (domains.last(), domains.move("d0", "three.3", before)), (1000, 1001))
        member.kill()
        etcd.seconds = 0.3
        for what, work in (("a claim", lambda: domains.claim(["d1"], "one.0")),
                           ("a move", lambda: domains.move("d1", "one.0", "two.0"))):
            try:
                work()
                expect(f"{what} without etcd", "an answer", "none")
            except NoPlace:
                pass


def at_once(domains):
    """Changes of different domains don't hold up each other: each is made at the first attempt."""
    before, made = domains.last(), []

    def work(name):
        made.append(domains.put([name], None, "one.0"))
        made.extend(domains.put([name], f"one.{number}", f"one.{number + 1}") for number in range(20))
    works = [threading.Thread(target=work, args=(f"at-once-{number}",)) for number in range(16)]
    for one in works:
        one.start()
    for one in works:
        one.join()
    expect("all are made", (len(made), all(made)), (16 * 21, True))
    expect("and counted", domains.last(), before + 16 * 21)


PARTS = (named, history, claims)
