"""The core of the daemon (deploy/replica/core.py) over a log that loses and delays what it is told, and a clock that
stands still or leaps: each promise of the models, some thousand times at random."""
import random
import threading

from audit_parts.shared import SEED, expect
from replica.comparing import Comparing
from replica.core import UNAVAILABLE, UNKNOWN, Acknowledging, Appending, Applying, Change, Lease
from replica.etcd import Down, Open
from replica.shared_log import Entry, Head, Look, Wrong
from replica.telling import Telling

NAME = "0" * 64
ROUNDS = 400
PROGRAM = "1" * 64


class Clock:
    """A clock that goes on by what is slept, and by what a test says."""

    def __init__(self):
        self.now = 1_000.0

    def time(self):
        return self.now

    monotonic = time

    def sleep(self, seconds):
        self.now += seconds


class Store:
    """A log as etcd has it. A transaction that is sent may be lost, made with no answer, or made later."""

    def __init__(self, chance):
        self.chance, self.lock = chance, threading.RLock()
        self.entries, self.late, self.frozen = [], [], ""

    def head(self):
        return Head(len(self.entries), self.entries[-1].name() if self.entries else NAME)

    def execute(self, head, entries):
        with self.lock:
            if head != self.head() or self.frozen:
                return False
            self.entries += entries
            return True

    def some_late(self):
        """What is under way comes, or not."""
        with self.lock:
            while self.late and self.chance.random() < 0.4:
                self.execute(*self.late[self.chance.randrange(len(self.late))])


class Log:
    """The log as one replica sees it."""

    def __init__(self, store, name, faults=0.5):
        self.store, self.name, self.program, self.faults = store, name, PROGRAM, faults
        self.told = {}

    def look(self):
        self.store.some_late()
        if self.store.chance.random() < self.faults / 3:
            raise Down("no reading")
        return Look(self.store.head(), self.store.frozen, PROGRAM, "")

    def entry(self, number):
        return self.store.entries[number - 1]

    def append(self, head, entries):
        chance = self.store.chance.random()
        if chance > self.faults:
            return self.store.execute(head, entries)
        if chance < self.faults / 4:
            raise Down("not sent")
        if chance < self.faults / 2:
            self.store.execute(head, entries)
        elif chance < self.faults * 3 / 4:
            self.store.late.append((head, entries))
        raise Open("no answer")

    def others(self):
        return dict(self.told)


def change(until, name):
    head = {"domain": name, "who": "operator", "method": "PUT", "path": f"/operator/domains/{name}", "fields": []}
    return Change(head, b"", until)


def race(seed):
    """Three daemons append some changes each at the same time; what became of each, and the log."""
    store, changes = Store(random.Random(seed)), []

    def work(name):
        clock, log = Clock(), Log(store, name)
        appending = Appending(log, clock, lambda look: "now" * (store.chance.random() < 0.03),
                              lambda what: None)
        for number in range(4):
            # (some have time for two attempts alone)
            batch = [change(clock.now + 0.08, f"{name}{number}{place}") for place in range(1 + number % 2)]
            changes.extend(batch)
            appending.append(batch)
    threads = [threading.Thread(target=work, args=(name,)) for name in "abc"]
    for thread in threads:
        thread.start()
    for thread in threads:
        thread.join()
    for _ in range(50):
        store.some_late()
    return store, changes


def appending():
    """No change is twice in the log; an appended one is at its place; a refused one isn't there; the chain holds."""
    faults, counts = [], {"appended": 0, UNKNOWN: 0, UNAVAILABLE: 0, "late": 0}
    for seed in range(SEED, SEED + ROUNDS):
        store, changes = race(seed)
        ids = [entry.head["id"] for entry in store.entries]
        for one in changes:
            counts[one.fault or "appended"] += 1
            counts["late"] += one.fault == UNKNOWN and one.head["id"] in ids
            at = [number for number, name in enumerate(ids, 1) if name == one.head["id"]]
            if len(at) > 1 or one.number and at != [one.number] or one.fault == UNAVAILABLE and at:
                faults.append((seed, one.head["domain"], one.number, one.fault, at))
        names = [NAME, *(entry.name() for entry in store.entries)]
        if any(entry.head["prev"] != name or entry.number() != number
               for number, (entry, name) in enumerate(zip(store.entries, names), 1)):
            faults.append((seed, "the chain"))
    expect("what became of changes that three daemons append", faults[:3], [])
    expect("enough was tried", min(counts.values()) > 0, True)
    print(f"  {ROUNDS} races: {counts}", flush=True)


def refusing():
    """A frozen log and a missing quorum refuse at once; nothing is appended then."""
    store, said = Store(random.Random(1)), []
    clock, log = Clock(), Log(store, "a", faults=0)
    for reason in ("frozen", "no quorum"):
        one = change(clock.now + 4, "x")
        refusal = lambda look: reason * (look is not None or reason == "no quorum")  # noqa: E731, B023
        Appending(log, clock, refusal, said.append).append([one])
        expect(f"a change while there is {reason}", (one.fault, len(store.entries)), (UNAVAILABLE, 0))
    store.frozen = "by hand"
    one = change(clock.now + 4, "x")
    Appending(log, clock, lambda look: "", said.append).append([one])
    expect("a log that freezes between reading and writing", (one.fault, len(store.entries)), (UNKNOWN, 0))


def entry(number, prev, program=PROGRAM):
    return Entry({"n": number, "prev": prev, "program": program, "version": 1}, b"")


def applying():
    """The steps of an entry in their order, and what is refused."""
    steps = []
    applying = Applying(0, None, PROGRAM, lambda one: steps.append(("record", one.number())) or one,
                        lambda one, again: steps.append(("send", one.number(), again)))
    first = entry(1, NAME)
    second = entry(2, first.name())
    applying.apply(first)
    applying.apply(second)
    expect("steps", steps, [("record", 1), ("send", 1, False), ("record", 2), ("send", 2, False)])
    for what, wrong in (("one that was applied", second), ("one further on", entry(4, second.name())),
                        ("one of another log", entry(3, first.name())),
                        ("one of another program", entry(3, second.name(), "2" * 64))):
        try:
            applying.apply(wrong)
            found = "applied"
        except Wrong:
            found = "refused"
        expect(what, (found, applying.position, len(steps)), ("refused", 2, 4))
    third = entry(3, second.name())
    try:
        applying.finish(third, third.name(), "2" * 64)
        found = "applied"
    except Wrong:
        found = "refused"
    expect("one that was recorded for another program", (found, len(steps)), ("refused", 4))
    applying.finish(third, third.name(), PROGRAM)
    expect("one that was recorded before", (steps[-1], applying.position, applying.name),
           (("send", 3, True), 3, third.name()))


class Renewed:
    """A replica that is at entry 1 of a log of one entry, and its lease of 5 s. A registration takes a second."""

    def __init__(self):
        self.store, self.clock, self.is_registered = Store(random.Random(1)), Clock(), True
        self.store.execute(self.store.head(), [entry(1, NAME)])
        self.at, self.log = (1, self.store.head().name), Log(self.store, "a", faults=0)
        self.lease = Lease(self.log, self.clock, 5.0, self.register, lambda: self.at, self.is_applied)

    def register(self):
        self.clock.sleep(1.0)
        return self.is_registered

    def is_applied(self, number, seconds):
        self.clock.sleep(0.25)
        return self.at[0] >= number

    def renewed(self):
        """Whether a renewal gives a lease, where there was none."""
        self.lease.end()
        try:
            self.lease.renew()
        except Wrong:
            return "refused"
        return self.lease.is_valid()


def leases():
    """The lease counts from the beginning of the reading."""
    one = Renewed()
    began = one.clock.now
    one.lease.renew()
    expect("the lease of one that is level", (one.lease.until, one.lease.is_valid()), (began + 5.0, True))
    one.clock.sleep(3.74)
    expect("just before its end", one.lease.is_valid(), True)
    one.clock.sleep(0.02)
    expect("and behind it", one.lease.is_valid(), False)


class Leaping(Clock):
    """A clock that goes on by a second whenever it is read: what reads it stands still in between."""

    def time(self):
        self.now += 1.0
        return self.now

    monotonic = time


def lease_by_the_wall():
    """What HAProxy is told is never later than the lease's end, however long is between two looks at the clock."""
    one = Renewed()
    one.lease.clock, one.lease.until = Leaping(), 2_000.0
    expect("the end by the wall clock", one.lease.moment() <= 2_000.0, True)


def lease_is_refused():
    """None has a lease that isn't level, registered, has another program or another log, or is out."""
    one = Renewed()
    expect("one that is level", one.renewed(), True)
    one.store.execute(one.store.head(), [entry(2, one.store.head().name)])
    expect("one that isn't", one.renewed(), False)
    for what, place in (("a head that is behind", (3, None)), ("a head of another log", (2, NAME))):
        one.at = place
        expect(what, one.renewed(), "refused")
    one.at = (2, one.store.head().name)
    one.is_registered = False
    expect("one that isn't registered", one.renewed(), False)
    one.is_registered = True
    for what, program, frozen, out, wanted in (
            ("one of another program", "2" * 64, "", "", False), ("one that is out", PROGRAM, "", "it differs", False),
            ("one of another program while nothing is appended", "2" * 64, "an upgrade", "", True)):
        one.log.look = lambda found=(frozen, program, out): Look(one.store.head(), *found)
        expect(what, one.renewed(), wanted)


def waits_for(told, later=(), reads=True):
    """How long an acknowledgement waits, where replicas have told that, and then tell more (seconds, what)."""
    clock, log = Clock(), Log(Store(random.Random(1)), "a", faults=0)
    log.told, began, coming = dict(told), clock.now, list(later)

    def pause(seconds):
        clock.sleep(seconds)
        while coming and clock.now - began >= coming[0][0]:
            log.told = coming.pop(0)[1]
    if not reads:
        def down():
            raise Down("no reading")
        log.others = down
    Acknowledging(log, clock, 5.0, pause).wait(7, began)
    return clock.now - began


def acknowledging():
    """With ACK=all an answer waits until all have told, or have gone, or the lease is over by the slower clock."""
    level, behind, none = {"position": 7}, {"position": 6}, {}
    whole = 5.0 * 1.02 + 0.02
    for what, found, least, most in (
            ("all have it", waits_for({"a": behind, "b": level, "c": level}), 0, 0),
            ("nobody else is there", waits_for({"a": behind}), 0, 0),
            ("one tells later", waits_for({"b": level, "c": behind}, [(1, {"b": level, "c": level})]), 1, 1.2),
            ("one goes", waits_for({"b": level, "c": behind}, [(2, {"b": level})]), 2, 2.2),
            ("one never tells", waits_for({"b": level, "c": behind}), whole, whole + 0.1),
            ("one comes later, and reads the head behind the append",
             waits_for({"c": behind}, [(1, {"b": behind, "c": level})]), 1, 1.2),
            ("two tell one after another, and the first goes back",
             waits_for({"b": behind, "c": behind},
                       [(1, {"b": level, "c": behind}), (2, {"b": behind, "c": level})]), 2, 2.2),
            ("etcd can't be read", waits_for(none, reads=False), whole, whole + 0.1)):
        expect(f"{what}: {least} to {most} s", least <= found <= most + 1e-6, True)


def comparing():
    """Who differs from two others is named; of two that differ nobody is."""
    held, yes, no = Comparing(), [200, "{}"], [409, '{"Error":"Exists"}']
    expect("equal replies", [held.hear(name, 1, yes) for name in "abc"], [None] * 3)
    expect("two that differ", [held.hear("a", 2, yes), held.hear("b", 2, no).alone], [None, None])
    expect("a third one", held.hear("c", 2, yes).alone, "b")
    expect("the reply of another one", (held.first_reply(2) in (yes, no), held.first_reply(3)), (True, None))


def saying():
    """What is wrong is said once, however often another kind of thing is found to be well."""
    said = []
    one = Telling(None, 5.0, dict, said.append)
    for _ in range(3):
        one.wrong("log", "")
        one.wrong("entry", "another log")
    expect("what is said", (said, one.is_wrong()), (["another log"], "another log"))
    one.wrong("entry", "")
    expect("and at the end", (said[-1], one.is_wrong()), ("all is well again", ""))


PARTS = (appending, refusing, applying, leases, lease_by_the_wall, lease_is_refused, acknowledging, comparing, saying)
