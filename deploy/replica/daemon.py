"""pdpd-replica with REPLICAS: changes are appended to the log in etcd, and the log is applied to this machine's
pdpd."""
from __future__ import annotations

import collections
import json
import pathlib
import re
import signal
import threading
import time
from collections.abc import Callable

from log.abandoned import is_any_left
from log.archive import NoRoom, read_from
from log.daemon import APPLIED, EXIT_BROKEN, UNAVAILABLE, UNKNOWN, Daemon
from log.domains import Forgotten
from log.history import Change as Archived
from log.messages import Message, entry_of, route_of
from log.pdpd import Reply
from log.record import Damaged, Record

from . import core
from .batches import Batches
from .clocks import steps
from .etcd import Down, Open, Refused
from .groups import Follows
from .leases import Leases
from .running import Running
from .shared_log import OF_MESSAGE, SKIPPED, Entry, SharedLog, Wrong
from .telling import Telling, reply_of, shown_reply

# how long after the last answer of etcd's quorum changes are tried, in seconds
SILENT = 3.0
# of how many entries replies are held for their clients, and how long a first one of another replica is waited for
MOST_REPLIES, FIRST = 512, 3.0
# how long nothing is applied once that was asked for, and how long that is waited for, in seconds
HELD, PATIENCE = 30.0, 10.0
NO_ANSWER = (Down, Open, Refused)
NEVER = float("-inf")
# the file of an archive that has the name of the log of which it is the beginning
BEGINS = "begins"
# what the archive has of an entry, its body in the clear, and whether it is skipped
Recorded = tuple[Record, bytes, bool]


def is_of_state(reply: bytes | None) -> bool:
    """Whether another state may give another reply: to whom it says that he may not make the change."""
    return reply is not None and reply[9:12] in (b"401", b"403")


def name_in(folder: pathlib.Path) -> str:
    """The name of the log of which this archive is the beginning."""
    try:
        found = read_from(folder / BEGINS, 0, 100).decode("ascii").strip()
    except (OSError, ValueError, Damaged):
        found = ""
    if not re.fullmatch("[0-9a-f]{64}", found):
        raise Wrong("nothing was applied here, and nothing says that this store is what the log begins with: "
                    "pdpd-replicas init; a shard that was lost is taken from another machine (pdpd-replicas join)")
    return found


class Replica(Daemon):
    """One shard's changes on one of several machines."""

    def __init__(self, *given, log: SharedLog, leases: Leases, running: Running, lease: float, ack: str, goes_on: bool,
                 tail: int, follows: Follows | None = None, **more):
        super().__init__(*given, **more)
        self.log, self.leases, self.goes_on, self.ack, self.tail = log, leases, goes_on, ack, tail
        self.follows = follows
        self.running = running
        self.waiting = Batches()
        self.applied, self.wake = threading.Condition(), threading.Event()
        self.answered: collections.OrderedDict[int, tuple[bytes, bool]] = collections.OrderedDict()
        self.head, self.is_out, self.is_next_skipped = 0, False, False
        self.turn, self.held_until = threading.Lock(), 0.0
        self.telling_proxy, self.is_leaving = threading.Lock(), False
        position, name = self.archive.position, self.name_of(self.archive.last)
        self.applying = core.Applying(position, name, log.program, self.record, self.answer_to)
        self.telling = Telling(log, lease, self.told, self.say)
        self.appending = core.Appending(log, core.CLOCK, self.why_none, self.say)
        self.lease = core.Lease(log, core.CLOCK, lease, self.telling.register, self.at, self.is_applied, self.last_led)
        self.acknowledging = core.Acknowledging(log, core.CLOCK, lease, self.telling.wait)

    def name_of(self, record: Record | None) -> str | None:
        """The name that an archived entry has in the log."""
        if record is None:
            return None
        if "log" not in record.head:
            raise Damaged(f"{self.archive.folder} is the archive of one machine alone, and of no log in etcd: begin "
                          "with an empty store and an empty archive, or give this machine those of another replica (join)")
        return record.head["log"]["name"]

    def at(self) -> tuple[int, str | None]:
        """The last entry that is applied, and its name; an error where nothing is, and nothing says that the store is
        what the log begins with."""
        with self.applied:
            if self.applying.name is None:
                self.applying.name = name_in(self.archive.folder)
            return self.applying.position, self.applying.name

    # ---- the map of all groups

    def last_led(self) -> int:
        """By which change of it this machine leads domains; 0 where there is one group."""
        return self.follows.last() if self.follows else 0

    def is_others(self, message: Message, domain: str) -> bool:
        """Whether a message makes a domain that is in another group or shard, or whose place can't be asked for."""
        makes = message.method == "PUT" and message.path().startswith("/operator/domains/")
        return makes and self.follows is not None and not self.follows.is_taken(domain)

    # ---- a client's change

    def reply_to(self, message: Message) -> bytes:
        asks = {"/figures": self.figures, "/hold": self.hold, "/go": self.go}
        if message.method == "GET" and message.target in asks:
            return asks[message.target]()
        domain, who = route_of(message) or ("", None)
        # (who may make a change is said by the state, as what is decided)
        may_answer = self.goes_on or self.lease.is_valid()
        refused = self.refusal(message, who)
        if refused is not None or who is None:
            return UNAVAILABLE if not may_answer and is_of_state(refused) else refused or UNAVAILABLE
        if self.is_others(message, domain):
            return UNAVAILABLE
        change = core.Change(*entry_of(message, domain, who), core.CLOCK.monotonic() + core.APPENDING)
        self.waiting.add(change)
        change.done.wait()
        if change.fault:
            return UNAVAILABLE if change.fault == core.UNAVAILABLE else UNKNOWN
        committed = core.CLOCK.monotonic()
        self.wake.set()
        with self.applied:
            self.applied.wait_for(lambda: change.number in self.answered, APPLIED)
            reply, is_again = self.answered.get(change.number, (UNKNOWN, False))
        if reply is UNKNOWN:
            return reply
        if self.ack == "all":
            self.acknowledging.wait(change.number, committed)
        if is_again:
            reply = self.first_reply(change.number)
        return reply.replace(b"\r\n", b"\r\nX-Entry: %d\r\n" % change.number, 1)

    def first_reply(self, number: int) -> bytes:
        """The reply to an entry that may have been applied here twice: that of a replica that has applied it once."""
        end = time.monotonic() + FIRST
        while time.monotonic() < end:
            if found := self.telling.comparing.first_reply(number):
                return reply_of(found)
            self.telling.wait(0.1)
        return UNKNOWN

    def has_quorum(self) -> bool:
        return time.monotonic() - self.log.etcd.last_answer < SILENT

    def why_none(self, look: core.Look | None) -> str:
        """Why no change is taken now."""
        if look is None:
            return "" if self.has_quorum() else "etcd has no quorum"
        if look.frozen:
            return f"the log is frozen ({look.frozen})"
        if look.out or look.program != self.log.program:
            return look.out or self.telling.other_program(look.program)
        if look.led > self.last_led():
            return self.unled(look)
        if lacking := [name for name, told in self.telling.others.items() if not told.get("room", True)]:
            return f"the disk of {', '.join(sorted(lacking))} has less room than ROOM"
        return "" if self.archive.room() >= self.room else f"the disk has less than {self.room} bytes left (ROOM)"

    def unled(self, look: core.Look) -> str:
        return (f"domains are led by change {self.last_led()} of the map of all groups here, and have to be by "
                f"{look.led}: pdpd-map isn't there, or can't ask the first group's etcd")

    def append_for_ever(self) -> None:
        while True:
            batch = self.waiting.next_batch()
            try:
                self.appending.append(batch)
            except Wrong as fault:
                self.say(str(fault))
            finally:
                for one in batch:
                    if not one.done.is_set():
                        one.end(0, core.UNKNOWN)

    # ---- applying

    def record(self, entry: Entry) -> Recorded:
        """Has an entry in the archive, on the disk."""
        head = {name: entry.head[name] for name in OF_MESSAGE}
        of_log = {name: value for name, value in entry.head.items() if name not in OF_MESSAGE}
        while True:
            try:
                more, data = self.keeping.as_kept(head["domain"], entry.number(), entry.body)
                head = {**head, **more, "log": {**of_log, "name": entry.name()}}
                return self.archive.add_entry(head, data), entry.body, entry.is_skipped
            except (NoRoom, OSError, Forgotten) as fault:
                # no lease is had meanwhile, since this replica isn't level
                self.say(f"entry {entry.number()} can't be kept: {fault}")
                time.sleep(1)

    def answer_to(self, recorded: Recorded, is_again: bool) -> None:
        """Has pdpd answer an entry, and keeps the reply for its client and for the others."""
        record, body, self.is_next_skipped = recorded
        reply = self.apply(record, body, is_again)
        was_again = self.archive.was_again
        with self.applied:
            self.answered[record.head["n"]] = reply, was_again
            if len(self.answered) > MOST_REPLIES:
                self.answered.popitem(last=False)
        self.telling.tell(record.head["n"], shown_reply(reply), was_again)

    def sent(self, head: dict, body: bytes, is_again: bool) -> tuple[Reply, bool]:
        return (Reply(503, UNAVAILABLE), False) if self.is_next_skipped else super().sent(head, body, is_again)

    def is_skipped(self, number: int) -> bool:
        """Whether an entry is skipped. Nothing is sent while that is asked for, nor while the log can't be read."""
        while True:
            try:
                said = self.log.skip(number)
            except NO_ANSWER:
                time.sleep(0.2)
                continue
            if not said.startswith("asked "):
                self.telling.stands_still("")
                return said == SKIPPED
            if self.is_settled():
                self.telling.stands_still(said.removeprefix("asked "))
            time.sleep(0.1)

    def is_settled(self) -> bool:
        """Whether no message is under way at pdpd whose sender has gone. One that takes no connections any more may
        still answer what it has."""
        return not is_any_left(self.pdpd, self.user)

    def refuse_program(self) -> None:
        self.running.refuse_other()

    def is_applied(self, number: int, seconds: float) -> bool:
        """Whether an entry is applied, at the latest after so long."""
        self.head = max(self.head, number)
        if self.applying.position < number:
            self.wake.set()
        with self.applied:
            return self.applied.wait_for(lambda: self.applying.position >= number, seconds)

    def apply_for_ever(self) -> None:
        if self.archive.pending:
            self.say(f"entry {self.archive.pending.head['n']} is sent again: it has no reply yet")
        while pending := self.archive.pending:
            self.finish(pending)
        self.say(f"at entry {self.applying.position}")
        while True:
            self.wake.clear()
            try:
                entries = [] if self.is_out else self.log.entries(self.at()[0] + 1)
                for entry in entries:
                    self.apply_next(entry)
            except NO_ANSWER:
                self.wake.wait(0.1)
                continue
            except Wrong as fault:
                self.telling.wrong("entry", str(fault))
                time.sleep(1)
                continue
            self.telling.wrong("entry", "")
            if not entries:
                self.wake.wait(core.EVERY)

    def finish(self, pending: Record) -> None:
        """Has the entry answered that was recorded before."""
        name, body = self.name_of(pending), Archived(pending, None, self.archive.folder).body()
        try:
            with self.turn:
                self.applying.finish((pending, body, False), name, pending.head["log"]["program"])
        except Wrong as fault:
            self.telling.wrong("entry", str(fault))
            time.sleep(1)

    # ---- between two entries

    def apply_next(self, entry: Entry) -> None:
        """Applies an entry, once nobody holds that up."""
        while True:
            with self.turn:
                if time.monotonic() >= self.held_until:
                    self.applying.apply(entry)
                    break
            time.sleep(0.05)
        with self.applied:
            self.applied.notify_all()

    def hold(self) -> bytes:
        """Applies nothing for a while, from now on; where it is. (The lease ends by itself if changes come.)"""
        self.held_until = time.monotonic() + HELD
        if not self.turn.acquire(timeout=PATIENCE):
            self.held_until = 0.0
            return UNAVAILABLE
        self.turn.release()
        return self.figures()

    def go(self) -> bytes:
        self.held_until = 0.0
        return self.figures()

    # ---- the lease

    def renew_for_ever(self) -> None:
        while True:
            began = time.monotonic()
            if other := self.running.other():
                self.say(f"{other}: it begins anew by that one")
                self.leave()
            try:
                self.renew()
            except NO_ANSWER:
                # (a HAProxy that has begun meanwhile knows of no lease)
                if self.lease.until > NEVER:
                    self.tell_proxy()
            except Wrong as fault:
                self.telling.wrong("log", str(fault))
            time.sleep(max(0.02, core.EVERY - (time.monotonic() - began)))

    def renew(self) -> None:
        look = self.lease.renew()
        self.is_out = bool(look.out)
        is_right = look.program == self.log.program or look.frozen
        self.telling.wrong("log", look.out or ("" if is_right else self.telling.other_program(look.program)))
        self.telling.wrong("map", self.unled(look) if look.led > self.last_led() else "")
        if not self.is_out:
            self.telling.is_silent = False
        if self.tell_proxy() and self.is_out and self.leases.are_over(self.lease.seconds):
            self.telling.leave()
        self.telling.trim(self.tail)

    def watch_clock_for_ever(self) -> None:
        """Tells HAProxy anew where the wall clock was set, also while etcd can't be asked."""
        for step in steps(core.CLOCK):
            if step:
                self.say(f"the clock was set by {step:+.2f} s: have it slewed, not set")
                self.tell_proxy()

    def tell_proxy(self) -> bool:
        """Tells HAProxy until when this machine may answer; whether it knows."""
        with self.telling_proxy:
            until = NEVER if self.is_leaving or self.is_out else self.lease.moment()
            return self.leases.tell(until, self.goes_on and until > NEVER)

    def told(self) -> dict:
        """What this replica tells of itself."""
        settings = [self.lease.seconds, self.ack, self.goes_on]
        with self.applied:
            return {"position": self.applying.position, "name": self.applying.name, "program": self.log.program,
                    "room": self.archive.room() >= self.room, "head": self.head, "at": round(time.time(), 3),
                    "settings": settings, "stands": self.telling.stands, "has_lease": self.lease.is_valid(),
                    "led": self.last_led()}

    def figures(self) -> bytes:
        head, _, body = super().figures().partition(b"\r\n\r\n")
        held = {**json.loads(body), **self.told(), "lease": round(self.lease.until - core.CLOCK.monotonic(), 3)
                if self.lease.is_valid() else 0, "wrong": self.telling.is_wrong(),
                "quorum": int(self.has_quorum())}
        body = json.dumps(held).encode()
        return b"HTTP/1.1 200 OK\r\nContent-Type: application/json\r\nContent-Length: %d\r\n\r\n%s" % (len(body), body)

    # ---- its life

    def start(self) -> None:
        works = (self.append_for_ever, self.apply_for_ever, self.renew_for_ever, self.telling.report_for_ever,
                 self.telling.hear_for_ever, self.watch_for_ever, self.watch_clock_for_ever)
        for work in works:
            threading.Thread(target=self.guarded, args=(work,), daemon=True).start()
        signal.signal(signal.SIGTERM, lambda *_: threading.Thread(target=self.leave).start())

    def guarded(self, work: Callable[[], None]) -> None:
        """Ends the daemon where one of its threads fails: it is started again, and goes by what is on the disk."""
        try:
            work()
        except BaseException as fault:  # noqa: BLE001 (changes wait for each of them)
            self.say(f"it ends by {fault!r}")
            self.end(EXIT_BROKEN)

    def watch_for_ever(self) -> None:
        """Wakes who applies once the head has moved; what counts is read anew."""
        while True:
            for _ in self.log.etcd.events(self.log.head, self.log.head + b"\0"):
                self.wake.set()
            time.sleep(0.1)

    def leave(self) -> None:
        """Ends in good order: this machine answers nothing any more, and then nobody waits for it. (Where a HAProxy of
        before may still answer, its lease ends by itself.)"""
        self.is_leaving = True
        if self.tell_proxy() and self.leases.are_over(self.lease.seconds):
            self.telling.leave()
        self.end(0)
