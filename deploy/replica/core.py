"""What the promises rest on: appending, applying, the lease, and when a change is acknowledged.

It stands as close as it can to the models in tests/model/replicas, which are checked exhaustively: whoever changes
one of these changes the other, too. It knows nothing of sockets and threads; the rest of the daemon gives it what it
calls.
"""
from __future__ import annotations

import threading
import uuid
from collections.abc import Callable
from typing import Protocol

from .clocks import Clock, Machine
from .etcd import Down, Open, Refused
from .shared_log import LONGEST_BODY, LONGEST_ENTRY, VERSION, Entry, Head, Look, Wrong, shown_program

# of how much and of how many changes one transaction is made: etcd takes 1.5 MiB and 128 operations
MOST_BYTES, MOST_CHANGES = 1_000_000, 60
# how long an append is tried, and how long is waited between two attempts, in seconds
APPENDING, PAUSE = 4.0, 0.05
# how often the head is read, and for how long the same isn't said again, in seconds
EVERY, QUIET = 0.5, 10.0
# by how much two machines' clocks may differ in speed, and what else a lease may be late, in seconds
DRIFT, LATE = 1.02, 0.02


class Log(Protocol):
    """What the log in etcd is asked for (shared_log.SharedLog)."""
    name: str
    program: str

    def look(self) -> Look: ...
    def entry(self, number: int) -> Entry | None: ...
    def append(self, head: Head, entries: list[Entry]) -> bool: ...
    def others(self) -> dict[str, dict]: ...


# ---- appending (append.pml)

class Change:
    """A change that is to be appended. `number` is its entry's, once it is known to be appended; else `fault` says
    what became of it."""

    def __init__(self, head: dict, body: bytes, until: float):
        self.head, self.body, self.until = {**head, "id": uuid.uuid4().hex}, body, until
        self.done, self.number, self.fault = threading.Event(), 0, ""

    def size(self) -> int:
        """How many bytes its entry has at the most."""
        return len(self.body) + LONGEST_ENTRY - LONGEST_BODY

    def end(self, number: int, fault: str = "") -> None:
        self.number, self.fault = number, fault
        self.done.set()


# what became of a change that has no number: it wasn't appended and won't be; or nobody knows
UNAVAILABLE, UNKNOWN = "unavailable", "unknown"


class Appending:
    """Appends changes by compare-and-swap on the head. The fate of an attempt that etcd hasn't confirmed is open; the
    head settles it: once it has moved, the attempt was made, or can't be made any more."""

    def __init__(self, log: Log, clock: Clock, refusal: Callable[[Look | None], str], say: Callable[[str], None]):
        """`refusal` tells why no change is taken now, before the log was read and by what it shows; empty where one
        is."""
        self.log, self.clock, self.refusal, self.say, self.last = log, clock, refusal, say, 0.0
        self.said = ("", 0.0)  # why no change was taken, and when that was said

    def append(self, changes: list[Change]) -> None:
        """Brings each of these changes to its end, all of them in one transaction."""
        attempt, until = 0, max(change.until for change in changes)  # attempt: the first entry's number, if one is open
        while self.clock.monotonic() < until and (attempt or not self.is_refused(None)):
            try:
                look = self.log.look()
                if attempt and look.head.number >= attempt:
                    if self.is_there(attempt, changes[0]):
                        return self.succeed(changes, attempt)
                    attempt = 0
                if attempt:
                    self.clock.sleep(PAUSE)
                elif self.is_refused(look):
                    break
                if self.log.append(look.head, self.entries(look.head, changes)):
                    return self.succeed(changes, look.head.number + 1)
                # it wasn't made: the fate of those before is open, and that of this one is like theirs
                attempt = attempt or look.head.number + 1
            except Open as fault:
                attempt = attempt or look.head.number + 1
                self.say(f"the fate of an append is open: {fault}")
            except (Down, Refused):
                self.clock.sleep(PAUSE)
        for change in changes:
            change.end(0, UNKNOWN if attempt else UNAVAILABLE)

    def is_refused(self, look: Look | None) -> bool:
        reason, now = self.refusal(look), self.clock.monotonic()
        if reason and (reason != self.said[0] or now > self.said[1] + QUIET):
            self.said = reason, now
            self.say(f"no change is taken: {reason}")
        return bool(reason)

    def entries(self, head: Head, changes: list[Change]) -> list[Entry]:
        """The entries of changes behind a head; each names the one before it."""
        found = []
        for change in changes:
            self.last = max(self.last, round(self.clock.time(), 6))
            found.append(Entry({**change.head, "version": VERSION, "n": head.number + 1, "prev": head.name,
                                "by": self.log.name, "program": self.log.program, "appended": self.last}, change.body))
            head = Head(head.number + 1, found[-1].name())
        return found

    def is_there(self, number: int, change: Change) -> bool:
        found = self.log.entry(number)
        if found is None:
            raise Down(f"entry {number} is gone")
        return found.head["id"] == change.head["id"]

    def succeed(self, changes: list[Change], first: int) -> None:
        for place, change in enumerate(changes):
            change.end(first + place)


# ---- applying (apply.pml)

class Applying:
    """Applies one entry after another. An entry is recorded, on the disk, before it is sent to pdpd, and its reply
    before the next one is recorded: so at most one entry is in doubt after any end, and it is sent once more before
    any other."""

    def __init__(self, position: int, name: str | None, program: str, record: Callable[[Entry], object],
                 send: Callable[[object, bool], object]):
        """`position` is the last entry that has its reply, of that name (None: of none, the log's beginning is
        right). `record` has an entry on the disk and gives its record; `send` sends that until pdpd has answered it,
        has the reply on the disk, and gives it; its second argument says whether the entry may have been sent
        before."""
        self.position, self.name, self.program, self.record, self.send = position, name, program, record, send

    def finish(self, recorded: object, name: str, program: str) -> object:
        """The reply to the entry that was recorded for a program and has none: nobody knows whether it was sent."""
        self.refuse_program(self.position + 1, program)
        reply = self.send(recorded, True)
        self.position, self.name = self.position + 1, name
        return reply

    def apply(self, entry: Entry) -> object:
        """The reply to the next entry; an error where it isn't the next one."""
        self.refuse_other(entry)
        reply = self.send(self.record(entry), False)
        self.position, self.name = entry.number(), entry.name()
        return reply

    def refuse_other(self, entry: Entry) -> None:
        number, prev = entry.number(), entry.head["prev"]
        if number != self.position + 1 or self.name is not None and prev != self.name:
            raise Wrong(f"entry {number} follows {prev[:12]}, and entry {self.position} here is "
                        f"{(self.name or '-')[:12]}: it is another log, or another store: make this replica anew (pdpd-replicas join)")
        self.refuse_program(number, entry.head["program"])

    def refuse_program(self, number: int, program: str) -> None:
        if program != self.program:
            raise Wrong(f"entry {number} is of the program {shown_program(program)}, and this machine has "
                        f"{shown_program(self.program)}: all machines have to run the same one")


# ---- the lease (lease.pml)

class Lease:
    """Until when this replica answers: a lease's length from the moment at which it began to read the head, once it
    has applied that entry."""

    def __init__(self, log: Log, clock: Clock, seconds: float, register: Callable[[], bool],
                 at: Callable[[], tuple[int, str | None]], is_applied: Callable[[int, float], bool],
                 last_led: Callable[[], int] = lambda: 0):
        """`register` renews what the replica tells of itself, and says whether it does; `at` gives its position and the
        name of that entry; `is_applied` waits, for so long at the most, until an entry is applied, and tells whether it
        is; `last_led` is the change of the map of all groups by which this machine leads domains."""
        self.log, self.clock, self.seconds, self.register, self.at = log, clock, seconds, register, at
        self.is_applied, self.last_led, self.until = is_applied, last_led, float("-inf")

    def renew(self) -> Look:
        """Renews the lease, if this replica has caught up; what the log shows. An error where it isn't the log of
        what was applied here."""
        began, (position, name) = self.clock.monotonic(), self.at()
        is_registered = self.register()
        look = self.log.look()
        if look.head.number < position or look.head.number == position and name not in (None, look.head.name):
            raise Wrong(f"the log ends with entry {look.head.number} ({look.head.name[:12]}), and entry {position} "
                        f"({(name or '-')[:12]}) was applied here: etcd was put back. Nothing is answered until its log "
                        "has that entry again (pdpd-replicas push)")
        # (while nothing is appended another program may decide by what the right one has applied: an upgrade)
        is_right = (look.program == self.log.program or bool(look.frozen)) and look.led <= self.last_led()
        if look.out:
            self.end()
        elif is_registered and is_right and self.is_applied(look.head.number, EVERY):
            self.until = max(self.until, began + self.seconds)
        return look

    def end(self) -> None:
        self.until = float("-inf")

    def moment(self) -> float:
        """Its end by the wall clock. That is read first: what stands still in between makes the lease shorter."""
        now = self.clock.time()
        return now + (self.until - self.clock.monotonic())

    def is_valid(self) -> bool:
        return self.clock.monotonic() < self.until


# ---- acknowledging (lease.pml)

class Acknowledging:
    """Waits, with ACK=all, until no replica answers without an entry: each that is registered behind the append has
    told that it has applied it, or has gone; or the lease is over that it can have had."""

    def __init__(self, log: Log, clock: Clock, seconds: float, pause: Callable[[float], None]):
        """`pause` waits for so long, or until a replica has told more."""
        self.log, self.clock, self.seconds, self.pause = log, clock, seconds, pause

    def wait(self, number: int, committed: float) -> None:
        """`committed` is when this machine knew that the entry was appended, by its own clock."""
        end, waits = committed + self.seconds * DRIFT + LATE, None
        while self.clock.monotonic() < end:
            found = self.without(number)
            if found is not None:
                waits = found if waits is None else waits & found
                if not waits:
                    return
            self.pause(min(0.1, max(0.0, end - self.clock.monotonic())))

    def without(self, number: int) -> set[str] | None:
        """The registered replicas that haven't told that they have applied an entry; None where that can't be read."""
        try:
            found = self.log.others()
        except (Down, Refused):
            return None
        return {name for name, told in found.items()
                if name != self.log.name and told["position"] < number}


CLOCK: Clock = Machine()
