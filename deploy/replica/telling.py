"""What replicas tell each other through etcd: how far each is, its first replies, and what is wrong with it."""
from __future__ import annotations

import contextlib
import json
import re
import threading
import time
from collections.abc import Callable

from log.server import REASONS

from .comparing import Comparing, Verdict
from .etcd import Down, Open, Refused, after
from .shared_log import SharedLog, shown_program

# how many replies are told at a time, and how long the text of one is
MOST_TOLD, MOST_TEXT = 200, 600
# how often the log is trimmed, in seconds; and how many entries stay if etcd holds more than so many bytes, a quarter
# of what its settings let it hold
TRIMMING, LEAST_TAIL, MOST_IN_USE = 10.0, 100, 512 << 20
NO_ANSWER = (Down, Open, Refused)
PHRASES = {**REASONS, 200: "OK", 201: "Created", 401: "Unauthorized", 403: "Forbidden", 409: "Conflict"}


def shown_reply(data: bytes) -> list:
    """The status and the body of a reply."""
    return [int(data[9:12]), data.partition(b"\r\n\r\n")[2].decode("latin-1")[:MOST_TEXT]]


def reply_of(shown: list) -> bytes:
    """A reply of that status and body."""
    status, text = shown
    shows = "WWW-Authenticate: Bearer\r\n" if status == 401 else ""
    return (f"HTTP/1.1 {status} {PHRASES.get(status, 'Error')}\r\nContent-Type: application/json\r\n{shows}"
            f"Content-Length: {len(text.encode('latin-1'))}\r\n\r\n{text}").encode("latin-1")


def news_in(told: dict) -> tuple:
    """What is told at once where it changes."""
    return tuple(told.get(name) for name in ("position", "room", "wrong", "stands", "has_lease", "led"))


class Telling:
    """What this replica tells under its registration, and what others have told."""

    def __init__(self, log: SharedLog, lease: float, told: Callable[[], dict], say: Callable[[str], None]):
        self.log, self.seconds, self.told, self.say = log, lease, told, say
        self.changed, self.comparing = threading.Condition(), Comparing()
        self.others: dict[str, dict] = {}
        self.unreported: list[list] = []
        self.reasons: dict[str, str] = {}
        self.lease, self.trimming, self.is_silent = 0, 0.0, False
        # of which question whether an entry is skipped this replica has taken note, so that it doesn't send it
        self.stands = ""
        self.reporting = threading.Lock()

    def wrong(self, kind: str, what: str) -> None:
        """Notes what is wrong of that kind, which is said once and told with the registration; nothing where all is
        well."""
        if what != self.reasons.get(kind, ""):
            self.reasons[kind] = what
            self.say(what or self.is_wrong() or "all is well again")
            with self.changed:
                self.changed.notify_all()

    def is_wrong(self) -> str:
        """What is wrong; empty where nothing is."""
        return next(filter(None, self.reasons.copy().values()), "")

    def other_program(self, program: str) -> str:
        return (f"the log is of the program {shown_program(program)}, and this machine has "
                f"{shown_program(self.log.program)}: all machines have to run the same one")

    def stands_still(self, question: str) -> None:
        with self.changed:
            self.stands = question
            self.changed.notify_all()

    def wait(self, seconds: float) -> None:
        """Waits for so long, or until a replica has told more."""
        with self.changed:
            self.changed.wait(seconds)

    # ---- what this one tells

    def register(self) -> bool:
        """Renews the registration, which lasts for two leases; not that of one that is silent."""
        if self.is_silent or self.lease and self.log.etcd.renew(self.lease):
            return not self.is_silent
        self.lease = 0
        lease = self.log.etcd.grant(int(2 * self.seconds) + 1)
        self.report(lease)
        self.lease = lease
        return True

    def tell(self, number: int, reply: list, is_again: bool) -> None:
        """Tells that an entry is applied, and how it was answered if it was applied once."""
        with self.changed:
            if not is_again:
                self.unreported.append([number, *reply])
            self.changed.notify_all()
        if not is_again:
            self.heard(self.log.name, number, reply)

    def report(self, lease: int) -> dict:
        with self.reporting:
            replies = self.unreported[:MOST_TOLD]
            said = {**self.told(), "replies": replies, "wrong": self.is_wrong()}
            self.log.etcd.put(self.log.replicas + self.log.name.encode(), json.dumps(said).encode(), lease)
            with self.changed:
                del self.unreported[:len(replies)]
        return said

    def report_for_ever(self) -> None:
        """Tells each change of what there is to tell."""
        last = None
        while True:
            with self.changed:
                self.changed.wait_for(lambda: self.unreported or self.news() != last, 2.0)
            if not self.lease:
                time.sleep(0.1)
                continue
            try:
                said = self.report(self.lease)
                last = news_in(said)
            except NO_ANSWER:
                time.sleep(0.1)

    def news(self) -> tuple:
        return news_in({**self.told(), "wrong": self.is_wrong()})

    def leave(self) -> None:
        """Gives the registration back: nobody waits for this replica any more, which answers nothing."""
        self.is_silent, lease, self.lease = True, self.lease, 0
        with self.reporting, contextlib.suppress(*NO_ANSWER):
            if lease:
                self.log.etcd.revoke(lease)

    # ---- what others tell

    def hear_for_ever(self) -> None:
        end = after(self.log.replicas)
        while True:
            with contextlib.suppress(*NO_ANSWER):
                self.others = self.log.others()
                for name, told in self.others.items():
                    self.take(name, told)
            for events in self.log.etcd.events(self.log.replicas, end):
                for key, value in events:
                    self.take(key[len(self.log.replicas):].decode(), json.loads(value) if value else None)
            time.sleep(0.1)

    def take(self, name: str, told: dict | None) -> None:
        """Notes what a replica tells; None where its registration is gone."""
        others = {who: one for who, one in self.others.items() if who != name}
        self.others = others if told is None else {**others, name: told}
        for number, *reply in (told or {}).get("replies", ()) if name != self.log.name else ():
            self.heard(name, number, reply)
        with self.changed:
            self.changed.notify_all()

    def heard(self, name: str, number: int, reply: list) -> None:
        if verdict := self.comparing.hear(name, number, reply):
            self.say(f"ALARM: {verdict.shown()}")
            self.judge(verdict)

    def judge(self, verdict: Verdict) -> None:
        """Has the log say so."""
        for _ in range(20):
            try:
                return self.log.judge(verdict)
            except NO_ANSWER:
                time.sleep(0.2)

    # ---- trimming

    def trim(self, tail: int) -> None:
        """The first of the registered replicas drops entries that all of them have applied, but for the last ones: for
        fewer, if etcd holds much. Each has them in its archive."""
        now = time.monotonic()
        if not tail or now < self.trimming or not self.others or min(self.others) != self.log.name:
            return
        self.trimming = now + TRIMMING
        if self.log.etcd.bytes_in_use() > MOST_IN_USE:
            tail = min(tail, LEAST_TAIL)
        number = min(told["position"] for told in self.others.values()) - tail
        held = self.log.etcd.get(self.log.trimmed) or b"0"
        if number > int(held if re.fullmatch(rb"\d{1,16}", held) else 0):
            self.log.trim(number)
            self.say(f"entries up to {number} are dropped from etcd")
