"""Takes the changes of one shard: each is appended to the archive, applied to pdpd, and answered with pdpd's reply."""
from __future__ import annotations

import collections
import json
import os
import pathlib
import sys
import threading
import time
from collections.abc import Callable

from .archive import Archive, Broken, NoRoom, Removed, segments_in
from .domains import Forgotten
from .history import Change
from .keeping import Keeping
from .messages import Message, bytes_of, bytes_of_entry, entry_of, is_one_of, route_of, token_in
from .pdpd import Another, Lost, NotSent, Reply, replies
from .record import Record
from .server import answer

# How long a change waits for its turn, and then for its reply; both are less than HAProxy waits for the daemon.
TURN, APPLIED = 10.0, 10.0
# how long pdpd has for one message: the dearest change takes less than a second
LONGEST = 60.0
# how long a question to pdpd is tried whether somebody may make a change
ASKED = 3.0
UNAVAILABLE, UNKNOWN = answer(503, "Unavailable"), answer(504, "Unknown")
EXIT_BROKEN = 4


class Waiting:
    """A change that waits: for its turn, then for its reply."""

    def __init__(self, head: dict, body: bytes):
        self.head, self.body, self.done = head, body, threading.Event()
        self.reply = UNAVAILABLE

    def end(self, reply_bytes: bytes) -> None:
        self.reply = reply_bytes
        self.done.set()


class Turns:
    """Changes that wait for their turn, in order. Nothing is held of one that is withdrawn."""

    def __init__(self) -> None:
        self.held: collections.deque[Waiting] = collections.deque()
        self.lock = threading.Condition()

    def __len__(self) -> int:
        return len(self.held)

    def add(self, change: Waiting) -> None:
        with self.lock:
            self.held.append(change)
            self.lock.notify()

    def next(self) -> Waiting:
        """Takes the first one, once there is one."""
        with self.lock:
            while not self.held:
                self.lock.wait()
            return self.held.popleft()

    def withdraw(self, change: Waiting) -> bool:
        """Whether it had no turn yet, and gets none."""
        with self.lock:
            if change not in self.held:
                return False
            self.held.remove(change)
            return True


class Daemon:
    """The changes of one shard."""

    def __init__(self, archive: Archive, pdpd: str, token_file: pathlib.Path, room: int,
                 end: Callable[[int], None] = os._exit, user: int | None = None):
        """`pdpd` is its address for changes, and `user` whose program takes connections there; anybody's, if none is
        given."""
        self.archive, self.pdpd, self.token_file, self.room, self.end = archive, pdpd, token_file, room, end
        self.user = user
        self.other: int | None = None
        self.keeping = Keeping(archive, self.say)
        self.waiting = Turns()
        self.asking = threading.Lock()

    def say(self, what: str) -> None:
        print(f"pdpd-replica: {what}", file=sys.stderr, flush=True)

    def operators(self) -> list[str]:
        """The operator's tokens: of several lines pdpd knows the first one that it was started with."""
        try:
            lines = self.token_file.read_text(encoding="ascii").splitlines()
        except (OSError, ValueError) as fault:
            self.say(f"{self.token_file} can't be read: {fault}")
            return []
        return [line.strip() for line in lines if line.strip()]

    def replies(self, data: bytes, count: int) -> list[Reply]:
        """pdpd's replies. Another user's program in its place is sent nothing: it would be shown tokens, and answer for
        it."""
        other = None
        try:
            return replies(self.pdpd, data, count, LONGEST, self.user, self.refuse_program)
        except Another as fault:
            other = fault.uid
            raise
        finally:
            if other != self.other:
                self.other = other
                self.say(f"{self.pdpd} is pdpd's own again" if other is None else
                         f"a program of user {other} has {self.pdpd}: nothing is sent there")

    def refuse_program(self) -> None:
        """A NotSent where the program isn't the one that it has to be. (One machine alone may have any.)"""

    # ---- who may make a change

    def refusal(self, message: Message, who: str | None) -> bytes | None:
        """The reply to who may not make the change, which is appended nowhere; None where he may.

        pdpd itself says so. It is sent the message's head without a token, which changes nothing: any answer but 401
        is the one to give. Then it is asked for a policy with the token that was shown: 401 and 403 are as they would
        be for the change. The operator's token is compared here.
        """
        kind = [[name, value] for name, value in message.fields if name == "content-type"]
        shown = [["authorization", value] for value in message.shown()]
        parts = [bytes_of(message.method, message.target, kind, b"", is_last=who != "admin")]
        if who == "admin":
            domain = message.path().split("/")[2]
            parts.append(bytes_of("GET", f"/domains/{domain}/pap/policy/-/0", shown, b"", is_last=True))
        found = self.asked(b"".join(parts), len(parts))
        if found is None:
            return UNAVAILABLE
        if found[0].status != 401:
            return found[0].data
        if who is None:
            return answer(404, "NoRoute")
        if who == "operator":
            known = self.operators()
            return None if is_one_of(token_in(message.shown()), known) else found[0].data if known else UNAVAILABLE
        return None if found[1].status in (200, 404) else found[1].data

    def asked(self, data: bytes, count: int) -> list[Reply] | None:
        """pdpd's replies to messages that change nothing; None where it gives none."""
        end = time.monotonic() + ASKED
        while time.monotonic() < end:
            try:
                with self.asking:
                    found = self.replies(data, count)
                if len(found) == count or found[0].status != 401:
                    return found
            except (NotSent, Lost):
                pass
            time.sleep(0.05)
        return None

    # ---- a change

    def reply_to(self, message: Message) -> bytes:
        """The reply to a client's message."""
        if (message.method, message.target) == ("GET", "/figures"):
            return self.figures()
        domain, who = route_of(message) or ("", None)
        refused = self.refusal(message, who)
        if refused is not None or who is None:
            return refused or UNAVAILABLE
        change = Waiting(*entry_of(message, domain, who))
        self.waiting.add(change)
        if not change.done.wait(TURN) and self.waiting.withdraw(change):
            return UNAVAILABLE
        return change.reply if change.done.wait(APPLIED) else UNKNOWN

    def figures(self) -> bytes:
        """How far it is, as JSON; HAProxy leads no client here."""
        archive = self.archive
        body = json.dumps({
            "position": archive.position, "last_change_timestamp_seconds": archive.at,
            "pending": int(archive.pending is not None), "waiting": len(self.waiting),
            "archive_bytes": sum(segment.path.stat().st_size for segment in segments_in([archive.folder])),
            "room_bytes": archive.room() - self.room}).encode()
        return b"HTTP/1.1 200 OK\r\nContent-Type: application/json\r\nContent-Length: %d\r\n\r\n%s" % (len(body), body)

    def apply(self, entry: Record, body: bytes, is_again: bool) -> bytes:
        """Sends the archive's last entry, which has this body, until pdpd has answered it, and appends the reply."""
        found, is_again = self.sent(entry.head, body, is_again)
        while True:
            try:
                kept = self.archive.add_reply(found.status, found.data, is_again)
            except NoRoom as fault:
                # it is applied, and its client gets 504 meanwhile; nothing passes it
                self.say(f"the reply to entry {entry.head['n']} can't be kept: {fault}")
                time.sleep(1)
                continue
            self.keeping.behind(entry, kept)
            return found.data

    def sent(self, head: dict, body: bytes, is_again: bool) -> tuple[Reply, bool]:
        """pdpd's reply to an entry, and whether it may have been applied before that; 503 for one that is skipped.
        pdpd's own 503 is none: nothing changed, or, once pdpd is started again, all. Nor is 401 for the operator, whose
        token was compared: pdpd was started with another one than is tried here. What was sent before on another
        connection, by this daemon or by one before it, isn't waited for: pdpd takes changes of one connection after
        another, as they come, so it is made before."""
        tries = 0
        while True:
            if (tries or is_again) and self.is_skipped(head["n"]):
                return Reply(503, UNAVAILABLE), False
            for token in self.operators() if head["who"] == "operator" else [""]:
                try:
                    (found,) = self.replies(bytes_of_entry(head, body, token, is_last=True), 1)
                except NotSent:
                    break
                except Lost:
                    is_again = True
                    break
                if found.status != 503 and (found.status != 401 or head["who"] != "operator"):
                    return found, is_again
                is_again = is_again or found.status == 503
            tries += 1
            if tries % 100 == 50:
                self.say(f"pdpd hasn't taken entry {head['n']} for {tries} times: its log says why")
            time.sleep(min(1.0, 0.02 * tries))

    def is_skipped(self, number: int) -> bool:
        """Whether an entry isn't sent any more, and never will be by anybody. (One machine alone skips none.)"""
        return False

    def make(self, change: Waiting) -> None:
        """Makes one change, which has its turn."""
        if self.archive.room() < self.room:
            self.say(f"the disk of {self.archive.folder} has less than {self.room} bytes left: no change is taken")
            change.end(UNAVAILABLE)
            return
        try:
            self.archive.refuse_removed()
            more, data = self.keeping.as_kept(change.head["domain"], self.archive.position + 1, change.body)
            entry = self.archive.add_entry({**change.head, **more}, data)
        except (NoRoom, Removed, OSError, Forgotten) as fault:
            self.say(f"no change is taken: {fault}")
            change.end(UNAVAILABLE)
            return
        change.end(self.apply(entry, change.body, is_again=False))

    def work(self) -> None:
        """Makes changes one after another, for ever; first the one that has no reply yet."""
        try:
            if self.archive.pending:
                pending = self.archive.pending
                self.say(f"entry {pending.head['n']} is sent again: it has no reply yet")
                self.apply(pending, Change(pending, None, self.archive.folder).body(), is_again=True)
            self.say(f"at entry {self.archive.position}")
            while True:
                self.make(self.waiting.next())
        except Broken as fault:
            self.say(str(fault))
            self.end(EXIT_BROKEN)
        except BaseException as fault:  # noqa: BLE001 (a thread that all changes wait for)
            self.say(f"it ends by {fault!r}")
            self.end(EXIT_BROKEN)

    def start(self) -> None:
        threading.Thread(target=self.work, daemon=True).start()
