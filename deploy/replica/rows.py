"""Compares what the stores of a shard have: on each machine a digest of all rows behind one entry, the same on all.

Each machine's tool says that it has come; then the first one puts a pause into the log at its last entry, in one
transaction with a look at the head: so a replica that reads a later entry reads the pause, too, and stands still there
(SharedLog.entries). Each copies its files and says so, and then the pause ends, at the latest after some seconds.

    /pdpd/SHARD/pause              "N ID NAME.."
    /pdpd/SHARD/rows/come/NAME     is there while that machine's tool waits for the others
    /pdpd/SHARD/rows/copied/NAME   the ID of the pause for which it has copied its files
    /pdpd/SHARD/rows/told/NAME     the ID, and the digest
"""
from __future__ import annotations

import hashlib
import pathlib
import re
import secrets
import sqlite3
import time
from collections.abc import Callable
from dataclasses import dataclass
from typing import Any

from .comparing import Verdict, verdict_on
from .etcd import after, deleting, is_absent, is_value, putting
from .shared_log import SharedLog, Wrong

# how long the others are waited for until they have come, have copied, and have told, in seconds
COMING, COPYING, TELLING = 40.0, 8, 600.0
PAUSE = 0.05
# what a machine tells in place of a digest if it has none
NONE = "-"
# the tables that have no domain's rows
OWN = ("meta", "domains")
# the name of a table or a column
PLAIN = re.compile("[a-z_][a-z0-9_]{0,39}")


# ---- the digest

def plain(names: list[str]) -> list[str]:
    """Names of tables or columns, which may stand in a text of SQL; an error where one is more than a name. (Who has
    the shards' user may have written any into the store, and this is root.)"""
    for name in names:
        if not PLAIN.fullmatch(name):
            raise Wrong(f"the store has a table or a column {name[:40]!r}, as pdpd makes none: look who has written it")
    return names


def columns_of(base: sqlite3.Connection, table: str) -> list[str]:
    names = plain([name.decode() for _, name, *_ in base.execute(f"PRAGMA table_info({table})")])
    return [name for name in names if name != "number"]


def digest_of(folder: pathlib.Path) -> str:
    """Of all that a copy of a store has, whatever numbers and epochs its domains have. (An entry that was applied twice
    may have raised these.)"""
    base, made = sqlite3.connect(folder / "pdpd.db"), hashlib.sha256()
    try:
        base.text_factory = bytes
        named = base.execute("SELECT name FROM sqlite_master WHERE type = 'table'").fetchall()
        tables = plain(sorted(name.decode() for name, in named))
        made.update(repr((tables, base.execute("SELECT schema_no FROM meta").fetchone())).encode())
        columns = {table: columns_of(base, table) for table in tables if table not in OWN}
        for number, name in base.execute("SELECT number, name FROM domains ORDER BY name").fetchall():
            made.update(repr(name).encode())
            for table, names in columns.items():
                listed, order = ", ".join(names), ", ".join(str(place + 1) for place in range(len(names)))
                for row in base.execute(f"SELECT {listed} FROM {table} WHERE number = ? ORDER BY {order}", (number,)):
                    made.update(repr((table, row)).encode())
    finally:
        base.close()
    return made.hexdigest()


# ---- the meeting

@dataclass(frozen=True)
class Pause:
    """That replicas stand still behind an entry, and which of them are compared there."""
    number: int
    question: str
    names: tuple[str, ...]
    value: bytes


def pause_in(value: bytes | None) -> Pause | None:
    if value is None:
        return None
    number, question, *names = value.decode().split()
    return Pause(int(number), question, tuple(names), value)


class Meeting:
    """One comparison, as this machine's tool takes part in it. `position` gives the entry at which its replica is."""

    def __init__(self, log: SharedLog, position: Callable[[], int]):
        self.log, self.etcd, self.position = log, log.etcd, position

    def key(self, kind: str, name: str = "") -> bytes:
        return self.log.rows + f"{kind}/{name or self.log.name}".encode()

    def said(self, kind: str) -> dict[str, str]:
        """What each tool has said of that kind."""
        start = self.log.rows + f"{kind}/".encode()
        held = self.etcd.range(start, after(start))
        return {key[len(start):].decode(): (value or b"").decode() for key, value in held}

    def say(self, kind: str, what: str, seconds: float) -> None:
        self.etcd.put(self.key(kind), what.encode(), self.etcd.grant(int(seconds) + 1))

    def wait(self, seconds: float, what: Callable[[], Any]) -> Any:
        """The first thing that is there or true; at the end, what there is then."""
        end = time.monotonic() + seconds
        while not (found := what()) and time.monotonic() < end:
            time.sleep(PAUSE)
        return found

    def pause(self) -> Pause | None:
        """The pause in which this machine is compared."""
        found = pause_in(self.etcd.get(self.log.pause))
        return found if found and self.log.name in found.names else None

    def begin(self) -> Pause:
        """The pause, once all have come, or none came for a while."""
        self.say("come", "yes", 2 * COMING)
        self.wait(COMING, lambda: self.pause() or self.log.others().keys() <= self.said("come").keys())
        names = sorted(self.said("come"))
        is_first = names[:1] == [self.log.name] and len(names) > 1 and not self.pause()
        found = self.put_pause(names) if is_first else self.wait(COMING, self.pause)
        self.etcd.delete(self.key("come"))
        if not found:
            raise Wrong("no other machine compares its rows now: run this on all of them at the same time")
        return found

    def put_pause(self, names: list[str]) -> Pause:
        lease = self.etcd.grant(COPYING + 2)
        while True:
            head = self.log.look().head
            value = f"{head.number} {secrets.token_hex(8)} {' '.join(names)}".encode()
            if self.etcd.transaction([is_value(self.log.head, head.value()), is_absent(self.log.pause)],
                                     [putting(self.log.pause, value, lease)])[0]:
                return pause_in(value)
            if self.etcd.get(self.log.pause):
                raise Wrong("rows are compared already")

    def end(self, pause: Pause) -> None:
        self.etcd.transaction([is_value(self.log.pause, pause.value)], [deleting(self.log.pause)])


def taken(meeting: Meeting, pause: Pause, copy: Callable[[], None]) -> None:
    """Has this machine's store copied during the pause, which the first machine ends once all have."""
    try:
        if not meeting.wait(COPYING, lambda: meeting.position() == pause.number):
            raise Wrong(f"this machine didn't get to entry {pause.number} in time: pdpd-replicas status")
        copy()
        if meeting.pause() != pause:
            raise Wrong(f"copying the store took more than {COPYING} s: its rows weren't compared")
        meeting.say("copied", pause.question, COPYING)
        if pause.names[0] == meeting.log.name:
            meeting.wait(COPYING, lambda: set(meeting.said("copied").items()) >= {(one, pause.question)
                                                                                 for one in pause.names})
    finally:
        if pause.names[0] == meeting.log.name:
            meeting.end(pause)


def compare(meeting: Meeting, copy: Callable[[], None], folder: pathlib.Path) -> tuple[int, list[str], Verdict | None]:
    """The entry, the machines whose rows behind it are known, and what is wrong. `copy` copies this machine's store
    into the folder."""
    pause, digest = meeting.begin(), NONE
    try:
        taken(meeting, pause, copy)
        digest = digest_of(folder)
    finally:
        meeting.say("told", f"{pause.question} {digest}", TELLING)

    def told() -> dict[str, str]:
        held = {name: said.split() for name, said in meeting.said("told").items()}
        return {name: words[1] for name, words in held.items() if words[0] == pause.question}
    meeting.wait(TELLING, lambda: len(told()) == len(pause.names))
    known = {name: [one] for name, one in told().items() if one != NONE}
    return pause.number, sorted(known), verdict_on(pause.number, known, "rows behind")
