"""Has this machine's HAProxy go by the map of all domains, as it is changed: `pdpd-replicas follow`.

    groups.map      lines "DOMAIN GROUP.SHARD", with which a HAProxy begins; the first two say up to which change
    moved.map       nothing; a HAProxy that runs has in it what it was told since (proxy_map.py)
    number          the last change by which a HAProxy goes that answers

What comes from etcd is noted at once. HAProxy is told of all that waits, and only then the number is written, by which
the daemons know it. One that has begun anew has the file, which is some seconds old: it answers nothing until it was
told what has come since (MAPPED). Nor is one told what is older than what it may know, by a follower that has begun
anew.
"""
from __future__ import annotations

import contextlib
import os
import pathlib
import re
import sys
import threading
import time
from collections.abc import Callable, Iterator, Mapping
from typing import NamedTuple

from operating.settings import write_whole

from .etcd import Down, Etcd, Open, Refused, after, bytes_of, pair_of
from .groups import ALL, AT, LAST, MAP, NUMBER, all_of, number_in, number_of
from .leases import Leases
from .proxy_map import CHANGE, Proxy

# how often HAProxy and the map's last change are looked at, and after how long the file is written again, in seconds;
# but for ten times as long as that takes
LOOKS, WRITES, TIMES = 0.5, 1.0, 10
# how often it is looked whether HAProxy was told, and when merging is begun again that was broken off, in seconds
SOON, AGAIN = 0.01, 30.0
# of how many changes it is kept since which file they have come: with an older one HAProxy is asked for all that it has
MOST_KEPT = 100_000
HEAD = re.compile(r"# (\d+) (\d+) (\d+)")
NO_ANSWER = Down, Open, Refused
# of a HAProxy of which it isn't known what it was told
UNKNOWN = -1


class Point(NamedTuple):
    """A point in the map's life: a change, and a revision of etcd up to which nothing has come behind it."""
    number: int = 0
    revision: int = 0


class Since(NamedTuple):
    """Up to which change a file goes, and what HAProxy was told behind it."""
    number: int
    changes: dict[str, str]


class Follower:
    """What is known of the map, and is told to HAProxy."""

    def __init__(self, etcd: Etcd, folder: pathlib.Path, leases: Leases, lease: float):
        """`lease` is for how long a domain that the map hasn't is known to be none."""
        self.etcd, self.folder, self.lease = etcd, folder, lease
        self.proxy = Proxy(leases, folder)
        # what HAProxy goes by; and what has come since
        self.at, self.places = Point(), dict[str, str]()
        self.heard, self.coming = Point(), dict[str, str]()
        # the last files, the newest one last
        self.since = [Since(0, {})]
        # what HAProxy may have been told by a follower of before is no later than this change
        self.process, self.least, self.fresh_until = UNKNOWN, 0, 0.0
        self.merging: Iterator[None] | None = None
        self.merges = 0.0
        # who talks to HAProxy, and then who looks at what has come
        self.turn, self.comes = threading.RLock(), threading.Condition()

    def say(self, what: str) -> None:
        print(f"pdpd-replicas: {what}", file=sys.stderr, flush=True)

    # ---- its files

    def load(self) -> None:
        """Takes what the file has; nothing where it isn't whole."""
        self.least = number_in(self.folder / NUMBER)
        with contextlib.suppress(OSError, ValueError):
            first, _, *lines = (self.folder / MAP).read_text(encoding="ascii").splitlines()
            head = HEAD.fullmatch(first)
            if head and int(head[3]) == len(lines):
                self.places = dict(line.split(" ", 1) for line in lines)
                self.at = self.heard = Point(int(head[1]), int(head[2]))
                self.since = [Since(self.at.number, {})]

    def write(self) -> None:
        """Writes the file, with which the next HAProxy begins; where that fails the one of before stands."""
        with self.turn:
            places, at = {**self.places}, self.at
            self.since.append(Since(at.number, {}))
        lines = "".join(f"{name} {place}\n" for name, place in places.items())
        head = f"# {at.number} {at.revision} {len(places)}\n{CHANGE} {at.number}\n"
        try:
            write_whole(self.folder / MAP, head + lines, 0o600)
            self.forget()
        except OSError as fault:
            self.say(f"the map isn't written: {fault}")
            with self.turn:
                self.since[-2].changes.update(self.since.pop().changes)

    def forget(self) -> None:
        """Drops what is known since older files than HAProxy may have begun with soon."""
        with self.turn:
            while sum(len(one.changes) for one in self.since) > MOST_KEPT and len(self.since) > 1:
                del self.since[0]

    def write_for_ever(self) -> None:
        while True:
            began = time.monotonic()
            if self.since[-1].changes:
                self.write()
            time.sleep(max(WRITES, TIMES * (time.monotonic() - began)))

    def note(self) -> None:
        """Writes up to which change HAProxy goes by the map. (No disk has to keep it: one that is lost is less.)"""
        made = self.folder / f".{NUMBER}.new"
        made.write_text(f"{self.at.number}\n", encoding="ascii")
        made.replace(self.folder / NUMBER)

    # ---- what comes

    def read(self) -> None:
        """Reads the whole map."""
        revision, number, places = all_of(self.etcd)
        with self.turn, self.comes:
            self.coming = {name: place for name, place in places.items() if self.places.get(name) != place}
            self.heard, self.least = Point(number, revision), min(self.least, number)
            self.comes.notify_all()
        self.say(f"the map has {len(places)} domains, by change {number}")

    def last(self) -> tuple[int, int]:
        """The map's last change, and at which revision of etcd that was so."""
        revision, kept = self.etcd.kept_at(0, LAST)
        return revision, number_of(kept)

    def hear(self) -> None:
        """Notes each change as it comes, until nothing has come for a while; a Refused where one is missing."""
        for revision, events in self.etcd.events_since(self.heard.revision + 1, ALL, after(ALL)):
            changes = {key[len(AT):].decode(): value.decode() for key, value in map(pair_of, events)
                       if key != LAST and value}
            numbers = [number_of(event["kv"]) for event in events if bytes_of(event["kv"]["key"]) == LAST]
            number = self.heard.number + len(numbers)
            if numbers != [*range(self.heard.number + 1, number + 1)]:
                raise Refused(f"the changes {numbers} come behind change {self.heard.number}")
            with self.comes:
                self.coming.update(changes)
                self.heard = Point(number, revision)
                self.comes.notify_all()

    def is_whole(self) -> bool:
        """Whether what was heard is what the map was. (One that is behind it was lost, and is made anew.)"""
        revision, last = self.last()
        return 0 < self.heard.revision <= revision and self.heard.number <= last

    def hear_for_ever(self) -> None:
        while True:
            try:
                if not self.is_whole():
                    self.read()
                self.hear()
            except Refused as fault:  # (so it is where etcd has dropped what came since)
                self.say(f"the map is read anew: {fault}")
                self.heard = Point(self.heard.number)
            except NO_ANSWER:
                time.sleep(LOOKS)

    # ---- what HAProxy is told

    def missing(self, coming: Mapping[str, str]) -> dict[str, str]:
        """What a HAProxy that has begun may not know. One that this hasn't seen begin is asked for all that it has."""
        begun = self.proxy.begun() if self.process != UNKNOWN else None
        numbers = [one.number for one in self.since]
        if begun not in numbers:
            return self.proxy.differing({**self.places, **coming})
        known = [one.changes for one in self.since[numbers.index(begun):]]
        return {name: place for changes in (*known, coming) for name, place in changes.items()}

    def may_bring_up(self) -> bool:
        """Whether a HAProxy can't know of a later change than this does."""
        return self.process != UNKNOWN or self.heard.number >= self.least

    def bring_up(self, process: int, coming: Mapping[str, str]) -> None:
        """Has a HAProxy go by what the one of before was told, and what has come since, which it may know already."""
        missing = self.missing(coming) if process else {}
        self.process, self.merging, self.proxy.is_unsure = UNKNOWN, None, True
        self.proxy.tell(missing)
        self.process = process

    def take(self) -> None:
        """Has HAProxy go by what has come. Where that is broken off it is told once more."""
        with self.turn:
            with self.comes:
                changes, self.coming, point = self.coming, {}, self.heard
            try:
                if self.process == UNKNOWN:
                    self.bring_up(self.proxy.process(), changes)
                else:
                    self.proxy.tell(changes)
            except NO_ANSWER:
                with self.comes:
                    self.coming = {**changes, **self.coming}
                raise
            self.places.update(changes)
            self.since[-1].changes.update(changes)
            self.at = point
            self.note()

    def merge(self) -> None:
        """Has HAProxy merge a part of what it was told, if that is much."""
        with self.turn:
            if not self.merging and self.proxy.wants_merging() and time.monotonic() > self.merges:
                self.merging = self.proxy.merging(self.places)
            try:
                if self.merging and next(self.merging, True):
                    self.merging = None
            except NO_ANSWER:
                self.merging, self.merges, self.proxy.is_unsure = None, time.monotonic() + AGAIN, True

    def has_come(self) -> bool:
        return self.heard != self.at and self.may_bring_up()

    def tell_for_ever(self) -> None:
        while True:
            with self.comes:
                self.comes.wait_for(self.has_come, 0 if self.merging else LOOKS)
            try:
                if self.has_come():
                    self.take()
                self.merge()
            except NO_ANSWER as fault:
                self.say(f"{fault}")
                time.sleep(LOOKS)

    # ---- looks

    def look_at_proxy(self) -> None:
        """Has a HAProxy that has begun go by the map, and tells it until when it knows of all domains."""
        with self.turn:
            if (process := self.proxy.process()) != self.process and self.may_bring_up():
                with self.comes:
                    coming = {**self.coming}
                self.bring_up(process, coming)
            if process == self.process != 0:
                self.proxy.allow(time.time() + max(0.0, self.fresh_until - time.monotonic()))

    def look_at_map(self) -> None:
        """Notes until when what HAProxy was told is fresh: it is all that there was when the last change was asked
        for."""
        began, before = time.monotonic(), self.heard.number
        revision, last = self.last()
        while self.at.number < last and time.monotonic() < began + LOOKS:
            time.sleep(SOON)
        with self.turn, self.comes:
            if before <= last <= self.at.number and self.at.revision:
                self.fresh_until = began + self.lease
            if last == self.at.number and self.at == self.heard:
                self.at = self.heard = Point(last, max(self.at.revision, revision))

    # ---- its life

    def guarded(self, work: Callable[[], None]) -> None:
        """Ends this where one of its threads fails: it is started again, and goes by what is on the disk."""
        try:
            work()
        except BaseException as fault:  # noqa: BLE001
            self.say(f"it ends by {fault!r}")
            os._exit(1)

    def run(self) -> None:
        self.load()
        with contextlib.suppress(*NO_ANSWER):
            self.least = self.last()[1]
        for work in (self.hear_for_ever, self.tell_for_ever, self.write_for_ever):
            threading.Thread(target=self.guarded, args=(work,), daemon=True).start()
        while True:
            began = time.monotonic()
            for look in (self.look_at_map, self.look_at_proxy):
                with contextlib.suppress(*NO_ANSWER):
                    look()
            time.sleep(max(0.02, LOOKS - (time.monotonic() - began)))
