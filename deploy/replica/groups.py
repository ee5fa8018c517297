"""Groups of machines, each with logs and an etcd of its own, and the map of all domains in the first group's etcd.

    /pdpd/map/last              "N": each change puts this key once more, and N and how many times it was put make the
                                change's number
    /pdpd/map/at/DOMAIN         "GROUP.SHARD": where that domain is. A name stays once its domain is removed

A change compares where its own domains are, and nothing else: so many are made at a time. Whoever has seen the change
of a number has seen all before it.
"""
from __future__ import annotations

import pathlib
import re
import time
from collections.abc import Iterable, Mapping

from .etcd import (
    Down, Etcd, Member, Open, after, bytes_of, context_in, is_absent, is_put, is_there, is_value, putting,
    putting_again, reading)
from .machines import Machines, is_here, machines_in

LAST, AT = b"/pdpd/map/last", b"/pdpd/map/at/"
ALL = b"/pdpd/map/"
NAME = re.compile("[a-z][a-z0-9-]{0,31}")
PLACE = re.compile(r"([a-z][a-z0-9-]{0,31})\.([0-9]{1,2})")
# the files of a machine's copy: the map, what HAProxy was told of it, and the last change by which that goes
# (following.py)
MAP, MOVED, NUMBER = "groups.map", "moved.map", "number"
# how long an answer of etcd is waited for, in seconds
PATIENCE = 5.0
# how many domains go into one transaction, and are read at a time (etcd takes 128 operations)
MOST_PUT, MOST_READ = 60, 10_000
# for how long a change of the map is tried, and how long is waited between two attempts, in seconds
CLAIMING, PAUSE = 5.0, 0.02
Groups = dict[str, Machines]


class NoPlace(Exception):
    """Nobody knows where a domain is, or what became of a change of the map."""


def groups_in(text: str) -> Groups:
    """The groups that NAME=ADDRESS,ADDRESS.. names, with blanks between, and the addresses of their machines; an error
    where it names none. The first one has the map."""
    found: Groups = {}
    for word in text.split():
        name, is_named, hosts = word.partition("=")
        if not is_named or not NAME.fullmatch(name) or name in found:
            raise ValueError(f"{word!r} names no group as NAME=ADDRESS,ADDRESS,.. does, or one twice")
        found[name] = machines_in(" ".join(f"{name}-{number}={host}" for number, host in enumerate(hosts.split(","))))
    every = [place for machines in found.values() for place in machines.values()]
    if len(every) != len({*every}):
        raise ValueError("a machine is in one group alone")
    return found


def etcd_of_group(machines: Machines, certificates: pathlib.Path | None, seconds: float = PATIENCE) -> Etcd:
    """The etcd of a group, by client certificates, unless all of it is on this machine."""
    if certificates is None and not all(is_here(host) for host, _ in machines.values()):
        raise ValueError("etcd on other machines is spoken to by client certificates alone: name their folder")
    context = context_in(certificates) if certificates else None
    return Etcd([Member(host, port, context) for host, port in machines.values()], seconds)


def parts_of(place: str) -> tuple[str, int]:
    """The group and the shard of a place."""
    found = PLACE.fullmatch(place)
    if not found:
        raise ValueError(f"{place!r} isn't GROUP.SHARD, as `one.2`")
    return found[1], int(found[2])


def number_of(kept: dict) -> int:
    """How many times the map was changed, by its key as etcd keeps it."""
    return int(bytes_of(kept.get("value", "")) or 0) + int(kept.get("version", 0))


class Map:
    """The map of all domains."""

    def __init__(self, etcd: Etcd):
        self.etcd = etcd

    def last(self) -> int:
        """How many times it was changed, by the quorum."""
        return number_of(self.etcd.kept_at(0, LAST)[1])

    def places(self, domains: Iterable[str]) -> dict[str, str]:
        """Where these domains are that it has."""
        names = list(domains)
        _, found = self.etcd.transaction([], [reading(self.key(name)) for name in names])
        return {name: (pairs[0][1] or b"").decode() for name, pairs in zip(names, found) if pairs}

    @staticmethod
    def key(domain: str) -> bytes:
        return AT + domain.encode()

    def put(self, domains: Iterable[str], before: str | None, place: str) -> bool:
        """Puts these domains there, if each is where it was before (None: nowhere), and the map has begun; whether it
        was so."""
        keys = [self.key(name) for name in domains]
        holds = [is_absent(key) if before is None else is_value(key, before.encode()) for key in keys]
        puts = [putting(key, place.encode()) for key in keys]
        return self.etcd.transaction([is_there(LAST), *holds], [*puts, putting_again(LAST)])[0]

    def raise_to(self, number: int) -> None:
        """Counts on from a number, if that is larger: a map that was lost and is made anew comes behind all before."""
        while number_of(kept := self.etcd.kept_at(0, LAST)[1]) < number:
            times = int(kept.get("version", 0))
            self.etcd.transaction([is_put(LAST, times)], [putting(LAST, b"%d" % (number - times - 1))])

    def claim(self, domains: Iterable[str], place: str) -> dict[str, str]:
        """Where these domains are, which are put at that place if they are nowhere yet. (What became of an attempt
        without an answer is seen by the next one.)"""
        names, end = list(domains), time.monotonic() + CLAIMING
        while time.monotonic() < end:
            try:
                found = self.places(names)
                new = [name for name in names if name not in found]
                if not new or self.put(new, None, place):
                    return {**found, **dict.fromkeys(new, place)}
                self.raise_to(1)
            except (Down, Open):
                pass
            time.sleep(PAUSE)
        raise NoPlace("the map of domains can't be changed: its etcd doesn't answer")

    def move(self, domain: str, before: str, place: str) -> int:
        """Puts a domain elsewhere, unless that was done; by which change, or a later one. An error where it is at
        neither place."""
        end = time.monotonic() + CLAIMING
        while time.monotonic() < end:
            try:
                at = self.places([domain]).get(domain)
                if at not in (before, place):
                    raise ValueError(f"{domain} is at {at or 'no place'}, and not at {before}")
                if at == place or self.put([domain], before, place):
                    return self.last()
            except (Down, Open):
                pass
            time.sleep(PAUSE)
        raise NoPlace("nobody knows whether the map of domains was changed: its etcd doesn't answer")


class Follows:
    """What a shard's daemon knows of the map: how far this machine's HAProxy goes by it, and which domains are here."""

    def __init__(self, domains: Map, group: str, shard: int, number: pathlib.Path):
        """`number` is the file with the last change that HAProxy goes by (following.py)."""
        self.domains, self.group, self.shard, self.number = domains, group, shard, number

    def last(self) -> int:
        return number_in(self.number)

    def is_taken(self, domain: str) -> bool:
        """Whether a new domain comes into this shard: it is here by the map, which it is put into if it isn't yet."""
        here = f"{self.group}.{self.shard}"
        try:
            return self.domains.claim([domain], here)[domain] == here
        except NoPlace:
            return False


def number_in(file: pathlib.Path) -> int:
    """The number that a file has; 0 where it has none."""
    try:
        return int(file.read_text(encoding="ascii"))
    except (OSError, ValueError):
        return 0


def all_of(etcd: Etcd) -> tuple[int, int, dict[str, str]]:
    """The whole map as it is at one instant: by which revision of etcd, by which change, and where each domain is."""
    found: dict[str, str] = {}
    revision, pairs = etcd.range_at(0, AT, after(AT), MOST_READ)
    _, last = etcd.kept_at(revision, LAST)
    while pairs:
        found.update((key[len(AT):].decode(), (value or b"").decode()) for key, value in pairs)
        _, pairs = etcd.range_at(revision, pairs[-1][0] + b"\0", after(AT), MOST_READ)
    return revision, number_of(last), found
