"""A domain is carried to a shard of another group, or to another shard of its own.

No change of the two shards is taken meanwhile; decisions go on. Entries of the other shard's log make there what the
domain has, and then the map leads to it. No machine of the group where it was may lead a message of its to the old
shard any more before that loses it, and changes are taken: each has told that it goes by that change of the map, or
has had no lease since (`led`, of which a lease takes note as it does of the head). What is cut is gone on with by the
same command.
"""
from __future__ import annotations

import contextlib
import json
import pathlib
import threading
import time
from collections.abc import Iterator

from operating import talk
from operating.settings import Settings, Wrong

from . import core
from .etcd import Down, Open, Refused, after, pair_of, putting
from .groups import MOST_PUT, Map, etcd_of_group, parts_of
from .moving import Frozen, Message, messages_of, operators, state_in
from .shared_log import SharedLog

# how long etcd is waited for, all machines to apply what there is, and replies to come, in seconds
PATIENCE, FREEZING, TOLD, PAUSE = 10.0, 30.0, 30.0, 0.1
# how long a message may need that HAProxy was just leading to a shard, in seconds
LED = 1.0


class Replies(threading.Thread):
    """The statuses that replicas tell of entries from now on."""

    def __init__(self, log: SharedLog):
        super().__init__(daemon=True)
        self.log, self.found = log, dict[int, int]()
        self.revision, _ = log.etcd.range_at(0, log.head)
        self.start()

    def run(self) -> None:
        end = after(self.log.replicas)
        while True:
            with contextlib.suppress(Down, Open, Refused):
                for revision, events in self.log.etcd.events_since(self.revision + 1, self.log.replicas, end):
                    self.revision = max(self.revision, revision)
                    for _, value in map(pair_of, events):
                        told = json.loads(value) if value else {}
                        self.found.update((number, status) for number, status, _ in told.get("replies", ()))
            time.sleep(PAUSE)

    def statuses(self, numbers: list[int]) -> list[int]:
        """Those of these entries, 0 where none is told for a while."""
        end = time.monotonic() + TOLD
        while not {*numbers} <= self.found.keys() and time.monotonic() < end:
            time.sleep(PAUSE)
        return [self.found.get(number, 0) for number in numbers]


def certificates_of(settings: Settings) -> pathlib.Path:
    return pathlib.Path(settings.etcd_certificates)


def map_of_groups(settings: Settings) -> Map:
    """The map of all domains; an error where there is one group."""
    if not settings.groups:
        raise Wrong("ALL_GROUPS is empty: there is one group of machines")
    first = next(iter(settings.groups.values()))
    return Map(etcd_of_group(first, certificates_of(settings), PATIENCE))


def log_at(settings: Settings, logs: list[SharedLog], place: str) -> SharedLog:
    """The log of a place, by the program that its group has; an error where there is none, or its program is another
    one: it might answer a change otherwise."""
    try:
        group, shard = parts_of(place)
    except ValueError as fault:
        raise Wrong(str(fault)) from None
    if group not in settings.groups:
        raise Wrong(f"there is no group {group}: they are {', '.join(settings.groups)}")
    own = logs[0].program.split("/")[0]
    etcd = logs[0].etcd if group == settings.group else etcd_of_group(
        settings.groups[group], certificates_of(settings), PATIENCE)
    log = SharedLog(etcd, shard, settings.self, "")
    log.program = log.look().program
    digest, count = log.program.split("/")[:2]
    if shard >= int(count):
        raise Wrong(f"there is no shard {shard} in group {group}: they are 0 to {int(count) - 1}")
    if digest != own:
        raise Wrong(f"group {group} has another program: upgrade it first")
    return log


def frozen(log: SharedLog, shard: int, why: str) -> Frozen:
    """A log of which no change is taken, for that reason, and which all machines have applied."""
    if (held := log.freeze(why)) != why:
        raise Wrong(f"a log is frozen for another reason: {held}")
    end = time.monotonic() + FREEZING
    while log.behind() and time.monotonic() < end:
        time.sleep(PAUSE)
    return Frozen(log, shard)


@contextlib.contextmanager
def thawed_where_it_fails(source: SharedLog, target: SharedLog, why: str) -> Iterator[None]:
    """Has changes taken again, if nothing is led otherwise yet."""
    try:
        yield
    except BaseException:
        thaw(source, target, why)
        raise


def thaw(source: SharedLog, target: SharedLog, why: str) -> None:
    for log in (target, source):
        log.thaw_from(why)


def make_there(target: Frozen, domain: str, messages: list[Message]) -> None:
    """Makes the domain at its new place, where nothing is led to yet: what was left there is removed first. An error
    where the shard doesn't take all of it."""
    replies = Replies(target)
    first, *others = replies.statuses(target.add([operators(domain, "DELETE"), *messages]))
    if first not in (200, 404) or not {*others} <= {200, 201}:
        wrong = [number for number in (first, *others) if number not in (200, 201)]
        raise Wrong(f"the other shard hasn't taken all of {domain}, or doesn't tell so (replies {wrong[:5]}): it stays "
                    "where it is")


def wait_until_led(settings: Settings, source: Frozen, number: int) -> list[str]:
    """Waits until no machine of the group leads messages by the map of before, and gives those that decide nothing
    since they don't follow it."""
    if not source.etcd.transaction([source.is_open()], [putting(source.led, b"%d" % number)])[0]:
        raise Wrong("the log was thawed meanwhile")
    end, behind = time.monotonic() + settings.lease * core.DRIFT + core.LATE, ["nobody has told it"]
    while behind and time.monotonic() < end:
        time.sleep(PAUSE)
        behind = sorted(name for name, told in source.others().items() if told.get("led", 0) < number)
    time.sleep(LED)
    return behind


def carry(settings: Settings, logs: list[SharedLog], domain: str, shard: int, place: str) -> list[str]:
    """Carries a domain from a shard of this group to a place; the machines that decide nothing now."""
    domains, here = map_of_groups(settings), f"{settings.group}.{shard}"
    if place == here:
        raise Wrong("name another place")
    target, why = log_at(settings, logs, place), f"{domain} goes from {here} to {place}"
    at = domains.places([domain]).get(domain)
    if at not in (here, place):
        raise Wrong(f"{domain} is at {at or 'no place'} by the map, and not at {here}")
    is_led = at == place
    if is_led and domain not in talk.domains_of(settings, shard):
        thaw(logs[shard], target, why)
        return []
    source, target = frozen(logs[shard], shard, why), frozen(target, parts_of(place)[1], why)
    if not is_led:
        with thawed_where_it_fails(source, target, why):
            if domain not in talk.domains_of(settings, shard):
                raise Wrong(f"shard {shard} has no domain {domain!r}")
            make_there(target, domain, messages_of(state_in(settings, shard, domain), domain))
    behind = wait_until_led(settings, source, domains.move(domain, here, place))
    source.add([operators(domain, "DELETE")])
    thaw(source, target, why)
    return behind


def fill(settings: Settings, logs: list[SharedLog]) -> dict[str, int]:
    """Puts the domains of this group into the map, each where it is; how many there are of each other place, which the
    map leads elsewhere."""
    domains, others = map_of_groups(settings), dict[str, int]()
    domains.raise_to(max(log.look().led for log in logs))
    for shard in range(settings.shards):
        names, here = talk.domains_of(settings, shard), f"{settings.group}.{shard}"
        for first in range(0, len(names), MOST_PUT):
            for place in domains.claim(names[first:first + MOST_PUT], here).values():
                if place != here:
                    others[place] = others.get(place, 0) + 1
    return others
