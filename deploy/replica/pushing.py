"""Gives etcd the entries that an archive has and it doesn't: all of etcd was lost, or put back to an earlier moment.

The log is frozen meanwhile, and stays so until no machine has applied more than it has (SharedLog.thaw).
"""
from __future__ import annotations

import hashlib
import pathlib
from collections.abc import Iterator

from log.archive import segments_in
from log.history import Change, changes_in

from .core import MOST_BYTES, MOST_CHANGES
from .daemon import name_in
from .etcd import after, is_absent, is_value, putting
from .shared_log import MOST_READ, OF_MESSAGE, PUSHED, SKIPPED, Entry, Head, SharedLog, Wrong, head_in


def entry_of(change: Change) -> Entry:
    """An archived entry as the log has it."""
    head = change.entry.head
    if "log" not in head:
        raise Wrong(f"entry {change.number()} of the archive comes from no log in etcd: it is of one machine alone")
    of_log = {name: value for name, value in head["log"].items() if name != "name"}
    found = Entry({**{name: head[name] for name in OF_MESSAGE}, **of_log}, change.body(), change.is_skipped())
    if found.name() != head["log"]["name"]:
        raise Wrong(f"entry {change.number()} of the archive isn't the one that the log had")
    return found


class Held:
    """The entries that an archive has, of which the last ones are given: those behind the last one whose body is
    forgotten, and no more than `tail`, if that isn't 0."""

    def __init__(self, folder: pathlib.Path, tail: int):
        self.segments, self.first, self.last = segments_in([folder]), 1, 0
        for change in self.changes():
            if not self.last:
                self.first = change.number()
            self.last = change.number()
            if change.is_forgotten():
                self.first = self.last + 1
        if tail:
            self.first = max(self.first, self.last - tail + 1)

    def changes(self) -> Iterator[Change]:
        return changes_in(self.segments) if self.segments else iter(())

    def entries(self, first: int) -> Iterator[Entry]:
        return (entry_of(change) for change in self.changes() if change.number() >= first)

    def names(self) -> dict[int, str]:
        """What each entry from the first one on is called, and the one before it."""
        found = {}
        for change in self.changes():
            if change.number() >= self.first and "log" in change.entry.head:
                found.setdefault(change.number() - 1, change.entry.head["log"]["prev"])
                found[change.number()] = change.entry.head["log"]["name"]
        return found


def batches(entries: Iterator[Entry]) -> Iterator[list[Entry]]:
    """As many at a time as go into one transaction. (One that is skipped has two keys.)"""
    batch, size = [], 0
    for entry in entries:
        size += len(entry.data())
        if batch and (size > MOST_BYTES or len(batch) >= MOST_CHANGES):
            yield batch
            batch, size = [], len(entry.data())
        batch.append(entry)
    if batch:
        yield batch


def puts(log: SharedLog, batch: list[Entry]) -> list[dict]:
    return [*(putting(log.key(one.number()), one.data()) for one in batch),
            *(putting(log.skip_key(one.number()), SKIPPED.encode()) for one in batch if one.is_skipped)]


def push(log: SharedLog, folder: pathlib.Path, tail: int) -> tuple[int, int]:
    """Gives etcd what it lacks of a shard's log; up to which entry it had that before, and has it now."""
    held, value = Held(folder, tail), log.etcd.get(log.head)
    head = head_in(value) if value else Head(0, "")
    if not held.last:
        if not value:
            begin_empty(log, name_in(folder))
        return head.number, head.number
    if not head.number:
        return 0, begin(log, held, value)
    refuse_other(log, held, head)
    log.freeze(PUSHED)
    mend(log, held, head)
    return head.number, go_on(log, held, head)


def refuse_other(log: SharedLog, held: Held, head: Head) -> None:
    """An error where the last entry that both may have isn't the same."""
    names, number, name = held.names(), head.number, head.name
    if held.last < head.number:
        behind = log.entry(held.last + 1)
        number, name = held.last, behind.head["prev"] if behind else "-"
    if names.get(number) != name:
        raise Wrong(f"entry {number} of etcd isn't the one of this archive: it is another log, or went on without what "
                    "this machine has applied")


def begin(log: SharedLog, held: Held, value: bytes | None) -> int:
    """Makes the log where there is none, or an empty one: its entries first, and its head at the end."""
    if held.first > held.last:
        raise Wrong("the domain of the last entry is forgotten: it can't be given")
    holds = [is_value(log.head, value) if value else is_absent(log.head)]
    log.freeze(PUSHED)
    before = ""
    for batch in batches(held.entries(held.first)):
        made(log, holds, puts(log, batch))
        before, last = before or batch[0].head["prev"], batch[-1]
    made(log, holds, [putting(log.head, Head(last.number(), last.name()).value()),
                      putting(log.of_program, log.program.encode()), putting(log.trimmed, b"%d" % (held.first - 1)),
                      putting(log.begun, f"full {before}".encode())])
    return last.number()


def begin_empty(log: SharedLog, name: str) -> None:
    """Makes a log anew in which nothing was yet."""
    log.freeze(PUSHED)
    made(log, [is_absent(log.head)], [putting(log.head, Head(0, name).value()),
                                      putting(log.of_program, log.program.encode()),
                                      putting(log.begun, f"full {name}".encode())])


def go_on(log: SharedLog, held: Held, head: Head) -> int:
    """Appends what the archive has behind etcd's head."""
    for batch in batches(held.entries(head.number + 1)):
        behind = Head(batch[-1].number(), batch[-1].name())
        made(log, [is_value(log.head, head.value())], [*puts(log, batch), putting(log.head, behind.value())])
        head = behind
    return head.number


def kept(log: SharedLog, first: int) -> dict[bytes, str]:
    """What the entries are called that etcd has from a number on, by their keys."""
    found: dict[bytes, str] = {}
    start = log.key(first)
    while pairs := log.etcd.range(start, after(log.log), MOST_READ):
        found.update((key, hashlib.sha256(value).hexdigest()) for key, value in pairs)
        start = pairs[-1][0] + b"\0"
    return found


def mend(log: SharedLog, held: Held, head: Head) -> None:
    """Gives those that etcd has otherwise, and those that are missing in its middle."""
    trimmed = int(log.etcd.get(log.trimmed) or b"0")
    there = kept(log, trimmed + 1)
    wrong = (entry for entry in held.entries(max(held.first, trimmed + 1))
             if entry.number() <= head.number and there.get(log.key(entry.number())) != entry.name())
    for batch in batches(wrong):
        made(log, [is_value(log.head, head.value())], puts(log, batch))


def made(log: SharedLog, holds: list[dict], what: list[dict]) -> None:
    if not log.etcd.transaction(holds, what)[0]:
        raise Wrong("another one writes into the log at the same time: look who does, then push again")
