"""Whether an archive is what the daemon wrote, and its replies are those of a replay."""
from __future__ import annotations

from collections.abc import Iterable, Iterator
from dataclasses import dataclass, field

from .archive import Segment
from .domains import checkpoints_in
from .history import Change, State, Unknown, changes_in, is_of_whole, is_older
from .messages import bytes_of_entry
from .past import Past
from .past import Wrong as WrongPlaces
from .replaying import OPERATOR, replay


@dataclass
class Checked:
    """What was found: how many changes were replayed, the domains that were left out since they were there before the
    archive or were forgotten, how many checkpoints are right, and what is wrong."""
    count: int = 0
    older: set[str] = field(default_factory=set)
    forgotten: set[str] = field(default_factory=set)
    checkpoints: int = 0
    wrong: list[str] = field(default_factory=list)


class Messages:
    """The messages of all changes in order, and of which change each is; one that was sent twice is sent twice here.
    Domains that were there before the archive began or were forgotten are left out, and noted."""

    def __init__(self, changes: Iterable[Change], found: Checked):
        self.changes, self.found = changes, found
        self.told: list[tuple[int, bytes]] = []
        self.there: set[str] = set()
        self.unknown: set[str] = set()
        self.keys: dict[tuple[str, int], bool] = {}

    def is_forgotten(self, change: Change) -> bool:
        key = change.domain(), change.entry.head["key"]
        if key not in self.keys:
            self.keys[key] = change.is_forgotten()
        return self.keys[key]

    def is_left_out(self, change: Change) -> bool:
        domain = change.domain()
        if change.is_skipped():
            return True
        if self.is_forgotten(change):
            self.found.forgotten.add(domain)
            return True
        if is_older(change, domain in self.there):
            self.found.older.add(domain)
            self.unknown.add(domain)
        is_out = change.reply is None or domain in self.unknown
        if is_of_whole(change):
            (self.there.add if change.entry.head["method"] == "PUT" else self.there.discard)(domain)
            if is_out and change.status() == 200:
                # removed: what it has from now on is known
                self.unknown.discard(domain)
        return is_out

    def __iter__(self) -> Iterator[tuple[int, bytes]]:
        for change in self.changes:
            if self.is_left_out(change):
                continue
            message = bytes_of_entry(change.entry.head, change.body(), OPERATOR)
            for _ in range(2 if change.is_again() else 1):
                self.told.append((change.number(), change.reply.body))
                yield int(change.began()), message


def replayed(segments: list[Segment], found: Checked) -> None:
    """Notes which replies a replay gives otherwise. A damaged record or a broken chain is an error."""
    messages, given = Messages(changes_in(segments), found), {}
    for place, reply in enumerate(replay(iter(messages))):
        given.setdefault(messages.told[place][0], []).append(reply.data)
    told = dict(messages.told)
    for number, body in told.items():
        others = given.get(number, [b"nothing"])
        if body not in others:
            found.wrong.append(f"entry {number} was answered {body[-80:]!r}, and replay answers {others[0][-80:]!r}")
    found.count = len(told)


def compared(segments: list[Segment], found: Checked) -> None:
    """Notes which places and checkpoints aren't those of the records."""
    pasts: dict[str, tuple[Past, dict[int, object], State]] = {}
    indexes: dict[str, int] = {}
    for change in changes_in(segments):
        domain = change.domain()
        if domain not in pasts:
            past = Past(segments, domain)
            pasts[domain] = past, {number: path for number, _, path in checkpoints_in(past.folder)}, State()
        past, checkpoints, state = pasts[domain]
        index = indexes[domain] = indexes.get(domain, -1) + 1
        try:
            if change.reply and past.change_at(index).number() != change.number():
                raise WrongPlaces(f"entry {change.number()} has no place")
            if change.is_forgotten():
                continue
            state.take(change)
            if change.number() in checkpoints:
                kept = past.state_of(checkpoints.pop(change.number()), change.number())
                if kept != state:
                    found.wrong.append(f"the checkpoint of {domain} behind entry {change.number()} isn't what it had")
                found.checkpoints += 1
        except (WrongPlaces, IndexError) as fault:
            found.wrong.append(f"the places of {domain} are wrong ({fault}): its folder is {past.folder}")
            indexes[domain] = len(past.places)


def check(segments: list[Segment]) -> Checked:
    """All of it."""
    if segments[0].first != 1:
        raise Unknown(f"the archive begins with entry {segments[0].first}: name the folders of the earlier files too")
    found = Checked()
    replayed(segments, found)
    compared(segments, found)
    return found
