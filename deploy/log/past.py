"""The changes of one domain in an archive, from any moment on, without reading those of others: by its places and its
checkpoints, or by all records where there are no such or wrong ones."""
from __future__ import annotations

import hashlib
import itertools
import json
import pathlib
from collections.abc import Iterator

from .archive import Segment
from .domains import Places, add_text, checkpoints_in, folder_of, key_at, keys_in, read_whole, text_of, write_synced
from .history import Change, State, Unknown, changes_in
from .sealing import opened, sealed

# how many bytes an entry's head and its reply have together at the most, but for odd ones, which are read once more
MOST_BESIDE, MOST_RECORDS = 1 << 16, 1 << 22


class Wrong(Exception):
    """The places of a domain aren't those of its changes."""


def micros(at: float) -> int:
    """A moment in microseconds."""
    return round(at * 1e6)


class Past:
    """The changes of one domain in one archive."""

    def __init__(self, segments: list[Segment], domain: str):
        self.segments, self.domain, self.home = segments, domain, segments[0].home
        self.folder = folder_of(self.home, domain)
        self.places = Places(self.folder)
        self.by_first = {segment.first: segment for segment in segments}

    def is_there(self) -> bool:
        """Whether the archive has changes of the domain."""
        if (self.home / "domains").is_dir():
            return self.folder.is_dir()
        return any(change.domain() == self.domain for change in changes_in(self.segments))

    def change_at(self, index: int) -> Change:
        """The change at a place."""
        place = self.places[index]
        before = self.places[index - 1].number if index else 0
        if place.number <= before:
            raise Wrong(f"place {index} is of entry {place.number}")
        segment = self.by_first.get(place.first)
        if segment is None:
            raise Unknown(f"the file that begins with entry {place.first} isn't there: name its folder by --archive")
        for length in (place.size + MOST_BESIDE, MOST_RECORDS):
            held = segment.records_at(place.offset, length)
            if len(held) == 2:
                break
        else:
            raise Wrong(f"no change is at byte {place.offset} of {segment.path}")
        entry, reply = held
        found = entry.head["n"], entry.head["domain"], entry.head["before"], reply.head["n"]
        if found != (place.number, self.domain, before, place.number):
            raise Wrong(f"another change is at byte {place.offset} of {segment.path}")
        return Change(entry, reply, self.home)

    def scanned(self, above: int) -> Iterator[Change]:
        """The changes behind an entry, by all records."""
        if self.segments[0].first != 1:
            raise Unknown(f"the archive begins with entry {self.segments[0].first}: name the folders of the earlier "
                          "files too")
        for change in changes_in(self.segments):
            if change.domain() == self.domain and change.number() > above:
                yield change

    def changes(self, index: int = 0) -> Iterator[Change]:
        """The changes from a place on, and those at the archive's end that have none yet."""
        last = self.places[index - 1].number if index else 0
        try:
            for place in range(index, len(self.places)):
                found = self.change_at(place)
                last = found.number()
                yield found
            if len(self.places) == 0 and not (self.home / "domains").is_dir():
                raise Wrong("there are no places")
            for found in changes_in(self.segments[-1:]):
                if found.domain() != self.domain or found.number() <= last:
                    continue
                if found.entry.head["before"] != last:
                    raise Wrong(f"entry {found.entry.head['before']} has no place")
                last = found.number()
                yield found
        except Wrong:
            yield from self.scanned(last)

    # ---- checkpoints

    def state_of(self, path: pathlib.Path, number: int) -> State | None:
        """The state that a checkpoint has; None where it isn't one of this archive."""
        key = key_at(self.home, self.domain, int(path.parent.name))
        digest, _, data = read_whole(path).partition(b"\n")
        if hashlib.sha256(data).hexdigest().encode() != digest:
            return None
        try:
            held = json.loads(opened(key, data))
        except ValueError:
            return None  # (the key is another one)
        index = self.places.behind(lambda place: place.number < number)
        if held["record"] != self.change_at(index).reply.digest:
            return None
        texts = [text_of(path.parent, key, one) for one in (held["root"], held["rows"],
                                                            *(document[1] for document in held["documents"]))]
        if None in texts:
            return None
        root, rows, *documents = texts
        return State(held["is_there"], True, held["tokens"],
                     {tuple(one[0]): text for one, text in zip(held["documents"], documents)},
                     {tuple(one) for one in held["active"]}, root, rows)

    def write_checkpoint(self) -> None:
        """Writes one behind the last change that has a place. Of a domain that was there before its archive none is."""
        count = len(self.places)
        if not count or self.places[count - 1].removes:
            return
        last = self.places[count - 1]
        state = self.state_behind(count)
        if not state.is_known:
            return
        key, folder = key_at(self.home, self.domain, last.key), self.folder / f"{last.key:016d}"
        folder.mkdir(mode=0o700, exist_ok=True)
        held = {"record": self.change_at(count - 1).reply.digest, "is_there": state.is_there, "tokens": state.tokens,
                "documents": [[name, add_text(folder, key, text)] for name, text in state.documents.items()],
                "active": sorted(state.active), "root": add_text(folder, key, state.root),
                "rows": add_text(folder, key, state.rows)}
        data = sealed(key, json.dumps(held).encode())
        write_synced(folder / f"{last.number:016d}.{last.ended:016d}",
                     hashlib.sha256(data).hexdigest().encode() + b"\n" + data)

    def start(self, count: int) -> tuple[int, State]:
        """The last checkpoint or removal among the first so many places: how many those are, and the state."""
        last = self.places[count - 1].number if count else 0
        for number, _, path in reversed(checkpoints_in(self.folder)):
            if number > last:
                continue
            index = self.places.behind(lambda place, number=number: place.number <= number)
            if (state := self.state_of(path, number)) is not None:
                return self.behind_removal(index, count) or (index, state)
        return self.behind_removal(0, count) or (0, State())

    def behind_removal(self, low: int, count: int) -> tuple[int, State] | None:
        """The same of the last removal among the places from one to another one."""
        for index in range(count, low, -1):
            if self.places[index - 1].removes:
                return index, State()
        return None

    def over(self) -> list[int]:
        """The keys of the times for which the domain was there that are over."""
        ends = {place.key for place in (self.places[index] for index in range(len(self.places))) if place.removes}
        return [key for key in keys_in(self.folder) if key in ends]

    def state_behind(self, count: int) -> State:
        """What the domain has behind the first so many places."""
        index, state = self.start(count)
        state.take_all(self.change_at(place) for place in range(index, count))
        return state

    def since(self, at: float) -> tuple[State, Iterator[Change]]:
        """What a domain had at a moment, without the change that was under way then, and the changes from that on."""
        state, rest = State(), None
        try:
            count = self.places.behind(lambda place: place.ended <= micros(at))
            index, state = self.start(count)
            rest = self.changes(index)
        except Wrong:
            rest = self.scanned(0)
        first: list[Change] = []
        state.take_all(until(at, rest, first))
        return state, itertools.chain(first, rest)


def until(at: float, changes: Iterator[Change], first: list[Change]) -> Iterator[Change]:
    """The changes that had ended by a moment; `first` gets the one behind them."""
    for change in changes:
        if change.ended() > at:
            first.append(change)
            return
        yield change


def state_before(past: Past, at: float) -> tuple[State, Change | None]:
    """What a domain had at a moment, without the change that was under way then, and that change."""
    state, rest = past.since(at)
    state.refuse_unknown(past.domain)
    under_way = next(rest, None)
    return state, under_way if under_way and under_way.began() <= at else None


def pasts_of(archives: list[list[Segment]], domain: str) -> list[Past]:
    """The archives that have changes of a domain."""
    return [past for past in (Past(segments, domain) for segments in archives) if past.is_there()]


def past_of(archives: list[list[Segment]], domain: str) -> Past:
    """The archive that has changes of a domain."""
    found = pasts_of(archives, domain)
    if not found:
        raise Unknown(f"no archive has a change of the domain {domain!r}")
    if len(found) > 1:
        raise Unknown(f"several archives have changes of {domain!r}, which was moved: name one of them")
    return found[0]
