"""What the daemon keeps of each domain beside the records: places, keys and checkpoints."""
from __future__ import annotations

import collections
import queue
import threading
from collections.abc import Callable
from dataclasses import dataclass

from .archive import Archive, segments_in
from .domains import Place, Places, add_places, checkpoints_in, folder_of, key_at, make_key
from .history import Change, Unknown, changes_in
from .past import Past, Wrong, micros
from .record import Damaged, Record
from .sealing import deflated, sealed

# a checkpoint is written behind so many changes of a domain, or so many bytes of their bodies
MOST_CHANGES, MOST_BYTES = 1_000, 2_000_000
# of how many domains what was read is held in memory
MOST_KNOWN = 4_096


@dataclass
class Known:
    """A domain's last change, the key for the next one (0 for a new one), and what came behind its last checkpoint."""
    last: int
    key: int
    changes: int
    bytes: int


class Keeping:
    """Of one archive. A checkpoint is written by a thread of its own, so no change waits for it."""

    def __init__(self, archive: Archive, say: Callable[[str], None]):
        self.archive, self.home, self.say = archive, archive.folder, say
        self.known: collections.OrderedDict[str, Known] = collections.OrderedDict()
        self.due: queue.Queue[str] = queue.Queue()
        (self.home / "domains").mkdir(mode=0o700, exist_ok=True)
        self.repair()
        threading.Thread(target=self.write_checkpoints, daemon=True).start()

    def repair(self) -> None:
        """Makes the places of the last file's changes anew: a kill may have left some out, and a crash spoilt some."""
        held: dict[str, list[Place]] = {}
        for segment in segments_in([self.home])[-1:]:
            for change in changes_in([segment]):
                if change.reply:
                    place = place_of(change, segment.first)
                    held.setdefault(change.domain(), []).append(place)
            for domain, places in held.items():
                folder = folder_of(self.home, domain)
                add_places(folder, places, Places(folder).behind(lambda place: 0 < place.number < segment.first))

    def of(self, domain: str) -> Known:
        """What is known of a domain, read where it isn't held."""
        found = self.known.pop(domain, None) or self.read(domain)
        self.known[domain] = found
        if len(self.known) > MOST_KNOWN:
            self.known.popitem(last=False)
        return found

    def read(self, domain: str) -> Known:
        folder = folder_of(self.home, domain)
        places, checkpoints = Places(folder), checkpoints_in(folder)
        if not places:
            return Known(0, 0, 0, 0)
        last, behind = places[len(places) - 1], checkpoints[-1][0] if checkpoints else 0
        since = places.behind(lambda place: place.number <= behind)
        sizes = [places[index].size for index in range(max(since, len(places) - MOST_CHANGES), len(places))]
        return Known(last.number, 0 if last.removes else last.key, len(sizes), sum(sizes))

    def before(self, domain: str, number: int) -> tuple[dict, bytes]:
        """What the head of a domain's next entry has to say, and the key of its body."""
        known = self.of(domain)
        if not known.key:
            key = make_key(self.home, domain, number)
            return {"before": known.last, "key": number}, key
        return {"before": known.last, "key": known.key}, key_at(self.home, domain, known.key)

    def as_kept(self, domain: str, number: int, body: bytes) -> tuple[dict, bytes]:
        """The same of an entry with that body, and the body as the archive has it."""
        more, key = self.before(domain, number)
        short = deflated(body)
        if short is None:
            return more, sealed(key, body)
        return {**more, "coding": "deflate", "size": len(body)}, sealed(key, short)

    def behind(self, entry: Record, reply: Record) -> None:
        """Notes the place of a change that is answered."""
        change = Change(entry, reply, self.home)
        domain, place = change.domain(), place_of(change, self.archive.first)
        add_places(folder_of(self.home, domain), [place])
        known = self.of(domain)
        known.last, known.key = place.number, 0 if place.removes else place.key
        known.changes, known.bytes = known.changes + 1, known.bytes + place.size
        if known.changes >= MOST_CHANGES or known.bytes >= MOST_BYTES:
            known.changes = known.bytes = 0
            self.due.put(domain)

    def write_checkpoints(self) -> None:
        """Writes one after another, for ever."""
        while True:
            domain = self.due.get()
            try:
                Past(segments_in([self.home]), domain).write_checkpoint()
            except (OSError, Damaged, Unknown, Wrong) as fault:
                # it only saves time; the next one is tried when it is due
                self.say(f"no checkpoint of {domain!r} was written: {fault}")
            except Exception as fault:  # noqa: BLE001 (a thread that ended would write none any more)
                self.say(f"no checkpoint of {domain!r} was written: {fault!r}")


def place_of(change: Change, first: int) -> Place:
    """The place of a change in the file that begins with that entry. (A replay takes the whole of a deflated body.)"""
    head = change.entry.head
    return Place(change.number(), first, change.entry.start, head.get("size", len(change.entry.body)),
                 micros(change.ended()), head["key"], int(change.removes()))
