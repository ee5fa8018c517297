"""The map of all domains in the HAProxy of this machine, which is told of changes while it runs.

It has two maps: `groups.map`, with which it began, and `moved.map`, what it was told since, which goes before. To
change an entry HAProxy 2.6 looks through all of its map from one end to the other, for 38 ms of a processor with
300,000; to add one it doesn't. So once many are in the second map they are merged into the first one, part by part,
while changes come.
"""
from __future__ import annotations

import pathlib
import re
from collections.abc import Iterable, Iterator, Mapping

from .etcd import Down
from .groups import MAP, MOVED
from .leases import Leases

# how many commands it is given at a time, and entries of a whole map; a line has 100 bytes at the most
MOST_SAID, PART = 500, 5_000
# how many domains it was told of before these are merged
MOST_MOVED = 20_000
# how long it is waited for when it is asked for a whole map, or given one, in seconds
WHOLE = 60.0
AWAY = FileNotFoundError, ConnectionRefusedError
# what stands in groups.map, where no domain has that name, for the change up to which it goes
CHANGE = "CHANGE"


class Proxy:
    """The HAProxy of this machine, and its copies of the map."""

    def __init__(self, leases: Leases, folder: pathlib.Path):
        self.leases, self.base, self.moved = leases, folder / MAP, folder / MOVED
        # what it has in moved.map; what it was told while that is merged; whether a command had no answer
        self.told: dict[str, str] = {}
        self.late: dict[str, str] = {}
        self.is_unsure = True

    def asked(self, command: str, seconds: float = 10.0) -> str | None:
        """What it says; None where there is none. A Down where it is there and says nothing."""
        try:
            return self.leases.asked(command, seconds)
        except AWAY:
            return None
        except OSError as fault:
            raise Down(f"HAProxy: {fault}") from None

    def has_taken(self, commands: str) -> bool:
        """Whether it has taken these; a Down where it says something to them."""
        if said := self.asked(commands, WHOLE):
            raise Down(f"HAProxy doesn't take its map: {said[:200]}")
        return said is not None

    def process(self) -> int:
        """Its process; 0 where there is none."""
        found = re.search(r"(?m)^Pid: (\d+)$", self.asked("show info") or "")
        return int(found[1]) if found else 0

    def shown(self, file: pathlib.Path) -> dict[str, str]:
        """What it has of a map. (Of two entries the first one counts.)"""
        lines = (self.asked(f"show map {file}", WHOLE) or "").splitlines()
        return dict(words[1:] for line in reversed(lines) if len(words := line.split()) == 3)

    def begun(self) -> int | None:
        """Up to which change the file went with which it began; None where it doesn't say so."""
        found = re.search(r'key="CHANGE", value="(\d+)"', self.asked(f"get map {self.base} {CHANGE}") or "")
        return int(found[1]) if found else None

    def look(self) -> None:
        """Learns what it has in moved.map."""
        self.told, self.is_unsure = self.shown(self.moved), False

    def tell(self, changes: Mapping[str, str]) -> None:
        """Tells it where domains are. What it has already it isn't told again."""
        if self.is_unsure:
            self.look()
        new = [(name, place) for name, place in changes.items() if self.told.get(name) != place]
        for first in range(0, len(new), MOST_SAID):
            part = new[first:first + MOST_SAID]
            commands = [f"{'set' if name in self.told else 'add'} map {self.moved} {name} {place}"
                        for name, place in part]
            self.is_unsure = True
            self.late.update(part)  # (it may have taken what it doesn't answer)
            self.is_unsure = not self.has_taken("; ".join(commands))
            self.told.update(part)

    def differing(self, places: Mapping[str, str]) -> dict[str, str]:
        """Where it leads domains otherwise than these places; it is asked for all that it has."""
        self.look()
        known = {**self.shown(self.base), **self.told}
        return {name: place for name, place in places.items() if known.get(name) != place}

    # ---- merging

    def wants_merging(self) -> bool:
        return len(self.told) > MOST_MOVED

    def merging(self, places: Mapping[str, str]) -> Iterator[None]:
        """Gives it all places as groups.map, part by part, and leaves in moved.map what it is told meanwhile."""
        names, self.late = list(places), {}
        yield from self.replacing(self.base, names, places)
        for _ in self.replacing(self.moved, list(self.late), self.late):
            pass
        self.told, self.late = {**self.late}, {}

    def replacing(self, file: pathlib.Path, names: list[str], places: Mapping[str, str]) -> Iterator[None]:
        """Has it put another map in place of the one of a file, at once, which it was given part by part."""
        said = self.asked(f"prepare map {file}") or ""
        if not (found := re.search(r"version created: (\d+)", said)):
            raise Down(f"HAProxy doesn't begin another map: {said[:200]}")
        for first in range(0, len(names), PART):
            lines = "".join(f"{name} {places[name]}\n" for name in names[first:first + PART])
            self.has_taken(f"add map @{found[1]} {file} <<\n{lines}")
            yield
        self.has_taken(f"commit map @{found[1]} {file}")

    def allow(self, moment: float) -> None:
        """Has it answer, and take what it doesn't know for no domain until that moment, in seconds since 1970."""
        line = f"map {self.leases.file} MAPPED {int(moment * 1000)}"
        if self.asked(f"set {line}"):
            self.asked(f"add {line}")
