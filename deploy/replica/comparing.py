"""Compares what replicas have answered to each entry: all first replies are the same, or one of the replicas is
wrong."""
from __future__ import annotations

import collections
import threading
from dataclasses import dataclass

# of how many entries replies are held
MOST_HELD = 3_000


@dataclass(frozen=True)
class Verdict:
    """That replies to an entry, or rows behind it, differ: what they are, and which replica alone has others than two
    others."""
    number: int
    said: dict[str, list]
    alone: str | None
    kind: str = "replies to"

    def what(self) -> str:
        return f"{self.kind} entry {self.number} differ"

    def shown(self) -> str:
        return f"{self.what()}: {self.said}"[:600]


def verdict_on(number: int, said: dict[str, list], kind: str = "replies to") -> Verdict | None:
    """What is wrong; None where all say the same."""
    kinds = list(said.values())
    if all(one == kinds[0] for one in kinds):
        return None
    alone = [who for who, one in said.items() if kinds.count(one) == 1]
    return Verdict(number, dict(said), alone[0] if len(said) > 2 and len(alone) == 1 else None, kind)


class Comparing:
    """First replies by their entries and replicas. A reply is the status and the body, as JSON has them."""

    def __init__(self) -> None:
        self.held: collections.OrderedDict[int, dict[str, list]] = collections.OrderedDict()
        self.lock = threading.Lock()

    def hear(self, name: str, number: int, reply: list) -> Verdict | None:
        """Notes a first reply; what is wrong, if that differs from another one."""
        with self.lock:
            said = self.held.setdefault(number, {})
            said[name] = reply
            if len(self.held) > MOST_HELD:
                self.held.popitem(last=False)
            return verdict_on(number, said)

    def first_reply(self, number: int) -> list | None:
        """What some replica has answered to an entry that it applied once."""
        with self.lock:
            return next(iter(self.held.get(number, {}).values()), None)
