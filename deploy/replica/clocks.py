"""The clocks by which a lease lasts: one that only goes on, also while the machine sleeps, and the wall clock, by which
HAProxy compares."""
from __future__ import annotations

import time
from collections.abc import Iterator
from typing import Protocol

# how often the wall clock is looked at, and by how much it may go otherwise meanwhile, in seconds
LOOKS, OFF = 0.1, 0.02


class Clock(Protocol):
    """Two clocks, in seconds."""
    def time(self) -> float: ...
    def monotonic(self) -> float: ...
    def sleep(self, seconds: float) -> None: ...


class Machine:
    """Those of this machine."""

    def time(self) -> float:
        return time.time()

    def monotonic(self) -> float:
        return time.clock_gettime(time.CLOCK_BOOTTIME)

    def sleep(self, seconds: float) -> None:
        time.sleep(seconds)


def steps(clock: Clock) -> Iterator[float]:
    """By how much the wall clock was set since it was looked at last, again and again; 0 where it wasn't."""
    before = clock.time() - clock.monotonic()
    while True:
        clock.sleep(LOOKS)
        now = clock.time() - clock.monotonic()
        yield now - before if abs(now - before) > OFF else 0.0
        before = now
