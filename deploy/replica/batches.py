"""Changes that wait to be appended to the log in etcd."""
from __future__ import annotations

from log.daemon import Turns

from . import core


class Batches(Turns):
    """Changes that wait to be appended, in order."""

    def next_batch(self) -> list[core.Change]:
        """Takes the first ones, once there are some, as many as go into one transaction. What has waited for too
        long is brought to its end."""
        with self.lock:
            while True:
                self.lock.wait_for(lambda: self.held)
                batch, size, now = [], 0, core.CLOCK.monotonic()
                while self.held and len(batch) < core.MOST_CHANGES:
                    size += self.held[0].size()
                    if batch and size > core.MOST_BYTES:
                        break
                    change = self.held.popleft()
                    if change.until < now:
                        change.end(0, core.UNAVAILABLE)
                    else:
                        batch.append(change)
                if batch:
                    return batch
