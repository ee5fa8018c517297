"""What a reactor is beside: peers that come over a network whose calls may fail, and a timer.

Peers say what they send and how many bytes they take at a write; every so many reads, writes and arrivals fail. Times
are milliseconds of a timer that may stand, or go on each time that it is asked.
"""
from fronts import MOST_OPEN

PIECE = 65_536


class Blocked(Exception):
    """A call that would wait."""


class Failed(Exception):
    """A call that fails."""


class Peer:
    """The other end of a connection: what it sends, whether that is all, how much it takes at a write, and what it has
    got."""

    def __init__(self):
        self.sends, self.has_ended, self.takes, self.got, self.is_parted = b"", False, None, b"", False


class Network:
    """Peers that wait at the door or sit at places, and calls of which every so many fail."""

    def __init__(self):
        self.peers, self.waiting, self.guest, self.seats = [], {False: [], True: []}, None, [None] * MOST_OPEN
        self.every, self.counts, self.is_shut = {}, {"read": 0, "write": 0, "accept": 0}, False

    def counted(self, kind):
        """Counts a call, which may be one that fails."""
        self.counts[kind] += 1
        if self.every.get(kind) and self.counts[kind] % self.every[kind] == 0:
            raise Failed

    def arrive(self, at_changes=False):
        self.peers.append(Peer())
        if not self.is_shut:
            self.waiting[at_changes].append(self.peers[-1])

    def accept(self, at_changes=False):
        """Whether one has come."""
        if self.is_shut or not self.waiting[at_changes]:
            return False
        self.counted("accept")
        self.guest = self.waiting[at_changes].pop(0)
        return True

    def receive(self, place):
        """At most so many bytes as a piece has; none at the end."""
        peer = self.seats[place]
        self.counted("read")
        if not peer.sends and not peer.has_ended:
            raise Blocked
        held, peer.sends = peer.sends[:PIECE], peer.sends[PIECE:]
        return held

    def send(self, place, held):
        """How many of the bytes were taken."""
        peer = self.seats[place]
        self.counted("write")
        if peer.takes == 0:
            raise Blocked
        count = min(len(held), len(held) if peer.takes is None else peer.takes)
        peer.got += held[:count]
        return count


class Timer:
    """What tells the time, and each time so much more."""

    def __init__(self):
        self.now, self.step = 0, 0

    def tell(self):
        told, self.now = self.now, self.now + self.step
        return told
