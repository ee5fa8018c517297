"""What the rows of schedules answer: peers come, send and take bytes, and turns are taken."""
from networks import Network, Timer
from reactors import Halt, Reactor


class Schedule:
    """What the fields of a row do, and what they answer."""

    def __init__(self, server):
        self.network, self.timer, self.told = Network(), Timer(), None
        self.server, self.found = server, []
        self.reactor, self.is_split = Reactor(server, self.network, self.timer), False

    def limits(self, text):
        idle, message = (int(word) or None for word in text.split(":"))
        self.reactor = Reactor(self.server, self.network, self.timer, idle, message, self.is_split)

    def split(self, _):
        self.is_split = True
        self.limits("30000:10000")

    def arrive(self, text):
        for _ in range(int(text)):
            self.network.arrive()

    def arrive_changes(self, text):
        for _ in range(int(text)):
            self.network.arrive(at_changes=True)

    def peer(self, text):
        number, _, what = text.partition(":")
        return self.network.peers[int(number)], what

    def comes(self, text):
        peer, held = self.peer(text)
        peer.sends += bytes.fromhex(held)

    def ends(self, text):
        self.peer(text)[0].has_ended = True

    def takes(self, text):
        peer, count = self.peer(text)
        peer.takes = int(count)

    def fails(self, text):
        kind, every = text.split(":")
        self.network.every[kind] = int(every)

    def ready(self, text):
        place, letters = text.split(":")
        self.told = self.told or {}
        self.told[int(place)] = [letter in letters for letter in "rwe"]

    def time(self, text):
        self.timer.now = int(text)

    def passes(self, text):
        self.timer.step = int(text)

    def clock(self, text):
        self.reactor.moment = int(text)

    def no_clock(self, _):
        self.reactor.moment = None

    def end(self, _):
        self.is_ending = True

    def got(self, text):
        self.found.append(f"got {self.network.peers[int(text)].got.hex()}")

    def waits(self):
        """What the network tells before a turn: what a row says, or what is so."""
        for place, peer in enumerate(self.network.seats):
            so = [bool(peer.sends) or peer.has_ended, peer.takes != 0, peer.has_ended] if peer else [False] * 3
            self.reactor.note(place, *(so if self.told is None else self.told.get(place, [False] * 3)))
        self.reactor.door = self.reactor.door or bool(self.network.waiting[False])
        self.reactor.changes = self.reactor.changes or bool(self.network.waiting[True])
        self.reactor.end = self.reactor.end or getattr(self, "is_ending", False)
        self.told = None

    def turn(self, _):
        """A turn, with what was done in it."""
        self.waits()
        self.reactor.deeds, halted = [], None
        try:
            rest = self.reactor.turn()
            how = "rests" if rest is None else f"rests {rest}"
        except Halt as halt:
            how = halted = f"halts {halt}"
        self.found.append(" ".join(["turn", *self.reactor.deeds, how]))
        return halted is None


def schedule(line, server):
    """The answer to a row."""
    row = Schedule(server)
    for field in line.split("\t"):
        word, _, text = field.partition(":")
        if getattr(row, word.replace("-", "_"))(text) is False:
            break
    return "".join(f"{field}\t" for field in row.found)
