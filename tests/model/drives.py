"""What becomes of a connection that is driven: it is read from, all whole messages are answered, each at the clock's
moment, and each reply is written.

Reads, writes and flushes are those of a peer that says how many bytes it gives or takes at most at a call, which call
fails, and which are interrupted.
"""
from fronts import Connections, shown
from messages import Message
from rows import decoded, encoded
from servers import each_encoded, in_runs

MOST_READS, MOST_READ = 1_000_000, 65_536


class Interrupted(Exception):
    """A call that is to be made again."""


class Failed(Exception):
    """A call that fails."""


class End(Exception):
    """How the connection has ended, by its name."""


class Calls:
    """Calls of one kind."""

    def __init__(self):
        self.size, self.fails, self.interrupted, self.count = MOST_READ, 0, range(0), 0

    def set(self, text):
        """Settings of a field: the size of all, the number of the one that fails, or those that are interrupted."""
        word, _, number = text.partition(" ")
        first, _, last = number.partition("-")
        if word == "size":
            self.size = int(number)
        elif word == "fails":
            self.fails = int(number)
        else:
            self.interrupted = range(int(first), int(last or first) + 1)

    def next(self):
        """How many bytes the next call may give or take."""
        self.count += 1
        if self.count in self.interrupted:
            raise Interrupted
        if self.count == self.fails:
            raise Failed
        return self.size


class Peer:
    """The other end of a connection: what it sends, and what it has got, by flushes."""

    def __init__(self):
        self.reads, self.writes, self.flushes = Calls(), Calls(), Calls()
        self.sends, self.kept, self.got = b"", b"", []

    def read(self):
        size = self.reads.next()
        held, self.sends = self.sends[:size], self.sends[size:]
        return held

    def write(self, held):
        """Takes all of the bytes."""
        while held:
            try:
                size = self.writes.next()
            except Interrupted:
                continue
            if not size:
                raise Failed
            self.kept, held = self.kept + held[:size], held[size:]
        self.flushes.next()
        self.got, self.kept = self.got + [self.kept], b""


class Driving(Connections):
    """Lets events happen to a front, and drives its connections."""

    def __init__(self, server):
        super().__init__(server)
        self.peer, self.moments = Peer(), None
        self.door, self.is_shut = [], False

    def comes(self, text):
        """The peer sends bytes."""
        self.peer.sends += decoded(text)
        return []

    def calls(self, word, text):
        """Settings of the peer's calls."""
        getattr(self.peer, word).set(text)
        return []

    def clock(self, text):
        """Tells only so many moments more."""
        self.moments = int(text)
        return []

    def waiting_message(self, number):
        """Whether a whole message is held."""
        stream = self.front.stream(number)
        held, has_ended = stream.held, stream.has_ended
        found = stream.next()
        stream.held, stream.has_ended = held, has_ended
        return isinstance(found, Message)

    def tell(self):
        """A moment is told, if the clock has one."""
        if self.moments == 0:
            raise End("NoClock")
        self.moments = None if self.moments is None else self.moments - 1

    def answer_all(self, number):
        """Answers all whole messages, and writes each reply before the next message is answered."""
        while True:
            if self.waiting_message(number):
                self.tell()
            answer = self.front.answer(number, self.moment)
            if answer is None:
                return
            try:
                self.peer.write(answer.reply)
            except (Failed, Interrupted):
                raise End("WriteFault") from None
            if answer.is_last:
                raise End("Ended")

    def read(self, number):
        try:
            held = self.peer.read()
        except Interrupted:
            return
        except Failed:
            raise End("ReadFault") from None
        if not held:
            raise End("Ended")
        self.front.piece(number, held)

    def driven(self, number):
        """How the connection ends."""
        try:
            if self.front.streams[number] is None or self.front.streams[number].has_ended:
                raise End("Ended")
            self.answer_all(number)
            for _ in range(MOST_READS):
                self.read(number)
                self.answer_all(number)
            raise End("TooManyReads")
        except End as end:
            return str(end)

    def shown(self, number):
        """How the connection ends, and what the peer has got."""
        end, peer = self.driven(number), self.peer
        unflushed = ["unflushed:" + encoded(peer.kept)] if peer.kept else []
        unread = [f"unread {len(peer.sends)}"] if peer.sends else []
        return [end] + in_runs(each_encoded(peer.got)) + unflushed + unread

    def drive(self, text):
        """Drives a connection; then another peer begins."""
        found = self.shown(int(text))
        self.peer, self.moments = Peer(), None
        return found

    def queues(self, _):
        """The peer waits at the door, and another begins."""
        self.door.append(self.peer)
        self.peer = Peer()
        return []

    def next_shown(self):
        """Takes the peer that came first, on a connection of its own, and drives it; none is taken behind the last."""
        if self.is_shut or not self.door:
            return ["!Failed"]
        self.peer, number = self.door.pop(0), self.front.open()
        found = self.shown(number)
        self.front.close(number)
        return found

    def serve(self, text):
        """Takes so many peers, one after another."""
        found, begun = [], self.peer
        for number in range(int(text)):
            found += self.next_shown()
            self.is_shut = self.is_shut or number + 1 == int(text)
        self.peer, self.moments = begun, None
        return found

    def happen(self, word, text):
        if word in ("reads", "writes", "flushes"):
            return self.calls(word, text)
        own = ("comes", "clock", "drive", "queues", "serve")
        return getattr(self, word)(text) if word in own else super().happen(word, text)


def driven(*fields):
    """The answer to a row of connections that are driven."""
    return shown(fields, Driving)
