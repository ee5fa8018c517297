"""What the program pdpd writes to a transcript, and the status with which it ends: its entries, their connections, and
the domains that messages make."""
import collections
import re

from machines import Server
from messages import Fault, Message, Stream
from replies import error_reply
from servers import OPERATOR_TOKEN

LAST_CONNECTION, MOST_BYTES, MOST_IN_A_LINE = 63, 1_048_576, 64
FIRST_MOMENT, LAST_MOMENT = -62_135_596_800, 253_402_300_799
DONE, MALFORMED = 0, 3
# an entry; and what it brings: a message or a fault, with the message's bytes and whether the stream has ended with it
Entry = collections.namedtuple("Entry", "connection moment held")
Event = collections.namedtuple("Event", "connection moment found held is_last")


class Malformed(Exception):
    """The transcript doesn't go on with a whole entry."""


def entry_at(held, at):
    """The entry that begins there, and where it ends."""
    end = held.find(b"\n", at, at + MOST_IN_A_LINE + 1)
    found = re.fullmatch(rb"([0-9]+) (-?[0-9]+) ([0-9]+)", held[at:end]) if end >= 0 else None
    if found is None:
        raise Malformed
    connection, moment, count = map(int, found.groups())
    behind = end + 1 + count
    if (connection > LAST_CONNECTION or count > MOST_BYTES or not FIRST_MOMENT <= moment <= LAST_MOMENT
        or held[behind:behind + 1] != b"\n"):
        raise Malformed
    return Entry(connection, moment, held[end + 1:behind]), behind + 1


class Connections:
    """The streams of the connections that are open."""

    def __init__(self):
        self.streams = {}

    def events(self, entry):
        """What the entry brings, in order."""
        connection, moment, held = entry
        if not held:
            self.streams.pop(connection, None)
            return
        stream = self.streams.setdefault(connection, Stream())
        if stream.has_ended:
            return
        stream.held += held
        before = stream.held
        while isinstance(found := stream.next(), (Message, Fault)):
            yield Event(connection, moment, found, before[:len(before) - len(stream.held)], stream.has_ended)
            before = stream.held


def events(held):
    """What all entries of a transcript bring, in order; it is malformed behind them, or done."""
    at, connections = 0, Connections()
    while at < len(held):
        entry, at = entry_at(held, at)
        yield from connections.events(entry)


def replay(held):
    """The bytes that are written, and the status."""
    server, written = Server(OPERATOR_TOKEN), []
    try:
        for event in events(held):
            reply = (server.answer(event.found, event.moment)
                     if isinstance(event.found, Message) else error_reply(str(event.found)))
            written.append(b"%d %d\n%b\n" % (event.connection, len(reply), reply))
    except Malformed:
        return b"".join(written), MALFORMED
    return b"".join(written), DONE
