"""Each connection alone: what came on it in one piece. The k-th reply that it gets among all others must be the reply
to the k-th message of that stream, whatever the pieces of all connections and however they are mixed."""
from fronts import Answer, Connections, Front
from messages import Fault, Message, Stream
from replies import error_reply
from servers import set_up, setup_and_events


class Connection:
    """What came on a connection, what was answered, and whether nothing is left to answer."""

    def __init__(self):
        self.held, self.answers, self.is_done = b"", [], False


class Recorded(Front):
    """A front that notes what comes on each connection, and in which order they are answered."""

    def __init__(self, server):
        super().__init__(server)
        self.connections, self.order, self.by_number = [], [], {}

    def open(self):
        number = super().open()
        self.by_number[number] = Connection()
        self.connections.append(self.by_number[number])
        return number

    def piece(self, number, held):
        super().piece(number, held)
        self.by_number[number].held += held
        self.by_number[number].is_done = False

    def answer(self, number, moment):
        answer = super().answer(number, moment)
        connection = self.by_number[number]
        connection.is_done = answer is None
        if answer is not None:
            connection.answers.append(answer)
            self.order.append((connection, moment))
        return answer


def in_one_piece(held):
    """The messages of a stream, and the fault behind them, if there is one; each with whether the
    stream has ended with it."""
    stream, found = Stream(), []
    stream.held = held
    while isinstance(it := stream.next(), (Message, Fault)):
        found.append((it, stream.has_ended))
    return found


def answers_in_order(server, front):
    """The replies to the messages of the streams, in the order in which the connections were answered."""
    streams = {id(it): iter(in_one_piece(it.held)) for it in front.connections}
    for connection, moment in front.order:
        found, is_last = next(streams[id(connection)], (None, False))
        reply = (server.answer(found, moment) if isinstance(found, Message) else error_reply(str(found))
                 if found else b"")
        yield connection, Answer(reply, is_last)


def differing(fields):
    """How many connections a row has, and how many of them are answered otherwise than their stream in one piece."""
    made = Connections(set_up(fields))
    made.front = Recorded(made.front.server)
    for field in setup_and_events(fields)[1]:
        word, _, text = field.partition(":")
        made.happen(word, text)
    wanted = {id(it): [] for it in made.front.connections}
    for connection, answer in answers_in_order(set_up(fields), made.front):
        wanted[id(connection)].append(answer)
    others = [it for it in made.front.connections
              if it.answers != wanted[id(it)] or it.is_done and len(it.answers) != len(in_one_piece(it.held))]
    return len(made.front.connections), len(others)
