"""What a front answers: a server behind 64 connections, whose bytes come in pieces of any size and in any order.

A call that is refused changes nothing. `last` stands behind the reply with which a connection ends.
"""
import collections

from messages import Fault, Message, Stream
from replies import error_reply
from rows import decoded, encoded
from servers import TurnedAway, each_encoded, in_runs, set_up, setup_and_events

MOST_OPEN, MOST_HELD = 64, 1_048_576
# the reply to a message or to a fault, and whether the connection has ended with it
Answer = collections.namedtuple("Answer", "reply is_last")


class Refused(Exception):
    """A call that is refused, by its name."""


class Front:
    """The server, and of each number the stream of the connection that is open, or None."""

    def __init__(self, server):
        self.server, self.streams = server, [None] * MOST_OPEN

    def open(self):
        """The least number that is free."""
        if None not in self.streams:
            raise Refused("TooManyConnections")
        number = self.streams.index(None)
        self.streams[number] = Stream()
        return number

    def stream(self, number):
        """The stream of a connection that is open."""
        if self.streams[number] is None:
            raise Refused("NoSuchConnection")
        return self.streams[number]

    def piece(self, number, held):
        """All of the bytes are taken, or none."""
        stream = self.stream(number)
        if len(stream.held) + len(held) > MOST_HELD:
            raise Refused("Full")
        stream.held += held

    def answer(self, number, moment):
        """The reply to the next whole message, or to the fault that stands in its place; None where there is none
        yet, or none any more."""
        stream = self.stream(number)
        found = stream.next()
        if isinstance(found, Message):
            return Answer(self.server.answer(found, moment), stream.has_ended)
        return Answer(error_reply(str(found)), True) if isinstance(found, Fault) else None

    def answers(self, number, moment):
        """The replies to all whole messages, and to a fault behind them."""
        found = []
        while (answer := self.answer(number, moment)) is not None:
            found.append(answer)
        return found

    def close(self, number):
        """The number is free again."""
        self.stream(number)
        self.streams[number] = None


# Rows of connections.


def replies_of(answers):
    """The bytes of the answers."""
    return b"".join(answer.reply for answer in answers)


def last_of(answers):
    """A field that says that the connection has ended with these answers, where it has."""
    return ["last"] if answers and answers[-1].is_last else []


class Connections:
    """Lets events happen to a front, and shows what each answers."""

    def __init__(self, server):
        self.front, self.moment, self.waiting = Front(server), 0, {}

    def begin(self, _):
        """A connection is opened."""
        return [f"begun {self.front.open()}"]

    def piece(self, text):
        number, _, held = text.partition(":")
        self.front.piece(int(number), decoded(held))
        return ["held"]

    def answer(self, text):
        answer = self.front.answer(int(text), self.moment)
        return ["!None"] if answer is None else [encoded(answer.reply)] + last_of([answer])

    def answers(self, text):
        answers = self.front.answers(int(text), self.moment)
        return in_runs(each_encoded(answer.reply for answer in answers)) + last_of(answers) or ["!None"]

    def finish(self, text):
        """A connection is closed."""
        self.front.close(int(text))
        return ["finished"]

    def dated(self, text):
        """The clock is set."""
        self.moment = int(text)
        return []

    def waits(self, text):
        """Bytes that wait for some connections, behind those that wait already."""
        numbers, _, held = text.partition(":")
        first, _, last = numbers.partition("-")
        for number in range(int(first), int(last or first) + 1):
            self.waiting[number] = self.waiting.get(number, b"") + decoded(held)
        return []

    def turns(self, text):
        """Hands over what waits, so many bytes for each connection in turn, and answers after each piece
        what can be answered."""
        size, found = int(text), {number: [] for number in sorted(self.waiting)}
        while any(self.waiting.values()):
            for number in found:
                held, self.waiting[number] = self.waiting[number][:size], self.waiting[number][size:]
                if held:
                    self.front.piece(number, held)
                    found[number] += self.front.answers(number, self.moment)
        self.waiting = {}
        return in_runs([[encoded(replies_of(answers))] + last_of(answers) for answers in found.values()])

    def cuts(self, text):
        """Hands over the bytes in two pieces, cut behind each of them in turn, each time on a connection of their own.
        What is answered, and how much of it before the second piece."""
        held, found, before = decoded(text), [], []
        for place in range(len(held) + 1):
            number = self.front.open()
            self.front.piece(number, held[:place])
            answers = self.front.answers(number, self.moment)
            before.append([str(len(answers))])
            self.front.piece(number, held[place:])
            answers += self.front.answers(number, self.moment)
            found.append([encoded(replies_of(answers))] + last_of(answers))
            self.front.close(number)
        return in_runs(found) + in_runs(before)

    def happen(self, word, text):
        """What the event answers, in fields; None for what is no event."""
        if word not in WORDS:
            return None
        try:
            return getattr(self, WORDS[word])(text)
        except Refused as refusal:
            return [f"!{refusal}"]


WORDS = {"begin": "begin", "piece": "piece", "answer": "answer", "answers": "answers", "finish": "finish",
         "moment": "dated", "waits": "waits", "turns": "turns", "cuts": "cuts"}


def shown(fields, connections):
    """What the events of a row answer, behind the fields that make domains."""
    try:
        made = connections(set_up(fields))
    except TurnedAway as reply:
        return [encoded(reply.args[0])]
    found = []
    for field in setup_and_events(fields)[1]:
        word, _, text = field.partition(":")
        answered = made.happen(word, text)
        if answered is None:
            return found + ["!Malformed"]
        found += answered
    return found


def front(*fields):
    """The answer to a row of connections whose pieces and messages come mixed."""
    return shown(fields, Connections)
