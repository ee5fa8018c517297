"""Random lists of events of up to 64 connections: their streams cut anywhere and mixed, numbers that are used again,
heads that never end, more bytes than are held."""
from commands import NAMES
from fronts import MOST_HELD, MOST_OPEN, Connections
from machines import Server
from messages import MAX_HEAD
from rows import encoded, shortened
from servers import OPERATOR_TOKEN, TurnedAway, set_up

MESSAGES, EVENTS = 16, 180
SHORT = [b"GET / HTTP/1.1\r\n\r\n", b"GET / HTTP/1.0\r\n\r\n", b"PUT /x HTTP/1.1\r\nConnection: close\r\n\r\n",
         b"POST / HTTP/1.1\r\nContent-Length: 3\r\n\r\nabc", b":", b"\r\nGET /domains/acme/pdp HTTP/1.1\r\n\r\n",
         b"POST / HTTP/1.1\r\nTransfer-Encoding: chunked\r\n\r\n", b"G\xff / HTTP/1.1\r\n\r\n"]
# beginnings of heads, each with a byte that may follow for ever
ENDLESS = [(b"GET /", b"a"), (b"GET / HTTP/1.1\r\nX:", b" "), (b"GET / HTTP/1.1\r\nX: ", b"\xff"), (b"", b"\n"),
           (b"", b"M"), (b"GET / HTTP/1.1\r\n", b"X:y\n")]


class Mixing:
    """Random rows of connections whose pieces and messages come mixed."""

    def __init__(self, exchanges):
        self.exchanges, self.commands = exchanges, exchanges.commands
        self.random, self.one_of, self.seldom = exchanges.random, exchanges.one_of, exchanges.seldom
        # the fields so far, what becomes of them, and the bytes of each connection that are still to come, in pieces
        self.fields, self.made, self.pieces, self.left, self.most, self.has_calls_alone = [], None, {}, 0, 0, False

    def serve(self):
        """A server with three domains, and the fields that make it."""
        while True:
            self.commands.begin(Server(OPERATOR_TOKEN), self.random.sample(NAMES, 3))
            fields = self.exchanges.fields_of(self.commands.names, self.seldom(0.3))
            try:
                return set_up(fields), fields
            except TurnedAway:
                pass

    def begin(self):
        self.commands.server, self.fields = self.serve()
        self.made, self.pieces, self.left = Connections(self.commands.server), {}, MESSAGES
        self.most, self.has_calls_alone = self.one_of([2, 5, 20, MOST_OPEN, MOST_OPEN]), self.seldom(0.5)

    def add(self, word, text=""):
        """Adds an event, and lets it happen."""
        self.fields.append(f"{word}:{text}")
        return self.made.happen(word, text)

    def number(self):
        """Mostly the number of a connection that is open, and has something to come."""
        sound = [number for number in self.pieces if self.pieces[number]] or list(self.pieces)
        return self.one_of(sound) if sound and self.seldom(0.97) else self.random.randrange(MOST_OPEN)

    def opened(self):
        found = self.add("begin")
        if found[0].startswith("begun "):
            self.pieces[int(found[0].removeprefix("begun "))] = []

    def finished(self, number):
        self.add("finish", str(number))
        self.pieces.pop(number, None)

    def stream(self):
        """Some bytes that come on a connection: messages, mostly, in a row."""
        if self.seldom(0.08):
            start, more = self.one_of(ENDLESS)
            return (start + more
                    * (self.one_of([20, MAX_HEAD - len(start) - 1, MAX_HEAD - len(start), MAX_HEAD]) // len(more)))
        return b"".join(self.message() for _ in range(self.one_of([1, 1, 2, 3])))

    def message(self):
        """A short message, or a long one, of which there are so many."""
        if not self.left or self.seldom(0.5):
            return self.one_of(SHORT)
        self.left -= 1
        return self.exchanges.message()

    def cut(self, held):
        """The pieces of the bytes; now and then some of one byte each."""
        cuts = {self.random.randint(0, len(held)) for _ in range(self.one_of([0, 1, 2, 6]))}
        if self.seldom(0.15):
            start = self.random.randint(0, len(held))
            cuts |= set(range(start, min(start + self.one_of([3, 12]), len(held))))
        ends = sorted(cuts - {0, len(held)})
        return [held[start:end] for start, end in zip([0] + ends, ends + [len(held)])]

    def hand_over(self, number):
        """The next piece of the connection; or more than is held, or nearly."""
        if self.seldom(0.01):
            held = self.made.front.streams[number].held if self.made.front.streams[number] else b""
            count = self.one_of([MOST_HELD - len(held) + 1, MOST_HELD + 1] * 3 + [MOST_HELD - len(held)])
            byte = self.one_of("x\n")
            return self.add("piece", f"{number}:\\{{{count},{encoded(byte)}\\}}")
        waiting = self.pieces.get(number, [b"x"])
        if not waiting:
            waiting += self.cut(self.stream())
        return self.add("piece", f"{number}:{shortened(waiting.pop(0))}")

    def asked(self, number):
        for field in self.commands.decisions.moment(0.2):
            self.add(*field.split(":"))
        if self.seldom(0.6):
            self.add("answer", str(number))
        else:
            self.ask_all(number)

    def ask_all(self, number):
        """Asks for all answers that there are, and for one more."""
        if not self.has_calls_alone:
            self.add("answers", str(number))
        while self.has_calls_alone and not self.add("answer", str(number))[0].startswith("!"):
            pass

    def happen(self):
        kind, number = self.random.random(), self.number()
        if not self.pieces or kind < (0.25 if len(self.pieces) < self.most else 0.01):
            self.opened()
        elif kind < 0.75:
            self.hand_over(number)
        elif kind < 0.97:
            self.asked(number if self.seldom(0.7) else self.one_of(list(self.pieces)))
        else:
            self.finished(number)

    def end(self):
        """What is left of the streams, and all that can be answered."""
        while any(self.pieces.values()):
            number = self.one_of([number for number, pieces in self.pieces.items() if pieces])
            self.add("piece", f"{number}:{shortened(self.pieces[number].pop(0))}")
        for number in self.random.sample(list(self.pieces), len(self.pieces)):
            self.ask_all(number)

    def next(self):
        self.begin()
        for _ in range(self.one_of([0, 0, self.most, MOST_OPEN + 1])):
            self.opened()
        for _ in range(EVENTS):
            self.happen()
        self.end()
        return ["front", *self.fields]


class Drives:
    """Random rows of connections that are driven: with short reads and writes, and with calls that are
    interrupted or fail."""

    def __init__(self, mixing):
        self.mixing, self.random, self.one_of, self.seldom = mixing, mixing.random, mixing.one_of, mixing.seldom

    def calls(self, word, size):
        """Fields that say of the calls how they go."""
        first = self.random.randint(1, 6)
        chances = [(f"size {size}", 0.4), (f"interrupted {first}-{first + self.random.randrange(4)}", 0.2),
                   (f"fails {self.random.randint(1, 5)}", 0.25)]
        return [f"{word}:{text}" for text, chance in chances if self.seldom(chance)]

    def drive(self, number):
        """Fields that drive a connection, on which something comes."""
        held = b"".join(self.mixing.stream() for _ in range(self.one_of([0, 1, 1, 2, 3])))
        fields = [f"comes:{shortened(held)}"] if held else []
        fields += self.calls("reads", self.one_of([max(1, len(held) // 3), 100, 1000]))
        fields += self.calls("writes", self.one_of([0, 7, 76, 100, 1000]))
        fields += self.calls("flushes", 1) if self.seldom(0.1) else []
        fields += [f"clock:{self.random.randrange(4)}"] if self.seldom(0.15) else []
        return fields + self.mixing.commands.decisions.moment(0.2) + [f"drive:{number}"]

    def next(self):
        self.mixing.begin()
        fields, count = self.mixing.fields, self.one_of([1, 2, 3])
        fields += ["begin:"] * count
        for _ in range(self.one_of([1, 2, 4, 6])):
            number = self.random.randrange(count)
            fields += [f"piece:{number}:{shortened(self.mixing.stream())}"] * self.seldom(0.2)
            fields += (self.drive(number) + [f"answers:{number}"] * self.seldom(0.2) + [f"finish:{number}", "begin:"]
                       * self.seldom(0.2))
        return ["driven", *fields]
