"""Makes random transcripts for the program pdpd, and compares what it writes to them with what the model does, and to
each domain's messages alone.

usage: transcripts.py make FOLDER SEED COUNT       writes the transcripts to FOLDER/made, and to FOLDER/alone, for
                                                   each of them and each domain that its messages name, a transcript
                                                   of these messages alone
       transcripts.py compare FOLDER               compares: the program wrote what stands in FOLDER/written and
                                                   FOLDER/written_alone, each time behind a line `== NAME`, and ended
                                                   with the status in a line `case=NAME .. status=STATUS` of FOLDER/said
       transcripts.py count SEED COUNT             counts what the model alone answers
"""
import collections
import pathlib
import re
import sys

import folders  # noqa: F401
from agree import Rows
from alone import alone, owners, replies_of, told
from breaking import Breaking
from commands import KIND_NAMES, NAMES, Commands, alter
from exchanges import Exchanges
from linking import active_in
from machines import Server
from messages import Message, Stream
from replays import Connections, Entry, replay
from replies import compact
from servers import OPERATOR_TOKEN, ROOTS, path
from views import Decisions

MESSAGES = 40
BAD_HEADINGS = [b"64 0 1", b"0 0 1048577", b"0  0 1", b"0 0 1 ", b" 0 0 1", b"0 +0 1", b"-1 0 1", b"0 0 -1", b"0 0",
                b"", b"0 0 1 1", b"x 0 1", b"0 0x1 1", b"0\t0 1", b"0 253402300800 1", b"0 -62135596801 1",
                b"0 0 " + b"0" * 61, b"0 0 1\r"]


class Transcripts:
    """Random transcripts: the streams of some connections, cut and mixed, all to one server."""

    def __init__(self, seed):
        rows = Rows(seed)
        self.commands = Commands(Decisions(rows), Breaking(rows))
        self.exchanges = Exchanges(self.commands)
        self.random, self.one_of, self.seldom = rows.random, rows.random.choice, rows.texts.seldom
        # the entries of a transcript so far, the connections and the server behind them, and each connection's
        # pieces that are to come
        self.entries, self.connections, self.server, self.pieces = [], None, None, {}

    def number(self, number):
        """The number's digits, with zeros before them now and then."""
        sign = "-" if number < 0 or number == 0 and self.seldom(0.05) else ""
        return sign + "0" * self.one_of([0] * 9 + [3]) + str(abs(number))

    def add(self, connection, held):
        """Adds an entry."""
        moment = self.one_of([0, 0, 82800, -1, 253_402_300_799, -62_135_596_800, self.random.randint(-10**9, 10**10)])
        heading = f"{self.number(connection).lstrip('-')} {self.number(moment)} {self.number(len(held)).lstrip('-')}\n"
        self.entries.append(heading.encode() + held + b"\n")
        for event in self.connections.events(Entry(connection, moment, held)):
            if isinstance(event.found, Message):
                alter(self.server, event.found)

    def mix(self, least):
        """Adds pieces of any connections, each one's in their order, until no more are left than these."""
        while sum(map(len, self.pieces.values())) > least:
            connection = self.one_of([it for it, pieces in self.pieces.items() if pieces])
            self.add(connection, self.pieces[connection].pop(0))
        if not least:
            self.commands.server.states = self.server.states

    def close(self, connection):
        """Closes the connection now and then, and mostly where its stream has ended or holds a part of a message."""
        stream = self.connections.streams.get(connection)
        is_stuck = stream is not None and not self.pieces[connection] and (stream.has_ended or stream.held)
        if self.seldom(0.9 if is_stuck else 0.03):
            self.pieces[connection].append(b"")

    def send(self, connection, messages):
        self.pieces[connection] += [piece for piece in self.exchanges.pieces(b"".join(messages)) if piece]
        self.mix(self.one_of([0, 0, 0, 0, 2, 4]))

    def known(self, message):
        """The message. The ones behind it fit what it alters, though it may be answered later than they are."""
        return self.exchanges.taken(Stream(), message)

    def opening(self, name):
        """The messages behind which the domain most likely decides something."""
        found = []
        while len(found) < 7 and (command := self.commands.wanted(name)):
            found.append(self.known(self.exchanges.plain(self.commands.of(command, name))))
        return found

    def ask(self, name, body):
        return self.known(self.exchanges.plain(self.commands.asking(name, body)))

    def rebuilding(self, name):
        """A domain that is made, asked, removed, and made and asked again."""
        found, body = [], self.commands.request()
        for _ in range(3):
            found += (self.opening(name)
                      + [self.ask(name, body), self.known(self.exchanges.plain(self.commands.of("remove", name)))])
        return found[:-1]

    def alike(self, name, text):
        """The messages behind which the domain decides by that text, mostly, or by one like it."""
        text = self.commands.like(text) if self.seldom(0.4) else text
        key = active_in(text)[:3]
        ways = [("upload", text), ("activate", b""), ("root", compact({ROOTS[key[0]]: {"Id": key[1]}}))]
        for command, body in ways:
            asking = self.commands.of(command, name)
            if command == "activate":
                asking = asking._replace(path=path("domains", name, "pap", KIND_NAMES[key[0]], key[1],
                                                   ".".join(map(str, key[2])), "active"))
            yield self.known(self.exchanges.plain(asking._replace(body=body)))

    def turns(self, connection):
        """Domains that decide by texts which are mostly equal, asked the same in turn, again and again at some
        moments, with a change of one of them now and then."""
        names, body = self.commands.names, self.commands.request()
        text = self.commands.decisions.drafts.text(self.commands.draft(names[0])).encode()
        for _ in range(self.one_of([2, 3, 4])):
            for name in names:
                self.send(connection, self.opening(name))
                if self.seldom(0.5):
                    self.send(connection, self.alike(name, text))
            for _ in range(self.one_of([1, 2])):
                self.send(connection, [self.ask(name, body) for name in self.random.sample(names, len(names))])
            name, change = self.one_of(names), self.one_of(["upload", "activate", "deactivate", "delete", "root",
                                                            "source", "put", "drop", "remove"])
            self.send(connection,
                      [self.known(self.exchanges.plain(self.commands.of(change, name))), self.ask(name, body)])

    def burst(self):
        """Many messages at once: such as make a domain anew; or ask several the same; or some documents, or as many
        documents or tokens as there may be, or nearly, or one more."""
        connection, name, kind = (self.one_of(list(self.pieces)),
                                  self.one_of(list(self.server.states) or self.commands.names), self.random.random())
        self.mix(0)
        self.add(connection, b"")
        if kind < 0.2:
            return self.send(connection, self.rebuilding(name))
        if kind < 0.75:
            return self.turns(connection)
        many = (self.commands.many_tokens(name) if kind < 0.85
                else self.commands.many_documents(name, 12 if kind < 0.97 else self.one_of([1023, 1024, 1025])))
        return self.send(connection, map(self.exchanges.plain, many))

    def broken(self, entries):
        """The transcript, cut or with a line that is none."""
        place = self.random.randrange(len(entries))
        before, entry = b"".join(entries[:place]), entries[place]
        if self.seldom(0.4):
            return before + entry[:self.random.randrange(len(entry))]
        line, rest = entry.split(b"\n", 1)
        return before + self.one_of([self.one_of(BAD_HEADINGS) + b"\n" + rest,
                                     line + b"\n" + rest[:-1] + b"x" + rest[-1:], b"\n" + entry])

    def next(self):
        self.commands.begin(Server(OPERATOR_TOKEN), self.random.sample(NAMES, 3))
        self.server = Server(OPERATOR_TOKEN)
        numbers = self.random.sample(range(64), self.one_of([1, 2, 3, 5, 64]))
        self.entries, self.connections, self.pieces = [], Connections(), {number: [] for number in numbers}
        for name in self.commands.names:
            if self.seldom(0.6):
                self.send(self.one_of(numbers), self.opening(name))
        count, bursts = MESSAGES, [self.random.randrange(MESSAGES)] * self.seldom(0.3)
        while count > 0:
            often = min(self.one_of([1, 1, 1, 1, 1, 2, 3]), count)
            count -= often
            connection = self.one_of(numbers)
            self.close(connection)
            self.send(connection, [self.known(self.exchanges.message()) for _ in range(often)])
            if bursts and count <= bursts[0]:
                bursts = []
                self.burst()
        self.mix(0)
        return self.broken(self.entries) if self.seldom(0.05) else b"".join(self.entries)


def written_by(path):
    """What the program wrote to each transcript, by its name."""
    parts = re.split(rb"(?m)^== (\S+)\n", path.read_bytes())
    return {name.decode(): held for name, held in zip(parts[1::2], parts[2::2])}


def statuses(written):
    return [line.decode() for line in re.findall(rb"(?m)^HTTP/1.1 (.*)\r$", written)]


def errors(written):
    return [code.decode() for code in re.findall(rb'(?m)^\{"Error":"(\w+)"\}$', written)]


def shown(counts):
    return ", ".join(f"{what} {count}" for what, count in sorted(counts.items()))


def make(folder, seed, count):
    source = Transcripts(int(seed))
    for name in ("made", "alone"):
        (folder / name).mkdir()
    for place in range(int(count)):
        held = source.next()
        (folder / "made" / f"{place:06}").write_bytes(held)
        for domain in owners(held):
            (folder / "alone" / f"{place:06}-{domain}").write_bytes(alone(held, domain))


def compare_with_model(folder, found):
    """How many transcripts are answered otherwise than by the model; each is shown."""
    ended = dict(re.findall(r"(?m)^case=(\S+) .*status=(\d+)", (folder / "said").read_text()))
    counts, differ = collections.Counter(), 0
    for path in sorted((folder / "made").iterdir()):
        by_model, status = replay(path.read_bytes())
        counts.update(statuses(by_model) + [f"ended with {status}"])
        written, by_program = found.get(path.name, b""), ended.get(path.name)
        if (written, by_program) != (by_model, str(status)):
            differ += 1
            print(f"{path.name}: ended with {by_program}, by the model with {status}; wrote {len(written)} bytes, "
                  f"by the model {len(by_model)}")
    return counts, differ


def compare_alone(folder, found):
    """How many domains are told otherwise by the program where their messages come alone; each is shown."""
    found_alone, differ = written_by(folder / "written_alone"), 0
    for path in sorted((folder / "alone").iterdir()):
        name, domain = path.name.split("-", 1)
        among_others = told((folder / "made" / name).read_bytes(), found.get(name, b""), domain)
        if among_others is None or among_others != replies_of(found_alone.get(path.name, b"")):
            differ += 1
            print(f"{path.name}: the domain's messages alone are answered otherwise than among others")
    return differ


def compare(folder):
    found = written_by(folder / "written")
    counts, differ = compare_with_model(folder, found)
    differ_alone = compare_alone(folder, found)
    transcripts, domains = (len(list((folder / name).iterdir())) for name in ("made", "alone"))
    print(f"{transcripts} transcripts, {differ} otherwise than by the model; {domains} domains alone, "
          f"{differ_alone} told otherwise")
    print(shown(counts))
    return 1 if differ or differ_alone else 0


def count(seed, transcripts):
    source, by_status, by_error = Transcripts(int(seed)), collections.Counter(), collections.Counter()
    for _ in range(int(transcripts)):
        written, status = replay(source.next())
        by_status.update(statuses(written) + [f"ended with {status}"])
        by_error.update(errors(written))
    print(shown(by_status) + "\n" + shown(by_error))


def main():
    if sys.argv[1] == "make":
        return make(pathlib.Path(sys.argv[2]), *sys.argv[3:])
    return compare(pathlib.Path(sys.argv[2])) if sys.argv[1] == "compare" else count(*sys.argv[2:])


if __name__ == "__main__":
    sys.exit(main())
