"""What a server answers to the messages of a stream, after messages that make its domains, with tokens, documents, a
root and a source of attributes."""
import re
from urllib.parse import quote

from counting import CountingServer
from documents import document_of
from messages import Fault, Message, Stream
from replies import error_reply
from rows import decoded, encoded

OPERATOR_TOKEN, SETUP_TOKEN = b"operator-token-1", b"setup-token-0"
SETUP = ("views", "limit", "reply", "reading", "room", "domain", "ask", "admin", "document", "inactive", "root", "row")
COUNTS = ("readings", "evaluations", "unkept")
ROOTS = {"policy": "PolicyIdReference", "set": "PolicySetIdReference"}


class TurnedAway(Exception):
    """The reply to a message of the setup that isn't a success."""


def quoted(held):
    """The JSON of the text that the bytes are, or nearly, where they are none."""
    return b'"' + re.sub(rb'["\\\x00-\x1f]', lambda found: b"\\u%04x" % found.group()[0], held) + b'"'


def json_object(members):
    """The object of members whose values are JSON."""
    return b"{" + b",".join(b'"%b":%b' % (name.encode(), held) for name, held in members) + b"}"


def path(*parts):
    """The path of the parts, each percent-encoded."""
    return "".join("/" + quote(part, safe="") for part in parts).encode()


def new_token(role, token):
    """The body that gives a domain a token."""
    return json_object([("Role", quoted(role.encode())), ("Token", quoted(token))])


def old_token(token):
    """The body that takes a token away."""
    return json_object([("Token", quoted(token))])


def root(field):
    """The body that sets the root to the reference of a field."""
    kind, name, pattern, earliest, latest = field.split("|")
    bounds = [("Version", pattern), ("EarliestVersion", earliest), ("LatestVersion", latest)]
    members = [("Id", quoted(decoded(name)))] + [(it, quoted(decoded(held))) for it, held in bounds if held]
    return json_object([(ROOTS[kind], json_object(members))])


def row(field):
    """A source row in JSON of a field `CATEGORY|ENTITY|ID|TYPE=TEXT` or `CATEGORY|ENTITY|ID|TYPE|ISSUER=TEXT`."""
    place, held = field.split("=", 1)
    members = [*zip(("Category", "Entity", "AttributeId", "DataType", "Issuer"), place.split("|")), ("Value", held)]
    return json_object([(name, quoted(decoded(part))) for name, part in members])


def rows(fields):
    """The body that sets the source's rows."""
    return json_object([("Row", b"[" + b",".join(map(row, fields)) + b"]")])


class Setup:
    """The messages that make domains, one after another."""

    def __init__(self, server):
        self.server, self.name, self.rows = server, None, []

    def send(self, method, target, body, token=OPERATOR_TOKEN):
        """Sends a message, which has to succeed."""
        reply = self.server.answer(Message(method, target, [(b"Authorization", b"Bearer " + token)], body), 0)
        if not re.match(rb"HTTP/1.1 20[01] ", reply):
            raise TurnedAway(reply)

    def by_operator(self, method, body, *parts):
        """A message of the operator about the domain."""
        self.send(method, path("operator", "domains", self.name, *parts), body)

    def by_domain(self, method, body, *parts):
        """A message of the domain's administrator."""
        self.send(method, path("domains", self.name, *parts), body, SETUP_TOKEN)

    def views(self, text):
        """Room for so many views at the most."""
        self.server.views.most = min(int(text), self.server.views.most)

    def limit(self, text):
        """The most work that a message may ask for, in units."""
        self.server.most_units = int(text)

    def reply(self, text):
        """The most bytes that the body of a response may have."""
        self.server.most_bytes = int(text)

    def reading(self, text):
        """The most bytes of texts that are read for a message."""
        self.server.most_read = int(text)

    def room(self, text):
        """The most bytes that the views which are kept take together."""
        self.server.views.room = int(text)

    def domain(self, text):
        """A domain of this name begins; what follows is its own."""
        self.end()
        self.name = decoded(text)
        self.by_operator(b"PUT", b"")
        self.admin(SETUP_TOKEN.decode())

    def ask(self, text):
        self.by_operator(b"POST", new_token("ask", decoded(text)), "tokens")

    def admin(self, text):
        self.by_operator(b"POST", new_token("admin", decoded(text)), "tokens")

    def inactive(self, text):
        """A document that stays inactive."""
        self.by_domain(b"POST", decoded(text), "pap", "policies")

    def document(self, text):
        """A document that is made active."""
        self.inactive(text)
        document = document_of(decoded(text))
        kind = "policy" if document.form == "Policy" else "policyset"
        self.by_domain(b"PUT", b"", "pap", kind, document.id, ".".join(document.version), "active")

    def root(self, text):
        self.by_domain(b"PUT", root(text), "pap", "root")

    def row(self, text):
        self.rows.append(text)

    def end(self):
        """The end of a domain: its rows are put together, and the setup's token is taken away."""
        if self.rows:
            self.by_domain(b"PUT", rows(self.rows), "pip")
        if self.name is not None:
            self.by_operator(b"DELETE", old_token(SETUP_TOKEN), "tokens")
        self.name, self.rows = None, []


def setup_and_events(fields):
    """The fields before the first event, and those from it on, among which no setting stands."""
    count = next((place for place, field in enumerate(fields) if field.partition(":")[0] not in SETUP), len(fields))
    return fields[:count], fields[count:]


def set_up(fields, beginning=CountingServer):
    """The server that the fields before the first event make, of one that begins without domains."""
    server = beginning(OPERATOR_TOKEN)
    setup = Setup(server)
    for field in setup_and_events(fields)[0]:
        word, _, text = field.partition(":")
        getattr(setup, word)(text)
    setup.end()
    return server


def in_runs(shown):
    """The fields of each, and after equal ones in a row how many they are."""
    fields, count = [], 0
    for place, held in enumerate(shown):
        count += 1
        if place + 1 == len(shown) or shown[place + 1] != held:
            fields += held + ([f"*{count}"] if count > 1 else [])
            count = 0
    return fields


def each_encoded(replies):
    """The field of each reply, alone in a list."""
    return [[encoded(reply)] for reply in replies]


def replied(stream, server, moment, held):
    """The replies to the messages that are whole after these bytes, the reply to a fault, if it is one that follows,
    and what the stream answers then."""
    stream.held += held
    replies = []
    while isinstance(found := stream.next(), Message):
        replies.append(server.answer(found, moment))
    return replies, [error_reply(str(found))] if isinstance(found, Fault) else [], found


def piece(stream, server, moment, held):
    """What is answered after a piece."""
    replies, fault, found = replied(stream, server, moment, held)
    fields = in_runs(each_encoded(replies)) + [encoded(reply) for reply in fault]
    if found != "More":
        fields.append("!Ended")
    return fields or ["More"]


def connection(server, moment, held):
    """How a connection ends for the server on which these bytes come, and what is sent on it, if that is something."""
    replies, fault, _ = replied(Stream(), server, moment, held)
    sent = b"".join(replies + fault)
    return ["Ended"] + ([encoded(sent)] if sent else [])


def loopback(*fields):
    """The answer to a row of connections."""
    try:
        made = set_up(fields)
    except TurnedAway as reply:
        return [encoded(reply.args[0])]
    held, moment, shown = b"", 0, []
    for field in [*setup_and_events(fields)[1], "close:"]:
        word, _, text = field.partition(":")
        if word == "piece":
            held += decoded(text)
        elif word == "close":
            shown += connection(made, moment, held)
            held = b""
        elif word == "moment":
            moment = int(text)
        else:
            return shown + ["!Malformed"]
    return shown


def server(*fields, beginning=CountingServer):
    """The answer to a row."""
    try:
        made = set_up(fields, beginning)
    except TurnedAway as reply:
        return [encoded(reply.args[0])]
    return answered_by(made, setup_and_events(fields)[1])


def answered_by(made, events):
    """What the server answers to the events."""
    stream, moment, shown = Stream(), 0, []
    for field in events:
        word, _, text = field.partition(":")
        if word == "piece":
            shown += piece(stream, made, moment, decoded(text))
        elif word == "close":
            stream = Stream()
        elif word == "restart":
            made.restart()
            stream = Stream()
        elif word == "moment":
            moment = int(text)
        elif word in COUNTS:
            shown.append(f"{word} {getattr(made, word)}")
        else:
            return shown + ["!Malformed"]
    return shown


def run(*fields):
    """The answer to a row of messages, all of which are answered in one run: a field for each reply."""
    try:
        made = set_up(fields)
    except TurnedAway as reply:
        return [encoded(reply.args[0])]
    stream, moment, shown = Stream(), 0, []
    for field in setup_and_events(fields)[1]:
        word, _, text = field.partition(":")
        if word == "moment":
            moment = int(text)
        elif word == "piece":
            replies, _, found = replied(stream, made, moment, decoded(text))
            shown += map(encoded, replies)
            if found != "More":
                return ["!Malformed"]
        else:
            return ["!Malformed"]
    return shown
