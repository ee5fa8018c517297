"""How often a server calls its repository, and what it answers where one of these calls fails.

The operator's message makes one call, unless its body isn't one. Any other message to a domain asks for its gate, and
once it is let in makes one call more for what it asks, unless its body isn't one or its path names no document. An ask
alone may do with less: without the gate, where that is remembered from an ask by another token or its own, and no
other message was let in since; and without the view, where the response is held, the view is kept ready or the body
doesn't ask the policies.
"""
import collections

from counting import UNAVAILABLE, CountingServer, asks_policies
from documents import document_of
from machines import KINDS, check_token, digest, in_body
from messages import Message, Stream, token_shown
from replies import Error
from route_bodies import new_token_of, old_token_of, root_of, rows_of
from routes import OF_OPERATOR, owner, route_of
from rows import decoded
from servers import server, set_up
from versions import NoVersion, numbers

CALLS = ("Gate", "View", "Document", "List", "Domains", "Create", "Remove", "PutToken", "DropToken", "Upload",
         "SetActive", "Delete", "SetRoot", "SetSource")
CALL_FOR = {
    "create": "Create",
    "remove": "Remove",
    "put": "PutToken",
    "drop": "DropToken",
    "upload": "Upload",
    "list": "List",
    "root": "SetRoot",
    "source": "SetSource",
    "rows": "View",
    "document": "Document",
    "delete": "Delete",
    "activate": "SetActive",
    "deactivate": "SetActive",
    "domains": "Domains",
}
BODIES = {"put": new_token_of, "drop": old_token_of, "upload": document_of, "root": root_of, "source": rows_of}
OF_DOCUMENT = ("document", "delete", "activate", "deactivate")


def has_body(route, body):
    """Whether the body is one that is asked for there."""
    try:
        in_body(BODIES.get(route.command, lambda _: None), body)
        return True
    except Error:
        return False


def names_document(parts):
    """Whether the path may be one of a document."""
    try:
        parts["id"].decode()
        return parts["kind"] in KINDS and numbers(parts["version"].decode()) is not None
    except (UnicodeDecodeError, NoVersion):
        return False


class CallingServer(CountingServer):
    """A server that notes the calls that it makes of its keeper."""

    def __init__(self, operator):
        super().__init__(operator)
        # the gates that are remembered: of each domain the digests of its tokens
        self.calls, self.remembered = [], {}

    def answer(self, message, moment):
        try:
            self.note(message, owner(message), route_of(message))
        except Error:
            pass
        return super().answer(message, moment)

    def see(self, number, epoch, state, held, succeeds):
        if not self.views.has(number, epoch) and asks_policies(held):
            self.calls.append("View")
        return super().see(number, epoch, state, held, succeeds)

    def note(self, message, name, route):
        """Notes the calls that a message makes, but for the view of an ask."""
        state, shown, command = self.states.get(name), digest(token_shown(message.fields)), route.command
        if command in OF_OPERATOR:
            check_token(self.operator, state, message, command)
            if name is not None or command == "domains":
                self.ask(name, route, message.body)
        elif (name is not None and shown is not None
              and not (command == "decide" and shown in self.remembered.get(name, ()))):
            self.calls.append("Gate")
            check_token(self.operator, state, message, command)
            if command == "decide":
                self.remembered[name] = set(state.tokens)
            elif command not in OF_DOCUMENT or names_document(route.parts):
                self.ask(name, route, message.body)

    def ask(self, name, route, body):
        """Forgets the domain's gate, and notes the call for what is asked."""
        self.remembered.pop(name, None)
        if has_body(route, body):
            self.calls.append(CALL_FOR[route.command])


class TrippingServer(CallingServer):
    """One whose keeper fails at the call that comes after so many others."""

    def __init__(self, operator, left):
        super().__init__(operator)
        self.left = left

    def answer(self, message, moment):
        before, states = len(self.calls), self.states
        made = super().answer(message, moment)
        if not before <= self.left < len(self.calls):
            return made
        self.states = states
        return UNAVAILABLE


def tripped(*fields):
    """The answer to a row of a script: how many calls it makes, and how many of each kind."""
    made, stream, moment = set_up(fields, CallingServer), Stream(), 0
    for field in fields:
        word, _, text = field.partition(":")
        if word == "moment":
            moment = int(text)
        stream.held += decoded(text) if word == "piece" else b""
        while isinstance(found := stream.next(), Message):
            made.answer(found, moment)
    counts = collections.Counter(made.calls)
    return [f"calls {len(made.calls)}"] + [f"{call} {counts[call]}" for call in CALLS]


def tripped_after(left, *fields):
    """The answer to a row of a server over a keeper that fails at one call."""
    return server(*fields, beginning=lambda operator: TrippingServer(operator, int(left)))
