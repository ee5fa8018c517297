"""The machine of one domain: the reply to each message that names it, and the state after it. A server is such a
machine for each domain.

What a message asks for is answered in one order: where it leads, who may ask for it, what its body is,
and then what is there.
"""
import collections
import hashlib

from decisions import View, response
from documents import DocumentFault, document_of
from json_texts import NotJson
from linking import active_in
from messages import token_shown
from replies import Error, compact, reply
from route_bodies import new_token_of, old_token_of, root_of, rows_of, rows_shown
from routes import OF_OPERATOR, owner, route_of
from versions import NoVersion, numbered, numbers

MOST_TOKENS, MOST_DOCUMENTS, MOST_ROWS = 32, 1024, 4096
KINDS = {b"policy": "policy", b"policyset": "set"}
NAMES = {kind: name.decode() for name, kind in KINDS.items()}
# a domain that is there: its tokens' digests with their roles, its documents by their keys, its root or None, and
# the rows of its source
State = collections.namedtuple("State", "tokens documents root rows")
Stored = collections.namedtuple("Stored", "text is_active")
Key = collections.namedtuple("Key", "kind id version")
# what a message asks for: the named parts of its path, its body, and when
Asked = collections.namedtuple("Asked", "parts body moment")
NEW = State({}, {}, None, [])
CREATED, DONE = reply(201, b"{}"), reply(200, b"{}")


def digest(token):
    """The SHA-256 of a token, by which it is kept."""
    return hashlib.sha256(token).digest() if token is not None else None


def refuse_if(is_refused, code):
    """Turns the message away, if that is so."""
    if is_refused:
        raise Error(code)


def without(held, key):
    """What is held but for one key."""
    return {it: inner for it, inner in held.items() if it != key}


def in_body(reads, body):
    """What is read of the body, unless it has a fault."""
    try:
        return reads(body)
    except DocumentFault as fault:
        raise Error(str(fault).split("(")[0]) from None


# What the operator asks for: the reply, and the state after it.


def create(state, _):
    """`PUT` of a domain: it is there, and has nothing."""
    refuse_if(state is not None, "Exists")
    return CREATED, NEW


def remove(state, _):
    """`DELETE` of a domain with all that it has."""
    refuse_if(state is None, "Absent")
    return DONE, None


def put(state, asked):
    """`POST` of a token, whose role may change."""
    role, token = in_body(new_token_of, asked.body)
    refuse_if(state is None, "Absent")
    refuse_if(digest(token.encode()) not in state.tokens and len(state.tokens) == MOST_TOKENS, "Quota")
    return DONE, state._replace(tokens={**state.tokens, digest(token.encode()): role})


def drop(state, asked):
    """`DELETE` of a token."""
    token = in_body(old_token_of, asked.body)
    refuse_if(state is None or digest(token.encode()) not in state.tokens, "Absent")
    return DONE, state._replace(tokens=without(state.tokens, digest(token.encode())))


# What is asked for in a domain that is there.


def view(state):
    """What decides: each active text, read anew, the root and the rows."""
    return View([active_in(stored.text) for stored in state.documents.values() if stored.is_active],
                state.root, state.rows)


def decide(state, asked):
    """`POST` of a request: the response to it."""
    try:
        return reply(200, response(view(state), asked.body, asked.moment).encode(), "xacml+json"), state
    except NotJson:
        raise Error("NotJson") from None


def upload(state, asked):
    """`POST` of a policy or a set, which is kept and not active; the same text again changes nothing."""
    document = in_body(document_of, asked.body)
    key = Key("policy" if document.form == "Policy" else "set", document.id, tuple(numbered(document.version)))
    if key in state.documents:
        refuse_if(state.documents[key].text != asked.body, "SameVersionOtherText")
        return DONE, state
    refuse_if(len(state.documents) == MOST_DOCUMENTS, "Quota")
    return CREATED, state._replace(documents={**state.documents, key: Stored(asked.body, False)})


def version_shown(key):
    """A version as replies have it."""
    return ".".join(map(str, key.version))


def entry(key, stored):
    """A document in the list of all."""
    return {"Active": stored.is_active, "Id": key.id, "Kind": NAMES[key.kind], "Version": version_shown(key)}


def listed(state, _):
    """`GET` of the list of documents."""
    return reply(200, compact({"Policy": [entry(key, state.documents[key]) for key in sorted(state.documents)]})), state


def key_in(parts, documents):
    """The key of the document that the path names, which is there."""
    try:
        key = Key(KINDS.get(parts["kind"]), parts["id"].decode(), tuple(numbers(parts["version"].decode())))
    except (UnicodeDecodeError, NoVersion):
        raise Error("Absent") from None
    refuse_if(key not in documents, "Absent")
    return key


def show(state, asked):
    """`GET` of a document's text."""
    return reply(200, state.documents[key_in(asked.parts, state.documents)].text), state


def delete(state, asked):
    """`DELETE` of a document that isn't active."""
    key = key_in(asked.parts, state.documents)
    refuse_if(state.documents[key].is_active, "StillActive")
    return DONE, state._replace(documents=without(state.documents, key))


def set_active(is_active):
    """`PUT` and `DELETE` of a document's being active."""
    def change(state, asked):
        key = key_in(asked.parts, state.documents)
        return (DONE,
                state._replace(documents={**state.documents, key: state.documents[key]._replace(is_active=is_active)}))
    return change


def set_root(state, asked):
    """`PUT` of the root."""
    return DONE, state._replace(root=in_body(root_of, asked.body))


def set_source(state, asked):
    """`PUT` of the source's rows."""
    rows = in_body(rows_of, asked.body)
    refuse_if(len(rows) > MOST_ROWS, "Quota")
    return DONE, state._replace(rows=rows)


def show_rows(state, _):
    """`GET` of the source's rows."""
    return reply(200, rows_shown(state.rows)), state


COMMANDS = {
    "create": create,
    "remove": remove,
    "put": put,
    "drop": drop,
    "decide": decide,
    "upload": upload,
    "list": listed,
    "document": show,
    "delete": delete,
    "activate": set_active(True),
    "deactivate": set_active(False),
    "root": set_root,
    "source": set_source,
    "rows": show_rows,
}


def check_token(operator, state, message, command):
    """That the message shows a token of one who may ask for that."""
    shown = digest(token_shown(message.fields))
    role = None if state is None else state.tokens.get(shown)
    if shown != operator if command in OF_OPERATOR else role is None:
        raise Error("Unauthorized", "WWW-Authenticate: Bearer\r\n")
    refuse_if(role == "Ask" and command not in (*OF_OPERATOR, "decide"), "Forbidden")


def step(operator, state, message, moment):
    """The reply to a message that names the domain, and the state after it; None is the state of a
    domain that is absent."""
    try:
        route = route_of(message)
        check_token(operator, state, message, route.command)
        return COMMANDS[route.command](state, Asked(route.parts, message.body, moment))
    except Error as error:
        return error.reply, state


def general(operator, names, message):
    """The reply to a message that names no domain, where the domains have these names."""
    try:
        route = route_of(message)
        check_token(operator, None, message, route.command)
        refuse_if(route.command != "domains", "BadDomain")
        return reply(200, compact({"Domain": sorted(names)}))
    except Error as error:
        return error.reply


class Server:
    """The domains that are there, by their names. A message moves the state of its owner alone."""

    def __init__(self, operator):
        self.operator, self.states = digest(operator), {}

    def answer(self, message, moment):
        """The reply to the message."""
        name = owner(message)
        if name is None:
            return general(self.operator, self.states, message)
        made, state = step(self.operator, self.states.get(name), message, moment)
        self.states = without(self.states, name) if state is None else {**self.states, name: state}
        return made
