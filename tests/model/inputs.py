"""Rows as the program reads them, and its answers: what stands in a row in short is written as the bodies, the
documents and the messages that the code which serves reads."""
import json

from documents import RULE_ALGORITHMS, POLICY_ALGORITHMS, DocumentFault
from rows import decoded, encoded, text_of
from servers import OPERATOR_TOKEN, ROOTS, SETUP, SETUP_TOKEN, Setup, path, root, rows

# References and keys are written as the bodies and documents that have them, and domains as the
# messages that make them.


class Messages(Setup):
    """The messages that make domains, as a stream; and the fields that stand around it."""

    def __init__(self):
        super().__init__(None)
        self.before, self.after, self.stream = [], [], ""

    def send(self, method, target, body, token=OPERATOR_TOKEN, written=None):
        length = b"Content-Length: %d\r\n" % len(body) if body else b""
        head = b"%b %b HTTP/1.1\r\nAuthorization: Bearer %b\r\n%b\r\n" % (method, target, token, length)
        self.stream += encoded(head) + (encoded(body) if written is None else written)

    def by_domain(self, method, body, *parts, **more):
        self.send(method, path("domains", self.name, *parts), body, SETUP_TOKEN, **more)

    def views(self, text):
        self.before.append("views:" + text)

    def reply(self, text):
        self.before.append("reply:" + text)

    def reading(self, text):
        self.before.append("reading:" + text)

    def room(self, text):
        self.before.append("room:" + text)

    def limit(self, text):
        self.after.append("limit:" + text)

    def inactive(self, text):
        self.by_domain(b"POST", decoded(text), "pap", "policies", written=text)

    def document(self, text):
        try:
            super().document(text)
        except DocumentFault:
            pass

    def fields(self):
        return self.before + (["made:" + self.stream] if self.stream else []) + self.after


def events(fields):
    """The events of a row of a server, whose domains are made by messages."""
    setup, place = Messages(), 0
    while place < len(fields) and fields[place].split(":")[0] in SETUP:
        word, _, text = fields[place].partition(":")
        if setup.name is None and word not in ("views", "limit", "reply", "reading", "room", "domain"):
            break
        getattr(setup, word)(text)
        place += 1
    setup.end()
    return setup.fields() + list(fields[place:])


def root_body(reference):
    """The body that sets the root to the reference of a field, or to none; a text that is no reference stays."""
    if not reference:
        return "{}"
    return encoded(root(reference)) if reference.count("|") == 4 and reference.split("|")[0] in ROOTS else reference


def document_with_key(key):
    """A document that has the key of a field; a text that is no key stays."""
    if key.count("|") != 2:
        return key
    kind, name, version = key.split("|")
    form, algorithms = ((("Policy", "Rule"), RULE_ALGORITHMS)
                        if kind == "policy" else (("PolicySet", "Policy"), POLICY_ALGORITHMS))
    held = {f"{form[0]}Id": text_of(name), "Version": text_of(version),
            f"{form[1]}CombiningAlgId": next(iter(algorithms))}
    return encoded(json.dumps({form[0]: held}, ensure_ascii=False, separators=(",", ":")))


def decide(fields):
    """The fields of a decision, with the root's body and one body of all source rows."""
    *given, body = fields
    listed = [field[4:] for field in given if field.startswith("row:")]
    others = ["root:" + root_body(field[5:]) if field.startswith("root:") else field
              for field in given if not field.startswith("row:")]
    return others + (["source:" + encoded(rows(listed))] if listed else []) + [body]


CALLS = {"root": root_body, **dict.fromkeys(["activate", "deactivate", "delete", "document"], document_with_key)}


def call(field):
    """A call of a keeper."""
    word, _, rest = field.partition(" ")
    name, _, text = rest.partition(" ")
    return f"{word} {name} {CALLS[word](text)}" if word in CALLS else field


READ = {
    "server": events, "server_in_memory": events, "server_in_tables": events, "run": events,
    "reopened": events, "loopback": events, "front": events, "played": events, "driven": events, "decide": decide,
    "tripped": events,
    "tripped_after": lambda fields: [fields[0], *events(fields[1:])],
    "link": lambda fields: [root_body(fields[0]), *fields[1:]],
    "resolve": lambda fields: [root_body(fields[0]), *map(document_with_key, fields[1:])],
    "keeper_with": lambda fields: [fields[0], *map(call, fields[1:])],
    "keeper": lambda fields: list(map(call, fields)), "keeper_in_memory": lambda fields: list(map(call, fields)),
}


def as_read(fields):
    """The fields of a row as the program reads them."""
    return [fields[0], *READ.get(fields[0], list)(fields[1:])]


# The names of this program's rows, for names of the code.
COMMANDS = {
    "create": "Create",
    "remove": "Remove",
    "put": "PutToken",
    "drop": "DropToken",
    "decide": "Decide",
    "upload": "Upload",
    "list": "List",
    "root": "SetRoot",
    "source": "SetSource",
    "rows": "ShowSource",
    "document": "Show",
    "delete": "Delete",
    "activate": "Activate",
    "deactivate": "Deactivate",
}
DECISIONS = {"{P}": "IndeterminatePermit", "{D}": "IndeterminateDeny", "{DP}": "IndeterminateDenyPermit"}


def route_written(answer):
    """A route by its command's name in the code, and the domain in a field of its own."""
    word, is_of_domain, domain = answer[0].partition(":")
    return [COMMANDS[word], domain, *answer[1:]] if is_of_domain else answer


WRITTEN = {"route": route_written, "combine": lambda answer: [DECISIONS.get(answer[0], answer[0])]}


def as_written(fields, answer):
    """The answer to the row as the program writes it."""
    return WRITTEN.get(fields[0], list)(answer)
