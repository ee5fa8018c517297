"""Random messages to a server: what is asked for, by whom, and with which body; mostly what fits the states of the
domains, which are known."""
import collections

from drafts import PATTERNS, written
from machines import NAMES as KIND_NAMES
from machines import digest, version_shown
from marks import Marks
from routes import place_of
from servers import OPERATOR_TOKEN, ROOTS, rows
from small_bodies import SmallBodies

NAMES = ["acme", "beta", "a-1", "0"]
TOKENS = [b"acme-token-1", b"beta-token-1", b"same-token", b"!~!~!~!~", b"a" * 64, b"quoted\"\\token"]
WRONG_TOKENS = [b"acme-token-2", OPERATOR_TOKEN, b"OPERATOR-TOKEN-1", *TOKENS]
WRONG_NAMES = [b"Acme", b"%ff", b"a" * 33, b"a%2fb", b"-a", b"%c3%a9", b"a_b"]
WRONG_KINDS = [b"set", b"Policy", b"policies", b"root", b"policyset%00", b"%ff"]
WRONG_VERSIONS = [b"1.x", b"0000000001", b"1.2.3.4.5.6.7.8.9", b"+", b"1.", b"v1", b"%ff", b"\xd9\xa1"]
# what is asked for of a domain that has all that it needs, and how often
SHARES = {
    "decide": 50,
    "upload": 12,
    "activate": 7,
    "deactivate": 4,
    "delete": 5,
    "document": 3,
    "list": 2,
    "root": 4,
    "source": 5,
    "rows": 2,
    "put": 3,
    "drop": 2,
    "remove": 2,
    "create": 1,
    "domains": 1,
}
# what is asked for of a domain that is absent, and how often
OF_ABSENT = {"create": 4, "decide": 2, "put": 2, "remove": 2, "drop": 1, "domains": 1, "list": 1}
# a message: its method and the path, which are sound, a token or None, and the body
Asking = collections.namedtuple("Asking", "method path token body")


def alter(server, message):
    """Answers the message, unless it is an ask, which alters nothing."""
    place = place_of(message.target)
    if place is not None and "decide" not in place[0].values():
        server.answer(message, 0)


class Commands:
    """Random messages to the domains of a server."""

    def __init__(self, decisions, breaking):
        rows = decisions.rows
        self.rows, self.random, self.one_of, self.seldom = rows, rows.random, rows.random.choice, rows.texts.seldom
        self.decisions, self.breaking, self.bodies, self.marks = decisions, breaking, SmallBodies(rows), Marks(rows)
        # the bodies that were to be decided on, the texts that were to be kept, a token that was to be taken away, a
        # message that is to come next
        self.server, self.names, self.said, self.texts, self.dropped, self.coming = None, [], [], [], TOKENS[0], None

    def begin(self, server, names):
        """Another server, of which these domains are spoken of."""
        self.server, self.names, self.said, self.texts, self.coming, self.marks.count = server, names, [], [], None, 0
        self.decisions.begin()
        self.decisions.drafts.ids = ["urn:p", "urn:q", "urn:r"][:self.one_of([1, 2, 3])]

    def state(self, name):
        return self.server.states.get(name)

    def shared(self, shares):
        return self.random.choices(list(shares), list(shares.values()))[0]

    # Tokens.

    def tokens_with(self, state, roles):
        return [token for token in TOKENS if state is not None and state.tokens.get(digest(token)) in roles]

    def token(self, name, *roles):
        """Mostly a token that the domain has with one of the roles; now and then one with another,
        or another domain's."""
        state = self.state(name)
        sound, others = self.tokens_with(state, roles), self.tokens_with(state, {"Ask", "Admin"} - set(roles))
        if others and self.seldom(0.15 if sound else 0.7):
            return self.one_of(others)
        return self.one_of(sound) if sound and self.seldom(0.98) else self.one_of(sound + WRONG_TOKENS)

    def operator(self):
        return OPERATOR_TOKEN if self.seldom(0.98) else self.one_of(TOKENS)

    # Paths.

    def part(self, held):
        """The part of a path, percent-encoded where it must be, and now and then where it needn't."""
        more = 0.3 if self.seldom(0.15) else 0
        found = b""
        for byte in held:
            must = byte <= 32 or byte in b"/?%\x7f" or byte >= 128 and more
            found += self.one_of([b"%%%02x", b"%%%02X"]) % byte if must or self.seldom(more) else bytes([byte])
        return found

    def path(self, *parts):
        return b"".join(b"/" + part for part in parts)

    def name(self, name):
        """The part that names the domain, or nearly."""
        return self.one_of(WRONG_NAMES) if self.seldom(0.008) else self.part(name.encode())

    def domain(self, name, *parts):
        return self.path(b"domains", self.name(name), *parts)

    def of_operator(self, name, *parts):
        return self.path(b"operator", b"domains", self.name(name), *parts)

    def key(self, name, is_active=None):
        """The key of a document, mostly of one that the domain has, and that is as active as is wanted."""
        state = self.state(name)
        documents = state.documents if state is not None else {}
        fitting = [key for key, stored in documents.items() if is_active in (None, stored.is_active)]
        elsewhere = [key for held in self.server.states.values() for key in held.documents]
        for found, chance in ((fitting, 0.85), (list(documents), 0.7), (elsewhere, 0.7)):
            if found and self.seldom(chance):
                return self.one_of(found)
        return None

    def document(self, name, is_active=None, *behind):
        """The path of a document."""
        key = self.key(name, is_active)
        if key is None:
            kind, held, version = (self.one_of(["policy", "policyset"]), self.marks.id(),
                                   self.one_of(["1.0", "1", "2", "7.7"]))
        else:
            kind, held, version = KIND_NAMES[key.kind], key.id, version_shown(key)
        version = "0" + version if self.seldom(0.1) else version
        kind_part = self.one_of(WRONG_KINDS) if self.seldom(0.02) else self.part(kind.encode())
        version_part = self.one_of(WRONG_VERSIONS) if self.seldom(0.02) else self.part(version.encode())
        return self.domain(name, b"pap", kind_part, self.part(held.encode()) or b"-", version_part, *behind)

    # Bodies.

    def body(self, draft):
        """The draft's JSON, now and then with a slip."""
        if self.seldom(0.1):
            return self.bodies.text(draft).encode()
        return written(self.bodies.shuffled(draft), self.one_of(["", "", " "]), self.seldom(0.5)).encode()

    def draft(self, name):
        """A document that reads."""
        self.rows.trees.attributes = self.decisions.world.known
        state = self.state(name)
        keys = list(state.documents) if state is not None else []
        return self.one_of([self.marks.policy] * 6 + [self.decisions.sound] * 4
                           + [lambda: self.marks.policy_set(keys)] * 2)()

    def stored(self, names):
        return [stored.text for name in names if self.state(name) for stored in self.state(name).documents.values()]

    def text(self, name):
        """A document's text: another one, one that is stored here or was to be kept anywhere, one like such a one,
        or one with a slip."""
        here, elsewhere = self.stored([name]), self.stored([it for it in self.names if it != name])
        for found, chance, make in ((here, 0.08, bytes), (self.texts, 0.12, bytes), (here, 0.1, self.like),
                                    (elsewhere, 0.15, self.like)):
            if found and self.seldom(chance):
                return make(self.one_of(found))
        if self.seldom(0.08):
            return self.breaking.text().encode()
        self.texts.append(self.decisions.drafts.text(self.draft(name)).encode())
        return self.texts[-1]

    def like(self, text):
        """Another text of the same document, or of another one of its key."""
        other = text.replace(b"Permit", b"Deny") if self.seldom(0.5) else text
        return other if other != text else text.replace(b"{", b"{ ", 1)

    def reference(self, name):
        """The body that sets a root: mostly to a document that the domain has."""
        if self.seldom(0.05):
            return {}
        key = self.key(name, True)
        kind, held = key[:2] if key is not None else ("policy", "urn:none")
        version = ({"Version": self.one_of([version_shown(key), *PATTERNS])} if key is not None
                   and self.seldom(0.12) else {})
        return {ROOTS[kind]: {"Id": held, **version}}

    def source(self):
        if self.seldom(0.3):
            return rows([field.removeprefix("row:") for field in self.decisions.world.source()])
        return self.body(self.marks.source() if self.seldom(0.8) else self.bodies.rows_body())

    def request(self):
        """A body to be decided on, often one that was asked before, perhaps elsewhere."""
        if self.said and self.seldom(0.55):
            return self.one_of(self.said[-3:])
        text = written(self.marks.request()) if self.seldom(0.45) else self.decisions.body()
        text = (self.one_of(["", "[]", "{", '{"Request":{"CombinedDecision":true}}', "\ufeff{}"])
                if self.seldom(0.03) else text)
        self.said.append(text.encode())
        return self.said[-1]

    # What is asked for.

    def of(self, command, name):
        """The message that asks for that."""
        if command == "domains":
            return Asking(b"GET", self.path(b"operator", b"domains"), self.operator(), b"")
        if command in ("create", "remove"):
            return Asking(b"PUT" if command == "create" else b"DELETE", self.of_operator(name), self.operator(), b"")
        if command in ("put", "drop"):
            return self.of_tokens(command, name)
        if command == "decide":
            return self.asking(name, self.request())
        return Asking(*self.of_admin(command, name), self.token(name, "Admin"), self.body_of(command, name))

    def asking(self, name, body):
        return Asking(b"POST", self.domain(name, b"pdp"), self.token(name, "Ask", "Admin"), body)

    def of_tokens(self, command, name):
        state = self.state(name)
        known = self.tokens_with(state, ("Ask", "Admin"))
        token = self.one_of(known if known and command == "drop" and self.seldom(0.8) else TOKENS)
        draft = {"Token": token.decode()}
        if command == "drop":
            self.dropped = token
        if command == "put":
            draft["Role"] = ("admin" if not self.tokens_with(state, ("Admin",))
                             else self.one_of(["ask", "ask", "ask", "admin"]))
        return Asking(b"POST" if command == "put" else b"DELETE", self.of_operator(name, b"tokens"), self.operator(),
                      self.body(draft))

    def of_admin(self, command, name):
        """The method and the path of what is for those with the role admin."""
        if command in ("upload", "list"):
            return b"POST" if command == "upload" else b"GET", self.domain(name, b"pap", b"policies")
        if command in ("source", "rows"):
            return b"PUT" if command == "source" else b"GET", self.domain(name, b"pip")
        if command == "root":
            return b"PUT", self.domain(name, b"pap", b"root")
        if command in ("activate", "deactivate"):
            return (b"PUT" if command == "activate" else b"DELETE",
                    self.document(name, command == "deactivate", b"active"))
        return (b"GET" if command == "document" else b"DELETE",
                self.document(name, None if command == "document" or self.seldom(0.3) else False))

    def body_of(self, command, name):
        if command == "upload":
            return self.text(name)
        if command == "root":
            return self.body(self.reference(name))
        return self.source() if command == "source" else b""

    def wanted(self, name):
        """What is to be asked for next until the domain decides something; None where it does."""
        state = self.state(name)
        if state is None:
            return "create"
        if not self.tokens_with(state, ("Admin",)):
            return "put"
        if not state.documents:
            return "upload"
        if not any(stored.is_active for stored in state.documents.values()):
            return "activate"
        if state.root is None:
            return "root"
        return None if self.tokens_with(state, ("Ask",)) or self.seldom(0.7) else "put"

    def showing(self, command, name, asking):
        """A message that shows what another one altered, or None."""
        if command == "delete":
            return asking._replace(method=b"GET")
        if command == "source":
            return asking._replace(method=b"GET", body=b"")
        if command == "drop":
            return self.of("list", name)._replace(token=self.dropped)
        return self.of("list", name) if command in ("upload", "activate", "deactivate") and self.seldom(0.2) else None

    def next(self):
        if self.coming is not None and self.seldom(0.8):
            asking, self.coming = self.coming, None
            return asking
        name = self.one_of(self.names)
        command = self.wanted(name)
        if command is None or self.seldom(0.15):
            command = self.shared(SHARES if self.state(name) is not None else OF_ABSENT)
        asking = self.of(command, name)
        self.coming = self.showing(command, name, asking)
        return asking

    # Many at once.

    def many_tokens(self, name):
        """As many tokens as the domain may have, or nearly, or one more."""
        count = self.one_of([30, 31, 32, 33, 34])
        drafts = [{"Role": self.one_of(["ask", "admin"]), "Token": f"one-of-many-{place}"} for place in range(count)]
        return [Asking(b"POST", self.of_operator(name, b"tokens"), OPERATOR_TOKEN, written(draft).encode())
                for draft in drafts]

    def many_documents(self, name, count):
        """So many documents of a few ids, and what the domain then has."""
        found, token = [], self.token(name, "Admin")
        for place in self.random.sample(range(count), count):
            draft = self.marks.policy()
            draft["Policy"]["Version"] = f"3.{place}"
            found.append(Asking(b"POST", self.domain(name, b"pap", b"policies"), token, written(draft).encode()))
        return [*found, self.of("list", name)]
