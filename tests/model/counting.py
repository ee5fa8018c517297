"""How often a server reads a text and works out a response, by what it keeps of those before: a shelf of texts,
views of domains that are ready, and a cache of responses; and which requests it refuses, by its limits of work, of a
response and of reading.

What is kept changes no reply. A view is kept for the domain's number and its epoch, one for each number. A response is
kept where it is the same at every moment, for the domain's number, which no other domain ever has, for its epoch,
which rises with each change of what decides, and for the very bytes of the request.
"""
import collections

from charges import Refused
from contexts import CLOCK, ENVIRONMENT
from expressions import Designator
from json_texts import NotJson
from linking import TooLarge, linked, places_read
from machines import Server, view
from policies import LEAF
from replies import error_reply
from requests import NotProfile, individuals_of, request_of
from route_bodies import reference_shown, rows_shown
from routes import owner, route_of
from work import spent

MOST_TEXTS, MOST_VIEWS, MOST_RESPONSES, MOST_BYTES = 128, 128, 512, 16_384
ROOM_FOR_VIEWS = 268_435_456
CLOCK_IDS = {name for name, _ in CLOCK}
UNAVAILABLE = error_reply("Unavailable")


class LastUsed:
    """The keys that were used last, of which no more than so many are kept."""

    def __init__(self, most):
        self.most, self.held = most, collections.OrderedDict()

    def has(self, key):
        """Whether the key is kept; then this is a use of it."""
        if key in self.held:
            self.held.move_to_end(key)
        return key in self.held

    def put(self, key):
        """Keeps a key; the one that wasn't used for longest goes, if there are too many."""
        self.held[key] = None
        if len(self.held) > self.most:
            self.held.popitem(last=False)


class Views:
    """The views that are kept ready, the one that was used last at the end: by a domain's number its epoch, and the
    memory that the view takes by an estimate."""

    def __init__(self):
        self.most, self.room, self.held = MOST_VIEWS, ROOM_FOR_VIEWS, collections.OrderedDict()

    def has(self, number, epoch):
        """Whether the view of that epoch is kept."""
        return self.held.get(number, (None, 0))[0] == epoch

    def use(self, number):
        """The view of the domain is used."""
        self.held.move_to_end(number)

    def put(self, number, epoch, size):
        """Keeps a view, where it isn't too large, in the place of the domain's older one, and lets go those for
        which there is no room."""
        self.held.pop(number, None)
        if self.most and size <= self.room:
            self.held[number] = epoch, size
        while len(self.held) > self.most or sum(size for _, size in self.held.values()) > self.room:
            self.held.popitem(last=False)


def body_of(reply):
    """The body of a reply."""
    return reply.partition(b"\r\n\r\n")[2]


def nodes_of(tree):
    """The policies, sets and references of a tree that have no document."""
    return 1 if tree == LEAF else 1 + sum(map(nodes_of, tree.children))


def nodes(deciders):
    """The nodes of the tree that decides; none where there is no root, or its tree is too large."""
    if deciders.root is None:
        return 0
    try:
        return nodes_of(linked(deciders.active, deciders.root))
    except TooLarge:
        return 0


def size_of_view(state):
    """The memory that a view of the domain takes, by the server's estimate."""
    return 8 * sum(map(len, texts_read(state))) + 512 * len(state.rows) + 24 * nodes(view(state)) + 524_288


def texts_read(state):
    """The texts that are read for a decision in the domain, in order: those to which its root leads, each once."""
    if state.root is None:
        return []
    texts = [stored.text for stored in state.documents.values() if stored.is_active]
    return [texts[place] for place in places_read(view(state).active, state.root)]


def designators(held):
    """The designators that stand anywhere in a tree."""
    if isinstance(held, Designator):
        yield held
    elif isinstance(held, (tuple, list)):
        for inner in held:
            yield from designators(inner)


def names_the_clock(designator):
    """Whether it names an attribute that the clock gives, whatever its type and its issuer."""
    return designator.category == ENVIRONMENT and designator.attribute_id in CLOCK_IDS


def asks_policies(held):
    """Whether the bytes of a request ask the policies: what is no request doesn't, nor one for all of whose individual
    requests one result stands."""
    try:
        (combined, _), found, named = request_of(held)
    except (NotJson, NotProfile):
        return False
    return not combined and individuals_of(found, named) is not None


def is_still(deciders, held):
    """Whether the bytes of a request are answered alike at every moment."""
    if not asks_policies(held) or deciders.root is None:
        return True
    try:
        tree = linked(deciders.active, deciders.root)
    except TooLarge:
        return True
    return not any(map(names_the_clock, designators(tree)))


def deciding(state):
    """All that decides in a domain, as it is shown: its epoch is another where one of these is."""
    return state.documents, state.root and reference_shown(state.root), rows_shown(state.rows)


class CountingServer(Server):
    """A server that counts the texts of policies that it reads, and the responses that it works out."""

    def __init__(self, operator):
        super().__init__(operator)
        self.restart()
        # the next domain's number, and of each domain that is there its number and its epoch
        self.number, self.gates = 1, {}
        # the work that a message may ask for, the bytes that the body of a response may have, and those of the texts
        # that are read for a message
        self.most_units, self.most_bytes, self.most_read = None, None, float("inf")

    def restart(self):
        """Keeps nothing of what it has read and worked out, as a server that is begun over the same records."""
        self.shelf, self.views, self.cache = LastUsed(MOST_TEXTS), Views(), LastUsed(MOST_RESPONSES)
        self.readings, self.evaluations, self.unkept = 0, 0, 0
        # the domains of which it is known that their texts are too long to be read, with their epochs
        self.unread = {}

    def answer(self, message, moment):
        """The reply to the message; or the 503, if a limit is passed."""
        name = owner(message)
        before = self.states.get(name)
        made = super().answer(message, moment)
        self.move(name, before, self.states.get(name))
        if made.startswith((b"HTTP/1.1 200 ", b"HTTP/1.1 400 ")) and name and route_of(message).command == "decide":
            if made.startswith(b"HTTP/1.1 200 ") and self.is_refused(self.states[name], message.body, moment, made):
                made = UNAVAILABLE
            if not self.count(name, message.body, made):
                made = UNAVAILABLE
        return made

    def is_refused(self, state, held, moment, made):
        """Whether the response is too long, or took too much work."""
        if self.most_bytes is not None and len(body_of(made)) > self.most_bytes:
            return True
        if self.most_units is None:
            return False
        try:
            spent(view(state), held, moment, self.most_units)
        except Refused:
            return True
        return False

    def move(self, name, before, after):
        """What the change of a domain makes of its number and its epoch."""
        if before is None and after is not None:
            self.gates[name], self.number = (self.number, 0), self.number + 1
        elif before is not None and after is not None and deciding(before) != deciding(after):
            number, epoch = self.gates[name]
            self.gates[name] = number, epoch + 1

    def count(self, name, held, made):
        """Counts what it took to decide on the bytes of a request, which were answered so; False where it
        took too much to read."""
        key, is_short, state = (self.gates[name], held), len(held) <= MOST_BYTES, self.states[name]
        if is_short and self.cache.has(key):
            return True
        succeeds = made.startswith(b"HTTP/1.1 200 ")
        if not self.see(*self.gates[name], state, held, succeeds):
            return False
        if succeeds:
            self.evaluations += 1
            if is_short and len(body_of(made)) <= MOST_BYTES and is_still(view(state), held):
                self.cache.put(key)
        return True

    def see(self, number, epoch, state, held, succeeds):
        """Takes the view that is kept ready, of which this is a use, with success; where there is none and the
        policies are asked, it is made of the texts, and kept, with success; False where they are too long."""
        if self.views.has(number, epoch):
            if succeeds:
                self.views.use(number)
        elif asks_policies(held):
            if self.unread.get(number) == epoch or not self.read_all(texts_read(state)):
                self.unread[number] = epoch
                return False
            if succeeds:
                self.views.put(number, epoch, size_of_view(state))
        return True

    def read_all(self, texts):
        """Reads texts for a message, one after another; False where that is too much."""
        left = self.most_read
        for text in texts:
            left -= len(text)
            if left < 0:
                return False
            self.read(text)
        return True

    def read(self, text):
        """Takes a text from the shelf, or reads it."""
        if not self.shelf.has(text):
            self.readings += 1
            self.shelf.put(text)
