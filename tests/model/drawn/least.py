"""Random rows of decisions, each by a server whose limit of work is the least one with which it decides, and again by
one whose limit is a unit less; and so by the limit of a response's bytes."""
from counting import body_of
from json_texts import NotJson
from machines import view
from messages import Stream
from rows import decoded, encoded
from servers import TurnedAway, set_up
from views import distinct
from work import spent

NO_LIMIT, TOKEN = 2**64 - 1, "token-of-all"


def message(body):
    """The bytes of an ask."""
    held = decoded(encoded(body))
    return (b"POST /domains/acme/pdp HTTP/1.1\r\nAuthorization: Bearer %b\r\nContent-Length: %d\r\n\r\n%b"
            % (TOKEN.encode(), len(held), held))


def units(fields, moment, asked):
    """What the ask takes of the server that the fields make; none where they make no such server, or
    the ask is no JSON."""
    stream = Stream()
    stream.held = asked
    try:
        return spent(view(set_up(fields).states["acme"]), stream.next().body, moment, NO_LIMIT)
    except (TurnedAway, NotJson):
        return 0


def length(fields, moment, asked):
    """The bytes of the response's body, by the server that the fields make."""
    stream = Stream()
    stream.held = asked
    return len(body_of(set_up(fields).answer(stream.next(), moment)))


class Least:
    """Rows of one ask, by fours: under a limit of work that just suffices, and under one that doesn't, and so under
    limits of the response."""

    def __init__(self, decisions):
        self.decisions, self.made = decisions, []

    def domain(self):
        """Fields of a domain with documents, a root and a source."""
        self.decisions.begin()
        active = distinct(self.decisions.active())
        documents = ["document:" + encoded(self.decisions.drafts.text(draft)) for draft in active]
        return ["domain:acme", "ask:" + TOKEN, *documents, *self.decisions.root(active), *self.decisions.world.source()]

    def next(self):
        if self.made:
            return self.made.pop()
        count = 0
        while not count:
            fields, moment, asked = self.domain(), self.decisions.moment(0.7), message(self.decisions.body())
            at = int(moment[0].removeprefix("moment:")) if moment else 0
            count = units(fields, at, asked)
        size = length(fields, at, asked)
        limits = f"limit:{count}", f"limit:{count - 1}", f"reply:{size}", f"reply:{size - 1}"
        self.made = [["server", limit, *fields, *moment, "piece:" + encoded(asked)] for limit in reversed(limits)]
        return self.made.pop()
