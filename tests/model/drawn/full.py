"""Random rows of a domain of 256 documents of 65,536 bytes and 1,024 rows of a source, which is asked a few times
without a limit: nothing is refused that the model answers."""
from least import TOKEN, message
from rows import decoded, encoded
from views import distinct

DOCUMENTS, BYTES, ROWS, ASKS = 256, 65_536, 1_024, 4


def filled(text):
    """The text of a document, with spaces behind it up to the most bytes that it may have."""
    return text + " " * (BYTES - len(decoded(encoded(text))))


class Full:
    """Rows of such a domain."""

    def __init__(self, decisions):
        self.decisions = decisions

    def documents(self):
        """As many drafts of documents as there may be, each of another kind, id or version; the first is the root's."""
        made = self.decisions.active()
        self.decisions.drafts.ids = [*self.decisions.drafts.ids, *(f"urn:d{number}" for number in range(DOCUMENTS))]
        while len(made) < DOCUMENTS:
            made = distinct([*made, *(self.decisions.sound() for _ in range(DOCUMENTS - len(made)))])
        return made

    def source(self):
        """The fields of the rows of a source, most of them of entities that no request names."""
        fields = self.decisions.world.source()
        more = range(ROWS - len(fields))
        return fields + [f"row:urn:category|entity-{number}|urn:attribute|string=text" for number in more]

    def next(self):
        self.decisions.begin()
        drafts = self.documents()
        texts = [filled(self.decisions.drafts.text(draft)) for draft in drafts]
        asked = ["piece:" + encoded(message(self.decisions.body())) for _ in range(ASKS)]
        return ["server", "domain:acme", "ask:" + TOKEN, *("document:" + encoded(text) for text in texts),
                *self.decisions.root(drafts), *self.source(), *self.decisions.moment(0.7), *asked]
