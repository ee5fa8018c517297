"""Random documents, exported to XML and imported again: the same documents, which decide the same."""
from __future__ import annotations

import json
import unittest
from dataclasses import dataclass, field
from xml.etree import ElementTree

from .desk_tests import PROGRAM, check
from .test_random_documents import shares

import agree  # noqa: E402
from desk import ask, exchange, made, setting  # noqa: E402
from desk.exporting import NO_XML, exported  # noqa: E402
from desk.importing import imported  # noqa: E402
from desk.model import documents, rows, versions  # noqa: E402
from drafts import Drafts  # noqa: E402

COUNT, SHARE = 2000, 100
# random requests on each document
REQUESTS = 20
ASKED = PROGRAM


@dataclass
class Trip:
    """A document, its XML, and the document that this is; what both decide, by the model, and what is
    decided otherwise, by the model or by the program."""
    held: bytes
    xml: str | None
    back: bytes | None
    decided: list[str] = field(default_factory=list)
    otherwise: list[str] = field(default_factory=list)

    def is_same(self) -> bool:
        return exchange.is_same(self.held, self.back)

    def whole(self) -> str:
        """All of it, for whoever looks why it isn't the same."""
        return f"{self.held!r}\n{self.xml}\n{self.back!r}"


def drawn(source: Drafts) -> bytes:
    """A random document that the server takes."""
    while True:
        held = source.text(source.document()).encode("utf-8", "surrogatepass")
        try:
            documents.document_of(held)
            return held
        except documents.DocumentFault:
            continue


def no_xml(held: object) -> bool:
    """Whether a text of the JSON has a character that XML hasn't."""
    if isinstance(held, str):
        return bool(NO_XML.search(held))
    inner = held.values() if isinstance(held, dict) else held if isinstance(held, list) else ()
    return any(map(no_xml, inner))


def trip(held: bytes) -> Trip:
    """A document there and back."""
    found = exported(check.checked("random.json", held))
    return Trip(held, found.text,
                None if found.text is None else imported("random.xml", found.text.encode()).text)


def alone(held: bytes) -> setting.Setting:
    """A document alone, as the root."""
    one = check.checked("random.json", held)
    return setting.Setting([one], versions.Reference(one.document.kind, one.document.id, None, None, None),
                           None)


def decide(one: Trip, seed: int) -> list[list[str]]:
    """Decides random requests on the document by the model, and on both where no program is asked; the rows
    that ask the program on both."""
    old, new = alone(one.held), alone(one.back)
    maker = made.Maker(made.pools_of([old]), seed, None)
    found = []
    for body, moment in (maker.request() for _ in range(REQUESTS)):
        before = ask.by_model(old, body, moment)
        after = before if ASKED is not None else ask.by_model(new, body, moment)
        one.decided.append(before)
        one.otherwise += [] if before == after else [f"{body!r}: {before}, and afterwards {after}"]
        found += [ask.row_of(both, body, moment) for both in (old, new)]
    return found


def compare(trips: list[Trip], asked: list[list[str]]) -> None:
    """Notes what the program answers otherwise than the model, and documents that it doesn't take."""
    taken = ASKED.answers([["document", rows.encoded(one.back)] for one in trips])
    answers = [rows.decoded(fields[0]).decode() for fields in ASKED.answers(asked)]
    for place, (one, fields) in enumerate(zip(trips, taken)):
        own = answers[2 * REQUESTS * place:2 * REQUESTS * (place + 1)]
        one.otherwise += [f"the program: {found}" for number, found in enumerate(own)
                          if found != one.decided[number // 2]]
        one.otherwise += [f"the program: {fields[0]}"] * fields[0].startswith("!")


def share(seed: int, count: int = SHARE) -> list[Trip]:
    """Random documents of a seed, there and back; those that come back are asked."""
    source, trips, asked = Drafts(agree.Rows(seed)), [], []
    while len(trips) < count:
        held = drawn(source)
        if not no_xml(json.loads(held)):
            trips.append(trip(held))
    back = [one for one in trips if one.back is not None]
    for one in back:
        asked += decide(one, seed)
    if ASKED is not None:
        compare(back, asked)
    return trips


class RoundTrips(unittest.TestCase):
    """Exported and imported again."""

    def test_random_documents(self) -> None:
        found = shares(share, COUNT, SHARE)
        self.assertEqual(len(found), COUNT)
        for one in found:
            self.assertTrue(one.is_same(), one.whole())
            ElementTree.fromstring(one.xml.encode())
            self.assertEqual(one.otherwise, [], one.whole())
        decided = [answer for one in found for answer in one.decided]
        self.assertEqual(len(decided), COUNT * REQUESTS)
        for decision in ("Permit", "Deny", "NotApplicable"):
            self.assertGreater(sum(f'"Decision":"{decision}"' in answer for answer in decided),
                               len(decided) // 50)


if __name__ == "__main__":
    unittest.main()
