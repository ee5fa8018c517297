"""Documents together: references that lead nowhere, circles, trees over the limits, documents of one key."""
from __future__ import annotations

from dataclasses import dataclass, field

from .check import Checked
from .elements import Document, Reference
from .faults import Remarks
from .model import linking, versions
from .setting import no_document

EFFECT = "it stands for Indeterminate, processing-error"
# what is remarked here, each by the name by which it is switched off
NAMES = {
    "leads-nowhere": "a reference for which there is no document",
    "circle": "a reference that leads back to a document on its way",
    "way-too-long": f"a way through more than {linking.MOST_ON_A_PATH} documents",
    "tree-too-large": f"a tree of more than {linking.MOST_IN_A_TREE:,} policies and sets",
    "same-key": "two documents of one kind, id and version",
}


class TooLarge(Exception):
    """The tree has more policies and sets than are linked."""


@dataclass
class Together:
    """Documents that are active together."""
    documents: list[Checked]
    keys: list[tuple] = field(default_factory=list)
    known: list[Checked] = field(default_factory=list)
    said: set[int] = field(default_factory=set)
    reached: set[int] = field(default_factory=set)
    size: int = 0

    def __post_init__(self) -> None:
        for one in self.documents:
            document = one.document
            if document is not None and document.id is not None and document.version is not None:
                self.keys.append((document.kind, document.id, [int(number) for number in document.version.split(".")]))
                self.known.append(one)

    def check(self) -> None:
        """Remarks, in each document's own remarks, what is wrong between them."""
        self.doubles()
        for one in self.known:
            for reference in one.document.references():
                self.check_target(one.remarks, reference)
        targets = {place for one in self.known for reference in one.document.references()
                   for place in [self.place(reference)]
                   if place is not None}
        roots = [place for place in range(len(self.known)) if place not in targets]
        for place in roots + list(range(len(self.known))):
            if place not in self.reached:
                self.check_tree(place)

    def doubles(self) -> None:
        """Remarks documents of one kind, id and version."""
        first: dict[tuple, Checked] = {}
        for one, (kind, name, version) in zip(self.known, self.keys):
            other = first.setdefault((kind, name, tuple(version)), one)
            if other is not one:
                same = other.source.held == one.source.held
                one.remarks.fault(
                    "same-key", one.document.node, f"{other.source.path} has the same kind, id and version"
                    + (", and the same text."
                       if same else ": the server takes one of them, and refuses the other (SameVersionOtherText)."),
                    expected="another Version", found=f"{name} {one.document.version}")

    def place(self, reference: Reference) -> int | None:
        """The place of the document for which the reference stands."""
        return None if reference.reference is None else versions.resolved(reference.reference, self.keys)

    def check_target(self, remarks: Remarks, reference: Reference) -> None:
        """Remarks a reference for which there is no document."""
        # (where a document couldn't be read, it may be the one that is meant)
        is_sure = len(self.known) == len(self.documents)
        if reference.reference is not None and self.place(reference) is None and is_sure:
            sentence, nearest = no_document(reference.reference, [one.document for one in self.known])
            remarks.fault("leads-nowhere", reference.node, f"This reference leads nowhere, so {EFFECT}. {sentence}",
                          found=reference.id, nearest=nearest)

    def check_tree(self, place: int) -> None:
        """Remarks circles and long ways in the tree that begins at the document, and whether it is too large."""
        self.size = 0
        try:
            self.walk(self.known[place].document, self.known[place].remarks, [place])
        except TooLarge:
            node = self.known[place].document.node
            self.known[place].remarks.fault("tree-too-large", node,
                                            "With all references followed this tree has more than "
                                            f"{linking.MOST_IN_A_TREE} policies and sets:"
                                            " with it as root every decision is Indeterminate, processing-error.",
                                            expected=f"at most {linking.MOST_IN_A_TREE}", found="more")

    def walk(self, document: Document, remarks: Remarks, path: list[int]) -> None:
        """Goes through the tree of a document that stands at the end of the path."""
        self.reached.add(path[-1])
        self.size += 1
        if self.size > linking.MOST_IN_A_TREE:
            raise TooLarge
        for child in document.children:
            if isinstance(child, Document):
                self.walk(child, remarks, path)
            elif isinstance(child, Reference) and self.place(child) is not None:
                self.follow(child, remarks, path)

    def follow(self, reference: Reference, remarks: Remarks, path: list[int]) -> None:
        """Goes on behind a reference, or remarks why nothing is behind it."""
        place = self.place(reference)
        if place in path:
            way = " -> ".join(self.keys[one][1] for one in [*path[path.index(place):], place])
            self.once("circle", reference, remarks,
                      f"This reference leads back to where it came from, so {EFFECT}: {way}.")
        elif len(path) == linking.MOST_ON_A_PATH:
            self.once("way-too-long", reference, remarks,
                      f"More than {linking.MOST_ON_A_PATH} documents refer to one another on the way through this "
                      f"reference, so {EFFECT} here.")
        else:
            self.walk(self.known[place].document, self.known[place].remarks, [*path, place])

    def once(self, code: str, reference: Reference, remarks: Remarks, sentence: str) -> None:
        """Remarks a reference, one time."""
        if id(reference) not in self.said:
            self.said.add(id(reference))
            remarks.fault(code, reference.node, sentence, found=reference.id)
