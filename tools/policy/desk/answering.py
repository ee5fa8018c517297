"""What answers rest on: the tree to which a root leads, and the rows that the policies of that tree ask for.

Two states of a domain that have the same of both answer every request alike. So whether a step of a
deployment changes answers is worked out here, from how references resolve: to the latest active version of
their id that fits.
"""
from __future__ import annotations

import functools
from collections import namedtuple

from .check import Checked
from .elements import Document
from .live import Key, key_of
from .model import contexts, linking, values, versions

# what a domain has: the keys of its active documents, its root, and the name of its rows
State = namedtuple("State", "active root rows")
# what its answers rest on
View = namedtuple("View", "tree rows")
TOO_LARGE, NOWHERE = "too large", "?"


@functools.lru_cache(maxsize=1024)
def active_in(held: bytes) -> linking.Active:
    """The document of the model that the bytes are."""
    return linking.active_in(held)


def asked_by(document: Document) -> frozenset[tuple[str, str, str]]:
    """The attributes that the document asks rows for: category, id and type of its designators."""
    return frozenset((one.category, one.attribute_id, one.data_type) for inner in document.documents()
                     for one in inner.designators())


def references_of(document) -> list:
    """The references of a document of the model, in order, those inside its inner documents too."""
    found = []
    for child in document.children if document.form == "PolicySet" else ():
        found += [child] if isinstance(child, versions.Reference) else references_of(child)
    return found


def size_of(document) -> int:
    """How many policies and sets the document is."""
    inner = document.children if document.form == "PolicySet" else ()
    return 1 + sum(size_of(child) for child in inner if not isinstance(child, versions.Reference))


class Answering:
    """Documents and rows, and what answers rest on in each state made of them."""

    def __init__(self, documents: list[Checked], rows: dict[str, list[contexts.SourceRow]]):
        self.keys = [key_of(one) for one in documents]
        self.asked = {key: asked_by(one.document) for key, one in zip(self.keys, documents)}
        held = {key: active_in(one.source.held).document for key, one in zip(self.keys, documents)}
        self.references = {key: references_of(document) for key, document in held.items()}
        self.sizes = {key: size_of(document) for key, document in held.items()}
        self.rows = {name: self.placed(found) for name, found in rows.items()}
        self.fitting: dict[str, list[Key]] = {}
        self.views: dict[tuple, View] = {}
        self.size = 0

    def placed(self, rows: list[contexts.SourceRow]) -> dict[tuple, dict[str, list[tuple[str | None, str]]]]:
        """The rows of each attribute, by the entities that have them: issuers and values."""
        found: dict[tuple, dict[str, list[tuple[str | None, str]]]] = {}
        for row in rows:
            place = found.setdefault((row.category, row.attribute_id, row.value[0]), {})
            place.setdefault(row.entity, []).append((row.issuer, values.to_text(row.value)))
        return found

    def resolved(self, reference: versions.Reference, active: frozenset[Key]) -> Key | None:
        """The document for which the reference stands."""
        name = repr(reference)
        if name not in self.fitting:
            self.fitting[name] = sorted((key for key in self.keys
                                         if versions.is_for(reference, key.kind, key.id, list(key.version))),
                                        key=lambda key: key.version, reverse=True)
        return next((key for key in self.fitting[name] if key in active), None)

    def tree(self, root: versions.Reference | None, active: frozenset[Key]) -> object:
        """The tree of the root by its documents' keys: nothing without a root."""
        self.size = 0
        try:
            return () if root is None else self.referred(root, active, ())
        except linking.TooLarge:
            return TOO_LARGE

    def referred(self, reference: versions.Reference, active: frozenset[Key],
                 path: tuple[Key, ...]) -> object:
        """The tree for which a reference stands, under the documents of the path."""
        key = self.resolved(reference, active)
        if key is None or key in path or len(path) == linking.MOST_ON_A_PATH:
            return NOWHERE
        self.size += self.sizes[key]
        if self.size > linking.MOST_IN_A_TREE:
            raise linking.TooLarge
        return key, tuple(self.referred(one, active, (*path, key)) for one in self.references[key])

    def asked_in(self, tree: object) -> set[tuple[str, str, str]]:
        """The attributes that the tree's documents ask rows for."""
        return {place for key in keys_in(tree) for place in self.asked[key]}

    def view(self, state: State) -> View:
        """What the answers rest on in that state."""
        name = state.active, repr(state.root), state.rows
        if name not in self.views:
            tree = self.tree(state.root, state.active)
            rows = self.rows[state.rows]
            self.views[name] = View(tree, {place: rows[place] for place in self.asked_in(tree)
                                           if place in rows})
        return self.views[name]


def keys_in(tree: object) -> set[Key]:
    """The documents of a tree."""
    found: set[Key] = set()
    left = [tree] if isinstance(tree, tuple) and tree else []
    while left:
        key, children = left.pop()
        found.add(key)
        left += [child for child in children if isinstance(child, tuple)]
    return found


def turned(answering: Answering, before: State,
           after: State) -> list[tuple[Key | None, versions.Reference, Key | None, Key | None]]:
    """The references of the tree before that stand for something else after: the document that has it (None
    is the root), the reference, and both."""
    held = [(None, before.root)] if before.root is not None else []
    held += [(key, one) for key in sorted(keys_in(answering.view(before).tree))
             for one in answering.references[key]]
    found = [(key, one, answering.resolved(one, before.active), answering.resolved(one, after.active))
             for key, one in held]
    return [one for place, one in enumerate(found) if one[2] != one[3] and one not in found[:place]]
