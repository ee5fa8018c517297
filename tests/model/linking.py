"""Linking: the tree in which each reference has given way to the document for which it stands (XACML 3.0, core,
sections 5.10, 5.11, 7.15)."""
import collections

from documents import Document, DocumentFault, document_of
from names import word
from policies import LEAF, Tree
from rows import decoded
from versions import numbered, reference_of, resolved

MOST_ON_A_PATH, MOST_IN_A_TREE = 17, 1000
Active = collections.namedtuple("Active", "kind id version document")


class TooLarge(Exception):
    """The tree has too many policies and sets."""


def active_in(held):
    """The active document that the bytes are."""
    document = document_of(held)
    return Active("policy" if document.form == "Policy" else "set", document.id, numbered(document.version), document)


def active_of(field):
    """The active document of a field."""
    return active_in(decoded(field))


class Linking:
    """Trees over active documents."""

    def __init__(self, active):
        self.active, self.keys = active, [held[:3] for held in active]
        # how many policies and sets the trees have so far; references that have no document are not counted
        self.size = 0
        # the place that was found for each reference
        self.found = {}

    def referred(self, reference, path):
        """The tree for which the reference stands, under the documents of the path (7.15): a leaf if there is no
        document, if it stands on the path, or if the path is as long as may be."""
        place = self.place_of(reference)
        if place is None or place in path or len(path) == MOST_ON_A_PATH:
            return LEAF
        return self.tree(self.active[place].document, [*path, place])

    def place_of(self, reference):
        """The place of the document for which the reference stands."""
        told = str(reference)
        if told not in self.found:
            self.found[told] = resolved(reference, self.keys)
        return self.found[told]

    def tree(self, document, path):
        """The tree of a document that stands under those of the path."""
        self.size += 1
        if self.size > MOST_IN_A_TREE:
            raise TooLarge
        if document.form == "Policy":
            return Tree(document, ())
        return Tree(document, [self.tree(child, path) if isinstance(child, Document) else self.referred(child, path)
                               for child in document.children])


def linked(active, root):
    """The tree of the root reference."""
    return Linking(active).referred(root, [])


def places_read(active, root):
    """The places of the documents that are read for the tree of the root reference, in order: those to which it leads,
    each once, first those that are fewer documents away."""
    linking, read, references = Linking(active), {}, [root]
    for _ in range(MOST_ON_A_PATH):
        found = [place for place in dict.fromkeys(map(linking.place_of, references)) if place is not None]
        found = [place for place in found if place not in read]
        read.update(dict.fromkeys(found))
        references = [reference for place in found for reference in references_in(active[place].document)]
    return list(read)


def references_in(document):
    """The references in a document, in order."""
    if document.form == "Policy":
        return []
    return [reference for child in document.children
            for reference in (references_in(child) if isinstance(child, Document) else [child])]


def tree_shown(tree):
    """The fields of a tree: a set with those of its children, a policy, and `?`."""
    if tree == LEAF:
        return ["?"]
    name = word(tree.document.algorithm)
    if tree.document.form == "Policy":
        return [name]
    return ["(" + name] + [field for child in tree.children for field in tree_shown(child)] + [")"]


def link(root, *texts):
    """The answer to a row."""
    try:
        active = [active_of(field) for field in texts]
    except DocumentFault:
        return ["!Malformed"]
    try:
        return tree_shown(linked(active, reference_of(root)))
    except TooLarge:
        return ["!TooLarge"]
