"""What decides on a request: documents, a root, the rows of a source of attributes, and a moment."""
from __future__ import annotations

import re
import time
from dataclasses import dataclass, field

from . import names
from .check import Checked, Rows
from .elements import Document, Reference
from .faults import Remarks
from .model import contexts, decisions, linking, policies, rows, values, versions
from .positions import Node, Source
from .program import part

FIRST_MOMENT, LAST_MOMENT = -62_135_596_800, 253_402_300_799
KIND_NAMES = {"policy": "policy", "set": "policy set"}


class Usage(Exception):
    """What was asked for can't be understood."""


def moment_of(text: str | None) -> int:
    """The seconds of a time as people write it: a dateTime, a number of seconds since 1970, or nothing for now."""
    if text in (None, "now"):
        return int(time.time())
    if re.fullmatch(r"-?[0-9]{1,12}", text):
        seconds = int(text)
    else:
        try:
            held = values.read("dateTime", text if "T" in text else text + "T00:00:00Z")
        except values.Fault:
            raise Usage(f'the time "{text}" is no dateTime, as 2026-11-23T10:00:00Z, '
                        'and no number of seconds since 1970') from None
        since = values.key(held) - values.key(values.read("dateTime", "1970-01-01T00:00:00Z"))
        seconds = since // values.SECOND
    if not FIRST_MOMENT <= seconds <= LAST_MOMENT:
        raise Usage(f'the time "{text}" is outside the years 1 to 9999')
    return seconds


def moment_shown(seconds: int) -> str:
    """A moment as a dateTime."""
    return values.to_text(contexts.moment_as("dateTime", seconds))


@dataclass
class Setting:
    """Documents that read, of which all are active, a root or None, and source rows."""
    documents: list[Checked]
    root: versions.Reference | None
    rows: Rows | None
    active: list[linking.Active] = field(default_factory=list)
    placed: dict[int, Document] = field(default_factory=dict)

    def __post_init__(self) -> None:
        for one in self.documents:
            held = linking.active_in(one.source.held)
            self.active.append(held)
            self.place(held.document, one.document)

    def place(self, document, element: Document) -> None:
        """Notes where each document of the model stands in its file."""
        self.placed[id(document)] = element
        for child, inner in zip(document.children, element.children):
            if isinstance(inner, Document):
                self.place(child, inner)

    def source_rows(self) -> list[contexts.SourceRow]:
        """The source rows of the model."""
        found = self.rows.rows if self.rows else []
        return [contexts.SourceRow(row.category, row.entity, row.attribute_id, row.literal.value, row.issuer)
                for row in found]

    def view(self) -> decisions.View:
        """The view of the model."""
        return decisions.View(self.active, self.root, self.source_rows())

    def tree(self) -> policies.Tree | None:
        """The tree of the root; None without a root, or where it is too large."""
        try:
            return None if self.root is None else linking.linked(self.active, self.root)
        except linking.TooLarge:
            return None

    def fields(self) -> list[str]:
        """The fields of a row that say the same to the program."""
        found = ["active:" + rows.encoded(one.source.held) for one in self.documents]
        if self.root is not None:
            kind, name, pattern, earliest, latest = self.root
            bounds = [".".join(map(str, bound or [])) for bound in (earliest, latest)]
            found.append("root:" + "|".join([kind, part(name), ".".join(pattern or []), *bounds]))
        for row in self.source_rows():
            issuer = [] if row.issuer is None else [part(row.issuer)]
            place = "|".join([*map(part, row[:3]), row.value[0], *issuer])
            found.append(f"row:{place}={rows.encoded(values.to_text(row.value))}")
        return found


def root_of(text: str | None, documents: list[Checked]) -> versions.Reference | None:
    """The root that is meant: an id, with `policy:` or `set:` before it where both kinds have it; without
    one the only document."""
    if text is None:
        if len(documents) != 1:
            raise Usage("--root ID says at which of the documents a decision begins")
        return versions.Reference(documents[0].document.kind, documents[0].document.id, None, None, None)
    kind, name = text.split(":", 1) if text.startswith(("policy:", "set:")) else (None, text)
    kinds = sorted({one.document.kind
                    for one in documents if one.document.id == name and kind in (None, one.document.kind)})
    if len(kinds) > 1:
        raise Usage(f"{name} is a policy and a policy set: write --root policy:{name} or --root set:{name}")
    return versions.Reference(kinds[0] if kinds else kind or "policy", name, None, None, None)


def no_document(reference: versions.Reference, documents: list[Document]) -> tuple[str, str]:
    """A sentence on why no document fits the reference, and the nearest id."""
    same = [document for document in documents if document.id == reference.id]
    fitting = [document for document in same if document.kind == reference.kind]
    if fitting:
        known = ", ".join(document.version for document in fitting)
        return f"{reference.id} is there in version {known}, which doesn't fit the reference.", ""
    if same:
        return (f"{reference.id} is a {KIND_NAMES[same[0].kind]}, "
                f"and the reference is to a {KIND_NAMES[reference.kind]}.", "")
    nearest = names.nearest(reference.id, {document.id for document in documents if document.id is not None})
    return f"No document given has the id {reference.id}." + (f" Did you mean {nearest}?" if nearest else ""), nearest


def check_root(setting: Setting, remarks: Remarks, node: Node | None = None) -> None:
    """Remarks that the root leads nowhere, at the value that says it, or else at the word `--root`."""
    root = setting.root
    if root is None or versions.resolved(root, [held[:3] for held in setting.active]) is not None:
        return
    sentence, nearest = no_document(root, [one.document for one in setting.documents])
    if node is None:
        node = Node(Source("--root", root.id.encode()), "", "string", 0, len(root.id))
    remarks.fault("leads-nowhere", node,
                  f"The root leads nowhere. {sentence} Every decision is Indeterminate, processing-error.",
                  nearest=nearest, found=root.id)


def reference_shown(reference: Reference) -> str:
    """A reference in a few words."""
    held = reference.reference
    pattern = f" {'.'.join(held.pattern)}" if held and held.pattern else ""
    return f"{KIND_NAMES[reference.kind]} {reference.id}{pattern}"
