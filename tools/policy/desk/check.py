"""Checks of single files: what keeps a document, or a body of source rows, from being taken by the
server, with places."""
from __future__ import annotations

import re
from dataclasses import dataclass

from .elements import Document, Literal
from .faults import Remark, Remarks
from .kinds import Kinds
from .model import documents, route_bodies
from .positions import Node, Slip, Source, read
from .shapes import Shapes


# how a file of ALFA begins, behind comments
ALFA = re.compile(r"\s*(?:(?://[^\n]*|/\*.*?\*/)\s*)*(?:namespace|policy|policyset)\s+[\w.{]", re.DOTALL)


class Disagreement(Exception):
    """The desk, the model and the program don't say the same."""


@dataclass
class Checked:
    """A file as it was read: the parts of it, what is wrong, and the server's first fault or None."""
    source: Source
    node: Node | None
    document: Document | None
    remarks: Remarks
    code: str | None

    @property
    def is_sound(self) -> bool:
        return self.code is None


def marked(faults: list[Remark]) -> str | None:
    """The code of the first fault, which is marked as the one that the server answers; None without one."""
    if not faults:
        return None
    faults[0].is_first = True
    return faults[0].code


def too_large(source: Source, remarks: Remarks) -> None:
    """Remarks that the document has too many bytes, at the first that is one too many."""
    if len(source.held) > documents.MAX_BYTES:
        start = len(source.held[:documents.MAX_BYTES].decode("utf-8", "ignore"))
        node = Node(source, "", "string", start, start + 1)
        remarks.fault("TooLarge", node,
                      f"A document has at most {documents.MAX_BYTES} bytes, white space and line breaks counted.",
                      expected=f"at most {documents.MAX_BYTES} bytes", found=f"{len(source.held)} bytes")


def model_code(read_by, held: bytes) -> str | None:
    """The first fault by the model; None where there is none."""
    try:
        read_by(held)
        return None
    except documents.DocumentFault as fault:
        return str(fault)


def agreed(source: Source, code: str | None, by_model: str | None) -> None:
    """Raises where the desk and the model don't find the same first."""
    if code != by_model:
        raise Disagreement(f"{source.path}: the desk finds {code or 'no fault'} first, "
                           f"and the model {by_model or 'no fault'}. This is a fault of the desk or of the model.")


def other_language(source: Source) -> str:
    """What a text that is no JSON seems to be; the empty text where that isn't known."""
    if source.text.lstrip("\ufeff \t\r\n").startswith("<"):
        return "XML"
    return "ALFA" if source.path.endswith(".alfa") or ALFA.match(source.text) else ""


def json_of(source: Source, remarks: Remarks) -> Node | None:
    """The JSON of the source, as far as it can be read, with its slips as faults."""
    node, slips = read(source)
    language = other_language(source) if slips else ""
    if language:
        slips = [Slip(0, min(20, len(source.text)), "", "JSON", language,
                      f"This is {language}: import it first. `policy import FILE` makes a document of it.")]
    for slip in slips:
        remarks.slip(source, slip)
    return node


def checked(path: str, held: bytes) -> Checked:
    """The policy document in the bytes of a file."""
    source, remarks = Source(path, held), Remarks()
    too_large(source, remarks)
    node = json_of(source, remarks)
    document = Shapes(remarks).document(node) if node is not None else None
    if document is not None:
        Kinds(remarks).document(document)
    code = marked(remarks.faults())
    agreed(source, code, model_code(documents.document_of, held))
    return Checked(source, node, document, remarks, code)


@dataclass
class SourceRow:
    """A row of a source of attributes with its place."""
    node: Node
    category_node: Node | None
    category: str | None
    entity: str | None
    attribute_id: str | None
    literal: Literal
    issuer: str | None


class RowShapes(Shapes):
    """Reads bodies of source rows."""

    def row(self, node: Node) -> SourceRow | None:
        found = self.members("SourceRow", node)
        if found is None:
            return None
        held = (self.optional(self.category, found, "Category"), self.optional(self.text, found, "Entity"),
                self.optional(self.text, found, "AttributeId"))
        literal = self.typed(node, found)
        return SourceRow(node, found.get("Category"), *held, literal, self.optional(self.text, found, "Issuer"))

    def rows(self, node: Node) -> list[SourceRow | None]:
        found = self.members("Source", node)
        return self.each(self.row, found, "Row") if found else []


@dataclass
class Rows:
    """A file of source rows."""
    source: Source
    rows: list[SourceRow]
    remarks: Remarks
    code: str | None


def rows_in(node: Node | None, source: Source, remarks: Remarks, held: bytes) -> Rows:
    """The source rows that the value is, which stands in the source as these bytes."""
    found = RowShapes(remarks).rows(node) if node is not None else []
    code = marked(remarks.faults())
    agreed(source, code, model_code(route_bodies.rows_of, held))
    return Rows(source, [row for row in found if row is not None], remarks, code)


def checked_rows(path: str, held: bytes) -> Rows:
    """The source rows in the bytes of a file."""
    source, remarks = Source(path, held), Remarks()
    return rows_in(json_of(source, remarks), source, remarks, held)
