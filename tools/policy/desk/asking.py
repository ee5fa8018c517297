"""Requests of the JSON Profile: what makes one none, and what is ignored in it though it may be meant, with places."""
from __future__ import annotations

from dataclasses import dataclass

from . import left_out, names
from .check import Disagreement, json_of, marked
from .faults import Remarks
from .members import kind_of, name_node
from .model import identifiers, json_texts, requests, values
from .positions import Node, Source
from .scalars import SHAPES
from .text import listed

OF_REQUEST = ["ReturnPolicyIdList", "CombinedDecision", "Category", "MultiRequests", *identifiers.SHORTHANDS]
OF_CATEGORY, OF_ATTRIBUTE = (["CategoryId", "Id", "Attribute"],
                             ["AttributeId", "Value", "Issuer", "DataType", "IncludeInResult"])
# members of the profile that are read and ignored
IGNORED = ("Content", "XPathVersion", "StatusMessage")
KIND_TYPES = {"string": "string", "boolean": "boolean", "number": "integer"}


class Asking:
    """Reads a request, and remarks what is wrong with it and what is ignored in it."""

    def __init__(self, remarks: Remarks):
        self.remarks, self.ids = remarks, {}

    def fault(self, node: Node, sentence: str, expected: str = "", found: str = "", nearest: str = "") -> None:
        """Says that the server takes this for no request of the profile."""
        self.remarks.fault("NotProfile", node, sentence, expected=expected, found=found or kind_of(node),
                           nearest=nearest)

    def is_kind(self, node: Node, kind: str, wanted: str) -> bool:
        """Whether the value is of the kind; else the fault."""
        if node.kind != kind:
            self.fault(node, f"Here belongs {wanted}.", wanted)
        return node.kind == kind

    def ignored(self, label: str, node: Node, known: list[str]) -> None:
        """Warns of members that are ignored, as the standard says."""
        for name, member in node.last().items():
            if name in known or name in IGNORED:
                continue
            meant = names.nearest(name, known)
            ask = f' Did you mean "{meant}"?' if meant else ""
            self.remarks.warning("ignored-member", name_node(member),
                                 f'{label} has no member "{name}": it is ignored, with all inside it.{ask}',
                                 expected=listed(known),
                                 found=name, nearest=meant)
        for member in node.repeated():
            self.remarks.warning("repeated-member", name_node(member),
                                 f'"{member.name}" stands here more than once: the last one counts.', found=member.name)

    def of_text(self, found: Node, name: str) -> str | None:
        """The text of a member, where it is there."""
        node = found.at(name)
        return node.value if node is not None and self.is_kind(node, "string", "a text") else None

    def of_flag(self, found: Node, name: str) -> None:
        """Looks whether a member is true or false, where it is there."""
        node = found.at(name)
        if node is not None:
            self.is_kind(node, "boolean", "true or false")

    def needs(self, label: str, node: Node, name: str) -> bool:
        """Whether the member is there; else the fault."""
        if node.at(name) is None:
            other = names.other_file(node.last()) if name == "Request" else ""
            self.fault(node, f'{label} needs the member "{name}", which is missing.{other}', f"the member {name}",
                       listed(list(node.last()), "and"))
        return node.at(name) is not None

    def objects(self, found: Node, name: str) -> list[Node]:
        """The objects of a member: an array of them, or one alone."""
        node = found.at(name)
        if node is None:
            return []
        items = node.value if node.kind == "array" else [node]
        return [item for item in items if self.is_kind(item, "object", "an object, or an array of objects")]

    def request(self, node: Node) -> None:
        """A body."""
        if not self.is_kind(node, "object", 'an object with the member "Request"'):
            return
        self.ignored("The body", node, ["Request"])
        if not self.needs("The body", node, "Request"):
            return
        asked = node.at("Request")
        if not self.is_kind(asked, "object", "an object"):
            return
        self.ignored("A request", asked, OF_REQUEST)
        self.of_flag(asked, "ReturnPolicyIdList"), self.of_flag(asked, "CombinedDecision")
        for item in self.objects(asked, "Category"):
            self.category(item, True)
        for name in identifiers.SHORTHANDS:
            for item in self.objects(asked, name):
                self.category(item, False)
        self.references(asked)

    def category(self, node: Node, is_named: bool) -> None:
        """A Category object, which names its category itself or stands under a shorthand."""
        self.ignored("A category", node, OF_CATEGORY)
        if is_named and self.needs("An item of Category", node, "CategoryId"):
            self.category_id(node.at("CategoryId"), self.of_text(node, "CategoryId"))
        name = self.of_text(node, "Id")
        if name is not None and name in self.ids:
            self.fault(node.at("Id"), f'The Id "{name}" stands in line {self.ids[name]} already.', "another Id", name)
        elif name is not None:
            self.ids[name] = node.place.line
        for item in self.objects(node, "Attribute"):
            self.attribute(item)

    def category_id(self, node: Node, held: str | None) -> None:
        """Warns of a category that is none of the standard."""
        if held is not None and not names.is_known_category(held):
            unknown_category(self.remarks, node, held)

    def attribute(self, node: Node) -> None:
        """An attribute of a category."""
        self.ignored("An attribute", node, OF_ATTRIBUTE)
        if self.needs("An attribute", node, "AttributeId"):
            self.of_text(node, "AttributeId")
        self.of_text(node, "Issuer"), self.of_flag(node, "IncludeInResult")
        data_type, value = self.data_type(node), node.at("Value")
        if value is not None:
            self.values(node, data_type, value)

    def data_type(self, node: Node) -> str | None:
        """The type that is named; the empty text where none is, and None where it is no type."""
        if node.at("DataType") is None:
            return ""
        held = self.of_text(node, "DataType")
        if held is not None and held not in identifiers.DATA_TYPES:
            sentence, nearest = left_out.unknown_type(held)
            self.fault(node.at("DataType"), sentence, listed(values.TYPES), held, nearest)
        return identifiers.DATA_TYPES.get(held)

    def values(self, node: Node, data_type: str | None, value: Node) -> None:
        """The value of an attribute, or its values."""
        items = value.value if value.kind == "array" else [value]
        kinds = {item.kind for item in items}
        wrong = [item for item in items if item.kind not in KIND_TYPES]
        for item in wrong:
            self.fault(item, "A value is a text, true or false, or a whole number, or an array of one of these kinds.",
                       "a value")
        if not wrong and len(kinds) > 1:
            self.fault(value, "The values of an array are of one kind: texts, or booleans, or whole numbers.",
                       "values of one kind", "values of several kinds")
        elif not wrong and items and data_type is not None:
            for item in items:
                self.value(data_type or KIND_TYPES[item.kind], item, node)

    def value(self, data_type: str, item: Node, node: Node) -> None:
        """One value under its type."""
        if item.kind == "number" and item.value is None:
            self.fault(item, "A number is whole here, without point and exponent.", "a whole number of 64 bits")
        elif item.kind != "string" and data_type != KIND_TYPES[item.kind]:
            self.fault(item, f"A value of type {data_type} is written as a text.", f"a text: {SHAPES[data_type]}")
        else:
            try:
                values.read(data_type, item.value if item.kind == "string" else str(item.value).lower())
            except values.Fault:
                self.fault(item,
                           f"This is no {data_type}, the type that "
                           f"{'DataType names' if node.at('DataType') else 'its kind has'}.", SHAPES[data_type])

    def references(self, asked: Node) -> None:
        """The request references."""
        group = asked.at("MultiRequests")
        if group is None or not self.is_kind(group, "object",
                                             "an object") or not self.needs("MultiRequests", group, "RequestReference"):
            return
        self.ignored("MultiRequests", group, ["RequestReference"])
        for item in self.objects(group, "RequestReference"):
            if self.needs("A request reference", item, "ReferenceId"):
                self.ignored("A request reference", item, ["ReferenceId"])
                node = item.at("ReferenceId")
                for one in node.value if node.kind == "array" else [node]:
                    if self.is_kind(one, "string", "a text, or an array of texts") and one.value not in self.ids:
                        nearest = names.nearest(one.value, self.ids)
                        self.remarks.warning("unknown-id", one,
                                             f'No category has the Id "{one.value}": this result is Indeterminate, '
                                             'syntax-error.',
                                             found=one.value, nearest=nearest)


def unknown_category(remarks: Remarks, node: Node, held: str) -> None:
    """Warns of a category that is no shorthand and no known URI."""
    nearest = names.category_nearest(held)
    ask = f' Did you mean "{nearest}"?' if nearest else ""
    remarks.warning("unknown-category", node,
                    f'"{held}" is no shorthand and no category of the standard: it is taken as it stands.{ask}',
                    expected=listed(list(identifiers.SHORTHANDS)), found=held, nearest=nearest)


@dataclass
class Asked:
    """A request as it was read: what is wrong with it, and why the server decides nothing on it, or None."""
    source: Source
    remarks: Remarks
    code: str | None


def checked_request(path: str, held: bytes) -> Asked:
    """The request in the bytes of a file."""
    source, remarks = Source(path, held), Remarks()
    node = json_of(source, remarks)
    if not remarks.faults():
        Asking(remarks).request(node)
    code = marked(remarks.faults())
    try:
        requests.request_of(held)
        by_model = None
    except (json_texts.NotJson, requests.NotProfile) as fault:
        by_model = type(fault).__name__
    if code != by_model:
        raise Disagreement(f"{path}: the desk finds {code or 'no fault'} in the request, "
                           f"and the model {by_model or 'no fault'}.")
    return Asked(source, remarks, code)
