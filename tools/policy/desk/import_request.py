"""Requests in XML (XACML 3.0, core, section 5.42) and of the JSON Profile 1.0 as requests of the JSON
Profile 1.1, as the server reads them."""
from __future__ import annotations

from . import left_out, names, xml_reading, xml_validity
from .asking import OF_ATTRIBUTE, OF_CATEGORY, OF_REQUEST, checked_request
from .check import json_of
from .drafted import Draft, taken_over, text_of
from .faults import Remarks
from .importing import Imported, Importing
from .members import name_node
from .model import identifiers
from .positions import Node, Source
from .xml_reading import Element, Spot

# the longest body that the server reads
MOST_BYTES = 524_288
XML_ID = f"{{{xml_reading.XML_NAMESPACE}}}id"
COMBINED = ("The server doesn't combine decisions: it answers this request as a whole with Indeterminate, "
            "processing-error.")
POLICY_IDS = ("The server names policies by a rule of its own: those that decide Permit or Deny, "
              "up to the one that ends "
              "their set.")


def is_true(held: Element, name: str) -> bool:
    return (held.value(name) or "").strip() in ("true", "1")


def remark_on(remarks: Remarks, name: str, place: Node | Spot) -> None:
    """Says what the server makes of a flag of a request that is true."""
    if name == "CombinedDecision":
        remarks.warning("not-answered", place, COMBINED)
    elif name == "ReturnPolicyIdList":
        remarks.note("own-rule", place, POLICY_IDS)


class ImportingRequests(Importing):
    """Makes a draft of a request."""

    def attribute(self, held: Element) -> list[Draft]:
        """The attribute; one with values of several types is several, since JSON names one type for all of
        them."""
        by_type: dict[str, list[Draft]] = {}
        types: dict[str, Draft] = {}
        for child in held.named("AttributeValue"):
            value = self.attribute_value(child).value
            types.setdefault(value["DataType"].value, value["DataType"])
            by_type.setdefault(value["DataType"].value, []).append(value["Value"])
        included = {}
        if is_true(held, "IncludeInResult"):
            included["IncludeInResult"] = Draft(True, held.spot("IncludeInResult"))
        head = {"AttributeId": self.uri(held, "AttributeId")} | self.issuer(held)
        found = []
        for name, held_values in by_type.items():
            value = held_values[0] if len(held_values) == 1 else Draft(held_values, held.spot())
            found.append(Draft(head | {"DataType": types[name], "Value": value} | included, held.spot()))
        return found

    def attributes(self, held: Element) -> Draft:
        """A Category object."""
        for child in held.named("Content"):
            self.element_left_out(child)
        members = {"CategoryId": self.category(held)}
        if held.at(XML_ID):
            members["Id"] = Draft(held.value(XML_ID).strip(), held.spot(XML_ID))
        found = [one for child in held.named("Attribute") for one in self.attribute(child)]
        return Draft(members | ({"Attribute": Draft(found, held.spot())} if found else {}), held.spot())

    def references(self, held: Element) -> Draft:
        """The request references."""
        found = []
        for one in held.named("RequestReference"):
            ids = [Draft((child.value("ReferenceId") or "").strip(), child.spot("ReferenceId"))
                   for child in one.named("AttributesReference")]
            found.append(Draft({"ReferenceId": Draft(ids, one.spot())}, one.spot()))
        return Draft({"RequestReference": Draft(found, held.spot())}, held.spot())

    def request(self, held: Element) -> Draft:
        """The request of a file."""
        members = {}
        for child in held.named("RequestDefaults"):
            self.remarks.note("not-kept", child.spot(), left_out.NO_XPATH)
        for name in ("ReturnPolicyIdList", "CombinedDecision"):
            if is_true(held, name):
                members[name] = Draft(True, held.spot(name))
                remark_on(self.remarks, name, held.spot(name))
        members |= self.several("Category", held, ("Attributes",), self.attributes)
        group = held.one("MultiRequests")
        if group is not None:
            members["MultiRequests"] = self.references(group)
        return Draft({"Request": Draft(members, held.spot())}, held.spot())


def request_text(draft: Draft, remarks: Remarks) -> bytes:
    """The request of a draft; what keeps the server from taking it is said at the places from which it
    comes."""
    text = text_of(draft.plain(), MOST_BYTES)
    found = checked_request("", text).remarks
    taken_over(found.faults(), draft.places(), remarks)
    if len(text) > MOST_BYTES:
        remarks.fault("TooLarge", draft.spot, f"A request has at most {MOST_BYTES} bytes.")
    return text


def from_xml(path: str, held: bytes) -> Imported:
    """The request of an XML file."""
    remarks = Remarks()
    whole = xml_reading.read(path, held, remarks)
    if whole.top is None or not xml_validity.top_of(whole.top, ["Request"], remarks):
        return Imported(remarks, None)
    xml_validity.check(whole.top, remarks)
    is_valid = not remarks.faults()
    draft = ImportingRequests(remarks).request(whole.top)
    text = request_text(draft, remarks) if is_valid else None
    return Imported(remarks, None if remarks.faults() else text)


class FromProfile:
    """Makes a draft of a request of the JSON Profile 1.0: what 1.1 has under the same names, in arrays, and
    nothing else."""

    def __init__(self, remarks: Remarks):
        self.remarks = remarks

    def spot(self, node: Node) -> Spot:
        return Spot(node.source, node.pointer, node.start, node.end)

    def copied(self, node: Node) -> Draft:
        """The value as it is; a number that isn't whole is told."""
        if node.kind == "array":
            return Draft([self.copied(item) for item in node.value], self.spot(node))
        if node.kind == "object":
            return Draft({name: self.copied(member.node) for name, member in node.last().items()},
                         self.spot(node))
        if node.kind == "number" and node.value is None:
            self.remarks.fault("LeftOut", node,
                               f'This number is of the data type "double". {left_out.TYPES["double"]}')
            return Draft("", self.spot(node))
        return Draft(node.value, self.spot(node))

    def members(self, node: Node, known: list[str], label: str) -> dict[str, Node]:
        """The members of these names; each other one is told, since the server would pass over it."""
        for name, member in node.last().items():
            if name in left_out.DEFAULTS:
                self.remarks.note("not-kept", name_node(member), left_out.NO_XPATH)
            elif name == "Content":
                self.remarks.fault("LeftOut", name_node(member), left_out.ELEMENTS["Content"])
            elif name not in known:
                meant = names.nearest(name, known)
                self.remarks.fault("NotProfile", name_node(member),
                                   f'{label} has no member "{name}", and the server would pass over it.'
                                   + (f' Did you mean "{meant}"?' if meant else ""), found=name,
                                   nearest=meant)
        return {name: member.node for name, member in node.last().items() if name in known}

    def objects(self, node: Node, make) -> Draft:
        """The objects of a member, which in 1.0 may be one alone."""
        held = node.value if node.kind == "array" else [node]
        return Draft([make(item) if item.kind == "object" else self.copied(item) for item in held],
                     self.spot(node))

    def attribute(self, node: Node) -> Draft:
        """An attribute, whose data type is a whole URI afterwards."""
        found = {name: self.copied(held)
                 for name, held in self.members(node, OF_ATTRIBUTE, "An attribute").items()}
        named = found.get("DataType")
        if named is not None and isinstance(named.value, str):
            sentence = left_out.data_type(named.value)
            if sentence:
                self.remarks.fault("LeftOut", node.at("DataType"), sentence, found=named.value)
            elif named.value in identifiers.DATA_TYPES:
                found["DataType"] = Draft(identifiers.NAMESPACE + identifiers.DATA_TYPES[named.value],
                                          named.spot)
        return Draft(found, self.spot(node))

    def category(self, node: Node) -> Draft:
        """A Category object."""
        return Draft({name: self.objects(held, self.attribute) if name == "Attribute" else self.copied(held)
                      for name, held in self.members(node, OF_CATEGORY, "A category").items()},
                     self.spot(node))

    def references(self, node: Node) -> Draft:
        """The request references."""
        def reference(item: Node) -> Draft:
            return Draft({name: self.copied(held)
                          for name, held in self.members(item, ["ReferenceId"],
                                                         "A request reference").items()}, self.spot(item))
        return Draft({name: self.objects(held, reference)
                      for name, held in self.members(node, ["RequestReference"], "MultiRequests").items()},
                     self.spot(node))

    def request(self, node: Node) -> Draft:
        """The members of a request."""
        found = {}
        for name, held in self.members(node, OF_REQUEST, "A request").items():
            if name == "MultiRequests" and held.kind == "object":
                found[name] = self.references(held)
            else:
                is_category = name == "Category" or name in identifiers.SHORTHANDS
                found[name] = self.objects(held, self.category) if is_category else self.copied(held)
            if held.value is True:
                remark_on(self.remarks, name, held)
        return Draft(found, self.spot(node))

    def body(self, node: Node) -> Draft:
        """The whole of a file."""
        if node.kind != "object":
            return self.copied(node)
        return Draft({name: self.request(held) if held.kind == "object" else self.copied(held)
                      for name, held in self.members(node, ["Request"], "The body").items()},
                     self.spot(node))


def from_profile(path: str, held: bytes) -> Imported:
    """The request of a JSON file."""
    remarks = Remarks()
    node = json_of(Source(path, held), remarks)
    if node is None or remarks.faults():
        return Imported(remarks, None)
    text = request_text(FromProfile(remarks).body(node), remarks)
    return Imported(remarks, None if remarks.faults() else text)


def imported_request(path: str, held: bytes) -> Imported:
    """The request of a file, in XML or in JSON."""
    is_json = held.removeprefix(b"\xef\xbb\xbf").lstrip()[:1] in (b"{", b"[")
    return from_profile(path, held) if is_json else from_xml(path, held)
