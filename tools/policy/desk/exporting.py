"""Documents of the notation as policies and policy sets of XACML 3.0 in XML: what `importing` reads, written.

Whatever isn't white space by itself in XML is written by its number, so that the document comes back letter
by letter. XML can't hold each character: a text with one that it can't is told.
"""
from __future__ import annotations

import re
from dataclasses import dataclass

from .check import Checked
from .faults import Remarks
from .model import identifiers, values
from .positions import Node
from .xml_tables import VERSION_3

NO_XML = re.compile("[^\t\n\r\u0020-\ud7ff\ue000-\ufffd\U00010000-\U0010ffff]")
ESCAPES = {"&": "&amp;", "<": "&lt;", ">": "&gt;", "\r": "&#13;"}
IN_ATTRIBUTES = ESCAPES | {'"': "&quot;", "\t": "&#9;", "\n": "&#10;"}


def in_text(held: str) -> str:
    """The text as XML holds it between tags."""
    return "".join(ESCAPES.get(letter, letter) for letter in held)


def in_attribute(held: str) -> str:
    """The text as XML holds it in quotes."""
    return "".join(IN_ATTRIBUTES.get(letter, letter) for letter in held)


def uri_escaped(held: str) -> str:
    """A URI as XML holds it in quotes: spaces that a schema would bring together are written by their
    number."""
    return re.sub("^ +| +$| {2,}", lambda found: "&#32;" * len(found.group()), in_attribute(held))


# of obligations and of advice the names of the group, of one, of its id, and of its decision
DUTIES = (("ObligationExpressions", "ObligationExpression", "ObligationId", "FulfillOn"),
          ("AdviceExpressions", "AdviceExpression", "AdviceId", "AppliesTo"))


@dataclass
class Exported:
    """What became of a document: its XML, where no fault is said."""
    remarks: Remarks
    text: str | None


class Exporting:
    """Writes the elements of a document that is sound."""

    def __init__(self, remarks: Remarks):
        self.remarks, self.lines = remarks, []

    # Texts and attributes.

    def held(self, node: Node) -> str:
        """The text of a value; a character that XML can't hold is told."""
        for found in NO_XML.finditer(node.value):
            self.remarks.fault("NoXml", node,
                               f"XML can't hold the character U+{ord(found.group()):04X} in any way: this "
                               f"document stays JSON.")
            return ""
        return node.value

    def attributes(self, *pairs: tuple[str, str]) -> str:
        return "".join(f' {name}="{value}"' for name, value in pairs)

    def of(self, node: Node, *names: str, plain: tuple[str, ...] = ()) -> str:
        """The attributes that are members of these names, where they are there; those of `plain` are no
        URIs."""
        pairs = []
        for name in names:
            held = node.at(name)
            if held is not None:
                text = self.held(held)
                text = self.whole(name, text)
                pairs.append((name, in_attribute(text) if name in plain else uri_escaped(text)))
        return self.attributes(*pairs)

    def whole(self, name: str, text: str) -> str:
        """The URI of a category or a data type, of which the notation has short forms."""
        if name == "DataType":
            return identifiers.NAMESPACE + identifiers.DATA_TYPES[text]
        return identifiers.category(text) if name == "Category" else text

    def line(self, depth: int, text: str) -> None:
        self.lines.append("  " * depth + text)

    def element(self, depth: int, name: str, attributes: str, inner: list) -> None:
        """An element that holds elements: each of `inner` writes one, a level deeper."""
        inner = [write for write in inner if write is not None]
        if not inner:
            self.line(depth, f"<{name}{attributes}/>")
            return
        self.line(depth, f"<{name}{attributes}>")
        for write in inner:
            write(depth + 1)
        self.line(depth, f"</{name}>")

    def described(self, node: Node):
        """The description, where there is one."""
        held = node.at("Description")
        if held is None:
            return None
        return lambda depth: self.line(depth, f"<Description>{in_text(self.held(held))}</Description>")

    # Expressions.

    def value(self, node: Node):
        """A value, in the text in which it is written."""
        data_type, held = identifiers.DATA_TYPES[node.at("DataType").value], node.at("Value")
        text = self.held(held) if held.kind == "string" else values.to_text((data_type, held.value))
        attributes = self.attributes(("DataType", identifiers.NAMESPACE + data_type))
        return lambda depth: self.line(depth,
                                       f"<AttributeValue{attributes}>{in_text(text)}</AttributeValue>")

    def designator(self, node: Node):
        held = self.of(node, "Category", "AttributeId", "DataType", "Issuer", plain=("Issuer",))
        present = self.attributes(("MustBePresent", "true" if node.at("MustBePresent").value else "false"))
        return lambda depth: self.line(depth, f"<AttributeDesignator{held}{present}/>")

    def expression(self, node: Node):
        """An expression."""
        name, inner = next((member.name, member.node) for member in node.last().values())
        if name == "AttributeValue":
            return self.value(inner)
        if name == "AttributeDesignator":
            return self.designator(inner)
        if name == "Apply":
            arguments = [self.expression(one) for one in items(inner, "Expression")]
            return lambda depth: self.element(depth, name, self.of(inner, "FunctionId"),
                                              [self.described(inner), *arguments])
        attributes = self.of(inner, "FunctionId", "VariableId", plain=("VariableId",))
        return lambda depth: self.element(depth, name, attributes, [])

    # Targets and duties.

    def match(self, node: Node):
        inner = [self.value(node.at("AttributeValue")), self.designator(node.at("AttributeDesignator"))]
        return lambda depth: self.element(depth, "Match", self.of(node, "MatchId"), inner)

    def all_of(self, node: Node):
        return lambda depth: self.element(depth, "AllOf", "",
                                          [self.match(one) for one in items(node, "Match")])

    def any_of(self, node: Node):
        return lambda depth: self.element(depth, "AnyOf", "",
                                          [self.all_of(one) for one in items(node, "AllOf")])

    def target(self, node: Node, is_needed: bool):
        """The target, which a policy and a set have to have in XML."""
        held = node.at("Target")
        parts = [self.any_of(one) for one in items(held, "AnyOf")] if held is not None else []
        return (lambda depth: self.element(depth, "Target", "", parts)) if parts or is_needed else None

    def assignment(self, node: Node):
        attributes = self.of(node, "AttributeId", "Category", "Issuer", plain=("Issuer",))
        return lambda depth: self.element(depth, "AttributeAssignmentExpression", attributes,
                                          [self.expression(node.at("Expression"))])

    def duties(self, node: Node) -> list:
        """Obligations and advice, where there are any."""
        found = []
        for group, name, its_id, decision in DUTIES:
            inner = [self.duty(name, its_id, decision, one) for one in items(node, group)]
            if inner:
                found.append(lambda depth, group=group, inner=inner: self.element(depth, group, "", inner))
        return found

    def duty(self, name: str, its_id: str, decision: str, node: Node):
        inner = [self.assignment(one) for one in items(node, "AttributeAssignmentExpression")]
        return lambda depth: self.element(depth, name, self.of(node, its_id, decision), inner)

    # Rules, policies and sets.

    def rule(self, node: Node):
        inner = [self.described(node), self.target(node, False), self.condition(node.at("Condition")),
                 *self.duties(node)]
        return lambda depth: self.element(depth, "Rule",
                                          self.of(node, "RuleId", "Effect", plain=("RuleId",)), inner)

    def condition(self, node: Node | None):
        """The condition, where there is one."""
        if node is None:
            return None
        return lambda depth: self.element(depth, "Condition", "", [self.expression(node)])

    def definition(self, node: Node):
        attributes = self.of(node, "VariableId", plain=("VariableId",))
        return lambda depth: self.element(depth, "VariableDefinition", attributes,
                                          [self.expression(node.at("Expression"))])

    def policy(self, node: Node, more: str = ""):
        inner = [self.described(node), self.target(node, True),
                 *map(self.definition, items(node, "VariableDefinition")),
                 *map(self.rule, items(node, "Rule")), *self.duties(node)]
        attributes = more + self.of(node, "PolicyId", "Version", "RuleCombiningAlgId")
        return lambda depth: self.element(depth, "Policy", attributes, inner)

    def policy_set(self, node: Node, more: str = ""):
        inner = [self.described(node), self.target(node, True), *map(self.child, items(node, "Children")),
                 *self.duties(node)]
        attributes = more + self.of(node, "PolicySetId", "Version", "PolicyCombiningAlgId")
        return lambda depth: self.element(depth, "PolicySet", attributes, inner)

    def child(self, node: Node, more: str = ""):
        """A child of a set, or the document itself."""
        name, inner = next((member.name, member.node) for member in node.last().values())
        if name in ("Policy", "PolicySet"):
            return self.policy(inner, more) if name == "Policy" else self.policy_set(inner, more)
        attributes = self.of(inner, "Version", "EarliestVersion", "LatestVersion")
        text = uri_escaped(self.held(inner.at("Id")))
        return lambda depth: self.line(depth, f"<{name}{attributes}>{text}</{name}>")


def items(node: Node, name: str) -> list[Node]:
    """The items of an array, which may be left out."""
    found = node.at(name)
    return found.value if found is not None else []


def exported(one: Checked) -> Exported:
    """The XML of a document; one that has faults isn't written."""
    remarks = Remarks()
    if not one.is_sound:
        remarks.found += one.remarks.faults()
        return Exported(remarks, None)
    writer = Exporting(remarks)
    write = writer.child(one.node, writer.attributes(("xmlns", VERSION_3)))
    writer.line(0, '<?xml version="1.0" encoding="UTF-8"?>')
    write(0)
    return Exported(remarks, None if remarks.faults() else "\n".join(writer.lines) + "\n")
