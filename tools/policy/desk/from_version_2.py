"""Policies of XACML 2.0 as elements of 3.0, where they mean the same (XACML 2.0, core, sections 5 and 7).

Where a policy would mean something else in 3.0, that is said. Places stay those of the file.
"""
from __future__ import annotations

from .faults import Remarks
from .model import identifiers
from .xml_reading import Attribute, Element
from .xml_tables import VERSION_3

CATEGORIES = {"Resource": identifiers.SHORTHANDS["Resource"], "Action": identifiers.SHORTHANDS["Action"],
              "Environment": identifiers.SHORTHANDS["Environment"],
              "Subject": identifiers.SHORTHANDS["AccessSubject"]}
SAME = ("This is XACML 2.0, and means the same in 3.0: the parts of targets are written as AnyOf, "
        "designators with their category, "
        "obligations as expressions.")
OF_TARGET = ("Where a part of a target can't be evaluated, since an attribute is missing that must be "
             "present, 2.0 decides otherwise: {what}. "
             "Set MustBePresent to false here, or write the policy in XACML 3.0.")
OF_POLICY = "the policy is Indeterminate, and in 3.0 NotApplicable where no rule applies"
OF_RULE = "the rule is Indeterminate, and in 3.0 NotApplicable where another part doesn't match"


def made(held: Element, name: str, attributes: dict[str, str], children: list) -> Element:
    """An element of 3.0 in the place of one of 2.0; an attribute that was there stands where it stood."""
    spot = held.spot()
    found = []
    for one, value in attributes.items():
        old = held.at(one)
        found.append(Attribute(one, value, old.start if old else spot.start, old.end if old else spot.end,
                               bool(old and old.is_referring)))
    return Element(held.source, VERSION_3, name, held.start, held.end, found, children, held.pointer,
                   held.is_referring)


def given(held: Element) -> dict[str, str]:
    """The attributes of an element."""
    return {one.name: one.value for one in held.attributes}


def can_fail(held: Element) -> bool:
    """Whether a part of a target may be Indeterminate by the element: a missing attribute, or n-of, the one
    function of a match that can fail."""
    is_needed = (held.value("MustBePresent") or "").strip() in ("true", "1")
    return is_needed and held.name != "AttributeSelector" or (held.value("MatchId") or "").endswith(":n-of")


class Converting:
    """Makes elements of 3.0."""

    def __init__(self, remarks: Remarks):
        self.remarks = remarks

    def children(self, held: Element) -> list:
        """What stands in an element, in 3.0."""
        return [self.element(child) if isinstance(child, Element) else child for child in held.children]

    def element(self, held: Element) -> Element:
        """An element in 3.0."""
        if held.name == "Target":
            return made(held, "Target", {}, self.sections(held))
        if held.name.endswith("AttributeDesignator"):
            return self.designator(held)
        if held.name == "AttributeSelector":
            attributes = {"Category": "", "Path": held.value("RequestContextPath") or "",
                          "DataType": held.value("DataType") or "",
                          "MustBePresent": "false"}
            return made(held, held.name, attributes, [])
        if held.name == "Obligations":
            return made(held, "ObligationExpressions", {},
                        [self.obligation(child) if isinstance(child, Element) else child
                         for child in held.children])
        if held.name in ("Policy", "PolicySet", "Rule"):
            self.targets(held)
        attributes = given(held)
        if held.name in ("Policy", "PolicySet"):
            attributes.setdefault("Version", "1.0")
        return made(held, held.name, attributes, self.children(held))

    def targets(self, held: Element) -> None:
        """Says where the target means something else in 2.0."""
        target = held.one("Target")
        if target is None:
            return
        failing = [one for one in target.all() if can_fail(one)]
        is_rule = held.name == "Rule"
        if failing and (not is_rule or len(target.elements()) > 1):
            spot = failing[0].spot("MustBePresent" if failing[0].at("MustBePresent") else "MatchId")
            self.remarks.fault("LeftOut", spot, OF_TARGET.format(what=OF_RULE if is_rule else OF_POLICY))

    def sections(self, held: Element) -> list:
        """The parts of a target: each of its sections is a disjunction."""
        found = []
        for child in held.children:
            if isinstance(child, Element):
                found.append(made(child, "AnyOf", {},
                                  [self.conjunction(inner) if isinstance(inner, Element) else inner
                                   for inner in child.children]))
            else:
                found.append(child)
        return found

    def conjunction(self, held: Element) -> Element:
        return made(held, "AllOf", {},
                    [made(inner, "Match", given(inner), self.children(inner)) if isinstance(inner, Element)
                     else inner
                                        for inner in held.children])

    def designator(self, held: Element) -> Element:
        """A designator, whose name says its category in 2.0."""
        section = held.name.removesuffix("AttributeDesignator")
        attributes = given(held)
        attributes["Category"] = attributes.pop("SubjectCategory", CATEGORIES.get(section, ""))
        attributes.setdefault("MustBePresent", "false")
        return made(held, "AttributeDesignator", attributes, [])

    def obligation(self, held: Element) -> Element:
        """An obligation, whose assignments are plain values in 2.0."""
        return made(held, "ObligationExpression", given(held),
                    [self.assignment(child) if isinstance(child, Element) else child
                     for child in held.children])

    def assignment(self, held: Element) -> Element:
        attributes = given(held)
        attributes.pop("AttributeId", None)
        value = made(held, "AttributeValue", attributes, held.children)
        return made(held, "AttributeAssignmentExpression", {"AttributeId": held.value("AttributeId") or ""},
                    [value])


def in_version_3(top: Element, remarks: Remarks) -> Element:
    """The policy or set of 2.0 as one of 3.0."""
    remarks.note("version-2", top.spot(), SAME)
    return Converting(remarks).element(top)
