"""Policies and policy sets of XACML 3.0 in XML as documents of the notation (XACML 3.0, core, section 5).

Nothing is dropped in silence: what the notation has no place for, and what the server hasn't, is said at its
place.
"""
from __future__ import annotations

from dataclasses import dataclass

from . import left_out, xml_reading, xml_validity
from .drafted import Draft, document_text
from .faults import Remarks
from .exporting import DUTIES
from .from_version_2 import in_version_3
from .model import identifiers, values
from .text import counted
from .xml_reading import Element, Spot, Text, Whole
from .xml_tables import VERSION_2

EXPRESSIONS = ("Apply", "AttributeSelector", "AttributeValue", "Function", "VariableReference",
               "AttributeDesignator")
DESCRIBED = ("Policy", "PolicySet", "Rule", "Apply")
CHILDREN = ("Policy", "PolicySet", "PolicyIdReference", "PolicySetIdReference")


@dataclass
class Imported:
    """What became of a file: the bytes of its document, where no fault is said."""
    remarks: Remarks
    text: bytes | None


def value_in_json(data_type: str, text: str) -> object:
    """The text of a value; of a boolean or an integer that reads, the value itself."""
    name = identifiers.DATA_TYPES.get(data_type, "")
    if name not in ("boolean", "integer") or len(text) > 100:
        return text
    try:
        return values.read(name, text)[1]
    except values.Fault:
        return text


def said_of_text(held: str) -> str:
    """The text of a comment or a description, its lines without white space at their ends."""
    return "\n".join(line.strip() for line in held.strip().splitlines())


class Importing:
    """Makes drafts of elements, and remarks what can't be one."""

    def __init__(self, remarks: Remarks):
        self.remarks = remarks
        self.moved = 0

    # What is left out, and what is written by another name.

    def left_out(self, spot: Spot, sentence: str, found: str = "") -> None:
        self.remarks.fault("LeftOut", spot, sentence, found=found)

    def element_left_out(self, held: Element) -> None:
        """Says that the element's kind is left out."""
        self.left_out(held.spot(), left_out.ELEMENTS[held.name])

    def uri(self, held: Element, name: str) -> Draft:
        """An attribute as it stands."""
        return Draft(held.value(name) or "", held.spot(name))

    def renamed(self, held: Element, name: str, table: dict[str, str]) -> Draft:
        """An attribute, whose older name is written as the newer one of the same meaning."""
        found = self.uri(held, name)
        newer = table.get(found.value)
        if newer is not None:
            self.remarks.note("renamed", found.spot, f"{newer} means the same, and is written for it.",
                              found=found.value)
            return Draft(newer, found.spot)
        return found

    def function(self, held: Element, name: str) -> Draft:
        """The name of a function."""
        found = self.renamed(held, name, left_out.RENAMED_FUNCTIONS)
        sentence = left_out.function(found.value)
        if sentence:
            self.left_out(found.spot, sentence + self.pattern_of(held, found.value), found.value)
        return found

    def pattern_of(self, held: Element, function: str) -> str:
        """What the regular expression that stands behind the function comes to, where it is a plain one."""
        value = held.one("AttributeValue")
        if not function.endswith("regexp-match") or value is None:
            return ""
        found = left_out.regular(value.text())
        return " " + found if found else ""

    def data_type(self, held: Element) -> Draft:
        """The name of a data type, whose short forms are the notation's and not the standard's."""
        found = self.renamed(held, "DataType", left_out.RENAMED_TYPES)
        sentence = left_out.data_type(found.value)
        if sentence:
            self.left_out(found.spot, sentence, found.value)
        elif found.value in values.TYPES:
            self.remarks.fault("BadValue", found.spot, "In XML a data type is its whole URI.",
                               found=found.value,
                               nearest=identifiers.NAMESPACE + found.value)
        return found

    def category(self, held: Element, name: str = "Category") -> Draft:
        """A category, whose shorthands are the notation's and not XML's."""
        found = self.uri(held, name)
        if found.value in identifiers.SHORTHANDS:
            self.remarks.fault("BadValue", found.spot,
                               "In XML a category is its whole URI; a policy of the notation would read "
                               "this as another one.",
                               found=found.value, nearest=identifiers.SHORTHANDS[found.value])
        return found

    def algorithm(self, held: Element, name: str) -> Draft:
        """The name of a combining algorithm."""
        found = self.uri(held, name)
        sentence = left_out.algorithm(found.value)
        if sentence:
            self.left_out(found.spot, sentence, found.value)
        return found

    # Descriptions and comments.

    def comments_of(self, held: Element) -> list[Text]:
        """The comments that are about the element: those in it and in all that has no description, up to the
        next element that has one."""
        found, waiting = [], []
        for child in held.children:
            if isinstance(child, Text) and child.is_comment:
                waiting.append(child)
            elif isinstance(child, Element):
                if child.name not in DESCRIBED:
                    found += waiting + self.comments_of(child)
                elif child.name == "Apply":
                    found += waiting
                waiting = []
        return found + waiting

    def comments_before(self, held: Element, around: Element | None) -> list[Text]:
        """The comments directly before the element."""
        found = []
        for child in around.children if around is not None and held.name != "Apply" else ():
            if child is held:
                return found
            if isinstance(child, Element):
                found = []
            elif child.is_comment:
                found.append(child)
        return []

    def described(self, held: Element, around: Element | None,
                  outside: tuple[Text, ...] = ()) -> dict[str, Draft]:
        """The member Description: the element's, and the comments about it, each on lines of its own."""
        own = held.one("Description")
        comments = [*outside, *self.comments_before(held, around), *self.comments_of(held)]
        kept = [one for one in map(said_of_text, (one.text for one in comments)) if one]
        self.moved += len(kept)
        if own is None and not kept:
            return {}
        lines = ([own.text()] if own is not None else []) + kept
        return {"Description": Draft("\n".join(lines), (own or held).spot())}

    # Expressions.

    def attribute_value(self, held: Element) -> Draft:
        """A value, which is text alone."""
        data_type = self.data_type(held)
        for child in held.elements():
            self.left_out(child.spot(), "A value is a text here: XML in it is left out.", f"<{child.name}>")
        for one in held.attributes:
            if one.name != "DataType" and one.name not in xml_validity.HINTS:
                self.left_out(held.spot(one.name),
                              "A value has no attribute but DataType here: this one has no place.", one.name)
        return Draft({"DataType": data_type,
                      "Value": Draft(value_in_json(data_type.value, held.text()), held.spot())}, held.spot())

    def designator(self, held: Element) -> Draft:
        """An attribute designator; in place of a selector, which is told, one that finds nothing."""
        if held.name == "AttributeSelector":
            self.element_left_out(held)
            nothing = Draft("", held.spot())
            return Draft({"Category": nothing, "AttributeId": nothing, "DataType": self.data_type(held),
                          "MustBePresent": Draft(False, held.spot())},
                         held.spot())
        present = Draft((held.value("MustBePresent") or "").strip() in ("true", "1"),
                        held.spot("MustBePresent"))
        found = {"Category": self.category(held), "AttributeId": self.uri(held, "AttributeId"),
                 "DataType": self.data_type(held),
                 "MustBePresent": present}
        return Draft(found | self.issuer(held), held.spot())

    def issuer(self, held: Element) -> dict[str, Draft]:
        return {"Issuer": self.uri(held, "Issuer")} if held.at("Issuer") else {}

    def expression(self, held: Element) -> Draft:
        """An expression, with its name around it."""
        if held.name == "AttributeValue":
            inner = self.attribute_value(held)
        elif held.name in ("AttributeDesignator", "AttributeSelector"):
            return Draft({"AttributeDesignator": self.designator(held)}, held.spot())
        elif held.name == "Apply":
            found = {"FunctionId": self.function(held, "FunctionId")} | self.described(held, None)
            inner = Draft(found | self.several("Expression", held, EXPRESSIONS, self.expression),
                          held.spot())
        elif held.name == "Function":
            inner = Draft({"FunctionId": self.function(held, "FunctionId")}, held.spot())
        else:
            inner = Draft({"VariableId": self.uri(held, "VariableId")}, held.spot())
        return Draft({held.name: inner}, held.spot())

    def inner_expression(self, held: Element) -> dict[str, Draft]:
        """The member Expression of an element that holds one."""
        found = held.named(*EXPRESSIONS)
        return {"Expression": self.expression(found[0])} if found else {}

    def several(self, name: str, held: Element, of: tuple[str, ...], make) -> dict[str, Draft]:
        """A member that is an array of what is made of the children of these names; none where there are
        none."""
        found = [make(child) for child in held.named(*of)]
        return {name: Draft(found, held.spot())} if found else {}

    # Targets.

    def match(self, held: Element) -> Draft:
        members = {"MatchId": self.function(held, "MatchId")}
        value, found = held.one("AttributeValue"), held.named("AttributeDesignator", "AttributeSelector")
        if value is not None:
            members["AttributeValue"] = self.attribute_value(value)
        if found:
            members["AttributeDesignator"] = self.designator(found[0])
        return Draft(members, held.spot())

    def all_of(self, held: Element) -> Draft:
        return Draft(self.several("Match", held, ("Match",), self.match), held.spot())

    def any_of(self, held: Element) -> Draft:
        return Draft(self.several("AllOf", held, ("AllOf",), self.all_of), held.spot())

    def target(self, held: Element) -> dict[str, Draft]:
        """The member Target; an empty target is none."""
        found = held.one("Target")
        parts = self.several("AnyOf", found, ("AnyOf",), self.any_of) if found is not None else {}
        return {"Target": Draft(parts, found.spot())} if parts else {}

    # Duties.

    def assignment(self, held: Element) -> Draft:
        category = {"Category": self.category(held)} if held.at("Category") else {}
        return Draft({"AttributeId": self.uri(held, "AttributeId")} | category | self.issuer(held)
                     | self.inner_expression(held), held.spot())

    def duty(self, name: str, decision: str):
        """Makes an obligation, or advice, by its attributes' names."""
        def makes(held: Element) -> Draft:
            members = {name: self.uri(held, name), decision: self.uri(held, decision)}
            return Draft(members
                         | self.several("AttributeAssignmentExpression", held,
                                        ("AttributeAssignmentExpression",), self.assignment), held.spot())
        return makes

    def duties(self, held: Element) -> dict[str, Draft]:
        """The members with obligations and advice."""
        found = {}
        for group, item, name, decision in DUTIES:
            inner = held.one(group)
            if inner is not None:
                found |= self.several(group, inner, (item,), self.duty(name, decision))
        return found

    # Rules, policies and sets.

    def rule(self, held: Element, around: Element) -> Draft:
        members = {"RuleId": self.uri(held, "RuleId"), "Effect": self.uri(held, "Effect")}
        members |= self.described(held, around) | self.target(held)
        condition = held.one("Condition")
        inner = self.inner_expression(condition) if condition is not None else {}
        if inner:
            members["Condition"] = inner["Expression"]
        return Draft(members | self.duties(held), held.spot())

    def definition(self, held: Element) -> Draft:
        return Draft({"VariableId": self.uri(held, "VariableId")} | self.inner_expression(held), held.spot())

    def definitions(self, held: Element) -> dict[str, Draft]:
        """The variables, each behind those that it names: the notation has them in this order, and XML in
        any."""
        given = held.named("VariableDefinition")
        ordered = self.ordered(given)
        for one in ordered:
            before = given[:given.index(one)]
            later = [other for other in before if ordered.index(other) > ordered.index(one)]
            if later:
                self.remarks.note("moved", one.spot(),
                                  f"This definition stands before {later[0].value('VariableId')} now, which "
                                  f"names it.")
        found = [self.definition(one) for one in ordered]
        return {"VariableDefinition": Draft(found, held.spot())} if found else {}

    def ordered(self, given: list[Element]) -> list[Element]:
        """The definitions so that each stands behind those that it names; one in a circle is told."""
        by_name = {one.value("VariableId"): one for one in reversed(given)}
        done, found, path = set(), [], []

        def visit(one: Element) -> None:
            if one in path:
                self.remarks.fault("Schema", one.spot(),
                                   f"The variable {one.value('VariableId')} stands for itself: "
                                   + " names ".join(str(other.value("VariableId"))
                                                    for other in [*path[path.index(one):], one]) + ".")
            elif id(one) not in done:
                path.append(one)
                for inner in one.all():
                    if inner.name == "VariableReference" and inner.value("VariableId") in by_name:
                        visit(by_name[inner.value("VariableId")])
                path.pop()
                done.add(id(one))
                found.append(one)
        for one in given:
            visit(one)
        return found

    def head(self, held: Element, around: Element | None, id_name: str, algorithm: str,
             outside: tuple[Text, ...]) -> dict[str, Draft]:
        """The members that begin a policy or a set; what else may begin one in XML is told."""
        for child in held.elements():
            if child.name in left_out.DEFAULTS:
                self.remarks.note("not-kept", child.spot(), left_out.NO_XPATH)
            elif child.name in left_out.ELEMENTS:
                self.element_left_out(child)
        if held.at("MaxDelegationDepth"):
            self.left_out(held.spot("MaxDelegationDepth"), left_out.DEPTH, held.value("MaxDelegationDepth"))
        members = {id_name: self.uri(held, id_name), "Version": self.uri(held, "Version"),
                   algorithm: self.algorithm(held, algorithm)}
        return members | self.described(held, around, outside) | self.target(held)

    def policy(self, held: Element, around: Element | None, outside: tuple[Text, ...] = ()) -> Draft:
        members = self.head(held, around, "PolicyId", "RuleCombiningAlgId", outside) | self.definitions(held)
        return Draft(members | self.several("Rule", held, ("Rule",), lambda child: self.rule(child, held))
                     | self.duties(held), held.spot())

    def reference(self, held: Element) -> Draft:
        text = held.text()
        members = {"Id": Draft(text if held.is_referring else xml_validity.collapsed(text), held.spot())}
        for name in ("Version", "EarliestVersion", "LatestVersion"):
            if held.at(name):
                members[name] = self.uri(held, name)
                if name != "Version" and set(members[name].value) & set("*+"):
                    self.left_out(members[name].spot, left_out.PATTERN, members[name].value)
        return Draft(members, held.spot())

    def child(self, held: Element, around: Element) -> Draft:
        """A child of a set, with its name around it."""
        if held.name in ("Policy", "PolicySet"):
            inner = self.policy(held, around) if held.name == "Policy" else self.policy_set(held, around)
        else:
            inner = self.reference(held)
        return Draft({held.name: inner}, held.spot())

    def policy_set(self, held: Element, around: Element | None, outside: tuple[Text, ...] = ()) -> Draft:
        members = self.head(held, around, "PolicySetId", "PolicyCombiningAlgId", outside)
        return Draft(members
                     | self.several("Children", held, CHILDREN, lambda child: self.child(child, held))
                     | self.duties(held), held.spot())

    def document(self, whole: Whole) -> Draft:
        """The document of a file."""
        top = whole.top
        make = self.policy if top.name == "Policy" else self.policy_set
        found = Draft({top.name: make(top, None, tuple(whole.comments))}, top.spot())
        if self.moved:
            stand = "stands in a description" if self.moved == 1 else "stand in descriptions"
            self.remarks.note("comments", top.spot(),
                              f"{counted(self.moved, 'comment')} of the file {stand} now: JSON has none.")
        return found


def imported(path: str, held: bytes) -> Imported:
    """The document of an XML file."""
    remarks = Remarks()
    whole = xml_reading.read(path, held, remarks)
    if whole.top is None or not xml_validity.top_of(whole.top, ["Policy", "PolicySet"], remarks):
        return Imported(remarks, None)
    xml_validity.check(whole.top, remarks)
    if whole.top.namespace == VERSION_2:
        whole.top = in_version_3(whole.top, remarks)
    draft = Importing(remarks).document(whole)
    is_valid = not any(one.code == "Schema" for one in remarks.faults())
    text = document_text(draft, remarks) if is_valid else None
    return Imported(remarks, None if remarks.faults() else text)
