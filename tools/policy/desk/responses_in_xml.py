"""Expected responses in XML (XACML 3.0, core, sections 5.47 to 5.57), and how the server's are compared.

Results, obligations, advice, their assignments and the included attributes have no order in the standard:
they are compared as collections in which each stands as often as it stands. Of a status the outermost code
counts, where it is given; minor codes, messages and details don't, and a note says so.
"""
from __future__ import annotations

import pathlib
from dataclasses import dataclass

from . import files, left_out, names, xml_reading, xml_validity
from .faults import Remarks
from .importing import Importing
from .model import identifiers, values
from .xml_reading import Element, Spot

NOT_COMPARED = {"StatusMessage": "A message", "StatusDetail": "A detail, such as MissingAttributeDetail,",
                "StatusCode": "A minor code"}
DECISIONS = ("Permit", "Deny", "Indeterminate", "NotApplicable")


@dataclass(frozen=True)
class Held:
    """A value with the attribute whose it is."""
    category: str
    attribute_id: str
    issuer: str
    data_type: str
    text: str

    def __str__(self) -> str:
        parts = [names.category_shown(self.category), names.attribute_shown(self.attribute_id),
                 f"by {self.issuer}" if self.issuer else ""]
        place = " ".join(filter(None, parts))
        return f'{place} = "{self.text}" ({self.data_type})'


@dataclass(frozen=True)
class Duty:
    """An obligation, or advice, with its assignments in an order of their own."""
    id: str
    assignments: tuple[Held, ...]

    def __str__(self) -> str:
        return self.id + (f" ({'; '.join(map(str, self.assignments))})" if self.assignments else "")


@dataclass(frozen=True)
class Result:
    """A result; `status` is None where it isn't looked at."""
    decision: str
    status: str | None
    obligations: tuple[Duty, ...]
    advice: tuple[Duty, ...]
    included: tuple[Held, ...]

    def __str__(self) -> str:
        return self.decision + (f", {names.short(self.status)}" if self.status else "")


@dataclass
class Expected:
    """An expected response as it was read; its results, where no fault is said."""
    remarks: Remarks
    results: list[Result]


def ordered(found) -> tuple:
    return tuple(sorted(found, key=str))


class Reading(Importing):
    """Reads results."""

    def value(self, held: Element, category: str, attribute: Element, spot: Spot) -> Held:
        """A value, which is compared as it prints."""
        data_type, text = identifiers.DATA_TYPES.get(self.data_type(held).value, "string"), held.text()
        try:
            text = values.to_text(values.read(data_type, text))
        except values.Fault:
            self.remarks.fault("BadValue", spot, f'"{text}" is no {data_type}.')
        return Held(category, attribute.value("AttributeId") or "", attribute.value("Issuer") or "",
                    data_type, text)

    def duty(self, held: Element, name: str) -> Duty:
        """An obligation, or advice."""
        return Duty(held.value(name) or "",
                    ordered(self.value(one, one.value("Category") or "", one, one.spot())
                                                    for one in held.named("AttributeAssignment")))

    def duties(self, held: Element, group: str, item: str, name: str) -> tuple[Duty, ...]:
        found = held.one(group)
        return ordered(self.duty(one, name) for one in found.named(item)) if found is not None else ()

    def included(self, held: Element) -> tuple[Held, ...]:
        """The attributes that the result has of its request."""
        found = []
        for category in held.named("Attributes"):
            for attribute in category.named("Attribute"):
                found += [self.value(one, category.value("Category") or "", attribute, one.spot())
                          for one in attribute.named("AttributeValue")]
        return ordered(found)

    def not_compared(self, held: Element) -> None:
        """Notes what of a status isn't compared."""
        for child in held.named("StatusMessage", "StatusDetail") if held.name == "Status" else [held]:
            self.remarks.note("not-compared", child.spot(), f"{NOT_COMPARED[child.name]} isn't compared.")

    def result(self, held: Element) -> Result:
        """A result."""
        decision, status = held.one("Decision"), held.one("Status")
        text = decision.text().strip() if decision is not None else ""
        if text not in DECISIONS and decision is not None:
            self.remarks.fault("Schema", decision.spot(), f'"{text}" is no decision.',
                               expected=", ".join(DECISIONS))
        for child in held.named("PolicyIdentifierList"):
            self.remarks.fault("LeftOut", child.spot(), left_out.ELEMENTS[child.name])
        code = status.one("StatusCode") if status is not None else None
        for child in [*held.named("Status"), *(code.elements() if code is not None else [])]:
            self.not_compared(child)
        return Result(text, code.value("Value") if code is not None else None,
                      self.duties(held, "Obligations", "Obligation", "ObligationId"),
                      self.duties(held, "AssociatedAdvice", "Advice", "AdviceId"), self.included(held))


def expected_of(path: pathlib.Path) -> Expected:
    """The expected response of a file."""
    remarks = Remarks()
    whole = xml_reading.read(path.name, files.held(path), remarks)
    if whole.top is None or not xml_validity.top_of(whole.top, ["Response"], remarks):
        return Expected(remarks, [])
    xml_validity.check(whole.top, remarks)
    return Expected(remarks, [Reading(remarks).result(one) for one in whole.top.named("Result")])


def printed(value: object) -> str:
    """A value of a response in JSON as it prints."""
    return str(value).lower() if isinstance(value, (bool, int)) else value


def held_in(found: dict, category: str) -> list[Held]:
    """The values of an attribute, or of an assignment, of a response in JSON."""
    listed = found["Value"] if isinstance(found["Value"], list) else [found["Value"]]
    return [Held(category, found["AttributeId"], found.get("Issuer", ""), names.short(found["DataType"]),
                 printed(one)) for one in listed]


def duties_in(found: list[dict]) -> tuple[Duty, ...]:
    """Obligations, or advice, of a response in JSON."""
    return ordered(Duty(one["Id"],
                        ordered(held for item in one.get("AttributeAssignment", [])
                                for held in held_in(item, item.get("Category", ""))))
                   for one in found)


def given_of(results: list[dict]) -> list[Result]:
    """The results of the server's response."""
    return [Result(one["Decision"], one["Status"]["StatusCode"]["Value"],
                   duties_in(one.get("Obligations", [])),
                   duties_in(one.get("AssociatedAdvice", [])),
                   ordered(held for category in one.get("Category", []) for item in category["Attribute"]
                           for held in held_in(item, category["CategoryId"])))
            for one in results]


def unlike(expected: Result, given: Result) -> list[str]:
    """How a result differs from the expected one."""
    found = []
    if expected.decision != given.decision:
        found.append(f"expected {expected}; the answer is {given}")
    elif expected.status not in (None, given.status):
        found.append(f"expected the status {names.short(expected.status)}; the answer has "
                     f"{names.short(given.status)}")
    for word in ("obligations", "advice", "included"):
        wanted, held = list(getattr(expected, word)), list(getattr(given, word))
        for one in list(wanted):
            if one in held:
                wanted.remove(one), held.remove(one)
        what = {"obligations": "obligation", "advice": "advice",
                "included": "attribute of the request"}[word]
        found += [f"expected the {what} {one}, which isn't there" for one in wanted]
        found += [f"the {what} {one} isn't expected" for one in held]
    return found


def differences(expected: list[Result], given: list[Result]) -> list[str]:
    """How a response differs from the expected one; nothing where it doesn't."""
    if len(expected) != len(given):
        return [f"expected {len(expected)} results; the answer has {len(given)}"]
    left, unmatched = list(given), []
    for one in expected:
        same = next((other for other in left if not unlike(one, other)), None)
        if same is None:
            unmatched.append(one)
        else:
            left.remove(same)
    return [why for one, other in zip(unmatched, left) for why in unlike(one, other)]
