"""Whether XML is of a schema: what a validating parser would say, by the tables of `xml_tables`."""
from __future__ import annotations

import re
from dataclasses import dataclass

from . import names
from .faults import Remarks
from .text import listed
from .xml_reading import INSTANCE, Attribute, Element, Spot, Text
from .xml_tables import OTHERS, TABLES, VERSION_2, VERSION_3

WHITE_SPACE = " \t\r\n"
SHAPES = {
    "boolean": (r"\s*(true|false|1|0)\s*", "true or false"),
    "effect": ("Permit|Deny", "Permit or Deny"),
    "version": (r"(\d+\.)*\d+", "numbers with dots between, as 1.0"),
    "match": (r"((\d+|\*)\.)*(\d+|\*|\+)", "numbers with dots between, * for one of them, + for one or more "
                                           "at the end"),
    "integer": (r"\s*[+-]?\d+\s*", "a whole number"),
    "id": (r"\s*[^\W\d][\w.-]*\s*", "a name that begins with a letter"),
}
HINTS = {f"{{{INSTANCE}}}schemaLocation", f"{{{INSTANCE}}}noNamespaceSchemaLocation"}


@dataclass(frozen=True)
class Part:
    """A part of a sequence: names of which one stands, how often at least, and how often at most."""
    names: tuple[str, ...]
    least: int
    most: int


def parts_of(content: str) -> list[Part]:
    """The parts of a sequence of children."""
    found = []
    for word in content.split():
        mark = word[-1] if word[-1] in "?*+" else ""
        least, most = {"": (1, 1), "?": (0, 1), "*": (0, 2**31), "+": (1, 2**31)}[mark]
        found.append(Part(tuple(word.rstrip("?*+").strip("()").split("|")), least, most))
    return found


def collapsed(value: str) -> str:
    """The value as the schema's type anyURI has it."""
    return re.sub(f"[{WHITE_SPACE}]+", " ", value).strip(WHITE_SPACE)


class Validity:
    """Looks at an element and all inside it."""

    def __init__(self, namespace: str, remarks: Remarks):
        self.namespace, self.table, self.remarks = namespace, TABLES[namespace], remarks

    def fault(self, spot: Spot, sentence: str, **more: str) -> None:
        self.remarks.fault("Schema", spot, sentence, **more)

    def element(self, held: Element) -> None:
        """An element that the table has."""
        attributes, content = self.table[held.name]
        self.attributes(held, attributes)
        if content == "#any":
            return
        if content == "#text":
            for child in held.elements():
                self.fault(child.spot(), f"<{held.name}> holds text alone: no element can stand in it.",
                           found=f"<{child.name}>")
            return
        self.texts(held)
        self.children(held, parts_of(content))

    def texts(self, held: Element) -> None:
        """No text but white space stands in an element that holds elements."""
        for child in held.children:
            if isinstance(child, Text) and not child.is_comment and child.text.strip():
                start = child.start + len(child.text) - len(child.text.lstrip())
                self.fault(Spot(held.source, held.pointer, start, start + len(child.text.strip())),
                           f"No text can stand in <{held.name}>, which holds elements.")

    def children(self, held: Element, parts: list[Part]) -> None:
        """The children, in the order and number of the table."""
        place, count = 0, 0
        for child in held.elements():
            if child.namespace != self.namespace or child.name not in self.table:
                self.unknown(held, child, parts[place:])
                continue
            found = next((at for at in range(place, len(parts)) if child.name in parts[at].names
                          and (at != place or count < parts[at].most)), None)
            if found is None:
                self.misplaced(held, child, parts, place, count)
            elif found == place:
                count += 1
            else:
                self.missing(held, child.spot(), parts[place:found], count, f"before <{child.name}>")
                place, count = found, 1
            self.element(child)
        self.missing(held, held.spot(), parts[place:], count, f"in <{held.name}>")

    def missing(self, held: Element, spot: Spot, parts: list[Part], count: int, where: str) -> None:
        """Says which elements of the parts have to stand and don't; so many of the first one's do."""
        for at, part in enumerate(parts):
            if part.least > (0 if at else count):
                self.fault(spot, f"{listed([f'<{name}>' for name in part.names])} is missing {where}.",
                           expected=listed([f"<{name}>" for name in part.names]))

    def misplaced(self, held: Element, child: Element, parts: list[Part], place: int, count: int) -> None:
        """Says that a child can't stand where it does."""
        open_parts = [part for at, part in enumerate(parts[place:]) if at or count < part.most]
        expected = [f"<{name}>" for part in open_parts for name in part.names]
        known = [name for part in parts for name in part.names]
        why = (f"<{child.name}> stands too late here, or once too often: the order is "
               f"{listed([f'<{name}>' for name in dict.fromkeys(known)], 'and')}."
               if child.name in known else f"<{child.name}> can't stand in <{held.name}>.")
        self.fault(child.spot(), why, expected=listed(expected) if expected else f"the end of <{held.name}>",
                   found=f"<{child.name}>")

    def unknown(self, held: Element, child: Element, parts: list[Part]) -> None:
        """Says that there is no such element."""
        expected = [name for part in parts for name in part.names]
        if child.namespace != self.namespace:
            meant = ""
            sentence = (f'<{child.name}> is of the namespace "{child.namespace}", and <{held.name}> holds '
                        f"elements of {self.namespace}.")
        else:
            meant = names.nearest(child.name, expected or self.table)
            sentence = f"The schema has no element <{child.name}>." + (f" Did you mean <{meant}>?" if meant
                                                                       else "")
        self.fault(child.spot(), sentence, expected=listed([f"<{name}>" for name in expected]) if expected
                   else f"the end of <{held.name}>",
                   found=f"<{child.name}>", nearest=meant)

    def attributes(self, held: Element, table: str) -> None:
        """The attributes: each known one of its shape, and no required one missing."""
        known = dict(word.rsplit(":", 1) for word in table.split() if ":" in word)
        for one in held.attributes:
            if one.name in HINTS:
                self.remarks.note("not-kept", held.spot(one.name),
                                  "Where a parser finds the schema isn't kept: it says nothing else.")
                continue
            kind = known.get(one.name)
            if kind is None and "*" not in table.split():
                self.unknown_attribute(held, one, list(known))
            elif kind is not None:
                self.attribute(held, one, kind.rstrip("!"))
        for name, kind in known.items():
            if kind.endswith("!") and held.at(name) is None:
                self.fault(held.spot(), f"<{held.name}> needs the attribute {name}, which is missing.",
                           expected=f"the attribute {name}")

    def unknown_attribute(self, held: Element, one: Attribute, known: list[str]) -> None:
        """Says that there is no such attribute."""
        name = one.name.rsplit("}", 1)[-1]
        meant = names.nearest(name, known)
        ask = f" Did you mean {meant}?" if meant and held.at(meant) is None else ""
        self.fault(held.spot(one.name), f"<{held.name}> has no attribute {name}.{ask}",
                   expected=listed(known) if known else "no attribute",
                   found=name, nearest=meant)

    def attribute(self, held: Element, one: Attribute, kind: str) -> None:
        """The value of an attribute; of an anyURI, white space is brought together as the schema says,
        unless it is written by its number."""
        if kind == "uri" and not one.is_referring:
            one.value = collapsed(one.value)
        if kind in SHAPES and not re.fullmatch(SHAPES[kind][0], one.value, re.ASCII if kind != "id" else 0):
            meant = names.nearest(one.value, ["Permit", "Deny"]) if kind == "effect" else ""
            ask = f" Did you mean {meant}?" if meant else ""
            self.fault(held.spot(one.name), f"{one.name.rsplit('}', 1)[-1]} is {SHAPES[kind][1]}.{ask}",
                       expected=SHAPES[kind][1],
                       found=one.value, nearest=meant)


def top_of(top: Element, wanted: list[str], remarks: Remarks) -> bool:
    """Whether the top element is one of those that are wanted, in a namespace that is read; else the
    fault."""
    if top.namespace in OTHERS:
        remarks.fault("LeftOut", top.spot(),
                      f"This is {OTHERS[top.namespace]}: it isn't read. Write it in XACML 3.0.")
    elif top.namespace not in TABLES:
        remarks.fault("Schema", top.spot(), f'The namespace "{top.namespace}" is none of XACML.',
                      expected=f"{VERSION_3} or {VERSION_2}")
    elif top.name not in wanted:
        remarks.fault("Schema", top.spot(),
                      f"The top element is <{top.name}>, and here "
                      f"{listed([f'<{name}>' for name in wanted])} is wanted.",
                      expected=listed([f"<{name}>" for name in wanted]), found=f"<{top.name}>")
    else:
        return True
    return False


def check(top: Element, remarks: Remarks) -> None:
    """Remarks all that keeps the XML from being of its schema."""
    Validity(top.namespace, remarks).element(top)
