"""Texts, names, versions and values in documents, and what is wrong with them.

The names and the texts of values are the model's.
"""
from __future__ import annotations

from collections.abc import Callable

from . import left_out, names
from .elements import Literal
from .members import Members, kind_of
from .model import documents, identifiers, values, versions
from .positions import Node
from .text import listed

SHAPES = {
    "boolean": "true or false",
    "integer": "digits with a sign or none, from -9223372036854775808 to 9223372036854775807",
    "date": 'YYYY-MM-DD with a time zone or none, as "2026-11-23Z"',
    "time": 'hh:mm:ss with a time zone or none, as "09:00:00Z"',
    "dateTime": 'YYYY-MM-DDThh:mm:ss with a time zone or none, as "2026-11-23T09:00:00Z"',
    "dayTimeDuration": 'days, hours, minutes and seconds, as "P1DT2H30M"',
    "yearMonthDuration": 'years and months, as "P1Y6M"',
    "hexBinary": "pairs of hexadecimal digits", "base64Binary": "base64 with its padding", "anyURI": "a text",
    "string": "a text",
}


def example_of(data_type: str, node: Node) -> str:
    """A text that may have been meant by one that is no value of the type; the empty text where none comes to mind."""
    held = str(node.value).strip()
    tried = {"time": [f"0{held}:00Z", f"{held}:00Z", f"0{held}", f"{held.zfill(2)}:00:00Z", f"{held}Z"],
             "dateTime": [f"{held}T00:00:00Z", f"{held}:00Z", held.replace(" ", "T", 1)],
             "date": [held[:10], held.replace("/", "-"), held.replace(".", "-")], "boolean": [held.lower()],
             "dayTimeDuration": [f"PT{held.upper()}", held.upper(), f"P{held.upper()}"],
             "yearMonthDuration": [f"P{held.upper()}", held.upper()], "base64Binary": [held + "=", held + "=="]}
    for text in tried.get(data_type, []):
        try:
            found = values.read(data_type, text)
            return values.to_text(found) if data_type == "boolean" else found and text
        except values.Fault:
            continue
    return ""


class Scalars(Members):
    """Reads texts, names, versions and values, and remarks what is wrong with them."""

    # Texts and names.

    def text(self, node: Node) -> str | None:
        """A text."""
        if node.kind != "string":
            self.wrong_kind(node, "a text")
            return None
        return node.value

    def flag(self, node: Node) -> bool | None:
        """True or false."""
        if node.kind != "boolean":
            quoted = " without quotes" if node.kind == "string" else ""
            self.wrong_kind(node, "true or false", f"Here belongs true or false{quoted}.")
            return None
        return node.value

    def among(self, known: list[str], code: str, node: Node, say: Callable[[str], tuple[str, str]]) -> str | None:
        """A text that is one of the known ones; else the fault, with what is said of it, and the nearest name."""
        held = self.text(node)
        if held is None or held in known:
            return held
        sentence, nearest = say(held)
        self.remarks.fault(code, node, sentence, expected=listed(known) if len(known) <= 12 else "", found=held,
                           nearest=nearest)
        return None

    def effect(self, node: Node) -> str | None:
        """Permit or Deny."""
        def say(held: str) -> tuple[str, str]:
            meant = names.nearest(held, ["Permit", "Deny"])
            return f'An effect is Permit or Deny.{f" Did you mean {meant}?" if meant else ""}', meant
        return self.among(["Permit", "Deny"], "BadValue", node, say)

    def data_type(self, node: Node) -> str | None:
        """The name of a data type."""
        held = self.text(node)
        if held is None or held in identifiers.DATA_TYPES:
            return identifiers.DATA_TYPES.get(held)
        sentence, nearest = left_out.unknown_type(held)
        self.remarks.fault("BadValue", node, sentence, expected=listed(values.TYPES), found=held, nearest=nearest)
        return None

    def algorithm(self, kind: str) -> Callable[[Node], str | None]:
        """Reads a combining algorithm of rules, or of policies."""
        known, others = documents.RULE_ALGORITHMS, documents.POLICY_ALGORITHMS
        known, others = (known, others) if kind == "rules" else (others, known)

        def reads(node: Node) -> str | None:
            found = self.among(list(known), "UnknownAlgorithm", node,
                               lambda held: names.unknown_algorithm(held, known, others, kind))
            return known.get(found)
        return reads

    def category(self, node: Node) -> str | None:
        """A category, of which a shorthand stands for its URI."""
        held = self.text(node)
        return None if held is None else identifiers.category(held)

    def identifier(self, node: Node) -> str | None:
        """The id of a policy or of a set."""
        held = self.text(node)
        if held is not None and not 1 <= len(held.encode()) <= documents.MAX_ID_BYTES:
            self.remarks.fault("BadValue", node, f"An id has 1 to {documents.MAX_ID_BYTES} bytes.",
                               expected=f"1 to {documents.MAX_ID_BYTES} bytes",
                               found=f"{len(held.encode())} bytes")
            return None
        return held

    def version(self, shape: str) -> Callable[[Node], list[str] | None]:
        """Reads the parts of a version, or of a pattern of versions."""
        what = "A version" if shape == versions.VERSION else "A pattern of versions"
        wanted = ("numbers with dots between, as 1.0"
                  + ("" if shape == versions.VERSION else ", with * for one number and + for one or more at the end"))

        def reads(node: Node) -> list[str] | None:
            held = (self.text(node) if node.kind == "string"
                    else self.wrong_kind(node, f"a text, {wanted}", f"{what} is a text: write it in quotes."))
            if held is None:
                return None
            try:
                return versions.parts(shape, held)
            except versions.NoVersion as fault:
                why = (f"has at most {versions.MAX_NUMBERS} numbers of at most {versions.MAX_DIGITS} digits"
                       if str(fault) == "TooLong" else f"is {wanted}")
                advice = (" A * or + stands in a reference's Version alone." if shape == versions.VERSION
                          and set(held) & set("*+") else "")
                self.remarks.fault("BadValue", node, f"{what} {why}.{advice}", expected=wanted, found=held)
                return None
        return reads

    # Values.

    def literal(self, node: Node) -> Literal | None:
        """An attribute value."""
        found = self.members("AttributeValue", node)
        return None if found is None else self.typed(node, found)

    def typed(self, node: Node, found: dict[str, Node]) -> Literal:
        """The value of the members DataType and Value."""
        data_type = self.optional(self.data_type, found, "DataType")
        value = found.get("Value")
        if value is None:
            return Literal(node, data_type, None)
        if value.kind not in ("string", "boolean", "number"):
            self.wrong_kind(value, "a text, true or false, or a whole number",
                            "One value stands here."
                            + (" Several values need as many AttributeValues." if value.kind == "array" else ""))
            return Literal(node, data_type, None)
        if data_type is None:
            return Literal(node, None, None)
        return Literal(node, data_type, self.value(data_type, value))

    def value(self, data_type: str, node: Node) -> tuple | None:
        """The value of a text, a boolean or a whole number under the type."""
        shape = SHAPES[data_type]
        if node.kind == "boolean" and data_type == "boolean":
            return data_type, node.value
        if node.kind == "number" and data_type == "integer":
            if node.value is not None and -2**63 <= node.value < 2**63:
                return data_type, node.value
            self.remarks.fault("BadValue", node, "An integer is a whole number of 64 bits, without point and exponent.",
                               expected=shape, found=node.text)
            return None
        if node.kind != "string":
            example = example_of(data_type, node) or {"date": "2026-11-23", "dateTime": "2026-11-23T09:00:00Z",
                                                      "time": "09:00:00Z"}.get(data_type, "")
            as_text = f' as "{example}"' if example else " in quotes"
            self.remarks.fault("BadValue", node,
                               f"A value of type {data_type} is written as a "
                               f"text{as_text if data_type != 'string' else ' in quotes'}.",
                               expected=f"a text: {shape}" if shape != "a text" else "a text", found=kind_of(node))
            return None
        try:
            return values.read(data_type, node.value)
        except values.Fault as fault:
            self.unread(data_type, node, str(fault), shape)
            return None

    def unread(self, data_type: str, node: Node, why: str, shape: str) -> None:
        """Remarks a text that is no value of the type."""
        meant = example_of(data_type, node)
        ask = f' Did you mean "{meant}"?' if meant else ""
        kind = names.kind_shown(data_type)
        sentence = (f"This text has the shape of {kind}, but a part is out of its range." if why == "OutOfRange" else
                    f"This text is no {kind.removeprefix('a ').removeprefix('an ')}.")
        self.remarks.fault("BadValue", node, sentence + ask, expected=shape, found=node.text, nearest=meant)
