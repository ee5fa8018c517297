"""Objects and arrays of JSON in documents: their members by the model's tables, and what is wrong with these.

A misspelt member is read as the one that was meant.
"""
from __future__ import annotations

from collections.abc import Callable

from . import names
from .faults import Remarks
from .model import documents
from .positions import Member, Node
from .text import listed

# names that a sentence lists
MOST_NAMED = 20
KINDS = {"object": "an object", "array": "an array", "string": "a text", "number": "a number",
         "boolean": "true or false", "null": "null"}
# how a policy document as a whole is called, and a body of rows
WHOLE, ROWS = "A document", "The body"
WHERE = {"Policy": "A policy", "PolicySet": "A policy set", "Reference": "A reference", "AnyOf": "An item of AnyOf",
         "AllOf": "An item of AllOf",
         "Source": ROWS, "SourceRow": "A row"}


def name_node(member: Member) -> Node:
    """The place of a member's name."""
    return Node(member.node.source, member.node.pointer, "string", member.start, member.end)


def form_of(known: list[str], node: Node) -> str:
    """The form of which the object has members, though it should have that form alone; the empty text
    where there is none."""
    tables = {form: {row.rstrip("?") for row in names.table_of("Reference" if form.endswith("IdReference") else form)}
              for form in known}
    alike = ({form: len(rows & set(node.last())) / len(node.last()) for form, rows in tables.items()}
             if node.members else {})
    best = max(alike, key=alike.get, default="")
    return best if best and alike[best] >= 0.5 else ""


def kind_of(node: Node) -> str:
    """What kind of JSON a value is, in words."""
    if node.kind == "boolean":
        return "true" if node.value else "false"
    if node.kind == "number":
        return f"the number {node.text}"
    return (f"the text {node.text if len(node.text) <= 40 else node.text[:37] + '...'}"
            if node.kind == "string" else KINDS[node.kind])


class Members:
    """Reads the members of objects and the items of arrays, and remarks what is wrong with them."""

    def __init__(self, remarks: Remarks):
        self.remarks = remarks

    def wrong_kind(self, node: Node, wanted: str, sentence: str = "") -> None:
        """Remarks a value that is of another kind than is wanted."""
        self.remarks.fault("BadValue", node, sentence or f"Here belongs {wanted}.", expected=wanted,
                           found=kind_of(node))

    def members(self, table: str, node: Node, label: str = "") -> dict[str, Node] | None:
        """The values of an object's members, by the names of the table; None where it is no object."""
        label = label or WHERE.get(table, ("An " if table[0] in "AEIO" else "A ") + table)
        rows = names.table_of(table)
        known = [name.rstrip("?") for name in rows]
        if node.kind != "object":
            self.wrong_kind(node, f"an object with the members {listed(rows, 'and')}")
            return None
        found = {name: member.node for name, member in node.last().items() if name in known}
        for name, member in node.last().items():
            if name not in known:
                self.unknown_member(label, name, member, known, found)
        for name in rows:
            if not name.endswith("?") and name not in found:
                self.remarks.fault(f"MissingMember({name})", node,
                                   f'{label} needs the member "{name}", which is missing.',
                                   expected=f"the member {name}",
                                   found=listed([*list(node.last())[:MOST_NAMED],
                                                 *["more"] * (len(node.last()) > MOST_NAMED)], "and"))
        return found

    def unknown_member(self, label: str, name: str, member: Member, known: list[str], found: dict[str, Node]) -> None:
        """Remarks a member that the table hasn't; it stands for the one that was meant, where that one isn't there."""
        meant = names.nearest(name, known)
        ask = f' Did you mean "{meant}"?' if meant else names.other_file([name]) if label == ROWS else ""
        if meant and meant in found:
            ask = f' "{meant}" is there already.'
        elif meant:
            found[meant] = member.node
        self.remarks.fault("UnknownMember", name_node(member), f'{label} has no member "{name}".{ask}',
                           expected=listed(known), found=name, nearest=meant)

    def one_of(self, kind: str, node: Node, label: str) -> tuple[str, Node] | None:
        """The name and the value of the one member that the object has, or that was meant."""
        known = documents.ONE_OF[kind].split()
        if node.kind != "object":
            self.wrong_kind(node, f"an object of one member, {listed(known)}")
            return None
        there = [name for name in node.last() if name in known]
        bare = "" if there else form_of(known, node)
        if bare:
            first = node.members[0]
            self.unknown_form(first, f'{label} is an object of one member: put {{"{bare}": {{..}}}} around these.',
                              known, bare)
            return bare, node
        meant = self.strays(known, there, node, label)
        if not node.members:
            self.remarks.fault(f"MissingMember({known[0]})", node, f"{label} is empty.",
                               expected=f"one of {listed(known)}", found="{}")
        return (there[0], node.at(there[0])) if there else meant

    def strays(self, known: list[str], there: list[str], node: Node, label: str) -> tuple[str, Node] | None:
        """Remarks what stands beside the one member; and gives what stands in its place, where a misspelt one does."""
        meant = None
        for name, member in node.last().items():
            if name not in known:
                near = names.nearest(name, known)
                self.unknown_form(member,
                                  f'{label} has no member "{name}".'
                                  + (f' Did you mean "{near}"?' if near and not there else
                                     names.other_file([name]) if label == WHOLE else ""),
                                  known, near)
                meant = meant or (near, member.node) if near else meant
            elif name in there[1:]:
                self.unknown_form(member, f'{label} has one member alone: "{there[0]}" is there already.', known, "")
        return meant

    def unknown_form(self, member: Member, sentence: str, known: list[str], nearest: str) -> None:
        """Remarks a member that stands where another one alone may."""
        self.remarks.fault("UnknownMember", name_node(member), sentence, expected=f"one of {listed(known)}",
                           found=member.name, nearest=nearest)

    def optional(self, reads: Callable, found: dict[str, Node], name: str):
        """What is read of a member, where it is there."""
        return reads(found[name]) if name in found else None

    def each(self, reads: Callable, found: dict[str, Node], name: str, least: int = 0) -> list:
        """What is read of each item of an array, which may be left out."""
        node = found.get(name)
        if node is None:
            return []
        if node.kind != "array":
            inner = " Put it in brackets: [ .. ]." if node.kind == "object" else ""
            self.wrong_kind(node, "an array", f'"{name}" is an array.{inner}')
            return [reads(node)] if node.kind == "object" else []
        if len(node.value) < least:
            self.remarks.fault("BadValue", node, f'"{name}" has at least {least} item.',
                               expected=f"an array of at least {least}", found="an empty array")
        return [reads(item) for item in node.value]
