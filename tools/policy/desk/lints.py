"""Lints: what the server takes and the author hardly meant. Each has a name by which it is switched off."""
from __future__ import annotations

from collections.abc import Iterator
from dataclasses import dataclass

from . import names
from .asking import unknown_category
from .check import Checked, Rows
from .contradictions import TargetLints
from .elements import Designator, Document, Expression, Rule
from .faults import Remarks
from .members import name_node
from .model import contexts, identifiers
from .one_value import OneValue
from .positions import Node

NAMES = {
    "unknown-category": "a category that is no shorthand and no known URI",
    "repeated-rule": "two rules of one id in a policy",
    "no-rules": "a policy without rules, a set without children",
    "never-matches": "a target that can never match: contradicting matches, a literal that nothing fits",
    "other-type": "an attribute of another type than the clock, the rows or other places have",
    "may-be-missing": "an attribute without MustBePresent in a Deny rule",
    "unused-variable": "a variable that nothing names",
    "idle-rule": "a rule or child that can never decide under its combining algorithm",
    "repeated-member": "a member that stands twice in an object: the last one counts",
    "ignored-member": "a member of a request that the server ignores",
    "unknown-id": "a request reference to an Id that no category has",
    "not-one-value": "a one-and-only of an attribute of which the rows give an entity several values, or none",
    "shorthand": "rows whose category is a shorthand, and when they are found (a note)",
}


def missed(condition: Expression | None) -> list[Designator]:
    """The designators of a condition for which it is False where they find nothing: those in which a value is
    looked for. Of the functions of one value none is evaluated then, and others look at how many there are."""
    if condition is None or condition.form != "apply":
        return []
    verb = names.short(condition.name or "")
    if verb in ("and", "or", "n-of"):
        return [one for inner in condition.arguments for one in missed(inner)]
    if verb in ("any-of", "any-of-any") or verb.endswith(("-is-in", "-at-least-one-member-of")):
        return [inner.designator for inner in condition.arguments if inner and inner.designator is not None]
    return []


@dataclass
class Lints:
    """The lints of documents, and of the source rows beside them."""
    documents: list[Checked]
    rows: Rows | None
    off: set[str]

    def run(self) -> None:
        """Adds what they find to the remarks of each document and of the rows."""
        for one in self.documents:
            if one.node is not None:
                self.repeated_members(one.remarks, one.node)
            if one.document is not None:
                self.document(one.remarks, one.document, [])
        self.types()
        if self.rows is not None:
            self.row_categories(self.rows)
            OneValue(self.rows).run(self.documents)
        for remarks in [one.remarks for one in self.documents] + ([self.rows.remarks] if self.rows else []):
            remarks.found = [remark for remark in remarks.found if remark.code not in self.off]

    def document(self, remarks: Remarks, held: Document, around: list[Document]) -> None:
        """The lints of a document, and of those inside it."""
        for designator in held.designators():
            self.category(remarks, designator)
        for lint in (self.repeated_rules, self.no_rules, self.deny_rules, self.unused_variables, self.idle):
            lint(remarks, held)
        TargetLints(remarks).document(held, around)
        for child in held.children:
            if isinstance(child, Document):
                self.document(remarks, child, [*around, held])

    def category(self, remarks: Remarks, designator: Designator) -> None:
        """Warns of a category that is none of the standard."""
        node = designator.node.at("Category")
        if node is not None and node.kind == "string" and not names.is_known_category(node.value):
            unknown_category(remarks, node, node.value)

    def repeated_members(self, remarks: Remarks, node: Node) -> None:
        """Warns of members that don't count, since their name stands again."""
        for member in node.repeated():
            remarks.warning("repeated-member", name_node(member),
                            f'"{member.name}" stands in this object more than once: the last one counts, '
                            'and this one is ignored.', found=member.name)
        for inner in [member.node for member in node.members] + (node.value if node.kind == "array" else []):
            self.repeated_members(remarks, inner)

    def repeated_rules(self, remarks: Remarks, held: Document) -> None:
        """Warns of rules of one id."""
        seen: dict[str, Rule] = {}
        for rule in held.rules():
            if rule.id is None:
                continue
            first = seen.setdefault(rule.id, rule)
            if first is not rule:
                remarks.warning(
                    "repeated-rule", rule.node.at("RuleId") or rule.node,
                    f'The rule of line {first.node.place.line} has the id "{rule.id}" too: nobody can tell them apart.',
                    expected="another RuleId", found=rule.id)

    def no_rules(self, remarks: Remarks, held: Document) -> None:
        """Warns of a policy without rules, and of a set without children."""
        if not held.children:
            what, inner = ("policy", "rules") if held.form == "Policy" else ("set", "children")
            result = {"deny-unless-permit": "Deny",
                      "permit-unless-deny": "Permit"}.get(held.algorithm or "", "NotApplicable")
            remarks.warning("no-rules", held.node,
                            f"This {what} has no {inner}: where its target matches it is always {result}.",
                            expected=inner, found="none")

    def deny_rules(self, remarks: Remarks, held: Document) -> None:
        """Warns of attributes that a Deny rule may miss in silence."""
        for rule in held.rules():
            if rule.effect != "Deny":
                continue
            found = [match.designator for match in rule.target.matches() if match.designator] if rule.target else []
            found += missed(rule.condition)
            for designator in found:
                if designator.must_be_present is False:
                    remarks.warning("may-be-missing", designator.node.at("MustBePresent") or designator.node,
                                    f'Where {attribute(designator)} is missing, '
                                    f'the Deny rule "{rule.id}" is passed over in '
                                    "silence. With MustBePresent true it is Indeterminate.", expected="true",
                                    found="false")

    def unused_variables(self, remarks: Remarks, held: Document) -> None:
        """Warns of variables that nothing names."""
        used = {one.name for expression in held.expressions() for one in expression.all() if one.form == "variable"}
        for variable in held.variables:
            if variable is not None and variable.name is not None and variable.name not in used:
                nearest = names.nearest(variable.name, {name for name in used if name is not None})
                remarks.warning("unused-variable", variable.node.at("VariableId") or variable.node,
                                f'Nothing names the variable "{variable.name}".', found=variable.name, nearest=nearest)

    # Algorithms under which a child can never decide.

    def idle(self, remarks: Remarks, held: Document) -> None:
        """Warns of children that can never decide."""
        kind = (held.algorithm or "").removeprefix("ordered-")
        effect = {"deny-unless-permit": "Deny", "permit-unless-deny": "Permit"}.get(kind)
        for rule in held.rules():
            if effect is not None and rule.effect == effect:
                remarks.warning("idle-rule", rule.node,
                                f'Under {kind} what no rule {"permits" if effect == "Deny" else "denies"} is {effect} '
                                f'anyway: this {effect} rule decides nothing.')
        self.behind_unconditional(remarks, held, kind)
        if kind == "only-one-applicable":
            self.always_two(remarks, held)

    def behind_unconditional(self, remarks: Remarks, held: Document, kind: str) -> None:
        """Warns of rules beside one that always decides."""
        wanted = {"deny-overrides": "Deny", "permit-overrides": "Permit", "deny-unless-permit": "Permit",
                  "permit-unless-deny": "Deny"}.get(kind)
        rules = held.rules()
        first = next((rule for rule in rules if is_unconditional(rule)
                      and (kind == "first-applicable" or rule.effect == wanted)), None)
        if first is None or kind not in ("first-applicable", *SETTLED):
            return
        others = (rules[rules.index(first) + 1:] if kind == "first-applicable"
                  else [rule for rule in rules if rule is not first and rule.effect == wanted])
        for rule in others:
            remarks.warning("idle-rule", rule.node,
                            f'The rule "{first.id}" in line {first.node.place.line} has no target and no condition: '
                            f'under {kind} it always decides, and this one never.')
        for rule in rules if kind != "first-applicable" else []:
            if rule.effect not in (None, wanted) and kind in ("deny-overrides", "permit-overrides"):
                remarks.warning("idle-rule", rule.node,
                                f'The {wanted} rule "{first.id}" in line {first.node.place.line} has no target and no '
                                f'condition: under {kind} it always decides, and this '
                                f"{rule.effect} rule never.")

    def always_two(self, remarks: Remarks, held: Document) -> None:
        """Warns where two children apply always, of which only one may."""
        always = [child for child in held.children if isinstance(child, Document)
                  and (child.target is None or not child.target.parts) and "Target" not in (child.node.last() or {})]
        for child in always[1:]:
            remarks.warning("idle-rule", child.node,
                            "Two children without a target apply always, this one and that of line "
                            f"{always[0].node.place.line}: under only-one-applicable the set is "
                            "always Indeterminate.")

    # Types of attributes.

    def types(self) -> None:
        """Warns of designators of another type than the clock, the rows, or the designators before them have."""
        by_rows: dict[tuple, set[str]] = {}
        for row in self.rows.rows if self.rows else []:
            if row.literal.data_type is not None:
                by_rows.setdefault((row.category, row.attribute_id), set()).add(row.literal.data_type)
        before: dict[tuple, Designator] = {}
        for one in self.documents:
            for designator in all_designators(one.document):
                self.type(one.remarks, designator, by_rows, before)
        self.row_types(by_rows)

    def row_types(self, by_rows: dict[tuple, set[str]]) -> None:
        """Warns, once for each attribute, of a row that has it as another type than policies ask for, as other rows
        do."""
        asked: dict[tuple, set[str]] = {}
        for held in [held for one in self.documents for held in all_designators(one.document)]:
            asked.setdefault((held.category, held.attribute_id), set()).add(held.data_type)
        wanted = {place: sorted(kinds & by_rows.get(place, set())) for place, kinds in asked.items()}
        said = {place for place, kinds in wanted.items() if not kinds}
        for row in self.rows.rows if self.rows else []:
            place, found = (row.category, row.attribute_id), row.literal.data_type
            if place not in wanted or place in said or found is None or found in asked[place]:
                continue
            said.add(place)
            self.rows.remarks.warning(
                "other-type", row.node.at("DataType") or row.node,
                f"This row has {names.attribute_shown(row.attribute_id)} as {names.kind_shown(found)}, and others as "
                f"{names.kind_shown(wanted[place][0])}, as which policies ask for it: here it isn't found.",
                expected=wanted[place][0], found=found, nearest=wanted[place][0])

    def type(self, remarks: Remarks, held: Designator, by_rows: dict, before: dict) -> None:
        """Warns of a designator of another type."""
        if None in (held.category, held.attribute_id, held.data_type):
            return
        place, node = (held.category, held.attribute_id), held.node.at("DataType") or held.node
        clock = {name: data_type for name, data_type in contexts.CLOCK}.get(held.attribute_id)
        first = before.setdefault(place, held)
        wanted, why = "", ""
        if clock and held.category == contexts.ENVIRONMENT and held.data_type != clock:
            wanted, why = clock, f"The clock gives {names.short(held.attribute_id)} as {names.kind_shown(clock)}"
        elif place in by_rows and held.data_type not in by_rows[place]:
            wanted = sorted(by_rows[place])[0]
            why = f"The rows have {attribute(held)} as {names.kind_shown(wanted)}"
        elif first.data_type != held.data_type:
            wanted = first.data_type
            why = (f"{first.node.source.path}:{first.node.place.line} asks for {attribute(held)} as "
                   f"{names.kind_shown(wanted)}")
        if wanted:
            remarks.warning("other-type", node,
                            f"{why}: asked for as {names.kind_shown(held.data_type)} it isn't found there.",
                            expected=wanted, found=held.data_type, nearest=wanted)

    # Rows.

    def row_categories(self, rows: Rows) -> None:
        """Warns of unknown categories, and notes once for each shorthand when its rows are found."""
        counts: dict[str, int] = {}
        for row in rows.rows:
            node = row.category_node
            if node is None or node.kind != "string":
                continue
            if not names.is_known_category(node.value):
                unknown_category(rows.remarks, node, node.value)
            counts[node.value] = counts.get(node.value, 0) + 1
        for name, uri in identifiers.SHORTHANDS.items():
            if name in counts:
                first = next(row.category_node for row in rows.rows if row.category_node is not None
                             and row.category_node.value == name)
                entity = contexts.entity_id(uri)
                when = (f"the request's {names.short(entity)} of this category is the row's Entity"
                        if entity else "the row's Entity is the empty text")
                rows.remarks.note("shorthand", first,
                                  f"{name} is a shorthand for {uri}. Such rows ({counts[name]}) "
                                  f"are found where {when}.",
                                  found=name)


SETTLED = ("deny-overrides", "permit-overrides", "deny-unless-permit", "permit-unless-deny")


def attribute(held: Designator) -> str:
    """An attribute in a few words."""
    return f"{names.category_shown(held.category or '?')} {names.attribute_shown(held.attribute_id or '?')}"


def is_unconditional(rule: Rule) -> bool:
    """Whether the rule always comes to its effect."""
    no_target = not rule.has_target or rule.target is not None and not rule.target.parts and not rule.target.node.value
    literal = rule.condition.literal if rule.condition is not None else None
    no_condition = not rule.has_condition or literal is not None and literal.value == ("boolean", True)
    sure = all(one.form == "value" for expression in rule.expressions() if expression is not rule.condition
               for one in expression.all())
    return no_target and no_condition and sure and rule.effect is not None


def all_designators(document: Document | None) -> Iterator[Designator]:
    """The designators of a document and of those inside it."""
    for inner in document.documents() if document else []:
        yield from inner.designators()
