"""How a decision comes about: the tree with each target, condition and rule, what settled it, and where its
status, obligations and advice came from.

What each part comes to is the model's own reckoning, part by part from the leaves up.
"""
from __future__ import annotations

from . import names
from .elements import Document, Duty, Reference, Rule
from .model import combining, expressions, json_texts, linking, policies, requests, values, versions
from .setting import KIND_NAMES, Setting, no_document, reference_shown
from .tracing import Origins, Tracing, fault_shown, target_traced, traced, value_shown

LETTERS = {"{P}": "Indeterminate{P}", "{D}": "Indeterminate{D}", "{DP}": "Indeterminate{DP}"}
NAMES_OF_FORMS = {"Policy": KIND_NAMES["policy"], "PolicySet": KIND_NAMES["set"]}
SETTLES = {
    "deny-overrides": "a Deny decides whatever else there is",
    "permit-overrides": "a Permit decides whatever else there is",
    "deny-unless-permit": "what isn't permitted is denied", "permit-unless-deny": "what isn't denied is permitted",
    "first-applicable": "the first that applies decides", "only-one-applicable": "exactly one may apply",
}


def decision_shown(decision: str) -> str:
    """A decision as people read it."""
    return LETTERS.get(decision, decision)


def status_shown(status: str) -> str:
    """The last part of a status code."""
    return names.short(status)


def verdict(evaluated: policies.Evaluated) -> dict[str, object]:
    """Decision and status."""
    return {"decision": decision_shown(evaluated.decision), "status": status_shown(evaluated.status)}


class Explainer:
    """Explains what a setting decides on the Category objects of an individual request."""

    def __init__(self, setting: Setting, objects: list, moment: int):
        self.setting, self.context = setting, Origins(objects, setting.source_rows(), moment)

    def tree(self, tree: policies.Tree, reference: Reference | None = None,
             path: tuple = ()) -> tuple[dict[str, object], policies.Evaluated]:
        """What a tree comes to, and how."""
        if tree == policies.LEAF:
            evaluated = policies.tree_value(self.context.values_of, tree)
            return {"element": "reference", **self.leaf(reference, path), **verdict(evaluated)}, evaluated
        document, element = tree.document, self.setting.placed[id(tree.document)]
        found = {"element": KIND_NAMES[element.kind], "id": element.id, "version": element.version,
                 "file": element.node.source.path,
                 "line": element.node.place.line, "pointer": element.node.pointer, "algorithm": document.algorithm}
        if reference is not None:
            found["referred_to_by"] = reference_shown(reference)
        tracing = Tracing(self.context, dict(document.variables))
        self.pair_variables(tracing, document, element)
        target = expressions.target_value(tracing.plain, document.target)
        found["target"] = target_traced(tracing, document.target, element.target)
        if target.word == "NoMatch":
            evaluated = policies.without_duties("NotApplicable")._replace(target=target)
            return {**found, **verdict(evaluated), "because": "the target doesn't match"}, evaluated
        inner_path = (*path, (element.kind, element.id, element.version)) if reference is not None or not path else path
        shown, children = self.children(tree, element, tracing, inner_path)
        evaluated = policies.applied(tracing.plain, document, target, children)._replace(target=target)
        found["children"] = shown
        self.combined(found, document.algorithm, target, children)
        self.duties(found, tracing, document.duties, element.duties, found.pop("combined"))
        return {**found, **verdict(evaluated), **self.gathered(evaluated)}, evaluated

    def pair_variables(self, tracing: Tracing, document, element: Document) -> None:
        """Notes where the variables' definitions stand."""
        for (_, expression), variable in zip(document.variables, element.variables):
            tracing.pair(expression, variable.expression)

    def children(self, tree: policies.Tree, element: Document, tracing: Tracing,
                 path: tuple) -> tuple[list[dict], list[policies.Evaluated]]:
        """What the children come to: rules, or trees."""
        if tree.document.form == "Policy":
            pairs = [self.rule(tracing, rule, inner) for rule, inner in zip(tree.document.children, element.children)]
        else:
            pairs = [self.tree(child, inner if isinstance(inner, Reference) else None, path) for child,
                     inner in zip(tree.children, element.children)]
        return [shown for shown, _ in pairs], [evaluated for _, evaluated in pairs]

    def leaf(self, reference: Reference | None, path: tuple) -> dict[str, object]:
        """A reference for which there is no document, and why."""
        root = self.setting.root
        held = reference.reference if reference is not None else root
        found = {"id": held.id} if reference is None else {"id": held.id, "file": reference.node.source.path,
                                                           "line": reference.node.place.line}
        active = [one[:3] for one in self.setting.active]
        place = versions.resolved(held, active)
        if place is None:
            return {**found,
                    "because": "it leads nowhere: "
                    + no_document(held, [one.document for one in self.setting.documents])[0]}
        kind, name, version = active[place]
        if (kind, name, ".".join(map(str, version))) in path:
            return {**found, "because": f"it is circular: {name} is on the way here already"}
        return {**found,
                "because": f"more than {linking.MOST_ON_A_PATH} documents refer to one another on the way here"}

    def rule(self, tracing: Tracing, rule, element: Rule) -> tuple[dict[str, object], policies.Evaluated]:
        """What a rule comes to, and how."""
        evaluated = policies.rule_value(tracing.plain, rule)
        found = {"element": "rule", "id": element.id, "effect": rule.effect, "file": element.node.source.path,
                 "line": element.node.place.line,
                 "pointer": element.node.pointer, "target": target_traced(tracing, rule.target, element.target)}
        word = found["target"]["is"]
        if word == "NoMatch":
            return {**found, **verdict(evaluated), "because": "the target doesn't match"}, evaluated
        if word == "Indeterminate":
            return {**found, **verdict(evaluated), "because": "the target is Indeterminate",
                    "status_from": "the target"}, evaluated
        return {**found, **self.behind_target(tracing, rule, element, evaluated), **verdict(evaluated),
                **self.gathered(evaluated)}, evaluated

    def behind_target(self, tracing: Tracing, rule, element: Rule, evaluated: policies.Evaluated) -> dict[str, object]:
        """The condition and the duties of a rule whose target matches."""
        found: dict[str, object] = {}
        if rule.condition is not None:
            found["condition"] = traced(tracing, rule.condition, element.condition)
            if "fault" in found["condition"]:
                return {**found, "because": f"the condition has no value: {found['condition']['fault']}",
                        "status_from": "the condition"}
            if found["condition"]["value"] == "false":
                return {**found, "because": "the condition is false"}
        reason = "the condition is true" if rule.condition is not None else "there is no condition"
        found["because"] = f"the target matches, and {reason}" if element.has_target else reason
        self.duties(found, tracing, rule.duties, element.duties, rule.effect)
        return found

    def combined(self, found: dict, algorithm: str, target: expressions.Matching,
                 children: list[policies.Evaluated]) -> None:
        """Notes what the algorithm makes of the children, which of them settle it, and where the status comes from."""
        decision, _, evaluated = policies.combined(algorithm, children)
        for shown, child in zip(found["children"], children):
            if (child.decision == decision and (child.obligations or child.advice)
                and not any(child is one for one in evaluated)):
                shown["not_gathered"] = ("its obligations and advice are not gathered: "
                                         "the one that settled it stands before it")
        if algorithm == "first-applicable":
            decides = next((place for place, child in enumerate(children) if child.decision != "NotApplicable"), None)
            for shown in [] if decides is None else found["children"][decides + 1:]:
                shown["unreached"] = f"isn't reached: {label(found['children'][decides])} stands before it"
        settling = settling_children(algorithm, children)
        found["combined"] = decision
        found["settled_by"] = [label(found["children"][place]) for place in settling]
        found["because"] = because(algorithm, decision, [found["children"][place] for place in settling], children)
        if target.word == "Indeterminate":
            found["combined"] = policies.INDETERMINATE.get(decision, decision)
            found["because"] += ("; the target is Indeterminate, "
                                 f"so {decision_shown(decision)} is {decision_shown(found['combined'])}")
            found["status_from"] = "the target"
        elif policies.is_indeterminate(decision):
            found["status_from"] = self.status_source(algorithm, found["children"], children)

    def status_source(self, algorithm: str, shown: list[dict], children: list[policies.Evaluated]) -> str:
        """Which child the status of an Indeterminate comes from."""
        if algorithm == "only-one-applicable":
            end = combining.ending([child.target.word for child in children])
            if end is not None:
                return (f"the target of {label(shown[end])}"
                        if children[end].target.status else f"{label(shown[end])}, the second that applies")
        place = next((place for place, child in enumerate(children) if policies.is_indeterminate(child.decision)), None)
        return f"{label(shown[place])}, the first that is Indeterminate" if place is not None else "the algorithm"

    def duties(self, found: dict, tracing: Tracing, duties: tuple, elements: list[Duty], decision: str) -> None:
        """Notes the element's own obligations and advice that belong to the decision, and the first fault in them."""
        if decision not in ("Permit", "Deny"):
            return
        for duty, element in zip([*duties[0], *duties[1]], elements):
            if duty.effect != decision:
                continue
            word = "obligation" if element.is_obligation else "advice"
            try:
                given = policies.returned(tracing.plain, [duty], decision)[0]
                found.setdefault("own_duties",
                                 []).append({word: duty.id, "line": element.node.place.line,
                                             "assignments": assignments_shown(given.assignments)})
            except values.Fault as fault:
                found["because"] += (f"; but the {word} {duty.id} has no value ({fault_shown(fault)}), "
                                     f"so {decision} is {decision_shown(policies.INDETERMINATE[decision])}")
                found["status_from"] = f"the {word} {duty.id} in line {element.node.place.line}"
                return

    def gathered(self, evaluated: policies.Evaluated) -> dict[str, object]:
        """The obligations and advice with which the element is returned."""
        found = {"obligations": [duty.id for duty in evaluated.obligations],
                 "advice": [duty.id for duty in evaluated.advice]}
        return {name: held for name, held in found.items() if held}


def named(evaluated: policies.Evaluated) -> dict[str, object]:
    """The policies and sets that the response names where the request asks for them (ReturnPolicyIdList)."""
    found = [f"{NAMES_OF_FORMS[one.form]} {one.id} {one.version}" for one in evaluated.ids]
    return {"names": found} if found else {}


def assignments_shown(assignments: list) -> list[str]:
    """Assignments in a few words."""
    return [f"{one.attribute_id} = {value_shown(one.value)}" for one in assignments]


def label(shown: dict) -> str:
    """`rule r`, `policy urn:p 1.0`."""
    return " ".join(str(shown[name]) for name in ("element", "id", "version") if name in shown)


def settling_children(algorithm: str, children: list[policies.Evaluated]) -> list[int]:
    """The places of the first few children that alone make the same decision as all."""
    def decides(places: list[int]) -> str:
        return policies.combined(algorithm, [children[place] for place in places])[0]

    wanted = decides(list(range(len(children))))
    places = [next(place for place in range(len(children)) if children[place][:2] == child[:2]
                   and words(children[place]) == words(child)) for child in children]
    kept = list(dict.fromkeys(places)) if algorithm != "only-one-applicable" else list(range(len(children)))
    for place in sorted(kept, reverse=True):
        fewer = [other for other in kept if other != place]
        kept = fewer if decides(fewer) == wanted else kept
    return kept


def words(child: policies.Evaluated) -> str | None:
    """What the target of a child comes to."""
    return child.target.word if child.target else None


def because(algorithm: str, decision: str, settling: list[dict], children: list[policies.Evaluated]) -> str:
    """Why the algorithm comes to its decision."""
    rule = SETTLES[algorithm.removeprefix("ordered-")]
    if not children:
        return f"{algorithm}: there are no children"
    if not settling:
        none = ("none of them applies" if all(child.decision == "NotApplicable" for child in children)
                else f"none of them changes {decision_shown(decision)}")
        return f"{algorithm} ({rule}): {none}"
    found = " and ".join(f"{label(one)} is {one['decision']}"
                         for one in settling[:3]) + (" and more" if len(settling) > 3 else "")
    return f"{algorithm} ({rule}): {found}"


def individuals(held: bytes) -> list[tuple[list | None, str]] | None:
    """The Category objects of each individual request, or None for one that refers to what isn't there, with what
    tells it from the others.

    None where the request as a whole gets one result: it is none of the profile, asks for a combined
    decision, or for too many.
    """
    try:
        (combined, _), found, named = requests.request_of(held)
    except (json_texts.NotJson, requests.NotProfile):
        return None
    places = requests.individuals_of(found, named)
    if combined or places is None:
        return None
    return [(None, "") if one is None else ([found[place] for place in one], told(found, one)) for one in places]


def told(found: list, places: list[int]) -> str:
    """The ids by which an individual request differs from others."""
    shown = []
    for place in places:
        named = [value_shown(attribute.values[0]) for attribute in found[place].attributes
                 if attribute.id.endswith(("subject-id", "resource-id", "action-id")) and attribute.values]
        if named:
            shown.append(f"{names.category_shown(found[place].category)} {named[0]}")
    return ", ".join(shown)


def explained(setting: Setting, held: bytes, moment: int) -> list[dict[str, object]] | None:
    """To each individual request the tree, and how it comes to its decision; None where the request as a whole gets
    one result or none."""
    asked, found, tree = individuals(held), [], setting.tree()
    if asked is None:
        return None
    for objects, name in asked:
        result: dict[str, object] = {"individual": name} if name else {}
        if objects is None:
            result.update(decision="Indeterminate", status="syntax-error",
                          because="a request reference names an Id that isn't there, or two categories alike")
        elif setting.root is None:
            result.update(decision="NotApplicable", status="ok", because="there is no root")
        elif tree is None:
            result.update(decision="Indeterminate{DP}", status="processing-error",
                          because=f"the tree has more than {linking.MOST_IN_A_TREE} policies and sets")
        else:
            shown, evaluated = Explainer(setting, objects, moment).tree(tree)
            result.update(verdict(evaluated), tree=shown, **named(evaluated))
        found.append(result)
    return found
