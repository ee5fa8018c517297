"""The rules that differ from one setting to another, by what they say and by the targets around them, and what they
come to in a request."""
from __future__ import annotations

from dataclasses import dataclass, field

from .explain import individuals
from .model import contexts, expressions, policies
from .setting import KIND_NAMES, Setting

# what tells a rule from others: the policy's id, the rule's, and the how manieth of that id it is
Name = tuple[str, str, int]


@dataclass
class Way:
    """A rule of a tree, with the targets that stand around it, and the variables of its policy."""
    targets: list
    rule: tuple
    variables: dict[str, tuple]

    def said(self) -> str:
        """All on which it rests."""
        named = [self.variables[name] for name in variables_of(self.rule, self.variables)]
        return repr((self.targets, self.rule, named))

    def outcome(self, context: contexts.Context) -> str | None:
        """What the rule comes to; None where a target around it doesn't match."""
        evaluation = expressions.Evaluation(context.values_of, self.variables)
        if any(expressions.target_value(evaluation, target).word != "Match" for target in self.targets):
            return None
        return repr(policies.rule_value(evaluation, self.rule)[:4])


def variables_of(rule: tuple, variables: dict[str, tuple]) -> list[str]:
    """The variables that a rule names, and those that these name."""
    found: list[str] = []
    assignments = [one.expression for duties in rule.duties for duty in duties for one in duty.assignments]
    left = [rule.condition, *assignments]
    while left:
        held = left.pop()
        if held is None:
            continue
        if held[0] == "variable" and held[1] not in found:
            found.append(held[1])
            left.append(variables.get(held[1]))
        elif held[0] == "apply":
            left += held[1][1]
    return sorted(found)


def ways_of(setting: Setting) -> dict[Name, Way]:
    """The rules to which the root leads; one to which it leads on several ways has the first."""
    found: dict[Name, Way] = {}
    tree = setting.tree()
    left = [(tree, [])] if tree is not None else []
    while left:
        tree, around = left.pop(0)
        if tree == policies.LEAF:
            continue
        document, targets = tree.document, [*around, tree.document.target]
        left += [(child, targets) for child in tree.children]
        seen: dict[str, int] = {}
        elements = setting.placed[id(document)].children if document.form == "Policy" else []
        for rule, element in zip(document.children, elements):
            seen[element.id] = seen.get(element.id, 0) + 1
            found.setdefault((document.id, element.id, seen[element.id]), Way(targets, rule, dict(document.variables)))
    return found


def whole_parts(setting: Setting) -> dict[tuple[str, str], dict[str, object]]:
    """What each document to which the root leads says of its rules or children as a whole."""
    found: dict[tuple[str, str], dict[str, object]] = {}
    left = [setting.tree()]
    while left:
        tree = left.pop(0)
        if tree is None or tree == policies.LEAF:
            continue
        document, kind = tree.document, "policy" if tree.document.form == "Policy" else "set"
        left += tree.children
        order = [one.id for one in setting.placed[id(document)].children] if kind == "policy" else [
            (one.document.form, one.document.id) for one in tree.children if one != policies.LEAF]
        found.setdefault((kind, document.id), {"combining algorithm": document.algorithm, "order": order,
                                               "obligations or advice": document.duties})
    return found


def changed_wholes(old: Setting, new: Setting) -> list[str]:
    """What differs beside rules, each in a few words: the parts of documents that both have, and the rows."""
    found, (before, after) = [], (whole_parts(old), whole_parts(new))
    for key in before.keys() & after.keys():
        for part, was in before[key].items():
            both = was, after[key][part]
            if part == "order":
                both = tuple([one for one in held if one in both[0] and one in both[1]] for held in both)
            found += [f"the {part} of {KIND_NAMES[key[0]]} {key[1]}"] if repr(both[0]) != repr(both[1]) else []
    return sorted(found) + (["the rows"] if old.source_rows() != new.source_rows() else [])


@dataclass
class ChangedRule:
    """A rule that differs, in the old setting and in the new, or in one of them; in how many requests it came to
    something, and whether an answer that changes is one in which it comes to something else."""
    name: Name
    both: tuple[Way | None, Way | None]
    reached: int = 0
    is_shown: bool = False

    def told(self) -> str:
        """The rule in a few words."""
        policy, rule, number = self.name
        return f"rule {rule}{'' if number == 1 else f' ({number})'} of {KIND_NAMES['policy']} {policy}"

    def reckon(self, contexts_of: list[tuple[contexts.Context, contexts.Context]], is_changed: bool) -> None:
        """Counts a request in, by what it holds in each setting."""
        found = [[way and way.outcome(held) for way, held in zip(self.both, pair)] for pair in contexts_of]
        nothing = repr(policies.without_duties("NotApplicable")[:4])
        self.reached += any(one not in (None, nothing) for pair in found for one in pair)
        self.is_shown |= is_changed and any(pair[0] != pair[1] for pair in found)


@dataclass
class ChangedRules:
    """All rules that differ, and what differs beside them."""
    old: Setting
    new: Setting
    rules: list[ChangedRule] = field(default_factory=list)
    others: list[str] = field(default_factory=list)

    def __post_init__(self) -> None:
        self.others = changed_wholes(self.old, self.new)
        ways = ways_of(self.old), ways_of(self.new)
        for name in dict.fromkeys([*ways[0], *ways[1]]):
            both = ways[0].get(name), ways[1].get(name)
            if both[0] is None or both[1] is None or both[0].said() != both[1].said():
                self.rules.append(ChangedRule(name, both))

    def reckon(self, held: bytes, moment: int, is_changed: bool) -> None:
        """Counts a request in."""
        sources = self.old.source_rows(), self.new.source_rows()
        found = [tuple(contexts.Context(objects, source, moment) for source in sources)
                 for objects, _ in individuals(held) or [] if objects is not None]
        for one in self.rules:
            one.reckon(found, is_changed)
