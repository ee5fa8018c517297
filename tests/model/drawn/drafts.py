"""Random policy documents in JSON, sound ones and such as are broken in a place or two.

A draft is what `json` makes of JSON, but that a Raw is a number's text, and Pairs are an object's members, a
name of them twice maybe.
"""
import json

from documents import POLICY_ALGORITHMS, RULE_ALGORITHMS
from identifiers import NAMESPACE, SHORTHANDS
from questions import leaf
from rows import text_of

VERSIONS = ["1.0"] * 4 + ["1", "1.1", "1.2", "1.10", "01.1", "2.0", "2", "1.2.3.4.5.6.7.8", "999999999.0"]
PATTERNS = ["+", "1.+", "*", "*.*", "1.*", "1.0", "1.1", "2.+", "01.*", "3.+"]
IDS = ["urn:p", "urn:q", "urn:r"]
SHORT = {uri: name for name, uri in SHORTHANDS.items()}
EFFECTS = ["Permit", "Deny"]


class Raw(str):
    """The text of a JSON value."""


class Pairs(list):
    """The members of an object, each a name and a value."""


def written(draft, gap="", is_ascii=False):
    """The JSON text of a draft, with a gap behind commas and colons."""
    if isinstance(draft, Raw):
        return str(draft)
    if isinstance(draft, (dict, Pairs)):
        members = draft.items() if isinstance(draft, dict) else draft
        return "{" + ("," + gap).join(f'"{name}":{gap}{written(held, gap, is_ascii)}' for name, held in members) + "}"
    if isinstance(draft, list):
        return "[" + ("," + gap).join(written(held, gap, is_ascii) for held in draft) + "]"
    return json.dumps(draft, ensure_ascii=is_ascii)


def whole_number(text):
    """The text of a whole number as JSON has it, where it is one."""
    text = text.strip(" \t\r\n").removeprefix("+")
    return Raw(int(text)) if text.lstrip("-").isdigit() and text != "-0" else text


class Drafts:
    """Random documents, whose values and expressions are those of random rows."""

    def __init__(self, rows):
        self.rows, self.trees = rows, rows.trees
        self.random, self.one_of, self.seldom = rows.random, rows.random.choice, rows.texts.seldom
        self.faulty = 0.0  # how many of the expressions are ill-typed
        self.at_fault = 0.05  # how many of the matches are Indeterminate
        self.referring = 0.7  # how often a child may be a reference
        self.ids = IDS

    def some(self, make, counts):
        return [make() for _ in range(self.one_of(counts))]

    def data_type(self, name):
        return self.one_of(["", NAMESPACE]) + name

    def literal(self, data_type, text):
        """An AttributeValue of the text; of booleans and integers as a text or as themselves."""
        held = text_of(text)
        if data_type == "boolean" and self.seldom(0.7):
            held = held.strip() in ("true", "1")
        if data_type == "integer" and self.seldom(0.7):
            held = whole_number(held)
        return {"DataType": self.data_type(data_type), "Value": held}

    def designator(self, held):
        category = SHORT[held.category] if held.category in SHORT and self.seldom(0.5) else held.category
        issuer = {} if held.issuer is None else {"Issuer": held.issuer}
        return {"Category": category, "AttributeId": held.attribute_id, "DataType": self.data_type(held.data_type),
                "MustBePresent": held.must_be_present, **issuer}

    def expression(self, tree):
        """The expression of a tree of fields."""
        if not isinstance(tree, str):
            return {"Apply": {"FunctionId": text_of(tree[0]), **self.described(),
                              **self.unless_empty("Expression", [self.expression(held) for held in tree[1]])}}
        word, text = tree.split(":", 1)
        if word in ("any", "some"):
            return {"AttributeDesignator": self.designator(leaf(word, text)[1])}
        if word == "function":
            return {"Function": {"FunctionId": text_of(text)}}
        if word == "variable":
            return {"VariableReference": {"VariableId": text_of(text)}}
        return {"AttributeValue": self.literal(word, text)}

    def described(self):
        return {"Description": self.one_of(["", "x", "é"])} if self.seldom(0.05) else {}

    def unless_empty(self, name, items):
        return {name: items} if items or self.seldom(0.2) else {}

    def tree_of(self, kind, depths):
        """A random expression of the kind, about so deep, or an ill-typed one."""
        if self.seldom(self.faulty):
            return self.expression(self.trees.expression(kind, self.one_of([1, 1, 2])))
        return self.expression(self.trees.tree(kind, self.one_of(depths)))

    def match(self):
        name, (value, designator) = self.trees.match(self.at_fault)
        return {"MatchId": text_of(name), **self.expression(value), **self.expression(designator)}

    def target(self, chance):
        """A member Target, or none."""
        if not self.seldom(chance):
            return {}
        def all_of():
            return {"Match": self.some(self.match, [1, 1, 1, 2])}
        any_of = self.some(lambda: {"AllOf": self.some(all_of, [1, 1, 2, 2])}, [0, 1, 1, 1, 2])
        return {"Target": self.unless_empty("AnyOf", any_of)}

    def assigned(self):
        """The expression of an assignment, often a designator."""
        if self.trees.attributes and self.seldom(0.5):
            return self.expression(self.trees.designator(self.one_of(self.trees.attributes)[0][0]))
        return self.tree_of(self.one_of(["", "", "bag "]) + self.rows.texts.data_type(), [1, 1, 1, 1, 2])

    def assignment(self):
        found = {"AttributeId": self.one_of(["urn:a", "", "é\n"]), "Expression": self.assigned()}
        if self.seldom(0.2):
            found["Category"] = self.one_of(["Action", "urn:c", "Environment"])
        if self.seldom(0.2):
            found["Issuer"] = self.one_of(["i", ""])
        return found

    def duties(self, chance):
        """Members with obligations and advice, or none."""
        found = {}
        for array, name, effect in (("ObligationExpressions", "ObligationId", "FulfillOn"),
                                    ("AdviceExpressions", "AdviceId", "AppliesTo")):
            if self.seldom(chance):
                duty = lambda: {
                    name: self.one_of(["urn:o", "urn:\t\"o", ""]), effect: self.one_of(EFFECTS),
                    **self.unless_empty("AttributeAssignmentExpression", self.some(self.assignment, [0, 1, 1, 2]))}
                found[array] = self.some(duty, [0, 1, 1, 2])
        return found

    def condition(self):
        if self.seldom(0.5):
            return {}
        if self.seldom(0.4):
            return {"Condition": self.expression("boolean:" + self.one_of(["true", "true", "false"]))}
        return {"Condition": self.tree_of("boolean", [1, 2, 2, 2, 3, 3, 4])}

    def rule(self):
        return {"RuleId": self.one_of(["r", ""]), "Effect": self.one_of(EFFECTS), **self.described(),
                **self.target(0.25), **self.condition(), **self.duties(0.4)}

    def variables(self):
        """The members of the variables, which the expressions behind them may name."""
        self.trees.variables, found = [], []
        for name in self.random.sample(["u", "v", "w"], self.one_of([0, 0, 0, 1, 2, 3])):
            kind = self.trees.kind()
            found.append({"VariableId": name, "Expression": self.tree_of(kind, [1, 1, 2])})
            self.trees.variables.append((name, kind))
        return self.unless_empty("VariableDefinition", found)

    def key(self, name):
        return {name: self.one_of(self.ids), "Version": self.one_of(VERSIONS)}

    def algorithm(self, known):
        return self.one_of(list(known))

    def policy(self):
        self.trees.variables = []
        target = self.target(0.2)
        return {**self.key("PolicyId"), "RuleCombiningAlgId": self.algorithm(RULE_ALGORITHMS), **self.described(),
                **target, **self.variables(), **self.unless_empty("Rule", self.some(self.rule, [0, 1, 1, 2, 2, 3, 4])),
                **self.duties(0.4)}

    def reference(self):
        found = {"Id": self.one_of([*self.ids, *self.ids, "urn:none"])}
        for name, texts, chance in (("Version", PATTERNS, 0.3), ("EarliestVersion", VERSIONS, 0.1),
                                    ("LatestVersion", VERSIONS, 0.1)):
            if self.seldom(chance):
                found[name] = self.one_of(texts)
        return found

    def child(self, depth):
        name = self.one_of(["Policy"] * 6 + ["PolicySet"] * 3 * (depth > 1)
                           + ["PolicyIdReference", "PolicySetIdReference"] * self.seldom(self.referring))
        if name == "Policy":
            return {name: self.policy()}
        return {name: self.policy_set(depth - 1) if name == "PolicySet" else self.reference()}

    def policy_set(self, depth):
        """A set in which sets stand about so deep."""
        children = self.some(lambda: self.child(depth), [0, 1, 2, 2, 3, 4] if depth > 1 else [0, 1, 2, 3])
        self.trees.variables = []
        return {**self.key("PolicySetId"), "PolicyCombiningAlgId": self.algorithm(POLICY_ALGORITHMS),
                **self.described(), **self.target(0.2), **self.unless_empty("Children", children), **self.duties(0.4)}

    def document(self):
        if self.seldom(0.5):
            return {"Policy": self.policy()}
        return {"PolicySet": self.policy_set(self.one_of([1, 2, 2, 3, 4]))}

    def text(self, draft):
        """The draft's text, its members in any order."""
        return written(self.shuffled(draft), self.one_of(["", "", " "]), self.seldom(0.5))

    def shuffled(self, draft):
        if isinstance(draft, Pairs):
            return Pairs((name, self.shuffled(held)) for name, held in draft)
        if isinstance(draft, dict):
            return {name: self.shuffled(draft[name]) for name in self.random.sample(list(draft), len(draft))}
        return [self.shuffled(held) for held in draft] if isinstance(draft, list) else draft
