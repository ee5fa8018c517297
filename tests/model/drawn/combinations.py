"""Random documents that are simple but in one thing: how decisions are combined, or what designators find."""
from documents import RULE_ALGORITHMS
from drafts import EFFECTS, Drafts
from functions import V1
from trees import AT_FAULT, MATCHES_AT_FAULT

# matches that hold, or don't, where the boolean attribute e of d is true
PLAIN_MATCHES = [(V1 + "boolean-equal", [f"boolean:{held}", "any:boolean|d|e"]) for held in ("true", "false")]


class Combinations(Drafts):
    """Documents whose targets and conditions are true, false or at fault. They are told apart by their versions,
    mostly, and their obligations and advice by their ids."""

    def __init__(self, rows):
        super().__init__(rows)
        self.count, self.referring = 0, 0.2

    def key(self, name):
        self.count += 1
        return super().key(name) if self.seldom(0.2) else {name: self.one_of(self.ids), "Version": f"1.{self.count}"}

    def algorithm(self, known):
        return self.one_of([*known, *(uri for uri in known if not uri.endswith(("unless-permit", "unless-deny")))])

    def match(self):
        name, (value, designator) = self.one_of([*PLAIN_MATCHES[:1] * 2, *PLAIN_MATCHES, *MATCHES_AT_FAULT])
        return {"MatchId": name, **self.expression(value), **self.expression(designator)}

    def target(self, chance):
        return {"Target": {"AnyOf": [{"AllOf": [{"Match": [self.match()]}]}]}} if self.seldom(chance) else {}

    def condition(self):
        if self.seldom(0.5):
            return {}
        return {"Condition": self.expression(self.one_of(["boolean:true", "boolean:false", *AT_FAULT]))}

    def duty(self, name, effect):
        self.count += 1
        found = {name: f"{self.count}", effect: self.one_of(EFFECTS)}
        if self.seldom(0.2):
            expression = self.expression(self.one_of(["boolean:true", *AT_FAULT]))
            found["AttributeAssignmentExpression"] = [{"AttributeId": "a", "Expression": expression}]
        return found

    def duties(self, chance):
        return {**self.unless_empty("ObligationExpressions",
                                    [self.duty("ObligationId", "FulfillOn")] * self.seldom(chance)),
                **self.unless_empty("AdviceExpressions", [self.duty("AdviceId", "AppliesTo")] * self.seldom(chance))}

    def variables(self):
        return {}

    def document(self):
        return {"PolicySet": self.policy_set(self.one_of([1, 2, 2, 3]))}


class Findings(Drafts):
    """Policies that permit, and return what designators find."""

    def assigned(self):
        data_type = self.one_of(self.trees.attributes)[0][0]
        found = self.trees.designator(data_type)
        return self.expression(found if self.seldom(0.05) else found.replace("some:", "any:", 1))

    def document(self):
        assignments = self.some(self.assignment, [2, 4, 6, 8])
        return {"Policy": {**self.key("PolicyId"), "RuleCombiningAlgId": self.one_of(list(RULE_ALGORITHMS)),
                           "Rule": [{"RuleId": "r", "Effect": "Permit"}],
                           "ObligationExpressions": [{"ObligationId": "o", "FulfillOn": "Permit",
                                                      "AttributeAssignmentExpression": assignments}]}}
