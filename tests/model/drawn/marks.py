"""Random documents and source rows that tell themselves apart: what a decision returns shows which of them made it,
and by which rows and moment."""
from drafts import EFFECTS, PATTERNS
from identifiers import SHORTHANDS

RULES = "urn:oasis:names:tc:xacml:3.0:rule-combining-algorithm:deny-overrides"
POLICIES = ["urn:oasis:names:tc:xacml:3.0:policy-combining-algorithm:deny-overrides",
            "urn:oasis:names:tc:xacml:1.0:policy-combining-algorithm:first-applicable"]
SUBJECT_ID = "urn:oasis:names:tc:xacml:1.0:subject:subject-id"
NOW = "urn:oasis:names:tc:xacml:1.0:environment:current-dateTime"
VERSIONS = ["1.0"] * 4 + ["1", "1.2", "1.9", "1.10", "2.0", "10"]
IDS = ["urn:p", "urn:q", "urn:r"]
ODD_IDS = ["a/b", "\u00e9\"\\", "%2F", " x?y#z", "active", "+", "..", "\u0001\u007f", "\U0001f600"]
PEOPLE = ["alice", "bob"]
ISSUERS = ["hr", "it", ""]


def designator(category, attribute_id, data_type, **issuer):
    return {"AttributeDesignator": {"Category": category, "AttributeId": attribute_id, "DataType": data_type,
                                    "MustBePresent": False, **issuer}}


class Marks:
    """Documents, each with a mark of its own."""

    def __init__(self, rows):
        self.random, self.one_of, self.seldom = rows.random, rows.random.choice, rows.texts.seldom
        self.count = 0

    def mark(self):
        self.count += 1
        return f"urn:mark:{self.count}"

    def id(self):
        return self.one_of(ODD_IDS if self.seldom(0.2) else IDS)

    def issuer(self, chance):
        """The member of an issuer, now and then."""
        return {"Issuer": self.one_of(ISSUERS)} if self.seldom(chance) else {}

    def assignments(self):
        """What the subject's roles are, also those by an issuer, and when it is asked; each now and then."""
        found = [{"AttributeId": "urn:roles",
                  "Expression": designator("AccessSubject", "urn:role", "string",
                                           **self.issuer(0.3))}] * self.seldom(0.4)
        return found + [{"AttributeId": "urn:now",
                         "Expression": designator("Environment", NOW, "dateTime",
                                                  **self.issuer(0.1))}] * self.seldom(0.3)

    def duties(self, effect):
        return {"ObligationExpressions": [{"ObligationId": self.mark(), "FulfillOn": effect,
                                           "AttributeAssignmentExpression": self.assignments()}]}

    def policy(self):
        effect = self.one_of(EFFECTS)
        return {"Policy": {"PolicyId": self.id(), "Version": self.one_of(VERSIONS), "RuleCombiningAlgId": RULES,
                           "Rule": [{"RuleId": "r", "Effect": effect}], **self.duties(effect)}}

    def policy_set(self, keys):
        """A set that refers to documents of these keys, or to some that may come."""
        children = []
        for _ in range(self.one_of([1, 1, 2, 3])):
            kind, name = (self.one_of(keys)[:2] if keys
                          and self.seldom(0.8) else (self.one_of(["policy", "set"]), self.id()))
            version = {"Version": self.one_of(PATTERNS)} if self.seldom(0.3) else {}
            word = "PolicyIdReference" if kind == "policy" else "PolicySetIdReference"
            children.append({word: {"Id": name, **version}})
        return {"PolicySet": {"PolicySetId": self.id(), "Version": self.one_of(VERSIONS),
                              "PolicyCombiningAlgId": self.one_of(POLICIES), "Children": children,
                              **self.duties(self.one_of(EFFECTS))}}

    def row(self):
        return {"Category": self.one_of(["AccessSubject", SHORTHANDS["AccessSubject"]]),
                "Entity": self.one_of([*PEOPLE, ""]), "AttributeId": "urn:role", "DataType": "string",
                "Value": self.mark(), **self.issuer(0.4)}

    def source(self):
        """The rows of a source, now and then as many as there may be, or one more."""
        if self.seldom(0.04):
            return {"Row": [self.row()] * self.one_of([4096, 4097])}
        return {"Row": [self.row() for _ in range(self.one_of([0, 1, 1, 2, 3]))]}

    def request(self):
        """A request of one of the people, or of nobody."""
        attribute = {"AttributeId": SUBJECT_ID, "Value": self.one_of(PEOPLE)}
        role = [{"AttributeId": "urn:role", "Value": "guest", **self.issuer(0.5)}] * self.seldom(0.1)
        identified = {"ReturnPolicyIdList": self.seldom(0.9)} if self.seldom(0.4) else {}
        return {"Request": {**({"AccessSubject": {"Attribute": [attribute, *role]}} if self.seldom(0.6) else {}),
                            **identified}}
