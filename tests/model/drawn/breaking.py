"""Slips in policy documents: members too few, too many, twice, of a wrong kind or out of range; sets too
deep, bytes too many."""
from documents import ONE_OF, TABLES
from drafts import Drafts, Pairs, Raw
from rows import encoded

NAMES = sorted({name.rstrip("?") for names in [*TABLES.values(), *ONE_OF.values()] for name in names.split()})
ALGORITHM = "urn:oasis:names:tc:xacml:3.0:policy-combining-algorithm:deny-overrides"
WRONG = [None, True, False, "", "x", [], {}, [None], [[]], {"a": 1}, Raw("5"), Raw("-0"), Raw("7.5"), Raw("1e2"),
         Raw("9223372036854775807"), Raw("9223372036854775808"), Raw("18446744073709551616"),
         Raw("-9223372036854775809")]
TEXTS = ["", "x", "permit", "Permit", "Deny", "1.", "1.+", "+", "0000000001", "1.2.3.4.5.6.7.8.9", "double", "integer",
         "string", "2023-02-29", ALGORITHM, ALGORITHM.replace("policy", "rule"),
         ALGORITHM.replace("3.0:policy", "1.0:rule"), "a" * 512, "a" * 513, "é" * 256, "é" * 257,
         "urn:oasis:names:tc:xacml:1.0:function:string-equal", "urn:oasis:names:tc:xacml:3.0:function:any-of"]
# what may stand, or nearly, as the value of the member of each name
AIMED = {
    "Version": ["1", "01.02", "000000001", "0000000001", "1.2.3.4.5.6.7.8", "1.2.3.4.5.6.7.8.9",
                "1.+", "*", "1.", Raw("1.0")],
    "PolicyId": ["", "a" * 512, "a" * 513, "é" * 256, "é" * 257, Raw("5")],
    "PolicySetId": ["", "a" * 512, "a" * 513, "é" * 256, "é" * 257, Raw("5")],
    "RuleCombiningAlgId": ["x", "", ALGORITHM, Raw("5")],
    "PolicyCombiningAlgId": ["x", "", ALGORITHM.replace("policy", "rule"), Raw("5")],
    "Effect": ["Permit", "permit", True], "FulfillOn": ["Deny", "deny", None], "AppliesTo": ["Deny", "NotApplicable"],
    "DataType": ["double", "string", "http://www.w3.org/2001/XMLSchema#integer", ""],
    "MustBePresent": [True, "true", Raw("1")],
    "Value": [True, "x", "", Raw("5"), Raw("-0"), Raw("1.0"), Raw("1e2"), Raw("9223372036854775807"),
              Raw("9223372036854775808"), []],
    "VariableId": ["u", "v", "w", Raw("5")], "Id": ["", "a" * 513, Raw("5")], "AnyOf": [[], {}], "AllOf": [[], {}],
    "Match": [[], {}], "Issuer": ["", None],
    "Condition": [
        {"AttributeDesignator": {"Category": "c", "AttributeId": "a", "DataType": "boolean", "MustBePresent": False}},
        True, None],
    "PolicySet": [Raw("5"), {}],
}
NO_JSON = ["", "{", "x", '{"Policy":{}}x', '{"Policy":1e400}', '{"Policy":"\\ud800"}',
           '{"Policy":{"a":"\\udc00"},"Policy":{}}', "{'a':1}", '{"a":01}', '{"a":"\t"}', "\ufeff{}", "[NaN]",
           '{"Policy":{}},', '{"Policy":{},}']
TOPS = ["{}", "[]", "5", "null", '{"Policy":{}}', '{"Policy":5}', '{"PolicySet":{}}', '{"Policy":{"X":1}}',
        '{"Policy":{},"PolicySet":{}}', '{"X":1}', '{"Policy":1,"Policy":{}}']


class Breaking:
    """Random rows of documents."""

    def __init__(self, rows):
        self.drafts = Drafts(rows)
        self.rows, self.random, self.one_of, self.seldom = rows, rows.random, rows.random.choice, rows.texts.seldom

    def places(self, draft, path=()):
        """The paths to all that the draft holds, and of each whether it is an object."""
        found = [(path, isinstance(draft, dict))]
        held = (draft.items() if isinstance(draft, dict) else enumerate(draft) if isinstance(draft, list)
                and not isinstance(draft, Pairs) else ())
        for name, inner in held:
            found += self.places(inner, (*path, name))
        return found

    def place(self, draft):
        """A path to something that the draft holds, often an object, or the value of a member at
        which slips are aimed."""
        found = self.places(draft)
        objects = [path for path, is_object in found if is_object]
        names = sorted({path[-1] for path, _ in found if path and path[-1] in AIMED})
        if names and self.seldom(0.4):
            name = self.one_of(names)
            return self.one_of([path for path, _ in found if path and path[-1] == name])
        return self.one_of(objects if objects and self.seldom(0.4) else [path for path, _ in found])

    def changed(self, draft, path, change):
        """The draft with a change at the path."""
        if not path:
            return change(draft)
        if isinstance(draft, dict):
            return {name: self.changed(held, path[1:], change) if name == path[0] else held
                    for name, held in draft.items()}
        return [self.changed(held, path[1:], change) if place == path[0] else held for place, held in enumerate(draft)]

    def in_object(self, draft):
        """An object with a member fewer, more, twice or of another name."""
        name = self.one_of([*draft, self.one_of(NAMES)])
        if self.seldom(0.35):
            return {held: inner for held, inner in draft.items() if held != name}
        if self.seldom(0.4):
            return {**draft, self.one_of(["X", *NAMES]): self.one_of(WRONG)}
        if self.seldom(0.4):
            return {self.one_of(["X", *NAMES]) if held == name else held: inner for held, inner in draft.items()}
        return Pairs([(name, self.one_of([draft.get(name), *WRONG])), *draft.items()])

    def in_array(self, draft):
        if self.seldom(0.5):
            return draft + draft[:1]
        return draft[1:] if self.seldom(0.5) else [*draft, self.one_of(WRONG)]

    def slip(self, draft):
        """Something else in the draft's place."""
        if isinstance(draft, dict) and self.seldom(0.8):
            return self.in_object(draft)
        if isinstance(draft, list) and self.seldom(0.5):
            return self.in_array(draft)
        if isinstance(draft, str) and self.seldom(0.8):
            return self.one_of(TEXTS)
        return self.one_of([*WRONG, {"Policy": self.drafts.policy()}, [{"PolicySet": self.drafts.policy_set(1)}]])

    def broken(self, draft):
        for _ in range(self.one_of([1, 1, 2])):
            place = self.place(draft)
            aimed = AIMED.get(place[-1] if place else None)
            draft = self.changed(draft, place, (lambda _, aimed=aimed: self.one_of(aimed)) if aimed
                                 and self.seldom(0.7) else self.slip)
        return draft

    def nested(self, draft):
        """The draft, or what is none, in as many more sets as make seven, eight, nine or ten."""
        draft = self.one_of([draft, draft, draft, {"PolicySet": Raw("5")}, {"PolicySet": {"X": True}}])
        for _ in range(self.one_of([6, 7, 8, 9])):
            draft = {"PolicySet": {**self.drafts.key("PolicySetId"), "PolicyCombiningAlgId": ALGORITHM,
                                   "Children": [draft]}}
        return self.broken(draft) if self.seldom(0.3) else draft

    def deep(self):
        """JSON so deep that it is JSON still, or no more."""
        depth = self.one_of([120, 126, 127, 128])
        return '{"Policy":' + "[" * (depth - 1) + "]" * (depth - 1) + "}"

    def slipped(self, text):
        """The text with a letter more or fewer."""
        place = self.random.randrange(len(text) + 1)
        return (text[:place] + self.one_of(["", ",", '"', "}", "]", " ", "\\", "x", "\u00a0"])
                + text[place + self.random.randrange(2):])

    def filled(self, text):
        """The text with so much white space behind it that it has as many bytes as may be, or one more."""
        return text + " " * (self.one_of([65_536, 65_537]) - len(text.encode()))

    def sound(self):
        self.drafts.faulty = self.one_of([0, 0, 0.03])
        self.rows.trees.begin()
        return self.drafts.document()

    def text(self):
        place, draft = self.random.randrange(100), self.sound()
        if place < 2:
            return self.one_of(NO_JSON + TOPS)
        if place == 2:
            return self.deep()
        if place == 3:
            return self.filled(self.drafts.text(draft))
        if place < 7:
            return self.slipped(self.drafts.text(draft))
        if place < 11:
            return self.drafts.text(self.nested({"Policy": self.drafts.policy()}))
        return self.drafts.text(draft if place < 45 else self.broken(draft))

    def next(self):
        return ["document", encoded(self.text())]
