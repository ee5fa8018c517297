"""Random active documents and what they rest on: rows of linking, and of decisions on requests."""
import json

from bodies import Bodies
from combinations import Combinations, Findings
from documents import DocumentFault, document_of
from drafts import PATTERNS, SHORT, VERSIONS, Drafts, written
from rows import encoded
from versions import numbers
from worlds import CATEGORIES, World

BEGINNING = "urn:oasis:names:tc:xacml:3.0:"
FIRST = "urn:oasis:names:tc:xacml:1.0:policy-combining-algorithm:first-applicable"


def policy(name, version="1.0"):
    return {"Policy": {"PolicyId": name, "Version": version,
                       "RuleCombiningAlgId": BEGINNING + "rule-combining-algorithm:deny-overrides",
                       "Rule": [{"RuleId": "r", "Effect": "Permit"}]}}


def policy_set(name, children, version="1.0"):
    return {"PolicySet": {"PolicySetId": name, "Version": version, "PolicyCombiningAlgId": FIRST, "Children": children}}


def key_of(draft):
    """The kind and the id of a document."""
    (form, held), = draft.items()
    return ("policy", held["PolicyId"]) if form == "Policy" else ("set", held["PolicySetId"])


def distinct(drafts):
    """The documents, the last alone of those of one kind, id and version, however that is written."""
    return list({(*key_of(draft), *numbers(held["Version"])): draft
                 for draft in drafts for held in draft.values()}.values())


def to_set(name, **bounds):
    return {"PolicySetIdReference": {"Id": name, **bounds}}


class Links:
    """Rows of linking."""

    def __init__(self, rows):
        self.rows, self.random, self.one_of, self.seldom = rows, rows.random, rows.random.choice, rows.texts.seldom
        self.drafts = Drafts(rows)

    def reference(self):
        return {self.one_of(["PolicyIdReference", "PolicySetIdReference",
                             "PolicySetIdReference"]): self.drafts.reference()}

    def children(self, depth):
        found = []
        for _ in range(self.one_of([0, 1, 2, 2, 3, 4])):
            deeper = [lambda: policy_set("urn:p", self.children(depth - 1))] * (depth > 0)
            found.append(self.one_of([self.reference] * 6 + [lambda: policy("urn:p")] + deeper)())
        return found

    def graph(self):
        """Documents of few ids and many versions, that refer to one another."""
        self.drafts.ids = ["urn:p", "urn:q", "urn:r"][:self.one_of([1, 2, 3])]
        found = []
        for _ in range(self.random.randint(0, 9)):
            name, version = self.one_of(self.drafts.ids), self.one_of(VERSIONS)
            found.append(policy(name, version) if self.seldom(0.3) else policy_set(name, self.children(2), version))
        return found, self.root([place for draft in found
                                 for place in [key_of(draft)] if self.seldom(0.4) or place[0] == "set"])

    def root(self, keys):
        kind, name = self.one_of(keys) if keys and self.seldom(0.95) else ("set", self.one_of(self.drafts.ids))
        bounds = [''] * 60 + VERSIONS
        return f"{kind}|{name}|{self.one_of([''] * 15 + PATTERNS)}|{self.one_of(bounds)}|{self.one_of(bounds)}"

    def chain(self):
        """About as many sets one after another as may be on a path, and at the end a policy, a circle, or nothing."""
        count = self.one_of([3, 15, 16, 17, 18])
        found = [policy_set(f"urn:{place}", [to_set(f"urn:{place + 1}")]) for place in range(count - 1)]
        last = self.one_of([[{"PolicyIdReference": {"Id": "urn:end"}}], [to_set("urn:0")], [to_set(f"urn:{count - 1}")],
                            [policy("urn:x")], []])
        if self.seldom(0.3):
            last.append(policy_set("urn:y", [to_set(f"urn:{self.random.randrange(count)}")]))
        found += [policy_set(f"urn:{count - 1}", last), policy("urn:end")]
        self.random.shuffle(found)
        return found, "set|urn:0|||"

    def doubling(self):
        """Sets that each refer to the next so often that the tree grows beyond all bounds, or nearly."""
        count, often = self.one_of([2, 3, 8, 9, 10, 16]), self.one_of([2, 2, 3])
        found = [policy_set(f"urn:{place}", [to_set(f"urn:{place + 1}")] * often) for place in range(count)]
        return found + [policy(f"urn:{count}") if self.seldom(0.5) else policy_set(f"urn:{count}", [])], "set|urn:0|||"

    def wide(self):
        """A tree of about as many policies and sets as may be."""
        inner = self.one_of([9, 24, 60])
        often = 999 // (inner + 1)
        own = 999 - often * (inner + 1) + self.one_of([-1, 0, 1])
        children = [to_set("urn:t")] * often + [policy("urn:p")] * own + [to_set("urn:none")] * self.one_of([0, 1, 5])
        self.random.shuffle(children)
        return [policy_set("urn:s", children), policy_set("urn:t", [policy("urn:p")] * inner)], "set|urn:s|||"

    def version(self):
        """One of some hundred versions, many of which begin alike, and some of which are written in two ways."""
        numbers = [self.one_of([1, 1, 2, 10]),
                   *(self.one_of([0, 1, 2, 9, 10, 100]) for _ in range(self.one_of([0, 1, 1, 2, 6])))]
        return ".".join(self.one_of(["", "", "", "0"]) + str(number) for number in numbers)

    def pattern(self):
        return (".".join(self.one_of([part] * 3 + ["*"]) for part in self.version().split("."))
                + self.one_of(["", "", ".+"]))

    def many(self):
        """More references than are looked up one after another, to documents of few ids and many versions."""
        ids = ["urn:p", "urn:q", "urn:pp"]
        keys = {("set" if self.seldom(0.2) else "policy", self.one_of(ids), self.version())
                for _ in range(self.one_of([2, 9, 30, 60]))}

        def reference(kind):
            bounds = {name: make()
                      for name, make, chance in (("Version", self.pattern, 0.7), ("EarliestVersion", self.version, 0.2),
                                                 ("LatestVersion", self.version, 0.3)) if self.seldom(chance)}
            word = "PolicySetIdReference" if kind == "set" else "PolicyIdReference"
            return {word: {"Id": self.one_of(ids), **bounds}}

        algorithms = ["deny-overrides", "permit-overrides", "deny-unless-permit", "permit-unless-deny"]
        found = []
        for kind, name, version in sorted(keys):
            draft = policy_set(name, [reference(self.one_of(["set", "policy"])) for _ in range(self.one_of([0, 1, 3]))],
                               version) if kind == "set" else policy(name, version)
            if kind == "policy":
                draft["Policy"]["RuleCombiningAlgId"] = (BEGINNING + "rule-combining-algorithm:"
                                                         + self.one_of(algorithms))
            found.append(draft)
        self.random.shuffle(found)
        children = [reference(self.one_of(["policy"] * 4 + ["set"])) for _ in range(self.one_of([23, 24, 25, 40, 90]))]
        return [policy_set("urn:root", children), *found], "set|urn:root|||"

    def next(self):
        found, root = self.one_of([self.graph] * 60 + [self.chain] * 30 + [self.doubling] * 5 + [self.wide]
                                  + [self.many] * 10)()
        return ["link", root, *(encoded(self.drafts.text(draft)) for draft in found)]


class Decisions:
    """Rows of decisions, by documents that name attributes which the request, the source or the clock have, or by
    such that combine much."""

    def __init__(self, rows):
        self.rows, self.random, self.one_of, self.seldom = rows, rows.random, rows.random.choice, rows.texts.seldom
        self.drafts, self.bodies, self.world = Drafts(rows), Bodies(rows), None

    def begin(self):
        """Another world, and drafts of another kind."""
        self.world = World(self.rows)
        self.drafts = self.one_of([Drafts, Combinations, Findings])(self.rows)

    def active(self):
        """Active documents, of which the first is most likely the root's."""
        self.rows.trees.attributes = self.world.known
        self.drafts.ids = ["urn:p", "urn:q", "urn:r"][:self.one_of([1, 2, 3])]
        return [self.sound() for _ in range(1 if isinstance(self.drafts, Findings) else self.one_of([1, 1, 1, 2, 3]))]

    def sound(self):
        """A document that reads."""
        while True:
            draft = self.drafts.document()
            try:
                document_of(written(draft).encode())
                return draft
            except DocumentFault:
                continue

    def root(self, active):
        if self.seldom(0.04):
            return []
        kind, name = key_of(active[0]) if self.seldom(0.97) else ("policy", "urn:none")
        return [f"root:{kind}|{name}|{self.one_of([''] * 60 + PATTERNS)}||"]

    def objects(self, ids):
        """The Category objects, of which each has some of the attributes of its category: members of the request."""
        found = {}
        for category in self.random.sample([*CATEGORIES, "d"], len(CATEGORIES) + 1):
            is_there = any(place[1] == category for place, _ in self.world.given)
            for _ in range(self.one_of([1] * 12 + [0, 2, 3]) if is_there else self.seldom(0.05)):
                held = {"Attribute": self.world.attributes(category)}
                if self.seldom(0.4):
                    ids.append(f"id{len(ids)}")
                    held["Id"] = ids[-1]
                in_array = category not in SHORT or self.seldom(0.4)
                objects = found.setdefault("Category" if in_array else SHORT[category], [])
                objects.append({"CategoryId": category, **held} if in_array else held)
        if "Category" in found:
            self.random.shuffle(found["Category"])
        return found

    def request(self):
        ids = []
        found = self.objects(ids)
        if ids and self.seldom(0.2):
            named = [[self.one_of(ids + ["none"] * self.seldom(0.1)) for _ in range(self.one_of([0, 1, 2, 3]))]
                     for _ in range(self.one_of([1, 2, 3]))]
            found["MultiRequests"] = {"RequestReference": [{"ReferenceId": held} for held in named]}
        if self.seldom(0.02):
            found["CombinedDecision"] = self.seldom(0.5)
        if self.seldom(0.5):
            found["ReturnPolicyIdList"] = self.seldom(0.9)
        return json.dumps({"Request": found}, ensure_ascii=self.seldom(0.5))

    def body(self):
        return self.bodies.body() if self.seldom(0.08) else self.request()

    def moment(self, chance):
        """A field of a moment, or none."""
        seconds = self.one_of([0, 82800, 111600, -62_135_596_800, 253_402_300_799, self.random.randint(-10**9, 10**10)])
        return [f"moment:{seconds}"] * self.seldom(chance)

    def next(self):
        self.begin()
        active = self.active()
        documents = [f"active:{encoded(self.drafts.text(draft))}" for draft in active]
        return ["decide", *documents, *self.root(active), *self.world.source(), *self.moment(0.7), encoded(self.body())]
