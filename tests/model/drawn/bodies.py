"""Random bodies of requests, sound and broken in a place or two."""
import json

from identifiers import NAMESPACE, SHORTHANDS
from rows import encoded
from values import TYPES

WRONG = [None, 5, True, "x", [], {}, [None], 7.5, [[]], "", [5, "5"], {"a": 1}]
NO_JSON = ["", "nul", '{"Request":{}', '{"Request":{}}x', '{"Request":{"Content":1e400}}',
           '{"Request":{"Content":"\\ud800"}}', "'x'", "{'Request':{}}"]
NO_REQUEST = ["[]", "5", "{}", '{"Request":5}', '{"Request":[]}', '{"Request":null}',
              '{"Request":{"Category":null}}', '{"X":{}}']
IDS = ["a", "b", "c", "d", "e", "f", "g", "h", "é", ""]


class Bodies:
    """Random rows of bodies; `rows` are the random values that they may hold."""

    def __init__(self, rows):
        self.rows, self.random = rows, rows.random
        self.wrong_ones = 0.0

    def seldom(self, chance):
        return self.random.random() < chance

    def or_wrong(self, good):
        return self.random.choice(WRONG) if self.seldom(self.wrong_ones) else good

    def held(self):
        """A value in JSON, or an array of some, and the type that it is given with, where there is one."""
        choose = self.random.choice
        if self.seldom(0.4):
            data_type = choose(list(TYPES))
            texts = [self.rows.sound(data_type) for _ in range(choose([1, 1, 2, 3]))]
            return (texts[0] if len(texts) == 1 and self.seldom(0.7) else texts,
                    choose([data_type, NAMESPACE + data_type]))
        one = choose([lambda: choose(["x", "7", "true", " 12 "]), lambda: self.seldom(0.5),
                      lambda: choose([0, -1, 7, 2**63 - 1, -2**63])])
        several = [one() for _ in range(choose([0, 1, 2, 3]))]
        return (one() if self.seldom(0.6) else several), None

    def odd(self):
        return self.random.choice([[1, "1"], [True, 1], [None], [[1]], [{}], 7.5, None, {}, -0.0, [1, 2.0], 2**63,
                                   2**64 - 1, 2**64, -2**63 - 1])

    def attribute(self):
        held, data_type = self.held()
        found = {"AttributeId": self.or_wrong(self.random.choice(["urn:x", "urn:y"]))}
        if self.seldom(0.9):
            found["Value"] = self.odd() if self.seldom(self.wrong_ones * 2) else held
        if data_type is not None:
            found["DataType"] = self.or_wrong(self.random.choice(list(TYPES) + ["double"])
                                              if self.seldom(self.wrong_ones * 2) else data_type)
        if self.seldom(0.2):
            found["Issuer"] = self.or_wrong(self.random.choice(["me", ""]))
        if self.seldom(0.3):
            found["IncludeInResult"] = self.or_wrong(self.seldom(0.5))
        if self.seldom(0.1):
            found["Unknown"] = self.random.choice(WRONG)
        if self.seldom(self.wrong_ones / 2):
            del found["AttributeId"]
        return found

    def array(self, items):
        return items[0] if len(items) == 1 and self.seldom(0.5) else self.or_wrong(items)

    def category_object(self, is_named, used):
        found = {}
        if is_named or self.seldom(0.05):
            found["CategoryId"] = self.or_wrong(
                self.random.choice(["Action", "Resource", "urn:c", "urn:d", SHORTHANDS["Action"], "Environment"]))
        if self.seldom(0.5):
            name = self.random.choice(IDS)
            if name not in used or self.seldom(self.wrong_ones):
                found["Id"] = self.or_wrong(name)
                used.append(name)
        if self.seldom(0.4):
            found["Attribute"] = self.array([self.attribute() for _ in range(self.random.choice([0, 1, 1, 2]))])
        return found

    def objects(self, is_named, used):
        return self.array([self.category_object(is_named, used)
                           for _ in range(self.random.choice([0, 1, 1, 1, 2, 2, 3]))])

    def references(self, used):
        found = []
        for _ in range(self.random.choice([0, 1, 2, 3] * 5 + [64, 65])):
            ids = [self.random.choice(used) if used and self.seldom(0.9) else self.random.choice(IDS)
                   for _ in range(self.random.choice([0, 1, 1, 2, 2, 3]))]
            found.append({} if self.seldom(self.wrong_ones / 2) else {"ReferenceId": self.array(ids)})
        return self.or_wrong({} if self.seldom(self.wrong_ones / 2) else {"RequestReference": self.array(found)})

    def request(self):
        used, found = [], {}
        for name in SHORTHANDS:
            if self.seldom(0.3):
                found[name] = self.objects(False, used)
        if self.seldom(0.5):
            found["Category"] = self.objects(True, used)
        if self.seldom(0.35):
            found["MultiRequests"] = self.references(used)
        for name, chance in (("CombinedDecision", 0.1), ("ReturnPolicyIdList", 0.3)):
            if self.seldom(chance):
                found[name] = self.or_wrong(self.seldom(0.5))
        return found

    def body(self):
        self.wrong_ones = self.random.choice([0, 0, 0.01, 0.03])
        place = self.random.randrange(60)
        if place == 0:
            return self.random.choice(NO_JSON + NO_REQUEST)
        if place == 1:
            found = {name: [{} for _ in range(self.random.choice([1, 5, 7, 8, 9, 13, 64, 65]))]
                     for name in ("Action", "Resource")}
        elif place == 2:
            found = {"Category": [{"CategoryId": f"urn:{number // 2}"}
                                  for number in range(self.random.choice([10, 12, 13, 80]))]}
        elif place == 3:
            depth = self.random.choice([125, 126])
            return '{"Request":{"Content":' + "[" * depth + "]" * depth + "}}"
        else:
            found = self.request()
        text = json.dumps({"Request": found}, ensure_ascii=self.seldom(0.5),
                          separators=self.random.choice([None, (",", ":")]))
        return text.replace("-0.0", "-0")

    def next(self):
        return [self.random.choice(["request", "request", "individuals"]), encoded(self.body())]
