"""Random expressions and targets: well-typed ones up to 26 deep, and such with faults at any place.

A tree is a field, or a function's name with the trees of its arguments.
"""
from functions import BAG_FUNCTIONS, BAG_SIGNATURES, DURATIONS, FUNCTIONS, HIGHER_ORDER, V1, V2, V3, fits
from rows import encoded
from values import TYPES

UNKNOWN = ["urn:x", V1 + "any-of", V1 + "map", V3 + "string-bag", V1 + "String-equal", V1 + "not ", V2 + "string-equal",
           V3 + "or", "or", V1 + "dayTimeDuration-equal", V3 + "any-of-all", V1 + "string-equal-ignore-case", "", "é"]
BY_RESULT = {}
for uri, (_, gives, _) in FUNCTIONS.items():
    BY_RESULT.setdefault(gives, []).append(uri)
IN_MATCHES = {(a, b): [uri for uri, (takes, gives, _) in FUNCTIONS.items()
                       if gives == "boolean" and fits(takes, [a, b])]
              for a in TYPES for b in TYPES}
# Booleans that have none of the values, each for another reason.
AT_FAULT = [(V3 + "boolean-from-string", ["string:x"]), (V1 + "boolean-one-and-only", ["some:boolean|c|none"]),
            (V1 + "integer-equal", [(V1 + "integer-divide", ["integer:1", "integer:0"]), "integer:1"])]
# Matches at fault, where the boolean attribute e of d is there.
MATCHES_AT_FAULT = [(V1 + "string-equal", ["string:x", "some:string|c|none"]),
                    (V1 + "n-of", ["integer:2", "some:boolean|d|e"])]
PAIRS = [pair for pair, found in IN_MATCHES.items() if found]


def fields_of(tree, begin="(", end=")"):
    """The fields of a tree."""
    if isinstance(tree, str):
        return [tree]
    return [begin + tree[0]] + [field for child in tree[1] for field in fields_of(child)] + [end]


def bag_uri(one_of, verb, data_type):
    return (one_of([V1, V3]) if data_type in DURATIONS else V1) + data_type + "-" + verb


class Trees:
    """Rows of expressions and targets, whose texts come from random rows."""

    def __init__(self, rows):
        self.rows, self.random, self.one_of, self.seldom = rows, rows.random, rows.random.choice, rows.texts.seldom
        self.attributes, self.variables = [], []

    def begin(self):
        """Another row: the fields of its attributes."""
        self.attributes, self.variables, fields = [], [], []
        for _ in range(self.one_of([0, 1, 2, 4])):
            place = (self.one_of(TYPES), self.one_of(["c", "d"]), self.one_of(["a", "b"]),
                     self.one_of([None, None, "i", "j"]))
            texts = [encoded(self.rows.sound(place[0])) for _ in range(self.one_of([1, 1, 2, 3]))]
            self.attributes.append((place, texts))
            fields += [f"has:{self.written(*place)}={text}" for text in texts]
        return fields

    def written(self, data_type, category, attribute_id, issuer):
        return "|".join([data_type, category, attribute_id] + ([issuer] if issuer else []))

    def designator(self, data_type):
        """A designator of the type, which finds values where there are some, or none."""
        word = self.one_of(["any:", "any:", "some:"])
        known = [place for place, _ in self.attributes if place[0] == data_type]
        if not known or self.seldom(0.1):
            word = "any:" if self.seldom(0.8) else word
            return word + self.written(data_type, self.one_of(["c", "d"]), self.one_of(["a", "b"]),
                                       self.one_of([None, "i", "k"]))
        place = self.one_of(known)
        return word + self.written(*place[:3], self.one_of([None, place[3]]))

    def leaf(self, kind, name=""):
        """An expression of the kind, for an argument of the named function, in which is no other or a small one."""
        known = [f"variable:{variable}" for variable, held in self.variables if held == kind]
        if known and self.seldom(0.5):
            return self.one_of(known)
        if not kind.startswith("bag "):
            return self.rows.value(kind, name)
        data_type = kind.removeprefix("bag ")
        if self.seldom(0.6):
            return self.designator(data_type)
        count = 1 if name.endswith("one-and-only") else self.one_of([0, 1, 2, 3])
        return bag_uri(self.one_of, "bag", data_type), [self.rows.value(data_type) for _ in range(count)]

    def tree(self, kind, depth, name=""):
        """An expression of the kind that is about so deep."""
        if depth <= 1:
            return self.leaf(kind, name)
        if kind.startswith("bag "):
            return self.bag_tree(kind.removeprefix("bag "), depth)
        makes = [self.function_tree] * 4 if kind in BY_RESULT else []
        makes += [self.one_and_only] * 2 + [self.higher_tree, self.asked_of_bags, self.logic] * (kind == "boolean")
        if kind == "integer":
            makes.append(lambda _, depth: self.bag_apply("bag-size", self.rows.texts.data_type(), depth))
        return self.one_of(makes)(kind, depth)

    def children(self, kinds, depth, name):
        """Expressions of the kinds, of which one is deep."""
        deep = self.random.randrange(len(kinds)) if kinds else 0
        return [self.tree(kind, depth - 1 if place == deep else self.one_of([0, 0, 0, 0, 1, 2]), name)
                for place, kind in enumerate(kinds)]

    def function_tree(self, kind, depth):
        uri = self.one_of(BY_RESULT[kind])
        return uri, self.children(self.rows.takes(uri), depth, uri)

    def one_and_only(self, kind, depth):
        if self.seldom(0.7):
            bag = bag_uri(self.one_of, "bag", kind), [self.tree(kind, depth - 2)]
        else:
            bag = self.tree("bag " + kind, depth - 1, "one-and-only")
        return bag_uri(self.one_of, "one-and-only", kind), [bag]

    def bag_apply(self, verb, data_type, depth):
        kinds = []
        for kind in BAG_SIGNATURES[verb][0]:
            kinds += ([kind.replace("T", data_type).rstrip("*")]
                      * (self.one_of([0, 1, 2, 3]) if kind.endswith("*") else 1))
        return bag_uri(self.one_of, verb, data_type), self.children(kinds, depth, verb)

    def asked_of_bags(self, _, depth):
        return self.bag_apply(self.one_of(["is-in", "at-least-one-member-of", "subset", "set-equals"]),
                              self.rows.texts.data_type(), depth)

    def bag_tree(self, data_type, depth):
        if data_type in BY_RESULT and self.seldom(0.3):
            inner = self.one_of(BY_RESULT[data_type])
            types = self.rows.takes(inner)
            if types:
                return self.higher_of(V3 + "map", inner, types, depth)
        return self.bag_apply(self.one_of(["bag", "bag", "intersection", "union"]), data_type, depth)

    def logic(self, _, depth):
        """Or, and, n-of over places that may be at fault."""
        name, count = self.one_of(["or", "and", "n-of", "n-of"]), self.one_of([1, 2, 3, 4])
        children = [self.one_of(["boolean:true", "boolean:false", self.one_of(AT_FAULT)]) for _ in range(count)]
        children[self.random.randrange(count)] = self.tree("boolean", depth - 1)
        first = [self.tree("integer", depth - 1)
                 if self.seldom(0.1) else f"integer:{self.random.randint(-1, count + 1)}"]
        return V1 + name, first * (name == "n-of") + children

    def higher_tree(self, _, depth):
        uri = self.one_of([uri for uri, verb in HIGHER_ORDER.items() if verb != "map"])
        return self.higher_of(uri, *self.rows.inner(HIGHER_ORDER[uri]), depth)

    def higher_of(self, uri, inner, types, depth):
        verb, the_bag = HIGHER_ORDER[uri], self.random.randrange(len(types))
        kinds = []
        for place, data_type in enumerate(types):
            is_bag = (place == the_bag if verb in ("any-of", "all-of", "map") else verb != "any-of-any"
                      or self.seldom(0.6))
            kinds.append(("bag " if is_bag else "") + data_type)
        return uri, [f"function:{inner}", *self.children(kinds, depth, inner)]

    def loose_higher(self):
        """A higher-order function of any function of values, and of values and bags where that one takes values."""
        uri, inner = (self.one_of(list(HIGHER_ORDER)),
                      self.one_of([*FUNCTIONS, *[V1 + name for name in ("or", "and", "n-of", "not")] * 5]))
        kinds = [self.one_of(["", "bag "]) + data_type for data_type in self.rows.takes(inner)]
        if self.seldom(0.2):
            place = self.random.randrange(len(kinds) + 1)
            kinds[place:place] = [self.kind()]
        first = self.tree(self.kind(), 1) if self.seldom(0.1) else f"function:{inner}"
        return uri, [first, *self.children(kinds, self.one_of([1, 2, 3]), inner)]

    def kind(self):
        return self.one_of(["", "", "bag "]) + self.one_of([*TYPES, *["boolean"] * 6])

    def places(self, tree, path=()):
        """The paths to all expressions in a tree."""
        found = [path]
        if not isinstance(tree, str):
            for place, child in enumerate(tree[1]):
                found += self.places(child, (*path, place))
        return found

    def changed(self, tree, path, change):
        """The tree with a change at the path."""
        if not path:
            return change(tree)
        name, children = tree
        return name, [self.changed(child, path[1:], change) if place == path[0] else child
                      for place, child in enumerate(children)]

    def name(self):
        data_type = self.rows.texts.data_type()
        return self.one_of([self.one_of(list(FUNCTIONS)), self.one_of(list(HIGHER_ORDER)),
                            encoded(self.one_of(UNKNOWN)),
                            bag_uri(self.one_of, self.one_of(list(BAG_FUNCTIONS)), data_type)])

    def slip(self, tree):
        """Something else in the place of an expression."""
        if self.seldom(0.15):
            return self.loose_higher()
        if self.seldom(0.15):
            return self.tree(self.kind(), self.one_of([1, 2, 3]))
        if self.seldom(0.15):
            return "function:" + self.name()
        if self.seldom(0.1):
            return "variable:" + self.one_of(["u", "v", "w", "x", "y", "", "\\xc3\\xa9"])
        if self.seldom(0.2):
            tree = self.one_of([tree, (self.name(), []), (V3 + "any-of", ["integer:1"]), "function:" + self.name(),
                                self.loose_higher()])
            for _ in range(self.one_of([1, 2, 5, 21, 22, 23, 24])):
                tree = self.one_of([V1 + "and", V1 + "or", V1 + "not"]), [tree]
            return tree
        if isinstance(tree, str):
            return self.leaf(self.kind())
        name, children = tree
        place = self.random.randrange(len(children) + 1)
        return self.one_of([
            (self.name(), children), (name, children[:place] + children[place + 1:]),
            (name, children[:place] + children[place - 1:]),
            (name, self.random.sample(children, len(children))), (name, []),
        ])

    def expression(self, kind, faults):
        tree = (self.loose_higher() if faults and self.seldom(0.15) else
                self.tree(kind, self.one_of([1, 2, 2, 2, 3, 3, 3, 4, 4, 5, 6, 8,
                                             self.one_of([12, 22, 23, 24, 25, 26])])))
        for _ in range(faults - self.seldom(0.2) if faults else 0):
            tree = self.changed(tree, self.one_of(self.places(tree)), self.slip)
        return tree

    def evaluate(self):
        """A row of definitions and questions."""
        fields = self.begin()
        for name in self.random.sample(["u", "v", "w", "x"], self.one_of([0, 0, 1, 2, 3])) + ["u"] * self.seldom(0.05):
            kind, faults = self.kind(), self.one_of([0, 0, 0, 0, 1])
            fields += ["let:" + name, *fields_of(self.expression(kind, faults))]
            self.variables.append((name, kind))
        return ["evaluate", *fields, *fields_of(self.expression(self.kind(), self.one_of([0, 0, 0, 1, 1, 2, 4])))]

    def match(self, at_fault):
        """A match, the tree of a function over a literal and a designator; with that chance one of those at fault."""
        if self.seldom(at_fault):
            return self.one_of(MATCHES_AT_FAULT)
        of_attributes = [(a, b) for a, b in PAIRS if any(place[0] == b for place, _ in self.attributes)]
        literal, data_type = self.one_of(of_attributes or PAIRS)
        name = self.one_of(IN_MATCHES[literal, data_type])
        texts = [text for place, texts in self.attributes for text in texts if place[0] == literal]
        value = f"{literal}:{self.one_of(texts)}" if texts and self.seldom(0.6) else self.rows.value(literal, name)
        if self.seldom(0.05):
            name = self.name()
        return name, [value, self.designator(data_type)]

    def target(self):
        """A row of a target."""
        fields = self.begin() + ["has:boolean|d|e=true"]
        for _ in range(self.one_of([0, 1, 1, 2, 3])):
            for _ in range(self.one_of([1, 1, 2, 3])):
                fields += [field for _ in range(self.one_of([1, 1, 2, 3]))
                           for field in fields_of(self.match(0.2), "<", ">")] + ["|"]
            fields.append(";")
        return ["target", *fields]
