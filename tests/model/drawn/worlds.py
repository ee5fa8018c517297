"""Random attributes of a request, of a source and of nobody, near to one another, so that designators find some
and miss others narrowly.

A place is a data type, a category, an id and an issuer or None; an attribute is a place and the texts of its values.
"""
from contexts import CLOCK, ENVIRONMENT, IDS
from identifiers import NAMESPACE, SHORTHANDS
from rows import encoded, text_of
from values import TYPES

CATEGORIES = ([SHORTHANDS[name] for name in ("AccessSubject", "Resource", "Action", "Environment", "Codebase")]
              + ["urn:c"])
# the categories whose entity an attribute names, with its id
NAMED = {SHORTHANDS["AccessSubject"]: IDS + "subject:subject-id", SHORTHANDS["Codebase"]: IDS + "subject:subject-id",
         SHORTHANDS["Resource"]: IDS + "resource:resource-id", SHORTHANDS["Action"]: IDS + "action:action-id"}
ENTITIES = ["alice", "bob", ""]
# the attribute on which the matches of other random rows rest
TRUE = ("boolean", "d", "e", None), ["true"]


class World:
    """The attributes of a row: those of its request and of its source, and places of all that its
    documents may name."""

    def __init__(self, rows):
        self.rows, self.random, self.one_of, self.seldom = rows, rows.random, rows.random.choice, rows.texts.seldom
        self.given, self.of_source, self.known = [TRUE], [], []
        self.entities = {category: self.one_of(ENTITIES) for category in CATEGORIES}
        for _ in range(self.one_of([1, 1, 2, 3])):
            self.add_near(self.place())
        for category, name in NAMED.items():
            if self.seldom(0.5):
                self.add_entity(category, name)
        for place in self.clocks():
            self.put(place)

    def place(self):
        category = self.one_of(CATEGORIES)
        data_type = self.one_of([*TYPES, "string", "string", "integer", "boolean"])
        return (data_type, category, self.one_of(["urn:a", "urn:b", NAMED.get(category, "urn:a")]),
                self.one_of([None, None, "i"]))

    def varied(self, place):
        """The place with one part changed."""
        data_type, category, name, issuer = place
        return self.one_of([(self.one_of(TYPES), category, name, issuer),
                            (data_type, self.one_of(CATEGORIES), name, issuer),
                            (data_type, category, self.one_of(["urn:a", "urn:b", "urn:A"]), issuer),
                            (data_type, category, name, self.one_of([None, "i", "j", ""]))])

    def issuer_near(self, issuer):
        """The issuer of a row, mostly that one or none."""
        return self.one_of([issuer, issuer, None, self.one_of(["i", "j", ""])])

    def texts(self, data_type):
        return [encoded(self.rows.sound(data_type)) for _ in range(self.one_of([1, 1, 1, 2, 3]))]

    def put(self, place):
        """An attribute of the place: in the request, in the source, in both or in neither."""
        whose = self.random.random()
        self.known.append((place, self.texts(place[0])))
        if whose < 0.6:
            self.given.append((place, self.texts(place[0])))
        if 0.5 < whose < 0.9:
            self.of_source.append(((*place[:3], self.issuer_near(place[3])), self.texts(place[0])))

    def add_near(self, place):
        self.put(place)
        for _ in range(self.one_of([0, 1, 2, 3])):
            self.put(self.varied(place))

    def add_entity(self, category, name):
        """What names the entity of the category, or nearly does."""
        named = [self.entities[category]]
        for _ in range(self.one_of([1] * 9 + [2])):
            place = self.one_of(["string"] * 9 + ["anyURI"]), category, name, self.one_of([None, None, None, "i"])
            self.given.append((place, self.one_of([named] * 8 + [named * 2, [*named, "x"], []])))

    def clocks(self):
        """Places of what the clock gives, and of what it nearly does."""
        found = [(data_type, ENVIRONMENT, name, self.one_of([None] * 4 + ["i"]))
                 for name, data_type in sorted(CLOCK) if self.seldom(0.3)]
        return found + [self.one_of([self.varied(place), (self.one_of(["date", "time", "dateTime"]), *place[1:])])
                        for place in found if self.seldom(0.3)]

    def source(self):
        """The fields of the source's rows, most of them of the entities that the request names."""
        fields = []
        for (data_type, category, name, issuer), texts in self.of_source:
            by = "" if issuer is None else f"|{issuer}"
            for text in texts:
                usual = self.entities[category] if category in NAMED else ""
                entity = usual if self.seldom(0.7) else self.one_of(ENTITIES)
                fields.append(f"row:{category}|{entity}|{name}|{data_type}{by}={text}")
        return fields

    def attribute(self, place, texts):
        """The attribute as a request gives it."""
        data_type, _, name, issuer = place
        values = [text_of(text) for text in texts]
        found = {"AttributeId": name, "Value": values[0] if len(values) == 1 and self.seldom(0.7) else values}
        if data_type != "string" or self.seldom(0.3):
            found["DataType"] = self.one_of(["", NAMESPACE]) + data_type
        if issuer is not None:
            found["Issuer"] = issuer
        if self.seldom(0.25):
            found["IncludeInResult"] = self.seldom(0.8)
        return found

    def attributes(self, category):
        """The attributes that the request gives in the category, now and then without one."""
        return [self.attribute(place, texts)
                for place, texts in self.given if place[1] == category and self.seldom(0.9)]
