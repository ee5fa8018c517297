"""Random rows of the bodies of routes: tokens, roots and rows of a source of attributes, sound ones and such as are
broken in a place or two."""

from breaking import ALGORITHM
from drafts import Pairs, Raw, written
from identifiers import NAMESPACE, SHORTHANDS
from rows import encoded

WRONG = [None, True, False, "", "x", [], {}, [None], [{}], {"a": 1}, Raw("5"), Raw("-0"), Raw("7.5"),
         Raw("9223372036854775808"), Raw("1e2")]
NO_JSON = ["", "{", "{}x", '{"Token":1e400}', '{"Role":"\\ud800"}', "{'Token':1}", '{"Row":[],}', "\ufeff{}", "[NaN]"]
NAMES = ["Role", "Token", "Row", "Category", "Entity", "AttributeId", "DataType", "Value",
         "Issuer", "PolicyIdReference", "PolicySetIdReference", "Id", "Version", "EarliestVersion", "LatestVersion",
         "X", "role", ""]
# what may stand, or nearly, as the value of the member of each name
AIMED = {
    "Role": ["ask", "admin", "Ask", "ADMIN", "", "ask ", "root"],
    "Token": ["a" * 7, "a" * 8, "a" * 64, "a" * 65, "!~!~!~!~", "acme token", "acme-token\x7f", "acme-token\u0000",
              "é" * 8, "\u00a0" * 8, "12345678"],
    "Version": ["1", "01.02", "000000001", "0000000001", "1.2.3.4.5.6.7.8", "1.2.3.4.5.6.7.8.9", "1.+", "+", "*", "*.+",
                "+.1", "1.", ""],
    "EarliestVersion": ["1", "01.02", "000000001", "0000000001", "1.+", "*", "1.", ""],
    "LatestVersion": ["1", "2.0", "999999999", "1000000000", "+", "1..2"],
    "Id": ["", "urn:p", "é|\n", "a" * 513], "Category": ["Action", "action", "", *SHORTHANDS.values()],
    "Entity": ["", "alice", "\u0001\"\\/\u007f"],
    "Issuer": ["", "hr", "\u0001\"\\/\u007f"],
    "DataType": ["double", "", "String", NAMESPACE, NAMESPACE + "string", "integer", "time"],
    "Value": [True, "x", "", "7", Raw("7"), Raw("-9223372036854775809"), Raw("18446744073709551615"), "12:00:00",
              "true", []],
}


class SmallBodies:
    """Random rows of bodies; `rows` are the random values that they may hold."""

    def __init__(self, rows):
        self.rows, self.random, self.one_of, self.seldom = rows, rows.random, rows.random.choice, rows.texts.seldom

    def new_token(self):
        return {"Role": self.one_of(["ask", "admin"]), **self.old_token()}

    def old_token(self):
        return {"Token": "".join(chr(self.random.randint(0x21, 0x7E)) for _ in range(self.one_of([8, 9, 20, 63, 64])))}

    def reference(self):
        found = {"Id": self.one_of(["urn:p", "urn:q", "", "é"])}
        for name, texts in (("Version", ["1.+", "*", "1.02", "+"]), ("EarliestVersion", ["1", "01.2"]),
                            ("LatestVersion", ["2.0", "3"])):
            if self.seldom(0.4):
                found[name] = self.one_of(texts)
        return found

    def root(self):
        return ({self.one_of(["PolicyIdReference", "PolicySetIdReference"]): self.reference()}
                if self.seldom(0.9) else {})

    def source_row(self):
        data_type = self.rows.texts.data_type()
        text = self.rows.sound(data_type)
        held = self.one_of([text, text.strip(" \t\r\n") in ("true", "1")]) if data_type == "boolean" else text
        if data_type == "integer" and self.seldom(0.6):
            held = Raw(self.one_of(["0", "7", "-1", "9223372036854775807", "-9223372036854775808"]))
        issuer = {"Issuer": self.one_of(["", "hr", "é\n\"\\"])} if self.seldom(0.4) else {}
        return {"Category": self.one_of(["urn:c", "", "é", *SHORTHANDS, *SHORTHANDS.values()]),
                "Entity": self.one_of(["", "alice", "é\n\"\\"]), "AttributeId": self.one_of(["urn:a", "urn:b", ""]),
                "DataType": self.one_of(["", NAMESPACE]) + data_type, "Value": held, **issuer}

    def rows_body(self):
        return {"Row": [self.source_row() for _ in range(self.one_of([0, 1, 1, 2, 3]))]}

    def slip(self, held, name):
        """Something else in the place of what a member of the name holds."""
        if name in AIMED and self.seldom(0.7):
            return self.one_of(AIMED[name])
        if isinstance(held, dict) and self.seldom(0.8):
            return self.in_object(held)
        return self.one_of([*WRONG, ALGORITHM, {"Id": "urn:p"}, [held], [held, held]])

    def in_object(self, held):
        """The object with a member fewer, more, of another name, or twice."""
        name, other = self.one_of([*held, self.one_of(NAMES)]), self.one_of(NAMES)
        return self.one_of([{its: inner for its, inner in held.items() if its != name},
                            {**held, other: self.one_of(WRONG)},
                            {other if its == name else its: inner for its, inner in held.items()},
                            Pairs([(name, self.one_of([held.get(name), *WRONG])), *held.items()]),
                            Pairs([*held.items(), (name, self.one_of([held.get(name), *WRONG]))])])

    def broken(self, held, name=""):
        """The draft with a slip somewhere in it."""
        if isinstance(held, list) and held and self.seldom(0.8):
            place = self.random.randrange(len(held))
            return held[:place] + [self.broken(held[place])] + held[place + 1:]
        if isinstance(held, dict) and held and self.seldom(0.6):
            chosen = self.one_of(list(held))
            return {its: self.broken(inner, its) if its == chosen else inner for its, inner in held.items()}
        return self.slip(held, name)

    def shuffled(self, held):
        if isinstance(held, dict):
            return {name: self.shuffled(held[name]) for name in self.random.sample(list(held), len(held))}
        return ([self.shuffled(item) for item in held] if isinstance(held, list)
                and not isinstance(held, Pairs) else held)

    def text(self, draft):
        if self.seldom(0.03):
            return self.one_of(NO_JSON)
        for _ in range(self.one_of([0, 0, 1, 1, 1, 2])):
            draft = self.broken(draft) if isinstance(draft, dict) else draft
        text = written(self.shuffled(draft), self.one_of(["", "", " "]), self.seldom(0.5))
        if self.seldom(0.03):
            place = self.random.randrange(len(text) + 1)
            text = (text[:place] + self.one_of(["", ",", '"', "}", "]", " ", "\\", "x"])
                    + text[place + self.random.randrange(2):])
        return text

    def next(self):
        kind, make = self.one_of([("new_token", self.new_token), ("old_token", self.old_token), ("root", self.root),
                                  ("rows", self.rows_body)])
        return [kind, encoded(self.text(make()))]
