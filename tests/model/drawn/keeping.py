"""Random rows of a repository of records: changes and readings of a few domains, near to one another, so that they are
made, refused and empty by turns."""
from drafts import written
from identifiers import SHORTHANDS
from records import GREATEST
from rows import encoded

NAMES = ["a", "b", "c"]
TOKENS = ["t", "u", "v", "t" * 64]
IDS = ["urn:p", "urn:q", "é"]
VERSIONS = ["1.0", "1.0", "01.0", "1", "1.9", "1.10", "2"]
RULE = "urn:oasis:names:tc:xacml:3.0:rule-combining-algorithm:deny-overrides"
POLICY = "urn:oasis:names:tc:xacml:3.0:policy-combining-algorithm:deny-overrides"
PATTERNS = ["", "", "1.+", "01.+", "1.0", "*"]
BOUNDS = ["", "", "1.0", "01.00", "2"]
# values, some of them written otherwise
VALUES = [("integer", "7"), ("integer", "007"), ("integer", "8"), ("string", "7"), ("string", "007"),
          ("time", "12:00:00Z"), ("time", "13:00:00+01:00"), ("time", "12:00:00"), ("time", "12:00:00-00:00"),
          ("boolean", "true"), ("boolean", "1"), ("hexBinary", "ab"), ("hexBinary", "AB"), ("dayTimeDuration", "PT24H"),
          ("dayTimeDuration", "P1D"), ("anyURI", " u "), ("anyURI", "u")]
MOST_ROWS = 4096


class Keeping:
    """Random rows of a keeper."""

    def __init__(self, rows):
        self.random, self.one_of, self.seldom = rows.random, rows.random.choice, rows.texts.seldom
        self.calls = [self.create, self.remove, *[self.put] * 3, self.drop, *[self.upload] * 5, *[self.activate] * 4,
                      *[self.delete] * 3, *[self.root] * 2, *[self.source] * 2, *[self.read] * 4]
        self.uploaded = []  # the row's uploads so far, each the document's key and its text

    def name(self):
        return self.one_of(NAMES + NAMES[:1] * 3)

    def key(self):
        """Of a document its kind, its id and its version, the last in one of several ways of writing; mostly of
        one that was uploaded."""
        if self.uploaded and self.seldom(0.8):
            return self.one_of(self.uploaded)[0]
        return self.one_of(["policy", "policy", "set"]), self.one_of(IDS), self.one_of(VERSIONS)

    def shown(self, key):
        return "|".join([key[0], encoded(key[1]), key[2]])

    def document(self):
        """The text of a document, now and then one that was uploaded, or another one of its key."""
        if self.uploaded and self.seldom(0.2):
            return self.one_of(self.uploaded)[1]
        key = self.one_of(self.uploaded)[0] if self.uploaded and self.seldom(0.2) else self.key()
        self.uploaded.append((key, self.text(*key)))
        return self.uploaded[-1][1]

    def text(self, kind, name, version):
        described = {"Description": "x"} if self.seldom(0.2) else {}
        if kind == "policy":
            draft = {"Policy": {"PolicyId": name, "Version": version, "RuleCombiningAlgId": RULE, **described}}
        else:
            draft = {"PolicySet": {"PolicySetId": name, "Version": version, "PolicyCombiningAlgId": POLICY,
                                   **described}}
        return encoded(written(draft, self.one_of(["", "", "", " "])))

    def source_row(self):
        data_type, text = self.one_of(VALUES)
        issuer = {"Issuer": self.one_of(["", "i", "I"])} if self.seldom(0.3) else {}
        return {"Category": self.one_of(["Action", SHORTHANDS["Action"]]), "Entity": self.one_of(["", "", "e"]),
                "AttributeId": "a", "DataType": data_type, "Value": text, **issuer}

    def rows(self):
        """Some rows as they may stand in a body; now and then as many as a domain may have, or one more."""
        if self.seldom(0.003):
            count = self.one_of([MOST_ROWS, MOST_ROWS + 1])
            return f"\\{{{count - 1},{encoded(written(self.source_row()))},\\}}{encoded(written(self.source_row()))}"
        return ",".join(encoded(written(self.source_row())) for _ in range(self.one_of([0, 1, 1, 1, 2])))

    def create(self):
        return f"create {self.name()}"

    def remove(self):
        return f"remove {self.name()}"

    def put(self):
        return f"put {self.name()} {self.one_of(['ask', 'admin'])} {self.one_of(TOKENS)}"

    def drop(self):
        return f"drop {self.name()} {self.one_of(TOKENS)}"

    def upload(self):
        return f"upload {self.name()} {self.document()}"

    def activate(self):
        return f"{self.one_of(['activate', 'activate', 'deactivate'])} {self.name()} {self.shown(self.key())}"

    def delete(self):
        return f"delete {self.name()} {self.shown(self.key())}"

    def root(self):
        kind, name, _ = self.key()
        reference = "|".join([kind, encoded(name), self.one_of(PATTERNS), self.one_of(BOUNDS), self.one_of(BOUNDS)])
        return f"root {self.name()}" + (f" {reference}" if self.seldom(0.8) else "")

    def source(self):
        return f'source {self.name()} {{"Row":[{self.rows()}]}}'

    def read(self):
        name = self.name()
        return self.one_of([f"gate {name}", f"gate {name}", f"list {name}", f"view {name}",
                            f"role {name} {self.one_of(TOKENS)}",
                            f"document {name} {self.shown(self.key())}", "domains"])

    def many(self):
        """Calls that fill one domain with tokens or documents, nearly or altogether, before the others."""
        name = self.name()
        if self.seldom(0.7):
            return [f"create {name}"] + [f"put {name} ask {number}" for number in range(self.one_of([30, 31, 32, 33]))]
        version = self.one_of(["3", "4.0"])
        draft = {"Policy": {"PolicyId": "urn:p", "RuleCombiningAlgId": RULE, "Version": version + "."}}
        return [f"create {name}"] + [f"upload {name} " + encoded(written(draft)[:-3] + f'{number}"}}}}')
                                     for number in range(self.one_of([1022, 1023, 1024, 1025]))]

    def next(self):
        self.uploaded = []
        calls = self.many() if self.seldom(0.03) else []
        calls += [f"create {name}" for name in NAMES if self.seldom(0.7)]
        calls += [self.one_of(self.calls)() for _ in range(self.one_of([5, 10, 20, 40]))]
        calls += ([f"gate {name}" for name in NAMES] + [f"list {name}" for name in NAMES]
                  + [f"view {name}" for name in NAMES] + ["domains", "faults"])
        return ["keeper_with", self.near_the_greatest(), *calls] if self.seldom(0.1) else ["keeper", *calls]

    def near_the_greatest(self):
        """A domain with which the keeper begins: its number and its epoch are such that the next, or
        it, soon can't rise."""
        number, epoch = (self.one_of([1, GREATEST - 1 - self.random.randrange(4)]),
                         self.one_of([0, GREATEST - self.random.randrange(6)]))
        return f"{NAMES[0]} {number} {epoch}"
