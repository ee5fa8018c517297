"""Makes random rows, and compares the answers of the program xa_trials with those of the model.

usage: agree.py rows FOLDER SEED COUNT [KIND..]      writes the rows, in some files
       agree.py compare FILE SEED COUNT [KIND..]     compares the program's answers, read from FILE, with the model's

A kind is one of SHARES below, which says how many of the rows each has where none is named; or `full`, domains of as
many documents and bytes as one may have, a row of which has 16 MB.
"""
import collections
import pathlib
import re
import sys

import folders  # noqa: F401
from answers import answer
from asked import BY_OTHERS, Row, by_others
from bodies import Bodies
from breaking import Breaking
from combining import ALGORITHMS, DECISIONS
from commands import Commands
from exchanges import Exchanges
from full import Full
from functions import BAG_FUNCTIONS, DURATIONS, FUNCTIONS, HIGHER_ORDER, V1, V3
from inputs import as_read, as_written
from keeping import Keeping
from least import Least
from mixing import Drives, Mixing
from rows import encoded, line
from small_bodies import SmallBodies
from storing import Storing
from streams import differing
from texts import Texts
from trees import Trees
from values import Fault, read
from views import Decisions, Links


# The kinds of rows, and of each how many there are to how many others.
SHARES = {"values": 16, "expressions": 30, "requests": 15, "documents": 10, "links": 4, "decisions": 10, "servers": 1,
          "rooms": 1, "sockets": 1, "fronts": 1, "drives": 1, "stores": 1, "bodies": 8, "records": 6, "limits": 2}
# One run of `rt try` answers at most 1 MiB, and gives up after ten minutes: this many rows a file, of this many bytes.
ROWS_A_FILE, BYTES_A_FILE = 500, 1_500_000


class Rows:
    """Random rows of some kinds."""

    def __init__(self, seed, kinds=()):
        self.texts = Texts(seed)
        self.random = self.texts.random
        self.trees = Trees(self)
        self.kinds = list(kinds or SHARES)
        documents, decisions = Breaking(self), Decisions(self)
        exchanges = Exchanges(Commands(decisions, documents))
        mixing = Mixing(exchanges)
        self.makers = {"values": self.of_values, "expressions": self.of_expressions, "requests": Bodies(self).next,
                       "documents": documents.next, "links": Links(self).next, "decisions": decisions.next,
                       "limits": Least(decisions).next, "full": Full(decisions).next, "servers": exchanges.next,
                       "rooms": exchanges.rooms, "sockets": exchanges.sockets, "fronts": mixing.next,
                       "drives": Drives(mixing).next, "stores": Storing(exchanges).next,
                       "bodies": SmallBodies(self).next, "records": Keeping(self).next}

    def sound(self, data_type, name=""):
        """A text that reads, and that the named function is likely to take."""
        while True:
            text = self.texts.of(data_type)
            if name.endswith("n-of") and data_type == "integer":
                text = str(self.random.randint(-1, 4))
            if name.endswith("substring") and data_type == "integer":
                text = str(self.random.randint(-2, 8))
            if name.endswith("-from-string") and data_type == "string":
                text = self.texts.of(name.rsplit(":", 1)[1].removesuffix("-from-string"), loose=True)
            try:
                read(data_type, text)
                return text
            except Fault:
                continue

    def takes(self, name):
        """The types of arguments for the function of values."""
        types = []
        for data_type in FUNCTIONS[name][0]:
            more = data_type.endswith("*")
            types += [data_type.rstrip("*")] * (self.random.randrange(4) if more else 1)
        return types

    def value(self, data_type, name=""):
        return f"{data_type}:{encoded(self.sound(data_type, name))}"

    def read(self):
        data_type = self.texts.data_type()
        return ["read", data_type, encoded(self.texts.of(data_type, loose=True))]

    def compare(self):
        left = self.texts.data_type()
        right = self.texts.data_type() if self.texts.seldom(0.1) else left
        return [self.random.choice(["same", "order"]), self.value(left), self.value(right)]

    def moment(self):
        end = self.random.choice([0, -62_135_596_800, 253_402_300_799])
        near, anywhere = end + self.random.randint(-2, 2), self.random.randint(-7 * 10**10, 3 * 10**11)
        return ["moment", str(self.random.choice([near, anywhere]))]

    def apply(self):
        name = self.random.choice(list(FUNCTIONS))
        types = self.takes(name)
        fields = [self.value(data_type, name) for data_type in types]
        if len(fields) == 2 and types[0] == types[1] and self.texts.seldom(0.2):
            fields[1] = fields[0]
        if self.texts.seldom(0.03):
            fields.append(self.value(self.texts.data_type()))
        return ["apply", name, *fields]

    def arguments(self, arguments):
        """The fields of the arguments, each a type and a text or a list of texts."""
        fields = []
        for data_type, held in arguments:
            if isinstance(held, list):
                fields += [f"bag:{data_type}"] + ["+" + encoded(text) for text in held]
            else:
                fields.append(f"{data_type}:{encoded(held)}")
        return fields

    def some(self, pool, counts):
        return [self.random.choice(pool) for _ in range(self.random.choice(counts))]

    def pool(self, data_type):
        """Texts to choose from, some of them of equal values."""
        pool = [self.sound(data_type) for _ in range(self.random.choice([1, 2, 4, 40]))]
        if data_type == "time":
            pool += ["08:00:00Z", "09:00:00+01:00", "08:00:00", "07:00:00-01:00"]
        if data_type == "dateTime":
            pool += ["2024-01-01T00:00:00Z", "2023-12-31T23:00:00-01:00", "2024-01-01T00:00:00",
                     "2024-01-01T05:30:00+05:30"]
        return pool

    def bags(self):
        data_type, name = self.texts.data_type(), self.random.choice(list(BAG_FUNCTIONS))
        pool, counts = self.pool(data_type), self.random.choice([[0, 1, 2, 3, 5], [31, 32, 33, 60]])
        value, bag = (data_type, self.random.choice(pool)), lambda: (data_type, self.some(pool, counts))
        if name in ("one-and-only", "bag-size"):
            given = [(data_type, self.some(pool, [0, 1, 1, 2]))]
        elif name == "is-in":
            given = [value, bag()]
        elif name == "bag":
            given = [(data_type, text) for text in self.some(pool, range(6))]
        else:
            given = [bag() for _ in range(self.random.choice([2, 3, 4]) if name == "union" else 2)]
        if self.texts.seldom(0.03):
            given.append(value)
        beginning = self.random.choice([V1, V3]) if data_type in DURATIONS else V1
        return ["apply", beginning + data_type + "-" + name, *self.arguments(given)]

    def inner(self, name):
        """A function of values that the higher-order function takes, and the types of its arguments."""
        while True:
            inner = (V1 + self.random.choice(["or", "and", "n-of"])
                     if self.texts.seldom(0.2) else self.random.choice(list(FUNCTIONS)))
            types, gives = self.takes(inner), FUNCTIONS[inner][1]
            if (name == "map" or gives == "boolean") and (len(types) == 2 or types and not name.startswith("all-of-")):
                return inner, types

    def higher(self):
        uri, name = self.random.choice(list(HIGHER_ORDER.items()))
        inner, types = self.inner(name)
        the_bag, given = self.random.randrange(len(types)), []
        counts = self.random.choice([range(5), range(41)]) if len(types) < 3 or name != "any-of-any" else range(5)
        for place, data_type in enumerate(types):
            pool = [self.sound(data_type, inner) for _ in range(self.random.choice([1, 3, 3, 20]))]
            is_bag = (place == the_bag if name in ("any-of", "all-of", "map") else name != "any-of-any"
                      or self.texts.seldom(0.6))
            given.append((data_type, self.some(pool, counts) if is_bag else pool[0]))
        return ["higher", uri, inner, *self.arguments(given)]

    def combine(self):
        """A combining algorithm over few or many children, some of whose targets aren't Match."""
        decisions = self.random.sample(DECISIONS, self.random.randint(1, len(DECISIONS)))
        targets = self.random.choice([["Match"], ["Match", "NoMatch", "NoMatch", "NoMatch"],
                                      ["Match", "NoMatch", "NoMatch", "Indeterminate"]])
        children = [f"{self.random.choice(decisions)}/{self.random.choice(targets)}"
                    for _ in range(self.random.choice([0, 1, 2, 3, 5, 9]))]
        return ["combine", self.random.choice(ALGORITHMS), *(child.removesuffix("/Match") for child in children)]

    def of_values(self):
        return self.random.choice([self.read, self.apply, self.bags, self.higher] * 3
                                  + [self.compare, self.moment, self.combine])()

    def of_expressions(self):
        return self.random.choice([self.trees.evaluate] * 5 + [self.trees.target])()

    def next(self):
        kind = self.random.choices(self.kinds, [SHARES.get(kind, 1) for kind in self.kinds])[0]
        return self.makers[kind]()


def asked(rows):
    """The rows that are asked of the program: in place of some others that ask the same, with their answers."""
    for fields in rows:
        yield from by_others(fields, answer(fields)) if fields[0] in BY_OTHERS else [Row(fields, None)]


def in_files(rows):
    """The lines of the rows, as many together as a file may have."""
    held, size = [], 0
    for text in (line(as_read(row.fields)) for row in rows):
        if held and (len(held) == ROWS_A_FILE or size + len(text) > BYTES_A_FILE):
            yield held
            held, size = [], 0
        held.append(text)
        size += len(text)
    yield held


def answers_of(path):
    """The program's answers; `rt try` writes a line `== NAME` before those to each file of rows."""
    with open(path, encoding="utf-8", newline="") as it:
        return [text for text in it.read().split("\n")[:-1] if not text.startswith("== ")]


def compare(answers, rows):
    wanted = [line(as_written(row.fields, row.answer or answer(row.fields)))[:-1] for row in rows]
    rows = [row.fields for row in rows]
    alone = [differing(fields[1:]) for fields in rows if fields[0] == "front"]
    differ = [it for it in zip(rows, wanted, answers) if it[1] != it[2]]
    for fields, by_model, found in differ[:20]:
        print(f"{line(fields)[:2000].rstrip()}\n    model    {by_model[:2000]}\n    program  {found[:2000]}")
    faults = collections.Counter(field[:40] for by_model in wanted
                                 for field in by_model.split("\t") if re.fullmatch(r"![A-Z]\w+(\(.*\))?", field))
    kinds = collections.Counter(fields[0] for fields in rows)
    print(f"{len(answers)} of {len(rows)} rows answered, {len(differ)} otherwise than the model")
    print("rows: " + ", ".join(f"{kind} {count}" for kind, count in sorted(kinds.items())))
    print("refusals: " + ", ".join(f"{fault[1:]} {count}" for fault, count in sorted(faults.items())))
    differ_alone = sum(others for _, others in alone)
    if alone:
        print(f"{sum(every for every, _ in alone)} connections in {len(alone)} rows, "
              f"{differ_alone} answered otherwise than their streams in one piece")
    return 0 if len(answers) == len(rows) and not differ and not differ_alone else 1


def main():
    verb, path, seed, count = sys.argv[1], sys.argv[2], int(sys.argv[3]), int(sys.argv[4])
    source = Rows(seed, sys.argv[5:])
    rows = list(asked(source.next() for _ in range(count)))
    if verb == "compare":
        return compare(answers_of(path), rows)
    for place, held in enumerate(in_files(rows)):
        pathlib.Path(path, f"{place:09}").write_text("".join(held), encoding="ascii")
    return 0


if __name__ == "__main__":
    sys.exit(main())
