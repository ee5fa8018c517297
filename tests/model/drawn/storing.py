"""Random stores of both schemas, as SQL: what a random server's domains hold, now and then damaged or beside a further
table; and messages to a server whose repository is opened over one."""
from rows import encoded
from servers import TurnedAway, set_up
from tables import MAKING_OF, as_first, rows_of_domains

ASCII = set(map(chr, range(32, 127)))
# what makes a store one that isn't opened, of either schema
FAULTS = ["UPDATE meta SET schema_no = 3", "UPDATE meta SET schema_no = 3 - schema_no", "UPDATE meta SET id = 2",
          "DELETE FROM meta", "UPDATE meta SET next_number = 0", "UPDATE domains SET epoch = -1",
          "UPDATE domains SET name = 'A' WHERE number = (SELECT min(number) FROM domains)",
          "UPDATE tokens SET role = 2",
          "UPDATE tokens SET digest = x'00' WHERE rowid = (SELECT min(rowid) FROM tokens)",
          "UPDATE policies SET body = x'7b7d'", "UPDATE policies SET active = 2",
          "UPDATE policies SET version = '01.0' WHERE rowid = (SELECT min(rowid) FROM policies)",
          "UPDATE roots SET kind = 2", "UPDATE roots SET pattern = '1.x'", "UPDATE {} SET value_type = 11",
          "UPDATE {} SET place = place + 2000", "UPDATE {} SET value = 'x' WHERE value_type = 2",
          "UPDATE {} SET entity = CAST(x'ff' AS TEXT)"]
# what is served as it was
BESIDE = ["CREATE TABLE other (x INTEGER) STRICT; INSERT INTO other VALUES (7)", "CREATE INDEX places ON {} (category)",
          "CREATE VIEW names AS SELECT name FROM domains"]
ISSUED = ["UPDATE sources SET issuer = CAST(x'ff' AS TEXT)",
          "INSERT INTO attributes SELECT number, place, category, entity, attribute, value_type, value FROM sources"]


def literal(held):
    """The value in SQL."""
    if held is None:
        return "NULL"
    if isinstance(held, int):
        return str(held)
    if isinstance(held, bytes):
        return f"x'{held.hex()}'"
    return "'" + held.replace("'", "''") + "'" if set(held) <= ASCII else f"CAST(x'{held.encode().hex()}' AS TEXT)"


def rows_held(server, schema):
    """The rows of that schema that the server's domains are; schema 1 has no issuers."""
    rows = rows_of_domains(server.states, {name: server.gates[name] for name in server.states}, server.number)
    return as_first({**rows, "sources": [(*row[:-1], None) for row in rows["sources"]]}) if schema == 1 else rows


class Storing:
    """Rows of stores; `exchanges` makes servers and messages to them."""

    def __init__(self, exchanges):
        self.exchanges, self.random, self.one_of, self.seldom = (exchanges, exchanges.random, exchanges.one_of,
                                                                 exchanges.seldom)

    def more(self, schema):
        """What else is done to the store: mostly nothing."""
        of_rows = "sources" if schema == 2 else "attributes"
        among = FAULTS + ISSUED * (schema == 2) if self.seldom(0.3) else BESIDE if self.seldom(0.15) else []
        return [self.one_of(among).replace("{}", of_rows)] if among else []

    def statements(self, server):
        """The store of what the server's domains hold, as SQL: in it as schema 1 has it there are no issuers."""
        schema = self.one_of([1, 1, 2])
        listed = [f"INSERT INTO {table} VALUES ({', '.join(map(literal, row))})"
                  for table, held in rows_held(server, schema).items() for row in self.shuffled(table, held)]
        return ["; ".join(MAKING_OF[schema]), *(["; ".join(listed)] if self.seldom(0.8) else listed),
                *self.more(schema)]

    def shuffled(self, table, rows):
        """Rows in any order: of a table, none is before the others but by its key."""
        return rows if table in ("meta", "domains") else self.random.sample(rows, len(rows))

    def next(self):
        kind, *fields = self.exchanges.server()
        try:
            server = set_up(fields)
        except TurnedAway:
            return [kind, *fields]
        start = next((place for place, field in enumerate(fields)
                      if field.partition(":")[0] in ("piece", "close", "restart", "moment")), len(fields))
        return ["stored", *(f"sql:{encoded(statement)}" for statement in self.statements(server)), *fields[start:]]
