"""The tables in which domains are kept, of both schemas, over Python's own sqlite3: how they are made, and which rows
the states of domains are.

Schema 1 has the rows of sources in the table `attributes`. Schema 2 has them in the table `sources`, with their
issuers, and leaves `attributes` empty.
"""
import sqlite3

from contexts import SourceRow
from machines import Key, State, Stored
from values import read, to_text
from versions import PATTERN, Reference, numbers, parts

TYPES = ["string", "boolean", "integer", "date", "time", "dateTime", "dayTimeDuration", "yearMonthDuration", "anyURI",
         "hexBinary", "base64Binary"]
KINDS, ROLES = ["policy", "set"], ["Ask", "Admin"]

# ---- the tables. A column is its name, its type, whether it is declared NOT NULL (an INTEGER PRIMARY KEY is
# never NULL) and its place in the key.
OF_VALUES = [("category", "TEXT", 1, 0), ("entity", "TEXT", 1, 0), ("attribute", "TEXT", 1, 0),
             ("value_type", "INTEGER", 1, 0), ("value", "TEXT", 1, 0)]
FIRST_TABLES = {
    "meta": [("id", "INTEGER", 0, 1), ("schema_no", "INTEGER", 1, 0), ("next_number", "INTEGER", 1, 0)],
    "domains": [("number", "INTEGER", 0, 1), ("name", "TEXT", 1, 0), ("epoch", "INTEGER", 1, 0)],
    "tokens": [("number", "INTEGER", 1, 1), ("digest", "BLOB", 1, 2), ("role", "INTEGER", 1, 0)],
    "policies": [("number", "INTEGER", 1, 1), ("kind", "INTEGER", 1, 2), ("id", "TEXT", 1, 3),
                 ("version", "TEXT", 1, 4), ("body", "BLOB", 1, 0),
                 ("active", "INTEGER", 1, 0)],
    "roots": [("number", "INTEGER", 0, 1), ("kind", "INTEGER", 1, 0), ("id", "TEXT", 1, 0), ("pattern", "TEXT", 0, 0),
              ("earliest", "TEXT", 0, 0), ("latest", "TEXT", 0, 0)],
    "attributes": [("number", "INTEGER", 1, 1), ("place", "INTEGER", 1, 2), *OF_VALUES],
}
TABLES = {**FIRST_TABLES,
          "sources": [("number", "INTEGER", 1, 1), ("place", "INTEGER", 1, 2), *OF_VALUES, ("issuer", "TEXT", 0, 0)]}
# those of each schema, in the order in which they are made
OF_SCHEMA = {1: FIRST_TABLES, 2: TABLES}
# what has to be unique beside an INTEGER PRIMARY KEY, and whether that is the table's key
UNIQUES = {"meta": [], "domains": [(["name"], "u")], "tokens": [(["number", "digest"], "pk")],
           "policies": [(["number", "kind", "id", "version"], "pk")], "roots": [],
           "attributes": [(["number", "place"], "pk")], "sources": [(["number", "place"], "pk")]}
OF_DOMAINS = ["tokens", "policies", "roots", "attributes", "sources"]
OF_DOMAIN = "INTEGER NOT NULL REFERENCES domains (number) ON DELETE CASCADE"
OF_SOURCES = (f"(number {OF_DOMAIN}, place INTEGER NOT NULL, category TEXT NOT NULL, entity TEXT NOT NULL, "
              "attribute TEXT NOT NULL, value_type INTEGER NOT NULL, value TEXT NOT NULL, ")
FIRST_MAKING = [
    "CREATE TABLE meta (id INTEGER PRIMARY KEY, schema_no INTEGER NOT NULL, next_number INTEGER NOT NULL) STRICT",
    "CREATE TABLE domains (number INTEGER PRIMARY KEY, name TEXT NOT NULL UNIQUE, epoch INTEGER NOT NULL) STRICT",
    f"CREATE TABLE tokens (number {OF_DOMAIN}, digest BLOB NOT NULL, role INTEGER NOT NULL, "
    "PRIMARY KEY (number, digest)) STRICT",
    f"CREATE TABLE policies (number {OF_DOMAIN}, kind INTEGER NOT NULL, id TEXT NOT NULL, version TEXT NOT NULL, "
    "body BLOB NOT NULL, "
    "active INTEGER NOT NULL, PRIMARY KEY (number, kind, id, version)) STRICT",
    "CREATE TABLE roots (number INTEGER PRIMARY KEY REFERENCES domains (number) ON DELETE CASCADE, "
    "kind INTEGER NOT NULL, id TEXT NOT NULL, "
    "pattern TEXT, earliest TEXT, latest TEXT) STRICT",
    f"CREATE TABLE attributes {OF_SOURCES}PRIMARY KEY (number, place)) STRICT",
]
SOURCES_MADE = f"CREATE TABLE sources {OF_SOURCES}issuer TEXT, PRIMARY KEY (number, place)) STRICT"
MAKING = [*FIRST_MAKING, SOURCES_MADE]
MAKING_OF = {1: FIRST_MAKING, 2: MAKING}


def schema_of(db):
    """The tables, as sqlite3 describes them."""
    found = {}
    for name, strict in db.execute("SELECT name, strict FROM pragma_table_list "
                                   "WHERE schema = 'main' AND name NOT LIKE 'sqlite_%' ORDER BY name").fetchall():
        columns = [(it[1], it[2], it[3], it[5]) for it in db.execute(f"PRAGMA table_info({name})")]
        defaults = [it[4] for it in db.execute(f"PRAGMA table_info({name})") if it[4] is not None]
        references = [it[2:7] for it in db.execute(f"PRAGMA foreign_key_list({name})")]
        uniques = [([at[2] for at in db.execute(f"PRAGMA index_info({it[1]})")], it[3])
                   for it in db.execute(f"PRAGMA index_list({name})").fetchall() if it[2]]
        found[name] = (columns, strict, defaults, references, uniques)
    return found


def schema_numbered(number):
    """The tables of that schema, as sqlite3 describes them."""
    reference = [("domains", "number", "number", "NO ACTION", "CASCADE")]
    return {name: (columns, 1, [], reference if name in OF_DOMAINS else [], UNIQUES[name])
            for name, columns in sorted(OF_SCHEMA[number].items())}


def rows_in(db, tables=TABLES):
    """All rows of the tables, in the order of their keys."""
    return {name: [tuple(row) for row in db.execute(f"SELECT * FROM {name} ORDER BY 1, 2, 3, 4" if name == "policies"
                                                    else f"SELECT * FROM {name} ORDER BY 1, 2")] for name in tables}


def opened(path):
    """A connection to the file, or to a store in memory."""
    db = sqlite3.connect(path, isolation_level=None, timeout=0)
    db.execute("PRAGMA foreign_keys = ON")
    return db


# ---- the rows of a domain, and back

def text_of_version(version):
    return None if version is None else ".".join(map(str, version))


def rows_of_state(number, state):
    """The rows of one domain, but for its own."""
    root = state.root
    return {
        "tokens": sorted((number, digest, ROLES.index(role)) for digest, role in state.tokens.items()),
        "policies": sorted((number, KINDS.index(key.kind), key.id, text_of_version(key.version), stored.text,
                            int(stored.is_active)) for key, stored in state.documents.items()),
        "roots": [] if root is None else [(number, KINDS.index(root.kind), root.id, text_of_version(root.pattern),
                                           text_of_version(root.earliest), text_of_version(root.latest))],
        "attributes": [],
        "sources": [(number, place, row.category, row.entity, row.attribute_id, TYPES.index(row.value[0]),
                     to_text(row.value), row.issuer) for place, row in enumerate(state.rows)],
    }


def rows_of_domains(states, numbers, following):
    """The rows of all tables, in the order of their keys: of these states of domains, by their names, with a number
    and an epoch for each, where the next gets that number."""
    found = {**{name: [] for name in TABLES}, "meta": [(1, 2, following)],
             "domains": sorted((number, name, epoch) for name, (number, epoch) in numbers.items())}
    for number, name, _ in found["domains"]:
        for table, rows in rows_of_state(number, states[name]).items():
            found[table] += rows
    return found


def state_at(db, number):
    """The state of the domain of that number, of tables of schema 2."""
    of = lambda table: db.execute(f"SELECT * FROM {table} WHERE number = ? ORDER BY 1, 2", (number,)).fetchall()
    version = lambda text: None if text is None else numbers(text)
    roots = [Reference(KINDS[it[1]], it[2], None if it[3] is None else parts(PATTERN, it[3]), version(it[4]),
                       version(it[5])) for it in of("roots")]
    return State({it[1]: ROLES[it[2]] for it in of("tokens")},
                 {Key(KINDS[it[1]], it[2], tuple(numbers(it[3]))): Stored(it[4], bool(it[5])) for it in of("policies")},
                 roots[0] if roots else None,
                 [SourceRow(*it[2:5], read(TYPES[it[5]], it[6]), it[7]) for it in of("sources")])


# ---- from schema 1 to schema 2, and back where there is no issuer

def as_second(rows):
    """The rows of schema 2 that those of schema 1 become: the rows of sources get no issuer, and all else stays."""
    (meta,) = rows["meta"]
    return {**rows, "meta": [(meta[0], 2, meta[2])], "attributes": [],
            "sources": [(*row, None) for row in rows["attributes"]]}


def as_first(rows):
    """The rows of schema 1 that become those, which have no issuers."""
    (meta,) = rows["meta"]
    if any(row[-1] is not None for row in rows["sources"]):
        raise ValueError("schema 1 has no issuers")
    return {**{name: rows[name] for name in FIRST_TABLES}, "meta": [(meta[0], 1, meta[2])],
            "attributes": [row[:-1] for row in rows["sources"]]}
