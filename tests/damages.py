"""What is done to a store that sqlite3 wrote, so that it is refused: each damage by its SQL. The stores are
those that `filled_model` of tables_parts/shared.py makes."""
from kept import MAKING

FURTHER = "CREATE TABLE other (x INTEGER) STRICT; INSERT INTO other VALUES (7)"
OF_SOURCES = "number, place, category, entity, attribute, value_type, value"
# of a store of schema 2: a row that is damaged
DAMAGES = {
    "a digest of 31 bytes": "UPDATE tokens SET digest = CAST(substr(digest, 2) AS BLOB) WHERE number = 1",
    "a digest of 33 bytes": "UPDATE tokens SET digest = CAST(digest || x'00' AS BLOB) WHERE number = 3",
    "role 2": "UPDATE tokens SET role = 2 WHERE number = 1",
    "role -1": "UPDATE tokens SET role = -1",
    "a body that is no document": "UPDATE policies SET body = x'7b7d' WHERE number = 3 AND kind = 0",
    "an empty body": "UPDATE policies SET body = x''",
    "an id that differs": "UPDATE policies SET id = 'urn:q' WHERE number = 1",
    "a version that differs": "UPDATE policies SET version = '1.1' WHERE number = 1",
    "version 01.0": "UPDATE policies SET version = '01.0' WHERE number = 1",
    "version 1.0 with a space": "UPDATE policies SET version = '1.0 ' WHERE number = 1",
    "a kind that differs": "UPDATE policies SET kind = 1 WHERE number = 1",
    "kind 2": "UPDATE policies SET kind = 2 WHERE number = 1",
    "active 2": "UPDATE policies SET active = 2",
    "kind 2 of a root": "UPDATE roots SET kind = 2",
    "a pattern that is none": "UPDATE roots SET pattern = '1.x'",
    "a bound that is a pattern": "UPDATE roots SET earliest = '1.+'",
    "an empty bound": "UPDATE roots SET latest = ''",
    "value_type 11": "UPDATE sources SET value_type = 11 WHERE place = 3",
    "value_type -1": "UPDATE sources SET value_type = -1 WHERE place = 0 AND number = 1",
    "integer 007":
        "UPDATE sources SET value = '007' WHERE value_type = 2 AND place = (SELECT min(place) FROM "
        "sources WHERE value_type = 2)",
    "a value that doesn't read": "UPDATE sources SET value = 'x' WHERE value_type = 3",
    "a boolean 1": "UPDATE sources SET value = '1' WHERE value_type = 1",
    "anyURI with a space": "UPDATE sources SET value = ' x' WHERE value_type = 8",
    "hexBinary in small letters": "UPDATE sources SET value = '0a' WHERE value_type = 9",
    "a gap in place": "DELETE FROM sources WHERE number = 3 AND place = 5",
    "the first place gone": "DELETE FROM sources WHERE number = 1 AND place = 0",
    "a negative place": "UPDATE sources SET place = -1 WHERE number = 1 AND place = 0",
    "a number not below the next": "UPDATE meta SET next_number = 3",
    "a negative next number": "UPDATE meta SET next_number = -1",
    "a negative next number and no domain": "DELETE FROM domains; UPDATE meta SET next_number = -1",
    "a negative number": "INSERT INTO domains VALUES (-1, 'minus', 0)",
    "a negative epoch": "UPDATE domains SET epoch = -1 WHERE name = 'beta'",
    "a name out of shape": "UPDATE domains SET name = 'Acme' WHERE name = 'acme'",
    "an empty name": "UPDATE domains SET name = '' WHERE name = 'acme'",
    "a name of 33 bytes": f"UPDATE domains SET name = '{'a' * 33}' WHERE name = 'acme'",
    "an entity that isn't UTF-8": "UPDATE sources SET entity = CAST(x'ff' AS TEXT) WHERE place = 1",
    "an issuer that isn't UTF-8": "UPDATE sources SET issuer = CAST(x'ff' AS TEXT) WHERE place = 1",
    "a row in the table of schema 1":
        f"INSERT INTO attributes SELECT {OF_SOURCES} FROM sources WHERE number = 1 AND place = 0",
    "all rows in the table of schema 1":
        f"INSERT INTO attributes SELECT {OF_SOURCES} FROM sources; DELETE FROM sources",
}
# what stands beside the tables of a store of schema 2, and the statements that drop it
FOREIGN = {
    "a further table": (FURTHER, 'DROP TABLE "other";'),
    "an index": ("CREATE INDEX places ON sources (category)", 'DROP INDEX "places";'),
    "a view": ("CREATE VIEW names AS SELECT name FROM domains", 'DROP VIEW "names";'),
    "a trigger": ("CREATE TRIGGER last AFTER UPDATE ON meta BEGIN DELETE FROM roots; END", 'DROP TRIGGER "last";'),
    "tables with an index and a key, of which one has quotes in its name":
        ('CREATE TABLE "a ""b""" (x INTEGER) STRICT; CREATE INDEX i ON "a ""b""" (x); '
         "CREATE TABLE keyed (x TEXT UNIQUE) STRICT",
         'DROP INDEX "i"; DROP TABLE "a ""b"""; DROP TABLE "keyed";'),
    "a table that isn't read": ("CREATE TABLE odd (x TEXT PRIMARY KEY) WITHOUT ROWID", 'DROP TABLE "odd";'),
}
# what is damaged beside a further table, which is told first
DAMAGED_BESIDE = {
    "role 2": "UPDATE tokens SET role = 2",
    "a body that is no document": "UPDATE policies SET body = x'7b7d'",
    "no row of meta": "DELETE FROM meta",
    "schema 3": "UPDATE meta SET schema_no = 3",
}
# tables that are of neither schema
SCHEMAS = {
    "two rows of meta": "INSERT INTO meta VALUES (2, 2, 4)",
    "no row of meta": "DELETE FROM meta",
    "id 2": "UPDATE meta SET id = 2",
    "schema 3": "UPDATE meta SET schema_no = 3",
    "schema 0": "UPDATE meta SET schema_no = 0",
    "two rows of meta and a damaged one": "INSERT INTO meta VALUES (2, 2, 4); UPDATE tokens SET role = 2",
    "a table less": "DROP TABLE sources",
    "an empty table less": "DROP TABLE attributes",
    "a column of another name": "ALTER TABLE tokens RENAME COLUMN role TO part",
    "a column less": "ALTER TABLE sources DROP COLUMN issuer",
    "the number of schema 1": "UPDATE meta SET schema_no = 1",
    "no table meta": "DROP TABLE meta",
}
# of a store of schema 1
FIRST_DAMAGES = {
    "a digest of 31 bytes": "UPDATE tokens SET digest = CAST(substr(digest, 2) AS BLOB) WHERE number = 1",
    "a body that is no document": "UPDATE policies SET body = x'7b7d' WHERE number = 3 AND kind = 0",
    "value_type 11": "UPDATE attributes SET value_type = 11 WHERE place = 3",
    "a boolean 1": "UPDATE attributes SET value = '1' WHERE value_type = 1",
    "a gap in place": "DELETE FROM attributes WHERE number = 3 AND place = 5",
    "an entity that isn't UTF-8": "UPDATE attributes SET entity = CAST(x'ff' AS TEXT) WHERE place = 1",
    "a number not below the next": "UPDATE meta SET next_number = 3",
    "a negative epoch": "UPDATE domains SET epoch = -1 WHERE name = 'beta'",
}
# what stands beside the tables of schema 1, and the statements that drop it
FIRST_FOREIGN = {
    "a further table": (FURTHER, 'DROP TABLE "other";'),
    "an index with the name of a table of schema 2":
        ("CREATE INDEX sources ON attributes (category)", 'DROP INDEX "sources";'),
    "a view of that name": ("CREATE VIEW sources AS SELECT name FROM domains", 'DROP VIEW "sources";'),
}
# tables beside which there is no schema 1, or a number that isn't its
FIRST_SCHEMAS = {
    "the number of schema 2": "UPDATE meta SET schema_no = 2",
    "schema 3": "UPDATE meta SET schema_no = 3",
    "two rows of meta": "INSERT INTO meta VALUES (2, 1, 4)",
    "a table of sources": MAKING[-1],
    "another table of that name": "CREATE TABLE Sources (x INTEGER) STRICT",
    "a table less": "DROP TABLE attributes",
    "the table of sources and a damaged row": f"{MAKING[-1]}; UPDATE tokens SET role = 2",
}
