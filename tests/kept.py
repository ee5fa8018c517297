"""The rows that stand in the tables of a store after messages: by the model of the server and that of the tables
(tests/model), over Python's own sqlite3."""
import os
import sys

TOP = os.path.dirname(os.path.dirname(os.path.abspath(__file__)))
sys.dont_write_bytecode = True
sys.path.insert(0, f"{TOP}/tests/model")
from machines import Server  # noqa: E402
from messages import Stream  # noqa: E402
from routes import owner  # noqa: E402
from tables import (  # noqa: E402, F401
    FIRST_MAKING, FIRST_TABLES, MAKING, TABLES, as_first, as_second, opened, rows_in, rows_of_domains, schema_numbered,
    schema_of,
)


def faults_of(db):
    """What sqlite3's own checks find."""
    return ([row for row in db.execute("PRAGMA integrity_check") if row != ("ok",)]
            + list(db.execute("PRAGMA foreign_key_check")))


class Model:
    """What is kept after messages: the states of domains by the model of the server, their numbers and epochs,
    and the next number."""

    def __init__(self, operator):
        self.server, self.numbers, self.next = Server(operator.encode()), {}, 1

    def answer(self, held, moment=0):
        """The reply to the bytes of one message."""
        stream = Stream()
        stream.held = held
        asked = stream.next()
        name, before = owner(asked), self.server.states
        found = self.server.answer(asked, moment)
        if name is not None:
            self.move(name, before.get(name), self.server.states.get(name))
        return found

    def move(self, name, old, new):
        if old is None and new is not None:
            self.numbers[name] = (self.next, 0)
            self.next += 1
        elif new is None:
            self.numbers.pop(name, None)
        elif old[1:] != new[1:]:
            number, epoch = self.numbers[name]
            self.numbers[name] = (number, epoch + 1)

    def rows(self):
        """The rows of all tables, in the order of their keys."""
        return rows_of_domains(self.server.states, self.numbers, self.next)


def write(path, rows, making=MAKING, journal="DELETE"):
    """Makes a store of those rows by sqlite3, which keeps its log in that way."""
    db = opened(path)
    db.execute(f"PRAGMA journal_mode = {journal}")
    db.execute("BEGIN")
    for statement in making:
        db.execute(statement)
    for table, held in rows.items():
        for row in held:
            db.execute(f"INSERT INTO {table} VALUES ({', '.join('?' * len(row))})", row)
    db.execute("COMMIT")
    db.close()
