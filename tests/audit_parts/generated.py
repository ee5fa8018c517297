"""An archive that no daemon wrote: one domain's table is put again and again, each time otherwise, and its policies are
activated and withdrawn; other domains change between."""
import functools
import json
import pathlib
import random
from unittest import mock

from log import keeping
from log.archive import Archive
from log.past import Past

WARD = pathlib.Path(__file__).resolve().parent.parent.parent / "examples" / "ward"
BEGIN = 1_767_225_600.0  # 2026-01-01T00:00:00Z
REPLY = b"HTTP/1.1 %d OK\r\nContent-Length: 2\r\n\r\n{}"
JSON = ["content-type", "application/json"]
OWNER = "generated-admin-of-"
# how many tables are generated
MOST_TABLES = 500
POLICY = "/pap/policy/urn:example:ward:records/1.0/active"


class Clock:
    """A clock that is set by hand."""

    def __init__(self, now=BEGIN):
        self.now = now

    def __call__(self):
        return self.now


class Keeping(keeping.Keeping):
    """One that writes a checkpoint when it is due, and not a moment later."""

    def write_checkpoints(self):
        pass

    def behind(self, entry, reply):
        super().behind(entry, reply)
        while not self.due.empty():
            self.write_checkpoint(self.due.get())

    def write_checkpoint(self, domain):
        Past(keeping.segments_in([self.home]), domain).write_checkpoint()


class Writer:
    """Writes changes as the daemon would that made them."""

    def __init__(self, path, clock, kind=Keeping):
        self.archive, self.clock = Archive(path, clock), clock
        self.keeping = kind(self.archive, print)

    def change(self, domain, method, path, body=b"", who="admin", status=200):
        fields = [JSON] if body else []
        if who == "admin":
            fields.append(["authorization", f"Bearer {OWNER}{domain}"])
        more, data = self.keeping.as_kept(domain, self.archive.position + 1, body)
        head = {"domain": domain, "who": who, "method": method, "path": path, "fields": fields, **more}
        entry = self.archive.add_entry(head, data)
        self.clock.now += 0.001
        self.keeping.behind(entry, self.archive.add_reply(status, REPLY % status, is_again=False))

    def domain(self, name):
        """A domain with the policy of the example, which is active and the root."""
        at, pap = f"/operator/domains/{name}", f"/domains/{name}/pap"
        token = json.dumps({"Role": "admin", "Token": OWNER + name}).encode()
        self.change(name, "PUT", at, who="operator", status=201)
        self.change(name, "POST", f"{at}/tokens", token, who="operator")
        self.change(name, "POST", f"{pap}/policies", (WARD / "policy.json").read_bytes(), status=201)
        self.change(name, "PUT", f"/domains/{name}{POLICY}")
        self.change(name, "PUT", f"{pap}/root", b'{"PolicyIdReference":{"Id":"urn:example:ward:records"}}')

    def remove(self, name):
        self.change(name, "DELETE", f"/operator/domains/{name}", who="operator")

    def close(self):
        self.archive.close()


@functools.cache
def rows_of_ward():
    """The example's rows, each as a text."""
    return [json.dumps(row) for row in json.loads((WARD / "rows.json").read_text())["Row"]]


def table(chance, rows):
    """The example's rows, of which some are missing, and others up to so many."""
    held = [row for row in rows_of_ward() if chance.random() < 0.9]
    roles = chance.choices(range(1_000), k=rows - len(held))
    held += ['{"Category": "AccessSubject", "Entity": "person-%d", "AttributeId": "urn:example:role", '
             '"DataType": "string", "Value": "role-%d"}' % pair for pair in enumerate(roles)]
    return f'{{"Row": [{", ".join(held)}]}}'.encode()


class Tables:
    """Tables of so many rows: new ones, and once there are many one of those again."""

    def __init__(self, chance, rows):
        self.chance, self.rows, self.made = chance, rows, []

    def next(self):
        if len(self.made) == MOST_TABLES:
            return self.chance.choice(self.made)
        self.made.append(table(self.chance, self.rows))
        return self.made[-1]


def write_year(path, entries, rows, seconds=365 * 86_400, seed=7, kind=Keeping):
    """So many changes of the domain `acme` in so many seconds, each a whole table but for one in a hundred; and some of
    `other`. Their last moment."""
    # (each table is deflated once)
    with mock.patch.object(keeping, "deflated", functools.lru_cache(MOST_TABLES)(keeping.deflated)):
        return write_changes(Writer(path, Clock(), kind), entries, Tables(random.Random(seed), rows), seconds)


def write_changes(writer, entries, tables, seconds):
    clock, chance = writer.clock, tables.chance
    writer.domain("acme")
    writer.domain("other")
    is_active = True
    for number in range(entries):
        clock.now = max(clock.now, BEGIN + 1 + number * seconds / entries)
        if chance.random() < 0.01:
            writer.change("other", "PUT", "/domains/other/pip", tables.next())
        if chance.random() < 0.01:
            is_active = not is_active
            writer.change("acme", "PUT" if is_active else "DELETE", f"/domains/acme{POLICY}")
        else:
            writer.change("acme", "PUT", "/domains/acme/pip", tables.next())
    writer.close()
    return clock.now
