"""What a domain has that is older than the log, by the archive of the machine that was alone."""
import contextlib
import shutil
import sqlite3

from audit_parts.shared import PROGRAM, TOP, Logged, expect, folder, kept, passed_on, status_of
from log.archive import segments_in
from log.domains import forget
from log.history import Unknown
from log.past import Past
from operating import settings as setting
from operating import trial
from operating.settings import Settings
from replica import moving
from serving import OPERATOR, message

from .tools import why_not

AT, ADMIN = "/domains/acme", "acme-admin-1"
RECORDS = f"{AT}/pap/policy/urn:example:ward:records/1.0"
ROW = '{"Row":[{"Category":"AccessSubject","Entity":"%s","AttributeId":"urn:a","DataType":"string","Value":"x"}]}'


@contextlib.contextmanager
def locks():
    """The tools' lock and sockets in a folder of the test's own."""
    before, own = setting.LOCKS, folder / "locks"
    setting.LOCKS = trial.LOCKS = own
    try:
        yield
    finally:
        setting.LOCKS = trial.LOCKS = before


def changed(logged):
    """Makes changes of each kind; what the domain has then."""
    second = (TOP / "examples" / "ward" / "policy.json").read_text().replace("ward:records", "ward:other")
    found = [status_of(logged.change(passed_on(method, path, ADMIN, body))) for method, path, body in (
        ("POST", f"{AT}/pap/policies", second), ("PUT", f"{RECORDS.replace('records', 'other')}/active", ""),
        ("DELETE", f"{RECORDS}/active", ""), ("PUT", f"{AT}/pip", ROW % "alice"))]
    token = message("POST", "/operator/domains/acme/tokens", OPERATOR, '{"Role":"ask","Token":"acme-more-1"}')
    expect("changes", [*found, status_of(logged.change(token))], [201, 200, 200, 200, 200])


def as_alone(logged):
    """The settings of a machine that has this store and this archive, of which the latter is aside."""
    data, archives = logged.folder / "data", logged.folder / "archives"
    for place in (data / "0", archives / "0"):
        shutil.rmtree(place, ignore_errors=True)
        place.mkdir(parents=True)
    for end in ("", "-wal"):
        shutil.copy(logged.folder / f"store.db{end}", data / "0" / f"pdpd.db{end}")
    shutil.copytree(logged.archive, archives / "0.alone")
    return Settings(f"SHARDS=1\nAUDIT=1\nPROGRAM={PROGRAM}\nDATA={data}\nARCHIVES={archives}\n")


def by_hand(settings, statement):
    """Changes a store past its program."""
    base = sqlite3.connect(settings.folder(0) / "pdpd.db")
    with contextlib.closing(base), base:
        expect(statement, base.execute(statement).rowcount > 0, True)


def older_than_the_log():
    """It is what the archive of before says, if the store has the same; else it isn't known."""
    with Logged("older") as logged, locks():
        logged.make_domain()
        expect("removed", status_of(logged.change(message("DELETE", "/operator/domains/acme", OPERATOR))), 200)
        forget(logged.archive, "acme", Past(segments_in([logged.archive]), "acme").over())
        logged.make_domain()
        changed(logged)
        logged.kill_daemon()
        logged.pdpd.kill()
        settings = as_alone(logged)
        found = moving.state_in(settings, 0, "acme")
        expect("tokens", found.tokens, {kept(ADMIN): "admin", kept("acme-asks-1"): "ask", kept("acme-more-1"): "ask"})
        expect("documents", sorted(name for _, name, _ in found.documents),
               ["urn:example:ward:other", "urn:example:ward:records"])
        expect("active", {name for _, name, _ in found.active}, {"urn:example:ward:other"})
        expect("rows", found.rows.decode(), ROW % "alice")
        expect("nothing is left", sorted(path.name for path in (logged.folder / "data").iterdir()), ["0"])
        for statement in ("DELETE FROM tokens", "UPDATE policies SET active = 1 - active",
                          "DELETE FROM roots", "UPDATE sources SET value = 'y'"):
            settings = as_alone_again(logged)
            by_hand(settings, statement)
            why = why_not(lambda settings=settings: moving.state_in(settings, 0, "acme"), Unknown)
            expect(f"{statement}: why", "something was done to it that isn't in" in why, True)
        shutil.rmtree(logged.folder / "archives" / "0.alone")
        why = why_not(lambda: moving.state_in(settings, 0, "acme"), Unknown)
        expect("another machine", "give this on the machine that had it then" in why, True)


def as_alone_again(logged):
    shutil.rmtree(logged.folder / "archives")
    return as_alone(logged)


PARTS = (older_than_the_log,)
