"""Changes are made in the order of the log, and of the log alone: what a daemon that was killed has sent is made before
what the next one sends, and a change that comes past the daemon is made by nobody."""
import json
import socket

from log.abandoned import is_any_left
from log.archive import Archive
from log.keeping import Keeping
from log.messages import Message, entry_of
from operating.unix_sockets import LISTENS, of_program
from serving import OPERATOR, UNAVAILABLE, message

from .shared import Logged, expect, kept, passed_on, status_of, wait_until

PIP, ADMIN = "/domains/acme/pip", "acme-admin-1"
ROW = ('{"Row":[{"Category":"AccessSubject","Entity":"alice","AttributeId":"urn:a","DataType":"string",'
       '"Value":"%s"}]}')


def value(logged):
    """The value that the domain's rows have."""
    held = json.loads(logged.read(passed_on("GET", PIP, ADMIN))[0].partition(b"\r\n\r\n")[2])
    return [row["Value"] for row in held["Row"]]


def put(name):
    return passed_on("PUT", PIP, ADMIN, ROW % name)


def waiting(logged):
    """How many connections wait to be taken at pdpd's address for changes."""
    found = of_program(logged.changes.removeprefix("unix:"))
    return sum(one.waiting for one in found if one.state == LISTENS)


def recorded(logged, name):
    """Has an entry in the archive that has no reply yet, as where the daemon was killed behind it."""
    fields = (("content-type", "application/json"), ("authorization", f"Bearer {kept(ADMIN)}"))
    head, body = entry_of(Message("PUT", PIP, fields, (ROW % name).encode()), "acme", "admin")
    archive = Archive(logged.archive)
    more, data = Keeping(archive, print).as_kept("acme", archive.position + 1, body)
    archive.add_entry({**head, **more}, data)
    archive.close()


def under_way():
    """A change that a killed daemon has sent is made before the next daemon's, in the order in which they came, though
    another connection is served meanwhile; then a later one."""
    with Logged("under-way") as logged, socket.socket(socket.AF_UNIX) as other:
        logged.make_domain()
        expect("before", status_of(logged.change(put("before"))), 200)
        logged.kill_daemon()
        recorded(logged, "first")
        other.connect(logged.changes.removeprefix("unix:"))
        for count in (1, 2):
            logged.start_daemon()
            expect(f"{count} wait behind another one", wait_until(lambda: waiting(logged) == count), True)  # noqa: B023
            if count == 1:
                logged.kill_daemon()
        expect("nothing is made meanwhile", value(logged), ["before"])
        expect("nor is it settled", is_any_left(logged.changes), True)
        other.close()
        expect("the next one", status_of(logged.change(put("second"))), 200)
        expect("what is there then", value(logged), ["second"])
        expect("nothing is left", wait_until(lambda: not is_any_left(logged.changes)), True)


def past_the_daemon():
    """Where all are answered no change is taken, whoever sends it: nothing is made then, and the archive has all that
    was."""
    with Logged("past") as logged:
        logged.make_domain()
        expect("before", status_of(logged.change(put("before"))), 200)
        for what, held in (("an administrator", put("past")), ("nobody", passed_on("PUT", PIP, "nobody-at-all", "{}")),
                           ("the operator", message("DELETE", "/operator/domains/acme", OPERATOR))):
            expect(f"{what} past the daemon", logged.read(held), [UNAVAILABLE])
        expect("what is there", value(logged), ["before"])
        expect("what is read there is answered", status_of(logged.read(passed_on("GET", PIP, ADMIN))[0]), 200)


PARTS = (under_way, past_the_daemon)
