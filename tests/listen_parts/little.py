"""Lack of memory while connections are open."""
import contextlib
import resource

from sent import rows_body
from serve_parts.shared import ASK, LIST, MIB, PERMIT, in_acme, listing
from serving import DONE, UNAVAILABLE

from .shared import expect, listening, within

ROWS = in_acme("PUT pip", rows_body(524_288))
STEP = 64 * 1_024


def address_space(process):
    """How many bytes of address space a process has."""
    with open(f"/proc/{process.pid}/status", encoding="ascii") as lines:
        return int(next(line for line in lines if line.startswith("VmSize")).split()[1]) * 1_024


@contextlib.contextmanager
def little_more(process, spare):
    """The process can have so many bytes of address space more than it has."""
    before = resource.prlimit(process.pid, resource.RLIMIT_AS)
    resource.prlimit(process.pid, resource.RLIMIT_AS, (address_space(process) + spare, before[1]))
    try:
        yield
    finally:
        resource.prlimit(process.pid, resource.RLIMIT_AS, before)


def sent_whole(served, held):
    """What comes for a message on a connection of its own; nothing, if that ends first."""
    with served.client() as client:
        try:
            return client.ask(held)
        except OSError:
            return b""


def memory():
    """Where there is no memory for what comes on a connection, or for its answer, that one ends, or has the fixed 503;
    another that is open goes on meanwhile, and so does the program."""
    found = []
    with listening("little-memory") as served, served.client() as other:
        expect("another before", other.ask(ASK), PERMIT)
        for spare in range(0, 2 * MIB, STEP):
            with little_more(served.process, spare):
                found.append(sent_whole(served, ROWS))
                within(f"another, with {spare} bytes to spare", other.ask(ASK), [PERMIT, UNAVAILABLE])
            expect("another, once there is memory", other.ask(ASK), PERMIT)
        expect("one that comes then", served.once(LIST), [listing(["acme"])])
    expect("what comes for rows", {DONE, UNAVAILABLE, b""} >= set(found), True)
    within("connections that ended for lack of memory", found.count(b""), range(1, len(found)))
    within("rows that were taken", found.count(DONE), range(1, len(found)))
