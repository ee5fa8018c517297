"""Messages that HAProxy holds back while a tool works, and what is waited for before: all that has come to a shard."""
import contextlib
import csv
import io
import secrets
import threading
import time

from . import talk
from .settings import Wrong, put_off_signals

# how long messages are held back for a tool that doesn't renew it, in seconds
LEASE = 10
# after how long a message that has been led to a shard is in its queue
TURN = 0.02
# how long is waited for what a shard has by then, beyond which its program, told to end, answers it
SETTLES = 3.0


def wait_for_turn(settings, shard):
    """Waits until all messages that are in the shard's queue now have come to it, or have left the queue."""
    end = time.monotonic() + 2 * talk.LONGEST
    while time.monotonic() < end:
        began = time.monotonic()
        try:
            status, _ = talk.shard_reply(settings, shard, "GET", "/operator/domains", "-", in_turn=True)
        except talk.NO_REPLY:
            status = 0
        if status == 401:
            return
        if status == 503:
            # It is down, and nothing is under way; or the question has waited as long as any message may, and
            # what is being answered has its own time.
            time.sleep(talk.SERVER if time.monotonic() - began > talk.QUEUE - 1 else 0)
            return
        time.sleep(0.1)
    raise Wrong(f"shard {shard} doesn't answer: nothing was changed")


def under_way(settings, shard):
    """How many messages HAProxy has at a shard, in its queue, or at what logs its changes."""
    count = 0
    for backend in (f"shard{shard}", f"changes{shard}"):
        # (a backend that isn't there has no rows)
        said = talk.admin_reply(settings, f"show stat {backend} 4 1").lstrip("# ")
        count += sum(int(row[name] or 0) for row in csv.DictReader(io.StringIO(said)) for name in ("scur", "qcur"))
    return count


def wait_until_settled(settings, shards):
    """Waits for what has come to the shards beside the question in turn. Their programs answer it as well once they are
    told to end, unless it takes longer than they have for that."""
    end = time.monotonic() + SETTLES
    while any(under_way(settings, shard) for shard in shards) and time.monotonic() < end:
        time.sleep(0.01)


def lease():
    """How long something is held, and a name that no lease had before: HAProxy counts from when it first sees it."""
    return f"{LEASE}/{secrets.token_hex(8)}"


def renew_lease(settings, is_over):
    """Renews what is held until that is over."""
    while not is_over.wait(1):
        # (a HAProxy that isn't there holds nothing)
        with contextlib.suppress(OSError, Wrong):
            talk.set_while_it_runs(settings, {"HELD": lease()})


@contextlib.contextmanager
def keep_lease(settings):
    """What is held stays so meanwhile, and not for long where this process is killed."""
    is_over = threading.Event()
    thread = threading.Thread(target=renew_lease, args=(settings, is_over), daemon=True)
    try:
        # a thread takes no signal that the tool has put off (one that has come meanwhile ends the tool from here)
        with put_off_signals():
            thread.start()
        yield
    finally:
        is_over.set()
        if thread.is_alive():
            thread.join()


@contextlib.contextmanager
def hold_messages(settings, *shards):
    """Nothing is under way at these shards meanwhile: HAProxy holds their messages back (domains.lua).

    So nothing is lost where their programs are ended. Should this be killed, it lets them go by itself after a while.
    """
    for shard in shards:
        talk.refuse_another(settings, shard)
    keys = [f"SHARD{shard}" for shard in shards]
    # LAST comes last: a list that sees it anew sees what is held, too
    talk.set_while_it_runs(settings, {**{key: "held" for key in keys}, "HELD": lease(), "LAST": time.time_ns()})
    try:
        with keep_lease(settings):
            time.sleep(TURN)
            for shard in shards:
                wait_for_turn(settings, shard)
            wait_until_settled(settings, shards)
            yield
    finally:
        talk.set_while_it_runs(settings, {"HELD": None, **{key: None for key in keys}})
