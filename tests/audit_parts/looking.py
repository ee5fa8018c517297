"""What `pdpd-shards status` finds of the daemon of a shard, and of who keeps the lines of decisions."""
import resource
import signal
import threading

from log.pdpd import replies
from log.record import record_at
from operating import replicas, status
from operating.findings import Findings
from operating.settings import Settings
from serving import OPERATOR, message

from .proxied import Proxied
from .shared import Logged, expect, wait_until

DAMAGED = "put this file back from a copy"


class Looked(Logged):
    """A daemon where the settings say that one is."""

    def __init__(self, name):
        super().__init__(name)
        self.archive = self.folder / "archives" / "0"
        for name in ("run", "sockets"):
            (self.folder / name / "0").mkdir(parents=True)
        self.address, self.changes = f"unix:{self.folder}/run/0/socket", f"unix:{self.folder}/sockets/0/changes"
        self.settings = Settings(f"SHARDS=1\nAUDIT=1\nDECISIONS=1\nAUDIT_RUN={self.folder}/run\nROOM={1 << 62}\n"
                                 f"ARCHIVES={self.folder}/archives\nSOCKETS={self.folder}/sockets\n")

    def change(self, data):
        return replies(self.address, data, 1, 60)[0].data

    def found(self):
        """The position that is told, and what is wrong."""
        findings = Findings()
        position = replicas.look(self.settings, 0, findings)
        expect("what can't be told", findings.unknown, [])
        return position, findings.wrong


def looked():
    """The daemon's position while all is well, and why no change is taken where none is."""
    with Looked("looked") as logged:
        expect("nothing is there", logged.found(), (0, []))
        expect("a change", logged.change(message("PUT", "/operator/domains/a", OPERATOR))[9:12], b"201")
        expect("one change", logged.found(), (1, []))
        place = logged.folder / "sockets" / "0" / "changes"
        place.rename(logged.folder / "away")
        told = f"no change of shard 0 is taken: {place} isn't there, where it takes them: pdpd-shards restart 0 makes it"
        expect("without pdpd's socket for changes", logged.found(), (1, [told]))
        (logged.folder / "away").rename(place)
        row = status.Shard(0, "up", 1, 0, 0, 0, 0.0, "12", 7).cells()
        expect("in its row", dict(zip(status.HEADS, row))["entry"], "7")
        stopped(logged)
        logged.kill_daemon()
        away = "no change of shard 0 is taken: pdpd-replica doesn't answer: the log of pdpd-replica-0 says why"
        expect("it is down", logged.found(), (None, [away]))
        logged.room = 1 << 62
        logged.start_daemon()
        expect("no room", logged.found(), (2, [
            f"no change of shard 0 is taken: the disk of {logged.folder}/archives has less than {1 << 62} bytes left "
            "(ROOM)"]))
        logged.kill_daemon()
        damaged(logged)


def stopped(logged):
    """A daemon that stands still, and one whose pdpd takes no change."""
    logged.daemon.send_signal(signal.SIGSTOP)
    expect("it stands still", logged.found()[0], None)
    logged.daemon.send_signal(signal.SIGCONT)
    logged.pdpd.kill()
    # Python has SIGXFSZ ignored, as pdpd-run has
    logged.start_pdpd(restore_signals=False)
    before = resource.prlimit(logged.pdpd.process.pid, resource.RLIMIT_FSIZE, (1, resource.RLIM_INFINITY))
    client = threading.Thread(target=logged.change, args=(message("PUT", "/operator/domains/b", OPERATOR),))
    client.start()
    expect("an entry waits", wait_until(lambda: replicas.figures(logged.settings, 0)["pending"]), True)
    expect("it is told", logged.found(), (1, [
        "entry 2 of shard 0 gets no reply, and no change passes it: the log of pdpd-replica-0 says why"]))
    resource.prlimit(logged.pdpd.process.pid, resource.RLIMIT_FSIZE, before)
    client.join()
    expect("once it is made", logged.found(), (2, []))


def damaged(logged):
    """An archive that no daemon opens: why stands in the line, and nothing in it is changed."""
    (path,) = logged.archive.glob("*.log")
    data = path.read_bytes()
    whole = record_at(data, 0, path.name.split(".")[2])
    expect("it has more than one record", whole.end < len(data), True)
    path.write_bytes(data[:40] + b"x" + data[41:])
    expect("it isn't opened", (logged.start_daemon(), logged.daemon.wait()), (b"", 3))
    position, wrong = logged.found()
    expect("damaged", (position, len(wrong), DAMAGED in wrong[0], str(path) in wrong[0]), (None, 1, True, True))
    expect("nothing went", path.read_bytes(), data[:40] + b"x" + data[41:])
    path.write_bytes(data)


def decisions_kept():
    """Whether somebody takes the lines of decisions."""
    proxied = Proxied("kept-lines")
    settings = Settings(f"SHARDS=1\nDECISIONS=1\nAUDIT_RUN={proxied.folder}/run\n")

    def wrong():
        findings = Findings()
        replicas.look_at_decisions(settings, findings)
        return findings.wrong
    gone = ["no line of a decision is kept: pdpd-decisions isn't there, and its log says why"]
    expect("nobody", wrong(), gone)
    proxied.start_receiver()
    expect("somebody", wait_until(lambda: not wrong()), True)
    proxied.receiver.kill()
    proxied.receiver.wait()
    expect("nobody any more", wrong(), gone)


PARTS = (looked, decisions_kept)
