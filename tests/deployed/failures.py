"""What goes wrong: restarts, kills, programs that are stuck."""
import contextlib
import io
import os
import pathlib
import signal
import subprocess
import sys
import threading
import time
from unittest import mock

from checks import Between

from . import clients
from .attacking import counted
from .clients import Client, Deciders, Makers, decision, many, once
from .machine import LIBRARY, SETTINGS, listens_at, pid, place, refuse_starts, sh, shards, wait_until

KILLS = 20


def restarts(machine, checks):
    """Restarts by the operator, without retries: nothing is lost, neither a decision nor a change."""
    machine.operator.clear()
    asks = many(machine, 8)
    with Deciders(asks, 6) as deciders, Makers(machine.operator, "r") as makers:
        for _ in range(3):
            shards("restart")
    checks.expect("no decision is lost, or another's", deciders.wrong, [])
    checks.expect("no change is lost, or made twice", makers.wrong + makers.unanswered, [])
    checks.say(f"12 restarts: {deciders.answered} decisions, the longest after {deciders.longest:.2f} s, and "
               f"{len(makers.acknowledged)} changes")


def disturb():
    """Kills programs, and has HAProxy read its files three times, while it is asked."""
    for turn in range(KILLS):
        shard = turn % 4
        old = pid(shard)
        if old:
            os.kill(old, signal.SIGKILL)
        wait_until(lambda: pid(shard) not in (0, old), f"shard {shard} isn't started again")
        if turn % 7 == 3:
            shards("reload")
        time.sleep(0.6)


def kills(machine, checks):
    """Kills and reloads: what is under way at a program may be lost with it, and nothing else; no change that was
    acknowledged is lost, or made twice."""
    machine.operator.clear()
    asks = many(machine, 8)
    before = set(machine.operator.names())
    with Deciders(asks, 6, also=(None, 502)) as deciders, Makers(machine.operator, "k") as makers:
        disturb()
    wait_until(machine.operator.is_answered, "the shards aren't there again")
    made, unanswered, found = set(makers.acknowledged), set(makers.unanswered), set(machine.operator.names())
    checks.say(f"{KILLS} kills: {deciders.answered} decisions, the longest after {deciders.longest:.2f} s; {len(made)} "
               f"changes, {len(unanswered)} without an answer, of which {len(found & unanswered)} were made")
    checks.expect("no decision is another's", deciders.wrong, [])
    checks.within("none waits for long: the seconds of the longest", deciders.longest, Between(0, 5))
    checks.expect("no change is made twice, or refused", makers.wrong, [])
    checks.expect("each change that was acknowledged is there", made - found, set())
    checks.expect("and none that nobody asked for", found - before - made - unanswered, set())
    checks.expect("there were decisions and changes", (deciders.answered > 500, len(made) > 50), (True, True))


# Messages that HAProxy has at a shard at a time (MAXCONN), those who ask, and kills. A program that is killed ends its
# connections one after another: so many messages more at most come to it meanwhile.
MAXCONN, CROWD, ENDS, LATE = 8, 60, 4, 2


def queued(machine, checks):
    """A program is killed while messages wait for it in HAProxy's queue: what it has may be lost with it, and all else
    is answered by the next program."""
    machine.operator.clear()
    ask = machine.operator.makes("waits")
    shard = int(shards("where", "waits"))
    with Deciders([(ask, "Permit")], CROWD, also=(None, 502)) as deciders:
        for _ in range(ENDS):
            old = pid(shard)
            os.kill(old, signal.SIGSTOP)
            wait_until(lambda: counted(f"shard{shard}", "pdpd", "qcur") >= CROWD - MAXCONN, "there is no queue")
            os.kill(old, signal.SIGKILL)
            wait_until(lambda old=old: pid(shard) not in (0, old), "it isn't started again")
            wait_until(lambda: decision(once(ask)) == "Permit", "it doesn't answer again")
            # (what was led once more is led there once)
            time.sleep(2)
    checks.expect("other answers", deciders.wrong, [])
    checks.within("those that are lost", deciders.lost, range(ENDS * (MAXCONN + LATE) + 1))
    checks.say(f"{ENDS} kills beside {CROWD - MAXCONN} that wait: {deciders.lost} of {deciders.answered} were lost, "
               f"the longest took {deciders.longest:.2f} s")


def stuck(machine, checks):
    """A program that stands still is killed, and what was under way at it alone is lost; a connection that says nothing
    holds nobody up."""
    machine.operator.clear()
    asks = many(machine, 8)
    kinds = {"a program that stands still": stands_still, "a silent connection": says_nothing}
    for what, disturbs in kinds.items():
        with Deciders(asks, 8, also=(None, 502) if disturbs is stands_still else ()) as deciders:
            time.sleep(0.5)
            took = disturbs()
            time.sleep(0.5)
        checks.say(f"{what}: over after {took:.1f} s; the longest of {deciders.answered} decisions took "
                   f"{deciders.longest:.1f} s")
        checks.expect(f"{what}: no decision is lost, or another's", deciders.wrong, [])
        checks.within(f"{what}: the seconds until it ends", took, Between(0, 9))


def stands_still():
    began, old = time.time(), pid(1)
    os.kill(old, signal.SIGSTOP)
    wait_until(lambda: pid(1) not in (0, old), "a program that stands still isn't killed")
    return time.time() - began


def says_nothing():
    began = time.time()
    with clients.silent(place(2)):
        time.sleep(0.2)
        with Client(place(2)) as behind:
            behind.send(b"GET / HTTP/1.1\r\nConnection: close\r\n\r\n")
            behind.all()
            return time.time() - began


class Mute:
    """Takes connections in a shard's place, and never replies."""

    def __init__(self, shard):
        self.socket = listens_at(place(shard))

    def __enter__(self):
        pass

    def __exit__(self, *what):
        self.socket.close()


def watched(machine, checks):
    """The watchdog takes for stuck what gives no reply for five seconds on a connection of the watchdog's own. A port
    that another program has is taken, and no reply of it counts."""
    sys.path.insert(0, str(LIBRARY))
    from operating import settings, watchdog
    now = settings.read()
    sh("sv down /etc/service/pdpd-watchdog")
    checks.expect("a shard that answers", watchdog.shard_state(now, 3)[0], "up")
    os.kill(pid(3), signal.SIGSTOP)
    found, socket_of = watchdog.shard_state(now, 3)
    checks.expect("one that stands still", found, "stuck")
    with contextlib.ExitStack() as opened, mock.patch.object(watchdog, "LIMIT", 1.0):
        for _ in range(20):
            opened.enter_context(clients.silent(place(3)))
        began = time.time()
        checks.expect("one that stands still, with 20 connections", watchdog.shard_state(now, 3)[0], "stuck")
        checks.within("for how many times the limit it was waited", time.time() - began, Between(3, 5))
    os.kill(pid(3), signal.SIGCONT)
    checks.expect("and goes on", watchdog.shard_state(now, 3), ("up", socket_of))
    with killed_during(3, 2):
        checks.expect("one that ends during the look", watchdog.shard_state(now, 3)[0], "down")
    sh("sv down /etc/service/pdpd-3")
    wait_until(lambda: not pid(3), "a shard isn't ended")
    checks.expect("without a program", watchdog.shard_state(now, 3), ("down", None))
    with Mute(3):
        began = time.time()
        checks.expect("another program has the port", watchdog.shard_state(now, 3)[0], "taken")
        checks.within("it isn't asked: the seconds", time.time() - began, Between(0, 4))
    sh("sv up /etc/service/pdpd-3 /etc/service/pdpd-watchdog")
    wait_until(machine.operator.is_answered, "the shard isn't there again")


@contextlib.contextmanager
def killed_during(shard, seconds):
    """A shard's program that stands still, and is killed after so many seconds."""
    process = pid(shard)
    os.kill(process, signal.SIGSTOP)
    timer = threading.Timer(seconds, os.kill, (process, signal.SIGKILL))
    timer.start()
    yield
    timer.join()
    wait_until(lambda: pid(shard) not in (0, process), "the shard isn't started again")


def looked(shard, before):
    """How the watchdog finds a shard, and what it tells."""
    sys.path.insert(0, str(LIBRARY))
    from operating import watchdog
    with contextlib.redirect_stderr(io.StringIO()) as told:
        now = watchdog.look(shard, before)
    return now, told.getvalue().replace("pdpd-watchdog: ", "").splitlines()


def unkilled(machine, checks):
    """A program that is stuck and isn't killed: the reason is told each time; without one it is killed."""
    # the services' own watchdog would kill it
    sh("sv down /etc/service/pdpd-watchdog /etc/service/pdpd-3")
    wait_until(lambda: not pid(3), "a shard isn't ended")
    with Mute(3):
        now, (line,) = looked(3, "up")
        begins = line.startswith("shard 3 is taken: another program has the socket of shard 3, ")
        checks.expect(f"another program has its port: {line}", (now, begins), ("taken", True))
    stuck = "shard 3 is stuck"
    sh("sv up /etc/service/pdpd-3")
    # (HAProxy was kept from that other one)
    wait_until(lambda: looked(3, "taken")[0] == "up", "the watchdog doesn't find it up")
    wait_until(machine.operator.is_answered, "the shard isn't there again")
    old, why = pid(3), "shard 3 wasn't killed: [Errno 1] not permitted"
    os.kill(old, signal.SIGSTOP)
    with mock.patch("os.kill", side_effect=PermissionError(1, "not permitted")):
        checks.expect("a kill that fails", looked(3, "up"), ("stuck", [stuck, why]))
        checks.expect("one that fails again", looked(3, "stuck"), ("stuck", [why]))
    checks.expect("a kill", looked(3, "stuck"), ("stuck", []))
    wait_until(lambda: pid(3) not in (0, old), "a program that stands still isn't killed")
    looks_again(checks)
    looks_twice(checks)
    sh("sv up /etc/service/pdpd-watchdog")


def looks_again(checks):
    """A look that ends with a fault is told, and the next one knows how the shard was before."""
    from operating import watchdog
    looks = mock.patch.object(watchdog, "look", side_effect=[ValueError("a fault"), "stuck", SystemExit])
    disk = mock.patch.object(watchdog, "look_at_disk", side_effect=lambda _, before: before)
    with mock.patch.object(watchdog, "PAUSE", 0), looks as look, disk, contextlib.suppress(SystemExit), \
            contextlib.redirect_stderr(io.StringIO()) as told:
        watchdog.watch(3)
    found = [call.args for call in look.call_args_list]
    checks.expect("the looks", found, [(3, "not known"), (3, "not known"), (3, "stuck")])
    line = "pdpd-watchdog: shard 3 wasn't looked at: ValueError('a fault')\n"
    checks.expect("what is told", told.getvalue(), line)


def looks_twice(checks):
    """Of several shards that give no reply at once the first is killed; the others are looked at once more before."""
    from operating import watchdog
    found = {1: ["stuck", "stuck"], 2: ["stuck", "stuck"], 3: ["stuck", "up"]}
    states = mock.patch.object(watchdog, "shard_state", side_effect=lambda _, shard: (found[shard].pop(0), None))
    with mock.patch.object(watchdog, "KILLS", watchdog.Kills()), mock.patch.object(watchdog, "kill") as kill, states:
        last = [looked(shard, "up")[0] for shard in (1, 2, 3)]
    killed = [call.args[1] for call in kill.call_args_list]
    checks.expect("the killed ones, and how all are", (killed, last), ([1, 2], ["stuck", "stuck", "up"]))
    checks.expect("the looks that were left", found, {1: ["stuck"], 2: [], 3: []})


# It makes the pipe as pdpd-run does, and becomes what holds it, over a program that ends once the pipe does.
HOLDS = """mkfifo {0}/end; exec 3<> {0}/end 4< {0}/end; rm {0}/end
exec {1}/pdpd-hold {0}/socket sh -c 'echo begun; read line; exit 0'"""


def held(machine, checks):
    """What holds the pipe of a program's input ends as the program does, however soon that ends once it is told: a unit
    that is stopped hasn't failed."""
    place, found = machine.folder / "held", []
    place.mkdir()
    for number in range(100):
        with subprocess.Popen(["sh", "-c", HOLDS.format(place, LIBRARY)], stdout=subprocess.PIPE) as holds:
            holds.stdout.readline()
            time.sleep(number % 10 / 1000)
            holds.terminate()
            found.append(holds.wait())
    checks.expect("what it ends with", set(found), {0})


def unstarted(machine, checks):
    """A shard that isn't started again behind a move: that is told, beside why the move wasn't made.

    The other shard is started all the same, and loses no message.
    """
    machine.operator.clear()
    asks = many(machine, 8)
    places = [int(shards("where", f"d{number}")) for number in range(8)]
    one = places[0]
    other = next(place for place in places if place != one)
    # (both shards have it, and not the same of it: that is found once both are stopped)
    twice = next(name for name in map("twice{}".format, range(100)) if int(shards("where", name)) == one)
    machine.operator.makes(twice)
    checks.expect("it is made twice", decision(once(machine.operator.creates(twice), place(other))), 201)
    for refused, started in ((one, other), (other, one)):
        beside = [ask for ask, place in zip(asks, places) if place == started]
        with refuse_starts(machine.folder, refused), Deciders(beside, 2) as deciders:
            said = shards("move", twice, one, other, status=1)
        found = f"both shards have a domain {twice}, and not the same of it" in said, "refused for the test" in said
        checks.expect(f"why it isn't made, and what isn't started: {said}", found, (True, True))
        found = bool(pid(refused)), bool(pid(started))
        checks.expect("whether the one runs, and the other", found, (False, True))
        checks.expect("no decision of the other is lost", deciders.wrong, [])
        sh(f"sv up /etc/service/pdpd-{refused}")
        wait_until(machine.operator.is_answered, "the shard isn't there again")
    once(machine.operator.message("DELETE", f"/{twice}"), place(other))
    with refuse_starts(machine.folder, other):
        shards("move", "d0", one, other, status=1)
    sh(f"sv up /etc/service/pdpd-{other}")
    shards("move", "d0", one, other)
    (ask, wanted), *_ = asks
    checks.expect("a move, given again", (int(shards("where", "d0")), decision(once(ask))), (other, wanted))


def holding(machine, checks):
    """What is held back for over ten seconds is refused, and never goes on while a tool has a shard's program
    ended; what a tool holds that was killed goes on soon. A reload waits for the tools."""
    sys.path.insert(0, str(LIBRARY))
    from operating import holding, settings, talk
    machine.operator.clear()
    asks, now = many(machine, 8), settings.read()
    in_one = [shards("where", f"d{number}").strip() == "1" for number in range(8)]
    (ask, wanted), (beside, other) = asks[in_one.index(True)], asks[in_one.index(False)]
    began = time.time()
    with settings.alone(), holding.hold_messages(now, 1):
        reload = subprocess.Popen(["pdpd-shards", "reload"], stdout=subprocess.DEVNULL)
        checks.expect("beside what is held", decision(once(beside)), other)
        found = decision(once(ask))
        checks.expect("held for too long", (found, time.time() - began > 9.5), (503, True))
        checks.expect("a reload waits", reload.poll(), None)
    checks.expect("and comes", reload.wait(60), 0)
    checks.expect("behind it", decision(once(ask)), wanted)
    began = time.time()
    talk.set_while_it_runs(now, {"SHARD1": "held", "HELD": "3/the test's"})
    found = decision(once(ask))
    checks.expect("held by nobody", (found, 2 < time.time() - began < 9), (wanted, True))
    talk.set_while_it_runs(now, {"SHARD1": None, "HELD": None})


def unbalanced(machine, checks):
    """While the settings can't be read the watchdog kills what is stuck, and it, HAProxy and backups begin again by
    what was applied. A file of that which can't be read is named."""
    machine.operator.clear()
    ask = machine.operator.makes("ward")
    held, file = SETTINGS.read_text(), SETTINGS.parent / "applied" / "1.conf"
    wait_until(backups_made, "no backup is made")
    watchdog, made, applied = running("pdpd-watchdog"), backups_made(), file.read_text()
    SETTINGS.write_text(held + 'LOG="stdout\n')
    try:
        kills_stuck()
        checks.expect("the watchdog", running("pdpd-watchdog"), watchdog)
        sh("sv restart pdpd-watchdog pdpd-backups haproxy")
        # (a backup has what was stopped go on)
        wait_until(lambda: backups_made() > made, "no backup is made while the settings can't be read")
        kills_stuck()
        wait_until(lambda: decision(once(ask)) == "Permit", "HAProxy doesn't begin while the settings can't be read")
    finally:
        SETTINGS.write_text(held)
    file.write_text('LOG="stdout\n')
    said = shards("status", status=1)
    file.write_text(applied)
    checks.expect(f"what was applied can't be read: {said}", f"{file}, line 1: a quote has no end" in said, True)


def running(name):
    return sh(f"cat /etc/service/{name}/supervise/pid")


def backups_made():
    return pathlib.Path("/var/log/pdpd/pdpd-backups/current").read_text().count("backup of shard 3: /")


def kills_stuck():
    os.kill(stuck := pid(2), signal.SIGSTOP)
    wait_until(lambda: pid(2) not in (0, stuck), "the watchdog kills nothing while the settings can't be read")
