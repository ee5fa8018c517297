#!/usr/bin/env python3
"""Tries the CI gate with kits of different abilities: a script in place of `rt` stands for each, over a small
repository. And compares the kit at hand with those that README.md names: another kit is told, and another logic is a
failure. Takes half a processor-minute.

usage: tests/kits.py [PART..]     the parts, all if none is named; the last line is 'N passed, M failed'

tests/kit_parts/rt.py is that script.
"""
import json
import os
import pathlib
import re
import shutil
import signal
import subprocess
import sys
import tempfile
from concurrent.futures import ThreadPoolExecutor

sys.dont_write_bytecode = True

import kit  # noqa: E402
from checks import TOP, Checks  # noqa: E402
from forerunner import STAGES, wait_for  # noqa: E402

# A kit whose `rt ci` takes names and keeps a store, one whose does neither, and one that keeps none.
ABLE = {"takes names": True, "has store": True, "ahead": "passes", "judge": "passes"}
PLAIN = {**ABLE, "takes names": False, "has store": False}
KEEPS_NONE = {**ABLE, "has store": False}
# The crates of the small repository, which stand on each other as those of this one do.
CRATES = {"xa_link": "", "xa_records": "xa_link", "xa_http": "", "xa_server": "xa_records xa_http",
          "xa_store": "xa_records", "xa_reactor": "xa_server", "xa_schedules": "xa_reactor",
          "xa_trials": "xa_server xa_store", "pdpd": "xa_reactor xa_store"}
SCRIPTS = ("prove.py", "forerunner.py", "kit.py", "watch.py", "programs.py")
PASSING = "echo '3 passed, 0 failed'"
# How many run side by side, and how long one may take, in seconds.
PROCESSES, PATIENCE = 4, 120
IDENTITY = "a-kit-of-a-test logic 0123456789abcdef"
MUCH, LITTLE = 32_000_000_000, 1_000_000_000

checks = Checks("tests/kits.py")


class Gate:
    """A small repository with a kit, in which the CI gate runs."""

    def __init__(self, behaviour, tests=PASSING):
        self.room = pathlib.Path(tempfile.mkdtemp(prefix="kits-"))
        self.top, self.kit, self.store = (self.room / name for name in ("top", "kits/kit", "kits/rattle-kept"))
        (self.top / "tests").mkdir(parents=True)
        for name in SCRIPTS:
            shutil.copy(TOP / "tests" / name, self.top / "tests" / name)
        self.write(self.top / "tests" / "all.py", f"#!/bin/sh\n{tests}\n")
        for name in CRATES:
            self.write(self.top / "crates" / name / "src" / "lib.rt", f"// {name}\n")
            self.write(self.top / "crates" / name / "must-fail" / "wrong.edit", "")
        self.write(self.top / "crates.txt", "".join(f"{name}: {below}\n" for name, below in CRATES.items()))
        self.write(self.top / "HANDLES", "Handles allowed: none.\n")
        self.write(self.kit / "KIT-ID", f"{IDENTITY}\n")
        self.write(self.kit / "behaviour", json.dumps(behaviour))
        self.write(self.kit / "calls", "")
        self.write(self.kit / "bin" / "rt", (TOP / "tests" / "kit_parts" / "rt.py").read_text(encoding="utf-8"))

    @staticmethod
    def write(path, text):
        path.parent.mkdir(parents=True, exist_ok=True)
        path.write_text(text, encoding="utf-8")
        path.chmod(0o755)

    def start(self, processors, memory=MUCH, disk_wanted=0, path=None):
        """Starts the CI gate on so many processors, as if so much memory were free; with the words of CI and a number
        of jobs in its surroundings, which it isn't to take."""
        some = sorted(os.sched_getaffinity(0))[:processors]
        code = ("import os, sys; sys.path.insert(0, 'tests'); import forerunner, kit, prove\n"
                f"os.sched_setaffinity(0, {some}); asked = kit.memory; kit.memory = lambda kind: {memory} if kind == 'MemAvailable' else asked(kind)\n"
                f"forerunner.ROOM_WANTED = {disk_wanted}; sys.exit(prove.status())")
        env = {**os.environ, "PATH": str(path or f"{self.kit}/bin:{os.environ['PATH']}"), "CI": "true",
               "RT_JOBS": "3", "PYTHONDONTWRITEBYTECODE": "1"}
        return subprocess.Popen([sys.executable, "-c", code], cwd=self.top, env=env, stdin=subprocess.DEVNULL,
                                stdout=subprocess.PIPE, stderr=subprocess.STDOUT, text=True)

    def calls(self):
        return [json.loads(line) for line in (self.kit / "calls").read_text(encoding="utf-8").splitlines()]

    def remove(self):
        shutil.rmtree(self.room, ignore_errors=True)


def ended(ran):
    """The lines and the status of a CI gate; one that takes too long is killed."""
    try:
        written, _ = ran.communicate(timeout=PATIENCE)
    except subprocess.TimeoutExpired:
        ran.kill()
        written, _ = ran.communicate()
    return written.splitlines(), ran.returncode


class Ran:
    """A CI gate that has ended: the calls of `rt ci`, but for the question what it can do, its lines and status."""

    def __init__(self, behaviour, processors=2, before=lambda gate: None, tests=PASSING, **how):
        gate = Gate(behaviour, tests)
        try:
            before(gate)
            self.lines, self.status = ended(gate.start(processors, **how))
            calls = [call for call in gate.calls() if call["words"] != [kit.NO_CRATE]]
            self.ahead = [call for call in calls if call["words"]]
            self.whole = [call for call in calls if not call["words"]]
            self.left = [call["TMPDIR"] for call in self.ahead if os.path.exists(call["TMPDIR"])]
        finally:
            gate.remove()

    def expect_end(self, what, last, status):
        """That it has ended so, and left no folder."""
        checks.expect(f"{what}: its last line", self.lines[-1:], [last])
        checks.expect(f"{what}: its status", self.status, status)
        checks.expect(f"{what}: the folders that it leaves", self.left, [])

    def expect_whole(self, what, nice, jobs):
        """That `rt ci` ran once, with that urgency and number of jobs, over all."""
        found = [(call["nice"], call["jobs"], call["CI"], call["wrong bodies"]) for call in self.whole]
        checks.expect(f"{what}: urgency, jobs and wrong bodies", found, [(nice, jobs, "true", len(CRATES))])

    def expect_alone(self, what, why, ahead=()):
        """That `rt ci` ran alone, as the kit does best, and why, behind those runs by names."""
        checks.expect(f"{what}: the runs by names", [call["words"] for call in self.ahead], list(ahead))
        self.expect_whole(what, os.nice(0), None)
        told = [line for line in self.lines if line.startswith("`rt ci` runs alone, since ")]
        checks.expect(f"{what}: {told} tells why", len(told) == 1 and re.search(why, told[0]) is not None, True)


def side_by_side(cases):
    """The CI gates of these kits and how they run, once all have ended."""
    with ThreadPoolExecutor(PROCESSES) as pool:
        return list(pool.map(lambda case: Ran(case[0], **case[1]), cases))


def has_processors(number):
    """Whether there are so many; if not, a line says what is left out."""
    if kit.processors() < number:
        print(f"# left out: what takes {number} processors, of which there are {kit.processors()}")
    return kit.processors() >= number


# ---- the parts

def told_of(found, text):
    """What is told of a kit that the text doesn't name, and nothing of another; and whether its logic is the text's."""
    names, logics = set(re.findall(r"rattle-kit-\w+", text)), set(re.findall(r"\blogic ([0-9a-f]{16})\b", text))
    told = f"# The kit at hand is {found}. README.md names {', '.join(sorted(names))}."
    return "" if found.split()[0] in names else told, set(re.findall(r"\blogic (\S+)", found)) == logics


def named():
    """The kit at hand has the logic that README names; another name is told."""
    text = (TOP / "README.md").read_text(encoding="utf-8")
    told, same = told_of(kit.identity(), text)
    print(told, end="\n" * bool(told))
    checks.expect("the logic of the kit at hand is README's", same, True)
    one = "rattle-kit-1 logic 0123456789abcdef"
    for found, wanted in ((one, (False, True)), (IDENTITY, (True, True)), (f"{one[:-1]}0", (False, False))):
        told, same = told_of(found, f"`{one}`")
        checks.expect(f"whether {found} is told, and has the logic", (bool(told), same), wanted)


def runs_ahead():
    """Where a kit takes names and has a store, each stage goes ahead, and the judge stands back behind it."""
    if not has_processors(2):
        return
    ran = Ran(ABLE)
    stages = [at for call in ran.ahead for at, names in enumerate(STAGES) if call["words"][0] in names]
    checks.expect("the stages of the runs ahead", stages, [at for at, names in enumerate(STAGES) for _ in names])
    found = {tuple(it["words"]): (it["nice"], it["jobs"], it["CI"], it["wrong bodies"]) for it in ran.ahead}
    one_job = ("xa_server", "xa_store", "pdpd")
    wanted = {(name,): (os.nice(0), "1" if name in one_job else None, None, 0) for names in STAGES for name in names}
    checks.expect("urgency and jobs of the runs ahead", found, wanted)
    ran.expect_whole("behind them", min(19, os.nice(0) + 10), "2")
    checks.expect("the first line", ran.lines[0].startswith(f"The kit is {IDENTITY}, on 2 processors ("), True)
    checks.expect("the second line", ran.lines[1], "No proof of an earlier run is kept here: all is proved anew.")
    ran.expect_end("a kit that can run ahead", "10 passed, 0 failed", 0)


def takes_over():
    """What earlier runs have proved is told, and isn't proved again."""
    if not has_processors(2):
        return

    def keep(gate):
        gate.store.mkdir(mode=0o700)
        for name in CRATES:
            (gate.store / f"proof-{name}").touch()

    ran = Ran(ABLE, before=keep, memory=LITTLE)
    told = f"{len(CRATES)} proofs of earlier runs are in "
    checks.expect("what can be taken over", ran.lines[1][:len(told)], told)
    proved = [line for line in ran.lines if re.fullmatch(r"rt: \w+ proved", line)]
    checks.expect("what is proved again", proved, [])
    ran.expect_whole("with little memory behind a forerunner", min(19, os.nice(0) + 10), None)
    ran.expect_end("a full store", "10 passed, 0 failed", 0)


def alone():
    """Whatever keeps a forerunner from its work, `rt ci` runs alone then, as the kit does best."""
    cases = (("a kit that takes no names", "takes no names", [], PLAIN, {}),
             ("one processor", "one processor", [], ABLE, {"processors": 1}),
             ("no store", "no store appears", [["xa_link"]], KEEPS_NONE, {}),
             ("a store that can't be used", "isn't a folder", [], ABLE, {"before": lambda gate: gate.store.touch()}),
             ("little disk", "GB of disk are free", [], ABLE, {"disk_wanted": 1_000_000_000}),
             ("a run ahead that fails", "failed", [["xa_link"]], {**ABLE, "ahead": "fails"}, {}))
    cases = [case for case in cases if case[0] == "one processor" or has_processors(2)]
    for (name, why, ahead, *_), ran in zip(cases, side_by_side([(behaviour, how) for *_, behaviour, how in cases])):
        ran.expect_alone(name, why, ahead)
        ran.expect_end(name, "10 passed, 0 failed", 0)


def ends():
    """The last line and the status, if `rt ci` fails, is killed or doesn't say how it ended, or if tests fail."""
    cases = (("`rt ci` fails", "6 passed, 1 failed", "fails", PASSING),
             ("`rt ci` is killed", "0 passed, 1 failed", "is killed", PASSING),
             ("`rt ci` doesn't say how it ended", "0 passed, 1 failed", "says nothing", PASSING),
             ("tests fail", "9 passed, 3 failed", "passes", "echo '2 passed, 3 failed'; exit 1"),
             ("tests don't say how they ended", "7 passed, 1 failed", "passes", "exit 0"))
    cases = [("plain", PLAIN, *case) for case in cases] + [("able", ABLE, *case) for case in cases[:2]]
    rans = side_by_side([({**behaviour, "judge": judge}, {"tests": tests}) for _, behaviour, *_, judge, tests in cases])
    for (kind, _, name, last, *_), ran in zip(cases, rans):
        ran.expect_end(f"{kind}: {name}", last, 1)


def interrupted():
    """If the CI gate is ended or killed, what it has started ends with it."""
    for number, status in ((signal.SIGTERM, 143), (signal.SIGKILL, -signal.SIGKILL)):
        gate = Gate({**PLAIN, "judge": "goes on"})
        try:
            ran = gate.start(2)
            wait_for(lambda: any(not call["words"] for call in gate.calls()))
            ran.send_signal(number)
            checks.expect(f"the status after {number.name}", ended(ran)[1], status)
            processes = [pathlib.Path("/proc") / str(call["process"]) for call in gate.calls() if not call["words"]]
            wait_for(lambda: not any(map(pathlib.Path.exists, processes)))
            left = [int(it.name) for it in processes if it.exists()]
            checks.expect(f"what runs after {number.name}", (len(processes), left), (1, []))
            for process in left:
                os.kill(process, signal.SIGKILL)
        finally:
            gate.remove()


def no_kit():
    """Without a kit the last line says that the CI gate has failed, and another why."""
    gate = Gate(ABLE)
    try:
        (gate.kit / "bin" / "rt").unlink()
        ran = gate.start(1, path=gate.kit / "bin")
        lines, status = ended(ran)
        checks.expect("the lines without a kit", (lines[0].split(" (")[0], lines[1:]),
                      ("the toolchain's command rt isn't on the path", ["0 passed, 1 failed"]))
        checks.expect("the status without a kit", status, 2)
    finally:
        gate.remove()


PARTS = (named, runs_ahead, takes_over, alone, ends, interrupted, no_kit)


def main():
    checks.run(PARTS, sys.argv[1:])
    return checks.status()


if __name__ == "__main__":
    sys.exit(main())
