#!/usr/bin/env python3
"""The CI gate: `rt ci`, whole, and then all tests over the programs that it has proved. It begins with the kit, the
machine and what can be taken over of earlier runs, and ends with when each crate was proved, what it took, and
'N passed, M failed'.

usage: tests/prove.py

Where the kit can, a forerunner (tests/forerunner.py) proves crates ahead of `rt ci`, the judge. Else `rt ci` runs
alone, as the kit does best: with no less urgency, and as many jobs as it chooses.
"""
import contextlib
import json
import re
import resource
import signal
import subprocess
import sys

sys.dont_write_bytecode = True

import kit  # noqa: E402
import programs  # noqa: E402
from forerunner import Forerunner, Run  # noqa: E402
from watch import Watch  # noqa: E402

# How much the judge and its wrong bodies stand back behind a forerunner.
NICE = 10
# Bytes of memory that have to be free for the judge to try wrong bodies without asking for more: `rt ci` counts
# the crates that the judge waits for as if it proved them, too, and lets no wrong body run beside the last two.
FREE_WANTED = 16_000_000_000
FIGURES = programs.TOP / "build" / "gate.json"
COUNTS = re.compile(r"(\d+) passed, (\d+) failed")


def judge_behind(forerunner, watch):
    """The run that decides. Behind a forerunner one of its tasks waits for a crate, and half the processors have wrong
    bodies."""
    def told(run, line):
        watch.note(line)
        if "all proved" not in watch.marks and run.seen.issuperset(programs.crates()):
            watch.mark("all proved")
            forerunner.stop()  # nothing is left for it

    is_ahead, jobs = forerunner.why_not is None, {}
    if is_ahead and kit.memory("MemAvailable") >= FREE_WANTED:
        jobs = {"RT_JOBS": str(kit.processors() // 2 + 1)}
    env = kit.surroundings(["RT_JOBS"], **jobs)
    forerunner.judge = Run([], programs.TOP, env, sys.stdout, told, NICE if is_ahead else 0)
    return forerunner.judge


def judged(watch):
    """Runs `rt ci`, behind the forerunner if there can be one, and gives its status and its last line."""
    forerunner = Forerunner(watch)
    with contextlib.ExitStack() as ending:
        ending.callback(forerunner.remove)
        forerunner.start()
        why_not = forerunner.why_not
        print(f"`rt ci` runs alone, since {why_not}." if why_not else "A forerunner goes ahead of `rt ci`.", flush=True)
        judge = judge_behind(forerunner, watch)
        ending.callback(judge.stop)
        status = judge.read()
        if status:
            print(f"What the forerunner wrote last:\n{forerunner.log_tail()}", end="", flush=True)
    return status, judge.last


def tested():
    """Runs all tests over the proved programs, and gives their status and their last line."""
    last, words = "", [programs.TOP / "tests" / "all.py", "--proved"]
    how = {"stdin": subprocess.DEVNULL, "stdout": subprocess.PIPE, "stderr": subprocess.STDOUT}
    with subprocess.Popen(words, cwd=programs.TOP, text=True, errors="replace", **how) as ran:
        for line in ran.stdout:
            print(line, end="", flush=True)
            last = line.strip() or last
    return ran.returncode, last


def outcome(status, last):
    """How many passed and failed, by a command's status and last line, which says so of whatever has ended well."""
    found = COUNTS.match(last)
    passed, failed = map(int, found.groups()) if found else (0, 0)
    return passed, failed or int(status != 0 or not found)


def figures(watch):
    """What the CI gate took."""
    used = resource.getrusage(resource.RUSAGE_CHILDREN)
    return {**kit.machine(), "clock": watch.minutes(), "processor": (used.ru_utime + used.ru_stime) / 60,
            "most": watch.most / 1e9, "most at": watch.most_at, "held by": watch.held_by, "marks": watch.marks,
            "proved": watch.proved, "kept": sorted(watch.kept - set(watch.proved))}


def tell(found):
    """Prints what the CI gate took, and keeps it for bench/gate.py."""
    FIGURES.parent.mkdir(exist_ok=True)
    FIGURES.write_text(json.dumps(found, indent=1) + "\n", encoding="utf-8")
    print("When each crate was proved, and what followed, in minutes after the start:")
    for name, at in sorted([*found["proved"].items(), *found["marks"].items()], key=lambda it: it[1]):
        print(f"  {name:12} {at:6.1f}")
    if found["kept"]:
        print(f"  kept from earlier runs on this machine: {' '.join(found['kept'])}")
    print(f"The CI gate took {found['clock']:.1f} minutes by the clock and {found['processor']:.1f} processor-minutes, "
          f"and {found['most']:.1f} GB of memory at the most,\non {found['processors']} processors "
          f"({found['model']}, {found['memory']} GB; {found['kit']}).")
    by = sorted(found["held by"].items(), key=lambda it: -it[1])
    print(f"That memory was held after {found['most at']:.1f} minutes, in GB, by "
          f"{', '.join(f'{name} {held:.1f}' for name, held in by if held >= 0.05)}.")


def tell_machine(found):
    """Prints the kit, the machine, and what can be taken over."""
    kept = kit.proofs_kept()
    print(f"The kit is {found['kit']}, on {found['processors']} processors ({found['model']}) "
          f"with {found['memory']} GB of memory.")
    print(f"{kept} proofs of earlier runs are in {kit.store()}: each is taken over if its files are the same." if kept
          else "No proof of an earlier run is kept here: all is proved anew.", flush=True)


def main():
    """Runs the CI gate, and gives its status."""
    tell_machine(kit.machine())
    watch, made_of = Watch(), programs.withdraw_notes(["pdpd", "xa_trials", "xa_schedules"])
    ended = [judged(watch)]
    watch.mark("rt ci ended")
    if outcome(*ended[0])[1] == 0:
        programs.write_notes(made_of)
        ended.append(tested())
    watch.mark("end")
    tell(figures(watch))
    passed, failed = (sum(counts) for counts in zip(*(outcome(*each) for each in ended)))
    print(f"{passed} passed, {failed} failed")
    return 1 if failed else 0


def status():
    """Runs the CI gate, and gives its status, if there is a kit."""
    signal.signal(signal.SIGTERM, lambda *_: sys.exit(143))
    try:
        return main()
    except programs.NotBuilt as fault:
        print(f"{fault}\n0 passed, 1 failed")
        return 2


if __name__ == "__main__":
    sys.exit(status())
