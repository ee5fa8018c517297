"""What goes ahead of the CI gate (tests/prove.py), if the kit can do so: runs of `rt ci` by names, over a copy of the
crates without their wrong bodies.

`rt ci` gives each crate of a chain one processor as long as there are wrong bodies to try. The forerunner has two for
each. It proves those crates for which others wait, and the dearest; those beside them are left to the judge. The judge,
which is `rt ci` itself over the whole checkout, takes from the kit's store what was proved of the same files, and tries
the wrong bodies beside. It alone decides: if the forerunner fails, the judge proves all itself.
"""
import ctypes
import os
import pathlib
import re
import shutil
import signal
import subprocess
import tempfile
import threading
import time
from concurrent.futures import ThreadPoolExecutor

import kit
import programs
from watch import descendants, words_of

# What the forerunner's copy has of a crate: not its wrong bodies, and nothing to run its program on.
COPIED = ("src", "specs", "proofs", "args", "status")
# Gigabytes of disk that two runs of `rt ci` want; the store keeps nothing where fewer than five are free.
ROOM_WANTED = 10
# How long is waited for a run to begin, in seconds.
BEGINS_WITHIN = 180
# The stages, one after another: crates that are proved side by side, each in a run of its own with those below it. In
# one run by both names each of two crates that become ready together would get one job.
STAGES = (("xa_link",), ("xa_records",), ("xa_server", "xa_store"), ("xa_schedules",), ("xa_trials",), ("pdpd",))
# For memory the two large programs come one after the other, and the judge stands still beside them: it would prove the
# other one, or try wrong bodies, which hold up to 4 GB each. It tries those that are left afterwards.
ALONE = STAGES[-2:]
# What is proved with one job, for memory.
WITH_ONE_JOB = ("xa_server", "xa_store", "pdpd")


def die_with_parent(behind):
    """Has the process that is being started end when this one does, however it ends (PR_SET_PDEATHSIG), and
    stand back that much."""
    ctypes.CDLL(None).prctl(1, signal.SIGKILL)
    os.nice(behind)


def wait_for(is_so):
    """Waits until it is so, but not for ever."""
    until = time.time() + BEGINS_WITHIN
    while time.time() < until and not is_so():
        time.sleep(0.2)


class Run:
    """A running `rt ci`, whose lines are written to a file and told, each with the run."""

    def __init__(self, names, folder, env, log, told, behind=0):
        self.log, self.told, self.names, self.seen, self.last, self.waits = log, told, names, set(), "", False
        self.process = subprocess.Popen(["rt", "ci", *names], cwd=folder, env=env, text=True, errors="replace",
                                        stdin=subprocess.DEVNULL, stdout=subprocess.PIPE, stderr=subprocess.STDOUT,
                                        preexec_fn=lambda: die_with_parent(behind))

    def read(self):
        """Reads its lines to their end, and gives its status."""
        for line in self.process.stdout:
            self.log.write(line)
            self.log.flush()
            self.last = line.strip() or self.last
            self.waits = self.waits or line.endswith("waiting for it\n")
            if found := re.match(r"rt: (\w+) (?:proved|is kept|NOT PROVED)\b", line):
                self.seen.add(found[1])
            self.told(self, line)
        return self.process.wait()

    def has_begun(self):
        """Whether it is at a proof, has waited for another run's, or has ended: where all is kept, it ends without a
        proof. Before its first proof, the compiler only lays out files."""
        is_at_proof = any("--crate-name" in words_of(it) for it in descendants(self.process.pid))
        return self.waits or is_at_proof or self.process.poll() is not None

    def stop(self):
        """Ends it; what it has started ends with it."""
        self.process.kill()
        self.process.wait()


class Forerunner:
    """The runs that go ahead, stage by stage, over a copy in a folder of its own."""

    def __init__(self, watch):
        self.watch, self.runs, self.folder, self.log, self.judge, self.why_not = watch, [], None, None, None, None
        self.turn, self.is_stopped = threading.Lock(), False

    def start(self):
        """Goes ahead, or tells why it doesn't."""
        try:
            self.why_not = self.obstacle() or self.go()
        except OSError as fault:
            self.why_not = str(fault)
        if self.why_not:
            self.stop()

    def obstacle(self):
        """What is in its way, if something is."""
        store = kit.store()
        if kit.processors() < 2:
            return "there is one processor"
        if store.exists() and not kit.has_store():
            return f"{store} isn't a folder of this user's"
        places = (store if store.exists() else store.parent, tempfile.gettempdir())
        if min(shutil.disk_usage(it).free for it in places) < ROOM_WANTED << 30:
            return f"fewer than {ROOM_WANTED} GB of disk are free"
        return None if kit.takes_names() else "the kit's `rt ci` takes no names of crates"

    def go(self):
        """Makes the copy, and begins; gives what shows that it can't go on, if something does."""
        self.folder = pathlib.Path(tempfile.mkdtemp(prefix="gate-"))
        # (rt runs programs as nobody, who has to come to its temporary files)
        self.folder.chmod(0o711)
        (self.folder / "tmp").mkdir(mode=0o777)
        self.copy_crates()
        self.log = open(self.folder / "log", "w", encoding="utf-8")
        self.begin(STAGES[0])
        threading.Thread(target=self.run_stages, daemon=True).start()
        wait_for(self.has_begun)
        if failed := [run for run in self.runs if run.process.poll()]:
            return f"`rt ci {' '.join(failed[0].names)}` failed: {failed[0].last}"
        return None if kit.has_store() else "no store appears beside the kit"

    def copy_crates(self):
        parts = [programs.TOP / "crates" / name / part for name in programs.crates() for part in COPIED]
        for path in filter(pathlib.Path.exists, [*parts, programs.TOP / "crates.txt", programs.TOP / "HANDLES"]):
            to = self.folder / "copy" / path.relative_to(programs.TOP)
            to.parent.mkdir(parents=True, exist_ok=True)
            shutil.copytree(path, to) if path.is_dir() else shutil.copyfile(path, to)

    def begin(self, names):
        """Begins a stage. (`CI` refuses a run by names, which is no gate.)"""
        tmp, self.runs = str(self.folder / "tmp"), []
        for name in names:
            jobs = {"RT_JOBS": "1"} if name in WITH_ONE_JOB else {}
            env = kit.surroundings(["CI", "RT_JOBS"], TMPDIR=tmp, **jobs)
            self.runs.append(Run([name], self.folder / "copy", env, self.log, self.told))

    def run_stages(self):
        """Reads the runs of the first stage to their ends, and goes on with the others, as long as none fails.
        However it ends, the judge goes on."""
        try:
            failed = self.wait_for_stage()
            for names in STAGES[1:]:
                with self.turn:
                    if failed or self.is_stopped:
                        break
                    self.begin(names)
                if names not in ALONE:
                    threading.Thread(target=self.resume_judge, daemon=True).start()
                failed = self.wait_for_stage()
        finally:
            self.send_to_judge(signal.SIGCONT)

    def wait_for_stage(self):
        """Reads the stage's runs to their ends. Whether one fails."""
        with ThreadPoolExecutor(len(self.runs)) as pool:
            return any(pool.map(Run.read, self.runs))

    def has_begun(self):
        return all(run.has_begun() for run in self.runs)

    def resume_judge(self):
        """Lets the judge go on once the stage has begun."""
        wait_for(self.has_begun)
        self.send_to_judge(signal.SIGCONT)

    def told(self, run, line):
        """What follows a line of one of its runs. If the run waits, it may be the judge that proves what it waits for.
        Behind the last crate of a stage that another follows, the judge stands still: else it were first at the
        crates with which that one begins."""
        self.watch.note(line)
        names = [name for each in self.runs for name in each.names]
        if line.endswith("waiting for it\n"):
            self.send_to_judge(signal.SIGCONT)
        elif run.seen.issuperset(run.names) and all(each.seen.issuperset(each.names) for each in self.runs):
            if names != list(STAGES[-1]):
                self.send_to_judge(signal.SIGSTOP)

    def send_to_judge(self, number):
        if self.judge:
            self.judge.process.send_signal(number)

    def log_tail(self):
        """The last lines that it wrote."""
        log = self.folder and self.folder / "log"
        return "".join(log.read_text(errors="replace").splitlines(keepends=True)[-60:]) if log else "nothing\n"

    def stop(self):
        with self.turn:
            self.is_stopped = True
            for run in self.runs:
                run.stop()

    def remove(self):
        """Ends it, and removes its folder."""
        self.stop()
        if self.folder:
            shutil.rmtree(self.folder, ignore_errors=True)
