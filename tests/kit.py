"""The toolchain's kit at hand, what its `rt ci` can do, and the machine. Kits differ, so that each is asked, and none
is known by its name."""
import contextlib
import os
import pathlib
import re
import subprocess
import tempfile

import programs

# A word that is no crate's name, and how long `rt ci` may take to say so, in seconds.
NO_CRATE, PATIENCE = "no_such_crate", 60


def identity():
    """The line by which the kit is known: its name, the word `logic`, and the logic that its proofs are of."""
    programs.kit()  # raises what says that there is none
    ran = subprocess.run(["rt", "version"], stdin=subprocess.DEVNULL, capture_output=True, text=True, check=False)
    if ran.returncode or not ran.stdout.strip():
        raise programs.NotBuilt(f"`rt version` ended with status {ran.returncode}: {ran.stderr.strip()[-500:]}")
    return ran.stdout.strip()


def surroundings(without=(), **changed):
    """The surroundings of a command: this one's, without those names, and with those changed."""
    return {**{name: value for name, value in os.environ.items() if name not in without}, **changed}


def takes_names():
    """Whether `rt ci` takes names of crates: it says then which word is none. One that takes no names prints its usage.
    It is asked in a repository of its own, of one empty crate, so that it has nothing to prove."""
    with tempfile.TemporaryDirectory(prefix="gate-") as made:
        source = pathlib.Path(made) / "crates" / "one" / "src" / "lib.rt"
        source.parent.mkdir(parents=True)
        source.touch()
        (pathlib.Path(made) / "crates.txt").write_text("one:\n", encoding="ascii")
        # (`CI` refuses a run by names, which is no gate)
        how = {"cwd": made, "env": surroundings(["CI"]), "stdin": subprocess.DEVNULL, "stdout": subprocess.PIPE}
        with contextlib.suppress(subprocess.TimeoutExpired):
            ran = subprocess.run(["rt", "ci", NO_CRATE], stderr=subprocess.STDOUT, timeout=PATIENCE, check=False, **how)
            return NO_CRATE.encode() in ran.stdout
    return False


def store():
    """Where a kit that has a store keeps what it has proved: beside itself, for whoever runs it alone."""
    return programs.kit().parent / "rattle-kept"


def has_store():
    """Whether the store is there, and is this user's."""
    return store().is_dir() and store().stat().st_uid == os.geteuid()


def proofs_kept():
    """How many proofs of earlier runs the store has."""
    return sum(it.name.startswith("proof-") for it in store().iterdir()) if has_store() else 0


def memory(kind):
    """The bytes of memory of that kind, by the kernel's word for it."""
    found = re.search(rf"^{kind}:\s+(\d+)", pathlib.Path("/proc/meminfo").read_text(), re.M)
    return 1024 * int(found[1]) if found else 0


def processors():
    """How many processors there are to use."""
    return len(os.sched_getaffinity(0))


def machine():
    """The processors that there are to use, the memory, and the kit."""
    model = re.search(r"^model name\s*:\s*(.*)$", pathlib.Path("/proc/cpuinfo").read_text(), re.M)
    return {"processors": processors(), "model": model[1] if model else "unknown",
            "memory": round(memory("MemTotal") / 1_000_000_000), "kit": identity()}
