#!/usr/bin/env python3
"""A toolchain's `rt` that proves nothing: it notes how it was called, and answers as the kit would for which it stands.
tests/kits.py puts a copy of it into the folder bin/ of a kit of its own, whose file `behaviour` says what it can do."""
import contextlib
import json
import os
import pathlib
import signal
import subprocess
import sys
import time

KIT = pathlib.Path(__file__).resolve().parent.parent
STORE = KIT.parent / "rattle-kept"
BEHAVIOUR = json.loads((KIT / "behaviour").read_text(encoding="ascii"))
# How long a proof takes, and how long another run's is waited for, in seconds.
PROOF, PATIENCE = 0.3, 20


def say(text):
    print(f"rt: {text}", flush=True)


def end(passed, failed, status):
    print(f"{passed} passed, {failed} failed", flush=True)
    return status


def note(words):
    """Notes how it was called, and what runs it."""
    call = {"words": words, "nice": os.nice(0), "process": os.getpid(), "TMPDIR": os.environ.get("TMPDIR"),
            "jobs": os.environ.get("RT_JOBS"), "CI": os.environ.get("CI"),
            "wrong bodies": len(list(pathlib.Path("crates").glob("*/must-fail/*")))}
    with open(KIT / "calls", "a", encoding="utf-8") as calls:
        calls.write(json.dumps(call) + "\n")


def crates():
    """The crates with what each stands on."""
    rows = [line.split() for line in pathlib.Path("crates.txt").read_text(encoding="ascii").splitlines()]
    return {head.removesuffix(":"): below for head, *below in rows}


def tower(name):
    """A crate and those below it, the lowest first."""
    return list(dict.fromkeys([*(it for below in crates()[name] for it in tower(below)), name]))


def prove(name):
    """Takes some time as a process that works at the crate, in the way of a compiler."""
    subprocess.run([sys.executable, "-c", f"import time; time.sleep({PROOF})", "--crate-name", name], check=True)


def prove_once(name):
    """Proves a crate, unless it is in the store, or another run is at it."""
    kept, turn = STORE / f"proof-{name}", STORE / f"turn-{name}"
    if not kept.exists():
        with contextlib.suppress(FileExistsError):
            turn.touch(exist_ok=False)
            prove(name)
            kept.touch()
            return say(f"{name} proved")
    if not kept.exists():
        say(f"{name}: another run on this machine is proving the same; waiting for it")
    until = time.time() + PATIENCE
    while not kept.exists() and time.time() < until:
        time.sleep(0.02)
    return say(f"{name} is kept: an earlier run on this machine proved the same files over the same libraries")


def prove_all(names):
    """Proves these crates, with a store where the kit has one."""
    if BEHAVIOUR["has store"]:
        with contextlib.suppress(OSError):
            STORE.mkdir(mode=0o700, exist_ok=True)
    for name in names:
        if STORE.is_dir():
            prove_once(name)
        else:
            prove(name)
            say(f"{name} proved")


def by_names(names):
    if not BEHAVIOUR["takes names"]:
        print("rt: proves, builds and tests the crates of a Rattle repository with the toolchain of this kit.\n\n"
              "  rt ci                   the merge gate, at the top of the repository", file=sys.stderr)
        return 2
    if lacking := [name for name in names if name not in crates()]:
        say(f"rt ci takes --anew and names of crates as crates.txt has them, and {lacking[0]} is none")
        return end(0, 1, 2)
    if os.environ.get("CI") == "true" or BEHAVIOUR["ahead"] == "fails":
        say("rt ci with names is not the gate: run it with none in .ci/run")
        return end(0, 1, 2)
    prove_all(dict.fromkeys(it for name in names for it in tower(name)))
    return end(len(names), 0, 0)


def whole():
    """`rt ci` itself, which ends as it is to."""
    if BEHAVIOUR["judge"] == "goes on":
        time.sleep(3600)
    prove_all(crates())
    if BEHAVIOUR["judge"] == "is killed":
        os.kill(os.getpid(), signal.SIGKILL)
    if BEHAVIOUR["judge"] == "fails":
        say("FAILED: xa_link/a_wrong_body.edit")
        return end(6, 1, 1)
    return end(7, 0, 0) if BEHAVIOUR["judge"] == "passes" else 0


def main():
    word, *names = sys.argv[1:]
    if word == "version":
        print((KIT / "KIT-ID").read_text(encoding="ascii").strip())
        return 0
    note(names)
    return by_names(names) if names else whole()


if __name__ == "__main__":
    sys.exit(main())
