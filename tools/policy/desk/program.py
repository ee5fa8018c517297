"""The proved program xa_trials, which answers rows of inputs: where it stands, whether it is of these sources,
and what it answers."""
from __future__ import annotations

import contextlib
import os
import pathlib
import shutil
import subprocess
import sys
import threading
import time
from collections.abc import Iterator
from dataclasses import dataclass

from .model import IS_PACKED, TOP, inputs, rows

sys.path.append(str(TOP / "tests"))

if not IS_PACKED:  # outside a clone there is nothing of which a program could be made
    import programs  # noqa: E402

CRATE = TOP / "crates" / "xa_trials"
PLACES = () if IS_PACKED else (CRATE / "out" / "xa_trials", TOP / "build" / "xa_trials")
NO_CLONE = ("this is the desk as one file, which has no sources: a clone of the repository makes the program, and "
            "--program PATH names one that is there")
ESCAPED = {"|": "\\x7c", "=": "\\x3d"}
SECONDS = 600
# seconds between two words on how long something takes
BETWEEN_WORDS = 15


class ProgramFailed(Exception):
    """The program didn't answer."""


def part(text: str) -> str:
    """A text as a part of a field, in which bars and equals signs part."""
    return "".join(ESCAPED.get(letter, letter) for letter in rows.encoded(text))


@dataclass
class Program:
    """A program that answers rows; `warning` says what isn't sure about it."""
    command: list[str]
    warning: str = ""

    def answers(self, asked: list[list[str]]) -> list[list[str]]:
        """The fields of the answer to each row."""
        if not asked:
            return []
        held = "".join(rows.line(inputs.as_read(fields)) for fields in asked)
        found = [line.split("\t") for line in self.run(held).split("\n")[:-1]]
        if len(found) != len(asked):
            raise ProgramFailed(f"{' '.join(self.command)} gave {len(found)} answers to {len(asked)} rows")
        return found

    def run(self, held: str) -> str:
        """What the program writes to the rows."""
        try:
            ran = subprocess.run(self.command, input=held.encode("ascii"), capture_output=True, timeout=SECONDS,
                                 check=False)
        except (OSError, subprocess.TimeoutExpired) as fault:
            raise ProgramFailed(f"{self.command[0]} doesn't run: {fault}") from None
        if ran.returncode != 0:
            raise ProgramFailed(f"{self.command[0]} ended with status {ran.returncode}")
        return ran.stdout.decode("latin-1")


@contextlib.contextmanager
def progress(what: str) -> Iterator[None]:
    """Says on standard error how long something takes, as long as it does."""
    began, is_over = time.monotonic(), threading.Event()

    def says() -> None:
        while not is_over.wait(BETWEEN_WORDS):
            print(f"{what}: {time.monotonic() - began:.0f} s so far", file=sys.stderr, flush=True)
    telling = threading.Thread(target=says, daemon=True)
    telling.start()
    try:
        yield
    finally:
        is_over.set()
        telling.join()


def tried() -> Program:
    """The program that is there soonest: proved, or compiled without proof, which is kept for the next time."""
    if IS_PACKED:
        raise ProgramFailed(f"--program try: {NO_CLONE}")
    try:
        with progress("compiling xa_trials without proof"):
            path = programs.soonest_program(CRATE.name)
    except programs.NotBuilt as fault:
        raise ProgramFailed(str(fault)) from None
    is_proved = path == programs.prover_output(CRATE.name)
    warning = f"{path.relative_to(TOP)} is compiled without proof: what it answers isn't proved."
    return Program([str(path)], "" if is_proved else warning)


def is_none(named: str) -> bool:
    """Whether no program is wanted, by that name or by DESK_PROGRAM in the environment."""
    return (named or os.environ.get("DESK_PROGRAM", "")) == "none"


def found(named: str = "") -> Program | None:
    """The program: the one that is named, here or by DESK_PROGRAM in the environment, the proved one, or None. `try`
    is the one that is there soonest, proved or not."""
    if is_none(named):
        return None
    named = named or os.environ.get("DESK_PROGRAM", "")
    if named == "try":
        return tried()
    if named:
        return Program([named], f"{named} is taken as it is: whether it is proved isn't known here.")
    for path in PLACES:
        if path.is_file() and os.access(path, os.X_OK):
            return Program([str(path)], warning_of(path))
    return None


def is_of_these(path: pathlib.Path) -> bool:
    """Whether the program there is known to be proved, of the sources as they are now: by the note beside it, which
    `policy build` and `make prove` leave (tests/programs.py)."""
    try:
        return programs.is_of(path, programs.fingerprint(CRATE.name))
    except programs.NotBuilt:  # there is no toolchain to compare with
        return False


def warning_of(path: pathlib.Path) -> str:
    """What isn't sure about the program there."""
    return "" if is_of_these(path) else (f"whether {path.relative_to(TOP)} is proved, and of these sources, "
                                         "isn't known: "
                                         "`tools/policy/policy.py build` proves and builds it.")


def is_built() -> bool:
    """Whether the program is there, built of the sources as they are now."""
    return PLACES[0].is_file() and is_of_these(PLACES[0])


def built() -> int:
    """Proves and builds the program where it isn't, and runs it on its stored rows; the exit status."""
    if IS_PACKED:
        print(f"Nothing is built: {NO_CLONE}.")
        return 1
    name = PLACES[0].relative_to(TOP)
    if is_built():
        print(f"{name} is proved, and of these sources.")
        return 0
    if shutil.which("rt") is None:
        print("The toolchain's command rt isn't on the path: see README.md, What it stands on.")
        return 1
    print("Proving and building xa_trials; from nothing this takes long, after small changes a minute.", flush=True)
    made_of = programs.withdraw_notes([CRATE.name])
    with open(CRATE / "stdin", "rb") as stored:
        ran = subprocess.run(["rt", "run"], cwd=CRATE, stdin=stored, stdout=subprocess.PIPE, check=False)
    if ran.returncode != 0:
        print("It isn't proved: rt run says why.")
        return 1
    if ran.stdout != (CRATE / "stdout").read_bytes():
        print(f"{name} is proved, but answers its stored rows otherwise.")
        return 1
    programs.write_notes(made_of)
    if not is_built():
        print(f"{name} is proved, but a source changed meanwhile.")
        return 1
    PLACES[1].parent.mkdir(exist_ok=True)
    for path in (PLACES[0], programs.note_of(PLACES[0])):
        shutil.copy2(path, PLACES[1].parent / path.name)
    print(f"{name} is proved, and answers its stored rows.")
    return 0
