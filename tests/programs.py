#!/usr/bin/env python3
"""The programs that tests run: those that are proved and built of these very sources, or else compiled of them
without proof.

usage: tests/programs.py proved NAME COMMAND..     runs a command that proves and builds the program NAME, and
                                                   notes of which sources it made it
       tests/programs.py soonest NAME              tells where NAME is: the proved program, or else one without
                                                   proof, which it compiles if there is none of these sources
       tests/programs.py ready NAME [PROGRAM]      puts that program, or the one that is named, into build/NAME,
                                                   says whether it is proved, and tells where it is
       tests/programs.py tower NAME                tells which crates of this repository NAME is made of

A note beside a program has a checksum of all that it was made of, and one of the program; where either isn't
what it is now, the program is never taken.
"""
import hashlib
import json
import os
import pathlib
import shlex
import shutil
import signal
import subprocess
import sys
import tempfile
import time

TOP = pathlib.Path(__file__).resolve().parent.parent
UNPROVED = TOP / "build" / "unproved"
# How a program is compiled without proof. Without optimisation each call clears its locals: the program is
# there sooner, and a decision takes many times as long.
OPTIMISED, QUICKLY = "-O1", "-O0"
# How long a compilation may take, in seconds, and how often is looked how far it is.
PATIENCE, PAUSE = 3600, 0.2


class NotBuilt(Exception):
    """There is no program, and why."""


def kit():
    """The folder of the toolchain."""
    found = shutil.which("rt")
    if found is None:
        raise NotBuilt("the toolchain's command rt isn't on the path (see README.md, What it stands on)")
    return pathlib.Path(found).resolve().parent.parent


def crates():
    """All crates of this repository with what each stands on, in the order of crates.txt."""
    text = (TOP / "crates.txt").read_text(encoding="utf-8")
    rows = [line.partition("#")[0].partition(":") for line in text.splitlines()]
    return {head.split()[0]: rest.split() for head, _, rest in rows if head.strip()}


def tower(name):
    """The crates of this repository that a crate is made of, itself too, each with what it stands on."""
    lines, found, wanted = crates(), {}, [name]
    while wanted:
        name = wanted.pop()
        found[name] = lines[name]
        wanted += [below for below in lines[name] if below in lines and below not in found]
    return found


def sum_of(path):
    return hashlib.sha256(path.read_bytes()).hexdigest()


def fingerprint(name, parts=("src", "specs", "proofs")):
    """A checksum of all that a program is made of: the kit, HANDLES, and of each crate its line of crates.txt
    and those folders of it."""
    found = hashlib.sha256((kit() / "KIT-ID").read_bytes() + (TOP / "HANDLES").read_bytes())
    for crate, line in sorted(tower(name).items()):
        found.update(repr((crate, line)).encode())
        paths = [path for part in parts for path in (TOP / "crates" / crate / part).rglob("*")]
        for path in sorted(filter(pathlib.Path.is_file, paths)):
            found.update(repr((str(path.relative_to(TOP)), sum_of(path))).encode())
    return found.hexdigest()


def note_of(program):
    return program.with_name(program.name + ".made-of")


def note(program, made_of):
    """Notes beside a program what it was made of."""
    text = json.dumps({"sources": made_of, "program": sum_of(program)})
    note_of(program).write_text(text + "\n", encoding="ascii")


def is_of(program, made_of):
    """Whether the program is there, and its note says that it, as it is, was made of that."""
    try:
        found = json.loads(note_of(program).read_text(encoding="ascii"))
        return found == {"sources": made_of, "program": sum_of(program)} and os.access(program, os.X_OK)
    except (OSError, ValueError):
        return False


def prover_output(name):
    """Where the prover leaves a program."""
    return TOP / "crates" / name / "out" / name


def proved_program(name):
    """The program that is proved and built of these very sources, if there is one."""
    return prover_output(name) if is_of(prover_output(name), fingerprint(name)) else None


def withdraw_notes(names):
    """Removes the notes of these programs, before the prover makes them; gives what they are to be made of."""
    for name in names:
        note_of(prover_output(name)).unlink(missing_ok=True)
    return {name: fingerprint(name) for name in names}


def write_notes(before):
    """Notes beside each of the programs, which the prover has made, of what it is made, unless a source has
    changed meanwhile."""
    for name, made_of in before.items():
        if prover_output(name).is_file() and fingerprint(name) == made_of:
            note(prover_output(name), made_of)


def compilers_in(folder):
    """The commands with which `rt try`, whose folder for temporary files this is, compiles at this moment what
    it has made of the sources, each with the folder that it runs in."""
    for process in pathlib.Path("/proc").glob("[0-9]*"):
        try:
            words = (process / "cmdline").read_bytes().decode().split("\0")[:-1]
            at = (process / "cwd").readlink()
        except (OSError, UnicodeDecodeError):
            continue
        if folder in at.parents and "-x" in words and any(word.endswith(".bc") for word in words):
            yield words, at


def has_main(translation):
    """Whether a translation is whole and of a program: the compiler makes an object of an empty one too, and
    that has no `main`."""
    words = ["llvm-nm", "--defined-only", "--just-symbol-name", translation]
    how = {"stdin": subprocess.DEVNULL, "capture_output": True, "check": False}
    named = subprocess.run(words, executable=kit() / "toolchain" / "bin" / "clang", **how)
    return named.returncode == 0 and b"main" in named.stdout.split()


def compiler_words(room, folder, without_main):
    """The words of a compiler that runs in the room, once its translation, of which the folder has a copy then,
    has `main`. Those that have none are put into `without_main`, with their bytes."""
    for words, at in compilers_in(room):
        source = next(word for word in words if word.endswith(".bc"))
        try:
            shutil.copyfile(at / source, folder / source)
        except FileNotFoundError:  # it has ended meanwhile
            continue
        if has_main(folder / source):
            return words
        without_main[str(at.relative_to(room) / source)] = (folder / source).stat().st_size
    return None


def end_hints(process):
    """Ends the check that `rt try` runs beside, which only looks for names that a check would refuse, and takes
    a processor."""
    for child in pathlib.Path(f"/proc/{process}/task/{process}/children").read_text().split():
        try:
            words = pathlib.Path(f"/proc/{child}/cmdline").read_bytes().split(b"\0")
            if words[1:2] == [b"check"] and b"--start" in words:
                os.kill(int(child), signal.SIGKILL)
        except OSError:
            continue


def missing_translation(name, folder, without_main):
    """The error that there is no translation of a program, and why."""
    parts = ", ".join(f"{source} of {size} bytes" for source, size in without_main.items())
    reason = f"Without `main` were {parts}." if without_main else "Its compiler wasn't seen to run."
    output = (folder / "output").read_text(errors="replace")[-3000:]
    return NotBuilt(f"`rt try` ended, or took over {PATIENCE} s, and no translation of {name} was taken. {reason} "
                    f"It said:\n{output}")


def translation_command(name, folder, level):
    """Has `rt try` translate a program for LLVM, ends it there, and gives the words that compile it at that
    level; they name the translation, a file of the folder."""
    room, case, without_main = folder / "try", folder / "cases", {}
    room.mkdir()
    case.mkdir()
    (case / "none").touch()
    began = time.time()
    with open(folder / "output", "wb") as output:
        how = {"stdin": subprocess.DEVNULL, "stdout": output, "stderr": output}
        words = ["rt", "try", "--steps", "1", "--cases", case, "--", "none"]
        surroundings = {**os.environ, "TMPDIR": str(room)}
        trial = subprocess.Popen(words, cwd=TOP / "crates" / name, env=surroundings, **how)
        try:
            while not (words := compiler_words(room, folder, without_main)):
                end_hints(trial.pid)
                if trial.poll() is not None or time.time() - began > PATIENCE:
                    raise missing_translation(name, folder, without_main)
                time.sleep(PAUSE)
        finally:
            trial.terminate()
            trial.wait()
    return [level if word == "-O0" else word for word in words if not word.startswith("-fsanitize")]


def unproved_path(name, level):
    """Where a program that is compiled at that level is kept."""
    return UNPROVED / (name if level == OPTIMISED else f"{name}{level}")


def compiled_program(name, level=OPTIMISED):
    """The program compiled of these sources without proof: what it does isn't proved, and it stops where an
    index is out of range, say. It is kept in build/unproved, and compiled again where a source has changed."""
    program, made_of = unproved_path(name, level), fingerprint(name, ("src",))
    if is_of(program, made_of):
        return program
    UNPROVED.mkdir(parents=True, exist_ok=True)
    with tempfile.TemporaryDirectory(prefix=f"{name}-", dir=UNPROVED) as made:
        folder = pathlib.Path(made).resolve()
        words, top = translation_command(name, folder, level), kit()
        parts = [words[words.index("-o") + 1], top / "c" / "libos_c.a", top / "c" / "liblibc_c.a"]
        link = [top / "bin" / "rattle-link", "--target", "x86_64-unknown-linux-gnu", "--toolchain", top / "toolchain"]
        for command in (words, [*link, "-o", name, *parts]):
            result = subprocess.run(command, cwd=folder, stdin=subprocess.DEVNULL, capture_output=True, check=False)
            if result.returncode != 0:
                raise NotBuilt(f"{name} isn't compiled:\n{result.stderr.decode(errors='replace')[-3000:]}")
        if fingerprint(name, ("src",)) != made_of:
            raise NotBuilt(f"a source of {name} changed while it was compiled")
        note_of(program).unlink(missing_ok=True)
        os.replace(folder / name, program)
    note(program, made_of)
    return program


def say(text):
    print(text, file=sys.stderr, flush=True)


def soonest_program(name):
    """The program that is there soonest: the proved one, or else one that is compiled without proof. If none is
    there yet, it tells what it compiles, and how long that took."""
    made_of = fingerprint(name, ("src",))
    kept = [path for level in (OPTIMISED, QUICKLY) if is_of(path := unproved_path(name, level), made_of)]
    found = proved_program(name) or next(iter(kept), None)
    if found:
        return found
    say(f"# {name} isn't proved and built of these sources. It and the {len(tower(name)) - 1} crates below it are\n"
        "# compiled without proof, in some three minutes, and kept for the next time.")
    began = time.time()
    found = compiled_program(name, QUICKLY)
    say(f"# Compiled in {time.time() - began:.0f} s: {found.relative_to(TOP)}. Nothing of it is proved.")
    return found


def shortcoming(name, program):
    """What whoever starts a program has to know of it; nothing, where it is proved and of these sources."""
    if program == prover_output(name) and is_of(program, fingerprint(name)):
        return ""
    if program == unproved_path(name, OPTIMISED):
        return "it was compiled without proof: nothing that it does is proved"
    if program == unproved_path(name, QUICKLY):
        return ("it was compiled without proof and without optimisation: nothing that it does is proved, "
                "and a decision takes many times as long as it should")
    return f"it is {program}: whether that is proved isn't known here"


def ready_program(name, named=None):
    """Puts the program that is there soonest, or the one that is named, into build/: a copy of one that is proved;
    else a script that starts it, and says each time what it lacks."""
    program, placed = pathlib.Path(named).resolve() if named else soonest_program(name), TOP / "build" / name
    if not (program.is_file() and os.access(program, os.X_OK)):
        raise NotBuilt(f"{program} is no program that can be started. {placed.relative_to(TOP)} is left as it was.")
    if program == placed:  # (a script that starts itself would never end)
        say(f"# The program is {placed.relative_to(TOP)}, as it was.")
        return placed
    lacks = shortcoming(name, program)
    placed.parent.mkdir(exist_ok=True)
    made = placed.with_name(f"{name}.{os.getpid()}")
    if lacks:
        made.write_text(f"#!/bin/sh\necho {shlex.quote(f'{name}: {lacks}')} >&2\nexec {shlex.quote(str(program))} "
                        '"$@"\n', encoding="utf-8")
    else:
        shutil.copyfile(program, made)
    made.chmod(0o755)
    os.replace(made, placed)
    say(f"# The program is {placed.relative_to(TOP)}: {lacks or 'proved, of these sources'}.")
    return placed


def main():
    word, *rest = sys.argv[1:] or [""]
    if word == "soonest" and len(rest) == 1:
        print(soonest_program(rest[0]))
        return 0
    if word == "ready" and len(rest) in (1, 2):
        print(ready_program(*rest))
        return 0
    if word == "tower" and len(rest) == 1 and rest[0] in crates():
        print(*sorted(tower(rest[0])), sep="\n")
        return 0
    if word != "proved" or len(rest) < 2:
        print(__doc__, file=sys.stderr)
        return 2
    before = withdraw_notes(rest[:1])
    status = subprocess.run(rest[1:], check=False).returncode
    if status == 0:
        write_notes(before)
    return status


if __name__ == "__main__":
    try:
        sys.exit(main())
    except NotBuilt as fault:
        sys.exit(str(fault))
