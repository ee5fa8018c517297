#!/usr/bin/env python3
"""Measures the CI gate from nothing: runs `make prove` in a fresh clone of what is committed, by a copy of the
toolchain whose store is empty (its files by further names where the disk allows, so that it takes no room), and
writes what it took into docs/GATE.md, in place of what stood there for this kit and as many processors, and what
each wrong body took. With the word `test` it measures `make test`, which compiles the programs without proof there.

usage: bench/gate.py [test]                     with all processors, and nothing else running
       taskset -c 0,1 bench/gate.py [test]      with two
"""
import json
import os
import pathlib
import re
import resource
import shutil
import subprocess
import sys
import tempfile
import time

TOP = pathlib.Path(__file__).resolve().parent.parent
sys.path.insert(0, str(TOP / "tests"))
sys.dont_write_bytecode = True

import edits  # noqa: E402
from edit_costs import EditCosts  # noqa: E402
from kit import machine  # noqa: E402

PAGE = TOP / "docs" / "GATE.md"


def marks(found, word=""):
    """The comments before and behind what stands for a kit and a number of processors."""
    told = f"{found['kit'].split()[0]}, {found['processors']} processors"
    return f"<!-- bench/gate.py{word}, {told} -->", f"<!-- end of{word} {told} -->"


def copy_of_kit(folder):
    """A toolchain with an empty store, in a folder."""
    kit = pathlib.Path(shutil.which("rt")).resolve().parent.parent
    to = folder / "kit" / kit.name
    to.parent.mkdir()
    if subprocess.run(["cp", "-al", kit, to], stderr=subprocess.DEVNULL, check=False).returncode:
        shutil.rmtree(to, ignore_errors=True)
        subprocess.run(["cp", "-a", kit, to], check=True)
    return to


def fresh(folder):
    """A fresh clone, and the surroundings in which it has the copy of the toolchain."""
    clone = folder / "clone"
    subprocess.run(["git", "clone", "-q", TOP, clone], check=True)
    return clone, {**os.environ, "PATH": f"{copy_of_kit(folder) / 'bin'}:{os.environ['PATH']}", "CI": "true"}


def gate(folder):
    """Runs the CI gate from nothing, and gives its status and what it took."""
    clone, surroundings = fresh(folder)
    costs = EditCosts()
    status = subprocess.run(["make", "prove"], cwd=clone, stdin=subprocess.DEVNULL, env=surroundings,
                            check=False).returncode
    figures = clone / "build" / "gate.json"
    if not figures.is_file():
        return status, None
    return status, {**json.loads(figures.read_text(encoding="utf-8")), "edits": costs.took}


def tests(folder):
    """Runs the tests from nothing, and gives their status and what they took, as a line of the page."""
    clone, surroundings = fresh(folder)
    began = time.time()
    ran = subprocess.run(["make", "test"], cwd=clone, stdin=subprocess.DEVNULL, env=surroundings,
                         stdout=subprocess.PIPE, text=True, check=False)
    print(ran.stdout, end="")
    took = resource.getrusage(resource.RUSAGE_CHILDREN)
    last = [line for line in ran.stdout.splitlines() if re.fullmatch(r"\d+ passed, \d+ failed", line)]
    clock, processor = (time.time() - began) / 60, (took.ru_utime + took.ru_stime) / 60
    return ran.returncode, (f"{measured(machine())}: {clock:.1f} minutes by the clock,\n"
                            f"{processor:.0f} processor-minutes, on\n"
                            f"{computer(machine())}: {last[-1] if last else 'no last line'}.")


def head():
    return subprocess.check_output(["git", "rev-parse", "--short", "HEAD"], cwd=TOP, text=True).strip()


def version(found):
    """The day, the commit, and the kit of that machine."""
    return f"{time.strftime('%Y-%m-%d', time.gmtime())}, `{head()}`, `{found['kit'].split()[0]}`"


def measured(found):
    """On how many processors of that machine it was measured, when, of which commit and by which kit."""
    return f"**{found['processors']} processors**, {version(found)}"


def computer(found):
    """The name of the machine's processor, and its memory."""
    return f"{found['model']} with {found['memory']} GB"


def table(found):
    """What the CI gate took, as lines of the page."""
    events = sorted([*found["proved"].items(), *found["marks"].items()], key=lambda it: it[1])
    cells = [(f"`{name}`" if name in found["proved"] else name, f"{at:.0f}") for name, at in events]
    told = (f"{measured(found)}: {found['clock']:.0f} minutes by the\n"
            f"clock, {found['processor']:.0f} processor-minutes, at the most {found['most']:.1f} GB of memory, on\n"
            f"{computer(found)}. When each crate was proved, in minutes:")
    rows = ["| " + " | ".join(cell[at] for cell in cells) + " |" for at in (0, 1)]
    return [told, "", rows[0], "|---" * len(cells) + "|", rows[1]]


def write(found, lines, word=""):
    """Writes the lines between their marks; of a kit or a number of processors that the page doesn't have, behind the
    others."""
    first, last = marks(found, word)
    text, block = PAGE.read_text(encoding="utf-8"), "\n".join([first, *lines, last])
    if first in text:
        text = re.sub(f"{re.escape(first)}.*?{re.escape(last)}", lambda _: block, text, flags=re.S)
    else:
        at = text.rindex(f"<!-- end of{word} ")
        at = text.index("\n", at) + 1
        text = f"{text[:at]}\n{block}\n{text[at:]}"
    PAGE.write_text(text, encoding="utf-8")


def main():
    if sys.argv[1:] not in ([], ["test"]):
        print(__doc__, file=sys.stderr)
        return 2
    folder = pathlib.Path(tempfile.mkdtemp(prefix="gate-from-nothing-"))
    # (rt runs programs as nobody)
    folder.chmod(0o711)
    try:
        status, found = tests(folder) if sys.argv[1:] else gate(folder)
    finally:
        shutil.rmtree(folder, ignore_errors=True)
    kept = not sys.argv[1:] and found and found["kept"]
    if status or found is None or kept:
        print(f"It ended with status {status}{', and took what earlier runs had kept' if kept else ''}: "
              "nothing is written.")
        return 1
    if sys.argv[1:]:
        write(machine(), [found], " test")
    else:
        write(found, table(found))
        edits.write(found["edits"])
    print("docs/GATE.md has what it took.")
    return 0


if __name__ == "__main__":
    sys.exit(main())
