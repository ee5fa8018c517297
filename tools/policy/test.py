#!/usr/bin/env python3
"""Runs the desk's tests. The proved program has to be there (`tools/policy/policy.py build`): what
it answers is compared.

usage: tools/policy/test.py               all tests, a file of them on each processor
       tools/policy/test.py NAME..        some of them, as tests.test_slips
       tools/policy/test.py --model-only  all of them without the program

DESK_PROGRAM in the environment names another program, and DESK_PDPD the server.
"""
import concurrent.futures
import os
import pathlib
import re
import subprocess
import sys
import time
import unittest

TOOL = pathlib.Path(__file__).resolve().parent
sys.pycache_prefix = str(TOOL.parents[1] / "build" / "pycache")
sys.dont_write_bytecode = False
sys.path.insert(0, str(TOOL))
os.chdir(TOOL)

from tests.deploy_tests import server_shown  # noqa: E402
from tests.desk_tests import PROGRAM  # noqa: E402

# the files that take longest begin first
LONG = ["test_deploy_cuts", "test_deploy", "test_exchange", "test_random_decisions", "test_random_documents"]


def ran(name: str) -> tuple[int, bool]:
    """Runs a file of tests and shows what it says: how many there were, and whether all were right."""
    began = time.monotonic()
    done = subprocess.run([sys.executable, str(TOOL / "test.py"), f"tests.{name}"], stdin=subprocess.DEVNULL,
                          stdout=subprocess.PIPE, stderr=subprocess.STDOUT, text=True, check=False)
    count = sum(map(int, re.findall(r"^Ran (\d+) tests? in", done.stdout, re.M)))
    said = "" if done.returncode == 0 else f"\n{done.stdout.rstrip()}"
    verdict = "OK" if done.returncode == 0 else "FAILED"
    print(f"{name}: {count} tests in {time.monotonic() - began:.0f} s, {verdict}{said}", flush=True)
    return count, done.returncode == 0


def all_files() -> int:
    """Runs all files of tests; the exit status."""
    began = time.monotonic()
    names = sorted(path.stem for path in (TOOL / "tests").glob("test_*.py"))
    names.sort(key=lambda name: LONG.index(name) if name in LONG else len(LONG))
    with concurrent.futures.ThreadPoolExecutor(len(os.sched_getaffinity(0))) as pool:
        found = list(pool.map(ran, names))
    wrong = [name for name, (_, is_right) in zip(names, found) if not is_right]
    print(f"Ran {sum(count for count, _ in found)} tests in {time.monotonic() - began:.0f} s: "
          + (f"FAILED {' '.join(wrong)}" if wrong else "OK"))
    return 1 if wrong else 0


def main() -> int:
    words = sys.argv[1:]
    if "--model-only" in words:
        words.remove("--model-only")
        os.environ["DESK_MODEL_ONLY"] = "1"
    elif "DESK_MODEL_ONLY" in os.environ:
        pass
    elif PROGRAM is None:
        print("The program xa_trials isn't built: `tools/policy/policy.py build` proves and builds it, "
              "and `tools/policy/test.py --model-only` tests without it.")
        return 1
    else:
        print(f"The program is {PROGRAM.command[0]}"
              + (f"; {PROGRAM.warning}" if PROGRAM.warning else ", proved of these sources."))
    if not words:
        print(f"Deployment is tried over {server_shown()}.")
        return all_files()
    tests = unittest.defaultTestLoader.loadTestsFromNames(words)
    return 0 if unittest.TextTestRunner(verbosity=1).run(tests).wasSuccessful() else 1


if __name__ == "__main__":
    sys.exit(main())
