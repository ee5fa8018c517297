#!/usr/bin/env python3
"""Runs all tests: every stored row, the stored transcript, a comparison of 2,000 random rows with the model, the real
program from outside, 2,000 random schedules of connections beside the model, both programs with each allocation refused
in turn, the policy author's desk, the CI gate with kits of different abilities, whether each wrong body still applies,
and whether what is generated in the pages is right. No run over rows may leave memory. The last line is 'N passed, M
failed'; each answer and each check counts as one.

usage: tests/all.py             over the programs that are proved and built of these very sources; where one
                                isn't, it is compiled of them without proof
       tests/all.py --proved    where one isn't, that is a failure: as `make prove` runs them
"""
import os
import pathlib
import re
import signal
import subprocess
import sys
import tempfile
import threading
import time
from concurrent.futures import Future, ThreadPoolExecutor
from functools import partial

TESTS = pathlib.Path(__file__).resolve().parent
TOP = TESTS.parent
sys.path.insert(0, str(TESTS))
sys.dont_write_bytecode = True

import programs  # noqa: E402
from growths import compiled  # noqa: E402
from held import COUNTING  # noqa: E402

# Rows of one run of the program, and of one comparison with the model; the comparisons together have 2,000.
ROWS_A_RUN, ROWS_COMPARED, COMPARISONS = 250, 250, 8
# Schedules that are compared.
SCHEDULES = 2_000
# How long a step may take by the clock, and a run of the program of the processor's time.
SECONDS, PROCESSOR_SECONDS = 1800, 120
SURROUNDINGS = {**os.environ, "PYTHONDONTWRITEBYTECODE": "1"}

printing = threading.Lock()


class Program:
    """A program that tests run, once it is there, and the library that counts the memory that it holds."""

    def __init__(self, name, only_proved, counting):
        self.name, self.only_proved, self.counting = name, only_proved, counting
        self.is_proved, self.path = False, Future()

    def find(self):
        """Finds it, or compiles it."""
        try:
            found = programs.proved_program(self.name)
            self.is_proved = found is not None
            if not found and self.only_proved:
                raise programs.NotBuilt(f"{self.name} isn't proved and built of these very sources")
            self.path.set_result(str(found or programs.compiled_program(self.name)))
        except Exception as fault:  # what waits for it is told
            self.path.set_exception(fault)
            raise
        return 0, 0, f"{'proved and built' if self.is_proved else 'compiled without proof'}, of these sources"


def count_of_last_line(text):
    """How many passed and failed, by the last line that says so."""
    found = re.findall(r"(\d+) passed, (\d+) failed", text)
    return tuple(map(int, found[-1])) if found else (0, 0)


def outcome_of(command, count=count_of_last_line, **how):
    """Runs a command: how many passed and failed, and what it wrote. A status other than 0 is a failure."""
    how = {"cwd": TOP, "env": SURROUNDINGS, "stdin": subprocess.DEVNULL, "timeout": SECONDS, **how}
    result = subprocess.run(command, stdout=subprocess.PIPE, stderr=subprocess.STDOUT, check=False, **how)
    text = result.stdout.decode(errors="replace")
    passed, failed = count(text)
    return passed, max(failed, 1) if result.returncode or not passed + failed else failed, text


def fault_of_end(result):
    """What is wrong with the end of a run whose memory was counted, if something is."""
    if result.returncode == -signal.SIGXCPU:
        return f"took over {PROCESSOR_SECONDS} s of the processor's time"
    if result.returncode:
        return f"ended with status {result.returncode}: {result.stderr.decode(errors='replace')[-500:]}"
    left = int(result.stderr.split()[-3])
    return f"has left {left} bytes of memory" if left else ""


def output_of(program, words, data):
    """What a program writes to those bytes, and what is wrong with its end, if something is."""
    words = ["sh", "-c", f'ulimit -S -t {PROCESSOR_SECONDS}; exec "$@"', "sh", program.path.result(), *words]
    how = {"env": {**os.environ, "LD_PRELOAD": program.counting}, "timeout": SECONDS, "check": False}
    result = subprocess.run(words, input=data, capture_output=True, **how)
    fault = fault_of_end(result)
    return result.stdout, fault and f"{program.name} {fault}"


def beginning(lines, at):
    """The beginning of the line at a place; nothing, where there is none."""
    return b"".join(lines[at:at + 1])[:300].decode()


def rows(program, words, first, asked, wanted):
    """Some of the stored rows, of which the first has that number, behind those that define words."""
    written, fault = output_of(program, [], b"".join(line + b"\n" for line in [*words, *asked]))
    found = written.split(b"\n")[len(words):-1]
    others = [at for at, answer in enumerate(wanted) if found[at:at + 1] != [answer]]
    differences = [f"line {first + at} of crates/xa_trials/stdin: {beginning(asked, at)}\n"
                   f"  found  {beginning(found, at)}\n  wanted {beginning(wanted, at)}" for at in others[:5]]
    failed = max(len(others), 1 if fault or len(found) != len(asked) else 0)
    return len(asked) - len(others), failed, "\n".join([*differences, fault])


def transcript(program):
    """The stored transcript of pdpd, and what it writes to it."""
    crate = TOP / "crates" / "pdpd"
    written, fault = output_of(program, (crate / "args").read_text().split(), (crate / "stdin").read_bytes())
    is_right = not fault and written == (crate / "stdout").read_bytes()
    return (1, 0, "") if is_right else (0, 1, f"{fault}\nIt wrote at last {written[-500:]!r}")


def count_of_wrong(pattern, text):
    """How many passed and failed, where a line says how many there were and how many were wrong."""
    found = re.search(pattern, text)
    return (int(found[1]) - int(found[2]), int(found[2])) if found else (0, 0)


def model_alone():
    """Worked examples of all routes, answered by the model alone."""
    pattern = r"(\d+) messages in \d+ conversations, (\d+) answered otherwise"
    return outcome_of([sys.executable, "tests/model/compare/worked.py"], partial(count_of_wrong, pattern))


def agreement(program, seed):
    """Random rows of that seed, answered by the program and by the model."""
    agree, words = [sys.executable, "tests/model/compare/agree.py"], [str(seed), str(ROWS_COMPARED)]
    with tempfile.TemporaryDirectory() as made:
        held, written = pathlib.Path(made) / "rows", pathlib.Path(made) / "answers"
        held.mkdir()
        subprocess.run([*agree, "rows", held, *words], cwd=TOP, env=SURROUNDINGS, check=True)
        found, fault = output_of(program, [], b"".join(path.read_bytes() for path in sorted(held.iterdir())))
        written.write_bytes(found)
        pattern = r"(\d+) of \d+ rows answered, (\d+) otherwise"
        compare = [*agree, "compare", written, *words]
        passed, failed, text = outcome_of(compare, partial(count_of_wrong, pattern))
    return passed, max(failed, ROWS_COMPARED - passed, 1 if fault else 0), f"{text}{fault}"


def outside(program, name):
    """A test that runs the real program from outside."""
    return outcome_of([f"tests/{name}.py", program.path.result()])


def at_once(program):
    """What tests of connections one after another try, over connections that are served at once."""
    return outcome_of(["tests/serve.py", "--listen", program.path.result()])


def schedules(program):
    """Worked and random schedules of connections, answered by the program and by the model."""
    return outcome_of(["tests/schedules.py", program.path.result(), str(SCHEDULES)])


def memory(pdpd, xa_trials):
    """Both programs, each of whose allocations fails in turn."""
    return outcome_of(["tests/memory.py", pdpd.path.result(), xa_trials.path.result()])


def guide(pdpd, xa_trials):
    """What the guide shows, over both programs."""
    return outcome_of(["tests/guide.py", pdpd.path.result(), xa_trials.path.result()])


def count_of_unittest(text):
    """How many tests passed and failed, by the last lines of Python's unittest."""
    every = re.search(r"^Ran (\d+) tests? in", text, re.M)
    wrong = sum(map(int, re.findall(r"(?:failures|errors)=(\d+)", text)))
    return (int(every[1]) - wrong, wrong) if every else (0, 0)


def desk(xa_trials, pdpd, name):
    """One file of the desk's tests, over both programs."""
    surroundings = {**SURROUNDINGS, "DESK_PROGRAM": xa_trials.path.result(), "DESK_PDPD": pdpd.path.result()}
    return outcome_of(["tools/policy/test.py", f"tests.{name}"], count_of_unittest, env=surroundings)


class Steps:
    """The tests that have ended."""

    def __init__(self):
        self.passed, self.failed, self.untried = 0, 0, []
        self.began = time.time()

    def take(self, name, call, *given):
        """Runs one step and tells what it came to; what a failed one wrote is shown."""
        began = time.time()
        try:
            passed, failed, text = call(*given)
        except Exception as fault:  # a step that can't be run has failed, and the others go on
            passed, failed, text = 0, 1, f"{type(fault).__name__}: {fault}"
        with printing:
            self.passed, self.failed = self.passed + passed, self.failed + failed
            self.untried += re.findall(r"(?m)^NOT TRIED: .*$", text)
            outcome = f"{passed} passed, {failed} failed" if passed or failed else text
            print(f"{name}: {outcome}, in {time.time() - began:.0f} s", flush=True)
            if failed:
                print(f"{text.rstrip()[-6000:]}\nFAILED {name}", flush=True)


def stored_rows():
    """The stored rows in pieces: those that define words, which stand first, the number of the first of the others,
    these, and their answers."""
    crate = TOP / "crates" / "xa_trials"
    asked, wanted = ((crate / name).read_bytes().split(b"\n")[:-1] for name in ("stdin", "stdout"))
    if len(asked) != len(wanted):
        raise SystemExit(f"{len(asked)} rows are stored, and {len(wanted)} answers: `make rows` writes both")
    words = sum(line.startswith(b"define\t") for line in asked)
    for at in range(words, len(asked), ROWS_A_RUN):
        yield asked[:words], at + 1, asked[at:at + ROWS_A_RUN], wanted[at:at + ROWS_A_RUN]


def all_steps(pdpd, xa_trials, xa_schedules):
    """The steps, in lanes: what stands in one is run one after another. Those come first that others wait
    for, and then those that take long."""
    yield [("pdpd", pdpd.find)]
    yield [("xa_trials", xa_trials.find)]
    yield [("xa_schedules", xa_schedules.find), ("tests/schedules.py", schedules, xa_schedules)]
    static = [(name, outcome_of, [f"tests/{name}.py"]) for name in ("edits", "columns", "comments", "pages")]
    yield [*static, ("worked examples, by the model", model_alone)]
    yield [("tests/kits.py", outcome_of, ["tests/kits.py"])]
    yield [("tests/rows/write.py", outcome_of, ["tests/rows/write.py", "--stored"])]
    yield [("tests/program.py", outside, pdpd, "program")]
    yield [("tests/memory.py", memory, pdpd, xa_trials)]
    yield [("tests/guide.py", guide, pdpd, xa_trials)]
    yield [("tests/client.py", outside, pdpd, "client")]
    others = [(f"tests/{name}.py", outside, pdpd, name) for name in ("api", "serve", "tables")]
    yield [("stored transcript", transcript, pdpd), *others]
    yield [("tests/serve.py --listen", at_once, pdpd), ("tests/listen.py", outside, pdpd, "listen")]
    for path in sorted((TOP / "tools" / "policy" / "tests").glob("test_*.py")):
        yield [(f"tools/policy/test.py tests.{path.stem}", desk, xa_trials, pdpd, path.stem)]
    for words, first, asked, wanted in stored_rows():
        yield [(f"rows {first} to {first + len(asked) - 1}", rows, xa_trials, words, first, asked, wanted)]
    for seed in range(1, COMPARISONS + 1):
        yield [(f"{ROWS_COMPARED} random rows of seed {seed}, and the model", agreement, xa_trials, seed)]


def main():
    if sys.argv[1:] not in ([], ["--proved"]):
        print(__doc__, file=sys.stderr)
        return 2
    steps = Steps()
    with tempfile.TemporaryDirectory() as folder, ThreadPoolExecutor(max(2, len(os.sched_getaffinity(0)))) as pool:
        counting = compiled(COUNTING, f"{folder}/counting.so")
        programs_tested = [Program(name, "--proved" in sys.argv, counting)
                           for name in ("pdpd", "xa_trials", "xa_schedules")]
        lanes = [pool.submit(lambda lane=lane: [steps.take(*step) for step in lane])
                 for lane in all_steps(*programs_tested)]
    for lane in lanes:
        lane.result()  # raises what has ended a lane, if anything has
    print("\n".join([f"The tests took {time.time() - steps.began:.0f} s.", *steps.untried]))
    if all(program.is_proved for program in programs_tested):
        print("The programs are proved, and built of these very sources.")
    else:
        print("NOTHING HERE IS PROVED: a program was compiled of these sources without proof, and tests show\n"
              "what they try and no more. `make prove` proves all.")
    print(f"{steps.passed} passed, {steps.failed} failed")
    return 1 if steps.failed else 0


if __name__ == "__main__":
    sys.exit(main())
