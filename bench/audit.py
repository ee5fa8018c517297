#!/usr/bin/env python3
"""How long a past decision takes to work out, over generated archives of a year in which a table is put again each
minute, of 20 rows and of 3,500, nearly as many as a body has room for; and of a day of the latter. Each is one of 500.

Usage: bench/audit.py [--write] [--entries N] [--rows ROWS] [--moments MOMENTS] [--folder FOLDER] [--at-once N]
                      [--no-whole] [PDPD]

PDPD: the built program (build/pdpd, which `make pdpd` makes). Each of the random moments is asked from the last
checkpoint before it, some of them by the command `pdpd-log decide`. None may take more than 20 s. Then the whole log is
read: by all its records the domain has to have had at each moment what it had by the checkpoint. And it is replayed:
each answer has to be the same. (To replay a year of 3,500 rows would take days: that is done for the day.) With --write
the table is written into docs/PERFORMANCE.md too.

With --entries, --rows or --moments one archive of that kind is asked, a table each minute. FOLDER is where the archives
are written, and left, or where an earlier run has left them; else they are temporary, and take 12 GB. So many moments
are asked at once (1). All is timed before the whole logs are read, which takes long: --no-whole leaves that out.
"""
import argparse
import collections
import concurrent.futures
import functools
import itertools
import os
import pathlib
import random
import resource
import shutil
import subprocess
import sys
import tempfile
import time
from typing import NamedTuple
from unittest import mock

sys.dont_write_bytecode = True
TOP = pathlib.Path(__file__).resolve().parent.parent
sys.path[:0] = [str(TOP / "tests"), str(TOP / "deploy")]

from audit_parts import generated  # noqa: E402
from log import archive, audit  # noqa: E402
from log.archive import segments_in  # noqa: E402
from log.domains import add_text  # noqa: E402
from log.history import Change, State, ask, by_archive  # noqa: E402
from log.messages import bytes_of_entry  # noqa: E402
from log.past import Past, state_before, until  # noqa: E402
from log.replaying import OPERATOR, replay  # noqa: E402
from log.sealing import inflated  # noqa: E402
from page import Machine, shown  # noqa: E402

LONGEST, SEED, BY_COMMAND, MINUTES_OF_A_DAY = 20.0, 11, 20, 24 * 60
REQUEST = generated.WARD / "request-alice.json"


class Behind(Past):
    """The changes of a domain, of which it is known what they leave."""

    def __init__(self, segments, domain, state):
        super().__init__(segments, domain)
        self.state = state

    def state_behind(self, count):
        return self.state


class Held(generated.Keeping):
    """Of a new archive. What each domain has is held: to read it again for each checkpoint of a year takes hours."""

    def __init__(self, *given):
        super().__init__(*given)
        self.states, self.since = collections.defaultdict(State), collections.defaultdict(list)
        self.first, self.segments = 0, []

    def behind(self, entry, reply):
        change = Change(entry, reply, self.home)
        self.since[change.domain()].append(change)
        super().behind(entry, reply)

    def write_checkpoint(self, domain):
        if self.first != self.archive.first:
            self.first, self.segments = self.archive.first, segments_in([self.home])
        self.states[domain].take_all(self.since.pop(domain))
        Behind(self.segments, domain, self.states[domain]).write_checkpoint()


class Kind(NamedTuple):
    """How many changes there are, a minute between two, how many rows the table has, and at how many moments the
    archive is asked."""
    entries: int = 365 * MINUTES_OF_A_DAY
    rows: int = 20
    moments: int = 1_000

    def is_replayed(self):
        """Whether the whole log is replayed: the time of a table grows with the square of its rows."""
        return self.entries * self.rows ** 2 <= MOST_REPLAYED


KINDS = Kind(), Kind(rows=3_500), Kind(MINUTES_OF_A_DAY, 3_500, 200)
MOST_REPLAYED = MINUTES_OF_A_DAY * 3_500 ** 2


def options():
    words = argparse.ArgumentParser(description=__doc__, formatter_class=argparse.RawDescriptionHelpFormatter)
    for name in Kind._fields:
        words.add_argument(f"--{name}", type=int)
    words.add_argument("--folder", type=pathlib.Path)
    words.add_argument("--at-once", type=int, default=1)
    words.add_argument("--no-whole", action="store_true")
    words.add_argument("--write", action="store_true")
    words.add_argument("program", nargs="?", default=str(TOP / "build" / "pdpd"), metavar="PDPD")
    return words.parse_args()


def transcript(past, moments, wanted):
    """All messages of the domain, and the ask at each moment; `wanted` gets the places of the asks."""
    left, place = sorted(moments), 0
    for change in past.scanned(0):
        while left and left[0] < change.ended():
            wanted.append(place)
            yield int(left[0]), ask(past.domain, generated.OWNER + past.domain, REQUEST.read_bytes())
            left.pop(0)
            place += 1
        yield int(change.began()), bytes_of_entry(change.entry.head, change.body(), OPERATOR)
        place += 1


def by_the_whole_log(past, moments):
    """The decision at each moment, in one replay of all messages."""
    wanted, found = [], {}
    for place, reply in enumerate(replay(transcript(past, moments, wanted))):
        # (an ask is in the list before its reply comes)
        if len(found) < len(wanted) and place == wanted[len(found)]:
            found[len(found)] = reply.body()
    return dict(zip(sorted(moments), found.values()))


def states_by_all(past, moments):
    """What the domain had at each moment, in order, by all records: without the change that was under way then."""
    state, changes, first = State(), past.scanned(0), []
    for moment in sorted(moments):
        held = iter([first.pop()] if first else [])
        state.take_all(until(moment, itertools.chain(held, changes), first))
        yield moment, state


def processor():
    """The processor time of this process and of those that have ended below it, in seconds."""
    return sum(sum(resource.getrusage(whose)[:2]) for whose in (resource.RUSAGE_SELF, resource.RUSAGE_CHILDREN))


class Asked:
    """An archive, and what was found when it was asked at random moments."""

    def __init__(self, kind, folder, at_once):
        self.kind, self.folder, self.at_once = kind, folder, at_once
        (segments,) = by_archive([folder])
        self.past = Past(segments, "acme")
        self.size = sum(path.stat().st_size for path in folder.rglob("*") if path.is_file())
        places, chance = self.past.places, random.Random(SEED)
        first, last = places[5].ended / 1e6, places[len(places) - 1].ended / 1e6 - 1
        self.moments = [chance.uniform(first, last) for _ in range(kind.moments)]
        self.same = self.same_states = None

    def ask(self):
        """Asks at each moment from a checkpoint, and some by the command."""
        request = REQUEST.read_bytes()

        def asked(moment):
            began = time.perf_counter()
            found = audit.decide(self.past, moment, request)
            return time.perf_counter() - began, found[0][1].body()
        before = processor()
        with concurrent.futures.ThreadPoolExecutor(self.at_once) as pool:
            found = list(pool.map(asked, self.moments))
        self.processor = (processor() - before) / len(found)
        self.times = sorted(took for took, _ in found)
        self.answers = {moment: answer for moment, (_, answer) in zip(self.moments, found)}
        self.by_command = max(map(self.take_by_command, self.moments[:BY_COMMAND]))

    def take_by_command(self, moment):
        """How long the command takes for a moment; it has to answer as it was answered here."""
        began = time.perf_counter()
        ran = subprocess.run([TOP / "deploy" / "pdpd-log", "decide", "--archive", self.folder, "--domain", "acme",
                              "--at", str(moment), REQUEST], capture_output=True, check=True)
        # (there are two answers where a change was under way)
        if not ran.stdout.startswith(self.answers[moment] + b"\n"):
            sys.exit(f"bench/audit.py: `pdpd-log decide --at {moment}` answers {ran.stdout}")
        return time.perf_counter() - began

    def compare(self):
        """Counts the moments at which the domain had by a checkpoint what it had by all records, and the answers that
        are those of the whole log's replay."""
        began = time.perf_counter()
        self.same_states = sum(state_before(self.past, moment)[0] == state
                               for moment, state in states_by_all(self.past, self.moments))
        print(f"{self.same_states:,} of {len(self.moments):,} states as by all records, in "
              f"{time.perf_counter() - began:.0f} s", flush=True)
        if not self.kind.is_replayed():
            return
        began = time.perf_counter()
        whole = by_the_whole_log(self.past, self.moments)
        self.same = sum(self.answers[moment] == whole[moment] for moment in self.moments)
        print(f"by the whole log of {len(self.past.places):,} changes: {time.perf_counter() - began:.0f} s, "
              f"{len(set(whole.values()))} different answers, {self.same} of {len(whole)} the same", flush=True)

    def fails(self):
        counts = {self.same, self.same_states} - {None, len(self.moments)}
        return max(*self.times, self.by_command) > LONGEST or bool(counts)

    def line(self):
        middle, longest = self.times[len(self.times) // 2], self.times[-1]
        counts = ["-" if count is None else f"{count:,}" for count in (len(self.moments), self.same_states, self.same)]
        return (f"{self.kind.rows:>6,}{len(self.past.places):>10,}{self.size / 1e6:>8,.0f}{middle:>9.2f}"
                f"{longest:>9.2f}{self.processor:>11.2f}{self.by_command:>12.2f}" +
                "".join(f"{count:>{width}}" for count, width in zip(counts, (9, 12, 10))))


def written(kind, folder):
    """The folder in which there is an archive of that kind."""
    found = folder / f"{kind.entries}-of-{kind.rows}"
    if not found.exists():
        began, made = time.perf_counter(), found.with_suffix(".part")
        shutil.rmtree(made, ignore_errors=True)
        # (each table is inflated once, and kept once)
        once = functools.lru_cache(2 * generated.MOST_TABLES)
        with mock.patch("log.history.inflated", once(inflated)), mock.patch("log.past.add_text", once(add_text)):
            generated.write_year(made, kind.entries, kind.rows, seconds=60 * kind.entries, kind=Held)
        made.rename(found)
        print(f"written in {time.perf_counter() - began:.0f} s", flush=True)
    return found


def table(asked, told):
    """Prints what was found."""
    print("  rows   changes      MB   half, s   all, s  processor  by command  moments  same state  same by replay")
    for one in asked:
        print(one.line())
    print(told)
    return int(any(one.fails() for one in asked))


def main():
    given = options()
    os.environ["PDPD"] = os.path.abspath(given.program)
    own = {name: getattr(given, name) for name in Kind._fields if getattr(given, name) is not None}
    # nothing is measured of the disk here
    os.fdatasync = os.fsync = archive.sync_all = lambda file: None
    with tempfile.TemporaryDirectory() as made:
        folder = given.folder or pathlib.Path(made)
        asked = [Asked(kind, written(kind, folder), given.at_once) for kind in ((Kind(**own),) if own else KINDS)]
        machine = Machine()
        for one in asked:
            one.ask()
            print(f"from checkpoints: {one.line()}", flush=True)
        told = machine.told()
        for one in () if given.no_whole else asked:
            one.compare()
        return shown("audit.py", lambda: table(asked, told))


if __name__ == "__main__":
    sys.exit(main())
