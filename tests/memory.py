#!/usr/bin/env python3
"""Refuses the real programs each of their allocations in turn, and looks at what they answer.

usage: tests/memory.py [PDPD XA_TRIALS]      the programs; if none are named, those that are proved and built of these
                                             very sources, or else compiled of them without proof

The scripts of tests/rows/tripped.rows, one behind another, ask for all that is served. They go through `pdpd replay`,
over tables in memory, and through rows of xa_trials, over tables alone and over a keeper in memory. In each run one
allocation fails, every one in turn, until fifty in a row touch nothing. A run may end early, for want of memory, behind
any reply; but for that each message has its reply, one at the most is answered with the fixed 503, and the others are
answered as if that one had never come: by the model of the server in tests/model. Where a decision finds no memory to
be held the reply stands, `unkept` is 1, and the same ask again is worked out once more and answered by the same bytes.
"""
import collections
import os
import subprocess
import sys
import tempfile
import time

sys.dont_write_bytecode = True
import programs  # noqa: E402
from growths import (  # noqa: E402
    FAILING, TOP, UNTOUCHED, Program, Replay, Rows, by_model, compiled, entries, in_turn, not_asked, script)
from held import COUNTING, faults_of_refusals, faults_of_routes, faults_of_values, most_and_left  # noqa: E402
from rows import encoded, line  # noqa: E402
from serving import OPERATOR, UNAVAILABLE, decided, making, message  # noqa: E402

MIB = 2 ** 20
# What may be held at once for a few messages, and what more for an entry of 1 MiB: its bytes twice, as they were read
# and as its connection holds them, the latter in a list that doubles.
MOST_HELD, MOST_OF_AN_ENTRY = MIB, 5 * MIB
# For how many allocations that fail a row of a decision may be answered: one is of the input.
MOST_ANSWERED = 4


def figures(program, library):
    """What is held for the stored transcript, and how much more for an entry of 58,254 messages: not all of them at
    once, nor their replies."""
    transcript = (TOP / "crates/pdpd/stdin").read_bytes()
    transcript += b"".join(heading + b"\n" + held + b"\n" for heading, held in entries(transcript)[-1:]) * 2
    short = b"GET / HTTP/1.1\r\n\r\n" * (MIB // 18)
    few, many = (most_and_left(program, library, given)[0]
                 for given in (transcript, transcript + b"7 0 %d\n%s\n" % (len(short), short)))
    print(f"tests/memory.py: {few} bytes are held at once, and {many} with an entry of {len(short) // 18} messages")
    return [] if few <= MOST_HELD and many <= few + MOST_OF_AN_ENTRY else ["more is held at once than is wanted"]


class Refusing:
    """A program over a list of messages, of whose allocations each fails in turn."""

    def __init__(self, what, program, messages):
        self.what, self.program, self.messages = what, program, messages
        self.wanted = by_model(messages)
        self.replies = [reply for reply, _ in self.wanted]
        # what the model answers without one of the messages, once that is wanted
        self.without = {}
        self.counts, self.faults = collections.Counter(), []

    def rest(self, refused):
        """What the model answers without that message."""
        if refused not in self.without:
            self.without[refused] = by_model(self.messages[:refused] + self.messages[refused + 1:])
        return self.without[refused]

    def run(self, place):
        """What a run came to, or the text of what went wrong; and whether the refused allocation touched nothing."""
        try:
            found = self.program.run(self.messages, place)
        except (ValueError, subprocess.TimeoutExpired) as fault:
            return str(fault), False
        counts = {"unkept": 0, "evaluations": self.wanted[-1][1]} if found.counts else {}
        return found, (found.replies, found.counts, found.is_cut) == (self.replies, counts, False)

    def kind(self, found):
        """What sort of run it was, unless something is wrong with it; and what is."""
        if isinstance(found, str):
            return "", found
        if found.is_cut:
            is_right = found.replies == self.replies[:len(found.replies)]
            return "ended early", "" if is_right else "a reply before the end is another"
        refused = [at for at, reply in enumerate(found.replies) if reply == UNAVAILABLE]
        if len(refused) > 1 or len(found.replies) != len(self.replies):
            return "", f"{len(refused)} messages of {len(found.replies)} are refused"
        return self.kind_beside(found, refused)

    def kind_beside(self, found, refused):
        """The same of a run that has all its replies, of which at the most one is the refusal."""
        rest = self.rest(refused[0]) if refused else self.wanted
        if [reply for reply in found.replies if reply != UNAVAILABLE] != [reply for reply, _ in rest]:
            return "", "a reply is another than without the refused message"
        unkept, more = found.counts.get("unkept", 0), found.counts.get("evaluations", rest[-1][1]) - rest[-1][1]
        if unkept > (0 if refused else 1) or not 0 <= more <= (1 if refused else unkept):
            return "", f"{found.counts} are counted"
        return "one message refused" if refused else "one decision unkept" if unkept else "answered", ""

    def all(self):
        """Refuses every allocation in turn, and tells what the runs came to."""
        began = time.time()
        for place, found in in_turn(self.run):
            kind, fault = self.kind(found)
            self.counts[kind] += 1
            self.faults += [f"allocation {place}: {fault}"] if fault else []
            last = place
        kinds = ", ".join(f"{kind} {count}" for kind, count in sorted(self.counts.items()) if kind)
        print(f"tests/memory.py: {self.what}: {last} allocations refused in turn: {kinds}; {len(self.faults)} wrong, "
              f"in {time.time() - began:.0f} s")
        for fault in self.faults[:20]:
            print(f"  {fault}")
        return last

    def wants(self, *kinds):
        """That there was a run of each of these kinds, and none was wrong; what isn't so."""
        return ([f"{self.what}: {fault}" for fault in self.faults]
                + [f"{self.what}: no run was of the kind: {kind}" for kind in kinds if not self.counts[kind]])


def faults_of_decisions(xa_trials, library):
    """A decision in which an allocation fails ends by that: it is begun again for large bags alone. So of a row of one
    there are few allocations that may fail and that it is answered for all the same."""
    program = Program(xa_trials, library)
    row = line(["decide", encoded(b'{"Request":{"Resource":[%b]}}' % b",".join([b"{}"] * 8))]).encode()
    wanted = program.written([], row, 0)
    runs = [found == wanted for _, found in in_turn(lambda place: same_as(wanted, program.written([], row, place)))]
    answered = sum(runs) - UNTOUCHED
    print(f"tests/memory.py: a row of eight decisions: {len(runs) - UNTOUCHED} allocations refused in turn, and "
          f"{answered} times it is answered")
    if b'"NotApplicable"' not in wanted[1] or len(runs) < UNTOUCHED + 40:
        return ["a row of eight decisions isn't answered, or takes fewer than 40 allocations"]
    return ["a decision that found no memory is begun again"] if answered > MOST_ANSWERED else []


def same_as(wanted, found):
    """What was found, and whether it is what was wanted."""
    return found, found == wanted


class Asking(Refusing):
    """A domain that is asked the same twice."""

    def kind_beside(self, found, refused):
        """Where the first decision isn't held, the second ask is worked out once more, and gets the same bytes."""
        kind, fault = super().kind_beside(found, refused)
        if kind == "one decision unkept":
            same = found.replies[-2:] == [decided("Permit")] * 2
            # the second ask's decision may be the one that isn't held
            more = {1: "second unkept", 2: "asked again"}.get(found.counts["evaluations"]) if same else None
            return (more, "") if more else ("", f"an ask again is answered by {found.replies[-1]}, {found.counts}")
        return kind, fault


def main():
    found = ([os.path.abspath(path) for path in sys.argv[1:]]
             or [str(programs.proved_program(name) or programs.compiled_program(name))
                 for name in ("pdpd", "xa_trials")])
    if len(found) != 2 or not all(map(os.path.isfile, found)):
        print(__doc__, file=sys.stderr)
        return 2
    pdpd, xa_trials = found
    asks = ([(0, held) for held, _ in making("acme", "acme-token-1")]
            + [(0, message("POST", "/domains/acme/pdp", "acme-token-1", '{"Request":{}}'))] * 2)
    with tempfile.TemporaryDirectory() as folder:
        library = compiled(FAILING, f"{folder}/failing.so")
        counting = compiled(COUNTING, f"{folder}/counting.so")
        faults = figures(pdpd, counting) + faults_of_routes(pdpd, counting) + faults_of_values(pdpd, counting)
        faults += faults_of_refusals(xa_trials, counting) + faults_of_decisions(xa_trials, library)
        faults += [f"the script doesn't ask for: {command}" for command in not_asked(script())]
        tables = Refusing("the script over tables", Replay(pdpd, library), script())
        rows = Refusing("the script over tables, as a row", Rows(xa_trials, library, "server_in_tables"), script())
        vectors = Refusing("the script over a keeper in memory", Rows(xa_trials, library), script())
        asked = Asking("the same ask twice over a keeper in memory", Rows(xa_trials, library), asks)
        runs = sum(each.all() for each in (tables, rows, vectors, asked))
    faults += tables.wants("one message refused", "ended early", "answered")
    faults += rows.wants("one message refused", "ended early", "answered", "one decision unkept")
    faults += vectors.wants("one message refused", "ended early", "answered", "one decision unkept")
    faults += asked.wants("one message refused", "ended early", "answered", "asked again")
    for fault in faults[:20]:
        print(f"FAILED {fault}")
    print(f"tests/memory.py: {max(runs - len(faults), 0)} passed, {len(faults)} failed")
    return 1 if faults else 0


if __name__ == "__main__":
    sys.exit(main())
