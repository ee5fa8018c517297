#!/usr/bin/env python3
"""What the tables of the proved `pdpd serve` cost: messages over 10, 1,000 and 10,000 domains, and opening them.

Usage: bench/store.py [--write] [PDPD]                   PDPD: the built program (build/pdpd, which `make pdpd` makes)
                                                         --write: the last table is written into docs/PERFORMANCE.md too
       bench/store.py [--write] --instructions [PDPD]    instructions in place of times, over 10 and 10,000 domains, in
                                                         some minutes (valgrind, Debian's package)

The files are written by Python's sqlite3, with one active document of 1 KB, a token and a root in
each domain. Of each size:

- opening: from the start of the program to its first line, wall time and the processor time up to there, and the most
  memory that it has held by then; of the largest size also with eight rows of the attribute source in each domain,
  from a file of schema 2 and from one of schema 1, which becomes schema 2 by that;
- gate: an ask with a wrong token, less one that is refused with 401 before any domain is looked for (its path is the
  operator's): two queries, of the domain and of its tokens, which the server asks for whatever it remembers;
- kept: an ask whose response is kept, of 400 domains in turn at most, whose gates the server remembers: no query;
- view: an ask that is worked out, over a domain of one document of 1 KB and over one of 20 documents, where the
  policies' texts are read each time;
- upload: a document of 5 KB, and its deletion; the wall time is the disk's too, which each change waits for.

Times are the server's processor time a message, of so many messages in pieces of 100 without waiting, as /proc has it
to the nanosecond; on a disturbed machine they say little; instructions are the same on any machine. The script fails
where `gate` over 10,000 domains takes more than 1.3 times what it takes over 10 and 2 microseconds more, or where
opening 10,000 domains takes 2 s of processor time or more, or schema 1 more than twice what schema 2 takes. By
instructions it fails where `gate` takes more than 1.3 times as many over 10,000 domains as over 10.
"""
import hashlib
import os
import pathlib
import random
import shutil
import sys
import tempfile
import time

sys.dont_write_bytecode = True
TOP = os.path.dirname(os.path.dirname(os.path.abspath(__file__)))
sys.path.insert(0, f"{TOP}/tests")
from kept import FIRST_MAKING, as_first, write  # noqa: E402
from page import shown, words  # noqa: E402
from serving import OPERATOR, PIECE, Served, answered, message, policy  # noqa: E402
from transcripts import CACHEGRIND, instructions_in  # noqa: E402

BY_INSTRUCTIONS = "--instructions" in words()
WORDS = [word for word in words() if word != "--instructions"]
PROGRAM = os.path.abspath(WORDS[0] if WORDS else os.path.join(TOP, "build/pdpd"))
SIZES = (10, 1_000, 10_000)
# the lines of the table: of the wrong tokens the gate alone
LINES = ("refused", "gate", "kept", "one document", "many documents", "uploads")
TOKEN, RUNS, MOST_OPENING, SOURCES, MOST_FIRST = "domain-token-1", 3, 2.0, 8, 2
DOCUMENTS_OF_LARGE = 20


def text_of(policy_id, size):
    """A policy of so many bytes."""
    empty = policy("Permit", policy_id, description="")
    return policy("Permit", policy_id, description="x" * (size - len(empty))).encode()


def rows(domains):
    """The rows of a store of so many domains; the last has some more active documents."""
    digest, body = hashlib.sha256(TOKEN.encode()).digest(), text_of("urn:p", 1_000)
    numbers = range(1, domains + 1)
    more = [(domains, 0, f"urn:p{place:02}", "1.0", text_of(f"urn:p{place:02}", 1_000), 1)
            for place in range(1, DOCUMENTS_OF_LARGE)]
    return {"meta": [(1, 2, domains + 1)], "domains": [(number, f"domain-{number}", 0) for number in numbers],
            "tokens": [(number, digest, 1) for number in numbers],
            "policies": [(number, 0, "urn:p", "1.0", body, 1) for number in numbers] + more,
            "roots": [(number, 0, "urn:p", None, None, None) for number in numbers], "attributes": [], "sources": []}


def with_sources(domains):
    """The same, and some rows of the attribute source in each domain."""
    sources = [(number, place, "urn:category", f"user-{place}", "urn:role", 0, f"value {place} of {number}", None)
               for number in range(1, domains + 1) for place in range(SOURCES)]
    return {**rows(domains), "sources": sources}


def cost(served, messages):
    """Microseconds of processor time and of wall time that a message takes: the best of some runs; and the
    status of the last."""
    best = None
    answered(served, messages[:PIECE])
    for _ in range(RUNS):
        before, began = served.processor_seconds(), time.perf_counter()
        status = answered(served, messages)
        took = served.processor_seconds() - before
        wall = time.perf_counter() - began
        best = (took, wall) if best is None or took < best[0] else best
    return best[0] / len(messages) * 1e6, best[1] / len(messages) * 1e6, status


def ask(name, body='{"Request":{}}', token=TOKEN):
    return message("POST", f"/domains/{name}/pdp", token, body)


def other_body(number):
    return '{"Request":{"Action":{"Id":"%d"}}}' % number


def messages(domains, count=30_000):
    """Messages by what they do; those to one domain of many are each to another."""
    chance = random.Random(3)
    names = [f"domain-{chance.randrange(1, domains + 1)}" for _ in range(min(400, domains))]
    uploads = [held for number in range(1_000) for held in (
        message("POST", f"/domains/{names[number % len(names)]}/pap/policies", TOKEN, text_of("urn:u", 5_000)),
        message("DELETE", f"/domains/{names[number % len(names)]}/pap/policy/urn:u/1.0", TOKEN))]
    return {
        "refused": [message("POST", "/operator/domains/x/tokens", TOKEN, '{"Request":{}}')] * count,
        "kept": [ask(names[number % len(names)]) for number in range(count)],
        "a wrong token": [ask(names[number % len(names)], token="wrong-token-1") for number in range(count)],
        "one document": [ask("domain-1", other_body(number)) for number in range(count // 3)],
        "many documents": [ask(f"domain-{domains}", other_body(number)) for number in range(count // 10)],
        "uploads": uploads,
    }


def opening(kept, token):
    """Wall and processor seconds up to the first line, the best of some runs, each over a copy of the file, and the
    most memory in MiB."""
    best, path = None, f"{kept}.copy"
    for _ in range(RUNS):
        shutil.copyfile(kept, path)
        began = time.perf_counter()
        with Served(PROGRAM, path, token) as served:
            wall = time.perf_counter() - began
            if not served.listens:
                sys.exit(f"it doesn't listen: {served.ended()}")
            found = (wall, served.processor_seconds(), served.resident() / 1024)
        best = found if best is None else min(best, found)
    return best


def opening_schemas(folder, token, domains):
    """Shows what opening takes with rows of the attribute source, in schema 2 and in schema 1;
    what is wrong with it."""
    held, found = with_sources(domains), {}
    for schema in (2, 1):
        path = f"{folder}/schema-{schema}.db"
        write(path, *((held,) if schema == 2 else (as_first(held), FIRST_MAKING)))
        wall, found[schema], memory = opening(path, token)
        print(f"    the same with {SOURCES} rows of the source each, schema {schema}: opening {wall:.3f} s, "
              f"{found[schema]:.2f} s of processor time, {memory:.1f} MiB")
    return ([f"opening schema 1 takes {found[1]:.2f} s and schema 2 {found[2]:.2f} s"]
            if found[1] > MOST_FIRST * found[2] else [])


def instructions_of(folder, path, token, held):
    """The instructions of a program that answers these messages and ends."""
    log, program = f"{folder}/log", f"{folder}/program"
    pathlib.Path(program).write_text(f"#!/bin/sh\nexec {' '.join(CACHEGRIND)} --log-file={log} {PROGRAM} \"$@\"\n")
    os.chmod(program, 0o755)
    with Served(program, path, token, connections=1) as served:
        answered(served, held)
        served.process.wait()
    return instructions_in(pathlib.Path(log).read_text())


def by_instructions(folder, token):
    """Prints the instructions of a message over few domains and many; 1 if `gate` isn't flat."""
    print(f"{'instructions a message':42}{'10 domains':>16}{'10,000 domains':>16}")
    found = {}
    for domains in (SIZES[0], SIZES[-1]):
        path = f"{folder}/{domains}.db"
        write(path, rows(domains))
        for name in ("refused", "a wrong token", "kept", "one document", "uploads"):
            held = messages(domains, 3_000)[name]
            # what is kept is worked out before it is counted
            first, count = (held[:400] if name == "kept" else []), len(held) // 2
            more = instructions_of(folder, path, token, first + held)
            less = instructions_of(folder, path, token, first + held[:count])
            found[domains, name] = (more - less) / (len(held) - count)
        found[domains, "gate"] = found[domains, "a wrong token"] - found[domains, "refused"]
    for name in ("refused", "a wrong token", "gate", "kept", "one document", "uploads"):
        print(f"{name:42}{found[SIZES[0], name]:16,.0f}{found[SIZES[-1], name]:16,.0f}")
    is_flat = found[SIZES[-1], "gate"] <= 1.3 * found[SIZES[0], "gate"]
    if not is_flat:
        print("gate grows with the number of domains")
    return 0 if is_flat else 1


def measured(folder, token, domains):
    """What opening so many domains takes, and microseconds a message of each kind."""
    path = f"{folder}/{domains}.db"
    write(path, rows(domains))
    opened = opening(path, token)
    wall, processor, memory = opened
    print(f"{domains:,} domains: a file of {os.path.getsize(path) / 2**20:.1f} MiB; opening {wall:.3f} s, "
          f"{processor:.2f} s of processor time, {memory:.1f} MiB")
    with Served(PROGRAM, path, token) as served:
        found = {name: cost(served, held) for name, held in messages(domains).items()}
    for name, (took, wall, status) in found.items():
        print(f"    {name:42} {took:9.2f} us, {wall:9.2f} us of wall time   {status}")
    of_each = {name: took for name, (took, _, _) in found.items()}
    return opened, {**of_each, "gate": of_each["a wrong token"] - of_each["refused"]}


def table(found):
    """Prints what was measured of each number of domains."""
    print(f"{'microseconds a message':26}" + "".join(f"{f'{domains:,} domains':>16}" for domains in SIZES))
    for name in LINES:
        print(f"{name:26}" + "".join(f"{found[domains][1][name]:16.1f}" for domains in SIZES))
    for what, place in (("opening, processor s", 1), ("memory then, MiB", 2)):
        print(f"{what:26}" + "".join(f"{found[domains][0][place]:16.2f}" for domains in SIZES))


def main():
    if not os.path.isfile(PROGRAM):
        sys.exit(f"bench/store.py: {PROGRAM} is not there: `make pdpd` builds it")
    with tempfile.TemporaryDirectory() as folder:
        token = pathlib.Path(folder) / "token"
        token.write_text(f"{OPERATOR}\n")
        if BY_INSTRUCTIONS:
            return shown("store.py instructions", lambda: by_instructions(folder, str(token)))
        found = {domains: measured(folder, str(token), domains) for domains in SIZES}
        failed = opening_schemas(folder, str(token), SIZES[-1])
    few, many = found[SIZES[0]], found[SIZES[-1]]
    shown("store.py", lambda: table(found))
    if many[0][1] >= MOST_OPENING:
        failed.append(f"opening {SIZES[-1]:,} domains takes {many[0][1]:.2f} s")
    if many[1]["gate"] > 1.3 * few[1]["gate"] + 2:
        failed.append("gate grows with the number of domains")
    return "; ".join(failed) or 0


if __name__ == "__main__":
    sys.exit(main())
