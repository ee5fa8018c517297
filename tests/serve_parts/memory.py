"""Want of memory and of stack, and memory that connections leave."""
import json
import os
import resource
import signal
import subprocess
import time

from checks import Between
from growths import FAILING, compiled
from held import COUNTING, MOST_MORE, Held
from said import NO_MEMORY, NO_MEMORY_TO_SERVE
from sent import rows_body
from serving import DONE, UNAVAILABLE

from .shared import ASK, LIST, MIB, PERMIT, environment, expect, folder, in_acme, make_domain, serving, within

FUNCTIONS = "urn:oasis:names:tc:xacml:%s:function:"
ALGORITHM = "urn:oasis:names:tc:xacml:3.0:rule-combining-algorithm:deny-overrides"


def served_in(name, limits):
    """The program over a file, within each of these numbers of bytes of address space in which it can be started."""
    for limit in limits:
        def limited():
            resource.setrlimit(resource.RLIMIT_AS, (limit, limit))

        try:
            served = serving(name, 1, preexec_fn=limited)
        except (OSError, subprocess.SubprocessError):
            continue
        with served:
            yield limit, served


def memory():
    """With ever less memory the program says so with status 6 as it begins, or serves, or answers the fixed 503."""
    with serving("memory.db", 1) as served:
        make_domain(served)
    ends = set()
    for limit, served in served_in("memory.db", (*range(MIB, 12 * MIB, MIB), *range(12 * MIB, 73 * MIB, 6 * MIB))):
        if served.listens:
            with served.client() as client:
                within(f"{limit} bytes of memory", client.ask(ASK), [PERMIT, UNAVAILABLE, b""])
        _, said, status = served.ended()
        ends.add(status)
        if status in (-signal.SIGSEGV, -signal.SIGABRT) or status not in (0, 6):
            # the system couldn't load it
            expect(f"{limit} bytes of memory: it hadn't begun", served.first_line, b"")
        elif status == 6:
            # until it has read its words it doesn't know that it is to serve
            within(f"{limit} bytes of memory", said, [NO_MEMORY_TO_SERVE, NO_MEMORY])
    within("with enough memory all is answered", 0, ends)
    with serving("memory.db", 1) as served:
        expect("with all memory", served.once(ASK), [PERMIT])


# Of a start each of the first allocations is refused, and one of so many behind them: until so many starts in a row
# listen. A start takes some 7,000.
FIRST_REFUSED, ONE_OF, LISTENING = 100, 79, 4


def refused_at_start():
    """With one allocation refused a start says so with status 6, or goes on without it: by no fault of another name."""
    library = compiled(FAILING, str(folder / "failing.so"))
    with serving("start.db", 1) as served:
        make_domain(served)
    place, listening = 1, 0
    while listening < LISTENING:
        surroundings = environment(LD_PRELOAD=library, REFUSED_ALLOCATION=str(place))
        with serving("start.db", 1, env=surroundings) as served:
            listening = listening + 1 if served.listens else 0
            if served.listens:
                within(f"allocation {place} of a start is refused", served.once(ASK), [[PERMIT], [UNAVAILABLE], [b""]])
            _, said, status = served.ended()
            within(f"allocation {place} of a start is refused: its end", (status, said),
                   [(6, NO_MEMORY), (6, NO_MEMORY_TO_SERVE), (0, b"")])
        place += 1 if place < FIRST_REFUSED else ONE_OF
    within("allocations of a start", place, Between(2 * FIRST_REFUSED))


# ---- what connections leave

CONNECTIONS = 60


def files_open(process):
    """How many files it has open once those of connections that have ended are closed: the fewest within a second."""
    counts = []
    until = time.monotonic() + 1
    while time.monotonic() < until:
        counts.append(len(os.listdir(f"/proc/{process.pid}/fd")))
        time.sleep(0.05)
    return min(counts)


def served_by(library, connections):
    """What a run holds that serves so many connections, which end in different ways; and how many files it has open
    before its last connection."""
    with serving("left.db", connections, env=environment(LD_PRELOAD=library)) as served:
        for number in range(connections - 1):
            with served.client() as client:
                client.send((ASK, LIST, ASK[:-5], ASK + LIST[:20], b"\x80", b"")[number % 6])
                client.ends_writing()
                client.all()
        files = files_open(served.process)
        expect("the last connection", served.once(ASK), [PERMIT])
        said = served.ended()[1]
    return Held(*map(int, said.split()[-4:])), files


def connections_leave_nothing():
    """However many connections were served, no more memory is held at once, none is left at the end, and no more files
    are open."""
    library = compiled(COUNTING, str(folder / "counting.so"))
    with serving("left.db", 1) as served:
        make_domain(served)
    (few, few_files), (many, many_files) = (served_by(library, count) for count in (CONNECTIONS, 2 * CONNECTIONS))
    expect("bytes that are left after connections", (few.left, many.left), (0, 0))
    within("bytes that twice as many connections hold at once", many.most - few.most, range(-few.most, MOST_MORE))
    expect("files that are open after twice as many connections", many_files, few_files)


# ---- the stack

def apply(function, *arguments):
    return {"Apply": {"FunctionId": function, "Expression": arguments}}


def most_arguments():
    """A policy whose condition calls a function choice by choice, with nearly as many arguments as a document
    holds. None of them may take room on the stack."""
    true = {"AttributeValue": {"DataType": "boolean", "Value": True}}
    bag = apply(FUNCTIONS % "1.0" + "boolean-bag", true)
    results = apply(FUNCTIONS % "3.0" + "map", {"Function": {"FunctionId": FUNCTIONS % "1.0" + "or"}}, bag,
                    *[{"VariableReference": {"VariableId": "a"}}] * 1_550)
    condition = apply(FUNCTIONS % "1.0" + "boolean-one-and-only", results)
    return json.dumps({"Policy": {"PolicyId": "urn:p", "Version": "1.0", "RuleCombiningAlgId": ALGORITHM,
                                  "VariableDefinition": [{"VariableId": "a", "Expression": true}],
                                  "Rule": [{"RuleId": "r", "Effect": "Permit", "Condition": condition}]}},
                      separators=(",", ":"))


def kib_of_stack(served):
    with open(f"/proc/{served.process.pid}/status") as lines:
        return int(next(held for held in lines if held.startswith("VmStk")).split()[1])


def stack():
    """2 MiB of the stack are there from the start, so that want of address space ends no program by a signal; and no
    message takes more."""
    with serving("deep.db") as served:
        at_first = kib_of_stack(served)
        within("KiB of stack", at_first, Between(2_048))
        make_domain(served, text=most_arguments())
        expect("a function of 1,551 arguments", served.once(ASK), [PERMIT])
        expect("stack that it took beside", kib_of_stack(served) - at_first, 0)


def address_space():
    """With ever more address space rows are taken or answered with the fixed 503, and no signal ends the program."""
    with serving("space.db") as served:
        make_domain(served)
    rows = in_acme("PUT pip", rows_body(240_000))
    for limit, served in served_in("space.db", range(4 * MIB, 24 * MIB, 160 * 1024)):
        if served.listens:
            with served.client() as client:
                within(f"rows in {limit} bytes of address space", client.ask(rows), [DONE, UNAVAILABLE, b""])
            within(f"the end in {limit} bytes of address space", served.ended()[2], [0, 4, 6])
