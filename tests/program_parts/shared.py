"""What the parts of tests/program.py share: the program, and transcripts with what it writes to them."""
import pathlib
import subprocess
import sys

from checks import Checks, program_named
from sent import OPERATOR, decided, making, message, policy_of, reply

TOP = pathlib.Path(__file__).resolve().parent.parent.parent
PROGRAM = program_named(sys.argv[1:])
MOST_BYTES = 1_048_576
FIRST_MOMENT, LAST_MOMENT = -62_135_596_800, 253_402_300_799

checks = Checks("tests/program.py")
expect, within = checks.expect, checks.within

ASK, REPLY = message("POST", "/domains/acme/pdp", "acme-token-1", '{"Request":{}}'), decided("Permit")
NO_ROUTE = reply("404 Not Found", '{"Error":"NoRoute"}')
PERMITTING = '{"RuleId":"r","Effect":"Permit"}'
DENYING = '{"RuleId":"r","Effect":"Deny"}'


# ---- messages

def making_of(domain, rules, operator=OPERATOR):
    """Messages that make a domain whose root is a policy of these rules, each with its reply. Its administrator's token
    is its name and `-token-1`."""
    return making(domain, f"{domain}-token-1", policy_of(rules), operator)


def in_acme(request, body=None, token="acme-token-1"):
    """A message to the domain `acme`, whose path is given from the domain on."""
    method, path = request.split(" ")
    return message(method, f"/domains/acme/{path}", token, body)


def by_operator(request, body=None):
    """A message of the operator, whose path is given from the list of domains on."""
    method, path = request.split(" ")
    return message(method, f"/operator/domains{path}", OPERATOR, body)


def padded_ask(length):
    """The ask in that many bytes: what follows `?` is dropped from a target."""
    return ASK.replace(b"/pdp", b"/pdp?" + b"x" * (length - len(ASK) - 1))


def asks(length):
    """Asks of that many bytes in all, and how many they are."""
    count = length // len(ASK) - 1
    return ASK * count + padded_ask(length - count * len(ASK)), count + 1


# ---- entries of a transcript, and of what is written

def entry(connection, moment, data):
    return b"%d %d %d\n%s\n" % (connection, moment, len(data), data)


def written(connection, reply):
    return b"%d %d\n%s\n" % (connection, len(reply), reply)


def beginning(operator=OPERATOR):
    """An entry that makes the domain `acme`, which permits everything, and one that closes its connection."""
    return entry(40, 0, b"".join(held for held, _ in making_of("acme", PERMITTING, operator))) + entry(40, 0, b"")


BEGUN = b"".join(written(40, wanted) for _, wanted in making_of("acme", PERMITTING))


# ---- the program

def run(transcript, words=("replay", OPERATOR), timeout=60, **more):
    """What the program writes, what it says on standard error, and its exit status."""
    ran = subprocess.run([PROGRAM, *words], input=transcript, capture_output=True, timeout=timeout, **more)
    return ran.stdout, ran.stderr, ran.returncode


def replay(transcript, **more):
    """The same of a transcript behind what makes `acme`, and without the replies to that."""
    out, said, status = run(beginning() + transcript, **more)
    return out[len(BEGUN):] if out.startswith(BEGUN) else b"not begun: " + out, said, status
