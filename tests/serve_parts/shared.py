"""What the parts of tests/serve.py share: the program, a folder of their own, and messages to a domain with replies."""
import contextlib
import json
import os
import pathlib
import random
import shutil
import subprocess
import sys
import tempfile

from checks import Checks, program_named
from serving import COMMAND, OPERATOR, Served, decided, making, message, policy, reply

TOP = pathlib.Path(__file__).resolve().parent.parent.parent
PROGRAM = program_named(sys.argv[1:])
SEED = 7
MIB = 2 ** 20
# of those that are for documentation (RFC 5737), so that no machine has it
ELSEWHERE = "192.0.2.1:1"

checks = Checks("tests/serve.py")
expect, within = checks.expect, checks.within
chance = random.Random(SEED)
folder = pathlib.Path(tempfile.mkdtemp(prefix="pdpd-"))
TOKEN_FILE = str(folder / "token")

LIST = message("GET", "/operator/domains", OPERATOR)
ASK, PERMIT = message("POST", "/domains/acme/pdp", "acme-token-1", '{"Request":{}}'), decided("Permit")


# ---- messages and replies

def creates(name):
    return message("PUT", f"/operator/domains/{name}", OPERATOR)


def in_acme(request, body=None, more=""):
    """A message of the admin of `acme`, whose path is given from the domain on."""
    method, path = request.split(" ")
    return message(method, f"/domains/acme/{path}", "acme-token-1", body, more)


def upload_of(number):
    """The upload of a document of over 40,000 bytes."""
    return in_acme("POST pap/policies", policy("Permit", f"urn:u{number:03}", description="x" * 40_000))


def listing(names):
    return reply("200 OK", json.dumps({"Domain": sorted(names)}, separators=(",", ":")))


def names(served):
    """The domains that the program lists."""
    return json.loads(served.once(LIST)[0].partition(b"\r\n\r\n")[2])["Domain"]


# ---- the program

def environment(**settings):
    """The surroundings of a process with these settings."""
    return {**os.environ, **settings}


def words_to_serve(path, address=ELSEWHERE, token_file=TOKEN_FILE):
    """The words of a command line that serves a file, by `serve` for one connection."""
    return [COMMAND, str(path), address, str(token_file), *(["1"] if COMMAND == "serve" else [])]


def serving(name, connections=1_000_000, token_file=TOKEN_FILE, **more):
    return Served(PROGRAM, str(folder / name), str(token_file), connections, **more)


@contextlib.contextmanager
def room_in_memory():
    """A folder in memory, where a system has such: many changes are soon made there, since none waits for a disk."""
    shared = "/dev/shm"
    room = tempfile.mkdtemp(prefix="pdpd-", dir=shared if os.access(shared, os.W_OK) else folder)
    try:
        yield room
    finally:
        shutil.rmtree(room, ignore_errors=True)


def make_domain(served, name="acme", **more):
    """Makes a domain whose root permits everything, or is the text that is given."""
    messages = making(name, f"{name}-token-1", **more)
    expect(f"{name} is made", served.once(*(held for held, _ in messages)), [wanted for _, wanted in messages])


def replies_up_to_end(served, data):
    """All that comes for these bytes and the end of their stream."""
    with served.client() as client:
        try:
            client.send(data)
            client.ends_writing()
        except OSError:
            pass
        return client.all()


def ends_well(what, served):
    expect(f"{what}: the program ends after the last connection", served.ended(), (b"", b"", 0))


def expect_refusal(what, words, status, said, **more):
    """That the program ends at once with that status and that line, and writes nothing else."""
    ran = subprocess.run([PROGRAM, *words], stdin=subprocess.DEVNULL, capture_output=True, timeout=20, **more)
    is_line = ran.stderr.endswith(b"\n") and ran.stderr.count(b"\n") == 1
    expect(what, (ran.stdout, ran.returncode, is_line, ran.stderr), (b"", status, True, said))
