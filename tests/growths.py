"""Programs of which each allocation fails in turn: a few lines of C that `cc` compiles and the loader puts before
the C library, and what a run over a list of messages then answers."""
import collections
import concurrent.futures
import os
import pathlib
import subprocess
import sys

TOP = pathlib.Path(__file__).resolve().parent.parent
sys.path.insert(0, str(TOP / "tests" / "model"))
sys.dont_write_bytecode = True

from counting import CountingServer  # noqa: E402
from messages import Stream  # noqa: E402
from routes import TABLE, route_of  # noqa: E402
from rows import Source, as_input, decoded, encoded, line  # noqa: E402
from servers import OPERATOR_TOKEN  # noqa: E402

# So many runs in a row that find no allocation refused end a count; so many are begun together.
UNTOUCHED, BATCH = 50, 200
OUT_OF_MEMORY, SECONDS = 6, 60
COUNTS = ("unkept", "evaluations")

FAILING = r"""
#define _GNU_SOURCE
#include <dlfcn.h>
#include <errno.h>
#include <stdlib.h>

static long counted;

static int is_refused(void) {
    const char *place = getenv("REFUSED_ALLOCATION");
    return place && ++counted == atol(place);
}

void *malloc(size_t size) {
    static void *(*next)(size_t);
    if (!next) next = dlsym(RTLD_NEXT, "malloc");
    return is_refused() ? (errno = ENOMEM, NULL) : next(size);
}

void *realloc(void *old, size_t size) {
    static void *(*next)(void *, size_t);
    if (!next) next = dlsym(RTLD_NEXT, "realloc");
    return is_refused() ? (errno = ENOMEM, NULL) : next(old, size);
}

void *aligned_alloc(size_t alignment, size_t size) {
    static void *(*next)(size_t, size_t);
    if (!next) next = dlsym(RTLD_NEXT, "aligned_alloc");
    return is_refused() ? (errno = ENOMEM, NULL) : next(alignment, size);
}

int posix_memalign(void **place, size_t alignment, size_t size) {
    static int (*next)(void **, size_t, size_t);
    if (!next) next = dlsym(RTLD_NEXT, "posix_memalign");
    return is_refused() ? ENOMEM : next(place, alignment, size);
}
"""


def compiled(code, library, level="-O1"):
    """Compiles a library that is put before the C library."""
    words = ["cc", level, "-shared", "-fPIC", "-x", "c", "-o", library, "-", "-ldl"]
    subprocess.run(words, input=code.encode(), check=True)
    return library


def messages_in(held):
    """The bytes of each message of a piece, which is whole messages."""
    stream = Stream()
    stream.held = held
    while stream.held:
        before = stream.held
        stream.next()
        if stream.held == before:
            raise ValueError(f"a piece ends within a message: {before[-80:]}")
        yield before[:len(before) - len(stream.held)]


def script_of(fields):
    """The messages of a script, each with its moment."""
    moment = 0
    for field in fields:
        word, _, text = field.partition(":")
        if word == "moment":
            moment = int(text)
        else:
            for held in messages_in(decoded(as_input(text))):
                yield moment, held


def script():
    """The messages of all scripts of tests/rows/tripped.rows, one script behind another."""
    rows = Source(TOP / "tests" / "rows" / "tripped.rows").rows
    return [found for _, fields, _ in rows if fields[0] == "tripped" for found in script_of(fields[1:])]


def message_of(held):
    """The message that the bytes are."""
    stream = Stream()
    stream.held = held
    return stream.next()


def not_asked(messages):
    """What is served, and none of the messages asks for."""
    served = {command for commands in TABLE.values() for command in commands.values()}
    return sorted(served - {route_of(message_of(held)).command for _, held in messages})


def by_model(messages):
    """The reply of the model to each of the messages, and how many decisions it has worked out then."""
    server, found = CountingServer(OPERATOR_TOKEN), []
    for moment, held in messages:
        found.append((server.answer(message_of(held), moment), server.evaluations))
    return found


# What a run came to: the replies; what it has counted, by name, where it tells that; and whether it ended early.
Ran = collections.namedtuple("Ran", "replies counts is_cut")


class Program:
    """A program that is given a list of messages, each with its moment."""

    def __init__(self, path, library):
        self.path, self.library = path, library

    def written(self, words, held, place):
        """The status of a run in which the allocation of that place fails, and what it wrote."""
        surroundings = {**os.environ, "LD_PRELOAD": self.library, "REFUSED_ALLOCATION": str(place)}
        how = {"stdout": subprocess.PIPE, "stderr": subprocess.DEVNULL, "timeout": SECONDS, "check": False}
        done = subprocess.run([self.path, *words], input=held, env=surroundings, **how)
        return done.returncode, done.stdout


def entries(data):
    """The headings of what a transcript or an output holds, each with the bytes behind it."""
    found, at = [], 0
    while at < len(data):
        end = data.index(b"\n", at)
        length = int(data[at:end].split()[-1])
        found.append((data[at:end], data[end + 1:end + 1 + length]))
        at = end + length + 2
    return found


class Replay(Program):
    """`pdpd replay`, over tables in memory."""

    def run(self, messages, place):
        transcript = b"".join(b"0 %d %d\n%b\n" % (moment, len(held), held) for moment, held in messages)
        status, data = self.written(["replay", OPERATOR_TOKEN.decode()], transcript, place)
        if status not in (0, OUT_OF_MEMORY):
            raise ValueError(f"status {status}")
        return Ran([reply for _, reply in entries(data)], {}, status == OUT_OF_MEMORY)


class Rows(Program):
    """A row of xa_trials, over one keeper alone, that tells at its end what the server has counted."""

    def __init__(self, path, library, kind="server_in_memory"):
        super().__init__(path, library)
        self.kind = kind

    def run(self, messages, place):
        fields, at = [self.kind], 0
        for moment, held in messages:
            if moment != at:
                fields.append(f"moment:{moment}")
            at = moment
            fields.append("piece:" + encoded(held))
        status, data = self.written([], line([*fields, *(f"{word}:" for word in COUNTS)]).encode(), place)
        if status or data == b"!Memory\n":
            return Ran([], {}, True)
        *replies, unkept, evaluations = data.decode("ascii").rstrip("\n").split("\t")
        counts = dict(field.split(" ") for field in (unkept, evaluations))
        return Ran([decoded(reply) for reply in replies], {word: int(counts[word]) for word in COUNTS}, False)


def in_turn(run):
    """The place of each allocation and what came of the run in which it fails, until so many in a row touched nothing,
    as the run tells by its second value."""
    first, untouched = 1, 0
    with concurrent.futures.ThreadPoolExecutor(len(os.sched_getaffinity(0))) as pool:
        while True:
            places = range(first, first + BATCH)
            for place, (found, is_untouched) in zip(places, pool.map(run, places)):
                yield place, found
                untouched = untouched + 1 if is_untouched else 0
                if untouched == UNTOUCHED:
                    return
            first += BATCH
