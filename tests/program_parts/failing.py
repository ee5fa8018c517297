"""Standard input and output that fail, and want of memory."""
import os
import pty
import resource
import subprocess
import tty

from said import FAILED, NO_MEMORY
from sent import OPERATOR

from .shared import ASK, BEGUN, MOST_BYTES, PROGRAM, REPLY, asks, beginning, entry, expect, replay, written


def answers_to(stdin):
    """What the program writes, what it says, and its exit status, where it reads that."""
    ran = subprocess.run([PROGRAM, "replay", OPERATOR], stdin=stdin, capture_output=True, timeout=60)
    return ran.stdout, ran.stderr, ran.returncode


def end_with(transcript, stdout):
    """What the program says, and its exit status, where it writes there."""
    ran = subprocess.run([PROGRAM, "replay", OPERATOR], input=transcript, stdout=stdout, stderr=subprocess.PIPE,
                         timeout=60)
    return ran.stderr, ran.returncode


def failing():
    """Standard input that has nothing or fails, and standard output that fails."""
    with open(os.devnull, "rb") as nothing:
        expect("nothing on standard input", answers_to(nothing), (b"", b"", 0))
    folder = os.open("/", os.O_RDONLY | os.O_DIRECTORY)
    expect("a folder on standard input", answers_to(folder), (b"", FAILED, 1))
    os.close(folder)
    transcript = beginning() + entry(0, 0, ASK)
    near, far = pty.openpty()
    tty.setraw(far)
    os.write(far, transcript)
    os.close(far)
    expect("a terminal that hangs up", answers_to(near), (BEGUN + written(0, REPLY), FAILED, 1))
    os.close(near)
    with open("/dev/full", "wb") as full:
        expect("a full device on standard output", end_with(transcript, full), (FAILED, 1))
    reading, writing = os.pipe()
    os.close(reading)
    expect("a closed pipe on standard output", end_with(transcript, writing), (FAILED, 1))
    os.close(writing)


def memory():
    """With ever less memory: all is answered, or the replies of earlier entries stand, or fixed 503s, and the program
    says that it had no memory."""
    data, count = asks(MOST_BYTES)
    wanted, ends = count * written(0, REPLY), set()
    for limit in range(2 ** 20, 64 * 2 ** 20, 2 ** 20):
        def limited():
            resource.setrlimit(resource.RLIMIT_AS, (limit, limit))

        try:
            out, said, status = replay(entry(1, 0, ASK) + entry(0, 0, data), preexec_fn=limited)
        except (OSError, subprocess.SubprocessError):
            continue
        ends.add(status)
        if status == 0:
            expect(f"{limit} bytes of memory", (out[:len(written(1, REPLY))], said), (written(1, REPLY), b""))
        elif status == 6:
            expect(f"{limit} bytes of memory", said, NO_MEMORY)
    expect("with enough memory all is answered, and with little the program says so: statuses that didn't come",
           {0, 6} - ends, set())
    out, said, status = replay(entry(1, 0, ASK) + entry(0, 0, data))
    expect("with all memory", (out, said, status), (written(1, REPLY) + wanted, b"", 0))
