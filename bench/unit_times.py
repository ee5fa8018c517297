"""What a unit of the limit of work takes where a form is asked (unit_forms.py), by the program xa_trials."""
import os
import subprocess
import tempfile

from inputs import as_read
from rows import encoded, line
from unit_documents import too_long_to_keep, written

NO_LIMIT, ASKS, RUNS = 2**64 - 1, 4, 5
# where a row of one ask takes so many seconds, one more is asked behind it, else ASKS
LONG = 0.05


def asking(body):
    held = written(body).encode()
    head = ("POST /domains/acme/pdp HTTP/1.1\r\nAuthorization: Bearer acme-token-1\r\n"
            f"Content-Length: {len(held)}\r\n\r\n")
    return encoded(head.encode() + held)


def row(form, limit, asks, has_root=True):
    """The row of a server under the limit, asked that so often, of a domain with a root or without one."""
    root = "root:set|s|||" if "PolicySet" in form.documents[0] else "root:policy|p|||"
    documents = ["document:" + encoded(written(draft).encode()) for draft in form.documents]
    held = [*documents, *([root] if has_root else []), *("row:" + text for text in form.rows)]
    asked = "piece:" + asking(too_long_to_keep(form.request)) * asks
    return line(as_read(["server_in_memory", f"limit:{limit}", "domain:acme", "ask:acme-token-1", *held, asked]))


def ran(program, text):
    """Processor seconds for the row, and its answer."""
    with tempfile.TemporaryFile() as rows:
        rows.write(text.encode())
        rows.seek(0)
        child = subprocess.Popen([program], stdin=rows, stdout=subprocess.PIPE)
        answer = child.stdout.read()
        _, child.returncode, used = os.wait4(child.pid, 0)
    assert child.returncode == 0, child.returncode
    return used.ru_utime + used.ru_stime, answer


def seconds(program, form, asks, has_root, runs):
    """Processor seconds of so many asks under no limit, the best of so many runs."""
    text = row(form, NO_LIMIT, asks, has_root)
    return min(ran(program, text)[0] for _ in range(runs))


def of_an_ask(program, form, has_root, runs):
    """Processor seconds of one ask behind a first one, which reads and links what the root leads to."""
    first = seconds(program, form, 1, has_root, runs)
    asks = 1 if first > LONG else ASKS
    return (seconds(program, form, 1 + asks, has_root, runs) - first) / asks


def of_the_form(program, form, runs):
    """Processor seconds of one ask of the form, without what reading the row and the request takes: that is what the
    same ask takes of a domain without a root."""
    return of_an_ask(program, form, True, runs) - of_an_ask(program, form, False, runs)


def is_answered(program, form, text, limit):
    """Whether the row, which has no limit, is answered under this one."""
    _, answer = ran(program, text.replace(f"limit:{NO_LIMIT}", f"limit:{limit}", 1))
    assert answer.startswith((b"HTTP/1.1 200 ", b"HTTP/1.1 503 ")), (form.name, answer[:300])
    return answer.startswith(b"HTTP/1.1 200 ")


def units(program, form, part=None):
    """The least limit under which the form is answered, or one that is more by no more than one part in so many."""
    text, high = row(form, NO_LIMIT, 1), 1 << 16
    while not is_answered(program, form, text, high):
        high *= 4
    low = -1 if high == 1 << 16 else high // 4
    while high - low > (max(1, high // part) if part else 1):
        middle = (low + high) // 2
        low, high = (low, middle) if is_answered(program, form, text, middle) else (middle, high)
    return high


def each(program, form):
    """The form's seconds and its units for one ask."""
    return of_the_form(program, form, RUNS), units(program, form)
