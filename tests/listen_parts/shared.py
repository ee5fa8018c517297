"""What the parts of tests/listen.py share."""
import contextlib
import time

from serve_parts.shared import checks, environment, expect, make_domain, serving, within  # noqa: F401

checks.name = "tests/listen.py"
PLACES = 64


@contextlib.contextmanager
def listening(name, **settings):
    """The program over a file of that name with these settings, and a domain `acme`."""
    with serving(f"{name}.db", env=environment(**settings)) as served:
        make_domain(served)
        yield served


@contextlib.contextmanager
def clients_of(served, count):
    """So many clients."""
    with contextlib.ExitStack() as stack:
        yield [stack.enter_context(served.client()) for _ in range(count)]


def timed(action):
    """What an action gives, and how many seconds it took."""
    began = time.monotonic()
    found = action()
    return found, time.monotonic() - began


def percentile(times, share):
    """The time within which that share of the times lies."""
    return sorted(times)[min(len(times) - 1, int(len(times) * share))]
