#!/usr/bin/env python3
"""Messages of one domain through the proved `pdpd serve` over a file, with 1 and with 10,000 domains of 10 documents
each: microseconds of processor time a message, which may differ by three tenths and 3 microseconds, for a table of
many rows is one or two pages deeper; and the operator's list of all domains, which may take 5 ms.

Usage: bench/domains.py [--write] [PDPD]     PDPD: the built program (build/pdpd, which `make pdpd` makes)
                                             --write: the table is written into docs/PERFORMANCE.md too

The files are written by Python's sqlite3. Messages of one kind after another go to one of the domains, in pieces of
100 without waiting, each kind nine times; the best counts. In each message is the system call that sends its reply,
and in a change what the disk's calls take of the processor. On a disturbed machine the times say little.
"""
import hashlib
import json
import os
import pathlib
import sys
import tempfile

sys.dont_write_bytecode = True
TOP = os.path.dirname(os.path.dirname(os.path.abspath(__file__)))
sys.path.insert(0, f"{TOP}/tests")
from kept import write  # noqa: E402
from page import shown, words  # noqa: E402
from serving import OPERATOR, Served, answered, message, policy  # noqa: E402

PROGRAM = os.path.abspath(words()[0] if words() else os.path.join(TOP, "build/pdpd"))
TOKEN = "domain-token-1"
# how often the messages of a kind are sent; the best counts
RUNS = 9
# how many messages of a kind are sent each time
COUNT = 2_000
# how many of a kind that changes something, since the disk is waited for at each
CHANGES = dict.fromkeys(("an upload, and its deletion", "an activation, and a withdrawal", "a root, and another",
                         "a token, and its end"), 400)
# how often the operator lists all domains each time
LISTINGS = 30
# a message with 10,000 domains may take MOST times what it takes with one, and MORE microseconds more
MOST = 1.3
MORE = 3
# how many microseconds the list of all domains may take
MOST_LISTING = 5_000


def rows(numbers):
    """The rows of a store of domains with these numbers: a token, ten documents of which one is
    active, and the root."""
    digest = hashlib.sha256(TOKEN.encode()).digest()
    documents = [(number, 0, f"urn:p{at}", "1.0", policy("Permit", f"urn:p{at}").encode(), int(at == 3))
                 for number in numbers for at in range(10)]
    return {"meta": [(1, 2, max(numbers) + 1)], "domains": [(number, f"d{number}", 0) for number in numbers],
            "tokens": [(number, digest, 1) for number in numbers], "policies": documents,
            "roots": [(number, 0, "urn:p3", None, None, None) for number in numbers], "attributes": [], "sources": []}


def kinds(name):
    """Messages of one domain, by what they do; they leave it as it was, or alternate between two states."""
    at = f"/domains/{name}/pap"
    return {
        "a decision that is kept": [message("POST", f"/domains/{name}/pdp", TOKEN, '{"Request":{}}')] * 2,
        "a decision, another each time": [message("POST", f"/domains/{name}/pdp", TOKEN,
                                                  '{"Request":{"Action":{"Id":"%d"}}}' % number)
                                          for number in range(1000)],
        "an upload, and its deletion": [message("POST", f"{at}/policies", TOKEN, policy("Permit", "urn:p99")),
                                        message("DELETE", f"{at}/policy/urn:p99/1.0", TOKEN)],
        "an activation, and a withdrawal": [message("PUT", f"{at}/policy/urn:p5/1.0/active", TOKEN),
                                            message("DELETE", f"{at}/policy/urn:p5/1.0/active", TOKEN)],
        "the list of documents": [message("GET", f"{at}/policies", TOKEN)] * 2,
        "a root, and another": [message("PUT", f"{at}/root", TOKEN,
                                        json.dumps({"PolicyIdReference": {"Id": f"urn:p{number}"}}))
                                for number in (3, 4)],
        "a token, and its end": [message(method, f"/operator/domains/{name}/tokens", OPERATOR, body) for method, body in
                                 (("POST", '{"Role":"ask","Token":"another-token"}'),
                                  ("DELETE", '{"Token":"another-token"}'))],
        "401, a wrong token": [message("POST", f"/domains/{name}/pdp", "wrong-token-1", '{"Request":{}}')] * 2,
        "401, an absent domain": [message("POST", "/domains/absent/pdp", TOKEN, '{"Request":{}}')] * 2,
        "404, nothing there": [message("POST", f"/domains/{name}/pdq", TOKEN, '{"Request":{}}')] * 2,
    }


def each(served, messages, count):
    """Microseconds of processor time a message, of which so many are sent, in turn; and the status of the last."""
    held, best = messages * (count // len(messages)), None
    for _ in range(RUNS):
        before = served.processor_seconds()
        status = answered(served, held)
        took = served.processor_seconds() - before
        best = took if best is None else min(best, took)
    return best / count * 1e6, status


def measure(folder, numbers):
    """Microseconds a message of each kind and its status, with domains of these numbers; and of the operator's list."""
    path, token = f"{folder}/{len(numbers)}.db", pathlib.Path(folder) / "token"
    token.write_text(f"{OPERATOR}\n")
    write(path, rows(numbers))
    with Served(PROGRAM, path, str(token)) as served:
        took = {kind: each(served, messages, CHANGES.get(kind, COUNT)) for kind, messages in kinds("d5000").items()}
        return took, each(served, [message("GET", "/operator/domains", OPERATOR)], LISTINGS)


def main():
    if not os.path.isfile(PROGRAM):
        sys.exit(f"bench/domains.py: {PROGRAM} is not there: `make pdpd` builds it")
    with tempfile.TemporaryDirectory() as folder:
        (few, _), (many, (listing, status)) = measure(folder, [5_000]), measure(folder, list(range(1, 10_001)))
    failed = 0
    print(f"{'microseconds a message':34}{'1 domain':>12}{'10,000 domains':>17}   the last reply")
    for kind, (took, last) in few.items():
        slower = many[kind][0] > MOST * took + MORE
        failed += slower
        print(f"{kind:34}{took:12.2f}{many[kind][0]:17.2f}   {last.removeprefix('HTTP/1.1 ')}"
              f"{'   more than that' if slower else ''}")
    failed += listing > MOST_LISTING
    print(f"{'the operator lists all domains':34}{'':12}{listing:17.2f}   {status.removeprefix('HTTP/1.1 ')}"
          f"{'   more than 5 ms' if listing > MOST_LISTING else ''}")
    return 1 if failed else 0


if __name__ == "__main__":
    raise SystemExit(shown("domains.py", main))
