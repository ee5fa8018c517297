#!/usr/bin/env python3
"""What a decision request to a domain with ten active documents of 5 KB costs through the proved pdpd: the first,
which reads them, and a second, for which the domain's view is ready.

Usage: bench/shelf.py [--write] [PDPD]     PDPD: the built program (build/pdpd, which `make pdpd` makes)
                                           --write: the table is written into docs/PERFORMANCE.md too

The cost is in instructions, as `valgrind --tool=cachegrind` counts them, or without valgrind in microseconds of
processor time. The asks differ in a space, so that each is worked out. A domain with one active document, the root's,
and nine others tells what each of the nine costs more: on the second ask that is to be nothing. Transcripts with one
ask more and one less give the cost of an ask.
"""
import json
import shutil
import sys

sys.dont_write_bytecode = True
from asking import RULES, permitting  # noqa: E402
from page import shown  # noqa: E402
from sent import OPERATOR, message  # noqa: E402
from transcripts import TOKEN, instructions, seconds  # noqa: E402

DOCUMENTS, BYTES = 10, 5_000
# of processor time, so many more of each message are taken, since one is too short
TIMES = 500


def rule(number):
    return permitting(f"rule-{number}", f"action-{number}", attribute="urn:a")


def text(number):
    """A document of so many bytes, of rules as they are usual."""
    rules = []
    while True:
        draft = {"Policy": {"PolicyId": f"urn:p{number}", "Version": "1.0", "RuleCombiningAlgId": RULES,
                            "Rule": rules + [rule(len(rules))]}}
        held = json.dumps(draft)
        if len(held) > BYTES:
            draft["Policy"]["Rule"].pop()
            return json.dumps(draft).ljust(BYTES)
        rules = draft["Policy"]["Rule"]


def domain(name, active):
    """The messages that make a domain of ten documents, of which so many are active."""
    at = f"/domains/{name}/pap"
    made = [message("PUT", f"/operator/domains/{name}", OPERATOR),
            message("POST", f"/operator/domains/{name}/tokens", OPERATOR,
                    json.dumps({"Role": "admin", "Token": TOKEN}))]
    made += [message("POST", f"{at}/policies", TOKEN, text(number)) for number in range(DOCUMENTS)]
    made += [message("PUT", f"{at}/policy/urn:p{number}/1.0/active", TOKEN) for number in range(active)]
    return made + [message("PUT", f"{at}/root", TOKEN, json.dumps({"PolicyIdReference": {"Id": "urn:p0"}}))]


def ask(name, spaces):
    return message("POST", f"/domains/{name}/pdp", TOKEN, '{"Request":{}' + " " * spaces + "}")


def by_instructions(active):
    """Of the first ask, of a second one and of one whose response is kept."""
    setup, asks = domain("acme", active), [ask("acme", 0), ask("acme", 1), ask("acme", 1)]
    counts = [instructions(setup + asks[:count]) for count in range(4)]
    return [after - before for before, after in zip(counts, counts[1:])]


def by_time(active):
    """The same in microseconds; of the first asks, many domains are made, each of whose texts
    differ, and removed again."""
    setup = domain("acme", active)
    firsts = []
    for place in range(TIMES):
        made = [one.replace(b"action-0", b"act%06d" % place) for one in domain("acme", active)]
        firsts.append((made, [message("DELETE", "/operator/domains/acme", OPERATOR)]))
    without = [one for made, removed in firsts for one in made + removed]
    with_ask = [one for made, removed in firsts for one in made + [ask("acme", 0)] + removed]
    first = (seconds(with_ask) - seconds(without)) / TIMES
    others = [ask("acme", spaces) for spaces in range(1000)]
    second = (seconds(setup + others * 4) - seconds(setup + others * 2)) / 2000
    kept = (seconds(setup + [ask("acme", 0)] * 40_000) - seconds(setup + [ask("acme", 0)] * 20_000)) / 20_000
    return [took * 1e6 for took in (first, second, kept)]


def main():
    measure, unit = (by_instructions, "instructions") if shutil.which("valgrind") else (by_time, "microseconds")
    of_ten, of_one = measure(DOCUMENTS), measure(1)
    print(f"{unit + ' a decision':34}{'10 active':>14}{'1 active':>14}{'each of 9 more':>16}")
    for kind, ten, one in zip(("the first: texts are read", "another: the view is ready",
                               "the same: its response is kept"), of_ten, of_one):
        print(f"{kind:34}{ten:14,.0f}{one:14,.0f}{(ten - one) / 9:16,.0f}")


if __name__ == "__main__":
    sys.exit(shown("shelf.py", main))
