#!/usr/bin/env python3
"""What a decision request takes through the proved pdpd, in microseconds of processor time: one whose response is
kept, and ordinary ones that are worked out.

Usage: bench/asks.py [--write] [PDPD]                  PDPD: the built program (build/pdpd, which `make pdpd` makes)
                                                       --write: the times are written into docs/PERFORMANCE.md too
       bench/asks.py [--write] PDPD --instructions     instructions in place of times, in some minutes (valgrind,
                                                       Debian's package); and those of asks with many values, by
                                                       policies of so many matches on them that are all false
                                                       --write: the latter are written into docs/PERFORMANCE.md too

A domain has one policy, of ten rules with a match each, of which the last permits, or of 50 or 150 where it is said. A
request has three attributes. The same bytes again and again are worked out once; 1,000 requests in turn are more than
are kept, so that each is worked out. Each kind is sent so many times and twice as many: the difference is what the
messages take. Then the same by a policy of one rule with 10 and with 150 alternatives of a match each, of which the
last is true: the difference is what 140 matches take that look at a text and find another. Times are the best of three
runs; on a disturbed machine they say little.
"""
import sys

sys.dont_write_bytecode = True
from asking import alternatives, ask, ask_with_values, domain, policy  # noqa: E402
from page import shown, words  # noqa: E402
from transcripts import instructions, seconds, statuses  # noqa: E402

CLOCK = "urn:oasis:names:tc:xacml:1.0:environment:current-time"
COUNT = 50_000
VALUES, MATCHES, LARGE_ASKS = (255, 256, 1000), (8, 16, 17, 30, 60, 150), 600


def kinds():
    designator = {"AttributeDesignator": {"Category": "Environment", "AttributeId": CLOCK, "DataType": "time",
                                          "MustBePresent": False}}
    clock = policy(VariableDefinition=[{"VariableId": "v", "Expression": designator}])
    return {
        "a wrong token, 401": (domain("acme", policy()), [ask("acme", 0, "wrong-token-1")]),
        "kept: the same bytes again": (domain("acme", policy()), [ask("acme", 0)]),
        "kept: 500 requests in turn": (domain("acme", policy()), [ask("acme", number) for number in range(500)]),
        "worked out: 1,000 requests in turn": (domain("acme", policy()),
                                               [ask("acme", number) for number in range(1000)]),
        "worked out: a policy that names the clock": (domain("acme", clock), [ask("acme", 0)]),
        **{f"worked out: 1,000 requests in turn, {rules} rules": (domain("acme", policy(rules)),
                                                                  [ask("acme", number) for number in range(1000)])
           for rules in (50, 150)},
    }


def each(setup, asks):
    """Seconds that each of the asks takes, behind the setup."""
    once, twice = (seconds(setup + asks * (times * COUNT // len(asks))) for times in (1, 2))
    return (twice - once) / COUNT


def of_a_match():
    """Seconds that a match takes."""
    asks = [ask("acme", number) for number in range(1000)]
    few, many = (each(domain("acme", alternatives(count)), asks) for count in (10, 150))
    return (many - few) / 140


def instructions_of_each(setup, asks, times=1):
    """Instructions that each of the asks takes, behind the setup."""
    once, twice = (instructions(setup + asks * count) for count in (times, 2 * times))
    return (twice - once) / times / len(asks)


def by_instructions():
    """The instructions of each kind of asks, and of those with many values."""
    for kind, (setup, asks) in kinds().items():
        print(f"{kind:44}{instructions_of_each(setup, asks, 1 if len(asks) > 1 else 1000):16,.0f} instructions")
    return shown("asks.py instructions", by_matches)


def by_matches():
    """The instructions of asks with many values, by how many matches are false on them."""
    print("values, by matches" + "".join(f"{count:12}" for count in MATCHES))
    for values in VALUES:
        asks = [ask_with_values("acme", number, values) for number in range(LARGE_ASKS)]
        print(f"{values:18}" + "".join(f"{instructions_of_each(domain('acme', alternatives(count)), asks):12,.0f}"
                                       for count in MATCHES))


def by_times():
    """The microseconds of each kind of asks, and the nanoseconds of a match."""
    print(f"{'microseconds a message':48}{'':>8}   replies")
    for kind, (setup, asks) in kinds().items():
        print(f"{kind:48}{each(setup, asks) * 1e6:8.2f}   {statuses(setup + asks)}", flush=True)
    print(f"a match takes {of_a_match() * 1e9:.0f} nanoseconds")
    return 0


def main():
    return by_instructions() if words()[1:] == ["--instructions"] else shown("asks.py", by_times)


if __name__ == "__main__":
    sys.exit(main())
