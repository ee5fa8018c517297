#!/usr/bin/env python3
"""Decisions on large requests, by 999 policies of 10 designators each: nanoseconds a designator, and what the
rest of a decision takes.

Usage: bench/decide.py [--write] [XA_TRIALS]     XA_TRIALS: the built program; without it the proved one, which is
                                                 proved and built first where it isn't yet
                                                 --write: the table is written into docs/PERFORMANCE.md too
       bench/decide.py [--write] --instructions [XA_TRIALS]     instructions for a designator in place of times, in
                                                                some minutes (valgrind, Debian's package)

The program xa_trials answers `decide` rows, each with 1,000 documents. A request with 64 individual requests asks each
designator 63 times more than the same request with one, and links no more: so the difference of their times is what
designators cost, with the match that each stands in. Times are processor time, the best of five runs; on a disturbed
machine they say little. Instructions are the same on any machine.
"""
import json
import pathlib
import resource
import subprocess
import sys
import tempfile

TOP = pathlib.Path(__file__).resolve().parent.parent
sys.path.insert(0, str(TOP / "tests" / "model"))

from inputs import as_read  # noqa: E402
from page import shown, words  # noqa: E402
from transcripts import CACHEGRIND, instructions_in  # noqa: E402

CRATE = TOP / "crates" / "xa_trials"
BY_INSTRUCTIONS = "--instructions" in words()
WORDS = [word for word in words() if word != "--instructions"]
PROGRAM = pathlib.Path(WORDS[0]) if WORDS else CRATE / "out" / "xa_trials"
ALGORITHM = "urn:oasis:names:tc:xacml:3.0:%s-combining-algorithm:deny-overrides"
RESOURCE = "urn:oasis:names:tc:xacml:3.0:attribute-category:resource"
RESOURCE_NAME = "record 0"
# how many policies the set has
POLICIES = 999
# how many designators each policy has
DESIGNATORS = 10
# how many attributes a large request has
ATTRIBUTES = 5000
# how many rows the source has where it has any
ROWS = 4096
# how many individual requests a request has that is compared with a request of one
INDIVIDUALS = 64
# how often each row is timed; the best counts
RUNS = 5


def attribute_id(number):
    return f"urn:example:attribute:{number % ATTRIBUTES}"


def policy(place, one_id, named, designators):
    """A policy of this many matches that are all false, each of another attribute, or all of one id, by an issuer each
    where they are named."""
    alternatives = []
    for i in range(designators):
        designator = {"Category": "Resource",
                      "AttributeId": attribute_id(0 if one_id else (place * DESIGNATORS + i) * 7), "DataType": "string",
                      "MustBePresent": False}
        if named:
            designator["Issuer"] = f"i{(place * DESIGNATORS + i) * 7 % ATTRIBUTES}"
        alternatives.append({"Match": [{"MatchId": "urn:oasis:names:tc:xacml:1.0:function:string-equal",
                                        "AttributeValue": {"DataType": "string", "Value": "none"},
                                        "AttributeDesignator": designator}]})
    target = {"Target": {"AnyOf": [{"AllOf": alternatives}]}} if alternatives else {}
    return {"Policy": {"PolicyId": f"p{place}", "Version": "1", "RuleCombiningAlgId": ALGORITHM % "rule", **target}}


def view(one_id=False, named=False, rows=0, issued=0, designators=DESIGNATORS):
    """The fields of a row for the set of all policies, and this many rows of the source, of an entity that no request
    names; and this many of one attribute of the resource, each of another issuer."""
    root = {"PolicySet": {"PolicySetId": "root", "Version": "1", "PolicyCombiningAlgId": ALGORITHM % "policy",
                          "Children": [{"PolicyIdReference": {"Id": f"p{place}"}} for place in range(POLICIES)]}}
    fields = ["active:" + json.dumps(policy(place, one_id, named, designators), separators=(",", ":"))
              for place in range(POLICIES)]
    fields += ["active:" + json.dumps(root, separators=(",", ":")), "root:set|root|||"]
    return (fields + [f"row:{RESOURCE}|somebody else|{attribute_id(i)}|string=row" for i in range(rows)]
            + [f"row:{RESOURCE}|{RESOURCE_NAME}|{attribute_id(0)}|string|i{i}=row" for i in range(issued)])


def ids(count):
    """This many attributes, each of another id."""
    return [{"AttributeId": attribute_id(i), "Value": "v"} for i in range(count)]


def issuers(count):
    """This many attributes of one id, each of another issuer."""
    return [{"AttributeId": attribute_id(0), "Issuer": f"i{i}", "Value": "v"} for i in range(count)]


def without_values(count):
    """This many attributes of one id, each without a value."""
    return [{"AttributeId": attribute_id(0), "Value": []} for _ in range(count)]


def names(count):
    """The attribute that names the resource, with this many values."""
    return [{"AttributeId": "urn:oasis:names:tc:xacml:1.0:resource:resource-id",
             "Value": [f"record {i}" for i in range(count)]}]


def request(attributes, individuals):
    """A request that has these attributes of the resource, with this many individual requests of it."""
    return json.dumps({"Request": {"Category": [{"CategoryId": "Resource", "Id": "r", "Attribute": attributes}],
                                   "MultiRequests": {"RequestReference": [{"ReferenceId": ["r"]}] * individuals}}},
                      separators=(",", ":"))


def seconds(fields, body):
    """Processor time that the program takes for the row, in seconds, the best of some runs."""
    best = None
    with tempfile.NamedTemporaryFile("w+") as rows:
        rows.write("\t".join(as_read(["decide", *fields, body])) + "\n")
        rows.flush()
        for _ in range(RUNS):
            before = resource.getrusage(resource.RUSAGE_CHILDREN)
            with open(rows.name, encoding="ascii") as given:
                answer = subprocess.run([PROGRAM], stdin=given, stdout=subprocess.PIPE, check=True).stdout
            after = resource.getrusage(resource.RUSAGE_CHILDREN)
            if b"NotApplicable" not in answer:
                raise SystemExit(f"answered {answer[:200]}")
            took = after.ru_utime + after.ru_stime - before.ru_utime - before.ru_stime
            best = took if best is None else min(best, took)
    return best


def instructions(fields, body):
    """The instructions of the program for the row."""
    with tempfile.NamedTemporaryFile("w+") as rows, tempfile.NamedTemporaryFile("r") as log:
        rows.write("\t".join(as_read(["decide", *fields, body])) + "\n")
        rows.flush()
        command = [*CACHEGRIND, f"--log-file={log.name}", PROGRAM]
        with open(rows.name, encoding="ascii") as given:
            subprocess.run(command, stdin=given, stdout=subprocess.DEVNULL, check=True)
        return instructions_in(log.read())


def cases():
    """What is decided: its name, the fields of the view, and the attributes of the request."""
    return [("no designators", view(designators=0), ids(3)),
            ("3 attributes", view(), ids(3)),
            ("3 attributes, of which each match looks at one", view(one_id=True), ids(3)),
            ("5,000 attributes", view(), ids(ATTRIBUTES)),
            ("5,000 attributes of one id, by an issuer", view(one_id=True, named=True), issuers(ATTRIBUTES)),
            ("5,000 attributes of one id, none with a value", view(one_id=True), without_values(ATTRIBUTES)),
            ("4,096 rows of the source, none of the entity, no attribute", view(rows=ROWS), []),
            ("the same, and 5,000 names of the resource", view(rows=ROWS), names(ATTRIBUTES)),
            ("4,096 rows of one key and as many issuers, by an issuer",
             view(one_id=True, named=True, issued=ROWS), names(1))]


def measured(taken):
    """Of each case its name, what it takes with one individual request and with many, and what a designator takes;
    None for the latter where there are no designators."""
    alone = 0
    for name, fields, attributes in cases():
        one, many = (taken(fields, request(attributes, individuals)) for individuals in (1, INDIVIDUALS))
        if name == "no designators":
            alone = many - one
            yield name, one, many, None
        else:
            yield name, one, many, (many - one - alone) / ((INDIVIDUALS - 1) * POLICIES * DESIGNATORS)


def show_seconds():
    """The times with one individual request and with many, and what of these a designator takes."""
    print(f"{'':<60} {'1 individual, ms':>18} {'64, ms':>9} {'ns for a designator':>20}", flush=True)
    for name, one, many, of_one in measured(seconds):
        shown_one = "" if of_one is None else f"{of_one * 1e9:.0f}"
        print(f"{name:<60} {one * 1000:>18.0f} {many * 1000:>9.0f} {shown_one:>20}", flush=True)


def show_instructions():
    """What a designator takes."""
    print(f"{'instructions':<60} {'for a designator':>20}", flush=True)
    for name, _, _, of_one in measured(instructions):
        if of_one is not None:
            print(f"{name:<60} {of_one:>20,.0f}", flush=True)


def main():
    if not WORDS:
        subprocess.run(["rt", "run"], cwd=CRATE, stdin=subprocess.DEVNULL, stdout=subprocess.DEVNULL,
                       stderr=subprocess.DEVNULL, check=True)
    if BY_INSTRUCTIONS:
        return shown("decide.py instructions", show_instructions)
    return shown("decide.py", show_seconds)


if __name__ == "__main__":
    sys.exit(main())
