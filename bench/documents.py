#!/usr/bin/env python3
"""Policy documents: how long one takes to read, beside the time that `serde_json` alone takes for the same text, and
the memory that each of the two takes.

Usage: bench/documents.py [--write]     --write: the table is written into docs/PERFORMANCE.md too

Proves and builds the program below over a copy of xa_notation and what it stands on, and gives it documents of 1, 8
and 64 KiB of rules with targets, conditions and obligations, and documents of shapes that would show work which grows
faster than the text, each at 64 KiB and, by its ratio alone, at 8: what is read in time in proportion to its bytes has
about the same ratio to JSON alone at both. Times are the best of five measurements of 2,000,000 bytes at least. Peak
memory is what GNU time reads where the text is read once, less that of a program that reads none. Behind the table
stands what each text was read as.
"""
import json
import os
import re
import shutil
import subprocess
import sys
import tempfile

sys.dont_write_bytecode = True
from page import shown  # noqa: E402

TOP = os.path.dirname(os.path.dirname(os.path.abspath(__file__)))
BELOW = ["xa_value", "xa_func", "xa_bag", "xa_expr", "xa_policy", "xa_notation"]
MEASURED_BYTES = 2_000_000
PROGRAM = r'''//! Policy documents, and their JSON alone: how long they take to read.
#![tactic(auto)]

use anyhow::Result;
use serde_json::Value as Json;
use std::alloc::Global;
use std::io::{BufRead, BufReader};
use std::rt::Clock;
use std::time::Instant;
use xa_notation::Parsed;
use xa_value::OrMemory;

/// What a text is read as: a document, or why it is none.
fn outcome(alloc: Global, text: &[u8]) -> Result<String> {
    match Parsed::read(alloc, text) {
        Ok(_) => Ok(format!(in alloc; "a document")?),
        Err(OrMemory::Error(error)) => Ok(format!(in alloc; "{error}")?),
        Err(OrMemory::Memory) => Ok(format!(in alloc; "no memory")?),
    }
}

/// How many of the readings of the text find a document.
fn documents(alloc: Global, text: &[u8], times: u32) -> u32 {
    let mut found = 0u32;
    for _ in 0..times {
        if Parsed::read(alloc, text).is_ok() {
            found = found.saturating_add(1);
        }
    }
    found
}

/// How many of the readings of the text find JSON.
fn json_values(alloc: Global, text: &[u8], times: u32) -> u32 {
    let mut found = 0u32;
    for _ in 0..times {
        if Json::from_slice(alloc, text).is_ok() {
            found = found.saturating_add(1);
        }
    }
    found
}

/// Reads the text this many times, five times over, as a document or as JSON alone, and shows the least nanoseconds.
fn measure<R: Clock + Print + AllocGlobal>(rt: &R, kind: &str, text: &str, times: u32) -> Result<()> {
    let alloc = rt.alloc();
    let mut best = u128::MAX;
    let mut found = 0u32;
    for _ in 0..5u32 {
        let start = Instant::now(rt)?;
        found = if kind == "json" {
            json_values(alloc, text.as_bytes(), times)
        } else {
            documents(alloc, text.as_bytes(), times)
        };
        best = best.min(start.elapsed(rt)?.as_nanos());
    }
    println!(rt; "{best}\t{found}\t{}", outcome(alloc, text.as_bytes())?)?;
    Ok(())
}

fn main(rt: HostRuntime) -> Result<()> {
    let alloc = rt.alloc();
    for line in BufReader::new(alloc, rt.reader())?.lines(alloc) {
        let line = line?;
        let fields: Vec<&str> = line.as_str().split('\t').collect(alloc)?;
        match fields.as_slice() {
            ["once", "json", text] => println!(rt; "{}", json_values(alloc, text.as_bytes(), 1))?,
            ["once", _, text] => println!(rt; "{}", documents(alloc, text.as_bytes(), 1))?,
            [times, kind, text] => measure(&rt, kind, text, times.parse::<u32>().unwrap_or(1))?,
            _ => println!(rt; "nothing")?,
        }
    }
    Ok(())
}
'''

F1 = "urn:oasis:names:tc:xacml:1.0:function:"
DENY_OVERRIDES = "urn:oasis:names:tc:xacml:3.0:rule-combining-algorithm:deny-overrides"
DENY_OVERRIDES_OF_SETS = "urn:oasis:names:tc:xacml:3.0:policy-combining-algorithm:deny-overrides"


def policy(**more):
    return {"PolicyId": "urn:p", "Version": "1.0", "RuleCombiningAlgId": DENY_OVERRIDES, **more}


def document(**more):
    return {"Policy": policy(**more)}


def designator(category, attribute):
    return {"Category": category, "AttributeId": attribute, "DataType": "string", "MustBePresent": False}


def text_literal(text):
    return {"AttributeValue": {"DataType": "string", "Value": text}}


def apply(function, *arguments):
    return {"Apply": {"FunctionId": F1 + function, "Expression": list(arguments)}}


def usual_rule(number):
    """A rule with a target, a condition and an obligation."""
    match = {"MatchId": F1 + "string-equal", **text_literal(f"role-{number}"),
             "AttributeDesignator": designator("AccessSubject", "urn:example:role")}
    action = {"AttributeDesignator": designator("Action", "urn:oasis:names:tc:xacml:1.0:action:action-id")}
    return {"RuleId": f"rule-{number}", "Effect": "Permit", "Target": {"AnyOf": [{"AllOf": [{"Match": [match]}]}]},
            "Condition": apply("string-is-in", text_literal("read"), action),
            "ObligationExpressions": [
                {"ObligationId": "urn:example:log", "FulfillOn": "Permit", "AttributeAssignmentExpression": [
                    {"AttributeId": "urn:example:rule", "Expression": text_literal(f"rule {number}")}]}]}


def usual(count):
    return document(Rule=[usual_rule(number) for number in range(count)])


def rules(count):
    return document(Rule=[{"RuleId": "r", "Effect": "Deny"}] * count)


def unknown_members(count):
    return document(**{f"m{number:04}": 12345 for number in range(count)})


def members_beside_a_policy(count):
    return {**{f"m{number:04}": 12345 for number in range(count)}, **document()}


def members_of_a_value(count):
    value = {f"m{number:04}": 12345 for number in range(count)}
    return document(Rule=[{"RuleId": "r", "Effect": "Deny",
                           "Condition": {"AttributeValue": {"DataType": "string", "Value": value}}}])


def reference(name):
    return {"VariableReference": {"VariableId": name}}


def definition(name, expression):
    return {"VariableId": name, "Expression": expression}


TRUE = {"AttributeValue": {"DataType": "boolean", "Value": True}}


def chain(count):
    first = definition("v0", TRUE)
    return document(VariableDefinition=[first]
                    + [definition(f"v{number}", reference(f"v{number - 1}")) for number in range(1, count)])


def wide(count):
    """Variables, and an expression that names each of them."""
    defined = [definition(f"v{number}", TRUE) for number in range(count)]
    every = apply("and", *(reference(f"v{number}") for number in range(count)))
    return document(VariableDefinition=defined, Rule=[{"RuleId": "r", "Effect": "Permit", "Condition": every}])


def last_named(count):
    """Few variables, of which an expression names the last this many times."""
    defined = [definition(f"v{number}", TRUE) for number in range(count // 4)]
    every = apply("and", *[reference(f"v{count // 4 - 1}")] * count if count >= 4 else [])
    return document(VariableDefinition=defined, Rule=[{"RuleId": "r", "Effect": "Permit", "Condition": every}])


def nested(depth):
    expression = TRUE
    for _ in range(depth - 1):
        expression = apply("not", expression)
    return expression


def deep_expressions(count):
    """Conditions in which 24 expressions stand inside one another."""
    return document(Rule=[{"RuleId": "r", "Effect": "Permit", "Condition": nested(24)}] * count)


def too_deep_expressions(count):
    """Obligations of rules, in whose assignments as many expressions stand inside one another as JSON lets."""
    assignment = {"AttributeId": "a", "Expression": nested(40)}
    duty = {"ObligationId": "o", "FulfillOn": "Permit", "AttributeAssignmentExpression": [assignment]}
    return document(Rule=[{"RuleId": "r", "Effect": "Permit", "ObligationExpressions": [duty]}] * count)


def deep_arrays(count):
    """Arrays that nest as deep as JSON lets, where a policy is wanted."""
    return {"Policy": [json.loads("[" * 125 + "]" * 125)] * count}


def children(count):
    """Policies in the innermost of eight policy sets."""
    tree = [{"Policy": policy()}] * count
    for _ in range(8):
        tree = [{"PolicySet": {"PolicySetId": "urn:s", "Version": "1", "PolicyCombiningAlgId": DENY_OVERRIDES_OF_SETS,
                               "Children": tree}}]
    return tree[0]


def assignments(count):
    assignment = {"AttributeId": "urn:example:rule", "Category": "Resource", "Expression": text_literal("text")}
    return document(ObligationExpressions=[{"ObligationId": "urn:example:log", "FulfillOn": "Permit",
                                           "AttributeAssignmentExpression": [assignment] * count}])


def plain(value):
    return json.dumps(value, separators=(",", ":"))


def repeated(count):
    """A policy whose member Version stands this many times."""
    return plain(document()).replace('"Version":"1.0",', '"Version":"1.0",' * max(count, 1))


SHAPES = [
    ("rules without more", rules),
    ("members that no policy has", unknown_members),
    ("members beside a policy", members_beside_a_policy),
    ("members where a text is wanted", members_of_a_value),
    ("one member, again and again", repeated),
    ("variables, each naming the one before", chain),
    ("variables, and all named in one expression", wide),
    ("variables, and the last named often", last_named),
    ("24 expressions inside one another", deep_expressions),
    ("40 expressions inside one another", too_deep_expressions),
    ("arrays as deep as JSON lets", deep_arrays),
    ("policies in eight policy sets", children),
    ("assignments of one obligation", assignments),
]


def text_of(shape, count):
    value = shape(count)
    return value if isinstance(value, str) else plain(value)


def filled(shape, most):
    """The shape with as many parts as fit into the bytes, and how many those are."""
    few, many = 0, most
    while few + 1 < many:
        middle = (few + many) // 2
        if len(text_of(shape, middle)) <= most:
            few = middle
        else:
            many = middle
    return text_of(shape, few), few


def build(work):
    crates = os.path.join(work, "crates")
    for name in BELOW:
        shutil.copytree(os.path.join(TOP, "crates", name), os.path.join(crates, name), symlinks=True)
    shutil.copy(os.path.join(TOP, "HANDLES"), work)
    with open(os.path.join(TOP, "crates.txt")) as file:
        lines = [line for line in file if re.match("(" + "|".join(BELOW) + "):", line)]
    with open(os.path.join(work, "crates.txt"), "w") as file:
        file.writelines(lines)
        file.write(f"documents_bench: {' '.join(BELOW)} serde_json anyhow\n")
    bench = os.path.join(crates, "documents_bench")
    os.makedirs(os.path.join(bench, "src"))
    with open(os.path.join(bench, "src/main.rt"), "w") as file:
        file.write(PROGRAM)
    done = subprocess.run(["rt", "run"], cwd=bench, input=b"", stdout=subprocess.PIPE, stderr=subprocess.STDOUT)
    program = os.path.join(bench, "out/documents_bench")
    if done.returncode != 0 or not os.path.exists(program):
        sys.exit(done.stdout.decode() + "bench/documents.py: the program wasn't built")
    return program


def measure(program, kind, text):
    """Nanoseconds a reading, and what the text was read as."""
    times = max(1, -(-MEASURED_BYTES // len(text)))
    done = subprocess.run([program], input=f"{times}\t{kind}\t{text}\n".encode(), stdout=subprocess.PIPE, check=True)
    nanoseconds, _, outcome = done.stdout.decode().rstrip("\n").split("\t")
    return int(nanoseconds) / times, outcome


def peak(program, line):
    """Peak memory in KiB."""
    with tempfile.NamedTemporaryFile("r") as memory:
        subprocess.run(["/usr/bin/time", "-f", "%M", "-o", memory.name, program], input=line.encode(),
                       stdout=subprocess.DEVNULL, check=True)
        return int(memory.read())


def ratio(program, text):
    """What reading the text as a document takes, in times of what its JSON alone takes."""
    return measure(program, "document", text)[0] / measure(program, "json", text)[0]


def of_sizes():
    """The documents: a name, a shape, how many bytes it may have, and the size that stands beside in its line."""
    usual_name = "rules with targets and conditions"
    for size in (1_024, 8_192, 65_536):
        yield usual_name, usual, size, None
    for name, shape in SHAPES:
        yield name, shape, 65_536, 8_192


def table(program, outcomes):
    """Prints what each document takes; puts what it was read as behind the outcomes."""
    print(f"{'document':44} {'parts':>5} {'bytes':>6} {'us':>8} {'ns/byte':>7}  {'JSON us':>8} {'ns/byte':>7} "
          f"{'ratio':>6} {'at 8 KiB':>8} {'KiB':>6} {'JSON KiB':>8}")
    for name, shape, most, beside in of_sizes():
        text, count = filled(shape, most)
        whole, outcome = measure(program, "document", text)
        alone, _ = measure(program, "json", text)
        small = "" if beside is None else f"{ratio(program, filled(shape, beside)[0]):.2f}"
        none = peak(program, f"{text}\n")
        kept, kept_json = (peak(program, f"once\t{kind}\t{text}\n") - none for kind in ("document", "json"))
        print(f"{name:44} {count:5} {len(text):6} {whole / 1e3:8.1f} {whole / len(text):7.1f}  {alone / 1e3:8.1f} "
              f"{alone / len(text):7.1f} {whole / alone:6.2f} {small:>8} {kept:6} {kept_json:8}", flush=True)
        outcomes.append(f"{name:44} {len(text):6}  {outcome}")


def main():
    with tempfile.TemporaryDirectory() as work:
        program, outcomes = build(work), []
        shown("documents.py", lambda: table(program, outcomes))
        print("\n".join(outcomes))


if __name__ == "__main__":
    main()
