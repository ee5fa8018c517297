#!/usr/bin/env python3
"""Decisions a second, and processor time a decision, of pdpd and of casbin (the Go library), in one run.

Usage: bench/casbin.py [--write] [PDPD]     PDPD: the built program (build/pdpd, which `make pdpd` makes)
                                            --write: the table is written into docs/PERFORMANCE.md too

Both decide by 10, 50 or 150 rules with one comparison each, of which the last permits; 1,000 different subjects ask in
turn, which are more decisions than pdpd keeps. pdpd takes each ask as an HTTP message with a request of the JSON
Profile, checks its token, and writes an HTTP reply. casbin (Enforce of an Enforcer without a cache) gets its three
words from a small JSON object, and its decision is written as one; there is no HTTP on its side. It needs Debian's
packages golang-go and golang-github-casbin-casbin-dev, and leaves nothing behind. Each figure is the median of nine
rounds, in each of which both programs start and decide so many times, one after the other.
"""
import os
import resource
import statistics
import subprocess
import sys
import tempfile

sys.dont_write_bytecode = True
from asking import ask, domain, policy  # noqa: E402
from page import shown  # noqa: E402
from sent import OPERATOR  # noqa: E402
from transcripts import PROGRAM, transcript  # noqa: E402

# how many rules, and how many decisions are measured
KINDS = ((10, 100_000), (50, 40_000), (150, 20_000))
ROUNDS = 9
GO = """
package main

import (
	"encoding/json"
	"fmt"
	"os"
	"strconv"

	"github.com/casbin/casbin"
)

type request struct{ Subject, Resource, Action string }
type response struct{ Decision string }

func main() {
	enforcer, err := casbin.NewEnforcer("model.conf", "policy.csv")
	if err != nil {
		os.Exit(1)
	}
	count, _ := strconv.Atoi(os.Args[1])
	permitted := 0
	for i := 0; i < count; i++ {
		text := []byte(fmt.Sprintf(`{"Subject":"person-%06d","Resource":"a-document","Action":"read-000"}`, i%1000))
		var asked request
		if json.Unmarshal(text, &asked) != nil {
			os.Exit(1)
		}
		decision := "Deny"
		if is, err := enforcer.Enforce(asked.Subject, asked.Resource, asked.Action); err == nil && is {
			decision = "Permit"
			permitted++
		}
		if _, err := json.Marshal(response{decision}); err != nil {
			os.Exit(1)
		}
	}
	if permitted != count {
		os.Exit(2)
	}
}
"""
MODEL = """[request_definition]
r = sub, obj, act
[policy_definition]
p = act
[policy_effect]
e = some(where (p.eft == allow))
[matchers]
m = r.act == p.act
"""


def built(folder):
    """The program that asks casbin, in the folder."""
    for name, text in (("main.go", GO), ("model.conf", MODEL)):
        with open(os.path.join(folder, name), "w", encoding="utf-8") as file:
            file.write(text)
    paths = {"GO111MODULE": "off", "GOPATH": "/usr/share/gocode", "GOCACHE": os.path.join(folder, "cache")}
    subprocess.run(["go", "build", "-o", "decide", "main.go"], cwd=folder, env={**os.environ, **paths}, check=True)
    return os.path.join(folder, "decide")


def spent(words, folder, given=subprocess.DEVNULL):
    """Processor seconds of the program. casbin's has one processor, so that no collector runs beside it unseen."""
    before = resource.getrusage(resource.RUSAGE_CHILDREN)
    subprocess.run(words, cwd=folder, stdin=given, stdout=subprocess.DEVNULL, check=True,
                   env={**os.environ, "GOMAXPROCS": "1"})
    after = resource.getrusage(resource.RUSAGE_CHILDREN)
    return after.ru_utime - before.ru_utime + after.ru_stime - before.ru_stime


def of_pdpd(folder, rules, count):
    """Microseconds a decision of pdpd, by so many rules."""
    asks = [ask("acme", number) for number in range(1000)]
    with tempfile.TemporaryFile() as file:
        file.write(transcript(domain("acme", policy(rules)) + asks * (count // 1000)))
        file.seek(0)
        return spent([os.path.abspath(PROGRAM), "replay", OPERATOR], folder, file) / count * 1e6


def of_casbin(program, folder, rules, count):
    """Microseconds a decision of casbin, by so many rules."""
    with open(os.path.join(folder, "policy.csv"), "w", encoding="utf-8") as file:
        file.write("".join(f"p, read-{number:03}\n" for number in reversed(range(rules))))
    return spent([program, str(count)], folder) / count * 1e6


def main():
    print(f"{'rules':>5}{'pdpd, us a decision':>22}{'casbin':>10}{'pdpd decides':>16}")
    with tempfile.TemporaryDirectory() as folder:
        program = built(folder)
        for rules, count in KINDS:
            rounds = [(of_pdpd(folder, rules, count), of_casbin(program, folder, rules, count)) for _ in range(ROUNDS)]
            ours, theirs = (statistics.median(each) for each in zip(*rounds))
            ratios = sorted(theirs / ours for ours, theirs in rounds)
            print(f"{rules:5}{ours:22.2f}{theirs:10.2f}{statistics.median(ratios):10.1f} times ({ratios[0]:.1f} to "
                  f"{ratios[-1]:.1f})", flush=True)


if __name__ == "__main__":
    sys.exit(shown("casbin.py", main))
