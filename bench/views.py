#!/usr/bin/env python3
"""Views that are kept ready: what a decision request takes that is worked out, with room for 128 views and with room
for none, in instructions (valgrind, Debian's package) where the domain is small and in processor time where it is
large; and what memory a view takes for each byte of the texts that were read for it.

Usage: bench/views.py [--write] [XA_TRIALS]     XA_TRIALS: the built program; without it the proved one, which is proved
                                                and built first where it isn't yet
                                                --write: the instructions are written into docs/PERFORMANCE.md too

The program xa_trials answers rows of a server over a keeper in memory. Each ask has another subject, so that no
response is one that is held. The asks of a row, and more of them: the difference is what they take. One domain has a
policy of ten rules with a match each, of which the last permits. Another has 255 such policies under a root that
refers to them, of which one applies and the others' targets don't match; four more have 1, 4, 16 and 64 MB of
policies, none of which applies, and room for any view. And 300 domains, each with the policy of ten rules, are asked
in turn, so that no view is still kept when its domain is asked again. Times are the best of RUNS runs.

Memory is that of as many domains as have 256 texts and of twice as many, each asked once, with room for all views,
less that with room for none: the difference is what the further views take. The server counts ROOM_A_BYTE bytes for
each byte, and OF_EACH more for a view; the script fails if one takes more than that.

Instructions and memory are found by as many runs beside one another as there are processors.
"""
import concurrent.futures
import json
import os
import pathlib
import re
import subprocess
import sys
import tempfile

sys.dont_write_bytecode = True
TOP = pathlib.Path(__file__).resolve().parent.parent
sys.path += [str(TOP / "tests"), str(TOP / "tests" / "model")]
from asking import ID, match, policy, request, target  # noqa: E402
from page import shown, words  # noqa: E402
from rows import encoded  # noqa: E402
from sent import OPERATOR, message  # noqa: E402
from transcripts import CACHEGRIND, instructions_in  # noqa: E402

CRATE = TOP / "crates" / "xa_trials"
PROGRAM = pathlib.Path(words()[0]) if words() else CRATE / "out" / "xa_trials"
POLICIES = "urn:oasis:names:tc:xacml:3.0:policy-combining-algorithm:deny-overrides"
ADMIN, TOKEN = "admin-token-1", "domain-token-1"
# how many asks of a small domain are counted, after as many that aren't
ASKS = 600
# how many asks are counted of a domain with 255 policies, after as many that aren't
FEW_ASKS = 4
# how many asks are timed of a large domain whose view is kept
TIMED_ASKS = 1_000
# how often each row is timed; the best counts
RUNS = 2
# how many domains are asked in turn
DOMAINS = 300
# what the server counts for each byte of the texts that were read for a view
ROOM_A_BYTE = 8
# what the server counts for each view besides, in bytes
OF_EACH = 524_288
# how many policies have so many bytes together: of domains whose instructions are counted
SMALL = {"1 MB": 16, "4 MB": 64}
# how many policies have so many bytes together: of domains that are timed
LARGE = {"16 MB": 255, "64 MB": 999}


# ---- what a domain has: texts of policies, each with its id, of which the last is the root's

def text(draft):
    return json.dumps(draft, separators=(",", ":"))


def of_resource(value):
    """A target that the resource of the asks matches, where it is this."""
    return target(match(value, ID + "resource:resource-id", "Resource"))


def under_root(policies):
    """The policies, and a set that refers to each."""
    children = [{"PolicyIdReference": {"Id": name}} for name, _ in policies]
    return [*policies, ("urn:s", text({"PolicySet": {"PolicySetId": "urn:s", "Version": "1.0",
                                                     "PolicyCombiningAlgId": POLICIES, "Children": children}}))]


def ten_rules():
    return [("urn:p", policy())]


def referred(count=255):
    """So many policies under a root of references, of which the last applies."""
    names = [(f"urn:p{place}", "a-document" if place == count - 1 else f"a-document-{place}") for place in range(count)]
    return under_root([(name, policy(PolicyId=name, Target=of_resource(resource))) for name, resource in names])


def plain_rules(name):
    return policy(PolicyId=name, Target=of_resource("none"), Rule=[{"RuleId": "r", "Effect": "Deny"}] * 2_000)


def rules_with_matches(name):
    return policy(180, PolicyId=name, Target=of_resource("none"))


def chain(name):
    """Variables of which each names the one before."""
    expressions = [{"AttributeValue": {"DataType": "boolean", "Value": True}},
                   *({"VariableReference": {"VariableId": f"v{place}"}} for place in range(780))]
    defined = [{"VariableId": f"v{place}", "Expression": expression} for place, expression in enumerate(expressions)]
    return policy(PolicyId=name, Target=of_resource("none"), VariableDefinition=defined)


def sized(shape, count, prefix="d0"):
    """So many policies of the shape under a root."""
    names = [f"urn:{prefix}:{place}" for place in range(count)]
    held = [(name, shape(name)) for name in names]
    assert all(60_000 < len(one) <= 65_536 for _, one in held), len(held[0][1])
    return under_root(held)


# ---- rows of a server, and what the program takes for them

def domain(name, content):
    """The messages that make a domain with this content."""
    of_operator, own = f"/operator/domains/{name}", f"/domains/{name}/pap"
    made = [message("PUT", of_operator, OPERATOR)]
    made += [message("POST", of_operator + "/tokens", OPERATOR, text({"Role": role, "Token": token}))
             for role, token in (("admin", ADMIN), ("ask", TOKEN))]
    for identifier, held in content:
        kind = "policyset" if held.startswith('{"PolicySet"') else "policy"
        made += [message("POST", own + "/policies", ADMIN, held),
                 message("PUT", f"{own}/{kind}/{identifier}/1.0/active", ADMIN)]
    root = {"PolicySetIdReference" if kind == "policyset" else "PolicyIdReference": {"Id": identifier}}
    return b"".join([*made, message("PUT", own + "/root", ADMIN, text(root))])


def row(domains, views, asks):
    """A row of a server with those domains and room for so many views of any size, and what it is asked."""
    made = b"".join(domain(name, content) for name, content in domains.items())
    return "\t".join(["server_in_memory", f"views:{views}", f"room:{2**40}", "made:" + encoded(made), *asks]) + "\n"


def ask(name, number):
    return "piece:" + encoded(message("POST", f"/domains/{name}/pdp", TOKEN, request(number)))


def ran(program, held):
    """What the program wrote of the row, to its output and beside it, and what it used; each ask is
    answered with a decision."""
    with tempfile.TemporaryFile("w+") as rows, tempfile.TemporaryFile() as said:
        rows.write(held)
        rows.seek(0)
        child = subprocess.Popen(program, stdin=rows, stdout=subprocess.PIPE, stderr=said)
        replies = child.stdout.read()
        _, child.returncode, used = os.wait4(child.pid, 0)
        said.seek(0)
        assert child.returncode == 0 and set(re.findall(rb"HTTP/1.1 (\d+)", replies)) == {b"200"}, replies[:300]
        return said.read(), used


def instructions(held):
    said, _ = ran([*CACHEGRIND, PROGRAM], held)
    return instructions_in(said.decode())


def seconds(held):
    """Processor seconds for the row, at best."""
    used = [ran([PROGRAM], held)[1] for _ in range(RUNS)]
    return min(one.ru_utime + one.ru_stime for one in used)


def of_an_ask(taken, domains, views, few, many):
    """What an ask takes behind so many of them, of the domains in turn: the more asks, less the fewer."""
    names = list(domains)
    asks = [ask(names[number % len(names)], number) for number in range(many)]
    return (taken(row(domains, views, asks)) - taken(row(domains, views, asks[:few]))) / (many - few)


def most_memory(shape, count, number, views):
    """The most bytes that a server of so many domains held, each asked once, and the bytes of their texts."""
    domains = {f"d{place}": sized(shape, count, f"d{place}") for place in range(number)}
    _, used = ran([PROGRAM], row(domains, views, [ask(name, 0) for name in domains]))
    return used.ru_maxrss * 1024, sum(len(held) for content in domains.values() for _, held in content)


def of_a_view(shape, count):
    """Bytes of a view, and of the texts that were read for it."""
    number = max(256 // count, 1)
    (few, size), (many, sizes) = (most_memory(shape, count, number * times, 512) for times in (1, 2))
    (few_unkept, _), (many_unkept, _) = (most_memory(shape, count, number * times, 0) for times in (1, 2))
    return (many - many_unkept - few + few_unkept) / number, (sizes - size) / number


# ---- the tables

def in_turn(work, places):
    """What the work finds of each, of several at once, in order."""
    with concurrent.futures.ThreadPoolExecutor(os.cpu_count()) as workers:
        yield from workers.map(lambda place: work(*place), places)


def show_instructions():
    kinds = {"ten rules": ({"d0": ten_rules()}, ASKS),
             f"ten rules, {DOMAINS:,} domains in turn": ({f"d{place}": ten_rules() for place in range(DOMAINS)}, ASKS),
             "255 policies under a root": ({"d0": referred()}, FEW_ASKS),
             **{f"{size} of policies under a root": ({"d0": sized(rules_with_matches, count)}, 1)
                for size, count in SMALL.items()}}
    # (few asks that find their view differ by what lists take as they grow)
    places = [(instructions, domains, views, ASKS if views else count) for domains, count in kinds.values()
              for views in (128, 0)]
    found = in_turn(of_an_ask, [(*place, 2 * place[-1]) for place in places])
    print(f"{'instructions a decision':36}{'128 views':>14}{'no view':>14}{'ratio':>9}")
    for kind in kinds:
        kept, unkept = next(found), next(found)
        print(f"{kind:36}{kept:14,.0f}{unkept:14,.0f}{kept / unkept:9.3f}", flush=True)


def show_seconds():
    print(f"{'milliseconds a decision':36}{'128 views':>14}{'no view':>14}")
    for size, count in LARGE.items():
        domains = {"d0": sized(rules_with_matches, count)}
        kept, unkept = of_an_ask(seconds, domains, 128, 1, 1 + TIMED_ASKS), of_an_ask(seconds, domains, 0, 1, 2)
        print(f"{f'{size} of policies under a root':36}{kept * 1e3:14,.3f}{unkept * 1e3:14,.1f}", flush=True)


def show_memory():
    """How many of the views take more than is counted for them."""
    failed, shapes = 0, {"rules with matches": rules_with_matches, "rules without more": plain_rules,
                         "variables in a chain": chain}
    kinds = {f"{kind}, {size}": (shape, count) for kind, shape in shapes.items()
             for size, count in {**SMALL, **LARGE}.items()}
    print(f"{'a view':36}{'bytes read':>14}{'MiB':>14}{'a byte':>9}{'counted':>9}")
    for kind, (taken, read) in zip(kinds, in_turn(of_a_view, kinds.values())):
        counted = ROOM_A_BYTE * read + OF_EACH
        failed += taken > counted
        print(f"{kind:36}{read:14,.0f}{taken / 2**20:14,.1f}{taken / read:9.2f}{counted / read:9.2f}"
              f"{'   too little' if taken > counted else ''}", flush=True)
    return failed


def main():
    if not words():
        subprocess.run(["rt", "run"], cwd=CRATE, stdin=subprocess.DEVNULL, stdout=subprocess.DEVNULL, check=True)
    shown("views.py", show_instructions)
    show_seconds()
    return 1 if show_memory() else 0


if __name__ == "__main__":
    raise SystemExit(main())
