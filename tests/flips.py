#!/usr/bin/env python3
"""Flips single bits of a stopped store's file, each in a copy, and tells how the program takes each copy: whether it
refuses it, and if it serves it, whether its replies are those of the whole file.

usage: tests/flips.py PROGRAM COUNT     PDPD_SUMS in the environment is as for the program: with 0 the file has no
                                        sums
"""
import collections
import json
import pathlib
import random
import shutil
import sys
import tempfile

sys.dont_write_bytecode = True
from changing import issued_rows  # noqa: E402
from sent import OPERATOR, making, message, policy_of  # noqa: E402
from serving import Served  # noqa: E402

DOMAINS, POLICIES, SEED = 6, 8, 20_261
RULE = ('{"RuleId":"%s","Effect":"Deny","Condition":{"Apply":{"FunctionId":"urn:oasis:names:tc:xacml:1.0:function:'
        'time-greater-than","Expression":[{"AttributeValue":{"DataType":"http://www.w3.org/2001/XMLSchema#time",'
        '"Value":"%s"}},{"AttributeValue":{"DataType":"http://www.w3.org/2001/XMLSchema#time","Value":"%s"}}]}}}')


def texts_of(domain):
    """The policies of a domain, by their ids."""
    rules = lambda number: ",".join(RULE % (f"r{one}", f"{8 + number:02}:00:00Z", f"{10 + one:02}:30:00Z")
                                    for one in range(1 + (domain + number) % 5))
    return {f"urn:p{number}": policy_of(rules(number), f"urn:p{number}", description=f"of domain {domain}" * 9)
            for number in range(POLICIES)}


def changes():
    """Messages that fill a store."""
    for domain in range(DOMAINS):
        name, token = f"d-{domain}", f"d-{domain}-token-1"
        yield from (held for held, _ in making(name, token))
        for text in texts_of(domain).values():
            yield message("POST", f"/domains/{name}/pap/policies", token, text)
        yield message("PUT", f"/domains/{name}/pip", token, json.dumps({"Row": issued_rows()}))


def readings():
    """Messages to which the replies show all that is kept."""
    yield message("GET", "/operator/domains", OPERATOR)
    for domain in range(DOMAINS):
        name, token = f"d-{domain}", f"d-{domain}-token-1"
        yield message("GET", f"/domains/{name}/pip", token)
        yield message("GET", f"/domains/{name}/pap/policies", token)
        yield message("POST", f"/domains/{name}/pdp", token, '{"Request":{}}')
        for policy_id in ("urn:p", *texts_of(domain)):
            yield message("GET", f"/domains/{name}/pap/policy/{policy_id}/1.0", token)


class Flips:
    """A stopped store in a folder, and copies of it in which a bit is flipped."""

    def __init__(self, program, folder):
        self.program, self.folder = program, pathlib.Path(folder)
        self.token, self.whole, self.copy = (self.folder / name for name in ("token", "whole.db", "copy.db"))
        self.token.write_text(f"{OPERATOR}\n")
        with self.serving(self.whole) as served:
            served.once(*changes())
            served.ended()
        self.log = pathlib.Path(f"{self.whole}-wal")
        self.bytes = self.whole.read_bytes()
        self.replies, self.said = self.of_copy(self.bytes)

    def serving(self, path):
        return Served(str(self.program), str(path), str(self.token), 1)

    def of_copy(self, held):
        """The replies of a program over a copy that holds these bytes, None if it is refused; and what it says."""
        self.copy.write_bytes(held)
        shutil.copyfile(self.log, f"{self.copy}-wal")
        with self.serving(self.copy) as served:
            if not served.listens:
                return None, served.ended()[1:]
            return served.once(*readings()), (b"", None)

    def flipped(self, bit):
        """What becomes of a copy in which that bit is flipped: how it is taken, and what is said."""
        held = bytearray(self.bytes)
        held[bit // 8] ^= 1 << bit % 8
        replies, said = self.of_copy(held)
        if replies is None:
            return "refused", said
        return "served as the whole file" if replies == self.replies else "served otherwise", said

    def some_bits(self, count):
        """So many bits of the file, the same in each run over a file of that length."""
        return random.Random(SEED).sample(range(8 * len(self.bytes)), count)


def main():
    if len(sys.argv) != 3 or not sys.argv[2].isdigit():
        print(__doc__, file=sys.stderr)
        return 2
    with tempfile.TemporaryDirectory(prefix="pdpd-") as folder:
        flips = Flips(pathlib.Path(sys.argv[1]).resolve(), folder)
        found, lines = collections.Counter(), collections.Counter()
        for bit in flips.some_bits(int(sys.argv[2])):
            how, (said, status) = flips.flipped(bit)
            found[how] += 1
            lines[(status, said.decode().removeprefix(f"pdpd serve: {flips.copy}: ").strip())] += 1
        print(f"a file of {len(flips.bytes)} bytes, {sum(found.values())} flips")
        for how, count in found.most_common():
            print(f"{count:6} {how}")
        for (status, line), count in lines.most_common():
            print(f"{count:6} status {status}: {line}")
    return 0


if __name__ == "__main__":
    sys.exit(main())
